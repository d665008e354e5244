"""Lemmas of proofs/ that nothing reaches: no answer, invariant, contract or definition, nor a lemma that one of these reaches.

A lemma is a definition of a file of proofs/ that a crate's proofs/Lib.antt names. It is reached where its name is written in
the text of something that is reached, and the file of that text has it or imports it. Answers, definitions and sources are
reached in any case; so are the blocks `module` and `unfolding`, whose names aren't looked at, and the files of SHOWN."""
import re
from collections import namedtuple
from functools import cache

from checking.crates import TOP, crates, read

# files whose statements are there to be read: what definitions say of drawings that are known
SHOWN = {("plan_core", "Sampled"), ("plan_core", "LawfulTest"), ("port_graph", "TurnedStation")}
WORD = re.compile(r"[^\s(){}\[\],;.:=→λ×⊎\"]+")
IMPORT = re.compile(r"^(?:ghost |pub )*use Rattle\.([a-z_]+)\.proofs\.([A-Z]\w*)(?:\.(\{[^}]*\}|[^\s;{]+))?(?: as (\S+?))?;?$", re.M)
BLOCKS = ("module", "unfolding")
Lemma = namedtuple("Lemma", "crate module name")


def parts_of(text):
    """The names of a file's definitions with their texts; a block stands under the empty name."""
    found, name = [], None
    for line in text.splitlines():
        if not line or line.startswith("--") or re.match(r"(pub )?(use|mod) ", line):
            continue
        if line[0] not in " )]}":
            begun = re.match(r"(?:(?:pub|abbrev|opaque|unfoldable|record|data|ruleset|instance)\s+)*([^\s:(){}]+)", line)
            fresh = "" if begun and begun.group(1) in BLOCKS else begun.group(1) if begun else name
            if fresh != name or fresh == "":
                name = fresh
                found.append((name, []))
        if found:
            found[-1][1].append(line)
    return [(name, "\n".join(lines)) for name, lines in found]


@cache
def handed_on():
    """The files of lemmas that a crate hands on: the crate and the file as they are named above it, and those that are meant."""
    roots = [(crate, TOP / "crates" / crate / "proofs" / "Lib.antt") for crate in crates()]
    return {(crate, module): (below, module) for crate, root in roots if root.exists()
            for below, module in re.findall(r"^pub use Rattle\.(\w+)\.proofs\.(\w+)$", read(root), re.M)}


def imports_of(text):
    """What a file calls the lemmas that it imports, and the names that it gives to whole files."""
    lemmas, files = {}, {}
    for crate, module, listed, other in IMPORT.findall(text):
        crate, module = handed_on().get((crate, module), (crate, module))
        if not listed:
            files[other or module] = (crate, module)
            continue
        for item in listed.strip("{}").replace("\n", " ").split(","):
            name, _, here = item.strip().partition(" as ")
            lemmas[here or other or name] = Lemma(crate, module, name)
    return lemmas, files


def named_in(text, lemmas, files):
    """The lemmas that a text names."""
    found = {lemmas[word] for word in set(WORD.findall(text)) & set(lemmas)}
    for here, (crate, module) in files.items():
        found |= {Lemma(crate, module, name) for name in re.findall(rf"(?<![\w.]){re.escape(here)}\.([^\s(){{}},.]+)", text)}
    return found


def named_in_code(crate, text):
    """The lemmas that the attributes of a source file name by their paths."""
    named = [((crate if of == "crate" else of, module), name)
             for of, module, name in re.findall(r"(\w+)::proofs::(\w+)::([\w']+)", text)]
    return {Lemma(*handed_on().get(file, file), name) for file, name in named}


def lemma_files():
    """Each file of lemmas: its crate and name, with its text."""
    return {(crate, path.stem): read(path) for crate in crates()
            for path in sorted((TOP / "crates" / crate / "proofs").glob("*.antt")) if path.stem != "Lib"}


def first_reached(files):
    """What answers, definitions, sources and blocks name."""
    found = set()
    for crate in crates():
        folder = TOP / "crates" / crate
        for path in [path for part in ("src", "specs", "proofs") for path in (folder / part).rglob("*")]:
            if path.suffix not in (".rt", ".antt") or path.stem == "Lib" or (path.parent == folder / "proofs"):
                continue
            text = read(path)
            body = "\n".join(line for line in text.splitlines() if not re.match(r"(ghost |pub )*use |--|//", line))
            found |= named_in(body, *imports_of(text)) | named_in_code(crate, text)
    for (crate, module), text in files.items():
        lemmas, others = scope(crate, module, text)
        for name, body in parts_of(text):
            if not name or (crate, module) in SHOWN:
                found |= named_in(body, lemmas, others)
    return found


def scope(crate, module, text):
    """What a file of lemmas can name: its own and what it imports."""
    lemmas, files = imports_of(text)
    return {**lemmas, **{name: Lemma(crate, module, name) for name, _ in parts_of(text) if name}}, files


def all_failures():
    files = lemma_files()
    bodies, scopes = {}, {key: scope(*key, text) for key, text in files.items()}
    for key, text in files.items():
        for name, body in parts_of(text):
            if name:
                bodies.setdefault(Lemma(*key, name), []).append(body)
    left, reached = list(first_reached(files)), set()
    while left:
        lemma = left.pop()
        if lemma in reached or lemma not in bodies:
            continue
        reached.add(lemma)
        for body in bodies[lemma]:
            left += named_in(body, *scopes[lemma[:2]])
    return [f"crates/{lemma.crate}/proofs/{lemma.module}.antt: nothing reaches the lemma {lemma.name}"
            for lemma in bodies if lemma not in reached and lemma[:2] not in SHOWN]

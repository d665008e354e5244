"""What the crates have: files, words of specs/, contracts and the calls that they hand out."""
import re
from collections import namedtuple
from functools import cache
from pathlib import Path

TOP = Path(__file__).resolve().parent.parent.parent
DOCUMENTS = [TOP / "README.md", TOP / "THEOREM.md", TOP / "crates" / "README.md"] + sorted((TOP / "docs").rglob("*.md"))

Word = namedtuple("Word", "crate module name remark text")
Clause = namedtuple("Clause", "name text")
Contract = namedtuple("Contract", "crate path owner name public clauses")


def show(path):
    return path.relative_to(TOP)


def read(path):
    """A file's text; of a folder all its pages, one behind the other."""
    if path.is_dir():
        return "\n".join(map(read, sorted(path.glob("*.md"))))
    return path.read_text(encoding="utf-8")


# ---- the crates


def stands_on():
    """Each crate, in the order of crates.txt, with the crates that it stands on."""
    lines = [line.split(":") for line in read(TOP / "crates.txt").splitlines() if ":" in line and not line.startswith("#")]
    return {name.strip(): below.split() for name, below in lines}


def crates():
    return list(stands_on())


def sources(crate):
    """The crate's source files, without its tests."""
    found = sorted((TOP / "crates" / crate / "src").rglob("*.rt"))
    return [path for path in found if "tests" not in path.relative_to(TOP).parts and path.stem != "tests"]


def root_text(crate):
    folder = TOP / "crates" / crate / "src"
    return next(read(folder / name) for name in ("lib.rt", "main.rt") if (folder / name).exists())


def head(text, mark):
    """The comment with which a file begins."""
    lines = []
    for line in text.splitlines():
        if not line.startswith(mark):
            break
        lines.append(line[len(mark):].strip())
    return " ".join(lines)


def handed_out(crate):
    """The names that a crate's root file hands out, and the modules that it opens whole."""
    root = root_text(crate)
    names = set()
    for used in re.findall(r"^pub use ([^;]*);", root, re.M):
        names.update(re.findall(r"\w+", used.split("::")[-1] if "{" not in used else used[used.index("{"):]))
    return names, set(re.findall(r"^pub mod (\w+);", root, re.M))


def calls_handed_out(crate):
    """The functions that a crate hands out, each with its file."""
    names, modules = handed_out(crate)
    return [(path, name) for path in sources(crate) for name in re.findall(r"^pub fn (\w+)", read(path), re.M)
            if name in names or path.stem in modules]


def of_the_program():
    """The program's crate and those that it stands on."""
    below, found = stands_on(), {"railplan_main"}
    while any(set(below[crate]) & set(below) - found for crate in found):
        found |= {other for crate in found for other in below[crate] if other in below}
    return found


# ---- the words of specs/


def spec_files(crate):
    return [path for path in sorted((TOP / "crates" / crate / "specs").rglob("*.antt")) if path.stem != "Lib"]


def module_of(crate, path):
    return ".".join(path.relative_to(TOP / "crates" / crate / "specs").with_suffix("").parts)


def words_of(crate):
    """The public definitions, records and data of a crate's specs/, each with the remark above it and its text."""
    found = []
    for path in spec_files(crate):
        remark, begun = [], False
        for line in read(path).splitlines():
            named = re.match(r"(?:abbrev pub|pub record|pub data) ([^\s:({]+)", line)
            if line.startswith("-- "):
                remark.append(line[3:].strip())
            elif named:
                found.append(Word(crate, module_of(crate, path), named.group(1), " ".join(remark), line))
                remark, begun = [], True
            elif begun and line.strip():
                found[-1] = found[-1]._replace(text=found[-1].text + "\n" + line)
            else:
                remark, begun = [], False
    return found


@cache
def handed_on():
    """The files of specs/ that a crate hands on: the crate and the file as they are named above it, and those that are meant."""
    roots = [(crate, TOP / "crates" / crate / "specs" / "Lib.antt") for crate in crates()]
    return {(crate, module): (below, module) for crate, root in roots if root.exists()
            for below, module in re.findall(r"^pub use Rattle\.(\w+)\.specs\.([\w.]+)$", read(root), re.M)}


def imported_words(text):
    """The words of specs/ that a file imports: by the name that it uses, their crate, module and name."""
    found = {}
    for crate, module, listed in re.findall(r"use Rattle\.(\w+)\.specs\.([\w.]+)\.\{([^}]*)\}", text):
        crate, module = handed_on().get((crate, module), (crate, module))
        for item in listed.split(","):
            name, _, other = item.strip().partition(" as ")
            found[other or name] = (crate, module, name)
    return found


def names_in(text):
    return set(re.findall(r"(?<![.\w])[A-Za-z_]\w*", text))


# ---- the contracts of source files


def clause_at(lines, start):
    """The clause that begins at a line: its name, which may be empty, and its text up to the closing brace."""
    named = re.match(r"\s*(?:ensures|requires|ghost)\s+(\w*)\s*(?:=|:)?\s*\{", lines[start])
    if not named:
        return None
    text = ""
    for line in lines[start:]:
        text += line + "\n"
        if text.count("{") <= text.count("}"):
            break
    return Clause(named.group(1), text)


def contracts_in(crate, path, names, modules):
    """The contracts of a file's functions, and of the types and traits that have ghost members."""
    lines = read(path).splitlines()
    found, owner, kept, shared = [], "", False, False
    for number, line in enumerate(lines):
        block = re.match(r"(?:pub )?(?:impl|trait)\b(?:<.*?>)?\s+(?:(\w+)(?:<.*>)?\s+for\s+)?(\w+)", line)
        if block:
            owner, shared = block.group(2), bool(block.group(1)) or "trait" in line.split()[:2]
            kept = owner in names
            found.append(Contract(crate, path, owner, "", kept, []))
        elif line == "}":
            owner = ""
        call = re.match(r"\s*(pub )?(?:pub\(crate\) )?fn (\w+)", line)
        if call:
            open_here = bool(call.group(1)) or shared
            public = kept and open_here if owner else bool(call.group(1)) and (
                call.group(2) in names or path.stem in modules)
            found.append(Contract(crate, path, owner, call.group(2), public, []))
        clause = clause_at(lines, number)
        if clause and found:
            if line.lstrip().startswith("ghost"):
                found.append(Contract(crate, path, owner, clause.name, kept, [clause]))
            else:
                found[-1].clauses.append(clause)
    return found


def contracts_of(crate):
    names, modules = handed_out(crate)
    return [found for path in sources(crate) for found in contracts_in(crate, path, names, modules)]


def words_of_public_contracts(contracts, words):
    """The words that some public contract cites by itself."""
    known = {(word.crate, word.module, word.name) for word in words}
    imported = {path: imported_words(read(path)) for path in {contract.path for contract in contracts}}
    return {imported[contract.path][name]
            for contract in contracts if contract.public for clause in contract.clauses for name in names_in(clause.text)
            if imported[contract.path].get(name) in known}


def words_behind(cited, words):
    """The words of which those cited are built."""
    by_key = {(word.crate, word.module, word.name): word for word in words}
    imported = {(crate, module_of(crate, path)): imported_words(read(path))
                for crate in crates() for path in spec_files(crate)}
    found, left = set(cited), list(cited)
    while left:
        crate, module, name = left.pop()
        for other in names_in(by_key[crate, module, name].text):
            key = imported[crate, module].get(other, (crate, module, other))
            if key in by_key and key not in found:
                found.add(key)
                left.append(key)
    return found - set(cited)


# ---- the documents


def spans(text):
    """The pieces of a text that are set as code, but for blocks."""
    return [" ".join(span.split()) for span in re.findall(r"`([^`]+)`", re.sub(r"^```.*?^```", "", text, flags=re.M | re.S))]

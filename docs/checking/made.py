"""The parts of the documents that are made from the crates, each as it is to be."""
import re
import textwrap

from checking.crates import (DOCUMENTS, TOP, contracts_of, crates, head, module_of, read, root_text, show, spec_files,
                             words_of, words_of_public_contracts)
from checking import guide, pictures, results, theorem
from checking.numbers import with_tables

COLUMNS = 120
INDEX = TOP / "docs" / "made" / "index.md"
CALLS = TOP / "docs" / "made" / "calls.md"
SHELL = TOP / "docs" / "made" / "shell.md"
GLOSSARY = TOP / "docs" / "made" / "glossary.md"


# ---- the index


def first_sentence(text):
    """The first sentence of a comment, in which two blanks stand for an empty line."""
    return re.split(r"(?<=\.) ", text.split("  ")[0])[0]


def index_text():
    """Each crate's and each file's own first sentence."""
    lines = ["# The index of the definitions", "",
             "What each crate is for and what each file of its `specs/` defines, by the first sentence of its root file and of",
             "the file. `docs/check --write` makes this page; `docs/made/glossary.md` has each word of a public contract."]
    for crate in crates():
        lines += ["", f"## `{crate}`", ""] + textwrap.wrap(first_sentence(head(root_text(crate), "//!")), COLUMNS) + [""]
        for path in spec_files(crate):
            told = f"- `{module_of(crate, path).replace('.', '/')}`: {first_sentence(head(read(path), '--'))}"
            lines += textwrap.wrap(told, COLUMNS, subsequent_indent="  ", break_long_words=False, break_on_hyphens=False)
    return "\n".join(lines).replace("\n\n\n", "\n\n") + "\n"


# ---- the glossary


def glossary_text():
    """Each word that a public contract cites, with the remark beside its definition, crate by crate and file by file."""
    contracts = [contract for crate in crates() for contract in contracts_of(crate)]
    words = [word for crate in crates() for word in words_of(crate)]
    cited = words_of_public_contracts(contracts, words)
    lines = ["# The words of the contracts", "",
             "Each definition that a public contract cites, with the remark beside it. `docs/trust/definitions.md` has those by which the",
             "product is judged. `docs/check --write` makes this page."]
    place = None
    for word in words:
        if (word.crate, word.module, word.name) not in cited:
            continue
        if place is None or word.crate != place[0]:
            lines += ["", f"## `{word.crate}`"]
        if (word.crate, word.module) != place:
            lines += ["", f"`{word.module.replace('.', '/')}`", ""]
        place = word.crate, word.module
        lines += textwrap.wrap(f"- `{word.name}`: {word.remark}", COLUMNS, subsequent_indent="  ", break_long_words=False,
                               break_on_hyphens=False)
    return "\n".join(lines) + "\n"


# ---- the calls


def call_told(contract):
    """A call with the names of its clauses, those that it asks for behind the others."""
    names = {kind: [clause.name for clause in contract.clauses if clause.name and clause.text.split()[0] == kind]
             for kind in ("ensures", "requires")}
    asks = [f"asks {', '.join(names['requires'])}"] if names["requires"] else []
    told = "; ".join([", ".join(names["ensures"])] * bool(names["ensures"]) + asks)
    return f"`{contract.owner + '::' if contract.owner else ''}{contract.name}`" + (f" ({told})" if told else "")


def calls_text():
    """Each crate's public calls with the names of their clauses, a line a file."""
    lines = ["# The calls and their clauses", "",
             "What each crate hands out, file by file of its `src/`: each call with the names of the clauses that it ensures, and behind",
             "`asks` of those that it asks for. Clauses without a name aren't listed. `docs/check --write` makes this page."]
    for crate in crates():
        told = {}
        for contract in contracts_of(crate):
            if contract.public and any(clause.text.split()[0] in ("ensures", "requires") for clause in contract.clauses):
                told.setdefault(contract.path, []).append(call_told(contract))
        lines += ["", f"## `{crate}`", ""] * bool(told)
        for path, calls in told.items():
            lines += textwrap.wrap(f"- {path.relative_to(TOP / 'crates' / crate / 'src')}: {', '.join(calls)}", COLUMNS,
                                   subsequent_indent="  ", break_long_words=False, break_on_hyphens=False)
    return "\n".join(lines) + "\n"


# ---- the modules of the shell


def shell_text():
    """Each module of the shell with the first sentence of its head, folder by folder."""
    lines = ["# The modules of the shell", "", "Folder by folder, each with the first sentence of its head. `docs/check --write` makes this page.", ""]
    folders = {}
    for path in sorted((TOP / "shell").rglob("*.js")):
        if "tests" not in path.parts and "node_modules" not in path.parts:
            folders.setdefault(path.parent, []).append(path)
    for folder, paths in sorted(folders.items()):
        lines += [f"## {folder.relative_to(TOP)}/", ""]
        for path in paths:
            head = re.search(r"/\*\*(.*?)\*/", read(path), re.S)
            said = " ".join(line.strip().lstrip("*").strip() for line in head.group(1).splitlines()).strip() if head else "no head"
            first = re.split(r"(?<=[.:])\s(?=[A-Z`]|$)", said)[0].rstrip(".:")
            lines += textwrap.wrap(f"- `{path.name}`: {first}", COLUMNS, subsequent_indent="  ", break_long_words=False, break_on_hyphens=False)
        lines.append("")
    return "\n".join(lines[:-1]) + "\n"


# ---- all of them


def made_pages():
    """The pages of which a part is made, and the pictures, each as it is to be."""
    found = {path: with_tables(read(path)) for path in DOCUMENTS if "<!-- made: " in read(path)}
    return {**found, INDEX: index_text(), GLOSSARY: glossary_text(), CALLS: calls_text(), theorem.PICTURE: theorem.picture(),
            theorem.RESTS: theorem.rests_text(), theorem.ROWS_PAGE: theorem.rows_text(), SHELL: shell_text(),
            pictures.ROOMS: pictures.rooms_picture(), results.PLOT: results.peers_plot(), **guide.pictures()}


def pages_that_differ():
    return [f"{show(path)}: isn't what its sources give; docs/check --write makes it so"
            for path, text in made_pages().items() if not path.exists() or read(path) != text]

"""What the documents name: whether it is there, is claimed, and is told."""
import re

from checking import rooms
from checking.crates import (DOCUMENTS, TOP, calls_handed_out, crates, of_the_program, read, show, spans,
                             words_behind, words_of_public_contracts)

COLUMNS = 130


# ---- each file

# words of the language that pages name and no source has
WORDS_OF_RATTLE = {"unsafe"}
BUILT = "crates/railplan_main/out/railplan_main"


def files_that_fail():
    """Files that a document names and that aren't there; the built program needs not be."""
    found = []
    for path in DOCUMENTS:
        for span in spans(read(path)):
            if span != BUILT and re.fullmatch(r"(\.ci|bench|cases|crates|docs|examples|shell)/[\w./-]*", span) and not (TOP / span).exists() \
                    and not list(TOP.glob(span + ".*")):
                found.append(f"{show(path)}: there is no {span}")
    return found


def names_that_fail():
    """Names in the map, the theorem, the definitions, the claims and the decisions that no source and no file of the crates has."""
    known = set(re.findall(r"[A-Za-z_]\w*", " ".join(map(read, [TOP / "crates.txt", TOP / "railplan",
                                                                     *TOP.glob("shell/**/*.js")]))))
    folders = [path for part in ("src", "specs", "proofs") for path in TOP.glob(f"crates/*/{part}")]
    beside = [path for pattern in ("*", "bench/*", "bench/*/*", "cases/*", "cases/*/*", "docs/*", "docs/checking/*", "shell/*", "shell/*/*",
                                   "shell/*/*/*") for path in TOP.glob(pattern)]
    for path in [path for folder in folders for path in folder.rglob("*")] + beside:
        known.update(re.findall(r"[A-Za-z_]\w*", str(show(path))))
        if path.suffix in (".rt", ".antt") and "proofs" not in path.parts:
            known.update(re.findall(r"[A-Za-z_]\w*", read(path)))
    found = []
    for name in ("crates/README.md", "THEOREM.md", "docs/trust/definitions.md", "docs/trust/trusted.md", "docs/work/decisions.md"):
        text = " ".join(spans(read(TOP / name)))
        named = {word for word in re.findall(r"[A-Za-z_]\w+", text) if not word.isupper()}
        found += [f"{name}: nothing is named {word}" for word in sorted(named - known - WORDS_OF_RATTLE)]
    return found


# ---- words


def words_without_remark(contracts, words):
    """Words that public contracts cite, and facts, records and data behind these, that have no remark where they are defined."""
    remarks = {(word.crate, word.module, word.name): word.remark for word in words}
    cited = words_of_public_contracts(contracts, words)
    wanted = cited | {key for key in words_behind(cited, words) if key[2][0].isupper()}
    return [f"crates/{crate}/specs/{module.replace('.', '/')}.antt: {name} has no remark"
            for crate, module, name in sorted(wanted) if not remarks[crate, module, name]]


# ---- claims


def is_there(span, section, contracts, words):
    """Whether a piece of a citation is a clause of a call, a call, a word of specs/, a crate or a file."""
    call, _, listed = span.partition(": ")
    owner, _, name = call.rpartition("::")
    matching = [contract for contract in contracts
                if contract.name == name and owner in ("", contract.owner) and contract.crate in section]
    if listed:
        wanted = {clause.strip() for clause in listed.split(",")}
        return any(wanted <= {clause.name for clause in contract.clauses} for contract in matching)
    if any(contract.clauses for contract in matching):
        return True
    return any(word.name == span and word.remark for word in words) or span in crates() or (TOP / span).exists()


def citations_that_fail(contracts, words):
    found, section = [], []
    for paragraph in re.split(r"\n(?=\n|- |#|  \*By\*)", read(TOP / "docs" / "trust" / "trusted.md")):
        text = paragraph.strip()
        if text.startswith("#"):
            section = [span for span in spans(text) if span in crates()]
        elif text.startswith("*By*"):
            near = section + [span for span in spans(text) if span in crates()]
            found += [f"docs/trust/trusted.md: {span} isn't there, in {', '.join(near) or 'no crate'}"
                      for span in spans(text) if not is_there(span, near, contracts, words)]
    return found


def claims_without_citation():
    """Claims of the sections that name crates, of which no clause is told."""
    found, section = [], False
    paragraphs = re.split(r"\n(?=\n|- |#)", read(TOP / "docs" / "trust" / "trusted.md"))
    for paragraph in paragraphs:
        text = paragraph.strip()
        if text.startswith("## "):
            section = any(span in crates() for span in spans(text))
        elif section and text.startswith("- ") and "*By* " not in text:
            found.append(f"docs/trust/trusted.md: no clause is told of: {text.splitlines()[0][2:70]}")
    return found


def of_the_commands():
    return next(found for name, _, found in rooms.rooms() if name == "commands")


def calls_untold():
    """Calls that crates hand out and no document names, and laws of whole runs, by the name of their file, that aren't claimed."""
    named = {path: set(re.findall(r"\w+", " ".join(spans(read(path))))) for path in DOCUMENTS}
    anywhere, claimed = set().union(*named.values()), named[TOP / "docs" / "trust" / "trusted.md"]
    calls = [(crate, path, name) for crate in crates() for path, name in calls_handed_out(crate)]
    return [f"docs: no document names {name}, which {crate} hands out"
            for crate, _, name in calls if name not in anywhere] + [
            f"docs/trust/trusted.md: no claim names the law {name} of {crate}"
            for crate, path, name in calls if crate in of_the_commands() and path.stem.endswith("laws") and name not in claimed]


# ---- numbers and lines


def count_that_fails():
    """What README says of how many crates are proved for the program."""
    used = of_the_program()
    return [f"README.md: proves {number} crates, but there are {len(used)}"
            for number in re.findall(r"proves (\d+) crates", read(TOP / "README.md")) if int(number) != len(used)]


def long_lines():
    """Lines by hand that are too long; a row of a table that is made can't be broken."""
    return [f"{show(path)}:{number}: {len(line)} columns"
            for path in DOCUMENTS for number, line in enumerate(read(path).splitlines(), 1)
            if len(line) > COLUMNS and line not in rows_made(read(path))]


def rows_made(text):
    return {line for part in re.findall(r"<!-- made: .*?<!-- end -->", text, re.S) for line in part.splitlines()}


def all_failures(contracts, words):
    return (count_that_fails() + words_without_remark(contracts, words)
            + citations_that_fail(contracts, words) + claims_without_citation() + names_that_fail() + calls_untold()
            + files_that_fail() + long_lines())

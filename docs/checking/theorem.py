"""The parts of THEOREM.md that are made from the sources: the clauses, three rows, what *best* and *certified* rest on, the laws; and
docs/made/rows.md, which has all rows, the words of the best drawing whole, how much the rows rest on, and a picture of the way."""
import re
import textwrap
from functools import cache

from checking import pictures
from checking.crates import TOP, crates, handed_on, head, imported_words, module_of, read, spec_files, words_of

PAGE = TOP / "THEOREM.md"
PICTURE = TOP / "docs" / "made" / "theorem.svg"
RESTS = TOP / "docs" / "made" / "rests.md"
ROWS_PAGE = TOP / "docs" / "made" / "rows.md"
RUN = TOP / "crates" / "schematic_main" / "src" / "running.rt"
ROWS, BEST = ("schematic_main", "So"), ("plan_core", "Values", "IsBest")
STATION = ("run_input", "Input", "HasStation")
DRAW, CHECK, VERIFY, ASKS = (*ROWS, "DrawIsSo"), (*ROWS, "CheckIsSo"), (*ROWS, "VerifyIsSo"), ("schematic_main", "Run", "Asks")

# what draw's answer, and with it its log, rest on first, and the laws with what a best drawing is
ANSWER = [("run_draw_front", "Drawn", name) for name in ("IsDrawAnswer", "IsDrawn", "HasSearched")] + [
    ("search_least", "Outcome", name) for name in ("IsOutcome", "IsSearched", "IsBestEnd", "IsNoneEnd", "IsStoppedEnd", "IsUnfinishedEnd")] + [
    ("refute_log", "Certified", name) for name in ("IsOutOfReach", "RefutesLess", "IsCertifiedLeast", "Certifies", "CertifiesNone")]
LAWS = [("plan_core", "Values", name) for name in ("IsBest", "Better")] + [
    ("plan_core", "Lawful", name) for name in ("Lawful", "Meets")] + [
    ("plan_core", "Laws", name) for name in (
        "IsOnGrid", "LineJoinsItsNodes", "Diverges", "SwitchIsAligned", "CrossingIsAligned", "PortsAreAligned", "NodesAreApart",
        "AreCompared", "EdgeIsOver", "EdgesAreParted")]
# the lines of a row that say nothing of its command alone
GENERAL = re.compile(r"^\w+ [^=]*\b(?:Unread text = IsUnreadLine text|status text = ⊥)$")

# the way from bytes to what a run prints: a definition, what it says in a few words, and its place in the picture
WAY = [(("run_input", "Input", "HasRows"), "the bytes are read as rows", (0, 0)),
       (("run_input", "Input", "HasTopology"), "the rows are a topology", (1, 0)),
       (("run_input", "Input", "HasGraph"), "the topology has a track graph", (2, 0)),
       (STATION, "the bytes have this graph and order", (3, 0)),
       (("plan_core", "Lawful", "Lawful"), "a drawing meets the seven laws", (0, 1)),
       (("plan_core", "Values", "Better"), "which of two values is better", (1, 1)),
       (("plan_core", "Values", "values_of"), "what a drawing measures", (2, 1)),
       (("schematic_main", "So", "OfStation"), "the file has this station", (3, 1)),
       (BEST, "lawful, and none is better", (1, 2)),
       (("schematic_main", "So", "IsTextOf"), "the text of its sheet", (2, 2)),
       (DRAW, "draw with 0, 1, 3, 4 and 5: a row each", (3, 3)),
       (ASKS, "the words ask for this command", (2, 4)),
       (("schematic_main", "So", "IsSoFor"), "what a run prints is true", (3, 4))]


@cache
def words():
    """Each public definition of specs/, by its crate, file and name."""
    return {(word.crate, word.module, word.name): word for crate in crates() for word in words_of(crate)}


@cache
def imports():
    return {(crate, module_of(crate, path)): imported_words(read(path)) for crate in crates() for path in spec_files(crate)}


@cache
def files_named(crate, module):
    """The files of specs/ that a file imports whole, by the names that it gives them."""
    found = re.findall(r"^use Rattle\.(\w+)\.specs\.(\w+) as (\w+)$", read(spec_path(crate, module)), re.M)
    return {name: handed_on().get((other, file), (other, file)) for other, file, name in found}


def named_in(text, crate, module):
    """The definitions that a text of a file names, in the order in which it names them."""
    found = []
    for file, name in re.findall(r"(?<![.\w])(?:(\w+)\.)?([A-Za-z_][\w'-]*)", text):
        other = files_named(crate, module).get(file)
        found.append((*other, name) if other else imports()[crate, module].get(name, (crate, module, name)))
    return list(dict.fromkeys(other for other in found if other in words()))


def behind(key):
    """The definitions that a definition names."""
    return [other for other in named_in(words()[key].text, *key[:2]) if other != key]


def resting_on(*keys):
    """The definitions on which these rest, and they, each behind those that it names."""
    found, seen = [], set()

    def visit(key):
        if key not in seen:
            seen.add(key)
            for other in behind(key):
                visit(other)
            found.append(key)
    for key in keys:
        visit(key)
    return found


def body_of(path):
    """A file of specs/ without its imports."""
    lines = [line for line in read(path).splitlines() if not re.match(r"(pub )?use ", line)]
    return re.sub(r"\n{3,}", "\n\n", "\n".join(lines)).strip().splitlines()


def spec_path(crate, module):
    return TOP / "crates" / crate / "specs" / (module.replace(".", "/") + ".antt")


def clause_lines():
    """The clause as it stands on the call."""
    text = read(RUN)
    clauses = re.search(r"^    // What a run that .*?\n    ensures so \{.*?\}\n    //.*?\n    ensures answer \{.*?\}\n(?=    //)", text, re.M | re.S)
    call = re.search(r"^pub fn run<.*?\n\) -> u8\n", text, re.M | re.S)
    return ["```", *call.group(0).rstrip().splitlines(), *clauses.group(0).rstrip().splitlines(), "```"]


def defined(key):
    """A definition with its remark."""
    return [*(f"-- {line}" for line in textwrap.wrap(words()[key].remark, 116)), *words()[key].text.rstrip().splitlines()]


def listing(keys):
    """Definitions one behind the other, each with its remark."""
    lines = [line for key in keys for line in ["", *defined(key)]]
    return ["```", *lines[1:], "```"]


def three_lines():
    """The rows of draw, verify and check, without the lines that all rows have."""
    return [line for line in listing([DRAW, VERIFY, CHECK]) if not GENERAL.match(line)]


def row_lines():
    """The file of the rows: the imports that give other names, and all definitions."""
    path = spec_path(*ROWS)
    renamed = [line for line in read(path).splitlines() if line.startswith("use ") and " as " in line]
    return ["```", *renamed, "", *body_of(path), "```"]


def status_lines():
    """With which statuses each command prints an answer: its rows that aren't the last, which is never so."""
    text, names = read(spec_path(*ROWS)), ["Done", "NoDrawing", "Unfinished", "Broken", "Refused", "Unread"]
    lines, found = ["| rows of | 0 | 3 | 4 | 8 | 1 | 5 |", "|---|---|---|---|---|---|---|"], {}
    for row in re.findall(r"^abbrev pub (\w+(?:IsSo|AreSo)) :", text, re.M):
        as_in = re.search(rf"^{row} .*\bstatus text = (\w+)", text, re.M)
        found[row] = {name for name in names if re.search(rf"^{row} .*\b{name} text =", text, re.M)}
        found[row] |= found.get(as_in.group(1), set()) if as_in else set()
        if found[row]:
            lines.append(f"| `{row}` | " + " | ".join("yes" if name in found[row] else "" for name in names) + " |")
    return lines


def type_lines():
    """The types of the code that the rows and the best drawing name, as the sources declare them, without remarks."""
    files = dict.fromkeys([ROWS, *(key[:2] for key in resting_on(BEST))])
    named = [found for crate, module in files
             for found in re.findall(r"use Rattle\.(\w+)\.specs\.declared\.(\w+)\.(\w+)\.", read(spec_path(crate, module)))]
    lines = []
    for crate, module, name in (it for it in dict.fromkeys(named) if it[0] in crates()):
        text = read(TOP / "crates" / crate / "src" / f"{module}.rt")
        kept = "\n".join(line for line in text.splitlines() if line.strip() and not re.match(r"\s*(//|#\[)", line))
        found = re.search(rf"^pub (?:struct|enum) {name}\b[^;]*?^}}$", kept, re.M | re.S)
        if found:
            flat = re.sub(r"\s+", " ", found.group(0)).replace("( ", "(").replace(", }", " }")
            lines += textwrap.wrap(flat, 116, subsequent_indent="    ", break_long_words=False) if "ghost" not in flat else []
    return ["```", *lines, "```"]


def best_lines():
    """The definitions on which IsBest rests, file by file, each with its remark."""
    files, lines = {}, []
    for key in resting_on(BEST):
        files.setdefault(key[:2], []).append(key)
    for (crate, module), keys in sorted(files.items(), key=lambda file: min(order_of(file[0]))):
        whole = [key for key in words() if key[:2] == (crate, module) and key in keys]
        lines += ["", f"`crates/{crate}/specs/{module}.antt`", "", *listing(whole)]
    return lines[1:]


def order_of(file):
    """The places at which a file's definitions come among those of IsBest."""
    return [place for place, key in enumerate(resting_on(BEST)) if key[:2] == file]


def rest():
    """What the rows rest on besides, by the files that define it."""
    whole, files = set(resting_on(BEST)), {}
    for key in resting_on(*(key for key in words() if key[:2] == ROWS)):
        if key not in whole and key[:2] != ROWS:
            files.setdefault(key[:2], []).append(key[2])
    return files


def rows_text():
    """All rows with what they rest on, and how much that is."""
    files = rest()
    return "\n".join([
        "# All rows of the theorem", "",
        "`THEOREM.md` says what these are, and how to read them. `docs/check --write` makes this page.", "",
        "*yes*: the command may end with this status. `CheckIsSo` is the row of `check` and of `recheck`.", "",
        *status_lines(), "", "## How much there is to read", "", *count_lines(), "",
        "Types of the code and definitions of the standard library aren't counted. Best is to read the rows of one command, then *The best",
        "drawing*, then the files behind it that you doubt. An arrow goes from a definition to one that rests on it, where no longer way of",
        "arrows leads there.", "",
        f"![The definitions on the way from a file's bytes to what a run prints]({PICTURE.name})", "",
        "## The rows", "", f"`crates/{ROWS[0]}/specs/{ROWS[1]}.antt`: the imports that give other names, and all definitions.", "", *row_lines(), "",
        "## The best drawing", "", *best_lines(), "", "## Types of the code", "", *type_lines(), "", "## The rest", "",
        f"The rows rest on {sum(map(len, files.values()))} more definitions, in {len(files)} files. [{RESTS.name}]({RESTS.name}) names them, file by "
        "file,", "each file with what it defines.", ""])


def rests_text():
    """What the rows rest on besides, file by file: what the file defines, and the names."""
    lines = ["# What else the rows of the theorem rest on", "",
             "File by file: what the file defines, and the names that the rows of `crates/schematic_main/specs/So.antt` need. Those that",
             "`docs/made/rows.md` has whole aren't here. `docs/check --write` makes this page.", ""]
    for (crate, module), names in rest().items():
        said = re.split(r"(?<=\.) ", head(read(spec_path(crate, module)), "--"))[0]
        entry = f"- {said} (`crates/{crate}/specs/{module.replace('.', '/')}.antt`): {', '.join(f'`{name}`' for name in names)}"
        lines += textwrap.wrap(entry, 118, subsequent_indent="  ", break_long_words=False, break_on_hyphens=False)
    return "\n".join(lines) + "\n"


def on_status(row, status):
    """What a row rests on where a command ends with one status: the row's first name and what its line for it names."""
    found = re.search(rf"^{row[2]} [^=]*\b{status} text = (.*?)(?=^{row[2]} )", words()[row].text, re.M | re.S)
    return [row, *resting_on(*named_in(found.group(1), *row[:2]))]


def count_lines():
    """How much there is to read."""
    draw = set(resting_on(DRAW))
    counted = [("the rows of all commands", resting_on(*(key for key in words() if key[:2] == ROWS))),
               ("`draw` alone", draw), ("`check` alone", resting_on(CHECK)), ("`verify` alone, which reads a sheet", resting_on(VERIFY)),
               ("in each of these three: a station read from a file", resting_on(STATION)),
               ("in `draw` and `check`: the best drawing", resting_on(BEST)),
               ("`draw` with status 0 alone", on_status(DRAW, "Done")),
               ("besides those of `draw`: which command the words ask for (`Asks`)", set(resting_on(ASKS)) - draw)]
    lines = ["| what | definitions | lines | files |", "|---|---|---|---|"]
    for said, found in counted:
        size = sum(words()[key].text.rstrip().count("\n") + 1 for key in found)
        lines.append(f"| {said} | {len(found)} | {size} | {len({key[:2] for key in found})} |")
    return lines


def rests_directly(key, others):
    """Those of some definitions on which one rests by way of none of them."""
    found, seen, left = set(), {key}, [key]
    while left:
        for other in behind(left.pop()):
            if other in others:
                found.add(other)
            elif other not in seen:
                seen.add(other)
                left.append(other)
    return found


def picture():
    """The way from bytes to what a run prints: a box for each definition, and an arrow to each that rests on it."""
    keys = [key for key, _, _ in WAY]
    listed = {key: pictures.Box(key[2], [said], [f"{key[0]}/specs/{key[1]}"], at) for key, said, at in WAY}
    below = pictures.shortest({key: rests_directly(key, set(keys) - {key}) for key in keys})
    return pictures.graph("The way from a file's bytes to what a run prints", listed, below, pictures.Size(240, 58))


def all_failures():
    """Definitions of the picture that aren't there."""
    keys = [*(key for key, *_ in WAY), *ANSWER, *LAWS]
    return [f"docs/checking/theorem.py: there is no {'.'.join(key)}" for key in keys if key not in words()]

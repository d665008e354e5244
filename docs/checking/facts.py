"""Facts in prose, each compared with what it comes from: statuses, options, files and names in them, and what was printed.

`SENTENCES` are templates: what stands in braces is made from the sources, and the page must have the sentence that comes out. The
other checks are of a form: a command's names, a name that is said to be in a file or of a crate, a line that was printed, the first
line of a text, and a link."""
import re
from functools import cache

from checking.crates import DOCUMENTS, TOP, crates, handed_on, read, show, spans, stands_on
from checking.numbers import WORDS_OF_NUMBERS, Missing, constant, criteria, faults, laws, options, source, statuses, usual_order
from checking import shell as table
from checking.style import MOST_BYTES

README, GUIDE, FORMATS, TRUSTED, THEOREM, MAP = (
    "README.md", "docs/use/guide.md", "docs/formats", "docs/trust/trusted.md", "THEOREM.md", "crates/README.md")
# pages whose names are looked for in the files and crates in which they are said to be
PLACED = (MAP, THEOREM, TRUSTED, FORMATS, README, "docs/work/decisions.md", "docs/trust/definitions.md")

SENTENCES = [
    (README, "keeps {laws} laws"),
    (README, "or print it on {paper}."),
    (README, "edge {above} is above edge {below}, the {below_name}."),
    (README, "`end none` and status {NoDrawing}:"),
    (README, "`end conflicts S` and status {Unfinished}:"),
    (README, "`draw` gives up with status {Unfinished}"),
    (README, "Tracks that nothing joins are hard: on {apart} of them"),
    (README, "`--order {first}` or a smaller grid need fewer."),
    (README, "`certified 4` with status {Done}:"),
    (README, "Were the loop drawn below its track, `verify` would print `broken law 4 node {loop}`."),
    (README, "The switch `W3`, at km {km}, has its legs in the {legs}, the {side} one diverges"),
    (GUIDE, "The values are height {height}, {bends} bends, diagonal {diagonal} and width {width}:"),
    (GUIDE, "none is lower; of those as low none has fewer {second}; then comes the diagonal, the columns in which a line rises or falls, added up "
            "over all lines; then the width."),
    (GUIDE, "`node {loop} W3 {loop_x} {loop_y} {metres}` is node {loop}: the switch `W3` is at column {loop_x} of row {loop_y}, at km {km}."),
    (GUIDE, "`edge {line}` goes from node {line_west} to node {line_east}, through the points behind them: up, level, down."),
    (GUIDE, "one `outgoing` and one `incoming`, as `{outgoing}` and `{incoming}`"),
    (GUIDE, "Rows 0 and {low} aren't enough."),
    (GUIDE, "law {first_law} at node {first_node} and at node {second_node}. At `{first_name}` the crossover comes up from the row below, "
            "and at `{second_name}` the loop turns up"),
    (GUIDE, "`node {first_node}` is the line `node {first_node}` of `graph`: here `{first_name}`."),
    (GUIDE, "Signal {signal}, `{signal_id}`, is on edge {signal_edge}, in column {signal_x} of row {signal_y}:"),
    (GUIDE, "{Moved} of the {of} nodes moved"),
    (GUIDE, "prints the file of a made station with {loops} loops."),
    (GUIDE, "A row less costs {more} columns"),
    (GUIDE, "`trimmed {learnt} {left}`: the log has {learnt} learnt lines, and {left} are left."),
    (GUIDE, "Where that isn't enough it ends with {Unfinished}:"),
    (GUIDE, "`certified {many}`: all {all} values are least"),
    (GUIDE, "With `end conflicts 2` {first} and {second} would be least."),
    (GUIDE, "for fewer criteria with `--order {first}`"),
    (GUIDE, "Capitals are about {capitals} mm high on each paper"),
    (FORMATS, "Only {have_options} and `redraw` have options: `signals` has all of these but {not_signals}, `front` and `explain` have "
              "{of_front}, and `redraw` has these and {more_of_redraw}:"),
    (FORMATS, "Of attributes {attributes} are read, and no others"),
    (FORMATS, "its title is `railplan {first_edition}`, and it has no LEAST"),
    (FORMATS, "the title is neither `railplan {first_edition}` nor `railplan {edition}`"),
    (FORMATS, "Laws 1, 3 and 4 have one party: law 1 a node or an edge, law 3 an edge, law 4 a node. Laws {of_nodes} have two nodes and "
              "law {of_edges} two edges"),
    (FORMATS, "with one of these statuses, or with {unstarted} where the words couldn't be had. The launcher ends with {unstarted} too where "
              "the program couldn't be built or started, and with {stopped} where it is interrupted."),
    (TRUSTED, "in pieces of {piece} bytes or more"),
    (TRUSTED, "{cases} cases by chance had"),
    (TRUSTED, "may share a column (law {of_mileages})"),
    (TRUSTED, "join their nodes (laws {of_grid} and {of_lines})"),
    (TRUSTED, "That `main` ends with {unstarted} only"),
    (TRUSTED, "That a read that failed, with {Unread}, was of an input's name"),
    (TRUSTED, "With {cut} a log's file begins some log's text"),
    (TRUSTED, "So `trial` may end with {Refused}, as far as is proved."),
    (TRUSTED, "A run that always ended with {NoMemory} fails"),
    (TRUSTED, "That refused memory gives {NoMemory} or the same end"),
    (TRUSTED, "gives {Unwritten}, and not {NoMemory} as for want of memory"),
    (TRUSTED, "assume that the status isn't {cut}, unless they name it. A search that stopped ends with {Unfinished}, and not with {Done} or "
              "{NoDrawing}."),
    (TRUSTED, "of {Done}, {Refused}, {WordsRefused}, {NoDrawing}, {Unfinished}, {Unread} or {Broken} says of the text is so"),
    (TRUSTED, "`draw` with {Done}: the text is the sheet"),
    (TRUSTED, "`draw` with {NoDrawing}: no drawing is lawful"),
    (TRUSTED, "`draw` with {Unfinished}: a drawing that is printed is lawful"),
    (TRUSTED, "`signals` with {Done}, {NoDrawing} and {Unfinished}: as `draw`"),
    (TRUSTED, "`verify`: {Done} exactly where the sheet's drawing is lawful, with its own values; {Broken} exactly where it isn't"),
    (TRUSTED, "`check`: {Done} exactly where the drawing"),
    (TRUSTED, "With {Broken} or {Unfinished} the line names the broken law"),
    (TRUSTED, "`trim`: as `check`, where that isn't {Done}. With {Done} its file holds"),
    (TRUSTED, "`recheck`: {Done} exactly where the drawing is lawful"),
    (TRUSTED, "`front` with {Done}: the pairs are exactly those"),
    (TRUSTED, "With {NoDrawing} none is lawful. With {Unfinished} none is missing"),
    (TRUSTED, "`explain` with {Done}: `drawing exists`"),
    (TRUSTED, "With {Unfinished} it keeps no lawful drawing back:"),
    (TRUSTED, "`redraw` with {Done}: the drawing is lawful, and no lawful drawing moves fewer nodes. With {NoDrawing} none is lawful."),
    (TRUSTED, "end with {Done} exactly where some drawing is lawful on their grid, and with {NoDrawing} exactly where none is; and `explain` ends "
              "with {Done}."),
    (TRUSTED, "`trial` with {Done}: the counts of its graph"),
    (TRUSTED, "- {Refused} comes only where an input is too long"),
    (TRUSTED, "- {WordsRefused} comes only where the words have the fault"),
    (TRUSTED, "- {Unread} comes only where a read failed."),
    (TRUSTED, "- {Unwritten} comes only where a put failed, or a write of a file"),
    (TRUSTED, "not for want of memory, ends a run with {Unwritten}."),
    (TRUSTED, "- With {cut} nothing was printed"),
    (TRUSTED, "ends with a status of its command, or with {NoMemory}; `draw` with {Done} or {NoDrawing} where"),
    (TRUSTED, "- The status is {Done} to {Broken}."),
    (TRUSTED, "none with {Refused}, {WordsRefused} and {Unread}, nor where there is nothing to search"),
    (TRUSTED, "A log holds, with {Done}, {NoDrawing} and {Unfinished}, the text"),
    (TRUSTED, "Nothing goes there with {Refused}, {WordsRefused} and {Unread}."),
    (THEOREM, "`draw` that ends with {Done} has printed"),
    (THEOREM, "Where `draw` ends with {NoDrawing} no drawing"),
    (THEOREM, "`draw` that ends with {Unfinished} has learnt"),
    (THEOREM, "`check` and `recheck` that end with {Done}:"),
    (THEOREM, "Of a run that ends with {cut}, or by a signal"),
    (THEOREM, "| `draw` | {Done}: the sheet of a best drawing"),
    (THEOREM, "| {NoDrawing}: a sheet with `end none`"),
    (THEOREM, "| {Unfinished}: `end conflicts S` or"),
    (THEOREM, "| {Broken}: it isn't;"),
    (THEOREM, "{Refused}: the line has the first fault of those"),
    (THEOREM, "{Unread}: an input wasn't read, not by `so`."),
    (THEOREM, "{WordsRefused}: the line has the fault of the words."),
    (THEOREM, "It has {asked} `requires`."),
    (THEOREM, "`IsCutShort` is {cut}."),
    (THEOREM, "shows the {laws} laws in pictures"),
    (THEOREM, "Where `check`, `recheck` or `trim` ends with {Broken} and names no law"),
    (THEOREM, "Status {numbered}."),
    (THEOREM, "with one of its command's, {Refused}, {WordsRefused}, {Unread}, {cut}. `main` ends with {unstarted} where"),
    (THEOREM, "The launcher also ends with {unstarted} and {stopped},"),
    (THEOREM, "Rattle's crates {kit} state"),
    ("bench/tried.md", "On {apart} tracks that nothing joins"),
    ("docs/work/style.md", "Take the kit's crates ({kit_listed})"),
    ("docs/work/style.md", "and `docs/` {most_bytes} by hand"),
    (MAP, "{Unwritten} comes from `crates/schematic_main/src/running.rt`"),
    (MAP, "{Broken} comes from `crates/run_check/src`"),
    (MAP, "laws {in_node_laws} in `node_laws`, {in_edge_laws} in `edge_laws`"),
    (MAP, "*A fault of the words, as number {bad_value}*"),
    (MAP, "(`railplan {next_edition}`, which cases refuse)"),
]


def listed(parts):
    *front, last = parts
    return f"{', '.join(front)} and {last}" if front else last


def coded(parts):
    return listed([f"`{part}`" for part in parts])


# ---- what the sources and the stored answers have


def groups(pattern, path):
    """What the pattern's groups are where it first fits a file"""
    found = re.search(pattern, read(TOP / path), re.M)
    if not found:
        raise Missing(f"{path}: has no '{pattern}' any more, which docs/checking/facts.py looks for")
    return found.groups()


def one(pattern, path):
    return groups(pattern, path)[0]


def of_statuses():
    found = {name: str(number) for number, name, _ in statuses()}
    cut = [found[name] for name in re.findall(r"^IsCutShort (\w+) = Unit", source("run_input/specs/Status.antt"), re.M)]
    (number, name, _), *others = statuses()
    return {**found, "cut": " or ".join(cut), "numbered": ", ".join([f"{number} is `{name}`", *(f"{it[0]} `{it[1]}`" for it in others)]),
            "stopped": one(r"\[\"(\d+)\", \"the run was stopped\"\]", "shell/both/manual.js"),
            "unstarted": one(r"ExitCode::from\((\d+)\)", "crates/railplan_main/src/main.rt")}


def of_example():
    """The example's values, its switch W3, its loop, and the laws that explain names where the grid is too low"""
    file, graph, sheet, why = (f"examples/{name}" for name in ("station.xml", "station.graph", "station.sheet", "station_why.txt"))
    found = dict(zip(criteria(), groups(r"^values (\d+) (\d+) (\d+) (\d+)$", sheet)))
    loop, legs, side = groups(r"^node (\d+) W3 switch (\w+) (\w+) ", graph)
    x, y, metres = groups(rf"^node {loop} W3 (\d+) (\d+) (\S+)$", sheet)
    track = one(r'<track id="(\w+)" name="loop">', file)
    line, west, east = groups(rf"^edge (\d+) {track} (\d+) (\d+) ", sheet)
    law, node, other = groups(r"^law (\d) node (\d+)\nlaw \d node (\d+)$", why)
    name, other_name = (one(rf"^node {it} (\S+) ", graph) for it in (node, other))
    way = {way: one(rf'id="(\w+)\.branch"[^>]*orientation="{way}"', file) for way in ("outgoing", "incoming")}
    return {**found, **way, "loop": loop, "legs": legs, "side": side, "loop_x": x, "loop_y": y, "metres": metres,
            "km": f"{float(metres) / 1000:.3f}", "line": line, "line_west": west, "line_east": east, "first_law": law, "first_node": node,
            "second_node": other, "first_name": name, "second_name": other_name}


def of_answers():
    """What the commands of the guide and of README printed"""
    signal, name, edge, x, y = groups(r"^signal (0) (\S+) (\d+) (\d+) (\d+)$", GUIDE)
    moved, of = groups(r"^moved (\d+) of (\d+)$", GUIDE)
    low, wide, high, narrow = map(int, groups(r"^pair (\d+) (\d+)\npair (\d+) (\d+)$", GUIDE))
    learnt, left = groups(r"^trimmed (\d+) (\d+)$", GUIDE)
    many = one(r"^certified (\d)$", GUIDE)
    above, below = groups(r"^above (\d+) (\d+)$", README)
    track = one(rf"^edge {below} (\w+) ", "examples/station.graph")
    return {"signal": signal, "signal_id": name, "signal_edge": edge, "signal_x": x, "signal_y": y, "of": of, "learnt": learnt,
            "left": left, "Moved": WORDS_OF_NUMBERS[int(moved)].capitalize(), "more": WORDS_OF_NUMBERS[(wide - narrow) // (high - low)],
            "many": many, "all": WORDS_OF_NUMBERS[int(many)], "low": one(r"examples/station.xml --height (\d+)", GUIDE), "above": above,
            "below": below, "below_name": one(rf'<track id="{track}" name="(\w+)"', "examples/station.xml"),
            "loops": WORDS_OF_NUMBERS[read(TOP / "examples/made.xml").count(' name="loop"')]}


def size_of_letters():
    """How high the letters of a node's name are, in units of a page"""
    return float(one(r"SIZES = \{ node: ([\d.]+)", "shell/both/page/places.js"))


def of_pages():
    """The paper that pages are for, and how high capitals are in mm, of which 25.4 are 96 units of a page"""
    return {"paper": table.PAGE_WORDS["--paper"].usual, "capitals": str(round(size_of_letters() * table.number_in("shell/both/page/cad.js", "CAP") * 25.4 / 96))}


def of_options():
    """Which commands have which options, as the program's definitions say it"""
    spec = source("plan_words/specs/WordFaults.antt")
    word = dict(zip(("Width", "Height", "Least", "Criteria", "Conflicts", "Svg", "Log"), options()))
    has = {which: [word[option] for option, said in re.findall(rf"^Is{which}Option (\w+) = (\S)$", spec, re.M) if said == "⊤"]
           for which in ("Signals", "Front", "Redraw")}
    some = [it for it in table.COMMANDS if re.search(rf"^IsOptionOf {it.capitalize()} word = \(", spec, re.M) and it != "redraw"]
    return {"have_options": ", ".join(f"`{it}`" for it in some), "not_signals": coded([it for it in word.values() if it not in has["Signals"]]),
            "of_front": coded(has["Front"]), "more_of_redraw": coded([it for it in has["Redraw"] if it not in has["Front"]])}


def laws_in(path):
    """The laws of which the remarks of a file's functions speak"""
    return listed(sorted({number for said in re.findall(r"^/// Laws? ([\d and]+)", source(path), re.M) for number in re.findall(r"\d", said)}))


def of_sources():
    parties, rows = "crates/lawful_check/src/law_break.rt", source("railml_read/specs/Rows.antt")
    kit = sorted({name for below in stands_on().values() for name in below} - set(crates()))
    return {"laws": WORDS_OF_NUMBERS[len(laws())], "attributes": coded(re.findall(r"text_named \(codes \"(\w+)\"\)", rows)),
            "of_nodes": one(r"Laws (\d and \d) have two nodes", parties), "of_edges": one(r"law (\d) two edges", parties),
            "piece": f"{constant('outside_io', 'PIECE')[0]:,}",
            "kit": coded(kit), "kit_listed": ", ".join(f"`{it}`" for it in kit),
            "asked": "a" if "requires" in one(r"^pub fn run<((?:.*\n)*?)^\{", "crates/schematic_main/src/running.rt") else "no",
            "apart": one(r"^tracks_64 +(\d+) tracks that nothing joins", "cases/stations/README"),
            "cases": one(r"\"seeds\".*?default=(\d+)", "bench/second_opinion/run"),
            "in_node_laws": laws_in("cnf_laws/src/node_laws.rt"), "in_edge_laws": laws_in("cnf_laws/src/edge_laws.rt"),
            "most_bytes": f"{MOST_BYTES:,}",
            "bad_value": next(number for number, word in faults("plan_words/src/fault.rt") if word == "BadValue"),
            **dict(zip(("first", "second"), usual_order())), **of_laws(), **of_editions()}


def of_laws():
    """The numbers of laws, by a word under each"""
    number = {word: str(law) for law, (_, words) in laws().items() for word in words}
    return {"of_grid": number["IsOnGrid"], "of_mileages": number["InOrder"], "of_lines": number["LineJoinsItsNodes"]}


def of_editions():
    """The numbers of a sheet's editions, and the one that would come next"""
    first, second = (one(rf'^edition_number {it} = codes "(\d+)"', "crates/plan_write/specs/SheetLine.antt") for it in ("First", "Second"))
    return {"first_edition": first, "edition": second, "next_edition": str(int(second) + 1)}


def sentences_that_fail():
    made = {**of_statuses(), **of_example(), **of_answers(), **of_pages(), **of_options(), **of_sources()}
    found = []
    for page, template in SENTENCES:
        wanted = template.format(**made)
        if wanted not in " ".join(read(TOP / page).split()):
            found.append(f"{page}: doesn't say '{wanted}', which its sources give")
    return found


# ---- forms


def commands_misnamed():
    """Commands that a page writes with other names than the command's, or in another order"""
    found = []
    names = {word: [name["word"] for name in command.names] for word, command in {**table.COMMANDS, **table.OWN}.items()}
    known = {name for it in names.values() for name in it}
    for page in (README, GUIDE, FORMATS, TRUSTED, "docs/use/folders.md", "docs/trust/other-checkers.md"):
        for span in spans(read(TOP / page)):
            first, *rest = span.removeprefix("./railplan ").split()
            told = [word for word in rest if re.fullmatch(r"[A-Z]+", word)]
            is_form = first in names and rest and rest[0] in known and not any(re.fullmatch(r"[a-z]+", word) for word in rest)
            if is_form and told != names[first][:len(told)]:
                found.append(f"{page}: `{span}` isn't the form `{first} {' '.join(names[first])}`")
    return found


@cache
def defined_in(path):
    """The names that a file, or the files below a folder, define; of Python and other texts all names in them"""
    files = [path] if path.is_file() else [it for it in path.rglob("*") if it.suffix in (".rt", ".antt", ".py")]
    text = "\n".join(map(read, files))
    if any(it.suffix not in (".rt", ".antt") for it in files):
        return {*re.findall(r"\w+", text), *(it.stem for it in files)}
    begun = r"\b(?:fn|struct|enum|trait|type|const|mod|abbrev pub|record|data) ([A-Za-z_]\w*)"
    return {*re.findall(begun, text), *(it.stem for it in files),
            *re.findall(r"^\s+(?:pub )?([A-Za-z_]\w*)(?:,| :|: |\(| \{)", text, re.M)}


def places_said(text):
    """The names of which a page says in which file, folder or crate they are; `there` is the crate of the path before"""
    name, path = r"((?:`[A-Za-z_]\w*`(?:, | and | or )?)+)", r"`((?:crates|shell|bench|docs)/[\w./]+)`"
    found = [(names, TOP / where) for names, where in re.findall(name + " (?:in|of) " + path, text)]
    found += [(names, TOP / "crates" / crate) for names, crate in re.findall(name + r" of `(\w+)`", text) if crate in crates()]
    for place in re.finditer(name + r" in `(\w+\.(?:rt|antt))` there", text):
        before = re.findall(r"`crates/(\w+)", text[:place.start()])
        if before:
            found.append((place[1], TOP / "crates" / before[-1] / ("src" if place[2].endswith(".rt") else "specs") / place[2]))
    return found


def misplaced_names():
    """Names that aren't in the file in which a page says that they are, nor of the crate whose they are said to be"""
    found = []
    for page in PLACED:
        text = " ".join(re.sub(r"<!-- made: .*?<!-- end -->", "", read(TOP / page), flags=re.S).split())
        found += [f"{page}: `{it}` isn't in {show(place)}" for names, place in places_said(text)
                  for it in re.findall(r"`(\w+)`", names) if not place.exists() or it not in defined_in(place)]
        found += [f"{page}: {where} hasn't {it}" for where, names in re.findall(r"`(crates/[\w./]+)` \(((?:`[A-Za-z_]\w*`(?:, | and )?)+)\)", text)
                  for it in re.findall(r"`(\w+)`", names) if (TOP / where).is_file() and it not in re.findall(r"\w+", read(TOP / where))]
        for module, call, crate in re.findall(r"--only (\w+)::(\w+)` in `crates/(\w+)`", text):
            path = TOP / f"crates/{crate}/src/{module}.rt"
            if not path.exists() or call not in defined_in(path):
                found.append(f"{page}: there is no {module}::{call} in crates/{crate}")
    return found


def wrong_ways():
    """Calls of the map's way of a file that aren't of the crate behind them, and crates that hand on no definitions of another"""
    text = read(TOP / MAP)
    way = text[text.index("## One file on its way"):text.index("## Where a question leads")]
    found = [f"{MAP}: {call} isn't of {crate}" for call, crate in re.findall(r"(?<!the )\b(\w+)\s+\((\w+)\)", way)
             if crate in crates() and call not in defined_in(TOP / "crates" / crate)]
    on = {(crate, below) for (crate, _), (below, _) in handed_on().items()}
    return found + [f"{MAP}: {crate} hands on nothing of {below}" for crate, below in re.findall(r"`(\w+)` those of `(\w+)`", text)
                    if (crate, below) not in on]


def unprinted_lines():
    """Lines in prose that look as if they were printed, and that no command of the page prints"""
    found = []
    for page in (README, GUIDE):
        text = read(TOP / page)
        printed = "\n".join(re.findall(r"^```\n(.*?)^```", text, re.M | re.S))
        found += [f"{page}: no command prints `{span}`" for span in spans(text)
                  if re.match(r"(node|edge|above|values|certified|trimmed|moved|pair|law|signal) \d", span)
                  and not re.search(rf"^{re.escape(span)}\b", printed, re.M)]
    return found


@cache
def literals():
    """The literals of specs/"""
    return {text for path in TOP.glob("crates/*/specs/**/*.antt") for text in re.findall(r'"([^"\n]*)"', read(path))}


def unknown_titles():
    """First lines of texts, as `railplan-log 1`, that no definition writes"""
    return [f"{show(page)}: no text begins with `{title}`" for page in DOCUMENTS
            for title in sorted(set(re.findall(r"\b(?:railplan-\w+|railgraph) \d+\b", read(page)))) if f"{title}\\n" not in literals()]


def broken_links():
    """Links of pages to files that aren't there"""
    return [f"{show(page)}: there is no {link} to link to" for page in DOCUMENTS for link in re.findall(r"\]\(([^)#:]+)\)", read(page))
            if not (page.parent / link).exists()]


def all_failures():
    return (sentences_that_fail() + commands_misnamed() + misplaced_names() + wrong_ways() + unprinted_lines() + unknown_titles()
            + broken_links())

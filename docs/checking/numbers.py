"""Numbers and words that the sources fix: limits, defaults, faults, statuses, commands, options and laws.

A table that is made from them stands in a page between the marks `<!-- made: NAME -->` and `<!-- end -->`. What a page says of
them in prose is held by the patterns below: a place in braces is the number that a constant has.
"""
import functools
import re
import textwrap

from checking import results, rooms, shell, theorem
from checking.crates import DOCUMENTS, TOP, head, read, show

README = TOP / "README.md"
FORMATS = TOP / "docs" / "formats"
LAWS = TOP / "docs" / "trust" / "laws.md"

# the constants of the table of limits, in its order
LIMITS = [("plan_core", "MAX_FILE_BYTES"), ("plan_core", "MAX_LOG_BYTES"), ("railml_read", "MAX_DEPTH"),
          ("plan_core", "MAX_TRACKS"), ("plan_core", "MAX_ID_BYTES"), ("plan_core", "MAX_NODES"), ("plan_core", "MAX_EDGES"),
          ("plan_core", "MAX_WIDTH"), ("plan_core", "MAX_HEIGHT"), ("plan_core", "MAX_LEAST"), ("plan_core", "MAX_BUDGET"),
          ("plan_words", "MAX_SEED"), ("outside_io", "MAX_NUMBER"), ("plan_write", "MAX_METRES"), ("cnf_core", "LAST_VAR"),
          ("cnf_core", "VARS"), ("cnf_core", "ROOM")]

# where the faults of a section of docs/formats are, in the order in which the sections stand
FAULTS = {"Words": "plan_words/src/fault.rt", "The text of a file": "railml_text/src/fault.rt",
          "The topology": "railml_faults/src/fault.rt", "The drawing text, or sheet": "plan_text/src/sheet_fault.rt",
          "The track graph, and the graph text": "port_graph/src/fault.rt", "The log text": "refute_log/src/fault.rt",
          "The answer of signals": "plan_objects/src/fault.rt", "The text of hinted lines": "hint_log/src/text_fault.rt"}

# the front of a fault's line, and where its faults are
TABLES = {"words": "plan_words/src/fault.rt", "text": "railml_text/src/fault.rt", "topology": "railml_faults/src/fault.rt",
          "graph": "port_graph/src/fault.rt", "order": "track_order/src/fault.rt", "sheet": "plan_text/src/sheet_fault.rt",
          "log": "refute_log/src/fault.rt", "signal": "plan_objects/src/fault.rt", "hints": "hint_log/src/text_fault.rt"}

# what the launcher's help says of each status
ENDINGS = {"Done": "what was asked for was printed", "Refused": "an input was refused", "WordsRefused": "the words have a fault, or a file of the run is in the way",
           "NoDrawing": "no drawing is lawful on this grid",
           "Unfinished": "the search isn't finished, or the log needs too much room", "Unread": "a file couldn't be read",
           "Unwritten": "the output or a file couldn't be written", "NoMemory": "there was no memory",
           "Broken": "verify, check, trim, recheck: a law is broken; check, trim, recheck: the log is refused"}

# texts behind `- **N**: ` that docs/formats has of each status
ANSWERS = {"Done": ["the drawing text, the graph text, `lawful"],
           "Refused": ["`long I`", "`text NO", "`topology NO", "`graph NO", "`order 1", "`signal NO", "`sheet NO", "`log NO",
                       "`hints NO"],
           "WordsRefused": ["`words NO"], "NoDrawing": ["the sheet with `end none`"],
           "Unfinished": ["the sheet with `end conflicts S` or `end room S`", "`check Room line N`", "`trim Room`"],
           "Unread": ["`read failed I`"], "Unwritten": ["nothing, or a prefix of what was wanted: the output or a file"],
           "NoMemory": ["nothing, or a prefix of what was wanted: there was no memory"],
           "Broken": ["`broken law L PARTY`", "`check REFUSAL line N`, but with Room, or `check Lacks"]}

WORDS_OF_NUMBERS = "none one two three four five six seven eight nine ten eleven twelve".split()


# ---- what the sources have


def source(path):
    return read(TOP / "crates" / path)


@functools.cache
def constants():
    """Each number that a crate names, by the crate and the name, with the remark above it."""
    found = {}
    pattern = r"((?:^[ \t]*///.*\n)*)^[ \t]*(?:pub |pub\(crate\) )?const (\w+): (?:u\d+|usize) = ([\d_]+);"
    for path in sorted(TOP.glob("crates/*/src/**/*.rt")):
        for remark, name, number in re.findall(pattern, read(path), re.M):
            told = " ".join(line.strip().lstrip("/").strip() for line in remark.splitlines())
            found[path.relative_to(TOP).parts[1], name] = (int(number.replace("_", "")), told)
    return found


class Missing(Exception):
    """What the sources no longer have, and a table here names"""


def constant(crate, name):
    """A number with the remark above it."""
    if (crate, name) not in constants():
        raise Missing(f"crates/{crate}: has no number {name} any more, which docs/checking names")
    return constants()[crate, name]


def number_of(crate, name):
    return constant(crate, name)[0]


def arms(text, name):
    """What a function answers in each of its arms: by the name of a variant, without its type, the number or word."""
    body = text[re.search(rf"fn {name}\(", text).start():]
    body = body[:re.search(r"\n    }\n", body).end()]
    return dict(re.findall(r"\w+::(\w+)(?:\(.*?\)| \{ \.\. \})? => \"?([\w-]*)\"?,", body))


def faults(path):
    """The numbers and the words of a table of faults, in the order of the numbers."""
    text = source(path)
    numbers, words = arms(text, "number"), arms(text, "word")
    return sorted((int(number), words[variant]) for variant, number in numbers.items() if number != "0")


def remarks(text, name):
    """The remark of each variant of an enum."""
    body = text[re.search(rf"enum {name} \{{\n", text).end():]
    found, remark = {}, []
    for line in body[:body.index("\n}")].splitlines():
        told, variant = re.match(r"    /// ?(.*)", line), re.match(r"    (\w+)", line)
        if told:
            remark.append(told.group(1))
        elif variant:
            found[variant.group(1)], remark = " ".join(remark), []
    return found


def statuses():
    """Each status: its number, its name and the remark beside it."""
    text = source("run_input/src/status.rt")
    told = remarks(text, "Status")
    return sorted((int(number), name, told[name]) for name, number in arms(text, "number").items())


def criteria():
    return re.findall(r"Criterion::\w+ => \"(\w+)\"", source("outside_io/src/criteria.rt"))


def commands():
    """The words of commands, each with how many names it has."""
    text = source("plan_words/src/command.rt")
    words = dict(re.findall(r"\"(\w+)\" => Some\(CommandWord::(\w+)\)", text))
    counts = {}
    for variants, count in re.findall(r"^\s+((?:CommandWord::\w+[\s|]*)+) => (\d+),", text, re.M):
        counts.update({variant: int(count) for variant in re.findall(r"::(\w+)", variants)})
    return {word: counts[variant] for word, variant in words.items()}


def options():
    """The words of options: each with the least and the greatest number that it takes and its default, or what it takes."""
    text, building = source("plan_words/src/option_values.rt"), source("plan_words/src/building.rt")
    taken = {variant: (int(low), high) for variant, low, high in re.findall(
        r"OptionWord::(\w+) => number_in\(value, (\d+), (?:u32::from\()?(\w+)\)?\)", text)}
    usual = {variant: name for variant, name in re.findall(r"OptionWord::(\w+),\s*\d+,[^;]*?(DEFAULT_\w+),?\s*\)", building)}
    found = {}
    for variant, word in re.findall(r"OptionWord::(\w+) => \"(--\w+)\"", text):
        if variant in taken:
            low, high = taken[variant]
            found[word] = (low, number_of("plan_core", high), number_of("plan_words", usual[variant]))
        else:
            found[word] = "order" if variant == "Criteria" else "name"
    return found


def usual_order():
    text = source("plan_words/src/building.rt")
    listed = re.search(r"DEFAULT_ORDER: .*? = \[(.*?)\];", text, re.S).group(1)
    words = dict(re.findall(r"Criterion::(\w+) => \"(\w+)\"", source("outside_io/src/criteria.rt")))
    return [words[variant] for variant in re.findall(r"Criterion::(\w+)", listed)]


def laws():
    """For each law what Laws.antt says beside its words, the first sentence and the others, and these words."""
    text = source("plan_core/specs/Laws.antt")
    found = {}
    for block in re.split(r"^(?=-- Laws? \d)", text, flags=re.M)[1:]:
        told = [head(part, "--") for part in re.split(r"^(?!--).*\n", block, flags=re.M) if part.startswith("-- ")]
        words = re.findall(r"^(?:abbrev pub|pub record) (\w+)", block, re.M)
        for number in re.findall(r"\d", told[0].split(":")[0]):
            found[int(number)] = (told, words)
    return found


# ---- the tables that are made


def limits_table():
    """The limits, each with what the constant's remark says of it."""
    lines = ["| limit | of what | where it stands |", "|---|---|---|"]
    for crate, name in LIMITS:
        number, told = constant(crate, name)
        sentence = told.split(". ")[0].rstrip(".")
        lines.append(f"| {number:,} | {sentence[0].lower() + sentence[1:]} | `{name}` of `{crate}` |")
    return lines


def options_table():
    """The options of draw: what the launcher's help says of each, what it takes, and what is taken without it."""
    listed, lines = ", ".join(f"`{word}`" for word in criteria()), ["| option | what it is | value | without it |", "|---|---|---|---|"]
    said = help_options()
    for word, taken in options().items():
        if taken == "order":
            without = "all four in this order" if usual_order() == criteria() else ", ".join(usual_order())
            value = f"one to four distinct words of {listed}, parted by commas"
        elif taken == "name":
            value, without = "a word that isn't empty", "none"
        else:
            value, without = f"{taken[0]} to {taken[1]}", taken[2]
        lines.append(f"| `{word}` | {said.get(word, '')} | {value} | {without} |")
    return lines


def statuses_table():
    lines = ["| status | the run ends so, where |", "|---|---|"]
    return lines + [f"| {number} | {told[0].lower() + told[1:].rstrip('.')} |" for number, _, told in statuses()]


def laws_list():
    """What is said of the laws beside their words, once for those that stand together."""
    lines, last = [], None
    for told, _ in (found for _, found in sorted(laws().items())):
        if told != last:
            lines += textwrap.wrap("- " + "; ".join(one.rstrip(".") for one in told) + ".", 120,
                                   subsequent_indent="  ", break_long_words=False, break_on_hyphens=False)
        last = told
    return lines


def kinds_table():
    """The kinds of changes that prepare makes."""
    return ["| word | what is in the file | what is written |", "|---|---|---|",
            *(f"| `{it['word']}` | {it['found']} | {it['written']} |" for it in shell.data("mending_kinds.js"))]


TABLES_MADE = {"kinds": kinds_table, "limits": limits_table, "options": options_table, "statuses": statuses_table,
               "laws": laws_list, "rooms": rooms.table, "so_clause": theorem.clause_lines,
               "so_three": theorem.three_lines, "headline": lambda: theorem.listing(theorem.ANSWER),
               "best_words": lambda: theorem.listing(theorem.LAWS), "json_fields": shell.fields_table, **results.tables()}


def with_tables(text):
    """A page with each of its marked tables as the sources give it."""
    def made(mark):
        return f"<!-- made: {mark[1]} -->\n" + "\n".join(TABLES_MADE[mark[1]]()) + "\n<!-- end -->"
    return re.sub(r"<!-- made: (\w+) -->\n.*?<!-- end -->", made, text, flags=re.S)


def missing_tables():
    """Tables that stand on no page; nobody could find one that was taken away."""
    marked = [mark for path in DOCUMENTS for mark in re.findall(r"<!-- made: (\w+) -->", read(path))]
    return [f"docs: the table {name} stands on {marked.count(name)} pages" for name in TABLES_MADE if marked.count(name) != 1]


# ---- what pages say in prose


def section(path, title):
    found = re.search(rf"^##? {re.escape(title)}\n(.*?)(?=^##? |\Z)", read(path), re.M | re.S)
    return found.group(1) if found else ""


def fault_lists_that_differ():
    """The lists of faults of docs/formats, whose numbers, words and order are those of the sources."""
    found = []
    for title, path in FAULTS.items():
        told = [(int(number), word) for number, word in re.findall(r"^- \*\*(\d+) (\w+)\*\*: \S", section(FORMATS, title), re.M)]
        if told != faults(path):
            found.append(f"docs/formats: the faults under {title} aren't those of crates/{path}, in their order")
    return found


def fault_lines_that_fail():
    """Lines of faults that pages print; behind a signal's own line are three numbers."""
    found = []
    for path in DOCUMENTS:
        for table, number, word in re.findall(r"\b(words|text|topology|graph|order|sheet|signal|log|hints) (\d+) ([A-Z]\w+)"
                                              r"(?! \d+ \d+ \d+)\b", read(path)):
            if (int(number), word) not in faults(TABLES[table]):
                found.append(f"{show(path)}: there is no fault {table} {number} {word}")
    return found


def refusals_that_differ():
    """Why a line of a log is refused, in the order in which docs/formats tells it."""
    words = re.findall(r"Refusal::\w+ => \"(\w+)\"", source("log_check/src/verdict.rt"))
    told = re.findall(r"`check (\w+) line N`", section(FORMATS, "The answer on a log"))
    return [] if told == words else ["docs/formats: what check answers isn't what crates/log_check/src/verdict.rt has, in its order"]


def help_options():
    """What the launcher's table of words says of each option, without its numbers."""
    return {word: option.what for word, option in shell.OPTIONS.items()}


def statuses_that_fail():
    """The statuses of the launcher's help and of docs/formats."""
    found, told = [], shell.endings()
    section_text = " ".join(section(FORMATS, "Faults and statuses").split())
    for number, name, _ in statuses():
        if told.get(number) != ENDINGS.get(name):
            found.append(f"shell/both/manual.js: says of status {number} '{told.get(number)}', but {name} is '{ENDINGS.get(name)}'")
        found += [f"docs/formats: no answer of status {number} begins with {answer}"
                  for answer in ANSWERS[name] if f"- **{number}**: {answer}" not in section_text]
    numbers = {number for number, _, _ in statuses()} | {10, 130}
    beyond = set(told) - numbers | {int(number) for number in re.findall(r"- \*\*(\d+)\*\*", section_text)} - numbers
    return found + [f"shell/both/manual.js, docs/formats: there is no status {number}" for number in sorted(beyond)]


def help_that_fails():
    """The commands and options of the launcher's table of words, and whether its help names each."""
    found, told = [], {word: len(command.names) for word, command in shell.COMMANDS.items()}
    if told != commands():
        found.append(f"shell/both/commands.js: has the commands {told}, the program {commands()}")
    if list(shell.OPTIONS) != list(options()):
        found.append(f"shell/both/commands.js: has the options {list(shell.OPTIONS)}, the program {list(options())}")
    for word, taken in options().items():
        option = shell.OPTIONS.get(word)
        if not option:
            continue
        if isinstance(taken, tuple) and (option.low, option.high, option.usual) != (taken[0], taken[1], str(taken[2])):
            low, high, usual = taken
            found.append(f"shell/both/commands.js: {word} takes {low} to {high}, without it {usual}")
        if taken == "order" and option.usual != ",".join(usual_order()):
            found.append(f"shell/both/commands.js: says of {word} '{option.usual}', but the order is {','.join(usual_order())}")
    text = shell.overview()
    return found + [f"shell/both/manual.js: the help doesn't name {word}" for word in [*told, *shell.OPTIONS]
                    if not re.search(rf"^  {word}\b", text, re.M)]


def laws_that_fail():
    """The laws' sections in docs/trust/laws.md and their sentences in docs/trust/definitions.md."""
    found = []
    titles = [int(number) for number in re.findall(r"^## Law (\d): ", read(LAWS), re.M)]
    if titles != sorted(laws()):
        found.append(f"docs/trust/laws.md: has the laws {titles}")
    told = re.findall(r"^- `(\w+)`.*?: \*\*law (\d)\*\*", read(TOP / "docs" / "trust" / "definitions.md"), re.M)
    if [int(number) for _, number in told] != sorted(laws()):
        found.append(f"docs/trust/definitions.md: has the laws {[number for _, number in told]}")
    return found + [f"docs/trust/definitions.md: {word} isn't under law {number} in crates/plan_core/specs/Laws.antt"
                    for word, number in told if word not in laws().get(int(number), ("", []))[1]]


def prose_that_fails():
    """What README says of the example's values and of the order, and docs/formats of how many names a command has."""
    height, bends, diagonal, width = re.search(r"^values (\d+) (\d+) (\d+) (\d+)$", read(TOP / "examples/station.sheet"), re.M).groups()
    *front, last = usual_order()
    names = {word: WORDS_OF_NUMBERS[number] for word, number in commands().items()}
    ones, twos, threes = ([f"`{word}`" for word, number in commands().items() if number == many and word not in ("make", "trial")]
                          for many in (1, 2, 3))
    due = [(README, f"its highest row is row {height}, counted from 0, it has {bends} bends and diagonal {diagonal}, its last "
                    f"column is column {width}"),
           (README, f"better in {', '.join(front)} and {last}"),
           (FORMATS, f"{', '.join(ones[:-1])} and {ones[-1]} have {names['draw']} name, {' and '.join(twos)} {names['verify']}, "
                     f"{', '.join(threes[:-1])} and {threes[-1]} {names['check']}, `trim` {names['trim']}, and `make` and `trial` "
                     f"{names['make']}")]
    return [f"{show(page)}: doesn't say '{text}'" for page, text in due if text not in " ".join(read(page).split())]


def told_number(text, number):
    """Whether a text is a number, in digits with or without commas, or as a word."""
    plain = text.replace(",", "").lower()
    return plain == str(number) or number < len(WORDS_OF_NUMBERS) and plain == WORDS_OF_NUMBERS[number]


def all_failures():
    return (missing_tables() + fault_lists_that_differ() + fault_lines_that_fail() + refusals_that_differ()
            + statuses_that_fail() + help_that_fails() + laws_that_fail() + prose_that_fails())

"""Sentences by hand that say what a line of the sources says, and numbers in prose.

A definition isn't made into prose by a program. So a sentence that must not turn round stands here beside the line of the sources
that it tells: where either is another one now, whoever changed it reads both and mends the third, which is this table.
Where a line of the sources is wanted, white space counts for nothing."""
import re

from checking.crates import TOP, read
from checking.numbers import constants, told_number

DEFINITIONS, FORMATS, LAWS, README = "docs/trust/definitions.md", "docs/formats", "docs/trust/laws.md", "README.md"

# (crate, constant, how many more the page says, page, pattern), each number of a page being where `#` stands in the pattern
NUMBERS = [
    ("plan_core", "MAX_TRACKS", 0, README, r"at most # tracks"),
    ("plan_core", "MAX_NODES", 0, README, r"its graph # nodes"),
    ("plan_core", "MAX_EDGES", 0, README, r"crossings\) and # edges"),
    ("plan_words", "DEFAULT_WIDTH", 0, README, r"columns 0 to # and rows"),
    ("plan_words", "DEFAULT_HEIGHT", 0, README, r"columns 0 to \d+ and rows 0 to #"),
    ("plan_core", "MAX_WIDTH", 0, README, r"`--width # --height \d+` is the largest"),
    ("plan_core", "MAX_HEIGHT", 0, README, r"`--width \d+ --height #` is the largest"),
    ("plan_words", "DEFAULT_BUDGET", 0, README, r"one from each dead end: #, or what"),
    ("plan_core", "MAX_BUDGET", 0, README, r"says, up to #\."),
    ("plan_core", "MAX_WIDTH", 0, README, r"on \d+ of them, # by \d+,"),
    ("plan_core", "MAX_HEIGHT", 0, README, r"on \d+ of them, \d+ by #,"),
    ("plan_core", "MAX_WIDTH", 0, "docs/use/guide.md", r"lawful on # by \d+ either"),
    ("plan_core", "MAX_HEIGHT", 0, "docs/use/guide.md", r"lawful on \d+ by # either"),
    ("plan_words", "DEFAULT_BUDGET", 0, "docs/use/guide.md", r"may learn # clauses"),
    ("plan_core", "MAX_BUDGET", 0, "docs/use/guide.md", r"`--conflicts #`, for fewer"),
    ("cdcl_core", "RESTART", 0, "docs/work/decisions.md", r"restart every # conflicts stays"),
    ("plan_words", "MAX_SEED", 0, FORMATS, r"that of `make` and of `trial` 0 to #"),
    ("plan_core", "MAX_FILE_BYTES", 0, FORMATS, r"A file of up to # bytes"),
    ("plan_core", "MAX_LOG_BYTES", 0, FORMATS, r"the log with up to # bytes"),
    ("railml_read", "MAX_DEPTH", 0, FORMATS, r"more than # elements would be open"),
    ("plan_core", "MAX_TRACKS", 0, FORMATS, r"more than # tracks"),
    ("plan_core", "MAX_TRACKS", 1, FORMATS, r"the #th track"),
    ("plan_core", "MAX_ID_BYTES", 0, FORMATS, r"an id has not 1 to # bytes"),
    ("outside_io", "MAX_NUMBER", 0, FORMATS, r"isn't canonical or is above #;"),
    ("outside_io", "MAX_NUMBER", 0, FORMATS, r"The bound of # isn't"),
    ("outside_io", "MAX_NUMBER", 0, FORMATS, r"and k is 1 to #"),
    ("cnf_core", "LAST_VAR", 0, FORMATS, r"Variables are 1 to #,"),
    ("plan_core", "MAX_NODES", 0, FORMATS, r"more than # nodes"),
    ("plan_core", "MAX_EDGES", 0, FORMATS, r"more than # edges"),
    ("run_draw_front", "TRIAL_BUDGET", 0, FORMATS, r"budget of #,"),
    ("plan_core", "MAX_WIDTH", 0, DEFINITIONS, r"the width is 1 to #, the height"),
    ("plan_core", "MAX_HEIGHT", 0, DEFINITIONS, r"the height 0 to # and the least"),
    ("plan_core", "MAX_LEAST", 0, DEFINITIONS, r"the least length 1 to #\."),
    ("plan_core", "MAX_NODES", 0, DEFINITIONS, r"There are at most # nodes"),
    ("plan_core", "MAX_EDGES", 0, DEFINITIONS, r"at most \d+ nodes and # edges"),
    ("plan_objects", "MAX_SIGNALS", 0, FORMATS, r"more than # signals"),
    ("plan_objects", "MAX_SIGNALS", 1, FORMATS, r"it is the #th\."),
    ("plan_objects", "SIGNALS_OF_AN_EDGE", 1, FORMATS, r"it is the #th signal"),
    ("plan_core", "MAX_FILE_BYTES", 1, "docs/trust/trusted.md", r"one byte: # bytes for `draw`"),
    ("plan_core", "MAX_LOG_BYTES", 1, "docs/trust/trusted.md", r"`verify`, # of a log"),
    ("plan_core", "MAX_EDGES", 0, "crates/README.md", r"one more \(#, \d+\) in"),
    ("plan_core", "MAX_EDGES", 1, "crates/README.md", r"one more \(\d+, #\) in"),
]

GEOMETRY = "plan_core/specs/Laws.antt"

# (file under crates/, or from `shell/` or `.ci/` on, a line of it, and the sentences that tell it: of each its page and its words)
SAYINGS = [
    # the seven laws
    (GEOMETRY, "pub in_width : p.x ≤ grid.width pub in_height : p.y ≤ grid.height",
     [(LAWS, "Each node's point and each point of a line lies on columns 0 to the width and rows 0 to the height."),
      (DEFINITIONS, "each node's point, and each point of each line, has x at most the grid's width and y at most its height.")]),
    (GEOMETRY, "InOrder Less u_x v_x = u_x ≤ v_x InOrder Equal u_x v_x = u_x ≡ v_x InOrder Greater u_x v_x = v_x ≤ u_x",
     [(LAWS, "## Law 2: mileages from west to east"),
      (LAWS, "A node of smaller mileage doesn't stand further east, and two of one mileage stand in one column."),
      (DEFINITIONS, "a node of smaller mileage has no greater x than one of greater mileage, and equal mileages have one x.")]),
    (GEOMETRY, "pub is_long : (place d (edge g e).west).x + grid.least ≤ (place d (edge g e).east).x",
     [(LAWS, "An edge's line begins at the point of its west node and ends at that of its east node."),
      (LAWS, "It goes over as many columns as the grid's least length, or more; the least length is 1 unless another is asked for."),
      (DEFINITIONS, "each edge's line begins at its west node's point and ends at its east node's point, and the x of the second "
                    "exceeds that of the first by the grid's least length or more.")]),
    (GEOMETRY, "PortsAreAligned at_node (End e side) = at_node e ≡ Level",
     [(LAWS, "At the end of a track the line is level."), (DEFINITIONS, "At an end the line is level.")]),
    (GEOMETRY, "PortsAreAligned at_node (Joint west east) = at_node west ≡ at_node east",
     [(LAWS, "Through a joint both lines have one slope."), (DEFINITIONS, "At a joint both slopes are equal.")]),
    (GEOMETRY, "Diverges East Upper s diverging = IsOneMore s diverging Diverges East Lower s diverging = IsOneMore diverging s "
               "Diverges West Upper s diverging = IsOneMore diverging s Diverges West Lower s diverging = IsOneMore s diverging",
     [(LAWS, "Read slopes from west to east. With legs in the east an upper leg rises one step more, and a lower one falls one step "
             "more. With legs in the west an upper leg falls one step more to the switch, and a lower one rises one step more."),
      (DEFINITIONS, "with legs in the east, s + 1 where it is the upper one and s - 1 where it is the lower one, with legs in the "
                    "west the other way round")]),
    (GEOMETRY, "pub goes_straight : at_node straight ≡ at_node trunk",
     [(LAWS, "At a switch the trunk and the straight leg have one slope, and the diverging leg is the next steeper one on its side"),
      (DEFINITIONS, "At a switch trunk and straight leg have one slope s")]),
    (GEOMETRY, "pub rising_is_greater : steepness (at_node west_upper) <ℤ steepness (at_node west_lower)",
     [(LAWS, "At a crossing each path has one slope on both sides, and the rising path's is the greater."),
      (DEFINITIONS, "At a crossing each path has one slope on both sides, and the rising path's is the greater")]),
    (GEOMETRY, "NodesAreApart d u v = place d u ≢ place d v",
     [(LAWS, "Two nodes don't have one point."), (DEFINITIONS, "distinct nodes have distinct points.")]),
    (GEOMETRY, "EdgeIsOver g d e f = (x : ℕ) → AreCompared g d e f x → height (line d f) x < height (line d e) x",
     [(LAWS, "Where the track graph has one edge above another, its line is higher in each column that both lines have. The column "
             "of a node at which both end is excepted."),
      (DEFINITIONS, "where one edge is above another, its line is the higher one over each column that both lines have, but for the "
                    "column of a node that is an end of both.")]),
    (GEOMETRY, "EdgesAreParted g d e f = EdgeIsOver g d e f ⊎ EdgeIsOver g d f e",
     [(LAWS, "Two edges that overlap in mileage, of which the graph has neither above the other, may lie either way round, but one of "
             "the two is the higher one in all their columns"),
      (DEFINITIONS, "of every other overlapping pair one line is the higher one over all these columns.")]),
    # lines, values and what is better
    ("plan_core/specs/Line.antt",
     "is_shape (Up ∷ Level ∷ Up ∷ []) = true is_shape (Up ∷ Level ∷ Down ∷ []) = true is_shape (Down ∷ Level ∷ Up ∷ []) = true "
     "is_shape (Down ∷ Level ∷ Down ∷ []) = true is_shape other = false",
     [(LAWS, "A line has at most one level piece, and a rise and a fall never meet without one between them; so there are these "
             "eleven shapes"),
      (DEFINITIONS, "level; up; down; up level; down level; level up; level down; up level up; up level down; down level up; down "
                    "level down.")]),
    ("plan_core/specs/Values.antt",
     "height = maximum (map (λ p. p.y) (all_points d)); bends = sum_by bends d.lines; diagonal = sum_by diagonal d.lines; "
     "width = maximum (map (λ p. p.x) (all_points d));", []),
    ("run_check/specs/Verdict.antt", "(values.height ∷ values.bends ∷ values.diagonal ∷ values.width ∷ [])",
     [(FORMATS, "`lawful HEIGHT BENDS DIAGONAL WIDTH`, the drawing's own values"), (FORMATS, "values HEIGHT BENDS DIAGONAL WIDTH")]),
    # sides
    ("port_graph/specs/PortRule.antt",
     "side_of_hand East Left = Upper side_of_hand East Right = Lower side_of_hand West Left = Lower side_of_hand West Right = Upper",
     [(FORMATS, "Left, seen from a switch's points towards its legs, is the upper side where the legs lie east, and the lower side "
                "where they lie west."),
      (README, "West is where mileages are smaller, and upper is to your left when you look towards rising mileages.")]),
    ("railml_topology/specs/Resolved.antt",
     "IsCourseOf switch branch hand false = branch.attrs.course ≡ Some (hand_word hand)",
     [(FORMATS, "With the course `left` or `right` the branch diverges to that hand and the track goes straight; with `straight` the "
                "track diverges to the hand that the switch's `trackContinueCourse` names, and the branch is the straight leg."),
      (FORMATS, "An `outgoing` branch leaves towards the track's end, an `incoming` one comes from its begin.")]),
    # numbers of metres
    ("rail_mileage/specs/Metres.antt",
     "pub whole_limit : length parts.whole ≤ 9 pub fraction_limit : length (fraction_digits parts.fraction) ≤ 6",
     [(FORMATS, "up to 9 digits, a point with up to 6 digits or no point, white space, at least one digit in all")]),
    ("rail_mileage/src/lib.rt", "const METRE: u64 = 1_000_000;", [(FORMATS, "A mileage is kept in micrometres")]),
    # the command line
    ("plan_words/specs/WordFaults.antt", "pub few : length (argument_names arguments) < name_count command pub place : position ≡ end",
     [(FORMATS, "the words end with too few names. Position: the number of words plus 1.")]),
    # texts
    ("plan_write/specs/SvgText.antt", "pixels_across x = 20 + 40 * x", [(FORMATS, "has X = 20 + 40 x")]),
    ("plan_write/specs/SvgText.antt", "pixels_down height y = 20 + 40 * (height - y)", [(FORMATS, "Y = 20 + 40 (h - y)")]),
    ("plan_write/specs/SvgText.antt", "extent n = 40 * n + 40", [(FORMATS, "with A being 40 w + 40 and B being 40 h + 40")]),
    ("plan_write/specs/SvgText.antt", "decimal (pixels_down height p.y - 6)", [(FORMATS, "and Z is Y - 6")]),
    ("plan_write/specs/GraphText.antt", "codes \"railgraph 1\\n\"", [(FORMATS, "``` railgraph 1 nodes N")]),
    ("refute_log/specs/Lines.antt", "header = codes \"railplan-log 1\\n\"", [(FORMATS, "The first is `railplan-log 1`.")]),
    ("refute_log/specs/Lines.antt", "line_letter (Formula c) = codes \"f\"", [(FORMATS, "| Formula | `f`, its literals, `0` |")]),
    ("refute_log/specs/Lines.antt", "line_letter (Learnt c) = codes \"l\"",
     [(FORMATS, "| Learnt | `l`, one or more literals, the asserting one first, `0` |")]),
    ("refute_log/specs/Lines.antt", "line_letter (Bound criterion k x) = codes \"b\"",
     [(FORMATS, "| Bound | `b`, one of `height` `bends` `diagonal` `width`, k, the variable |")]),
    ("refute_log/specs/Lines.antt", "line_letter (Query c) = codes \"q\"", [(FORMATS, "| Query | `q`, the assumed literals, `0` |")]),
    ("refute_log/specs/Lines.antt", "line_letter (Refuted c) = codes \"r\"", [(FORMATS, "| Refuted | `r`, its literals, `0` |")]),
    ("refute_log/specs/Lines.antt", "line_letter Model = codes \"m\"", [(FORMATS, "| Model | `m` |")]),
    # made stations
    ("station_make/specs/Station.antt", "loops n = n % 15 + 1",
     [(FORMATS, "K being N mod 15 + 1")]),
    ("station_make/specs/Station.antt", "if bit_at (n / 15) i == 0 then Upper else Lower",
     [(FORMATS, "is upper where bit I of N / 15, rounded down, is 0, else lower")]),
    ("station_make/specs/Station.antt", "leaving i = 1000 * i + 200", [(FORMATS, "A is 1000 I + 200")]),
    ("station_make/specs/Station.antt", "returning i = 1000 * i + 800", [(FORMATS, "B is 1000 I + 800")]),
    ("station_make/specs/Station.antt", "main_length n = 1000 * loops n", [(FORMATS, "L is 1000 K")]),
    ("run_draw_front/src/trialling.rt", "const TRIAL_GRID: (u16, u16) = (64, 2);",
     [(FORMATS, "on a grid of 64 by 2"), ("docs/trust/trusted.md", "on a grid of 64 by 2")]),
    ("run_draw_front/src/trialling.rt", "Order::new(&[Criterion::Height, Criterion::Width])", [(FORMATS, "in the order `height,width`")]),
    ("plan_core/src/limits.rt", "MAX_FILE_BYTES: usize = 4_194_304;", [(README, "4 MiB")]),
    # around the program
    ("shell/both/messages/not_shown.js",
     'const SLIPS = new Map([["doubleSwitchCrossing", "a double slip"], ["simpleSwitchCrossing", "a single slip"]]);',
     [(README, "A slip with two connections is drawn as a crossing without its slips, a Y switch with one straight leg; standard "
               "error says each. Three-way switches are faults.")]),
    ("shell/terminal/launch.js", "say(unforeseen(error)); return refused(given, 10, unforeseen(error));",
     [(FORMATS, "The launcher ends with 10 too"), ("THEOREM.md", "The launcher also ends with 10 and 130")]),
    ("shell/terminal/built.js", 'FIRST_BUILD = "most of an hour on four processors"; export const UNPROVED_BUILD = "two to three minutes";',
     [(README, "`railplan prove` takes most of an hour on four processors"), (README, "builds the program without proofs, in two to three minutes")]),
    ("shell/terminal/install.js", 'line.words[1] ?? "~/.local"', [(README, "`./railplan install ~/.local` copies what it needs into `~/.local`")]),
    ("shell/both/page/columns.js", 'PAPERS = new Map([["A4", [297, 210]], ["A3", [420, 297]], ["A2", [594, 420]], ["A1", [841, 594]]]);', [("docs/use/guide.md", "A4 to A1 go as well")]),
    (".ci/run", "{ rt ci echo $? >out/gate.status times >&2 } | tee out/gate.log", [(README, "`.ci/run` is the gate. It runs `rt ci` (proofs, tests, edits that must fail)")]),
    (".ci/run", "rm -f out/railplan.wasm out/desk.html cases/as_wasm >&2 || status=1 shell/check >&2 || status=1 "
     "cases/run $program >&2 || status=1 cases/real/run $program >&2 || status=1 [ ! -e out/desk.html ] || bench/desk.py --short out/desk.html >&2 "
     "|| status=1 bench/hostile/run $program >&2 || status=1 mypy >&2 || status=1 python3 docs/check",
     [(README, "the types and tests of `shell/`, the runs of `cases/`, also with the program as WebAssembly, a desk in a browser, "
       "`bench/hostile`, the types of scripts, and `docs/check`")]),
]


def plain(text):
    return " ".join(text.split())


def numbers_that_differ():
    known, found = constants(), []
    for crate, name, more, page, pattern in NUMBERS:
        number = known[crate, name][0] + more if (crate, name) in known else None
        told = re.findall(pattern.replace(" ", r"\s+").replace("#", r"(\d[\d,]*\d|\d|[a-z]+)"), read(TOP / page))
        if not told or not all(told_number(text, number) for text in told):
            found.append(f"{page}: {name} of {crate} is {number}, but '{pattern}' has {', '.join(told) or 'no place'} for #")
    return found


def sayings_that_fail():
    found = []
    for name, line, told in SAYINGS:
        path = name if name.startswith(("shell/", ".ci/")) else f"crates/{name}"
        if plain(line) not in plain(read(TOP / path)):
            found.append(f"{path}: has no line '{plain(line)[:70]}' any more; read what pages say of it, and "
                         "docs/checking/sayings.py")
        found += [f"{page}: doesn't say '{words[:100]}', which tells '{plain(line)[:60]}' of {path}"
                  for page, words in told if words not in plain(read(TOP / page))]
    return found


def all_failures():
    return numbers_that_differ() + sayings_that_fail()

#!/usr/bin/env python3
"""Holds fronts, explanations and redrawn stations against another encoder.

The stations are made by chance, and each case follows from its number. What is said of drawings is judged by `drawing.py`,
which has the laws anew, and by the clauses of `encoder.py` with cadical.
- front: the pairs are those that cadical finds, all of them and no others.
- explain: no drawing that keeps laws 1 and 3 meets the named laws together; each printed drawing keeps these two and meets the
  named laws but the one whose number it has. Where `drawing exists` is said, there is a lawful one.
- redraw: the drawing is lawful, as many nodes moved as is said, and fewer can't be. The Formula lines of the log are those of
  `draw` and behind them those of the definition of moved nodes; these count the moved nodes of lawful drawings; the other lines
  follow, and one says that fewer can't be.
With --plant each answer gets mistakes, each of which has to be seen: a lost pair and false ones, a law left out, a law too
many, a moved node more and one less, a moved clause that is dropped. It needs Debian's packages g++ and libcadical-dev."""
from __future__ import annotations

import argparse
import os
import random
import subprocess
import sys
import tempfile
from collections import Counter
from concurrent.futures import ProcessPoolExecutor
from functools import partial
from pathlib import Path
from typing import Any

sys.dont_write_bytecode = True
HERE = Path(__file__).resolve().parent
sys.path.append(str(HERE))
import cadical  # noqa: E402
import chance_stations  # noqa: E402
import graph as graphs  # noqa: E402
from cadical import GivenUp  # noqa: E402
from clauses import Numbering  # noqa: E402
from drawing import CRITERIA, Drawing, Grid, SheetReader, numbers, read_sheet, sheet_text  # noqa: E402
from encoder import Law, laws_of  # noqa: E402
from larger import BUILT, CONFLICTS, DEFAULT, Told, judged, larger_station, made_station  # noqa: E402
from moved import Moved, drawing_clauses, faults_of_counting, faults_of_log, last_of, moved_clauses, read_moved  # noqa: E402
from optima import Optima, Point, moved_of  # noqa: E402
from reading import Refused  # noqa: E402

SMALL = (Grid(8, 2), Grid(10, 3), Grid(12, 4), Grid(16, 3, 2))
NARROW = (Grid(2, 1), Grid(3, 1), Grid(4, 0), Grid(4, 1), Grid(5, 1), Grid(6, 2), Grid(10, 1), Grid(12, 2, 3), Grid(20, 2), Grid(40, 1))
DROPPED = 12


class Case:
    """a case while it runs, in a folder of its own: what was counted, and what is wrong"""

    def __init__(self, words: argparse.Namespace, kind: str, seed: int, folder: Path) -> None:
        self.words, self.seed, self.folder, self.name = words, seed, folder, f"{kind} {seed}"
        self.chance = random.Random(self.name)
        self.counts, self.said = Counter[str](), list[str]()

    def run(self, *words: str) -> tuple[int, bytes]:
        ran = subprocess.run([self.words.program, *words], cwd=self.folder, capture_output=True, check=False)
        return ran.returncode, ran.stdout

    def hold(self, what: str, faults: list[str]) -> None:
        self.counts[what] += 1
        self.said += [f"{self.name}: {fault}" for fault in faults]

    def plant(self, what: str, faults: list[str]) -> None:
        """a mistake was planted, and these are its faults"""
        self.counts[f"{what}, seen" if faults else f"{what}, NOT SEEN".upper()] += 1

    def optima(self, graph: Any, grid: Grid, laws: list[Law] | None = None) -> Optima:
        return Optima(self.words.models, graph, grid, CONFLICTS, laws)


def any_station(case: Case, least: int) -> tuple[bytes, Any]:
    return made_station(case.chance, least) if case.seed % 2 else larger_station(case.chance, least)


# ---- fronts

Pairs = list[tuple[int, int]]


def read_front(text: bytes, first: str, second: str) -> tuple[Pairs, str]:
    """the pairs, and how the search ended"""
    *lines, last, tail = text.decode().split("\n")
    if lines[:2] != ["railplan-front 1", f"front {first} {second}"] or tail or not last.startswith("end "):
        raise Refused(b"front")
    fields = [line.split(" ") for line in lines[2:]]
    if any(len(it) != 3 or it[0] != "pair" or numbers([part.encode() for part in it[1:]]) is None for it in fields):
        raise Refused(b"front")
    return [(int(one), int(other)) for _, one, other in fields], last[4:]


def faults_of_status(status: int, ending: str, done: str) -> list[str]:
    """that a status and how the text ends don't go together; `done` is how one ends that has the answer"""
    return [] if ending in {0: (done,), 3: ("none",), 4: ("conflicts", "room")}.get(status, ()) else [
        f"a run that ends with {status} says `end {ending}`"]


def faults_of_front(status: int, pairs: Pairs, ending: str, found: Pairs) -> list[str]:
    wanted = found[:len(pairs)] if ending in ("conflicts", "room") else found
    is_end = ending in ("conflicts", "room") or ending == ("whole" if found else "none")
    return faults_of_status(status, ending, "whole") + (
        [] if pairs == wanted and is_end else [f"{pairs} and {ending} are printed, and {found} is the front"])


def hold_front(case: Case) -> None:
    text, graph = any_station(case, 8)
    grid = case.chance.choice([DEFAULT, DEFAULT, Grid(20, 6), *SMALL])
    # height and width are what most stations have a choice between
    first, second = case.chance.sample(("height", "width") if case.seed % 4 == 1 else CRITERIA, 2)
    (case.folder / "station").write_bytes(text)
    status, printed = case.run("front", "station", f"{first},{second}", *grid.words())
    pairs, ending = read_front(printed, first, second)
    with case.optima(graph, grid) as optima:
        found = optima.front(first, second)
    kind = {0: "without a pair", 1: "of one pair"}.get(len(found), "of more pairs")
    kind = f"fronts {kind}" if ending in ("whole", "none") else "fronts that aren't finished"
    case.hold(kind, faults_of_front(status, pairs, ending, found))
    if case.words.plant:
        case.plant("a wrong status", faults_of_front(3 if status == 0 else 0, pairs, ending, found))
        case.plant("a wrong ending", faults_of_front(status, pairs, "none" if found else "whole", found))
        case.plant("a pair where there may be none", faults_of_front(status, [*pairs, (64, 64)], ending, found))
    if case.words.plant and pairs and ending == "whole":
        at = case.chance.randrange(len(pairs))
        one, other = pairs[at]
        case.plant("a lost pair", faults_of_front(status, pairs[:at] + pairs[at + 1:], ending, found))
        for false in ((one, other - 1), (one, other + 1), (one + 1, other)):
            case.plant("a false pair", faults_of_front(status, [*pairs[:at], false, *pairs[at + 1:]], ending, found))
        case.plant("a pair too many", faults_of_front(status, [*pairs, (pairs[-1][0] + 1, pairs[-1][1])], ending, found))


# ---- explanations


def read_why(graph: Any, text: bytes) -> tuple[list[Law], list[Drawing]]:
    """the laws, and for each the drawing without it"""
    reader, laws, drawings = SheetReader(graph, text, True), list[Law](), list[Drawing]()
    reader.hold(reader.line() == [b"railplan-why", b"1"])
    fields = reader.line()
    reader.hold(len(fields) == 2 and fields[0] == b"laws")
    for _ in range(reader.numbers(fields[1:])[0]):
        fields = reader.line()
        reader.hold(fields[0] == b"law" and len(fields) in (4, 6))
        number, *parties = reader.numbers([fields[1], *fields[3::2]])
        reader.hold(set(fields[2::2]) == {b"node" if number in (2, 4, 5) else b"edge"})
        laws.append((number, tuple(parties)))
    for number in range(len(laws)):
        reader.hold(reader.line() == [b"without", b"%d" % (number + 1)])
        drawings.append(reader.drawn(reader.line()))
    reader.hold(reader.line() == [b"end", b"why"] and reader.at == len(reader.lines) and not reader.tail)
    return laws, drawings


def faults_of_why(case: Case, graph: Any, grid: Grid, laws: list[Law], drawings: list[Drawing]) -> list[str]:
    faults = []
    if not set(laws) <= set(laws_of(graph)) or len(set(laws)) < len(laws) or len(drawings) != len(laws):
        faults.append(f"{laws} aren't distinct laws of the station, with a drawing for each")
    for law, drawing in zip(laws, drawings):
        if not drawing.is_loose(grid):
            faults.append(f"the drawing without {law} breaks law 1 or 3")
        met = [it for it in laws if drawing.meets(*it)]
        if met != [it for it in laws if it != law]:
            faults.append(f"the drawing without {law} meets {met}")
    with case.optima(graph, grid, laws) as optima:
        if optima.found([]) is not None:
            faults.append(f"{laws} are met together")
    return faults


def hold_why(case: Case) -> None:
    text, graph = any_station(case, 6)
    grid = case.chance.choice(NARROW)
    (case.folder / "station").write_bytes(text)
    status, printed = case.run("explain", "station", *grid.words())
    is_open = printed in (b"why conflicts\n", b"why room\n")
    if status != (4 if is_open else 0):
        case.said.append(f"{case.name}: a run that ends with {status} says {printed[:40]!r}")
    if is_open:
        case.hold("explanations that aren't finished", [])
    elif printed == b"drawing exists\n":
        with case.optima(graph, grid) as optima:
            case.hold("stations with a drawing", [] if optima.found([]) else ["no drawing is lawful"])
    else:
        laws, drawings = read_why(graph, printed)
        case.hold("explanations" if laws else "explanations without a law", faults_of_why(case, graph, grid, laws, drawings))
        case.counts["laws in explanations"] += len(laws)
        if case.words.plant and laws:
            planted_laws(case, graph, grid, laws, drawings)


def planted_laws(case: Case, graph: Any, grid: Grid, laws: list[Law], drawings: list[Drawing]) -> None:
    for at in range(len(laws)):
        faults = faults_of_why(case, graph, grid, laws[:at] + laws[at + 1:], drawings[:at] + drawings[at + 1:])
        case.plant("a law left out", faults)
    others = [law for law in laws_of(graph) if law not in laws]
    if others:
        law, drawing = case.chance.choice(others), case.chance.choice(drawings)
        faults = faults_of_why(case, graph, grid, [*laws, law], [*drawings, drawing])
        case.plant("a law too many", faults)
    lines = [[(column, grid.height + 1) for column, _ in line] for line in drawings[0].lines]
    off = Drawing(graph, [(column, grid.height + 1) for column, _ in drawings[0].points], lines)
    case.plant("a drawing off its grid", faults_of_why(case, graph, grid, laws, [off, *drawings[1:]]))


# ---- redrawn stations


def changed_station(chance: random.Random) -> tuple[bytes, bytes]:
    """a station before and after a change, both without a fault; most names stay"""
    while True:
        station = chance_stations.Station(chance)
        texts = []
        for number in range(2):
            station.count = 1000
            texts.append(station.text())
            station.count = 2000 + 100 * number
            for _ in range(chance.choice([0, 1, 1, 2, 3])):
                chance.choice([station.loop, station.siding, station.crossover, station.joint])()
        try:
            if all(6 <= len(graphs.load(text).nodes) <= 14 for text in texts):
                return texts[0], texts[1]
        except Refused:
            continue


def former_sheet(case: Case, old: Any) -> Drawing | None:
    """a drawing of the former station, which may be unlawful, as the file `sheet`"""
    sheet = chance_stations.any_sheet(case.chance, old) if case.chance.random() < 0.3 else None
    text = sheet_text(sheet) if sheet else case.run("draw", "old", "--order", "height")[1]
    (case.folder / "sheet").write_bytes(text)
    found: Drawing | None = read_sheet(old, text).drawing
    return found


def hold_redraw(case: Case) -> None:
    old_text, text = changed_station(case.chance)
    graph, old = graphs.load(text), graphs.load(old_text)
    (case.folder / "old").write_bytes(old_text)
    (case.folder / "station").write_bytes(text)
    grid, drawn = case.chance.choice(SMALL), former_sheet(case, old)
    if drawn is None:
        case.hold("former stations without a drawing", [])
        return
    points = {node.name: drawn.points[node.number] for node in old.nodes}
    former = [points.get(node.name) for node in graph.nodes]
    status, printed = case.run("redraw", "station", "old", "sheet", *grid.words(), "--log", "log")
    answer = read_moved(graph, grid, printed)
    with case.optima(graph, grid) as optima:
        lawful, least = optima.found([]), optima.fewest(former)
    fewest = moved_of(least, former) if least else None
    kind = "stations redrawn" if least else "stations without a drawing, redrawn"
    case.hold(kind if answer.ending in ("best", "none") else "redraws that aren't finished",
              faults_of_status(status, answer.ending, "best") + faults_of_moved(grid, former, answer, fewest))
    case.counts["matched nodes"] += answer.matched
    case.counts["moved nodes"] += answer.moved
    judged_log(case, grid, former, answer, [it for it in (answer.drawing, lawful) if it])
    if case.words.plant and answer.drawing:
        for more in (-1, 1):
            planted = Moved(answer.ending, answer.moved + more, answer.matched, answer.drawing)
            case.plant("a wrong number of moved nodes", faults_of_moved(grid, former, planted, fewest))
        case.plant("more moved nodes than have to be", faults_of_moved(grid, former, answer, answer.moved - 1))
        case.plant("a false end none", faults_of_moved(grid, former, Moved("none"), fewest))
        case.plant("end best without a drawing", faults_of_moved(grid, former, Moved("best"), fewest))
        place = answer.drawing.points[0]
        off = Drawing(graph, [(place[0], place[1] + 1), *answer.drawing.points[1:]], answer.drawing.lines)
        planted = Moved(answer.ending, moved_of(off, former), answer.matched, off)
        case.plant("an unlawful drawing", faults_of_moved(grid, former, planted, fewest))


def faults_of_moved(grid: Grid, former: list[Point | None], answer: Moved, fewest: int | None) -> list[str]:
    faults = []
    if answer.drawing:
        moved, matched = moved_of(answer.drawing, former), sum(it is not None for it in former)
        if (answer.moved, answer.matched) != (moved, matched):
            faults.append(f"{answer.moved} of {answer.matched} is printed, and {moved} of {matched} nodes moved")
        if answer.drawing.broken(grid):
            faults.append("the drawing breaks a law")
    if (answer.drawing is None) != (answer.ending == "none") and answer.ending in ("best", "none"):
        faults.append(f"`end {answer.ending}` is said {'with a' if answer.drawing else 'without a'} drawing")
    wanted = {"best": answer.moved, "none": None}.get(answer.ending, fewest)
    return faults if wanted == fewest else [*faults, f"{wanted} is said to be the fewest, and {fewest} is"]


def judged_log(case: Case, grid: Grid, former: list[Point | None], answer: Moved, drawings: list[Drawing]) -> None:
    graph = graphs.load((case.folder / "station").read_bytes())
    case.run("draw", "station", *grid.words(), "--order", "height", "--log", "drawn")
    clauses, log = drawing_clauses((case.folder / "drawn").read_bytes()), (case.folder / "log").read_bytes()
    numbering, last = Numbering(graph, grid), last_of(clauses)
    faults = faults_of_log(log, clauses, numbering, former, answer)
    faults = faults or faults_of_counting(case.words.models, log, last, numbering, former, drawings)
    case.hold("logs of redraw", faults)
    behind = moved_clauses(numbering, former, last)
    case.counts["moved clauses"] += len(behind)
    if case.words.plant and not faults:
        lines = log.split(b"\n")
        for at in case.chance.sample(range(len(behind)), min(DROPPED, len(behind))):
            place = 1 + len(clauses) + at
            dropped = b"\n".join(lines[:place] + lines[place + 1:])
            case.plant("a dropped moved clause", faults_of_log(dropped, clauses, numbering, former, answer))
            if faults_of_counting(case.words.models, dropped, last, numbering, former, drawings):
                case.counts["a dropped moved clause, seen by what the others count"] += 1


# ---- all of them

KINDS = {"front": hold_front, "explain": hold_why, "redraw": hold_redraw}


def case_of(words: argparse.Namespace, kind: str, seed: int) -> Told:
    with tempfile.TemporaryDirectory() as folder:
        case = Case(words, kind, seed, Path(folder))
        try:
            KINDS[kind](case)
        except GivenUp:
            return Counter({"cases in which cadical gave up": 1}), []
        except Refused as why:
            case.said.append(f"{case.name}: a text isn't of its form: {why.line.decode()}")
    return case.counts, case.said


def asked() -> argparse.Namespace:
    parser = argparse.ArgumentParser(description=__doc__, formatter_class=argparse.RawDescriptionHelpFormatter)
    parser.add_argument("program", type=Path, nargs="?", default=BUILT, metavar="PROGRAM")
    parser.add_argument("--kinds", nargs="*", choices=list(KINDS), default=list(KINDS), help="what is judged (all)")
    parser.add_argument("--cases", type=int, default=200, help="how many of each (200)")
    parser.add_argument("--plant", action="store_true", help="plants mistakes, which are to be seen")
    parser.add_argument("--jobs", type=int, default=os.cpu_count(), help="how many run side by side")
    return parser.parse_args()


def main() -> int:
    words = asked()
    words.program = words.program.resolve()
    with tempfile.TemporaryDirectory() as room, ProcessPoolExecutor(words.jobs) as pool:
        words.models = cadical.built(Path(room))
        failures = [judged(pool, partial(case_of, words, kind), words.cases, f"{kind}: ") for kind in words.kinds]
    return int(any(failures))


if __name__ == "__main__":
    sys.exit(main())

#!/usr/bin/env python3
"""Holds the answers to larger stations against clingo and another encoder.

Each station has eight nodes or more, made by chance, and follows from its number; with --made some are of the kinds of
`made_stations.py`, of a size by chance.
- The least values: `draw` on the default grid, and on others, is compared with the least that cadical finds of the clauses of
  `encoder.py`, which were written from docs/trust/laws.md: the values in the order that is asked for, or that no drawing is lawful.
- Drawings by chance: clingo finds lawful ones on 8 by 3 from `laws.lp`. Each has to satisfy the clauses of `draw`'s log. Then a
  node is moved or a line changed, and the clauses have to allow the drawing where `drawing.py` finds it lawful, and else not.
With --plant the second encoder loses a law of each station, and then has a false one, by which no drawing is as narrow as the
best; and the clauses are kept from a lawful drawing. The last two have to be seen each time. It needs Debian's packages gringo,
g++ and libcadical-dev."""
from __future__ import annotations

import argparse
import copy
import os
import random
import subprocess
import sys
import tempfile
import time
from collections import Counter
from concurrent.futures import ProcessPoolExecutor
from functools import partial
from pathlib import Path
from typing import Any, Callable, Union

sys.dont_write_bytecode = True
HERE = Path(__file__).resolve().parent
sys.path += [str(HERE), str(HERE.parent)]
import cadical  # noqa: E402
import chance_stations  # noqa: E402
import graph as graphs  # noqa: E402
import made_stations as made  # noqa: E402
from cadical import Cadical, GivenUp, no  # noqa: E402
from clauses import BUILT, Clauses, Line, Numbering, Shown, lawful  # noqa: E402
from drawing import CRITERIA, Drawing, Grid, read_sheet  # noqa: E402
from encoder import Law, laws_of  # noqa: E402
from optima import Optima  # noqa: E402
from reading import Refused  # noqa: E402

# behind so many conflicts a question is given up, and the station isn't judged
CONFLICTS = 200000
DEFAULT = Grid(40, 8)
OTHERS = (Grid(64, 12), Grid(20, 4), Grid(12, 3), Grid(8, 2), Grid(40, 8, 3), Grid(6, 4))
SAMPLED = Grid(8, 3)
LAWFUL, CHANGED = 12, 40
Told = tuple[Counter[str], list[str]]
Values = Union[tuple[int, ...], None]


def larger_station(chance: random.Random, least: int = 8, most: int = 40) -> tuple[bytes, Any]:
    """a station without a fault, of so many nodes, and its graph"""
    while True:
        text = chance_stations.Station(chance).text()
        try:
            graph = graphs.load(text)
        except Refused:
            continue
        if least <= len(graph.nodes) <= most:
            return text, graph


def made_station(chance: random.Random, least: int = 8) -> tuple[bytes, Any]:
    """a station of one of the made kinds, of so many nodes or more, and its graph"""
    while True:
        several, few, some, is_so = chance.randrange(2, 6), chance.randrange(1, 4), chance.randrange(3), chance.random() < 0.5
        station = chance.choice([
            lambda: made.passing(several, some), lambda: made.loops(several, lambda _: chance.random() < 0.5),
            lambda: made.line(few), lambda: made.through(few, some, is_so), lambda: made.terminus(several, is_so),
            lambda: made.depot(several, is_so), lambda: made.scissors(few), lambda: made.crossovers(several),
            lambda: made.fan(several), lambda: made.yard(few)])()
        text = station.text().encode()
        graph = graphs.load(text)
        if len(graph.nodes) >= least:
            return text, graph


# ---- the least values


def hold_best(words: argparse.Namespace, seed: int) -> Told:
    chance = random.Random(f"best {seed}")
    return hold_least(words, f"best {seed}", chance, *larger_station(chance))


def hold_made(words: argparse.Namespace, seed: int) -> Told:
    chance = random.Random(f"made {seed}")
    return hold_least(words, f"made {seed}", chance, *made_station(chance))


def hold_least(words: argparse.Namespace, name: str, chance: random.Random, text: bytes, graph: Any) -> Told:
    is_default = chance.random() < 0.6
    grid = DEFAULT if is_default else chance.choice(OTHERS)
    order = list(CRITERIA) if is_default else chance.sample(CRITERIA, chance.choice([1, 2, 3, 4, 4]))
    with tempfile.TemporaryDirectory() as folder:
        file = Path(folder) / "station.xml"
        file.write_bytes(text)
        command = [words.program, "draw", file, *grid.words(), "--order", ",".join(order)]
        ran = subprocess.run(command, capture_output=True, check=False)
    try:
        sheet = read_sheet(graph, ran.stdout)
    except Refused as why:
        return Counter(), [f"{name}: the sheet isn't of its form: {why.line.decode()}"]
    if ran.returncode == 4:
        return Counter({"stations whose search isn't finished": 1}), [f"{name}: {it}" for it in faults_of_sheet(sheet, 4, grid, order)]
    try:
        found = best_of(words, graph, grid, order)
        kind = "no drawing" if found is None else "the same least values"
        counts = Counter({f"stations with {kind}": 1, f"stations with {kind}, on 40 by 8": int(is_default)})
        said = faults_of_best(sheet, ran.returncode, grid, order, found)
        if words.plant and not said:
            counts += planted_laws(words, graph, grid, order, found, chance)
            counts += planted_answers(sheet, ran.returncode, grid, order, found)
    except GivenUp:
        return Counter({"stations on which cadical gave up": 1}), []
    return counts, [f"{name}: {it}" for it in said]


def faults_of_sheet(sheet: Any, status: int, grid: Grid, order: list[str]) -> list[str]:
    """what of a sheet isn't as it was asked for, whatever is the least; `read_sheet` has held its values against its drawing"""
    faults, head = [], (sheet.width, sheet.height, sheet.least, sheet.order)
    if head != (grid.width, grid.height, grid.least, order):
        faults.append(f"the sheet is on {head}, and {grid} and {order} are asked for")
    if sheet.ending not in {0: ("best",), 3: ("none",), 4: ("conflicts", "room")}.get(status, ()):
        faults.append(f"a run that ends with {status} says `end {sheet.ending}`")
    if sheet.drawing and sheet.drawing.broken(grid):
        faults.append(f"the drawing breaks a law: {sheet.drawing.broken(grid)}")
    return faults


def faults_of_best(sheet: Any, status: int, grid: Grid, order: list[str], found: Values) -> list[str]:
    """what of a finished search isn't so, where these are the least values"""
    printed = values_of(sheet.drawing, order)
    return faults_of_sheet(sheet, status, grid, order) + (
        [] if printed == found else [f"{printed} are printed on {grid} in the order {order}, and {found} are the least"])


def planted_answers(sheet: Any, status: int, grid: Grid, order: list[str], found: Values) -> Counter[str]:
    """whether an answer is seen that has another status, another head, no drawing, or one that breaks a law or isn't the best"""
    counts = Counter[str]()

    def plant(what: str, faults: list[str]) -> None:
        counts[f"{what}, seen" if faults else f"{what}, NOT SEEN".upper()] += 1

    def other(**more: Any) -> Any:
        changed = copy.copy(sheet)
        for name, value in more.items():
            setattr(changed, name, value)
        return changed

    plant("a wrong status", faults_of_best(sheet, 3 - status, grid, order, found))
    plant("a wrong grid", faults_of_best(other(height=sheet.height + 1), status, grid, order, found))
    plant("a wrong ending", faults_of_best(other(ending="conflicts"), status, grid, order, found))
    if sheet.drawing:
        plant("a false end none", faults_of_best(other(drawing=None, ending="none"), 3, grid, order, found))
        drawing, place = sheet.drawing, sheet.drawing.points[0]
        for point in ((place[0], place[1] + 1), (place[0] + 1, place[1])):
            moved = Drawing(drawing.graph, [point, *drawing.points[1:]], drawing.lines)
            plant("an unlawful drawing", faults_of_best(other(drawing=moved), status, grid, order, found))
        plant("a value one less", faults_of_best(sheet, status, grid, order, tuple(it - 1 for it in found or ())))
    return counts


def values_of(drawing: Drawing | None, order: list[str]) -> Values:
    return tuple(drawing.values()[CRITERIA.index(criterion)] for criterion in order) if drawing else None


def best_of(words: argparse.Namespace, graph: Any, grid: Grid, order: list[str], laws: list[Law] | None = None) -> Values:
    """the least values of the criteria in this order, by all laws or by these"""
    with Optima(words.models, graph, grid, words.conflicts, laws) as optima:
        drawing = optima.best(order)
    if drawing and laws is None and drawing.broken(grid):
        sys.exit(f"the second encoder's drawing breaks a law: {drawing.broken(grid)}")
    return values_of(drawing, order)


def planted_laws(words: argparse.Namespace, graph: Any, grid: Grid, order: list[str], found: Values,
                 chance: random.Random) -> Counter[str]:
    """whether a law too few, and a false one that allows no drawing as narrow as the best, change the least values"""
    laws = list(laws_of(graph))
    lost = chance.choice(laws)
    other = best_of(words, graph, grid, order, [law for law in laws if law != lost])
    counts = Counter({"a lost law is seen" if other != found else "a lost law changes no least value": 1})
    if found is not None and "width" in order:
        with Optima(words.models, graph, grid, words.conflicts) as optima:
            width = found[order.index("width")]
            optima.solver.either(*(no(node.is_up_to(width)) for node in optima.encoder.nodes))
            values = values_of(optima.best(order), order)
        counts["false laws seen" if values != found else "FALSE LAWS NOT SEEN"] += 1
    return counts


# ---- drawings by chance


def lines_between(run: int, rise: int) -> list[Line]:
    """each line over so many columns that ends so many rows higher"""
    found = [(slope, run, 0, 0, 0) for slope in (1, -1) if rise == slope * run]
    for first in range(run):
        for last in range(run - first):
            for d, e in ((d, e) for d in ((1, -1) if first else (0,)) for e in ((1, -1) if last else (0,))):
                if d * first + e * last == rise:
                    found.append((d, first, run - first - last, e, last))
    return found


def drawn(graph: Any, shown: Shown) -> Drawing:
    points, lines = shown
    found = []
    for edge, (d, a, level, e, b) in zip(graph.edges, lines):
        line = [points[edge.west.number]]
        for slope, run in ((d, a), (0, level), (e, b)):
            if run:
                line.append((line[-1][0] + run, line[-1][1] + slope * run))
        found.append(line)
    return Drawing(graph, list(points), found)


def changed(graph: Any, grid: Grid, shown: Shown, chance: random.Random) -> Shown | None:
    """the drawing with a node moved, or another line; none where that isn't loose"""
    points, lines = list(shown[0]), list(shown[1])
    if chance.random() < 0.5:
        at = chance.randrange(len(points))
        points[at] = points[at][0] + chance.choice([-1, 0, 1]), points[at][1] + chance.choice([-1, 0, 1])
        edges = [edge for edge in graph.edges if at in (edge.west.number, edge.east.number)]
    else:
        edges = [chance.choice(graph.edges)]
    for edge in edges:
        (x, y), (end, row) = points[edge.west.number], points[edge.east.number]
        between = lines_between(end - x, row - y) if end > x else []
        if not between:
            return None
        lines[edge.number] = chance.choice(between)
    found = tuple(points), tuple(lines)
    return found if is_loose(graph, grid, found) and found != shown else None


def is_loose(graph: Any, grid: Grid, shown: Shown) -> bool:
    drawing = drawn(graph, shown)
    return all(x >= 0 and y >= 0 for line in drawing.lines for x, y in line) and drawing.is_loose(grid)


def hold_samples(words: argparse.Namespace, seed: int) -> Told:
    chance = random.Random(f"sampled {seed}")
    text, graph = larger_station(chance, most=14)
    options = [f"--seed={seed}", "--rand-freq=0.5", "--sign-def=rnd", "--restart-on-model", "--enum-mode=record", str(LAWFUL)]
    found = lawful(graph, SAMPLED, *options)
    with tempfile.TemporaryDirectory() as folder, Cadical(words.models) as solver:
        file = Path(folder) / "station.xml"
        file.write_bytes(text)
        clauses, numbering = Clauses(words, file, SAMPLED, Path(folder)), Numbering(graph, SAMPLED)
        for clause in clauses.clauses:
            solver.either(*clause)
        counts, said = Counter({f"sampled stations{'' if found else ' without a drawing'}": 1}), []
        if not found and solver.ask([]) is not None:
            said.append(f"sampled {seed}: the clauses have a model, and clingo finds no drawing")
        for shown in found:
            for drawing in [shown, *filter(None, (changed(graph, SAMPLED, shown, chance) for _ in range(CHANGED)))]:
                is_lawful = drawn(graph, drawing).broken(SAMPLED) is None
                is_allowed = solver.ask(numbering.literals(drawing)) is not None
                counts[f"drawings {'by clingo' if drawing == shown else 'by a change'}, {'' if is_lawful else 'un'}lawful"] += 1
                if is_lawful != is_allowed:
                    said.append(f"sampled {seed}: {'' if is_lawful else 'un'}lawful, and the clauses say otherwise: {drawing}")
        if words.plant and found:
            literals = numbering.literals(chance.choice(found))
            solver.either(*(-literal for literal in chance.sample(literals, 3)))
            is_seen = any(solver.ask(numbering.literals(drawing)) is None for drawing in found)
            counts["false clauses seen" if is_seen else "FALSE CLAUSES NOT SEEN"] += 1
    return counts, said


def asked() -> argparse.Namespace:
    parser = argparse.ArgumentParser(description=__doc__, formatter_class=argparse.RawDescriptionHelpFormatter)
    parser.add_argument("program", type=Path, nargs="?", default=BUILT, metavar="PROGRAM")
    parser.add_argument("--best", type=int, default=300, help="of how many stations the least values are compared (300)")
    parser.add_argument("--made", type=int, default=0, help="of how many stations of the made kinds (0)")
    parser.add_argument("--conflicts", type=int, default=CONFLICTS, help=f"so many give a question up ({CONFLICTS})")
    parser.add_argument("--sampled", type=int, default=100, help="of how many stations drawings are tried (100)")
    parser.add_argument("--plant", action="store_true", help="plants mistakes, which are to be seen")
    parser.add_argument("--jobs", type=int, default=os.cpu_count(), help="how many run side by side")
    return parser.parse_args()


def too_many_open(counts: Counter[str], number: int) -> bool:
    """whether more than one case in twenty wasn't judged to its end, so that little is judged"""
    unjudged = sum(count for what, count in counts.items() if "finished" in what or "gave up" in what)
    if unjudged * 20 > number:
        print(f"{unjudged} of {number} cases weren't judged to their end")
    return unjudged * 20 > number


def judged(pool: ProcessPoolExecutor, case: Callable[[int], Told], number: int, head: str = "") -> int:
    """judges so many cases, prints what was seen and how often, and says how many failures there were"""
    counts, began, failures = Counter[str](), time.monotonic(), 0
    for more, said in pool.map(case, range(number)):
        counts += more
        failures += len(said)
        for line in said:
            print(line, flush=True)
    failures += sum(count for what, count in counts.items() if what.isupper()) + too_many_open(counts, number)
    for what, count in sorted(counts.items()):
        print(f"{head}{what}: {count}")
    print(f"{head}{time.monotonic() - began:.0f} s", flush=True)
    return failures


def main() -> int:
    words = asked()
    with tempfile.TemporaryDirectory() as room, ProcessPoolExecutor(words.jobs) as pool:
        words.models = cadical.built(Path(room))
        kinds = ((hold_best, words.best), (hold_made, words.made), (hold_samples, words.sampled))
        failures = [judged(pool, partial(hold, words), number) for hold, number in kinds]
    return int(any(failures))


if __name__ == "__main__":
    sys.exit(main())

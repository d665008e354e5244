#!/usr/bin/env python3
"""Holds the clauses of a station against drawings that are found without them.

`laws.lp` says the seven laws anew, from docs/trust/laws.md, and clingo finds the drawings that keep them. The clauses are the Formula
lines of the log that `draw` writes. Of the program only the numbering of its variables is taken (`Numbering`), so that a model
is a drawing. Of all stations of up to four nodes, on grids up to 5 by 2, the drawings of the models are to be exactly those that
keep the laws; for larger ones there is `larger.py`.
With --plant clauses are taken away one by one, and one is added that a lawful drawing doesn't meet, in each small station. Each
of the second kind is to be seen; of the first it is said how many were, as most clauses say what others say too. It needs
Debian's packages gringo, g++ and libcadical-dev, and ends with 1 where something differs."""
from __future__ import annotations

import argparse
import itertools
import os
import random
import re
import subprocess
import sys
import tempfile
from collections import Counter
from concurrent.futures import ProcessPoolExecutor
from functools import partial
from pathlib import Path
from typing import Any, Iterable, Iterator

sys.dont_write_bytecode = True
HERE = Path(__file__).resolve().parent
TOP = HERE.parent.parent
sys.path.append(str(HERE))
import cadical  # noqa: E402
import graph as graphs  # noqa: E402
from drawing import Grid  # noqa: E402

BUILT = TOP / "crates/railplan_main/out/railplan_main"
MOST = 400000
# so many clauses are taken away in turn, as most say what others say too
LOST = 40
Line = tuple[int, int, int, int, int]
Shown = tuple[tuple[tuple[int, int], ...], tuple[Line, ...]]


# ---- small stations


def track(number: int, west: int, east: int, ends: tuple[str, str], inner: str = "") -> str:
    """a track that rises; an end is a connection, or open"""
    names = [f"t{number}w", f"t{number}e"]
    parts = zip(("trackBegin", "trackEnd"), names, (west, east), ends)
    begin, end = (f'<{kind} id="{name}" pos="{mileage - west}" absPos="{mileage}">{inside}</{kind}>'
                  for kind, name, mileage, inside in parts)
    connections = f"<connections>{inner}</connections>" if inner else ""
    return f'<track id="t{number}"><trackTopology>{begin}{end}{connections}</trackTopology></track>'


def whole(*tracks: str) -> bytes:
    return f'<infrastructure id="i"><tracks>{"".join(tracks)}</tracks></infrastructure>'.encode()


def joined(name: str, ref: str) -> str:
    return f'<connection id="{name}" ref="{ref}"/>'


def switch(name: str, mileage: int, west: int, legs: str, branch: str, is_own: bool) -> str:
    """a switch on a track that begins at a mileage; `is_own`: the track itself diverges, and the other leg goes straight on"""
    hand = "left" if (branch == "upper") == (legs == "east") else "right"
    course, further = ("straight", f' trackContinueCourse="{hand}"') if is_own else (hand, "")
    orientation = "outgoing" if legs == "east" else "incoming"
    return (f'<switch id="s{name}" pos="{mileage - west}" absPos="{mileage}"{further}>'
            f'<connection id="{name}" ref="{name}r" orientation="{orientation}" course="{course}"/></switch>')


OPEN = "<openEnd/>"


def in_ranks(*mileages: int) -> bool:
    """whether all numbers up to the greatest are there, so that no two of such lists are in one order"""
    return set(mileages) == set(range(max(mileages) + 1))


def small_stations() -> Iterator[tuple[str, bytes]]:
    """each station of up to four nodes, by the order of its mileages"""
    yield "a track", whole(track(1, 0, 1, (OPEN, OPEN)))
    yield "a joint", whole(track(1, 0, 1, (OPEN, joined("a", "b"))), track(2, 1, 2, (joined("b", "a"), OPEN)))
    yield "two joints", whole(track(1, 0, 1, (OPEN, joined("a", "b"))), track(2, 1, 2, (joined("b", "a"), joined("c", "d"))),
                              track(3, 2, 3, (joined("d", "c"), OPEN)))
    for west, east, begin, end in itertools.product(range(4), repeat=4):
        if west < east and begin < end and (west, east) <= (begin, end) and in_ranks(west, east, begin, end):
            both = track(1, west, east, (OPEN, OPEN)), track(2, begin, end, (OPEN, OPEN))
            yield f"two tracks {west} {east} {begin} {end}", whole(*both)
    for branch, is_own in itertools.product(("upper", "lower"), (False, True)):
        for through, aside in ((2, 2), (2, 3), (3, 2)):
            name = f"a switch, {branch}{', its track diverges' if is_own else ''}, {through} {aside}"
            yield f"{name}, legs east", whole(track(1, 0, through, (OPEN, OPEN), switch("a", 1, 0, "east", branch, is_own)),
                                             track(2, 1, aside, (joined("ar", "a"), OPEN)))
            inner = switch("a", 2, 3 - through, "west", branch, is_own)
            yield f"{name}, legs west", whole(track(1, 3 - through, 3, (OPEN, OPEN), inner),
                                             track(2, 3 - aside, 2, (OPEN, joined("ar", "a"))))
    for branch, is_own, other_own in itertools.product(("upper", "lower"), (False, True), (False, True)):
        # the second track is the upper one where the first switch says so, and the second switch says the same
        second = branch if not is_own else "lower" if branch == "upper" else "upper"
        other = second if not other_own else "lower" if second == "upper" else "upper"
        inner = switch("a", 1, 0, "east", branch, is_own) + switch("b", 2, 0, "west", other, other_own)
        yield (f"a loop, {branch} {is_own} {other_own}", whole(
            track(1, 0, 3, (OPEN, OPEN), inner),
            track(2, 1, 2, (joined("ar", "a"), joined("br", "b")))))


# ---- the laws, by clingo


def facts(graph: Any, grid: Grid) -> str:
    number = {node: node.number for node in graph.nodes}
    ranks = {mileage: rank for rank, mileage in enumerate(sorted({node.mileage for node in graph.nodes}))}
    lines = [f"#const width={grid.width}. #const height={grid.height}. #const least={grid.least}."]
    for node in graph.nodes:
        lines.append(f"node({number[node]}). rank({number[node]},{ranks[node.mileage]}).")
        if node.kind == "end":
            lines.append(f"end({number[node]},{node.edge.number}).")
        elif node.kind == "joint":
            lines.append(f"joint({number[node]},{node.path[0].number},{node.path[1].number}).")
        elif node.kind == "switch":
            turns = 1 if node.legs == "east" else -1, 1 if node.side == "upper" else -1
            edges = (edge.number for edge in (node.trunk, node.straight, node.diverging))
            lines.append("switch({},{},{},{},{},{}).".format(number[node], *turns, *edges))
        else:
            parts = [*node.rising, *node.falling]
            lines.append("crossing({},{},{},{},{}).".format(number[node], *(edge.number for edge in parts)))
    for edge in graph.edges:
        lines.append(f"edge({edge.number},{number[edge.west]},{number[edge.east]}).")
    lines += [f"above({one},{other})." for one, other in sorted(graph.above)]
    pairs = itertools.combinations(graph.edges, 2)
    lines += [f"overlap({one.number},{other.number})." for one, other in pairs if one.overlaps(other)]
    return "\n".join(lines) + "\n"


ATOM = re.compile(r"(x|y|first|level|last)\(([-\d,]+)\)")


def shown(text: str) -> Shown:
    """the drawing of an answer"""
    found: dict[str, dict[int, list[int]]] = {name: {} for name in ("x", "y", "first", "level", "last")}
    for name, values in ATOM.findall(text):
        key, *rest = map(int, values.split(","))
        found[name][key] = rest
    points = tuple((found["x"][node][0], found["y"][node][0]) for node in sorted(found["x"]))
    lines = tuple((*found["first"][edge], *found["level"][edge], *found["last"][edge]) for edge in sorted(found["level"]))
    return points, lines  # type: ignore[return-value]


def asked_of_clingo(text: str, *words: str) -> list[str]:
    """the lines that clingo prints behind the head of each answer"""
    ran = subprocess.run(["clingo", "-", *words], input=text, capture_output=True, text=True, check=False)
    if "UNKNOWN" in ran.stdout or "rror" in ran.stderr:
        sys.exit(f"clingo: {ran.stdout[-500:]}{ran.stderr[-500:]}")
    return ran.stdout.split("\n")


def lawful(graph: Any, grid: Grid, *words: str) -> list[Shown]:
    lines = asked_of_clingo(facts(graph, grid) + (HERE / "laws.lp").read_text(encoding="utf-8"), "--verbose=0", *words)
    return [shown(line) for line in lines if line.startswith(("x(", "y(", "first(", "level(", "last("))]


# ---- the clauses


class Numbering:
    """Which variable says what: of each node, from west to east, its rows from 1 and then its columns from 1; then of each edge
    six for its shape, and for each column those of the line there."""

    def __init__(self, graph: Any, grid: Grid) -> None:
        self.graph, self.grid, self.last = graph, grid, 0
        self.rows: dict[int, list[int]] = {}
        self.columns: dict[int, list[int]] = {}
        for node in sorted(graph.nodes, key=lambda it: (it.mileage, it.number)):
            self.rows[node.number], self.columns[node.number] = self.take(grid.height), self.take(grid.width)
        self.steps: dict[int, list[tuple[int, int]]] = {}
        for edge in graph.edges:
            self.take(6)
            self.steps[edge.number] = []
            for column in range(grid.width + 1):
                self.take(1)
                if column < grid.width:
                    up, down, _ = self.take(3)
                    self.steps[edge.number].append((up, down))
                self.take(1 if 1 <= column < grid.width else 0)
                self.take(grid.height)

    def take(self, count: int) -> list[int]:
        self.last += count
        return list(range(self.last - count + 1, self.last + 1))

    def counting(self) -> list[int]:
        """the variables of which a drawing follows"""
        of_nodes = itertools.chain(*self.rows.values(), *self.columns.values())
        return [*of_nodes, *itertools.chain(*itertools.chain(*self.steps.values()))]

    def of_points(self, points: Iterable[tuple[int, int]]) -> list[int]:
        """what the points of the nodes say of their variables"""
        found = []
        for number, (x, y) in enumerate(points):
            for variables, value in ((self.columns[number], x), (self.rows[number], y)):
                found += [variable if place < value else -variable for place, variable in enumerate(variables)]
        return found

    def literals(self, drawing: Shown) -> list[int]:
        """what a drawing says of these variables"""
        points, lines = drawing
        true: set[int] = set()
        for number, (x, y) in enumerate(points):
            true |= {*self.columns[number][:x], *self.rows[number][:y]}
        for edge, (d, a, level, e, b) in zip(self.graph.edges, lines):
            slopes = [d] * a + [0] * level + [e] * b
            for (up, down), slope in zip(self.steps[edge.number][points[edge.west.number][0]:], slopes):
                true |= {up} if slope == 1 else {down} if slope == -1 else set()
        return [variable if variable in true else -variable for variable in self.counting()]

    def drawing(self, bits: str) -> Shown | None:
        """the drawing of a model; none where its steps are no line of one of the shapes"""
        true = {variable for variable, bit in zip(self.counting(), bits) if bit == "1"}
        points = tuple((sum(it in true for it in self.columns[number]), sum(it in true for it in self.rows[number]))
                       for number in range(len(self.graph.nodes)))
        lines = []
        for edge in self.graph.edges:
            west, east = points[edge.west.number][0], points[edge.east.number][0]
            slopes = [int(up in true) - int(down in true) for up, down in self.steps[edge.number]]
            line = line_of(slopes[west:east]) if not any(slopes[:west] + slopes[east:]) else None
            if line is None:
                return None
            lines.append(line)
        return points, tuple(lines)


def line_of(slopes: list[int]) -> Line | None:
    runs = [(slope, len(list(group))) for slope, group in itertools.groupby(slopes)]
    level = [slope for slope, _ in runs].count(0)
    if not runs or len(runs) > 3 or len(runs) > 1 and level != 1 or len(runs) == 3 and runs[1][0] != 0:
        return None
    if len(runs) == 1 and runs[0][0] != 0:
        return (*runs[0], 0, 0, 0)
    at = [slope for slope, _ in runs].index(0)
    first, last = runs[at - 1] if at else (0, 0), runs[at + 1] if at + 1 < len(runs) else (0, 0)
    return (*first, runs[at][1], *last)


class Clauses:
    """the clauses of a station on a grid, and a program that finds their models"""

    def __init__(self, words: argparse.Namespace, file: Path, grid: Grid, room: Path) -> None:
        log = room / "log"
        command = [words.program, "draw", file, *grid.words(), "--order", "height", "--log", log]
        subprocess.run(command, stdout=subprocess.DEVNULL, check=False)
        found = [line.split()[1:] for line in log.read_text(encoding="ascii").split("\n") if line.startswith("f ")]
        self.models, self.clauses = words.models, [[int(literal) for literal in line[:-1]] for line in found]

    def ask(self, text: str) -> list[str]:
        clauses = "".join(f"c {' '.join(map(str, clause))} 0\n" for clause in self.clauses)
        printed = subprocess.run([self.models], input=clauses + text, capture_output=True, text=True, check=True).stdout
        # cadical says itself where a clause is falsified from the start
        return [line for line in printed.split("\n")[:-1] if not line.startswith("c ")]

    def drawings(self, numbering: Numbering) -> tuple[set[Shown], int]:
        """the drawings of all models, and how many models are none"""
        *bits, last = self.ask(f"p {' '.join(map(str, numbering.counting()))} 0\ne {MOST}\n")
        if last != "end":
            sys.exit(f"more than {MOST} models")
        found = [numbering.drawing(line) for line in bits]
        return {it for it in found if it is not None}, found.count(None)


# ---- what is held


def hold_small(words: argparse.Namespace, case: tuple[str, bytes, Grid]) -> tuple[Counter[str], list[str]]:
    name, text, grid = case
    graph = graphs.load(text)
    with tempfile.TemporaryDirectory() as folder:
        file = Path(folder) / "station.xml"
        file.write_bytes(text)
        clauses, numbering = Clauses(words, file, grid, Path(folder)), Numbering(graph, grid)
        if not clauses.clauses:
            return Counter(), [f"{name} on {grid}: no clause is in the log"]
        wanted, (found, strange) = set(lawful(graph, grid, "0")), clauses.drawings(numbering)
        counts = Counter({"small stations on grids": 1, "drawings": len(wanted)})
        said = [f"{name} on {grid}: {len(wanted - found)} lawful drawings are no model, {len(found - wanted)} models are "
                f"unlawful, {strange} are no drawing"] if wanted != found or strange else []
        if words.plant and not said:
            counts += planted(clauses, numbering, wanted, random.Random(f"{name} {grid}"))
    return counts, said


def planted(clauses: Clauses, numbering: Numbering, wanted: set[Shown], chance: random.Random) -> Counter[str]:
    """Whether a lost clause and a false one are seen. Without a lost one those models are found that it forbade."""
    counts: Counter[str] = Counter()
    sound, seen = clauses.clauses, 0
    for at in chance.sample(range(len(sound)), min(LOST, len(sound))):
        clauses.clauses = [*sound[:at], *sound[at + 1:], *([-literal] for literal in sound[at])]
        found, strange = clauses.drawings(numbering)
        seen += not found <= wanted or strange > 0
        # where there are more models, but none of another drawing, the clause speaks of variables that no drawing follows from
        counts[f"lost clauses that allow {'other models' if found or strange else 'no other model'}"] += 1
    counts["lost clauses seen"] += seen
    counts["stations on grids in which a lost clause is seen" if seen else "stations on grids in which none is"] += 1
    if wanted:
        literals = numbering.literals(chance.choice(sorted(wanted)))
        clauses.clauses = [*sound, [-literal for literal in chance.sample(literals, min(3, len(literals)))]]
        found, strange = clauses.drawings(numbering)
        counts["false clauses seen" if found != wanted else "FALSE CLAUSES NOT SEEN"] += 1
    clauses.clauses = sound
    return counts


def asked() -> argparse.Namespace:
    parser = argparse.ArgumentParser(description=__doc__, formatter_class=argparse.RawDescriptionHelpFormatter)
    parser.add_argument("program", type=Path, nargs="?", default=BUILT, metavar="PROGRAM")
    parser.add_argument("--width", type=int, default=5, help="the greatest width of the small grids (5)")
    parser.add_argument("--height", type=int, default=2, help="their greatest height (2)")
    parser.add_argument("--plant", action="store_true", help="plants a lost clause and a false one in each small station")
    parser.add_argument("--jobs", type=int, default=os.cpu_count(), help="how many run side by side")
    return parser.parse_args()


def main() -> int:
    words, counts, failures = asked(), Counter[str](), 0
    with tempfile.TemporaryDirectory() as room, ProcessPoolExecutor(words.jobs) as pool:
        words.models = cadical.built(Path(room))
        grids = [Grid(width, height) for width in range(1, words.width + 1) for height in range(words.height + 1)]
        small = [(name, text, grid) for name, text in small_stations() for grid in [*grids, Grid(words.width, words.height, 2)]]
        for more, said in pool.map(partial(hold_small, words), small):
            counts += more
            failures += len(said)
            for line in said:
                print(line, flush=True)
    failures += counts["FALSE CLAUSES NOT SEEN"]
    for what, count in sorted(counts.items()):
        print(f"{what}: {count}")
    return int(failures > 0)


if __name__ == "__main__":
    sys.exit(main())

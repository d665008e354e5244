"""The page of nearly as much as a file may have, from a drawing that is written by rows: 120 nodes, 158 pieces, 512 signals."""
from __future__ import annotations

import random
import resource
from dataclasses import dataclass
from pathlib import Path

from launcher import Launcher, script

ROWS, COLUMNS, PIECES, SIGNALS = 11, 64, 160, 512
Point = tuple[int, int]


@dataclass
class Edge:
    """a piece of a track, from a point to one farther in the east"""
    track: str
    west: Point
    east: Point

    @property
    def rise(self) -> int:
        return self.east[1] - self.west[1]


def crossovers_of(chance: random.Random) -> list[tuple[Point, Point]]:
    """from which point to which the crossovers lead; a point is that of one alone"""
    taken: set[Point] = set()
    found = []
    for row in range(ROWS - 1):
        for column in range(1, COLUMNS - 1):
            rises = chance.random() < 0.5
            west, east = (column, row + (not rises)), (column + 1, row + rises)
            if chance.random() < 0.55 and not taken & {west, east}:
                taken |= {west, east}
                found.append((west, east))
    return found


class Station:
    """tracks with crossovers between them, until there are as many pieces as there may be"""

    def __init__(self) -> None:
        crossovers = crossovers_of(random.Random(5))
        random.Random(6).shuffle(crossovers)
        del crossovers[(PIECES - ROWS) // 3:]
        self.points = [(column, row) for row in range(ROWS) for column in (0, COLUMNS)]
        self.points += [point for pair in crossovers for point in pair]
        self.edges: list[Edge] = []
        for row in range(ROWS):
            along = sorted(point for point in self.points if point[1] == row)
            self.edges += [Edge(f"track_{row}", one, other) for one, other in zip(along, along[1:])]
        self.edges += [Edge(f"track_{ROWS + at}", *pair) for at, pair in enumerate(crossovers)]
        self.slopes = len(crossovers)

    def km(self, point: Point) -> str:
        x, y = point
        return f"{1000 + 50 * x + 7 * y * (0 < x < COLUMNS)}.000000"

    def sheet(self) -> str:
        nodes = [f"node {at} sw_{at:03d} {x} {y} {self.km((x, y))}" for at, (x, y) in enumerate(self.points)]
        edges = [f"edge {at} {it.track} {self.points.index(it.west)} {self.points.index(it.east)} {it.west[0]} {it.west[1]} "
                 f"{it.east[0]} {it.east[1]}" for at, it in enumerate(self.edges)]
        return "\n".join(["railplan 2", f"grid {COLUMNS} {ROWS} 1", "order height bends diagonal width", f"nodes {len(nodes)}", *nodes,
                          f"edges {len(edges)}", *edges, f"values {ROWS - 1} 0 {self.slopes} {COLUMNS}", "end best", ""])

    def signals(self) -> list[tuple[int, int, int]]:
        """of each signal its edge and its point: some of those that lie on level tracks"""
        places = [(at, x, it.west[1]) for at, it in enumerate(self.edges) if not it.rise
                  for x in range(it.west[0] + 1, it.east[0])]
        random.Random(7).shuffle(places)
        return sorted(places[:SIGNALS])

    def output(self) -> str:
        """what the program prints of a drawing with signals"""
        found = [f"signal {at} N{at} {edge} {x} {y}" for at, (edge, x, y) in enumerate(self.signals())]
        return self.sheet() + "\n".join([f"signals {len(found)}", *found, ""])

    def graph(self) -> str:
        """the graph that the drawing is of: its kinds and sides are those that are drawn"""
        nodes, above = [], []
        for at, point in enumerate(self.points):
            east = sorted((it for it in self.edges if it.west == point), key=lambda it: it.rise)
            west = sorted((it for it in self.edges if it.east == point), key=lambda it: -it.rise)
            legs = next((it for it in (east, west) if len(it) == 2), None)
            kind = "end"
            if legs:
                above.append(f"above {self.edges.index(legs[1])} {self.edges.index(legs[0])}")
                kind = f"switch {'east' if legs is east else 'west'} {'lower' if legs[0].rise else 'upper'}"
            nodes.append(f"node {at} sw_{at:03d} {kind} {self.km(point)}")
        edges = [f"edge {at} {it.track} {self.points.index(it.west)} {self.points.index(it.east)}" for at, it in enumerate(self.edges)]
        return "\n".join(["railgraph 1", f"nodes {len(nodes)}", *nodes, f"edges {len(edges)}", *edges, *above, ""])

    def file(self) -> str:
        """a railML file with the tracks, their ends and signals, for names and directions"""
        parts = ['<infrastructure name="As much as there may be"><tracks>']
        signals = self.signals()
        for track in dict.fromkeys(it.track for it in self.edges):
            numbers = [at for at, it in enumerate(self.edges) if it.track == track]
            begin, end = (self.points.index(it) for it in (self.edges[numbers[0]].west, self.edges[numbers[-1]].east))
            inner = "".join(f'<signal id="N{at}" name="Signal {at}" pos="{at}" absPos="{1000 + 50 * x}" '
                            f'dir="{"up" if at % 2 else "down"}"/>' for at, (edge, x, _) in enumerate(signals) if edge in numbers)
            parts.append(f'<track id="{track}" name="Track {track}" type="mainTrack"><trackTopology>'
                         f'<trackBegin id="sw_{begin:03d}" pos="0" absPos="0"><openEnd id="sw_{begin:03d}o"/></trackBegin>'
                         f'<trackEnd id="sw_{end:03d}" pos="9" absPos="9"><bufferStop id="sw_{end:03d}o"/></trackEnd>'
                         f"</trackTopology><ocsElements><signals>{inner}</signals></ocsElements></track>")
        return "".join([*parts, "</tracks></infrastructure>"])


class Largest:
    """the station's file in a folder, and a program that answers what is written"""

    def __init__(self, folder: Path) -> None:
        self.page, self.station, made = folder / "largest.html", folder / "largest.xml", Station()
        self.station.write_text(made.file(), encoding="utf-8")
        for name, text in (("graph", made.graph()), ("output", made.output())):
            (folder / name).write_text(text, encoding="utf-8")
        program = script(folder / "program", "import sys", "name = 'graph' if sys.argv[1] == 'graph' else 'output'",
                         f"print(open({str(folder)!r} + '/' + name).read(), end='')")
        self.launcher = Launcher(program, folder)

    def make(self) -> float:
        """makes the page; the seconds of processor time"""
        before = resource.getrusage(resource.RUSAGE_CHILDREN)
        status, _, said = self.launcher.run("--html", str(self.page), "signals", str(self.station), "--width", "64", "--height", "12")
        if status or not self.page.exists():
            raise RuntimeError(f"the largest page isn't made; the launcher ends with {status}: {said}")
        after = resource.getrusage(resource.RUSAGE_CHILDREN)
        return after.ru_utime + after.ru_stime - before.ru_utime - before.ru_stime

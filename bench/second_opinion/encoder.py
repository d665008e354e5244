"""Clauses of the drawings of a station, of another make: from docs/trust/laws.md alone, with nothing of the program.

A node has a variable for each column, and for each row one that says that it lies there or higher. A line has for each column
whether it is there and how high, and for each step to the next column whether it rises, is level or falls."""
from __future__ import annotations

from itertools import combinations
from typing import Any, Iterator

from cadical import Cadical, no
from drawing import Drawing, Grid

LEVEL, UP, DOWN = 0, 1, -1
# a law's number, and the numbers of the nodes or edges for which it holds
Law = tuple[int, tuple[int, ...]]


class Node:
    """`at[c]`: its column is c; `up_to[c]`: it is c or less; `rows[k]`: its row is k or more"""

    def __init__(self, solver: Cadical, grid: Grid) -> None:
        self.at = [solver.new() for _ in range(grid.width + 1)]
        self.up_to: list[int] = [*(solver.new() for _ in range(grid.width)), True]
        self.rows = rows_of(solver, grid)
        solver.one_of(self.at)
        for column, at in enumerate(self.at):
            before = self.up_to[column - 1] if column else False
            solver.either(no(before), self.up_to[column])
            solver.either(no(at), self.up_to[column])
            solver.either(no(at), no(before))

    def is_up_to(self, column: int) -> int:
        return False if column < 0 else self.up_to[min(column, len(self.up_to) - 1)]


def rows_of(solver: Cadical, grid: Grid) -> list[int]:
    """a row of the grid: for each number whether it is as high or higher"""
    rows: list[int] = [True, *(solver.new() for _ in range(grid.height)), False]
    for lower, upper in zip(rows, rows[1:]):
        solver.either(no(upper), lower)
    return rows


class Line:
    """`has[c]`: it has column c; `rows[c]`: its row there; `steps[c]`: its slope from c to the next column; `bends`: one to a
    level piece and one from it, each true where there is such a bend; `slopes`: its slopes at the west and at the east"""

    def __init__(self, solver: Cadical, grid: Grid, west: Node, east: Node) -> None:
        self.solver, self.grid, self.west, self.east = solver, grid, west, east
        self.has = [solver.new() for _ in range(grid.width + 1)]
        self.rows = [rows_of(solver, grid) for _ in self.has]
        self.steps = [{slope: solver.new() for slope in (LEVEL, UP, DOWN)} for _ in range(grid.width)]
        self.bends = [solver.new(), solver.new()]
        self.slopes = [{slope: solver.new() for slope in (LEVEL, UP, DOWN)} for _ in range(2)]
        self.columns()
        for column in range(grid.width):
            self.step(column)
        self.shape()
        self.ends()

    def columns(self) -> None:
        """law 3: it goes from its west node's column to its east node's, over so many as each has to have"""
        for column, has in enumerate(self.has):
            begun, ended = self.west.is_up_to(column), self.east.is_up_to(column - 1)
            self.solver.either(no(has), begun)
            self.solver.either(no(has), no(ended))
            self.solver.either(has, no(begun), ended)
            nearest = column + self.grid.least - 1
            self.solver.either(no(self.west.at[column]), no(self.east.is_up_to(nearest)))

    def step(self, column: int) -> None:
        goes, solver = self.solver.new(), self.solver
        begun, ended = self.west.is_up_to(column), self.east.is_up_to(column)
        solver.either(no(goes), begun)
        solver.either(no(goes), no(ended))
        solver.either(goes, no(begun), ended)
        solver.one_of(list(self.steps[column].values()), goes)
        here, there = self.rows[column], self.rows[column + 1]
        for row in range(self.grid.height + 1):
            solver.same(here[row], there[row], self.steps[column][LEVEL])
            solver.same(here[row], there[row + 1], self.steps[column][UP])
            solver.same(here[row + 1], there[row], self.steps[column][DOWN])

    def shape(self) -> None:
        """no rise and fall meet, and behind a level piece that has ended is no other"""
        ended: int = False
        for one, other in zip(self.steps, self.steps[1:]):
            for slope in (UP, DOWN):
                self.solver.either(no(one[slope]), no(other[-slope]))
                self.solver.either(no(one[slope]), no(other[LEVEL]), self.bends[0])
                self.solver.either(no(one[LEVEL]), no(other[slope]), self.bends[1])
            before, ended = ended, self.solver.new()
            self.solver.either(no(before), ended)
            for slope in (UP, DOWN):
                self.solver.either(no(one[LEVEL]), no(other[slope]), ended)
            self.solver.either(no(ended), no(other[LEVEL]))

    def ends(self) -> None:
        """law 3: it begins and ends at its nodes; and its slopes there"""
        for node, slopes, back in ((self.west, self.slopes[0], 0), (self.east, self.slopes[1], 1)):
            self.solver.one_of(list(slopes.values()))
            for column, at in enumerate(node.at):
                for row in range(1, self.grid.height + 1):
                    self.solver.same(node.rows[row], self.rows[column][row], at)
                if 0 <= column - back < self.grid.width:
                    for slope, step in self.steps[column - back].items():
                        self.solver.either(no(at), no(step), slopes[slope])


class Encoder:
    """the loose drawings of a station: those of laws 1 and 3; the other laws are added one by one"""

    def __init__(self, solver: Cadical, graph: Any, grid: Grid) -> None:
        self.solver, self.graph, self.grid = solver, graph, grid
        self.nodes = [Node(solver, grid) for _ in graph.nodes]
        self.lines = [Line(solver, grid, self.nodes[edge.west.number], self.nodes[edge.east.number]) for edge in graph.edges]
        shown = [*(it for node in self.nodes for it in (*node.at, *node.rows[1:-1]))]
        solver.show(shown + [step for line in self.lines for steps in line.steps for step in (steps[UP], steps[DOWN])])

    def add(self, law: Law) -> None:
        number, parties = law
        one, other = parties[0], parties[-1]
        if number == 4:
            self.aligned(one)
        else:
            {2: self.ordered, 5: self.apart, 6: self.over, 7: self.parted}[number](one, other)

    def ordered(self, u: int, v: int) -> None:
        one, other = self.graph.nodes[u], self.graph.nodes[v]
        for column in range(self.grid.width):
            at_one, at_other = self.nodes[u].up_to[column], self.nodes[v].up_to[column]
            if one.mileage <= other.mileage:
                self.solver.either(no(at_other), at_one)
            if one.mileage >= other.mileage:
                self.solver.either(no(at_one), at_other)

    def slopes_at(self, node: Any, edge: Any) -> dict[int, int]:
        return self.lines[edge.number].slopes[0 if edge.west is node else 1]

    def turn(self, node: Any, one: Any, other: Any, turn: int) -> None:
        """the second edge's slope is that of the first, and so much more"""
        first, second = self.slopes_at(node, one), self.slopes_at(node, other)
        for slope in (LEVEL, UP, DOWN):
            self.solver.either(no(first[slope]), second.get(slope + turn, False))

    def aligned(self, number: int) -> None:
        node = self.graph.nodes[number]
        if node.kind == "end":
            self.solver.either(self.slopes_at(node, node.edge)[LEVEL])
        elif node.kind == "joint":
            self.turn(node, node.path[0], node.path[1], 0)
        elif node.kind == "switch":
            self.turn(node, node.trunk, node.straight, 0)
            self.turn(node, node.trunk, node.diverging, 1 if (node.side == "upper") == (node.legs == "east") else -1)
        else:
            for path in (node.rising, node.falling):
                self.turn(node, path[0], path[1], 0)
            rising, falling = self.slopes_at(node, node.rising[0]), self.slopes_at(node, node.falling[0])
            for slope, other in ((one, two) for one in rising for two in falling if one <= two):
                self.solver.either(no(rising[slope]), no(falling[other]))

    def apart(self, u: int, v: int) -> None:
        is_one, one, other = self.solver.new(), self.nodes[u], self.nodes[v]
        for at, at_other in zip(one.at, other.at):
            self.solver.either(no(at), no(at_other), is_one)
        for row in range(self.grid.height + 1):
            self.solver.either(no(is_one), no(one.rows[row]), one.rows[row + 1], no(other.rows[row]), other.rows[row + 1])

    def is_over(self, e: int, f: int, where: int) -> None:
        """where the condition is true, e is higher in each column that both have, but those of nodes at which both end"""
        edge, other = self.graph.edges[e], self.graph.edges[f]
        both = {edge.west.number, edge.east.number} & {other.west.number, other.east.number}
        upper, lower = self.lines[e], self.lines[f]
        for column in range(self.grid.width + 1):
            spared = [self.nodes[number].at[column] for number in both]
            front = [no(where), no(upper.has[column]), no(lower.has[column]), *spared]
            for row in range(self.grid.height + 1):
                self.solver.either(*front, no(lower.rows[column][row]), upper.rows[column][row + 1])

    def over(self, e: int, f: int) -> None:
        self.is_over(e, f, True)

    def parted(self, e: int, f: int) -> None:
        way = self.solver.new()
        self.is_over(e, f, way)
        self.is_over(f, e, no(way))

    def drawing(self, true: set[int]) -> Drawing:
        """the drawing of a model"""
        points = [(next(column for column, at in enumerate(node.at) if at in true), sum(it in true for it in node.rows[1:-1]))
                  for node in self.nodes]
        return Drawing(self.graph, points, [self.line(edge, points, true) for edge in self.graph.edges])

    def line(self, edge: Any, points: list[tuple[int, int]], true: set[int]) -> list[tuple[int, int]]:
        (column, row), (end, _) = points[edge.west.number], points[edge.east.number]
        line, last = [(column, row)], None
        for at in range(column, end):
            steps = self.lines[edge.number].steps[at]
            slope = UP if steps[UP] in true else DOWN if steps[DOWN] in true else LEVEL
            if slope == last:
                line.pop()
            row, last = row + slope, slope
            line.append((at + 1, row))
        return line


def laws_of(graph: Any) -> Iterator[Law]:
    """each law of 2, 4, 5, 6 and 7, with its parties"""
    for one, other in combinations(graph.nodes, 2):
        yield 2, (one.number, other.number)
        yield 5, (one.number, other.number)
    for node in graph.nodes:
        yield 4, (node.number,)
    for pair in sorted(graph.above):
        yield 6, pair
    for one, other in combinations(graph.edges, 2):
        either_way = {(one.number, other.number), (other.number, one.number)} & graph.above
        if one.overlaps(other) and not either_way:
            yield 7, (one.number, other.number)

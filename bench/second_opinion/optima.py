"""The least values of a station's drawings, its front and its fewest moved nodes: by `encoder.py` and cadical."""
from __future__ import annotations

from pathlib import Path
from types import TracebackType
from typing import Any, Callable, Iterable

from cadical import Cadical, no
from drawing import CRITERIA, Drawing, Grid
from encoder import DOWN, UP, Encoder, Law, laws_of

Point = tuple[int, int]


class Count:
    """a number of a drawing: how it is counted, and for each number from 1 a variable, true where it is that or more"""

    def __init__(self, value: Callable[[Drawing], int], at_least: list[int]) -> None:
        self.value, self.at_least = value, at_least

    def below(self, number: int) -> list[int]:
        """what is assumed of a number that is less"""
        return [] if number > len(self.at_least) else [no(self.at_least[number - 1]) if number > 0 else False]


class Optima:
    """the drawings of a station that keep laws 1 and 3 and these further ones, or all; and questions for the least of them"""

    def __init__(self, program: Path, graph: Any, grid: Grid, conflicts: int = -1, laws: Iterable[Law] | None = None) -> None:
        self.solver, self.graph, self.grid = Cadical(program, conflicts), graph, grid
        self.encoder = Encoder(self.solver, graph, grid)
        for law in laws_of(graph) if laws is None else laws:
            self.encoder.add(law)
        self.counts: dict[str, Count] = {}

    def __enter__(self) -> Optima:
        return self

    def __exit__(self, kind: type[BaseException] | None, value: BaseException | None, trace: TracebackType | None) -> None:
        self.solver.__exit__(kind, value, trace)

    def found(self, assumed: Iterable[int]) -> Drawing | None:
        true = self.solver.ask(assumed)
        return None if true is None else self.encoder.drawing(true)

    def total(self, inputs: list[int], most: int) -> list[int]:
        """for each number up to the most a variable that is true where so many of these are"""
        if len(inputs) < 2:
            return inputs
        half = len(inputs) // 2
        one, other = self.total(inputs[:half], most), self.total(inputs[half:], most)
        sums = [self.solver.new() for _ in range(min(len(one) + len(other), most))]
        for left in range(len(one) + 1):
            for right in range(len(other) + 1):
                if left + right:
                    front = [no(it) for it in (*one[left - 1:left], *other[right - 1:right])]
                    self.solver.either(*front, sums[min(left + right, len(sums)) - 1])
        return sums

    def count(self, criterion: str) -> Count:
        if criterion not in self.counts:
            variables = {"height": self.rows, "width": self.columns, "bends": self.bends, "diagonal": self.slopes}[criterion]()
            place = CRITERIA.index(criterion)
            self.counts[criterion] = Count(lambda drawing: drawing.values()[place], variables)
        return self.counts[criterion]

    def rows(self) -> list[int]:
        found = [self.solver.new() for _ in range(self.grid.height)]
        for row, variable in enumerate(found, 1):
            for node in self.encoder.nodes:
                self.solver.either(no(node.rows[row]), variable)
            for line in self.encoder.lines:
                for has, rows in zip(line.has, line.rows):
                    self.solver.either(no(has), no(rows[row]), variable)
        return found

    def columns(self) -> list[int]:
        found = [self.solver.new() for _ in range(self.grid.width)]
        for column, variable in enumerate(found, 1):
            for node in self.encoder.nodes:
                self.solver.either(node.up_to[column - 1], variable)
        return found

    def bends(self) -> list[int]:
        return self.total([bend for line in self.encoder.lines for bend in line.bends], 2 * len(self.graph.edges))

    def slopes(self) -> list[int]:
        found = []
        for line in self.encoder.lines:
            inputs = [self.solver.new() for _ in line.steps]
            for steps, variable in zip(line.steps, inputs):
                self.solver.either(no(steps[UP]), variable)
                self.solver.either(no(steps[DOWN]), variable)
            found.append(self.total(inputs, 2 * self.grid.height + 1))
        return self.totals(found)

    def totals(self, parts: list[list[int]]) -> list[int]:
        """the sum of numbers, each given as its variables"""
        return self.total([it for part in parts for it in part], sum(map(len, parts)))

    def moved(self, former: list[Point | None]) -> Count:
        """how many nodes aren't at their former points"""
        inputs = []
        for node, point in zip(self.encoder.nodes, former):
            if point is not None:
                inputs.append(self.solver.new())
                column, row = point
                if column > self.grid.width or row > self.grid.height:
                    self.solver.either(inputs[-1])
                else:
                    self.solver.either(node.at[column], inputs[-1])
                    self.solver.either(node.rows[row], inputs[-1])
                    self.solver.either(no(node.rows[row + 1]), inputs[-1])
        return Count(lambda drawing: moved_of(drawing, former), self.total(inputs, len(inputs)))

    def least(self, count: Count, drawing: Drawing, assumed: list[int]) -> Drawing:
        """a drawing of those in which all this is that has the least number"""
        while count.value(drawing) > 0:
            found = self.found([*assumed, *count.below(count.value(drawing))])
            if found is None:
                break
            drawing = found
        return drawing

    def best(self, order: Iterable[str]) -> Drawing | None:
        """a drawing that is the least in these criteria, the first of them first"""
        drawing = self.found([])
        for criterion in order if drawing else ():
            assert drawing
            count = self.count(criterion)
            drawing = self.least(count, drawing, [])
            for literal in count.below(count.value(drawing) + 1):
                self.solver.either(literal)
        return drawing

    def fewest(self, former: list[Point | None]) -> Drawing | None:
        """a drawing with the fewest moved nodes"""
        drawing = self.found([])
        return self.least(self.moved(former), drawing, []) if drawing else None

    def front(self, first: str, second: str) -> list[tuple[int, int]]:
        """the pairs of values of which none has a better one"""
        one, other, pairs = self.count(first), self.count(second), []
        assumed: list[int] = []
        while (drawing := self.found(assumed)) is not None:
            drawing = self.least(one, drawing, assumed)
            drawing = self.least(other, drawing, [*assumed, *one.below(one.value(drawing) + 1)])
            pairs.append((one.value(drawing), other.value(drawing)))
            if not pairs[-1][1]:
                break
            assumed = other.below(pairs[-1][1])
        return pairs


def moved_of(drawing: Drawing, former: list[Point | None]) -> int:
    return sum(point is not None and point != there for point, there in zip(former, drawing.points))

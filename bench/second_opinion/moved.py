"""The answers of `redraw`: its text, the clauses that count moved nodes, and its log."""
from __future__ import annotations

from pathlib import Path
from typing import Any, Iterator, Sequence

from cadical import Cadical, no
from clauses import Numbering
from drawing import Drawing, Grid, SheetReader
from log import Judge, read_log
from optima import Point, moved_of
from reading import Refused

Clause = tuple[int, ...]


class Moved:
    """how many nodes of how many moved, the drawing, or none, and how the search ended"""

    def __init__(self, ending: str, moved: int = 0, matched: int = 0, drawing: Drawing | None = None) -> None:
        self.ending, self.moved, self.matched, self.drawing = ending, moved, matched, drawing


def read_moved(graph: Any, grid: Grid, text: bytes) -> Moved:
    """the text of `redraw`; refused where it has a fault"""
    reader, found = SheetReader(graph, text, True), Moved("")
    reader.hold(reader.line() == [b"railplan-moved", b"1"])
    reader.hold(reader.line() == (b"grid %d %d %d" % (grid.width, grid.height, grid.least)).split())
    fields = reader.line()
    if fields[0] == b"moved":
        reader.hold(len(fields) == 4 and fields[2] == b"of")
        found.moved, found.matched = reader.numbers(fields[1::2])
        drawing: Drawing = reader.drawn(reader.line())
        reader.hold(reader.line() == (b"values %d %d %d %d" % drawing.values()).split())
        found.drawing = drawing
        fields = reader.line()
    reader.hold(len(fields) == 2 and fields[0] == b"end" and reader.at == len(reader.lines) and not reader.tail)
    found.ending = fields[1].decode()
    reader.hold(found.ending in ("best", "none", "conflicts", "room"))
    return found


# ---- the clauses, from the definition


def clauses_of(*clauses: Sequence[int]) -> Iterator[Clause]:
    """each clause without what is false in it, where nothing in it is true"""
    for clause in clauses:
        if not any(it is True for it in clause):
            yield tuple(it for it in clause if it is not False)


def at_least(variables: list[int], number: int) -> int:
    """whether a number is this or more, by its variables from 1 on"""
    return True if number == 0 else variables[number - 1] if number <= len(variables) else False


def node_clauses(rows: list[int], columns: list[int], point: Point, moved: int) -> Iterator[Clause]:
    """a variable is true where the node isn't at its former point"""
    x, y = ((at_least(it, number), at_least(it, number + 1)) for it, number in ((columns, point[0]), (rows, point[1])))
    yield from clauses_of((no(x[0]), x[1], no(y[0]), y[1], no(moved)))
    for one, next_one in (x, y):
        yield from clauses_of((one, moved), (no(next_one), moved))


class Sum:
    """the sum over variables, as a tree whose joins have variables behind a last one"""

    def __init__(self, inputs: list[int], last: int) -> None:
        self.most, self.last, self.clauses = len(inputs), last, list[Clause]()
        self.outputs = self.join(inputs)

    def join(self, inputs: list[int]) -> list[int]:
        if len(inputs) < 2:
            return inputs
        half = len(inputs) // 2
        left, right = self.join(inputs[:half]), self.join(inputs[half:])
        sums = list(range(self.last + 1, self.last + len(inputs) + 1))
        self.last += len(sums)
        for i in range(len(left) + 1):
            for j in range(len(right) + 1):
                self.clauses += clauses_of((no(at_least(left, i)), no(at_least(right, j)), at_least(sums, i + j)))
                if i + j < len(sums):
                    self.clauses += clauses_of((at_least(left, i + 1), at_least(right, j + 1), no(at_least(sums, i + j + 1))))
        return sums


def moved_clauses(numbering: Numbering, former: list[Point | None], last: int) -> list[Clause]:
    """the clauses that count moved nodes. The last variable of the drawings is followed by one for each number of moved nodes,
    one for each node with a former point, and those of the sum"""
    matched = [number for number, point in enumerate(former) if point is not None]
    inputs, found = [last + len(matched) + place for place in range(1, len(matched) + 1)], list[Clause]()
    for variable, number in zip(inputs, matched):
        point = former[number]
        assert point is not None
        found += node_clauses(numbering.rows[number], numbering.columns[number], point, variable)
    total = Sum(inputs, last + 2 * len(matched))
    found += total.clauses
    for place, output in enumerate(total.outputs, 1):
        found += clauses_of((-(last + place), output), (-output, last + place))
    return found


# ---- the log


def drawing_clauses(drawn: bytes) -> list[Clause]:
    """the clauses of the drawings, by the log of a `draw` run: those before its first question"""
    lines = read_log(drawn)
    asked = next((at for at, (word, _) in enumerate(lines) if word == "q"), len(lines))
    return [clause for word, clause in lines[:asked] if word == "f"]


def last_of(clauses: list[Clause]) -> int:
    return max((abs(literal) for clause in clauses for literal in clause), default=0)


def claimed_by(answer: Moved, last: int) -> set[int] | None:
    """of which literals some refuted clause has to be; none where nothing is claimed"""
    if answer.ending == "best" and answer.moved:
        return {last + answer.moved}
    return set() if answer.ending == "none" else None


def faults_of_log(log: bytes, drawn: list[Clause], numbering: Numbering, former: list[Point | None],
                  answer: Moved) -> list[str]:
    """what is wrong in the log of `redraw`, whose drawings have these clauses"""
    last, lines = last_of(drawn), read_log(log)
    if lines is None:
        return ["the log has no first line"]
    expected = [("f", clause) for clause in [*drawn, *moved_clauses(numbering, former, last)]]
    judge = Judge(lines, expected)
    try:
        judge.judge()
    except Refused as why:
        return [f"the log is refused: {why.line.decode()}"]
    if judge.at < len(expected):
        return [f"{len(expected) - judge.at} clauses are missing in the log"]
    claimed = claimed_by(answer, last)
    is_shown = claimed is None or any(clause <= claimed for clause in judge.refuted)
    return [] if is_shown else ["the log doesn't say that there are no fewer moved nodes"]


def faults_of_counting(models: Path, log: bytes, last: int, numbering: Numbering, former: list[Point | None],
                       drawings: list[Drawing]) -> list[str]:
    """where the clauses of a log don't count the moved nodes of lawful drawings"""
    with Cadical(models) as solver:
        for word, clause in read_log(log):
            if word == "f":
                solver.either(*clause)
        for drawing in drawings:
            points, moved = numbering.of_points(drawing.points), moved_of(drawing, former)
            for number in range(1, sum(point is not None for point in former) + 1):
                literal = last + number if number <= moved else -last - number
                if solver.ask([*points, literal]) is None or solver.ask([*points, -literal]) is not None:
                    return [f"the clauses miscount the moved nodes of a drawing, which are {moved}"]
    return []

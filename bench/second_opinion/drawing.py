"""Drawings: lines, the seven laws, values; sheets, read and written, and pictures."""
import re
from dataclasses import dataclass
from itertools import combinations

from reading import LIMIT, Refused, write_metres

SHEET_FAULTS = ["", "Form", "Range", "Graph", "Shape", "Values"]
CRITERIA = ("height", "bends", "diagonal", "width")
LEVEL, UP, DOWN = 0, 1, -1
SHAPES = {(LEVEL,), (UP,), (DOWN,), (UP, LEVEL), (DOWN, LEVEL), (LEVEL, UP), (LEVEL, DOWN), (UP, LEVEL, UP), (UP, LEVEL, DOWN),
          (DOWN, LEVEL, UP), (DOWN, LEVEL, DOWN)}


@dataclass(frozen=True)
class Grid:
    """the greatest column and row, and over how many columns each edge goes at the least"""
    width: int
    height: int
    least: int = 1

    def words(self) -> list[str]:
        return ["--width", str(self.width), "--height", str(self.height), "--least", str(self.least)]


def slopes(points):
    """the slopes of a line's pieces; none where a piece has none"""
    found = []
    for (x, y), (next_x, next_y) in zip(points, points[1:]):
        run, rise = next_x - x, next_y - y
        if run <= 0 or abs(rise) not in (0, run):
            return None
        found.append(rise // run)
    return tuple(found)


def height_at(points, column):
    for (x, y), (next_x, next_y) in zip(points, points[1:]):
        if x <= column <= next_x:
            return y + (next_y - y) // (next_x - x) * (column - x)
    return None


class Drawing:
    """the points of a graph's nodes and the lines of its edges, by number"""

    def __init__(self, graph, points, lines):
        self.graph, self.points, self.lines = graph, points, lines

    def values(self):
        every = [*self.points, *(point for line in self.lines for point in line)]
        rises = [abs(other[1] - one[1]) for line in self.lines for one, other in zip(line, line[1:])]
        return max(y for _, y in every), sum(len(line) - 2 for line in self.lines), sum(rises), max(x for x, _ in every)

    def slope_at(self, node, edge):
        found = slopes(self.lines[edge.number])
        return found[0] if edge.west is node else found[-1]

    def keeps_slopes(self, node):
        """law 4 at a node"""
        at = lambda edge: self.slope_at(node, edge)
        if node.kind == "end":
            return at(node.edge) == LEVEL
        if node.kind == "joint":
            return at(node.path[0]) == at(node.path[1])
        if node.kind == "switch":
            turn = UP if (node.side == "upper") == (node.legs == "east") else DOWN
            return at(node.straight) == at(node.trunk) and at(node.diverging) == at(node.trunk) + turn
        rising, falling = ([at(edge) for edge in path] for path in (node.rising, node.falling))
        return rising[0] == rising[1] > falling[0] == falling[1]

    def is_over(self, one, other):
        """whether one edge's line is higher in each column that both have, but those of nodes at which both end"""
        both = {one.west, one.east} & {other.west, other.east}
        spared = {self.points[node.number][0] for node in both}
        upper, lower = self.lines[one.number], self.lines[other.number]
        columns = range(max(upper[0][0], lower[0][0]), min(upper[-1][0], lower[-1][0]) + 1)
        return all(column in spared or height_at(upper, column) > height_at(lower, column) for column in columns)

    def is_off(self, grid, point):
        return point[0] > grid.width or point[1] > grid.height

    def is_ordered(self, one, other):
        """law 2 of two nodes"""
        x, other_x = self.points[one.number][0], self.points[other.number][0]
        return x == other_x if one.mileage == other.mileage else (x <= other_x if one.mileage < other.mileage else x >= other_x)

    def joins(self, grid, edge):
        """law 3 of an edge"""
        line, ends = self.lines[edge.number], [self.points[node.number] for node in (edge.west, edge.east)]
        return [line[0], line[-1]] == ends and line[-1][0] - line[0][0] >= grid.least

    def is_loose(self, grid):
        """whether each line has one of the shapes, and laws 1 and 3 hold"""
        every = [*self.points, *(point for line in self.lines for point in line)]
        return (all(slopes(line) in SHAPES for line in self.lines) and not any(self.is_off(grid, point) for point in every)
                and all(self.joins(grid, edge) for edge in self.graph.edges))

    def meets(self, law, parties):
        """whether a law of 2, 4, 5, 6 and 7 holds of these nodes or edges, by number"""
        several = self.graph.nodes if law in (2, 4, 5) else self.graph.edges
        one, other = several[parties[0]], several[parties[-1]]
        return {2: lambda: self.is_ordered(one, other), 4: lambda: self.keeps_slopes(one),
                5: lambda: self.points[one.number] != self.points[other.number], 6: lambda: self.is_over(one, other),
                7: lambda: self.is_over(one, other) or self.is_over(other, one)}[law]()

    def broken(self, grid):
        """the parties of the first law that is broken, with its number; none where the drawing is lawful"""
        nodes, edges = self.graph.nodes, self.graph.edges
        node_off = [("node", node) for node in nodes if self.is_off(grid, self.points[node.number])]
        edge_off = [("edge", edge) for edge in edges if any(self.is_off(grid, point) for point in self.lines[edge.number])]
        for party in node_off + edge_off:
            return 1, (party,)
        for one, other in combinations(nodes, 2):
            if not self.is_ordered(one, other):
                return 2, (("node", one), ("node", other))
        for edge in edges:
            if not self.joins(grid, edge):
                return 3, (("edge", edge),)
        for node in nodes:
            if not self.keeps_slopes(node):
                return 4, (("node", node),)
        for one, other in combinations(nodes, 2):
            if self.points[one.number] == self.points[other.number]:
                return 5, (("node", one), ("node", other))
        for upper, lower in sorted(self.graph.above):
            if not self.is_over(edges[upper], edges[lower]):
                return 6, (("edge", edges[upper]), ("edge", edges[lower]))
        for one, other in combinations(edges, 2):
            is_told = {(one.number, other.number), (other.number, one.number)} & self.graph.above
            if not is_told and one.overlaps(other) and not self.is_over(one, other) and not self.is_over(other, one):
                return 7, (("edge", one), ("edge", other))
        return None


def verdict(sheet):
    """the status and the line that answer a sheet's drawing"""
    broken = sheet.drawing.broken(sheet)
    if broken:
        parties = " ".join(f"{kind} {party.number}" for kind, party in broken[1])
        return 8, f"broken law {broken[0]} {parties}\n".encode()
    return 0, b"lawful %d %d %d %d\n" % sheet.drawing.values()


class Sheet:
    """a grid, an order, a drawing or none, and how the search for it ended: the word, and how many are settled"""

    def __init__(self, width, height, least, order, drawing=None, ending="none", settled=0):
        self.width, self.height, self.least, self.order = width, height, least, order
        self.drawing, self.ending, self.settled = drawing, ending, settled


NUMBER = re.compile(rb"0|[1-9][0-9]{0,4}")
MILEAGE = re.compile(rb"-?(0|[1-9][0-9]{0,9})\.[0-9]{6}")


def numbers(fields):
    """canonical numbers up to 65,535; none where a field is none"""
    if any(not NUMBER.fullmatch(field) or int(field) > 65535 for field in fields):
        return None
    return [int(field) for field in fields]


class SheetReader:
    """reads a text as the sheet of a graph; refuses its first line with a fault"""

    def __init__(self, graph, text, wants_drawing):
        self.graph, self.wants_drawing, self.at = graph, wants_drawing, 0
        *self.lines, self.tail = text.split(b"\n")

    def fault(self, number, line=None):
        return Refused(b"sheet %d %s line %d" % (number, SHEET_FAULTS[number].encode(), line or self.at))

    def line(self):
        self.at += 1
        if self.at > len(self.lines):
            raise self.fault(1)
        return self.lines[self.at - 1].split(b" ")

    def hold(self, is_right, number=1):
        if not is_right:
            raise self.fault(number)

    def numbers(self, fields):
        found = numbers(fields)
        self.hold(found is not None)
        return found

    def read(self):
        title = self.line()
        self.hold(title in ([b"railplan", b"1"], [b"railplan", b"2"]))
        is_second = title[1] == b"2"
        fields = self.line()
        self.hold(fields[0] == b"grid" and len(fields) == 3 + is_second)
        width, height, least = (self.numbers(fields[1:]) + [1])[:3]
        self.hold(1 <= width <= 64 and height <= 12 and 1 <= least <= 16, 2)
        fields = self.line()
        order = [field.decode("latin1") for field in fields[1:]]
        self.hold(fields[0] == b"order" and 1 <= len(order) <= 4 and set(order) <= set(CRITERIA))
        self.hold(len(set(order)) == len(order), 2)
        sheet = Sheet(width, height, least, order)
        fields = self.line()
        if fields[0] == b"end":
            self.hold(not self.wants_drawing)
            if fields != [b"end", b"none"]:
                self.ending(sheet, fields, 1)
        else:
            self.drawing(sheet, fields, is_second)
        if self.at < len(self.lines) or self.tail:
            raise self.fault(1, self.at + 1)
        return sheet

    def ending(self, sheet, fields, bound):
        """an ending of a search that was cut short"""
        self.hold(len(fields) == 3 and fields[0] == b"end" and fields[1] in (b"conflicts", b"room"))
        sheet.ending, sheet.settled = fields[1].decode(), self.numbers(fields[2:])[0]
        self.hold(sheet.settled < bound, 2)

    def count(self, fields, word, due):
        self.hold(fields[0] == word and len(fields) == 2)
        self.hold(self.numbers(fields[1:])[0] == due, 3)

    def drawing(self, sheet, fields, is_second):
        sheet.drawing = self.drawn(fields, is_second)
        fields = self.line()
        self.hold(fields[0] == b"values" and len(fields) == 5)
        self.hold(tuple(self.numbers(fields[1:])) == sheet.drawing.values(), 5)
        fields = self.line()
        if fields == [b"end", b"best"]:
            sheet.ending, sheet.settled = "best", len(sheet.order)
        else:
            self.ending(sheet, fields, len(sheet.order))

    def drawn(self, fields, is_second=True):
        """the lines from that of the nodes, whose fields are these, to those of the edges"""
        graph, points, lines = self.graph, [], []
        self.count(fields, b"nodes", len(graph.nodes))
        for node in graph.nodes:
            fields = self.line()
            self.hold(fields[0] == b"node" and len(fields) == 5 + is_second and fields[2] != b"")
            number, x, y = self.numbers([fields[1], fields[3], fields[4]])
            self.hold(not is_second or MILEAGE.fullmatch(fields[5]))
            self.hold(number == node.number and fields[2] == node.name, 3)
            self.hold(not is_second or fields[5] == write_metres(node.mileage), 3)
            points.append((x, y))
        self.count(self.line(), b"edges", len(graph.edges))
        for edge in graph.edges:
            fields = self.line()
            self.hold(fields[0] == b"edge" and len(fields) - is_second in (8, 10, 12))
            track = fields.pop(2) if is_second else edge.track
            self.hold(track != b"")
            number, west, east, *rest = self.numbers(fields[1:])
            self.hold((number, track, west, east) == (edge.number, edge.track, edge.west.number, edge.east.number), 3)
            line = list(zip(rest[::2], rest[1::2]))
            self.hold(slopes(line) in SHAPES, 4)
            lines.append(line)
        return Drawing(graph, points, lines)


def read_sheet(graph, text, wants_drawing=False):
    return SheetReader(graph, text, wants_drawing).read()


def verify(data, text, load):
    """the status and the line that `verify` answers to a file and a sheet"""
    try:
        if len(data) > LIMIT:
            raise Refused(b"long 1")
        if len(text) > LIMIT:
            raise Refused(b"long 2")
        return verdict(read_sheet(load(data), text, True))
    except Refused as why:
        return why.status, why.line + b"\n"


def sheet_text(sheet, is_second=True):
    lines = [b"railplan %d" % (1 + is_second), b"grid %d %d" % (sheet.width, sheet.height) + b" %d" % sheet.least * is_second,
             b"order " + " ".join(sheet.order).encode()]
    if sheet.drawing:
        graph = sheet.drawing.graph
        lines.append(b"nodes %d" % len(graph.nodes))
        for node, point in zip(graph.nodes, sheet.drawing.points):
            lines.append(b"node %d %s %d %d" % (node.number, node.name, *point) + (b" " + write_metres(node.mileage)) * is_second)
        lines.append(b"edges %d" % len(graph.edges))
        for edge, line in zip(graph.edges, sheet.drawing.lines):
            track = edge.track + b" " if is_second else b""
            points = b" ".join(b"%d %d" % point for point in line)
            lines.append(b"edge %d %s%d %d %s" % (edge.number, track, edge.west.number, edge.east.number, points))
        lines.append(b"values %d %d %d %d" % sheet.drawing.values())
    settled = "" if sheet.ending in ("best", "none") else f" {sheet.settled}"
    return b"\n".join(lines) + f"\nend {sheet.ending}{settled}\n".encode()


def picture_text(drawing):
    height, _, _, width = drawing.values()
    place = lambda point: (20 + 40 * point[0], 20 + 40 * (height - point[1]))
    lines = [b'<svg xmlns="http://www.w3.org/2000/svg" viewBox="0 0 %d %d">' % (40 * width + 40, 40 * height + 40)]
    for line in drawing.lines:
        points = b" ".join(b"%d,%d" % place(point) for point in line)
        lines.append(b'<polyline points="%s" fill="none" stroke="black"/>' % points)
    for node, point in zip(drawing.graph.nodes, drawing.points):
        x, y = place(point)
        name = node.name.replace(b"&", b"&amp;").replace(b"<", b"&lt;").replace(b">", b"&gt;")
        lines.append(b'<text x="%d" y="%d">%s</text>' % (x, y - 6, name))
    return b"\n".join(lines) + b"\n</svg>\n"

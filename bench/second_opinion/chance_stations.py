"""Stations, drawings and edits by chance: all of them follow from the generator of chances that is handed in."""
import re

import reading
from drawing import CRITERIA, DOWN, LEVEL, SHAPES, UP, Drawing, Sheet

NAMES = ["", "", "", "x&amp;y", "é", "a-b", "A&lt;", "&#228;", ".", "q&quot;", "~", "]]"]


class Station:
    """tracks with what stands on them, by mileages; `wild` is how often a side or an orientation is wrong"""

    def __init__(self, chance):
        self.chance, self.count, self.tracks = chance, 0, []
        self.wild = chance.choice([0, 0, 0, 0.1, 0.5])
        self.reversed = chance.choice([0, 0, 0.5, 1])
        span, base = chance.choice([4, 6, 10, 20]), chance.choice([0, 0, 0, 100, -5])
        for _ in range(chance.choice([1, 1, 2, 2, 3])):
            west = base if chance.random() < 0.7 else chance.randrange(base, base + span)
            self.track(west, base + span if west == base else chance.randrange(west + 1, base + span + 1))
        parts = [self.loop, self.loop, self.crossover, self.crossover, self.siding, self.siding, self.joint, self.joint,
                 self.crossing, self.double_crossover]
        for _ in range(chance.choice([0, 1, 1, 2, 2, 3, 4])):
            chance.choice(parts)()

    def name(self, front):
        self.count += 1
        return f"{front}{self.count}{self.chance.choice(NAMES) if self.chance.random() < 0.2 else ''}"

    def connections(self, number):
        return [self.name("c") for _ in range(number)]

    def track(self, west, east):
        track = {"id": self.name("t"), "west": west, "east": east, "reversed": self.chance.random() < self.reversed,
                 "inner": [], "west end": None, "east end": None}
        self.tracks.append(track)
        return track

    def between(self, west, east, number):
        """so many places between two, from west to east; none where there isn't room"""
        if east - west <= number:
            return None
        return sorted(self.chance.sample(range(west + 1, east), number))

    def switch(self, track, mileage, legs, side, connection):
        is_wrong = self.chance.random() < self.wild
        side = self.chance.choice(["upper", "lower"]) if is_wrong else side
        leaves = ((legs == "east") != track["reversed"]) != (is_wrong and self.chance.random() < 0.3)
        hand = "left" if (side == "upper") == (legs == "east") else "right"
        other = "right" if hand == "left" else "left"
        course, further = ("straight", other) if self.chance.random() < 0.3 else (hand, None)
        orientation = "outgoing" if leaves else "incoming"
        track["inner"].append(("switch", mileage, self.name("s"), further, [(*connection, course, orientation)]))

    def cross(self, track, mileage, rises, west, east):
        """a crossing whose other path has these connections to the west and to the east"""
        entry, out = (east, west) if track["reversed"] else (west, east)
        course = "left" if rises != (self.chance.random() < self.wild) else "right"
        both = [(*entry, self.chance.choice([None, "left", "x"]), "incoming"), (*out, course, "outgoing")]
        self.chance.shuffle(both)
        track["inner"].append(("crossing", mileage, self.name("k"), None, both))

    def branch(self, one, west, one_side, other, east, other_side):
        """a branch from one track to another, by a track of its own or by none"""
        leave, begin, end, arrive = self.connections(4)
        if self.chance.random() < 0.8:
            track = self.track(west, east)
            track["west end"], track["east end"] = (begin, leave), (end, arrive)
        else:
            begin, end = arrive, leave
        self.switch(one, west, "east", one_side, (leave, begin))
        self.switch(other, east, "west", other_side, (arrive, end))

    def loop(self):
        track, side = self.chance.choice(self.tracks), self.chance.choice(["upper", "lower"])
        found = self.between(track["west"], track["east"], 2)
        if found:
            self.branch(track, found[0], side, track, found[1], side)

    def crossover(self):
        if len(self.tracks) < 2:
            return
        one, other = self.chance.sample(self.tracks, 2)
        found = self.between(max(one["west"], other["west"]), min(one["east"], other["east"]), 2)
        sides = self.chance.choice([("lower", "upper"), ("upper", "lower")])
        if found:
            self.branch(one, found[0], sides[0], other, found[1], sides[1])

    def siding(self):
        track, legs = self.chance.choice(self.tracks), self.chance.choice(["east", "west"])
        found, (mine, its) = self.between(track["west"], track["east"], 1), self.connections(2)
        if not found:
            return
        reach = self.chance.choice([1, 2, 3, 5])
        new = self.track(found[0], found[0] + reach) if legs == "east" else self.track(found[0] - reach, found[0])
        new["west end" if legs == "east" else "east end"] = its, mine
        self.switch(track, found[0], legs, self.chance.choice(["upper", "lower"]), (mine, its))

    def joint(self):
        open_tracks = [track for track in self.tracks if None in (track["west end"], track["east end"])]
        if not open_tracks:
            return
        track, (mine, its), reach = self.chance.choice(open_tracks), self.connections(2), self.chance.choice([1, 2, 4])
        end, other = ("east end", "west end") if track["east end"] is None else ("west end", "east end")
        west = track["east"] if end == "east end" else track["west"] - reach
        new = self.track(west, west + reach)
        track[end], new[other] = (mine, its), (its, mine)

    def crossing(self):
        track = self.chance.choice(self.tracks)
        found = self.between(track["west"], track["east"], 1)
        if not found:
            return
        west = self.track(found[0] - self.chance.choice([1, 2, 3]), found[0])
        east = self.track(found[0], found[0] + self.chance.choice([1, 2, 3]))
        mine, its, out, further = self.connections(4)
        west["east end"], east["west end"] = (its, mine), (further, out)
        self.cross(track, found[0], self.chance.random() < 0.5, (mine, its), (out, further))

    def double_crossover(self):
        if len(self.tracks) < 2:
            return
        upper, lower = self.chance.sample(self.tracks, 2)
        found = self.between(max(upper["west"], lower["west"]), min(upper["east"], lower["east"]), 3)
        if not found:
            return
        west, middle, east = found
        falling, names = self.track(west, east), self.connections(8)
        falling["west end"], falling["east end"] = (names[1], names[0]), (names[2], names[3])
        self.switch(upper, west, "east", "lower", (names[0], names[1]))
        self.switch(lower, east, "west", "upper", (names[3], names[2]))
        self.switch(lower, west, "east", "upper", (names[5], names[4]))
        self.switch(upper, east, "west", "lower", (names[7], names[6]))
        self.cross(falling, middle, True, (names[4], names[5]), (names[6], names[7]))

    def metres(self, number):
        sign, digits = "-" * (number < 0), str(abs(number))
        spellings = [f"{sign}{digits}.0", f" {sign}{digits} ", f"{sign}00{digits}", f"{sign}{digits}."]
        return self.chance.choice([sign + digits] * 6 + spellings)

    def element(self, name, pairs, inside=""):
        pairs = [(key, value) for key, value in pairs if value is not None]
        if self.chance.random() < 0.2:
            self.chance.shuffle(pairs)
        quote = self.chance.choice("\"\"\"\"'")
        front = f"<{name}" + "".join(f" {key}={quote}{value}{quote}" for key, value in pairs)
        junk = self.chance.choice(["<!-- c -->", "<?p x?>", "text", "<![CDATA[<x]]>", "&#65;", '<a:b id="t1"/>', "\r\n"])
        inside += junk * (self.chance.random() < 0.05)
        return f"{front}>{inside}</{name}>\n" if inside else f"{front}/>\n"

    def end(self, track, end, first, scale):
        mileage = track[end] * scale
        position = 0 if first else (track["east"] - track["west"]) * scale
        connection = track[f"{end} end"]
        inside = self.element("connection", zip(("id", "ref"), connection)) if connection else self.element("openEnd", [])
        told = self.metres(mileage) if first or track["reversed"] or self.chance.random() < 0.7 else None
        pairs = [("id", self.name("b")), ("pos", self.metres(position)), ("absPos", told)]
        return self.element("trackBegin" if first else "trackEnd", pairs, inside)

    def text(self):
        """the station's railML file"""
        scale, tracks = self.chance.choice([1, 10, 100]), []
        for track in self.tracks:
            ends = ["east", "west"] if track["reversed"] else ["west", "east"]
            inner = []
            for kind, mileage, name, further, connections in track["inner"]:
                position = track["east"] - mileage if track["reversed"] else mileage - track["west"]
                names = ("id", "ref", "course", "orientation")
                inside = "".join(self.element("connection", zip(names, one)) for one in connections)
                told = self.metres(mileage * scale) if track["reversed"] or self.chance.random() < 0.7 else None
                inner.append(self.element(kind, [("id", name), ("pos", self.metres(position * scale)), ("absPos", told),
                                                 ("trackContinueCourse", further)], inside))
            self.chance.shuffle(inner)
            parts = [self.end(track, ends[0], True, scale), self.end(track, ends[1], False, scale)]
            parts += [self.element("connections", [], "".join(inner))] * bool(inner)
            if self.chance.random() < 0.3:
                self.chance.shuffle(parts)
            tracks.append(self.element("track", [("id", track["id"])], self.element("trackTopology", [], "".join(parts))))
        self.chance.shuffle(tracks)
        text = self.element("infrastructure", [("id", "i")], self.element("tracks", [], "".join(tracks)))
        if self.chance.random() < 0.3:
            text = self.element("railml", [("version", "2.2")], text)
        front = self.chance.choice(["", "", '<?xml version="1.0" encoding="UTF-8"?>\n', "<!-- x -->", "\ufeff"])
        return (front + text).encode()


PIECES = [b"<", b">", b"&", b'"', b"/", b"=", b" ", b"<!--", b"-->", b"<![CDATA[", b"]]>", b"<?", b"?>", b"<!DOCTYPE x>",
          b"</track>", b'<track id="zz">', b"&lt;", b"&#0;", b"&#65;", b"&#xD800;", b"\xc2\xa0", b"\xef\xbb\xbf", b"\x00",
          b"\xff", b"\xe2\x82", b'<x y="1" y="2"/>', b"<!D", b"</", b"-", b".", b"1", b"<openEnd/>", b"<infrastructure>",
          b"</infrastructure>", b"<railml>"]
VALUES = [b"", b".", b"5", b"-1", b"+3.", b"1e3", b"0000000001", b"1.2345678", b"-0", b" 4 ", b"999999999", b"left", b"right",
          b"straight", b"outgoing", b"incoming", b"a b", b"x" * 64, b"x" * 65, b"&#160;", b"&#161;", b"nope", b"utf-8", b"UTF-16"]


def edited_text(chance, text):
    """a file with an edit: bytes, pieces, tags and attributes are put in, taken out, repeated or exchanged"""
    kind, at = chance.randrange(10), chance.randrange(len(text) + 1)
    if kind == 0:
        return text[:at]
    if kind in (1, 2):
        return text[:at] + chance.choice(PIECES) + text[at:]
    if kind == 3:
        return text[:at] + text[at + chance.choice([1, 2, 5, 20]):]
    tags, found = (list(re.finditer(it, text)) for it in (rb"<[^>]*>", rb"\s([A-Za-z:]+)\s*=\s*(\"[^\"]*\"|'[^']*')"))
    if kind == 4 and tags:
        one, other = chance.choice(tags), chance.choice(tags)
        return chance.choice([text[:one.start()] + text[one.end():], text[:other.start()] + one[0] + text[other.start():]])
    if not found:
        return text + b"x"
    one = chance.choice(found)
    if kind == 5:
        return text[:one.start()] + text[one.end():]
    if kind == 6:
        return text[:one.end()] + one[0] + text[one.end():]
    value = chance.choice(VALUES) if kind < 9 else chance.choice([it for it in found if it[1] == one[1]])[2][1:-1]
    return text[:one.start(2) + 1] + value + text[one.end(2) - 1:]


def any_line(chance, run):
    """a line of one of the shapes over so many columns, from row 0"""
    shape = chance.choice([shape for shape in sorted(SHAPES) if len(shape) <= run])
    ends = [*sorted(chance.sample(range(1, run), len(shape) - 1)), run]
    points = [(0, 0)]
    for slope, end in zip(shape, ends):
        points.append((end, points[-1][1] + slope * (end - points[-1][0])))
    return points


def any_drawing(chance, graph, height):
    """a drawing that keeps laws 2 and 3, and often 4, on a grid that is high enough; none where no line was found"""
    columns, last = {}, 0
    for mileage in sorted({node.mileage for node in graph.nodes}):
        behind = [columns[edge.west.mileage] + 1 for edge in graph.edges if edge.east.mileage == mileage]
        columns[mileage] = last = max([last, *behind]) + chance.choice([0, 0, 0, 1, 2])
    points, lines, left = {}, {}, list(graph.edges)
    while left:
        left.sort(key=lambda edge: (edge.west in points) + (edge.east in points))
        edge = left.pop()
        west, east = columns[edge.west.mileage], columns[edge.east.mileage]
        for _ in range(60):
            begin = points[edge.west][1] if edge.west in points else chance.randrange(height + 1)
            line = [(west + x, begin + y) for x, y in any_line(chance, east - west)]
            if all(y >= 0 for _, y in line) and points.get(edge.east, line[-1]) == line[-1]:
                break
        else:
            return None
        points[edge.west], points[edge.east], lines[edge] = line[0], line[-1], line
    return Drawing(graph, [points[node] for node in graph.nodes], [lines[edge] for edge in graph.edges])


def any_sheet(chance, graph):
    drawing, order = any_drawing(chance, graph, 4), chance.sample(CRITERIA, chance.randrange(1, 5))
    if drawing is None:
        return None
    if chance.random() < 0.2:
        at = chance.randrange(len(drawing.points))
        x, y = drawing.points[at]
        drawing.points[at] = max(0, x + chance.choice([-1, 0, 1])), max(0, y + chance.choice([-1, 0, 1]))
    ending = chance.choice(["best", "conflicts", "room"])
    width, height, least = chance.choice([6, 12, 40, 64]), chance.choice([1, 4, 8, 12]), chance.choice([1, 1, 1, 2])
    settled = len(order) if ending == "best" else chance.randrange(len(order))
    return Sheet(width, height, least, order, drawing, ending, settled)


FIELDS = [b"", b"0", b"1", b"2", b"00", b"-1", b"65535", b"65536", b"x", b"height", b"none", b"best", b"conflicts", b"end", b"-0",
          b"\xff", b"0.000000", b"-0.000000", b"01.000000", b"1.00000", b"17", b"64", b"65", b"12", b"13"]


def edited_lines(chance, text):
    """a sheet with an edit of its lines or their fields"""
    lines, kind = text.split(b"\n"), chance.randrange(9)
    at = chance.randrange(len(lines))
    fields = lines[at].split(b" ")
    field = chance.randrange(len(fields))
    if kind == 0:
        del lines[at]
    elif kind == 1:
        lines.insert(at, chance.choice(lines))
    elif kind == 2:
        return text[:chance.randrange(len(text))]
    elif kind == 3:
        return text + chance.choice([b"\n", b"x", b"end best\n"])
    elif kind < 7:
        fields[field:field + 1] = [chance.choice(FIELDS)] * chance.choice([0, 1, 1, 1, 2])
        lines[at] = b" ".join(fields)
    elif fields[field].isdigit():
        fields[field] = b"%d" % max(0, int(fields[field]) + chance.choice([-1, 1]))
        lines[at] = b" ".join(fields)
    return b"\n".join(lines)


LINES = [b"", b"m", b"f 0", b"l 0", b"r 0", b"q 0", b"l 1 0", b"x", b"m ", b"l 1 -1 0", b"l 0 0", b"f 1 00", b"b height 1 1",
         b"b foo 1 1", b"b height 0 1", b"b width 1 -1", b"l 3 03 0", b"q 1 1 0", b"railplan-log 1", b"f 1 -0", b"r -1 0",
         b"f 1 2 3 0", b"b height 65536 1"]


def edited_log(chance, text):
    """a log with an edit; learnt, query and refuted lines are changed more often than the many clauses of the station"""
    lines, kind = text.split(b"\n")[:-1], chance.randrange(10)
    front = chance.choice([b"f", b"l", b"l", b"l", b"b", b"q", b"r", b"r", b"m"])
    at = chance.choice([number for number, line in enumerate(lines) if number and line[:1] == front] or [len(lines) - 1])
    word, *literals = lines[at].split(b" ")
    literals = literals[:-1]
    if kind == 0:
        del lines[at]
    elif kind == 1:
        lines.insert(chance.randrange(1, len(lines) + 1), lines[at])
    elif kind == 2:
        lines.insert(at, chance.choice(LINES))
    elif kind == 3:
        return text[:chance.randrange(len(text))]
    elif kind == 4:
        del lines[at:]
    elif kind == 5:
        lines = [line for number, line in enumerate(lines) if number < at or line[:1] != front or front == b"f"]
    elif kind == 6:
        lines.insert(at, b"l" + chance.choice([line for line in lines if line[:1] == b"f"] or [b"f 1 0"])[1:])
    elif literals and word != b"b":
        place = chance.randrange(len(literals))
        change = chance.randrange(3)
        if change == 0:
            literals[place] = literals[place].removeprefix(b"-") if literals[place][:1] == b"-" else b"-" + literals[place]
        elif change == 1:
            del literals[place]
        else:
            chance.shuffle(literals)
        lines[at] = b" ".join([word, *literals, b"0"])
    return b"\n".join(lines) + b"\n"

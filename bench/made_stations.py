"""Stations of several kinds, written as files of the profile: what bench/stations.py and bench/everyday.py draw."""
from types import SimpleNamespace


class Station:
    """tracks with switches and crossings, written as a file of the profile"""

    def __init__(self):
        self.tracks, self.counts = [], {"c": 0}

    def track(self, begin, end, left=None, right=None):
        """a track from one mileage to another; an end is open, or leads to the connection that is named"""
        one = SimpleNamespace(name=f"t{len(self.tracks)}", begin=begin, end=end, left=left, right=right, switches=[])
        self.tracks.append(one)
        return one

    def ids(self):
        self.counts["c"] += 1
        return f"c{self.counts['c']}", f"d{self.counts['c']}"

    def switch(self, track, at, course, orientation, own, other):
        track.switches.append((at, f'<switch id="s{own}" pos="{at - track.begin}"><connection id="{own}" ref="{other}" course="{course}" orientation="{orientation}"/></switch>'))

    def loop(self, track, west, east, upper):
        """a track beside another, from one switch of it to another"""
        (a, b), (c, d) = self.ids(), self.ids()
        self.switch(track, west, "left" if upper else "right", "outgoing", a, b)
        self.switch(track, east, "right" if upper else "left", "incoming", c, d)
        return self.track(west, east, (b, a), (d, c))

    def crossover(self, lower, upper, west, east, rising=True):
        """a track from a switch of one to a switch of another, eastwards and upwards, or eastwards and downwards"""
        (a, b), (c, d) = self.ids(), self.ids()
        first, second = (lower, upper) if rising else (upper, lower)
        self.switch(first, west, "left" if rising else "right", "outgoing", a, b)
        self.switch(second, east, "left" if rising else "right", "incoming", c, d)
        self.track(west, east, (b, a), (d, c))

    def scissors(self, lower, upper, west, east):
        """two crossovers that cross each other"""
        (a, b), (c, d), (e, f), (g, h) = self.ids(), self.ids(), self.ids(), self.ids()
        self.switch(lower, west, "left", "outgoing", a, b)
        self.switch(upper, east, "left", "incoming", c, d)
        self.switch(upper, west, "right", "outgoing", e, f)
        self.switch(lower, east, "right", "incoming", g, h)
        diagonal = self.track(west, east, (b, a), (d, c))
        at = (west + east) // 2
        diagonal.switches.append((at, f'<crossing id="k{e}" pos="{at - west}"><connection id="{f}" ref="{e}" orientation="incoming"/><connection id="{h}" ref="{g}" course="right" orientation="outgoing"/></crossing>'))

    def siding(self, track, at, end, upper):
        """a track that ends, from a switch of another"""
        a, b = self.ids()
        self.switch(track, at, "left" if upper else "right", "outgoing", a, b)
        return self.track(at, end, (b, a))

    def text(self):
        lines = ['<infrastructure id="i"><tracks>']
        for one in self.tracks:
            lines.append(f'<track id="{one.name}"><trackTopology>')
            for tag, at, mileage, joined in (("trackBegin", 0, one.begin, one.left), ("trackEnd", one.end - one.begin, one.end, one.right)):
                inner = f'<connection id="{joined[0]}" ref="{joined[1]}"/>' if joined else f'<openEnd id="o{one.name}{tag[5]}"/>'
                lines.append(f'<{tag} id="{one.name}{tag[5]}" pos="{at}" absPos="{mileage}">{inner}</{tag}>')
            lines.append("<connections>" + "".join(text for _, text in sorted(one.switches)) + "</connections></trackTopology></track>")
        return "\n".join(lines + ["</tracks></infrastructure>", ""])


def loops(k, upper):
    station = Station()
    main = station.track(0, 1000 * k)
    for i in range(k):
        station.loop(main, 1000 * i + 200, 1000 * i + 800, upper(i))
    return station


def two_tracks(k, length=1000):
    station = Station()
    return station, station.track(0, length * k), station.track(0, length * k)


def crossovers(k):
    station, lower, upper = two_tracks(k)
    for i in range(k):
        station.crossover(lower, upper, 1000 * i + 300, 1000 * i + 600, i % 2 == 0)
    return station


def scissors(k):
    station, lower, upper = two_tracks(k)
    for i in range(k):
        station.scissors(lower, upper, 1000 * i + 300, 1000 * i + 600)
    return station


def yard(k):
    station, lower, upper = two_tracks(k, 2000)
    for i in range(k):
        at = 2000 * i
        station.crossover(lower, upper, at + 100, at + 300)
        station.loop(upper, at + 600, at + 1600, True)
        station.loop(lower, at + 700, at + 1700, False)
    return station


def fan(k):
    station = Station()
    track = station.track(0, 1000 * (k + 1))
    for i in range(k):
        track = station.siding(track, 1000 * i + 500, 1000 * (k + 1), True)
    return station


def parallel(k):
    station = Station()
    for _ in range(k):
        station.track(0, 1000)
    return station


KINDS = (
    [(f"loops above {k}", loops(k, lambda i: True)) for k in (1, 2, 6, 15)]
    + [(f"loops in turn {k}", loops(k, lambda i: i % 2 == 0)) for k in (6, 15)]
    + [(f"crossovers {k}", crossovers(k)) for k in (4, 16, 31)]
    + [(f"scissors {k}", scissors(k)) for k in (1, 3, 8, 16)]
    + [(f"yard {k}", yard(k)) for k in (1, 4, 8)]
    + [(f"fan {k}", fan(k)) for k in (3, 6, 9)]
    + [(f"parallel {k}", parallel(k)) for k in (2, 6, 9, 64)]
)


def passing(k, sidings):
    """a single line with places to pass, at some of them a siding"""
    station = Station()
    line = station.track(0, 2000 * k)
    for i in range(k):
        at = 2000 * i
        loop = station.loop(line, at + 300, at + 1500, i % 2 == 0)
        if i % 3 < sidings:
            station.siding(loop, at + 700, at + 1400, i % 2 == 0)
    return station


def through(above, below, crossed):
    """two tracks with loops on both sides and crossovers before and behind them"""
    station, lower, upper = two_tracks(1, 6000)
    if crossed:
        station.crossover(lower, upper, 200, 500)
        station.crossover(lower, upper, 600, 900, False)
        station.crossover(lower, upper, 5100, 5400)
        station.crossover(lower, upper, 5500, 5800, False)
    for track, count, is_upper in ((upper, above, True), (lower, below, False)):
        for i in range(count):
            track = station.loop(track, 1200 + 200 * i, 4800 - 200 * i, is_upper)
    return station


def terminus(platforms, with_scissors):
    """two tracks that end, with platforms beside them that end too"""
    station, lower, upper = two_tracks(1, 4000)
    if with_scissors:
        station.scissors(lower, upper, 300, 800)
    else:
        station.crossover(lower, upper, 300, 500)
        station.crossover(lower, upper, 600, 800, False)
    for i in range(platforms):
        track, is_upper = (upper, True) if i % 2 == 0 else (lower, False)
        side = station.siding(track, 1000 + 200 * (i // 2), 4000, is_upper)
        if i % 3 == 2:
            station.siding(side, 1800 + 100 * i, 4000, is_upper)
    return station


def depot(roads, with_lead):
    """roads that fan out of a lead, and one back to it"""
    station = Station()
    line = station.track(0, 1000 * roads + 3000)
    lead = station.siding(line, 400, 1000 * roads + 2000, True)
    track = lead
    for i in range(roads):
        road = station.siding(track, 900 + 600 * i, 1000 * roads + 2000, i % 3 != 2)
        if i % 3 != 2:
            track = road
    if with_lead:
        station.loop(line, 700, 1000 * roads + 2500, False)
    return station


def line(k):
    """a line of two tracks with crossovers, a loop here and a siding there"""
    station, lower, upper = two_tracks(k, 2000)
    for i in range(k):
        at = 2000 * i
        station.crossover(lower, upper, at + 100, at + 300, i % 2 == 0)
        if i % 2 == 0:
            station.loop(upper, at + 500, at + 1500, True)
        else:
            station.siding(lower, at + 600, at + 1400, False)
    return station


def ladder(k):
    """four tracks, each joined with the next by crossovers, k times"""
    station = Station()
    tracks = [station.track(0, 3000 * k) for _ in range(4)]
    for i in range(k):
        for j in range(3):
            at = 3000 * i + 100 + 900 * j
            station.crossover(tracks[j], tracks[j + 1], at, at + 400, i % 2 == 0)
    return station


def fullest():
    """as many nodes and pieces of track as there may be, 128 and 160: a ladder with a siding above and below at each of its steps"""
    station = ladder(12)
    for i in range(12):
        at = 3000 * i
        station.siding(station.tracks[3], at + 600, at + 1300, True)
        station.siding(station.tracks[0], at + 1200, at + 1900, False)
    return station


EVERYDAY = (
    [(f"passing places {k}", passing(k, sidings)) for k, sidings in ((2, 1), (4, 0), (5, 2))]
    + [(f"through station {a} {b}", through(a, b, crossed)) for a, b, crossed in ((1, 1, False), (2, 1, True), (2, 2, True), (3, 2, False))]
    + [(f"terminus {k}", terminus(k, crossed)) for k, crossed in ((2, False), (3, True), (4, False), (5, True))]
    + [(f"depot {k}", depot(k, back)) for k, back in ((3, False), (5, True), (7, False))]
    + [(f"line {k}", line(k)) for k in (2, 4, 6)]
    + [(f"ladder {k}", ladder(k)) for k in (1, 2, 3)]
)

# larger ones of the same kinds
LARGER = (
    [(f"passing places {k}", passing(k, sidings)) for k, sidings in ((7, 2), (8, 1))]
    + [(f"through station {a} {b}", through(a, b, crossed)) for a, b, crossed in ((3, 3, True), (4, 2, False), (4, 3, True))]
    + [("terminus 6", terminus(6, False)), ("depot 9", depot(9, False)), ("line 8", line(8)), ("line 10", line(10)), ("ladder 8", ladder(8))]
)


def large_through(above, below, throats):
    """two tracks with loops on both sides, a siding at the outermost ones, and so many pairs of crossovers at both ends"""
    station, lower, upper = two_tracks(1, 20000)
    for i in range(throats):
        for west in (100 + 720 * i, 19200 - 720 * i):
            station.crossover(lower, upper, west, west + 300)
            station.crossover(lower, upper, west + 350, west + 650, False)
    for track, count, is_upper in ((upper, above, True), (lower, below, False)):
        for i in range(count):
            track = station.loop(track, 7000 + 200 * i, 13000 - 200 * i, is_upper)
        station.siding(track, 9500, 10500, is_upper)
    return station


def loops_on_both(k):
    """two tracks, each with k loops on its outer side"""
    station, lower, upper = two_tracks(k)
    for i in range(k):
        station.loop(upper, 1000 * i + 200, 1000 * i + 800, True)
        station.loop(lower, 1000 * i + 200, 1000 * i + 800, False)
    station.crossover(lower, upper, 900, 1100)
    return station


def two_yards(k, roads):
    """a line of two tracks with k groups of roads beside it, by turns above and below, each road a loop of the one before"""
    station, lower, upper = two_tracks(k, 3000)
    for i in range(k):
        at, is_upper = 3000 * i, i % 2 == 0
        station.crossover(lower, upper, at + 100, at + 300, is_upper)
        track = upper if is_upper else lower
        for j in range(roads):
            track = station.loop(track, at + 500 + 200 * j, at + 2800 - 200 * j, is_upper)
    return station


# thirty of 60 to 128 nodes: throats, lines with many loops, yards of thirty tracks, and what the grid just holds or doesn't
LARGE = (
    [(f"through station {a} {b}, {t} throats", large_through(a, b, t))
     for a, b, t in ((1, 1, 7), (2, 2, 6), (3, 3, 5), (4, 4, 5), (2, 4, 6), (4, 3, 6), (5, 3, 6), (4, 4, 8))]
    + [(f"loops on both tracks {k}", loops_on_both(k)) for k in (14, 15, 16)]
    + [(f"passing places {k}", passing(k, sidings)) for k, sidings in ((15, 3), (20, 2))]
    + [(f"line {k}", line(k)) for k in (14, 20)]
    + [(f"yard {k}", yard(k)) for k in (10, 11, 15)]
    + [(f"roads {k} by {r}", two_yards(k, r)) for k, r in ((6, 4), (7, 4))]
    + [(f"ladder {k}", ladder(k)) for k in (9, 10, 12, 14, 16)]
    + [(f"scissors {k}", scissors(k)) for k in (12, 16, 19)]
    + [(f"crossovers {k}", crossovers(k)) for k in (29, 31)]
)


def named(stations, words):
    """those of the stations whose name holds one of the words; all, where there are none"""
    return [it for it in stations if not words or any(word in it[0] for word in words)]

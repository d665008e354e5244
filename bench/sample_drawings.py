#!/usr/bin/env python3
"""Prints crates/plan_core/proofs/Sampled.antt: drawings taken at random over a few track graphs, and
what this judge says of each. The judge is written from the laws in words, in docs/trust/definitions.md, and not
from the definitions in specs/, so the two can be compared: the check proves that they agree. `rt fmt` in
crates/plan_core then puts the file into its form."""
import argparse
import random
from collections import Counter
from fractions import Fraction

WIDTH, HEIGHT = 40, 8
RISE = {"Down": -1, "Level": 0, "Up": 1}
LETTER = {"L": "Level", "U": "Up", "D": "Down"}
SHAPES = [[LETTER[c] for c in word] for word in "L U D UL DL LU LD ULU ULD DLU DLD".split()]


# --- track graphs: nodes are (metres, ports), edges (west node, east node) ---

ONE = ([(0, ("End", 0, "East")), (600, ("End", 0, "West"))], [(0, 1)])
MEETING = ([(0, ("End", 0, "East")), (600, ("End", 0, "West")), (600, ("End", 1, "East")), (900, ("End", 1, "West"))], [(0, 1), (2, 3)])
PARTED = ([(0, ("End", 0, "East")), (300, ("End", 0, "West")), (400, ("End", 1, "East")), (900, ("End", 1, "West"))], [(0, 1), (2, 3)])
TWO = ([(0, ("End", 0, "East")), (600, ("End", 0, "West")), (0, ("End", 1, "East")), (600, ("End", 1, "West"))], [(0, 1), (2, 3)])
JOINED = (
    [(0, ("End", 0, "East")), (300, ("Joint", 0, 1)), (600, ("End", 1, "West")), (0, ("End", 2, "East")), (600, ("End", 2, "West"))],
    [(0, 1), (1, 2), (3, 4)],
)
PAIRS = (
    [(0, ("End", 0, "East")), (300, ("Joint", 0, 1)), (600, ("End", 1, "West")),
     (0, ("End", 2, "East")), (300, ("Joint", 2, 3)), (600, ("End", 3, "West"))],
    [(0, 1), (1, 2), (3, 4), (4, 5)],
)
THREE = (
    [(0, ("End", 0, "East")), (300, ("End", 0, "West")), (300, ("End", 1, "East")),
     (600, ("End", 1, "West")), (0, ("End", 2, "East")), (600, ("End", 2, "West"))],
    [(0, 1), (2, 3), (4, 5)],
)
LOOP = (
    [(0, ("End", 0, "East")), (600, ("End", 2, "West")), (100, ("Switch", "East", "Upper", 0, 1, 3)), (500, ("Switch", "West", "Upper", 2, 1, 3))],
    [(0, 2), (2, 3), (3, 1), (2, 3)],
)
BACK = (
    [(600, ("End", 0, "West")), (0, ("End", 2, "East")), (500, ("Switch", "West", "Upper", 0, 1, 3)), (100, ("Switch", "East", "Upper", 2, 1, 3))],
    [(2, 0), (3, 2), (1, 3), (3, 2)],
)
CROSS = (
    [(0, ("End", 0, "East")), (1000, ("End", 1, "West")), (200, ("Switch", "East", "Upper", 0, 1, 4)),
     (0, ("End", 2, "East")), (1000, ("End", 3, "West")), (260, ("Switch", "West", "Lower", 3, 2, 4))],
    [(0, 2), (2, 1), (3, 5), (5, 4), (2, 5)],
)
SCISSORS = (
    [(0, ("End", 0, "East")), (300, ("End", 2, "West")), (100, ("Switch", "East", "Upper", 0, 1, 6)), (130, ("Switch", "West", "Upper", 2, 1, 8)),
     (0, ("End", 3, "East")), (300, ("End", 5, "West")), (100, ("Switch", "East", "Lower", 3, 4, 9)), (130, ("Switch", "West", "Lower", 5, 4, 7)),
     (115, ("Crossing", 9, 6, 7, 8))],
    [(0, 2), (2, 3), (3, 1), (4, 6), (6, 7), (7, 5), (2, 8), (8, 7), (8, 3), (6, 8)],
)
STATION = (
    [(0, ("End", 0, "East")), (1000, ("End", 1, "West")), (200, ("Switch", "East", "Upper", 0, 1, 6)), (0, ("End", 2, "East")),
     (1000, ("End", 5, "West")), (260, ("Switch", "West", "Lower", 3, 2, 6)), (400, ("Switch", "East", "Upper", 3, 4, 7)), (800, ("Switch", "West", "Upper", 5, 4, 7))],
    [(0, 2), (2, 1), (3, 5), (5, 6), (6, 7), (7, 4), (2, 5), (6, 7)],
)


def overlap(graph, e, f):
    """The greater of the two west mileages is below the smaller of the two east ones."""
    nodes, edges = graph
    miles = [(nodes[w][0], nodes[t][0]) for w, t in (edges[e], edges[f])]
    return max(w for w, t in miles) < min(t for w, t in miles)


def above(graph):
    """The pairs of edges of which the first is above the second."""
    nodes, edges = graph

    def reach(start, east):
        found, todo = {start}, [start]
        while todo:
            near, far = edges[todo.pop()]
            for f, (west_node, east_node) in enumerate(edges):
                goes_on = west_node == far if east else east_node == near
                if goes_on and f not in found:
                    found.add(f)
                    todo.append(f)
        return found

    pairs = set()
    for metres, ports in nodes:
        beside = []
        if ports[0] == "Switch":
            kind, legs, branch, trunk, straight, diverging = ports
            upper, lower = (diverging, straight) if branch == "Upper" else (straight, diverging)
            beside = [(upper, lower, legs == "East")]
        elif ports[0] == "Crossing":
            kind, west_upper, west_lower, east_upper, east_lower = ports
            beside = [(west_upper, west_lower, False), (east_upper, east_lower, True)]
        for upper, lower, east in beside:
            over, under = reach(upper, east), reach(lower, east)
            pairs |= {(e, f) for e in over - under for f in under - over if overlap(graph, e, f)}
    return pairs


# --- lines ---

def slopes(line):
    found = []
    for (x, y), (u, v) in zip(line, line[1:]):
        if u <= x:
            return None
        found.append({0: "Level", u - x: "Up", x - u: "Down"}.get(v - y))
    return found


def is_line(line):
    return slopes(line) in SHAPES


def height(line, x):
    for (a, b), (u, v) in zip(line, line[1:]):
        if a <= x <= u:
            return b + Fraction(v - b, u - a) * (x - a)
    raise ValueError(x)


# --- the laws, each with the parties for which it is broken ---

def on_grid(point):
    return point[0] <= WIDTH and point[1] <= HEIGHT


def is_aligned(graph, lines, n):
    nodes, edges = graph

    def slope(e):
        return RISE[slopes(lines[e])[0 if edges[e][0] == n else -1]]

    ports = nodes[n][1]
    if ports[0] == "End":
        return slope(ports[1]) == 0
    if ports[0] == "Joint":
        return slope(ports[1]) == slope(ports[2])
    if ports[0] == "Switch":
        kind, legs, branch, trunk, straight, diverging = ports
        s = slope(trunk)
        turned = s + 1 if (legs == "East") == (branch == "Upper") else s - 1
        return slope(straight) == s and slope(diverging) == turned
    west_upper, west_lower, east_upper, east_lower = (slope(e) for e in ports[1:])
    return west_lower == east_upper and west_upper == east_lower and west_lower > west_upper


def is_over(graph, places, lines, e, f):
    edges = graph[1]
    shared = {places[n][0] for n in set(edges[e]) & set(edges[f])}
    first = max(lines[e][0][0], lines[f][0][0])
    last = min(lines[e][-1][0], lines[f][-1][0])
    return all(height(lines[e], x) > height(lines[f], x) for x in range(first, last + 1) if x not in shared)


def broken(graph, places, lines):
    nodes, edges = graph
    order = above(graph)
    node_pairs = [(u, v) for u in range(len(nodes)) for v in range(u + 1, len(nodes))]
    edge_pairs = [(e, f) for e in range(len(edges)) for f in range(e + 1, len(edges))]
    found = [("NodeOnGrid", n) for n, p in enumerate(places) if not on_grid(p)]
    found += [("LineOnGrid", e) for e, line in enumerate(lines) if not all(map(on_grid, line))]
    for u, v in node_pairs:
        (m, p), (k, q) = (nodes[u], nodes[v])
        x, y = places[u][0], places[v][0]
        if (m < k and x > y) or (m > k and x < y) or (m == k and x != y):
            found.append(("Ordered", u, v))
    for e, (west, east) in enumerate(edges):
        if lines[e][0] != places[west] or lines[e][-1] != places[east]:
            found.append(("Joined", e))
    found += [("Aligned", n) for n in range(len(nodes)) if not is_aligned(graph, lines, n)]
    found += [("Apart", u, v) for u, v in node_pairs if places[u] == places[v]]
    found += [("Over", e, f) for e, f in sorted(order) if not is_over(graph, places, lines, e, f)]
    for e, f in edge_pairs:
        if overlap(graph, e, f) and (e, f) not in order and (f, e) not in order:
            if not is_over(graph, places, lines, e, f) and not is_over(graph, places, lines, f, e):
                found.append(("Parted", e, f))
    return found


def values(places, lines):
    points = places + [p for line in lines for p in line]
    rises = [abs(v - y) for line in lines for (x, y), (u, v) in zip(line, line[1:])]
    return (max(y for x, y in points), sum(len(line) - 2 for line in lines), sum(rises), max(x for x, y in points))


# --- drawings: lawful ones to begin with, and what chance makes of them ---

LEVEL_LOOP = [[(1, 0), (4, 0)], [(1, 0), (2, 1), (3, 1), (4, 0)]]
# name, words, graph, name of its order in specs/, how many drawings, a lawful drawing
SUBJECTS = [
    ("one", "one track", ONE, "none_above", 3, ([(0, 0), (1, 0)], [[(0, 0), (1, 0)]])),
    ("meeting", "tracks that meet", MEETING, "none_above", 3, ([(0, 0), (2, 0), (2, 1), (4, 1)], [[(0, 0), (2, 0)], [(2, 1), (4, 1)]])),
    ("parted", "tracks behind each other", PARTED, "none_above", 3, ([(0, 0), (2, 0), (3, 0), (4, 0)], [[(0, 0), (2, 0)], [(3, 0), (4, 0)]])),
    ("two", "two tracks", TWO, "none_above", 5, ([(0, 0), (1, 0), (0, 1), (1, 1)], [[(0, 0), (1, 0)], [(0, 1), (1, 1)]])),
    ("joined", "joined tracks and one beside them", JOINED, "none_above", 6,
     ([(0, 0), (2, 0), (4, 0), (0, 1), (4, 1)], [[(0, 0), (2, 0)], [(2, 0), (4, 0)], [(0, 1), (4, 1)]])),
    ("pairs", "two pairs of joined tracks", PAIRS, "none_above", 6,
     ([(0, 0), (2, 0), (4, 0), (0, 2), (2, 2), (4, 2)], [[(0, 0), (2, 0)], [(2, 0), (4, 0)], [(0, 2), (2, 2)], [(2, 2), (4, 2)]])),
    ("three", "two tracks behind each other and one beside them", THREE, "none_above", 5,
     ([(0, 0), (2, 0), (2, 2), (4, 2), (0, 1), (4, 1)], [[(0, 0), (2, 0)], [(2, 2), (4, 2)], [(0, 1), (4, 1)]])),
    ("loop", "a loop", LOOP, "loop_above", 6,
     ([(0, 0), (5, 0), (1, 0), (4, 0)], [[(0, 0), (1, 0)], LEVEL_LOOP[0], [(4, 0), (5, 0)], LEVEL_LOOP[1]])),
    ("back", "a loop listed backwards", BACK, "back_above", 5,
     ([(5, 0), (0, 0), (4, 0), (1, 0)], [[(4, 0), (5, 0)], LEVEL_LOOP[0], [(0, 0), (1, 0)], LEVEL_LOOP[1]])),
    ("cross", "a crossover", CROSS, "cross_above", 7,
     ([(0, 0), (3, 0), (1, 0), (0, 1), (3, 1), (2, 1)], [[(0, 0), (1, 0)], [(1, 0), (3, 0)], [(0, 1), (2, 1)], [(2, 1), (3, 1)], [(1, 0), (2, 1)]])),
    ("scissors", "scissors", SCISSORS, "scissors_above", 5,
     ([(0, 0), (4, 0), (1, 0), (3, 0), (0, 2), (4, 2), (1, 2), (3, 2), (2, 1)],
      [[(0, 0), (1, 0)], [(1, 0), (3, 0)], [(3, 0), (4, 0)], [(0, 2), (1, 2)], [(1, 2), (3, 2)], [(3, 2), (4, 2)],
       [(1, 0), (2, 1)], [(2, 1), (3, 2)], [(2, 1), (3, 0)], [(1, 2), (2, 1)]])),
    ("station", "a station", STATION, "station_above", 4,
     ([(0, 0), (7, 0), (1, 0), (0, 1), (7, 1), (2, 1), (3, 1), (6, 1)],
      [[(0, 0), (1, 0)], [(1, 0), (7, 0)], [(0, 1), (2, 1)], [(2, 1), (3, 1)], [(3, 1), (6, 1)], [(6, 1), (7, 1)],
       [(1, 0), (2, 1)], [(3, 1), (4, 2), (5, 2), (6, 1)]])),
]
# scissors whose two paths meet in the crossing with one slope
TOUCHING_PATHS = (
    [(0, 0), (6, 0), (1, 0), (5, 0), (0, 2), (6, 2), (1, 2), (5, 2), (3, 1)],
    [[(0, 0), (1, 0)], [(1, 0), (5, 0)], [(5, 0), (6, 0)], [(0, 2), (1, 2)], [(1, 2), (5, 2)], [(5, 2), (6, 2)],
     [(1, 0), (2, 1), (3, 1)], [(3, 1), (4, 1), (5, 2)], [(3, 1), (4, 1), (5, 0)], [(1, 2), (2, 1), (3, 1)]],
)


def random_line(start=None, end=None):
    """A line of one of the shapes, from and to the points where they are given; None where none was met."""
    for attempt in range(400):
        points = [start or (random.randint(0, 6), random.randint(0, 6))]
        for slope in random.choice(SHAPES):
            (x, y), run = points[-1], random.randint(1, 4)
            points.append((x + run, y + RISE[slope] * run))
        if min(y for x, y in points) >= 0 and end in (None, points[-1]):
            return points
    return None


def changed(graph, drawing):
    places, lines = list(drawing[0]), [list(line) for line in drawing[1]]

    def everywhere(move):
        return [move(*p) for p in places], [[move(*p) for p in line] for line in lines]

    change = random.choice(["shift", "stretch", "flip", "widen", "nudge", "new lines", "all new"])
    if change == "shift":
        dx, dy = random.choice([(0, 7), (0, 8), (35, 0), (37, 1), (1, 2)])
        places, lines = everywhere(lambda x, y: (x + dx, y + dy))
    if change == "stretch":
        k = random.choice([2, 3, 6, 9])
        places, lines = everywhere(lambda x, y: (k * x, k * y))
    if change == "flip":
        top = max(y for line in lines for x, y in line)
        places, lines = everywhere(lambda x, y: (x, top - y))
    if change == "widen":
        more, at = random.randint(1, 3), random.randint(1, 4)
        places, lines = everywhere(lambda x, y: (x + more if x >= at else x, y))
        lines = [line if is_line(line) else random_line(line[0], line[-1]) or random_line() for line in lines]
    if change in ("nudge", "all new"):
        for n, (x, y) in enumerate(places):
            if change == "all new" or random.random() < 0.35:
                places[n] = (max(0, x + random.randint(-1, 2)), max(0, y + random.randint(-1, 2)))
        for e, (west, east) in enumerate(graph[1]):
            fitting = random_line(places[west], places[east]) if random.random() < 0.85 else None
            lines[e] = fitting or (lines[e] if random.random() < 0.5 else random_line())
    if change == "new lines":
        for e, line in enumerate(lines):
            if random.random() < 0.5:
                lines[e] = random_line(line[0], line[-1]) or random_line(line[0])
    return places, lines


def sampled(graph, drawing, count, met):
    """Drawings with few broken instances, those first that break what was least broken so far."""
    kinds = {}
    for attempt in range(4000):
        places, lines = changed(graph, drawing)
        found = broken(graph, places, lines)
        if len(found) <= 12:
            kinds.setdefault(frozenset(i[0] for i in found), []).append((places, lines))
    chosen = []
    while len(chosen) < count and kinds:
        def turn(kind):
            mean = sum(met[law] for law in kind) / len(kind) if kind else 99 * bool(chosen)
            return mean, sorted(kind)

        places, lines = random.choice(kinds.pop(min(kinds, key=turn)))
        met.update(i[0] for i in broken(graph, places, lines))
        chosen.append((places, lines))
    return chosen


# --- the file ---

def listed(items, indent, width=112):
    rows, row = [], ""
    for item in items + ["[]"]:
        if row and indent + len(row) + len(item) + 3 > width:
            rows.append(row)
            row = "∷ " + item
        else:
            row += (" ∷ " if row else "") + item
    return ("\n" + " " * indent).join(rows + [row])


def points(line):
    return [f"at {x} {y}" for x, y in line]


def main():
    argparse.ArgumentParser(description=__doc__, formatter_class=argparse.RawDescriptionHelpFormatter).parse_args()
    random.seed(20260)
    graphs = ["one", "loop", "back", "cross", "two", "scissors", "station"]
    orders = ["none_above", "loop_above", "back_above", "cross_above", "scissors_above", "station_above"]
    print(f"""-- Drawings taken at random, and what the judge of bench/sample_drawings.py, which was written apart from
-- the definitions, says of each: the broken instances in their order, and the values.
use Rattle.std.proofs.Common.{{◌≡◌, ℕ, Bool, List, [], ◌∷◌, refl}}
use Rattle.plan_core.specs.declared.criterion.Values.{{Values}}
use Rattle.plan_core.specs.declared.sides.Compass.TheVariants.{{East, West}}
use Rattle.plan_core.specs.Graph.{{Graph, End, Joint}}
use Rattle.plan_core.specs.Drawing.{{Drawing, drawing}}
use Rattle.plan_core.specs.Lawful.{{Instance, NodeOnGrid, LineOnGrid, Ordered, Joined, Aligned, Apart, Over, Parted}}
use Rattle.plan_core.specs.Values.{{values_of}}
use Rattle.plan_core.specs.Examples.{{at, node_at, joining, track_graph, measured, usual_grid, {', '.join(g + '_graph' for g in graphs)}, {', '.join(orders)}}}
use Rattle.plan_core.specs.Breaches.{{meeting_graph, parted_graph, joined_graph}}
use Rattle.plan_core.proofs.LawfulTest.{{broken}}

record IsJudged (g : Graph) (above : ℕ → ℕ → Bool) (d : Drawing) (instances : List Instance) (v : Values) : Type 0 where
  laws : broken g above usual_grid d ≡ instances
  values : values_of d ≡ v""")
    for name, (nodes, edges) in (("pairs", PAIRS), ("three", THREE)):
        ends = [f"node_at {metres} ({' '.join(map(str, ports))})" for metres, ports in nodes]
        print(f"\nabbrev {name}_graph : Graph\n{name}_graph = track_graph")
        print(f"    ({listed(ends, 6)})\n    ({listed([f'joining {w} {t}' for w, t in edges], 6)})")
    met = Counter()
    for name, words, graph, order, count, lawful in SUBJECTS:
        assert not broken(graph, *lawful), name
        drawings = sampled(graph, lawful, count, met) + ([TOUCHING_PATHS] if name == "scissors" else [])
        print(f"\n-- {words}")
        for k, (places, lines) in enumerate(drawings, 1):
            assert all(map(is_line, lines))
            found = [" ".join(map(str, i)) for i in broken(graph, places, lines)]
            print(f"\n{name}_{k} : IsJudged {name}_graph {order}")
            print(f"    (drawing ({listed(points(places), 16)})")
            print(f"      ({listed(['(' + listed(points(line), 0, 999) + ')' for line in lines], 8)}))")
            print("    []" if not found else f"    ({listed(found, 6)})")
            print(f"    (measured {' '.join(map(str, values(places, lines)))})")
            print(f"{name}_{k} = record {{ laws = refl; values = refl }}")


if __name__ == "__main__":
    main()

"""The pictures of docs/made: boxes at places of their own, and an arrow from each to those that rest on it, as SVG."""
from collections import namedtuple
from html import escape
from textwrap import wrap

from checking import rooms
from checking.crates import TOP, stands_on

ROOMS = TOP / "docs" / "made" / "rooms.svg"
# a title, lines below it, lines in small letters, and the column and the row, each from 0
Box = namedtuple("Box", "title lines small at")
Size = namedtuple("Size", "wide high")
ASIDE, BETWEEN = 26, 38

# what a room has for others, and its column and row
PLACED = {"ground": ("files, lines of text, limits", (1, 0)),
          "reading": ("a topology", (0, 1)),
          "station": ("a track graph, and what is above what", (1, 1)),
          "log": ("clauses and lines of a log", (2, 1)),
          "drawing": ("lines, laws, values", (0.5, 2)),
          "formula": ("all drawings as clauses", (1, 3)),
          "solver": ("an answer to a question", (2, 3)),
          "texts": ("sheets and pictures", (0, 4)),
          "judges": (f"a verdict on a log; of the judges {rooms.FINDER} alone uses {rooms.SHARED}", (1, 4)),
          "search": ("the best drawing, and its log", (2, 4)),
          "commands": ("the text that is printed", (1, 5)),
          "tests": ("tests of what no run of cases/ shows", (2, 5))}


def shortest(below):
    """For each thing those that it rests on, without those that another of them rests on too."""
    def under(one):
        return set(below[one]).union(*(under(other) for other in below[one]))
    return {one: set(direct) - set().union(*(under(other) for other in direct)) for one, direct in below.items()}


def graph(title, listed, below, size):
    """The boxes, and the arrows to each from those that it rests on, which are to its left or above it."""
    last, rows = (max(box.at[axis] for box in listed.values()) + 1 for axis in (0, 1))
    width, height = round(last * (size.wide + ASIDE) + ASIDE), rows * (size.high + BETWEEN) - BETWEEN + 2 * ASIDE
    found = [f'<svg xmlns="http://www.w3.org/2000/svg" viewBox="0 0 {width} {height}" width="{width}" height="{height}" '
             'font-family="sans-serif">',
             f"<title>{escape(title)}</title>", '<defs><marker id="tip" markerWidth="9" markerHeight="8" refX="8" refY="4" orient="auto">'
             '<path d="M1 0.5l7 3.5l-7 3.5" fill="none" stroke="#446"/></marker></defs>',
             f'<rect width="{width}" height="{height}" fill="white"/>']
    for box in listed.values():
        found += box_at(box, *corner(box, size), size)
    return "\n".join([*found, *arrows(listed, below, size), "</svg>"]) + "\n"


def corner(box, size):
    column, row = box.at
    return ASIDE + column * (size.wide + ASIDE), ASIDE + row * (size.high + BETWEEN)


def box_at(box, x, y, size):
    texts = [(15, 'font-weight="bold"', box.title)] + [(12, "", it) for it in box.lines] + [(10, 'fill="#556"', it) for it in box.small]
    found = [f'<rect x="{x:g}" y="{y}" width="{size.wide}" height="{size.high}" rx="6" fill="#eef3f8" stroke="#446"/>']
    down = y + 7
    for letters, how, text in texts:
        down += letters + (0 if letters == 15 else 4)
        found.append(f'<text x="{x + 12:g}" y="{down}" font-size="{letters}" {how}>{escape(text)}</text>'.replace(" >", ">"))
    return found


def arrows(listed, below, size):
    """From a box's side to the next of its row, and from its lower edge to the upper one of another; arrows at one edge are apart."""
    found, leaving, coming = [], {}, {}
    pairs = [(other, one) for one in below for other in below[one]]
    for other, one in pairs:
        if listed[other].at[1] != listed[one].at[1]:
            leaving.setdefault(other, []).append(one)
            coming.setdefault(one, []).append(other)

    def spot(box, others, other, down):
        beside = sorted(others, key=lambda it: listed[it].at[0])
        x, y = corner(listed[box], size)
        return x + size.wide * (beside.index(other) + 1) / (len(beside) + 1), y + down

    for other, one in sorted(pairs, key=lambda pair: (listed[pair[1]].at[::-1], listed[pair[0]].at)):
        if listed[other].at[1] == listed[one].at[1]:
            (x, y), (to_x, to_y) = corner(listed[other], size), corner(listed[one], size)
            x, y, to_y = x + size.wide, y + size.high / 2, to_y + size.high / 2
        else:
            (x, y), (to_x, to_y) = spot(other, leaving[other], one, size.high), spot(one, coming[one], other, 0)
        found.append(f'<path d="M{x:g} {y:g}L{to_x:g} {to_y:g}" stroke="#446" marker-end="url(#tip)"/>')
    return found


def rooms_picture():
    """The rooms, each with what it has for others and its crates, and an arrow to each room that uses it."""
    of = {crate: name for name, _, crates in rooms.rooms() for crate in crates}
    listed = {name: Box(name, wrap(PLACED[name][0], 40), wrap(", ".join(crates), 48), PLACED[name][1])
              for name, _, crates in rooms.rooms()}
    used = {name: {of[other] for crate in crates for other in stands_on()[crate] if other in of} - {name}
            for name, _, crates in rooms.rooms()}
    return graph("The rooms of the crates, and which room uses which", listed, shortest(used), Size(270, 92))

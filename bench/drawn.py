"""A picture as a browser shows it, and what is wrong with it: names and signals that lie on what they may not, or are cut off."""
from __future__ import annotations

from dataclasses import dataclass, field
from typing import Iterator

Box = tuple[float, float, float, float]
Spot = tuple[float, float]
Piece = tuple[Spot, Spot]
# pixels of a millimetre; the paper that pages are for, and the edge that is left of it, in millimetres
MM = 96 / 25.4
A3 = (420, 297)
EDGE = 10


@dataclass
class Drawn:
    """one strip: its frame, the names, lines and signs in it"""
    view: Box
    texts: list[tuple[str, Box]] = field(default_factory=list)
    lines: list[tuple[str, Piece]] = field(default_factory=list)
    signs: list[tuple[str, Box]] = field(default_factory=list)


def meets(box: Box, piece: Piece, reach: float = 1) -> bool:
    """whether a straight piece comes as near as this to a box: cut at the four sides, is anything left?"""
    (x, y), (u, v) = piece
    first, last = 0.0, 1.0
    for at, step, least, most in ((x, u - x, box[0] - reach, box[2] + reach), (y, v - y, box[1] - reach, box[3] + reach)):
        if abs(step) < 1e-9:
            if not least <= at <= most:
                return False
            continue
        one, other = sorted(((least - at) / step, (most - at) / step))
        first, last = max(first, one), min(last, other)
    return first <= last


def overlap(one: Box, other: Box) -> bool:
    return one[0] < other[2] and other[0] < one[2] and one[1] < other[3] and other[1] < one[3]


def is_inside(box: Box, view: Box, reach: float = 0.0) -> bool:
    return (view[0] - reach <= box[0] and view[1] - reach <= box[1] and box[2] <= view[2] + reach and box[3] <= view[3] + reach)


def faults_of_names(drawn: Drawn) -> Iterator[str]:
    """names that lie on a line, a sign or another text, or are cut off"""
    for at, (text, box) in enumerate(drawn.texts):
        if any(meets(box, piece) for _, piece in drawn.lines):
            yield f"{text} lies on a line"
        if any(overlap(box, sign) for _, sign in drawn.signs):
            yield f"{text} lies on a sign"
        if not is_inside(box, drawn.view):
            yield f"{text} is cut off"
        yield from (f"{text} lies on {other}" for other, there in drawn.texts[at + 1:] if overlap(box, there))


def faults_of_signs(drawn: Drawn) -> Iterator[str]:
    """signals that lie on a line, a sign or another signal"""
    for key, box in drawn.signs:
        small = (box[0] + 0.5, box[1] + 0.5, box[2] - 0.5, box[3] - 0.5)
        if key[:1] == "s":
            if any(meets(box, piece, -0.3) for kind, piece in drawn.lines if kind == "edge"):
                yield f"{key} lies on a line"
            yield from (f"{key} lies on {other}" for other, there in drawn.signs if other != key and overlap(small, there))
        if not is_inside(box, drawn.view, 0.5):
            yield f"{key} is cut off"

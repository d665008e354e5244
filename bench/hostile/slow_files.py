"""Families of railML files and of sheets that are made to take long, each for any number of bytes up to the limit of a file."""
from __future__ import annotations

from collections.abc import Iterator

from slow_families import Maker, Material, repeated

# a longer file isn't read
MOST = 4_194_304
FRONT = b'<infrastructure><tracks>'
BACK = b'</tracks></infrastructure>'
BEGIN = b'<track id="t"><trackTopology><trackBegin id="b" pos="0" absPos="0"><openEnd/></trackBegin>'
END = b'<trackEnd id="e" pos="900000000"><openEnd/></trackEnd><connections>'
CLOSE = b'</connections></trackTopology></track>'
TRACK = BEGIN + END + CLOSE


def inside(pieces: Iterator[bytes]) -> Iterator[bytes]:
    """a file with one track, and something skipped in front of it"""
    yield FRONT
    yield from pieces
    yield TRACK + BACK


def many(piece: bytes) -> Maker:
    """a piece again and again, in front of the track"""
    return lambda _, size: inside(repeated([piece], size))


def numbered(front: bytes, piece: str, back: bytes) -> Maker:
    """pieces that have a number each, in one element"""
    length = len(piece % ((100_000,) * piece.count("%")))

    def make(_: Material, size: int) -> Iterator[bytes]:
        yield FRONT + front
        for at in range(size // length):
            yield (piece % ((100_000 + at,) * piece.count("%"))).encode()
        yield back + TRACK + BACK

    return make


def topology(piece: str) -> Maker:
    """pieces that have a number each, among the connections of a track"""
    length = len(piece % ((100_000,) * piece.count("%")))

    def make(_: Material, size: int) -> Iterator[bytes]:
        yield FRONT + BEGIN + END
        for at in range(size // length):
            yield (piece % ((100_000 + at,) * piece.count("%"))).encode()
        yield CLOSE + BACK

    return make


def deep(_: Material, size: int) -> Iterator[bytes]:
    """elements in each other, as deep as may be, again and again"""
    yield from inside(repeated([b"<a>" * 60 + b"</a>" * 60], size))


def one_value(_: Material, size: int) -> Iterator[bytes]:
    yield from inside(iter([b'<a b="', b"x" * size, b'"/>']))


def one_name(_: Material, size: int) -> Iterator[bytes]:
    yield from inside(iter([b"<", b"x" * (size // 2), b"></", b"x" * (size // 2), b">"]))


def not_ended(front: bytes, piece: bytes) -> Maker:
    """something that begins and never ends"""
    def make(_: Material, size: int) -> Iterator[bytes]:
        yield FRONT + front
        yield from repeated([piece], size)

    return make


SWITCH = ('<switch id="s%d" pos="%d"><connection id="c%d" ref="c%d" course="left" orientation="outgoing"/></switch>')

FILES: dict[str, Maker] = {
    "ordinary": many(b'<a b="c" d="e">text</a>\n'),
    "empty elements": many(b"<a/>"),
    "deep elements": deep,
    "comments": many(b"<!-- - - -->"),
    "references": many(b"&amp;&#65;&lt;"),
    "brackets": many(b"]]&gt;]]"),
    "CDATA": many(b"<![CDATA[]] ]]>"),
    "instructions": many(b"<?a?>"),
    "one tag of many attributes": numbered(b"<a", ' a%d=""', b"/>"),
    "one value": one_value,
    "one name": one_name,
    "a comment without an end": not_ended(b"<!--", b"- "),
    "CDATA without an end": not_ended(b"<![CDATA[", b"]] "),
    "a tag without an end": not_ended(b"<a b='", b'" '),
    "tags without an end": not_ended(b"", b"<a b"),
    "switches that refer to themselves": topology(SWITCH),
    "switches of one id": topology(SWITCH.replace("s%d", "s").replace('"%d"', '"5"')),
    "tracks": numbered(b"", '<track id="t%d"/>', b""),
}


def sheet_line(front: bytes, piece: bytes) -> Maker:
    """a sheet with a line that is made of a piece"""
    def make(_: Material, size: int) -> Iterator[bytes]:
        yield front
        yield from repeated([piece], size)
        yield b"\n"

    return make


SHEETS: dict[str, Maker] = {
    "ordinary": sheet_line(b"railplan 2\ngrid 6 1 1\norder height\nnodes 4\n", b"node 0 mb 0 0 0.000000\n"),
    "a long first line": sheet_line(b"", b"railplan "),
    "a long number": sheet_line(b"railplan 2\ngrid ", b"1"),
    "an order of many criteria": sheet_line(b"railplan 2\ngrid 6 1 1\norder ", b"height "),
    "empty lines": sheet_line(b"railplan 2\ngrid 6 1 1\norder height\n", b"\n"),
}

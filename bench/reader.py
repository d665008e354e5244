#!/usr/bin/env python3
"""Times reading on files of 256 KB, 1 MB and 4 MB of sixteen kinds, beside xmllint where that is there. Each file has a fault of its
topology or of its graph, so that its whole text is read. A row has the processor seconds per MB of each size, the best of three
runs, and the last one over that of the first kind, which is to be at most 2; of xmllint those of 4 MB."""
from __future__ import annotations

import resource
import shutil
import subprocess
import tempfile
from pathlib import Path
from typing import Callable

from measuring import Table, read_words, reader_of_words

SIZES = (("256 KB", 1 << 18), ("1 MB", 1 << 20), ("4 MB", 1 << 22))
HEAD = ["kind", *(label for label, _ in SIZES), "to the first", "xmllint, 4 MB"]
SECONDS = 20
Maker = Callable[[int], str]

TRACK = ("""<track id="t{0}" name="main line {0}"><!-- surveyed --><trackTopology>
<trackBegin id="b{0}" pos="0.000" absPos="{0}000.250"><bufferStop id="o{0}"/></trackBegin>
<trackEnd id="e{0}" pos="99812.500"><openEnd id="p{0}"/></trackEnd><connections>
""", """</connections></trackTopology><trackElements><speedChange id="v{0}" pos="10" vMax="80"/></trackElements></track>
""")
SWITCHES = """<switch id="s{0}_{1}" pos="{1}.500" absPos="{0}{1}.750" model="EW 60-300-1:9">
<connection id="c{0}_{1}" ref="d{0}_{1}" course="left" orientation="outgoing"/></switch>
<switch id="w{0}_{1}" pos="{1}.625"><connection id="d{0}_{1}" ref="c{0}_{1}" course="right" orientation="incoming"/></switch>
"""


def padded(head: str, body: Callable[[int], str], tail: str, size: int) -> str:
    """body comes piece by piece, as long as all of it fits; white space fills the rest"""
    parts, length, i = [head], len(head) + len(tail), 0
    while True:
        piece = body(i)
        if length + len(piece) > size:
            break
        parts.append(piece)
        length += len(piece)
        i += 1
    return "".join(parts) + " " * (size - length) + tail


def station(size: int) -> str:
    """a hundred tracks with switches that lead to each other: no fault but a graph's"""
    head, tail = "<?xml version='1.0' encoding='UTF-8'?>\n<railml xmlns='http://www.railml.org/schemas/2013'><infrastructure><tracks>\n", "</tracks></infrastructure></railml>"
    room = (size - len(head) - len(tail)) // 100

    def track(i: int) -> str:
        begin, end = TRACK[0].format(i), TRACK[1].format(i)
        return padded(begin, lambda j: SWITCHES.format(i, j), end, room)
    text = head + "".join(track(i) for i in range(100))
    return text + " " * (size - len(text) - len(tail)) + tail


SWITCH = ("<infrastructure><tracks><track><trackTopology><connections><switch>", "</switch></connections></trackTopology></track></tracks></infrastructure>")


def connections(identity: Callable[[int], str]) -> Maker:
    """one switch with a connection for each number, which is named and refers to a name"""
    return lambda size: padded(SWITCH[0], lambda i: '<connection id="%s" ref="%s"/>' % (identity(i), identity(i + 1)), SWITCH[1], size)


def one_hash(i: int) -> str:
    """ids that the fixed hasher of the usual hash table takes for one"""
    return "jC5yKyi9MHrXHT0n!{T8=Tkn%08x" % i


ONE_TRACK = ('<infrastructure><tracks><track id="t"><trackTopology><trackBegin id="b" pos="0" absPos="0"><openEnd/></trackBegin>'
             '<trackEnd id="e" pos="999999999" absPos="999999999"><openEnd/></trackEnd><connections>\n', "</connections></trackTopology></track></tracks></infrastructure>")
TWO_SWITCHES = """<switch id="s{0}" pos="{2}"><connection id="{0}" ref="{1}" course="left" orientation="outgoing"/></switch>
<switch id="s{1}" pos="{3}"><connection id="{1}" ref="{0}" course="left" orientation="incoming"/></switch>
"""


def switches(identity: Callable[[int], str], place: Callable[[int], int]) -> Maker:
    """one track with two switches at a time, each of which leads to the other: no fault but a graph's"""
    return lambda size: padded(ONE_TRACK[0], lambda i: TWO_SWITCHES.format(identity(2 * i), identity(2 * i + 1), place(2 * i), place(2 * i + 1)), ONE_TRACK[1], size)


def attributes(size: int) -> str:
    return padded("<infrastructure", lambda i: " a%d='%d'" % (i, i), "/>", size)


def text(size: int) -> str:
    return padded("<infrastructure>", lambda i: "some words of line %d\n<!-- and a comment -->" % i, "</infrastructure>", size)


def rows_in(head: str, row: str, tail: str) -> Maker:
    """as many rows as there can be, without attributes"""
    return lambda size: padded(head, lambda i: row, tail, size)


KINDS: list[tuple[str, Maker]] = [
    ("a station of a hundred tracks", station),
    ("connections whose ids have one hash", connections(one_hash)),
    ("connections with rising ids", connections(lambda i: "%08d" % i)),
    ("connections with falling ids", connections(lambda i: "%08d" % (99999999 - i))),
    ("connections with the shortest ids", connections(lambda i: "%x" % i)),
    ("connections with ids of 2,008 bytes", connections(lambda i: "x" * 2000 + "%08d" % i)),
    ("switches with ids of one hash, no fault but the graph's", switches(one_hash, lambda i: i)),
    ("switches from the end to the begin", switches(lambda i: "%x" % i, lambda i: 999999999 - i)),
    ("switches in one place", switches(lambda i: "%x" % i, lambda i: 1)),
    ("tracks without attributes", rows_in("<infrastructure><tracks>", "<track/>", "</tracks></infrastructure>")),
    ("open ends without attributes", rows_in("<infrastructure><tracks><track id='t'><trackTopology><trackBegin id='b' pos='0' absPos='0'>", "<openEnd/>",
                          "</trackBegin><trackEnd id='e' pos='1'><openEnd/></trackEnd></trackTopology></track></tracks></infrastructure>")),
    ("one tag of attributes", attributes),
    ("text and comments", text),
    ("references", lambda size: padded("<infrastructure>", lambda i: "&#%d;" % (33 + i % 60), "</infrastructure>", size)),
    ("CDATA", lambda size: padded("<infrastructure>", lambda i: "<![CDATA[<]]>", "</infrastructure>", size)),
    ("one comment", lambda size: padded("<infrastructure><!--", lambda i: "- ", "--></infrastructure>", size)),
]


def seconds(command: list[str | Path]) -> float | None:
    """processor seconds, the best of three runs; nothing where one takes over 20 seconds"""
    found: list[float] = []
    for _ in range(3):
        before = resource.getrusage(resource.RUSAGE_CHILDREN)
        try:
            subprocess.run(command, stdout=subprocess.DEVNULL, stderr=subprocess.DEVNULL, timeout=SECONDS, check=False)
        except subprocess.TimeoutExpired:
            return None
        after = resource.getrusage(resource.RUSAGE_CHILDREN)
        found.append(after.ru_utime - before.ru_utime + after.ru_stime - before.ru_stime)
    return min(found)


def shown(took: float | None) -> str:
    return f"over {SECONDS} s" if took is None else f"{took:.3f}"


def main() -> None:
    words = read_words(reader_of_words(__doc__))
    lint, table, ordinary = shutil.which("xmllint"), Table("reader", HEAD, words.program), None
    with tempfile.TemporaryDirectory() as folder:
        for kind, make in KINDS:
            per_mb: list[float | None] = []
            for _, size in SIZES:
                file = Path(folder, "station.xml")
                file.write_text(make(size), encoding="ascii", newline="\n")
                took = seconds([words.program, "draw", file])
                per_mb.append(None if took is None else took * (1 << 20) / size)
            largest = per_mb[-1]
            ordinary = ordinary or largest
            other = seconds([lint, "--noout", "--huge", file]) if lint else None
            ratio = f"{largest / ordinary:.2f}" if largest and ordinary else "-"
            table.add(kind, *map(shown, per_mb), ratio, shown(None if other is None else other / 4) if lint else "-")
    table.end(words.write)


if __name__ == "__main__":
    main()

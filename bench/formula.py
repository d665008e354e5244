#!/usr/bin/env python3
"""Counts the variables, clauses and words of the drawings' clauses of three stations, before any bound, and times a whole run that
may learn one clause, with its memory in MB."""
from __future__ import annotations

import tempfile
from pathlib import Path

from measuring import TOP, Table, counts_of, read_words, reader_of_words, run

HEAD = ["station", "grid", "nodes", "edges", "variables", "clauses", "words", "run, s", "MB"]
SWITCH = '<switch id="{side}{at}" pos="{place}"><connection id="c{side}{at}" ref="d{side}{at}" course="{hand}" ' \
         'orientation="{way}"/></switch>'
LOOP = '<track id="l{at}"><trackTopology><trackBegin id="lb{at}" pos="0" absPos="{west}"><connection id="da{at}" ref="ca{at}"/>' \
       '</trackBegin><trackEnd id="le{at}" pos="600"><connection id="db{at}" ref="cb{at}"/></trackEnd></trackTopology></track>'
MAIN = '<track id="m{track}"><trackTopology><trackBegin id="mb{track}" pos="0" absPos="0"><openEnd id="mo{track}"/></trackBegin>' \
       '<trackEnd id="me{track}" pos="{length}"><openEnd id="mp{track}"/></trackEnd><connections>{switches}</connections>' \
       '</trackTopology></track>'


def lines(tracks: int, loops: int) -> str:
    """separate main tracks with loops above them"""
    text = ['<infrastructure id="i"><tracks>']
    for track in range(tracks):
        switches = ""
        for number in range(loops):
            at, west = f"{track}_{number}", 1000 * number + 200
            switches += SWITCH.format(side="a", at=at, place=west, hand="left", way="outgoing")
            switches += SWITCH.format(side="b", at=at, place=west + 600, hand="right", way="incoming")
            text.append(LOOP.format(at=at, west=west))
        text.append(MAIN.format(track=track, length=1000 * loops, switches=switches))
    return "\n".join([*text, "</tracks></infrastructure>", ""])


def formula_of(log: Path) -> tuple[int, int, int]:
    """the greatest variable, the clauses and the words of the Formula lines before the first Bound line"""
    variables = clauses = words = 0
    with log.open(encoding="ascii") as text:
        for line in text:
            if line[0] == "b":
                break
            if line[0] == "f":
                literals = line.split()[1:-1]
                clauses, words = clauses + 1, words + len(literals) + 3
                variables = max(variables, max((abs(int(literal)) for literal in literals), default=0))
    return variables, clauses, words


def main() -> None:
    words = read_words(reader_of_words(__doc__))
    table = Table("formula", HEAD, words.program)
    with tempfile.TemporaryDirectory() as folder:
        file, log = Path(folder, "station.xml"), Path(folder, "log")
        for name, text, width, height in (
                ("examples/station.xml", (TOP / "examples/station.xml").read_text(encoding="utf-8"), 40, 8),
                ("fifteen loops", lines(1, 15), 64, 8), ("sixteen tracks of three loops", lines(16, 3), 64, 12)):
            file.write_text(text, encoding="utf-8")
            grid = ["--width", str(width), "--height", str(height)]
            ran = run([words.program, "draw", file, *grid, "--conflicts", "1", "--log", log])
            table.add(name, f"{width} by {height}", *counts_of(words.program, file), *formula_of(log), ran.seconds,
                      f"{ran.megabytes:.0f}")
    table.end(words.write)


if __name__ == "__main__":
    main()

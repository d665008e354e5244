#!/usr/bin/env python3
"""Draws changed stations on a grid of 64 by 8, anew and by redraw against the sheet of the station before the change. A row has the
change, nodes and edges, the processor seconds and learnt lines of draw, those of redraw, its questions and how many nodes moved."""
from __future__ import annotations

import tempfile
from pathlib import Path
from typing import Iterator

from made_stations import Station, crossovers, loops, scissors, yard
from measuring import Table, counts_of, lines_of, read_words, reader_of_words, run

HEAD = ["station", "change", "nodes", "edges", "draw, s", "learnt lines", "redraw, s", "moved", "end", "questions", "learnt lines"]
GRID = ["--width", "64", "--height", "8"]


def changed() -> Iterator[tuple[str, str, Station, Station, list[str]]]:
    """of each station its name, what was changed, the station before and after, and options"""
    yield "loops above 9", "a loop more", loops(8, lambda i: True), loops(9, lambda i: True), []
    yield "loops in turn 6", "a loop less", loops(7, lambda i: i % 2 == 0), loops(6, lambda i: i % 2 == 0), []
    longer = crossovers(12)
    longer.tracks[0].end += 1000
    yield "crossovers 12", "a track lengthened", crossovers(12), longer, []
    more = scissors(6)
    more.siding(more.tracks[1], 5700, 6000, True)
    yield "scissors 6", "a siding added", scissors(6), more, []
    yield "yard 4", "`--least 2`", yard(4), yard(4), ["--least", "2"]
    yield "crossovers 11", "a crossover taken out", crossovers(12), crossovers(11), []


def row(program: Path, before: Station, after: Station, options: list[str], folder: Path) -> list[object]:
    old, new, sheet, drawn, redrawn = (folder / it for it in ("old.xml", "new.xml", "sheet", "drawn", "redrawn"))
    old.write_text(before.text(), encoding="utf-8")
    new.write_text(after.text(), encoding="utf-8")
    run([program, "draw", old, *GRID], sheet)
    anew = run([program, "draw", new, *GRID, *options, "--log", drawn])
    again = run([program, "redraw", new, old, sheet, *GRID, *options, "--log", redrawn])
    return [*counts_of(program, new), anew.seconds, lines_of(drawn, "l"), again.seconds, again.first("moved "), again.first("end "),
            lines_of(redrawn, "q"), lines_of(redrawn, "l")]


def main() -> None:
    words = read_words(reader_of_words(__doc__, only="stations whose names hold one of these words"))
    table = Table("redraws", HEAD, words.program)
    with tempfile.TemporaryDirectory() as folder:
        for name, change, before, after, options in changed():
            if not words.only or any(word in name for word in words.only):
                table.add(name, change, *row(words.program, before, after, options, Path(folder)))
    table.end(words.write)


if __name__ == "__main__":
    main()

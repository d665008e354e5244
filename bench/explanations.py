#!/usr/bin/env python3
"""Asks why no drawing of made stations is lawful, on grids that are a row too low or two columns too narrow. A row has nodes and
edges, the grid, how many laws are named, and the processor seconds of draw and of explain."""
from __future__ import annotations

import tempfile
from pathlib import Path

from made_stations import Station, crossovers, fan, loops, named, scissors, yard
from measuring import Table, counts_of, read_words, reader_of_words, run

HEAD = ["station", "nodes", "edges", "grid", "laws", "draw, s", "explain, s"]


def stations() -> list[tuple[str, Station, list[tuple[int, int]]]]:
    """stations, each with the grids of which an explanation is asked"""
    return [("loops above 9", loops(9, lambda i: True), [(64, 0), (35, 8)]),
            ("loops in turn 6", loops(6, lambda i: i % 2 == 0), [(64, 1), (19, 8)]),
            ("crossovers 12", crossovers(12), [(64, 0), (23, 8)]), ("scissors 6", scissors(6), [(64, 1), (17, 8)]),
            ("yard 4", yard(4), [(64, 2), (23, 8)]), ("fan 9", fan(9), [(64, 7)])]


def row(program: Path, file: Path, width: int, height: int) -> list[object]:
    grid = ["--width", str(width), "--height", str(height)]
    drawn, explained = (run([program, command, file, *grid]) for command in ("draw", "explain"))
    assert drawn.first("end ") == "none", (file.stem, grid, drawn.text)
    return [*counts_of(program, file), f"{width} by {height}", explained.first("laws "), drawn.seconds, explained.seconds]


def main() -> None:
    words = read_words(reader_of_words(__doc__, only="stations whose names hold one of these words"))
    table = Table("explanations", HEAD, words.program)
    with tempfile.TemporaryDirectory() as folder:
        for name, station, grids in named(stations(), words.only):
            file = Path(folder, "station.xml")
            file.write_text(station.text(), encoding="utf-8")
            for grid in grids:
                table.add(name, *row(words.program, file, *grid))
    table.end(words.write)


if __name__ == "__main__":
    main()

#!/usr/bin/env python3
"""Asks for the fronts of made stations on a grid of 64 by 8. A row has nodes and edges, the processor seconds of draw with `--order
height,width`, and of three pairs of criteria the seconds of front and how many pairs of values it finds."""
from __future__ import annotations

from pathlib import Path

from made_stations import Station, crossovers, fan, loops, scissors, yard
from measuring import counts_of, measure_stations, run

PAIRS = ("height,width", "height,bends", "bends,width")
HEAD = ["station", "nodes", "edges", "draw, s", *(cell for pair in PAIRS for cell in (f"{pair}, s", "pairs"))]
GRID = ["--width", "64", "--height", "8"]


def stations() -> list[tuple[str, Station]]:
    return [("loops above 9", loops(9, lambda i: True)), ("loops in turn 6", loops(6, lambda i: i % 2 == 0)),
            ("crossovers 12", crossovers(12)), ("scissors 6", scissors(6)), ("yard 4", yard(4)), ("fan 9", fan(9))]


def row(program: Path, text: str, folder: Path) -> list[object]:
    file = folder / "station.xml"
    file.write_text(text, encoding="utf-8")
    cells: list[object] = [*counts_of(program, file), run([program, "draw", file, *GRID, "--order", "height,width"]).seconds]
    for pair in PAIRS:
        asked = run([program, "front", file, pair, *GRID])
        cells += [asked.seconds, len(asked.lines("pair "))]
    return cells


if __name__ == "__main__":
    measure_stations(__doc__, "fronts", HEAD, stations(), row)

#!/usr/bin/env python3
"""Draws thirty stations of 60 to 128 nodes on a grid of 64 by 12. A row has nodes and edges, how the search ended, the values,
learnt lines of the budget of 50,000, the size of the log in MB, and the processor seconds and memory in MB of draw."""
from __future__ import annotations

from pathlib import Path

from made_stations import LARGE
from measuring import counts_of, lines_of, measure_stations, run

HEAD = ["station", "nodes", "edges", "end", "values", "learnt lines", "log, MB", "draw, s", "MB"]
GRID = ["--width", "64", "--height", "12"]


def row(program: Path, text: str, folder: Path) -> list[object]:
    file, sheet, log = (folder / it for it in ("station.xml", "sheet", "log"))
    file.write_text(text, encoding="utf-8")
    log.unlink(missing_ok=True)
    drawn = run([program, "draw", file, *GRID, "--log", log], sheet)
    return [*counts_of(program, file), drawn.first("end "), drawn.first("values "), lines_of(log, "l") if log.exists() else "-",
            f"{log.stat().st_size / 1e6:.1f}" if log.exists() else "-", drawn.seconds, f"{drawn.megabytes:.0f}"]


if __name__ == "__main__":
    measure_stations(__doc__, "large", HEAD, LARGE, row)

#!/usr/bin/env python3
"""Draws made stations of several kinds on a grid of 64 by 8. A row has nodes and edges, how the search ended, the values, learnt
lines, the size of the log in MB, and the processor seconds and memory in MB of draw, verify and check."""
from __future__ import annotations

from pathlib import Path

from made_stations import KINDS
from measuring import counts_of, lines_of, measure_stations, run

HEAD = ["station", "nodes", "edges", "end", "values", "learnt lines", "log, MB", "draw, s", "MB", "verify, s", "MB", "check, s", "MB"]
GRID = ["--width", "64", "--height", "8"]


def row(program: Path, text: str, folder: Path) -> list[object]:
    file, sheet, log = (folder / it for it in ("station.xml", "sheet", "log"))
    file.write_text(text, encoding="utf-8")
    log.unlink(missing_ok=True)
    drawn = run([program, "draw", file, *GRID, "--log", log], sheet)
    cells: list[object] = [*counts_of(program, file), drawn.first("end "), drawn.first("values "), lines_of(log, "l"),
                           f"{log.stat().st_size / 1e6:.1f}", drawn.seconds, f"{drawn.megabytes:.0f}"]
    verified = run([program, "verify", file, sheet])
    cells += [verified.seconds, f"{verified.megabytes:.0f}"] if verified.status == 0 else ["-", "-"]
    checked = run([program, "check", file, sheet, log])
    is_certified = checked.text.startswith("certified")
    return [*cells, checked.seconds if is_certified else checked.text.strip(), f"{checked.megabytes:.0f}" if is_certified else "-"]


if __name__ == "__main__":
    measure_stations(__doc__, "stations", HEAD, KINDS, row)

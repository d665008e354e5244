#!/usr/bin/env python3
"""Draws twenty everyday stations on a grid of 64 by 12, and certifies each drawing. A row has the station's nodes and edges, how
the search ended, learnt lines and how many of them trim keeps, the sizes of the log and of the hints in MB, and the processor
seconds of draw, check, trim and recheck."""
from __future__ import annotations

from pathlib import Path

from made_stations import EVERYDAY
from measuring import counts_of, lines_of, measure_stations, run

HEAD = ["station", "nodes", "edges", "end", "check", "learnt lines", "kept", "log, MB", "hints, MB", "draw, s", "check, s", "trim, s",
        "recheck, s"]
GRID = ["--width", "64", "--height", "12"]


def megabytes(path: Path) -> str:
    return f"{path.stat().st_size / 1e6:.2f}" if path.exists() else "-"


def row(program: Path, text: str, folder: Path) -> list[object]:
    file, sheet, log, hints = (folder / it for it in ("station.xml", "sheet", "log", "hints"))
    for path in (log, hints):
        path.unlink(missing_ok=True)
    file.write_text(text, encoding="utf-8")
    drawn = run([program, "draw", file, *GRID, "--log", log], sheet)
    checked = run([program, "check", file, sheet, log])
    trimmed = run([program, "trim", file, sheet, log, hints])
    cells: list[object] = [*counts_of(program, file), drawn.first("end "), checked.text.strip(), lines_of(log, "l")]
    if trimmed.status:
        return [*cells, "-", megabytes(log), "-", drawn.seconds, checked.seconds, trimmed.text.strip(), "-"]
    again = run([program, "recheck", file, sheet, hints])
    assert again.text == checked.text, (checked.text, again.text)
    return [*cells, trimmed.text.split()[2], megabytes(log), megabytes(hints), drawn.seconds, checked.seconds, trimmed.seconds,
            again.seconds]


if __name__ == "__main__":
    measure_stations(__doc__, "everyday", HEAD, EVERYDAY, row)

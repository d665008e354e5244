#!/usr/bin/env python3
"""Draws a folder of everyday stations by one run of `railplan folder`, and then each of its files by a run of its own with `--html`
and `--svg`, one after the other. A row has the number of stations, how many are drawn side by side, the seconds of both by the
clock, and the first over the second. Nothing else should run meanwhile: here the clock counts, and not the processors."""
from __future__ import annotations

import os
import subprocess
import tempfile
import time
from argparse import Namespace
from pathlib import Path

from launcher import Launcher
from made_stations import EVERYDAY
from measuring import Table, read_words, reader_of_words

HEAD = ["stations", "side by side", "folder, s", "one after the other, s", "of it"]
GRID = ["--width", "64", "--height", "12"]


def asked() -> Namespace:
    parser = reader_of_words(__doc__)
    parser.add_argument("--count", type=int, default=50, help="how many stations (50): the everyday ones again and again")
    parser.add_argument("--jobs", type=int, default=os.cpu_count(), help="how many are drawn side by side (as many as there are processors)")
    return read_words(parser)


class Clone(Launcher):
    """the launcher in a folder of its own, with the program that is measured"""

    def seconds(self, runs: list[list[str]]) -> float:
        """how long runs take by the clock, one after the other; each is to end with 0"""
        began = time.monotonic()
        for words in runs:
            subprocess.run(["./railplan", *words], cwd=self.clone, env=self.environment, check=True, stdin=subprocess.DEVNULL,
                           stdout=subprocess.DEVNULL, stderr=subprocess.DEVNULL)
        return time.monotonic() - began


def main() -> None:
    words = asked()
    table = Table("folders", HEAD, words.program)
    with tempfile.TemporaryDirectory() as folder:
        clone = Clone(words.program, Path(folder))
        for name in ("stations", "apart"):
            (clone.clone / name).mkdir()
        names = [f"{at:02} {EVERYDAY[at % len(EVERYDAY)][0]}" for at in range(words.count)]
        for at, name in enumerate(names):
            (clone.clone / "stations" / f"{name}.xml").write_text(EVERYDAY[at % len(EVERYDAY)][1].text(), encoding="utf-8")
        together = clone.seconds([["folder", "stations", "together", "-j", str(words.jobs), *GRID]])
        apart = clone.seconds([["--html", f"apart/{name}.html", "draw", f"stations/{name}.xml", *GRID, "--svg", f"apart/{name}.svg"]
                               for name in names])
    table.add(words.count, words.jobs, together, apart, together / apart)
    table.end(words.write)


if __name__ == "__main__":
    main()

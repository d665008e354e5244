#!/usr/bin/env python3
"""Draws the station of a track with a loop as often as such a run asks for memory, and refuses one request in each run: the first,
the second, and so on, until a run meets no refusal. Says how many runs ended with 7 and a front of the sheet, how many with 0 and
the whole sheet, and how many with 10, since the first requests are for the words. It ends with 1 where a run ended otherwise. A C
compiler, cc, is needed."""
from __future__ import annotations

import os
import shutil
import subprocess
import sys
import tempfile
from concurrent.futures import ThreadPoolExecutor
from pathlib import Path

from measuring import TOP, read_words, reader_of_program

SOURCE = TOP / "bench" / "programs" / "refuse.c"
STATION = TOP / "cases" / "stations" / "loop.xml"


class Runs:
    """Runs of the program, each with one request for memory refused."""

    def __init__(self, program: Path, folder: str) -> None:
        self.program, self.library = program, f"{folder}/refuse.so"
        subprocess.run(["cc", "-O1", "-shared", "-fPIC", "-o", self.library, SOURCE], check=True)

    def run(self, number: int) -> tuple[int, bytes, bool]:
        """the status, what was printed, and whether the request of this number was made"""
        heard, said = os.pipe()
        words = {"LD_PRELOAD": self.library, "REFUSE": str(number), "REFUSED": str(said)}
        ran = subprocess.run([self.program, "draw", STATION], env=words, stdin=subprocess.DEVNULL, stdout=subprocess.PIPE,
                             stderr=subprocess.DEVNULL, pass_fds=[said], check=False)
        os.close(said)
        refused = os.read(heard, 1) == b"x"
        os.close(heard)
        return ran.returncode, ran.stdout, refused


class Tally:
    """How many runs ended how, and those that ended otherwise."""

    def __init__(self, sheet: bytes) -> None:
        self.sheet, self.counts = sheet, {7: 0, 0: 0, 10: 0}
        self.others: list[tuple[int, int]] = []

    def take(self, number: int, status: int, printed: bytes) -> None:
        if status == 7 and self.sheet.startswith(printed) or status == 0 and printed == self.sheet or \
                status == 10 and not printed and number == self.counts[10] + 1:
            self.counts[status] += 1
        else:
            self.others.append((number, status))


def main() -> None:
    words = read_words(reader_of_program(__doc__))
    if not shutil.which("cc"):
        sys.exit("bench/refused.py: a C compiler, cc, is needed")
    with tempfile.TemporaryDirectory() as folder, ThreadPoolExecutor(os.cpu_count()) as pool:
        runs = Runs(words.program.resolve(), folder)
        status, sheet, _ = runs.run(0)
        if status != 0:
            sys.exit(f"bench/refused.py: with all its memory the run ends with {status}")
        tally, first, more = Tally(sheet), 1, True
        while more:
            for number, (status, printed, refused) in enumerate(pool.map(runs.run, range(first, first + 64)), first):
                more = more and refused
                if refused:
                    tally.take(number, status, printed)
                elif (status, printed) != (0, sheet):
                    tally.others.append((number, status))
            first += 64
    print(f"{tally.counts[7]} requests whose refusal ends a run with 7, {tally.counts[0]} whose refusal changes nothing, and before "
          f"them {tally.counts[10]} for the words, with 10")
    for number, status in tally.others:
        print(f"refusal {number}: the run ended with {status}, or printed another text")
    sys.exit(1 if tally.others else 0)


if __name__ == "__main__":
    main()

"""What the scripts that measure have in common: the program's name, a run with its time and memory, a table as CSV, and a row for
each made station."""
from __future__ import annotations

import argparse
import csv
import fcntl
import hashlib
import os
import subprocess
import sys
import tempfile
import time
from dataclasses import dataclass
from pathlib import Path
from typing import Callable, Iterable

from made_stations import Station, named

sys.dont_write_bytecode = True
TOP = Path(__file__).resolve().parent.parent
BUILT = TOP / "crates" / "railplan_main" / "out" / "railplan_main"
RESULTS = TOP / "bench" / "results"
# when each table was written, and of which program
WHEN = RESULTS / "when.csv"
WHEN_HEAD = ["table", "measured", "processors", "program"]


@dataclass
class Ran:
    """How a run ended, what it printed, its processor time in seconds and its memory in MB."""
    status: int
    text: str
    seconds: float
    megabytes: float

    def lines(self, front: str) -> list[str]:
        """what is behind this front, of each line that has it"""
        return [line[len(front):] for line in self.text.split("\n") if line.startswith(front)]

    def first(self, front: str, lacking: str = "-") -> str:
        return next(iter(self.lines(front)), lacking)


def run(command: list[str | Path], out: Path | None = None) -> Ran:
    """runs a command; what it prints also goes into a file, where one is named"""
    child = subprocess.Popen(command, stdout=subprocess.PIPE, stderr=subprocess.DEVNULL)
    assert child.stdout
    printed = child.stdout.read()
    _, status, used = os.wait4(child.pid, 0)
    if out:
        out.write_bytes(printed)
    return Ran(os.waitstatus_to_exitcode(status), printed.decode("utf-8", "replace"), used.ru_utime + used.ru_stime,
               used.ru_maxrss / 1024)


def lines_of(log: Path, letter: str) -> int:
    """how many lines of a log begin with this letter"""
    with log.open("rb") as text:
        return sum(line.startswith(letter.encode() + b" ") for line in text)


def counts_of(program: Path, station: Path) -> list[str]:
    """how many nodes and edges a station has; or its fault"""
    graph = run([program, "graph", station])
    return [graph.first("nodes "), graph.first("edges ")] if graph.status == 0 else [graph.text.strip(), "-"]


def reader_of_program(about: str | None) -> argparse.ArgumentParser:
    """the one word of a script without a table: a program"""
    parser = argparse.ArgumentParser(description=about, formatter_class=argparse.RawDescriptionHelpFormatter)
    parser.add_argument("program", type=Path, nargs="?", default=BUILT, metavar="PROGRAM",
                        help="the program that is measured (the one that ./railplan built)")
    return parser


def with_write(parser: argparse.ArgumentParser) -> argparse.ArgumentParser:
    """the same words, and whether the table is written"""
    parser.add_argument("--write", action="store_true", help="write the table into bench/results, from which docs/work/measured.md is made")
    return parser


def reader_of_words(about: str | None, **more: str) -> argparse.ArgumentParser:
    """the words of a script with a table: a program, and whether the table is written"""
    parser = with_write(reader_of_program(about))
    for name, said in more.items():
        parser.add_argument(f"--{name}", nargs="*", default=[], help=said)
    return parser


def read_words(parser: argparse.ArgumentParser) -> argparse.Namespace:
    words = parser.parse_args()
    if not os.access(words.program, os.X_OK):
        parser.error(f"{words.program} isn't there; ./railplan draw examples/one.xml builds the program")
    return words


def measure_stations(about: str | None, table: str, head: list[str], stations: Iterable[tuple[str, Station]],
                     row: Callable[[Path, str, Path], list[object]]) -> None:
    """all that a script does which has a row for each made station: the program, the station's text and a folder give its cells"""
    words = read_words(reader_of_words(about, only="stations whose names hold one of these words"))
    rows = Table(table, head, words.program)
    with tempfile.TemporaryDirectory() as folder:
        for name, station in named(stations, words.only):
            rows.add(name, *row(words.program, station.text(), Path(folder)))
    rows.end(words.write)


class Table:
    """A table that is printed row by row, and may be written as CSV; of a program that is measured a part of the SHA-256 is kept."""

    def __init__(self, name: str, head: list[str], program: Path | None = None) -> None:
        self.path, self.head = RESULTS / f"{name}.csv", head
        self.program = hashlib.sha256(program.read_bytes()).hexdigest()[:12] if program else "-"
        self.rows: list[list[str]] = []
        print(f"{os.cpu_count()} processors, {time.strftime('%Y-%m-%d')}")
        print(f"| {' | '.join(head)} |\n|{'---|' * len(head)}", flush=True)

    def add(self, *cells: object) -> None:
        row = [f"{cell:.2f}" if isinstance(cell, float) else str(cell) for cell in cells]
        self.rows.append(row)
        print(f"| {' | '.join(row)} |", flush=True)

    def end(self, is_written: bool) -> None:
        if is_written:
            self.path.parent.mkdir(exist_ok=True)
            with self.path.open("w", encoding="utf-8", newline="") as text:
                csv.writer(text, lineterminator="\n").writerows([self.head, *self.rows])
            self.note_when()

    def note_when(self) -> None:
        """writes when this table was made, in the place of what was noted of it; other scripts may do so at the same time"""
        with WHEN.open("a+", encoding="utf-8", newline="") as text:
            fcntl.flock(text, fcntl.LOCK_EX)
            text.seek(0)
            known = {row[0]: row for row in list(csv.reader(text))[1:]}
            known[self.path.stem] = [self.path.stem, time.strftime("%Y-%m-%d"), str(os.cpu_count()), self.program]
            text.truncate(0)
            csv.writer(text, lineterminator="\n").writerows([WHEN_HEAD, *(known[name] for name in sorted(known))])

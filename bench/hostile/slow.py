#!/usr/bin/env python3
"""Measures how long commands take on hints, logs, railML files and sheets that are made to take long.

Of each family of slow_families.py and slow_files.py files of doubling sizes are made, and the seconds of the processor are
taken. A run's *work* is the bytes of the file and, of hints, the looks: the literals of each clause that a line names, once a
line. A hint is good where all of these but one are false, so each is to be looked at, and no way is known to do with less.

The table has a line for each size: bytes, looks, seconds, seconds for each million of work, how often those of the ordinary kind,
at the same size, that is, and the power of the work with which the seconds grow since the line before: 1 is linear. A family is
slow where its last line has more than --times of the ordinary seconds, or where a run takes longer than --limit; less than
--floor seconds are never slow. `--count` says how many sizes there are.

`--write` puts each family's last size into bench/results/slow.csv, from which docs/work/measured.md is made. There the power is that
from the first size that takes 0.02 seconds to the last."""
from __future__ import annotations

import argparse
import contextlib
import csv
import math
import os
import random
import signal
import subprocess
import sys
import tempfile
import time
from dataclasses import dataclass
from pathlib import Path
from typing import Iterable

sys.dont_write_bytecode = True

from known import KNOWN  # noqa: E402
from slow_families import HINTS, LOGS, Maker, Material  # noqa: E402
from slow_files import FILES, SHEETS  # noqa: E402
from slow_files import MOST as MOST_FILE  # noqa: E402
from trying import TOP, Tally, parser_of, report  # noqa: E402

WORDS = {"recheck": ["recheck", "station", "sheet", "made"], "check": ["check", "station", "sheet", "made"],
         "trim": ["trim", "station", "sheet", "made", "out"], "graph": ["graph", "made"],
         "verify": ["verify", "station", "made"]}
FAMILIES = {"recheck": HINTS, "check": LOGS, "trim": LOGS, "graph": FILES, "verify": SHEETS}
# the greatest size of what a command reads
MOST = {"graph": MOST_FILE, "verify": MOST_FILE}
STATUSES = (0, 1, 8)
# a family that is known to be slow is looked for from so many bytes on
LARGE = 3_000_000
# of fewer seconds no power is told
FEW = 0.02
TABLE = TOP / "bench/results/slow.csv"
HEAD = ["command", "family", "MB", "looks, millions", "s", "s for each million", "times the ordinary", "power"]


@dataclass
class Measured:
    """a run: the bytes of the file that was made, the seconds of the processor, its status, whether it was ended, and the looks"""
    size: int
    seconds: float
    status: int
    was_ended: bool
    looks: int = 0

    def work(self) -> int:
        """bytes and looks"""
        return self.size + self.looks

    def rate(self) -> float:
        """seconds for a million of work"""
        return self.seconds / self.work() * 1e6


def timed(command: list[str], limit: float) -> tuple[float, int, bool]:
    """the seconds of the processor that a command takes, its status, and whether it was ended after the limit"""
    nothing = os.open(os.devnull, os.O_RDWR)
    actions = [(os.POSIX_SPAWN_DUP2, nothing, handle) for handle in range(3)]
    number = os.posix_spawn(command[0], command, os.environ, file_actions=actions)
    os.close(nothing)
    ended = []

    def end(*_: object) -> None:
        """ends a run that has used the limit; one that waits for a processor goes on, and one that has ended is gone"""
        if cpu_seconds(number) >= limit:
            with contextlib.suppress(ProcessLookupError):
                os.kill(number, signal.SIGKILL)
                ended.append(True)

    signal.signal(signal.SIGALRM, end)
    signal.setitimer(signal.ITIMER_REAL, limit, limit / 4)
    _, status, usage = os.wait4(number, 0)
    signal.setitimer(signal.ITIMER_REAL, 0)
    return usage.ru_utime + usage.ru_stime, os.waitstatus_to_exitcode(status), bool(ended)


def cpu_seconds(number: int) -> float:
    """what a process has used so far"""
    try:
        fields = Path(f"/proc/{number}/stat").read_text(encoding="latin-1").rpartition(")")[2].split()
    except OSError:
        return float("inf")
    return (int(fields[11]) + int(fields[12])) / os.sysconf("SC_CLK_TCK")


def material_of(words: argparse.Namespace) -> Material:
    """draws the station, trims its log, and reads both"""
    station = words.station.read_bytes()
    Path("station").write_bytes(station)
    grid = ["--width", str(words.width), "--height", str(words.height)]
    for command in (["draw", "station", *grid, "--log", "log"], ["trim", "station", "sheet", "log", "hints"]):
        with open("sheet" if command[0] == "draw" else os.devnull, "wb") as out:
            number = os.posix_spawn(words.program, [words.program, *command], os.environ,
                                    file_actions=[(os.POSIX_SPAWN_DUP2, out.fileno(), 1)])
            if os.waitstatus_to_exitcode(os.waitpid(number, 0)[1]):
                sys.exit(f"the station isn't drawn, or its log isn't trimmed: {' '.join(command)}")
    log = Path("log").read_bytes().splitlines()
    clauses = [[int(field) for field in line.split(b" ")[1:-1]] for line in log if line.startswith(b"f ")]
    variables = max(abs(literal) for clause in clauses for literal in clause)
    return Material(random.Random(words.seed), clauses, variables, Path("hints").read_bytes().splitlines(), log)


def looks_of(lines: Iterable[bytes], clauses: list[list[int]]) -> int:
    """the literals of the clauses that hinted lines name, each clause once a line; these are the formula's clauses"""
    lengths, known, looks = [len(clause) for clause in clauses], {}, 0
    for line in lines:
        if line[:2] not in (b"l ", b"r "):
            continue
        at = line.index(b" 0 ", 1)
        hints = line[at + 3:]
        if hints not in known:
            known[hints] = sum(lengths[int(number) - 1] for number in set(hints.split()[:-1]))
        looks += known[hints]
        if line[:1] == b"l":
            lengths.append(line.count(b" ", 0, at))
    return looks


def measure(words: argparse.Namespace, command: str, maker: Maker, material: Material, size: int) -> Measured:
    with open("made", "wb") as made:
        made.writelines(maker(material, size))
    took, looks = timed([str(words.program), *WORDS[command]], words.limit), 0
    if command == "recheck":
        with open("made", "rb") as lines:
            looks = looks_of(lines, material.clauses)
    return Measured(Path("made").stat().st_size, *took, looks)


def is_refused(words: argparse.Namespace, command: str) -> bool:
    """whether recheck refuses a line of what was made, and so doesn't look at the rest"""
    if command != "recheck":
        return False
    answer = subprocess.run([words.program, *WORDS[command]], stdin=subprocess.DEVNULL, capture_output=True, check=False).stdout
    return answer.startswith((b"hints ", b"check BadHint", b"check Room"))


def power_of(before: Measured | None, one: Measured) -> str:
    """the power with which the seconds grow; nothing where they are too few to say"""
    if before is None or before.seconds < FEW or one.was_ended or one.work() == before.work():
        return ""
    return f"{math.log(one.seconds / before.seconds) / math.log(one.work() / before.work()):.2f}"


def millions(looks: int) -> str:
    """so many looks in millions, and nothing where there are next to none"""
    return "-" if looks < 1000 else f"{looks / 1e6:.3g}" if looks < 1e8 else f"{looks / 1e6:,.0f}"


def row_of(command: str, family: str, measured: list[Measured], ordinary: float) -> list[str]:
    """what the table says of a family that was measured at these sizes; `ordinary` is the ordinary rate at the last one"""
    last, first = measured[-1], next((one for one in measured if one.seconds >= FEW), None)
    end = "ended" if last.was_ended else power_of(first, last) or "-"
    numbers = [f"{last.size / 1e6:.3g}", millions(last.looks), f"{last.seconds:.3g}", f"{last.rate():.3f}", f"{last.rate() / ordinary:.1f}"]
    return [command, family, *numbers, end]


def line_of(command: str, family: str, one: Measured, ordinary: float, power: str) -> str:
    end = "ended at the limit" if one.was_ended else f"status {one.status}"
    return (f"{command:8}{family:44}{one.size:12,}{one.looks:15,}{one.seconds:10.3f} s{one.rate():10.4f} s/million"
            f"{one.rate() / ordinary:9.1f} times  {power and 'power ' + power:10} {end}")


def is_slow(words: argparse.Namespace, one: Measured, ordinary: float) -> bool:
    return one.was_ended or one.seconds > words.floor and one.rate() > words.times * ordinary


def judge(tally: Tally, command: str, family: str, last: Measured, slow: bool) -> None:
    """counts a family, and whether it is slow at its greatest size. One that is known to be slow is so where it is large"""
    key = f"slow: {command}, {family}"
    tally.cases += 1
    if key not in KNOWN:
        tally.wrong += [f"{command} is slow on the family `{family}`"] * slow
    elif slow or last.size >= LARGE:
        tally.looked_for[key] += 1
        tally.seen[key] += slow


def try_family(words: argparse.Namespace, command: str, family: str, material: Material, rates: dict[int, float],
               tally: Tally) -> list[str]:
    """measures a family at each size, until it is slow; its row of the table"""
    slow = False
    measured: list[Measured] = []
    for doubling in range(words.count):
        size = min(words.least << doubling, MOST.get(command, 1 << 29) - 2000)
        one = measure(words, command, FAMILIES[command][family], material, size)
        tally.runs += 1
        if not doubling and is_refused(words, command):
            tally.wrong.append(f"{command}, {family}: a line is refused, so the others aren't measured")
        if family == "ordinary":
            rates[size] = max(one.rate(), 1e-4)
        print(line_of(command, family, one, rates[size], power_of(measured[-1] if measured else None, one)), flush=True)
        measured.append(one)
        slow = is_slow(words, one, rates[size])
        if not one.was_ended and one.status not in STATUSES:
            tally.wrong.append(f"{command}, {family}: ends with {one.status}")
        if one.was_ended or size < words.least << doubling or time.time() > words.until:
            break
    judge(tally, command, family, measured[-1], slow)
    return row_of(command, family, measured, rates[size])


def write_table(rows: list[list[str]]) -> None:
    with TABLE.open("w", encoding="utf-8", newline="") as text:
        csv.writer(text, lineterminator="\n").writerows([HEAD, *rows])


def main() -> int:
    parser = parser_of(__doc__ or "", 3)
    parser.add_argument("--least", type=int, default=1 << 16, help="the bytes of the smallest files (65,536)")
    parser.add_argument("--times", type=float, default=20.0, help="how often the ordinary seconds for as much work are slow (20)")
    parser.add_argument("--limit", type=float, default=2.0, help="a run is ended after so many seconds of the processor (2)")
    parser.add_argument("--floor", type=float, default=0.3, help="so many seconds are never slow (0.3)")
    parser.add_argument("--only", default="", help="only families whose command and name have this text")
    parser.add_argument("--station", type=Path, default=TOP / "cases/stations/loop.xml", help="the station")
    parser.add_argument("--width", type=int, default=32, help="the grid's width: so many columns give the formula 2,308 variables")
    parser.add_argument("--height", type=int, default=6)
    words = parser.parse_args()
    words.program, words.station = words.program.resolve(), words.station.resolve()
    words.name, words.began = "slow", time.time()
    words.until = words.began + words.seconds
    tally, rows = Tally(), []
    with tempfile.TemporaryDirectory() as folder:
        os.chdir(folder)
        material = material_of(words)
        for command, families in FAMILIES.items():
            rates: dict[int, float] = {}
            for family in families:
                if family == "ordinary" or words.only in f"{command} {family}":
                    rows.append(try_family(words, command, family, material, rates, tally))
        os.chdir(TOP)
    if words.write:
        write_table(rows)
    return report(words, tally)


if __name__ == "__main__":
    sys.exit(main())

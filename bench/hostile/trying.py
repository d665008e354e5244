"""What the scripts of this folder share: their words, cases that follow from a seed, runs of the program, and the tally.

A script has a function that tries one case. Each case has a number and its own chances, which follow from the seed and the
number: `--seed S --first N --count 1` tries case N of the seed S again. A script that is interrupted says what it has tried."""
from __future__ import annotations

import argparse
import contextlib
import csv
import hashlib
import multiprocessing
import os
import random
import shutil
import signal
import sys
import tempfile
import time
import traceback
from collections import Counter
from collections.abc import Callable, Iterator, Mapping
from concurrent.futures import ProcessPoolExecutor
from dataclasses import dataclass, field
from functools import partial
from pathlib import Path

from known import KNOWN

TOP = Path(__file__).resolve().parents[2]
# what long runs came to, from which docs/work/measured.md is made
TABLE = TOP / "bench/results/hostile.csv"
HEAD = ["script", "seed", "cases", "runs", "wrong", "s", "program"]
# a run that takes longer is said to hang
SECONDS = 60.0
TICK = 0.1
# a run that is to end is looked at again no sooner
LOOK = 5.0
# signals that a run takes as a program does that is started from a terminal, however the script was started
DEFAULT = (signal.SIGPIPE, signal.SIGXFSZ, signal.SIGHUP, signal.SIGINT, signal.SIGQUIT, signal.SIGTERM)
# so many cases are handed to a process at a time
BATCH = 25
# a folder in memory, where the system has one: there a file takes a tenth of the time, and a sync next to none
MEMORY = "/dev/shm"


@dataclass
class Answer:
    """how a run ended: its status, which is negative for a signal, what it printed and what it said on standard error"""
    status: int
    printed: bytes
    said: bytes = b""
    hung: bool = False

    def first_words(self, number: int) -> str:
        line = self.printed.split(b"\n")[0].decode(errors="replace")
        return " ".join(line.split(" ")[:number])


@dataclass
class Tally:
    """what was tried, what was wrong, which known faults were looked for, and which were seen"""
    counts: Counter[str] = field(default_factory=Counter)
    wrong: list[str] = field(default_factory=list)
    looked_for: Counter[str] = field(default_factory=Counter)
    seen: Counter[str] = field(default_factory=Counter)
    cases: int = 0
    runs: int = 0

    def add(self, other: Tally) -> None:
        self.counts += other.counts
        self.wrong += other.wrong
        self.looked_for += other.looked_for
        self.seen += other.seen
        self.cases += other.cases
        self.runs += other.runs


def processes_of(number: int) -> list[list[str]]:
    """of a process, and of all below it, what the system tells in /proc: the state first, then the number of the one above"""
    told: dict[int, list[str]] = {}
    for path in Path("/proc").glob("[0-9]*/stat"):
        with contextlib.suppress(OSError):
            told[int(path.parent.name)] = path.read_text(encoding="latin-1").rpartition(")")[2].split()
    found = [number]
    for one in found:
        found += [other for other, fields in told.items() if int(fields[1]) == one]
    return [told[one] for one in found if one in told]


def seconds_used(number: int) -> float:
    """the seconds of the processor that a process has used, and those below it"""
    ticks = sum(int(field) for fields in processes_of(number) for field in fields[11:15])
    return ticks / os.sysconf("SC_CLK_TCK")


def waits_for_a_processor(number: int, seconds: float) -> bool:
    """whether a process, or one below it, could go on and has had less of the processors than so many seconds"""
    return any(fields[0] == "R" for fields in processes_of(number)) and seconds_used(number) < seconds


class Runner:
    """starts programs in a folder, and waits for them. Its handles are closed behind it: a long run has many"""

    def __init__(self, folder: Path) -> None:
        self.folder = folder
        self.nothing = os.open(os.devnull, os.O_RDONLY)
        self.texts = [os.memfd_create(name) for name in ("printed", "said")]
        self.environment = dict(os.environb)
        self.running, self.hung, self.limit, self.left = 0, False, 0.0, 0.0
        signal.signal(signal.SIGALRM, self.tick)

    def close(self) -> None:
        for handle in (self.nothing, *self.texts):
            os.close(handle)

    def tick(self, *_: object) -> None:
        """comes again and again while a run goes on, and ends it once it has taken too long. While the script itself is
        stopped no tick is counted, and on a busy machine a run that waits for a processor gets the time again"""
        self.left -= TICK
        if self.running and self.left <= 0:
            self.left = max(self.limit, LOOK)  # to look takes a while, in which further ticks come
            if waits_for_a_processor(self.running, self.limit):
                return
            with contextlib.suppress(ProcessLookupError):
                os.kill(self.running, signal.SIGKILL)
                self.hung = True

    def run(self, command: list[str | bytes], seconds: float = SECONDS, environment: Mapping[str, str] | None = None) -> Answer:
        for text in self.texts:
            os.ftruncate(text, 0)
            os.lseek(text, 0, os.SEEK_SET)
        handles = zip((self.nothing, *self.texts), range(3))
        actions = [(os.POSIX_SPAWN_DUP2, ours, theirs) for ours, theirs in handles]
        self.hung, self.limit, self.left = False, seconds, seconds
        os.chdir(self.folder)
        self.running = os.posix_spawn(command[0], command, self.environment if environment is None else environment,
                                      file_actions=actions, setsigmask=(), setsigdef=DEFAULT)
        signal.setitimer(signal.ITIMER_REAL, TICK, TICK)
        _, status = os.waitpid(self.running, 0)
        self.running = 0
        signal.setitimer(signal.ITIMER_REAL, 0)
        printed, said = (os.pread(text, os.fstat(text).st_size, 0) for text in self.texts)
        return Answer(os.waitstatus_to_exitcode(status), printed, said, self.hung)


class Case:
    """one case while it is tried, in a folder that is empty when it begins"""

    def __init__(self, program: Path, runner: Runner, seed: int, number: int) -> None:
        self.program, self.runner, self.folder, self.number = str(program), runner, runner.folder, number
        self.chance = random.Random(f"{seed}/{number}")
        self.tally = Tally(cases=1)
        self.where = f"seed {seed}, case {number}"

    def path(self, name: str) -> Path:
        return self.folder / name

    def write(self, name: str, text: bytes) -> None:
        self.path(name).write_bytes(text)

    def text_of(self, name: str) -> bytes | None:
        """what is in a file; nothing where it isn't there"""
        path = self.path(name)
        return path.read_bytes() if path.is_file() else None

    def start(self, command: list[str | bytes], seconds: float = SECONDS,
              environment: Mapping[str, str] | None = None) -> Answer:
        """runs a command, which may not hang"""
        self.tally.runs += 1
        answer = self.runner.run(command, seconds, environment)
        if answer.hung:
            self.wrong(f"hasn't ended after {seconds:g} seconds: {' '.join(map(str, command[1:]))}")
        return answer

    def run(self, *words: str | bytes, seconds: float = SECONDS, environment: Mapping[str, str] | None = None) -> Answer:
        """runs the program"""
        return self.start([self.program, *words], seconds, environment)

    def count(self, what: str, number: int = 1) -> None:
        self.tally.counts[what] += number

    def wrong(self, what: str) -> None:
        self.tally.wrong.append(f"{self.where}: {what}")

    def hold_that(self, is_so: bool, what: str, known: str = "") -> None:
        """something is to be so. Where the table of known faults has the entry it is looked for, and may be otherwise"""
        if known in KNOWN:
            self.tally.looked_for[known] += 1
            self.tally.seen[known] += not is_so
        elif not is_so:
            self.wrong(what)

    def hold(self, what: str, wanted: tuple[int, bytes], answer: Answer) -> None:
        """an answer is to be this one, to the byte"""
        self.count(f"{what}: {Answer(*wanted).first_words(3 if wanted[0] == 1 else 2)}")
        if wanted != (answer.status, answer.printed) or answer.said:
            self.wrong(f"{what} is to answer {wanted[0]} {wanted[1][:200]!r}, and answers {answer.status} "
                       f"{answer.printed[:200]!r} {answer.said[:200]!r}")


class NotHere(Exception):
    """what a script needs of the system, and isn't here"""


class Stop:
    """whether the script is asked to end: by an interrupt, and likewise by a request to end"""
    asked = False

    @classmethod
    def ask(cls, *_: object) -> None:
        cls.asked = True
        for worker in multiprocessing.active_children():
            if worker.pid:
                os.kill(worker.pid, signal.SIGINT)

    @classmethod
    def listen(cls) -> None:
        for number in (signal.SIGINT, signal.SIGTERM):
            signal.signal(number, cls.ask)


Try = Callable[[Case], None]
Prepare = Callable[[argparse.Namespace], object]


def emptied(folder: Path) -> None:
    with os.scandir(folder) as there:
        for one in there:
            shutil.rmtree(one) if one.is_dir(follow_symlinks=False) else os.unlink(one)


def place_of_folders() -> str | None:
    """where the folders of cases are made: in memory, unless TMPDIR names another place or there is none"""
    return MEMORY if "TMPDIR" not in os.environ and os.access(MEMORY, os.W_OK | os.X_OK) else None


def try_some(words: argparse.Namespace, attempt: Try, numbers: range) -> Tally:
    """tries the cases of these numbers, in a folder of their own"""
    tally = Tally()
    place = place_of_folders()
    with tempfile.TemporaryDirectory(dir=place) as name, contextlib.closing(Runner(Path(name))) as runner:
        folder = runner.folder
        for number in numbers:
            if Stop.asked or time.time() > words.until:
                break
            case = Case(words.program, runner, words.seed, number)
            try:
                attempt(case)
            except Exception as why:  # a fault of the script isn't to lose what it has tried so far
                case.wrong(f"the script fails: {why!r}, {traceback.format_tb(why.__traceback__)[-1].strip()}")
            if Stop.asked:  # its runs may have been ended with it
                break
            if case.tally.wrong and words.keep:
                shutil.copytree(folder, words.keep / f"{words.name}_{words.seed}_{number}", dirs_exist_ok=True)
            tally.add(case.tally)
            os.chdir(folder)
            emptied(folder)
        os.chdir(TOP)
    return tally


def tallies(words: argparse.Namespace, attempt: Try) -> Iterator[Tally]:
    """tries all cases, and hands on the tally of each batch"""
    end = words.first + words.count
    if words.jobs == 1:
        yield try_some(words, attempt, range(words.first, end))
        return
    batches = [range(at, min(at + BATCH, end)) for at in range(words.first, end, BATCH)]
    with ProcessPoolExecutor(words.jobs) as pool:
        yield from pool.map(partial(try_some, words, attempt), batches)


def parser_of(text: str, count: int) -> argparse.ArgumentParser:
    """the words that each script takes"""
    parser = argparse.ArgumentParser(description=text, formatter_class=argparse.RawDescriptionHelpFormatter)
    parser.add_argument("program", type=Path, metavar="PROGRAM", help="the program, as crates/railplan_main/out/railplan_main")
    parser.add_argument("--count", type=int, default=count, help=f"how many cases are tried ({count})")
    parser.add_argument("--seed", type=int, default=1, help="what the cases follow from (1)")
    parser.add_argument("--seconds", type=float, default=10.0 ** 9, help="no case begins after so many seconds")
    parser.add_argument("--first", type=int, default=0, help="the number of the first case (0)")
    parser.add_argument("--jobs", type=int, default=1, help="how many processes try cases side by side (1)")
    parser.add_argument("--write", action="store_true", help="write what comes of it into bench/results")
    parser.add_argument("--keep", type=Path, help="a folder that gets the files of each case that is wrong")
    return parser


def write_row(words: argparse.Namespace, tally: Tally) -> None:
    """puts what was tried into the table, in place of an earlier row of the script and the seed. A run that goes on with the same
    program where that row ends, by `--first`, is added to it"""
    program = hashlib.sha256(words.program.read_bytes()).hexdigest()[:8]
    counts = [tally.cases, tally.runs, len(tally.wrong), round(time.time() - words.began)]
    rows = list(csv.reader(TABLE.read_text(encoding="utf-8").splitlines()))[1:] if TABLE.exists() else []
    place = [words.name, str(words.seed)]
    for before in rows:
        if before[:2] == place and before[2] == str(words.first) and before[6] == program:
            counts = [one + int(other) for one, other in zip(counts, before[2:6])]
    row = [*place, *map(str, counts), program]
    rows = sorted([*(it for it in rows if it[:2] != place), row], key=lambda it: (it[0], int(it[1])))
    with TABLE.open("w", encoding="utf-8", newline="") as text:
        csv.writer(text, lineterminator="\n").writerows([HEAD, *rows])


def report(words: argparse.Namespace, tally: Tally) -> int:
    """says what was tried and what was wrong; the status of the script"""
    for what, number in sorted(tally.counts.items()):
        print(f"{number:8} {what}")
    for key in sorted(tally.looked_for):
        if tally.seen[key]:
            print(f"known, {tally.seen[key]} of {tally.looked_for[key]} times: {KNOWN[key]}")
        else:
            tally.wrong.append(f"known.py has an entry that {tally.looked_for[key]} tries don't show, so take it out: {key}")
    for what in tally.wrong[:40]:
        print(f"wrong: {what}")
    print(f"{words.name}: {tally.cases} cases tried in {tally.runs} runs, {len(tally.wrong)} wrong, seed {words.seed}, "
          f"{time.time() - words.began:.0f} s", flush=True)
    return 1 if tally.wrong else 0


def main(text: str, attempt: Try, count: int, prepare: Prepare | None = None) -> int:
    """reads a script's words, tries its cases and reports; `prepare` makes what all cases share"""
    parser = parser_of(text, count)
    words = parser.parse_args()
    words.program = words.program.resolve()
    if not os.access(words.program, os.X_OK):
        parser.error(f"there is no program {words.program}")
    words.name, words.began = Path(sys.argv[0]).stem, time.time()
    words.until = words.began + words.seconds
    words.keep = words.keep and words.keep.resolve()
    tally = Tally()
    Stop.listen()
    try:
        if prepare:
            prepare(words)
    except NotHere as why:
        print(f"{words.name}: not tried, as {why}")
        return 0
    for one in tallies(words, attempt):
        tally.add(one)
        for what in one.wrong[:3]:
            print(f"wrong: {what}", file=sys.stderr, flush=True)
    status = report(words, tally)
    if words.write:
        write_row(words, tally)
    return status

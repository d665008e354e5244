#!/usr/bin/env python3
"""Sends signals to searches that were started in five ways, and holds how they end.

The ways are the program alone, the launcher, the launcher with a terminal as its standard error, and both with a page. A signal
goes to the process that was started, or to its whole group, as a terminal sends it. It ends within some seconds, an interrupt
with 130. No process is left, and no file but a log."""
from __future__ import annotations

import os
import pty
import signal
import subprocess
import sys
import threading
import time
from collections.abc import Callable
from dataclasses import dataclass
from pathlib import Path

sys.dont_write_bytecode = True

import launched  # noqa: E402
from trying import TOP, Case, main  # noqa: E402

WAYS = ("program", "launcher", "terminal", "page", "page with a terminal")
SIGNALS = (signal.SIGINT, signal.SIGTERM, signal.SIGHUP)
# each signal, to the process alone or to its group, and each way. A quit is for a group: a terminal sends it
KINDS = [(number, to_group, way) for number in SIGNALS for to_group in (False, True) for way in WAYS]
KINDS += [(signal.SIGQUIT, True, way) for way in WAYS]
# a search that goes on for minutes
STATION = TOP / "cases/stations/tracks_64.xml"
SEARCH = ["draw", "station", "--order", "bends", "--conflicts", "200000"]
# seconds until the program has begun, until the search has ended behind a signal, and until no process is left
BEGIN, END, LEFT = 30.0, 10.0, 5.0


@dataclass
class Started:
    """a search that was started, in a session of its own"""
    job: subprocess.Popen
    reader: threading.Thread | None


def read_all(handle: int) -> None:
    """reads a terminal until nobody writes to it any more"""
    with os.fdopen(handle, "rb", buffering=0) as it:
        try:
            while it.read(4096):
                pass
        except OSError:
            return


def hear(numbers: tuple[signal.Signals, ...]) -> None:
    """takes the signals that this script was started to ignore as they come: what it starts would ignore them too"""
    for number in numbers:
        if signal.getsignal(number) == signal.SIG_IGN:
            signal.signal(number, signal.SIG_DFL)


def start(case: Case, way: str) -> Started:
    hear((*SIGNALS, signal.SIGQUIT))
    launcher, environment = launched.clone_of(case.program)
    front = ["--html", "page.html"] if "page" in way else []
    more = ["--log", "a_log"] if case.chance.random() < 0.5 else []
    words = [case.program if way == "program" else launcher, *front, *SEARCH, *more]
    ours, theirs = pty.openpty() if "terminal" in way else (None, subprocess.DEVNULL)
    job = subprocess.Popen(words, cwd=case.folder, env=environment, stdin=subprocess.DEVNULL, stdout=subprocess.DEVNULL,
                           stderr=theirs, start_new_session=True)
    if ours is None:
        return Started(job, None)
    os.close(theirs)
    reader = threading.Thread(target=read_all, args=(ours,))
    reader.start()
    return Started(job, reader)


def session_of(number: int) -> list[int]:
    """the processes of a session that haven't ended"""
    found = []
    for path in Path("/proc").glob("[0-9]*/stat"):
        try:
            fields = path.read_text(encoding="latin-1").rpartition(")")[2].split()
        except OSError:
            continue
        if int(fields[3]) == number and fields[0] not in "ZX":
            found.append(int(path.parent.name))
    return found


def wait_until(is_so: Callable[[], bool], seconds: float) -> bool:
    until = time.monotonic() + seconds
    while not is_so():
        if time.monotonic() > until:
            return False
        time.sleep(0.02)
    return True


def is_searching(started: Started, program: str) -> bool:
    """whether the program has begun: the one that is tried, or the launcher's copy of it"""
    for number in session_of(started.job.pid):
        try:
            running = os.readlink(f"/proc/{number}/exe")
        except OSError:
            continue
        if running == program or running.endswith("/railplan_main"):
            return True
    return False


def clean_up(started: Started) -> None:
    """ends what is left of the session"""
    for number in session_of(started.job.pid):
        os.kill(number, signal.SIGKILL)
    started.job.wait()
    if started.reader:
        started.reader.join()


def attempt(case: Case) -> None:
    number, to_group, way = KINDS[case.number % len(KINDS)]
    said = f"{number.name} to {'the group' if to_group else 'the process'}, started as {way}"
    case.write("station", STATION.read_bytes())
    started = start(case, way)
    case.tally.runs += 1
    if not wait_until(lambda: is_searching(started, case.program) or started.job.poll() is not None, BEGIN):
        case.wrong(f"the search hasn't begun: {said}")
    time.sleep(case.chance.choice([0.05, 0.2, 0.5]))
    (os.killpg if to_group else os.kill)(started.job.pid, number)
    has_ended = wait_until(lambda: started.job.poll() is not None, END)
    is_empty = wait_until(lambda: not session_of(started.job.pid), LEFT) if has_ended else False
    status = started.job.poll()
    clean_up(started)
    files = {path.name for path in case.folder.iterdir()} - {"station", "a_log"}
    case.count(f"{number.name}, {way}: {status if has_ended else 'goes on'}")
    wanted = {130, -2} if number == signal.SIGINT else {130, 128 + number, -number}
    known = f"{'page' if 'page' in way else way}, {number.name} {'to the group' if to_group else 'alone'}"
    is_right = has_ended and status in wanted and is_empty and not files
    left = "no process" if is_empty else "processes"
    case.hold_that(is_right, f"ends with {status}, leaves {sorted(files)} and {left}: {said}", known)


if __name__ == "__main__":
    sys.exit(main(__doc__ or "", attempt, len(KINDS),
                  lambda words: launched.clone_of(str(words.program))))

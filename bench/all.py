#!/usr/bin/env python3
"""Measures all tables of docs/work/measured.md anew, writes them into bench/results, and makes the page of them.

Nothing else should run meanwhile. Two scripts run side by side; what is measured by the clock comes last, and alone. A script that
needs what this machine hasn't is left out, and its table stays as it was. The last lines say how long each took by the clock."""
from __future__ import annotations

import argparse
import shutil
import subprocess
import sys
import time
from concurrent.futures import ThreadPoolExecutor
from dataclasses import dataclass
from pathlib import Path

from measuring import TOP, read_words, reader_of_program


@dataclass(frozen=True)
class Script:
    """A script with a table: the command or the file that it needs besides, and how it is called."""
    name: str
    needs: str = ""
    words: tuple[str, ...] = ()
    takes_program: bool = True
    is_alone: bool = False


# the desk of the program that is measured, as the gate leaves it
DESK = "out/desk.html"

# those that take longest come first
SCRIPTS = (
    Script("peers", "g++"), Script("stations"), Script("everyday"), Script("large"), Script("reader"), Script("redraws"), Script("fronts"),
    Script("search", "minisat"), Script("explanations"), Script("formula"),
    Script("pages", "chromium", ("drive",), takes_program=False), Script("folders", is_alone=True),
    Script("browsers", DESK, ("--desk", str(TOP / DESK)), is_alone=True))
# these prove crates before they measure, where that isn't done yet
PROVING = (Script("solver", "rt", takes_program=False), Script("propagation", "rt", takes_program=False))


def command_of(script: Script, program: Path) -> list[str]:
    given = [str(program)] if script.takes_program else []
    return [sys.executable, str(TOP / "bench" / f"{script.name}.py"), *script.words, *given, "--write"]


def measure(script: Script, program: Path) -> str:
    """how a script went, in a line"""
    if script.needs and not shutil.which(script.needs) and not (TOP / script.needs).exists():
        return f"{script.name}: left out, as {script.needs} isn't here"
    began = time.monotonic()
    ran = subprocess.run(command_of(script, program), capture_output=True, text=True, check=False)
    took = f"{time.monotonic() - began:.0f} s"
    if ran.returncode:
        return f"{script.name}: ended with {ran.returncode} after {took}: {(ran.stderr or ran.stdout).strip()[-300:]}"
    print(ran.stdout, flush=True)
    return f"{script.name}: {took}"


def main() -> int:
    parser = reader_of_program(__doc__)
    parser.add_argument("--jobs", type=int, default=2, help="how many scripts run side by side (2)")
    parser.add_argument("--proving", action="store_true", help="measure solver and propagation too, which prove some crates first")
    parser.add_argument("--only", nargs="*", default=[], help="the scripts that are run, by their names")
    words = read_words(parser)
    scripts = [it for it in (*SCRIPTS, *PROVING) if (it.name in words.only if words.only else words.proving or it not in PROVING)]
    with ThreadPoolExecutor(max(1, words.jobs)) as pool:
        said = list(pool.map(lambda it: measure(it, words.program), [it for it in scripts if not it.is_alone]))
    said += [measure(it, words.program) for it in scripts if it.is_alone]
    print("\n".join(said))
    subprocess.run([sys.executable, str(TOP / "docs/check"), "--write"], check=True)
    return int(any(" ended with " in it for it in said))


if __name__ == "__main__":
    sys.exit(main())

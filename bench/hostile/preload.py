"""The library of failing.c, runs of commands under it, and what such runs are to leave."""
from __future__ import annotations

import atexit
import os
import shutil
import subprocess
import sys
import tempfile
from dataclasses import dataclass, field
from functools import cache
from pathlib import Path

from opinion import load, stations
from trying import Answer, Case, NotHere

SOURCE = Path(__file__).resolve().with_name("failing.c")
GRID = ["--width", "6", "--height", "1"]
SMALL = [*GRID, "--conflicts", "50"]
# the commands that are run; what each reads and writes stands in its words
RUNS = [
    ["draw", "station", *GRID],
    ["draw", "station", *GRID, "--log", "a_log"],
    ["draw", "station", *GRID, "--svg", "a_picture"],
    ["draw", "station", *GRID, "--log", "a_log", "--svg", "a_picture"],
    ["draw", "station", "--width", "1", "--log", "a_log"],
    ["signals", "station", *SMALL, "--log", "a_log"],
    ["front", "station", "height,width", *SMALL],
    ["explain", "station", *SMALL],
    ["redraw", "station", "station", "sheet", *SMALL, "--log", "a_log"],
    ["graph", "station"],
    ["verify", "station", "sheet"],
    ["check", "station", "sheet", "log"],
    ["trim", "station", "sheet", "log", "some_hints"],
    ["recheck", "station", "sheet", "hints"],
    ["make", "3"],
    ["trial", "0"],
    ["draw", "station", "--width", "0"],
]
WRITTEN = ("a_log", "a_picture", "some_hints")


@cache
def library() -> str:
    """the path of the library, which is built before the cases begin"""
    compiler = next((it for it in map(shutil.which, ["cc", "gcc", "clang"]) if it), None)
    if not compiler or not sys.platform.startswith("linux"):
        raise NotHere("there is no C compiler, or this isn't Linux")
    folder = tempfile.mkdtemp(prefix="failing_")
    atexit.register(shutil.rmtree, folder)
    path = f"{folder}/failing.so"
    subprocess.run([compiler, "-shared", "-fPIC", "-O1", "-o", path, str(SOURCE)], check=True)
    return path


@dataclass
class Base:
    """a run in which nothing fails: its answer, the files that it writes, and its calls"""
    words: list[str]
    answer: Answer
    files: dict[str, bytes]
    calls: list[list[str]] = field(default_factory=list)
    memory: int = 0


def prepare(case: Case) -> None:
    """a station with its sheet, its log and its hints"""
    while True:
        text = stations.Station(case.chance).text()
        found = load(text)
        if found and len(found.edges) <= 6:
            break
    case.write("station", text)
    case.write("sheet", case.run("draw", "station", *GRID, "--log", "log").printed)
    case.run("trim", "station", "sheet", "log", "hints")


def files_of(case: Case) -> dict[str, bytes]:
    """the files that runs write, as they are now"""
    return {name: text for name in WRITTEN if (text := case.text_of(name)) is not None}


def clear(case: Case) -> None:
    for name in WRITTEN:
        case.path(name).unlink(missing_ok=True)


def run(case: Case, words: list[str], **how: str) -> Answer:
    """runs the program with the library; `call="read"` sets FAILING_CALL"""
    clear(case)
    environment = {**os.environ, "LD_PRELOAD": library(), **{f"FAILING_{name.upper()}": value for name, value in how.items()}}
    return case.run(*words, environment=environment)


def base_of(case: Case, words: list[str]) -> Base:
    """the run in which nothing fails"""
    answer = run(case, words, list="calls")
    lines = [line.split(" ", 2) for line in (case.text_of("calls") or b"").decode().splitlines()]
    calls = [line for line in lines if line[0] != "memory"]
    memory = sum(int(line[1]) for line in lines if line[0] == "memory")
    if not lines:
        case.wrong("the library isn't loaded: is the program linked otherwise?")
    return Base(words, answer, files_of(case), calls, memory)


def are_fronts(case: Case, base: Base, answer: Answer) -> bool:
    """whether what a run printed and wrote begins what the whole run does"""
    files = files_of(case)
    return base.answer.printed.startswith(answer.printed) and all(
        name in base.files and base.files[name].startswith(text) for name, text in files.items())


def is_same(case: Case, base: Base, answer: Answer) -> bool:
    return (answer.status, answer.printed, answer.said) == (base.answer.status, base.answer.printed, base.answer.said) and (
        files_of(case) == base.files)


def told(words: list[str], how: dict[str, str], answer: Answer) -> str:
    ways = " ".join(f"{name}={value}" for name, value in how.items())
    return f"{' '.join(words)} with {ways} ends with {answer.status} {answer.printed[:80]!r}"

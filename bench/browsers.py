#!/usr/bin/env python3
"""Draws thirty stations with their logs, on a grid of 64 by 12: by the native program, by the same as WebAssembly under node, and by a desk
in Debian's chromium and firefox. Sheets and logs are to be the same bytes. A row has of each the seconds of the run by the clock, and of
node's the memory in MB; a browser that isn't there is left out. In the desk the log is read as it is written.

The module is the one of the desk, so the desk is to be made of the program that is measured."""
from __future__ import annotations

import argparse
import hashlib
import json
import os
import re
import shutil
import subprocess
import sys
import tempfile
import time
from contextlib import ExitStack
from pathlib import Path

sys.dont_write_bytecode = True

from browser import Browser, Tab  # noqa: E402
from desk import Desk  # noqa: E402
from firefox import Firefox  # noqa: E402
from forged_pages import unpacked  # noqa: E402
from made_stations import EVERYDAY, LARGER, named  # noqa: E402
from measuring import TOP, Table, read_words, reader_of_words  # noqa: E402

GRID = {"--width": "64", "--height": "12"}
HEAD = ["station", "native", "node", "MB", "chromium", "firefox", "same bytes"]


def timed(command: list[str | Path], environment: dict[str, str] | None = None) -> tuple[bytes, float, float]:
    """what a command prints, its seconds by the clock, and its memory in MB"""
    began = time.monotonic()
    child = subprocess.Popen(command, stdout=subprocess.PIPE, stderr=subprocess.DEVNULL, env={**os.environ, **(environment or {})})
    assert child.stdout
    printed = child.stdout.read()
    _, _, used = os.wait4(child.pid, 0)
    return printed, time.monotonic() - began, used.ru_maxrss / 1024


def sum_of(*texts: bytes) -> str:
    return hashlib.sha256(b"\0".join(texts)).hexdigest()


def by_program(command: list[str | Path], station: Path, folder: Path, environment: dict[str, str] | None = None) -> tuple[str, float, float]:
    """the sum of sheet, picture and log, seconds and memory"""
    log, picture = folder / "log", folder / "picture"
    options = [word for pair in GRID.items() for word in pair]
    printed, seconds, memory = timed([*command, "draw", station, *options, "--svg", picture, "--log", log], environment)
    return sum_of(printed, picture.read_bytes(), log.read_bytes()), seconds, memory


def by_desk(desk: Desk, text: str) -> tuple[str, float]:
    """the same of a desk, which says how long the run took"""
    desk.take(("station.xml", text))
    desk.wait("document.querySelector('.read')")
    desk.begin("draw", GRID)
    desk.answer()
    desk.wait("/^[\\d.]+ s$/.test(document.querySelector('#asked p[role=status]').textContent)")
    return sum_of(*(desk.saved(ending) for ending in (".sheet", ".svg", ".log"))), float(desk.text("#asked p[role=status]").split()[0])


def module_of(desk: Path, to: Path) -> Path:
    """the module that a desk carries, as a file"""
    found = re.search(r'id="data">(.*?)</script>', desk.read_text(encoding="utf-8"))
    if not found:
        sys.exit(f"bench/browsers.py: {desk} is no desk")
    to.write_bytes(unpacked(json.loads(found[1])["wasm"]))
    return to


def measure(words: argparse.Namespace, folder: Path) -> int:
    table, failed = Table("browsers", HEAD, words.program), 0
    wasm = {"RAILPLAN_WASM": str(module_of(words.desk, folder / "railplan.wasm"))}
    with ExitStack() as opened:
        desks = {}
        if shutil.which("chromium"):
            desks["chromium"] = Desk(Tab(opened.enter_context(Browser())), words.desk)
        if shutil.which("firefox-esr"):
            desks["firefox"] = Desk(opened.enter_context(Firefox()), words.desk)
        total = dict.fromkeys(("native", "node", "chromium", "firefox"), 0.0)
        for name, made in named(EVERYDAY + LARGER, words.only):
            station = folder / "station.xml"
            station.write_text(made.text(), encoding="utf-8")
            wanted, native, _ = by_program([words.program], station, folder)
            got, node, memory = by_program(["node", TOP / "shell/engine/program.js"], station, folder, wasm)
            browsers = {browser: by_desk(desk, made.text()) for browser, desk in desks.items()}
            is_same = all(it == wanted for it in (got, *(found for found, _ in browsers.values())))
            seconds = {"native": native, "node": node, **{browser: taken for browser, (_, taken) in browsers.items()}}
            total = {key: total[key] + seconds.get(key, 0.0) for key in total}
            failed += not is_same
            table.add(name, native, node, round(memory), *(seconds.get(it, "-") for it in ("chromium", "firefox")),
                      "yes" if is_same else "NO")
    table.add("all", total["native"], total["node"], "", total["chromium"], total["firefox"], "yes" if not failed else "NO")
    table.end(words.write)
    return int(failed > 0)


def main() -> int:
    parser = reader_of_words(__doc__, only="stations whose names hold one of these words")
    parser.add_argument("--desk", type=Path, required=True, help="a desk, which `./railplan browser DESK.html` writes")
    words = read_words(parser)
    with tempfile.TemporaryDirectory() as folder:
        return measure(words, Path(folder))


if __name__ == "__main__":
    sys.exit(main())

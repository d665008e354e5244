#!/usr/bin/env python3
"""How pages come out in a browser, Debian's chromium.

  measure   asks the browser how the pages of made stations come out, of six kinds, in six namings by turns or in all
  drive     drives each interaction of each kind of page
  largest   opens the page of 120 nodes, 158 pieces and 512 signals, which draws itself, and says how much processor time that takes
  planted   plants wrong lines in a copy of shell/both/page, and says which the tests don't see
  dxf       has LibreCAD's dxf2pdf print the drawings of some stations

Looked for by `measure` are names that the browser sets on a line, a sign or another text or outside of their picture, signals
on lines or other signals, letters below 1.8 mm on A3, requests, scripts and elements that no page has, and what is wider than
a phone. Each ends with the line `N passed, N failed`, and with 1 where one failed."""
from __future__ import annotations

import argparse
import contextlib
import json
import os
import re
import shutil
import subprocess
import sys
import tempfile
from concurrent.futures import ProcessPoolExecutor
from dataclasses import asdict, dataclass, field
from functools import cache, partial
from multiprocessing.util import Finalize
from pathlib import Path
from typing import Callable, Iterator

sys.dont_write_bytecode = True
TOP = Path(__file__).resolve().parent.parent

import page_stations  # noqa: E402
from answers import Answers  # noqa: E402
from browser import Browser, Gone, Tab  # noqa: E402
from drawn import A3, EDGE, MM, Drawn, faults_of_names, faults_of_signs  # noqa: E402
from launcher import Launcher  # noqa: E402
from made_stations import Station  # noqa: E402
from measuring import BUILT as PROGRAM, Table, counts_of  # noqa: E402

SAMPLES = TOP / "shell/tests/pages/samples"
KINDS = ("draw", "signals", "explain", "verify", "redraw", "front")
GRID = ["--width", "64", "--height", "12"]
WORDS: dict[str, list[str]] = {"draw": [*GRID, "--conflicts", "3000"], "signals": [*GRID, "--conflicts", "1500"],
         "explain": ["--height", "0", "--conflicts", "500"], "verify": [], "redraw": [*GRID, "--conflicts", "800"],
         "front": [*GRID, "--conflicts", "150"]}
HEAD = ["page", "pages", "with a drawing", "strips", "texts", "least letters, mm", "faults", "largest, KB", "slowest to open, s"]
STATIONS_HEAD = ["station", "nodes", *KINDS]
SEEN = """(() => {
  const box = it => { const r = it.getBoundingClientRect(); return [r.left, r.top, r.right, r.bottom] };
  const context = document.createElement('canvas').getContext('2d');
  context.font = '100px ' + getComputedStyle(document.querySelector('svg.strip text, h1')).fontFamily;
  const cap = context.measureText('H').actualBoundingBoxAscent / 100;
  const points = it => it.points ? [...it.points] : [[it.x1, it.y1], [it.x2, it.y2]].map(p =>
    new DOMPoint(p[0].baseVal.value, p[1].baseVal.value));
  const placed = it => points(it).map(p => p.matrixTransform(it.getScreenCTM())).map(p => [p.x, p.y]);
  const pictures = [...document.querySelectorAll('svg.strip, svg.plot')].filter(it => it.getClientRects().length).map(svg => ({
    frame: box(svg), scale: svg.getScreenCTM().a,
    texts: [...svg.querySelectorAll('text')].filter(it => it.getClientRects().length && !it.closest('.grid')).map(it => [
      it.textContent, box(it),
      it.className.baseVal, parseFloat(getComputedStyle(it).fontSize) * svg.getScreenCTM().a * cap]),
    lines: [...svg.querySelectorAll('.edge, .leader, .limit, .steps, .axis, .tick, line.match')].map(it =>
      [it.classList[0], placed(it)]),
    wedges: [...svg.querySelectorAll('.wedge')].map(it => { const p = placed(it); return [...p, p[0]] }),
    signs: [...svg.querySelectorAll('.sign')].flatMap(it => [...it.querySelectorAll('circle, path, rect')].filter(
      part => !part.matches('.hit')).map(part =>
      [it.dataset.key, box(part)]))}));
  const late = [...document.querySelectorAll('b')].filter(it => !it.closest('.lead, .short, figcaption')).length;
  const small = [...document.querySelectorAll('body *')].filter(it => it.getClientRects().length && !it.closest('svg') &&
    [...it.childNodes].some(part => part.nodeType == 3 && part.data.trim())).map(it =>
      parseFloat(getComputedStyle(it).fontSize) * cap);
  return {pictures, small: Math.min(...small), wide: document.documentElement.scrollWidth,
    foreign: late + document.querySelectorAll('img, iframe, object, embed, link, base, form, video, audio, foreignObject').length,
    scripts: document.querySelectorAll('script').length,
    handlers: [...document.querySelectorAll('*')].filter(it => [...it.attributes].some(a =>
      a.name.startsWith('on') || a.name == 'style')).length}
})()"""


def program(*words: str) -> tuple[int, str]:
    ran = subprocess.run([str(PROGRAM), *words], capture_output=True, timeout=600)
    return ran.returncode, ran.stdout.decode("utf-8", "replace")


# ---- measured


def shrunk(box: list[float]) -> tuple[float, float, float, float]:
    """a browser's box, which is rounded, a little smaller"""
    return box[0] + 0.5, box[1] + 0.5, box[2] - 0.5, box[3] - 0.5


def drawn_of(picture: dict) -> Drawn:
    """what the browser shows of a picture, for the same questions that the tests ask"""
    left, top, right, bottom = picture["frame"]
    found = Drawn((left - 0.5, top - 0.5, right + 0.5, bottom + 0.5))
    found.texts = [(text, shrunk(box)) for text, box, _, _ in picture["texts"]]
    lines = [*picture["lines"], *(("wedge", it) for it in picture["wedges"])]
    found.lines = [(kind, ((x, y), (u, v))) for kind, line in lines for (x, y), (u, v) in zip(line, line[1:])]
    found.signs = [(key, shrunk(box)) for key, box in picture["signs"]]
    return found


def faults_of_letters(seen: dict) -> Iterator[str]:
    """letters that are too small, and texts of one class that differ in height"""
    heights: dict[str, set[float]] = {}
    for picture in seen["pictures"]:
        for text, _, kind, high in picture["texts"]:
            heights.setdefault(" ".join(kind.split()[:2]), set()).add(round(high, 1))
            if high / MM < 1.8:
                yield f"{text} ({kind}) is {high / MM:.2f} mm high"
    yield from (f"letters of {kind} are {sorted(it)} high" for kind, it in heights.items() if len(it) > 1)
    if seen["small"] / MM < 1.8:
        yield f"there are letters of {seen['small'] / MM:.2f} mm"


def faults_of(seen: dict) -> Iterator[str]:
    for picture in seen["pictures"]:
        drawn = drawn_of(picture)
        yield from faults_of_names(drawn)
        yield from faults_of_signs(drawn)
        if picture["scale"] < 0.999:
            yield f"a picture is {picture['scale']:.3f} of its size on paper"
    yield from faults_of_letters(seen)
    if seen["foreign"] or seen["scripts"] != 2 or seen["handlers"]:
        yield "there are elements that no page has"


@dataclass
class Looked:
    """a page as it came out: of which kind, what is wrong with it, and what of it is counted"""
    kind: str
    what: str
    faults: list[str] = field(default_factory=list)
    strips: int = 0
    texts: int = 0
    least: float = 9.0
    kilobytes: int = 0
    seconds: float = 0.0


def look(tab: Tab, page: Path) -> tuple[list[str], dict]:
    """what is wrong with a page, on a phone and as it is printed; it is opened once"""
    tab.media()
    tab.size(390, 800, True)
    seconds = tab.open(page)
    wide = tab.run("document.documentElement.scrollWidth")
    tab.size(round((A3[0] - 2 * EDGE) * MM), 1000)
    tab.media("print")
    seen = {**tab.run(SEEN), "seconds": seconds}
    found = [*faults_of(seen), *(f"it asks for {it}" for it in tab.requests()), *tab.alarms()]
    return found + ["it is wider than a phone"] * (wide > 390), seen


class Files:
    """the files of a station in a naming, and the words of the runs that have pages"""

    def __init__(self, number: int, naming: str, folder: Path, answers: Answers) -> None:
        self.station, self.naming, self.number, self.answers = page_stations.STATIONS[number][1], naming, number, answers
        ending = "<i>&'" if naming == "signs" else ""
        self.stem = str(folder / f"{page_stations.STATIONS[number][0]}.{naming}{ending}".replace(" ", "_"))

    def file(self, word: str, station: Station, most: int = 0, every: int = 1) -> str:
        path = Path(f"{self.stem}.{word}.xml")
        path.write_text(page_stations.file_of(station, self.naming, most, every, self.number), encoding="utf-8")
        return str(path)

    def sheet(self, file: str, is_narrow: bool) -> str:
        """the sheet that draw gives; of a grid that is a column too narrow, where that is asked for"""
        text = self.answers.of(["draw", file, *WORDS["draw"]])[1].decode("utf-8")
        values = re.search(r"(?m)^values \d+ \d+ \d+ (\d+)$", text)
        if is_narrow and values and int(values[1]) > 1:
            text = re.sub(r"(?m)^grid \d+", f"grid {int(values[1]) - 1}", text)
        path = Path(f"{self.stem}.sheet")
        path.write_text(text, encoding="utf-8")
        return str(path)

    def words(self, kind: str) -> list[str]:
        """the words of a run of a kind; a sheet that it needs is made before"""
        if kind == "signals":
            most, every = (2, 1) if self.station.text().count("<switch") < 20 else (1, 3)
            return ["signals", self.file("signals", self.station, most, every), *WORDS[kind]]
        file = self.file("plain", self.station)
        if kind == "verify":
            return ["verify", file, self.sheet(file, self.number % 2 == 0)]
        if kind == "redraw":
            new = self.file("new", page_stations.changed(self.station))
            has_room = self.answers.of(["graph", new])[0] == 0
            return ["redraw", new if has_room else file, file, self.sheet(file, False), *WORDS[kind]]
        return [kind, file] + (["height,width"] if kind == "front" else []) + WORDS[kind]


def pages_of(number: int, kinds: int, namings: int) -> Iterator[tuple[str, str]]:
    """the kinds and namings of the pages of a station: by turns, so that all come where there are many stations"""
    names = list(page_stations.NAMINGS)
    for at in range(kinds):
        for turn in range(namings):
            yield KINDS[(number + at) % len(KINDS)], names[(number // len(KINDS) + number + at + turn) % len(names)]


class NoPage(Exception):
    """a run has no page"""


def write_page(page: Path, words: list[str], launcher: Launcher) -> int:
    """the run of a page; its status"""
    status, _, said = launcher.run("--html", str(page), *words)
    if not page.exists():
        raise NoPage(f"it ends with {status}: {said[-300:]}")
    return status


def looked(files: Files, kind: str, launcher: Launcher) -> Looked:
    """a page that is made, opened and looked at, or what is kept of that"""
    page = Path(f"{files.stem}.{kind}.html")
    kept, found = page.with_suffix(".seen"), Looked(kind, page.name)
    if kept.exists():
        return Looked(**json.loads(kept.read_text(encoding="utf-8")))
    try:
        status = write_page(page, files.words(kind), launcher)
        found.faults, seen = look(open_tab(), page)
    except (Gone, NoPage, OSError, subprocess.TimeoutExpired) as error:
        open_tab.cache_clear()
        found.faults = [repr(error)]
        return found
    texts = [it for picture in seen["pictures"] for it in picture["texts"]]
    found.strips, found.texts, found.seconds = len(seen["pictures"]), len(texts), seen["seconds"]
    found.least = min((it[3] / MM for it in texts), default=9.0)
    found.kilobytes = page.stat().st_size // 1024
    found.what = f"{page.name} (status {status}, {found.strips} strips, {found.kilobytes} KB, {found.seconds:.2f} s)"
    kept.write_text(json.dumps(asdict(found)), encoding="utf-8")
    return found


@cache
def open_tab() -> Tab:
    """the one tab of this process's browser, which ends with the process"""
    browser = Browser()
    Finalize(None, browser.close, exitpriority=1)
    return Tab(browser)


def measured(number: int, folder: Path, launcher: Launcher, answers: Answers, kinds: int, namings: int,
             is_kept: bool) -> list[Looked]:
    """the pages of a station; where that is asked those alone of which is kept what was seen"""
    listed = [(Files(number, naming, folder, answers), kind) for kind, naming in pages_of(number, kinds, namings)]
    return [looked(files, kind, launcher) for files, kind in listed if not is_kept or Path(f"{files.stem}.{kind}.seen").exists()]


def measure(words: argparse.Namespace) -> list[tuple[str, list[str]]]:
    found: list[list[Looked]] = []
    with contextlib.ExitStack() as stack:
        folder = words.folder or Path(stack.enter_context(tempfile.TemporaryDirectory()))
        (folder / "answers").mkdir(parents=True, exist_ok=True)
        room = Path(stack.enter_context(tempfile.TemporaryDirectory()))
        answers = Answers(str(PROGRAM), str(folder / "answers"))
        launcher = Launcher(answers.as_program(room / "program"), room)
        pool = stack.enter_context(ProcessPoolExecutor(words.jobs))
        ask = partial(measured, folder=folder, launcher=launcher, answers=answers, kinds=words.kinds, namings=words.namings, is_kept=words.kept)
        for number, pages in zip(range(words.first, words.stations), pool.map(ask, range(words.first, words.stations))):
            for it in pages:
                faults = f"{it.faults[0]}, and {len(it.faults) - 1} more" if it.faults else "as it is to be"
                print(f"{number} {it.what}: {faults}", flush=True)
            found.append(pages)
    write_kinds([it for pages in found for it in pages], words.write)
    write_stations(dict(enumerate(found, words.first)), words.write)
    return [(it.what, it.faults) for pages in found for it in pages]


def write_kinds(found: list[Looked], is_written: bool) -> None:
    """the table of the pages by their kinds"""
    table = Table("pages", HEAD, PROGRAM)
    for kind in KINDS:
        pages = [it for it in found if it.kind == kind]
        if pages:
            table.add(kind, len(pages), sum(it.strips > 0 for it in pages), sum(it.strips for it in pages),
                      f"{sum(it.texts for it in pages):,}", min(it.least for it in pages), sum(bool(it.faults) for it in pages),
                      max(it.kilobytes for it in pages), max(it.seconds for it in pages))
    table.end(is_written)


def write_stations(found: dict[int, list[Looked]], is_written: bool) -> None:
    """the table of the pages by their stations: of each kind how many have a drawing, and how many there are"""
    table = Table("pages_stations", STATIONS_HEAD, PROGRAM)
    with tempfile.TemporaryDirectory() as folder:
        for number, pages in found.items():
            name, station = page_stations.STATIONS[number]
            file = Path(folder) / "station.xml"
            file.write_text(station.text(), encoding="utf-8")
            drawn = [[it.strips > 0 for it in pages if it.kind == kind] for kind in KINDS]
            if pages:
                table.add(name, counts_of(PROGRAM, file)[0], *(f"{sum(it)} of {len(it)}" if it else "-" for it in drawn))
    table.end(is_written)


# ---- driven


def drive(words: argparse.Namespace) -> list[tuple[str, list[str]]]:
    import pages_driven
    found = []
    with tempfile.TemporaryDirectory() as base:
        folder = Path(base)
        launcher = Launcher(PROGRAM, folder)
        file = folder / "ladder.xml"
        file.write_text(page_stations.file_of(dict(page_stations.STATIONS)["ladder 1"], "usual", 1), encoding="utf-8")
        runs = {"draw": ["draw", str(TOP / "examples/station.xml")], "signals": ["signals", str(file), "--width", "64"],
                "explain": ["explain", str(SAMPLES / "loop.xml"), "--width", "4"],
                "front": ["front", str(SAMPLES / "made16.xml"), "height,width"],
                "redraw": ["redraw", str(SAMPLES / "station.xml"), str(SAMPLES / "before.xml"), str(SAMPLES / "before.sheet")],
                "verify": ["verify", str(SAMPLES / "loop.xml"), str(SAMPLES / "below.sheet")],
                "fault": ["draw", str(TOP / "cases/stations/mutual.xml")]}
        with Browser() as browser:
            for kind, given in runs.items():
                page = folder / f"{kind}.html"
                _, output, _ = launcher.run("--html", str(page), *given)
                try:
                    checks = pages_driven.drive(browser, kind, page, output, program("graph", given[1])[1])
                except Gone as error:
                    checks = [(str(error), False)]
                for what, is_good in checks:
                    print(f"{kind}: {what}: {'yes' if is_good else 'NO'}", flush=True)
                    found.append((f"{kind}: {what}", [] if is_good else ["no"]))
    table = Table("pages_driven", ["page", "driven", "seen to work"], PROGRAM)
    for kind in runs:
        faults = [it for what, it in found if what.startswith(kind + ": ")]
        table.add(kind, len(faults), sum(not it for it in faults))
    table.end(words.write)
    return found


def largest(words: argparse.Namespace) -> list[tuple[str, list[str]]]:
    """the page of as much as a file may have, from a drawing that is written and not searched for"""
    from largest_page import Largest
    with tempfile.TemporaryDirectory() as folder, Browser() as browser:
        largest_page = Largest(Path(folder))
        page = largest_page.page
        made = largest_page.make()
        tab = Tab(browser)
        seconds = min(tab.open(page) for _ in range(3))
        rows, size = tab.run("document.querySelectorAll('aside.list tbody tr').length"), page.stat().st_size
        found, seen = look(tab, page)
        names = sum(len(it["texts"]) for it in seen["pictures"])
        table = Table("largest_page", ["objects", "texts", "strips", "KB", "to make, s", "to open, s"], PROGRAM)
        table.add(rows, names, len(seen["pictures"]), f"{size / 1000:,.0f}", made, seconds)
        table.end(words.write)
    slow = ["it opens slowly"] if seconds >= 4 else []
    big = ["it is too big"] if size > 1_000_000 else []
    return [("the largest page", slow + big + found)]


def planted(words: argparse.Namespace) -> list[tuple[str, list[str]]]:
    import planted_pages
    return planted_pages.tried()


def dxf(words: argparse.Namespace) -> list[tuple[str, list[str]]]:
    """LibreCAD prints the drawings; a PDF with less than the lines of the drawing would be too small"""
    found = []
    with tempfile.TemporaryDirectory() as base:
        launcher = Launcher(PROGRAM, Path(base))
        for name in ("ladder 1", "terminus 3", "line 2", "scissors 1"):
            file = Path(base) / f"{name.replace(' ', '_')}.xml"
            file.write_text(page_stations.file_of(dict(page_stations.STATIONS)[name], "wide", 1), encoding="utf-8")
            launcher.run("--dxf", str(file.with_suffix(".dxf")), "signals", str(file), "--width", "64")
            subprocess.run(["librecad", "dxf2pdf", "-o", str(file.with_suffix(".pdf")), str(file.with_suffix(".dxf"))],
                           capture_output=True, env={**os.environ, "QT_QPA_PLATFORM": "offscreen"}, timeout=120)
            pdf = file.with_suffix(".pdf")
            is_good = pdf.is_file() and pdf.stat().st_size > 2000
            print(f"{name}: {pdf.stat().st_size if pdf.is_file() else 0} bytes of PDF")
            found.append((name, [] if is_good else ["no PDF"]))
    return found


def read_words() -> argparse.Namespace:
    parser = argparse.ArgumentParser(description=__doc__, formatter_class=argparse.RawDescriptionHelpFormatter)
    parser.add_argument("what", choices=list(TODO))
    count = len(page_stations.STATIONS)
    parser.add_argument("--first", type=int, default=0, help="measure: leave out so many stations (0)")
    parser.add_argument("--stations", type=int, default=count, help=f"measure: up to this one ({count})")
    parser.add_argument("--kinds", type=int, default=len(KINDS), help="measure: kinds of page of each station (6)")
    parser.add_argument("--namings", type=int, default=1, help="measure: namings of each page, 6 for all (1)")
    parser.add_argument("--jobs", type=int, default=max(1, (os.cpu_count() or 2) // 2), help="measure: browsers side by side")
    parser.add_argument("--folder", type=Path, help="measure: a folder that keeps the pages, what was seen "
                        "of them and what the program answered; a run that was stopped goes on there")
    parser.add_argument("--kept", action="store_true", help="measure: of a run into --folder that was stopped what is kept alone")
    parser.add_argument("--write", action="store_true", help="measure, drive, largest: write the table into bench/results")
    words = parser.parse_args()
    if not os.access(PROGRAM, os.X_OK):
        parser.error(f"{PROGRAM} isn't there; ./railplan draw examples/one.xml builds it")
    if not shutil.which("chromium"):
        parser.error("chromium isn't there: Debian's package has the name")
    return words


TODO: dict[str, Callable[[argparse.Namespace], list[tuple[str, list[str]]]]] = {
    "measure": measure, "drive": drive, "largest": largest, "planted": planted, "dxf": dxf}


def main() -> int:
    words = read_words()
    answers = TODO[words.what](words)
    for what, faults in answers:
        if faults:
            print(f"{what}: {faults[:3]}")
    failed = sum(bool(faults) for _, faults in answers)
    print(f"{len(answers) - failed} passed, {failed} failed")
    return int(failed > 0)


if __name__ == "__main__":
    sys.exit(main())

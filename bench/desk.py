#!/usr/bin/env python3
"""Drives a desk, which `./railplan browser DESK.html` writes, in Debian's chromium or firefox, through all that it has: each
command over the example, a fault, files and folders that are dropped, a stop that keeps the best drawing so far, a file that is
mended, a line that is cut, several stations that are drawn and certified with their archive, pages that are judged, a narrow
window, the keyboard, limits and want of memory. Nothing may be asked for, fail, or lack a name for a screen reader. It says what
is seen, and ends with 1 where something isn't so. With --short it leaves out the long searches, with --firefox it is firefox
that is driven."""
from __future__ import annotations

import argparse
import base64
import gzip
import io
import json
import re
import sys
import tempfile
import time
import zipfile
from contextlib import ExitStack
from pathlib import Path
from typing import Callable, Iterator

sys.dont_write_bytecode = True

import page_stations  # noqa: E402
from browser import Browser, Gone, Tab, centre  # noqa: E402
from firefox import Firefox  # noqa: E402
from made_stations import LARGE, fullest, parallel  # noqa: E402

TOP = Path(__file__).resolve().parent.parent
MOST_KILOBYTES = 450
SECONDS = 240
EXAMPLE = TOP / "examples/station.xml"
Check = tuple[str, bool]
# the commands over the example, each with fields that keep it short, and what the answer is to begin with
COMMANDS: list[tuple[str, dict[str, str], str]] = [
    ("draw", {}, "Done: "), ("verify", {}, "Done: lawful"), ("check", {}, "Done: certified"), ("trim", {}, "Done: "),
    ("recheck", {}, "Done: certified"), ("signals", {"--conflicts": "2000"}, "Done: "), ("redraw", {"--conflicts": "2000"}, "Done: "),
    ("graph", {}, "Done: "), ("explain", {"--width": "4", "--conflicts": "500"}, ""),
    ("front", {"--width": "8", "--height": "4", "--conflicts": "300"}, ""),
]
# the file of a place, as if it were chosen
CHOOSE = """((label, name, text) => {
  const input = [...document.querySelectorAll('input[type=file]')].find(it => it.ariaLabel.startsWith('choose ' + label));
  const given = new DataTransfer();
  given.items.add(new File([text], name));
  input.files = given.files;
  input.dispatchEvent(new Event('change'));
})"""
# files, as if they were chosen in the field for stations
SEVERAL = """((files) => {
  const input = document.querySelector('input[aria-label="choose the station, or several"]'), given = new DataTransfer();
  for (const [name, text] of files) given.items.add(new File([text], name));
  input.files = given.files;
  input.dispatchEvent(new Event('change'));
})"""
# a drop of files with these names over the desk, and of a folder that gives its entries in two pieces, as a browser without
# handles has them
DROP = """((names, folder) => {
  const files = names.map((name) => new File([TEXT], name));
  const entry = (it) => ({ isFile: true, isDirectory: false, file: (take) => take(it) });
  const pieces = [files.slice(0, 1), files.slice(1), []].map((it) => it.map(entry));
  const inner = { isFile: false, isDirectory: true, createReader: () => ({ readEntries: (take) => take(pieces.shift()) }) };
  const given = new DataTransfer();
  for (const it of files) given.items.add(it);
  const items = [{ kind: 'file', webkitGetAsEntry: () => inner }];
  const event = new DragEvent('drop', { bubbles: true, cancelable: true, dataTransfer: given });
  if (folder) Object.defineProperty(event, 'dataTransfer', { value: { types: ['Files'], items, files: [] } });
  document.querySelector('.drop').dispatchEvent(event);
  return event.defaultPrevented;
})"""
# keeps what is offered to be saved, since a desk's own policy lets nothing be fetched, not even from itself
KEEP = """(() => { const made = URL.createObjectURL; window.offered = new Map();
  URL.createObjectURL = (it) => { const url = made.call(URL, it); window.offered.set(url, it); return url; }; })()"""
# what is offered under a name, in base64
SAVED = """(async (ending) => {
  const link = [...document.querySelectorAll('a[download]')].find(it => it.download.endsWith(ending));
  const bytes = new Uint8Array(await window.offered.get(link.href).arrayBuffer());
  return btoa(Array.from(bytes, it => String.fromCharCode(it)).join(''));
})"""
FILL = """((fields) => {
  for (const [name, value] of Object.entries(fields)) document.querySelector(`form input[name="${name}"]`).value = value;
  document.querySelector('form').dispatchEvent(new Event('input'));
})"""
IS_READY = "![...document.querySelectorAll('button')].find(it => it.textContent === 'Run').disabled"


class Desk:
    """a desk that is open"""

    def __init__(self, tab: Tab | Firefox, page: Path) -> None:
        self.tab = tab
        tab.open(page)
        self.wait("document.body.dataset.ready")
        # by the page's own clock, which begins when it is opened
        self.ready = float(str(tab.run("performance.now()"))) / 1000
        self.tab.run(KEEP)

    def wait(self, what: str, is_framed: bool = False) -> None:
        """waits until something is so, on the desk or in the page that it shows"""
        until = time.time() + SECONDS
        while not (self.tab.framed if is_framed else self.tab.run)(f"!!({what})"):
            if time.time() > until:
                raise Gone(f"not so after {SECONDS} s: {what}")
            time.sleep(0.05)

    def press(self, text: str) -> None:
        self.tab.run(f"[...document.querySelectorAll('button')].find(it => it.textContent === {json.dumps(text)}).click()")

    def choose(self, label: str, name: str, text: str) -> None:
        """chooses a file for a place"""
        self.tab.run(f"{CHOOSE}({json.dumps(label)}, {json.dumps(name)}, {json.dumps(text)})")
        self.wait(f"document.querySelector('.slots').textContent.includes({json.dumps(name)})")

    def begin(self, command: str, fields: dict[str, str]) -> None:
        self.press(command)
        self.tab.run(f"{FILL}({json.dumps(fields)})")
        self.press("Run")

    def saved(self, ending: str) -> bytes:
        """what can be saved under a name with an ending"""
        return base64.b64decode(str(self.tab.run(f"{SAVED}({json.dumps(ending)})")))

    def answer(self) -> str:
        """what the answer says, once it is there"""
        self.wait(f"{IS_READY} && document.querySelector('#answer .said')")
        return str(self.tab.run("document.querySelector('#answer .said').textContent"))

    def take(self, *files: tuple[str, str]) -> None:
        """chooses files where a station is dropped"""
        self.tab.run(f"{SEVERAL}({json.dumps(files)})")

    def text(self, what: str) -> str:
        """the text of the first element of a kind; "" where there is none"""
        return str(self.tab.run(f"document.querySelector({json.dumps(what)})?.textContent ?? ''"))

    def named(self, what: str) -> Check:
        return f"{what}: everything has a name for a screen reader", self.tab.unnamed() == []


def commands(desk: Desk) -> Iterator[Check]:
    """each command over the example"""
    example = EXAMPLE.read_text(encoding="utf-8")
    desk.press("Take the example")
    desk.wait("document.querySelector('.read')")
    yield "what was read is said", desk.text(".read") == (
        "station.xml: 1,962 bytes, 4 tracks, 4 switches and crossings; 8 nodes and 8 pieces of track between them.")
    for command, fields, wanted in COMMANDS:
        desk.press(command)
        if command == "redraw":
            desk.choose("the former station", "former.xml", example)
        desk.begin(command, fields)
        answer = desk.answer()
        yield f"{command}: {answer[:60]}", answer.startswith(wanted) and not desk.tab.run("!!document.querySelector('.said.bad')")
        yield desk.named(command)
    saved = "[...document.querySelectorAll('#answer a[download]')].map(it => it.download)"
    desk.begin("draw", {})
    desk.answer()
    yield "draw's page, picture, sheet and log can be saved", desk.tab.run(saved) == ["station.html", "station.svg", "station.sheet", "station.log"]
    yield "the command line to be typed is there", desk.text(".command") == "railplan draw station.xml"


def page(desk: Desk) -> Iterator[Check]:
    """the page of an answer: saved and dropped again it is right, and a changed one is wrong; afterwards its files are taken"""
    desk.take(("station.xml", EXAMPLE.read_text(encoding="utf-8")))
    desk.begin("draw", {})
    desk.answer()
    made = desk.saved(".html").decode()
    desk.wait("document.querySelector('iframe.page')")
    desk.wait("document.body?.dataset.checked", is_framed=True)
    yield "the page in its frame checks itself", desk.tab.framed("document.body.dataset.checked") == "right"
    desk.take(("made.html", made))
    desk.wait("document.querySelector('.judged')")
    yield "a page is judged", desk.tab.run("document.querySelectorAll('.judged .right').length") == 8
    yield "a page is judged right", desk.tab.run("document.querySelectorAll('.judged .wrong').length") == 0
    yield desk.named("a page")
    desk.begin("verify", {})
    yield "the sheet of a page is taken", desk.answer() == "Done: lawful 2 2 3 7"
    for what, changed, wanted in (
            ("a name in its picture", made.replace(">W3<", ">W4<"), "wrong what it shows without its script is what its run gives"),
            ("its script", made.replace("<script>", "<script>0;"), "this version makes otherwise its script"),
            ("its style", made.replace("<style>", "<style>.edge{display:none}"), "this version makes otherwise its style")):
        name = f"{what.split(' ')[-1]}.html"
        desk.take((name, changed))
        desk.wait(f"document.querySelector('#answer .said')?.textContent.startsWith('{name}') && document.querySelector('.judged')")
        yield f"a page with a change of {what} is seen", wanted in desk.text(".judged")
    desk.take(("other.html", "<!DOCTYPE html><p>railplan"))
    desk.wait("document.querySelector('#answer .said.bad')?.textContent.startsWith('other.html')")
    yield "another page isn't judged", "So nothing of it is judged" in desk.text("#answer .said.bad")


def fault(desk: Desk) -> Iterator[Check]:
    """a station with a fault: a sentence, and the line of the file; and one that can be mended"""
    desk.press("draw")
    desk.take(("mutual.xml", (TOP / "cases/stations/mutual.xml").read_text(encoding="utf-8")))
    desk.begin("draw", {})
    answer = desk.answer()
    yield f"a fault: {answer[:60]}", answer.startswith("The file has a fault: ")
    yield "its sentence begins with its place, and the line is below", desk.tab.run(
        "[...document.querySelectorAll('#answer div div')].some(it => /^mutual\\.xml:\\d+/.test(it.querySelector('p')?.textContent ?? '')"
        " && it.querySelector('pre')?.textContent.includes('<'))")
    yield desk.named("a fault")
    broken = EXAMPLE.read_text(encoding="utf-8").replace('pos="310"', 'pos=" 310"').replace('pos="402.5"', 'pos="402.50000000"')
    desk.take(("blank.xml", broken))
    desk.wait("document.querySelector('.read')?.textContent.startsWith('blank.xml')")
    desk.press("What would prepare mend?")
    desk.wait("[...document.querySelectorAll('button')].some(it => it.textContent === 'Use the mended file')")
    yield "what prepare changes is shown before it is used", "prepare would change" in desk.text("#files")
    desk.press("Use the mended file")
    desk.wait("document.querySelector('.read')?.textContent.startsWith('blank_mended.xml')")
    desk.begin("draw", {})
    yield "the mended file is drawn", desk.answer() == "Done: end best"


def several(desk: Desk) -> Iterator[Check]:
    """several stations, drawn and certified side by side, with an archive; a file with a fault among them"""
    example = EXAMPLE.read_text(encoding="utf-8")
    fault = (TOP / "cases/stations/mutual.xml").read_text(encoding="utf-8")
    desk.take(("one.xml", example), ("two.xml", example), ("two.xml", example), ("fault.xml", fault))
    desk.wait("document.querySelectorAll('.station').length === 4")
    desk.tab.run("document.querySelector('input[name=certify]').click()")
    desk.press("Draw all 4")
    desk.wait("document.querySelector('#answer a[download$=\".zip\"]')")
    yield "several stations are drawn and certified", desk.text("#answer p[role=status]") == (
        "4 of 4 stations: 3 best, 1 refused; 3 with a certificate that was checked again")
    yield "each has its small drawing", desk.tab.run("document.querySelectorAll('.station img').length") == 3
    names = zipfile.ZipFile(io.BytesIO(desk.saved(".zip"))).namelist()
    yield "the archive has all that was made", sorted(names) == sorted(["index.html", "fault.html", *[
        f"{front}{it}{ending}" for it in ("one", "two", "two_2")
        for front, ending in (("", ".html"), ("", ".svg"), ("", ".sheet"), ("", ".hints"), ("small/", ".svg"))]])
    yield desk.named("several stations")
    desk.press("Open the page of one")
    desk.wait("document.querySelector('iframe.page')")
    yield "a station's page is opened", desk.tab.run("document.querySelector('iframe.page').title") == "The page of one"


def line(desk: Desk) -> Iterator[Check]:
    """the file of a line, cut into its stations"""
    desk.take(("line.xml", page_stations.line_of(16)))
    desk.wait("document.querySelector('.read')?.textContent.startsWith('line.xml')")
    desk.press("Cut it into stations")
    desk.wait("document.querySelectorAll('.station').length > 0")
    yield "a line is cut into its stations", desk.tab.run("document.querySelectorAll('.station').length") == 16
    yield "how many switches are in files is said", "16 files with 64 of 64 switches and crossings" in desk.text("#files")
    desk.press("Draw all 16")
    desk.wait("document.querySelector('#answer a[download$=\".zip\"]')")
    yield "the stations of a line are drawn", desk.text("#answer p[role=status]") == "16 of 16 stations: 16 best"
    yield desk.named("a line")


def given(desk: Desk) -> Iterator[Check]:
    """a file and a folder that are dropped, and a folder that is chosen: what may be stations, out of folders in it too"""
    example, count = EXAMPLE.read_text(encoding="utf-8"), "document.querySelectorAll('.station').length"
    drop = DROP.replace("TEXT", json.dumps(example))
    yield "a drop is the desk's", bool(desk.tab.run(f"{drop}(['dropped.xml'], false)"))
    desk.wait("document.querySelector('.read')?.textContent.startsWith('dropped.xml')")
    desk.tab.run(f"{drop}(['one.xml', 'two.railml', 'three.txt'], true)")
    desk.wait(f"{count} > 0")
    yield "of a folder's entries those are taken that may be stations", desk.tab.run(count) == 2
    with tempfile.TemporaryDirectory() as base:
        folder = Path(base, "line")
        names = [*[f"s{at:03d}.xml" for at in range(120)], "deep/er/last.railml", "notes.txt"]
        for name in names:
            path = folder / name
            path.parent.mkdir(parents=True, exist_ok=True)
            path.write_text(example, encoding="utf-8")
        if isinstance(desk.tab, Tab):
            place = centre(desk.tab, "#asked")
            assert place
            desk.tab.drop(*place, [folder / "s001.xml"])
            desk.wait("document.querySelector('.read')?.textContent.startsWith('s001.xml')")
            yield "a file that is dropped beside the field is taken", desk.tab.run(count) == 0
            desk.tab.drop(*place, [folder])
            desk.wait(f"{count} > 0")
            yield "a folder that is dropped is taken whole", desk.tab.run(count) == 121
        desk.press("Take the example")
        desk.wait(f"{count} === 0")
        # firefox's driver gives files alone
        paths = [folder] if isinstance(desk.tab, Tab) else [folder / it for it in names]
        desk.tab.give('input[aria-label="choose a folder of stations"]', paths)
        desk.wait(f"{count} > 0")
        yield "a folder that is chosen is taken whole", desk.tab.run(count) == 121


def narrow(desk: Desk) -> Iterator[Check]:
    """a window of 320 pixels, and the keyboard alone"""
    desk.tab.size(320, 800, is_phone=True)
    desk.press("Take the example")
    desk.begin("draw", {})
    desk.answer()
    # firefox has no window of less than 450
    yield "nothing is wider than a window of 320 pixels", desk.tab.run("document.documentElement.scrollWidth <= Math.max(320, innerWidth)")
    desk.tab.size(1600, 1000)
    desk.tab.run("document.activeElement.blur()")
    reached: list[str] = []
    for _ in range(40):
        desk.tab.key("Tab")
        reached.append(str(desk.tab.run("document.activeElement.textContent || document.activeElement.name || document.activeElement.ariaLabel")))
    yield "all is reached by the keyboard", {"Take the example", "draw", "graph", "--width", "Run"} <= set(reached)


def certificate(desk: Desk) -> Iterator[Check]:
    """a drawing with its certificate, whose page judges itself in its frame"""
    desk.press("Take the example")
    desk.press("draw")
    desk.tab.run("document.querySelector('form input[name=\"--certify\"]').click()")
    yield "the command line has the word", desk.text(".command") == "railplan --html station.html --certify draw station.xml"
    desk.press("Run")
    desk.answer()
    yield "the log is trimmed and checked", desk.text(".certificate") == "Its log was trimmed, and what is left of it checked: certified 4."
    carried = desk.saved(".html").decode()
    yield "the page carries its certificate", '<script type="application/json" class="hints">' in carried
    desk.take(("own.html", carried))
    desk.wait("document.querySelector('#answer')?.textContent.includes('certified here')")
    yield "the desk finds it certified", "none better in height, bends, diagonal, width: certified here" in desk.text("#answer")


# how far a search is that has found a drawing, and what is there when that is drawn
FOUND = "/found|least/.test(document.querySelector('#asked p[role=status]').textContent)"
BEST = "document.querySelector('#answer figcaption')?.textContent.startsWith('The best drawing of long.xml so far')"


def stop(desk: Desk) -> Iterator[Check]:
    """a long search that is stopped when it has found a drawing, and one that is stopped when that is drawn"""
    for what, text in ((FOUND, fullest().text()), (BEST, dict(LARGE)["loops on both tracks 14"].text())):
        desk.press("draw")
        desk.take(("long.xml", text))
        desk.begin("draw", {"--width": "64", "--height": "12"})
        desk.wait(f"{what} || {IS_READY}")
        yield "the best drawing so far is drawn" if what == BEST else "a drawing is found", desk.tab.run(f"!!({what})")
        desk.press("Stop")
        answer = desk.answer()
        yield "a stop ends the search", answer.startswith("Stopped")
        yield "a stop keeps the best drawing so far", desk.tab.run(
            "document.querySelector('#answer').textContent.includes('The search ended before its end. This is the last drawing that was drawn"
            " by then.') && !!document.querySelector('#answer iframe.page')")
        desk.begin("verify", {})
        yield "this drawing is lawful", desk.answer().startswith("Done: lawful")
        yield desk.named("a stop")


# a worker that is ended by the browser a moment after it begins
CRASHING = """(() => { const Whole = Worker; window.Worker = class extends Whole { constructor(url) { super(url);
  setTimeout(() => this.onerror?.(new ErrorEvent('error', { message: 'it crashed' })), 300); } }; })()"""


def limits(desk: Desk) -> Iterator[Check]:
    """a file that is too long, as many nodes as there may be, and a worker that crashes: each ends in a sentence"""
    desk.take(("huge.xml", EXAMPLE.read_text(encoding="utf-8").replace("</railml>", " " * 4194304 + "</railml>")))
    desk.wait("document.querySelector('.read')?.textContent.startsWith('huge.xml')")
    yield "a file of more than 4 MiB", "huge.xml has more than 4 MiB, and no more is read" in desk.text("#files")
    desk.take(("tracks.xml", parallel(64).text()))
    desk.wait("document.querySelector('.read')?.textContent.startsWith('tracks.xml')")
    yield "128 nodes are read", "128 nodes" in desk.text(".read")
    desk.begin("draw", {"--width": "64", "--height": "12", "--conflicts": "300"})
    yield "128 nodes, 64 by 12", desk.answer() == "The search stopped before its end: end conflicts 0"
    desk.take(("fullest.xml", fullest().text()))
    desk.wait("document.querySelector('.read')?.textContent.startsWith('fullest.xml')")
    yield "as much as there may be is read", "128 nodes and 160 pieces of track" in desk.text(".read")
    desk.begin("draw", {"--width": "64", "--height": "12"})
    yield "as much as there may be is drawn", desk.answer() == "Done: end best"
    yield f"in {desk.text('#asked p[role=status]')}", desk.tab.run("!!document.querySelector('#answer iframe.page')")
    desk.take(("long.xml", fullest().text()))
    desk.begin("draw", {"--width": "64", "--height": "12"})
    desk.press("Stop")
    desk.answer()
    desk.tab.run(CRASHING)
    desk.begin("draw", {"--width": "64", "--height": "12"})
    answer = desk.answer()
    yield f"a worker that crashes: {answer}", answer.startswith("The run was ended, by the browser or by a check of the program: it crashed")


def number(code: bytes, at: int) -> tuple[int, int]:
    """a number of WebAssembly, and where what follows it begins"""
    found = shift = 0
    while True:
        found |= (code[at] & 127) << shift
        shift, at = shift + 7, at + 1
        if code[at - 1] < 128:
            return found, at


def as_code(value: int) -> bytes:
    """a number as WebAssembly has it"""
    return bytes([value & 127 | 128]) + as_code(value >> 7) if value > 127 else bytes([value])


def with_little_memory(code: bytes, more: int) -> bytes:
    """a module whose memory may grow by so many pages of 64 KiB and no further"""
    at = 8
    while code[at] != 5:
        length, body = number(code, at + 1)
        at = body + length
    length, body = number(code, at + 1)
    least, _ = number(code, body + 2)
    section = bytes([1, 1]) + as_code(least) + as_code(least + more)
    return code[:at] + bytes([5]) + as_code(len(section)) + section + code[body + length:]


def little(page: Path, to: Path) -> Path:
    """the same desk, whose program has memory for reading a station and not for drawing it"""
    before, data, after = re.split(r'(?<=id="data">)(.*?)(?=</script>)', page.read_text(encoding="utf-8"), maxsplit=1)
    carried = json.loads(data)
    code = with_little_memory(gzip.decompress(base64.b64decode(carried["wasm"])), 16)
    text = json.dumps({**carried, "wasm": base64.b64encode(gzip.compress(code)).decode()}).replace("<", "\\u003c")
    to.write_text(before + text + after, encoding="utf-8")
    return to


# names and ids of a page's list that are broken inside a word: there is a word on more than one line
BROKEN = """(() => [...document.querySelectorAll('.list tbody bdi')]
  .flatMap((it) => [...it.textContent.matchAll(/[^\\s-]+/g)].filter((word) => {
  const range = document.createRange();
  range.setStart(it.firstChild, word.index);
  range.setEnd(it.firstChild, word.index + word[0].length);
  return new Set([...range.getClientRects()].map((at) => at.top)).size > 1;
}).map((word) => word[0])))()"""


def lists(desk: Desk, folder: Path) -> Iterator[Check]:
    """the list of a page, in a wide window and a narrow one"""
    text = (TOP / "cases/exports/passing_loop.xml").read_text(encoding="utf-8")
    desk.take(("loop.xml", text.replace('"pe1"', '"platformEdge_tr_1_0"').replace('"Spor 1"', '"first main track"')))
    desk.wait("document.querySelector('.read')?.textContent.startsWith('loop.xml')")
    desk.begin("draw", {})
    desk.answer()
    path = folder / "loop.html"
    path.write_bytes(desk.saved(".html"))
    for width in (1280, 320):
        desk.tab.size(width, 900, is_phone=width == 320)
        desk.tab.open(path)
        desk.wait("document.body.dataset.checked")
        yield f"no name is broken in a list of a window of {width} pixels", desk.tab.run(BROKEN) == []
        yield "a page that is opened checks itself", desk.tab.run("document.body.dataset.checked") == "right"
    desk.tab.size(1600, 1000)


def memory(desk: Desk) -> Iterator[Check]:
    """want of memory ends in a sentence, and leaves nothing"""
    desk.press("Take the example")
    desk.wait("document.querySelector('.read')")
    desk.begin("draw", {})
    yield f"want of memory: {desk.answer()}", desk.answer() == "There was no memory for this run"
    left = "document.querySelectorAll('#answer a[download], #answer img, #answer iframe').length"
    yield "it leaves nothing", desk.tab.run(left) == 0
    desk.begin("graph", {})
    yield "the next run is as any other", desk.answer().startswith("Done: ")


def held(part: Callable[[Desk], Iterator[Check]], desk: Desk) -> bool:
    """whether all of a part is so, which is printed; and nothing was asked for, and no script failed"""
    is_good = True
    try:
        for what, is_so in part(desk):
            print(f"{what}: {'yes' if is_so else 'NO'}", flush=True)
            is_good = is_good and is_so
    except Gone as why:
        print(f"{part.__name__}: {why}", flush=True)
        is_good = False
    for what, found in (("something was asked for", desk.tab.requests()), ("a script failed", desk.tab.alarms())):
        if found:
            print(f"{part.__name__}: {what}: {found}: NO", flush=True)
    return is_good and not desk.tab.requests() and not desk.tab.alarms()


def main() -> int:
    parser = argparse.ArgumentParser(description=__doc__, formatter_class=argparse.RawDescriptionHelpFormatter)
    parser.add_argument("desk", type=Path, metavar="DESK.html")
    parser.add_argument("--short", action="store_true", help="leave out the long searches")
    parser.add_argument("--firefox", action="store_true", help="drive firefox")
    words = parser.parse_args()
    parts = (commands, page, fault, given, several, line, narrow, certificate, *(() if words.short else (stop, limits)))
    with ExitStack() as opened:
        tab: Tab | Firefox = opened.enter_context(Firefox()) if words.firefox else Tab(opened.enter_context(Browser()))
        desk, kilobytes = Desk(tab, words.desk), words.desk.stat().st_size / 1024
        print(f"ready after {desk.ready:.2f} s")
        # a program without proofs is longer, since its checks aren't shown to be needless
        is_proved = desk.text("#program").find("whose proofs passed") >= 0
        failed = is_proved and kilobytes > MOST_KILOBYTES
        print(f"{kilobytes:.0f} KB, at most {MOST_KILOBYTES} with the proved program: {'NO' if failed else 'yes'}")
        for part in parts:
            failed = not held(part, desk) or failed
        with tempfile.TemporaryDirectory() as folder:
            failed = not held(lambda it: lists(it, Path(folder)), desk) or failed
            failed = not held(memory, Desk(tab, little(words.desk, Path(folder, "little.html")))) or failed
    return int(failed)


if __name__ == "__main__":
    sys.exit(main())

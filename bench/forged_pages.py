#!/usr/bin/env python3
"""Forges a page that checks itself, and holds what is said of it: by itself, when it is opened in Debian's chromium, and by those to whom
it is handed over, `check-page` and a desk on which it is dropped. With --firefox it is firefox.

The page is that of the example, with the program as WebAssembly out of a desk and with the hinted lines of its search. In its record
the file, the sheet, the graph, the values, the order or the hinted lines are changed by chance; of a changed sheet the SHA-256 is
made anew, as a forger would. A page of a search that stopped gets the badge of one that ended, or of one that settled more. Each forged page is to say what isn't so, and the true one that all is; a changed claim of the maker is said to
be the maker's. A page whose script, worker, program, style, policy or picture was changed can say of itself what it likes: of these
`check-page` and the desk are to say what is otherwise."""
from __future__ import annotations

import argparse
import base64
import gzip
import hashlib
import json
import random
import re
import sys
import tempfile
import time
from contextlib import ExitStack
from dataclasses import dataclass
from pathlib import Path
from typing import Any, Callable

sys.dont_write_bytecode = True

from browser import Browser, Gone, Tab  # noqa: E402
from desk import Desk  # noqa: E402
from firefox import Firefox  # noqa: E402
from launcher import Launcher  # noqa: E402
from measuring import TOP, read_words, reader_of_program, run  # noqa: E402

SECONDS = 120
SCRIPT = '<script type="application/json" class="{}">"{}"</script>'
TRUE = "lawful: checked here · none better in height, bends, diagonal, width: certified here"


def unpacked(text: str) -> bytes:
    return gzip.decompress(base64.b64decode(text))


def packed(content: bytes) -> str:
    return base64.b64encode(gzip.compress(content)).decode()


@dataclass
class Page:
    """a page taken apart: its text with a gap for the data, the record of its run, and the hinted lines"""
    text: str
    record: dict[str, Any]
    hints: str

    @property
    def file(self) -> str:
        return str(self.record["inputs"][0]["content"]["text"])

    @property
    def sheet(self) -> str:
        return str(self.record["output"])

    def with_record(self, **changed: object) -> Page:
        return Page(self.text, {**self.record, **changed}, self.hints)

    def with_sheet(self, sheet: str) -> Page:
        """another sheet, and the SHA-256 that goes with it"""
        return self.with_record(output=sheet, sheetHash=hashlib.sha256(sheet.encode()).hexdigest())

    def written(self) -> str:
        text = self.text.replace("DATA", SCRIPT.format("data", packed(json.dumps(self.record).encode())), 1)
        at = text.rindex("<script>")
        return text[:at] + SCRIPT.format("hints", packed(self.hints.encode())) + text[at:]


def taken_apart(text: str, hints: str) -> Page:
    before, data, after = re.split(SCRIPT.format("data", "([^\"]*)"), text)
    return Page(f"{before}DATA{after}", json.loads(unpacked(data)), hints)


def hand_program(launcher: Launcher, desk: Path) -> None:
    """gives the launcher the program as WebAssembly that a desk carries"""
    carried = re.search(r'id="data">(.*?)</script>', desk.read_text(encoding="utf-8"))
    if not carried:
        sys.exit(f"bench/forged_pages.py: {desk} is no desk")
    wasm = unpacked(json.loads(carried[1])["wasm"])
    place = "out/wasm/proved/railplan.wasm"
    path = launcher.clone / place
    path.parent.mkdir(parents=True)
    path.write_bytes(wasm)
    path.chmod(0o755)
    path.with_name("built").write_text(f"railplan-built 1\nkit none\n{place}\t-\t{hashlib.sha256(wasm).hexdigest()}\n")


def true_page(launcher: Launcher, program: Path, folder: Path, *options: str) -> Page:
    """the page of the example, with what it checks itself by"""
    page, sheet, log, hints = (folder / it for it in ("true.html", "sheet", "log", "hints"))
    station, stops = TOP / "examples/station.xml", 4 if options else 0
    status, _, said = launcher.run("--html", str(page), "draw", str(station), *options)
    drawn = run([program, "draw", station, *options, "--log", log], sheet)
    if status != stops or drawn.status != stops or run([program, "trim", station, sheet, log, hints]).status:
        sys.exit(f"bench/forged_pages.py: the example isn't drawn: {said}")
    return taken_apart(page.read_text(encoding="utf-8"), hints.read_text(encoding="utf-8"))


# ---- what is changed


def with_number(chance: random.Random, text: str, form: str) -> str:
    """the text with another number in one of the places that a form finds"""
    found = chance.choice(list(re.finditer(form, text)))
    number = str(int(found[1]) + chance.choice([1, 2, 3]))
    return text[:found.start(1)] + number + text[found.end(1):]


def other_file(chance: random.Random, page: Page) -> Page:
    first, *more = page.record["inputs"]
    text = with_number(chance, page.file, r'"[^"]*?(\d+)"')
    return page.with_record(inputs=[{**first, "content": {"text": text}}, *more])


def other_sheet(chance: random.Random, page: Page) -> Page:
    return page.with_sheet(with_number(chance, page.sheet, r"(?m)^node \d+ \S+ \d+ (\d+)"))


def other_hash(chance: random.Random, page: Page) -> Page:
    return page.with_record(output=with_number(chance, page.sheet, r"(?m)^node \d+ \S+ (\d+)"))


def other_graph(chance: random.Random, page: Page) -> Page:
    first, *more = page.record["graphs"]
    return page.with_record(graphs=[with_number(chance, first, r"(?m)^edge \d+ \S+ \d+ (\d+)"), *more])


def other_values(chance: random.Random, page: Page) -> Page:
    return page.with_sheet(with_number(chance, page.sheet, chance.choice([r"(?m)^values \d+ \d+ \d+ (\d+)", r"(?m)^values (\d+)"])))


def other_order(chance: random.Random, page: Page) -> Page:
    """the claim that the drawing is the best in another order"""
    found = re.search(r"(?m)^order (.*)$", page.sheet)
    assert found
    order = found[1].split(" ")
    while order == found[1].split(" "):
        chance.shuffle(order)
    return page.with_sheet(page.sheet.replace(found[0], f"order {' '.join(order)}"))


def other_badge(chance: random.Random, page: Page) -> Page:
    """of a search that stopped: the claim that it ended, or that it settled more"""
    found = re.search(r"(?m)^end conflicts (\d)$", page.sheet)
    assert found
    ending = chance.choice(["best", *[f"conflicts {it}" for it in range(int(found[1]) + 1, 4)]])
    return page.with_sheet(page.sheet.replace(found[0], f"end {ending}"))


def other_hints(chance: random.Random, page: Page) -> Page:
    """without its Refuted lines, or cut off before the last of them"""
    lines = page.hints.split("\n")
    refuted = [at for at, line in enumerate(lines) if line.startswith("r ")]
    cut = chance.randrange(2, refuted[-1] + 1)
    return Page(page.text, page.record, "\n".join([*lines[:cut], ""]))


def other_claim(chance: random.Random, page: Page) -> Page:
    """the claim that proofs passed"""
    return page.with_record(build={"state": "proved", "sha256": f"{chance.getrandbits(256):064x}"})


# how each kind is made, and what it is to say
KINDS: dict[str, tuple[Callable[[random.Random, Page], Page], str]] = {
    "file": (other_file, "the file is the one of the SHA-256 that the page names"),
    "sheet": (other_sheet, "the drawing is lawful"),
    "sheet with the SHA-256 of the true one": (other_hash, "the sheet is the one of the SHA-256 that the page names"),
    "graph": (other_graph, "the track graph is the file's"),
    "values": (other_values, "the drawing is lawful: sheet 5 Values line"),
    "order": (other_order, "the hinted lines certify what the sheet claims"),
    "hints": (other_hints, "the hinted lines certify what the sheet claims"),
}

# those of which a page of a search that stopped is forged
OF_STOPPED: dict[str, tuple[Callable[[random.Random, Page], Page], str]] = {
    "badge": (other_badge, "the hinted lines certify what the sheet claims: "),
}
# so many learnt clauses the search is let, in turn
BUDGETS = ("3", "5", "6")

CLAIM = "made by a program whose proofs passed: as its maker says"


# ---- what a page can't find of itself


def other_script(chance: random.Random, text: str) -> str:
    begin = text.rindex("<script>") + len("<script>")
    places = [it.start() for it in re.finditer(r"\b\d\b", text[begin:])]
    at = begin + chance.choice(places)
    return text[:at] + str((int(text[at]) + 1) % 10) + text[at + 1:]


def other_worker(chance: random.Random, text: str) -> str:
    return text.replace('class="worker">"', f'class="worker">"/*{chance.random()}*/', 1)


def other_program(chance: random.Random, text: str) -> str:
    before, data, after = re.split(SCRIPT.format("program", "([^\"]*)"), text)
    wasm = bytearray(unpacked(data))
    wasm[chance.randrange(8, len(wasm))] ^= 1 << chance.randrange(8)
    return before + SCRIPT.format("program", packed(bytes(wasm))) + after


def other_style(chance: random.Random, text: str) -> str:
    return text.replace("<style>", f"<style>.edge{{opacity:{chance.random()}}}", 1)


def other_policy(chance: random.Random, text: str) -> str:
    return text.replace("default-src 'none'", chance.choice(["default-src 'self'", "default-src *", "img-src https:; default-src 'none'"]), 1)


def other_picture(chance: random.Random, text: str) -> str:
    return with_number(chance, text, r'<polyline class="edge" points="(\d+),')


def other_words(chance: random.Random, text: str) -> str:
    """what is shown without the script"""
    return with_number(chance, text, r"<p>(?:[^<]*?)(\d+)(?:[^<]*)</p>")


# how each kind is made, how `check-page` is to end, and what it is to say
HANDED: dict[str, tuple[Callable[[random.Random, str], str], int, str]] = {
    "script": (other_script, 4, "open what it shows when it is opened: this version makes otherwise its script"),
    "worker": (other_worker, 4, "this version makes otherwise the script of its worker"),
    "program": (other_program, 4, "open what it finds of itself: the program that it carries"),
    "style": (other_style, 4, "this version makes otherwise its style"),
    "policy": (other_policy, 4, "this version makes otherwise what it lets a browser do"),
    "picture": (other_picture, 8, "wrong what it shows without its script is what its run gives"),
    "words": (other_words, 8, "wrong what it shows without its script is what its run gives"),
}


def handed_over(launcher: Launcher, desk: Desk, text: str, path: Path) -> tuple[int, str, str]:
    """what `check-page` and the desk say of a page that is handed over"""
    path.write_text(text, encoding="utf-8")
    status, answer, _ = launcher.run("check-page", str(path))
    desk.take((path.name, text))
    desk.wait(f"document.querySelector('#answer .said')?.textContent.startsWith('{path.name}')")
    return status, answer, str(desk.tab.run("[...document.querySelectorAll('.judged li')].map(it => it.textContent).join('\\n')"))


def said_by(tab: Tab | Firefox, page: Page, path: Path) -> tuple[str, str]:
    """whether a page is right, by itself, and what it says of itself"""
    path.write_text(page.written(), encoding="utf-8")
    tab.open(path)
    until = time.time() + SECONDS
    while time.time() < until:
        state = tab.run("document.body.dataset.checked ?? (!document.querySelector('script.program') && 'without a program')")
        if state:
            return str(state), str(tab.run("document.querySelector('.checked').textContent"))
        time.sleep(0.02)
    raise Gone(f"{path} isn't checked after {SECONDS} s")


def main() -> int:
    parser = reader_of_program(__doc__)
    parser.add_argument("--desk", type=Path, required=True, help="a desk, which `./railplan browser DESK.html` writes")
    parser.add_argument("--count", type=int, default=20, help="forged pages of each kind (20)")
    parser.add_argument("--firefox", action="store_true", help="drive firefox")
    words: argparse.Namespace = read_words(parser)
    passed = failed = 0
    with ExitStack() as opened:
        tab: Tab | Firefox = opened.enter_context(Firefox()) if words.firefox else Tab(opened.enter_context(Browser()))
        folder, chance = Path(opened.enter_context(tempfile.TemporaryDirectory())), random.Random(1)
        launcher = Launcher(words.program, folder)
        hand_program(launcher, words.desk)
        stopped = [true_page(launcher, words.program, folder, "--conflicts", it) for it in BUDGETS]
        page = true_page(launcher, words.program, folder)
        tried = [("the true page", page, "right", TRUE)]
        tried += [(f"the true page of {budget} conflicts", it, "right", "lawful: checked here") for budget, it in zip(BUDGETS, stopped)]
        tried += [(f"{kind} {at}", make(chance, page), "wrong", f"it isn't so that {text}")
                  for kind, (make, text) in KINDS.items() for at in range(words.count)]
        tried += [(f"{kind} {at}", make(chance, stopped[at % len(stopped)]), "wrong", f"it isn't so that {text}")
                  for kind, (make, text) in OF_STOPPED.items() for at in range(words.count)]
        tried += [(f"the maker's claim {at}", other_claim(chance, page), "right", CLAIM) for at in range(words.count)]
        for name, forged, wanted, text in tried:
            state, said = said_by(tab, forged, folder / "forged.html")
            is_so = state == wanted and text in said and not tab.requests()
            passed, failed = passed + is_so, failed + (not is_so)
            if not is_so or name.startswith("the true page"):
                print(f"{name}: {state}: {said}", flush=True)
        desk, text = Desk(tab, words.desk), page.written()
        given = [("the true page", text, 0, "right it is built, to the byte, as this version builds the page of its run")]
        given += [(f"{kind} {at}", other(chance, text), status, said)
                  for kind, (other, status, said) in HANDED.items() for at in range(words.count)]
        for at, (name, forged_text, wanted_status, said) in enumerate(given):
            status, answer, shown = handed_over(launcher, desk, forged_text, folder / f"handed{at}.html")
            is_so = status == wanted_status and said in answer and shown.strip() == answer.strip()
            passed, failed = passed + is_so, failed + (not is_so)
            if not is_so:
                print(f"{name}, handed over: {status}: {answer}\non the desk: {shown}", flush=True)
    print(f"{passed} passed, {failed} failed")
    return int(failed > 0)


if __name__ == "__main__":
    sys.exit(main())

#!/usr/bin/env python3
"""Makes pages of stations with hostile names, and holds what they are.

The ids and the tracks' names of stations by chance are exchanged for markup, quotes, entities, signs that turn the direction of
writing, long texts and control characters; some files get changes beside. The launcher runs a command with a page. It prints and
ends as the program does, and says nothing of Node. Behind an answer there is a page. In a page, as it is written and as it draws
itself, no name is markup, an attribute or a comment; its pictures are XML; it has no control character and no U+FFFE or U+FFFF. The
program's own picture is XML too."""
from __future__ import annotations

import re
import shutil
import sys
import unicodedata
from html.parser import HTMLParser
from pathlib import Path
from xml.parsers import expat
from xml.sax.saxutils import quoteattr

sys.dont_write_bytecode = True

import launched  # noqa: E402
from changes import changed_file  # noqa: E402
from known import KNOWN  # noqa: E402
from opinion import load, stations  # noqa: E402
from trying import TOP, Answer, Case, main  # noqa: E402

DRAWN = TOP / "bench/page_drawn.js"

# stands in each hostile name, so that it is found in a page
MARK = "zz9"
NAMES = ["<script>zz9</script>", '"><img src=x onerror=zz9>', "' onload='zz9", '" onclick="zz9', "&#60;zz9&gt;", "]]>zz9",
         "</svg>zz9", "</title>zz9", "</style>zz9", "--><zz9>", "javascript:zz9", "\u202ezz9\u202d", "zz9\u200b\u200d",
         "zz9\u0301\u0301\u0301", "zz9\U0001f682", "zz9" * 20, "zz9\u00ad", "\ufeffzz9", "{{zz9}}", "%zz9%s", "\\zz9\\n",
         "zz9</script>", "<!--zz9", "zz9&amp;", "\u2028zz9", "zz9'\"`"]
CONTROL = ["zz9\x01", "zz9\x0b", "zz9\x7f", "zz9\x85", "zz9\x1b[31m", "zz9\ufffe", "zz9\uffff"]
NAMES += [] if "signs of a page" in KNOWN else CONTROL
# a station of which an explanation has had no page
NO_ROOM = Path(__file__).resolve().with_name("no_room.xml")
# ids with U+FFFE, and names with this and with control characters
ODD = ('<infrastructure><tracks><track id="m\ufffe" name="\ufffe\x01&#x85;"><trackTopology>'
       '<trackBegin id="b\ufffe" pos="0" absPos="0"><openEnd/></trackBegin>'
       '<trackEnd id="e\uffff" pos="600"><openEnd/></trackEnd></trackTopology></track></tracks></infrastructure>')
GRID = ["--width", "8", "--height", "2", "--conflicts", "300"]
COMMANDS = [
    ["draw", "station", *GRID],
    ["draw", "station", *GRID, "--svg", "picture"],
    ["draw", "station"],
    ["signals", "station", *GRID],
    ["front", "station", "height,width", *GRID],
    ["explain", "station", "--width", "5", "--height", "1"],
    ["explain", "station", "--height", "0"],
    ["redraw", "station", "station", "sheet", *GRID],
    ["verify", "station", "sheet"],
]
ANSWERED = (0, 3, 4, 8)


class Reader(HTMLParser):
    """what a page has: where the mark stands that it may not, and whether scripts are kept whole"""

    def __init__(self) -> None:
        super().__init__(convert_charrefs=True)
        self.wrong: list[str] = []
        self.inside = ""

    def handle_starttag(self, tag: str, attrs: list[tuple[str, str | None]]) -> None:
        self.inside = tag if tag in ("script", "style") else self.inside
        if MARK in tag or any(MARK in name or name.startswith("on") for name, _ in attrs):
            self.wrong.append(f"a name is markup: <{tag} {attrs}>"[:200])
        if any(name in ("href", "src") and MARK in (value or "") and "javascript" in (value or "") for name, value in attrs):
            self.wrong.append(f"a name is run: <{tag} {attrs}>"[:200])

    def handle_endtag(self, tag: str) -> None:
        self.inside = "" if tag == self.inside else self.inside
        if MARK in tag:
            self.wrong.append(f"a name is markup: </{tag}>")

    def handle_comment(self, data: str) -> None:
        if MARK in data:
            self.wrong.append("a name is a comment")

    def handle_data(self, data: str) -> None:
        if self.inside and MARK in data and "<" in data[data.index(MARK) - 30:][:90]:
            self.wrong.append(f"a name has markup inside <{self.inside}>")


def why_no_xml(text: bytes) -> str:
    """why a text isn't XML; nothing where it is"""
    try:
        expat.ParserCreate().Parse(text, True)
    except expat.ExpatError as why:
        return f"no XML: {why}"
    return ""


def odd_characters(text: str) -> list[str]:
    """the characters of a text that no page is to have"""
    return sorted({f"U+{ord(sign):04X}" for sign in text
                   if unicodedata.category(sign) == "Cc" and sign not in "\t\n\r" or sign in "\ufffe\uffff"})


def renamed(case: Case, text: str) -> str:
    """the file with other ids, at most 64 bytes each, and names of tracks"""
    there: dict[str, str] = {}

    def other(found: re.Match[str]) -> str:
        if found[3] not in there:
            name = case.chance.choice(NAMES) if case.chance.random() < 0.6 else "n"
            name = "".join(sign for sign in name if ord(sign) > 32 and not 127 <= ord(sign) <= 160)
            front = name.encode()[:64 - 4].decode(errors="ignore")
            there[found[3]] = f"{front}{len(there)}"
        return f" {found[1]}={quoteattr(there[found[3]])}"

    text = re.sub(r"\s(id|ref)=([\"'])(.*?)\2", other, text)
    return re.sub(r"<track ", lambda _: f"<track name={quoteattr(case.chance.choice(NAMES))} ", text)


def station_of(case: Case) -> bytes:
    """a station with hostile names, which has no fault but by a change behind them"""
    while True:
        text = renamed(case, stations.Station(case.chance).text().decode()).encode()
        found = load(text)
        if found and len(found.edges) <= 8:
            break
    for _ in range(case.chance.choice([0, 0, 0, 1])):
        text = changed_file(case.chance, text)
    return text


def judge_page(case: Case, text: bytes) -> None:
    page = text.decode("utf-8", "surrogateescape")
    reader = Reader()
    reader.feed(page)
    reader.close()
    for why in reader.wrong[:3]:
        case.wrong(why)
    odd = odd_characters(page)
    if not is_passed_over(case, "signs of a page"):
        case.hold_that(not odd, f"the page has {odd}")
        for picture in re.findall(rb"<svg\b.*?</svg>", text, re.S):
            why = why_no_xml(picture)
            case.hold_that(not why, f"a page's picture is {why}")


def is_passed_over(case: Case, known: str) -> bool:
    """whether the station has a sign that no page and no picture is to have, and that these are known to have"""
    text = (case.text_of("station") or b"").decode("utf-8", "replace")
    return known in KNOWN and (bool(odd_characters(text)) or "&#" in text)


def judge_drawn(case: Case, environment: dict[str, str]) -> None:
    """the same of a page as it draws itself"""
    drawn = case.start([shutil.which("node") or "/usr/bin/node", str(DRAWN), "page.html"], environment=environment)
    case.hold_that(drawn.status == 0, f"the page can't be drawn: {drawn.said[-300:]!r}")
    judge_page(case, drawn.printed)


def judge(case: Case, words: list[str], plain: Answer, shown: Answer, environment: dict[str, str]) -> None:
    said = f"--html page.html {' '.join(words)}"
    if (shown.status, shown.printed) != (plain.status, plain.printed):
        case.wrong(f"{said} ends with {shown.status} {shown.printed[:80]!r}, and without a page {plain.status} "
                   f"{plain.printed[:80]!r}; {shown.said[-200:]!r}")
    if b"    at " in shown.said or b"node:" in shown.said:
        case.wrong(f"{said} says {shown.said[-300:]!r}")
    page = case.text_of("page.html")
    if plain.status in ANSWERED:
        is_known = words[0] == "explain" and "no room for names" in KNOWN
        case.hold_that(page is not None or is_known, f"{said} ends with {plain.status}, and has no page: {shown.said[-200:]!r}")
    if page is not None:
        case.count("pages")
        judge_page(case, page)
        judge_drawn(case, environment)
    left = {path.name for path in case.folder.iterdir()} - {"station", "sheet", "page.html", "picture"}
    case.hold_that(not left, f"{said} leaves {sorted(left)}")


def probe(case: Case) -> None:
    """looks for what is known of pages"""
    launcher, environment = launched.clone_of(case.program)
    case.write("station", ODD.encode())
    case.start([launcher, "--html", "page.html", "draw", "station", "--svg", "picture"], environment=environment)
    page, picture = (case.text_of(name) or b"" for name in ("page.html", "picture"))
    why = why_no_xml(picture)
    case.hold_that(bool(picture) and not why, f"the program's picture of ids with U+FFFE is {why}", "signs of a picture")
    odd = odd_characters(page.decode("utf-8", "replace"))
    case.hold_that(bool(page) and not odd, f"a page of names with control characters has {odd}", "signs of a page")
    case.path("page.html").unlink(missing_ok=True)
    case.write("station", NO_ROOM.read_bytes())
    shown = case.start([launcher, "--html", "page.html", "explain", "station", "--width", "5", "--height", "1"],
                       environment=environment)
    case.hold_that(shown.status != 0 or case.path("page.html").exists(), "an explanation has no page", "no room for names")


def attempt(case: Case) -> None:
    if case.number == 0:
        probe(case)
        return
    launcher, environment = launched.clone_of(case.program)
    case.write("station", station_of(case))
    case.write("sheet", case.run("draw", "station", *GRID).printed)
    words = COMMANDS[case.number % len(COMMANDS)]
    plain = case.run(*words)
    picture = case.text_of("picture")
    if picture is not None and not is_passed_over(case, "signs of a picture"):
        why = why_no_xml(picture)
        case.hold_that(not why, f"the program's picture is {why}")
    shown = case.start([launcher, "--html", "page.html", *words], environment=environment)
    case.count(f"{words[0]} ends with {shown.status}")
    judge(case, words, plain, shown, environment)


if __name__ == "__main__":
    sys.exit(main(__doc__ or "", attempt, 90, lambda words: launched.clone_of(str(words.program))))

"""Small stations that are drawn, with the sheet, the log and the hints of a run, for scripts that change these."""
from __future__ import annotations

from dataclasses import dataclass

from opinion import drawing, graph, load, log as logs, stations
from trying import TOP, Case

WIDTHS, HEIGHTS = ("4", "5", "6", "8"), ("0", "1", "1", "2")
STORED = ("loop.xml", "two.xml", "cross.xml", "forked.xml", "back.xml", "beside.xml", "apart.xml", "joints.xml")


@dataclass
class Drawn:
    """a station that was drawn: its file, graph, words of the grid and of the order, and what came of it"""
    text: bytes
    graph: graph.Graph
    words: list[str]
    sheet: bytes
    log: bytes
    written: logs.Written


def station(case: Case, edges: int) -> tuple[bytes, graph.Graph]:
    """a station without a fault and with at most so many edges"""
    if case.chance.random() < 0.3:
        text = (TOP / "cases/stations" / case.chance.choice(STORED)).read_bytes()
        found = load(text)
        if found and len(found.edges) <= edges:
            return text, found
    while True:
        text = stations.Station(case.chance).text()
        found = load(text)
        if found and len(found.edges) <= edges:
            return text, found


def drawn(case: Case, edges: int = 6, budgets: tuple[str, ...] = ("2", "30", "50000", "50000")) -> Drawn:
    """draws a station by chance. Its file, sheet and log are in the folder as `station`, `sheet` and `log`"""
    while True:
        text, found = station(case, edges)
        order = case.chance.sample(drawing.CRITERIA, case.chance.choice([1, 2, 4, 4]))
        words = ["--width", case.chance.choice(WIDTHS), "--height", case.chance.choice(HEIGHTS), "--order", ",".join(order)]
        case.write("station", text)
        answer = case.run("draw", "station", *words, "--conflicts", case.chance.choice(budgets), "--log", "log")
        if answer.status not in (0, 3, 4):
            case.wrong(f"a file without a fault is drawn with {answer.status}")
            continue
        case.write("sheet", answer.printed)
        text_of_log = case.text_of("log") or b""
        lines = logs.read_log(text_of_log)
        return Drawn(text, found, words, answer.printed, text_of_log, logs.Written(found, lines))


ENDINGS = (b"best\n", b"none\n", b"conflicts 0\n", b"conflicts 1\n", b"conflicts 3\n", b"room 2\n")


def with_other_ending(case: Case, sheet: bytes) -> bytes:
    """a sheet that says otherwise how the search ended"""
    front, end, _ = sheet.rpartition(b"end ")
    return front + end + case.chance.choice(ENDINGS)

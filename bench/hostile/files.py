#!/usr/bin/env python3
"""Changes railML files by chance, and holds the program to what it is to answer.

`graph` is judged byte for byte by the second opinion of bench/second_opinion, which shares nothing with the program. A station
without a fault is also drawn on a small grid: its drawing is lawful by the second opinion, its log is certified and trimmed,
what is left is certified, and `signals`, `explain` and `front` answer in their forms. No run may end by a signal, hang, or
say anything on standard error."""
from __future__ import annotations

import sys

sys.dont_write_bytecode = True

from changes import changed_file  # noqa: E402
from forms import why_otherwise  # noqa: E402
from opinion import drawing, graph, graph_answer, stations  # noqa: E402
from trying import TOP, Answer, Case, main  # noqa: E402

STORED = sorted((TOP / "cases/stations").glob("*.xml"))
# a station with more edges is drawn in other scripts, where more time is
EDGES = 8
GRIDS = [("4", "1"), ("6", "1"), ("6", "2"), ("8", "2"), ("5", "3")]


def station_of(case: Case) -> bytes:
    """a station by chance, or a stored one of less than 9,000 bytes"""
    if case.chance.random() < 0.9:
        return stations.Station(case.chance).text()
    text = case.chance.choice(STORED).read_bytes()
    return text if len(text) < 9000 else stations.Station(case.chance).text()


def in_form(case: Case, *words: str) -> Answer:
    """runs the program, and holds its answer to the command's form"""
    answer = case.run(*words)
    case.count(f"{words[0]} ends with {answer.status}")
    why = why_otherwise(words[0], answer)
    if why:
        case.wrong(why)
    return answer


def draw(case: Case, found: graph.Graph) -> None:
    """draws the station, and holds what the other commands say of the drawing and of its log to each other"""
    width, height = case.chance.choice(GRIDS)
    grid = ["--width", width, "--height", height]
    budget = case.chance.choice(["1", "20", "3000"])
    answer = in_form(case, "draw", "station", *grid, "--conflicts", budget, "--log", "log", "--svg", "picture")
    if answer.status not in (0, 3, 4):
        case.wrong(f"a file without a fault is drawn with {answer.status}")
        return
    case.write("sheet", answer.printed)
    sheet = drawing.read_sheet(found, answer.printed)
    if sheet.drawing:
        lawful = "lawful %d %d %d %d\n" % sheet.drawing.values()
        case.hold("verify", (0, lawful.encode()), case.run("verify", "station", "sheet"))
        case.hold_that(sheet.drawing.broken(sheet) is None, "the drawing breaks a law")
        case.hold_that(case.text_of("picture") == drawing.picture_text(sheet.drawing), "the picture is another")
    certified = b"certified %d\n" % sheet.settled
    case.hold("check", (0, certified), case.run("check", "station", "sheet", "log"))
    if case.chance.random() < 0.4:
        trimmed = in_form(case, "trim", "station", "sheet", "log", "hints")
        case.hold_that(trimmed.status == 0, "trim refuses a log that is certified")
        case.hold("recheck", (0, certified), case.run("recheck", "station", "sheet", "hints"))
    for words in (["signals", "station"], ["explain", "station"], ["front", "station", "height,width"]):
        if case.chance.random() < 0.2:
            in_form(case, *words, *grid, "--conflicts", "300")


def attempt(case: Case) -> None:
    text = station_of(case)
    for _ in range(case.chance.choice([0, 1, 1, 1, 2, 2, 3, 5])):
        text = changed_file(case.chance, text)
    case.write("station", text)
    wanted = graph_answer(text)
    case.hold("graph", wanted, case.run("graph", "station"))
    if wanted[0] == 0 and case.chance.random() < 0.5:
        found = graph.load(text)
        if len(found.edges) <= EDGES:
            draw(case, found)
    elif case.chance.random() < 0.1:
        answer = in_form(case, "draw", "station", "--width", "4", "--height", "1", "--conflicts", "1")
        case.hold_that(wanted[0] == 0 or (answer.status, answer.printed) == wanted, "draw tells another fault than graph")


if __name__ == "__main__":
    sys.exit(main(__doc__ or "", attempt, 1000))

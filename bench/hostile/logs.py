#!/usr/bin/env python3
"""Changes the logs of small stations by chance, and holds the program to what it is to answer.

`check` is judged byte for byte by the second opinion; where a change makes other clauses be expected than the log that was
written has, by its form alone. `trim` is to answer as `check` does, and to write nothing, where that doesn't end with 0; else
what it writes is to be certified."""
from __future__ import annotations

import sys

sys.dont_write_bytecode = True

from changes import changed_log  # noqa: E402
from forms import why_otherwise  # noqa: E402
from opinion import log  # noqa: E402
from small import Drawn, drawn, with_other_ending  # noqa: E402
from trying import Answer, Case, main  # noqa: E402

LOGS = 6


def trim(case: Case, checked: Answer) -> None:
    """`trim` of the same sheet and log, and `recheck` of what it writes"""
    case.path("hints").unlink(missing_ok=True)
    answer = case.run("trim", "station", "sheet", "log", "hints")
    case.count(f"trim ends with {answer.status}")
    if checked.status != 0:
        case.hold_that((answer.status, answer.printed) == (checked.status, checked.printed), "trim says otherwise than check")
        case.hold_that(not case.path("hints").exists(), "trim writes hints of a log that check refuses")
        return
    if why_otherwise("trim", answer) or answer.status != 0:
        case.wrong(f"trim of a log that is certified ends with {answer.status}: {answer.printed[:100]!r}")
    case.hold("recheck", (0, checked.printed), case.run("recheck", "station", "sheet", "hints"))


def judge(case: Case, station: Drawn, sheet: bytes, text: bytes) -> None:
    case.write("sheet", sheet)
    case.write("log", text)
    answer = case.run("check", "station", "sheet", "log")
    try:
        case.hold("check", log.check(station.graph, sheet, text, station.written), answer)
    except log.Unknown:
        case.count("check: by its form alone")
        why = why_otherwise("check", answer)
        if why:
            case.wrong(why)
    if answer.status == 0 or case.chance.random() < 0.15:
        trim(case, answer)


def attempt(case: Case) -> None:
    station = drawn(case)
    for number in range(LOGS):
        sheet, text = station.sheet, station.log
        if number:
            for _ in range(case.chance.choice([1, 1, 1, 2, 3])):
                text = changed_log(case.chance, text)
        if case.chance.random() < 0.15:
            sheet = with_other_ending(case, sheet)
        judge(case, station, sheet, text)


if __name__ == "__main__":
    sys.exit(main(__doc__ or "", attempt, 100))

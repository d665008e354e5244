#!/usr/bin/env python3
"""Changes the hints of small stations by chance, and holds `recheck` to what it is to answer, byte for byte.

The judge is `hint_judge.py`. Where a change makes other caps than the log's, the answer is judged by its form alone."""
from __future__ import annotations

import sys

sys.dont_write_bytecode = True

import hint_judge  # noqa: E402
from changes import changed_hints  # noqa: E402
from forms import why_otherwise  # noqa: E402
from small import Drawn, drawn, with_other_ending  # noqa: E402
from trying import Case, main  # noqa: E402

TEXTS = 30


def judge(case: Case, station: Drawn, sheet: bytes, text: bytes) -> None:
    case.write("sheet", sheet)
    case.write("hints", text)
    answer = case.run("recheck", "station", "sheet", "hints")
    try:
        case.hold("recheck", hint_judge.recheck(station.graph, sheet, text, station.written), answer)
    except hint_judge.Unknown:
        case.count("recheck: by its form alone")
        why = why_otherwise("recheck", answer)
        if why:
            case.wrong(why)


def attempt(case: Case) -> None:
    station = drawn(case)
    answer = case.run("trim", "station", "sheet", "log", "hints")
    text = case.text_of("hints")
    if answer.status != 0 or text is None:
        case.wrong(f"the log that draw wrote isn't trimmed: {answer.printed[:100]!r}")
        return
    judge(case, station, station.sheet, text)
    for _ in range(TEXTS):
        sheet, changed = station.sheet, text
        for _ in range(case.chance.choice([1, 1, 1, 2, 3])):
            changed = changed_hints(case.chance, changed)
        if case.chance.random() < 0.1:
            sheet = with_other_ending(case, sheet)
        judge(case, station, sheet, changed)


if __name__ == "__main__":
    sys.exit(main(__doc__ or "", attempt, 100))

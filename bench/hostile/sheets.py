#!/usr/bin/env python3
"""Changes sheets of both editions by chance, and holds the program to what it is to answer.

`verify`, and `check` with an empty log, are judged byte for byte by the second opinion. `redraw` is to tell the same fault of the
sheet as `verify`, or else to answer in its form."""
from __future__ import annotations

import sys

sys.dont_write_bytecode = True

from changes import changed_sheet  # noqa: E402
from forms import why_otherwise  # noqa: E402
from opinion import drawing, graph, log, stations  # noqa: E402
from small import station  # noqa: E402
from trying import Case, main  # noqa: E402

# one station has so many sheets: to make a station takes as long as to judge some sheets
SHEETS = 20
EMPTY_LOG = b"railplan-log 1\n"


def sheet_of(case: Case, found: graph.Graph) -> bytes:
    """a sheet of the station, which need not be lawful, or one without a drawing"""
    sheet = None
    while sheet is None:
        sheet = stations.any_sheet(case.chance, found)
    if case.chance.random() < 0.1:
        sheet.drawing, sheet.ending, sheet.settled = None, case.chance.choice(["none", "conflicts", "room"]), 0
    return drawing.sheet_text(sheet, sheet.least > 1 or case.chance.random() < 0.6)


def others(case: Case, found: graph.Graph, sheet: bytes, wanted: tuple[int, bytes]) -> None:
    """`check` of the same sheet and an empty log, and `redraw`, which tells the same faults as `verify`"""
    case.write("log", EMPTY_LOG)
    case.hold("check", log.check(found, sheet, EMPTY_LOG, log.Written(found, [])), case.run("check", "station", "sheet", "log"))
    answer = case.run("redraw", "station", "station", "sheet", "--width", "5", "--height", "1", "--conflicts", "50")
    case.count(f"redraw ends with {answer.status}")
    why = why_otherwise("redraw", answer)
    if why:
        case.wrong(why)
    if wanted[0] == 1 and (answer.status, answer.printed) != wanted or wanted[0] != 1 and answer.status == 1:
        case.wrong(f"redraw says {answer.printed[:100]!r} of a sheet of which verify is to say {wanted[1]!r}")


def attempt(case: Case) -> None:
    text, found = station(case, 10)
    case.write("station", text)
    first = sheet_of(case, found)
    for number in range(SHEETS):
        sheet = first
        for _ in range(min(number, case.chance.choice([1, 1, 1, 2, 3]))):
            sheet = changed_sheet(case.chance, sheet)
        case.write("sheet", sheet)
        wanted = drawing.verify(text, sheet, lambda _: found)
        case.hold("verify", wanted, case.run("verify", "station", "sheet"))
        if number == SHEETS - 1:
            others(case, found, sheet, wanted)


if __name__ == "__main__":
    sys.exit(main(__doc__ or "", attempt, 300))

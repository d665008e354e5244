#!/usr/bin/env python3
"""Forges certificates of claims that aren't true, and holds that none is certified.

A station is drawn. By the second opinion its drawing is lawful, and so it refutes each claim that no drawing is lawful, and
each claim that a worse drawing is best. Such worse drawings are those of other orders and of small budgets, on the same grid.

For each such claim logs and hints are forged. The Refuted lines and the queries that the claim needs are written into
certificates of other claims, grids and orders. Some get Learnt lines that say too much, lack clauses or Bound lines or have
others, have other caps, and are changed by chance. `check` and `recheck` refuse each of them."""
from __future__ import annotations

import sys
from dataclasses import dataclass

sys.dont_write_bytecode = True

from changes import changed_hints, changed_log  # noqa: E402
from opinion import drawing, graph  # noqa: E402
from small import station  # noqa: E402
from trying import Case, main  # noqa: E402

FORGED = 40
GRIDS = [("5", "1"), ("6", "1"), ("6", "2"), ("8", "1"), ("4", "1")]
Lines = list[bytes]


@dataclass
class Certificate:
    """a sheet that a run put, its log and its hints"""
    sheet: bytes
    log: Lines
    hints: Lines


@dataclass
class Claim:
    """a sheet that claims what isn't so"""
    text: bytes
    sheet: drawing.Sheet


def lines_of(text: bytes | None) -> Lines:
    return (text or b"").split(b"\n")[:-1]


def certificate(case: Case, width: str, height: str, order: list[str], budget: str, least: str = "1") -> Certificate:
    words = ["--width", width, "--height", height, "--order", ",".join(order), "--conflicts", budget, "--least", least]
    answer = case.run("draw", "station", *words, "--log", "log")
    case.write("sheet", answer.printed)
    case.path("hints").unlink(missing_ok=True)
    case.run("trim", "station", "sheet", "log", "hints")
    return Certificate(answer.printed, lines_of(case.text_of("log")), lines_of(case.text_of("hints")))


def values_in(sheet: drawing.Sheet, order: list[str]) -> list[int]:
    """a drawing's values, in the order"""
    values = dict(zip(drawing.CRITERIA, sheet.drawing.values()))
    return [values[name] for name in order]


def claims(best: drawing.Sheet, others: list[drawing.Sheet]) -> list[Claim]:
    """claims that the best drawing refutes, on its grid and in its order"""
    make = lambda found, ending, settled: drawing.Sheet(best.width, best.height, best.least, best.order, found, ending, settled)
    found = [make(None, "none", 0)]
    own = values_in(best, best.order)
    for other in others:
        worse = values_in(other, best.order)
        for settled in range(1, len(best.order) + 1):
            if own[:settled] < worse[:settled]:
                ending = "best" if settled == len(best.order) else "conflicts"
                found.append(make(other.drawing, ending, settled))
    return [Claim(drawing.sheet_text(sheet), sheet) for sheet in found]


def bounds_of(lines: Lines) -> dict[tuple[str, int], int]:
    """the variables of a log's Bound lines"""
    told = (line.split(b" ") for line in lines if line.startswith(b"b "))
    return {(fields[1].decode(), int(fields[2])): int(fields[3]) for fields in told}


def wanted(claim: Claim, bounds: dict[tuple[str, int], int]) -> list[list[int]]:
    """the literals of the Refuted lines that the claim needs"""
    if not claim.sheet.drawing:
        return [[]]
    lines: list[list[int]] = []
    allowed: list[int] = []
    values = values_in(claim.sheet, claim.sheet.order)
    for name, value in list(zip(claim.sheet.order, values))[:claim.sheet.settled]:
        least = bounds.get((name, value))
        if value and least:
            lines.append([*allowed, least])
        allowed += [bounds[name, value + 1]] if (name, value + 1) in bounds else []
    return lines


def clause_text(word: bytes, literals: list[int]) -> bytes:
    return b" ".join([word, *(b"%d" % literal for literal in literals), b"0"])


def with_claim(case: Case, claim: Claim, lines: Lines, bounds: dict[tuple[str, int], int]) -> Lines:
    """a log with the queries and the Refuted lines that the claim needs, at its end or behind its Bound lines"""
    found = list(lines)
    for literals in wanted(claim, bounds):
        query = clause_text(b"q", [-literal for literal in literals])
        more = [query, clause_text(b"r", literals)]
        kind = case.chance.randrange(4)
        if kind == 1 and literals:
            # a clause that makes the Refuted line follow at once
            more.insert(1, clause_text(b"l", case.chance.sample(literals, 1)))
        elif kind == 2:
            more.insert(1, clause_text(b"l", literals or [1]))
        at = len(found) if case.chance.random() < 0.7 else case.chance.randrange(1, len(found) + 1)
        found[at:at] = more
    return found


def without_some(case: Case, lines: Lines) -> Lines:
    """a log in which Formula or Bound lines are missing, exchanged, or say otherwise"""
    kind, at = case.chance.randrange(7), case.chance.randrange(1, len(lines))
    bound = [place for place, line in enumerate(lines) if line.startswith(b"b ")]
    if kind == 0:
        return lines[:at] + lines[at + case.chance.choice([1, 5, 50]):]
    if kind == 1 and bound:
        place = case.chance.choice(bound)
        fields = lines[place].split(b" ")
        fields[case.chance.choice([2, 3])] = b"%d" % case.chance.randrange(1, 60)
        return lines[:place] + [b" ".join(fields)] + lines[place + 1:]
    if kind == 2 and bound:
        one, other = case.chance.choice(bound), case.chance.choice(bound)
        return [lines[{one: other, other: one}.get(place, place)] for place in range(len(lines))]
    if kind == 3:
        return lines[:at] + [case.chance.choice([b"f 0", b"l 1 0", b"l -1 0", b"r 0", b"q 0", b"m"])] + lines[at:]
    if kind == 4:
        return [line for line in lines if not line.startswith(b"r ")]
    if kind == 5 and bound:
        place = case.chance.choice(bound)
        return lines[:place] + lines[place + 1:]
    return changed_log(case.chance, b"\n".join(lines) + b"\n").split(b"\n")[:-1] or lines


def forged_log(case: Case, claim: Claim, sources: list[Certificate]) -> bytes:
    source = case.chance.choice(sources)
    lines, bounds = source.log, bounds_of(source.log)
    for step in case.chance.choice(["c", "c", "cw", "wc", "cww", "ccw", "w"]):
        lines = with_claim(case, claim, lines, bounds) if step == "c" else without_some(case, lines)
        if len(lines) < 2:
            break
    return b"\n".join(lines) + b"\n"


def forged_hints(case: Case, claim: Claim, sources: list[Certificate]) -> bytes:
    """hints in which lines say what the claim needs, by the hints of other lines, or by the clause's own number"""
    source = case.chance.choice(sources)
    lines = list(source.hints) or [b"railplan-hints 1", b"caps 0 0 0 0"]
    bounds = bounds_of(source.log)
    clauses = sum(line.startswith(b"f ") for line in source.log)
    learnt = sum(line.startswith(b"l ") for line in lines)
    for literals in wanted(claim, bounds):
        told = [line.split(b" 0 ", 1)[1][:-2] for line in lines[2:] if b" 0 " in line] or [b"1"]
        hints = case.chance.choice([*told, b"1", b"%d" % (clauses + learnt + 1), b"%d" % case.chance.randrange(1, clauses + 2)])
        text = clause_text(b"r", literals) + b" " + hints + b" 0"
        if case.chance.random() < 0.4 and literals:
            more = clause_text(b"l", literals) + b" " + case.chance.choice(told) + b" 0"
            text = more + b"\n" + clause_text(b"r", literals) + b" %d 0" % (clauses + learnt + 1)
            learnt += 1
        at = len(lines) if case.chance.random() < 0.7 else case.chance.randrange(2, len(lines) + 1)
        lines[at:at] = text.split(b"\n")
    text = b"\n".join(lines) + b"\n"
    for _ in range(case.chance.choice([0, 0, 1, 1, 2])):
        text = changed_hints(case.chance, text) or b"\n"
    return text


def sheets_of(found: graph.Graph, certificates: list[Certificate]) -> list[drawing.Sheet]:
    read = [drawing.read_sheet(found, one.sheet) for one in certificates]
    return [sheet for sheet in read if sheet.drawing and not sheet.drawing.broken(sheet)]


def attempt(case: Case) -> None:
    text, found = station(case, 6)
    case.write("station", text)
    width, height = case.chance.choice(GRIDS)
    order = case.chance.sample(drawing.CRITERIA, case.chance.choice([1, 2, 4, 4]))
    best = certificate(case, width, height, order, "50000")
    own = drawing.read_sheet(found, best.sheet)
    if not own.drawing or own.drawing.broken(own) or own.ending != "best":
        case.count("no drawing, and so nothing to forge")
        return
    other_orders = [certificate(case, width, height, case.chance.sample(drawing.CRITERIA, 1), "50000") for _ in range(2)]
    cut = certificate(case, width, height, order, case.chance.choice(["1", "2", "5"]))
    elsewhere = [certificate(case, *case.chance.choice(GRIDS), order, "50000", case.chance.choice(["1", "2"]))]
    false = claims(own, sheets_of(found, [*other_orders, cut]))
    for number in range(FORGED):
        claim = case.chance.choice(false)
        case.write("sheet", claim.text)
        name = "hints" if number % 2 else "log"
        forge = forged_hints if number % 2 else forged_log
        case.write(name, forge(case, claim, [best, best, cut, *other_orders, *elsewhere]))
        answer = case.run("recheck" if number % 2 else "check", "station", "sheet", name)
        case.count(f"forged {name}: {answer.first_words(3 if answer.status == 1 else 2)}")
        if answer.status not in (1, 8) or answer.said:
            case.wrong(f"a forged certificate of `end {claim.sheet.ending}` ends with {answer.status} {answer.printed!r}")


if __name__ == "__main__":
    sys.exit(main(__doc__ or "", attempt, 60))

"""An exact judge of hinted lines: what `recheck` is to answer, by the sentences of docs/formats/hints.md.

It shares nothing with the program. The clauses that are expected of a station are taken from the log that `draw` wrote. For
other caps than that log's it can't tell them: then `Unknown` is raised, unless the text has a fault before a line is judged."""
from __future__ import annotations

import re
from dataclasses import dataclass
from functools import lru_cache
from typing import NoReturn

from opinion import drawing, log, reading

HEADER = b"railplan-hints 1\n"
FAULTS = ["", "Header", "Form", "Number", "Twice", "Range"]
LAST, LAST_CAP = 1_073_741_823, 65_535
Bounds = dict[tuple[str, int], int]
WHOLE, CAPS = re.compile(rb"-?[0-9]+"), re.compile(rb"caps(?: -?[0-9]+){4}")


class Unknown(Exception):
    """what is expected can't be told from the log that was written"""


@dataclass
class Hinted:
    """a hinted line"""
    is_learnt: bool
    literals: list[int]
    hints: list[int]


@dataclass
class Claims:
    """what a judged text shows: the Refuted clauses, and the Bound lines' variables"""
    refuted: list[set[int]]
    bounds: Bounds


def number_of(field: bytes, least: int) -> int | None:
    """a canonical number from `least` to the greatest, other than 0; nothing where the field is none"""
    if not re.fullmatch(rb"-?[1-9][0-9]*", field):
        return None
    number = int(field)
    return number if least <= number and abs(number) <= LAST else None


def numbers_of(fields: list[bytes], least: int) -> list[int] | None:
    """the numbers that fields are; nothing where one is none"""
    found = [number for number in (number_of(field, least) for field in fields) if number is not None]
    return found if len(found) == len(fields) else None


def line_of(text: bytes) -> Hinted | int:
    """the line that a text without its line feed is, or the number of its fault"""
    word, *fields = text.split(b" ")
    if word not in (b"l", b"r") or not all(map(WHOLE.fullmatch, fields)) or b"0" not in fields:
        return 2
    end = fields.index(b"0")
    literals, hints = fields[:end], fields[end + 1:]
    if len(hints) < 2 or hints[-1] != b"0" or (word == b"l" and not literals):
        return 2
    numbers = numbers_of(literals, -LAST)
    named = numbers_of(hints[:-1], 1)
    if numbers is None or named is None:
        return 3
    if len({abs(number) for number in numbers}) < len(numbers):
        return 4
    return Hinted(word == b"l", numbers, named)


def caps_of(text: bytes, greatest: list[int]) -> list[int] | int:
    """the caps that the second line tells, or the number of its fault; `greatest` has what each may be"""
    if not CAPS.fullmatch(text):
        return 2
    fields = text.split(b" ")[1:]
    if not all(re.fullmatch(rb"0|[1-9][0-9]*", field) and int(field) <= LAST_CAP for field in fields):
        return 3
    caps = [int(field) for field in fields]
    return 5 if any(cap > most for cap, most in zip(caps, greatest)) else caps


def is_good(clauses: list[tuple[int, ...]], line: Hinted) -> bool:
    """whether the hints show the clause"""
    true = {-literal for literal in line.literals}
    for place, hint in enumerate(line.hints, 1):
        if hint > len(clauses):
            return False
        left = [literal for literal in clauses[hint - 1] if -literal not in true]
        if len(left) != (0 if place == len(line.hints) else 1):
            return False
        true.update(left)
    return True


def refuse(fault: int, number: int) -> NoReturn:
    raise reading.Refused(b"hints %d %s line %d" % (fault, FAULTS[fault].encode(), number))


@lru_cache(maxsize=16)
def expected(written: log.Written, order: tuple[str, ...], caps: tuple[int, ...]) -> tuple[list[tuple[int, ...]], Bounds]:
    """the Formula lines that are expected for these caps, and the variables of the Bound lines"""
    lines, is_whole = written.expected(order, dict(zip(drawing.CRITERIA, caps)))
    if not is_whole:
        raise Unknown
    clauses = [what for word, what in lines if word == "f"]
    return clauses, {what[:2]: what[2] for word, what in lines if word == "b"}


def claims_of(text: bytes, sheet: drawing.Sheet, graph: object, written: log.Written) -> Claims:
    """what a text shows; refused at the first line with a fault, or that isn't good"""
    if not text.startswith(HEADER):
        refuse(1, 1)
    *lines, tail = text.split(b"\n")
    lines = lines[1:]
    if not lines:
        refuse(2, 2)
    greatest = [log.greatest(sheet, graph, name) if name in sheet.order else 0 for name in drawing.CRITERIA]
    caps = caps_of(lines[0], greatest)
    if isinstance(caps, int):
        refuse(caps, 2)
    of_station, bounds = expected(written, tuple(sheet.order), tuple(caps))
    clauses, claims = list(of_station), Claims([], bounds)
    for number, one in enumerate(lines[1:], 3):
        line = line_of(one)
        if isinstance(line, int):
            refuse(line, number)
        if not is_good(clauses, line):
            raise reading.Refused(b"check BadHint line %d" % number, 8)
        if line.is_learnt:
            clauses.append(tuple(line.literals))
        else:
            claims.refuted.append(set(line.literals))
    if tail:
        refuse(2, len(lines) + 2)
    return claims


def lacking(sheet: drawing.Sheet, claims: Claims) -> int | None:
    """the first place whose value isn't certified as least; nothing where all that is claimed are"""
    if not sheet.drawing:
        return 0 if sheet.ending == "none" and set() not in claims.refuted else None
    values = dict(zip(drawing.CRITERIA, sheet.drawing.values()))
    allowed: set[int | None] = set()
    for place, name in enumerate(sheet.order[:sheet.settled], 1):
        least = claims.bounds.get((name, values[name]))
        if values[name] and not any(clause <= allowed | {least} for clause in claims.refuted):
            return place
        allowed.add(claims.bounds.get((name, values[name] + 1)))
    return None


def recheck(graph: object, sheet_text: bytes, text: bytes, written: log.Written) -> tuple[int, bytes]:
    """the status and the line that `recheck` is to answer to a sheet and hints of a station without a fault"""
    try:
        sheet = drawing.read_sheet(graph, sheet_text)
        if sheet.drawing and sheet.drawing.broken(sheet):
            return drawing.verdict(sheet)
        place = lacking(sheet, claims_of(text, sheet, graph, written))
    except reading.Refused as why:
        return why.status, why.line + b"\n"
    return (0, b"certified %d\n" % sheet.settled) if place is None else (8, b"check Lacks place %d\n" % place)

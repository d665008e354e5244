#!/usr/bin/env python3
"""Makes of a Refuted line of a log a formula in DIMACS and a proof in DRAT, for any checker of proofs.

With LOG alone the Refuted lines are listed. LINE is the number of one, or `last`.

The formula has the log's Formula lines up to that line, and the negation of each literal of the line. The proof has the
Learnt lines up to it, in their order, then the Refuted line itself, and the empty clause. A checker that accepts the pair
has shown that one of the line's literals is true in each model of the Formula lines.

A negation is written as four clauses over two variables that the log doesn't have. Unit propagation gets nothing from them
until the Refuted line is shown. So a Learnt line that rests on the Formula lines and the Learnt lines before it is accepted,
and one that rests on a negation isn't. Three lines of the proof then make each negation of the four clauses.

Refused is a line that isn't of its form; a Learnt, Query or Refuted line with a variable greater than all in the Formula
lines before it; and a Refuted line with a literal whose negation the latest Query line doesn't assume. That the Formula and
Bound lines are those of a station's file only `check` sees. With `--like OTHER` they are compared with those of another log
of this station, and others are refused."""
import argparse
import re
import sys
from collections.abc import Iterator
from dataclasses import dataclass
from itertools import zip_longest
from pathlib import Path

HEADER = "railplan-log 1\n"
CRITERIA = ("height", "bends", "diagonal", "width")
LAST_VARIABLE, LAST_BOUND = 1_073_741_823, 65_535
FORM = re.compile(r"(?:(?P<clause>[fqr])(?: -?[0-9]+)*|(?P<learnt>l)(?: -?[0-9]+)+) 0\n|(?P<model>m)\n|"
                  rf"(?P<bound>b) (?:{'|'.join(CRITERIA)}) -?[0-9]+ -?[0-9]+\n", re.ASCII)
NUMBER = re.compile(r"-?[1-9][0-9]*", re.ASCII)


class Refused(Exception):
    """why a log is refused"""


@dataclass
class Line:
    """a line of a log: its number, its word, the criterion and the bound that a Bound line tells, and its literals"""
    number: int
    word: str
    told: tuple[str, ...]
    literals: tuple[int, ...]


@dataclass
class Refuted:
    """a Refuted line, and how many Learnt lines stand before it"""
    line: Line
    learnt: int


def in_range(field: str, greatest: int) -> bool:
    return bool(NUMBER.fullmatch(field)) and abs(int(field)) <= greatest


def line_of(number: int, text: str) -> Line:
    """the line that a text is"""
    form = FORM.fullmatch(text)
    if not form:
        raise Refused(f"line {number} isn't of its form")
    word, *fields = text.split()
    told: tuple[str, ...] = ()
    if form["bound"]:
        told, fields = tuple(fields[:2]), fields[2:]
        if not in_range(told[1], LAST_BOUND) or told[1].startswith("-") or fields[0].startswith("-"):
            raise Refused(f"line {number} has a number out of range")
    elif word != "m":
        fields = fields[:-1]
    if not all(in_range(field, LAST_VARIABLE) for field in fields):
        raise Refused(f"line {number} has a number that isn't canonical or is out of range")
    literals = tuple(int(field) for field in fields)
    if len({abs(literal) for literal in literals}) < len(literals):
        raise Refused(f"line {number} has a variable twice")
    return Line(number, word, told, literals)


def lines_of(path: Path) -> Iterator[Line]:
    """the lines behind the first, in the order of the log; refused where one isn't of its form"""
    with path.open(encoding="latin-1", newline="\n") as log:
        if log.readline() != HEADER:
            raise Refused("line 1 isn't the first line of a log")
        for number, text in enumerate(log, 2):
            yield line_of(number, text)


def judged(path: Path) -> Iterator[Line]:
    """the lines, refused where one breaks a rule that needs no proof: of its variables or of the latest Query line"""
    greatest, assumed = 0, None
    for line in lines_of(path):
        if line.word == "f":
            greatest = max([greatest, *(abs(it) for it in line.literals)])
        elif any(abs(literal) > greatest for literal in line.literals):
            raise Refused(f"line {line.number} has a variable greater than all in the Formula lines before it")
        if line.word == "q":
            assumed = set(line.literals)
        if line.word == "r" and (assumed is None or any(-literal not in assumed for literal in line.literals)):
            raise Refused(f"line {line.number} has a literal whose negation the latest Query line doesn't assume")
        yield line


def expected_of(path: Path) -> Iterator[Line]:
    """the lines that a station, a grid and an order have: the Formula and the Bound lines"""
    return (line for line in lines_of(path) if line.word in "fb")


def compare(path: Path, other: Path) -> None:
    """refused where a Formula or Bound line of one log isn't that of the other"""
    for mine, its in zip_longest(expected_of(path), expected_of(other)):
        if mine is None:
            return
        if its is None or (mine.word, mine.told, mine.literals) != (its.word, its.told, its.literals):
            raise Refused(f"line {mine.number} isn't the one of {other}")


def refuted_lines(path: Path) -> Iterator[Refuted]:
    learnt = 0
    for line in judged(path):
        learnt += line.word == "l"
        if line.word == "r":
            yield Refuted(line, learnt)


def text_of(literals: tuple[int, ...]) -> str:
    return "".join(f"{literal} " for literal in literals) + "0\n"


def negation(literal: int, one: int, two: int) -> list[tuple[int, ...]]:
    """four clauses that have the models of the negation, and from which no unit follows until the literal is false"""
    return [(-literal, one, two), (-literal, one, -two), (-literal, -one, two), (-literal, -one, -two)]


def write_formula(path: Path, wanted: Line, to: Path) -> int:
    """writes the formula of a Refuted line; the first of the two variables that the log doesn't have"""
    clauses, greatest = [], 0
    for line in lines_of(path):
        if line.number == wanted.number:
            break
        if line.word == "f":
            clauses.append(line.literals)
            greatest = max([greatest, *(abs(it) for it in line.literals)])
    further = greatest + 1
    for literal in wanted.literals:
        clauses += negation(literal, further, further + 1)
    with to.open("w", encoding="ascii") as formula:
        formula.write(f"p cnf {greatest + 2 * bool(wanted.literals)} {len(clauses)}\n")
        formula.writelines(map(text_of, clauses))
    return further


def write_proof(path: Path, wanted: Line, further: int, to: Path) -> None:
    with to.open("w", encoding="ascii") as proof:
        for line in lines_of(path):
            if line.number == wanted.number:
                break
            if line.word == "l":
                proof.write(text_of(line.literals))
        if wanted.literals:
            proof.write(text_of(wanted.literals))
        for literal in wanted.literals:
            proof.writelines(map(text_of, [(-literal, further), (-literal, -further), (-literal,)]))
        proof.write(text_of(()))


def pick(found: list[Refuted], wanted: str) -> Line:
    """the Refuted line with this number"""
    if not found:
        raise Refused("there is no Refuted line")
    for one in found[-1:] if wanted == "last" else found:
        if wanted in ("last", str(one.line.number)):
            return one.line
    raise Refused(f"line {wanted} isn't a Refuted line; {sys.argv[0]} LOG lists them")


def run(words: argparse.Namespace) -> None:
    found = list(refuted_lines(words.log))
    if words.like:
        compare(words.log, words.like)
    if words.line is None:
        for one in found:
            said = " or ".join(map(str, one.line.literals)) or "no drawing"
            print(f"line {one.line.number}: refuted after {one.learnt} learnt lines, {said}")
        return
    wanted = pick(found, words.line)
    further = write_formula(words.log, wanted, words.formula)
    write_proof(words.log, wanted, further, words.proof)


def main() -> None:
    parser = argparse.ArgumentParser(description=__doc__, formatter_class=argparse.RawDescriptionHelpFormatter)
    parser.add_argument("log", type=Path, metavar="LOG")
    parser.add_argument("line", nargs="?", metavar="LINE")
    parser.add_argument("formula", nargs="?", type=Path, metavar="FORMULA")
    parser.add_argument("proof", nargs="?", type=Path, metavar="PROOF")
    parser.add_argument("--like", type=Path, metavar="OTHER")
    words = parser.parse_args()
    if words.line is not None and words.proof is None:
        parser.error("behind LINE come FORMULA and PROOF")
    try:
        run(words)
    except Refused as why:
        sys.exit(f"{words.log}: {why}")
    except OSError as why:
        sys.exit(f"{why.filename}: {why.strerror}")


if __name__ == "__main__":
    main()

#!/usr/bin/env python3
"""Makes of a Refuted line of a hinted log a formula in DIMACS and a proof in LRAT, for any checker of proofs.

With HINTS alone the Refuted lines are listed. LOG is the log that the hints were made of, and LINE the number of a Refuted
line, or `last`. The formula has the log's Formula lines, and the negation of each literal of the Refuted line as a clause
of its own. The proof has the Learnt lines up to the Refuted line, each with its hints, and then the empty clause, whose
hints are these clauses of one literal and the hints of the Refuted line. A hint names the clauses from 1 on, those of the
formula first; so a learnt clause has a higher number here, by the negations before it.

A checker that accepts the pair has shown that one of the line's literals is true in each model of the Formula lines.
Refused are hints with a line that isn't of its form, and hints whose caps aren't the numbers of the log's Bound lines. That
the Formula lines are those of a station's file it can't see: `recheck` sees that."""
import argparse
import re
import sys
from collections import Counter
from collections.abc import Iterator
from dataclasses import dataclass
from pathlib import Path

HEADER, LOG_HEADER = "railplan-hints 1\n", "railplan-log 1\n"
CRITERIA = ("height", "bends", "diagonal", "width")
LAST_NUMBER, LAST_CAP = 1_073_741_823, 65_535
CAPS = re.compile(r"caps [0-9]+ [0-9]+ [0-9]+ [0-9]+\n", re.ASCII)
# the first field 0 ends the literals
FORM = re.compile(r"[lr](?P<literals>(?: (?!0[ \n])-?[0-9]+)*) 0(?P<hints>(?: -?[0-9]+)+) 0\n", re.ASCII)
NUMBER = re.compile(r"-?[1-9][0-9]*", re.ASCII)


class Refused(Exception):
    """why hints or a log are refused"""


@dataclass
class Line:
    """a line of a hinted log: its number, whether it is a Refuted line, its literals, and its hints"""
    number: int
    is_refuted: bool
    literals: list[int]
    hints: list[int]


def lines_of(path: Path, header: str) -> Iterator[tuple[int, str]]:
    """the number and the text of each line behind the first"""
    with path.open(encoding="latin-1", newline="\n") as text:
        if text.readline() != header:
            raise Refused(f"{path}: line 1 isn't `{header.strip()}`")
        yield from enumerate(text, 2)


def numbers_of(number: int, fields: list[str]) -> list[int]:
    if not all(NUMBER.fullmatch(field) and abs(int(field)) <= LAST_NUMBER for field in fields):
        raise Refused(f"line {number} has a number that isn't canonical or is out of range")
    return [int(field) for field in fields]


def line_of(number: int, text: str) -> Line:
    """the line that a text is"""
    form = FORM.fullmatch(text)
    if not form or (text[0] == "l" and not form["literals"]):
        raise Refused(f"line {number} isn't of its form")
    literals, hints = (numbers_of(number, form[part].split()) for part in ("literals", "hints"))
    if min(hints) < 0:
        raise Refused(f"line {number} has a number that is negative")
    if len({abs(literal) for literal in literals}) < len(literals):
        raise Refused(f"line {number} has a variable twice")
    return Line(number, text[0] == "r", literals, hints)


def hints_in(path: Path) -> Iterator[Line]:
    """the lines behind the caps"""
    return (line_of(number, text) for number, text in lines_of(path, HEADER) if number > 2)


def caps_of(path: Path) -> list[int]:
    """how many Bound lines there are of each criterion, as the second line says"""
    text = next((text for _, text in lines_of(path, HEADER)), "")
    fields = text.split()[1:]
    if not CAPS.fullmatch(text):
        raise Refused("line 2 isn't of its form")
    if any(str(int(field)) != field or int(field) > LAST_CAP for field in fields):
        raise Refused("line 2 has a number that isn't canonical or is out of range")
    return [int(field) for field in fields]


def formula_of(path: Path, caps: list[int]) -> list[list[int]]:
    """the clauses that a log's Formula lines tell; refused where it has other caps"""
    bounds: Counter[str] = Counter()
    clauses = []
    for number, text in lines_of(path, LOG_HEADER):
        word, *fields = text.split() or [""]
        if word == "b" and fields:
            bounds[fields[0]] += 1
        elif word == "f":
            clauses.append(numbers_of(number, fields[:-1]))
    if [bounds[criterion] for criterion in CRITERIA] != caps:
        raise Refused(f"line 2 has other caps than {path}")
    return clauses


def text_of(numbers: list[int]) -> str:
    return "".join(f"{number} " for number in numbers) + "0\n"


def write_formula(clauses: list[list[int]], path: Path) -> None:
    greatest = max((abs(literal) for clause in clauses for literal in clause), default=0)
    with path.open("w", encoding="ascii") as formula:
        formula.write(f"p cnf {greatest} {len(clauses)}\n")
        formula.writelines(map(text_of, clauses))


def write_proof(lines: list[Line], wanted: Line, count: int, path: Path) -> None:
    """a proof of the Refuted line, over so many clauses and the negations of its literals behind them"""
    negations = len(wanted.literals)
    last = count + negations
    with path.open("w", encoding="ascii") as proof:
        for line in lines:
            literals, hints = line.literals, [hint if hint <= count else hint + negations for hint in line.hints]
            if line is wanted:
                literals, hints = [], [*range(count + 1, count + negations + 1), *hints]
            elif line.is_refuted:
                continue
            last += 1
            proof.write(f"{last} {text_of(literals).strip()} {text_of(hints)}")
            if line is wanted:
                return


def listed(lines: list[Line]) -> Iterator[str]:
    learnt = 0
    for line in lines:
        learnt += not line.is_refuted
        if line.is_refuted:
            said = " or ".join(map(str, line.literals)) or "no drawing"
            yield f"line {line.number}: refuted after {learnt} learnt lines, {said}"


def pick(lines: list[Line], wanted: str) -> Line:
    """the Refuted line with this number"""
    found = [line for line in lines if line.is_refuted]
    if not found:
        raise Refused("there is no Refuted line")
    for line in found[-1:] if wanted == "last" else found:
        if wanted in ("last", str(line.number)):
            return line
    raise Refused(f"line {wanted} isn't a Refuted line; {sys.argv[0]} HINTS lists them")


def run(words: argparse.Namespace) -> None:
    caps, lines = caps_of(words.hints), list(hints_in(words.hints))
    if words.log is None:
        print("\n".join(listed(lines)))
        return
    wanted = pick(lines, words.line)
    clauses = formula_of(words.log, caps)
    write_formula(clauses + [[-literal] for literal in wanted.literals], words.formula)
    write_proof(lines, wanted, len(clauses), words.proof)


def main() -> None:
    parser = argparse.ArgumentParser(description=__doc__, formatter_class=argparse.RawDescriptionHelpFormatter)
    parser.add_argument("hints", type=Path, metavar="HINTS")
    parser.add_argument("log", nargs="?", type=Path, metavar="LOG")
    parser.add_argument("line", nargs="?", metavar="LINE")
    parser.add_argument("formula", nargs="?", type=Path, metavar="FORMULA")
    parser.add_argument("proof", nargs="?", type=Path, metavar="PROOF")
    words = parser.parse_args()
    if words.log is not None and words.proof is None:
        parser.error("behind LOG come LINE, FORMULA and PROOF")
    try:
        run(words)
    except Refused as why:
        sys.exit(f"{words.hints}: {why}")
    except OSError as why:
        sys.exit(f"{why.filename}: {why.strerror}")


if __name__ == "__main__":
    main()

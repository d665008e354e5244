#!/usr/bin/env python3
"""Goes through a proof in LRAT from its first line on, and says whether it refutes the formula.

The clauses that a line names have all literals false but one, which becomes true; the last one has all false. The empty
clause is to be among the lines. A line without such hints is refused, also one that is RAT. This is small, for machines
without a checker of LRAT, and shares nothing with the program."""
import argparse
import sys
from pathlib import Path


class Refused(Exception):
    """why a text is refused, or a proof isn't accepted"""


def numbers(line: str) -> list[int]:
    try:
        return [int(field) for field in line.split()]
    except ValueError as why:
        raise Refused(f"not a line of numbers: {line.strip()}") from why


def formula_in(path: Path) -> dict[int, list[int]]:
    """the clauses, by their numbers from 1"""
    clauses: dict[int, list[int]] = {}
    with path.open(encoding="latin-1") as formula:
        for line in formula:
            if line.startswith(("c", "p")):
                continue
            fields = numbers(line)
            if not fields or fields[-1] != 0 or 0 in fields[:-1]:
                raise Refused(f"not a clause: {line.strip()}")
            clauses[len(clauses) + 1] = fields[:-1]
    return clauses


def parts_of(line: str) -> tuple[int, list[int], list[int]]:
    """a line's number, literals and hints"""
    fields = numbers(line)
    if len(fields) < 3 or fields[-1] != 0 or fields[1:].count(0) != 2:
        raise Refused(f"not a line of a proof: {line.strip()}")
    end = fields.index(0, 1)
    return fields[0], fields[1:end], fields[end + 1:-1]


def why_refused(clauses: dict[int, list[int]], literals: list[int], hints: list[int]) -> str:
    """why the hints don't show the clause; nothing where they do"""
    true = {-literal for literal in literals}
    for place, hint in enumerate(hints, 1):
        if hint not in clauses:
            return f"hint {hint} is no clause before it"
        left = {literal for literal in clauses[hint] if -literal not in true}
        if not left:
            return "" if place == len(hints) else f"a hint is behind {hint}, whose literals are all false"
        if len(left) > 1:
            return f"hint {hint} has more than one literal that isn't false"
        true |= left
    return "no hint has all literals false"


def judge(formula: Path, proof: Path) -> None:
    """refused where the proof doesn't refute the formula"""
    clauses = formula_in(formula)
    last, has_empty = len(clauses), False
    with proof.open(encoding="latin-1") as lines:
        for line in lines:
            if line.startswith("c"):
                continue
            if line.split()[1:2] == ["d"]:
                for number in numbers(line.replace(" d ", " ", 1))[1:-1]:
                    clauses.pop(number, None)
                continue
            number, literals, hints = parts_of(line)
            why = "its number isn't above those before it" if number <= last else why_refused(clauses, literals, hints)
            if why:
                raise Refused(f"line {number}: {why}")
            clauses[number], last, has_empty = literals, number, has_empty or not literals
    if not has_empty:
        raise Refused("there is no empty clause")


def main() -> int:
    parser = argparse.ArgumentParser(description=__doc__, formatter_class=argparse.RawDescriptionHelpFormatter)
    parser.add_argument("formula", type=Path, metavar="FORMULA")
    parser.add_argument("proof", type=Path, metavar="PROOF")
    words = parser.parse_args()
    try:
        judge(words.formula, words.proof)
    except Refused as why:
        print(f"not accepted: {why}")
        return 1
    except OSError as why:
        print(f"{why.filename}: {why.strerror}", file=sys.stderr)
        return 2
    print("accepted")
    return 0


if __name__ == "__main__":
    sys.exit(main())

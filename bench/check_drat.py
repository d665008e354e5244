#!/usr/bin/env python3
"""Goes through a proof in DRAT from its first line on, and says whether it refutes the formula.

Each clause is to follow by unit propagation from the formula and the clauses before it (RUP), and the empty clause is to
be among them. A clause that is RAT alone is refused, and lines that delete a clause are passed over. With `--new N` each
of the first N clauses is also to say something new, as `check` asks of a Learnt line: where its other literals are false,
unit propagation doesn't make its first literal true, and falsifies no clause. This is slow and small, for machines without
a checker of DRAT, and shares nothing with the program."""
import argparse
import sys
from collections.abc import Iterator
from pathlib import Path


class Refused(Exception):
    """why a text is refused, or a proof isn't accepted"""


class Propagation:
    """clauses with two watches each, and the literals that follow from units"""

    def __init__(self) -> None:
        self.watches: dict[int, list[list[int]]] = {}
        self.true: set[int] = set()
        self.refuted = False

    def add(self, literals: list[int]) -> None:
        """keeps a clause, and propagates for good where it is a unit"""
        clause = list(dict.fromkeys(literals))
        free = [literal for literal in clause if -literal not in self.true]
        if not any(literal in self.true for literal in clause):
            if not free:
                self.refuted = True
                return
            if len(free) == 1:
                self.refuted = self.propagate([free[0]], []) or self.refuted
                return
        if len(clause) < 2:
            return
        # true and free literals are watched before those that are false
        clause.sort(key=lambda literal: -literal in self.true)
        for literal in clause[:2]:
            self.watches.setdefault(literal, []).append(clause)

    def propagate(self, first: list[int], undo: list[int]) -> bool:
        """whether a clause becomes false; what was set is listed in undo"""
        queue = list(first)
        while queue:
            literal = queue.pop()
            if literal in self.true:
                continue
            if -literal in self.true:
                return True
            self.true.add(literal)
            undo.append(literal)
            if self.visit(-literal, queue):
                return True
        return False

    def visit(self, false: int, queue: list[int]) -> bool:
        """moves the watches of a literal that became false; whether a clause became false. Units join the queue"""
        watched, kept = self.watches.get(false, []), []
        for place, clause in enumerate(watched):
            if clause[0] == false:
                clause[0], clause[1] = clause[1], clause[0]
            if clause[0] not in self.true and self.moves(clause):
                continue
            kept.append(clause)
            if clause[0] in self.true:
                continue
            if -clause[0] in self.true:
                self.watches[false] = kept + watched[place + 1:]
                return True
            queue.append(clause[0])
        self.watches[false] = kept
        return False

    def moves(self, clause: list[int]) -> bool:
        """whether the clause has another literal to watch in place of its second"""
        for k in range(2, len(clause)):
            if -clause[k] not in self.true:
                clause[1], clause[k] = clause[k], clause[1]
                self.watches.setdefault(clause[1], []).append(clause)
                return True
        return False

    def follows(self, literals: list[int]) -> bool:
        undo: list[int] = []
        found = self.refuted or self.propagate([-literal for literal in literals], undo)
        self.true.difference_update(undo)
        return found

    def is_new(self, literals: list[int]) -> bool:
        """whether the first literal is neither true nor refuted already where the others are false"""
        undo: list[int] = []
        conflict = self.refuted or self.propagate([-literal for literal in literals[1:]], undo)
        known = conflict or literals[0] in self.true
        self.true.difference_update(undo)
        return not known


def clause_of(line: str) -> list[int]:
    try:
        fields = [int(field) for field in line.split()]
    except ValueError:
        fields = []
    if not fields or fields[-1] != 0 or 0 in fields[:-1]:
        raise Refused(f"not a clause: {line.strip()}")
    return fields[:-1]


def clauses_in(path: Path, passed: tuple[str, ...]) -> Iterator[tuple[int, list[int]]]:
    """the number and the clause of each line that doesn't begin with one of these"""
    with path.open(encoding="latin-1") as lines:
        for number, line in enumerate(lines, 1):
            if not line.startswith(passed):
                yield number, clause_of(line)


def judge(formula: Path, proof: Path, new: int) -> None:
    """refused where the proof doesn't refute the formula"""
    known, has_empty = Propagation(), False
    for _, literals in clauses_in(formula, ("c", "p")):
        known.add(literals)
    for place, (number, literals) in enumerate(clauses_in(proof, ("c", "d")), 1):
        if not known.follows(literals):
            raise Refused(f"line {number} doesn't follow by unit propagation")
        if place <= new and (not literals or not known.is_new(literals)):
            raise Refused(f"line {number} says nothing new")
        has_empty = has_empty or not literals
        known.add(literals)
    if not has_empty:
        raise Refused("there is no empty clause")


def main() -> int:
    parser = argparse.ArgumentParser(description=__doc__, formatter_class=argparse.RawDescriptionHelpFormatter)
    parser.add_argument("formula", type=Path, metavar="FORMULA")
    parser.add_argument("proof", type=Path, metavar="PROOF")
    parser.add_argument("--new", type=int, default=0, metavar="N")
    words = parser.parse_args()
    try:
        judge(words.formula, words.proof, words.new)
    except Refused as why:
        print(f"not accepted: {why}")
        return 1
    except OSError as why:
        print(f"{why.filename}: {why.strerror}", file=sys.stderr)
        return 2
    print("accepted")
    return 0


if __name__ == "__main__":
    sys.exit(main())

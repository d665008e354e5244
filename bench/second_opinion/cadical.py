"""A solver to ask: cadical, through `bench/programs/models.cc`. It needs Debian's packages g++ and libcadical-dev."""
from __future__ import annotations

import subprocess
import sys
from pathlib import Path
from types import TracebackType
from typing import Iterable

MODELS = Path(__file__).resolve().parent.parent / "programs" / "models.cc"


class GivenUp(Exception):
    """a question had more conflicts than are allowed"""


def built(folder: Path) -> Path:
    """the program that asks cadical, compiled into a folder"""
    subprocess.run(["g++", "-O2", "-o", folder / "models", MODELS, "-lcadical"], check=True)
    return folder / "models"


class Cadical:
    """Clauses, and which of their models agree with what is assumed. A literal is a number, negated by its sign, or a truth."""

    def __init__(self, program: Path, conflicts: int = -1) -> None:
        self.last, self.shown = 0, [0]
        self.child = subprocess.Popen([program], stdin=subprocess.PIPE, stdout=subprocess.PIPE, text=True)
        self.lines = [f"l {conflicts}"]

    def __enter__(self) -> Cadical:
        return self

    def __exit__(self, kind: type[BaseException] | None, value: BaseException | None, trace: TracebackType | None) -> None:
        assert self.child.stdin and self.child.stdout
        self.child.kill()
        self.child.stdout.close()
        try:
            self.child.stdin.close()
        except BrokenPipeError:
            pass
        self.child.wait()

    def new(self) -> int:
        self.last += 1
        return self.last

    def either(self, *literals: int) -> None:
        """adds a clause"""
        if not any(it is True for it in literals):
            self.lines.append("c " + "".join(f"{it} " for it in literals if it is not False) + "0")

    def same(self, one: int, other: int, *where: int) -> None:
        """where all of these are true, the two literals are equal"""
        front = [no(it) for it in where]
        self.either(*front, no(one), other)
        self.either(*front, one, no(other))

    def one_of(self, literals: list[int], where: int = True) -> None:
        """exactly one is true, and none where the condition isn't"""
        self.either(no(where), *literals)
        for at, one in enumerate(literals):
            self.either(no(one), where)
            for other in literals[at + 1:]:
                self.either(no(one), no(other))

    def show(self, variables: Iterable[int]) -> None:
        """of these variables a model says the values"""
        self.shown = list(variables)
        self.lines.append("p " + "".join(f"{it} " for it in self.shown) + "0")

    def ask(self, assumed: Iterable[int]) -> set[int] | None:
        """those of the shown variables that are true in a model in which all this is; nothing where there is none"""
        assumed = list(assumed)
        if any(it is False for it in assumed):
            return None
        assert self.child.stdin and self.child.stdout
        self.lines.append("q " + "".join(f"{it} " for it in assumed if it is not True) + "0\n")
        self.child.stdin.write("\n".join(self.lines))
        self.child.stdin.flush()
        self.lines = []
        for line in self.child.stdout:
            # cadical says itself where a clause is falsified from the start
            if not line.startswith("c "):
                break
        else:
            sys.exit("cadical ended without an answer")
        if line == "unknown\n":
            raise GivenUp
        return None if line == "none\n" else {variable for variable, bit in zip(self.shown, line) if bit == "1"}


def no(literal: int) -> int:
    """the negation"""
    return not literal if isinstance(literal, bool) else -literal

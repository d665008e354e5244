#!/usr/bin/env python3
"""Gives each query of a search to minisat too (Debian's minisat), as the Formula lines before it with what it assumes. A search keeps
what it has learnt from one query to the next, and minisat begins each anew: so the sums compare what draw does with what another
solver would have to do, and not two solvers. The last column is minisat's time over that of draw."""
from __future__ import annotations

import re
import shutil
import subprocess
import sys
import tempfile
from dataclasses import dataclass
from pathlib import Path
from typing import Iterator

from made_stations import scissors, yard
from measuring import TOP, Table, read_words, reader_of_words, run

HEAD = ["station", "queries", "learnt lines", "minisat's conflicts", "draw, s", "minisat, s", "ratio"]


@dataclass
class Query:
    """The clauses before a query, what it assumes, the lines that were learnt, and how it ended."""
    clauses: list[str]
    assumed: list[str]
    learnt: int = 0
    answer: str = "-"


def queries(log: Path) -> Iterator[Query]:
    clauses: list[str] = []
    asked: Query | None = None
    for line in log.read_text(encoding="ascii").splitlines()[1:]:
        letter, rest = line[0], line[2:]
        if letter == "f":
            clauses.append(rest + "\n")
        elif letter == "q":
            if asked:
                yield asked
            asked = Query(clauses, rest.split()[:-1])
        elif letter == "l" and asked:
            asked.learnt += 1
        elif letter in "rm" and asked:
            asked.answer = "refuted" if letter == "r" else "model"
            yield asked
            asked = None
    if asked:
        yield asked


def number(word: str, said: str) -> float:
    found = re.search(rf"^{word}\s*:\s*([\d.]+)", said, re.M)
    return float(found[1]) if found else 0.0


def minisat(query: Query, path: Path) -> tuple[str, int, float]:
    """the answer, the conflicts and the seconds"""
    clauses = query.clauses + [f"{literal} 0\n" for literal in query.assumed]
    greatest = max(abs(int(literal)) for clause in clauses for literal in clause.split())
    path.write_text(f"p cnf {greatest} {len(clauses)}\n" + "".join(clauses), encoding="ascii")
    said = subprocess.run(["minisat", path], capture_output=True, text=True, check=False).stdout
    answer = "refuted" if "UNSATISFIABLE" in said else "model" if "SATISFIABLE" in said else "?"
    return answer, int(number("conflicts", said)), number("CPU time", said)


def row(program: Path, text: str, options: list[str], folder: Path) -> list[object]:
    file, log = folder / "station.xml", folder / "log"
    file.write_text(text, encoding="utf-8")
    drawn = run([program, "draw", file, *options, "--log", log])
    count = learnt = conflicts = 0
    seconds = 0.0
    for query in queries(log):
        answer, met, took = minisat(query, folder / "cnf")
        if query.answer not in ("-", answer):
            sys.exit(f"minisat answers otherwise: query {count + 1}")
        count, learnt, conflicts, seconds = count + 1, learnt + query.learnt, conflicts + met, seconds + took
    return [count, learnt, conflicts, drawn.seconds, seconds, f"{seconds / max(drawn.seconds, 0.01):.0f}"]


def main() -> None:
    words = read_words(reader_of_words(__doc__))
    if not shutil.which("minisat"):
        sys.exit("bench/search.py: minisat is needed")
    table = Table("search", HEAD, words.program)
    made = run([words.program, "make", "20"]).text
    with tempfile.TemporaryDirectory() as folder:
        stations: list[tuple[str, str, list[str]]] = [
            ("examples/station.xml", (TOP / "examples/station.xml").read_text(encoding="utf-8"), []), ("make 20", made, []),
            ("scissors 2", scissors(2).text(), []), ("yard 4, 64 by 8", yard(4).text(), ["--width", "64", "--height", "8"])]
        for name, text, options in stations:
            table.add(name, *row(words.program, text, options, Path(folder)))
    table.end(words.write)


if __name__ == "__main__":
    main()

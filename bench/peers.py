#!/usr/bin/env python3
"""Draws thirty stations on a grid of 64 by 12, and lets minisat, cadical and clasp look for the same least values.

For each station `draw` writes a log. The clauses of its Formula lines go to a program over minisat's library, and to one over
cadical's, which ask for less and less of each criterion as `draw` does. clasp gets them as a file, with one sum to be made least
in which a criterion outweighs all behind it, and searches as it likes. All run one after the other. A row has of each the
questions, the conflicts (of `draw` the learnt lines) and processor seconds: of `draw` all of it, with reading and making the
clauses, without a log; of minisat and cadical giving the clauses and the questions, without reading; of clasp all of it. The
others have less to do: they get clauses that are made, and bounds up to the values of the first drawing of `draw`.

Least values that differ from those of the sheet end the bench. It needs g++ and Debian's packages minisat, libcadical-dev and
clasp; one that isn't there is left out."""
from __future__ import annotations

import re
import shutil
import subprocess
import sys
import tempfile
from dataclasses import dataclass
from pathlib import Path

from made_stations import EVERYDAY, LARGER, named
from measuring import TOP, Table, lines_of, read_words, reader_of_words, run

SOURCE = TOP / "bench" / "programs" / "least_values.cc"
CRITERIA = ("height", "bends", "diagonal", "width")
PEERS = {"minisat": ["-DMINISAT", "-w", "-fpermissive", "-D__STDC_LIMIT_MACROS", "-D__STDC_FORMAT_MACROS"],
         "cadical": ["-DCADICAL"]}
GRID = ["--width", "64", "--height", "12"]


@dataclass
class Found:
    """What one program found: the least values, none where there is no drawing, and what that took."""
    values: dict[str, int] | None
    questions: int
    conflicts: int
    seconds: float


def built(folder: Path) -> dict[str, Path]:
    """the programs over those libraries that are there"""
    programs = {}
    for name, flags in PEERS.items():
        program = folder / name
        done = subprocess.run(["g++", "-O3", *flags, "-o", program, SOURCE, f"-l{name}"], capture_output=True, text=True, check=False)
        if done.returncode == 0:
            programs[name] = program
        else:
            print(f"bench/peers.py: {name} is left out: {done.stderr.strip().partition(chr(10))[0]}", file=sys.stderr)
    if clasp := shutil.which("clasp"):
        programs["clasp"] = Path(clasp)
    else:
        print("bench/peers.py: clasp is left out: it isn't installed", file=sys.stderr)
    return programs


def drawn(program: Path, file: Path, log: Path) -> Found:
    """what `draw` finds: with a log for its counts, and without one for its seconds"""
    log.unlink(missing_ok=True)
    run([program, "draw", file, *GRID, "--log", log])
    alone = run([program, "draw", file, *GRID])
    values = alone.first("values ", "").split()
    return Found(dict(zip(CRITERIA, map(int, values))) if values else None, lines_of(log, "q"), lines_of(log, "l"), alone.seconds)


def asked(program: Path, log: Path) -> Found:
    """what a program over another library finds in the clauses of a log"""
    *pairs, questions, conflicts, milliseconds = run([program, log]).text.split()
    values = None if pairs == ["none"] else dict.fromkeys(CRITERIA, 0) | dict(zip(pairs[::2], map(int, pairs[1::2])))
    return Found(values, int(questions), int(conflicts), int(milliseconds) / 1000)


def sum_of(log: Path) -> tuple[str, list[tuple[str, int, int]]]:
    """the clauses of a log as a file of sums, and each criterion with its weight and its greatest value"""
    clauses, greatest = [], 0
    bounds: dict[str, list[int]] = {}
    with log.open(encoding="utf-8") as lines:
        for line in lines:
            letter, *fields = line.split()
            if letter == "f":
                clauses.append(" ".join(f"+1 {'~' * (field[0] == '-')}x{field.lstrip('-')}" for field in fields[:-1]) + " >= 1;")
                greatest = max(greatest, *(abs(int(field)) for field in fields[:-1]))
            elif letter == "b":
                bounds.setdefault(fields[0], []).append(int(fields[2]))
    weight, weights = 1, []
    for criterion, variables in reversed(bounds.items()):
        weights.append((criterion, weight, len(variables)))
        weight *= len(variables) + 1
    least = " ".join(f"+{weight} x{variable}" for criterion, weight, _ in weights for variable in bounds[criterion])
    head = f"* #variable= {greatest} #constraint= {len(clauses)}\nmin: {least};\n"
    return head + "\n".join(clauses) + "\n", weights[::-1]


def asked_of_clasp(clasp: Path, log: Path) -> Found:
    """what clasp finds in the clauses of a log"""
    file = log.with_suffix(".opb")
    text, weights = sum_of(log)
    file.write_text(text, encoding="utf-8")
    ran = run([clasp, "--quiet=2,2", "--stats=1", file])
    number = {word: int(found.group(1)) for word in ("Optimization", "Models", "Conflicts")
              if (found := re.search(rf"^c {word}\s*:\s*(\d+)", ran.text, re.MULTILINE))}
    values = dict.fromkeys(CRITERIA, 0)
    rest = number["Optimization"]
    for criterion, weight, _ in weights:
        values[criterion], rest = divmod(rest, weight)
    return Found(values, number["Models"], number["Conflicts"], ran.seconds)


def found_of(program: Path, peers: dict[str, Path], text: str, folder: Path) -> list[Found]:
    """what each program finds for one station"""
    file, log = folder / "station.xml", folder / "log"
    file.write_text(text, encoding="utf-8")
    found = [drawn(program, file, log)]
    for name, peer in peers.items():
        found.append(asked_of_clasp(peer, log) if name == "clasp" else asked(peer, log))
        if found[-1].values != found[0].values:
            sys.exit(f"bench/peers.py: draw has {found[0].values}, {name} {found[-1].values}")
    return found


def cells(found: list[Found]) -> list[object]:
    return [cell for it in found for cell in (it.questions, it.conflicts, it.seconds)]


def measure(program: Path, only: list[str], folder: Path) -> Table:
    """the table, with the sums as its last row"""
    peers = built(folder)
    table = Table("peers", ["station", *(f"{who}, {what}" for who in ("draw", *peers) for what in ("questions", "conflicts", "s"))],
                  program)
    sums = [Found(None, 0, 0, 0.0) for _ in range(len(peers) + 1)]
    for name, station in named(EVERYDAY + LARGER, only):
        found = found_of(program, peers, station.text(), folder)
        table.add(name, *cells(found))
        sums = [Found(None, one.questions + it.questions, one.conflicts + it.conflicts, one.seconds + it.seconds)
                for one, it in zip(sums, found)]
    table.add("sum", *cells(sums))
    return table


def main() -> None:
    words = read_words(reader_of_words(__doc__, only="stations whose names hold one of these words"))
    with tempfile.TemporaryDirectory() as folder:
        measure(words.program, words.only, Path(folder)).end(words.write)


if __name__ == "__main__":
    main()

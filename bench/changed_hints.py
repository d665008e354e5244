#!/usr/bin/env python3
"""Draws the station of a file, trims the log, and changes one digit of the hints by chance, so many times.

`recheck` judges each text, and so does bench/hostile/hint_judge.py, by the sentences of docs/formats/hints.md: it shares nothing
with the program but the Formula lines of the log, in which a search that has ended tells all clauses that are expected for
its caps. Where the two differ the text's line is printed, and the status is 1. Other caps than the log's it can't judge."""
from __future__ import annotations

import argparse
import random
import subprocess
import sys
import tempfile
from collections import Counter
from pathlib import Path

sys.dont_write_bytecode = True
sys.path.insert(0, str(Path(__file__).resolve().parent / "hostile"))

import hint_judge  # noqa: E402
from opinion import graph, log  # noqa: E402

# the first line stays as it is
FRONT = len(hint_judge.HEADER)


def ask(*words: str | Path) -> tuple[int, bytes]:
    done = subprocess.run(words, stdout=subprocess.PIPE, stderr=subprocess.STDOUT, check=False)
    return done.returncode, done.stdout


def changed(chance: random.Random, text: bytes) -> bytes:
    """the text with another digit in place of one"""
    place = chance.choice([at for at in range(FRONT, len(text)) if text[at:at + 1].isdigit()])
    digit = chance.choice([digit for digit in b"0123456789" if digit != text[place]])
    return text[:place] + bytes([digit]) + text[place + 1:]


def judge(words: argparse.Namespace, room: Path) -> int:
    """the status of the script"""
    sheet, written, hints, other = (room / name for name in ("sheet", "log", "hints", "changed"))
    status, drawn = ask(words.program, "draw", words.file, "--log", written)
    sheet.write_bytes(drawn)
    if status not in (0, 3) or ask(words.program, "trim", words.file, sheet, written, hints)[0]:
        sys.exit("the station isn't drawn, or its log isn't trimmed")
    found, text, chance = graph.load(words.file.read_bytes()), hints.read_bytes(), random.Random(words.seed)
    lines = log.Written(found, log.read_log(written.read_bytes()))
    ends: Counter[str] = Counter()
    for number in range(words.count + 1):
        new = changed(chance, text) if number else text
        other.write_bytes(new)
        answer = ask(words.program, "recheck", words.file, sheet, other)
        ends[" ".join(answer[1].decode().split()[:3 if answer[0] == 1 else 2])] += 1
        try:
            if hint_judge.recheck(found, drawn, new, lines) != answer:
                ends["judged otherwise"] += 1
                print(f"{answer[1].decode().strip()}, and here another answer: change {number} of seed {words.seed}")
        except hint_judge.Unknown:
            ends["with other caps, not judged"] += 1
    print(f"{words.count} changes, {ends['judged otherwise']} judged otherwise")
    for end, times in sorted(ends.items()):
        print(f"{times:6} {end}")
    return int(ends["judged otherwise"] > 0)


def main() -> int:
    parser = argparse.ArgumentParser(description=__doc__, formatter_class=argparse.RawDescriptionHelpFormatter)
    parser.add_argument("program", type=Path, metavar="PROGRAM")
    parser.add_argument("file", type=Path, metavar="FILE")
    parser.add_argument("count", type=int, nargs="?", default=2000, metavar="COUNT")
    parser.add_argument("seed", type=int, nargs="?", default=1, metavar="SEED")
    words = parser.parse_args()
    words.program, words.file = words.program.resolve(), words.file.resolve()
    with tempfile.TemporaryDirectory() as room:
        return judge(words, Path(room))


if __name__ == "__main__":
    sys.exit(main())

"""A program of a crate of its own over crates of the repository, proved and built, beside minisat's library on the same clauses."""
from __future__ import annotations

import argparse
import shutil
import subprocess
import sys
import tempfile
from pathlib import Path

from measuring import TOP, with_write

PROGRAMS = TOP / "bench" / "programs"
HEADER = Path("/usr/include/minisat/core/Solver.h")
FLAGS = ["-O3", "-w", "-fpermissive", "-D__STDC_LIMIT_MACROS", "-D__STDC_FORMAT_MACROS"]
TURNS = 5


def lines_of_crates() -> dict[str, str]:
    """the line of each crate in crates.txt"""
    lines = (TOP / "crates.txt").read_text(encoding="utf-8").splitlines()
    return {line.partition(":")[0].strip(): line for line in lines if ":" in line and not line.startswith("#")}


def build(name: str, crates: list[str], uses: list[str], place: Path) -> Path:
    """the program of bench/programs/NAME over copies of these crates, lowest first"""
    bench, listed = f"{name}_bench", lines_of_crates()
    for crate in crates:
        for part in ("src", "specs", "proofs"):
            shutil.copytree(TOP / "crates" / crate / part, place / "crates" / crate / part)
    for text in (PROGRAMS / name).rglob("*.txt"):
        to = place / "crates" / bench / ("src" if text.name.endswith(".rt.txt") else "") / text.relative_to(PROGRAMS / name).with_suffix("")
        to.parent.mkdir(parents=True, exist_ok=True)
        shutil.copy(text, to)
    shutil.copy(TOP / "HANDLES", place)
    (place / "crates.txt").write_text("\n".join([*(listed[it] for it in crates), f"{bench}: {' '.join(uses)}", ""]), encoding="utf-8")
    subprocess.run(["git", "init", "-q"], cwd=place, check=True)
    subprocess.run(["rt", "run"], cwd=place / "crates" / bench, check=True, stdout=subprocess.DEVNULL)
    return place / "crates" / bench / "out" / bench


def minisat(name: str, place: Path) -> Path | None:
    """the same by minisat's library, where it is there"""
    if not HEADER.exists() or not shutil.which("g++"):
        return None
    subprocess.run(["g++", *FLAGS, "-o", place / "minisat", PROGRAMS / name / "minisat.cc", "-lminisat"], check=True)
    return place / "minisat"


def numbers(program: Path) -> list[int]:
    return [int(it) for it in subprocess.run([program], capture_output=True, text=True, check=True).stdout.split()]


def read_words(about: str | None, name: str) -> argparse.Namespace:
    """whether the table is written"""
    words = with_write(argparse.ArgumentParser(description=about, formatter_class=argparse.RawDescriptionHelpFormatter)).parse_args()
    if not shutil.which("rt"):
        sys.exit(f"bench/{name}.py: the Rattle toolchain's command rt is needed")
    return words


def quickest(name: str, crates: list[str], uses: list[str], ours: str) -> dict[str, list[int]]:
    """of our program and of minisat what it printed in the quickest of five runs in turn; its third number is the time"""
    with tempfile.TemporaryDirectory() as folder:
        place = Path(folder)
        programs = {ours: build(name, crates, uses, place), "minisat": minisat(name, place)}
        found: dict[str, list[list[int]]] = {}
        for _ in range(TURNS):
            for which, program in programs.items():
                if program:
                    found.setdefault(which, []).append(numbers(program))
    if "minisat" not in found:
        print("minisat's library, or g++, isn't there")
    return {which: min(runs, key=lambda it: it[2]) for which, runs in found.items()}

#!/usr/bin/env python3
"""The program that Rattle's own compiler makes, in all runs of cases/ that take a program. `rt ci` compiles the proved program by clang and
by Rattle's own compiler, and leaves both; each is to answer as the cases say, which the gate holds of clang's. It ends with 1 where one
is answered otherwise."""
from __future__ import annotations

import argparse
import subprocess
import sys
from pathlib import Path

TOP = Path(__file__).resolve().parent.parent
MADE = TOP / "crates/railplan_main/out/railplan_main.by-rattle"


def main() -> int:
    parser = argparse.ArgumentParser(description=__doc__, formatter_class=argparse.RawDescriptionHelpFormatter)
    parser.add_argument("program", type=Path, nargs="?", default=MADE, metavar="PROGRAM")
    words = parser.parse_args()
    if not words.program.exists():
        parser.error(f"{words.program} isn't there; rt ci leaves it")
    return subprocess.run([TOP / "cases/run", words.program.absolute()], check=False).returncode


if __name__ == "__main__":
    sys.exit(main())

#!/usr/bin/env python3
"""Tries the further must-fail edits, of the crates that are named, or of each that has some. An edit is a wrong body that the check has
to refuse. The gate tries those in crates/CRATE/must-fail; the others are in bench/edits/CRATE and are tried here, with those of the
gate. Libraries are built first where they aren't there. The last line of each crate is that of rt must-fail."""
from __future__ import annotations

import argparse
import contextlib
import shutil
import subprocess
import sys
from pathlib import Path
from typing import Iterator

TOP = Path(__file__).resolve().parent.parent
EDITS = TOP / "bench" / "edits"


@contextlib.contextmanager
def beside_those_of_the_gate(crate: str) -> Iterator[None]:
    """the further edits, as long as they are tried; what is copied is taken away again, however this ends"""
    folder, copied = TOP / "crates" / crate / "must-fail", sorted((EDITS / crate).glob("*.edit"))
    was_there = folder.is_dir()
    folder.mkdir(exist_ok=True)
    try:
        for edit in copied:
            shutil.copy(edit, folder)
        yield
    finally:
        for edit in copied:
            (folder / edit.name).unlink(missing_ok=True)
        if not was_there:
            folder.rmdir()


def main() -> int:
    parser = argparse.ArgumentParser(description=__doc__, formatter_class=argparse.RawDescriptionHelpFormatter)
    having = sorted(it.name for it in EDITS.iterdir())
    parser.add_argument("crates", nargs="*", metavar="CRATE", help="the crates whose edits are tried (all that have some)")
    asked = parser.parse_args()
    lacking = [it for it in asked.crates if it not in having]
    if lacking:
        parser.error(f"{', '.join(lacking)}: no further edits")
    failed = False
    for crate in asked.crates or having:
        with beside_those_of_the_gate(crate):
            failed = subprocess.run(["rt", "must-fail", crate], cwd=TOP, check=False).returncode != 0 or failed
    return 1 if failed else 0


if __name__ == "__main__":
    sys.exit(main())

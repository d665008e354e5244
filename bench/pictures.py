#!/usr/bin/env python3
"""Draws each station of examples/ that has a sheet there, and says whether sheet and picture are those of examples/, byte for byte,
and whether rsvg-convert (Debian's librsvg2-bin) renders the picture. It ends with 1 where one isn't."""
from __future__ import annotations

import shutil
import subprocess
import sys
import tempfile
from pathlib import Path

from measuring import TOP, read_words, reader_of_program, run

EXAMPLES = TOP / "examples"


def faults_of(program: Path, name: str, made: Path, images: Path) -> list[str]:
    sheet, picture, image = made / f"{name}.sheet", made / f"{name}.svg", images / f"{name}.png"
    drawn = run([program, "draw", EXAMPLES / f"{name}.xml", "--svg", picture], sheet)
    if drawn.status:
        return [f"draw ended with {drawn.status}: {drawn.text.splitlines()[:1]}"]
    stored = [it for it in (sheet, picture) if (EXAMPLES / it.name).exists()]
    found = [f"examples/{it.name} isn't what draw writes" for it in stored if it.read_bytes() != (EXAMPLES / it.name).read_bytes()]
    # three pixels for each unit of the picture, on white
    ran = subprocess.run(["rsvg-convert", "--zoom", "3", "--background-color", "white", "--output", image, picture], check=False)
    return found + ([] if ran.returncode == 0 and image.exists() else ["rsvg-convert doesn't render it"])


def main() -> None:
    parser = reader_of_program(__doc__)
    parser.add_argument("--images", type=Path, help="a folder that keeps the images, each NAME.png")
    words = read_words(parser)
    if not shutil.which("rsvg-convert"):
        sys.exit("bench/pictures.py: rsvg-convert is needed, of librsvg2-bin")
    failed = False
    with tempfile.TemporaryDirectory() as folder:
        images = words.images or Path(folder)
        images.mkdir(parents=True, exist_ok=True)
        for sheet in sorted(EXAMPLES.glob("*.sheet")):
            found = faults_of(words.program, sheet.stem, Path(folder), images)
            failed = failed or bool(found)
            print(f"{sheet.stem}: {'; '.join(found) or 'as in examples/, and rendered'}")
    sys.exit(1 if failed else 0)


if __name__ == "__main__":
    main()

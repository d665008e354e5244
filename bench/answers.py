"""What the program answers, kept in a folder: for the same words, and files that differ in names alone, it is asked once.

Names of tracks, nodes and signals are on pages and in no answer; so a station with other names needs no other search."""
from __future__ import annotations

import hashlib
import os
import re
import shutil
import subprocess
import sys
from pathlib import Path

from launcher import script

SECONDS = 3600
PICTURE = "--svg"


class Answers:
    """a program, and the folder with what it answered"""

    def __init__(self, program: str, folder: str) -> None:
        self.program, self.folder = program, Path(folder)

    def path_of(self, words: list[str]) -> Path:
        """where the answer for these words is kept"""
        found = hashlib.sha256(str(os.stat(self.program).st_mtime_ns).encode())
        for word in words:
            content = Path(word).read_bytes() if os.path.isfile(word) else word.encode()
            found.update(re.sub(rb' name="[^"]*"', b"", content) + b"\0")
        return self.folder / found.hexdigest()

    def of(self, words: list[str]) -> tuple[int, bytes]:
        """the status and the output of a run with these words; the picture of `draw` is kept beside them"""
        path = self.path_of(words)
        if not path.exists():
            part = path.with_name(f"{path.name}.{os.getpid()}")
            picture = [PICTURE, str(part.with_suffix(".svg"))] if words[0] == "draw" else []
            ran = subprocess.run([self.program, *words, *picture], stdout=subprocess.PIPE, stderr=subprocess.DEVNULL, timeout=SECONDS)
            for it in picture[1:]:
                if os.path.exists(it):
                    os.replace(it, path.with_suffix(".svg"))
            part.write_bytes(b"%d\n" % ran.returncode + ran.stdout)
            part.replace(path)
        status, _, output = path.read_bytes().partition(b"\n")
        return int(status), output

    def give(self, words: list[str]) -> int:
        """prints the answer, and writes the picture that is asked for, as the program does; the status"""
        at = words.index(PICTURE) if PICTURE in words else len(words)
        asked = words[:at] + words[at + 2:]
        status, output = self.of(asked)
        picture = self.path_of(asked).with_suffix(".svg")
        for name in words[at + 1:at + 2]:
            if picture.exists():
                shutil.copyfile(picture, name)
        sys.stdout.buffer.write(output)
        return status

    def as_program(self, path: Path) -> Path:
        """a script that answers so in the program's place"""
        return script(path, "import sys", f"sys.path.insert(0, {str(Path(__file__).resolve().parent)!r})",
                      "from answers import Answers",
                      f"sys.exit(Answers({self.program!r}, {str(self.folder)!r}).give(sys.argv[1:]))")

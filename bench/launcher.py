"""The launcher in a clone of its own, with a program in the place of the built one: the proved one, or a script that answers."""
from __future__ import annotations

import subprocess
import sys
from pathlib import Path

from measuring import TOP

sys.path.append(str(TOP / "cases"))
import runner  # noqa: E402

SECONDS = 3600


class Launcher:
    """a clone in a folder, which is there"""

    def __init__(self, program: Path, folder: Path) -> None:
        case = runner.Case(program.resolve(), folder, [])
        case.do_built(runner.Step("built", "", 0))
        self.clone, self.environment = case.clone, case.environment()

    def run(self, *words: str) -> tuple[int, str, str]:
        """the status of a run, what it prints, and what it says"""
        ran = subprocess.run([str(self.clone / "railplan"), *words], capture_output=True, timeout=SECONDS, env=self.environment,
                             stdin=subprocess.DEVNULL)
        return ran.returncode, ran.stdout.decode("utf-8", "replace"), ran.stderr.decode("utf-8", "replace")


def script(path: Path, *lines: str) -> Path:
    """a program that is a script of Python"""
    path.write_text("\n".join([f"#!{sys.executable}", *lines, ""]), encoding="utf-8")
    path.chmod(0o755)
    return path

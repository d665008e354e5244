"""The launcher in a clone of its own with a program that is built, as cases/run makes it."""
from __future__ import annotations

import atexit
import shutil
import sys
import tempfile
from functools import cache
from pathlib import Path

from trying import TOP

sys.path.append(str(TOP / "cases"))
import runner


@cache
def clone_of(program: str) -> tuple[str, dict[str, str]]:
    """the path of the launcher in a clone that has this program, and the environment in which it is started"""
    folder = Path(tempfile.mkdtemp(prefix="launched_"))
    atexit.register(shutil.rmtree, folder, ignore_errors=True)
    case = runner.Case(Path(program), folder, [])
    case.do_built(runner.Step("built", "", 0))
    return str(folder / "clone/railplan"), case.environment()

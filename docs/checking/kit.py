"""Whether README names the kit of the toolchain that is here: the first word of `rt version`."""
import re
import shutil
import subprocess

from checking.crates import TOP, read


def all_failures():
    """Nothing where there is no toolchain to ask."""
    if not shutil.which("rt"):
        return []
    said = subprocess.run(["rt", "version"], capture_output=True, text=True, check=False).stdout.split()
    named = set(re.findall(r"rattle-kit-\w+", read(TOP / "README.md")))
    return [] if not said or said[0] in named else [f"README.md: names {', '.join(sorted(named)) or 'no kit'}, but here is {said[0]}"]

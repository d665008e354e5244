"""Options that a page names and that no command has."""
import re

from checking.crates import DOCUMENTS, read, show
from checking.shell import FRONT_WORDS, OPTIONS, OWN_OPTIONS, PAGE_WORDS

# those of other commands: rt, the launcher's own, scripts of bench/ and docs/, Slurm
OTHERS = {"--anew", "--array", "--count", "--cpus-per-task", "--dependency", "--help", "--job-name", "--like", "--new", "--only",
          "--proving", "--read", "--seed", "--seconds", "--version", "--wrap", "--write"}


def all_failures():
    known = {*OPTIONS, *OWN_OPTIONS, *PAGE_WORDS, *FRONT_WORDS, *OTHERS}
    return [f"{show(path)}: no command has the option {word}" for path in DOCUMENTS
            for word in sorted(set(re.findall(r"(?<![\w-])--[a-z][a-z-]+", read(path))) - known)]

"""The commands that README.md and the pages of docs/ print, as the steps of a case for each page.

Run are, in the order in which they stand on a page:
- each line `$ COMMAND` of a block of code; the lines under it, up to the next one, are what it prints on standard output;
- in a block without such lines, each line that begins with `./railplan`, which is to end with 0;
- in a paragraph, each piece of code that begins with `./railplan`, which is to end with 0; where `prints` or `answers` stands
  right behind it, and a piece of code behind that, it prints this piece, or what is in the file of this name.
Left out are commands that this machine doesn't have. A line that names a file of no example is a form, and no command: it has
a word in capitals."""
import re
import shlex
import shutil
from collections import namedtuple
from pathlib import Path

TOP = Path(__file__).resolve().parent.parent
PAGES = [TOP / "README.md"] + [path for folder in ("use", "trust", "formats", "work") for path in sorted((TOP / "docs" / folder).glob("*.md"))]
Command = namedtuple("Command", "page line words wanted is_file")


def of_block(page, first, lines):
    """the commands of a block of code, and what each is to print"""
    if not any(line.startswith("$ ") for line in lines):
        return [Command(page, first + at, line.split("  #")[0].strip(), None, False)
                for at, line in enumerate(lines) if line.startswith("./railplan")]
    found = []
    for at, line in enumerate(lines):
        if line.startswith("$ "):
            found.append(Command(page, first + at, line[2:], "", False))
        elif found:
            found[-1] = found[-1]._replace(wanted=found[-1].wanted + line + "\n")
    return found


def of_paragraph(page, first, text):
    """the commands in a paragraph, and what is said to be printed"""
    found = []
    for piece in re.finditer(r"`(\./railplan\s[^`]+)`(?:\s+(?:prints|answers)\s+`([^`]+)`)?", text):
        wanted = piece[2] and " ".join(piece[2].split())
        found.append(Command(page, first + text[:piece.start()].count("\n"), " ".join(piece[1].split()), wanted and wanted + "\n",
                             bool(wanted) and (TOP / wanted).is_file()))
    return found


def commands_of(page):
    """all commands of a page, in their order; a block is fenced, or indented behind an empty line"""
    found, begun, kept, fenced = [], 1, [], False
    for number, line in enumerate(page.read_text(encoding="utf-8").splitlines() + [""], 1):
        if line.strip().startswith("```"):
            found += of_block(page, begun, kept) if fenced else of_paragraph(page, begun, "\n".join(kept))
            begun, kept, fenced = number + 1, [], not fenced
        elif not line.strip() and not fenced:
            found += of_paragraph(page, begun, "\n".join(kept))
            begun, kept = number + 1, []
        else:
            kept.append(line)
    return found


def is_form(words):
    return any(re.fullmatch(r"[A-Z]{2,}|[A-Z]|\.\.", word) for word in words.split())


def is_there(command):
    first = shlex.split(command.words)[0]
    return "/" in first or bool(shutil.which(first))


def run_on(page):
    """the commands of a page that can be run"""
    return [command for command in commands_of(page) if not is_form(command.words) and is_there(command)]

"""What the documents need of the shell: its table of words, how runs end, and a few of its numbers."""
import json
import re
import subprocess
from collections import namedtuple
from functools import cache

from checking.crates import TOP, read

Option = namedtuple("Option", "word what takes low high usual kind choices")
Command = namedtuple("Command", "word what names options")


def whole(text):
    """A text of the table, which may be a list of its parts."""
    return " ".join(text) if isinstance(text, list) else text or ""


@cache
def data(name):
    """A data module of the shell, which is one JSON text behind `export default`."""
    return json.loads(read(TOP / "shell/both" / name).split("\nexport default", 1)[1].strip().rstrip(";"))


def table():
    """The table of commands and options."""
    return data("commands.js")


def options_of(listed):
    return {it["word"]: Option(it["word"], whole(it["what"]), it["takes"], it.get("low", 0), it.get("high", 0), it.get("usual", ""),
                               it.get("kind", ""), tuple(it.get("choices", ()))) for it in table()[listed]}


def commands_of(listed):
    return {it["word"]: Command(it["word"], whole(it["what"]), it["names"], it["options"]) for it in table()[listed]}


OPTIONS, PAGE_WORDS, OWN_OPTIONS = options_of("options"), options_of("pageWords"), options_of("ownOptions")
FRONT_WORDS = options_of("frontWords")
COMMANDS, OWN = commands_of("commands"), commands_of("own")


def fields_table():
    """The fields of an answer as JSON, each with its type and what it is."""
    listed = json.loads(read(TOP / "shell/both/answer_fields.js").split("\nexport default", 1)[1].strip().rstrip(";"))
    return ["| field | type | what it is |", "|---|---|---|", *(f"| `{path}` | {kind} | {whole(what)} |" for path, kind, what in listed)]


@cache
def endings():
    """What the help says of each status."""
    listed = re.search(r"ENDINGS = \[(.*?)\n\];", read(TOP / "shell/both/manual.js"), re.S)
    return {int(number): text for number, text in re.findall(r'\["(\d+)", "([^"]*)"\]', listed[1] if listed else "")}


@cache
def overview():
    """The help of all commands, as the launcher prints it."""
    return subprocess.run([str(TOP / "railplan"), "help"], capture_output=True, text=True, check=True).stdout


def number_in(path, name):
    """A number that a module of the shell names."""
    found = re.search(rf"\b{name} = ([\d.]+);", read(TOP / path))
    if not found:
        raise LookupError(f"{path}: there is no number {name}")
    return float(found[1]) if "." in found[1] else int(found[1])

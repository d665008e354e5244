"""The pictures of docs/use/guide.md, drawn as pages draw them.

The remark at the guide's end names runs, the file in examples/ that has the answer of each, and its pictures. So no program is
needed here. The gate runs these commands too and compares the answers; `docs/printed` asks for them anew."""
import json
import re
import shlex
import subprocess

from checking.crates import TOP, read, show

GUIDE = TOP / "docs" / "use" / "guide.md"
MADE = TOP / "docs" / "made"
ANSWER = r"`\./railplan\s([^`]+)`\s+prints\s+`(examples/[^`]+)`(?:\s+\(([\w ]+)\))?"
MOST_BYTES = 20_000


def answers():
    """The words of each run of the remark, the file of its answer, and the names of its pictures"""
    remark = read(GUIDE)[read(GUIDE).rindex("<!--"):]
    return [(shlex.split(words), TOP / file, names.split()) for words, file, names in re.findall(ANSWER, remark)]


def pictures():
    """Each picture's file with its text"""
    wanted = [{"words": words, "answer": read(file), "names": names} for words, file, names in answers() if names]
    ran = subprocess.run(["node", str(TOP / "shell/tests/guide_pictures.js")], input=json.dumps(wanted), capture_output=True, text=True,
                         check=True)
    return {MADE / f"guide_{name}.svg": text for name, text in json.loads(ran.stdout).items()}


def all_failures():
    """Pictures that are too large, and those that are there and that nobody sees"""
    shown = read(GUIDE)
    return [f"{show(path)}: {len(text.encode())} bytes, and {MOST_BYTES} are the most"
            for path, text in pictures().items() if len(text.encode()) > MOST_BYTES] + [
            f"{show(path)}: docs/use/guide.md doesn't show it" for path in sorted({*pictures(), *MADE.glob("guide_*.svg")})
            if f"(../made/{path.name})" not in shown or path not in pictures()]

"""Runs a program by the cases in the texts under cases/. What a text may say is in the head of cases/run."""
from __future__ import annotations

import argparse
import contextlib
import difflib
import hashlib
import os
import pty
import re
import shlex
import shutil
import signal
import subprocess
import sys
import tempfile
import threading
import time
from concurrent.futures import ProcessPoolExecutor
from functools import partial
from pathlib import Path
from typing import Iterator, Optional

import documents

HERE = Path(__file__).resolve().parent
TOP = HERE.parent
SECONDS = 300
DUE = ("status", "prints", "says", "leaves", "interrupt", "terminal")
FOLDERS = (TOP / "examples", HERE / "stations", HERE / "sheets", HERE / "logs", HERE / "exports")
STORE = {path.name: path for folder in FOLDERS for path in folder.iterdir()}
STORE.update({f"examples/{path.name}": path for path in (TOP / "examples").iterdir()})
LAUNCHER = ("railplan", "crates.txt", "crates/railplan_main/src/main.rt")
PROGRAM = "crates/railplan_main/out/railplan_main"


class Otherwise(Exception):
    """what is otherwise than a case says"""


class NotHere(Exception):
    """what a case needs of the system, and isn't here"""


class Step:
    """a word, what stands behind it, and the lines under it"""

    def __init__(self, word: str, rest: str, number: int):
        self.word, self.rest, self.number = word, rest, number
        self.under: list[str] = []

    def with_values(self, values: dict[str, str]) -> Step:
        step = Step(self.word, put_in(self.rest, values), self.number)
        step.under = [put_in(line, values) for line in self.under]
        return step


# a case: where it stands and its title, and its steps; how a run ended: its status, what it printed and what it said
Written = tuple[str, list[Step]]
Ended = tuple[int, bytes, bytes]


def put_in(text: str, values: dict[str, str]) -> str:
    names = "|".join(re.escape(name) for name in values)
    return re.sub(rf"\b({names})\b", lambda found: values[found[0]], text) if values else text


def bytes_of(text: str) -> bytes:
    """the bytes that a text of a case stands for"""
    one = {b"n": b"\n", b"t": b"\t", b"s": b" ", b"\\": b"\\"}

    def turn(found: re.Match[bytes]) -> bytes:
        return bytes([int(found[2], 16)]) if found[2] else one[found[1]]

    return re.sub(rb"\\(n|t|s|\\|x([0-9a-f]{2}))", turn, text.encode("utf-8", "surrogateescape"))


def lines_under(step: Step) -> bytes:
    return b"".join(bytes_of(line) + b"\n" for line in step.under)


def steps_of(path: Path) -> list[Step]:
    """the steps of a text"""
    steps: list[Step] = []
    for number, line in enumerate(path.read_text(encoding="utf-8").split("\n"), 1):
        if line.startswith(("  ", "- ", "+ ")) or line in ("-", "+"):
            steps[-1].under.append(line[2:] if line.startswith("  ") else line)
        elif line and not line.startswith("#"):
            word, _, rest = line.partition(" ")
            steps.append(Step(word, rest, number))
    return steps


def cases_of(path: Path) -> Iterator[Written]:
    """each case of a text"""
    cases: list[tuple[Step, list[Step]]] = []
    place = path.relative_to(HERE)
    for step in steps_of(path):
        if step.word == "case":
            cases.append((step, []))
        else:
            cases[-1][1].append(step)
    for head, steps in cases:
        where = f"{place}:{head.number}: {head.rest}"
        if steps[0].word != "each":
            yield where, steps
            continue
        names = [name.strip() for name in steps[0].rest.split("|")]
        for row in steps[0].under:
            values = [value.strip() for value in row.split("|")]
            if len(values) != len(names):
                sys.exit(f"{where}: a row has {len(values)} values and not {len(names)}: {row}")
            given = dict(zip(names, values))
            yield f"{where}: {row.strip()}", [step.with_values(given) for step in steps[1:]]


def case_of(page: Path) -> Written:
    """the commands of a page of the documents as a case; what `--unproved` asks of `rt`, the program itself answers"""
    rt = Step("file", "bin/rt", 0)
    rt.under = ["#!/bin/sh", "shift 4", 'exec "$PROGRAM" "$@"']
    steps = [rt, Step("built", "", 0)]
    for command in documents.run_on(page):
        steps.append(Step("shell", command.words, command.line))
        says, prints = Step("says", "with", command.line), Step("prints", "with", command.line)
        if command.wanted is not None:
            prints.rest = f"as {command.wanted.strip()}" if command.is_file else "" if command.wanted else "nothing"
            prints.under = [line.replace("\\", "\\\\") for line in command.wanted.split("\n")[:-1]]
        steps += [says, prints]
    return f"{page.relative_to(TOP)}: its commands", steps


class Case:
    """a case while it is run, in a folder of its own"""

    def __init__(self, program: Path, folder: Path, steps: list[Step]):
        self.program, self.folder, self.steps = program, folder, steps
        self.clone, self.is_listed = folder / "clone", False

    def run(self) -> None:
        at = 0
        while at < len(self.steps):
            step = self.steps[at]
            at += 1
            if step.word not in ("run", "launch", "shell"):
                do = getattr(self, f"do_{step.word}", None)
                if do is None:
                    raise Otherwise(f"line {step.number}: `{step.word}` is no step, or stands behind no run")
                do(step)
                continue
            due = []
            while at < len(self.steps) and self.steps[at].word in DUE:
                due.append(self.steps[at])
                at += 1
            self.hold(step, due)

    def path(self, name: str) -> Path:
        """a file's path, which is put there where it is one of the store"""
        path = self.folder / os.fsdecode(bytes_of(name))
        if name in STORE and not path.exists():
            path.parent.mkdir(exist_ok=True)
            shutil.copy(STORE[name], path)
        return path

    def do_file(self, step: Step) -> None:
        name, _, other = step.rest.partition(" as ")
        path = self.folder / os.fsdecode(bytes_of(name))
        path.parent.mkdir(parents=True, exist_ok=True)
        path.write_bytes(self.path(other).read_bytes() if other else lines_under(step))
        if step.under and step.under[0].startswith("#!"):
            path.chmod(0o755)

    def do_folder(self, step: Step) -> None:
        (self.folder / step.rest).mkdir()

    def do_pipe(self, step: Step) -> None:
        os.mkfifo(self.folder / step.rest)

    def do_edit(self, step: Step) -> None:
        path = self.path(step.rest)
        text = path.read_bytes()
        texts: list[bytes] = []
        kinds: list[str] = []
        for line in step.under:
            if kinds[-1:] == [line[0]]:
                texts[-1] += b"\n" + bytes_of(line[2:])
            else:
                kinds.append(line[0])
                texts.append(bytes_of(line[2:]))
        if kinds != ["-", "+"] * (len(kinds) // 2) or not kinds:
            raise Otherwise(f"line {step.number}: an edit has texts behind `- ` and `+ ` in turn")
        for old, new in zip(texts[::2], texts[1::2]):
            if old not in text:
                raise Otherwise(f"{step.rest} has no text {old!r}")
            text = text.replace(old, new, 1)
        path.write_bytes(text)

    def do_add(self, step: Step) -> None:
        path = self.path(step.rest)
        path.write_bytes(path.read_bytes() + lines_under(step))

    def do_without(self, step: Step) -> None:
        name, word = step.rest.split(" ")
        path = self.path(name)
        path.write_bytes(b"".join(line for line in path.read_bytes().splitlines(True) if line.split(b" ")[0] != word.encode()))

    def do_shorten(self, step: Step) -> None:
        name, number = step.rest.split(" ")
        path = self.path(name)
        path.write_bytes(path.read_bytes()[:-int(number)])

    def do_pad(self, step: Step) -> None:
        name, size = step.rest.split(" ")
        path, missing = self.path(name), int(size.replace(",", ""))
        with open(path, "ab") as it:
            it.write(b"\n" * (missing - path.stat().st_size))

    def do_built(self, step: Step) -> None:
        self.need_clone()
        out = self.clone / "crates/railplan_main/out"
        out.mkdir(exist_ok=True)
        shutil.copy(self.program, out / "railplan_main")
        os.utime(out / "railplan_main", (1, 1) if step.rest == "stale" else None)
        self.is_listed = step.rest != "stale"

    def list_program(self) -> None:
        """where the clone has a program that counts as proved, lists it as the launcher lists what it built"""
        path = self.clone / PROGRAM
        if self.is_listed and path.is_file():
            known = hashlib.sha256(path.read_bytes()).hexdigest()
            (path.parent / "built").write_text(f"railplan-built 1\nkit none\n{PROGRAM}\t-\t{known}\n")

    def need_clone(self) -> None:
        """the launcher, in a clone of its own, and the folder of its PATH"""
        if (self.clone / "railplan").exists():
            return
        for name in LAUNCHER:
            (self.clone / name).parent.mkdir(parents=True, exist_ok=True)
            shutil.copy(TOP / name, self.clone / name)
        (self.folder / "bin").mkdir(exist_ok=True)
        for name, path in (("python3", sys.executable), ("node", shutil.which("node"))):
            (self.folder / "bin" / name).symlink_to(path or "node")
        for name in ("examples", "bench", "shell"):
            shutil.copytree(TOP / name, self.clone / name, ignore=shutil.ignore_patterns("tests", "__pycache__"))

    def found(self) -> dict[bytes, bytes | int]:
        """the files of the folder and what they have, without those of the clone"""
        found: dict[bytes, bytes | int] = {}
        for path in self.folder.rglob("*"):
            name = os.fsencode(path.relative_to(self.folder))
            if path.is_file() and not name.startswith((b"clone/", b"bin/")):
                found[name] = path.read_bytes() if path.stat().st_size < 8 << 20 else path.stat().st_mtime_ns
        return found

    def words_of(self, step: Step) -> tuple[list[bytes], Optional[str]]:
        """the words of a run, for which the files that they name are there, and where its output goes"""
        text, target = step.rest, None
        if ">" in text and step.word != "shell":
            found = re.fullmatch(r"(.*?) *(>&-|>) *(\S*)", text)
            if not found:
                raise Otherwise(f"line {step.number}: behind `>` stands where the output goes")
            text, target = found[1], found[3] or found[2]
        words = [text.encode()] if step.word == "shell" else [bytes_of(word) for word in shlex.split(text)]
        for word in (word.decode("utf-8", "replace").replace("\\", "\\\\") for word in words):
            self.path(word)
            self.path(word.split("/")[0])
        return words, target

    def hold(self, step: Step, due: list[Step]) -> None:
        """runs a step, and holds what comes of it to what is due"""
        words, target = self.words_of(step)
        before = self.found()
        run = {"run": self.started, "launch": self.launched, "shell": self.shelled}[step.word]
        status, printed, said = run(words, target, due)
        wanted = {one.word: one for one in due}
        if len(due) - sum(one.word == "leaves" for one in due) > len(wanted) - ("leaves" in wanted):
            raise Otherwise(f"line {step.number}: a step behind `{step.word} {step.rest}` stands twice")
        status_due = int(wanted["status"].rest) if "status" in wanted else 0
        if status != status_due:
            shown = (printed[-300:] + said[-300:]).decode(errors="replace")
            raise Otherwise(f"`{step.word} {step.rest}` ends with {status} and not {status_due}:\n{shown}")
        self.compare("prints", wanted.get("prints"), printed)
        self.compare("says", wanted.get("says"), said)
        self.compare_files(step, [one for one in due if one.word == "leaves"], target, before)

    def compare_files(self, step: Step, due: list[Step], target: Optional[str], before: dict[bytes, bytes | int]) -> None:
        """holds the files that a run made or changed to those that are due"""
        after = self.found()
        changed = {name for name in after if before.get(name) != after[name]} | (before.keys() - after.keys())
        if target and not target.startswith((">", "|", "/")):
            changed.discard(target.encode())
        for one in due:
            name, _, rest = one.rest.partition(" ")
            if bytes_of(name) not in after:
                raise Otherwise(f"`{step.rest}` leaves no {name}")
            changed.discard(bytes_of(name))
            if rest or one.under:
                there = Step("leaves", rest, one.number)
                there.under = one.under
                content = after[bytes_of(name)]
                if isinstance(content, int):
                    raise Otherwise(f"`{step.rest}` leaves {name}, which is too large to be compared")
                self.compare(one.rest, there, content)
        if changed:
            raise Otherwise(f"`{step.rest}` makes, changes or removes {b' '.join(sorted(changed)).decode(errors='replace')}")

    def started(self, words: list[bytes], target: Optional[str], due: list[Step]) -> Ended:
        """the status of the program, what it prints and what it puts on standard error"""
        command = [os.fsencode(self.program), *words]
        is_open = target != ">&-"
        if not is_open:
            command = [b"sh", b"-c", b'exec "$@" >&-', b"sh", *command]
        with self.output(target if is_open else None) as out:
            ran = subprocess.run(command, stdout=out if is_open else None, timeout=SECONDS, cwd=self.folder, stdin=subprocess.DEVNULL,
                                 stderr=subprocess.PIPE)
        return ran.returncode, ran.stdout or b"", ran.stderr

    @contextlib.contextmanager
    def output(self, target: Optional[str]) -> Iterator[int]:
        """where a run's output goes: a file, or to the run's own reader"""
        if target:
            with open(self.folder / target, "wb") as out:
                yield out.fileno()
        else:
            yield subprocess.PIPE

    def environment(self) -> dict[str, str]:
        """the clone's, in which there is no `rt` but one of the case"""
        self.need_clone()
        self.list_program()
        folders = [os.path.dirname(sys.executable), "/usr/local/bin", "/usr/bin", "/bin"]
        folders = [it for it in folders if not os.path.exists(f"{it}/rt")]
        return {"PATH": ":".join([f"{self.folder}/bin", *folders]), "LANG": "C.UTF-8", "HERE": str(self.folder),
                "PROGRAM": str(self.program)}

    def shelled(self, words: list[bytes], target: Optional[str], due: list[Step]) -> Ended:
        """the same of a command that a shell runs in the clone, which is its home"""
        environment = self.environment() | {"HOME": str(self.clone)}
        ran = subprocess.run(["sh", "-c", *words], cwd=self.clone, env=environment, stdin=subprocess.DEVNULL, capture_output=True,
                             timeout=SECONDS)
        return ran.returncode, ran.stdout, ran.stderr

    def launched(self, words: list[bytes], target: Optional[str], due: list[Step]) -> Ended:
        """the same of the launcher"""
        environment, asked = self.environment(), {one.word: one.rest for one in due}
        try:
            told, terminal = pty.openpty() if "terminal" in asked else os.pipe()
        except OSError as error:
            raise NotHere(f"there is no terminal: {error}") from error
        with self.output(target) as out:
            ran = subprocess.Popen([b"clone/railplan", *words], cwd=self.folder, env=environment, stdin=subprocess.DEVNULL,
                                   stdout=out, stderr=terminal, start_new_session=True)
        os.close(terminal)
        said = bytearray()
        reader = threading.Thread(target=read_all, args=(told, said))
        reader.start()
        try:
            if "interrupt" in asked:
                until, text = time.time() + SECONDS, bytes_of(asked["interrupt"])
                while text not in said and ran.poll() is None and time.time() < until:
                    time.sleep(0.02)
                with contextlib.suppress(OSError):
                    os.killpg(ran.pid, signal.SIGINT)
            printed = ran.communicate(timeout=SECONDS)[0] or b""
        finally:
            end_group(ran.pid)
            reader.join()
        here = os.fsencode(self.folder)
        return ran.returncode, printed.replace(here, b"HERE"), bytes(said).replace(here, b"HERE")

    def compare(self, what: str, due: Optional[Step], got: bytes) -> None:
        """holds a text to a step"""
        if due is None or due.rest == "nothing":
            wanted = b""
        elif due.rest.startswith("as "):
            name = due.rest[3:]
            wanted = (self.folder / name if (self.folder / name).exists() else STORE[name]).read_bytes()
        elif due.rest == "with":
            return self.compare_lines(what, due.under, got.decode(errors="replace").split("\n"))
        else:
            wanted = lines_under(due) if due.under else bytes_of(due.rest) + b"\n"
        if got != wanted:
            one, other = (text.decode(errors="backslashreplace").splitlines(True) for text in (wanted, got))
            raise Otherwise(what + "\n" + "".join(line if line.endswith("\n") else line + " (no line feed)\n"
                                                  for line in difflib.unified_diff(one, other, "due", "there", n=1)))

    def compare_lines(self, what: str, patterns: list[str], lines: list[str]) -> None:
        """holds the lines of a text to patterns: those that are to come so often, and those that are to come in this order"""
        left: list[tuple[str, str]] = []
        for pattern in patterns:
            number, _, pattern = pattern.rpartition(" times ")
            form = re.escape(bytes_of(pattern).decode()).replace(r"\*", ".*")
            there = sum(bool(re.fullmatch(form, line)) for line in lines) if number else 0
            if number and there != int(number):
                raise Otherwise(f"{what}: {there} lines are `{pattern}`, and not {number}")
            left += [(pattern, form)] * (not number)
        for line in lines:
            if left and re.fullmatch(left[0][1], line):
                left.pop(0)
        if left:
            there_are = "\n".join(lines)[-3000:]
            raise Otherwise(f"{what}: the line `{left[0][0]}` is not there, or not behind those before it:\n{there_are}")


def read_all(handle: int, said: bytearray) -> None:
    """reads until nobody writes any more; a terminal's end is an error"""
    with os.fdopen(handle, "rb", buffering=0) as it:
        while True:
            try:
                piece = it.read(4096)
            except OSError:
                return
            if not piece:
                return
            said += piece


def end_group(number: int) -> None:
    try:
        os.killpg(number, signal.SIGKILL)
    except OSError:
        pass


def tell(program: Path, case: Written) -> tuple[str, bool]:
    """what a case says, or nothing where it is answered as it says; and whether it could be tried"""
    where, steps = case
    # what a run left behind may still write there
    with tempfile.TemporaryDirectory(ignore_cleanup_errors=True) as folder:
        try:
            Case(program, Path(folder), steps).run()
        except Otherwise as why:
            return f"{where}\n    " + str(why).rstrip("\n").replace("\n", "\n    "), True
        except subprocess.TimeoutExpired:
            return f"{where}\n    hasn't ended after {SECONDS} seconds", True
        except NotHere as why:
            return f"{where}: not tried, as {why}", False
    return "", True


def chosen(words: list[str]) -> list[Written]:
    """the cases whose place or title holds one of the words; without a word all"""
    cases = [case for path in sorted(HERE.glob("*/*.txt")) for case in cases_of(path)]
    cases += [case_of(page) for page in documents.PAGES if documents.run_on(page)]
    return [case for case in cases if not words or any(word in case[0] for word in words)]


def main(description: str) -> int:
    parser = argparse.ArgumentParser(description=description, formatter_class=argparse.RawDescriptionHelpFormatter)
    parser.add_argument("program", type=Path, help="the program")
    parser.add_argument("words", nargs="*", help="only the cases whose file, line, title or row has one of these words in it are run")
    asked = parser.parse_args()
    program = asked.program.resolve()
    if not os.access(program, os.X_OK):
        sys.exit(f"cases/run: there is no program {asked.program}")
    cases = chosen(asked.words)
    # processes and no threads: a file that one thread has open to write can't be started by another
    with ProcessPoolExecutor(os.cpu_count() or 2) as pool:
        told = [(what, tried) for what, tried in pool.map(partial(tell, program), cases) if what]
    for what, _ in told:
        print(what)
    faults = sum(tried for _, tried in told)
    print(f"{len(cases) - len(told)} passed, {faults} failed")
    return 1 if faults or not cases else 0

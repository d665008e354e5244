"""Cases, runs and reports, and the changes by chance."""
import argparse
import contextlib
import hashlib
import io
import os
import random
import signal
import subprocess
import sys
import tempfile
import time
import unittest
from pathlib import Path
from unittest import mock

import changes
import forms
import slow
import trying
from trying import Answer, Case, Runner, Tally

SHEET = b"railplan 2\ngrid 1 0 1\norder height\nnodes 2\nnode 0 a 0 0 0.000000\nnode 1 b 1 0 1.000000\nend best\n"
LOG = b"railplan-log 1\nf 1 2 0\nf -1 3 0\nq 0\nl 3 2 0\nb height 1 3\nq -3 0\nr 3 0\n"
HINTS = b"railplan-hints 1\ncaps 1 0 0 0\nl 3 2 0 1 2 0\nr 3 0 1 3 0\n"


def case_of(folder: str, number: int = 0) -> Case:
    return Case(Path("/bin/sh"), Runner(Path(folder)), 1, number)


def reported(tally: Tally) -> tuple[int, str]:
    said = io.StringIO()
    with contextlib.redirect_stdout(said):
        status = trying.report(argparse.Namespace(name="x", seed=1, began=time.time()), tally)
    return status, said.getvalue()


class Runs(unittest.TestCase):
    def test_what_a_run_prints_says_and_ends_with(self) -> None:
        with tempfile.TemporaryDirectory() as folder:
            answer = case_of(folder).run("-c", "echo out; echo err >&2; exit 3")
        self.assertEqual(answer, Answer(3, b"out\n", b"err\n", False))

    def test_a_run_that_ends_by_a_signal(self) -> None:
        with tempfile.TemporaryDirectory() as folder:
            self.assertEqual(case_of(folder).run("-c", "kill -SEGV $$").status, -11)

    def test_a_run_that_hangs_is_wrong(self) -> None:
        with tempfile.TemporaryDirectory() as folder:
            case = case_of(folder)
            answer = case.run("-c", "exec sleep 60", seconds=0.2)
        self.assertTrue(answer.hung)
        self.assertEqual(len(case.tally.wrong), 1)

    def test_a_run_that_waits_for_a_processor_does_not_hang(self) -> None:
        for command, waits in (("while :; do :; done", True), ("exec sleep 60", False), ("(while :; do :; done) & wait", True)):
            job = subprocess.Popen(["/bin/sh", "-c", command], cwd="/", start_new_session=True)
            try:
                time.sleep(0.3)
                self.assertEqual(trying.waits_for_a_processor(job.pid, 30.0), waits, command)
                while waits and trying.seconds_used(job.pid) < 0.1:
                    time.sleep(0.1)
                self.assertFalse(trying.waits_for_a_processor(job.pid, 0.1), command)
            finally:
                os.killpg(job.pid, signal.SIGKILL)
                job.wait()

    def test_a_run_that_goes_round_for_ever_hangs(self) -> None:
        with tempfile.TemporaryDirectory() as folder:
            self.assertTrue(case_of(folder).run("-c", "while :; do :; done", seconds=0.3).hung)

    def test_an_answer_is_held_to_the_byte(self) -> None:
        for answer, wrong in ((Answer(0, b"a\n"), 0), (Answer(0, b"a"), 1), (Answer(1, b"a\n"), 1), (Answer(0, b"a\n", b"x"), 1)):
            with tempfile.TemporaryDirectory() as folder:
                case = case_of(folder)
                case.hold("what", (0, b"a\n"), answer)
                self.assertEqual(len(case.tally.wrong), wrong, answer)

    def test_a_case_follows_from_its_number(self) -> None:
        with tempfile.TemporaryDirectory() as folder:
            one, again, other = (case_of(folder, number).chance.random() for number in (4, 4, 5))
        self.assertEqual(one, again)
        self.assertNotEqual(one, other)


class Scripts(unittest.TestCase):
    def test_a_fault_of_a_script_is_wrong_and_the_others_are_tried(self) -> None:
        def attempt(case: Case) -> None:
            case.count("tried")
            if case.number == 1:
                raise ValueError("here")

        words = argparse.Namespace(program=Path("/bin/sh"), seed=1, until=time.time() + 60, keep=None)
        tally = trying.try_some(words, attempt, range(3))
        self.assertEqual((tally.cases, tally.counts["tried"], len(tally.wrong)), (3, 3, 1))
        self.assertIn("seed 1, case 1: the script fails: ValueError('here')", tally.wrong[0])

    def test_batches_leave_nothing(self) -> None:
        words = argparse.Namespace(program=Path("/bin/sh"), seed=1, until=time.time() + 60, keep=None)

        def attempt(case: trying.Case) -> None:
            case.run("-c", "echo out > there")

        def left() -> tuple[list[str], list[str]]:
            return os.listdir("/proc/self/fd"), os.listdir(folder)

        with tempfile.TemporaryDirectory() as folder, mock.patch.object(trying, "place_of_folders", lambda: folder):
            trying.try_some(words, attempt, range(1))
            before = left()
            for number in range(3):
                trying.try_some(words, attempt, range(number, number + 1))
            self.assertEqual(left(), before)
        with self.assertRaises(ChildProcessError):
            os.waitpid(-1, os.WNOHANG)

    def test_folders_are_in_memory_unless_another_place_is_named(self) -> None:
        for environment, memory, place in (({}, "/", "/"), ({}, "/nothing/there", None), ({"TMPDIR": "/tmp"}, "/", None)):
            with mock.patch.dict(os.environ, environment, clear=True), mock.patch.object(trying, "MEMORY", memory):
                self.assertEqual(trying.place_of_folders(), place)

    def test_a_folder_is_emptied_and_what_a_link_leads_to_stays(self) -> None:
        with tempfile.TemporaryDirectory() as name, tempfile.TemporaryDirectory() as other:
            folder, kept = Path(name), Path(other) / "kept"
            kept.write_text("kept")
            (folder / "inner/deep").mkdir(parents=True)
            (folder / "file").write_text("x")
            (folder / "link").symlink_to(kept)
            (folder / "leads").symlink_to(other)
            trying.emptied(folder)
            self.assertEqual((list(folder.iterdir()), kept.read_text()), ([], "kept"))


class Written(unittest.TestCase):
    def rows_of(self, *runs: tuple[str, int, int, int], program: str = "/bin/sh") -> list[list[str]]:
        """the rows that come of runs, each with its script, its seed, its first case and how many it tried; and the head"""
        with tempfile.TemporaryDirectory() as folder, mock.patch.object(trying, "TABLE", Path(folder) / "rows.csv"):
            for number, (name, seed, first, cases) in enumerate(runs):
                path = Path("/bin/sh" if number == 0 else program)
                words = argparse.Namespace(name=name, seed=seed, first=first, began=time.time() - 5, program=path)
                trying.write_row(words, Tally(cases=cases, runs=9, wrong=["x"]))
            return [line.split(",") for line in trying.TABLE.read_text().splitlines()]

    def test_a_run_has_its_row(self) -> None:
        rows = self.rows_of(("sheets", 12, 0, 1), ("files", 3, 0, 2), ("sheets", 7, 0, 3), ("sheets", 12, 0, 4))
        self.assertEqual([row[:5] for row in rows], [["script", "seed", "cases", "runs", "wrong"], ["files", "3", "2", "9", "1"],
                                                    ["sheets", "7", "3", "9", "1"], ["sheets", "12", "4", "9", "1"]])
        self.assertEqual(rows[1][5:], ["5", hashlib.sha256(Path("/bin/sh").read_bytes()).hexdigest()[:8]])

    def test_a_run_that_goes_on_is_added_to_its_row(self) -> None:
        self.assertEqual(self.rows_of(("files", 3, 0, 20), ("files", 3, 20, 7))[1][:6], ["files", "3", "27", "18", "2", "10"])
        for other in (("files", 3, 21, 7), ("files", 3, 0, 7)):
            self.assertEqual(self.rows_of(("files", 3, 0, 20), other)[1:][0][:6], ["files", "3", "7", "9", "1", "5"])
        self.assertEqual(self.rows_of(("files", 3, 0, 20), ("files", 3, 20, 7), program="/bin/ls")[1][2:4], ["7", "9"])


class Interrupts(unittest.TestCase):
    def test_a_script_that_is_interrupted_says_what_it_has_tried(self) -> None:
        text = ("import sys; sys.path.insert(0, sys.argv.pop(1)); import trying; "
                "trying.main('', lambda case: (case.run('-c', 'sleep 0.05'), print('tried', flush=True)), 10 ** 6)")
        for number in (signal.SIGINT, signal.SIGTERM):
            command = [sys.executable, "-c", text, str(Path(trying.__file__).parent), "/bin/sh"]
            job = subprocess.Popen(command, stdout=subprocess.PIPE, text=True)
            assert job.stdout
            self.assertEqual(job.stdout.readline(), "tried\n")
            job.send_signal(number)
            said = job.communicate(timeout=60)[0].splitlines()[-1]
            self.assertRegex(said, "cases tried in [0-9]+ runs, 0 wrong, seed 1")
            self.assertEqual(job.returncode, 0)


class Known(unittest.TestCase):
    def tally(self, seen: list[bool], known: str) -> Tally:
        with tempfile.TemporaryDirectory() as folder, mock.patch.dict(trying.KNOWN, {"a fault": "It is otherwise."}):
            case = case_of(folder)
            for is_so in seen:
                case.hold_that(is_so, "not so", known)
            return case.tally

    def test_a_known_fault_is_said_and_not_wrong(self) -> None:
        with mock.patch.dict(trying.KNOWN, {"a fault": "It is otherwise."}):
            status, said = reported(self.tally([True, False], "a fault"))
        self.assertEqual(status, 0)
        self.assertIn("known, 1 of 2 times: It is otherwise.", said)

    def test_one_that_is_mended_is_to_be_taken_out(self) -> None:
        with mock.patch.dict(trying.KNOWN, {"a fault": "It is otherwise."}):
            status, said = reported(self.tally([True, True], "a fault"))
        self.assertEqual(status, 1)
        self.assertIn("take it out: a fault", said)

    def test_others_are_wrong(self) -> None:
        status, said = reported(self.tally([True, False], "another"))
        self.assertEqual(status, 1)
        self.assertIn("wrong: seed 1, case 0: not so", said)


class Forms(unittest.TestCase):
    def test_answers_in_their_form(self) -> None:
        for command, answer in (("draw", Answer(0, SHEET)), ("check", Answer(8, b"check NotNew line 12\n")),
                                ("verify", Answer(8, b"broken law 6 edge 1 edge 2\n")),
                                ("graph", Answer(1, b"text 1 NotUtf8 at 5\n")), ("recheck", Answer(1, b"hints 5 Range line 2\n")),
                                ("redraw", Answer(1, b"old text 4 Markup at 0\n")),
                                ("draw", Answer(2, b"words 7 BadValue 4\n")), ("trim", Answer(5, b"read failed 3\n"))):
            self.assertEqual(forms.why_otherwise(command, answer), "")

    def test_answers_that_are_not(self) -> None:
        for command, answer in (("draw", Answer(3, SHEET)), ("draw", Answer(-11, b"")), ("check", Answer(0, b"certified\n")),
                                ("check", Answer(0, b"certified 4\n", b"warning")), ("verify", Answer(3, b"")),
                                ("graph", Answer(1, b"text 1 NotUtf8 at 5\nmore\n")), ("graph", Answer(9, b""))):
            self.assertNotEqual(forms.why_otherwise(command, answer), "", answer)


class Changes(unittest.TestCase):
    def test_they_follow_from_the_chances_and_change_the_text(self) -> None:
        file = b'<infrastructure><tracks><track id="a" pos="12"/></tracks></infrastructure>'
        for change, text in ((changes.changed_file, file), (changes.changed_sheet, SHEET), (changes.changed_log, LOG),
                             (changes.changed_hints, HINTS), (changes.changed_bytes, SHEET), (changes.changed_number, LOG)):
            made = [change(random.Random(seed), text) for seed in range(300)]
            self.assertEqual(made, [change(random.Random(seed), text) for seed in range(300)])
            self.assertGreater(sum(one != text for one in made), 200, change)
            self.assertGreater(len(set(made)), 90, change)

    def test_what_little_is_left_of_a_text_is_changed_too(self) -> None:
        for change in (changes.changed_file, changes.changed_sheet, changes.changed_log, changes.changed_hints):
            for seed in range(600):
                chance, text = random.Random(seed), (b"x", b"\n", b"1", b"7\n")[seed % 4]
                for _ in range(6):
                    text = change(chance, text)
                    self.assertTrue(text or change in (changes.changed_log, changes.changed_hints), (change, seed))


class Slow(unittest.TestCase):
    def test_what_is_slow(self) -> None:
        words = argparse.Namespace(floor=0.3, times=20.0)
        for seconds, ended, slow_one in ((0.2, False, False), (1.0, False, False), (3.0, False, True), (0.1, True, True)):
            self.assertEqual(slow.is_slow(words, slow.Measured(1_000_000, seconds, 0, ended), 0.1), slow_one)

    def test_a_known_family_is_looked_for_where_it_is_large(self) -> None:
        for size, seconds, looked_for, seen, wrong in ((1_000_000, 0.1, 0, 0, 0), (1_000_000, 3.0, 1, 1, 0),
                                                       (4_000_000, 3.0, 1, 1, 0), (4_000_000, 0.1, 1, 0, 0)):
            tally = Tally()
            with mock.patch.dict(slow.KNOWN, {"slow: check, x": "It is slow."}):
                slow.judge(tally, "check", "x", slow.Measured(size, seconds, 0, False), seconds > 1)
            self.assertEqual((tally.looked_for["slow: check, x"], tally.seen["slow: check, x"], len(tally.wrong)),
                             (looked_for, seen, wrong))
        tally = Tally()
        slow.judge(tally, "check", "y", slow.Measured(10, 9.0, 0, False), True)
        self.assertEqual(tally.wrong, ["check is slow on the family `y`"])

    def test_a_row_of_the_table(self) -> None:
        sizes = [slow.Measured(1_000_000, 0.001, 0, False), slow.Measured(2_000_000, 0.03, 0, False),
                 slow.Measured(4_000_000, 0.06, 0, False), slow.Measured(8_000_000, 0.48, 0, False)]
        self.assertEqual(slow.row_of("check", "x", sizes, 0.03), ["check", "x", "8", "-", "0.48", "0.060", "2.0", "2.00"])
        looked = [slow.Measured(1_000_000, 0.04, 0, False, 3_000_000), slow.Measured(2_000_000, 0.16, 0, False, 14_000_000)]
        self.assertEqual(slow.row_of("recheck", "x", looked, 0.005), ["recheck", "x", "2", "14", "0.16", "0.010", "2.0", "1.00"])
        self.assertEqual(slow.row_of("check", "x", sizes[:1], 0.001)[-1], "-")
        self.assertEqual(slow.row_of("check", "x", [slow.Measured(4_000_000, 9.0, -9, True)], 0.03)[-1], "ended")

    def test_looks_in_millions(self) -> None:
        self.assertEqual([slow.millions(looks) for looks in (0, 999, 2_326, 21_853_800, 7_837_181_004)],
                         ["-", "-", "0.00233", "21.9", "7,837"])

    def test_looks_are_the_literals_of_named_clauses_once_a_line(self) -> None:
        clauses = [[1, 2], [3, -1, 4]]
        self.assertEqual(slow.looks_of([b"railplan-hints 1\n", b"l 1 2 4 0 2 1 2 0\n"], clauses), 5)
        self.assertEqual(slow.looks_of([b"l 1 2 4 7 0 2 0\n", b"r 1 0 3 0\n", b"l 0 3 3 0\n", b"r 0 4 0\n"], clauses), 3 + 4 + 4 + 0)

    def test_a_family_that_is_refused_measures_nothing(self) -> None:
        for answer, refused in (("check BadHint line 245", True), ("hints Form line 2", True), ("check Lacks place 1", False)):
            with tempfile.TemporaryDirectory() as folder:
                program = Path(folder, "program")
                program.write_text(f"#!/bin/sh\necho '{answer}'\n")
                program.chmod(0o755)
                words = argparse.Namespace(program=program)
                self.assertEqual((slow.is_refused(words, "recheck"), slow.is_refused(words, "check")), (refused, False))

    def test_seconds_of_the_processor(self) -> None:
        seconds, status, ended = slow.timed(["/bin/sh", "-c", "while :; do :; done"], 0.3)
        self.assertTrue(ended)
        self.assertGreater(seconds, 0.25)
        self.assertEqual(status, -9)
        self.assertEqual(slow.timed(["/bin/sh", "-c", "exit 8"], 5.0)[1:], (8, False))

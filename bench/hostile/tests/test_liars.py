"""Each script finds a program that lies. Where no program is built nothing is tried."""
import os
import signal
import subprocess
import sys
import tempfile
import unittest
from pathlib import Path

import launched
import named_pages
import signals
from trying import TOP, Case, Runner

HERE = Path(__file__).resolve().parents[1]
PROGRAM = Path(os.environ.get("RAILPLAN_PROGRAM", TOP / "crates/railplan_main/out/railplan_main"))
# a command that is answered otherwise, and how
LIES = {
    "files": [("graph", '"$P" "$@"; echo more'), ("draw", 'kill -SEGV $$'), ("verify", "echo lawful 0 0 0 9"),
              ("check", 'echo certified 3'), ("trim", 'echo warning >&2; exec "$P" "$@"')],
    "sheets": [("verify", "echo lawful 1 2 3 4"), ("redraw", "echo end best"), ("check", "echo certified 4")],
    "logs": [("check", "echo certified 4"), ("trim", 'echo x > hints; exec "$P" "$@"'), ("recheck", "echo certified 4")],
    "hints": [("recheck", "echo certified 4"), ("recheck", "echo check BadHint line 3; exit 8")],
    "forgeries": [("check", "echo certified 4"), ("recheck", "echo certified 0")],
    "forged_logs": [("check", "echo certified 4"), ("recheck", "echo certified 4"), ("trim", "echo trimmed 0 0")],
    "refused_memory": [("graph", '"$P" "$@"; exit 0')],
}
# so many cases come upon each of the lies
COUNTS = {"files": 120, "sheets": 6, "logs": 5, "hints": 4, "forgeries": 5, "forged_logs": 2, "refused_memory": 17}


@unittest.skipUnless(os.access(PROGRAM, os.X_OK), "no program is built")
class Liars(unittest.TestCase):
    def status_of(self, script: str, program: str, count: int) -> int:
        command = [sys.executable, str(HERE / f"{script}.py"), program, "--count", str(count)]
        return subprocess.run(command, capture_output=True, check=False).returncode

    def test_lies_are_found(self) -> None:
        for script, lies in LIES.items():
            for command, lie in lies:
                with self.subTest(f"{script}, {command}: {lie}"), tempfile.TemporaryDirectory() as folder:
                    liar = Path(folder) / "liar"
                    liar.write_text(f'#!/bin/sh\nP={PROGRAM}\ncase "$1" in {command}) {lie};; *) exec "$P" "$@";; esac\n')
                    liar.chmod(0o755)
                    self.assertEqual(self.status_of(script, str(liar), COUNTS[script]), 1)


class Pages(unittest.TestCase):
    def wrong(self, page: str) -> list[str]:
        with tempfile.TemporaryDirectory() as folder:
            case = Case(PROGRAM, Runner(Path(folder)), 1, 1)
            case.write("station", b"<infrastructure/>")
            named_pages.judge_page(case, page.encode())
            return case.tally.wrong

    def test_names_that_are_text(self) -> None:
        for page in ("<p>&lt;script&gt;zz9&lt;/script&gt;</p>", '<p title="&quot;&gt;zz9">x</p>',
                     "<svg><text>zz9 &amp; x</text></svg>"):
            self.assertEqual(self.wrong(page), [], page)

    def test_names_that_are_markup(self) -> None:
        for page in ("<zz9>", "<img src=x onerror=zz9>", "<p zz9=1>", "<!--zz9-->", "<script>let a = '<b>zz9'</script>",
                     '<a href="javascript:zz9">x</a>', "<p>\x01</p>", "<p>\ufffe</p>", "<svg><text>&nbsp;</text></svg>",
                     "<svg><a></svg>"):
            self.assertNotEqual(self.wrong(page), [], page)


class Sessions(unittest.TestCase):
    def test_a_signal_that_is_ignored_is_heard(self) -> None:
        before = signal.signal(signal.SIGHUP, signal.SIG_IGN)
        try:
            signals.hear((signal.SIGHUP,))
            self.assertEqual(signal.getsignal(signal.SIGHUP), signal.SIG_DFL)
        finally:
            signal.signal(signal.SIGHUP, before)

    def test_processes_of_a_session(self) -> None:
        job = subprocess.Popen(["/bin/sh", "-c", "sleep 30 & sleep 30"], start_new_session=True)
        try:
            self.assertTrue(signals.wait_until(lambda: len(signals.session_of(job.pid)) == 3, 5))
        finally:
            signals.clean_up(signals.Started(job, None))
        self.assertTrue(signals.wait_until(lambda: not signals.session_of(job.pid), 5))


@unittest.skipUnless(os.access(PROGRAM, os.X_OK), "no program is built")
class Launched(unittest.TestCase):
    def test_the_launcher_runs_the_program(self) -> None:
        launcher, environment = launched.clone_of(str(PROGRAM.resolve()))
        words = [launcher, "draw", str(TOP / "examples/one.xml")]
        done = subprocess.run(words, env=environment, capture_output=True, check=False)
        self.assertEqual(done.stdout, (TOP / "examples/one.sheet").read_bytes())

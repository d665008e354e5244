"""Debian's firefox, driven by its own protocol over the loopback: pages are opened, keys are sent, and what comes of it is asked."""
from __future__ import annotations

import base64
import json
import os
import socket
import subprocess
import tempfile
import time
from pathlib import Path
from typing import Any

from browser import Gone

SECONDS = 600
KEYS = {"Tab": "\ue004", "Enter": "\ue007", "Escape": "\ue00c"}
# counts scripts that fail, from when a page is there
WATCH = "window.failed ??= (addEventListener('error', (it) => window.failed.push(it.message)), [])"


def free_port() -> int:
    with socket.socket() as it:
        it.bind(("127.0.0.1", 0))
        return int(it.getsockname()[1])


class Firefox:
    """one browser with a profile of its own, which is asked as a tab of chromium's is"""

    def __init__(self) -> None:
        self.profile, port = tempfile.TemporaryDirectory(ignore_cleanup_errors=True), free_port()
        Path(self.profile.name, "user.js").write_text(f'user_pref("marionette.port", {port});\n', encoding="utf-8")
        self.job = subprocess.Popen(["firefox-esr", "--headless", "--marionette", "--profile", self.profile.name, "--no-remote"],
                                    stdout=subprocess.DEVNULL, stderr=subprocess.DEVNULL, env={**os.environ, "MOZ_HEADLESS_WIDTH": "1600"})
        self.rest, self.count = b"", 0
        self.to = self.connected(port)
        self.read()
        self.version = str(self.ask("WebDriver:NewSession")["capabilities"]["browserVersion"])
        self.ask("WebDriver:SetTimeouts", script=SECONDS * 1000)

    @staticmethod
    def connected(port: int) -> socket.socket:
        until = time.time() + 60
        while time.time() < until:
            try:
                return socket.create_connection(("127.0.0.1", port))
            except OSError:
                time.sleep(0.1)
        raise Gone("firefox doesn't listen")

    def __enter__(self) -> Firefox:
        return self

    def __exit__(self, *why: object) -> None:
        try:
            self.ask("Marionette:Quit", flags=["eForceQuit"])
            self.job.wait(15)
        except (Gone, OSError, subprocess.TimeoutExpired):
            self.job.kill()
            self.job.wait()
        self.to.close()
        self.profile.cleanup()

    def more(self) -> None:
        piece = self.to.recv(1 << 20)
        if not piece:
            raise Gone("it ended")
        self.rest += piece

    def read(self) -> Any:
        """the next message, which has its length before it"""
        while b":" not in self.rest:
            self.more()
        length, _, self.rest = self.rest.partition(b":")
        while len(self.rest) < int(length):
            self.more()
        said, self.rest = self.rest[:int(length)], self.rest[int(length):]
        return json.loads(said)

    def ask(self, method: str, **parameters: object) -> dict[str, Any]:
        self.count += 1
        data = json.dumps([0, self.count, method, parameters]).encode()
        self.to.sendall(f"{len(data)}:".encode() + data)
        while True:
            answer = self.read()
            if isinstance(answer, list) and answer[1] == self.count:
                if answer[2]:
                    raise Gone(f"{method}: {answer[2].get('message')}")
                return dict(answer[3] or {})

    def open(self, page: Path) -> None:
        self.ask("WebDriver:Navigate", url=page.resolve().as_uri())
        self.run(WATCH)

    def run(self, script: str) -> Any:
        """what a script gives, also where it gives it later"""
        whole = f"const end = arguments[0]; Promise.resolve(({script})).then(end, (why) => end({{failed: String(why)}}))"
        found = self.ask("WebDriver:ExecuteAsyncScript", script=whole, args=[], sandbox=None)["value"]
        if isinstance(found, dict) and "failed" in found:
            raise Gone(f"{script[:200]}: {found['failed']}")
        return found

    def framed(self, script: str) -> Any:
        """what a script gives in the first frame of the page"""
        self.ask("WebDriver:SwitchToFrame", id=0)
        try:
            return self.run(script)
        finally:
            self.ask("WebDriver:SwitchToFrame", id=None)

    def key(self, key: str) -> None:
        actions = [{"type": kind, "value": KEYS.get(key, key)} for kind in ("keyDown", "keyUp")]
        self.ask("WebDriver:PerformActions", actions=[{"type": "key", "id": "keyboard", "actions": actions}])

    def give(self, what: str, paths: list[Path]) -> None:
        """chooses files in the field that a selector finds"""
        found = self.ask("WebDriver:FindElement", using="css selector", value=what)["value"]
        self.ask("WebDriver:ElementSendKeys", id=next(iter(found.values())), text="\n".join(str(it.resolve()) for it in paths))

    def size(self, width: int, height: int, is_phone: bool = False) -> None:
        self.ask("WebDriver:SetWindowRect", width=width, height=height)

    def picture(self, path: Path) -> None:
        path.write_bytes(base64.b64decode(self.ask("WebDriver:TakeScreenshot", full=False)["value"]))

    def unnamed(self) -> list[str]:
        """what is reached by the keyboard and has no words of its own; chromium's driver looks at names more closely"""
        return list(self.run("[...document.querySelectorAll('button, a[href], input, select')].filter(it => !it.textContent.trim() && "
                             "!it.ariaLabel && !it.labels?.[0]?.textContent.trim() && it.type !== 'hidden').map(it => it.outerHTML)"))

    def requests(self) -> list[str]:
        return list(self.run("performance.getEntriesByType('resource').map(it => it.name).filter(it => !it.startsWith('blob:'))"))

    def alarms(self) -> list[str]:
        return list(self.run("window.failed"))

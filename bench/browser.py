"""Debian's chromium, driven over a pipe: pages are opened, keys and pointers are sent, and what comes of it is asked."""
from __future__ import annotations

import base64
import json
import os
import subprocess
import tempfile
import time
from pathlib import Path
from typing import Any, Optional

FLAGS = ["--headless", "--no-sandbox", "--disable-gpu", "--hide-scrollbars", "--no-first-run", "--disable-extensions",
         "--remote-debugging-pipe"]
SECONDS = 600
# whether a page is there; one that draws itself has a sentence until then, which also says why it couldn't be drawn
READY = "(it => it ? it.textContent : document.readyState + location.protocol)(document.querySelector('.unread'))"
# what a screen reader comes to and is to have a name for
NAMED = {"button", "link", "searchbox", "textbox", "checkbox", "image", "complementary"}
KEYS = {"Enter": 13, "Escape": 27, "ArrowDown": 40, "ArrowUp": 38, "ArrowLeft": 37, "ArrowRight": 39, "Tab": 9}


class Gone(Exception):
    """the browser doesn't answer"""


def low_handles() -> list[int]:
    """takes the handles up to 4, which a browser talks over, so that nothing of ours has them"""
    found = [os.open(os.devnull, os.O_RDWR)]
    while found[-1] <= 4:
        found.append(os.open(os.devnull, os.O_RDWR))
    return found


class Browser:
    """one browser with a profile of its own"""

    def __init__(self) -> None:
        self.profile = tempfile.TemporaryDirectory(ignore_cleanup_errors=True)
        self.low = low_handles()
        orders, answers = os.pipe(), os.pipe()

        def hand_over() -> None:
            os.dup2(orders[0], 3)
            os.dup2(answers[1], 4)

        self.job = subprocess.Popen(["chromium", *FLAGS, f"--user-data-dir={self.profile.name}", "about:blank"],
                                    pass_fds=(3, 4),
                                    preexec_fn=hand_over, stdin=subprocess.DEVNULL, stdout=subprocess.DEVNULL,
                                    stderr=subprocess.DEVNULL)
        os.close(orders[0])
        os.close(answers[1])
        self.orders, self.answers = orders[1], answers[0]
        os.set_blocking(self.answers, False)
        self.rest, self.count = b"", 0
        self.events: list[dict[str, Any]] = []

    def close(self) -> None:
        try:
            self.ask("Browser.close")
            self.job.wait(10)
        except (Gone, OSError, subprocess.TimeoutExpired):
            self.job.kill()
            self.job.wait()
        for handle in (self.orders, self.answers, *self.low):
            os.close(handle)
        self.profile.cleanup()

    def __enter__(self) -> Browser:
        return self

    def __exit__(self, *why: object) -> None:
        self.close()

    def messages(self) -> list[dict[str, Any]]:
        """what the browser has said since"""
        try:
            piece = os.read(self.answers, 1 << 20)
            if not piece:
                raise Gone("it ended")
            self.rest += piece
        except BlockingIOError:
            time.sleep(0.005)
        *whole, self.rest = self.rest.split(b"\0")
        return [json.loads(it) for it in whole]

    def ask(self, method: str, session: str = "", **parameters: object) -> dict[str, Any]:
        self.count += 1
        message: dict[str, object] = {"id": self.count, "method": method, "params": parameters}
        if session:
            message["sessionId"] = session
        data = json.dumps(message).encode() + b"\0"
        while data:
            data = data[os.write(self.orders, data):]
        until = time.time() + SECONDS
        while time.time() < until:
            for said in self.messages():
                if said.get("id") == self.count:
                    if "error" in said:
                        raise Gone(f"{method}: {said['error'].get('message')}")
                    return said["result"]
                if "method" in said:
                    self.events.append(said)
        raise Gone(f"no answer to {method}")


class Tab:
    """a page that is open"""

    def __init__(self, browser: Browser, width: int = 1600, height: int = 1000) -> None:
        self.browser = browser
        self.target = browser.ask("Target.createTarget", url="about:blank")["targetId"]
        self.session = browser.ask("Target.attachToTarget", targetId=self.target, flatten=True)["sessionId"]
        for domain in ("Page", "Runtime", "Network", "Performance"):
            self.ask(f"{domain}.enable")
        self.size(width, height)

    def ask(self, method: str, **parameters: object) -> dict[str, Any]:
        return self.browser.ask(method, self.session, **parameters)

    def close(self) -> None:
        self.browser.ask("Target.closeTarget", targetId=self.target)

    def size(self, width: int, height: int, is_phone: bool = False) -> None:
        self.ask("Emulation.setDeviceMetricsOverride", width=width, height=height, deviceScaleFactor=1, mobile=is_phone)

    def media(self, media: str = "", dark: bool = False) -> None:
        features = [{"name": "prefers-color-scheme", "value": "dark" if dark else "light"}]
        self.ask("Emulation.setEmulatedMedia", media=media, features=features)

    def spent(self) -> float:
        """the processor time of the process that the page is in"""
        return next(it["value"] for it in self.ask("Performance.getMetrics")["metrics"] if it["name"] == "ProcessTime")

    def open(self, page: Path, part: str = "") -> float:
        """opens a page; how many seconds of processor time it took until it was laid out"""
        self.browser.events.clear()
        began, before = time.time(), self.spent()
        failed = self.ask("Page.navigate", url=page.resolve().as_uri() + part).get("errorText")
        if failed:
            raise Gone(f"{page}: {failed}")
        until = began + SECONDS
        while time.time() < until:
            ready = self.ask("Runtime.evaluate", expression=READY, returnByValue=True)["result"].get("value", "")
            if ready.startswith("The page couldn't be drawn"):
                raise Gone(f"{page}: {ready}")
            if ready == "completefile:":
                self.ask("Runtime.evaluate",
                         expression="new Promise(r => requestAnimationFrame(() => requestAnimationFrame(r)))",
                         awaitPromise=True)
                now = self.spent()
                # a page in a new process begins at nothing
                return now - before if now > before else now
            time.sleep(0.01)
        raise Gone(f"{page} isn't loaded")

    def run(self, script: str) -> Any:
        """what a script gives"""
        found = self.ask("Runtime.evaluate", expression=script, returnByValue=True, awaitPromise=True)
        if "exceptionDetails" in found:
            raise Gone(f"{script[:200]}: {found['exceptionDetails'].get('exception', {}).get('description')}")
        return found["result"].get("value")

    def framed(self, script: str) -> Any:
        """what a script gives in the frame of the page, which has a process of its own; None where there is no frame yet"""
        frames = [it for it in self.browser.ask("Target.getTargets")["targetInfos"] if it["type"] == "iframe"]
        if not frames:
            return None
        session = self.browser.ask("Target.attachToTarget", targetId=frames[-1]["targetId"], flatten=True)["sessionId"]
        found = self.browser.ask("Runtime.evaluate", session, expression=script, returnByValue=True)
        self.browser.ask("Target.detachFromTarget", sessionId=session)
        return found["result"].get("value")

    def key(self, key: str) -> None:
        text = {"Enter": "\r"}.get(key, key if len(key) == 1 else "")
        code = KEYS.get(key, ord(key.upper()) if len(key) == 1 else 0)
        said = {"key": key, "windowsVirtualKeyCode": code}
        self.ask("Input.dispatchKeyEvent", type="keyDown", text=text, **said)
        self.ask("Input.dispatchKeyEvent", type="keyUp", **said)

    def type(self, text: str) -> None:
        for letter in text:
            self.key(letter)

    def move(self, x: float, y: float, buttons: int = 0) -> None:
        self.ask("Input.dispatchMouseEvent", type="mouseMoved", x=x, y=y, buttons=buttons, button="left" if buttons else "none")

    def press(self, x: float, y: float, kind: str, count: int = 1) -> None:
        self.ask("Input.dispatchMouseEvent", type=kind, x=x, y=y, button="left", buttons=1 if kind == "mousePressed" else 0,
                 clickCount=count)

    def click(self, x: float, y: float) -> None:
        self.move(x, y)
        self.press(x, y, "mousePressed")
        self.press(x, y, "mouseReleased")

    def drop(self, x: float, y: float, paths: list[Path]) -> None:
        """drops files and folders, as if they were dragged here from outside"""
        data = {"items": [], "files": [str(it.resolve()) for it in paths], "dragOperationsMask": 1}
        for kind in ("dragEnter", "dragOver", "drop"):
            self.ask("Input.dispatchDragEvent", type=kind, x=x, y=y, data=data)

    def give(self, what: str, paths: list[Path]) -> None:
        """chooses files, or a folder, in the field that a selector finds"""
        found = self.ask("Runtime.evaluate", expression=f"document.querySelector({json.dumps(what)})")["result"]
        self.ask("DOM.setFileInputFiles", files=[str(it.resolve()) for it in paths], objectId=found["objectId"])

    def wheel(self, x: float, y: float, down: float, with_control: bool = True) -> None:
        self.ask("Input.dispatchMouseEvent", type="mouseWheel", x=x, y=y, deltaX=0, deltaY=down,
                 modifiers=2 if with_control else 0)

    def picture(self, path: Path) -> None:
        path.write_bytes(base64.b64decode(self.ask("Page.captureScreenshot", format="png")["data"]))

    def print(self, path: Path, **how: object) -> None:
        path.write_bytes(base64.b64decode(self.ask("Page.printToPDF", printBackground=False, **how)["data"]))

    def unnamed(self) -> list[str]:
        """the roles of what a screen reader comes to and has no name for"""
        nodes = self.ask("Accessibility.getFullAXTree")["nodes"]
        return [it["role"]["value"] for it in nodes if not it.get("ignored") and it["role"]["value"] in NAMED
                and not str(it.get("name", {}).get("value", "")).strip()]

    def requests(self) -> list[str]:
        """what was asked for beside the page itself"""
        asked = [it["params"]["request"]["url"] for it in self.browser.events if it["method"] == "Network.requestWillBeSent"]
        return [it for it in asked if not it.startswith(("file:", "blob:"))] + sorted({it for it in asked
                                                                                       if it.startswith("file:")})[1:]

    def alarms(self) -> list[str]:
        """dialogues, and scripts that failed"""
        return [it["method"] for it in self.browser.events if it["method"] in ("Page.javascriptDialogOpening",
                                                                               "Runtime.exceptionThrown")]


def centre(tab: Tab, what: str) -> Optional[tuple[float, float]]:
    """the middle of what a selector finds, in the window"""
    found = tab.run(f"""(() => {{ const it = document.querySelector({json.dumps(what)}); if (!it) return null;
      const at = it.getBoundingClientRect(); return [(at.left + at.right) / 2, (at.top + at.bottom) / 2]; }})()""")
    return (found[0], found[1]) if found else None

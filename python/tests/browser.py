"""A headless Chromium to look at pages with, from Debian's packages, spoken to over two pipes (its DevTools protocol): no port, no other package.

    python3 python/tests/browser.py PAGE.html OUT.png KEY ..

presses keys on a page and takes a picture of it. So docs/page.png is made, of examples/sea.txt, with PageDown*9 r Tab*28 Enter.
"""
from __future__ import annotations

import base64
import json
import os
import shutil
import subprocess
import sys
import tempfile
import time
from functools import cache
from pathlib import Path

NAMES = ("chromium", "chromium-browser", "chromium-headless-shell", "google-chrome")
PACKAGE = "chromium"
PATIENCE = 60  # seconds for one answer
INSTALLING = 240  # seconds for what apt-get does
# What a browser does of its own accord is turned off, so that a request that is seen is the page's.
QUIET = (
    "--headless", "--no-sandbox", "--disable-gpu", "--disable-dev-shm-usage", "--no-first-run", "--disable-extensions", "--disable-sync",
    "--disable-background-networking", "--disable-component-update", "--disable-default-apps", "--mute-audio",
)  # fmt: skip
KEYS = {
    "ArrowLeft": 37, "ArrowUp": 38, "ArrowRight": 39, "ArrowDown": 40, "Home": 36, "End": 35, "PageUp": 33, "PageDown": 34, "Tab": 9,
    "Enter": 13, "Escape": 27, " ": 32, "r": 82,
}  # fmt: skip
TEXTS = {"Enter": "\r", " ": " ", "r": "r"}


def found() -> str | None:
    """A Chromium on this machine."""
    return next(filter(None, map(shutil.which, NAMES)), None)


@cache
def chromium() -> str | None:
    """A Chromium, installed first where it is missing and that can be done; else None."""
    if found() is None and shutil.which("apt-get") and os.geteuid() == 0:
        print(f"{PACKAGE} is missing: it is installed from Debian's packages", file=sys.stderr, flush=True)
        environment = {**os.environ, "DEBIAN_FRONTEND": "noninteractive"}
        apt = ["apt-get", "-q", "-o", "DPkg::Lock::Timeout=60"]
        for words in (["update"], ["install", "-y", "--no-install-recommends", PACKAGE]):
            try:
                subprocess.run([*apt, *words], env=environment, stdin=subprocess.DEVNULL, capture_output=True, timeout=INSTALLING, check=True)
            except (OSError, subprocess.SubprocessError):
                break
    return found()


class Browser:
    """One browser with one page. What the page asks of any network is kept in `requests`, what its script complains of in `complaints`."""

    def __init__(self, width: int = 1280, height: int = 720) -> None:
        path = chromium()
        assert path is not None
        self.room = tempfile.TemporaryDirectory(ignore_cleanup_errors=True)
        to_browser, self.write = os.pipe()
        self.read, from_browser = os.pipe()
        # The browser reads its pipe 3 and writes its pipe 4.
        shell = f'exec "$@" 3<&{to_browser} 4>&{from_browser}'
        options = (*QUIET, "--remote-debugging-pipe", f"--user-data-dir={self.room.name}", f"--window-size={width},{height}", "about:blank")
        self.process = subprocess.Popen(
            ["bash", "-c", shell, "browser", path, *options], pass_fds=(to_browser, from_browser), stdin=subprocess.DEVNULL,
            stdout=subprocess.DEVNULL, stderr=subprocess.DEVNULL,
        )  # fmt: skip
        os.close(to_browser)
        os.close(from_browser)
        os.set_blocking(self.read, False)
        self.number, self.session, self.rest = 0, "", b""  # of the last call; of the page; of a message that is not whole yet
        self.requests: list[str] = []
        self.complaints: list[str] = []
        self.loaded = False
        target = self.ask("Target.createTarget", url="about:blank")["targetId"]
        self.session = self.ask("Target.attachToTarget", targetId=target, flatten=True)["sessionId"]
        for domain in ("Page", "Runtime", "Network", "Log"):
            self.ask(f"{domain}.enable")
        self.size(width, height)

    def close(self) -> None:
        """Ends the browser that was started here."""
        try:
            self.ask("Browser.close")
        except (OSError, TimeoutError):
            pass
        try:
            self.process.wait(10)
        except subprocess.TimeoutExpired:
            self.process.kill()
            self.process.wait()
        os.close(self.read)
        os.close(self.write)
        self.room.cleanup()

    # The protocol

    def ask(self, method: str, **parameters: object) -> dict:
        """One call of the protocol and its answer."""
        self.number += 1
        message = {"id": self.number, "method": method, "params": parameters} | ({"sessionId": self.session} if self.session else {})
        os.write(self.write, json.dumps(message).encode() + b"\0")
        end = time.monotonic() + PATIENCE
        while time.monotonic() < end:
            for told in self.heard():
                if told.get("id") == self.number:
                    assert "error" not in told, (method, told)
                    return told["result"]
        raise TimeoutError(method)

    def heard(self) -> list[dict]:
        """What the browser has said since; events are noted."""
        try:
            piece = os.read(self.read, 1 << 20)
            if not piece:
                raise OSError("the browser has ended")
        except BlockingIOError:
            time.sleep(0.001)
            return []
        *whole, self.rest = (self.rest + piece).split(b"\0")
        messages = [json.loads(text) for text in whole]
        for message in messages:
            self.note(message.get("method", ""), message.get("params", {}))
        return messages

    def note(self, method: str, event: dict) -> None:
        """Keeps what a test asks for."""
        if method == "Network.requestWillBeSent":
            self.requests.append(event["request"]["url"])
        elif method == "Page.loadEventFired":
            self.loaded = True
        elif method == "Runtime.exceptionThrown":
            self.complaints.append(str(event["exceptionDetails"]))
        elif method == "Log.entryAdded":
            self.complaints.append(event["entry"]["text"])

    # What a test does

    def open(self, page: Path) -> None:
        """Opens a file."""
        self.requests, self.complaints, self.loaded = [], [], False
        self.ask("Page.navigate", url=page.as_uri())
        end = time.monotonic() + PATIENCE
        while not self.loaded and time.monotonic() < end:
            self.heard()

    def run(self, script: str):
        """The value of an expression in the page."""
        answer = self.ask("Runtime.evaluate", expression=script, returnByValue=True, awaitPromise=True)
        assert "exceptionDetails" not in answer, (script, answer)
        return answer["result"].get("value")

    def key(self, name: str, times: int = 1, modifiers: int = 0) -> None:
        """Presses a key."""
        for _ in range(times):
            typed = {"text": TEXTS[name]} if name in TEXTS else {}
            what = {"key": name, "code": name, "windowsVirtualKeyCode": KEYS[name], "modifiers": modifiers}
            self.ask("Input.dispatchKeyEvent", type="keyDown" if typed else "rawKeyDown", **what, **typed)
            self.ask("Input.dispatchKeyEvent", type="keyUp", **what)

    def pointer(self, x: float, y: float, click: bool = False) -> None:
        """Moves the pointer, and clicks."""
        self.ask("Input.dispatchMouseEvent", type="mouseMoved", x=x, y=y)
        for kind in ("mousePressed", "mouseReleased") if click else ():
            self.ask("Input.dispatchMouseEvent", type=kind, x=x, y=y, button="left", clickCount=1)

    def write_text(self, text: str) -> None:
        """Types into what has the focus."""
        self.ask("Input.insertText", text=text)

    def scripts(self, allowed: bool) -> None:
        """Whether pages opened from now on may run scripts."""
        self.ask("Emulation.setScriptExecutionDisabled", value=not allowed)

    def size(self, width: int, height: int, scale: float = 1) -> None:
        """The window's size, and how large its pictures are."""
        self.ask("Emulation.setDeviceMetricsOverride", width=width, height=height, deviceScaleFactor=scale, mobile=False)

    def picture(self) -> bytes:
        """A PNG of the window."""
        return base64.b64decode(self.ask("Page.captureScreenshot", format="png")["data"])

    def printed(self) -> bytes:
        """A PDF of the page, as it is printed."""
        return base64.b64decode(self.ask("Page.printToPDF", preferCSSPageSize=True, paperWidth=8.27, paperHeight=11.69)["data"])


def main(page: str, out: str, *keys: str) -> None:
    """A picture of a page after these keys, `KEY*4` being four times."""
    browser = Browser()
    browser.size(1280, 720, 0.7)
    browser.open(Path(page).resolve())
    for key in keys:
        name, _, times = key.partition("*")
        browser.key(name, int(times or 1))
    time.sleep(0.5)  # until lines have the width that they are going to have
    Path(out).write_bytes(browser.picture())
    browser.close()


if __name__ == "__main__":
    main(*sys.argv[1:])

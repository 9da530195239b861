"""A headless Chromium, asked over the DevTools protocol: pages, keys, what stands on a page, and pictures of it.

The protocol is read and written at two pipes that the browser inherits, a message of JSON and a zero byte each.
https://chromedevtools.github.io/devtools-protocol/
"""

from __future__ import annotations

import base64
import contextlib
import fcntl
import json
import os
import select
import shutil
import signal
import subprocess
import sys
import tempfile
import time
from pathlib import Path
from typing import Any, Iterator, Optional

NAMES = ("chromium", "chromium-browser", "google-chrome")
WORDS = (
    "--headless=new", "--no-sandbox", "--disable-gpu", "--no-first-run", "--disable-extensions", "--disable-background-networking", "--disable-dev-shm-usage",
    "--ignore-certificate-errors", "--remote-debugging-pipe", "--window-size=1100,900",
)  # fmt: skip
AT_ITS_PIPES = "import os, sys; os.dup2(int(sys.argv[1]), 3); os.dup2(int(sys.argv[2]), 4); os.execvp(sys.argv[3], sys.argv[3:])"
"""Begins the browser, which reads at descriptor 3 and writes at 4."""
KEYS = {"Tab": 9, "Enter": 13, "Escape": 27, " ": 32}


def found() -> Optional[str]:
    """The browser that is here, if any."""
    return next((path for path in map(shutil.which, NAMES) if path), None)


def above_others(descriptor: int) -> int:
    """The same pipe under a number that isn't in the way of the two that the browser takes."""
    moved = fcntl.fcntl(descriptor, fcntl.F_DUPFD, 10)
    os.close(descriptor)
    return moved


class Fault(AssertionError):
    """Something that a script of a page threw, or that the browser refused."""


class Browser:
    """One window of a browser, which is closed at the end of the block."""

    def __init__(self, seconds: float) -> None:
        self.seconds = seconds
        self.faults: list[str] = []
        """What scripts threw, and what the browser said of the page as an error."""
        self._number = 0
        self._rest = b""
        self._session: Optional[str] = None

    def __enter__(self) -> "Browser":
        program = found()
        assert program
        self._room = tempfile.mkdtemp(prefix="browser-")
        theirs, self._to = os.pipe()
        self._from, ours = os.pipe()
        theirs, ours = above_others(theirs), above_others(ours)
        words = [sys.executable, "-c", AT_ITS_PIPES, str(theirs), str(ours), program, *WORDS, f"--user-data-dir={self._room}", "about:blank"]
        self._process = subprocess.Popen(
            words, pass_fds=(theirs, ours), stdout=subprocess.DEVNULL, stderr=subprocess.DEVNULL,
            env={**os.environ, "TMPDIR": self._room}, start_new_session=True,
        )  # fmt: skip
        os.close(theirs)
        os.close(ours)
        target = next(it for it in self._ask("Target.getTargets")["targetInfos"] if it["type"] == "page")
        self._session = self._ask("Target.attachToTarget", targetId=target["targetId"], flatten=True)["sessionId"]
        for part in ("Page", "Runtime", "DOM", "Log"):
            self._ask(f"{part}.enable")
        return self

    def __exit__(self, *_: object) -> None:
        with contextlib.suppress(OSError, Fault):
            self._session = None
            self._ask("Browser.close")
        with contextlib.suppress(ProcessLookupError):
            os.killpg(self._process.pid, signal.SIGKILL)  # its other processes write into the room as well
        self._process.wait()
        os.close(self._to)
        os.close(self._from)
        for _ in range(20):
            shutil.rmtree(self._room, ignore_errors=True)
            if not os.path.exists(self._room):
                break
            time.sleep(0.1)

    def _messages(self, end: float) -> Iterator[dict[str, Any]]:
        """What the browser says, until some moment."""
        while True:
            text, zero, rest = self._rest.partition(b"\0")
            if zero:
                self._rest = rest
                yield json.loads(text)
                continue
            left = end - time.monotonic()
            if left <= 0 or not select.select([self._from], [], [], left)[0]:
                return
            piece = os.read(self._from, 1 << 20)
            if not piece:
                raise Fault("the browser ended")
            self._rest += piece

    def _ask(self, method: str, **values: Any) -> dict[str, Any]:
        """Sends one call, and gives its answer; what happens meanwhile is noted."""
        self._number += 1
        call = {"id": self._number, "method": method, "params": values, **({"sessionId": self._session} if self._session else {})}
        data = json.dumps(call).encode() + b"\0"
        while data:
            data = data[os.write(self._to, data) :]
        for message in self._messages(time.monotonic() + self.seconds):
            if message.get("id") == self._number:
                if "error" in message:
                    raise Fault(f"{method}: {message['error']['message']}")
                return message["result"]
            self._note(message)
        raise Fault(f"{method}: no answer in {self.seconds:.0f} seconds")

    def _note(self, message: dict[str, Any]) -> None:
        values = message.get("params", {})
        if message.get("method") == "Runtime.exceptionThrown":
            details = values["exceptionDetails"]
            self.faults.append(details.get("exception", {}).get("description") or details["text"])
        if message.get("method") == "Log.entryAdded" and values["entry"]["level"] == "error" and values["entry"]["source"] != "network":
            self.faults.append(values["entry"]["text"])

    def go(self, address: str) -> None:
        """Opens an address."""
        said = self._ask("Page.navigate", url=address)
        if said.get("errorText"):
            raise Fault(f"{address}: {said['errorText']}")
        self.wait("document.readyState === 'complete'")

    def run(self, script: str) -> Any:
        """What an expression is on the page; a promise is waited for."""
        said = self._ask("Runtime.evaluate", expression=script, awaitPromise=True, returnByValue=True, userGesture=True)
        if "exceptionDetails" in said:
            raise Fault(f"{script}: {said['exceptionDetails'].get('exception', {}).get('description')}")
        return said["result"].get("value")

    def wait(self, script: str, why: str = "") -> Any:
        """Waits until an expression is true on the page."""
        end = time.monotonic() + self.seconds
        while time.monotonic() < end:
            with contextlib.suppress(Fault):  # the page may be another one in this moment
                value = self.run(script)
                if value:
                    return value
            time.sleep(0.05)
        raise Fault(f"{why or script}: not in {self.seconds:.0f} seconds. The page says: {self.text('body')[:1500]}")

    def text(self, selector: str) -> str:
        """The text of an element, as it is shown."""
        return self.run(f"document.querySelector({json.dumps(selector)})?.innerText ?? ''")

    def wait_for(self, text: str, selector: str = "body") -> None:
        """Waits until an element shows a text."""
        self.wait(f"(document.querySelector({json.dumps(selector)})?.innerText ?? '').includes({json.dumps(text)})", f"{selector} with {text!r}")

    def click(self, selector: str) -> None:
        """Clicks in the middle of an element, as a mouse does."""
        where = self.wait(
            f"(() => {{ const it = document.querySelector({json.dumps(selector)}); if (!it) return null; it.scrollIntoView({{ block: 'center' }});"
            " const box = it.getBoundingClientRect(); return box.width ? [box.x + box.width / 2, box.y + box.height / 2] : null; })()",
            f"{selector} to click at",
        )
        for kind in ("mousePressed", "mouseReleased"):
            self._ask("Input.dispatchMouseEvent", type=kind, x=where[0], y=where[1], button="left", clickCount=1)

    def press(self, key: str, modifiers: int = 0) -> None:
        """Presses a key: Tab, Enter, a letter with Control (2) or Shift (8)."""
        values = {"key": key, "code": key if key in KEYS else f"Key{key.upper()}", "windowsVirtualKeyCode": KEYS.get(key, ord(key.upper()[0])), "modifiers": modifiers}
        text = {"Enter": "\r", " ": " "}.get(key)
        self._ask("Input.dispatchKeyEvent", type="keyDown" if text else "rawKeyDown", **values, **({"text": text} if text else {}))
        self._ask("Input.dispatchKeyEvent", type="keyUp", **values)

    def write(self, text: str) -> None:
        """Types a text where the focus is."""
        self._ask("Input.insertText", text=text)

    def fill(self, selector: str, text: str) -> None:
        """Writes a text in the place of what a control has."""
        self.wait(f"!!document.querySelector({json.dumps(selector)})", f"{selector} to fill in")
        self.run(f"(() => {{ const it = document.querySelector({json.dumps(selector)}); it.focus(); it.select?.(); }})()")
        self.write(text)

    def choose(self, selector: str, value: str) -> None:
        """Chooses a value of a list."""
        self.run(
            f"(() => {{ const it = document.querySelector({json.dumps(selector)}); it.value = {json.dumps(value)}; if (it.value !== {json.dumps(value)}) throw new Error('no such choice');"
            " it.dispatchEvent(new Event('change', { bubbles: true })); })()"
        )

    def give_file(self, selector: str, path: str) -> None:
        """Chooses a file at a control for files."""
        root = self._ask("DOM.getDocument")["root"]["nodeId"]
        node = self._ask("DOM.querySelector", nodeId=root, selector=selector)["nodeId"]
        self._ask("DOM.setFileInputFiles", files=[path], nodeId=node)

    def set_cookie(self, name: str, value: str, address: str) -> None:
        """Gives the browser a cookie, as a site does."""
        self._ask("Network.setCookie", name=name, value=value, url=address, secure=True)

    def take_cookie(self, name: str, address: str) -> Optional[str]:
        """Takes a cookie away from the browser, and gives its value: that of a script, or one that no script sees."""
        found = {it["name"]: it["value"] for it in self._ask("Network.getCookies", urls=[address])["cookies"]}
        self._ask("Network.deleteCookies", name=name, url=address)
        return found.get(name)

    def size(self, width: int, height: int, is_phone: bool = False) -> None:
        """Gives the window another size."""
        self._ask("Emulation.setDeviceMetricsOverride", width=width, height=height, deviceScaleFactor=2 if is_phone else 1, mobile=is_phone)

    def picture(self, path: str | Path, whole: bool = False) -> None:
        """Writes a picture of the window, or of all of the page."""
        said = self._ask("Page.captureScreenshot", format="png", captureBeyondViewport=whole)
        Path(path).write_bytes(base64.b64decode(said["data"]))


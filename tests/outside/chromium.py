"""Chromium, driven over two pipes by the standard library: a page at the size of a telephone or of a desk.

What is said over file descriptors 3 and 4 of the browser is JSON of the DevTools protocol, each message ended by a zero
byte.
"""

from __future__ import annotations

import base64
import contextlib
import json
import os
import select
import subprocess
import tempfile
import time
from collections.abc import Iterator
from pathlib import Path
from typing import Any, Optional

SECONDS = 60.0
"""How long an answer may take."""


class Browser:
    """A running browser with one page."""

    def __init__(self, reading: int, writing: int):
        self._reading, self._writing, self._number = reading, writing, 0
        self._left, self._session = b"", None
        self.told: list[str] = []
        """What pages wrote on the console as an error, and what they threw."""
        target = self.ask("Target.createTarget", url="about:blank")["targetId"]
        self._session = self.ask("Target.attachToTarget", targetId=target, flatten=True)["sessionId"]
        for domain in ("Page", "Runtime", "Log"):
            self.ask(f"{domain}.enable")

    def ask(self, method: str, **params: object) -> dict[str, Any]:
        """The answer to a command."""
        self._number += 1
        message: dict[str, object] = {"id": self._number, "method": method, "params": params}
        if self._session:
            message["sessionId"] = self._session
        os.write(self._writing, json.dumps(message).encode() + b"\0")
        found = self._until(lambda it: it.get("id") == self._number)
        assert "error" not in found, found
        result: dict[str, Any] = found["result"]
        return result

    def open(self, path: Path, width: int, height: int = 900, after: str = "") -> None:
        """Opens a file at a size in pixels of a page, and waits until it is loaded; `after` stands behind its name."""
        self.ask(
            "Emulation.setDeviceMetricsOverride", width=width, height=height, deviceScaleFactor=1, mobile=width < 600
        )
        self.ask("Page.navigate", url="about:blank")
        self.ask("Page.navigate", url=path.resolve().as_uri() + after)
        deadline = time.monotonic() + SECONDS
        while self.value("document.readyState + location.protocol") != "completefile:":
            assert time.monotonic() < deadline, path
            time.sleep(0.02)

    def open_whole(self, path: Path, width: int) -> None:
        """Opens a page of which nothing is told yet, and which is no wider than the window."""
        self.told.clear()
        self.open(path, width)
        assert self.value("document.documentElement.scrollWidth") == width

    def value(self, expression: str) -> Any:
        """What an expression of JavaScript is in the page."""
        value = self.ask("Runtime.evaluate", expression=expression, returnByValue=True, awaitPromise=True)
        assert "exceptionDetails" not in value, value
        return value["result"].get("value")

    def press(self, key: str) -> None:
        """Presses a key, `Tab` or `Enter`."""
        known = {"Tab": 9, "Enter": 13}
        named = {"key": key, "code": key, "windowsVirtualKeyCode": known[key], "text": "\r" if key == "Enter" else ""}
        self.ask("Input.dispatchKeyEvent", type="keyDown", **named)
        self.ask("Input.dispatchKeyEvent", type="keyUp", key=key, code=key, windowsVirtualKeyCode=known[key])

    def printed(self) -> bytes:
        """The page as it is printed on A4, a PDF."""
        found = self.ask("Page.printToPDF", paperWidth=8.27, paperHeight=11.69, printBackground=False)
        return base64.b64decode(found["data"])

    def picture(self, to: Path) -> None:
        """Writes the whole page as a PNG."""
        size = self.ask("Page.getLayoutMetrics")["cssContentSize"]
        clip = {"x": 0, "y": 0, "width": size["width"], "height": size["height"], "scale": 1}
        shot = self.ask("Page.captureScreenshot", clip=clip, captureBeyondViewport=True)
        to.write_bytes(base64.b64decode(shot["data"]))

    def _until(self, is_it: Any) -> dict[str, Any]:
        deadline = time.monotonic() + SECONDS
        while True:
            head, end, rest = self._left.partition(b"\0")
            if end:
                self._left = rest
                message: dict[str, Any] = json.loads(head)
                self._note(message)
                if is_it(message):
                    return message
                continue
            is_ready, _, _ = select.select([self._reading], [], [], max(0.0, deadline - time.monotonic()))
            assert is_ready, "the browser doesn't answer"
            block = os.read(self._reading, 1 << 16)
            assert block, "the browser ended"
            self._left += block

    def _note(self, message: dict[str, Any]) -> None:
        params = message.get("params", {})
        if message.get("method") == "Runtime.exceptionThrown":
            self.told.append(str(params["exceptionDetails"]))
        if message.get("method") == "Log.entryAdded" and params["entry"]["level"] == "error":
            self.told.append(f"{params['entry']['text']} {params['entry'].get('url', '')}")
        if message.get("method") == "Runtime.consoleAPICalled" and params["type"] in ("error", "assert"):
            self.told.append(str(params["args"]))


def descriptors(read: int, write: int) -> Any:
    """What the browser's process does before it begins: its pipes become 3 and 4."""

    def move() -> None:
        one, other = os.dup(read), os.dup(write)
        os.dup2(one, 3)
        os.dup2(other, 4)

    return move


@contextlib.contextmanager
def browser(program: str) -> Iterator[Browser]:
    """A browser that is ended with all that it has on the disk."""
    to_it, from_us = os.pipe()
    from_it, to_us = os.pipe()
    with tempfile.TemporaryDirectory(prefix="chromium-", ignore_cleanup_errors=True) as profile:
        words = [program, "--headless", "--no-sandbox", "--disable-gpu", "--remote-debugging-pipe", "--hide-scrollbars"]
        words += ["--disable-dev-shm-usage", f"--user-data-dir={profile}", "about:blank"]
        process: Optional[subprocess.Popen[bytes]] = None
        try:
            process = subprocess.Popen(
                words,
                preexec_fn=descriptors(to_it, to_us),
                close_fds=False,
                stdout=subprocess.DEVNULL,
                stderr=subprocess.DEVNULL,
            )
            yield Browser(from_it, from_us)
        finally:
            if process:
                process.kill()
                process.wait()
            for each in (to_it, from_us, from_it, to_us):
                os.close(each)

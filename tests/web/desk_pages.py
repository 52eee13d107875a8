"""The desk's application as a process, over the office of these tests, and a person at it in Chromium."""

from __future__ import annotations

import contextlib
import os
import subprocess
import sys
from collections.abc import Iterator
from pathlib import Path
from typing import Any, Optional

from selenium.webdriver.common.action_chains import ActionChains
from selenium.webdriver.common.keys import Keys

from lib.places import ROOT

from .browser import Browser
from .offices import DESK
from .stage import Stage

PREFIX = "/desk"


class DeskPages:
    """The process, with more words on its command line: behind a front at a socket that only the front opens, else at a
    port, to which the front leads too. It can be killed, and another one takes its place over the same folder. `tools` is
    where its program is."""

    tools = ROOT / "tools"

    def __init__(self, stage: Stage, folder: Path, front: str = "", *more: str):
        self.stage, self.folder, self.front, self.more = stage, folder, front, more
        self.port = int(stage.front.place.desk.rpartition(":")[2]) if not front else 0
        self.socket = stage.folder / "desk.sock"
        self.process: Optional[subprocess.Popen[str]] = None
        self.start()

    @property
    def url(self) -> str:
        return self.front.rstrip("/") or f"http://127.0.0.1:{self.port}"

    def start(self) -> None:
        words = [
            "desk",
            "serve",
            "--office",
            f"http://127.0.0.1:{self.stage.office_port}",
            "--file",
            str(self.stage.db),
        ]
        words += [
            "--room",
            str(self.folder / "room"),
            "--listen",
            str(self.socket) if self.front else f"127.0.0.1:{self.port}",
        ]
        words += ["--program", str(self.stage.cpi.path), *(["--front", self.front] if self.front else []), *self.more]
        told = {**os.environ, "PYTHONPATH": str(self.tools), "PYTHONDONTWRITEBYTECODE": "1"}
        command = [sys.executable, "-m", "cpi_tools", *words]
        self.process = subprocess.Popen(command, stdout=subprocess.PIPE, text=True, env=told)
        assert self.process.stdout
        assert self.process.stdout.readline().startswith("cpi-tools desk serve: http")

    def kill(self) -> None:
        if self.process:
            with self.process:
                self.process.kill()
            self.process = None


@contextlib.contextmanager
def desk_pages(stage: Stage, folder: Path, front: str = "", *more: str) -> Iterator[DeskPages]:
    """The application, until the end."""
    pages = DeskPages(stage, folder, front, *more)
    try:
        with stage.desk_at(f"unix:{pages.socket}") if front else contextlib.nullcontext():
            yield pages
    finally:
        pages.kill()


class Person:
    """Somebody at the desk, who has a keyboard and nothing else."""

    def __init__(self, browser: Browser, pages: DeskPages):
        self.browser, self.pages = browser, pages

    def open(self, path: str) -> None:
        self.browser.driver.get(self.pages.url + path)

    def type(self, *keys: str) -> None:
        # (to an element that takes a file, selenium sends the name of one)
        chains: Any = ActionChains  # (selenium has no types)
        chains(self.browser.driver).send_keys(*keys).perform()

    def reach(self, selector: str) -> None:
        """Goes by Tab to an element."""
        for _ in range(200):
            if self.browser.run("return document.activeElement.matches(arguments[0])", selector):
                return
            self.type(Keys.TAB)
        raise AssertionError(f"{selector} isn't reached by Tab")

    def press(self, selector: str) -> None:
        """Goes to an element, and presses Enter; the next page is there afterwards."""
        self.reach(selector)
        self.browser.run("document.documentElement.dataset.before = 'yes'")
        self.type(Keys.ENTER)
        gone = "return !document.documentElement.dataset.before && document.readyState === 'complete'"
        self.browser.wait(lambda: self.browser.run(gone), f"a page after {selector}")

    def sign_in(self, name: str) -> None:
        """Signs in, whoever was signed in before."""
        self.browser.driver.delete_all_cookies()
        self.open("/sign-in")
        self.reach("#name")
        self.type(name, Keys.TAB, DESK)
        self.press("#key")
        self.browser.wait_text(".who", name)

    def judge(self, *records: str) -> None:
        """Pastes records, and has them judged: none would be refused."""
        self.open("/records")
        self.reach("#text")
        self.browser.type("#text", "\n".join(records))
        self.press("form[action$='/records/judge'] button")
        assert not self.browser.all("tr.refused"), self.browser.text("main")

    def send(self, *records: str) -> None:
        """Pastes records, has them judged, and sends them: all are done."""
        self.judge(*records)
        self.press("form[action$='/records/send'] button")
        self.browser.wait_text("main", f"{len(records)} of {len(records)} done.")

    def tried(self, month: str) -> None:
        """Has cpi try the month on a copy, on the page that is open, and waits until that is done."""
        self.press("form[action$='/try'] button")
        done = f"return !!document.querySelector('form[action$=\"{month}/try\"]')"
        self.browser.wait(lambda: self.browser.run(done), f"the trial of {month}")

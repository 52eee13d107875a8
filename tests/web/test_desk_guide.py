"""A December of the made-up country is closed by the steps of the guide, as it has them: one person prepares it in a
browser, and another one confirms it in another. On the way the desk asks about a price, and its collector answers from a
phone."""

from __future__ import annotations

import csv
import os
import re
import subprocess
import tempfile
import time
from collections.abc import Callable, Iterator
from pathlib import Path
from typing import Optional

import pytest

from .browser import Browser
from lib.places import ROOT
from cpi_tools.office.program import Cpi
from selenium.webdriver.common.keys import Keys
from .desk_pages import PREFIX, Person, desk_pages
from lib.nation import ZONE
from .noted import AGES, takes_notes
from .phone import Phone
from .readable import faults_for_keys, faults_of_page
from .stage import Stage

MONTH = "2025-12"
IN_MEMORY = "/dev/shm"

SECONDS = 300.0

PICTURES = os.environ.get("CPI_PICTURES", "")
"""Where pictures of the pages go, if they are wanted: those of the guide are made so."""

NAMED = "return [...document.querySelectorAll(arguments[0])].findIndex((it) => it.textContent.trim() === arguments[1])"


@pytest.fixture(scope="module")
def lived(cpi: Cpi) -> Iterator[tuple[Path, Path]]:
    """The file of the country before the freeze of its December, and the table that its own run published; in memory, if
    it can be: a disk would keep each of its 165,000 commands, one after another."""
    with tempfile.TemporaryDirectory(dir=IN_MEMORY if os.access(IN_MEMORY, os.W_OK) else None) as room:
        yield office_of(cpi, Path(room))


def office_of(cpi: Cpi, folder: Path) -> tuple[Path, Path]:
    """The same, in a folder."""
    run = [str(ROOT / "examples/national/run"), "--program", str(cpi.path), "--out", str(folder)]
    subprocess.run(run, check=True, capture_output=True)
    records = list[str]()
    with (folder / "records.csv").open(encoding="utf-8", newline="") as file:
        for line in file:
            if f",desk,freeze,{MONTH}" in line:
                break
            records.append(line)
    (folder / "records.csv").unlink()
    path = folder / "office.db"
    words = [str(cpi.path), "replay", "--db", str(path), "--zone", ZONE]
    subprocess.run(words, input="".join(records).encode(), stdout=subprocess.DEVNULL, check=True)
    return path, folder / f"tables/{MONTH}.csv"


def steps() -> list[tuple[str, str]]:
    """The steps of the guide: the page of each, and what it says."""
    guide = (ROOT / "docs/desk/DESK.md").read_text(encoding="utf-8")
    part = guide.partition("### A month, step by step\n")[2].partition("\n### ")[0]
    matches = re.findall(r"^\d+\. \*\*(.+?)\*\*: (.*)$", part, re.M)
    assert len(matches) == part.count("\n1. ") + 6 == 7
    return matches


def another(stage: Stage, home: Path) -> Iterator[Browser]:
    """One more browser, with a home of its own."""
    browser = Browser(stage.url, stage.folder / "ca.crt", home)
    browser.in_front()
    yield browser
    browser.close()


@pytest.fixture
def second(stage: Stage, tmp_path: Path) -> Iterator[Browser]:
    """The browser of the second person."""
    yield from another(stage, tmp_path / "second")


@pytest.fixture
def third(stage: Stage, tmp_path: Path) -> Iterator[Browser]:
    """The browser of a collector's phone."""
    yield from another(stage, tmp_path / "third")


class Follower:
    """Somebody who follows a step: opens the page in bold, and presses the buttons in italics, one after the other."""

    def __init__(self, person: Person):
        self.person, self.browser = person, person.browser
        self.asks: Optional[Callable[[], None]] = None
        """What is done about a price before it is marked as seen."""

    def begin(self, name: str) -> None:
        """Signs in, and opens the month."""
        self.person.sign_in(name)
        self.person.open(f"/month/{MONTH}/")

    def follow(self, page: str, says: str) -> None:
        """Does what a step says."""
        self.go("header nav a", page)
        self.seen(page)
        for button in re.findall(r"\*([^*]+)\*", says):
            if button == "Prepare the freeze":
                self.give_reasons("input[name^='why-']")
            if button == "Seen" and self.asks:
                self.asks()
                self.go("header nav a", page)
            if button == "Confirm, and freeze the month" and self.browser.all("#because"):
                # (it is asked only of prices that move all items by much; --left-out 0 measures none)
                self.give_reasons("#because")
            self.go("main button, header button", button)
            if button == "Run a trial":
                tried = "return !!document.querySelector('form[action$=\"/try\"]')"
                self.wait(tried, "the trial")

    def go(self, selector: str, name: str) -> None:
        """Presses the one link, or the first button, of a name; the next page is there afterwards. *Seen* marks its row
        without one."""
        at = self.browser.run(NAMED, selector, name)
        assert at >= 0, f"{name} isn't on {self.browser.run('return location.pathname')}"
        self.browser.run("document.documentElement.dataset.before = 'yes'")
        self.browser.run("document.querySelectorAll(arguments[0])[arguments[1]].focus()", selector, at)
        self.person.type("\ue007")
        if name == "Seen":
            self.wait("return !!document.querySelector('tr.look[data-seen]')", "the mark")
            return
        gone = "return !document.documentElement.dataset.before && document.readyState === 'complete'"
        self.wait(gone, f"a page after {name}")

    def wait(self, script: str, told: str) -> None:
        """Waits until a script says yes: a freeze of the whole country takes its time on a busy machine."""
        until = time.monotonic() + SECONDS
        while not self.browser.run(script):
            assert time.monotonic() < until, told
            time.sleep(0.2)

    def give_reasons(self, selector: str) -> None:
        """Says of each aggregate why it is carried, or why prices were left unseen; there are some."""
        fields = self.browser.all(selector)
        assert fields
        for field in fields:
            field.send_keys("no shop had it")
        self.seen("reasons")

    def seen(self, name: str) -> None:
        """The page has no fault at either width, and is kept as a picture, if pictures are wanted."""
        for width in (360, 1920, 1280):
            self.browser.size(width, 900)
            assert faults_of_page(self.browser) == [], (name, width)
            if PICTURES:
                self.browser.picture(Path(PICTURES) / f"desk-{name.replace(' ', '-').lower()}-{width}.png", False)
        assert faults_for_keys(self.browser) == [], name


def stays(browser: Browser, text: str) -> None:
    """The page is there for longer than any page waits before it loads itself anew, and says the same."""
    shown, address = browser.text("main"), browser.run("return location.href")
    assert text in shown, shown
    time.sleep(10)
    assert browser.text("main") == shown and browser.run("return location.href") == address
    assert f"/month/{MONTH}/" in address


QUESTION, ANSWER = "Is it still the same pack?", "Looked again: it is"


def asked_and_answered(follower: Follower, phone: Phone) -> None:
    """The desk asks about the price that moves all items most; its collector says on a phone that it is right, and the
    answer is in its row."""
    browser = follower.browser
    row = str(browser.run("return document.querySelector('tr.look').id"))
    collector, slot = row.split("-")[1:3]
    browser.run("document.getElementById(arguments[0]).focus()", row)
    follower.person.type("q")
    follower.person.type(QUESTION, Keys.ENTER)
    browser.wait_text(f"#{row} .notes", "No answer yet")
    answer_from(phone, key_of_collector(collector), int(slot))
    follower.person.open(f"/month/{MONTH}/looks?asked=answered")
    browser.wait_text(f"#{row} .notes", "is right")
    follower.seen("answered")
    stays(browser, ANSWER)


def key_of_collector(number: str) -> str:
    """The key on the sheet of a collector of the made-up country."""
    with open(ROOT / "examples/national/collectors.csv", encoding="utf-8", newline="") as file:
        return next(row["key"] for row in csv.DictReader(file) if row["collector"] == number)


def answer_from(phone: Phone, key: str, slot: int) -> None:
    """The collector signs in, finds the question, and says that the price is right."""
    browser = phone.browser
    browser.size(360, 740)
    phone.open()
    browser.wait_shown("#sign-in")
    phone.give_key(key)
    browser.wait_text("#alarm", "1 question")
    browser.click("#alarm")
    browser.wait_text("#questions", QUESTION)
    browser.click("#questions [data-do=open]")
    browser.wait(lambda: phone.edited() == f"{MONTH}/{slot}", "the form of the question")
    browser.type("#answer-text", ANSWER)
    assert faults_of_page(browser) == []
    browser.click("#answer-right")
    browser.wait(lambda: not browser.find("#questions").is_displayed(), "the answer is with the desk")
    browser.wait_text("#line", "All sent")


def goes_back(browser: Browser) -> None:
    """Back and forward after the freeze send nothing: the month before is a page, and the receipt is there again."""
    for step in (browser.driver.back, browser.driver.forward):
        step()
        time.sleep(5)
        assert "Not done" not in browser.text("h1"), browser.text("h1")
    stays(browser, "is frozen, revision 1")


def drops_too_late(follower: Follower) -> None:
    """Who prepared the freeze has its page open still, and drops it after the other person has confirmed it."""
    browser = follower.browser
    follower.go("#prepared button", "Discard it")
    stays(browser, "There is no longer a prepared freeze: Ben sent it or discarded it")


@pytest.mark.long
def test_a_december_is_closed_by_the_steps_of_the_guide(
    stage: Stage, browser: Browser, second: Browser, third: Browser, lived: tuple[Path, Path], tmp_path: Path
) -> None:
    office, published = lived
    stage.restore({stage.db: office.read_bytes()})
    more = ("--zone", ZONE, "--left-out", "0", "--field-notes", AGES)
    with desk_pages(stage, tmp_path, f"{stage.url}{PREFIX}/", *more) as pages, takes_notes(stage, pages):
        at_work = ada, ben = [Follower(Person(browser, pages)) for browser in (browser, second)]
        ada.asks = lambda: asked_and_answered(ada, Phone(third))
        for follower, name in zip(at_work, ("Ada", "Ben")):
            follower.begin(name)
        follower = ada
        for page, says in steps():
            if "another person signs in" in says:
                follower = ben
                ada.begin("Ada")
                ada.go("header nav a", page)
            follower.follow(page, says)
            if follower is ben and page == "Freeze":
                stays(second, "is frozen, revision 1")
                goes_back(second)
                drops_too_late(ada)
        ben.person.open("/log")
        second.wait_text("main", "is frozen, with")
        log = second.text("main")
        assert "confirmed: " in log and "question 1 was answered by collector" in log
        assert [*second.faults(), *browser.faults(), *third.faults()] == []
        table = stage.ask("GET", f"/api/table/{MONTH}/csv")
        assert table.status == 200 and table.body == published.read_bytes()

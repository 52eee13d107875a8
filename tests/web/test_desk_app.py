"""The desk in a browser: a month from its window to its table, by the keyboard, and pages that can be read."""

from __future__ import annotations

import contextlib
import http.client
import threading
import time
from collections.abc import Iterator, Sequence
from pathlib import Path

from selenium.webdriver.common.keys import Keys

from cpi_tools.text.text_files import line_of
from cpi_tools.desk.records.desk_log import DeskLog
from lib import hostile
from lib.sample import Sample

from .browser import Browser
from .desk_pages import Person, desk_pages
from .offices import ANNA, ARABIC, BENO, DESK, IMAGE, LEAVING, NOW, OVERRIDE, SCRIPT
from .readable import faults_at_sizes, faults_of_page
from .stage import Stage

HOSTILE = tuple(text.replace("\u2029", "") for text in hostile.HOSTILE)
"""Names of outlets, each of which is a line of its own where it is pasted."""

MONTH = "2011-03"
FAR = 9_999_999_000


def priced(stage: Stage, *rows: tuple[str, int, int]) -> None:
    """Two collectors send prices from their phones: key, slot, price."""
    for key, slot, price in rows:
        assert "receipt" in stage.ask("PUT", f"/api/quote/{slot}/{MONTH}", key, f"price,{price},confirm").reply


def opened(ada: Person, stage: Stage) -> None:
    """A window that is open, prices from two phones, and a window that has closed."""
    ada.send(f"calendar,{MONTH},4000,{FAR},{FAR}")
    priced(stage, (ANNA, 1, 216), (ANNA, 2, 730), (BENO, 1, 272))
    ada.open(f"/month/{MONTH}/")
    ada.browser.wait_text("main", "The window closes")
    ada.send(f"calendar,{MONTH},4000,5000,6000")


def test_a_month_is_closed_by_two_people_with_a_keyboard(stage: Stage, ada: Person, browser: Browser) -> None:
    """Rice is at 100 * (216 + 272) / 440 = 110.909091. Flour went from 480 to 730, and the missing price of 500 moves
    with it to 760.4167: 100 * 1490.4167 / 1010 = 147.566010. All items are 0.6 of the one and 0.4 of the other:
    66.5454546 + 59.0264040 = 125.571859."""
    opened(ada, stage)
    ada.open(f"/month/{MONTH}/looks")
    ada.tried(MONTH)
    browser.wait_text("main", "Why: confirmed, the only compared price in its aggregate")
    ada.reach("input[name=text]")
    ada.type("Anna looked again: it is right", Keys.ENTER)
    browser.wait_text(".desk-note", "Anna looked again: it is right")
    ada.type(Keys.ESCAPE, "s")
    browser.wait_text("main", "No prices are left to look at.")
    ada.open(f"/month/{MONTH}/freeze")
    ada.press("form[action$='/prepare'] button")
    browser.wait_text("#prepared", "The record itself")
    assert not browser.all("form[action$='/confirm']")
    ada.pages.kill()
    ada.pages.start()
    ada.sign_in("Ben")
    ada.open(f"/month/{MONTH}/freeze")
    ada.tried(MONTH)
    browser.wait_text("#prepared", "Nothing has changed since the freeze was prepared.")
    signed = browser.text("#prepared")
    assert "+19.8" in signed and "level 125.57" in signed and "Flour, wheat" in signed
    ada.press("form[action$='/confirm'] button")
    stays_a_receipt(ada, browser)
    table = stage.ask("GET", f"/api/table/{MONTH}/csv").body.decode().splitlines()
    assert table[0].startswith("00,1000000,125.571859,")
    ada.open("/log")
    browser.wait_text("main", "is frozen")
    assert browser.faults() == []


LONGER_THAN_A_REFRESH = 10.0
"""Seconds: a page loads itself each 3 of them while a trial runs."""


def stays_a_receipt(ada: Person, browser: Browser) -> None:
    """The page after the freeze is a receipt, and stays one: after a while, loaded anew, and from another application."""
    heading, place = "March 2011 is frozen, revision 1.", f"/month/{MONTH}/freeze/receipt/1"
    browser.wait_text("h1", heading)
    time.sleep(LONGER_THAN_A_REFRESH)
    for _ in range(2):
        assert browser.text("h1") == heading and browser.run("return location.pathname") == place
        assert "Prepared\nAda, " in browser.text(".facts") and "Confirmed\nBen, " in browser.text(".facts")
        browser.driver.refresh()
    ada.pages.kill()
    ada.pages.start()
    ada.sign_in("Ada")
    ada.open(place)
    assert browser.text("h1") == heading and faults_of_page(browser) == []


def test_a_form_of_an_ended_session_comes_back(stage: Stage, ada: Person, browser: Browser) -> None:
    """The application is started anew, so no session is left. What was typed is there after signing in, and goes out
    once."""
    ada.open("/records")
    browser.type("#text", "outlet,78,Typed too late")
    ada.pages.kill()
    ada.pages.start()
    ada.press("form[action$='/records/judge'] button")
    browser.wait_text(".told.bad", "What you filled in is kept: sign in")
    browser.driver.refresh()
    ada.reach("#name")
    ada.type("Ada", Keys.TAB, DESK)
    ada.press("#key")
    browser.wait_text("h1", "Not sent yet")
    assert "Typed too late" in browser.text(".facts")
    ada.press("main form button.main")
    browser.wait_text("main", "1 would be accepted, 0 refused.")
    ada.press("form[action$='/records/send'] button")
    browser.wait_text("main", "1 of 1 done.")
    browser.driver.refresh()
    browser.wait_text("main", "1 of 1 done.")
    kept = (ada.pages.folder / "room/desk.log").read_text(encoding="utf-8")
    assert kept.count('"outlet","78"') == 1


def test_a_desk_that_nobody_touches_closes(stage: Stage, browser: Browser, tmp_path: Path) -> None:
    """The month at a glance loads itself each 45 seconds, and a session ends after a minute here."""
    with desk_pages(stage, tmp_path, "", "--minutes", "1") as pages:
        ada = Person(browser, pages)
        ada.sign_in("Ada")
        ada.send(f"calendar,{MONTH},4000,{FAR},{FAR}")
        ada.open(f"/month/{MONTH}/")
        browser.run("document.documentElement.dataset.first = 'yes'")
        time.sleep(75)
        assert not browser.run("return document.documentElement.dataset.first"), "the page didn't load itself"
        ada.open("/records")
        assert browser.run("return location.pathname") == "/sign-in"


def test_a_reply_that_is_lost_is_looked_up(stage: Stage, ada: Person, browser: Browser, tmp_path: Path) -> None:
    """The office is killed before it answers, and so is the application; the record is in the log, and was never
    done."""
    ada.open("/records")
    browser.type("#text", "outlet,77,Lost and found")
    ada.press("form[action$='/records/judge'] button")
    log = tmp_path / "room/desk.log"
    with stage.standing_still():
        sent = threading.Thread(target=posted, args=(browser, ada.pages.port, "form[action$='/records/send']"))
        sent.start()
        browser.wait(lambda: log.exists() and b"Lost and found" in log.read_bytes())
        stage.stop_office()
        ada.pages.kill()
        sent.join()
    stage.start_office()
    ada.pages.start()
    ada.sign_in("Ben")
    ada.open("/log")
    if browser.all("#waiting"):
        ada.press("#waiting button")
    browser.wait_text("main", "not carried out")
    ada.send("outlet,77,Lost and found")
    ada.pages.kill()
    kept = DeskLog(log)
    assert not kept.open_entries() and len([entry for entry in kept.entries if entry.what == "sent"]) == 2
    kept.close()


def test_a_button_that_is_pressed_twice_sends_once(stage: Stage, ada: Person, browser: Browser) -> None:
    """The page says so meanwhile, and its button can't be pressed again."""
    ada.sign_in("Ada")
    ada.judge("outlet,79,Twice")
    twice = """const form = document.querySelector("form[action$='/records/send']"), button = form.querySelector("button");
        const sent = [];
        form.addEventListener("submit", (event) => sent.push(event));
        button.click();
        button.click();
        const says = form.nextElementSibling.textContent;
        return [sent.map((event) => event.defaultPrevented), button.getAttribute("aria-disabled"), says]"""
    (prevented, disabled, says) = browser.run(twice)
    assert disabled == "true" and says.startswith("This is being carried out.")
    assert len(prevented) == 2
    browser.wait_text("main", "1 of 1 done.")
    log = ada.pages.folder / "room" / "desk.log"
    assert log.read_bytes().count(b"Twice") == 1


def posted(browser: Browser, port: int, selector: str) -> None:
    """Sends a form of the page as the browser would, and waits for an answer or the end. (A browser that is driven says
    nothing until the page after it is there.)"""
    script = "return new URLSearchParams(new FormData(document.querySelector(arguments[0]))).toString()"
    body, cookie = browser.run(script, selector), browser.driver.get_cookie("cpi_desk")
    fields = {"Cookie": f"cpi_desk={cookie['value']}", "Content-Type": "application/x-www-form-urlencoded"}
    line = http.client.HTTPConnection("127.0.0.1", port)
    with contextlib.closing(line), contextlib.suppress(OSError, http.client.HTTPException):
        line.request("POST", "/records/send", body, fields)
        line.getresponse().read()


HEAD = """
const boxOf = (selector) => document.querySelector(selector).getBoundingClientRect();
const isInSight = ({ left, right }) => left >= 0 && right <= innerWidth;
const links = [...document.querySelectorAll("header nav a")];
const current = isInSight(boxOf("header nav [aria-current]"));
const reached = links.filter((link) => { link.focus(); return isInSight(link.getBoundingClientRect()); });
return [boxOf("header.site").height, current, links.length - reached.length];
"""
"""How high the head of a page is, whether the name of this page is in sight, and how many links aren't if they have the focus."""


def test_the_head_of_a_narrow_page_is_two_lines(ada: Person, browser: Browser) -> None:
    """Whoever goes through its links by Tab has each in sight."""
    browser.size(360, 740)
    for path in (f"/month/{NOW}/freeze", "/log"):
        ada.open(path)
        browser.in_front()
        high, is_current_in_sight, out_of_sight = browser.run(HEAD)
        assert high < 110 and is_current_in_sight and not out_of_sight, (path, high)


PATHS = (
    *(
        f"/month/{MONTH}/{text}"
        for text in ("", "table", "looks", "freeze", "release", "what-if", "explain/01.1.1.2-01", "explain/01")
    ),
    *("/calendar", "/records", "/log", "/nowhere"),
)
"""Each kind of page."""


def opened_pages(stage: Stage, ada: Person, paths: Sequence[str]) -> Iterator[str]:
    """Some pages, with texts of others on them."""
    opened(ada, stage)
    ada.send(*(line_of(["outlet", number, text]) for number, text in enumerate(HOSTILE, 70)))
    ada.open(f"/month/{MONTH}/table")
    ada.tried(MONTH)
    for path in paths:
        ada.open(path)
        yield path


def test_pages_can_be_read_on_a_desk_and_on_a_phone(
    stage: Stage, ada: Person, browser: Browser, sample: Sample
) -> None:
    found, others = list[str](), (*HOSTILE, SCRIPT, IMAGE, ARABIC, OVERRIDE, LEAVING)
    for path in opened_pages(stage, ada, sample.of(PATHS, 4, "pages of the desk")):
        found += [f"{path}: {fault}" for fault in faults_at_sizes(browser, others)]
        assert browser.driver.title != "owned"
    assert found == []

"""The desk's prices to look at with a keyboard: keys go through the rows, marks and notes don't load the page anew, and a
note that somebody is writing stays whatever else happens."""

from __future__ import annotations

import urllib.parse
import urllib.request

import pytest
from selenium.webdriver.common.keys import Keys

from .browser import Browser
from .desk_pages import Person
from .offices import ANNA, BENO, DESK
from .readable import faults_at_sizes
from .stage import Stage
from .test_desk_app import FAR, MONTH, priced

FOCUS = "const it = document.activeElement; return it.closest('tr')?.id + ' ' + it.tagName;"
LOOKS = f"/month/{MONTH}/looks"


@pytest.fixture
def rows(stage: Stage, ada: Person, browser: Browser) -> list[str]:
    """Three prices to look at on a page that is open, by their ids; what is kept on the page shows that it stays."""
    for closes in (FAR, 5000):
        row = f"calendar,{MONTH},4000,{closes},{max(closes, 6000)}\n"
        assert b"refused" not in stage.ask("POST", "/api/import", DESK, row).body
        if closes == FAR:
            priced(stage, (ANNA, 1, 416), (ANNA, 2, 1430), (BENO, 1, 672))
    ada.open(LOOKS)
    ada.tried(MONTH)
    browser.run("globalThis.stays = 'yes'")
    rows: list[str] = browser.run("return [...document.querySelectorAll('tr.look')].map((it) => it.id)")
    assert len(rows) == 3
    return rows


def focus(browser: Browser) -> str:
    """The row and the kind of the element with the focus."""
    return str(browser.run(FOCUS))


def stays(browser: Browser) -> bool:
    """Whether the page is the one that was opened."""
    return bool(browser.run("return globalThis.stays === 'yes'"))


def test_keys_go_through_the_rows_and_mark_them(rows: list[str], ada: Person, browser: Browser) -> None:
    for key, at in (("j", 0), ("j", 1), ("j", 2), ("j", 2), ("k", 1), ("k", 0), ("k", 0)):
        ada.type(key)
        assert focus(browser) == f"{rows[at]} TR", (key, at)
    ada.type("s")
    assert focus(browser) == f"{rows[1]} TR"
    browser.wait_text("#counts", "2 to look at; you have seen 1.")
    browser.wait_text(f"#{rows[0]} form.mark", "Mark as not seen")
    ada.type("k", "s")
    browser.wait_text("#counts", "3 to look at; you have seen 0.")
    assert focus(browser) == f"{rows[0]} TR" and stays(browser)
    ada.type("s", "s", "s")
    browser.wait_text("#message", "No prices are left to look at.")
    assert stays(browser) and browser.faults() == []
    ada.open(LOOKS)
    browser.wait_text("main", "No prices are left to look at.")


def test_a_note_that_is_being_written_stays(rows: list[str], ada: Person, browser: Browser, stage: Stage) -> None:
    """Ben notes something of the same price meanwhile, and another row is marked: both are shown, and neither takes the
    note away. A refusal doesn't, nor an application that is away."""
    ada.type("j", "n")
    assert focus(browser) == f"{rows[0]} INPUT"
    ada.type("jks is typed")
    field = f"#{rows[0]} input[name=text]"
    ben_notes(ada, rows[0], "Ben called the shop")
    browser.run("document.querySelector(arguments[0]).requestSubmit()", f"#{rows[1]} form.mark")
    browser.wait_text("#counts", "2 to look at; you have seen 1.")
    assert focus(browser) == f"{rows[0]} INPUT" and browser.run(VALUE, field) == "jks is typed"
    ada.pages.kill()
    ada.type(Keys.ENTER)
    browser.wait_text("#message", "No response came, so the page doesn't know")
    assert focus(browser) == f"{rows[0]} INPUT" and browser.run(VALUE, field) == "jks is typed" and stays(browser)


VALUE = "return document.querySelector(arguments[0]).value"


def test_a_note_goes_out_and_brings_those_of_others(rows: list[str], ada: Person, browser: Browser) -> None:
    ben_notes(ada, rows[0], "Ben called the shop")
    ada.type("j", "n", "It is right")
    ada.type(Keys.ENTER)
    browser.wait_text(f"#{rows[0]} .notes", "It is right")
    assert "Ben called the shop" in browser.text(f"#{rows[0]} .notes")
    browser.wait_text("#message", "Somebody else has noted something about this price in the meantime")
    assert browser.run(VALUE, f"#{rows[0]} input[name=text]") == "" and focus(browser) == f"{rows[0]} INPUT"
    ada.type("again", Keys.ESCAPE)
    assert focus(browser) == f"{rows[0]} TR" and stays(browser)


def ben_notes(ada: Person, row: str, text: str) -> None:
    """Somebody else notes something at another machine."""
    client = urllib.request.build_opener(urllib.request.HTTPCookieProcessor())
    url = ada.pages.url

    def post(path: str, **form: str) -> None:
        client.open(url + path, urllib.parse.urlencode(form).encode()).read()

    post("/sign-in", name="Ben", key=DESK, to="/log")
    page = client.open(f"{url}{LOOKS}").read().decode()
    token = page.partition('name="token" value="')[2].partition('"')[0]
    shown = page.partition(f'id="{row}"')[2].partition('name="checked" value="')[2].partition('"')[0]
    collector, slot, price = shown.split("-")
    post(LOOKS, token=token, collector=collector, slot=slot, price=price, what="note", text=text)


def test_rows_that_are_checked_are_marked_at_once(rows: list[str], ada: Person, browser: Browser) -> None:
    for selector in ("#every input", f"#{rows[2]} input[name=checked]", "#many button[value=seen]"):
        browser.run("document.querySelector(arguments[0]).click()", selector)
    browser.wait_text("#counts", "1 to look at; you have seen 2.")
    assert [browser.text(f"#{row} form.mark") for row in rows] == ["Mark as not seen", "Mark as not seen", "Seen"]
    assert stays(browser) and not browser.all("input[name=checked]:checked")
    assert faults_at_sizes(browser, []) == []


STAYS = """
const [form, field] = [document.querySelector(arguments[0]), document.querySelector("input[name=text]")];
field.value = "half typed";
form.dispatchEvent(new Event("submit", { bubbles: true, cancelable: true }));
const [wasSent, before] = [form.dataset.sent, new Event("beforeunload", { cancelable: true })];
dispatchEvent(before);
return [wasSent, before.defaultPrevented];
"""
"""A form is sent while a note is half typed, and the browser asks whether to leave the page."""


def test_a_form_can_be_sent_again_by_whoever_stayed_on_the_page(rows: list[str], browser: Browser) -> None:
    assert browser.run(STAYS, "form.who") == ["yes", True]
    browser.wait(lambda: not browser.all("form[data-sent], p.waits, [aria-disabled]"), "a form that can be sent")


def test_without_a_script_the_next_row_is_shown(rows: list[str], ada: Person, browser: Browser) -> None:
    browser.run("document.querySelector(arguments[0]).submit()", f"#{rows[0]} form.mark")
    browser.wait(lambda: not stays(browser), "another page")
    browser.wait_text("#counts", "2 to look at; you have seen 1.")
    assert browser.run("return location.hash") == f"#{rows[1]}"


def test_a_note_beside_the_one_that_goes_out_keeps_the_page(rows: list[str], ada: Person, browser: Browser) -> None:
    """The session has ended, so the form leads to the sign-in: the browser asks first, since another note would be lost."""
    browser.run("document.querySelector(arguments[0]).value = 'another'", f"#{rows[1]} input[name=text]")
    ada.pages.kill()
    ada.pages.start()
    browser.run("HTMLFormElement.prototype.submit = () => { globalThis.left = 'yes'; }")
    ada.type("j", "n", "It is right", Keys.ENTER)
    browser.wait(lambda: browser.run("return globalThis.left === 'yes'"), "the form")
    asks = "const it = new Event('beforeunload', { cancelable: true }); dispatchEvent(it); return it.defaultPrevented;"
    assert browser.run(asks)


def test_a_mark_of_an_ended_session_comes_back_after_signing_in(rows: list[str], ada: Person, browser: Browser) -> None:
    ada.pages.kill()
    ada.pages.start()
    ada.type("j", "n", "It is right", Keys.ENTER)
    browser.wait_text(".told.bad", "What you filled in is kept: sign in")
    ada.reach("#name")
    ada.type("Ada", Keys.TAB, DESK)
    ada.press("#key")
    browser.wait_text("main", "It is right")

"""The desk asks a collector about a price: the phone shows the question at its row and in its form, and the answer comes back to
the price, whatever the line does."""

from __future__ import annotations

import json
import os
from collections.abc import Iterator
from pathlib import Path
from typing import Any

import pytest
from selenium.webdriver.common.keys import Keys

from .desk_pages import DeskPages, Person, desk_pages
from .languages import ARABIC
from .noted import AGES, takes_notes
from .offices import ANNA, BENO, DESK
from .phone import Phone
from .readable import faults_for_keys, faults_of_page, faults_of_texts
from .stage import Stage
from .test_desk_app import FAR, MONTH, priced
from lib.hostile import HOSTILE

LOOKS, LIST = f"/month/{MONTH}/looks", f"/month/{MONTH}/questions"
STILL = "Is it still 1 kg?"

FILES_ARE_KEPT = """
const found = [];
for (const name of await caches.keys()) {
  for (const { url } of await (await caches.open(name)).keys()) if (/\\/questions?[a-z-]*\\.(js|css)$/.test(url)) found.push(url);
}
return found.length;
"""


@pytest.fixture
def pages(stage: Stage, tmp_path: Path) -> Iterator[DeskPages]:
    """The application of the desk, which takes notes, and a front that hands them to it."""
    with desk_pages(stage, tmp_path, "", "--field-notes", AGES) as pages, takes_notes(stage, pages):
        yield pages


def window(stage: Stage, closes: int) -> None:
    """The window of the month closes then."""
    row = f"calendar,{MONTH},4000,{closes},{max(closes, 6000)}\n"
    assert b"refused" not in stage.ask("POST", "/api/import", DESK, row).body


def asked(stage: Stage, ada: Person, text: str = STILL) -> None:
    """A far price of Anna's, which she confirmed, and the desk's question about it."""
    window(stage, FAR)
    priced(stage, (ANNA, 1, 416), (ANNA, 2, 730), (BENO, 1, 272))
    window(stage, 5000)
    ada.open(LOOKS)
    ada.tried(MONTH)
    ada.browser.run("globalThis.stays = 'yes'")
    row = ada.browser.find("#look-7-1")
    ada.browser.run("arguments[0].focus()", row)
    ada.type("q")
    ada.type(text, Keys.ENTER)
    ada.browser.wait_text("#look-7-1 .notes", text)
    assert ada.browser.run("return globalThis.stays") == "yes"


def picture(phone: Phone, name: str) -> None:
    """Keeps a picture, if somebody wants to see it."""
    if folder := os.environ.get("CPI_PICTURES"):
        phone.browser.picture(Path(folder) / f"question-{name}.png", False)


def signed_in(phone: Phone, key: str = ANNA) -> Phone:
    """A collector on a small phone, which has kept the page's files."""
    phone.browser.size(360, 640)
    phone.sign_in(key)
    phone.browser.wait(lambda: phone.browser.run_until(FILES_ARE_KEPT) == 7, "the files of questions are kept")
    return phone


def open_question(phone: Phone, slot: int = 1) -> None:
    """Goes by the red button to the list of questions, and opens the first one."""
    phone.browser.click("#alarm")
    assert phone.browser.run("return document.activeElement.id") == "questions-title"
    phone.browser.click("#questions [data-do=open]")
    phone.browser.wait(lambda: phone.edited() == f"{MONTH}/{slot}", "the form of the question")


def kept(stage: Stage, key: str = ANNA) -> Any:
    """The open questions that the desk's machine gives to a collector."""
    return stage.ask("GET", "/notes/questions", key).reply["questions"]


def test_a_question_is_answered_without_a_line_and_comes_back_to_the_price(
    pages: DeskPages, ada: Person, phone: Phone, stage: Stage
) -> None:
    browser = phone.browser
    asked(stage, ada)
    assert browser.text("#look-7-1 .notes .chip") == "No answer yet"
    signed_in(phone)
    browser.wait_text("#alarm", "1 question")
    browser.wait_text("#questions", STILL)
    picture(phone, "list")
    faults = [*faults_of_page(browser), *faults_for_keys(browser)]
    open_question(phone)
    browser.wait_text("#question", f"The desk asks: {STILL}")
    assert browser.text("#answer-right") == "4.16 is right" and "type the right one above" in browser.text(
        "#answer-about"
    )
    picture(phone, "form")
    faults += [*faults_of_page(browser), *faults_for_keys(browser)]
    # (what was typed and not sent is there again, and its row says so)
    browser.type("#answer-text", "Weighed it")
    phone.close()
    phone.wait_told(1, "Typed, not saved")
    picture(phone, "row")
    browser.offline(True)
    phone.edit(1)
    assert browser.find("#answer-text").get_attribute("value") == "Weighed it"
    browser.type("#answer-text", "Weighed it: 1 kg")
    browser.click("#answer-right")
    browser.wait(lambda: phone.edited() is None, "the form is closed")
    browser.wait_text("#line", "1 answer to be sent")
    phone.wait_told(1, "Answer to be sent")
    browser.driver.refresh()
    browser.wait_text("#line", "1 answer to be sent")
    browser.wait_text("#questions", "4.16 is right · Weighed it: 1 kg")
    assert "All sent" not in browser.text("#line") and len(kept(stage)) == 1
    picture(phone, "waiting")
    faults += faults_of_page(browser)
    browser.offline(False)
    browser.wait_text("#line", "All sent")
    assert kept(stage) == [] and not browser.find("#questions").is_displayed()
    assert not browser.find("#alarm").is_displayed() and browser.faults() == []
    ada.open(f"{LOOKS}?show=all&asked=answered")
    browser.wait_text("#look-7-1 .notes", "price 416 is right")
    browser.wait_text("#look-7-1 .notes", "Weighed it: 1 kg")
    picture(phone, "desk-360")
    faults += [*faults_of_page(browser), *faults_for_keys(browser)]
    browser.size(1280, 900)
    picture(phone, "desk-1280")
    assert faults + faults_of_page(browser) == []


def test_a_corrected_price_is_stored_first_and_others_read_nothing(
    pages: DeskPages, ada: Person, phone: Phone, stage: Stage
) -> None:
    browser = phone.browser
    asked(stage, ada)
    assert kept(stage, BENO) == [] and len(kept(stage)) == 1
    window(stage, FAR)
    signed_in(phone)
    browser.wait_text("#alarm", "1 question")
    open_question(phone)
    browser.click("#answer-send")
    browser.wait_text("#answer-fault", "Write your answer first.")
    browser.click("#answer-other")
    assert browser.run("return document.activeElement.id") == "price"
    pages.kill()
    browser.type("#price", "2.16")
    browser.type("#answer-text", "A slip")
    browser.click("#entry-save")
    browser.wait(lambda: phone.edited() is None, "the form is closed")
    browser.wait_text("#questions", "Corrected to 2.16 · A slip")
    browser.wait_text("#questions", "The desk’s machine is busy. The answer will be sent automatically.")
    assert [quote[3] for quote in stage.quotes(ANNA, MONTH) if quote[0] == 1] == [216]
    pages.start()
    phone.send()
    browser.wait_text("#line", "All sent")
    ada.sign_in("Ada")
    ada.open(LIST)
    browser.wait_text("main", "corrected to price 216 (receipt")
    assert "A slip" in browser.text("main")


NOTE_TAKES_LONG = """
const { notes } = await import("/collect/optional.js"), keep = notes.keep;
notes.keep = async (...words) => {
  await new Promise((go) => { globalThis.goOn = go; });
  return keep(...words);
};
"""


def test_an_answer_is_of_the_form_that_was_saved_whichever_is_open_by_then(
    pages: DeskPages, ada: Person, phone: Phone, stage: Stage
) -> None:
    """A note with a photograph takes a while; meanwhile the collector opens the form of another row."""
    browser = phone.browser
    asked(stage, ada)
    window(stage, FAR)
    signed_in(phone)
    browser.wait_text("#alarm", "1 question")
    browser.run_until(NOTE_TAKES_LONG)
    open_question(phone)
    browser.type("#price", "2.16")
    browser.type("#answer-text", "A slip")
    browser.click("#entry-save")
    browser.wait(lambda: browser.run("return Boolean(globalThis.goOn)"), "the note takes long")
    phone.close()
    phone.show("all")
    phone.edit(2)
    browser.run("globalThis.goOn()")
    browser.wait_text("#line", "All sent")
    browser.wait(lambda: kept(stage) == [], "the answer")
    ada.sign_in("Ada")
    ada.open(LIST)
    browser.wait_text("main", "corrected to price 216 (receipt")
    assert "A slip" in browser.text("main")


def test_a_phone_without_the_files_of_questions_takes_notes_all_the_same(
    pages: DeskPages, phone: Phone, stage: Stage
) -> None:
    browser = phone.browser
    browser.cdp("Network.enable")
    browser.cdp("Network.setBlockedURLs", urls=["*/collect/questions.js"])
    try:
        phone.open()
        browser.wait(lambda: browser.run("return Boolean(document.getElementById('note-text'))"), "the form of notes")
        browser.wait_text("body", "isn’t on this phone yet")
        assert not browser.run("return Boolean(document.getElementById('answer-text'))")
    finally:
        browser.cdp("Network.setBlockedURLs", urls=[])


def test_a_question_that_is_withdrawn_meanwhile_takes_no_answer_away(
    pages: DeskPages, ada: Person, phone: Phone, stage: Stage
) -> None:
    browser = phone.browser
    asked(stage, ada, HOSTILE[0])
    signed_in(phone)
    browser.wait_text("#questions", HOSTILE[0])
    open_question(phone)
    assert faults_of_texts(browser, [HOSTILE[0]]) == [] and "owned" not in browser.driver.title
    here = browser.driver.current_window_handle
    browser.driver.switch_to.new_window("tab")
    ada.open(LIST)
    browser.click("#question-1 form[action$='/withdraw'] button")
    browser.wait_text("#question-1", "Ada withdrew the question")
    browser.driver.close()
    browser.driver.switch_to.window(here)
    browser.run("document.getElementById('answer-text').value = arguments[0]", HOSTILE[3])
    browser.click("#answer-send")
    browser.wait_text("#line", "All sent")
    browser.wait(lambda: not browser.find("#questions").is_displayed(), "no question is left")
    ada.open(LIST)
    browser.wait_text("#question-1", HOSTILE[3])
    assert faults_of_texts(browser, [HOSTILE[0], HOSTILE[3]]) == [] and "owned" not in browser.driver.title
    assert browser.faults() == []


def test_once_the_window_has_closed_the_form_says_what_to_write(
    pages: DeskPages, ada: Person, phone: Phone, stage: Stage
) -> None:
    """A price that is saved all the same is refused; its answer waits for it, with why, and goes once the desk has opened
    the window again."""
    browser = phone.browser
    asked(stage, ada)
    row = {"month": MONTH, "opens": 4000, "closes": 5000}
    stage.calendar.write_text(json.dumps({"months": [row]}), encoding="utf-8")
    signed_in(phone)
    open_question(phone)
    assert "The window for this month has closed, so the office won’t accept another price" in browser.text(
        "#answer-about"
    )
    browser.type("#price", "2.16")
    browser.click("#entry-save")
    browser.wait_text("#questions", "Corrected to 2.16")
    browser.wait_text(
        "#questions", "The answer will be sent once the office has stored the price that the answer is about."
    )
    browser.wait_text("#alarm", "1 refused")
    assert len(kept(stage)) == 1
    window(stage, FAR)
    phone.send()
    browser.wait_text("#line", "All sent")
    assert kept(stage) == [] and [quote[3] for quote in stage.quotes(ANNA, MONTH) if quote[0] == 1] == [216]


def test_signing_out_asks_and_leaves_nothing_to_the_next_collector(
    pages: DeskPages, ada: Person, phone: Phone, stage: Stage
) -> None:
    browser = phone.browser
    asked(stage, ada)
    signed_in(phone)
    browser.wait_text("#questions", STILL)
    open_question(phone)
    pages.kill()
    browser.type("#answer-text", "Weighed it")
    browser.click("#answer-send")
    browser.wait_text("#line", "1 answer to be sent")
    browser.click("#leave")
    browser.wait_text("#leaving-text", "1 answer on this phone hasn’t been sent to the desk. Signing out deletes it.")
    browser.click("#leaving-go")
    browser.wait_shown("#sign-in")
    page = browser.run("return document.documentElement.outerHTML")
    assert STILL not in page and "Weighed" not in page
    pages.start()
    phone.give_key(BENO)
    browser.wait(lambda: browser.all("[data-slot]"), "a work list")
    phone.send()
    assert STILL not in browser.run("return document.documentElement.outerHTML")
    assert not browser.find("#alarm").is_displayed()


def test_it_reads_from_right_to_left(stage: Stage, phone: Phone, tmp_path: Path) -> None:
    browser, found = phone.browser, list[str]()
    with desk_pages(stage, tmp_path, "", "--field-notes", AGES, "--language", "ar") as pages:
        ada = Person(browser, pages)
        ada.sign_in("Ada")
        asked(stage, ada, "هل ما زال كيلوغرامًا؟")
        with takes_notes(stage, pages, ARABIC):
            phone.speaks(ARABIC)
            signed_in(phone)
            browser.wait_text("#questions-title", phone.said("Questions from the desk"))
            browser.wait_text("#alarm", phone.words.counted("{count} question", "{count} questions", 1))
            picture(phone, "ar-list")
            found += faults_of_page(browser)
            open_question(phone)
            assert browser.text("#answer-send") == phone.said("Send the text") != "Send the text"
            picture(phone, "ar-form")
            found += [*faults_of_page(browser), *faults_for_keys(browser)]
            browser.type("#answer-text", "نعم")
            browser.click("#answer-send")
            browser.wait(lambda: not browser.find("#questions").is_displayed(), "the answer is with the desk")
            browser.wait_text("#line", phone.said("All sent"))
        ada.open(f"{LOOKS}?show=all")
        browser.wait_text("#look-7-1 .notes", "نعم")
        picture(phone, "ar-desk")
        assert found + faults_of_page(browser) == []

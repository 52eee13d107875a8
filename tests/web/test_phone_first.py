"""The first screen of a small phone: rows of prices, under one line of month, deadline and progress."""

from __future__ import annotations

import json
import os
import time
from pathlib import Path

import pytest

from .languages import ARABIC, ENGLISH, FRENCH, SPANISH, Speech, spoken
from .long_list import give_list
from .offices import NOBODY, NOW
from .phone import Phone
from .readable import faults_of_page
from .stage import Stage

DAY = 86_400

PICTURES = os.environ.get("CPI_PICTURES")

WHOLE_ROWS = """
const head = document.getElementById("head").getBoundingClientRect().bottom;
return [...document.querySelectorAll("[data-slot]")].map((row) => row.closest("li").getBoundingClientRect())
  .filter(({ top, bottom }) => top >= head && bottom <= innerHeight).length;
"""
"""How many rows are seen whole."""


def open_first(phone: Phone, stage: Stage, height: int = 640) -> None:
    """The page as a collector of 45 rows first sees it, 32 days before the window closes."""
    now = int(time.time())
    row = {"month": NOW, "opens": now - DAY, "closes": now + 32 * DAY + 600}
    row |= {"opens_zone": ["CET", 3600], "closes_zone": ["CET", 3600]}
    stage.calendar.write_text(json.dumps({"months": [row]}), encoding="utf-8")
    give_list(stage, 45)
    phone.browser.size(360, height)
    phone.sign_in(NOBODY)


def kept(phone: Phone, name: str) -> None:
    if PICTURES:
        phone.browser.picture(Path(PICTURES) / f"{name}.png", is_whole=False)


@pytest.mark.parametrize("speech", [ENGLISH, FRENCH, SPANISH, ARABIC], ids=["en", "fr", "es", "ar"])
def test_three_rows_are_seen_whole_at_first(phone: Phone, stage: Stage, speech: Speech) -> None:
    with spoken(stage, speech):
        phone.speaks(speech)
        open_first(phone, stage)
        for scheme in ("light", "dark"):
            phone.browser.shown_as(scheme)
            kept(phone, f"first-{speech.language}-{scheme}")
            assert phone.browser.run(WHOLE_ROWS) >= 3
            assert faults_of_page(phone.browser) == []


def test_the_line_unfolds_the_whole_sentences(phone: Phone, stage: Stage) -> None:
    open_first(phone, stage)
    browser = phone.browser
    assert (browser.text("#left"), browser.text("#share").strip()) == ("32 days left", "0 of 45")
    assert not browser.find("#deadline").is_displayed()
    browser.run("document.getElementById('more').focus()")
    phone.press("\ue007")
    browser.wait_shown("#deadline")
    assert browser.find("#more").get_attribute("aria-expanded") == "true"
    assert browser.text("#deadline").endswith(", in 32 days.") and "0 of 45 stored, as of" in browser.text("#progress")
    kept(phone, "first-unfolded")
    assert faults_of_page(browser) == []
    phone.press("\ue007")
    browser.wait(lambda: not browser.find("#deadline").is_displayed(), "it is folded")


def test_the_search_is_behind_its_icon(phone: Phone, stage: Stage) -> None:
    open_first(phone, stage)
    browser = phone.browser
    assert not browser.find("#search").is_displayed()
    browser.tap("#seek")
    browser.wait(lambda: phone.focused() == "search", "the field has the focus")
    phone.press("shop 102")
    assert browser.text("#found") == "5 found"
    kept(phone, "first-search")
    assert faults_of_page(browser) == []
    browser.tap("#seek")
    browser.wait(lambda: not browser.find("#search").is_displayed(), "it is gone")
    assert (browser.text("#found"), len(phone.places())) == ("", 45)


def test_a_row_is_stored_and_its_form_has_the_receipt(phone: Phone, stage: Stage) -> None:
    open_first(phone, stage)
    phone.edit(1)
    phone.fill("1,459")
    phone.browser.wait_text("#entry-refusal", "This could mean more than one price. Which one is it?")
    buttons = [each.text for each in phone.browser.all("#entry-refusal [data-reading]")]
    assert buttons == ["1.46, rounded", "1459.00"]
    kept(phone, "first-readings")
    phone.browser.click("#entry-refusal [data-reading='146']")
    phone.wait_edited(2)
    phone.close()
    phone.wait_told(1, "1.46\nStored")
    phone.browser.wait_shown("#storage p")
    kept(phone, "first-stored")
    assert faults_of_page(phone.browser) == []
    phone.edit(1)
    assert phone.browser.text("#entry-stored") == f"The office has stored: 1.46 (receipt {phone.receipt(1)})."

"""The collectors' list while one works: rows keep their places, the next one is found, and texts of others turn nothing."""

from __future__ import annotations

from typing import Any

import pytest

from .browser import Browser
from .long_list import LONG_ITEM, LONG_OUTLET, give_list, open_list
from .offices import ARABIC, DESK, LEAVING, NOBODY, NOW, OVERRIDE
from .phone import Phone
from .readable import faults_enlarged, faults_for_keys, faults_of_page, faults_of_texts
from .stage import Stage


@pytest.fixture
def many(phone: Phone, stage: Stage) -> Phone:
    """The page with 45 rows in three outlets, each with a last price of 2.00."""
    open_list(phone, stage, 45)
    return phone


# ---- rows keep their places


def test_a_saved_row_stays_until_the_view_is_chosen_again(many: Phone) -> None:
    before = many.places()
    many.tap_row(2)
    many.tap_save("2.10")
    many.wait_edited(3)
    many.browser.tap("#entry-cancel")
    many.wait_edited(None)
    assert many.places() == before
    many.wait_told(2, "Stored")
    many.browser.wait_text("#line", "All sent")
    assert many.places() == before
    many.update()
    assert many.places() == before
    many.show("todo")
    assert "2" not in many.places()


def test_a_tap_where_a_row_was_before_opens_that_row(many: Phone) -> None:
    place = many.browser.middle('[data-slot="3"]')
    many.tap_row(2)
    many.tap_save("2.10")
    many.wait_edited(3)
    many.browser.tap("#entry-cancel")
    many.wait_told(2, "Stored")
    many.browser.touch(*place)
    many.wait_edited(3)


def test_rows_below_a_correction_dont_move_at_its_receipt(many: Phone, stage: Stage) -> None:
    many.enter(2, "2.10")
    many.show("all")
    many.wait_told(2, "Stored")
    stage.relay.held.set()
    many.enter(2, "2.20")
    many.wait_told(2, "Stored: 2.10")
    before = many.places()
    stage.relay.held.clear()
    many.browser.wait(lambda: "Stored: " not in many.told(2), "the receipt of the correction")
    assert many.places() == before and "Stored" in many.told(2)


def test_rows_dont_move_when_the_line_goes_or_comes(many: Phone, stage: Stage) -> None:
    before = many.places()
    stage.front.stop()
    for slot in (1, 2, 3):
        many.tap_row(slot)
        many.tap_save("2.10")
        many.wait_edited(slot + 1)
        many.browser.tap("#entry-cancel")
        many.wait_edited(None)
        many.browser.wait_text("#line", "Offline")
        assert many.places() == before
    stage.front.start()
    many.browser.run("window.dispatchEvent(new Event('online'))")
    many.browser.wait_text("#line", "All sent")
    assert many.places() == before


def test_long_texts_keep_their_lines_as_their_row_is_stored(phone: Phone, stage: Stage) -> None:
    give_list(stage, 8, LONG_ITEM, LONG_OUTLET)
    phone.sign_in(NOBODY)
    phone.browser.size(360, 4000)  # (all rows are in sight)
    phone.show("all")
    before = phone.places()
    phone.edit(1)
    for slot in range(1, 9):
        phone.fill(f"2.{slot}0")
        phone.browser.wait(lambda: phone.edited() != f"{NOW}/{slot}", "it is saved")
    phone.browser.wait_text("#line", "All sent")
    assert phone.places() == before


def test_closing_the_form_leaves_a_list_that_is_in_sight_as_it_is(many: Phone) -> None:
    many.browser.run("document.getElementById('slot-5').scrollIntoView({ block: 'end' })")
    before = many.places()
    many.tap_row(4)
    many.browser.tap("#entry-cancel")
    many.wait_edited(None)
    assert many.places() == before and many.focused() == "4"


def test_a_row_that_is_out_of_sight_is_brought_there_as_the_form_closes(many: Phone) -> None:
    many.edit(30)
    many.browser.run("scrollTo(0, 0)")
    many.close()
    top = many.places()["30"]
    assert 110 < top < 740 - 68 and many.focused() == "30"


FORGOTTEN = """
const change = (await new Promise((end) => { indexedDB.open("cpi-collect").onsuccess = ({ target }) => end(target.result); }))
  .transaction("lists", "readwrite");
change.objectStore("lists").clear();
await new Promise((end) => { change.oncomplete = end; });
"""
"""The phone has no list any more."""


def test_a_list_that_is_on_its_way_isnt_said_to_be_missing(phone: Phone, stage: Stage) -> None:
    phone.sign_in()
    phone.browser.run_until(FORGOTTEN)
    with stage.standing_still():
        phone.open()
        phone.browser.wait_text("#list", "Asking the office for this month’s list…")
    phone.browser.wait_text("#list", "Rice, white")


# ---- from row to row


def test_the_next_row_is_the_next_one_that_is_shown(phone: Phone, stage: Stage) -> None:
    """An outlet's slots needn't be numbered in a row; its rows stand together all the same."""
    rows = [f"collector,9,{NOBODY}", *(f"assign,9,{slot},{10 + slot % 2},MILK,2010-12,2199-12" for slot in range(1, 7))]
    assert stage.ask("POST", "/api/import", DESK, "\n".join(rows)).reply == {"rows": [{"done": True}] * len(rows)}
    phone.sign_in(NOBODY)
    assert [
        *phone.browser.run("return [...document.querySelectorAll('[data-slot]')].map((it) => it.dataset.slot)")
    ] == [*"135246"]
    phone.tap_row(1)
    for price, slot in (("1.01", 3), ("1.03", 5), ("1.05", 2), ("1.02", 4), ("1.04", 6)):
        phone.tap_save(price)
        phone.wait_edited(slot)


# ---- texts of others


TEXTS = (ARABIC, OVERRIDE, LEAVING, f"\u202e{ARABIC} 2")


def test_texts_of_others_turn_nothing_beside_them(phone: Phone, stage: Stage) -> None:
    rows: list[str] = [f"collector,9,{NOBODY}", f"calendar,{NOW},0,9999999998,9999999999"]
    for slot, text in enumerate(TEXTS, 1):
        quoted = f'"{text}"'
        rows += [f"outlet,{60 + slot},{quoted}", f"item,T{slot},{quoted},{quoted},700,1500"]
        rows += [f"assign,9,{slot},{60 + slot},T{slot},2010-12,2199-12"]
    assert stage.ask("POST", "/api/import", DESK, "\n".join(rows)).reply == {"rows": [{"done": True}] * len(rows)}
    phone.open()
    phone.browser.wait_shown("#sign-in")
    phone.browser.type("#name", LEAVING)
    phone.give_key(NOBODY)
    phone.browser.wait(lambda: len(phone.places()) == len(TEXTS), "the rows")
    found: dict[str, Any] = {"to do": faults_of_texts(phone.browser, TEXTS)}
    phone.edit(1)
    for slot in range(1, len(TEXTS) + 1):
        found[f"form {slot}"] = faults_of_texts(phone.browser, TEXTS)
        phone.fill(f"2.{slot}0")
        phone.browser.wait(lambda: phone.edited() != f"{NOW}/{slot}", "it is saved")
    phone.browser.wait_text("#line", "All sent")
    phone.show("quotes")
    found["stored"] = faults_of_texts(phone.browser, TEXTS)
    assert found == {name: [] for name in found}


# ---- eyes, fingers and keys


def looked_at(browser: Browser) -> list[str]:
    """What is wrong with what is seen now."""
    faults = faults_of_page(browser)
    return (
        faults
        if browser.run("return innerWidth") > 600
        else [*faults, *faults_for_keys(browser), *faults_enlarged(browser)]
    )


@pytest.mark.sampled(1)
@pytest.mark.parametrize("width, scheme", [(360, "dark"), (1280, "light")])
def test_the_list_can_be_read_touched_and_enlarged(phone: Phone, stage: Stage, width: int, scheme: str) -> None:
    browser = phone.browser
    browser.size(width, 740)
    browser.shown_as(scheme)
    give_list(stage, 3, LONG_ITEM, LONG_OUTLET)
    phone.sign_in(NOBODY)
    phone.enter(1, "2.10")
    browser.wait_text("#line", "All sent")
    found = {"list": looked_at(browser)}
    phone.search("rice")
    found["search"] = looked_at(browser)
    browser.click("summary")
    found["folded"] = looked_at(browser)
    assert found == {name: [] for name in found}


ENDS = """
scrollTo(0, document.documentElement.scrollHeight);
await new Promise((end) => requestAnimationFrame(() => requestAnimationFrame(end)));
const last = [...document.querySelectorAll("[data-slot]")].at(-1).getBoundingClientRect().bottom;
return document.getElementById("notice").getBoundingClientRect().top - last;
"""
"""How far the last row is above a notice, in pixels, once the page is scrolled to its end."""


def test_a_notice_over_the_end_of_the_page_hides_no_row_and_moves_none_as_it_goes(phone: Phone) -> None:
    phone.sign_in()
    phone.show("all")
    phone.browser.run("location.hash = 'key=none'")
    phone.browser.wait_shown("#notice button")
    assert phone.browser.run_until(ENDS) >= 0
    before = phone.places()
    phone.browser.run("document.querySelector('#notice button').click()")
    phone.browser.wait(
        lambda: phone.browser.run("return document.getElementById('notice').hidden"), "the notice is gone"
    )
    assert phone.places() == before

"""Finding a row in a long list: by a search, by folding outlets, and by a jump to the next one that is to do."""

from __future__ import annotations

import pytest

from .long_list import open_list
from .offices import ANNA, DESK, NOBODY
from .phone import Phone
from .stage import Stage


@pytest.fixture
def many(phone: Phone, stage: Stage) -> Phone:
    """The page with 45 rows in three outlets."""
    open_list(phone, stage, 45)
    return phone


def searched(phone: Phone, text: str) -> list[str]:
    """The slots that a search finds, in the order of the list."""
    phone.search(text)
    found: list[str] = phone.browser.run(
        "return [...document.querySelectorAll('[data-slot]')].filter((it) => it.checkVisibility())"
        ".map((it) => it.dataset.slot)"
    )
    return found


# ---- a jump


def jump(phone: Phone) -> None:
    """Taps the jump, at the top of the page, once that has come to rest after a row was brought into sight."""
    frame = "await new Promise((end) => requestAnimationFrame(end));"
    phone.browser.run_until(frame * 4)
    phone.browser.run("scrollTo(0, 0)")
    phone.browser.tap("#jump")


def test_a_jump_goes_to_the_next_row_that_is_to_do(many: Phone) -> None:
    many.edit(21)
    many.fill("2.10")
    many.wait_edited(22)
    many.close()
    for slot in (23, 24):
        jump(many)
        many.browser.wait(lambda: many.focused() == str(slot), f"slot {slot}")
        assert 110 < many.places()[str(slot)] < 740 - 68
    many.edit(20)
    many.close()
    jump(many)
    many.browser.wait(lambda: many.focused() == "22", "slot 22, since 21 has its price")
    many.edit(45)
    many.close()
    jump(many)
    many.browser.wait(lambda: many.focused() == "1", "the first one, after the last")


def test_a_jump_unfolds_the_outlet_of_its_row(many: Phone) -> None:
    is_shown = "return document.getElementById('slot-1').checkVisibility()"
    many.browser.tap("summary")
    many.browser.wait(lambda: not many.browser.run(is_shown), "the outlet is folded")
    many.browser.tap("#jump")
    many.browser.wait(lambda: many.focused() == "1", "slot 1")
    assert many.browser.run(is_shown)


# ---- a search


@pytest.fixture
def mixed(phone: Phone, stage: Stage) -> Phone:
    """The page with rows whose texts have accents, capitals and letters with a stroke."""
    items = ("Crème fraîche", "CAFÉ moulu", "Łosoś wędzony", "Tea")
    units = ("200 g", "500 g", "1 kg", "1 kg")
    outlets = {90: "Épicerie du Marché", 91: "Ørsted & Søn"}
    rows = [f"outlet,{number},{name}" for number, name in outlets.items()] + [f"collector,9,{NOBODY}"]
    for slot, (item, unit) in enumerate(zip(items, units), 1):
        rows += [f"item,M{slot},{item},{unit},700,1500", f"assign,9,{slot},{90 + (slot > 2)},M{slot},2010-12,2199-12"]
    assert stage.ask("POST", "/api/import", DESK, "\n".join(rows)).reply == {"rows": [{"done": True}] * len(rows)}
    phone.sign_in(NOBODY)
    return phone


FOUND = {
    "creme": "1", "FRAICHE": "1", "café": "2", "cafe\u0301": "2", "losos": "3", "1 kg": "34", "epicerie": "12",
    "orsted son": "34", "marche 500": "2", "tea epicerie": "", "  ": "1234", "g": "1234", "x": "",
}  # fmt: skip
"""Texts of a search, and the slots that each finds."""


def test_a_row_is_found_by_item_unit_and_outlet(mixed: Phone) -> None:
    for text, slots in FOUND.items():
        assert "".join(searched(mixed, text)) == slots, text
        assert mixed.browser.text("#found") == (f"{len(slots)} found" if text.strip() else "")


def test_what_is_stored_is_found_too(mixed: Phone) -> None:
    mixed.enter(1, "2.10")
    mixed.enter(3, "2.30")
    mixed.browser.wait_text("#line", "All sent")
    mixed.show("quotes")
    mixed.search("losos")
    assert [row.is_displayed() for row in mixed.browser.all("[data-quote]")] == [False, True]
    assert mixed.browser.text("#found") == "1 found"


def test_save_and_next_stays_within_what_is_found(mixed: Phone) -> None:
    assert searched(mixed, "1 kg") == ["3", "4"]
    mixed.tap_row(3)
    mixed.tap_save("2.30")
    mixed.wait_edited(4)
    mixed.tap_save("2.40")
    mixed.wait_edited(None)
    assert mixed.focused() == "4"
    mixed.browser.click("#jump")
    assert mixed.browser.text("#found") == "You have entered all of these."


def test_an_outlet_folds_and_a_search_opens_it(many: Phone) -> None:
    def rows() -> int:
        return int(
            many.browser.run("return [...document.querySelectorAll('li')].filter((it) => it.checkVisibility()).length")
        )

    many.browser.tap("summary")
    many.browser.wait(lambda: rows() == 25, "the first outlet is folded")
    many.update()
    assert rows() == 25
    assert len(searched(many, "shop 100")) == 20
    many.browser.run(
        "const it = document.getElementById('search'); it.value = ''; it.dispatchEvent(new Event('input'))"
    )
    many.browser.wait(lambda: rows() == 25, "it is folded again")


def test_by_keyboard_one_finds_a_row_and_enters_it(many: Phone, stage: Stage) -> None:
    many.browser.run("document.getElementById('seek').focus()")
    many.press("\ue007", "102", "\ue004", "\ue007")  # (Tab, Enter: the jump)
    many.browser.wait(lambda: many.focused() == "41", "the first row that is found")
    many.press("\ue007")
    many.wait_edited(41)
    many.press("2.41", "\ue007")
    many.wait_edited(42)
    assert [row[:1] + row[3:4] for row in stage.wait_for_quotes(NOBODY)] == [[41, 241]]
    assert stage.quotes(ANNA) == []

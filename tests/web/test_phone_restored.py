"""The page of a collector after the office was restored from a copy: what it lacks comes back, once, and is told."""

from __future__ import annotations

from collections.abc import Iterator
from pathlib import Path
from typing import Any

import pytest

from .browser import Browser
from .languages import Speech
from .offices import ANNA, BEFORE, NOW
from .phone import Phone
from .stage import Stage
from .unsent import CLOSED, NEXT, OPEN, act, desk, file_of, listed, press_alarm, put, stored, wait_alarm, without_line

Row = tuple[int, int, int]
Rows = list[Row]

ONE = (
    "The office was restored from a copy that lacked {count} of your entries. "
    "This phone sent it again and got a new receipt: {receipts}."
)
MANY = (
    "The office was restored from a copy that lacked {count} of your entries. "
    "This phone sent them again and got new receipts: {receipts}."
)


def told(phone: Phone, count: int, receipts: str) -> str:
    """What the page says of so many entries that were sent again."""
    return phone.words.counted(ONE, MANY, count).replace("{receipts}", receipts)


def wait_told(phone: Phone, count: int, receipts: str) -> None:
    """Waits until the page says so, and nothing is left to send."""
    phone.browser.wait_text("#notice", told(phone, count, receipts))
    phone.browser.wait_text("#line", phone.said("All sent"))


def lost(phone: Phone, stage: Stage) -> None:
    """Four prices; the copy has only the first one."""
    phone.sign_in()
    phone.show("all")
    phone.enter(1, "3.10")
    phone.wait_receipt(1, NEXT)
    copy = stage.copied()
    for at, (slot, price) in enumerate(((2, "4.90"), (3, "0.77"), (4, "1.10")), NEXT + 1):
        phone.enter(slot, price)
        phone.wait_receipt(slot, at)
    stage.restore(copy)
    assert stored(stage) == [[1, 310, NEXT]]


ALL = [[1, 310, 10], [2, 490, 11], [3, 77, 12], [4, 110, 13]]
"""What the office had stored, and has again: slot, price and receipt."""


def test_what_the_office_lacks_is_sent_again_and_told(phone: Phone, stage: Stage, speech: Speech) -> None:
    phone.speaks(speech)
    figure = speech.figure
    phone.sign_in()
    phone.show("all")
    copy = stage.copied()
    for slot, price in ((1, "3.10"), (2, "4.90"), (4, "1.10")):
        phone.enter(slot, figure(price))
        phone.wait_receipt(slot, NEXT + min(slot - 1, 2))
    stage.restore(copy)
    phone.send()
    wait_told(phone, 3, figure("10") + "–" + figure("12"))
    assert stored(stage) == [[1, 310, 10], [2, 490, 11], [4, 110, 12]]
    for slot in (1, 2, 4):
        assert stage.relay.rows(f"quote,{slot},") == 2
    assert phone.browser.faults() == []
    # it stays until it was read
    phone.open()
    wait_told(phone, 3, figure("10") + "–" + figure("12"))
    phone.browser.click("#notice button")
    phone.browser.wait(lambda: phone.browser.text("#notice") == "", "the notice is gone")
    phone.open()
    phone.browser.wait_text("#line", phone.said("All sent"))
    assert phone.browser.text("#notice") == ""
    assert stored(stage) == [[1, 310, 10], [2, 490, 11], [4, 110, 12]]


def test_the_next_receipt_shows_that_the_office_was_restored(phone: Phone, stage: Stage) -> None:
    """Nobody asks for the lists: a receipt that was given before makes the page ask for them."""
    lost(phone, stage)
    phone.enter(1, "3.15")
    wait_told(phone, 3, "12–14")
    assert stored(stage) == [[1, 315, 11], [2, 490, 12], [3, 77, 13], [4, 110, 14]]
    phone.wait_receipt(4, 14)


def test_a_phone_that_was_closed_meanwhile_sends_it_when_it_is_opened(phone: Phone, stage: Stage) -> None:
    lost(phone, stage)
    phone.browser.driver.get("about:blank")
    phone.open()
    wait_told(phone, 3, "11–13")
    assert stored(stage) == ALL


def test_a_batch_that_was_under_way_is_sent_too(phone: Phone, stage: Stage) -> None:
    """The office has stored two more prices, and goes before its answer is there."""
    phone.sign_in()
    phone.show("all")
    phone.enter(1, "3.10")
    phone.wait_receipt(1, NEXT)
    copy = stage.copied()
    phone.enter(2, "4.90")
    phone.wait_receipt(2, NEXT + 1)
    stage.relay.lose = 1
    stage.relay.paused.set()
    phone.enter(3, "0.77")
    phone.enter(4, "1.10")
    assert stage.relay.lost.wait(60)
    stage.restore(copy)
    stage.relay.paused.clear()
    wait_told(phone, 1, "11")
    assert stored(stage) == ALL


def test_receipts_that_arrive_after_the_office_was_restored_count_for_nothing(phone: Phone, stage: Stage) -> None:
    phone.sign_in()
    phone.show("all")
    copy = stage.copied()
    stage.relay.held.set()
    phone.enter(1, "3.10")
    phone.browser.wait(lambda: stored(stage) == [[1, 310, NEXT]], "it is stored")
    stage.restore(copy)
    stage.relay.held.clear()
    phone.wait_receipt(1, NEXT)
    phone.send()
    wait_told(phone, 1, "10")
    assert stored(stage) == [[1, 310, NEXT]]


def test_it_is_kept_without_a_line_and_sent_when_there_is_one(phone: Phone, stage: Stage) -> None:
    lost(phone, stage)
    stage.relay.answers_instead(b"", is_stored=False)
    phone.send()
    phone.browser.wait_text("#line", "The office is busy: 3 entries kept on this phone")
    assert phone.told(2) == "4.90\nTo be sent"
    phone.open()
    phone.browser.wait_text("#line", "The office is busy: 3 entries kept on this phone")
    stage.relay.answers()
    wait_told(phone, 3, "11–13")
    assert stored(stage) == ALL


# ---- what the copy has in place of it


def test_a_correction_that_is_lost_takes_the_place_of_what_it_corrected_again(phone: Phone, stage: Stage) -> None:
    """It is far from the last price, and was confirmed."""
    phone.sign_in()
    phone.show("all")
    phone.enter(1, "3.10")
    phone.wait_receipt(1, NEXT)
    copy = stage.copied()
    phone.enter(1, "9.99")
    phone.confirm()
    phone.wait_receipt(1, NEXT + 1)
    stage.restore(copy)
    phone.send()
    wait_told(phone, 1, "11")
    assert stored(stage) == [[1, 999, NEXT + 1]]


def test_marks_come_back_as_they_were(phone: Phone, stage: Stage) -> None:
    phone.sign_in()
    phone.show("all")
    copy = stage.copied()
    phone.enter(1, mark="missing", reason="stock")
    phone.wait_receipt(1, 10)
    phone.enter(2, "4.90", mark="comparable")
    phone.wait_receipt(2, 11)
    phone.enter(4, "9", mark="other")
    phone.wait_receipt(4, 12)
    stage.restore(copy)
    phone.send()
    wait_told(phone, 3, "10–12")
    assert stage.quotes(ANNA) == [
        [1, NOW, "missing", "stock", 10],
        [2, NOW, "comparable", 490, 11],
        [4, NOW, "other", 900, 12],
    ]


def test_an_entry_that_waited_is_sent_behind_what_the_office_lacks(phone: Phone, stage: Stage) -> None:
    lost(phone, stage)
    without_line(phone)
    phone.enter(2, "4.95")
    phone.browser.offline(False)
    wait_told(phone, 3, "11–13")
    assert stored(stage) == [[1, 310, 10], [2, 495, 14], [3, 77, 12], [4, 110, 13]]
    assert listed(phone) == {} and phone.browser.text("#alarm") == ""


def test_what_the_office_lacks_comes_back_under_an_entry_that_needs_a_look(phone: Phone, stage: Stage) -> None:
    """A tablet had stored 5.00; this phone has written 4.95 without a line, and its collector hasn't chosen yet."""
    phone.sign_in()
    phone.show("all")
    copy = stage.copied()
    without_line(phone)
    phone.enter(2, "4.95")
    assert put(stage, 2, "price,500") == NEXT
    phone.browser.offline(False)
    wait_alarm(phone, "1 to check")
    stage.restore(copy)
    phone.send()
    phone.browser.wait_text("#notice", told(phone, 1, "10"))
    assert stored(stage) == [[2, 500, NEXT]]
    assert phone.told(2).split("\n") == ["4.95", "Check again", "Stored: 5.00"]
    press_alarm(phone)
    act(phone, "open", 2)
    phone.browser.click("#entry-theirs")
    phone.browser.wait_text("#line", "All sent")
    assert stored(stage) == [[2, 500, NEXT]]


# ---- two devices


def test_a_later_price_of_another_device_isnt_overwritten_though_its_receipt_is_smaller(
    phone: Phone, stage: Stage
) -> None:
    """A tablet that didn't know of this phone's prices has stored 0.99 in the meantime, with a receipt given before."""
    lost(phone, stage)
    assert put(stage, 3, "price,99") == NEXT + 1
    phone.send()
    phone.browser.wait_text("#notice", told(phone, 2, "12–13"))
    wait_alarm(phone, "1 to check")
    assert stored(stage) == [[1, 310, 10], [2, 490, 12], [3, 99, 11], [4, 110, 13]]
    question = (
        "The office was restored from a copy. It now has 0.99 (receipt 11). Before that, it had this entry (receipt"
        " 12). Which one is right?"
    )
    assert press_alarm(phone)[f"{NOW}/3"][2] == question
    act(phone, "open", 3)
    assert phone.browser.text("#entry-refusal") == question
    phone.browser.click("#entry-mine")
    phone.browser.wait_text("#line", "All sent")
    assert stored(stage) == [[1, 310, 10], [2, 490, 12], [3, 77, 14], [4, 110, 13]]
    assert phone.browser.text("#alarm") == ""


def test_the_collector_may_keep_the_price_of_the_other_device(phone: Phone, stage: Stage) -> None:
    """The tablet's price has just the receipt that this phone's had."""
    lost(phone, stage)
    assert put(stage, 2, "price,500") == NEXT + 1
    phone.send()
    wait_alarm(phone, "1 to check")
    phone.edit(2)
    phone.browser.click("#entry-theirs")
    phone.browser.wait_text("#line", "All sent")
    assert (phone.told(2).split("\n"), phone.receipt(2)) == (["5.00", "Stored"], 11)
    assert stored(stage) == [[1, 310, 10], [2, 500, 11], [3, 77, 12], [4, 110, 13]]


@pytest.fixture
def tablet(stage: Stage, tmp_path: Path) -> Iterator[Phone]:
    """Another device of the same collector."""
    browser = Browser(stage.url, stage.folder / "ca.crt", tmp_path / "home")
    browser.size(360, 740)
    yield Phone(browser)
    browser.close()


def test_two_devices_of_a_collector_send_each_price_once(phone: Phone, tablet: Phone, stage: Stage) -> None:
    """Each knows what the other one doesn't, and an older price of a slot isn't the last word."""
    copy = stage.copied()
    phone.sign_in()
    phone.show("all")
    phone.enter(1, "3.10")
    phone.wait_receipt(1, 10)
    tablet.sign_in()
    tablet.show("all")
    tablet.wait_receipt(1, 10)
    tablet.enter(2, "4.90")
    tablet.wait_receipt(2, 11)
    phone.enter(1, "3.20")
    phone.wait_receipt(1, 12)
    stage.restore(copy)
    tablet.send()
    wait_told(tablet, 2, "10–11")
    assert stored(stage) == [[1, 310, 10], [2, 490, 11]]
    phone.send()
    wait_told(phone, 1, "12")
    assert stored(stage) == [[1, 320, 12], [2, 490, 11]]
    tablet.send()
    tablet.wait_receipt(1, 12)
    assert tablet.told(1).split("\n")[0] == "3.20"
    assert put(stage, 4, "price,101") == 13


def test_what_another_device_has_stored_since_the_list_came_asks_nothing(phone: Phone, stage: Stage) -> None:
    """It was corrected before the copy's moment: that price is the later one."""
    phone.sign_in()
    phone.show("all")
    phone.enter(1, "3.10")
    phone.wait_receipt(1, 10)
    assert put(stage, 1, "price,330") == 11
    phone.enter(2, "4.90")
    phone.wait_receipt(2, 12)
    copy = stage.copied()
    phone.enter(4, "1.10")
    phone.wait_receipt(4, 13)
    stage.restore(copy)
    phone.send()
    wait_told(phone, 1, "13")
    assert phone.browser.text("#alarm") == ""
    assert stored(stage) == [[1, 330, 11], [2, 490, 12], [4, 110, 13]]


def test_an_equal_price_of_another_device_says_nothing(phone: Phone, stage: Stage) -> None:
    """Its receipt is smaller than the last one of this phone, and nothing is missing."""
    phone.sign_in()
    phone.show("all")
    assert put(stage, 1, "price,310") == 10
    phone.enter(2, "4.90")
    phone.wait_receipt(2, 11)
    asked = len(stage.relay.asked())
    phone.enter(1, "3.10")
    phone.wait_receipt(1, 10)
    phone.browser.wait(lambda: f"GET /quotes/{NOW}/{NOW}" in stage.relay.asked()[asked:], "the page looks")
    phone.browser.wait_text("#line", "All sent")
    assert phone.browser.text("#notice") == ""
    assert stored(stage) == [[1, 310, 10], [2, 490, 11]]


COMPARED = "const { compared } = await import('/collect/quotes.js'); return compared(...arguments);"

CASES: tuple[tuple[str, Rows, Rows, list[tuple[Row, int]]], ...] = (
    ("nothing has changed", [(1, 310, 5), (2, 490, 6)], [(1, 310, 5), (2, 490, 6)], []),
    ("another device has stored more", [(1, 310, 5)], [(1, 320, 6), (2, 490, 7)], []),
    ("one is gone", [(1, 310, 5), (2, 490, 6)], [(1, 310, 5)], [((2, 490, 6), 0)]),
    ("the one before is there", [(1, 310, 5), (2, 490, 6)], [(1, 310, 5), (2, 480, 3)], [((2, 490, 6), 3)]),
    ("one that isn't known", [(1, 310, 5), (2, 490, 6)], [(1, 310, 5), (2, 470, 4)], [((2, 490, 6), 0)]),
    ("the receipt was given again", [(1, 310, 5), (2, 490, 6)], [(1, 310, 5), (2, 500, 6)], [((2, 490, 6), 0)]),
    ("the price was stored again", [(1, 310, 5), (2, 490, 9)], [(1, 310, 5), (2, 490, 6)], []),
    ("corrected before the copy's moment", [(1, 310, 5), (2, 490, 6), (3, 77, 8)], [(1, 320, 7), (2, 490, 6)],
     [((3, 77, 8), 0)]),
    ("stored elsewhere after it", [(1, 310, 5), (2, 490, 7), (3, 77, 6)], [(1, 310, 5), (2, 500, 9)],
     [((2, 490, 7), 0), ((3, 77, 6), 0)]),
)  # fmt: skip
"""Slot, price and receipt of what a phone knows, of what the office has, and of what it lacks, with the receipt of the
quote in its place if the phone had known it: the former one of slot 2 was 4.80, with receipt 3."""


def test_what_the_office_lacks_is_told_from_what_another_device_has_stored(phone: Phone) -> None:
    phone.open()

    def rows(rows: Rows) -> list[list[Any]]:
        return [[slot, NOW, "price", price, receipt] for slot, price, receipt in rows]

    for name, known, quotes, lacks in CASES:
        found = phone.browser.run_until(COMPARED, {"quotes": rows(known), "former": rows([(2, 480, 3)])}, rows(quotes))
        assert found["lost"] == [[*rows([quote]), seen] for quote, seen in lacks], name
        assert found["isBack"] == (bool(lacks) or name == "the price was stored again"), name


# ---- other months


def test_what_cant_be_sent_again_is_shown_until_the_collector_drops_it(
    phone: Phone, stage: Stage, tmp_path: Path
) -> None:
    lost(phone, stage)
    desk(stage, CLOSED)
    phone.send()
    wait_alarm(phone, "3 refused")
    why = (
        "The office had stored this with receipt 11, but was then restored from a copy that lacks it. The window has closed. "
        "Tell the desk; the price won’t count this month unless the desk opens the window again."
    )
    assert press_alarm(phone)[f"{NOW}/2"][1:3] == ["Flour, wheat, 1 kg: 4.90", why]
    row = file_of(phone.browser, "#unsent [data-do=save]", tmp_path)[1]
    assert row == [NOW, "2", "Corner shop", "Flour, wheat", "1 kg", "price", "490", "yes", "", why]
    phone.open()
    wait_alarm(phone, "3 refused")
    press_alarm(phone)
    for slot, left in ((2, "2 refused"), (3, "1 refused"), (4, "")):
        act(phone, "drop", slot)
        phone.browser.click('#dropping [value="drop"]')
        wait_alarm(phone, left)
    assert phone.browser.text("#line") == "All sent"
    phone.send()
    phone.browser.wait_text("#line", "All sent")
    assert phone.browser.text("#alarm") == "" and stored(stage) == [[1, 310, NEXT]]


def test_what_cant_be_sent_again_is_sent_once_the_desk_has_opened_the_window(phone: Phone, stage: Stage) -> None:
    lost(phone, stage)
    desk(stage, CLOSED)
    phone.send()
    wait_alarm(phone, "3 refused")
    desk(stage, OPEN)
    phone.send()
    wait_told(phone, 3, "11–13")
    assert stored(stage) == ALL


def test_what_the_copy_has_no_slot_for_is_sent_once_the_desk_has_sent_that_again(phone: Phone, stage: Stage) -> None:
    copy, assigned = stage.copied(), "assign,7,5,10,MILK,2010-12,2199-12"
    desk(stage, assigned)
    phone.sign_in()
    phone.show("all")
    phone.enter(5, "1.10")
    phone.wait_receipt(5, NEXT)
    stage.restore(copy)
    phone.send()
    wait_alarm(phone, "1 refused")
    desk(stage, assigned)
    phone.send()
    wait_told(phone, 1, "10")
    assert stored(stage) == [[5, 110, NEXT]]


def test_what_the_office_lacks_of_last_month_comes_back_too(phone: Phone, stage: Stage) -> None:
    """Its window is open still, and the page shows the month after it."""
    far = 9_999_999_999
    desk(stage, f"calendar,{BEFORE},4000,{far - 1},{far}")
    phone.sign_in()
    copy = stage.copied()
    phone.browser.click("#month-before")
    phone.show("all")
    phone.wait_receipt(2, 8)
    phone.enter(2, "4.70")
    phone.wait_receipt(2, 10)
    phone.browser.click("#month-after")
    phone.browser.wait(lambda: phone.month() == NOW, "this month")
    stage.restore(copy)
    phone.enter(1, "3.10")
    wait_told(phone, 1, "11")
    assert stored(stage) == [[1, 310, 10]]
    assert [2, BEFORE, "price", 470, 11] in stage.quotes(ANNA, BEFORE)


KEPT = """
const { listsOf } = await import("/collect/kept-lists.js"), { state } = await import("/collect/state.js");
return (await listsOf(state.who)).map(([month]) => month);
"""
"""The months whose lists the phone keeps."""


def test_lists_of_months_that_are_over_arent_kept(phone: Phone, stage: Stage) -> None:
    """The windows of 2011 have closed: of their lists only the last one stays, and that of the month that is shown."""
    months = ("2010-12", "2011-01", "2011-02")
    windows = [f'{{"month":"{month}","opens":{at}000,"closes":{at + 1}000}}' for at, month in enumerate(months)]
    stage.calendar.write_text(f'{{"months":[{",".join(windows)}]}}', encoding="utf-8")
    phone.sign_in()
    for month in months:
        phone.browser.run_until(TURN, month)
        phone.browser.wait_text("#progress", "stored, as of")
    phone.browser.run_until(TURN, NOW)
    phone.send()
    phone.browser.wait(lambda: phone.browser.run_until(KEPT) == ["2011-02", NOW], "older lists are gone")


TURN = """
const { turn } = await import("/collect/shown-month.js"), { state } = await import("/collect/state.js");
const [year, month] = arguments[0].split("-").map(Number), [shown, at] = state.month.split("-").map(Number);
await turn(12 * (year - shown) + month - at);
"""
"""Turns to a month."""

"""A collector with two devices, with two tabs of a browser, and with a browser that is killed: no price is overwritten in
silence, lost or stored twice."""

from __future__ import annotations

from collections.abc import Iterator
from pathlib import Path
from typing import Optional

import pytest
from selenium.webdriver.common.keys import Keys

from .browser import Browser
from .offices import NOW
from .phone import Phone
from .stage import Stage
from .unsent import CLOSED, NEXT, act, clock_faster, desk, listed, press_alarm, put, stored, wait_alarm, without_line
from .wire import Wire, through

# ---- two devices


def overtaken(phone: Phone, stage: Stage) -> None:
    """A price that is written without a line, and another one that a tablet stores before the line is back."""
    phone.sign_in()
    without_line(phone)
    phone.enter(1, "3.15")
    assert put(stage, 1, "price,350") == NEXT
    phone.browser.offline(False)
    wait_alarm(phone, "1 to check")


def asked(phone: Phone) -> None:
    """The form asks which of the two prices is right."""
    phone.browser.wait_shown("#entry-mine")
    told = f"The office has 3.50 (receipt {NEXT}), stored after you typed this. Which one is right?"
    assert phone.browser.text("#entry-refusal") == told
    assert phone.browser.text("#entry-mine") == "Mine: 3.15"
    assert phone.browser.text("#entry-theirs") == "The stored one: 3.50"


def test_a_price_of_another_device_isnt_overwritten_in_silence(phone: Phone, stage: Stage) -> None:
    overtaken(phone, stage)
    assert phone.browser.text("#line") == ""
    assert phone.told(1).split("\n") == ["3.15", "Check again", "Stored: 3.50"]
    phone.send()
    phone.browser.wait_text("#line", "")
    phone.open()
    wait_alarm(phone, "1 to check")
    assert stage.relay.rows("quote,1,") == 0
    assert stored(stage) == [[1, 350, NEXT]]


def test_the_collector_chooses_the_price_of_this_device(phone: Phone, stage: Stage) -> None:
    overtaken(phone, stage)
    press_alarm(phone)
    act(phone, "open", 1)
    asked(phone)
    phone.browser.click("#entry-mine")
    phone.browser.wait_text("#line", "All sent")
    phone.show("all")
    phone.wait_receipt(1, NEXT + 1)
    assert stored(stage) == [[1, 315, NEXT + 1]]


def test_a_choice_asks_again_if_the_other_device_has_stored_a_third_price(phone: Phone, stage: Stage) -> None:
    overtaken(phone, stage)
    press_alarm(phone)
    act(phone, "open", 1)
    assert put(stage, 1, "price,360") == NEXT + 1
    phone.browser.click("#entry-mine")
    phone.wait_told(1, "Stored: 3.60")
    assert "Check again" in phone.told(1)
    assert stored(stage) == [[1, 360, NEXT + 1]]


def test_the_collector_chooses_the_stored_price(phone: Phone, stage: Stage) -> None:
    overtaken(phone, stage)
    press_alarm(phone)
    act(phone, "open", 1)
    asked(phone)
    phone.browser.click("#entry-theirs")
    phone.browser.wait_text("#line", "All sent")
    assert (phone.told(1).split("\n"), phone.receipt(1)) == (["3.50", "Stored"], NEXT)
    assert listed(phone) == {}
    assert stage.relay.rows("quote,1,") == 0
    assert stored(stage) == [[1, 350, NEXT]]


def test_a_line_that_hangs_and_comes_back_as_a_new_one_asks_too(phone: Phone, stage: Stage) -> None:
    """The page has given up waiting for an answer by then."""
    with Wire(stage.port) as wire, through(wire, phone.browser), clock_faster(phone.browser, 30):
        phone.sign_in()
        wire.hang()
        phone.enter(1, "3.15")
        phone.browser.wait_text("#line", "Offline: 1 entry kept on this phone")
        assert put(stage, 1, "price,350") == NEXT
        wire.cut()
        wire.go_on()
        wait_alarm(phone, "1 to check")
        assert stored(stage) == [[1, 350, NEXT]]


def test_a_form_that_was_open_meanwhile_doesnt_overwrite_it_either(phone: Phone, stage: Stage) -> None:
    phone.sign_in()
    without_line(phone)
    phone.enter(1, "3.12")
    phone.edit(1)
    assert put(stage, 1, "price,350") == NEXT
    phone.browser.offline(False)
    wait_alarm(phone, "1 to check")
    phone.fill("3.15")
    phone.browser.wait(lambda: phone.edited() != f"{NOW}/1", "it is saved")
    phone.leave(1)
    phone.wait_told(1, "Check again")
    phone.edit(1)
    asked(phone)
    assert stored(stage) == [[1, 350, NEXT]]


def test_what_was_written_before_it_and_not_saved_doesnt_overwrite_it_either(phone: Phone, stage: Stage) -> None:
    phone.sign_in()
    without_line(phone)
    phone.enter(1, "3.15")
    phone.edit(1)
    phone.retype("3.17")
    phone.close()
    assert put(stage, 1, "price,350") == NEXT
    phone.browser.offline(False)
    wait_alarm(phone, "1 to check")
    phone.edit(1)
    asked(phone)
    phone.press(Keys.ENTER)
    assert phone.browser.find("#price").get_attribute("value") == "3.17" and phone.edited() == f"{NOW}/1"
    phone.retype("3.18", Keys.ENTER)
    phone.browser.wait_text("#line", "All sent")
    assert stage.relay.quotes(NOW) == [f"quote,1,{NOW},price,318"]


def test_a_price_that_both_devices_have_asks_nothing(phone: Phone, stage: Stage) -> None:
    phone.sign_in()
    without_line(phone)
    phone.enter(1, "3.50")
    assert put(stage, 1, "price,350") == NEXT
    phone.browser.offline(False)
    phone.browser.wait_text("#line", "All sent")
    assert phone.browser.text("#alarm") == ""
    assert stored(stage) == [[1, 350, NEXT]]


# ---- replies that are lost


def reply_is_lost(phone: Phone, stage: Stage) -> None:
    """The office stores a price, the phone hears nothing of it, and its line is down."""
    phone.sign_in()
    stage.relay.lose = 1
    stage.relay.paused.set()
    phone.enter(1, "3.10")
    assert stage.relay.lost.wait(60)
    without_line(phone)
    stage.relay.paused.clear()
    phone.browser.wait_text("#line", "Offline: 1 entry kept on this phone")
    assert stored(stage) == [[1, 310, NEXT]]


def test_what_the_phone_stored_itself_asks_nothing(phone: Phone, stage: Stage) -> None:
    reply_is_lost(phone, stage)
    phone.browser.offline(False)
    phone.browser.wait_text("#line", "All sent")
    assert phone.browser.text("#alarm") == ""
    assert stored(stage) == [[1, 310, NEXT]]


def test_a_change_without_a_line_after_a_lost_reply_asks_nothing(phone: Phone, stage: Stage) -> None:
    reply_is_lost(phone, stage)
    phone.enter(1, "3.20")
    phone.enter(1, mark="missing", reason="stock")
    phone.open()
    phone.browser.wait_text("#line", "Offline")
    phone.browser.offline(False)
    phone.browser.wait_text("#line", "All sent")
    assert phone.browser.text("#alarm") == ""
    assert stored(stage) == [[1, "stock", NEXT + 1]]


def test_what_is_taken_back_after_a_lost_reply_has_its_receipt(phone: Phone, stage: Stage) -> None:
    """It stays stored: the collector sees it, and can correct it."""
    reply_is_lost(phone, stage)
    phone.edit(1)
    phone.browser.click("#entry-drop")
    phone.wait_told(1, "To do")
    phone.browser.offline(False)
    phone.wait_receipt(1, NEXT)
    assert phone.browser.text("#line") == "All sent"


# ---- two tabs


def test_a_second_tab_shows_what_the_first_one_enters_stores_and_drops(phone: Phone, stage: Stage) -> None:
    browser = phone.browser
    phone.sign_in()
    phone.show("all")
    first = browser.driver.current_window_handle
    browser.driver.switch_to.new_window("tab")
    phone.open()
    phone.show("all")
    second = browser.driver.current_window_handle

    def seen_by_second(text: str, receipt: Optional[int] = None) -> None:
        browser.driver.switch_to.window(second)
        phone.wait_told(1, text)
        if receipt is not None:
            phone.wait_receipt(1, receipt)
        browser.driver.switch_to.window(first)

    browser.driver.switch_to.window(first)
    stage.relay.held.set()
    phone.enter(1, "3.10")
    seen_by_second("3.10\nTo be sent")
    stage.relay.held.clear()
    seen_by_second("3.10\nStored", NEXT)
    desk(stage, CLOSED)
    phone.enter(1, "3.20")
    seen_by_second("3.20\nRefused\nStored: 3.10")
    browser.driver.switch_to.window(second)
    assert list(press_alarm(phone)) == [f"{NOW}/1"]
    browser.driver.switch_to.window(first)
    press_alarm(phone)
    act(phone, "drop", 1)
    browser.click('#dropping [value="drop"]')
    seen_by_second("3.10\nStored", NEXT)
    browser.driver.switch_to.window(second)
    wait_alarm(phone, "")
    assert not [lines for lines in listed(phone).values() if "Stored." in lines]


# ---- a browser that is killed


@pytest.fixture
def mortal(stage: Stage, tmp_path: Path) -> Iterator[Phone]:
    """A phone whose browser may be killed."""
    browser = Browser(stage.url, stage.folder / "ca.crt", tmp_path / "home")
    browser.size(360, 740)
    yield Phone(browser)
    browser.close()


def test_a_browser_that_is_killed_loses_and_doubles_nothing(mortal: Phone, stage: Stage) -> None:
    """While the office's reply is under way, and right after a save without a line."""
    mortal.sign_in()
    stage.relay.held.set()
    mortal.enter(1, "3.10")
    mortal.browser.wait(lambda: stored(stage) == [[1, 310, NEXT]], "it is stored")
    mortal.browser.killed()
    stage.relay.held.clear()
    mortal.open()
    mortal.browser.wait_text("#line", "All sent")
    mortal.show("all")
    mortal.wait_told(1, "3.10\nStored")
    mortal.wait_receipt(1, NEXT)
    without_line(mortal)
    mortal.edit(2)
    mortal.fill("4.90")
    mortal.browser.wait(lambda: mortal.edited() != f"{NOW}/2", "it is saved")
    mortal.browser.killed()
    mortal.open()
    mortal.browser.wait_text("#line", "All sent")
    assert stored(stage) == [[1, 310, NEXT], [2, 490, NEXT + 1]]
    assert put(stage, 4, "price,101") == NEXT + 2

"""The list of what isn't stored, its questions and its head can be read, touched and enlarged, in light and in dark."""

from __future__ import annotations

from .browser import Browser
from .offices import NOW
from .phone import Phone
from .readable import faults_enlarged, faults_for_keys, faults_of_page
from .stage import Stage
from .unsent import CLOSED, act, desk, press_alarm, put, wait_alarm, without_line


def look(browser: Browser) -> None:
    """Nothing is wrong with what the page shows, on a small phone."""
    browser.shown_as("dark")
    assert faults_of_page(browser) == []
    browser.shown_as("light")
    assert [*faults_of_page(browser), *faults_for_keys(browser), *faults_enlarged(browser)] == []


def test_what_isnt_stored_can_be_read_touched_and_enlarged(phone: Phone, stage: Stage) -> None:
    browser = phone.browser
    browser.size(360, 640)
    phone.sign_in()
    without_line(phone)
    phone.enter(1, "3.15")
    phone.enter(2, "4.90")
    assert put(stage, 1, "price,350") == 10
    desk(stage, CLOSED)
    browser.offline(False)
    wait_alarm(phone, "1 refused, 1 to check")
    look(browser)
    press_alarm(phone)
    look(browser)
    act(phone, "drop", 2)
    look(browser)
    browser.click('#dropping [value="keep"]')
    act(phone, "open", 1)
    look(browser)
    phone.close()
    desk(stage, f"calendar,{NOW},5000,9999999998,9999999999")
    browser.run("document.getElementById('send').click();")
    wait_alarm(phone, "1 to check")
    browser.wait_text("#unsent-list", "Stored.")
    look(browser)
    browser.click("#leave")
    look(browser)

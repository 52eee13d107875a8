"""The deadline on the collectors' page, from the windows that the desk publishes, and the month that follows them."""

from __future__ import annotations

import datetime
import json
import time
from collections.abc import Iterator
from pathlib import Path
from typing import Union

import pytest

from .desk_pages import Person, desk_pages
from .offices import ANNA, DESK, NOW, month_now
from .phone import Phone
from .readable import faults_enlarged, faults_of_page
from .stage import Stage
from .test_phone_devices import reply_is_lost

HOUR, DAY = 3600, 86_400
AFTER = month_now(1)

NAMES = (
    "January", "February", "March", "April", "May", "June", "July", "August", "September", "October", "November",
    "December",
)  # fmt: skip

CLOCK = """
{
  const Real = Date, ahead = () => Number(sessionStorage.getItem("ahead") ?? 0);
  globalThis.Date = class extends Real {
    constructor(...words) { super(...(words.length ? words : [Real.now() + ahead()])); }
    static now() { return Real.now() + ahead(); }
  };
  const wait = setInterval;
  globalThis.setInterval = (work, after) => wait(work, after === 60000 ? 100 : after);
}
"""
"""A clock that can be moved on, and minutes that take a tenth of a second."""


@pytest.fixture
def clock(phone: Phone) -> Iterator[Phone]:
    """The page with a clock that can be moved on."""
    with phone.browser.on_each_page(CLOCK):
        yield phone


def publish_by(stage: Stage, zone: str, ahead: int, closes: int) -> int:
    """Publishes one window with the office's clock, which is so many seconds ahead of UTC; the moment at which it closes."""
    at = int(time.time()) + closes
    row = {"month": NOW, "opens": at - DAY * 9, "closes": at, "opens_zone": [zone, ahead], "closes_zone": [zone, ahead]}
    stage.calendar.write_text(json.dumps({"months": [row]}), encoding="utf-8")
    return at


def publish(stage: Stage, **windows: tuple[float, float]) -> None:
    """Publishes windows that open and close so many seconds from now, `m2026_11=(-DAY, DAY)`."""
    now = int(time.time())
    rows = [(name[1:].replace("_", "-"), *(now + int(at) for at in moments)) for name, moments in windows.items()]
    months = [{"month": month, "opens": opens, "closes": closes} for month, opens, closes in rows]
    before = stage.calendar.stat().st_size if stage.calendar.exists() else 0
    text = json.dumps({"months": months})  # (of another size than before, since a front looks at size and second)
    stage.calendar.write_text(text + " " * (len(text) == before), encoding="utf-8")


def named(month: str) -> str:
    """A month as a word, as `publish` takes it."""
    return "m" + month.replace("-", "_")


def told(stage: Stage, which: str = "closes") -> str:
    """A moment of the first window as the page writes it: `30 November, 18:00`, with its year if that is another one."""
    at = datetime.datetime.fromtimestamp(json.loads(stage.calendar.read_text())["months"][0][which])
    year = "" if at.year == datetime.date.today().year else f" {at.year}"
    return f"{at.day} {NAMES[at.month - 1]}{year}, {at:%H:%M}"


def in_words(month: str) -> str:
    return f"{NAMES[int(month[5:]) - 1]} {month[:4]}"


def move_clock(phone: Phone, days: int) -> None:
    """The phone's clock is moved on, and a minute passes."""
    phone.browser.run("sessionStorage.setItem('ahead', arguments[0])", days * DAY * 1000)


# ---- when a window closes

LEFT = {
    2 * DAY + 60: "in 2 days", 9 * DAY + 20 * HOUR: "in 9 days", 2 * DAY - 60: "in 47 hours", 3 * HOUR + 60: "in 3 hours",
    2 * HOUR - 30: "in 119 minutes", 90: "in 1 minute",
}  # fmt: skip


def test_the_page_tells_when_the_window_closes(phone: Phone, stage: Stage) -> None:
    for seconds, words in LEFT.items():
        publish(stage, **{named(NOW): (-DAY, seconds)})
        if phone.browser.run("return location.href").endswith("/collect/"):
            phone.open()
        else:
            phone.sign_in()
        phone.browser.wait_text("#deadline", f"The window closes on {told(stage)}, {words}.")


def words_by(at: int, ahead: int) -> str:
    """A moment by a clock that is so many seconds ahead of UTC."""
    there = datetime.datetime.fromtimestamp(at, datetime.timezone(datetime.timedelta(seconds=ahead)))
    year = "" if there.year == datetime.date.today().year else f" {there.year}"
    return f"{there.day} {NAMES[there.month - 1]}{year}, {there:%H:%M}"


def test_the_deadline_is_by_the_office_s_clock_and_by_the_phone_s_if_that_differs(phone: Phone, stage: Stage) -> None:
    here = datetime.datetime.now().astimezone().utcoffset()
    own = int(here.total_seconds()) if here else 0
    at = publish_by(stage, "NPT", own + 20_700, DAY * 4)
    phone.sign_in()
    told_so = f"{words_by(at, own + 20_700)} NPT ({words_by(at, own)} on this phone’s clock)"
    phone.browser.wait_text("#deadline", f"The window closes on {told_so}, in 3 days.")
    at = publish_by(stage, "CET", own, DAY * 4 + 60)
    phone.send()
    phone.browser.wait_text("#deadline", f"The window closes on {words_by(at, own)} CET, in 4 days.")


def test_a_window_that_opens_later_or_has_closed_is_told(phone: Phone, stage: Stage) -> None:
    publish(stage, **{named(NOW): (DAY * 3 + 60, DAY * 5)})
    phone.sign_in()
    words = f"The window for {in_words(NOW)} opens on {told(stage, 'opens')}, in 3 days."
    phone.browser.wait(lambda: phone.browser.text("#deadline") == words, words)
    publish(stage, **{named(NOW): (-DAY * 5, -HOUR)})
    phone.send()
    words = f"The window closed on {told(stage)}."
    phone.browser.wait(lambda: phone.browser.text("#deadline") == words, words)
    assert phone.browser.text("#unstored") == ""


def test_entries_that_arent_stored_are_a_warning_and_no_row_moves(phone: Phone, stage: Stage) -> None:
    publish(stage, **{named(NOW): (-DAY, DAY + HOUR)})
    phone.sign_in()
    phone.browser.size(360, 2000)
    before = phone.places()
    assert phone.browser.text("#unstored") == "Everything you entered is stored."
    stage.relay.held.set()
    for slot, text in ((1, "One entry isn’t stored yet."), (2, "2 entries aren’t stored yet.")):
        phone.enter(slot, "4.00")
        assert phone.browser.text("#unstored") == text and phone.places() == before
    assert "late" in str(phone.browser.find("#unstored").get_attribute("class"))
    assert [*faults_of_page(phone.browser), *faults_enlarged(phone.browser)] == []
    stage.relay.held.clear()
    phone.browser.wait_text("#unstored", "Everything you entered is stored.")
    assert phone.places() == before


NONSENSE: tuple[Union[str, bytes], ...] = (
    "", "null", "[]", "{}", '{"months": null}', '{"months": [null]}', '{"months": [{"month": "2026-11"}]}',
    '{"months": [{"month": "NOW", "opens": "1", "closes": 9999999999}]}',
    '{"months": [{"month": "NOW", "opens": 9, "closes": 1}]}', '{"months": [{"month": "NOW", "opens": 9, "closes": 9e17}]}',
    '{"months": [{"month": "NOW", "opens": 9, "closes": 99, "closes_zone": ["<b>", 3600]}]}',
    '{"months": [{"month": "NOW", "opens": 9, "closes": 99, "closes_zone": ["CET", "3600"]}]}',
    '{"months": [{"month": "2026-13", "opens": 9, "closes": 9999999999}]}', "<html></html>", b"\xff\xfe\x00",
)  # fmt: skip


def test_a_calendar_that_makes_no_sense_tells_nothing(phone: Phone, stage: Stage) -> None:
    phone.sign_in()
    assert phone.browser.text("#deadline") == ""  # (there is no file)
    for content in NONSENSE:
        raw = content if isinstance(content, bytes) else content.replace("NOW", NOW).encode()
        stage.calendar.write_bytes(raw)
        found = phone.browser.run_until(
            "const { readWindows } = await import('/shared/windows.js'); return readWindows();"
        )
        assert found is None, content
    phone.open()
    phone.browser.wait_text("#line", "All sent")
    assert (phone.browser.text("#deadline"), phone.browser.faults()) == ("", [])


def test_without_a_line_the_deadline_is_still_there(phone: Phone, stage: Stage) -> None:
    publish(stage, **{named(NOW): (-DAY, 3 * DAY + HOUR)})
    phone.sign_in()
    phone.browser.wait_text("#deadline", told(stage))
    stage.front.stop()
    phone.open()
    phone.browser.wait_text("#line", "Offline")
    assert phone.browser.text("#deadline") == f"The window closes on {told(stage)}, in 3 days."


# ---- when the desk has set another window

OFFICE = "[office]\nagency = EX\narea = XX\noffice = Office of the example\naddress = https://prices.example/index/\n"


def test_a_window_that_the_desk_moves_is_on_the_phone_after_an_update(
    phone: Phone, stage: Stage, tmp_path: Path
) -> None:
    config = tmp_path / "office.ini"
    config.write_text(OFFICE, encoding="utf-8")
    words = ("--site", str(stage.published), "--site-config", str(config))
    with desk_pages(stage, tmp_path, "", *words) as pages:
        phone.sign_in()
        driver = phone.browser.driver
        own = driver.current_window_handle
        driver.switch_to.new_window("tab")
        ada = Person(phone.browser, pages)
        ada.sign_in("Ada")
        closes = int(time.time()) + 5 * DAY + HOUR
        ada.send(f"calendar,{NOW},1000,{closes},{closes}")
        driver.close()
        driver.switch_to.window(own)
        phone.send()
        phone.browser.wait_text("#deadline", f"The window closes on {told(stage)}, in 5 days.")
    (row,) = [month for month in json.loads(stage.calendar.read_text())["months"] if month["month"] == NOW]
    assert row["closes"] == closes


def sets(stage: Stage, opens: float, closes: float) -> None:
    """The desk sets the window of the month at the office, so many seconds from now; phones aren't told."""
    now = int(time.time())
    row = f"calendar,{NOW},{now + int(opens)},{now + int(closes)},{now + 90 * DAY}\n"
    assert b"refused" not in stage.ask("POST", "/api/import", DESK, row).body


def test_no_phone_says_closed_while_the_office_stores(phone: Phone, stage: Stage) -> None:
    publish(stage, **{named(NOW): (-DAY * 5, -HOUR)})
    phone.sign_in()
    phone.browser.wait_text("#deadline", "The window closed on")
    phone.enter(1, "3.21")
    words = f"The office accepts prices for {in_words(NOW)}. This phone doesn’t know the deadline yet."
    phone.browser.wait_text("#deadline", words)
    assert len(stage.wait_for_quotes(ANNA)) == 1
    phone.open()
    phone.browser.wait_text("#line", "All sent")
    assert phone.browser.text("#deadline") == words
    publish(stage, **{named(NOW): (-DAY * 5, 3 * DAY + HOUR)})
    phone.send()
    phone.browser.wait_text("#deadline", f"The window closes on {told(stage)}, in 3 days.")


def test_a_window_that_has_closed_at_the_office_isnt_open_on_the_phone(phone: Phone, stage: Stage) -> None:
    publish(stage, **{named(NOW): (-DAY * 5, 3 * DAY)})
    phone.sign_in()
    phone.enter(1, "3.21")
    assert len(stage.wait_for_quotes(ANNA)) == 1
    sets(stage, -9 * DAY, -DAY)
    phone.enter(2, "4.00")
    phone.browser.wait_text("#deadline", f"The office says that the window for {in_words(NOW)} has closed.")
    # (what the office has gets its receipt at any moment, which says nothing of the window)
    publish(stage, **{named(NOW): (-DAY * 9, -DAY + 1)})
    phone.send()
    phone.browser.wait_text("#deadline", "The window closed on")
    phone.enter(1, "3.21")
    phone.wait_told(1, "Stored")
    phone.browser.wait_text("#line", "")
    assert "The window closed on" in phone.browser.text("#deadline")
    sets(stage, DAY, 2 * DAY)
    publish(stage, **{named(NOW): (-DAY * 9, DAY)})
    phone.send()
    phone.enter(3, "5.00")
    phone.browser.wait_text("#deadline", f"The office says that the window for {in_words(NOW)} isn’t open yet.")


def test_a_receipt_whose_answer_was_lost_says_nothing_of_the_window(phone: Phone, stage: Stage) -> None:
    """The office stored the price in time, and the phone hears of it after the end."""
    publish(stage, **{named(NOW): (-DAY * 9, -DAY + 1)})
    reply_is_lost(phone, stage)
    sets(stage, -9 * DAY, -DAY)
    phone.browser.offline(False)
    phone.browser.wait_text("#line", "All sent")
    assert "The window closed on" in phone.browser.text("#deadline")


# ---- which month is shown

CHOSEN: dict[str, tuple[dict[str, tuple[float, float]], str]] = {
    "no window": ({}, NOW),
    "the open one": ({named(NOW): (-DAY, DAY), named(AFTER): (DAY, 9 * DAY)}, NOW),
    "the next to open": ({named(NOW): (-9 * DAY, -DAY), named(AFTER): (DAY, 9 * DAY)}, AFTER),
    "of two the one that closes first": ({named(AFTER): (-DAY, 2 * DAY), named(NOW): (-9 * DAY, DAY)}, NOW),
    "none any more": ({named(AFTER): (-9 * DAY, -DAY)}, NOW),
}


def test_the_month_is_that_of_the_window(phone: Phone, stage: Stage) -> None:
    phone.open()
    for windows, month in CHOSEN.values():
        publish(stage, **windows)
        found = phone.browser.run_until(
            "const { currentMonth } = await import('/collect/deadline.js');"
            "const { readWindows } = await import('/shared/windows.js');"
            "const { state } = await import('/collect/state.js'); state.windows = await readWindows();"
            "return currentMonth();"
        )
        assert found == month, windows


def test_a_page_that_stays_open_for_a_week_follows_the_window(clock: Phone, stage: Stage) -> None:
    publish(stage, **{named(NOW): (-DAY, 3 * DAY), named(AFTER): (4 * DAY, 30 * DAY)})
    clock.sign_in()
    clock.browser.wait_text("#month", in_words(NOW))
    move_clock(clock, 7)
    clock.browser.wait_text("#month", in_words(AFTER))
    clock.browser.wait_text("#deadline", "in 22 days")
    assert stage.quotes(ANNA) == []


def test_the_month_never_turns_under_a_form(clock: Phone, stage: Stage) -> None:
    publish(stage, **{named(NOW): (-DAY, 3 * DAY), named(AFTER): (4 * DAY, 30 * DAY)})
    clock.sign_in()
    clock.edit(1)
    clock.press("3.2")
    move_clock(clock, 7)
    clock.browser.run("document.dispatchEvent(new Event('visibilitychange'))")
    clock.browser.wait_text("#deadline", "The window closed on")  # (a minute has passed)
    assert (clock.browser.text("#month"), clock.edited()) == (in_words(NOW), f"{NOW}/1")
    clock.press("1")
    clock.browser.tap("#entry-save")
    clock.wait_edited(2)
    assert [row[:4] for row in stage.wait_for_quotes(ANNA)] == [[1, NOW, "price", 321]]
    clock.browser.tap("#entry-cancel")
    clock.browser.wait_text("#month", in_words(AFTER))


def test_a_collector_who_comes_back_sees_the_month_of_the_window(phone: Phone, stage: Stage) -> None:
    with phone.browser.on_each_page(CLOCK.replace("60000 ? 100", "60000 ? 600000")):
        publish(stage, **{named(NOW): (-DAY, 3 * DAY), named(AFTER): (4 * DAY, 30 * DAY)})
        phone.sign_in()
        move_clock(phone, 7)
        assert phone.browser.text("#month") == in_words(NOW)
        phone.browser.run("document.dispatchEvent(new Event('visibilitychange'))")
        phone.browser.wait_text("#month", in_words(AFTER))

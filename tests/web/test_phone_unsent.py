"""The page of a collector counts and lists what the office hasn't stored, tries it again, and lets it be taken out."""

from __future__ import annotations

import time

from selenium.webdriver.common.keys import Keys

from .offices import ANNA, BEFORE, BENO, NOW, month_now
from .phone import Phone
from .stage import Stage
from .unsent import (
    CLOSED_TEXT,
    NEXT,
    OPEN,
    act,
    clock_faster,
    desk,
    listed,
    press_alarm,
    put,
    refused,
    stored,
    tops,
    wait_alarm,
    without_line,
)


# ---- the head and the list


def three_kinds(phone: Phone, stage: Stage) -> None:
    """Entries of a window that closed, of a slot that was handed over, and of one that another device has priced."""
    phone.sign_in()
    phone.browser.click("#month-before")
    phone.show("all")
    phone.wait_receipt(4, 9)
    without_line(phone)
    phone.enter(4, "1.10")
    phone.browser.click("#month-after")
    phone.enter(1, "3.10")
    phone.enter(2, "4.90")
    phone.browser.wait_text("#line", "Offline: 3 entries kept on this phone")
    desk(stage, f"handover,7,1,8,3,{NOW}")
    assert put(stage, 2, "price,500") == NEXT
    phone.browser.offline(False)
    wait_alarm(phone, "2 refused, 1 to check")


def test_the_head_counts_what_isnt_stored_of_all_months_and_leads_to_it(phone: Phone, stage: Stage) -> None:
    three_kinds(phone, stage)
    assert phone.browser.text("#line") == ""
    phone.send()
    phone.browser.wait(lambda: not phone.browser.all('[data-slot="1"]'), "the slot has left the list")
    alarm = press_alarm(phone)
    assert phone.browser.run("return document.activeElement.id") == "unsent-title"
    assert list(alarm) == [f"{BEFORE}/4", f"{NOW}/1", f"{NOW}/2"]
    october, handed_over, moved = alarm.values()
    assert october[0].endswith(" · <img src=x onerror=\"document.title='owned'\">")
    assert october[1:3] == ["Milk, whole, 1 l: 1.10", CLOSED_TEXT]
    assert handed_over[0].endswith(" · Corner shop")
    assert handed_over[1:3] == [
        "Rice, white, 1 kg: 3.10",
        "The slot isn’t yours in that month, or no longer is. Check the work list of the month.",
    ]
    assert moved[1:3] == [
        "Flour, wheat, 1 kg: 4.90",
        f"The office has 5.00 (receipt {NEXT}), stored after you typed this. Which one is right?",
    ]


def test_all_sent_is_said_once_nothing_is_left_on_the_phone(phone: Phone, stage: Stage) -> None:
    three_kinds(phone, stage)
    press_alarm(phone)
    for slot, month, left in ((4, BEFORE, "1 refused, 1 to check"), (1, NOW, "1 to check"), (2, NOW, "")):
        assert phone.browser.text("#line") == ""
        act(phone, "drop", slot, month)
        phone.browser.click('#dropping [value="drop"]')
        wait_alarm(phone, left)
    assert phone.browser.text("#line") == "All sent"
    assert not phone.browser.find("#unsent").is_displayed()
    phone.open()
    phone.browser.wait_text("#line", "All sent")
    assert stored(stage) == [[2, 500, NEXT]]


def test_an_entry_is_dropped_after_a_question_that_escape_answers_with_no(phone: Phone, stage: Stage) -> None:
    refused(phone, stage, (1, "3.10"), (2, "4.90"))
    press_alarm(phone)
    act(phone, "drop", 1)
    asked = phone.browser.text("#dropping-text")
    assert asked.startswith("Rice, white, 1 kg: 3.10, ") and ", Corner shop. The office hasn’t stored it" in asked
    phone.press(Keys.ESCAPE)
    phone.browser.wait(lambda: not phone.browser.find("#dropping").is_displayed(), "the question is gone")
    assert list(listed(phone)) == [f"{NOW}/1", f"{NOW}/2"]
    act(phone, "drop", 1)
    phone.press(Keys.ENTER)  # (what has the focus keeps it)
    phone.browser.wait(lambda: not phone.browser.find("#dropping").is_displayed(), "the question is gone")
    assert phone.browser.text("#alarm") == "2 refused"
    act(phone, "drop", 1)
    phone.browser.click('#dropping [value="drop"]')
    wait_alarm(phone, "1 refused")
    assert list(listed(phone)) == [f"{NOW}/2"]
    phone.open()
    wait_alarm(phone, "1 refused")
    assert "To do" in phone.told(1)


def test_a_refused_correction_shows_what_the_office_still_has(phone: Phone) -> None:
    phone.sign_in()
    phone.refuse_correction()
    assert phone.told(1).split("\n") == ["3.10", "Refused", "Stored: 3.20"]
    assert phone.browser.text("#progress").startswith("3 of 4 stored")


FOCUSED = "const it = document.activeElement; return it.closest('[data-unsent]')?.dataset.unsent ?? it.id;"


def test_one_goes_through_the_list_without_losing_ones_place(phone: Phone, stage: Stage) -> None:
    refused(phone, stage, (1, "3.10"), (2, "4.90"))
    press_alarm(phone)
    for keys in ((Keys.ESCAPE,), ("3.33", Keys.ENTER)):
        act(phone, "open", 1)
        phone.press(*keys)
        phone.browser.wait(lambda: phone.edited() is None, "the form is closed")
        phone.browser.wait(lambda: phone.browser.run(FOCUSED) == f"{NOW}/1", "the row has the focus")
    for slot, focused in ((1, "unsent-title"), (2, "show-todo")):
        act(phone, "drop", slot)
        phone.browser.click('#dropping [value="drop"]')
        phone.browser.wait_text("#alarm" if slot == 1 else "#line", "1 refused" if slot == 1 else "All sent")
        phone.browser.wait(lambda: phone.browser.run(FOCUSED) == focused, f"{focused} has the focus")


def test_what_waits_without_a_row_in_the_list_is_listed(phone: Phone, stage: Stage) -> None:
    """The slot leaves the list before its price is sent."""
    phone.sign_in()
    without_line(phone)
    phone.enter(1, "3.10")
    desk(stage, f"handover,7,1,8,3,{NOW}")
    stage.relay.answers_instead(b"", is_stored=False)
    phone.browser.offline(False)
    phone.browser.wait_text("#line", "The office is busy: 1 entry")
    assert listed(phone) == {}
    work = stage.ask("GET", f"/api/work/{NOW}", ANNA).body.decode()
    phone.browser.run_until(LIST_COMES, work)
    phone.open()
    phone.browser.wait_text("#unsent-list", "It is waiting to be sent.")
    assert list(listed(phone)) == [f"{NOW}/1"]


LIST_COMES = """
const { keepList } = await import("/collect/kept-lists.js"), { state } = await import("/collect/state.js");
await keepList(state, state.month, { work: JSON.parse(arguments[0]).work, quotes: [], at: Date.now() });
"""
"""As another tab keeps a list that has come."""

# ---- tried again


def test_what_was_refused_for_a_while_is_stored_by_itself_once_its_window_opens(phone: Phone, stage: Stage) -> None:
    """Of this month the window has closed, of the next it isn't open yet."""
    after = month_now(1)
    desk(stage, f"calendar,{after},9999999997,9999999998,9999999999")
    with clock_faster(phone.browser, 60):
        refused(phone, stage, (1, "3.10"))
        phone.browser.click("#month-after")
        phone.browser.wait(lambda: phone.month() == after and slots(phone), "the list of the next month")
        phone.enter(2, "4.90")
        wait_alarm(phone, "2 refused")
        desk(stage, OPEN, f"calendar,{after},5000,9999999998,9999999999")
        phone.browser.wait_text("#line", "All sent")  # (nobody touches the page)
    quotes = stage.quotes(ANNA) + stage.quotes(ANNA, after)
    assert [row[:4] for row in quotes] == [[1, NOW, "price", 310], [2, after, "price", 490]]
    assert sorted(row[4] for row in quotes) == [NEXT, NEXT + 1]


def test_what_was_refused_for_a_while_is_tried_after_one_two_and_four_minutes(phone: Phone, stage: Stage) -> None:
    with clock_faster(phone.browser, 120):
        refused(phone, stage, (1, "3.10"))
        phone.browser.wait(lambda: stage.relay.rows("quote,1,") == 4, "three more tries")
    times = [at for at, head in zip(stage.relay.times, stage.relay.asked()) if head == "POST /import"]
    waits = [120 * (then - now) for now, then in zip(times[-4:], times[-3:])]
    assert all(wait > 59 * 2**n for n, wait in enumerate(waits)), waits


def test_update_tries_at_once_what_was_refused(phone: Phone, stage: Stage) -> None:
    refused(phone, stage, (1, "3.10"))
    desk(stage, OPEN)
    phone.send()
    phone.browser.wait_text("#line", "All sent")
    assert stored(stage) == [[1, 310, NEXT]]


def test_update_without_a_line_tries_it_once_the_line_is_back(phone: Phone, stage: Stage) -> None:
    refused(phone, stage, (1, "3.10"))
    without_line(phone)
    phone.send()
    time.sleep(0.5)  # (the page has tried, and nothing came)
    desk(stage, OPEN)
    phone.browser.offline(False)
    phone.browser.wait_text("#line", "All sent")
    assert stored(stage) == [[1, 310, NEXT]]


def test_a_price_that_the_office_alone_finds_far_isnt_tried_again(phone: Phone, stage: Stage) -> None:
    """The phone's list has no last price yet, so it asks for no second look itself."""
    phone.sign_in()
    desk(stage, f"calendar,{BEFORE},4000,9999999998,9999999999")
    stage.ask("PUT", f"/api/quote/3/{BEFORE}", ANNA, "price,100")
    phone.enter(3, "9.99")
    wait_alarm(phone, "1 to check")
    assert "Check again" in phone.told(3)
    phone.send()
    time.sleep(0.5)
    assert stage.relay.rows("quote,3,") == 1
    press_alarm(phone)
    act(phone, "open", 3)
    phone.confirm()
    phone.browser.wait_text("#line", "All sent")
    assert stage.quotes(ANNA)[0][2:4] == ["price", 999]


# ---- what is shown stays in its place


def slots(phone: Phone) -> list[str]:
    """The slots of the rows that are shown."""
    slots: list[str] = phone.browser.run(
        "return [...document.querySelectorAll('[data-slot]')].map((it) => it.dataset.slot)"
    )
    return slots


def test_nothing_moves_when_what_is_listed_gets_stored(phone: Phone, stage: Stage) -> None:
    refused(phone, stage, (1, "3.10"), (2, "4.90"))
    press_alarm(phone)
    act(phone, "open", 1)
    phone.fill("3.33")
    phone.browser.wait(lambda: phone.edited() is None, "the form is closed")
    before = tops(phone.browser, "[data-unsent], [data-slot]")
    desk(stage, OPEN)
    phone.browser.run("document.getElementById('send').click();")  # (without scrolling there)
    phone.browser.wait_text("#line", "All sent")
    assert tops(phone.browser, "[data-unsent], [data-slot]") == before
    assert [lines[1:] for lines in listed(phone).values()] == [
        ["Rice, white, 1 kg: 3.33", "Stored."],
        ["Flour, wheat, 1 kg: 4.90", "Stored."],
    ]
    phone.show("todo")
    assert listed(phone) == {}


def test_an_entry_that_is_taken_back_from_the_list_isnt_said_to_be_stored(phone: Phone, stage: Stage) -> None:
    refused(phone, stage, (1, "3.10"), (2, "4.90"))
    press_alarm(phone)
    act(phone, "open", 1)
    phone.browser.click("#entry-drop")
    wait_alarm(phone, "1 refused")
    assert list(listed(phone)) == [f"{NOW}/2"]
    assert "To do" in phone.told(1)


LIST_CAME = "return (await import('/collect/state.js')).state.list.at"
"""When the list came that the page shows."""


def test_rows_stay_in_to_do_until_a_view_is_chosen(phone: Phone, stage: Stage) -> None:
    phone.sign_in()
    phone.enter(1, "3.10")
    phone.wait_receipt(1, NEXT)
    before = phone.browser.run_until(LIST_CAME)
    phone.send()
    phone.browser.wait(lambda: phone.browser.run_until(LIST_CAME) > before, "the list comes again")
    assert slots(phone) == ["1", "2", "3", "4"]
    phone.show("todo")
    assert slots(phone) == ["2", "3", "4"]


def test_rows_dont_move_when_a_correction_is_stored(phone: Phone, stage: Stage) -> None:
    phone.sign_in()
    phone.show("all")
    phone.enter(1, "3.10")
    phone.wait_receipt(1, NEXT)
    stage.relay.held.set()
    phone.enter(1, "3.15")
    phone.wait_told(1, "Stored: 3.10")
    before = tops(phone.browser, "[data-slot]")
    stage.relay.held.clear()
    phone.wait_receipt(1, NEXT + 1)
    assert tops(phone.browser, "[data-slot]") == before


def test_the_next_collector_doesnt_wait_for_a_line_that_hangs(phone: Phone, stage: Stage) -> None:
    phone.sign_in()
    stage.relay.held.set()
    phone.enter(1, "3.10")
    phone.browser.wait(lambda: stage.relay.rows("quote,1,") == 1, "the price is under way")
    phone.browser.click("#leave")
    phone.browser.click("#leaving-go")
    phone.browser.wait_shown("#sign-in")
    phone.give_key(BENO)
    phone.browser.wait_text("#list", "Market hall")
    assert stage.relay.held.is_set()
    stage.relay.held.clear()

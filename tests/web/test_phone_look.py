"""The second look: a price that is far from the last one is asked about before its form closes, whatever the line."""

from __future__ import annotations

from collections.abc import Callable
from contextlib import AbstractContextManager, contextmanager
from typing import Iterator

import pytest
from selenium.webdriver.common.keys import Keys

from .offices import ANNA, NOW
from .phone import Phone
from .stage import Stage


@contextmanager
def up(_: Phone, __: Stage) -> Iterator[None]:
    """A line as it should be."""
    yield


@contextmanager
def hanging(phone: Phone, stage: Stage) -> Iterator[None]:
    """Replies to what is sent don't come."""
    stage.relay.held.set()
    yield
    stage.relay.held.clear()


@contextmanager
def away(phone: Phone, stage: Stage) -> Iterator[None]:
    """The office is away, and the front answers."""
    stage.stop_office()
    yield
    stage.start_office()


@contextmanager
def offline(phone: Phone, stage: Stage) -> Iterator[None]:
    """The phone has no line."""
    phone.browser.offline(True)
    yield
    phone.browser.offline(False)


State = Callable[[Phone, Stage], AbstractContextManager[None]]


@pytest.mark.parametrize("state", [up, hanging, away, offline])
def test_a_far_price_is_asked_about_before_the_form_closes(phone: Phone, stage: Stage, state: State) -> None:
    phone.sign_in()
    with state(phone, stage):
        phone.edit(1)
        phone.fill("3.21")
        phone.wait_edited(2)
        phone.fill("9.99")
        phone.browser.wait_text("#entry-refusal", "Last price 4.80. Usual range: 3.36 to 7.20.")
        assert phone.edited() == f"{NOW}/2" and not any(row.startswith("quote,2,") for row in stage.relay.quotes(NOW))
        phone.confirm()
    phone.send()
    phone.browser.wait_text("#progress", "2 of 4 stored")
    assert [row[:1] + row[3:4] for row in stage.quotes(ANNA)] == [[1, 321], [2, 999]]
    assert {row for row in stage.relay.quotes(NOW) if row.startswith("quote,2,")} == {
        f"quote,2,{NOW},price,999,confirm"
    }


def test_what_is_pressed_twice_confirms_nothing(phone: Phone, stage: Stage) -> None:
    phone.sign_in()
    phone.edit(2)
    phone.press("9.99", Keys.ENTER, Keys.ENTER)
    phone.browser.wait_text("#entry-refusal", "Check it again.")
    phone.press(Keys.ENTER)
    phone.retype("9.98")
    place = phone.browser.tap("#entry-save")
    phone.browser.touch(*place)
    phone.browser.wait_text("#entry-refusal", "Check it again.")
    phone.browser.touch(*place)
    assert (phone.edited(), phone.told(2), stage.relay.quotes(NOW)) == (f"{NOW}/2", "To do", [])


def test_a_price_that_is_changed_after_the_question_isnt_confirmed(phone: Phone, stage: Stage) -> None:
    phone.sign_in()
    phone.edit(2)
    phone.fill("9.99")
    phone.browser.wait_text("#entry-refusal", "Check it again.")
    phone.retype("9.98")
    assert not phone.browser.find("#entry-confirm").is_displayed()
    phone.press(Keys.ENTER)
    phone.browser.wait_text("#entry-refusal", "Check it again.")
    phone.retype("4.90", Keys.ENTER)
    assert [row[:1] + row[3:4] for row in stage.wait_for_quotes(ANNA)] == [[2, 490]]
    assert stage.relay.quotes(NOW) == [f"quote,2,{NOW},price,490"]


TAPPED_TWICE = """
const [id, x] = arguments, entry = document.getElementById("entry"), before = entry.dataset.entry;
const { top, height } = document.getElementById(id).getBoundingClientRect(), y = top + height / 2;
const tap = (detail) => {
  const element = document.elementFromPoint(x, y), found = [element.closest("button, label, dialog").textContent.trim()];
  for (const type of ["mousedown", "click"]) {
    const event = new MouseEvent(type, { bubbles: true, cancelable: true, clientX: x, clientY: y, detail });
    element.dispatchEvent(event);
    found.push(event.defaultPrevented);
  }
  return found;
};
tap(1);
while (entry.dataset.entry === before) await new Promise((end) => setTimeout(end, 5));
const second = tap(2);
document.getElementById("entry-form").requestSubmit();  // (as Enter, pressed twice)
return [...second, document.getElementById("price-fault").textContent, document.activeElement.id,
  document.getElementById("entry-form").mark.value];
"""
"""Taps a button twice, the second time as soon as the next form is there: the words of the element there, whether the tap is
stopped, the fault that the form shows then, the element that has the focus, and the mark."""


@pytest.mark.sampled(1)
@pytest.mark.parametrize("x", [60, 270])
def test_a_second_tap_on_confirm_is_not_the_next_rows(phone: Phone, x: int) -> None:
    """Where Confirm was the next form has the kinds of mark."""
    phone.sign_in()
    phone.edit(1)
    phone.fill("9.99")
    phone.browser.wait_shown("#entry-confirm")
    met, *found = phone.browser.run_until(TAPPED_TWICE, "entry-confirm", x)
    assert met in ("Same product", "No price", "Comparable replacement", "Replacement that can’t be compared"), met
    assert found == [True, True, "", "price", "price"]


def test_a_second_tap_on_save_is_no_fault_of_the_next_row(phone: Phone) -> None:
    phone.sign_in()
    phone.edit(1)
    phone.press("3.21")
    assert phone.browser.run_until(TAPPED_TWICE, "entry-save", 270) == ["Save", True, True, "", "price", "price"]
    phone.press("x", Keys.ENTER)
    phone.browser.wait_text("#price-fault", "Type the price in digits")

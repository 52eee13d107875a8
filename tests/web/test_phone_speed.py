"""The collectors' page on a slow phone: 400 rows. Only a long run takes the time.

The machine may be at other work, so of each step the best of some series counts.
"""

from __future__ import annotations

import math
import statistics
from collections.abc import Iterator

import pytest

from .long_list import give_list
from .offices import NOBODY, NOW
from .phone import Phone
from .slowness import as_a_phone
from .stage import Stage

pytestmark = pytest.mark.long

ROWS, SERIES, SAVES = 400, 6, 20

SAVE, MOST = 150, 300
"""Milliseconds from Save to the next form, in the middle and at most."""

STEP, START = 500, 3000
"""Milliseconds of any other step, and from the address to the list: so much as a busy machine may need."""

SAVED = """
const field = document.getElementById("price"), entry = document.getElementById("entry"), times = [];
const frame = () => new Promise((end) => requestAnimationFrame(end));
for (let count = 0; count < arguments[0]; count += 1) {
  const before = entry.dataset.entry;
  field.value = "2.10";
  field.dispatchEvent(new Event("input", { bubbles: true }));
  await new Promise((end) => setTimeout(end, 120));
  const begun = performance.now();
  document.getElementById("entry-save").click();
  do await frame(); while (entry.dataset.entry === before || document.activeElement !== field || field.value);
  times.push(performance.now() - begun);
}
return times;
"""
"""Milliseconds from each click on Save to the frame in which the next row's price has the focus."""

STEPS = {
    "what is to do": "find('show-todo').click()",
    "what is stored": "find('show-quotes').click()",
    "all": "find('show-all').click()",
    "a letter in the search": "type('r')",
    "a word in the search": "type('shop 110')",
    "nothing in the search": "type('')",
    "an outlet is folded": "document.querySelector('summary').click()",
    "an outlet is opened": "document.querySelector('summary').click()",
    "a jump": "find('jump').click()",
}
"""What a collector does, as the page's own events."""

TIMED = """
const find = (id) => document.getElementById(id), begun = performance.now();
const type = (text) => { find("search").value = text; find("search").dispatchEvent(new Event("input")); };
const steps = %s;
const times = [];
for (const step of steps) {
  const begun = performance.now();
  step();
  await new Promise((end) => requestAnimationFrame(() => setTimeout(end)));
  times.push(performance.now() - begun);
  await new Promise((end) => setTimeout(end, 100));
}
return times;
"""
"""Milliseconds of each step, until its frame is drawn."""


@pytest.fixture
def slow(phone: Phone, stage: Stage) -> Iterator[Phone]:
    """The page with its list, on a slow phone."""
    give_list(stage, ROWS)
    phone.sign_in(NOBODY)
    with as_a_phone(phone.browser) as times:
        print(f"slowed {times} times")
        yield phone


def test_the_next_form_comes_at_once(slow: Phone, stage: Stage) -> None:
    slow.edit(1)
    found = []
    for _ in range(SERIES):
        times = slow.browser.run_until(SAVED, SAVES)
        found.append((max(times), statistics.median(times)))
        if max(times) < MOST and statistics.median(times) < SAVE:
            break
    told = [tuple(round(it) for it in each) for each in found]
    print(f"from Save to the next form: {told} ms at most and in the middle")
    most, middle = found[-1]
    assert most < MOST and middle < SAVE, told
    slow.browser.wait_text("#line", "All sent")
    assert len(stage.quotes(NOBODY, NOW)) == SAVES * len(found)


def test_no_other_step_keeps_a_collector_waiting(slow: Phone) -> None:
    steps = ", ".join(f"() => {step}" for step in STEPS.values())
    best = dict.fromkeys(STEPS, math.inf)
    for _ in range(SERIES):
        times = slow.browser.run_until(TIMED % f"[{steps}]")
        best = {name: min(best[name], time) for name, time in zip(STEPS, times)}
        if max(best.values()) < STEP:
            break
    print("in ms:", {name: round(time) for name, time in best.items()})
    assert {name: time for name, time in best.items() if time >= STEP} == {}


def test_the_list_is_there_soon_after_the_page_is_opened(slow: Phone) -> None:
    """From the phone's own files and its kept list."""
    shown = "return document.querySelectorAll('[data-slot]').length === arguments[0] ? performance.now() : 0"
    found = []
    for _ in range(SERIES):
        slow.open()
        found.append(slow.browser.wait(lambda: slow.browser.run(shown, ROWS), "the list"))
        if found[-1] < START:
            break
    print(f"from the address to the list: {[round(it) for it in found]} ms")
    assert found[-1] < START

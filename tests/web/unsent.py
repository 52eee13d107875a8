"""The list of the entries that the office hasn't stored, as a phone shows it, and a faster clock for its page."""

from __future__ import annotations

import contextlib
import csv
import io
import time
from collections.abc import Iterator
from pathlib import Path
from typing import Any

from .browser import SECONDS, Browser
from .offices import ANNA, DESK, NOW
from .phone import Phone
from .stage import Stage

LISTED = """
return [...document.querySelectorAll("[data-unsent]")].map((it) => [it.dataset.unsent, it.innerText.split(/\\n+/)]);
"""


def listed(phone: Phone) -> dict[str, list[str]]:
    """The lines of each entry in the list of what isn't stored, in its order, by month and slot: `2026-11/3`."""
    found: list[tuple[str, list[str]]] = phone.browser.run(LISTED)
    return dict(found)


def wait_alarm(phone: Phone, text: str) -> None:
    """Waits until the red button of the head says just this; no text if there is no button."""
    phone.browser.wait(lambda: phone.browser.text("#alarm") == text, f"{text!r} on the red button")


def press_alarm(phone: Phone) -> dict[str, list[str]]:
    """Presses the red button of the head, and reads the list."""
    phone.browser.click("#alarm")
    return listed(phone)


def act(phone: Phone, what: str, slot: int, month: str = NOW) -> None:
    """Presses a button of an entry in the list: `open` or `drop`."""
    phone.browser.click(f'[data-unsent="{month}/{slot}"] [data-do="{what}"]')
    phone.browser.wait_shown("#entry" if what == "open" else "#dropping")


def desk(stage: Stage, *rows: str) -> None:
    """The desk sends rows; the office refuses none."""
    assert stage.ask("POST", "/api/import", DESK, "\n".join(rows)).reply == {"rows": [{"done": True}] * len(rows)}


CLOSED, OPEN = f"calendar,{NOW},5000,6000,9999999999", f"calendar,{NOW},5000,9999999998,9999999999"
"""The window of this month, closed and open."""


NEXT = 10
"""The receipt that Anna gets next: nine of hers were given before."""


def stored(stage: Stage) -> list[list[Any]]:
    """Slot, value and receipt of each quote of Anna's in this month."""
    return [[slot, value, receipt] for slot, _, _, value, receipt in stage.quotes(ANNA)]


CLOSED_TEXT = (
    "The window has closed. Tell the desk; the price won’t count this month unless the desk opens the window again."
)


def refused(phone: Phone, stage: Stage, *prices: tuple[int, str]) -> None:
    """Signs in and enters prices of this month, whose window has closed."""
    phone.sign_in()
    desk(stage, CLOSED)
    for slot, price in prices:
        phone.enter(slot, price)
    wait_alarm(phone, f"{len(prices)} refused")


def put(stage: Stage, slot: int, value: str, key: str = ANNA) -> int:
    """Another device of the collector stores a mark with its value, such as `price,250`; its receipt."""
    receipt: int = stage.ask("PUT", f"/api/quote/{slot}/{NOW}", key, value).reply["receipt"]
    return receipt


def without_line(phone: Phone) -> None:
    """The phone loses its line, and the page says so."""
    phone.browser.offline(True)
    phone.browser.wait_text("#line", "Offline")


FAST = """
const later = window.setTimeout, now = Date.now.bind(Date), begun = now(), abort = AbortSignal.timeout;
window.setTimeout = (work, wait, ...words) => later(work, wait / FACTOR, ...words);
AbortSignal.timeout = (wait) => abort.call(AbortSignal, wait / FACTOR);
Date.now = () => begun + (now() - begun) * FACTOR;
"""


@contextlib.contextmanager
def clock_faster(browser: Browser, factor: int) -> Iterator[None]:
    """Pages that are opened meanwhile have a clock and timers that run so many times faster."""
    source = f"{{ {FAST.replace('FACTOR', str(factor))} }}"
    script = browser.cdp("Page.addScriptToEvaluateOnNewDocument", source=source)["identifier"]
    try:
        yield
    finally:
        browser.cdp("Page.removeScriptToEvaluateOnNewDocument", identifier=script)


def file_of(browser: Browser, button: str, folder: Path) -> list[list[str]]:
    """The rows of the CSV file that a button saves."""
    browser.cdp("Browser.setDownloadBehavior", behavior="allow", downloadPath=str(folder))
    browser.click(button)
    begun = time.monotonic()
    while not (files := [file for file in folder.glob("not-stored-*.csv") if file.stat().st_size]):
        assert time.monotonic() - begun < SECONDS, "a file"
        time.sleep(0.03)
    text = files[0].read_bytes().decode()
    files[0].unlink()
    return rows_of(text)


def rows_of(text: str) -> list[list[str]]:
    """The rows of a CSV (RFC 4180), whose lines end in CRLF."""
    assert text.endswith("\r\n")
    return list(csv.reader(io.StringIO(text, newline=""), strict=True))


def tops(browser: Browser, selector: str) -> Any:
    """Where elements begin in the window, in pixels."""
    script = "return [...document.querySelectorAll(arguments[0])].map((it) => it.getBoundingClientRect().top);"
    return browser.run(script, selector)

"""While the office opens a large file: the front says until when, the phone shows it, and what was entered is kept."""

from __future__ import annotations

import json
import time
from collections.abc import Iterator
from pathlib import Path

import pytest

from .offices import ANNA, NOW
from .phone import Phone
from .receipts import NEXT
from .stage import Stage

PLACE = "/run/cpi-opening/opening.json"
"""Where cpi-serve writes it on a machine."""

CLOCK = """
return new Intl.DateTimeFormat("en-GB", { hour: "2-digit", minute: "2-digit", hourCycle: "h23" })
  .format(arguments[0] * 1000)
"""


@pytest.fixture
def opening(stage: Stage) -> Iterator[Path]:
    """The file in which the front looks, which isn't there yet."""
    file = stage.folder / "opening.json"
    stage.front.stop()
    stage.front.start(lambda text: text.replace(PLACE, str(file)))
    yield file
    file.unlink(missing_ok=True)
    stage.front.stop()
    stage.front.start()


def announce(file: Path, until: float) -> None:
    """What cpi-serve writes before an open."""
    file.write_text(json.dumps({"began": int(time.time()), "until": int(until)}), encoding="ascii")


def clock(phone: Phone, at: float) -> str:
    """A moment by the clock of the phone."""
    clock: str = phone.browser.run(CLOCK, int(at))
    return clock


def test_the_phone_says_when_the_office_will_answer_and_sends_then(phone: Phone, stage: Stage, opening: Path) -> None:
    phone.sign_in()
    stage.stop_office()
    until = time.time() + 600
    announce(opening, until)
    phone.enter(1, "3.21")
    expected = f"The office will answer around {clock(phone, until)}: 1 entry kept on this phone"
    phone.browser.wait_text("#line", expected)
    assert phone.browser.run("return document.querySelector('#line').scrollWidth <= innerWidth")
    opening.unlink()
    stage.start_office()
    phone.show("all")
    phone.wait_receipt(1, NEXT)
    assert stage.quotes(ANNA) == [[1, NOW, "price", 321, NEXT]]
    phone.browser.wait_text("#line", "All sent")


@pytest.mark.parametrize("ago", [1, 3600])
def test_a_moment_that_is_past_is_shown_to_nobody(phone: Phone, stage: Stage, opening: Path, ago: int) -> None:
    """The open takes longer than expected, or the file is left of one that failed."""
    phone.sign_in()
    stage.stop_office()
    announce(opening, time.time() - ago)
    phone.enter(1, "3.21")
    phone.browser.wait_text("#line", "The office is busy: 1 entry kept on this phone")


def test_who_signs_in_meanwhile_is_told_when_to_come_again(phone: Phone, stage: Stage, opening: Path) -> None:
    stage.stop_office()
    until = time.time() + 600
    announce(opening, until)
    phone.open()
    phone.browser.wait_shown("#sign-in")
    phone.give_key(ANNA)
    phone.browser.wait_text("#key-fault", f"The office is starting. Try again around {clock(phone, until)}.")


def test_the_front_has_the_file_only_meanwhile(stage: Stage, opening: Path) -> None:
    before = len(stage.relay.seen)
    answer = stage.ask("GET", "/opening.json")
    assert (answer.status, answer.fields["Cache-Control"]) == (404, "no-store")
    announce(opening, 1790000240)
    answer = stage.ask("GET", "/opening.json")
    assert (answer.status, answer.reply["until"]) == (200, 1790000240)
    assert answer.fields["Cache-Control"] == "no-cache"
    assert stage.ask("POST", "/opening.json", body="x").status == 403
    assert len(stage.relay.seen) == before

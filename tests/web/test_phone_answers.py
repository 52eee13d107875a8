"""The page of a collector, and answers that make no sense, come late or not at all: it says what it knows, and asks again."""

from __future__ import annotations

import time
from collections.abc import Callable
from itertools import dropwhile
from typing import NamedTuple

from .offices import NOBODY
from .phone import Phone
from .stage import Stage
from .unsent import NEXT, clock_faster, desk, stored
from .wire import Wire, through

UNKNOWN = "The page doesn’t know whether 1 entry is stored. It asks again."
BUSY = "The office is busy: 1 entry kept on this phone"
NO_LINE = "Offline: 1 entry kept on this phone"


def answer(
    body: bytes, status: str = "200 OK", of: str = "application/json", more: str = "", length: int = -1
) -> bytes:
    """A whole response of HTTP; with a length that isn't the body's, one that is cut."""
    size = len(body) if length < 0 else length
    return f"HTTP/1.1 {status}\r\nContent-Type: {of}\r\nContent-Length: {size}\r\n{more}\r\n".encode() + body


PORTAL = answer(b"<!doctype html><title>Hotel</title><p>Welcome! Please log in.", of="text/html")


class Case(NamedTuple):
    """An answer that isn't the office's, and what the head says of it."""

    name: str
    answer: bytes
    said: str


CASES = (
    Case("a fault of the front", answer(b"<h1>500</h1>", "500 Internal Server Error", "text/html"), BUSY),
    Case("come again", answer(b"", "503 Service Unavailable", "text/plain", "Retry-After: 1\r\n"), BUSY),
    Case("no JSON", answer(b'{"rows":[{"rece'), UNKNOWN),
    Case("null", answer(b"null"), UNKNOWN),
    Case("an array", answer(b'[{"receipt":7}]'), UNKNOWN),
    Case("no rows", answer(b'{"rows":[]}'), UNKNOWN),
    Case("rows are null", answer(b'{"rows":null}'), UNKNOWN),
    Case("a row is null", answer(b'{"rows":[null]}'), UNKNOWN),
    Case("an empty row", answer(b'{"rows":[{}]}'), UNKNOWN),
    Case("too many rows", answer(b'{"rows":[{"receipt":7},{"receipt":8}]}'), UNKNOWN),
    Case("receipt 0", answer(b'{"rows":[{"receipt":0}]}'), UNKNOWN),
    Case("nothing of rows", answer(b"{}"), UNKNOWN),
    Case("a hotel's page", PORTAL, UNKNOWN),
    Case("a text", answer(b"stored", of="text/plain"), UNKNOWN),
    Case("a redirect", answer(b"", "302 Found", "text/html", "Location: https://example.org/login\r\n"), NO_LINE),
    Case("a cut body", answer(b'{"rows":[{"receipt":7', length=40), NO_LINE),
    Case("no such page", answer(b"<h1>404</h1>", "404 Not Found", "text/html"), UNKNOWN),
    Case("binary", answer(bytes(range(256)), of="application/octet-stream"), UNKNOWN),
    Case("the end", b"", BUSY),
)
"""The front's own answer is 502 where the office's connection ends."""

SAID = """
window.said = [];
const note = () => said.push(document.getElementById("line").textContent, document.getElementById("notice").textContent);
for (const id of ["line", "notice"]) {
  new MutationObserver(note).observe(document.getElementById(id), { childList: true, characterData: true, subtree: true });
}
"""
"""From then on the page writes down what its head and its notice say."""


def said(phone: Phone) -> list[str]:
    """What head and notice have said since they were asked last, in turn."""
    heard: list[str] = phone.browser.run("return said.splice(0)")
    return heard


def said_of_entry(phone: Phone) -> set[str]:
    """What they have said of an entry: all from the first text on that isn't of the time before it."""
    return set(dropwhile(lambda text: text in ("", "All sent"), said(phone)))


def one_case(phone: Phone, stage: Stage, slot: int, case: Case, is_stored: bool) -> None:
    """A price whose answer is spoiled until the page has said so, twice; then the office answers."""
    asked = stage.relay.rows(f"quote,{slot},")
    said(phone)
    stage.relay.answers_instead(case.answer, is_stored)
    phone.enter_fast(slot, f"{slot}.50")
    told = f"{case.name}, {'stored' if is_stored else 'not stored'}"
    phone.browser.wait(lambda: phone.browser.text("#line") == case.said, f"{case.said}, of {told}")
    phone.browser.wait(lambda: stage.relay.rows(f"quote,{slot},") >= asked + 2, f"it is sent again, of {told}")
    heard = said_of_entry(phone)
    assert case.said in heard and not [text for text in heard if "All sent" in text or "Nothing" in text], (told, heard)
    stage.relay.answers()
    phone.browser.wait_text("#line", "All sent")


def many_slots(stage: Stage, count: int) -> range:
    """Collector 9, with so many slots."""
    slots = range(1, count + 1)
    desk(stage, f"collector,9,{NOBODY}", *(f"assign,9,{slot},12,MILK,2010-12,2199-12" for slot in slots))
    return slots


def without_limits(stage: Stage) -> None:
    """The front doesn't hold the imports of one key back: a test sends more of them than a phone does."""
    stage.front.stop()
    stage.front.start(lambda text: text.replace("rate=2r/s", "rate=1000r/s").replace("rate=20r/s", "rate=1000r/s"))


def test_an_answer_that_makes_no_sense_is_said_so_and_asked_again(phone: Phone, stage: Stage) -> None:
    """Each entry has one receipt in the end, and none is used twice, whether the office had stored it or not."""
    slots = many_slots(stage, 2 * len(CASES))
    without_limits(stage)
    try:
        with clock_faster(phone.browser, 20):
            phone.sign_in(NOBODY)
            phone.show("all")
            phone.browser.run(SAID)
            for slot, (case, is_stored) in zip(slots, [(case, is_it) for case in CASES for is_it in (True, False)]):
                one_case(phone, stage, slot, case, is_stored)
    finally:
        stage.front.stop()
    stage.front.start()
    assert [(row[0], row[3]) for row in stage.quotes(NOBODY)] == [(slot, 100 * slot + 50) for slot in slots]
    assert sorted(row[4] for row in stage.quotes(NOBODY)) == [*slots]
    for slot, _, _, _, receipt in stage.quotes(NOBODY):
        assert phone.receipt(slot) == receipt


def test_a_line_that_is_cut_before_a_price_arrives_or_behind_it_loses_and_doubles_nothing(
    phone: Phone, stage: Stage
) -> None:
    with Wire(stage.port) as wire, through(wire, phone.browser):
        phone.sign_in()
        stage.relay.held.set()
        phone.enter(1, "3.10")
        phone.browser.wait(lambda: stage.relay.rows("quote,1,") == 1, "the office has it")
        wire.cut()
        phone.browser.wait(lambda: phone.browser.text("#line") in (NO_LINE, BUSY), "the page knows of no receipt")
        stage.relay.held.clear()
        phone.browser.wait_text("#line", "All sent")
        wire.hang()
        phone.enter(4, "1.10")
        time.sleep(0.3)
        wire.cut()
        wire.go_on()
        phone.browser.wait_text("#line", "All sent")
    assert stored(stage) == [[1, 310, NEXT], [4, 110, NEXT + 1]]


def test_a_slow_answer_is_waited_for(phone: Phone, stage: Stage) -> None:
    phone.sign_in()
    phone.show("all")
    phone.browser.run(SAID)
    stage.relay.held.set()
    phone.enter(1, "3.10")
    time.sleep(4)
    assert phone.browser.text("#line") == "1 to be sent"
    assert "To be sent" in phone.told(1)
    stage.relay.held.clear()
    phone.wait_receipt(1, NEXT)
    assert stage.relay.rows("quote,1,") == 1
    assert set(said(phone)) <= {"1 to be sent", "All sent", ""}


GETS = """
const real = window.fetch, [answer, path] = arguments;
window.fetch = async (url, ...words) => (url.startsWith(path) ? new Response(answer,
  { headers: { "Content-Type": answer[0] === "<" ? "text/html" : "application/json" } }) : real(url, ...words));
window.real = real;
"""


def spoiled(phone: Phone, path: str, reply: str, said: str, act: Callable[[], None]) -> None:
    """Requests that begin so have another answer, until the head has said this of it."""
    phone.browser.run(GETS, reply, path)
    act()
    phone.browser.wait_text("#line", said)
    phone.browser.run("window.fetch = window.real;")
    phone.browser.wait_text("#line", "All sent")


SPOILED_LISTS = (
    ("/api/", PORTAL.split(b"\r\n\r\n")[1].decode()),
    ("/api/work/", '{"work":[null]}'),
    ("/api/work/", '{"work":{}}'),
    ("/api/quotes/", '{"quotes":[[]]}'),
    ("/api/items", '{"items":[null]}'),
    ("/api/items", "null"),
)


def test_lists_that_make_no_sense_arent_kept(phone: Phone, stage: Stage) -> None:
    """The page asks again, and can be opened afterwards."""
    with clock_faster(phone.browser, 10):
        phone.sign_in()
        for path, reply in SPOILED_LISTS:
            spoiled(phone, path, reply, "The office’s answer can’t be read. The page asks again.", phone.send)
            phone.open()
            phone.browser.wait_text("#line", "All sent")
            phone.browser.wait_text("#list", "Rice, white")
    assert phone.browser.faults() == []


def test_a_list_that_an_office_without_room_refuses_is_asked_for_again(phone: Phone) -> None:
    with clock_faster(phone.browser, 10):
        phone.sign_in()
        phone.browser.run(GETS, '{"refused":90}', "/api/work/")
        phone.browser.click("#month-before")
        phone.browser.wait_text("#notice", "Memory ran out, or the disk failed.")
        assert phone.browser.text("#list") == "No list for this month yet."
        phone.browser.run("window.fetch = window.real;")
        phone.browser.wait_text("#progress", "3 of 4 stored")  # (nobody touches the page)
    assert phone.browser.text("#notice") == ""


def test_a_look_at_what_is_stored_that_makes_no_sense_is_asked_again(phone: Phone, stage: Stage) -> None:
    """The page looks before it sends an entry that has waited."""
    phone.sign_in()
    phone.browser.offline(True)
    phone.enter(1, "3.10")
    phone.browser.wait_text("#line", NO_LINE)
    spoiled(phone, "/api/quotes/", '{"quotes":[null]}', UNKNOWN, lambda: phone.browser.offline(False))
    assert stored(stage) == [[1, 310, NEXT]]


DISK_IS_FULL = """
const real = IDBObjectStore.prototype.delete;
IDBObjectStore.prototype.delete = function (...words) {
  IDBObjectStore.prototype.delete = real;
  throw new DOMException("full", "QuotaExceededError");
};
"""


def test_a_receipt_that_finds_no_room_on_the_phone_comes_again(phone: Phone, stage: Stage) -> None:
    with clock_faster(phone.browser, 60):
        phone.sign_in()
        phone.browser.run(DISK_IS_FULL)
        phone.enter(1, "3.10")
        phone.browser.wait_text("#notice", "the phone is full")
        phone.browser.wait_text("#line", "All sent")  # (nobody touches the page)
    assert stored(stage) == [[1, 310, NEXT]]
    assert stage.relay.rows("quote,1,") == 2

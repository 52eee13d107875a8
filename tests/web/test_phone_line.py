"""The page of a collector whose line breaks, or whose office or files change: all is sent, and once."""

from __future__ import annotations

import shutil
import signal
import time
from collections.abc import Iterator
from pathlib import Path

import pytest

from lib.places import ROOT

from .offices import ANNA, DESK, NOBODY, NOW
from .phone import Phone
from .receipts import NEXT, next_receipt, stored
from .stage import Stage


# ---- without a line


def test_without_a_line_entries_are_kept_and_sent_once(phone: Phone, stage: Stage) -> None:
    phone.sign_in()
    stage.front.stop()
    phone.enter(1, "3.10")
    phone.browser.wait_text("#line", "Offline: 1 entry kept on this phone")
    phone.enter(1, "3.15")
    phone.enter(2, "9.99")  # (the phone asks for the second look itself)
    phone.browser.wait_text("#entry-refusal", "far from the last one")
    assert "3.36 to 7.20" in phone.browser.text("#entry-refusal")
    phone.confirm()
    phone.browser.wait_text("#line", "2 entries kept")
    phone.open()  # (the page is opened anew, without a line)
    phone.browser.wait_text("#list", "To be sent")
    assert "3.15" in phone.told(1)
    assert stage.relay.rows("quote,") == 0
    stage.front.start()
    phone.send()
    phone.browser.wait_text("#line", "All sent")
    phone.show("all")
    phone.wait_receipt(1, 10)
    phone.wait_receipt(2, 11)
    assert stage.quotes(ANNA) == [[1, NOW, "price", 315, 10], [2, NOW, "price", 999, 11]]
    assert (stage.relay.rows("quote,1,"), stage.relay.rows("quote,2,")) == (1, 1)
    assert next_receipt(stage) == 12


def test_the_browser_tells_that_the_line_is_back(phone: Phone, stage: Stage) -> None:
    phone.sign_in()
    phone.browser.offline(True)
    phone.enter(1, mark="missing", reason="closed")
    phone.browser.wait_text("#line", "Offline: 1 entry")
    phone.browser.offline(False)  # (nobody touches the page)
    phone.browser.wait_text("#line", "All sent")
    assert stage.quotes(ANNA) == [[1, NOW, "missing", "closed", NEXT]]
    assert next_receipt(stage) == NEXT + 1


def test_a_reply_that_is_lost_is_asked_again_and_has_its_receipt(phone: Phone, stage: Stage) -> None:
    phone.sign_in()
    stage.relay.lose = 1
    phone.enter(1, "3.21")
    assert stage.relay.lost.wait(60)
    assert stored(stage, 1) == [("price", 321, NEXT)]  # (stored, and the page doesn't know)
    phone.show("all")
    phone.wait_receipt(1, NEXT)  # (sent again by itself)
    assert stage.relay.rows("quote,1,") == 2
    assert stored(stage, 1) == [("price", 321, NEXT)]
    assert next_receipt(stage) == NEXT + 1


def test_a_receipt_is_kept_though_the_lists_behind_it_dont_come(phone: Phone) -> None:
    phone.sign_in()
    phone.show("all")
    phone.browser.cdp("Network.enable")
    phone.browser.cdp("Network.setBlockedURLs", urls=["*/api/work/*", "*/api/quotes/*"])
    try:
        phone.enter(1, "3.21")
        phone.wait_receipt(1, NEXT)
        phone.open()
        phone.browser.wait_text("#line", "Offline")
        phone.show("all")
        phone.wait_receipt(1, NEXT)
        assert "3.21" in phone.told(1)
    finally:
        phone.browser.cdp("Network.setBlockedURLs", urls=[])


def test_a_day_whose_line_breaks_within_an_import(phone: Phone, stage: Stage) -> None:
    """The front is killed after the office stored and before its reply; twenty more are entered; then the line is back.

    What the office has in the end is what the screen shows, each with its one receipt.
    """
    slots = range(1, 23)
    rows = [f"collector,9,{NOBODY}", *(f"assign,9,{slot},12,MILK,2010-12,2199-12" for slot in slots)]
    assert stage.ask("POST", "/api/import", DESK, "\n".join(rows)).reply == {"rows": [{"done": True}] * len(rows)}
    phone.sign_in(NOBODY)
    phone.show("all")
    stage.relay.lose = 1
    stage.relay.paused.set()
    phone.enter(1, "3.21")
    assert stage.relay.lost.wait(60)
    stage.front.stop(signal.SIGKILL)
    stage.relay.paused.clear()
    phone.browser.wait_text("#line", "Offline: 1 entry")
    phone.enter(2, mark="missing", reason="stock")
    for slot in slots[2:]:
        phone.enter_fast(slot, f"{slot}.50")
    phone.browser.wait_text("#line", f"Offline: {len(slots)} entries")
    stage.front.start()
    phone.send()
    phone.browser.wait_text("#line", "All sent")
    wanted = [["price", 321], ["missing", "stock"], *(["price", 100 * slot + 50] for slot in slots[2:])]
    quotes = stage.quotes(NOBODY)
    assert [row[2:4] for row in quotes] == wanted
    assert sorted(row[4] for row in quotes) == [*slots]
    for slot, _, _, _, receipt in quotes:
        assert phone.receipt(slot) == receipt
    assert (stage.relay.rows("quote,1,"), stage.relay.rows("quote,2,")) == (2, 1)
    assert stage.ask("PUT", f"/api/quote/1/{NOW}", NOBODY, "price,322").reply == {"receipt": len(slots) + 1}


ENTERED = """
const { keepEntry } = await import("/collect/store.js"), { state } = await import("/collect/state.js");
for (const [slot] of state.list.work) {
  const entry = { month: state.month, slot, mark: "price", value: 100 + slot, confirm: false, state: "waiting" };
  await keepEntry(state, entry);
}
const real = IDBDatabase.prototype.transaction;
window.writes = 0;
IDBDatabase.prototype.transaction = function (names, mode, words) {
  window.writes += Number(mode === "readwrite");
  return real.call(this, names, mode, words);
};
"""
"""A price in each slot of the list; from then on it is counted how often the phone writes."""


def test_a_long_day_is_sent_in_a_few_imports_and_each_is_one_write(phone: Phone, stage: Stage) -> None:
    slots = range(1, 121)
    rows = [f"collector,9,{NOBODY}", *(f"assign,9,{slot},12,MILK,2010-12,2199-12" for slot in slots)]
    assert stage.ask("POST", "/api/import", DESK, "\n".join(rows)).reply == {"rows": [{"done": True}] * len(rows)}
    phone.sign_in(NOBODY)
    phone.browser.run_until(ENTERED)
    before = stage.relay.asked().count("POST /import")
    phone.send()
    phone.browser.wait_text("#progress", "120 of 120 stored")
    phone.browser.wait_text("#line", "All sent")
    assert stage.relay.asked().count("POST /import") - before == 3  # (fifty rows at most)
    # (the look before sending; and the lists, perhaps twice: work, items, quotes, and what is let go)
    assert phone.browser.run("return window.writes") <= 3 + 1 + 2 * 4
    assert [row[:1] + row[2:] for row in stage.quotes(NOBODY)] == [[at, "price", 100 + at, at] for at in slots]
    phone.show("todo")
    assert phone.browser.text("#list") == "All done: everything for this month is stored."


DISK_IS_FULL = """
const real = window.fetch;
let isFull = false;
window.fetch = async (path, words) => {
  if (path !== "/api/import") return real(path, words);
  const rows = words.body.trim().split("\\n");
  const first = isFull ? { refused: 90 } : (await (await real(path, { ...words, body: `${rows[0]}\\n` })).json()).rows[0];
  isFull = true;
  return Response.json({ rows: rows.map((row, n) => (n ? { refused: 90 } : first)) });
};
"""
"""The office stores the first of three rows, and then its disk is full."""


def test_what_finds_no_room_at_the_office_waits_and_the_rest_is_settled(phone: Phone, stage: Stage) -> None:
    phone.sign_in()
    phone.show("all")
    stage.front.stop()
    for slot, price in ((1, "3.10"), (2, "4.90"), (4, "1.10")):
        phone.enter(slot, price)
    phone.browser.wait_text("#line", "3 entries kept")
    phone.browser.run(DISK_IS_FULL)
    stage.front.start()
    phone.send()
    phone.browser.wait_text("#notice", "Memory ran out, or the disk failed. Nothing was stored; send it again.")
    assert [phone.told(slot).split("\n")[1] for slot in (2, 4)] == ["To be sent"] * 2
    assert phone.browser.text("#line") == "Not accepted: 2 entries kept on this phone"
    phone.open()  # (the office has room again)
    phone.browser.wait_text("#line", "All sent")
    phone.browser.wait(lambda: phone.browser.text("#notice") == "", "the notice is gone")
    rows = [row[:1] + row[3:] for row in stage.quotes(ANNA)]
    assert rows == [[1, 310, NEXT], [2, 490, NEXT + 1], [4, 110, NEXT + 2]]


def test_the_office_dies_and_comes_back(phone: Phone, stage: Stage) -> None:
    phone.sign_in()
    stage.stop_office()
    phone.enter(1, "3.21")
    phone.browser.wait_text("#line", "The office is busy: 1 entry kept")
    stage.start_office()
    phone.show("all")
    phone.wait_receipt(1, NEXT)
    assert next_receipt(stage) == NEXT + 1


def test_a_mark_that_is_changed_while_it_is_under_way(phone: Phone, stage: Stage) -> None:
    phone.sign_in()
    phone.show("all")
    stage.relay.held.set()
    phone.enter(1, "3.21")
    phone.browser.wait(lambda: stage.relay.rows("quote,1,") == 1)
    phone.enter(1, "3.30")
    phone.wait_told(1, "3.30")
    assert "To be sent" in phone.told(1)
    stage.relay.held.clear()
    phone.wait_receipt(1, NEXT + 1)
    assert stored(stage, 1) == [("price", 330, NEXT + 1)]


def test_two_tabs_of_one_phone_send_an_entry_once(phone: Phone, stage: Stage) -> None:
    phone.sign_in()
    stage.front.stop()
    phone.enter(1, "3.10")
    phone.browser.wait_text("#line", "Offline: 1 entry")
    phone.browser.driver.switch_to.new_window("tab")
    phone.open()
    phone.browser.wait_text("#line", "Offline: 1 entry")
    stage.relay.held.set()
    stage.front.start()
    for tab in reversed(phone.browser.driver.window_handles):
        phone.browser.driver.switch_to.window(tab)
        phone.browser.run("window.dispatchEvent(new Event('online'))")
        phone.browser.wait(lambda: stage.relay.rows("quote,1,") == 1, "the entry is under way")
        time.sleep(0.5)
    stage.relay.held.clear()
    for tab in phone.browser.driver.window_handles:
        phone.browser.driver.switch_to.window(tab)
        phone.browser.wait_text("#line", "All sent")
    assert stage.quotes(ANNA) == [[1, NOW, "price", 310, NEXT]]
    assert stage.relay.rows("quote,1,") == 1


@pytest.fixture
def site(stage: Stage, tmp_path: Path) -> Iterator[Path]:
    """A copy of the pages that a test may change, in the front's place for them."""
    copy = tmp_path / "web"
    shutil.copytree(ROOT / "web", copy)
    stage.front.stop()
    stage.front.start(lambda text: text.replace(f"root {ROOT}/web;", f"root {copy};"))
    yield copy
    stage.front.stop()


VERSION = "return (await caches.keys()).sort().join(' ')"


def changed(site: Path, name: str, before: str, after: str) -> None:
    """Changes a file of the collectors' page."""
    text = (site / "collect" / name).read_text(encoding="utf-8")
    assert before in text
    (site / "collect" / name).write_text(text.replace(before, after), encoding="utf-8")


NEW_FILES = """
ServiceWorker.prototype.postMessage = () => {};
await (await navigator.serviceWorker.ready).update();
"""
"""As a page finds new files before it has loaded all of its own."""


def test_a_new_version_of_the_files_takes_the_place_of_the_old_one(phone: Phone, stage: Stage, site: Path) -> None:
    """The page that finds it is still the old one, whole; the next one that is opened is the new one, whole."""
    browser = phone.browser
    phone.sign_in()
    browser.run_until("await caches.open('another');")
    before = browser.run_until(VERSION)
    changed(site, "index.html", "<h1 data-t>Price collection</h1>", "<h1 data-t>New collection</h1>")
    changed(site, "head.js", '"All sent"', '"All is sent"')
    changed(site, "sw.js", 'const VERSION = "', 'const VERSION = "new')
    phone.open()
    browser.wait_text("#line", "All sent")
    assert browser.text("h1") == "Price collection"
    after = before.replace("collect-", "collect-new")
    browser.wait(lambda: sorted(browser.run_until(VERSION).split()) == sorted(after.split()), "new files alone")
    stage.front.stop()  # (what is kept is whole)
    phone.open()
    browser.wait_text("h1", "New collection")
    browser.wait_text("#line", "Offline")
    stage.front.start(lambda text: text.replace(f"root {ROOT}/web;", f"root {site};"))
    phone.send()
    browser.wait_text("#line", "All is sent")
    assert browser.faults() == []


def test_new_files_wait_until_a_page_has_loaded_its_own(phone: Phone, site: Path) -> None:
    phone.sign_in()
    before = phone.browser.run_until(VERSION)
    changed(site, "sw.js", 'const VERSION = "', 'const VERSION = "new')
    phone.browser.run_until(NEW_FILES)
    waiting = "return (await navigator.serviceWorker.ready).waiting?.state === 'installed'"
    phone.browser.wait(lambda: phone.browser.run_until(waiting), "new files")
    time.sleep(2)
    assert phone.browser.run_until(waiting) and before in phone.browser.run_until(VERSION)

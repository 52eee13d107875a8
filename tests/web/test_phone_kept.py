"""What a phone keeps of its collectors: nothing of one for another, nothing once one has left; and who can use the page."""

from __future__ import annotations

import json
import re
from collections.abc import Iterator
from pathlib import Path
from typing import Any

import pytest
from selenium.webdriver.common.keys import Keys

from lib.places import ROOT

from .browser import Browser
from .offices import ANNA, BEFORE, BENO, NOW
from .phone import Phone
from .readable import faults_enlarged, faults_for_keys, faults_of_page
from .receipts import NEXT
from .stage import Stage


# ---- a browser that keeps nothing


SHUT = "IDBFactory.prototype.open = () => { throw new DOMException('no', 'SecurityError'); };"
FULL = "IDBObjectStore.prototype.put = () => { throw new DOMException('full', 'QuotaExceededError'); };"


def test_a_browser_that_keeps_nothing_is_told(phone: Phone) -> None:
    script = phone.browser.cdp("Page.addScriptToEvaluateOnNewDocument", source=SHUT)["identifier"]
    phone.open()
    phone.browser.wait_text(
        "#notice", "the browser doesn’t allow it (\u2068SecurityError\u2069). Allow this site to store data"
    )
    phone.browser.cdp("Page.removeScriptToEvaluateOnNewDocument", identifier=script)
    assert not phone.browser.find("#work").is_displayed()


def test_an_entry_that_finds_no_room_is_told_and_not_lost_from_the_form(phone: Phone, stage: Stage) -> None:
    phone.sign_in()
    phone.browser.run(f"window.put = IDBObjectStore.prototype.put; {FULL}")
    phone.enter(1, "3.21")
    phone.browser.wait_text("#price-fault", "This entry couldn’t be saved: the phone is full. Free some space")
    assert phone.browser.find("#price").get_attribute("value") == "3.21"
    assert stage.relay.rows("quote,") == 0
    phone.browser.run("IDBObjectStore.prototype.put = window.put")
    phone.browser.click("#entry-save")
    assert stage.wait_for_quotes(ANNA) == [[1, NOW, "price", 321, NEXT]]


# ---- two collectors


@pytest.fixture
def other_phone(stage: Stage, tmp_path: Path) -> Iterator[Phone]:
    """Another collector's phone."""
    browser = Browser(stage.url, stage.folder / "ca.crt", tmp_path / "home")
    yield Phone(browser)
    browser.close()


KEPT = """
return await new Promise((end) => {
  const open = indexedDB.open("cpi-collect");
  open.onsuccess = () => {
    const found = [], names = [...open.result.objectStoreNames];
    for (const name of names) {
      const all = open.result.transaction(name).objectStore(name).getAll();
      all.onsuccess = () => { if (found.push(all.result) === names.length) end(JSON.stringify(found)); };
    }
  };
});
"""
"""All that a phone has kept, as one text."""


def stands_in(text: str, seen: str) -> bool:
    """Whether a text stands there by itself, and not within a longer number, a moment or a version among them."""
    return re.search(rf"\b{re.escape(text)}\b", seen) is not None


def test_collectors_see_their_own(phone: Phone, other_phone: Phone, stage: Stage) -> None:
    phone.sign_in()
    other_phone.sign_in(BENO)
    other_phone.browser.wait_text("#list", "Market hall")
    phone.enter(1, "3.21")
    assert stage.wait_for_quotes(ANNA) == [[1, NOW, "price", 321, NEXT]]
    other_phone.send()
    other_phone.browser.wait_text("#line", "All sent")
    assert stage.quotes(BENO) == []
    other_phone.show("quotes")
    assert "none of your prices" in other_phone.browser.text("#list")
    other_phone.show("all")
    other_phone.enter(1, "2.87")
    assert [row[3] for row in stage.wait_for_quotes(BENO)] == [287]
    annas, benos = ("Corner shop", "321", "3.21", ANNA), ("Market hall", "287", "2.87", BENO)
    for one, own, others in ((phone, annas, benos), (other_phone, benos, annas)):
        one.send()
        one.show("quotes")
        one.browser.wait_text("#list", own[2])
        seen = one.browser.text("body") + one.browser.run_until(KEPT)
        assert [text for text in own if stands_in(text, seen)] == list(own)
        assert [text for text in ("999", *others) if stands_in(text, seen)] == []


NOTHING_LEFT = {"lists": ["items", "windows"], "queue": [], "session": []}
"""Of what a phone keeps, by keys: the lists that everybody may have."""

LEFT = """
return await new Promise((end) => {
  const open = indexedDB.open("cpi-collect");
  open.onsuccess = () => {
    const found = {}, names = [...open.result.objectStoreNames];
    for (const name of names) {
      const keys = open.result.transaction(name).objectStore(name).getAllKeys();
      keys.onsuccess = () => { found[name] = keys.result; if (Object.keys(found).length === names.length) end(found); };
    }
  };
});
"""

WHOLE = "return document.documentElement.outerHTML + [...document.querySelectorAll('input')].map((it) => it.value)"

WHEN_LEFT = (
    "new MutationObserver(() => new BroadcastChannel('left').postMessage('left'))"
    ".observe(document.getElementById('sign-in'), { attributes: true });"
)
HEARS_OF_IT = "new BroadcastChannel('left').onmessage = () => { window.heard = true; };"
"""A tab tells others when it has left the collector, and another one hears of it."""

FORGOTTEN = """
return await new Promise((end) => {
  const open = indexedDB.open("cpi-collect");
  open.onsuccess = () => {
    const change = open.result.transaction(["session", "lists"], "readwrite");
    change.objectStore("session").clear();
    const lists = change.objectStore("lists"), all = lists.getAllKeys();
    all.onsuccess = () => { for (const key of all.result) if (Array.isArray(key)) lists.delete(key); };
    change.oncomplete = () => end();
  };
});
"""

KEY_IS_LOST = """
return await new Promise((end) => {
  const open = indexedDB.open("cpi-collect");
  open.onsuccess = () => {
    const change = open.result.transaction("session", "readwrite");
    change.objectStore("session").delete("key");
    change.oncomplete = () => end();
  };
});
"""


def leave_unsent(phone: Phone, stage: Stage) -> None:
    """Asks to sign out while an entry waits for a line."""
    phone.sign_in()
    stage.front.stop()
    phone.enter(1, "3.10")
    phone.browser.wait_text("#line", "Offline: 1 entry")
    phone.browser.click("#leave")


def test_signing_out_removes_all_and_asks_before(phone: Phone, stage: Stage) -> None:
    leave_unsent(phone, stage)
    assert "1 entry on this phone hasn’t been stored by the office" in phone.browser.text("#leaving")
    phone.browser.click('#leaving [value="stay"]')
    assert "To be sent" in phone.told(1)
    stage.front.start()
    phone.send()
    phone.browser.wait_text("#line", "All sent")
    phone.browser.click("#leave")
    assert "Everything you saved has been sent" in phone.browser.text("#leaving")
    phone.browser.click("#leaving-go")
    phone.browser.wait_shown("#sign-in")
    phone.browser.wait(lambda: phone.browser.run_until(LEFT) == NOTHING_LEFT)
    phone.give_key(BENO)
    phone.browser.wait_text("#list", "Market hall")
    assert "Corner shop" not in phone.browser.text("body")


def test_a_tab_beside_one_that_signs_out_goes_with_it(phone: Phone) -> None:
    """Nothing of the first collector is left to the second, in no tab and on no disk."""
    browser = phone.browser
    phone.sign_in()
    phone.edit(1)
    browser.run(WHEN_LEFT)
    first = browser.driver.current_window_handle
    browser.driver.switch_to.new_window("tab")
    phone.open()
    browser.wait_text("#list", "Corner shop")
    browser.run(HEARS_OF_IT)
    browser.click("#leave")
    browser.click("#leaving-go")
    browser.wait_shown("#sign-in")
    browser.wait(lambda: browser.run("return window.heard"), "the first tab has left, and nobody looks at it")
    for tab in (browser.driver.current_window_handle, first):
        browser.driver.switch_to.window(tab)
        browser.wait(lambda: browser.find("#sign-in").is_displayed())
        assert [text for text in ("Corner", "Rice", ANNA) if text in browser.run(WHOLE)] == []
    assert browser.run_until(LEFT) == NOTHING_LEFT
    phone.give_key(BENO)
    for tab in reversed(browser.driver.window_handles):
        browser.driver.switch_to.window(tab)
        browser.wait_text("#list", "Market hall")
        assert "Corner" not in browser.run(WHOLE)


def test_lists_that_come_behind_a_sign_out_arent_kept(phone: Phone, stage: Stage) -> None:
    """Another tab signed out while the office was being asked."""
    phone.sign_in()
    before = len(stage.relay.seen)
    with stage.standing_still():
        phone.send()
        phone.browser.wait(lambda: len(stage.relay.seen) > before, "the office is asked")
        phone.browser.run_until(FORGOTTEN)
    phone.browser.wait(lambda: len(stage.relay.seen) >= before + 2, "both lists are asked for")
    phone.send()
    phone.browser.wait_shown("#sign-in")
    assert phone.browser.run_until(LEFT) == NOTHING_LEFT


def test_escape_in_the_question_signs_nobody_out(phone: Phone, stage: Stage) -> None:
    leave_unsent(phone, stage)
    phone.press(Keys.ESCAPE)
    phone.browser.wait(lambda: not phone.browser.run("return document.getElementById('leaving').open"))
    assert "To be sent" in phone.told(1)


def test_another_collector_on_the_same_phone_sends_nothing_of_the_first(phone: Phone, stage: Stage) -> None:
    phone.sign_in()
    stage.front.stop()
    phone.enter(1, "3.10")
    phone.browser.wait_text("#line", "Offline: 1 entry")
    phone.browser.run_until(KEY_IS_LOST)  # (the entries aren't)
    stage.front.start()
    phone.sign_in(BENO)
    phone.browser.wait_text("#list", "Market hall")
    assert stage.relay.rows("quote,") == 0
    phone.browser.click("#leave")
    phone.browser.click("#leaving-go")
    phone.browser.wait_shown("#sign-in")
    phone.give_key(ANNA)
    assert stage.wait_for_quotes(ANNA) == [[1, NOW, "price", 310, NEXT]]
    assert stage.quotes(BENO) == []


def test_the_key_stands_in_no_address_cookie_storage_or_log(phone: Phone, stage: Stage) -> None:
    phone.sign_in()
    phone.enter(1, "3.21")
    assert stage.wait_for_quotes(ANNA)
    found = phone.browser.run(
        "return JSON.stringify([location.href, document.cookie, {...localStorage}, {...sessionStorage},"
        " performance.getEntries().map((entry) => entry.name)]) + document.documentElement.outerHTML"
    )
    assert ANNA not in found
    kept = phone.browser.run_until(
        "const found = []; for (const name of await caches.keys()) for (const { url } of"
        " await (await caches.open(name)).keys()) found.push(new URL(url).pathname); return found;"
    )
    assert [path for path in kept if path.startswith("/api/")] == []
    files = re.findall(r'"(?:\./|[^"]+\.\w+)"', (ROOT / "web/collect/sw.js").read_text().partition("];")[0])
    assert len(kept) == len(files) + 1 and "/config.js" in kept
    assert ANNA not in stage.logs()


# ---- who uses it


def test_by_keyboard_alone(phone: Phone, stage: Stage) -> None:
    def focused(what: str) -> Any:
        return phone.browser.run(f"return document.activeElement.{what}")

    def is_open() -> bool:
        return bool(phone.browser.run("return document.getElementById('entry').open"))

    phone.open()
    phone.browser.wait_shown("#sign-in")
    phone.press(ANNA, Keys.ENTER)
    phone.browser.wait_text("#line", "All sent")
    phone.browser.wait(lambda: phone.browser.all("[data-slot]"))
    for _ in range(20):
        if focused("dataset.slot") == "1":
            break
        phone.press(Keys.TAB)
    phone.press(Keys.ENTER)
    phone.browser.wait(lambda: focused("id") == "price")
    phone.press("3.21", Keys.ENTER)
    assert stage.wait_for_quotes(ANNA) == [[1, NOW, "price", 321, NEXT]]
    phone.browser.wait(lambda: phone.edited() == f"{NOW}/2", "the next that is to do")
    assert is_open() and focused("id") == "price"
    phone.press(Keys.ESCAPE)
    phone.browser.wait(lambda: not is_open())
    assert focused("dataset.slot") == "2"


def looked_at(browser: Browser) -> list[str]:
    """What is wrong with what is seen now: for eyes and fingers, and on a phone for keys and at twice the size too."""
    faults = faults_of_page(browser)
    if browser.run("return innerWidth") < 600:
        faults += [*faults_for_keys(browser), *faults_enlarged(browser)]
    return faults


@pytest.mark.sampled(1)
@pytest.mark.parametrize("width", [360, 1280])
def test_it_can_be_read_touched_and_enlarged(phone: Phone, width: int) -> None:
    browser = phone.browser
    browser.size(width, 740)
    phone.open()
    browser.wait_shown("#sign-in")
    assert looked_at(browser) == []
    phone.sign_in()
    phone.show("all")
    phone.enter(1, "3.21")
    phone.wait_receipt(1, NEXT)
    assert looked_at(browser) == []
    phone.show("quotes")
    assert looked_at(browser) == []
    phone.show("all")
    phone.edit(1)
    assert looked_at(browser) == []
    browser.click('#entry input[value="missing"]')
    assert looked_at(browser) == []
    browser.click("#entry-cancel")
    phone.enter(2, "99")
    browser.wait_text("#entry-refusal", "far from")
    assert looked_at(browser) == []
    browser.click("#entry-cancel")
    browser.click("#leave")
    assert looked_at(browser) == []


def test_the_page_can_be_put_on_the_phones_first_screen(phone: Phone) -> None:
    phone.open()
    manifest = phone.browser.run_until("return (await fetch('manifest.webmanifest')).json()")
    assert (manifest["start_url"], manifest["display"]) == ("./", "standalone")
    assert json.dumps(manifest).count("http") == 0


def test_the_month_before_is_the_phones_own(phone: Phone) -> None:
    phone.sign_in()
    phone.browser.click("#month-before")
    phone.show("quotes")
    phone.browser.wait_text('[data-quote="4"]', "1.00")
    assert BEFORE[:4] in phone.browser.text("#month")

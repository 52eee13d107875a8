"""Signing in to the collectors' page: by a link, and by a key that is typed, with its check character."""

from __future__ import annotations

import json
import random
from typing import Any
from urllib.parse import quote

from selenium.webdriver.common.keys import Keys

from cpi_tools.desk.keys.keys_cli import check_character
from .offices import ANNA, BENO, LEAVING, NOBODY, SCRIPT
from .phone import Phone
from .readable import faults_enlarged, faults_for_keys, faults_of_page, faults_of_texts
from .stage import Stage


def checked(key: str) -> str:
    """A key with its check character, as a sheet prints it."""
    return key + check_character(key.upper()).lower()


def link(key: str, name: str = "") -> str:
    """The address that a printed code has."""
    return f"/collect/#key={key}&name={quote(name)}"


def follow(phone: Phone, key: str, name: str = "") -> None:
    """Opens a link as a camera does: in a page of its own."""
    phone.browser.open("/")
    phone.browser.open(link(key, name))


TRACES = """
const urls = arguments[0].map(({ url }) => url);
return JSON.stringify([document.URL, document.cookie, {...localStorage}, {...sessionStorage}, history.state, urls])
  + document.body.outerHTML + [...document.querySelectorAll("input")].map(({ value }) => value);
"""
"""The page itself and all that it keeps but its database; `urls` are the pages that Back and Forward lead to."""


# ---- by a link


def test_a_link_signs_in_and_leaves_nothing_of_the_key(phone: Phone, stage: Stage) -> None:
    follow(phone, checked(ANNA), "Anna of the coast")
    phone.browser.wait_text("#line", "All sent")
    phone.browser.wait_text("#list", "Rice, white")
    assert phone.browser.text("#who") == "Anna of the coast"
    traces = phone.browser.run(TRACES, phone.browser.cdp("Page.getNavigationHistory")["entries"])
    assert [text for text in (ANNA, "key=") if text in traces] == []
    assert ANNA not in stage.logs()
    phone.browser.run("history.back()")
    phone.browser.wait(lambda: not phone.browser.run("return location.href").endswith("/collect/"), "the page before")
    phone.browser.run("history.forward()")
    phone.browser.wait_text("#list", "Rice, white")
    assert phone.browser.run("return location.hash") == "" and phone.browser.faults() == []


NAMES = {
    SCRIPT: SCRIPT, "\u202eannA": "\u202eannA", LEAVING: LEAVING, "\U0001f9fa" * 200: "\U0001f9fa" * 60,
    " A&B=C+D% ": "A&B=C+D%",
}  # fmt: skip
"""Names of links as the page keeps them: at most 60 characters."""


def test_a_name_is_shown_as_a_text(phone: Phone) -> None:
    name_shown = "return document.getElementById('who').textContent"
    for name, kept in NAMES.items():
        follow(phone, ANNA, name)
        phone.browser.wait(lambda: phone.browser.run(name_shown) == kept, name)
        faults = faults_of_texts(phone.browser, [kept] if len(kept) > 4 else [])
        assert [*faults, *faults_of_page(phone.browser), *faults_enlarged(phone.browser)] == [], name
        assert phone.browser.run("return document.title") == "Price collection"
    phone.open()
    phone.browser.wait(lambda: phone.browser.run(name_shown) == "A&B=C+D%", "the name, on a page that is opened anew")


def test_a_link_of_another_collector_throws_nothing_away(phone: Phone, stage: Stage) -> None:
    phone.sign_in()
    stage.front.stop()
    phone.enter(1, "3.21")
    phone.browser.wait_text("#line", "Offline: 1 entry")
    words = "Another collector is signed in on this phone. Sign out first, then scan the code again."
    for key, told in ((checked(BENO), words), (BENO[:20], "The link you opened doesn’t contain a key. A key has 32")):
        phone.browser.run("location.hash = arguments[0]", link(key, "Beno").partition("#")[2])
        phone.browser.wait_text("#notice", told)
        assert "To be sent" in phone.told(1) and phone.browser.run("return location.hash") == ""
    stage.front.start()
    phone.send()
    phone.browser.wait_text("#line", "All sent")
    assert [row[:1] + row[3:4] for row in stage.quotes(ANNA)] == [[1, 321]] and stage.quotes(BENO) == []
    assert "doesn’t contain a key" in phone.browser.text("#notice")  # (until it was read)
    phone.browser.click("#notice button")
    assert phone.browser.text("#notice") == "" and phone.browser.text("#who") == ""


def test_a_link_of_the_same_collector_brings_a_name(phone: Phone) -> None:
    phone.sign_in()
    follow(phone, ANNA, "Anna")
    phone.browser.wait_text("#who", "Anna")
    assert phone.browser.text("#notice") == ""


def test_on_a_line_that_hangs_a_link_is_answered_at_once(phone: Phone, stage: Stage) -> None:
    phone.sign_in()
    with stage.standing_still():
        follow(phone, BENO)
        phone.browser.wait_text("#notice", "Another collector is signed in")
        phone.browser.click("#leave")
        phone.browser.click("#leaving-go")
        phone.browser.wait_shown("#sign-in")
        phone.give_key(BENO)
        phone.browser.wait_text("#asking", "Asking the office")
        assert phone.browser.text("#key-fault") == ""
    phone.browser.wait_text("#list", "Market hall")


def test_a_link_that_opens_nothing_says_why(phone: Phone, stage: Stage) -> None:
    follow(phone, NOBODY)
    phone.browser.wait_text("#key-fault", "This key isn’t registered")
    follow(phone, ANNA[:31])
    phone.browser.wait_text("#key-fault", "This one has 31.")
    follow(phone, "")
    phone.browser.wait_text("#key-fault", "This one has 0.")


def test_a_link_without_a_line_keeps_its_key_until_there_is_one(phone: Phone, stage: Stage) -> None:
    phone.open()
    phone.browser.wait_shown("#sign-in")
    phone.browser.run_until("await navigator.serviceWorker.ready")
    stage.front.stop()
    phone.browser.run("location.hash = arguments[0]", link(checked(ANNA), "Anna").partition("#")[2])
    phone.browser.wait_text("#key-fault", "The office can’t be reached. Sign in once when you are online")
    assert phone.browser.run("return location.href").endswith("/collect/")
    stage.front.start()
    phone.browser.click("#sign-in-form button.main")
    phone.browser.wait_text("#who", "Anna")


# ---- by a key that is typed

READ = """
const { readKey } = await import("/collect/key.js");
return arguments[0].map((text) => readKey(text).key ?? null);
"""


def test_a_check_character_is_that_of_the_sheets(phone: Phone) -> None:
    """Each single wrong character is found; of exchanges of neighbours the page finds what the sheets' own check does."""
    chance = random.Random(20261127)
    typed: dict[str, Any] = {}
    for _ in range(60):
        key = f"{chance.getrandbits(128):032x}"
        whole = checked(key)
        typed[whole] = typed[key] = typed[whole.upper()] = key
        for at in range(32):
            other = chance.choice([digit for digit in "0123456789abcdef" if digit != whole[at]])
            typed[whole[:at] + other + whole[at + 1 :]] = None
            swapped = whole[:at] + whole[at + 1] + whole[at] + whole[at + 2 :]
            is_key = set(swapped[:32]) <= set("0123456789abcdef")
            typed[swapped] = swapped[:32] if is_key and checked(swapped[:32]) == swapped else None
        for wrong in "0123456789abcdefghijklmnopqrstuvwxyz".replace(whole[32], ""):
            typed[key + wrong] = None
    phone.open()
    found = dict(zip(typed, phone.browser.run_until(READ, [*typed])))
    assert {text: key for text, key in found.items() if key != typed[text]} == {}


SLIPS = {
    ANNA[:31]: "This one has 31.",
    ANNA + "aa": "This one has 34.",
    "a" * 20
    + "o"
    + "a" * 11: "Character 21 can’t be “o”: a key has 32 characters, each a digit or a letter from a to f.",
    "a" * 5 + "\u202e" + "a" * 27: "Character 6 can’t be “",
    "b" + checked(ANNA)[1:]: "A character is wrong, or two are swapped: compare the key with the sheet.",
}


def test_a_slip_in_a_key_is_told_before_anything_is_sent(phone: Phone, stage: Stage) -> None:
    phone.open()
    phone.browser.wait_shown("#sign-in")
    for text, told in SLIPS.items():
        phone.give_key(text)
        phone.browser.wait_text("#key-fault", told)
    assert [path for path in stage.relay.asked() if "/work/" in path] == []
    phone.give_key(" ".join(checked(ANNA)[at : at + 4] for at in range(0, 36, 4)).upper())
    phone.browser.wait_text("#list", "Rice, white")


def test_signing_in_can_be_read_touched_and_done_by_keys(phone: Phone) -> None:
    phone.browser.shown_as("dark")
    phone.open()
    phone.browser.wait_shown("#sign-in")
    phone.give_key("abc")
    looks = (faults_of_page, faults_for_keys, faults_enlarged)
    assert [fault for look in looks for fault in look(phone.browser)] == []
    phone.browser.run("document.getElementById('key').select()")
    phone.press(checked(ANNA), Keys.TAB, Keys.SPACE, Keys.TAB, "Anna", Keys.ENTER)
    phone.browser.wait_text("#who", "Anna")
    phone.browser.wait_text("#list", "Rice, white")
    assert phone.browser.run("const it = document.getElementById('key'); return [it.value, it.type]") == [
        "",
        "password",
    ]


# ---- what a phone keeps


def test_a_browser_that_may_clear_storage_is_told_until_it_was_read(phone: Phone) -> None:
    with phone.browser.on_each_page("navigator.storage.persisted = navigator.storage.persist = async () => false;"):
        phone.sign_in()
        assert not phone.browser.find("#storage").is_displayed()
        before = phone.places()
        phone.enter(1, "3.21")
        phone.browser.wait_shown("#storage p")
        assert "If this browser needs space, it may delete entries that haven’t been sent yet" in phone.browser.text(
            "#storage"
        )
        assert phone.places() == before
        phone.open()
        phone.browser.wait_text("#line", "All sent")
        phone.enter(2, "4.90")
        phone.browser.wait(lambda: phone.browser.find("#storage").is_displayed(), "the notice")
        phone.browser.click("#storage-read")
        phone.open()
        phone.browser.wait_text("#line", "All sent")
        phone.enter(3, "1.05")
        assert not phone.browser.find("#storage").is_displayed()
    phone.browser.fresh()
    with phone.browser.on_each_page("navigator.storage.persisted = navigator.storage.persist = async () => true;"):
        phone.sign_in()
        phone.enter(4, "1.05")
        phone.browser.wait_text("#line", "All sent")
        assert not phone.browser.find("#storage").is_displayed()


def test_the_notice_comes_back_at_a_start_with_entries_that_wait(phone: Phone, stage: Stage) -> None:
    with phone.browser.on_each_page("navigator.storage.persisted = navigator.storage.persist = async () => false;"):
        phone.sign_in()
        stage.front.stop()
        try:
            phone.enter(1, "3.21")
            phone.browser.wait_text("#line", "Offline: 1 entry kept on this phone")
            phone.open()
            phone.browser.wait_shown("#storage p")
            phone.browser.click("#storage-read")
            phone.open()
            phone.browser.wait_text("#list", "To be sent")
            assert not phone.browser.find("#storage").is_displayed()
        finally:
            stage.front.start()
        phone.browser.wait_text("#line", "All sent")


def test_each_icon_of_the_manifest_is_there(stage: Stage) -> None:
    icons = json.loads(stage.ask("GET", "/collect/manifest.webmanifest").body)["icons"]
    for icon in icons:
        answer = stage.ask("GET", f"/collect/{icon['src']}")
        assert (answer.status, answer.fields["Content-Type"].partition(";")[0]) == (200, icon["type"])
        size = "x".join(str(int.from_bytes(answer.body[at : at + 4], "big")) for at in (16, 20))
        assert icon["type"] != "image/png" or size == icon["sizes"]
    assert {"192x192", "512x512"} <= {icon["sizes"] for icon in icons}

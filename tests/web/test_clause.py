"""The index clause in Chromium: a result's permanent address after a later revision, and texts that are copied."""

from __future__ import annotations

import re
from pathlib import Path

import pytest

from .browser import Browser
from cpi_tools.text.clocks import clock_of
from cpi_tools.publish.figures.config import Config
from cpi_tools.publish.figures.own_words import OfficeLanguages
from cpi_tools.office.public import Listed, Published
from cpi_tools.publish.pack import publish

BEFORE, JANUARY, FEBRUARY = (Published(Listed("2025-12", 1, 0), b""), *(
    Published(Listed(f"2026-{month}", 1, moment), f"00,1000000,{level},{level},{change},,0,All items\n".encode())
    for month, moment, level, change in (("01", 10, "101.300000", "1.3"), ("02", 20, "103.700000", "2.4"))
))  # fmt: skip
REVISED = Published(
    Listed("2026-02", 2, 30), FEBRUARY.table.replace(b"103.700000", b"105.000000").replace(b",2.4,", b",3.7,")
)
CONFIG = Config("NSO", "XX", "Office of prices", currency="crowns")


@pytest.fixture
def out(tmp_path: Path) -> Path:
    publish([BEFORE, JANUARY, FEBRUARY], CONFIG, tmp_path / "public", None, lambda _: None)
    return tmp_path / "public"


CHOOSE = """
const field = document.getElementById(arguments[0]);
field.value = arguments[1];
field.dispatchEvent(new Event("input", { bubbles: true }));
"""


def open_page(browser: Browser, out: Path, after: str = "") -> None:
    # (the whole page is in sight, so that no click waits for a scroll)
    browser.size(1280, 2000)
    browser.driver.get("about:blank")
    browser.driver.get(f"{(out / 'contract.html').as_uri()}{after}")


def folded(browser: Browser, selector: str) -> str:
    """A text of the fold with the tables and their sums."""
    return str(browser.run("return document.querySelector(arguments[0]).textContent", selector))


def shown(browser: Browser, selector: str) -> str:
    return browser.text(selector).translate({ord(it): None for it in "\u2068\u2069"}).replace("\u202f", " ")


def test_the_address_of_a_result_gives_it_after_a_revision(browser: Browser, out: Path) -> None:
    """1000 * 103.7 / 101.3 = 1023.69; after the revision 1000 * 105 / 101.3 = 1036.53, and both are shown."""
    open_page(browser, out)
    browser.run(CHOOSE, "then", "2026-01")
    browser.run(CHOOSE, "now", "2026-02")
    assert shown(browser, "#value") == "1 023.69 crowns" and shown(browser, "#notices") == ""
    address = browser.find("#address").get_attribute("href")
    assert address == browser.driver.current_url and "now-revision=1" in address
    assert shown(browser, "#result-text").endswith(f"= 1 023.69 crowns. {address}")

    publish([BEFORE, JANUARY, FEBRUARY, REVISED], CONFIG, out, None, lambda _: None)
    open_page(browser, out, address[address.index("#") :])
    assert shown(browser, "#value") == "1 023.69 crowns"
    assert "its index is 105.0 in revision 2" in shown(browser, "#notices")
    assert "With the latest revisions, the new amount is 1 036.53 crowns." in shown(browser, "#notices")
    assert "revision 1, published 1 January 1970, 00:00 UTC" in folded(browser, "#now-source")
    browser.click("#latest")
    assert shown(browser, "#value") == "1 036.53 crowns" and shown(browser, "#notices") == ""
    assert "now-revision=2" in browser.driver.current_url and not browser.find("#latest").is_displayed()
    assert browser.faults() == []


def test_the_address_of_a_result_is_that_of_the_site(browser: Browser, out: Path) -> None:
    """Whoever opens a copy, such as a folder, cites the page of the office; moments are those of its clock."""
    config = CONFIG._replace(address="https://prices.example/", clock=clock_of("Europe/Prague"))
    publish([BEFORE, JANUARY, FEBRUARY], config, out, None, lambda _: None)
    open_page(browser, out)
    address = browser.find("#address").get_attribute("href")
    assert address.startswith("https://prices.example/contract.html#amount=") and address in shown(
        browser, "#result-text"
    )
    assert "published 1 January 1970, 01:00 CET (00:00 UTC)" in folded(browser, "#now-source")


def test_an_address_is_read_or_said_to_be_wrong(browser: Browser, out: Path) -> None:
    open_page(browser, out, "#amount=2000&code=77&then=2026-01&now=2026-02")
    assert "The address contains code=77. The value has to be an item that the form offers." in browser.text(
        "#address-faults"
    )
    assert shown(browser, "#value") == "2 047.38 crowns"
    browser.driver.back()
    browser.driver.forward()
    browser.type("#amount", "1,000")
    assert not browser.find("#result").is_displayed() and not browser.find("#texts").is_displayed()
    assert "1,000 can be read as 1000 or as 1.000." in browser.text("#fault") and browser.text("#address-faults") == ""
    browser.type("#amount", "1000")
    assert shown(browser, "#value") == "1 023.69 crowns"


def test_the_texts_are_copied(browser: Browser, out: Path) -> None:
    """What is copied is what is shown; if the browser forbids it, the text is selected."""
    open_page(browser, out)
    for at, name in enumerate(("clause-text", "result-text")):
        browser.run("document.querySelectorAll('[data-copies]')[arguments[0]].click()", at)
        said = f"document.querySelectorAll('[data-copies] + [role=status]')[{at}].innerText"
        browser.wait(lambda: browser.run(f"return {said}"), name)
        if "Copied" in browser.run(f"return {said}"):
            continue
        assert browser.run("return getSelection().toString()").strip() == browser.text(f"#{name}").strip()
    assert re.search(
        "The base index is the index of December 2025: 100.0 .*to the nearest 0.01", browser.text("#clause-text")
    )


COPIED = """
const texts = [];
Object.defineProperty(navigator, "clipboard", { value: { writeText: async (text) => { texts.push(text); } } });
for (const button of document.querySelectorAll("[data-copies]")) {
  button.click();
  getSelection().selectAllChildren(document.getElementById(button.dataset.copies));
  const event = new ClipboardEvent("copy", { clipboardData: new DataTransfer(), cancelable: true });
  document.dispatchEvent(event);
  texts.push(event.defaultPrevented ? event.clipboardData.getData("text/plain") : String(getSelection()));
}
return texts;
"""
"""What each button copies, and what is copied by hand of the same text."""


def test_what_is_copied_has_no_sign_that_nobody_sees(browser: Browser, tmp_path: Path) -> None:
    """A page from right to left keeps its English names apart by such signs."""
    config = CONFIG._replace(speaks=OfficeLanguages(("ar",), "arab", {}))
    publish([BEFORE, JANUARY, FEBRUARY], config, tmp_path / "public", None, lambda _: None)
    open_page(browser, tmp_path / "public")
    signs = "[\u2066-\u2069\u200e\u200f]"
    assert re.search(signs, browser.run("return document.getElementById('clause-text').textContent"))
    texts = browser.run(COPIED)
    assert len(texts) == 4 and all("Office of prices" in text for text in texts)
    assert [text for text in texts if re.search(signs, text)] == []

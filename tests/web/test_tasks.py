"""How many steps three readers take for what they came for, as a table of COMPARED says: each task is done in Chromium, and
its clicks and the fields that it fills in are counted."""

from __future__ import annotations

import re

from lib.places import ROOT

from .browser import Browser
from .offices import ANNA, NOW
from .phone import Phone
from .receipts import NEXT
from .stage import Stage
from .test_clause import CHOOSE

COUNTED = re.compile(r"^\| an? (\w+) [^|]+ \| (\d+) \| (\d+) \|$", re.M)
"""A row of the table: who, how many clicks, how many fields."""


def find_counts(who: str) -> tuple[int, int]:
    """The clicks and the fields of a reader's task, as COMPARED has them."""
    text = (ROOT / "docs/decide/COMPARED.md").read_text(encoding="utf-8")
    return {name: (int(clicks), int(fields)) for name, clicks, fields in COUNTED.findall(text)}[who]


class Steps:
    """A person before a page, whose clicks and fields are counted."""

    def __init__(self, browser: Browser):
        self.browser, self.clicks, self.fields = browser, 0, 0

    @property
    def counts(self) -> tuple[int, int]:
        return self.clicks, self.fields

    def click(self, selector: str) -> None:
        """Clicks on what is seen."""
        self.browser.wait_shown(selector)
        self.browser.click(selector)
        self.clicks += 1

    def type(self, selector: str, text: str) -> None:
        """Types a text into a field that is seen."""
        self.browser.wait_shown(selector)
        self.browser.type(selector, text)
        self.fields += 1

    def choose(self, name: str, value: str) -> None:
        """Chooses a value of a list that is seen."""
        self.browser.wait_shown(f"#{name}")
        self.browser.run(CHOOSE, name, value)
        self.fields += 1


def test_a_lawyer_copies_an_index_clause(years: Browser) -> None:
    """From the first page: the text for a contract on all items, with the base index of January 2012."""
    years.open("/published/index.html")
    lawyer = Steps(years)
    lawyer.click("header nav a[href='contract.html']")
    lawyer.choose("then", "2012-01")
    years.wait_text("#clause-text", "The base index is the index of January 2012: 116.6 (revision 1,")
    lawyer.click("[data-copies=clause-text]")
    years.wait(lambda: years.text("[data-copies=clause-text] + [role=status]"), "that it is copied")
    assert lawyer.counts == find_counts("lawyer")


def test_a_journalist_finds_what_drove_inflation_and_a_picture(years: Browser) -> None:
    """The first page says it in a sentence; the picture of the contributions has a page that others can frame."""
    years.open("/published/index.html")
    journalist = Steps(years)
    assert "The largest contribution came from" in years.text(".lead")
    journalist.click(".take a[href^='embed/00.html#contribution']")
    years.wait_shown("figure[id^=contribution]")
    assert [picture.is_displayed() for picture in years.all("figure")].count(True) == 1
    assert journalist.counts == find_counts("journalist")


def test_a_collector_stores_a_price(phone: Phone, stage: Stage) -> None:
    """From the work list to the receipt of the office."""
    phone.sign_in()
    collector = Steps(phone.browser)
    collector.click('[data-slot="1"]')
    collector.type("#price", "3.21")
    collector.click("#entry-save")
    assert stage.wait_for_quotes(ANNA) == [[1, NOW, "price", 321, NEXT]]
    phone.close()
    phone.wait_receipt(1, NEXT)
    assert collector.counts == find_counts("collector")


def test_the_table_has_these_three_tasks() -> None:
    text = (ROOT / "docs/decide/COMPARED.md").read_text(encoding="utf-8")
    assert [name for name, *_ in COUNTED.findall(text)] == ["lawyer", "journalist", "collector"]

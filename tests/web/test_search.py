"""The list of items in Chromium: what the search shows and says, by the keyboard, and in the address."""

from __future__ import annotations

from collections.abc import Iterator
from pathlib import Path

import pytest

from .browser import Browser
from cpi_tools.publish.figures.config import Config
from cpi_tools.office.public import Listed, Published
from cpi_tools.publish.pack import publish

TITLES = {
    "00": "All items", "01": "Food", "01.1": "Bread & caf\u00e9s", "02": "Bi\u00e8re", "03": "Chocolate", "03.1": "Chocolate drinks",
}  # fmt: skip


def table(at: int, codes: list[str]) -> bytes:
    """A table in which nothing moves."""
    return "".join(
        f"{code},1000000,100.000000,100.000000,0.0,{'0.0' if at > 11 else ''},0,{TITLES[code]}\n" for code in codes
    ).encode()


@pytest.fixture(scope="module")
def page(tmp_path_factory: pytest.TempPathFactory) -> Path:
    """The list of items of two years; chocolate drinks left after the first one."""
    months = [(2026 + at // 12, at % 12 + 1) for at in range(13)]
    first = [Published(Listed("2025-12", 1, 0), b"")]
    kept = [code for code in TITLES if code != "03.1"]
    tables = [
        Published(Listed(f"{year}-{month:02}", 1, at + 1), table(at, [*TITLES] if year == 2026 else kept))
        for at, (year, month) in enumerate(months)
    ]
    out = tmp_path_factory.mktemp("search") / "public"
    publish([*first, *tables], Config("NSO", "XX", "Office"), out, None, lambda _: None)
    return out / "nodes.html"


@pytest.fixture
def opened(browser: Browser, page: Path) -> Iterator[Browser]:
    browser.size(360, 740)
    browser.driver.get("about:blank")
    browser.driver.get(page.as_uri())
    yield browser


SHOWN = "return [...document.querySelectorAll('.tree li .code')].filter((it) => it.checkVisibility()).map((it) => it.innerText)"


def keys(browser: Browser, *pressed: str) -> None:
    """Presses keys by name, or types a text, where the focus is."""
    for key in pressed:
        browser.driver.switch_to.active_element.send_keys(KEYS.get(key, key))


KEYS = {"Down": "\ue015", "Up": "\ue013", "Enter": "\ue007", "Escape": "\ue00c"}


def test_what_is_typed_is_found_and_counted(opened: Browser) -> None:
    assert len(opened.run(SHOWN)) == 6 and opened.text("#found") == ""
    for sought, codes, said in (
        ("cafe", ["01.1"], "1 of 6 items."),
        ("biere", ["02"], "1 of 6 items."),
        ("chocolaet", ["03", "03.1"], "No item contains \u201cchocolaet\u201d. 2 of 6 items contain a word like it."),
        ("zinc", [], "No item contains \u201czinc\u201d, or a word like it."),
    ):
        opened.type("#seek", sought)
        assert (opened.run(SHOWN), opened.text("#found")) == (codes, said)
    opened.type("#seek", "03.1")
    # (a heading of which nothing is shown isn't shown either)
    assert opened.run(SHOWN) == ["03.1"] and "Items that left the index" in opened.text("main")
    opened.type("#seek", "02")
    assert "Items that left the index" not in opened.text("main")


def test_the_keyboard_leads_through_what_is_found(opened: Browser) -> None:
    focused = "return document.activeElement.id || document.activeElement.innerText"
    opened.find("#seek").click()
    keys(opened, "choc", "Down")
    assert opened.run(focused) == "Chocolate"
    keys(opened, "Down", "Down")
    assert opened.run(focused) == "Chocolate drinks"
    keys(opened, "Up", "Up", "Up")
    assert opened.run(focused) == "seek"
    keys(opened, "Enter")
    assert opened.run(focused) == "Chocolate"
    keys(opened, "Escape")
    assert opened.run(focused) == "seek"
    keys(opened, " drinks", "Enter")
    opened.wait(lambda: "/node/03.1.html" in opened.driver.current_url, "the page of the only item")
    opened.driver.back()
    opened.wait(lambda: opened.run(SHOWN) == ["03.1"], "what was sought, after the way back")
    assert opened.faults() == []


def test_a_search_is_in_the_address(opened: Browser, page: Path) -> None:
    opened.driver.get(f"{page.as_uri()}#seek=BI%C3%88RE")
    opened.wait(lambda: opened.run(SHOWN) == ["02"], "what the address seeks")
    opened.type("#seek", "bread & c")
    assert opened.driver.current_url.endswith("#seek=bread+%26+c") and opened.run(SHOWN) == ["01.1"]

"""Pictures of the website that tell a month's figures under a pointer, a finger and the arrow keys; figures are those of the
office of three years, which are worked by hand (`years`)."""

from __future__ import annotations

import gzip
import html
from pathlib import Path

import pytest
from selenium.webdriver.common.action_chains import ActionChains
from selenium.webdriver.common.keys import Keys

from .browser import Browser
from .readable import faults_for_keys
from .stage import Stage
from .years import BREAD, FLOUR

LEVEL, YEAR = 'svg[aria-label*=": index"]', 'svg[aria-label*=": annual change"]'

TOLD = "return document.querySelector(arguments[0]).parentElement.querySelector('.readout').textContent"

PLACE = """
const { left, top, width, height } = document.querySelector(arguments[0]).getBoundingClientRect();
return [left + width * arguments[1], top + height / 2];
"""
"""A place in a picture, by its part of the width."""


def open_page(browser: Browser, path: str) -> None:
    browser.open(f"/published/{path}")
    browser.wait(lambda: browser.all("svg[tabindex]"), "pictures that can be pointed at")


def wait_told(browser: Browser, picture: str, text: str) -> None:
    browser.wait(lambda: browser.run(TOLD, picture) == text, f"{text!r}, not {browser.run(TOLD, picture)!r}")


def press(browser: Browser, *keys: str) -> None:
    ActionChains(browser.driver).send_keys(*keys).perform()  # type: ignore[no-untyped-call]


def brought(browser: Browser, picture: str) -> None:
    browser.run(
        "document.querySelector(arguments[0]).scrollIntoView({ block: 'center', behavior: 'instant' })", picture
    )


def test_the_arrow_keys_tell_each_month_of_the_first_page(years: Browser) -> None:
    """The index is 106 in 2011, 116.6 in 2012 and 121.847 in 2013."""
    open_page(years, "index.html")
    years.run("document.querySelector(arguments[0]).focus()", LEVEL)
    press(years, Keys.END)
    wait_told(years, LEVEL, "February 2013: All items 121.8")
    press(years, Keys.ARROW_LEFT, Keys.ARROW_LEFT)
    wait_told(years, LEVEL, "December 2012: All items 116.6")
    press(years, Keys.HOME)
    wait_told(years, LEVEL, "January 2011: All items 106.0")
    years.run("document.querySelector(arguments[0]).focus()", YEAR)
    wait_told(years, LEVEL, "")
    press(years, Keys.END)
    wait_told(years, YEAR, "February 2013: All items +4.5")
    assert years.find(f"{LEVEL} ~ .readout").get_attribute("aria-live") == "polite"
    assert faults_for_keys(years) == []


def test_a_pointer_and_a_finger_tell_a_month(years: Browser) -> None:
    open_page(years, "index.html")
    brought(years, LEVEL)
    x, y = years.run(PLACE, LEVEL, 0.95)
    years.cdp("Input.dispatchMouseEvent", type="mouseMoved", x=x, y=y)
    wait_told(years, LEVEL, "February 2013: All items 121.8")
    years.cdp("Input.dispatchMouseEvent", type="mouseMoved", x=1, y=y)
    wait_told(years, LEVEL, "")
    years.size(360, 640)
    brought(years, LEVEL)
    x, y = years.run(PLACE, LEVEL, 0.12)
    years.touch(x, y)
    wait_told(years, LEVEL, "January 2011: All items 106.0")
    assert years.faults() == []


def test_an_item_is_told_beside_all_items(years: Browser) -> None:
    """Bread is 126 in 2013, with December 2011 = 100; all items are 121.847 / 106 = 1.1495 then, which is 115.0, halves upwards."""
    open_page(years, f"node/{BREAD}.html")
    years.run("document.querySelector(arguments[0]).focus()", LEVEL)
    press(years, Keys.END)
    wait_told(years, LEVEL, "February 2013: Bread 126.0, All items 115.0")


def test_an_item_that_was_gone_has_a_dash(years: Browser) -> None:
    """Flour isn't there in 2012, and has December 2012 = 100 after it."""
    open_page(years, f"node/{FLOUR}.html")
    years.run("document.querySelector(arguments[0]).focus()", LEVEL)
    press(years, Keys.END)
    years.wait(lambda: "February 2013: Flour 110.0" in years.run(TOLD, LEVEL), "flour in 2013")
    press(years, Keys.ARROW_LEFT, Keys.ARROW_LEFT)
    years.wait(lambda: "December 2012: Flour \u2013" in years.run(TOLD, LEVEL), "none in 2012")


def test_a_release_tells_the_figures_of_its_day(years: Browser, of_years: Path) -> None:
    """They are in a table of the page too, for all who have no script."""
    open_page(years, "release/2012-01-r1.html")
    years.run("document.querySelector(arguments[0]).focus()", LEVEL)
    press(years, Keys.END)
    wait_told(years, LEVEL, "January 2012: 116.6")
    page = (of_years / "release/2012-01-r1.html").read_text(encoding="utf-8")
    assert '<tr><th scope="row">January 2012</th><td class="n">116.6</td></tr>' in page
    open_page(years, "embed/2012-01-r1.html#level")
    years.run("document.querySelector(arguments[0]).focus()", LEVEL)
    press(years, Keys.END)
    wait_told(years, LEVEL, "January 2012: 116.6")


def test_a_page_to_embed_tells_them_too(years: Browser) -> None:
    open_page(years, f"embed/{BREAD}.html#level")
    years.run("document.querySelector(arguments[0]).focus()", LEVEL)
    press(years, Keys.END)
    wait_told(years, LEVEL, "February 2013: Bread 126.0, All items 115.0")
    assert years.faults() == []
    asked = years.run("return performance.getEntriesByType('resource').map(({ name }) => new URL(name).origin)")
    assert {*asked} == {years.url}


def test_without_a_script_the_pictures_are_there(years: Browser) -> None:
    years.cdp("Emulation.setScriptExecutionDisabled", value=True)
    try:
        years.open("/published/index.html")
        source = years.driver.page_source
    finally:
        years.cdp("Emulation.setScriptExecutionDisabled", value=False)
    assert '<title id="level-title">' in source and "readout" not in source


def test_an_axis_that_is_cut_says_so(of_years: Path) -> None:
    for name in ("index.html", f"node/{BREAD}.html", f"embed/{BREAD}.html", "release/2012-01-r1.html"):
        page = html.unescape((of_years / name).read_text(encoding="utf-8"))
        assert page.count("= 100; the axis doesn't begin at zero") == 1, name


def test_a_file_that_cant_be_had_is_told(years: Browser, stage: Stage) -> None:
    open_page(years, "index.html")
    years.run("document.querySelector(arguments[0]).focus()", LEVEL)
    years.wait(lambda: years.run("return document.querySelector('.cursor') !== null"), "scripts")
    stage.front.stop()
    press(years, Keys.END)
    years.wait(lambda: "the server doesn’t respond. Reload the page in a moment" in years.run(TOLD, LEVEL), "told")
    stage.front.start()
    press(years, Keys.HOME)
    wait_told(years, LEVEL, "January 2011: All items 106.0")


MOST_BYTES = 60_000
"""What the first page weighs at most on the line, with everything that it loads once its pictures tell months."""

ASKED = "return performance.getEntriesByType('resource').map(({ name }) => new URL(name).pathname)"


def test_what_tells_months_is_asked_for_once_somebody_points(years: Browser, of_years: Path) -> None:
    open_page(years, "index.html")
    first = years.run(ASKED)
    assert not [name for name in first if name.endswith(("living.js", ".csv"))]
    years.run("document.querySelector(arguments[0]).focus()", LEVEL)
    press(years, Keys.END)
    wait_told(years, LEVEL, "February 2013: All items 121.8")
    names = years.run(ASKED)
    assert {"/published/assets/living.js", "/published/node/00.csv"} < {*names} and len(names) == len({*names})
    files = ["index.html", *(name.removeprefix("/published/") for name in names)]
    assert sum(len(gzip.compress((of_years / name).read_bytes())) for name in files) < MOST_BYTES


def test_scripts_that_cant_be_had_are_told_and_asked_for_again(years: Browser, stage: Stage) -> None:
    open_page(years, "index.html")
    stage.front.stop()
    years.run("document.querySelector(arguments[0]).focus()", LEVEL)
    years.wait(lambda: "The monthly figures can't be loaded." in years.run(TOLD, LEVEL), "what is told")
    stage.front.start()
    press(years, Keys.END)
    wait_told(years, LEVEL, "February 2013: All items 121.8")


def test_a_page_from_a_disk_has_its_pictures_as_they_are(browser: Browser, of_years: Path) -> None:
    """Chromium lets no such page load a module or a file."""
    browser.driver.get((of_years / "index.html").as_uri())
    assert browser.all("svg[data-months] title") and not browser.all("svg[tabindex], .readout")
    assert browser.all(".take button") and browser.faults() == []


SMALL = """
const isSmall = ({ width, height }) => width > 0 && (width < 24 || height < 24);
return [...document.querySelectorAll("main button, main summary, .take a, nav a, main svg[tabindex]")]
  .filter((one) => isSmall(one.getBoundingClientRect())).map((one) => one.outerHTML.slice(0, 90));
"""


@pytest.mark.parametrize("path", ["index.html", f"node/{BREAD}.html", "release/2012-01-r1.html"])
def test_targets_have_room_for_a_finger(years: Browser, path: str) -> None:
    """24 pixels at least (WCAG 2.2, 2.5.8), but for links in a text."""
    years.size(360, 640)
    open_page(years, path)
    assert years.run(SMALL) == []

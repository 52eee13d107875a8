"""Pictures of a reader's own choice, taken from the page for choosing: as SVG, as PNG, and as a page in another site."""

from __future__ import annotations

import base64
import itertools
import re
import xml.etree.ElementTree as ET
from pathlib import Path
from typing import Any

import pytest

from .browser import Browser
from cpi_tools.office.program import Cpi
from .other_site import other_site
from .readable import faults_enlarged, faults_of_page
from .stage import Stage
from .test_choose import opened
from .test_pictures_elsewhere import PIXELS
from .websites import published
from .years import BREAD, RICE, lived

SVG = "{http://www.w3.org/2000/svg}"
SMALL = "/published/embed/chosen.html"

LEVELS = {"All items": ["106.0", "121.8"], "Rice": ["100.0", "100.0"]}
"""By hand (see years.py): in January 2011 and in February 2013, December 2010 = 100."""


def site_up_to(cpi: Cpi, folder: Path, month: str) -> Path:
    """The website of the office of three years before it freezes a month."""
    records = [*itertools.takewhile(lambda it: f",freeze,{month}" not in it, lived())]
    assert [reply for reply in cpi.replay(records, db=folder / "years.db") if "refused" in reply] == []
    return published(cpi, folder / "years.db", folder)


@pytest.fixture(scope="module")
def earlier(cpi: Cpi, tmp_path_factory: pytest.TempPathFactory) -> Path:
    return site_up_to(cpi, tmp_path_factory.mktemp("earlier"), "2012-11")


@pytest.fixture(scope="module")
def later(cpi: Cpi, tmp_path_factory: pytest.TempPathFactory) -> Path:
    return site_up_to(cpi, tmp_path_factory.mktemp("later"), "never")


def taken(browser: Browser, kind: str, name: str, folder: Path) -> bytes:
    """The file that a button of the first picture gives."""
    browser.cdp("Browser.setDownloadBehavior", behavior="allow", downloadPath=str(folder))
    (button,) = (it for it in browser.all("#parts section:first-child .take button") if it.text == kind)
    browser.run("arguments[0].click()", button)
    path = folder / name
    browser.wait(lambda: path.exists() and path.stat().st_size and not [*folder.glob("*.crdownload")], name)
    return path.read_bytes()


def values_of(svg: ET.Element, line: str) -> list[float]:
    """The first and the last value of a line, read off by the marks of the axis."""
    marks = [element for element in svg.iter(f"{SVG}text") if element.get("text-anchor") == "end"]
    (low, foot), (high, top) = (
        (float(mark.text or ""), float(mark.get("y", "")) - 4) for mark in (marks[0], marks[-1])
    )
    places = [word.split(" ") for word in re.split("[ML]", line)[1:]]
    return [low + (high - low) * (foot - float(y)) / (foot - top) for _, y in (places[0], places[-1])]


def test_a_picture_is_taken_as_svg(browser: Browser, stage: Stage, later: Path, tmp_path: Path) -> None:
    """On white paper whatever the screen is: its title, its unit, its key and its source, and lines at their values."""
    stage.published.symlink_to(later)
    browser.shown_as("dark")
    opened(browser, f"?items=00+{RICE}&from=2011-01")
    svg = ET.fromstring(taken(browser, "SVG", "cpi-index-2011-01-2013-02.svg", tmp_path))
    texts = ["".join(element.itertext()).strip("\u2068\u2069") for element in svg.iter(f"{SVG}text")]
    assert texts[:2] == ["Index", "December 2010 = 100; the axis doesn't begin at zero"] and texts[-3:-1] == [
        "All items",
        "Rice",
    ]
    assert texts[-1].startswith("Source: Office of prices, Consumer price index, up to February")
    lines = [element.get("d", "") for element in svg.iter(f"{SVG}path") if "L" in element.get("d", "")]
    by_colour = {
        element.get("stroke"): values_of(svg, element.get("d", ""))
        for element in svg.iter(f"{SVG}path")
        if element.get("d") in lines
    }
    for colour, title in (("#0a5c7d", "All items"), ("#b1521d", "Rice")):
        assert all(abs(value - float(want)) < 0.3 for value, want in zip(by_colour[colour], LEVELS[title])), title
    text = ET.tostring(svg, encoding="unicode")
    assert 'fill="#ffffff"' in text and not re.search("class=|style=|var\\(|NaN|undefined", text)
    high = float(svg.get("height", ""))
    assert all(0 < float(element.get("y", "")) < high for element in svg.findall(f"{SVG}text"))
    assert browser.faults() == []


def test_the_colours_of_a_file_are_those_of_the_page(
    browser: Browser, stage: Stage, later: Path, tmp_path: Path
) -> None:
    """In the light scheme, each line with its own strokes."""
    stage.published.symlink_to(later)
    browser.shown_as("light")
    opened(browser, f"?items=00+01+01.1+01.1.1+{RICE}+{BREAD}&from=2011-01&hundred=own")
    looks = """return [...document.querySelectorAll("#parts .picture .curve")].reverse().map((line) => {
      const { stroke, strokeDasharray, strokeWidth } = getComputedStyle(line);
      const hex = "#" + stroke.match(/\\d+/g).slice(0, 3).map((it) => Number(it).toString(16).padStart(2, "0")).join("");
      return [hex, strokeDasharray.replace(/px|,/g, "").replace("none", ""), parseFloat(strokeWidth)]; });"""
    shown: list[Any] = browser.run(looks)
    svg = ET.fromstring(taken(browser, "SVG", "cpi-index-2011-01-2013-02.svg", tmp_path))
    keys = [element for element in svg.findall(f"{SVG}path")]
    found = [[key.get("stroke"), key.get("stroke-dasharray", ""), float(key.get("stroke-width", ""))] for key in keys]
    assert found == shown and len(found) == 6


def test_a_picture_is_taken_as_png(browser: Browser, stage: Stage, later: Path, tmp_path: Path) -> None:
    """Three times as large as the SVG."""
    stage.published.symlink_to(later)
    opened(browser, "?items=00&show=year")
    svg = ET.fromstring(taken(browser, "SVG", "cpi-year-2011-02-2013-02.svg", tmp_path))
    data = taken(browser, "PNG", "cpi-year-2011-02-2013-02.png", tmp_path)
    address = f"data:image/png;base64,{base64.b64encode(data).decode()}"
    size, corner, colours = browser.run_until(PIXELS, address)
    assert size == [3 * int(svg.get("width", "")), 3 * int(svg.get("height", ""))]
    assert corner == [255, 255, 255, 255] and colours > 20


def test_what_has_no_figure_is_no_file(browser: Browser, stage: Stage, later: Path, tmp_path: Path) -> None:
    stage.published.symlink_to(later)
    opened(browser, "?items=00&show=year&to=2011-06")
    for button in browser.all("#parts .take button"):
        browser.run("arguments[0].click()", button)
        browser.wait_text("#parts .take [role=status]", "The picture can’t be made here.")
    assert [*tmp_path.iterdir()] == []


# ---- a page in another site


def said_at(browser: Browser, search: str) -> str:
    """What the picture of the small page says of its lines, last figures first."""
    browser.open(SMALL + search)
    browser.wait(lambda: browser.all("#parts .picture svg"), "a picture")
    return str(browser.find("#parts .picture svg").get_attribute("aria-label"))


def test_an_embedded_picture_follows_the_newest_month(
    browser: Browser, stage: Stage, earlier: Path, later: Path, tmp_path: Path
) -> None:
    """The link of the page for choosing leads to it. If a last month and a revision are chosen, it stays as it is."""
    told: dict[str, list[str]] = {"open": [], "fixed": []}
    for site in (earlier, later):
        stage.published.unlink(missing_ok=True)
        stage.published.symlink_to(site)
        opened(browser, f"?items=00+{RICE}&show=index+month&from=2011-01")
        link = str(browser.find("#parts section:first-child .take a").get_attribute("href"))
        assert link.endswith(f"{SMALL}?items=00+{RICE}&from=2011-01")
        told["open"].append(said_at(browser, link.partition(SMALL)[2]))
        browser.open("/published/choose.html")
        opened(browser, f"?items=00+{RICE}&from=2011-01&to=2012-01&revision=1")
        link = str(browser.find("#parts section:first-child .take a").get_attribute("href"))
        told["fixed"].append(said_at(browser, link.partition(SMALL)[2]))
    assert "October 2012" in told["open"][0] and "All items\u2069: 121.8 in February 2013; " in told["open"][1]
    assert told["fixed"][0] == told["fixed"][1] and "in January 2012" in told["fixed"][0]


@pytest.mark.sampled(1)
@pytest.mark.parametrize("width", [320, 700])
def test_a_choice_is_framed_by_another_site(
    browser: Browser, stage: Stage, later: Path, tmp_path: Path, width: int
) -> None:
    """Its picture, key and source, no wider than the frame, read by arrow keys; and the way to the same choice."""
    stage.published.symlink_to(later)
    search = f"?items=00+{RICE}&show=year&from=2012-01"
    (tmp_path / "index.html").write_text(
        f'<!DOCTYPE html><title>Other</title><iframe src="{stage.url}{SMALL}{search.replace("&", "&amp;")}"'
        f' style="width:{width}px;height:500px"></iframe>',
        encoding="utf-8",
    )
    with other_site(tmp_path) as url:
        browser.driver.get(f"{url}/index.html")
        browser.driver.switch_to.frame(browser.driver.find_element("css selector", "iframe"))
        try:
            browser.wait(lambda: browser.all("#parts .picture svg"), "a picture")
            assert browser.text("#parts figcaption").startswith("Annual change")
            assert [it.text for it in browser.all("#parts .lines-key li")] == ["All items", "Rice"]
            assert "Source: Office of prices" in browser.text("footer").translate({0x2068: None, 0x2069: None})
            link = browser.find("#choose")
            assert str(link.get_attribute("href")) == f"{stage.url}/published/choose.html{search}"
            assert browser.run("return document.documentElement.scrollWidth <= innerWidth")
            press = "const svg = document.querySelector('svg'); svg.focus(); svg.dispatchEvent(new KeyboardEvent('keydown', { key: 'End', bubbles: true }));"
            browser.run(press)
            assert browser.text("#parts .readout").startswith("February 2013: All items ")
        finally:
            browser.driver.switch_to.default_content()


@pytest.mark.sampled(1)
@pytest.mark.parametrize("scheme", ["light", "dark"])
def test_the_small_page_can_be_read_and_enlarged(browser: Browser, stage: Stage, later: Path, scheme: str) -> None:
    stage.published.symlink_to(later)
    browser.shown_as(scheme)
    browser.size(360, 500)
    said_at(browser, f"?items=00+01+01.1+01.1.1+{RICE}+{BREAD}&show=index+month&from=2011-01&hundred=own")
    assert len(browser.all("#parts section:first-child .curve")) == 12  # (six lines, and their signs in the key)
    assert [*faults_of_page(browser), *faults_enlarged(browser)] == []


def test_a_wrong_address_is_said_in_the_frame(browser: Browser, stage: Stage, later: Path) -> None:
    stage.published.symlink_to(later)
    browser.open(f"{SMALL}?items=00+01.9&from=%3Cb%3E")
    browser.wait(lambda: browser.text("#fault") != "", "faults")
    assert browser.text("#fault").split("\n\n") == [
        "from=<b>: it isn’t a month from 2011-01 to 2013-02.",
        "01.9: this code belongs to no item or special aggregate on this site.",
    ]
    assert browser.run("return document.querySelectorAll('#fault b').length") == 0


def test_without_a_script_the_small_page_leads_to_the_page_for_choosing(
    browser: Browser, stage: Stage, later: Path
) -> None:
    stage.published.symlink_to(later)
    browser.cdp("Emulation.setScriptExecutionDisabled", value=True)
    browser.open(SMALL)
    browser.cdp("Emulation.setScriptExecutionDisabled", value=False)
    assert "This chart needs JavaScript." in browser.text("#without")
    assert str(browser.find("#without a").get_attribute("href")).endswith("/published/choose.html")

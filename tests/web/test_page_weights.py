"""What the first pages weigh: the website's, the phone's and the desk's, each with everything that it loads, as the front
packs it. `-s` prints the figures. A phone is told afterwards to keep the same files once more, for a day without a line
(web/collect/sw.js); that happens behind the page and isn't part of these figures.
"""

from __future__ import annotations

import shutil
from pathlib import Path

import pytest

from cpi_tools.publish.pack import publish
from lib.places import ROOT
from lighter import lighten_all

from .browser import Browser
from .desk_pages import PREFIX, Person, desk_pages
from .languages import ARABIC, ENGLISH, FRENCH, SPANISH, Speech, spoken
from .stage import Stage
from .test_site_look import CONFIG, made_up

MOST_BYTES = 60_000

WEIGHED = """
const parts = [...performance.getEntriesByType("navigation"), ...performance.getEntriesByType("resource")];
return parts.filter(({ name }) => !name.startsWith("data:")).map(({ name, encodedBodySize }) => [name, encodedBodySize]);
"""
"""The address of the page and of each file that it has loaded, with the bytes of its body on the line."""


def weigh(browser: Browser, page: str) -> dict[str, int]:
    """The bytes of the open page and of each file that it has loaded, by address; prints their sum."""
    browser.wait(lambda: browser.run("return document.readyState === 'complete'"), "all of the page")
    weights = {str(name): int(size) for name, size in browser.run(WEIGHED)}
    assert all(name.startswith(browser.url) for name in weights), weights
    print(f"{page}: {sum(weights.values()):,} bytes in {len(weights)} files")
    return weights


@pytest.fixture(scope="module")
def wide_site(tmp_path_factory: pytest.TempPathFactory) -> Path:
    """A website of 13 divisions, 61 months and all notes."""
    out = tmp_path_factory.mktemp("wide") / "public"
    publish([*made_up()], CONFIG, out, None, lambda _: None)
    return out


@pytest.fixture
def light_web(tmp_path: Path) -> Path:
    """The pages as the package has them."""
    shutil.copytree(ROOT / "web", tmp_path / "web")
    lighten_all(tmp_path / "web")
    return tmp_path / "web"


def test_the_websites_first_page_is_light(browser: Browser, stage: Stage, wide_site: Path) -> None:
    stage.published.symlink_to(wide_site)
    browser.open("/")
    browser.wait(lambda: browser.all("svg[tabindex]"), "pictures that can be pointed at")
    weights = weigh(browser, "the website's first page")
    assert {f"{browser.url}/published/", f"{browser.url}/published/assets/style.css"} <= weights.keys()
    assert sum(weights.values()) < MOST_BYTES


@pytest.mark.parametrize("speech", [ENGLISH, FRENCH, SPANISH, ARABIC], ids=["en", "fr", "es", "ar"])
def test_the_phones_first_page_is_light(browser: Browser, stage: Stage, light_web: Path, speech: Speech) -> None:
    with spoken(stage, speech, light_web):
        browser.open("/collect/")
        browser.wait_shown("#sign-in")
        weights = weigh(browser, f"the phone's first page ({speech.language})")
    assert {f"{browser.url}/collect/app.js", f"{browser.url}/shared/base.css"} <= weights.keys()
    assert sum(weights.values()) < MOST_BYTES


def test_the_desks_first_page_is_light(browser: Browser, stage: Stage, tmp_path: Path) -> None:
    with desk_pages(stage, tmp_path, f"{stage.url}{PREFIX}/") as pages:
        Person(browser, pages).sign_in("Ada")
        browser.cdp("Network.clearBrowserCache")
        browser.driver.refresh()
        weights = weigh(browser, "the desk's first page")
    (first, *others) = (name.removeprefix(f"{browser.url}{PREFIX}/") for name in weights)
    assert first.startswith("month/") and sorted(others) == ["forms.js", "style.css"]
    assert sum(weights.values()) < MOST_BYTES

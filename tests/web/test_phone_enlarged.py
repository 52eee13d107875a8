"""The page of collectors for eyes that need large letters (WCAG 1.4.4 and 1.4.10), in languages whose texts are longer or
go from right to left: nothing is cut, covered, hidden or scrolled sideways.

A browser whose user has set a text of twice the size shows it at 360 pixels. One that enlarges the whole page four times
has 320 by 256 pixels left of a window of 1280 by 1024.
"""

from __future__ import annotations

from collections.abc import Iterator
from pathlib import Path

import pytest

from .browser import Browser
from .desk_pages import desk_pages
from .languages import ARABIC
from .noted import AGES, camera_file, takes_notes
from .phone import Phone
from .phone_walks import walk_over, walk_over_notes
from .stage import Stage
from .walks import Enlarged

TWICE = 32
"""Pixels of a text of twice the usual size."""

SMALL = (320, 256)


@pytest.fixture(scope="module")
def large(standing: Stage, tmp_path_factory: pytest.TempPathFactory) -> Iterator[Browser]:
    """A Chromium whose user has set a text of twice the size."""
    browser = Browser(standing.url, standing.folder / "ca.crt", tmp_path_factory.mktemp("large"), TWICE)
    yield browser
    browser.close()


@pytest.fixture(params=["large", "small"])
def shown(request: pytest.FixtureRequest, stage: Stage) -> Iterator[Phone]:
    """A collector's page with large letters at 360 pixels, and one in a small window."""
    browser: Browser = request.getfixturevalue("large" if request.param == "large" else "running")
    browser.fresh()
    if request.param == "small":
        browser.size(*SMALL)
    yield Phone(browser)
    sizes = browser.run("return [innerWidth, getComputedStyle(document.documentElement).fontSize]")
    assert sizes == ([360, "32px"] if request.param == "large" else [320, "16px"])
    browser.fresh()


@pytest.mark.sampled(1)
def test_nothing_is_cut_covered_or_hidden(shown: Phone, stage: Stage, language: str) -> None:
    walk = Enlarged(shown.browser, language)
    walk_over(shown, stage, walk)
    assert walk.faults == [] and walk.count > 10


@pytest.mark.sampled(1)
def test_nothing_of_a_note_is_cut_covered_or_hidden(shown: Phone, stage: Stage, tmp_path: Path) -> None:
    """In Arabic."""
    with desk_pages(stage, tmp_path, "", "--field-notes", AGES) as pages, takes_notes(stage, pages, ARABIC):
        walk = Enlarged(shown.browser, "ar")
        walk_over_notes(shown, walk, camera_file(tmp_path))
    assert walk.faults == [] and walk.count > 3

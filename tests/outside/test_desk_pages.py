"""The pages of `cpi-tools desk` and `explain` in Chromium, at the width of a telephone and of a desk."""

from __future__ import annotations

from collections.abc import Callable, Iterator
from pathlib import Path

import pytest

from tools import surveys
from .chromium import Browser, browser
from cpi_tools.office.program import Cpi
from tools.ran import run
from .test_published import OVERLAPS

Needed = Callable[[str], str]

PAGES = ("month/month.html", "frozen/month.html", "explained/00.html", "explained/01.1.1.1.html", "life.html")


@pytest.fixture(scope="module")
def folder(cpi: Cpi, tmp_path_factory: pytest.TempPathFactory) -> Path:
    """The pages of a month that isn't frozen yet, of one that is, of all its nodes, and of a series."""
    folder = tmp_path_factory.mktemp("desk")
    path = folder / "office.db"
    surveys.long(cpi, path, until="2026-09")
    for words in (
        ("desk", "month", path, "2026-09", "--at", surveys.closes("2026-09"), "--out", folder / "month"),
        ("desk", "month", path, "2026-08", "--out", folder / "frozen"),
    ):
        assert run(cpi, *words).status == 0
    assert run(None, "explain", path, "2026-08", "all", "--html", folder / "explained").status == 0
    assert run(None, "explain", path, "2026-08", "--series", "1/1", "--html", folder / "life.html").status == 0
    return folder


@pytest.fixture(scope="module")
def opened(needed: Needed) -> Iterator[Browser]:
    with browser(needed("chromium")) as found:
        yield found


@pytest.mark.parametrize("width", [360, 1280])
@pytest.mark.parametrize("name", PAGES)
def test_a_page_has_no_fault_at_a_width(opened: Browser, folder: Path, name: str, width: int) -> None:
    opened.open_whole(folder / name, width)
    assert opened.value(OVERLAPS) == 0
    assert opened.value("document.querySelectorAll('h1').length") == 1
    assert opened.told == []


def test_a_folded_part_is_opened_by_the_keyboard(opened: Browser, folder: Path) -> None:
    opened.open(folder / "month/month.html", 1280)
    opened.value("document.querySelector('details:not([open]) summary').focus()")
    unfolded = "document.activeElement.parentElement.open"
    assert opened.value(unfolded) is False
    opened.press("Enter")
    assert opened.value(unfolded) is True

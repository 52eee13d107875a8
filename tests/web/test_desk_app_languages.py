"""The desk's application in languages that nobody speaks, at 360 pixels: nothing is cut, covered or left in English."""

from __future__ import annotations

import re
from collections.abc import Iterator
from pathlib import Path

import pytest

from lib.sample import Sample

from .browser import Browser
from .desk_pages import DeskPages, Person
from .offices import ANNA, BENO, DESK
from .readable import CUT, faults_of_page
from .stage import Stage
from .test_desk_app import FAR, MONTH, priced
from .walks import COVERED, HIDDEN, LEFT, PICTURES

SAME = re.compile(
    r"[A-Za-z0-9/_.-]*\.(?:csv|py|ini|html)\b|\b(?:UTC|CET|CEST|CSV|TSV|SHA|cpi|tools|publish|keys|RICE|FLOUR|round)\b"
    r"|\u2068[^\u2069]*\u2069|--[a-z-]+|\d{4}-\d\d\S*|COLLECTOR/SLOT"
)
"""What each language has: files, zones, words of the program, codes, and texts of others in a title."""

OVER = COVERED.replace('"#notice, ', '".scroll, header.site nav, .skip, .hidden, #notice, ')
"""The same faults as in other walks; a wide table scrolls by itself, and so do the links of the head."""

STUCK = """
const nav = document.querySelector("header.site nav");
const isWide = nav && nav.scrollWidth > nav.clientWidth;
return isWide && getComputedStyle(nav).overflowX !== "auto" ? ["the links of the head are cut, and don't scroll"] : [];
"""
"""Links of the head that nobody can reach."""

PATHS = (
    *(f"/month/{MONTH}/{page}" for page in ("", "looks?all=1", "table", "freeze", "what-if", "explain/01.1.1.2-01")),
    *("/calendar", "/records", "/log", "/sample/item", "/sample/assign", "/publish", "/nowhere"),
)


@pytest.fixture
def pages(stage: Stage, tmp_path: Path, pseudo: str) -> Iterator[DeskPages]:
    """The application of the tools that have one more language."""
    kind = type("InLanguage", (DeskPages,), {"tools": tmp_path / "tools"})
    it = kind(stage, tmp_path, "", "--language", pseudo, "--zone", "Europe/Prague")
    try:
        yield it
    finally:
        it.kill()


def opened(stage: Stage) -> None:
    """A window that is open, prices from two phones, and the same window closed."""
    for closes in (FAR, 5000):
        row = f"calendar,{MONTH},4000,{closes},{max(closes, 6000)}\n"
        assert stage.ask("POST", "/api/import", DESK, row).status == 200
        if closes == FAR:
            priced(stage, (ANNA, 1, 216), (ANNA, 2, 730), (BENO, 1, 272))


def faults(browser: Browser) -> list[str]:
    """What is wrong with the page that is open."""
    browser.run("document.querySelectorAll('code, textarea, option').forEach((it) => it.remove())")
    left = [it for it in browser.run(LEFT) if re.search("[A-Za-z]{2,}", SAME.sub("", it.partition(": ")[2]))]
    wide = [*faults_of_page(browser), *browser.run(CUT), *browser.run(OVER), *browser.run(HIDDEN), *browser.run(STUCK)]
    return [*left, *wide]


@pytest.mark.sampled(1)
def test_nothing_is_cut_covered_or_left_in_english(
    stage: Stage, browser: Browser, pages: DeskPages, pseudo: str, sample: Sample
) -> None:
    person, found = Person(browser, pages), dict[str, list[str]]()
    browser.size(360, 800)
    person.open("/sign-in")
    found["sign-in"] = faults(browser)
    person.sign_in("\u0391")
    opened(stage)
    person.open(f"/month/{MONTH}/table")
    person.tried(MONTH)
    for path in sample.of(PATHS, 6, f"pages of the desk in {pseudo}"):
        person.open(path)
        if PICTURES:
            browser.picture(Path(PICTURES) / f"desk-{pseudo}-{re.sub('[^a-z0-9]+', '-', path)}.png")
        found[path] = faults(browser)
        assert browser.run("return document.documentElement.lang") == pseudo
        assert browser.run("return document.documentElement.dir") == ("rtl" if pseudo == "he" else "")
    person.open("/records")
    browser.type("#text", "outlet,10,\u0391\nnothing,1")
    person.press("form[action$='/records/judge'] button")
    found["refused"] = faults(browser)
    assert {name: texts for name, texts in found.items() if texts} == {}

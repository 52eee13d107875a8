"""The pages of the companions with texts that are written from right to left: the words next to them are drawn as ever,
and the focus ring is seen on each ground, light and dark."""

from __future__ import annotations

from pathlib import Path

import pytest

from .browser import Browser
from cpi_tools.command_line import main
from cpi_tools.office.program import Cpi
from .offices import ARABIC, LEAVING, OVERRIDE, TURNING, lived
from .readable import faults_for_keys, faults_of_texts

CONFIG = f"""[office]
agency = NSO
area = XX
office = {ARABIC}
title = {OVERRIDE}
country = {OVERRIDE}
contact = {OVERRIDE}
currency = {ARABIC}
"""

TURNED = {"Rice, white": OVERRIDE, "Flour, wheat": ARABIC, "1 kg": OVERRIDE, "Corner shop": LEAVING, "Market": ARABIC}
"""What takes the place of the texts of the office, in all of its records."""

PAGES = (
    "public/index.html", "public/nodes.html", "public/contract.html", "public/revisions.html", "public/data.html",
    "public/node/00.html", "public/node/01.1.html", "public/node/01.1.1.1-01.html", "desk/month.html",
    "explained/01.1.html", "explained/01.1.1.1.html", "life.html", "check/report.html",
)  # fmt: skip


@pytest.fixture(scope="module")
def folder(cpi: Cpi, tmp_path_factory: pytest.TempPathFactory) -> Path:
    """A page of each kind."""
    folder = tmp_path_factory.mktemp("others")
    records = "\n".join(lived())
    for text, other in TURNED.items():
        records = records.replace(text, other)
    office, config, sheets = folder / "office.db", folder / "office.ini", folder / "1 l\u202e 2.06"
    assert [reply for reply in cpi.replay(records.split("\n"), db=office) if "refused" in reply] == []
    config.write_text(CONFIG, encoding="utf-8")
    sheets.mkdir()
    items = f"item,text,unit,low,high,{OVERRIDE}\n{OVERRIDE},Tea,1 kg,500,2000,\nTEA,{ARABIC},1 kg,{ARABIC},2000,\n"
    (sheets / "items.csv").write_text(items, encoding="utf-8")
    program = ("--program", str(cpi.path))
    for status, *words in (
        (0, "publish", "--db", office, "--at", 1_000_000, "--config", config, "--out", folder / "public", *program),
        (0, "desk", "month", office, "2011-02", "--out", folder / "desk", *program),
        (0, "explain", office, "2011-02", "all", "--html", folder / "explained"),
        (0, "explain", office, "2011-02", "--series", "7/1", "--html", folder / "life.html"),
        (1, "take-in", sheets, "--check", "--out", folder / "check", *program),
    ):
        assert main([*map(str, words)]) == status, words
    return folder


def opened(browser: Browser, page: Path, width: int) -> None:
    browser.size(width, 900)
    browser.driver.get(page.as_uri())
    browser.run("for (const it of document.querySelectorAll('details')) it.open = true")


@pytest.mark.sampled(6)
@pytest.mark.parametrize("width", [360, 1280])
@pytest.mark.parametrize("name", PAGES)
def test_no_text_of_others_turns_the_words_next_to_it(browser: Browser, folder: Path, name: str, width: int) -> None:
    opened(browser, folder / name, width)
    assert any(text[:4] in browser.run("return document.documentElement.textContent") for text in TURNING)
    assert faults_of_texts(browser, TURNING) == []
    assert browser.run("return document.documentElement.scrollWidth") <= width


def test_what_the_calculator_says_isnt_turned(browser: Browser, folder: Path) -> None:
    browser.size(360, 900)
    browser.driver.get((folder / "public/contract.html").as_uri() + "#amount=1000&code=01.1&then=2011-01&now=2011-02")
    assert browser.text("#words").endswith(": 102.4 in January 2011, 104.8 in February 2011.")
    box = "const range = document.createRange(); range.setStart(node, at); range.setEnd(node, at + 1);"
    drawn = browser.run(
        "return ['words', 'value'].map((id) => { const node = document.getElementById(id).firstChild;"
        f" return [...node.data].map((_, at) => {{ {box}"
        " const { left, top } = range.getClientRects()[0]; return [node.data[at], left, top]; }); });"
    )
    for letters in drawn:
        digits = [(top, left) for letter, left, top in letters if letter.isascii() and letter.isdigit()]
        assert digits == sorted(digits) and len(digits) > 5


@pytest.mark.sampled(6)
@pytest.mark.parametrize("scheme", ["light", "dark"])
@pytest.mark.parametrize("name", PAGES)
def test_the_focus_ring_is_seen(browser: Browser, folder: Path, name: str, scheme: str) -> None:
    browser.shown_as(scheme)
    opened(browser, folder / name, 1280)
    assert faults_for_keys(browser) == []

"""The sheets of `cpi-tools keys` on paper, as Chromium prints them on A4, and on the screens of a telephone and a desk."""

from __future__ import annotations

import importlib
import re
import subprocess
from collections.abc import Callable, Iterator
from pathlib import Path

import pytest

from .chromium import Browser, browser
from cpi_tools.office.program import Cpi, record
from tools.ran import run

Needed = Callable[[str], str]

URL = "https://prices.example.org"
NAMES = {7: "\U0001f9ee" * 60, 8: "مريم بنت خالد", 9: 'Lovelace, "Ada" <b>', 10: ""}
"""The longest name, one from right to left, one with markup, and a collector without a name."""

DOTS_PER_INCH = 150
"""What a camera sees of a sheet at arm's length, or less."""


@pytest.fixture(scope="module")
def page(cpi: Cpi, tmp_path_factory: pytest.TempPathFactory) -> Path:
    folder = tmp_path_factory.mktemp("sheets")
    records = [record(0, "desk", "collector", number, f"{number:032x}") for number in NAMES]
    assert {*map(str, cpi.replay(records, db=folder / "office.db"))} == {"{'done': True}"}
    rows = [record(number, name) for number, name in NAMES.items() if name]
    (folder / "names.csv").write_text("\n".join(["collector,name", *rows, ""]), encoding="utf-8")
    words = ("--url", URL, "--names", folder / "names.csv", "--out", folder / "sheets.html")
    assert run(None, "keys", folder / "office.db", *words).status == 0
    return folder / "sheets.html"


@pytest.fixture(scope="module")
def opened(needed: Needed) -> Iterator[Browser]:
    with browser(needed("chromium")) as found:
        yield found


def read_by_zbar(picture: Path) -> list[str]:
    """What zbar reads in a picture in gray (PGM)."""
    zbar = importlib.import_module("zbar")
    head = re.match(rb"P5\s+(\d+)\s+(\d+)\s+255\s", picture.read_bytes())
    assert head
    scanned = zbar.Image(int(head[1]), int(head[2]), "Y800", picture.read_bytes()[head.end() :])
    zbar.ImageScanner().scan(scanned)
    return [symbol.data for symbol in scanned.symbols]


def test_each_sheet_is_a_paper_whose_code_is_read(needed: Needed, opened: Browser, page: Path, tmp_path: Path) -> None:
    """In gray, as a camera may see it; the head of the page is on none of them."""
    needed("zbar")
    opened.open(page, 800)
    (tmp_path / "sheets.pdf").write_bytes(opened.printed())
    words = [needed("pdftoppm"), "-gray", "-r", str(DOTS_PER_INCH), str(tmp_path / "sheets.pdf"), str(tmp_path / "at")]
    subprocess.run(words, check=True)
    paths = [read_by_zbar(picture) for picture in sorted(tmp_path.glob("at*.pgm"))]
    assert [len(codes) for codes in paths] == [1] * len(NAMES)
    keys = [f"#key={number:032x}&name=" if name else f"#key={number:032x}" for number, name in NAMES.items()]
    assert [code.startswith(f"{URL}/collect/{key}") for key, (code,) in zip(keys, paths)] == [True] * len(NAMES)
    ran = subprocess.run(["pdftotext", tmp_path / "sheets.pdf", "-"], capture_output=True, text=True, check=True)
    papers = ran.stdout.split("\f")[:-1]
    assert len(papers) == len(NAMES) and "Sign-in sheets" not in ran.stdout
    for number, paper in zip(NAMES, papers):
        assert f"Collector {number}" in paper and f"{URL}/collect/" in paper and "tell the desk" in paper


@pytest.mark.parametrize("width", [360, 1280])
def test_the_page_has_no_fault_at_a_width(opened: Browser, page: Path, width: int) -> None:
    opened.open_whole(page, width)
    assert opened.value("document.querySelectorAll('h1').length") == 1
    assert opened.value("document.querySelectorAll('h2 b').length") == 0
    assert opened.told == []

"""The website of `cpi-tools publish` behind the front: it looks as it does from a folder, and its files have their types."""

from __future__ import annotations

from pathlib import Path

import pytest

from .browser import Browser
from lib.places import ROOT
from .stage import Stage

PAGES = (
    "index.html",
    "nodes.html",
    "choose.html",
    "node/01.1.1.1.html",
    "contract.html",
    "data.html",
    "revisions.html",
)

PLACED = "return [...document.querySelectorAll('.track b')].every((it) => getComputedStyle(it).left !== 'auto')"


@pytest.fixture
def front(stage: Stage, website: Path) -> Stage:
    """A front whose website is the pack."""
    stage.published.symlink_to(website)
    return stage


def test_the_pages_show_all_that_they_have(front: Stage, browser: Browser) -> None:
    browser.size(1280, 900)
    for page in PAGES:
        browser.open(f"/published/{page}")
        assert browser.run("return document.querySelectorAll('h1').length") == 1, page
        assert browser.faults() == [], page
        assert browser.run(PLACED), page
    browser.open("/published/index.html")
    assert browser.run("return document.querySelectorAll('.track b').length") > 0
    policy = front.ask("GET", "/published/index.html").fields["Content-Security-Policy"]
    assert f'Content-Security-Policy "{policy}"' in (ROOT / "ops/Caddyfile").read_text(encoding="utf-8")


def test_the_calculator_computes(front: Stage, browser: Browser) -> None:
    browser.open("/published/contract.html")
    assert browser.run("return document.querySelectorAll('select option').length") > 3
    assert browser.faults() == []


@pytest.mark.parametrize(
    ("name", "kind"),
    [
        ("index.html", "text/html; charset=utf-8"),
        ("assets/style.css", "text/css; charset=utf-8"),
        ("assets/contract.js", "application/javascript; charset=utf-8"),
        ("data/cpi.csv", "text/csv; charset=utf-8"),
        ("data/cpi.sdmx.xml", "application/xml; charset=utf-8"),
        ("data/cpi.xlsx", "application/vnd.openxmlformats-officedocument.spreadsheetml.sheet"),
        ("manifest.json", "application/json; charset=utf-8"),
        ("SHA256SUMS", "text/plain; charset=utf-8"),
    ],
)
def test_a_file_has_its_type_and_its_bytes(front: Stage, website: Path, name: str, kind: str) -> None:
    answer = front.ask("GET", f"/published/{name}")
    assert (answer.status, answer.fields["Content-Type"]) == (200, kind)
    assert answer.body == (website / name).read_bytes()
    packed = front.ask("GET", f"/published/{name}", Accept_Encoding="gzip").fields
    assert ("Content-Encoding" in packed) == (not name.endswith(".xlsx"))

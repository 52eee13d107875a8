"""The pages of the published website in Chromium: on paper, in the dark, by their captions, and by their weight.

The tables are made up: 13 divisions with long titles over 61 months, a special aggregate, a revision, imputed prices.
"""

from __future__ import annotations

import base64
import gzip
import subprocess
from collections.abc import Iterator
from pathlib import Path

import pytest

from . import readable
from .browser import Browser
from cpi_tools.tryout.trial_services import system_program
from cpi_tools.publish.figures.config import Config
from cpi_tools.office.public import Listed, Published
from cpi_tools.publish.figures.announcements import Reason
from cpi_tools.publish.figures.specials import Special
from cpi_tools.publish.pack import publish
from lib.sample import Sample
from .other_site import other_site

MONTHS = 61
BOUND = 15_000
"""Bytes that the first page may take on the line, packed, with all that it loads."""

DIVISIONS = [f"{number:02}" for number in range(1, 14)]
CONFIG = Config(
    "NSO", "XX", "Office of prices and other things", country="Exampleland", currency="crowns", provisional=2,
    specials=(Special("CORE", "All items without food, energy and administered prices", ("00",), ("01",)),),
    reasons=(
        Reason("2025-06", 2, "A price of bread in the capital had been entered in the wrong unit."),
        Reason("2025-06", 2, "Two more outlets had the same error; their prices were right in this revision.", 80_000),
    ),
)  # fmt: skip
PAGES = ("index.html", "nodes.html", "node/00.html", "node/01.1.1.1-01.html", "node/CORE.html", "contract.html",
         "data.html", "revisions.html", "method.html", "how-to-read.html", "releases.html", "release/2021-01-r1.html",
         "release/2025-06-r2.html", "release/2026-01-r1.html", "embed/2026-01-r1.html", "embed/00.html")  # fmt: skip

SOME = 6
"""A short run looks at so many of them in each way."""


def codes_of(division: str) -> list[str]:
    return [division, f"{division}.1", f"{division}.1.1", f"{division}.1.1.1", f"{division}.1.1.1-01"]


def made_up() -> Iterator[Published]:
    """Tables in which all rises by a tenth of a percent a month; nothing of them is computed by the office."""
    yield Published(Listed("2020-12", 1, 0), b"")
    codes = ["00", *(code for division in DIVISIONS for code in codes_of(division))]
    for at in range(MONTHS):
        month = f"{2021 + at // 12}-{at % 12 + 1:02}"
        within, level = 100 + (at % 12 + 1) / 10, 100 * 1.012 ** (at // 12) * (1 + (at % 12 + 1) / 1000)
        rows = []
        for code in codes:
            year = "1.2" if at > 10 else ""
            figures = f"{within:.6f},{level:.6f},0.1,{year},{(at + int(code[:2])) % 2}"
            weight = 13_000 if code == "00" else 1_000
            rows.append(f"{code},{weight},{figures},Title of {code}, a long one with commas\n".replace(
                f"Title of {code}, a long one with commas", f'"Title of {code}, a long one with commas"'))  # fmt: skip
        yield Published(Listed(month, 1, 1000 * at + 1000), "".join(rows).encode())
        if month == "2025-06":
            yield Published(Listed(month, 2, 1000 * at + 1500), "".join(rows).replace(",0.1,", ",0.2,").encode())


@pytest.fixture(scope="module")
def site(tmp_path_factory: pytest.TempPathFactory) -> Path:
    out = tmp_path_factory.mktemp("look") / "public"
    publish([*made_up()], CONFIG, out, None, lambda _: None)
    return out


def open_page(browser: Browser, site: Path, name: str, width: int) -> None:
    browser.size(width, 900)
    browser.driver.get((site / name).as_uri())


# ---- on paper


TEXTS = """
const left = (element) => element.closest("nav, .skip, .offer, .take, button, script, style, noscript, svg, select, .hidden, .narrow, [hidden]");
const found = [];
for (const element of document.querySelectorAll("h1, h2, p, dt, dd, th, td, li, caption, summary, figcaption")) {
  if (!left(element) && !element.closest(".field:has(#seek)")) {
    const copy = element.cloneNode(true);
    copy.querySelectorAll(".hidden, .narrow, .take, button, small, .track").forEach((it) => it.remove());
    found.push(copy.textContent);
  }
}
return found.filter((text) => text.trim());
"""

PAPERS = {"A4": (8.27, 11.69), "A5": (5.83, 8.27)}


def printed(browser: Browser, to: Path, paper: str) -> str:
    """The text of a page as it is printed, without its spaces."""
    width, height = PAPERS[paper]
    data = browser.cdp("Page.printToPDF", paperWidth=width, paperHeight=height, printBackground=False)["data"]
    to.write_bytes(base64.b64decode(data))
    told = subprocess.run([system_program("pdftotext"), "-raw", to, "-"], capture_output=True, check=True)
    return plain(told.stdout.decode())


def plain(text: str) -> str:
    """A text without spaces, isolates and marks of possible hyphens."""
    return "".join(text.translate({ord(it): None for it in "\u2068\u2069\u00ad\u200b\x0c"}).split())


@pytest.mark.sampled(1)
@pytest.mark.parametrize("paper", PAPERS)
def test_printing_cuts_nothing(browser: Browser, site: Path, tmp_path: Path, paper: str, sample: Sample) -> None:
    """Each heading, paragraph and cell is on the paper, in a small format too; only ways to elsewhere are left out, and of
    a page to embed the pictures that it doesn't show."""
    for name in sample.of([name for name in PAGES if not name.startswith("embed")], SOME, f"pages on {paper}"):
        open_page(browser, site, name, 1280)
        texts = browser.run(TEXTS)
        paged = printed(browser, tmp_path / "page.pdf", paper)
        assert len(texts) > 3 and [text for text in texts if plain(text) not in paged] == [], name


def test_a_figure_that_is_folded_on_the_screen_is_printed(browser: Browser, site: Path, tmp_path: Path) -> None:
    open_page(browser, site, "index.html", 1280)
    assert "The figures in this picture" in browser.text("summary") and "June 2022" not in browser.text(
        "figure details"
    )
    paged = printed(browser, tmp_path / "page.pdf", "A4")
    assert "Thefiguresinthispicture" in paged and all(f"June{year}" in paged for year in range(2021, 2026))


# ---- on the screen


@pytest.mark.sampled(2)
@pytest.mark.parametrize("scheme", ["light", "dark"])
@pytest.mark.parametrize("width", [360, 1280])
def test_pages_are_readable_in_both_schemes(
    browser: Browser, site: Path, width: int, scheme: str, sample: Sample
) -> None:
    """Contrast of texts, edges, lines and the rings of the keyboard; names; nothing wider than the screen."""
    browser.shown_as(scheme)
    for name in sample.of(PAGES, SOME, f"pages of {width} pixels, {scheme}"):
        open_page(browser, site, name, width)
        ground = browser.run("return getComputedStyle(document.body).backgroundColor")
        assert ground == {"light": "rgb(255, 255, 255)", "dark": "rgb(18, 25, 31)"}[scheme]
        for look in (readable.CONTRASTS, readable.EDGES, readable.NAMELESS, readable.WIDE):
            assert browser.run(look) == [], name
        assert readable.faults_for_keys(browser) == [], name
        assert browser.run(readable.MARKS, "svg .line, svg .dot, svg .bar.last, svg .zero") == [], name
        assert browser.faults() == [], name


CARDS = """
const cards = [...document.querySelectorAll(".card")].map((it) => it.getBoundingClientRect());
const figures = [...document.querySelectorAll(".card dd")].map((it) => it.getBoundingClientRect());
const edge = document.documentElement.dir === "rtl" ? "left" : "right";
return [new Set(figures.map((it) => Math.round(it[edge]))).size, Math.max(...cards.map(({ height }) => height))];
"""


def test_the_figures_of_the_first_page_are_in_a_column_on_a_phone(browser: Browser, site: Path) -> None:
    """Each beside what it is, in one line."""
    open_page(browser, site, "index.html", 360)
    columns, high = browser.run(CARDS)
    assert columns == 1 and high < 56 and len(browser.all(".card")) == 3


CAPTIONS = """
return [...document.querySelectorAll("table")].filter((it) => !it.caption?.textContent.trim()).map((it) => it.outerHTML.slice(0, 80));
"""


def test_each_table_has_a_caption(browser: Browser, site: Path) -> None:
    for name in PAGES:
        open_page(browser, site, name, 1280)
        assert browser.run(CAPTIONS) == [], name
    assert browser.run("return document.querySelectorAll('table').length") == 0  # (a page to embed has none)


# ---- what it costs


ASKED = """
const all = [location.href, ...performance.getEntriesByType("resource").map((it) => it.name)];
return all.filter((it) => !it.startsWith("data:"));
"""


def test_a_page_asks_for_few_files_and_for_none_elsewhere(browser: Browser, site: Path) -> None:
    """At most five, besides the script of the search in the head, which a page to embed doesn't have."""
    with other_site(site) as address:
        for name in PAGES:
            browser.driver.get(f"{address}/{name}")
            asked = browser.run(ASKED)
            heads = [it for it in asked if it == f"{address}/assets/head.js"]
            assert len(heads) == (not name.startswith("embed/")), asked
            assert 2 <= len(asked) - len(heads) <= 5 and all(it.startswith(f"{address}/") for it in asked), asked


def test_the_first_page_is_light(browser: Browser, site: Path) -> None:
    """With 13 divisions, 61 months and all notes it takes less than 15 kB, as a server packs it, in five messages."""
    with other_site(site) as address:
        browser.driver.get(f"{address}/index.html")
        names = [it.removeprefix(f"{address}/") for it in browser.run(ASKED)]
    scripts = [f"assets/{name}.js" for name in ("head", "point", "take")]
    assert sorted(names) == sorted([*scripts, "assets/style.css", "index.html"])
    assert sum(len(gzip.compress((site / name).read_bytes(), 1)) for name in names) < BOUND


def test_pages_say_the_same_without_a_script(browser: Browser, site: Path, sample: Sample) -> None:
    """But for the form of the index clause, the search and the buttons of PNGs, which need one and aren't shown."""
    read = "return [...document.querySelectorAll('main *')].filter((it) => !it.closest(arguments[0]) && it.checkVisibility())"
    read += ".flatMap((it) => [...it.childNodes].filter((node) => node.nodeType === 3).map((node) => node.data.trim()).filter(Boolean))"
    needing = ".take button, .take [role=status], .field:has(#seek), .clause, #texts, noscript"
    for name in sample.of(PAGES, SOME, "pages without a script"):
        open_page(browser, site, name, 1280)
        whole = browser.run(read, needing)
        browser.cdp("Emulation.setScriptExecutionDisabled", value=True)
        open_page(browser, site, name, 1280)
        shown = [it for it in browser.all(".take button, #seek, #clause, #result, #texts") if it.is_displayed()]
        browser.cdp("Emulation.setScriptExecutionDisabled", value=False)
        assert shown == [] and browser.run(read, needing) == whole != [], name

"""The website's page for choosing, in Chromium: its figures are the office's, and its address contains the choice."""

from __future__ import annotations

import csv
import functools
import http.server
import itertools
import threading
from decimal import Decimal
from pathlib import Path
from typing import Any

import pytest

from .browser import Browser
from cpi_tools.office.program import Cpi
from .offices import SCRIPT, TURNING
from .readable import MARKS, SHORTENED, faults_enlarged, faults_for_keys, faults_of_page, faults_of_texts
from .stage import Stage
from .websites import published
from .years import BREAD, FLOUR, RICE, SUGAR, lived

PAGE = "/published/choose.html"

CELLS = """return [...document.querySelectorAll("#parts tbody tr")].map((row) =>
  [...row.cells].map((cell) => [...cell.childNodes]
    .filter((node) => node.nodeName !== "SUP" && node.className !== "narrow") // (a month is there in short as well)
    .map((node) => node.textContent).join("")));"""
HEADS = "return [...document.querySelectorAll('#parts thead th')].map((head) => head.textContent)"
UNITS = "return [...document.querySelectorAll('#parts figcaption')].map((one) => one.textContent)"
MARKED = "return document.querySelectorAll('#parts svg .break').length"
KEPT = "return location.search"


@pytest.fixture
def shown(browser: Browser, stage: Stage, website: Path) -> Browser:
    """A browser before the office's website."""
    stage.published.symlink_to(website)
    return browser


def opened(browser: Browser, search: str = "", path: str = PAGE) -> Browser:
    """Opens the page, until its figures are there."""
    browser.open(path + search)
    return settled(browser)


def settled(browser: Browser) -> Browser:
    browser.wait(lambda: browser.text("#said") not in ("", "The figures are loading."), "figures")
    return browser


def rows_of(path: Path) -> list[dict[str, str]]:
    with path.open(encoding="utf-8", newline="") as file:
        return list(csv.DictReader(file))


def pressed(browser: Browser, key: str = "ArrowLeft") -> str:
    """What is read out of the first picture after a key."""
    press = "new KeyboardEvent('keydown', { key: arguments[0], bubbles: true })"
    script = f"const svg = document.querySelector('#parts .picture svg'); svg.focus(); svg.dispatchEvent({press});"
    browser.run(script, key)
    return browser.text("#parts .readout")


# ---- figures


def test_each_figure_is_the_offices(shown: Browser, website: Path) -> None:
    """All items of the site and all measures, with all digits, beside the files of the whole site."""
    shown.size(1280, 900)
    codes = list(dict.fromkeys(row["code"] for row in rows_of(website / "data/cpi.csv")))
    words = ("index", "year", "month", "contribution-year", "contribution-month", "weight")
    opened(shown, f"?items={'+'.join(codes)}&show={'+'.join(words)}&decimals=all")
    given = {
        (row["month"], row["code"]): row for row in rows_of(website / "data/contributions.csv") if row["of"] == "00"
    }
    figures = {(row["month"], row["code"]): row for row in rows_of(website / "data/cpi.csv")}
    # (all items give their own change: of the first two months of a year, by their indices within it)
    first, second = (Decimal(figures[month, "00"]["index"]) for month in ("2011-01", "2011-02"))
    of_all = {"2011-01": f"{first - 100}", "2011-02": f"{round(100 * (second - first) / first, 6)}"}
    columns = {"index": "chained", "year": "year_change", "month": "month_change", "weight": "weight"}
    wanted: list[list[str]] = []
    for word in words:
        for at in range(0, len(codes), 6):
            for month, name in (("2011-02", "February 2011"), ("2011-01", "January 2011")):
                cells = [
                    given.get((month, code), {}).get(word.replace("-", "_"), "") if "-" in word
                    else figures[month, code][columns[word]] for code in codes[at : at + 6]
                ]  # fmt: skip
                if word == "contribution-month" and at == 0:
                    cells[0] = of_all[month]
                wanted.append([name, *cells])
    read = [
        [row[0], *(it.replace("−", "-").replace("+", "").replace("–", "") for it in row[1:])]
        for row in shown.run(CELLS)
    ]
    assert read == wanted and len(codes) == 8
    assert shown.faults() == []


def test_texts_of_the_office_are_shown_as_texts(shown: Browser) -> None:
    opened(shown, "?items=01+01.1+01.1.1+01.1.1.1")
    assert SCRIPT in shown.text("#parts") and SCRIPT in str(
        shown.find("#parts .picture svg").get_attribute("aria-label")
    )
    assert shown.run("return document.title").startswith("Build a table")
    assert shown.run("return document.querySelectorAll('main script').length") == 0
    pressed(shown)
    assert faults_of_texts(shown, TURNING) == []


def test_a_picture_is_read_out_by_the_keys(shown: Browser) -> None:
    opened(shown, "?items=00+01.1.1.1-01+01.1.1.2-01&show=index+month")
    last = "February 2011: All items 104.8, Rice, packed 110.0, Flour, wheat 97.0"
    assert pressed(shown) == last
    assert pressed(shown) == "January 2011: All items 102.4, Rice, packed 105.0, Flour, wheat 98.5"
    assert pressed(shown, "End") == last
    assert len(shown.all("#parts .picture svg")) == 2 and len(shown.all("#parts svg .curve-2")) == 4
    assert shown.run(UNITS) == ["December 2010 = 100; the axis doesn't begin at zero", "Percent"]


def test_a_revision_and_its_marks(shown: Browser, website: Path) -> None:
    """February 2011 was revised: rice from (214 + 260) / 440 to (214 + 270) / 440."""
    rows = [
        row
        for row in rows_of(website / "data/vintages.csv")
        if (row["month"], row["code"]) == ("2011-02", "01.1.1.1-01")
    ]
    search = "?items=01.1.1.1-01&decimals=all"
    for more, at in (("", 1), ("&revision=1", 0), ("&revision=2", 1), (f"&revision={rows[0]['published']}", 0)):
        opened(shown, search + more)
        assert shown.run(CELLS)[0][1] == rows[at]["chained"] == ("107.727273", "110.000000")[at]
        assert shown.text("#parts tbody sup") == ("r" if at else ""), more
    opened(shown, search + "&revision=1969-01-01T00:00:00Z")
    assert {row[1] for row in shown.run(CELLS)} == {"–"}
    assert "no such figures" in shown.text("#parts .picture")


# ---- 100


@pytest.mark.sampled(3)
@pytest.mark.parametrize(
    ("search", "unit", "heads", "rows", "marks"),
    [
        ("?items=00+" + RICE, "December 2010 = 100", ["All items", "Rice"], {"2011-01": ["106.0", "100.0"], "2013-02": ["121.8", "100.0"]}, 0),
        # 121.847 / 106 is 114.95, which is half a tenth: it goes up
        ("?items=00+" + BREAD, "December 2011 = 100", ["All items", "Bread"],
         {"2011-12": ["100.0", "–"], "2012-01": ["110.0", "120.0"], "2013-02": ["115.0", "126.0"]}, 0),
        # 106 / 116.6 is 90.909.., and 126 / 120 is 105; flour of 2011 isn't linked to 2013
        (f"?items=00+{BREAD}+{FLOUR}", "each item with its own reference period",
         ["All itemsDecember 2012 = 100", "BreadDecember 2012 = 100", "FlourDecember 2010 = 100; since January 2013, December 2012 = 100"],
         {"2011-01": ["90.9", "–", "110.0"], "2012-01": ["100.0", "100.0", "–"], "2013-01": ["104.5", "105.0", "110.0"]}, 1),
        # sugar left before the December in which flour is 100 anew
        (f"?items=00+{SUGAR}+{FLOUR}", "each item with its own reference period",
         ["All itemsDecember 2010 = 100", "SugarDecember 2010 = 100", "FlourDecember 2010 = 100; since January 2013, December 2012 = 100"],
         {"2011-01": ["106.0", "110.0", "110.0"], "2013-02": ["121.8", "–", "110.0"]}, 1),
        # each with its own, and a month that a reader chose: 116.6 / 106
        (f"?items=00+{BREAD}&hundred=own", "each item with its own reference period",
         ["All itemsDecember 2010 = 100", "BreadDecember 2011 = 100"], {"2012-01": ["116.6", "120.0"]}, 0),
        ("?items=00&hundred=2011-01", "January 2011 = 100", ["All items"], {"2012-01": ["110.0"]}, 0),
        ("?items=00&hundred=2012", "2012 = 100", ["All items"], {"2011-01": ["90.9"], "2012-12": ["100.0"]}, 0),
    ],
)  # fmt: skip
def test_each_line_says_where_it_is_100(
    years: Browser, search: str, unit: str, heads: list[str], rows: dict[str, list[str]], marks: int
) -> None:
    """By hand: see years.py."""
    opened(years, search + "&from=2011-01")
    found = {row[0]: row[1:] for row in years.run(CELLS)}
    names = {"2011-01": "January 2011", "2011-12": "December 2011", "2012-01": "January 2012", "2012-12": "December 2012",
             "2013-01": "January 2013", "2013-02": "February 2013"}  # fmt: skip
    assert years.run(UNITS) == [f"{unit}; the axis doesn't begin at zero"] and years.run(HEADS) == ["Month", *heads]
    assert {month: found[names[month]] for month in rows} == rows and years.run(MARKED) == marks
    said = str(years.find("#parts .picture svg").get_attribute("aria-label"))
    assert unit in said and ("December" in pressed(years)) == ("own reference period" in unit)


# ---- the address


def test_a_change_is_in_the_address_and_back_goes_back(shown: Browser) -> None:
    opened(shown)
    assert shown.run(KEPT) == "" and len(shown.run(CELLS)) == 2
    shown.choose("from", "2011-02")
    settled(shown)
    shown.click('#show input[value="year"]')
    settled(shown)
    assert shown.run(KEPT) == "?show=index+year&from=2011-02" and len(shown.run(UNITS)) == 2
    shown.driver.back()
    shown.wait(lambda: len(shown.run(UNITS)) == 1)
    assert shown.run(KEPT) == "?from=2011-02" and not shown.find('#show input[value="year"]').is_selected()
    shown.driver.back()
    shown.wait(lambda: len(shown.run(CELLS)) == 2)
    assert shown.run("return document.getElementById('from').value") == ""
    shown.driver.forward()
    shown.wait(lambda: len(shown.run(CELLS)) == 1)


def test_an_item_is_sought_and_chosen_by_the_keyboard(shown: Browser) -> None:
    opened(shown)
    shown.find("#seek").send_keys("FLOUR")
    shown.wait_text("#match-count", "2 of 8 items.")
    shown.find("#seek").send_keys("\n")
    shown.wait(lambda: shown.run(KEPT) == "?items=00+01.1.1.2")
    settled(shown)
    assert shown.run("return document.activeElement.id") == "seek" and len(shown.all("#chosen button")) == 2
    shown.click("#chosen button")
    shown.wait(lambda: shown.run(KEPT) == "?items=01.1.1.2")
    settled(shown)
    assert not shown.find("#chosen button").is_enabled()  # (one stays)


@pytest.mark.parametrize("width", [360, 1280])
def test_what_is_chosen_is_shown_whole(shown: Browser, width: int) -> None:
    """*The newest* is told with its month, which needs more room than half of a column."""
    shown.size(width, 900)
    opened(shown)
    if not shown.find("#to").is_displayed():
        shown.click("#choice summary")
    assert "The newest, " in shown.run("return document.getElementById('to').selectedOptions[0].textContent")
    assert shown.run(SHORTENED) == []


def test_a_wrong_address_says_what_it_is(shown: Browser) -> None:
    opened(shown, "?items=00+01.9&from=2011-13&colour=red&show=%3Cb%3Ex")
    assert shown.text("#fault").split("\n\n") == [
        "from=2011-13: it isn’t a month from 2011-01 to 2011-02.",
        "colour=red: this page doesn’t know this name; it knows items, show, from, to, hundred, revision, decimals.",
        "show=<b>x: <b>x isn’t a measure; the measures are index, year, month, contribution-year, contribution-month,"
        " weight.",
        "01.9: this code belongs to no item or special aggregate on this site.",
    ]
    assert (
        shown.run(HEADS) == ["Month", "All items"]
        and shown.run("return document.querySelectorAll('#fault b').length") == 0
    )


def test_a_file_that_cannot_be_had_is_said(shown: Browser, stage: Stage, website: Path, tmp_path: Path) -> None:
    """And asked for again by the next choice."""
    opened(shown)
    shown.offline(True)
    shown.run("history.replaceState(null, '', '?items=00+01'); dispatchEvent(new PopStateEvent('popstate'))")
    shown.wait_text("#fault", "01: \u2068node/01.csv\u2069: the server doesn’t respond. Reload the page in a moment.")
    shown.offline(False)
    shown.choose("from", "2011-02")
    shown.wait(lambda: shown.text("#fault") == "" and len(shown.run(HEADS)) == 3)


# ---- files


def test_the_figures_are_taken_home(shown: Browser, website: Path) -> None:
    opened(shown, "?items=00+01.1.1.2-01&show=index+contribution-month&to=2011-01")
    link = shown.find("#file")
    assert link.get_attribute("download") == "cpi-2011-01-2011-01.csv"
    whole = {row["code"]: row for row in rows_of(website / "data/cpi.csv") if row["month"] == "2011-01"}
    given = {
        row["code"]: row
        for row in rows_of(website / "data/contributions.csv")
        if row["month"] == "2011-01" and row["of"] == "00"
    }
    rows = [",".join((f"2011-01,1,{whole['00']['published']}", code, title, whole[code]["chained"], "2010-12", points, "0,0"))
            for code, title, points in (("00", "All items", f"{Decimal(whole['00']['index']) - 100}"), ("01.1.1.2-01", '"Flour, wheat"', given["01.1.1.2-01"]["contribution_month"]))]  # fmt: skip
    head = "month,revision,published,code,title,index,reference,contribution_month,imputed,break"
    assert downloaded(shown, website.parent) == "\n".join([head, *rows, ""])


def downloaded(browser: Browser, folder: Path) -> str:
    """The file that the page offers, as Chromium writes it."""
    browser.cdp("Browser.setDownloadBehavior", behavior="allow", downloadPath=str(folder))
    path = folder / str(browser.find("#file").get_attribute("download"))
    browser.run("document.getElementById('file').click()")
    browser.wait(path.exists, str(path))
    return path.read_text(encoding="utf-8")


def test_the_address_for_good_shows_the_same(shown: Browser) -> None:
    opened(shown, "?items=01.1.1.1-01")
    before = shown.run(CELLS)
    address = shown.text("#cite")
    assert "from=2011-01&to=2011-02&hundred=2010-12&revision=" in address
    shown.driver.get(address)
    settled(shown)
    assert shown.run(CELLS) == before and shown.text("#cite") == address


def test_the_address_for_good_is_that_of_the_site(shown: Browser) -> None:
    """If the site says where it is, whoever opens a copy of it cites the office's own page."""
    name = "const link = document.createElement('link'); link.rel = 'canonical'; link.href = 'https://prices.example/choose.html';"
    with shown.on_each_page(f"addEventListener('DOMContentLoaded', () => {{ {name} document.head.append(link); }})"):
        opened(shown, "?items=01.1.1.1-01")
    assert shown.text("#cite").startswith("https://prices.example/choose.html?items=01.1.1.1-01&")


COST = """return [performance.getEntriesByType("navigation"), performance.getEntriesByType("resource")].flat()
  .map(({ name, transferSize }) => [name.replace(/^.*\\//, ""), transferSize]);"""


@pytest.fixture(scope="module")
def of_22_months(cpi: Cpi, tmp_path_factory: pytest.TempPathFactory) -> Path:
    """The website of an office of 22 months."""
    folder = tmp_path_factory.mktemp("months")
    records = [*itertools.takewhile(lambda it: ",freeze,2012-11" not in it, lived())]
    assert [reply for reply in cpi.replay(records, db=folder / "months.db") if "refused" in reply] == []
    return published(cpi, folder / "months.db", folder)


def test_one_line_over_22_months_costs_little(browser: Browser, stage: Stage, of_22_months: Path) -> None:
    stage.published.symlink_to(of_22_months)
    opened(browser)
    assert len(browser.run(CELLS)) == 22
    asked: list[list[Any]] = browser.run(COST)
    files = ["choose.html", "style.css", "choose.css", "head.js", "spoken.js", "choose.js", "00.csv"]
    assert sorted(name for name, _ in asked) == sorted(files) and all(size > 0 for _, size in asked), asked
    assert sum(size for _, size in asked) < 40_000, asked


def test_any_server_of_files_will_do(browser: Browser, website: Path) -> None:
    """The folder of the pack, without a front: `python3 -m http.server`."""
    handler = functools.partial(http.server.SimpleHTTPRequestHandler, directory=str(website))
    with http.server.ThreadingHTTPServer(("127.0.0.1", 0), handler) as server:
        threading.Thread(target=server.serve_forever, daemon=True).start()
        browser.driver.get(f"http://127.0.0.1:{server.server_port}/choose.html?items=00+01&show=year+month")
        settled(browser)
        assert len(browser.run(HEADS)) == 6 and browser.faults() == []
        server.shutdown()


def test_without_a_script_it_leads_to_the_files(shown: Browser) -> None:
    shown.cdp("Emulation.setScriptExecutionDisabled", value=True)
    shown.open(PAGE)
    shown.cdp("Emulation.setScriptExecutionDisabled", value=False)
    assert "This page needs JavaScript" in shown.text("#without") and not shown.find("#choice").is_displayed()
    assert [str(it.get_attribute("href")).rpartition("/")[2] for it in shown.all("#without a")] == [
        "nodes.html",
        "data.html",
    ]


def test_from_a_disk_it_leads_to_the_files(shown: Browser, website: Path) -> None:
    """A browser loads no module from there."""
    shown.driver.get(f"file://{website}/choose.html")
    assert "This page needs JavaScript" in shown.text("#without")


# ---- how it looks


@pytest.mark.sampled(1)
@pytest.mark.parametrize("scheme", ["light", "dark"])
@pytest.mark.parametrize("width", [360, 1280])
def test_it_can_be_read_touched_and_enlarged(years: Browser, width: int, scheme: str) -> None:
    years.shown_as(scheme)
    years.size(width, 800)
    opened(years, f"?items=00+01+01.1+01.1.1+{RICE}+{BREAD}+{FLOUR}&show=index+year&from=2011-01&hundred=own")
    years.run("document.getElementById('choosing').open = true")
    years.find("#seek").send_keys("r")
    years.wait_text("#match-count", "of")
    assert len(years.all("#parts section:first-child .picture .curve")) == 6
    assert "The picture shows the first 6 of 7 items." in years.text("#parts")
    assert years.run(MARKS, "#parts .curve, #parts .picture circle") == []
    assert [*faults_of_page(years), *faults_for_keys(years), *faults_enlarged(years)] == []


def test_a_sent_address_shows_its_figures_first_on_a_telephone(years: Browser) -> None:
    years.size(360, 740)
    assert opened(years).run("return document.getElementById('choosing').open")
    assert not opened(years, "?items=00+01").run("return document.getElementById('choosing').open")


def test_it_is_printed_whole(years: Browser) -> None:
    years.shown_as("light", "print")
    years.size(720, 1000)
    opened(years, f"?items=00+01+01.1+01.1.1+{RICE}+{BREAD}+{FLOUR}&from=2011-01")
    cut = "return [...document.querySelectorAll('#parts .scroll')].filter((one) => one.scrollWidth > one.clientWidth).length"
    assert years.run(cut) == 0 and len(years.all("#parts table")) == 2
    assert not years.find("#choice").is_displayed()

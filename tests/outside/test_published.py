"""What R, pandas, LibreOffice, xmllint and Chromium make of a pack of `cpi-tools publish`.

Each figure that they find is one that `cpi table` prints. Pages are opened at the width of a telephone and of a desk.
"""

from __future__ import annotations

import csv
import importlib
import io
import json
import subprocess
import zipfile
from collections.abc import Callable, Iterable, Iterator, Mapping, Sequence
from decimal import Decimal
from pathlib import Path

import pytest

from .chromium import Browser, browser
from cpi_tools.publish.figures.config import Config
from cpi_tools.publish.figures.profiles import read_profile
from cpi_tools.office.public import from_file
from cpi_tools.office.program import Cpi
from cpi_tools.publish.pack import publish
from lib.places import ROOT
from tools.published import Office, made, shown

Needed = Callable[[str], str]

HICP = ROOT / "examples/profiles/hicp.toml"
CONFIG = Config("NSO", "XX", "Office <of> prices", country="Exampleland", currency="crowns")
PLACES = {("CPI", "N"): 3, ("CPI", "G1"): 4, ("CPI", "GY"): 5, ("CPIW", "N"): 1}
"""Where the figure of a measure stands in a printed row, by FORMATS."""


@pytest.fixture(scope="module")
def office(cpi: Cpi, tmp_path_factory: pytest.TempPathFactory) -> Office:
    return made(cpi, tmp_path_factory.mktemp("published") / "office.db")


@pytest.fixture(scope="module")
def pack(cpi: Cpi, office: Office, tmp_path_factory: pytest.TempPathFactory) -> Path:
    out = tmp_path_factory.mktemp("pack") / "public"
    publish(from_file(cpi, office.file, office.at), CONFIG, out, None, lambda _: None)
    return out


@pytest.fixture(scope="module")
def latest(cpi: Cpi, office: Office) -> dict[tuple[str, str], list[str]]:
    """The rows of the latest published tables by month and code, as `cpi table` prints them."""
    found = {}
    for month, revision in shown():
        text = cpi.table(office.file, month, "csv", office.at, revision).decode()
        found.update({(month, row[0]): row for row in csv.reader(io.StringIO(text, newline=""))})
    return found


Latest = dict[tuple[str, str], list[str]]


def observations(latest: Latest) -> list[tuple[str, str, str, str, float]]:
    """Measure, transformation, item, month and figure of all that is printed."""
    return sorted(
        (*name, "_T" if code == "00" else "CP" + code.replace(".", ""), month, float(row[place]))
        for (month, code), row in latest.items()
        for name, place in PLACES.items()
        if row[place]
    )


COMPUTED, MONTHLY = ("CTR", "CPIS"), "M"
"""The measures whose figures no table has: contributions, and shares of all weight; and the frequency of those that one has,
which annual averages aren't."""

# ---- R

RSDMX = """suppressMessages(library(rsdmx))
found <- as.data.frame(readSDMX(commandArgs(TRUE)[1], isURL = FALSE))
write.csv(found[c("FREQ", "MEASURE", "TRANSFORMATION", "COICOP18", "TIME_PERIOD", "OBS_VALUE")], row.names = FALSE)
"""

READ_CSV = """found <- read.csv(commandArgs(TRUE)[1], colClasses = c(code = "character"))
found <- found[c("month", "code", "weight", "chained", "month_change", "year_change", "title")]
write.csv(found, row.names = FALSE, na = "")
"""


def by_r(program: str, text: str, path: Path) -> list[dict[str, str]]:
    read = subprocess.run([program, "-e", text, path], capture_output=True, text=True, check=True)
    return [*csv.DictReader(io.StringIO(read.stdout))]


def test_rsdmx_reads_each_figure(needed: Needed, pack: Path, latest: Latest) -> None:
    rows = by_r(needed("Rscript"), RSDMX, pack / "data/cpi.sdmx.xml")
    names = ("MEASURE", "TRANSFORMATION", "COICOP18", "TIME_PERIOD")
    is_printed = (row for row in rows if row["FREQ"] == MONTHLY and row["MEASURE"] not in COMPUTED)
    found = sorted((*(row[name] for name in names), float(row["OBS_VALUE"])) for row in is_printed)
    assert found == observations(latest)
    assert len(rows) > len(found)


ALL_COLUMNS = """suppressMessages(library(rsdmx))
found <- as.data.frame(readSDMX(commandArgs(TRUE)[1], isURL = FALSE))
write.csv(found, row.names = FALSE, na = "")
"""

KEY = ("FREQ", "REF_AREA", "MEASURE", "UNIT_MEASURE", "COICOP18", "TRANSFORMATION", "TIME_PERIOD")


def figures(rows: Iterable[Mapping[str, str]], key: Sequence[str] = KEY) -> dict[tuple[str, ...], Decimal]:
    """The figures of observations by their keys, each once."""
    rows = [*rows]
    numbers = {tuple(row[name] for name in key): Decimal(row["OBS_VALUE"]) for row in rows}
    assert len(numbers) == len(rows) > 0
    return numbers


def in_csv(path: Path) -> list[dict[str, str]]:
    with path.open(encoding="utf-8", newline="") as file:
        return [*csv.DictReader(file)]


def test_rsdmx_reads_each_slice(needed: Needed, pack: Path) -> None:
    """Headline figures, each division and the newest month: all slices together are the whole, with their attributes."""
    program, whole = needed("Rscript"), in_csv(pack / "data/cpi.sdmx.csv")
    slices = sorted((pack / "data/slices").glob("*.xml"))
    assert [path.name for path in slices] == [f"{text}.sdmx.xml" for text in ("01", "07", "08", "headline")]
    numbers: dict[tuple[str, ...], Decimal] = {}
    for path in slices:
        rows = by_r(program, ALL_COLUMNS, path)
        numbers.update(figures(rows))
        said = {tuple(row[text] for text in KEY): (row["OBS_STATUS"], row.get("BASE_PER", "")) for row in rows}
        wanted = {tuple(row[text] for text in KEY): (row["OBS_STATUS"], row["BASE_PER"]) for row in whole}
        assert said.items() <= wanted.items()
    assert numbers == figures(whole)
    newest = by_r(program, ALL_COLUMNS, pack / "data/newest/cpi.sdmx.xml")
    last = max(row["TIME_PERIOD"] for row in whole if row["FREQ"] == "M")
    assert figures(newest) == figures(row for row in whole if row["TIME_PERIOD"] == last)


def test_rsdmx_reads_a_profile(needed: Needed, cpi: Cpi, office: Office, tmp_path: Path) -> None:
    """The names are those of the profile, the figures ours."""
    pack, config = tmp_path / "public", CONFIG._replace(reference="2025", profiles=(read_profile(HICP),))
    publish(from_file(cpi, office.file, office.at), config, pack, None, lambda _: None)
    rows = by_r(needed("Rscript"), ALL_COLUMNS, pack / "data/profiles/HICP.sdmx.xml")
    key = ("FREQ", "UNIT", "COICOP", "GEO", "TIME_PERIOD")
    numbers = figures(rows, key)
    assert numbers == figures(in_csv(pack / "data/profiles/HICP.sdmx.csv"), key)
    units = {("CPI", "N"): "I25", ("CPI", "G1"): "RCH_M", ("CPI", "GY"): "RCH_A"}
    for row in in_csv(pack / "data/slices/headline.sdmx.csv"):
        unit = units.get((row["MEASURE"], row["TRANSFORMATION"]))
        if row["FREQ"] == "M" and unit and (unit != "I25" or row["BASE_PER"] == "2025"):
            code = "CP00" if row["COICOP18"] == "_T" else row["COICOP18"]
            assert numbers["M", unit, code, "XX", row["TIME_PERIOD"]] == Decimal(row["OBS_VALUE"])


def test_rsdmx_reads_what_a_publication_changed(needed: Needed, cpi: Cpi, office: Office, tmp_path: Path) -> None:
    """A pack over that of two months less: what is replaced in the file of changes is what the new pack has else or besides."""
    tables = from_file(cpi, office.file, office.at)
    out, latest_month = tmp_path / "public", max(table.listed.month for table in tables)
    publish([table for table in tables if table.listed.month < latest_month], CONFIG, out, None, lambda _: None)
    before = figures(in_csv(out / "data/cpi.sdmx.csv"))
    publish(tables, CONFIG, out, None, lambda _: None)
    now = figures(in_csv(out / "data/cpi.sdmx.csv"))
    (archive,) = (out / "data/changes").glob("*.xml.zip")
    with zipfile.ZipFile(archive) as file:
        path = Path(file.extract(file.namelist()[0], tmp_path))
    numbers = figures(row for row in by_r(needed("Rscript"), ALL_COLUMNS, path) if row["OBS_VALUE"])
    assert {key: value for key, value in now.items() if before.get(key) != value}.items() <= numbers.items()
    assert numbers.items() <= now.items() and len(numbers) < len(now) / 2


def test_rsdmx_reads_the_structure(needed: Needed, pack: Path) -> None:
    text = """suppressMessages(library(rsdmx))
    found <- readSDMX(commandArgs(TRUE)[1], isURL = FALSE)
    items <- as.data.frame(slot(found, "codelists"), codelistId = "CL_COICOP18")
    write.csv(items[c("id", "label.en")], row.names = FALSE)
    """
    titles = {row["id"]: row["label.en"] for row in by_r(needed("Rscript"), text, pack / "data/structure.sdmx.xml")}
    assert titles["_T"] == "All items" and titles["CP01112-01"] == "Flour & <meal>"


def test_r_reads_the_tidy_file(needed: Needed, pack: Path, latest: Latest) -> None:
    rows = by_r(needed("Rscript"), READ_CSV, pack / "data/cpi.csv")
    assert len(rows) == len(latest)
    for row in rows:
        printed = latest[row["month"], row["code"]]
        numbers = [row[name] for name in ("weight", "chained", "month_change", "year_change")]
        wanted = [printed[at] for at in (1, 3, 4, 5)]
        assert [float(number) if number else None for number in numbers] == [float(it) if it else None for it in wanted]
        assert row["title"] == printed[7]


# ---- pandas, LibreOffice, xmllint


def test_pandas_reads_the_files(needed: Needed, pack: Path, latest: Latest) -> None:
    needed("pandas")
    pandas = importlib.import_module("pandas")
    tidy = pandas.read_csv(pack / "data/cpi.csv", dtype={"code": str})
    found = {(row.month, row.code): (row.weight, row.chained, row.title) for row in tidy.itertuples()}
    assert found == {key: (int(row[1]), float(row[3]), row[7]) for key, row in latest.items()}
    sdmx = pandas.read_csv(pack / "data/cpi.sdmx.csv")
    rows = sdmx[(sdmx.FREQ == MONTHLY) & ~sdmx.MEASURE.isin(COMPUTED)][
        ["MEASURE", "TRANSFORMATION", "COICOP18", "TIME_PERIOD", "OBS_VALUE"]
    ]
    assert sorted(rows.itertuples(index=False, name=None)) == observations(latest)
    book = pandas.read_excel(pack / "data/cpi.xlsx", sheet_name="Index", dtype={"Code": str}, index_col="Code")
    for (month, code), row in latest.items():
        assert book.loc[code, month] == float(row[3])


ALL_SHEETS = "csv:Text - txt - csv (StarCalc):44,34,76,1,,0,false,false,false,false,false,-1"
"""As CSV in UTF-8, figures as they are stored, a file for each sheet."""


def test_libreoffice_reads_each_sheet(needed: Needed, pack: Path, latest: Latest, tmp_path: Path) -> None:
    words = [needed("soffice"), f"-env:UserInstallation=file://{tmp_path}/profile", "--headless", "--convert-to"]
    words += [ALL_SHEETS, "--outdir", str(tmp_path), str(pack / "data/cpi.xlsx")]
    subprocess.run(words, check=True, capture_output=True, timeout=180)
    for name, place in (("Index", 3), ("Monthly change", 4), ("Annual change", 5), ("Weights", 1)):
        with (tmp_path / f"cpi-{name}.csv").open(encoding="utf-8", newline="") as file:
            head, *rows = csv.reader(file)
        numbers = {(month, row[0]): Decimal(it) for row in rows for month, it in zip(head[2:], row[2:]) if it}
        assert numbers == {key: Decimal(row[place]) for key, row in latest.items() if row[place]}
    with (pack / "data/contributions.csv").open(encoding="utf-8", newline="") as file:
        given = [row for row in csv.DictReader(file) if row["of"] == "00" and row["contribution_year"]]
    with (tmp_path / "cpi-Contributions.csv").open(encoding="utf-8", newline="") as file:
        head, *rows = csv.reader(file)
    numbers = {(month, row[0]): Decimal(it) for row in rows for month, it in zip(head[2:], row[2:]) if it}
    assert numbers == {(row["month"], row["code"]): Decimal(row["contribution_year"]) for row in given}


def test_the_xml_is_well_formed(needed: Needed, pack: Path) -> None:
    files = [pack / "data/cpi.sdmx.xml", pack / "data/structure.sdmx.xml"]
    subprocess.run([needed("xmllint"), "--noout", *files], check=True)


# ---- pages


@pytest.fixture(scope="module")
def opened(needed: Needed) -> Iterator[Browser]:
    with browser(needed("chromium")) as found:
        yield found


PAGES = ("index.html", "nodes.html", "node/00.html", "node/01.html", "node/01.1.1.2-01.html", "contract.html",
         "data.html", "revisions.html", "method.html", "how-to-read.html", "embed/01.html")  # fmt: skip

OVERLAPS = """(() => {
  // names and figures that lie on one another, or on the line of zero, in a picture or beside a bar
  const boxes = (within, of) => [...within.querySelectorAll(of)].map((it) => it.getBoundingClientRect());
  const meet = (a, b) => a.left < b.right - 1 && b.left < a.right - 1 && a.top < b.bottom - 1 && b.top < a.bottom - 1;
  let found = 0;
  for (const picture of document.querySelectorAll("svg")) {
    const texts = boxes(picture, "text");
    texts.forEach((one, at) => texts.slice(at + 1).forEach((other) => { found += meet(one, other); }));
    for (const zero of boxes(picture, ".zero")) texts.forEach((text) => { found += meet(text, zero); });
  }
  for (const row of document.querySelectorAll("tr")) {
    const zeros = boxes(row, ".track b").filter((it) => it.width);
    for (const text of boxes(row, "a, td.n")) zeros.forEach((zero) => { found += meet(text, zero); });
  }
  return found;
})()"""


@pytest.mark.parametrize("width", [360, 1280])
@pytest.mark.parametrize("name", PAGES)
def test_a_page_has_no_fault_at_a_width(opened: Browser, pack: Path, name: str, width: int) -> None:
    opened.open_whole(pack / name, width)
    assert opened.value("[...document.querySelectorAll('svg')].every((it) => document.getElementById("
                        "it.getAttribute('aria-labelledby').split(' ')[0]).textContent)")  # fmt: skip
    assert opened.value(OVERLAPS) == 0
    assert opened.told == []


def test_a_page_is_gone_through_by_the_keyboard(opened: Browser, pack: Path) -> None:
    """The first stop leads past the ways to other pages, and what has the focus is outlined."""
    opened.open(pack / "contract.html", 360)
    stops = [""]
    while stops[-1] != "now" and len(stops) < 30:
        opened.press("Tab")
        stops.append(opened.value("document.activeElement.id || document.activeElement.textContent"))
        assert opened.value("getComputedStyle(document.activeElement).outlineStyle") == "solid", stops
    assert stops[1] == "To the content" and stops[-4:] == ["amount", "code", "then", "now"]


def test_a_printed_page_keeps_its_bars_and_leaves_the_ways_out(opened: Browser, pack: Path) -> None:
    opened.ask("Emulation.setEmulatedMedia", media="print")
    try:
        opened.open(pack / "index.html", 720)
        assert opened.value("getComputedStyle(document.querySelector('header nav')).display") == "none"
        adjusts = "getComputedStyle(document.querySelector('.track-cell .track i')).getPropertyValue"
        assert opened.value(f"{adjusts}('print-color-adjust')") == "exact"
        assert opened.value(f"{adjusts}('background-color')") != "rgba(0, 0, 0, 0)"
        assert opened.printed().startswith(b"%PDF")
    finally:
        opened.ask("Emulation.setEmulatedMedia", media="")


def test_the_calculator_in_its_page(opened: Browser, pack: Path, latest: Latest) -> None:
    """Three sums by whole numbers here: with one decimal, with six, and where an item has no index."""
    then, now = "2025-03", "2027-05"
    one = [round_half_up(int(latest[month, "00"][3].replace(".", "")), 100_000) for month in (then, now)]
    assert amount_in(opened, pack, then, now, "1000", "00", 1) == money(round_half_up(100_000 * one[1], one[0]))
    six = [int(latest[month, "07"][3].replace(".", "")) for month in (then, now)]
    assert amount_in(opened, pack, then, now, "1234.56", "07", 6) == money(round_half_up(123_456 * six[1], six[0]))
    assert amount_in(opened, pack, then, now, "1000", "08", 6) is None
    assert opened.value("document.getElementById('fault').textContent").endswith(
        "has no index for one of these months."
    )
    assert opened.told == []


def round_half_up(over: int, under: int) -> int:
    return (2 * over + under) // (2 * under)


def money(minor: int) -> str:
    """Minor units as the page writes them, with narrow spaces at thousands."""
    return f"{minor // 100:,}.{minor % 100:02} crowns".replace(",", "\u202f")


def amount_in(opened: Browser, pack: Path, then: str, now: str, amount: str, code: str, decimals: int) -> object:
    """What the page of the index clause shows as the new amount, None where it shows none."""
    after = f"#amount={amount}&code={code}&then={then}&now={now}&decimals={decimals}"
    opened.open(pack / "contract.html", 360, after=after)
    shown_now = "document.getElementById('result').hidden ? null : document.getElementById('value').textContent"
    return opened.value(shown_now)


def test_what_is_typed_is_kept_in_the_address(opened: Browser, pack: Path) -> None:
    opened.open(pack / "contract.html", 1280)
    opened.value("(() => { const it = document.getElementById('amount'); it.value = '500'; "
                 "it.dispatchEvent(new Event('input', { bubbles: true })); })()")  # fmt: skip
    assert "amount=500" in opened.value("location.hash")
    assert opened.value("document.getElementById('formula').textContent").startswith("500.00 \u00d7 ")
    opened.value("(() => { const it = document.getElementById('amount'); it.value = '1,5'; "
                 "it.dispatchEvent(new Event('input', { bubbles: true })); })()")  # fmt: skip
    assert opened.value("document.getElementById('result').hidden")
    assert "without commas" in opened.value("document.getElementById('fault').textContent")


def test_items_are_found_by_words(opened: Browser, pack: Path) -> None:
    opened.open(pack / "nodes.html", 360)
    opened.value("(() => { const it = document.getElementById('seek'); it.value = 'rice packed'; "
                 "it.dispatchEvent(new Event('input', { bubbles: true })); })()")  # fmt: skip
    left = "JSON.stringify([...document.querySelectorAll('.tree li:not([hidden]) .code')].map((it) => it.textContent))"
    assert json.loads(opened.value(left)) == ["01.1.1.1-01"]

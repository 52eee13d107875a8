"""Workbooks that LibreOffice wrote are read as the CSV files that it read."""

from __future__ import annotations

import os
import shutil
import subprocess
from collections.abc import Callable, Sequence
from pathlib import Path

import pytest

from cpi_tools.sheets.record_rows import SHEETS
from cpi_tools.office.program import Cpi
from cpi_tools.sheets.sheet_files import Source
from lib.places import ROOT
from tools.ran import Ran, rows_of, run
from tools.spreadsheets import Sheets, replayed, sheets, tables, written


@pytest.fixture(autouse=True)
def soffice(needed: Callable[[str], str]) -> str:
    """LibreOffice, of Debian's libreoffice-calc."""
    return needed("soffice")


def converted(home: Path, form: str, to: Path, files: Sequence[Path], reads: str = "CSV") -> None:
    """Files as LibreOffice writes them in another form; `reads` is how it reads them, by the words of its filters."""
    words = [
        "soffice",
        f"-env:UserInstallation=file://{home}",
        "--headless",
        f"--infilter={reads}",
        "--convert-to",
        form,
        "--outdir",
        str(to),
        *map(str, files),
    ]
    subprocess.run(words, check=True, capture_output=True, timeout=240)
    assert len(os.listdir(to)) == len(files)


def office() -> Sheets:
    """The office of the tests with civil times, and with prices in a column a month that have two decimals."""
    of = sheets()
    of["calendar"] = [
        ["month", "opens", "closes", "publishes"],
        ["2025-12", "2025-12-01T00:00", "2025-12-24T18:00", "2025-12-28T09:30"],
        ["2026-01", "2026-01-01T00:00", "2026-01-24T18:00", "2026-01-28T09:30"],
        ["2026-02", "2026-02-01T06:00", "2026-02-24T18:00", "2026-02-28T09:30"],
    ]
    of["releases"] = [["month", "carry"], ["2025-12", ""], ["2026-01", ""], ["2026-02", "01.1.1.1-01"]]
    of["prices"] = [
        ["outlet", "item", "2025-12", "2026-01", "2026-02"],
        ["10", "RICE", "2.00", "2.10", "stock"],
        ["10", "FLOUR", "0.80", "0.84", "0.90"],
        ["11", "RICE", "2.40", "comparable 2.46", "."],
    ]
    return of


def test_workbooks_of_libreoffice_are_read_as_their_csv(cpi: Cpi, tmp_path: Path) -> None:
    folder = written(tmp_path / "csv", office())
    files = sorted(folder.glob("*.csv"))
    converted(tmp_path / "home", "xlsx", tmp_path / "xlsx", files)
    found = {}
    for source in ("csv", "xlsx"):
        records = tmp_path / f"{source}-records"
        ran = run(cpi, "take-in", tmp_path / source, "--write", records, "--minor", 100)
        assert ran.status == 0, (tmp_path / source / "check/problems.csv").read_text()
        assert ("lacked the leading zero" in ran.err) == (source == "xlsx")
        found[source] = tables(cpi, replayed(cpi, records, tmp_path / f"{source}.db"))
    assert found["xlsx"] == found["csv"] and len(found["csv"]) == 3


@pytest.mark.parametrize("form", ["ods", "xls"])
def test_spreadsheets_of_other_kinds_are_read_as_their_csv(cpi: Cpi, tmp_path: Path, form: str) -> None:
    """LibreOffice makes workbooks of them, and nothing of that is left."""
    folder = written(tmp_path / "csv", office())
    converted(tmp_path / "home", form, tmp_path / form, sorted(folder.glob("*.csv")))
    found = {}
    for source in ("csv", form):
        records = tmp_path / f"{source}-records"
        ran = run(cpi, "take-in", tmp_path / source, "--write", records, "--minor", 100)
        assert ran.status == 0, (tmp_path / source / "check/problems.csv").read_text()
        found[source] = tables(cpi, replayed(cpi, records, tmp_path / f"{source}.db"))
    assert found[form] == found["csv"] and len(found["csv"]) == 3
    assert {path.suffix for path in (tmp_path / form).iterdir()} == {f".{form}"}


def test_a_broken_file_of_another_kind_is_refused(cpi: Cpi, tmp_path: Path) -> None:
    folder = written(tmp_path / "office", office())
    (folder / "prices.csv").unlink()
    (folder / "prices.xls").write_bytes(b"\xd0\xcf\x11\xe0\xa1\xb1\x1a\xe1" + bytes(600))
    ran = run(cpi, "take-in", folder, "--check")
    assert (ran.status, ran.out) == (1, "")
    assert "prices.xls" in ran.err or "prices.xls" in {row["file"] for row in rows_of(folder / "check/problems.csv")}


def test_cells_of_libreoffice_are_those_of_its_csv(tmp_path: Path) -> None:
    """Cell by cell, but for the zeros that a spreadsheet drops of what it takes for a number."""
    of = office()
    folder = written(tmp_path / "csv", of)
    converted(tmp_path / "home", "xlsx", tmp_path / "xlsx", sorted(folder.glob("*.csv")))
    csv, xlsx = (Source(tmp_path / text, SHEETS) for text in ("csv", "xlsx"))
    for name in of:
        one, other = csv.sheet(name), xlsx.sheet(name)
        assert one and other and one.columns == other.columns
        for row, same in zip(one.rows, other.rows):
            assert row.origin.row == same.origin.row
            for column in one.columns:
                dropped = {row[column], row[column].rstrip("0").rstrip("."), row[column].lstrip("0") or "0"}
                assert same[column] in dropped, (name, row.origin, column)


EXAMPLE = ROOT / "examples/changing-over"
WORDS = ("--minor", 100, "--decimal", ",", "--weights", "percent")
SEMICOLONS = "CSV:59,34,76,1"
GERMAN = f"{SEMICOLONS},,1031,false,true"
"""With decimal commas as numbers, and dates as such."""


def told(ran: Ran, folder: Path) -> list[tuple[str, str, str]]:
    """The row, the column and the number of each problem of a check."""
    assert ran.status == 1
    rows = [row for row in rows_of(folder / "check/problems.csv") if row["kind"] == "problem"]
    return [(row["row"], row["column"], row["number"]) for row in rows]


def test_the_spreadsheets_of_the_guide_as_workbooks(cpi: Cpi, tmp_path: Path) -> None:
    """Each saved under its own name, `basket-items.xlsx`, whose sheet is `basket-items` then: read as texts, the fault
    of the decimal point is none any more, since LibreOffice takes 2.10 for a number."""
    converted(tmp_path / "home", "xlsx", tmp_path / "books", sorted(EXAMPLE.glob("*.csv")), SEMICOLONS)
    ran = run(cpi, "take-in", tmp_path / "books", *WORDS, "--check")
    assert told(ran, tmp_path / "books") == [("6", "2026-01", "26")]
    assert "not read" not in ran.err
    csv, books = (run(cpi, "take-in", folder, *WORDS, "--check", "--confirm-history", "--out", tmp_path / "check")
                  for folder in (mended(tmp_path / "csv"), tmp_path / "books"))  # fmt: skip
    assert (csv.status, csv.out) == (0, books.out)


def mended(folder: Path) -> Path:
    """The example with a decimal comma for its point."""
    shutil.copytree(EXAMPLE, folder)
    prices = folder / "prices.csv"
    prices.write_text(prices.read_text(encoding="utf-8").replace("2.10", "2,10"), encoding="utf-8")
    return folder


def test_a_spreadsheet_program_that_reads_decimal_commas_and_dates(cpi: Cpi, tmp_path: Path) -> None:
    """Prices are numbers then, whatever --decimal says; a code like 01.1.1 is a date, and told in these words."""
    converted(tmp_path / "home", "xlsx", tmp_path / "books", sorted(EXAMPLE.glob("*.csv")), GERMAN)
    found = told(run(cpi, "take-in", tmp_path / "books", *WORDS, "--check"), tmp_path / "books")
    assert found == [("5", "code", "10"), ("12", "code", "10"), ("4", "2026-01", "10"), ("6", "2026-01", "26")]
    rows = rows_of(tmp_path / "books/check/problems.csv")
    assert rows[0]["because"].startswith(
        "the plan of 2026: the cell contains the date 2001-01-01: a spreadsheet turns "
    )
    assert rows[2]["because"] == '"2.10" isn\'t a number with the decimal sign ","'


def test_numbers_of_formulas_are_those_that_its_csv_shows(cpi: Cpi, tmp_path: Path) -> None:
    """What the reckoning in binary digits leaves at the end of a value isn't shown there, and isn't read here."""
    import openpyxl

    book = openpyxl.Workbook()
    book.active.append(["outlet", "name"])
    for formula in ("=0.1+0.2", "=210*1.1", "=2.4*1.05", "=1.1*1.1", "=100*1.15", "=4.35*100"):
        book.active.append([formula, "x"])
    book.save(tmp_path / "outlets.xlsx")
    for form in ("csv", "xlsx"):
        converted(tmp_path / "home", form, tmp_path / form, [tmp_path / "outlets.xlsx"], "Calc MS Excel 2007 XML")
    found = []
    for form in ("csv", "xlsx"):
        sheet = Source(tmp_path / form, SHEETS).sheet("outlets")
        assert sheet
        found.append([row["outlet"] for row in sheet.rows])
    assert found[0] == found[1] == ["0.3", "231", "2.52", "1.21", "115", "435"]


def test_formulas_that_libreoffice_computed(cpi: Cpi, tmp_path: Path) -> None:
    """A workbook with formulas alone is refused until LibreOffice has computed and saved it."""
    import openpyxl

    folder = written(tmp_path / "office", office())
    (folder / "prices.csv").unlink()
    book = openpyxl.Workbook()
    for row in office()["prices"]:
        book.active.append([f"={cell}*1" if cell[:1].isdigit() and "." in cell else cell for cell in row])
    book.save(tmp_path / "prices.xlsx")
    os.link(tmp_path / "prices.xlsx", folder / "prices.xlsx")
    words = ("take-in", folder, "--check", "--minor", 100)
    assert run(cpi, *words).status == 1
    (folder / "prices.xlsx").unlink()
    converted(tmp_path / "home", "xlsx", tmp_path / "saved", [tmp_path / "prices.xlsx"])
    os.link(tmp_path / "saved/prices.xlsx", folder / "prices.xlsx")
    ran = run(cpi, *words)
    assert ran.status == 0, (folder / "check/problems.csv").read_text()

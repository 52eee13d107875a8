"""The example in formulas: LibreOffice computes the figures that the program publishes, month by month."""

from __future__ import annotations

import csv
import io
import json
import subprocess
from collections.abc import Callable
from decimal import Decimal
from pathlib import Path

import pytest

from lib.places import ROOT

MAKE = ROOT / "examples/worked/make"
FIGURES = ["weight in use", "index, link month = 100", "chained index", "change on the month, percent",
           "change on the year, percent", "with an imputed price"]  # fmt: skip
"""The rows of a node that a table has too, in the order of its fields."""

AS_VALUES = "csv:Text - txt - csv (StarCalc):44,34,76,1,,0,false,false,false,false,false,-1"
"""A file for each sheet, in UTF-8, of values and not of what is shown."""

Table = dict[str, list[str]]
"""By code, the figures of FIGURES as texts."""


@pytest.fixture(scope="module")
def computed(needed: Callable[[str], str], tmp_path_factory: pytest.TempPathFactory) -> dict[str, Table]:
    """What LibreOffice computes, by month."""
    folder = tmp_path_factory.mktemp("worked")
    subprocess.run([MAKE, folder / "worked.xlsx"], stdout=subprocess.DEVNULL, check=True)
    words = [needed("soffice"), f"-env:UserInstallation=file://{folder}/home", "--headless", "--convert-to", AS_VALUES]
    subprocess.run([*words, "--outdir", folder, folder / "worked.xlsx"], capture_output=True, check=True)
    with (folder / "worked-Table.csv").open(encoding="utf-8", newline="") as file:
        head, *rows = csv.reader(file)
    tables: dict[str, Table] = {}
    for code, _, label, *cells in rows:
        for month, cell in zip(head[3:], cells):
            if label in FIGURES:
                figures = tables.setdefault(month, {}).setdefault(code, [""] * len(FIGURES))
                figures[FIGURES.index(label)] = cell
    return {month: table for month, table in tables.items() if any(any(it) for it in table.values())}


@pytest.fixture(scope="module")
def published(program: Path) -> dict[str, Table]:
    """What the program publishes of the same office, by month."""
    made = subprocess.run([MAKE, "--records"], capture_output=True, text=True, check=True).stdout
    months = [f"2026-{month:02}" for month in range(1, 13)] + ["2027-01", "2027-02"]
    asked = made + "".join(f"9999,public,table,{month},csv\n" for month in months)
    ran = subprocess.run([program, "replay"], input=asked, capture_output=True, text=True, check=True)
    replies = [json.loads(line) for line in ran.stdout.splitlines()]
    assert [reply for reply in replies if "refused" in reply] == []
    return {month: {code: figures for code, *figures, _ in csv.reader(io.StringIO(reply["table"]))}
            for month, reply in zip(months, replies[-len(months) :])}  # fmt: skip


def test_all_figures_are_those_of_the_program(computed: dict[str, Table], published: dict[str, Table]) -> None:
    assert list(computed) == list(published)
    for month, table in published.items():
        assert list(computed[month]) == list(table)
        for code, figures in table.items():
            # (a value of the spreadsheet is a binary fraction: it has the figure's digits, up to the last of its own)
            read = [text and round(Decimal(text), 9).normalize() for text in computed[month][code]]
            assert read == [text and Decimal(text).normalize() for text in figures], (month, code)


@pytest.mark.parametrize(
    ("month", "code", "at", "value"),
    [
        # 2,200,000 + round(3,000,000 * 760/750) + 5,400,000 over 10,000,000
        ("2026-02", "01.1.1.1-01", 2, "106.4"),
        # the replacement of 400 counts as 3,040,000, one of 410 as 410 * 3,040,000/400
        ("2026-03", "01.1.1.1-01", 2, "106.4"),
        ("2026-04", "01.1.1.1-01", 2, "107.16"),
        # no price of flour: carried as in January, (84 + 120) / 200
        ("2026-02", "01.1.1.2-01", 2, "102"),
        # (600,000 * 106.4 + 400,000 * 102) / 1,000,000
        ("2026-02", "00", 2, "104.64"),
        # 550,000 * 112.68 / 108.04 and 450,000 * 107.8492 / 104
        ("2027-01", "01.1.1.1-01", 0, "573621"),
        ("2027-01", "01.1.1.2-01", 0, "466655"),
    ],
)
def test_some_figures_by_hand(computed: dict[str, Table], month: str, code: str, at: int, value: str) -> None:
    assert round(Decimal(computed[month][code][at]), 9) == Decimal(value)


def test_what_is_computed_stands_as_a_formula(tmp_path: Path) -> None:
    """No value is stored of it, so what a spreadsheet shows is its own sum."""
    import openpyxl

    subprocess.run([MAKE, tmp_path / "worked.xlsx"], stdout=subprocess.DEVNULL, check=True)
    book = openpyxl.load_workbook(tmp_path / "worked.xlsx")
    assert book.sheetnames == ["Prices", "Aggregates", "Table"]
    for name, most in (("Aggregates", 0), ("Table", 2 * 14)):
        cells = [cell.value for row in book[name].iter_rows(min_row=2, min_col=4) for cell in row]
        # (the weights of both plans are given, month by month)
        assert len([value for value in cells if value is not None and not str(value).startswith("=")]) == most

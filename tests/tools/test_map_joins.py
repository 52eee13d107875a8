"""`cpi-tools take-in --map`: rows that are joined to those of another table, and prices of another quantity than the item's
unit. What can't be joined or measured is a problem at its cell."""

from __future__ import annotations

from collections.abc import Sequence
from pathlib import Path

import pytest

from cpi_tools.office.program import Cpi
from cpi_tools.office.stored import stored_office
from .forms_of_offices import MEASURED, office, text
from .habits import Quotes
from .ran import Ran, rows_of, run
from .spreadsheets import replayed

PRICES = [
    ["visit", "kind", "product", "price"],
    ["a1", "m", "RICE", "2.00"],
    ["a1", "m", "FLOUR", "0.80"],
    ["a2", "m", "RICE", "2.10"],
    ["a2", "m", "FLOUR", "stock"],
]
"""Prices of two visits to the outlet 10, whose months and outlets other files have."""

VISITS = [["id", "sort", "date", "shop"], ["a1", "m", "2025-12", "10"], ["a2", "m", "2026-01", "10"]]

JOINED = """
minor = 100
[prices]
files = "products.csv"
[prices.columns]
item = "product"
value = "price"
[prices.join]
files = "visits*.csv"
[prices.join.columns]
month = "date"
outlet = "shop"
[prices.join.on]
visit = "id"
kind = "sort"
"""

QUOTES: Quotes = {
    (202512, 7, 1): ("price", 200),
    (202512, 7, 2): ("price", 80),
    (202601, 7, 1): ("price", 210),
    (202601, 7, 2): ("stock", 0),
}

Rows = Sequence[Sequence[str]]


def folder_of(tmp_path: Path, files: dict[str, Rows], words: str) -> Path:
    """The office with some files and a map, up to January."""
    folder = office(tmp_path / "office")
    for name in ("releases", "handovers"):
        (folder / f"{name}.csv").unlink()
    for name, rows in files.items():
        text(f"{name}.csv", rows)(folder)
    (folder / "map.toml").write_text(words, encoding="utf-8")
    return folder


def written(cpi: Cpi, tmp_path: Path, folder: Path) -> Quotes:
    """What the office has once its records are replayed."""
    ran = run(cpi, "take-in", folder, "--map", folder / "map.toml", "--write", tmp_path / "records")
    assert ran.status == 0, ran.err
    with stored_office(replayed(cpi, tmp_path / "records", tmp_path / "office.db")) as stored:
        return {
            (month, *slot): (quote.mark, quote.value)
            for month in stored.months_of_quotes()
            for slot, quote in stored.quotes(month).items()
        }


def refused(cpi: Cpi, folder: Path) -> tuple[Ran, list[tuple[str, int, str, str]]]:
    """A check, and its problems: file, row, column and reason."""
    ran = run(cpi, "take-in", folder, "--map", folder / "map.toml", "--check")
    rows = rows_of(folder / "check" / "problems.csv") if (folder / "check").exists() else []
    return ran, [
        (row["file"], int(row["row"]), row["column"], row["because"]) for row in rows if row["kind"] == "problem"
    ]


# ---- joins


def test_a_row_has_the_columns_of_the_row_that_it_is_joined_to(cpi: Cpi, tmp_path: Path) -> None:
    folder = folder_of(tmp_path, {"products": PRICES, "visits": VISITS}, JOINED)
    assert written(cpi, tmp_path, folder) == QUOTES


def test_joined_rows_may_be_in_several_files_and_others_may_have_no_price(cpi: Cpi, tmp_path: Path) -> None:
    others = [VISITS[0], *VISITS[2:], ["a3", "m", "2026-02", "10"]]
    folder = folder_of(tmp_path, {"products": PRICES, "visits-1": VISITS[:2], "visits-2": others}, JOINED)
    assert written(cpi, tmp_path, folder) == QUOTES


def test_the_name_of_a_joined_file_has_a_column(cpi: Cpi, tmp_path: Path) -> None:
    months = {"visits-2025-12": [["id", "sort", "shop"], ["a1", "m", "10"]],
              "visits-2026-01": [["id", "sort", "shop"], ["a2", "m", "10"]]}  # fmt: skip
    words = JOINED.replace("visits*.csv", "visits-{year}-{month}.csv").replace('month = "date"\n', "")
    assert written(cpi, tmp_path, folder_of(tmp_path, {"products": PRICES, **months}, words)) == QUOTES


BAD_JOINS: list[tuple[str, dict[str, Rows], tuple[str, int, str, str]]] = [
    (
        "no row",
        {"products": [*PRICES, ["a9", "m", "RICE", "2.00"]], "visits": VISITS},
        ("products.csv", 6, "visit", 'no row of visits.csv contains "a9 m"'),
    ),
    (
        "one of two columns differs",
        {"products": [*PRICES, ["a1", "x", "RICE", "2.00"]], "visits": VISITS},
        ("products.csv", 6, "visit", 'no row of visits.csv contains "a1 x"'),
    ),
    (
        "two rows",
        {"products": PRICES, "visits": [*VISITS, ["a1", "m", "2026-02", "11"]]},
        ("visits.csv", 4, "id", 'row 2 also contains "a1 m"'),
    ),
    (
        "a column of the join is missing",
        {"products": PRICES, "visits": [["id", "date", "shop"], ["a1", "2025-12", "10"]]},
        ("visits.csv", 1, "sort", 'the map names the column sort, but row 1 has only "id", "date", "shop"'),
    ),
    (
        "a column of the prices is missing",
        {"products": [row[:1] + row[2:] for row in PRICES], "visits": VISITS},
        ("products.csv", 1, "kind", 'the map names the column kind, but row 1 has only "visit", "product", "price"'),
    ),
    (
        "a month of the joined table is none",
        {"products": PRICES, "visits": [VISITS[0], ["a1", "m", "soon", "10"], VISITS[2]]},
        ("products.csv", 2, "date (visits.csv)", '"soon" isn\'t a month'),
    ),
]


@pytest.mark.parametrize(("files", "problem"), [join[1:] for join in BAD_JOINS], ids=[join[0] for join in BAD_JOINS])
def test_a_join_that_finds_not_one_row_is_a_problem_at_the_cell(
    cpi: Cpi, tmp_path: Path, files: dict[str, Rows], problem: tuple[str, int, str, str]
) -> None:
    ran, problems = refused(cpi, folder_of(tmp_path, files, JOINED))
    assert ran.status == 1 and problem in problems, problems


def test_a_joined_table_without_a_file_is_refused(cpi: Cpi, tmp_path: Path) -> None:
    ran, _ = refused(cpi, folder_of(tmp_path, {"products": PRICES}, JOINED))
    assert ran.status == 1 and "[prices.join] names no file: wanted one named like visits*.csv" in ran.err


# ---- quantities

HEAD = ["month", "outlet", "item", "price", "quantity", "uom"]

ONLY_MEASURED = f"""
minor = 100
{MEASURED}"""


def observed(row: Sequence[str], *others: Sequence[str]) -> dict[str, Rows]:
    """A file of a price of December, of the item RICE of 1 kg, and of others."""
    return {"observed": [HEAD, ["2025-12", "10", "RICE", *row], *others]}


FLOUR = ["2025-12", "10", "FLOUR", "0.80", "1", "kg"]
"""A price of the right form."""


@pytest.mark.parametrize(
    ("price", "quantity", "unit", "minor"),
    [
        # (a kilogram is 1,000 g: 1.00 for 500 g are 2.00, 0.30 for 0.15 kg are 2.00, and 5.00 for 2.5 kg too)
        ("1.00", "500", "g", 200),
        ("0.30", "0.15", "kg", 200),
        ("5.00", "2.5", "KG", 200),
        ("3.00", "1,500", "g", 200),
        ("0.01", "1", "g", 1000),
    ],
)
def test_a_price_becomes_one_of_the_unit_of_its_item(
    cpi: Cpi, tmp_path: Path, price: str, quantity: str, unit: str, minor: int
) -> None:
    # (a mark of thousands is an apostrophe or a blank where the decimal sign is a point)
    rows = observed([price, quantity.replace(",", "'"), unit])
    assert written(cpi, tmp_path, folder_of(tmp_path, rows, ONLY_MEASURED)) == {(202512, 7, 1): ("price", minor)}


def test_a_quantity_has_the_decimal_sign_of_the_map(cpi: Cpi, tmp_path: Path) -> None:
    folder = folder_of(tmp_path, observed(["0,30", "0,15", "kg"]), 'decimal = ","' + ONLY_MEASURED)
    assert written(cpi, tmp_path, folder) == {(202512, 7, 1): ("price", 200)}


def test_without_a_column_of_units_a_map_has_one(cpi: Cpi, tmp_path: Path) -> None:
    words = ONLY_MEASURED.replace('unit = "uom"\n', "").replace('g = "1"\n', "")
    folder = folder_of(tmp_path, {"observed": [it[:5] for it in observed(["1.00", "0.5", ""])["observed"]]}, words)
    assert written(cpi, tmp_path, folder) == {(202512, 7, 1): ("price", 200)}


BAD_QUANTITIES: list[tuple[tuple[str, str, str], tuple[str, str]]] = [
    (("1.00", "500", "oz"), ("uom", 'the map has no unit "oz"')),
    (("1.00", "500", ""), ("uom", 'the map has no unit ""')),
    (("1.00", "0", "g"), ("quantity", '"0" isn\'t a quantity above 0')),
    (("1.00", "-5", "g"), ("quantity", '"-5" isn\'t a quantity above 0')),
    (("1.00", "half", "g"), ("quantity", '"half" isn\'t a quantity above 0')),
    (("1.00", "", "g"), ("quantity", '"" isn\'t a quantity above 0')),
    # (a kilogram for 1.00 of 300 g is 3.3333..)
    (("1.00", "300", "g"), ("price", "1.00 * 10/3 isn't a whole number of minor units (--minor)")),
]


@pytest.mark.parametrize(("row", "problem"), BAD_QUANTITIES, ids=[says for _, (_, says) in BAD_QUANTITIES])
def test_a_quantity_that_cant_be_read_is_a_problem_at_its_cell(
    cpi: Cpi, tmp_path: Path, row: tuple[str, str, str], problem: tuple[str, str]
) -> None:
    ran, problems = refused(cpi, folder_of(tmp_path, observed(row, FLOUR), ONLY_MEASURED))
    assert ran.status == 1
    assert [(problem[0], problem[1], problem[2]) for problem in problems] == [("observed.csv", 2, problem[0])]
    assert problem[1] in problems[0][3]


def test_a_unit_of_an_item_that_the_map_hasnt_is_a_problem(cpi: Cpi, tmp_path: Path) -> None:
    folder = folder_of(tmp_path, observed(["1.00", "500", "g"], FLOUR), ONLY_MEASURED)
    items = folder / "items.csv"
    items.write_text(items.read_text().replace("RICE,Rice,1 kg", "RICE,Rice,a bag"))
    ran, problems = refused(cpi, folder)
    says = 'the item RICE has the unit "a bag", but it should be a number with a unit that the map contains'
    assert ran.status == 1 and problems == [("observed.csv", 2, "quantity", says)]


def test_a_rounded_price_of_a_quantity_is_the_nearest(cpi: Cpi, tmp_path: Path) -> None:
    folder = folder_of(tmp_path, observed(["1.00", "300", "g"]), 'round = "nearest"' + ONLY_MEASURED)
    assert written(cpi, tmp_path, folder) == {(202512, 7, 1): ("price", 333)}

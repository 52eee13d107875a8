"""`cpi-tools take-in`: spreadsheets become an office, and each cell that the program refuses is told."""

from __future__ import annotations

import hashlib
import os
import re
from pathlib import Path
from typing import Optional

import openpyxl
import pytest

from cpi_tools.sheets.cells import Origin
from cpi_tools.sheets.row_refusals import WANTED
from cpi_tools.sheets.judge import Judge
from cpi_tools.sheets.known_rows import NOTHING
from cpi_tools.sheets.office_files import OfficeFiles, Options
from cpi_tools.sheets.record_rows import SHEETS, Bundle, Sent, make_bundles
from cpi_tools.office.program import Cpi, record
from cpi_tools.sheets.sheet_files import Source
from cpi_tools.office.stored import stored_office
from cpi_tools.sheets.take_in import part_bundles
from .ran import Ran, rows_of, run
from .spreadsheets import KEY_7, KEY_8, Change, Sheets, add, drop, put, replayed, sheets, tables, without, written

Cell = tuple[str, int, str, str]
"""File, row, column and number of a problem."""

MOST_TITLE = 400
AGGREGATES = "01.1.1.1-01", "01.1.1.2-01"


def together(*changes: Change) -> Change:
    """Several changes."""

    def change(of: Sheets) -> None:
        for each in changes:
            each(of)

    return change


def of_next_year(of: Sheets) -> None:
    """Only the year after has a plan."""
    for name in ("classification", "places", "plans"):
        for row in of[name][1:]:
            row[0] = "2027"


PAST_THE_GREATEST = together(
    put("prices", 3, "value", "1"),
    put("prices", 6, "value", "100000000"),
    put("prices", 6, "confirm", "confirm"),
)
"""A hundred million for one is an index of ten thousand million points."""

FAULTS: list[tuple[Change, Cell]] = [
    (put("items", 2, "item", "rice!"), ("items.csv", 2, "item", "10")),
    (put("items", 2, "text", ""), ("items.csv", 2, "text", "10")),
    (put("items", 2, "text", "x" * (MOST_TITLE + 1)), ("items.csv", 2, "text", "10")),
    (put("items", 2, "unit", "1\nkg"), ("items.csv", 2, "unit", "10")),
    (put("items", 2, "low", "0"), ("items.csv", 2, "low", "10")),
    (put("items", 2, "low", "0500"), ("items.csv", 2, "low", "10")),
    (put("items", 3, "high", "20000"), ("items.csv", 3, "high", "10")),
    (add("items", "RICE", "Rice, long", "1 kg", "500", "2000"), ("items.csv", 4, "item", "40")),
    (put("outlets", 2, "outlet", "0"), ("outlets.csv", 2, "outlet", "10")),
    (add("outlets", "10", "Other shop"), ("outlets.csv", 4, "outlet", "40")),
    (put("collectors", 2, "key", "secret"), ("collectors.csv", 2, "key", "10")),
    (put("collectors", 2, "collector", "10000"), ("collectors.csv", 2, "collector", "10")),
    (add("collectors", "7", "6" * 32), ("collectors.csv", 4, "key", "40")),
    (add("collectors", "9", KEY_8), ("collectors.csv", 4, "key", "40")),
    (put("series", 2, "slot", "401"), ("series.csv", 2, "slot", "10")),
    (put("series", 2, "first", "2025-13"), ("series.csv", 2, "first", "10")),
    (put("series", 2, "last", "2025-11"), ("series.csv", 2, "last", "10")),
    (put("series", 3, "slot", "1"), ("series.csv", 3, "slot", "40")),
    (put("series", 2, "item", "TEA"), ("series.csv", 2, "item", "41")),
    (put("series", 2, "outlet", "12"), ("series.csv", 2, "outlet", "42")),
    (put("series", 2, "collector", "6"), ("series.csv", 2, "collector", "43")),
    (put("classification", 3, "year", "1999"), ("classification.csv", 3, "year", "10")),
    (put("classification", 3, "code", "15"), ("classification.csv", 3, "code", "10")),
    (put("classification", 3, "title", ""), ("classification.csv", 3, "title", "10")),
    (put("classification", 7, "weight", "2000000"), ("classification.csv", 7, "weight", "10")),
    (add("classification", "2026", "01", "Food", ""), ("classification.csv", 10, "code", "44 fault 1")),
    (add("classification", "2026", "01.1.1.2-01", "Flour", "1"), ("classification.csv", 10, "code", "44 fault 1")),
    (put("classification", 8, "weight", "1"), ("classification.csv", 8, "code", "44 fault 2")),
    (put("places", 3, "code", "01.1.1.2"), ("places.csv", 3, "code", "44 fault 2")),
    (put("classification", 7, "weight", "0"), ("classification.csv", 7, "weight", "44 fault 3")),
    (put("classification", 7, "weight", "599999"), ("classification.csv", 9, "weight", "44 fault 4")),
    (drop("classification", 4), ("classification.csv", 6, "code", "44 fault 5")),
    (put("places", 3, "item", "TEA"), ("places.csv", 3, "item", "44 fault 6")),
    (put("places", 3, "item", "RICE"), ("places.csv", 3, "item", "44 fault 7")),
    (put("places", 3, "code", "01.1.1.3-01"), ("places.csv", 3, "code", "44 fault 8")),
    (put("plans", 2, "reference", "2026-01"), ("plans.csv", 2, "reference", "44 fault 10")),
    (add("plans", "2026", "2025-06"), ("releases.csv", 3, "month", "49 fault 5")),
    (put("plans", 2, "reference", "June"), ("plans.csv", 2, "reference", "10")),
    (put("calendar", 4, "closes", "2000"), ("calendar.csv", 4, "closes", "10")),
    (put("calendar", 4, "publishes", "3999"), ("calendar.csv", 4, "publishes", "10")),
    (put("calendar", 4, "opens", "soon"), ("calendar.csv", 4, "opens", "10")),
    (put("calendar", 4, "opens", "2026-02-30T06:00"), ("calendar.csv", 4, "opens", "10")),
    (put("handovers", 2, "slot", "3"), ("handovers.csv", 2, "slot", "20")),
    (put("handovers", 2, "to_slot", "1"), ("handovers.csv", 2, "to_slot", "40")),
    (put("handovers", 2, "to", "6"), ("handovers.csv", 2, "to", "43")),
    (put("handovers", 2, "month", "2025-12"), ("handovers.csv", 2, "month", "22")),
    (put("prices", 5, "collector", "6"), ("prices.csv", 5, "collector", "11")),
    (put("prices", 5, "slot", "9"), ("prices.csv", 5, "slot", "20")),
    (put("prices", 5, "month", "2026-05"), ("prices.csv", 5, "month", "21")),
    (add("prices", "2026-02", "8", "1", "price", "250", ""), ("prices.csv", 10, "month", "22")),
    (put("prices", 2, "mark", "comparable"), ("prices.csv", 2, "mark", "25")),
    (put("prices", 5, "value", "2100"), ("prices.csv", 5, "value", "26")),
    (put("prices", 5, "value", "0"), ("prices.csv", 5, "value", "10")),
    (put("prices", 5, "value", "210.5"), ("prices.csv", 5, "value", "10")),
    (put("prices", 5, "value", "210,5"), ("prices.csv", 5, "value", "10")),
    (put("prices", 5, "value", "dear"), ("prices.csv", 5, "value", "10")),
    (put("prices", 5, "mark", "sale"), ("prices.csv", 5, "mark", "10")),
    (put("prices", 5, "confirm", "yes"), ("prices.csv", 5, "confirm", "10")),
    (put("prices", 8, "value", "snow"), ("prices.csv", 8, "value", "10")),
    (put("releases", 3, "frozen_at", "1999"), ("releases.csv", 3, "frozen_at", "47")),
    (put("releases", 3, "frozen_at", "late"), ("releases.csv", 3, "frozen_at", "10")),
    (put("releases", 3, "carry", "01.1.1.9-01"), ("releases.csv", 3, "carry", "44 fault 8")),
    (put("releases", 4, "carry", ""), ("releases.csv", 4, "month", "49 fault 2")),
    (put("releases", 4, "carry", "01.1.1.1-01 01.1"), ("releases.csv", 4, "carry", "10")),
    (put("releases", 3, "month", "2026-03"), ("releases.csv", 3, "month", "46")),
    (drop("releases", 2), ("releases.csv", 2, "month", "46")),
    (of_next_year, ("releases.csv", 3, "month", "48")),
    (PAST_THE_GREATEST, ("releases.csv", 3, "month", "49 fault 3")),
    (add("releases", "2026-02", "2", "2000", "4000", "5000", "4000", ""), ("releases.csv", 5, "month", "50")),
    (drop("places", 3), ("releases.csv", 3, "month", "49 fault 1")),
    (without("calendar"), ("calendar.csv", 0, "", "")),
    (put("items", 1, "unit", "measure"), ("items.csv", 1, "unit", "")),
    (put("prices", 1, "value", "price"), ("prices.csv", 1, "value", "")),
    (add("outlets", "12", "Shop", "at the corner"), ("outlets.csv", 4, "", "")),
]


def problems(folder: Path) -> list[Cell]:
    """The cells that the last check told."""
    told = told_of(folder, "problem")
    assert all(it["because"] and it["do"] for it in told)
    return [(it["file"], int(it["row"]), it["column"], it["number"]) for it in told]


def told_of(folder: Path, kind: str) -> list[dict[str, str]]:
    """What the last check told: each `problem`, or each `warning`."""
    return [row for row in rows_of(folder / "check" / "problems.csv") if row["kind"] == kind]


def because(folder: Path) -> dict[tuple[str, str, str], str]:
    """Why, by the file, the row and the column."""
    return {(it["file"], it["row"], it["column"]): it["because"] for it in told_of(folder, "problem")}


def names(fault: tuple[Change, Cell]) -> str:
    return "-".join(map(str, fault[1])).replace(".csv", "").replace(" ", "")


@pytest.mark.parametrize(("change", "wanted"), FAULTS, ids=map(names, FAULTS))
def test_a_planted_fault_is_told_by_its_cell(cpi: Cpi, tmp_path: Path, change: Change, wanted: Cell) -> None:
    of = sheets()
    change(of)
    folder = written(tmp_path / "office", of)
    ran = run(cpi, "take-in", folder, "--check")
    assert (ran.status, ran.out) == (1, "")
    assert wanted in problems(folder)
    assert ran.err.endswith(f": {folder / 'check' / 'problems.csv'}\n")


def test_a_fault_without_consequences_is_told_alone(cpi: Cpi, tmp_path: Path) -> None:
    """No cell beside those that are wrong is told; and all rows of one kind are."""
    of = sheets()
    del of["releases"]
    for change in (
        put("prices", 5, "value", "0"),
        put("prices", 6, "value", "x"),
        put("items", 1, "unit", "Unit"),
        add("collectors", "7", "6" * 32),
        add("outlets", "0", "x"),
        add("outlets", "12", "x\x01"),
    ):
        change(of)
    folder = written(tmp_path / "office", of)
    assert run(cpi, "take-in", folder, "--check").status == 1
    assert problems(folder) == [
        ("outlets.csv", 4, "outlet", "10"),
        ("outlets.csv", 5, "name", "10"),
        ("collectors.csv", 4, "key", "40"),
        ("prices.csv", 5, "value", "10"),
        ("prices.csv", 6, "value", "10"),
    ]


@pytest.mark.parametrize(
    ("changes", "wanted"),
    [
        ([put("places", 3, "item", "TEA")], ("places.csv", 3, "item", "44 fault 6")),
        (
            [put("plans", 2, "reference", "2025-12"), add("plans", "2026", "2025-12")],
            ("plans.csv", 3, "reference", "44 fault 10"),
        ),
        ([put("places", 3, "code", "01.1.1.2")], ("places.csv", 3, "code", "44 fault 2")),
        ([put("prices", 5, "mark", "sale"), put("prices", 5, "value", "x")], ("prices.csv", 5, "mark", "10")),
    ],
)
def test_of_rows_of_a_kind_the_faulty_alone(cpi: Cpi, tmp_path: Path, changes: list[Change], wanted: Cell) -> None:
    of = sheets()
    del of["releases"]
    for change in changes:
        change(of)
    folder = written(tmp_path / "office", of)
    assert run(cpi, "take-in", folder, "--check").status == 1
    assert problems(folder) == [wanted]


def test_words_of_a_problem(cpi: Cpi, tmp_path: Path) -> None:
    of = sheets()
    for change in (
        put("prices", 5, "value", "2100"),
        put("prices", 6, "value", "84.5"),
        put("classification", 7, "weight", "599999"),
        add("outlets", "0", "x"),
    ):
        change(of)
    folder = written(tmp_path / "office", of)
    assert run(cpi, "take-in", folder, "--check").status == 1
    told = because(folder)
    assert told["prices.csv", "5", "value"].endswith(": 2100 after 200, outside the range from 100 to 400")
    assert told["prices.csv", "6", "value"] == "84.5 isn't a whole number of minor units (--minor)"
    wanted = "the plan of 2026: the weights don't add up to 1,000,000, but to 999,999"
    assert told["classification.csv", "9", "weight"] == wanted
    assert told["outlets.csv", "4", "outlet"] == 'the column outlet contains "0"'
    assert "releases.csv" in {file for file, _, _ in told}


@pytest.mark.parametrize(
    ("change", "words", "because"),
    [
        (
            put("classification", 7, "weight", "60,0"),
            ["--weights", "percent"],
            '"60,0" isn\'t a number with the decimal',
        ),
        (put("classification", 7, "weight", "60.5"), [], "60.5 isn't a whole number of parts per million (--weights)"),
        (put("classification", 7, "weight", "-5"), [], 'the column weight contains "-5"'),
        (put("classification", 7, "weight", "-5"), ["--weights", "money"], 'the column weight contains "-5"'),
        (put("classification", 7, "weight", "60%"), [], '"60%" is a percentage'),
        (put("classification", 5, "code", "2001-01"), [], "the cell contains the date 2001-01: a spreadsheet turns"),
        (put("places", 2, "code", "2002-02-07"), [], "the cell contains the date 2002-02-07: a spreadsheet turns"),
        (
            put("plans", 2, "reference", "1/2/25"),
            [],
            '"1/2/25" may be a day or several months: it contains no year with',
        ),
        (put("plans", 2, "reference", "02.01.2025"), [], '"02.01.2025" may be 2025-01 or 2025-02'),
        (put("classification", 4, "title", ""), [], "the cell in the column title is empty"),
    ],
)
def test_words_of_a_cell_of_a_plan_that_can_not_be_read(
    cpi: Cpi, tmp_path: Path, change: Change, words: list[str], because: str
) -> None:
    of = sheets()
    del of["releases"]
    change(of)
    folder = written(tmp_path / "office", of)
    assert run(cpi, "take-in", folder, "--check", *words).status == 1
    (told,) = told_of(folder, "problem")
    assert told["because"].startswith(f"the plan of 2026: {because}")
    assert told["do"].startswith("write ") and told["do"].endswith(" (docs/decide/MIGRATING-AN-OFFICE.md)")


QUOTE = dict(zip(sheets()["prices"][0], sheets()["prices"][4]))
"""A row of prices that is right: slot 7/1 in 2026-01."""


@pytest.mark.parametrize(
    ("column", "text", "because", "do"),
    [
        ("collector", "6", "collector 6 isn't known", "add it to the sheet collectors"),
        ("slot", "9", "no series has slot 7/9", "check the sheet series"),
        ("month", "2026-05", "2026-05 has no window", "add the month to the sheet calendar"),
        ("month", "2026-13", '"2026-13" isn\'t a month', "write a month like 2026-01"),
        (
            "month",
            "1/2/26",
            '"1/2/26" may be a day or several months: it contains no year with four digits',
            "write a month",
        ),
        ("value", "0", '"0" isn\'t a price', "write a price from 1 to 100,000,000 minor units (--minor), as "),
        ("value", "", "the cell is empty", "write a price from 1 to 100,000,000 minor units"),
        (
            "value",
            "n/a",
            '"n/a" isn\'t a number with the decimal sign "."',
            "write a price from 1 to 100,000,000 minor ",
        ),
        ("mark", "sale", 'the column mark contains "sale"', "write price, comparable, other or missing"),
        ("mark", "missing", '"210" isn\'t a reason', "write stock, closed, gone or refused"),
        ("confirm", "yes", 'the column confirm contains "yes"', "write confirm, or leave the cell empty"),
    ],
)
def test_words_of_a_price_are_the_desks(
    cpi: Cpi, tmp_path: Path, column: str, text: str, because: str, do: str
) -> None:
    """They say what was read and what is wanted, and nothing is "yours"."""
    of = sheets()
    del of["releases"]
    put("prices", 5, column, text)(of)
    folder = written(tmp_path / "office", of)
    assert run(cpi, "take-in", folder, "--check").status == 1
    (told,) = [it for it in told_of(folder, "problem") if it["row"] == "5"]
    assert (told["file"], told["because"]) == ("prices.csv", because)
    assert told["do"].startswith(do)
    assert "your" not in told["because"] + told["do"] and "work list" not in told["do"]


LIMITS = {
    ("item", "item"): (2, "item", ["A", "A" * 12], ["", "A" * 13, "a"]),
    ("item", "low"): (2, "low", ["1", "1000"], ["0", "1001"]),
    ("item", "high"): (2, "high", ["1000", "10000"], ["999", "10001"]),
    ("item", "text"): (2, "text", ["x", "x" * 400], ["", "x" * 401, "a\tb"]),
    ("outlet", "outlet"): (2, "outlet", ["1", "999999"], ["0", "1000000", "01"]),
    ("collector", "collector"): (2, "collector", ["1", "9999"], ["0", "10000"]),
    ("collector", "key"): (2, "key", ["0" * 32], ["0" * 31, "G" * 32]),
    ("assign", "slot"): (2, "slot", ["1", "400"], ["0", "401"]),
    ("assign", "first"): (2, "first", ["2000-01", "2026-12"], ["1999-12", "2200-01"]),
    ("R", "reference"): (2, "reference", ["2000-01"], ["1999-12"]),
    ("W", "weight"): (7, "weight", ["1000000"], ["1000001"]),
}
"""Texts that a field takes, and texts that it doesn't; they are the limits that the words of the desk name."""

SHEET_OF = {"item": "items", "outlet": "outlets", "collector": "collectors", "assign": "series", "R": "plans",
            "W": "classification"}  # fmt: skip


@pytest.mark.parametrize("field", LIMITS, ids="-".join)
def test_what_is_wanted_is_what_the_program_takes(cpi: Cpi, tmp_path: Path, field: tuple[str, str]) -> None:
    row, column, taken, refused = LIMITS[field]
    for number, text in enumerate((*taken, *refused)):
        of = sheets()
        del of["releases"], of["prices"], of["handovers"]
        put(SHEET_OF[field[0]], row, column, text)(of)
        folder = written(tmp_path / str(number), of)
        run(cpi, "take-in", folder, "--check")
        told = [it for it in told_of(folder, "problem") if (it["row"], it["column"]) == (str(row), column)]
        is_read = not [it for it in told if it["number"] == "10"]
        drawn = field == ("collector", "key") and not text
        assert is_read == (text in taken or drawn), text
        assert is_read or WANTED[field].partition(":")[0].partition(";")[0] in told[0]["do"]


# ---- an office that is right


def test_an_office_is_checked_and_its_records_are_written(cpi: Cpi, tmp_path: Path) -> None:
    folder = written(tmp_path / "office", sheets())
    summary = "2 items, 2 outlets, 2 collectors, 3 series, 1 plan, 3 windows, 1 hand-over, 8 quotes, 3 freezes\n"
    assert run(cpi, "take-in", folder, "--check") == Ran(0, summary, "")
    assert problems(folder) == []
    assert sorted(os.listdir(tmp_path)) == ["office"]
    ran = run(cpi, "take-in", folder, "--write", tmp_path / "records")
    command = f"cpi replay --db office.db < {tmp_path / 'records' / 'records-01.csv'}\n"
    assert ran == Ran(0, summary + command, "")
    assert os.listdir(tmp_path / "records") == ["records-01.csv"]
    assert (tmp_path / "records" / "records-01.csv").stat().st_mode & 0o777 == 0o600
    office = replayed(cpi, tmp_path / "records", tmp_path / "office.db")
    # by hand: rice (210 + 246) / (200 + 240) = 103.636364, flour 84 / 80 = 105; all items 103.636364 * 0.6 + 105 * 0.4
    assert tables(cpi, office)["2026-01", 1].splitlines()[0] == "00,1000000,104.181818,104.181818,4.2,,0,All items"
    again = run(cpi, "take-in", folder, "--write", tmp_path / "records")
    assert again == Ran(
        1, "", f"cpi-tools take-in: {tmp_path / 'records'} is there already: name a folder that isn't\n"
    )


def test_nothing_is_written_where_a_row_is_refused(cpi: Cpi, tmp_path: Path) -> None:
    of = sheets()
    put("prices", 5, "value", "2100")(of)
    folder = written(tmp_path / "office", of)
    assert run(cpi, "take-in", folder, "--write", tmp_path / "records").status == 1
    assert sorted(os.listdir(tmp_path)) == ["office"]
    assert problems(folder) == [("prices.csv", 5, "value", "26")]


def test_history_outside_the_tolerance_is_confirmed_and_listed(cpi: Cpi, tmp_path: Path) -> None:
    of = sheets()
    put("prices", 5, "value", "2100")(of)
    folder = written(tmp_path / "office", of)
    words = ("take-in", folder, "--confirm-history")
    assert run(cpi, *words, "--check").status == 0
    page = (folder / "check" / "report.html").read_text(encoding="utf-8")
    confirmed = page.partition("Confirmed prices outside the tolerance")[2]
    where = "<bdi>prices.csv</bdi>, row 5, <bdi>value</bdi>"
    assert f"<td>{where}</td><td class=number>2100</td><td class=number>200</td>" in confirmed
    assert run(cpi, *words, "--write", tmp_path / "records").status == 0
    lines = (tmp_path / "records" / "records-01.csv").read_text(encoding="utf-8").splitlines()
    assert [line for line in lines if "confirm" in line] == [f'1000,{KEY_7},import,"quote,1,2026-01,price,2100,confirm']
    replayed(cpi, tmp_path / "records", tmp_path / "office.db")


def test_two_prices_of_a_slot_that_differ_are_refused(cpi: Cpi, tmp_path: Path) -> None:
    of = sheets()
    add("prices", "2026-01", "7", "1", "price", "211", "")(of)
    folder = written(tmp_path / "office", of)
    assert run(cpi, "take-in", folder, "--check").status == 1
    assert because(folder) == {
        ("prices.csv", "10", "value"): 'the price of slot 7/1 in 2026-01 is "211" here, but "210" in row 5'
    }


def test_two_prices_of_a_slot_that_are_alike_are_one_and_counted(cpi: Cpi, tmp_path: Path) -> None:
    of = sheets()
    for _ in range(2):
        add("prices", "2026-01", "7", "1", "price", "210", "")(of)
    add("prices", "Jan-26", "7", "2", "price", "84", "")(of)
    folder = written(tmp_path / "office", of)
    ran = run(cpi, "take-in", folder, "--write", tmp_path / "records")
    told = "the price of slot 7/1 in 2026-01 is also in row 5; number of repeated prices: 3"
    lines = [
        f"cpi-tools take-in: warning: prices.csv, row 10, value: {told}",
        'cpi-tools take-in: prices.csv, month: "Jan-26" is read as 2026-01',
    ]
    assert (ran.status, ran.err.splitlines()) == (0, lines)
    office = replayed(cpi, tmp_path / "records", tmp_path / "office.db")
    assert tables(cpi, office)["2026-01", 1].startswith("00,1000000,104.181818,")
    records = (tmp_path / "records" / "records-01.csv").read_text(encoding="utf-8")
    assert records.count("quote,1,2026-01,price,210") == 1


def test_a_correction_has_its_revision(cpi: Cpi, tmp_path: Path) -> None:
    """Two prices of a slot and a month, each frozen by its own revision, are both taken."""
    of = sheets()
    of["prices"] = [[*row, ""] for row in of["prices"]]
    of["prices"][0][6] = "revision"
    of["prices"].append(["2026-02", "8", "2", "price", "88", "", "2"])
    of["releases"].append(["2026-02", "2", "2000", "4500", "6000", "4500", "01.1.1.1-01"])
    of["calendar"][3] = ["2026-02", "2000", "4500", "6000"]
    folder = written(tmp_path / "office", of)
    assert run(cpi, "take-in", folder, "--write", tmp_path / "records").status == 0
    office = replayed(cpi, tmp_path / "records", tmp_path / "office.db")
    # flour 90 / 80 and 88 / 80, rice carried: 103.636364 * 0.6 + 112.5 * 0.4, and 110 * 0.4
    assert tables(cpi, office)["2026-02", 1].startswith("00,1000000,107.181818,")
    assert tables(cpi, office)["2026-02", 2].startswith("00,1000000,106.181818,")


def test_prices_by_outlet_and_item_in_a_column_a_month(cpi: Cpi, tmp_path: Path) -> None:
    """Semicolons, decimal commas, weights in money, no slots, no keys, no places but the codes of items."""
    of = sheets()
    del of["places"], of["plans"], of["handovers"]
    of["collectors"] = [["collector"], ["7"], ["8"]]
    of["series"] = [[cell for at, cell in enumerate(row) if at != 1] for row in of["series"]]
    of["items"] = [[*row, code] for row, code in zip(of["items"], ["code", *AGGREGATES])]
    of["prices"] = [
        ["outlet", "item", "2025-12", "2026-01", "2026-02"],
        ["10", "RICE", "2,00", "2,10", "stock"],
        ["10", "FLOUR", "0,80", "0,84", "0,90"],
        ["11", "RICE", "2,40", "comparable 2,46", "."],
    ]
    of["classification"][6][3], of["classification"][8][3] = "1000,5", "2001"
    folder = written(tmp_path / "office", of, ";")
    words = ("take-in", folder, "--minor", 100, "--decimal", ",", "--weights", "money")
    assert run(cpi, *words, "--check").status == 0
    weights = [[*row.values()] for row in rows_of(folder / "check" / "weights.csv")]
    assert weights == [
        ["2026", "01.1.1.1-01", "1000,5", "333333.333", "333333", "-0.333"],
        ["2026", "01.1.1.2-01", "2001", "666666.667", "666667", "0.333"],
    ]
    assert run(cpi, *words, "--write", tmp_path / "records").status == 0
    keys = tmp_path / "records" / "keys.csv"
    assert keys.stat().st_mode & 0o777 == 0o600
    drawn = {row["collector"]: row["key"] for row in rows_of(keys)}
    assert [*drawn] == ["7", "8"] and len({*drawn.values()}) == 2 and all(len(key) == 32 for key in drawn.values())
    office = replayed(cpi, tmp_path / "records", tmp_path / "office.db")
    with stored_office(office) as stored:
        assert stored.keys() == {int(number): key for number, key in drawn.items()}
        assert [assignment[:4] for assignment in stored.assignments()] == [
            (7, 1, 10, "RICE"),
            (7, 2, 10, "FLOUR"),
            (8, 1, 11, "RICE"),
        ]
        assert stored.plans()[0].places == {"FLOUR": "01.1.1.2-01", "RICE": "01.1.1.1-01"}
    # (103.636364 * 333,333 + 105 * 666,667) / 1,000,000
    assert tables(cpi, office)["2026-01", 1].startswith("00,1000000,104.545455,")


def test_two_windows_of_a_month_that_differ_are_refused(cpi: Cpi, tmp_path: Path) -> None:
    of = sheets()
    of["calendar"].insert(2, ["2026-01", "1000", "1500", "3000"])
    folder = written(tmp_path / "office", of)
    assert run(cpi, "take-in", folder, "--check").status == 1
    assert because(folder)["calendar.csv", "4", "month"] == "row 3 also has the month 2026-01, but with another window"
    of["calendar"][2] = of["calendar"][3]
    ran = run(cpi, "take-in", written(tmp_path / "alike", of), "--check")
    told = "calendar.csv, row 4, month: row 3 also has the month 2026-01, with the same window"
    assert (ran.status, ran.err) == (0, f"cpi-tools take-in: warning: {told}\n")


def test_an_item_whose_series_cannot_be_told_apart(cpi: Cpi, tmp_path: Path) -> None:
    of = sheets()
    add("series", "8", "3", "10", "RICE", "2026-01", "2026-12")(of)
    of["prices"] = [["outlet", "item", "2025-12", "2026-01"], ["10", "RICE", "200", "210"], ["12", "RICE", "5", "."]]
    folder = written(tmp_path / "office", of)
    assert run(cpi, "take-in", folder, "--check").status == 1
    told = because(folder)
    wanted = 'more than one slot prices the item "RICE" in the outlet "10" in 2026-01'
    assert told["prices.csv", "2", "item"] == wanted
    assert told["prices.csv", "3", "item"] == 'no series has the item "RICE" in the outlet "12"'


def test_a_price_after_a_hand_over_goes_to_the_new_slot(cpi: Cpi, tmp_path: Path) -> None:
    of = sheets()
    of["prices"] = [
        ["outlet", "item", *(row[0] for row in of["calendar"][1:])],
        ["10", "RICE", "200", "210", "stock"],
        ["10", "FLOUR", "80", "84", "90"],
        ["11", "RICE", "240", "comparable 246", ""],
    ]
    assert run(cpi, "take-in", written(tmp_path / "wide", of), "--write", tmp_path / "records").status == 0
    assert run(cpi, "take-in", written(tmp_path / "long", sheets()), "--write", tmp_path / "others").status == 0
    wide, long = (replayed(cpi, tmp_path / text, tmp_path / f"{text}.db") for text in ("records", "others"))
    assert tables(cpi, wide) == tables(cpi, long)


def test_civil_times_by_the_clock_of_the_program(cpi: Cpi, tmp_path: Path) -> None:
    """Windows of an hour, one of them in the hour that the clock shows twice; freezes at their ends, and one later."""
    of = sheets()
    of["calendar"] = [
        ["month", "opens", "closes", "publishes"],
        ["2025-12", "2025-10-26T02:00", "2025-10-26T03:00", "2025-12-28T09:30"],
        ["2026-01", "2026-01-01T06:00", "2026-01-01T06:01", "2026-01-28T09:30"],
        ["2026-02", "2026-03-29T02:30", "2026-03-29T03:31", "2026-03-29T09:30"],
    ]
    of["releases"] = [
        ["month", "carry", "frozen_at"],
        ["2025-12", "", ""],
        ["2026-01", "", "2026-01-02T00:00"],
        ["2026-02", "01.1.1.1-01", ""],
    ]
    folder = written(tmp_path / "office", of)
    zone = "CET-1CEST,M3.5.0,M10.5.0/3"
    ran = run(cpi, "take-in", folder, "--zone", zone, "--write", tmp_path / "records")
    assert ran.status == 0, (folder / "check" / "problems.csv").read_text()
    assert ran.out.splitlines()[1].startswith(f"cpi replay --zone {zone} --db office.db < ")
    office = replayed(cpi, tmp_path / "records", tmp_path / "office.db", zone)
    with stored_office(office) as stored:
        # 02:00 CEST and 03:00 CET of 2025-10-26; 03:30 and 03:31 CEST of 2026-03-29, since the clock leaves 02:30 out
        assert [it[1:3] for it in stored.calendar()] == [
            (1_761_436_800, 1_761_444_000),
            (1_767_243_600, 1_767_243_660),
            (1_774_747_800, 1_774_747_860),
        ]
        moments = stored.frozen_moments()
        assert (moments[202512, 1][0], moments[202601, 1][0]) == (1_761_444_000, 1_767_308_400)


# ---- what isn't read


def test_what_is_not_read_is_told(cpi: Cpi, tmp_path: Path) -> None:
    """A file is a problem; a column is a warning but in prices."""
    of = sheets()
    of["price"] = of.pop("prices")
    of["items"] = [[*row, "x"] for row in of["items"]]
    of["items"][0][5] = "remark"
    folder = written(tmp_path / "office", of)
    ran = run(cpi, "take-in", folder, "--check")
    assert ran.status == 1 and ran.err.splitlines()[0] == (
        "cpi-tools take-in: warning: items.csv, row 1, remark: the column isn't read"
    )
    assert because(folder)["price.csv", "0", ""] == "it isn't read: no sheet has that name"
    (warning,) = told_of(folder, "warning")
    assert [*warning.values()][1:5] == ["items.csv", "1", "remark", ""]
    page = re.sub("</?bdi>", "", (folder / "check/report.html").read_text(encoding="utf-8"))
    assert "items.csv, row 1, remark" in page.partition("<h2>Warnings</h2>")[2]
    assert "price.csv" in page.partition("<h2>Problems</h2>")[2].partition("<h2>Warnings</h2>")[0]
    assert run(cpi, "take-in", folder, "--check", "--ignore", "Price.csv").err.count("\n") > 1
    assert "price.csv" not in {it["file"] for it in told_of(folder, "problem")}


def test_a_column_of_prices_is_read_or_refused_or_ignored_by_its_name(cpi: Cpi, tmp_path: Path) -> None:
    of = sheets()
    of["prices"] = [[*row, "x", "y"] for row in of["prices"]]
    of["prices"][0][6:] = ["Shop name", "2026-03 (p)"]
    folder = written(tmp_path / "office", of)
    assert run(cpi, "take-in", folder, "--check").status == 1
    first, second = told_of(folder, "problem")
    assert [*first.values()][1:6] == ["prices.csv", "1", "Shop name", "", '"Shop name" isn\'t a month']
    assert first["do"] == 'write a month like 2026-01; if the column has no prices, name it: --ignore "Shop name"'
    assert second["column"] == "2026-03 (p)"
    words = ("take-in", folder, "--check", "--ignore", "shop NAME")
    assert run(cpi, *words).status == 1
    assert run(cpi, *words, "--ignore", "2026-03 (p)").status == 0


def test_months_in_other_spellings_are_read_and_told_once_for_each_column(cpi: Cpi, tmp_path: Path) -> None:
    of = sheets()
    of["prices"] = [
        ["outlet", "item", "2025M12", "Jan-26", "28/02/2026"],
        ["10", "RICE", "200", "210", "stock"],
        ["10", "FLOUR", "80", "84", "90"],
        ["11", "RICE", "240", "comparable 246", ""],
    ]
    of["releases"][1][0] = of["releases"][1][0].replace("-", "/")
    for row in of["series"][1:]:
        row[4] = "1 Dec 2025"
    folder = written(tmp_path / "office", of)
    assert run(cpi, "take-in", folder, "--check").status == 0
    page = re.sub("</?bdi>", "", (folder / "check/report.html").read_text(encoding="utf-8"))
    page = page.partition("Months as they were read")[2]
    rows = [row.split("</td><td>") for row in page.partition("</table>")[0].split("<tr><td>")[1:]]
    told = [[cell.partition("</td>")[0] for cell in row] for row in rows]
    assert told == [
        ["series.csv", "first", "1 Dec 2025", "2025-12"],
        ["releases.csv", "month", "2025/12", "2025-12"],
        ["prices.csv", "2025M12", "2025M12", "2025-12"],
        ["prices.csv", "Jan-26", "Jan-26", "2026-01"],
        ["prices.csv", "28/02/2026", "28/02/2026", "2026-02"],
    ]
    assert run(cpi, "take-in", folder, "--write", tmp_path / "records").status == 0
    assert run(cpi, "take-in", written(tmp_path / "plain", sheets()), "--write", tmp_path / "others").status == 0
    found, wanted = (replayed(cpi, tmp_path / text, tmp_path / f"{text}.db") for text in ("records", "others"))
    assert tables(cpi, found) == tables(cpi, wanted)


def test_codes_that_a_spreadsheet_took_for_numbers(cpi: Cpi, tmp_path: Path) -> None:
    folder = written(tmp_path / "office", sheets())
    book = openpyxl.Workbook()
    for row in sheets()["classification"]:
        year, code, title, weight = row
        number = {"00": 0, "01": 1, "01.1": 1.1}.get(code, code.replace("01.1", "1.1"))
        book.active.append([year, number if row[0] != "year" else "code", title, weight])
    book.save(folder / "classification.xlsx")
    (folder / "classification.csv").unlink()
    ran = run(cpi, "take-in", folder, "--write", tmp_path / "records")
    assert ran.status == 0
    told = "classification.xlsx, row 2, code: 8 codes of the classification lacked the leading zero, like 0 here"
    assert ran.err == f"cpi-tools take-in: warning: {told}\n"


@pytest.mark.parametrize(
    ("weights", "unit", "status", "told"),
    [
        (("60", "39"), "percent", 0, "the weights of 2026 add up to 99.000, not to 100"),
        (("60", "41"), "percent", 0, "the weights of 2026 add up to 101.000, not to 100"),
        (("60", "38.9"), "percent", 1, "the weights of 2026 add up to 98.900, not to 100"),
        (("600", "410.1"), "permille", 1, "the weights of 2026 add up to 1,010.100, not to 1000"),
        (("0.6", "0.4"), "percent", 1, "the weights of 2026 add up to 1.000, not to 100"),
        (("60%", "40"), "percent", 1, 'the weight is "60%", but the weight in row 9 is "40"'),
        (("60", "0.4%"), "percent", 1, "the weights of 2026 add up to 60.400, not to 100"),
        (("60%", "40%"), "percent", 0, ""),
        (("3", "5"), "money", 0, ""),
    ],
)
def test_weights_that_do_not_add_up_to_all_are_told(
    cpi: Cpi, tmp_path: Path, weights: tuple[str, str], unit: str, status: int, told: str
) -> None:
    of = sheets()
    of["classification"][6][3], of["classification"][8][3] = weights
    folder = written(tmp_path / "office", of)
    assert run(cpi, "take-in", folder, "--check", "--weights", unit).status == status
    reasons = [it["because"] for it in told_of(folder, "problem" if status else "warning")]
    assert told in reasons if told else not reasons


def test_the_page_has_texts_as_texts_and_no_key(cpi: Cpi, tmp_path: Path) -> None:
    of = sheets()
    put("prices", 5, "value", '<script>"&')(of)
    of["<img>"] = [["x"]]
    folder = written(tmp_path / "office", of)
    run(cpi, "take-in", folder, "--check")
    page = re.sub("</?bdi>", "", (folder / "check" / "report.html").read_text(encoding="utf-8"))
    assert "&quot;&lt;script&gt;&quot;&amp;&quot; isn&#x27;t a number" in page and "<script" not in page
    assert "&lt;img&gt;.csv" in page and "<img" not in page
    assert KEY_7 not in page and "2 problems; nothing is taken in." in page
    for name in ("problems.csv", "report.html"):
        assert (folder / "check" / name).stat().st_mode & 0o777 == 0o600


def test_the_page_tells_each_month(cpi: Cpi, tmp_path: Path) -> None:
    folder = written(tmp_path / "office", sheets())
    run(cpi, "take-in", folder, "--check")
    page = (folder / "check" / "report.html").read_text(encoding="utf-8")
    row = re.sub(" class=(number|words)", "", page[page.index("<tr><td>2026-02") :].partition("</tr>")[0])
    cells = row.replace("<tr><td>", "").replace("</td>", "").split("<td>")
    # flour 90 / 80 = 112.5; rice is carried: 103.636364 * 0.6 + 112.5 * 0.4
    assert cells == ["2026-02", "1", "0", "0", "1", "0", "1", "frozen, carrying 01.1.1.1-01", "107.181818"]


# ---- onto an office


@pytest.fixture
def standing(cpi: Cpi, tmp_path: Path) -> Path:
    """The office of the spreadsheets, in a file."""
    assert run(cpi, "take-in", written(tmp_path / "before", sheets()), "--write", tmp_path / "records").status == 0
    return replayed(cpi, tmp_path / "records", tmp_path / "office.db")


def sums(file: Path) -> dict[str, str]:
    """The SHA-256 of a file and of what lies beside it under its name."""
    return {path.name: hashlib.sha256(path.read_bytes()).hexdigest() for path in file.parent.glob(f"{file.name}*")}


def test_more_is_added_to_an_office_whose_file_keeps_its_bytes(cpi: Cpi, standing: Path, tmp_path: Path) -> None:
    """An outlet, a series whose slot and key the office has or draws, a month and its prices."""
    of = {
        "outlets": [["outlet", "name"], ["12", "Kiosk"]],
        "collectors": [["collector"], ["8"], ["9"]],
        "series": [["collector", "outlet", "item", "first", "last"],
                   ["8", "12", "RICE", "2026-03", "2026-12"], ["9", "12", "FLOUR", "2026-03", "2026-12"]],
        "calendar": [["month", "opens", "closes", "publishes"], ["2026-03", "4000", "5000", "6000"]],
        "prices": [["outlet", "item", "2026-03"], ["10", "RICE", "220"], ["10", "FLOUR", "91"], ["12", "RICE", "300"]],
    }  # fmt: skip
    before = sums(standing)
    folder = written(tmp_path / "more", of)
    assert run(cpi, "take-in", folder, "--onto", standing, "--check").status == 0
    assert sums(standing) == before
    page = (folder / "check" / "report.html").read_text(encoding="utf-8")
    assert f"Checked by cpi against a copy of <bdi>{standing}</bdi>." in page
    ran = run(cpi, "take-in", folder, "--onto", standing, "--write", tmp_path / "added")
    assert sums(standing) == before
    assert ran.out.splitlines()[1] == f"cpi replay --db {standing} < {tmp_path / 'added' / 'records-01.csv'}"
    assert [row["collector"] for row in rows_of(tmp_path / "added" / "keys.csv")] == ["9"]
    with stored_office(replayed(cpi, tmp_path / "added", standing)) as stored:
        assert stored.quotes(202603) == {(7, 1): ("price", 220), (8, 2): ("price", 91), (8, 3): ("price", 300)}
        assert stored.keys()[8] == KEY_8


def test_a_revision_is_frozen_with_its_corrections(cpi: Cpi, standing: Path, tmp_path: Path) -> None:
    """The sheets have revision 2 and its price only; the office has revision 1."""
    release = ["2026-02", "2", "4000", "4500", "6000", "4500", "01.1.1.1-01"]
    quote = ["2026-02", "8", "2", "price", "95", "", "2"]
    of = {"releases": [sheets()["releases"][0], release], "prices": [[*sheets()["prices"][0], "revision"], quote]}
    folder = written(tmp_path / "more", of)
    assert run(cpi, "take-in", folder, "--onto", standing, "--write", tmp_path / "added").status == 0
    told = tables(cpi, replayed(cpi, tmp_path / "added", standing))
    # rice carried, flour 95 / 80: 103.636364 * 0.6 + 118.75 * 0.4
    assert told["2026-02", 2].startswith("00,1000000,109.681818,")


def test_a_price_of_a_frozen_month_that_is_another_one_is_a_warning(cpi: Cpi, standing: Path, tmp_path: Path) -> None:
    """It is stored, and no table changes until the month is reopened. The price that was frozen is passed over."""
    of = {"prices": [["outlet", "item", "2026-02"], ["10", "FLOUR", "95"]]}
    folder = written(tmp_path / "more", of)
    ran = run(cpi, "take-in", folder, "--onto", standing, "--write", tmp_path / "added")
    assert (ran.status, ran.out.splitlines()[0]) == (0, "1 quote")
    told = (
        "prices.csv, row 2: 2026-02 is frozen, so 1 of its prices, from this row on, changes no table until the month"
        " is frozen again"
    )
    assert ran.err == f"cpi-tools take-in: warning: {told}\n"
    before = tables(cpi, standing)
    assert tables(cpi, replayed(cpi, tmp_path / "added", standing)) == before
    of["prices"][1][2] = "90"
    ran = run(cpi, "take-in", written(tmp_path / "same", of), "--onto", standing, "--check")
    assert (ran.status, ran.err) == (0, "")


def test_a_revision_of_a_release_that_is_none_is_told(cpi: Cpi, tmp_path: Path) -> None:
    of = sheets()
    put("releases", 3, "revision", "first")(of)
    folder = written(tmp_path / "office", of)
    assert run(cpi, "take-in", folder, "--check").status == 1
    assert because(folder) == {("releases.csv", "3", "revision"): '"first" isn\'t a revision'}


def test_prices_alone_are_sent_within_the_window_that_the_office_has(cpi: Cpi, standing: Path, tmp_path: Path) -> None:
    assert cpi.replay([record(0, "desk", "calendar", "2026-03", 4000, 5000, 6000)], db=standing) == [{"done": True}]
    of = {"prices": [["outlet", "item", "2026-03"], ["10", "RICE", "220"]]}
    ran = run(cpi, "take-in", written(tmp_path / "more", of), "--onto", standing, "--write", tmp_path / "added")
    assert (ran.status, ran.out.splitlines()[0]) == (0, "1 quote")
    assert (tmp_path / "added/records-01.csv").read_text().startswith(f"4000,{KEY_7},import,")
    with stored_office(replayed(cpi, tmp_path / "added", standing)) as stored:
        assert stored.quotes(202603) == {(7, 1): ("price", 220)}


def test_what_an_office_has_is_done_again(cpi: Cpi, standing: Path, tmp_path: Path) -> None:
    """The same spreadsheets without freezes: slots that aren't named are those that stand, and so are keys."""
    of = sheets()
    del of["releases"], of["handovers"], of["prices"]
    of["collectors"] = [["collector"], ["7"], ["8"]]
    of["series"] = [[cell for at, cell in enumerate(row) if at != 1] for row in of["series"] if row[3] != "FLOUR"]
    before = sums(standing)
    assert run(cpi, "take-in", written(tmp_path / "again", of), "--onto", standing, "--check").status == 0
    assert sums(standing) == before


def test_a_price_goes_to_the_slot_that_has_its_series_now(cpi: Cpi, standing: Path, tmp_path: Path) -> None:
    """The sheet of series says what a slot was first given, also of one that was handed over since."""
    of = sheets()
    of = {
        "series": of["series"],
        "calendar": [*of["calendar"], ["2026-03", "4000", "5000", "6000"]],
        "prices": [["outlet", "item", "2026-02", "2026-03"], ["10", "FLOUR", "90", "92"]],
    }
    folder = written(tmp_path / "more", of)
    ran = run(cpi, "take-in", folder, "--onto", standing, "--write", tmp_path / "added")
    assert (ran.status, ran.err) == (0, "")
    # (three series, three windows and the price of February are there)
    assert ran.out.splitlines()[0] == "1 window, 1 quote, 7 rows that the office already has"
    with stored_office(replayed(cpi, tmp_path / "added", standing)) as stored:
        assert stored.quotes(202603) == {(8, 2): ("price", 92)}


def test_two_series_that_are_alike_keep_their_slots(cpi: Cpi, standing: Path, tmp_path: Path) -> None:
    """An office may have two prices of one item in one outlet."""
    alike = ["8", "11", "FLOUR", "2026-03", "2026-12"]
    of = {"series": [["collector", "outlet", "item", "first", "last"], alike, alike]}
    folder = written(tmp_path / "more", of)
    for number, slots in enumerate(([1, 2, 3, 4], [1, 2, 3, 4])):
        records = tmp_path / f"added-{number}"
        assert run(cpi, "take-in", folder, "--onto", standing, "--write", records).status == 0
        with stored_office(replayed(cpi, records, standing)) as stored:
            assert sorted(assignment.slot for assignment in stored.assignments() if assignment.collector == 8) == slots
    assert [os.listdir(tmp_path / f"added-{number}") for number in range(2)] == [["records-01.csv"], []]


@pytest.mark.parametrize(
    ("change", "wanted"),
    [
        (add("classification", "2026", "02", "Drinks", ""), None),
        (put("classification", 7, "weight", "599998"), ("classification.csv", 9, "weight", "44 fault 4")),
        (put("classification", 7, "title", "Rice!"), ("classification.csv", 2, "year", "45")),
        (put("calendar", 3, "publishes", "9000"), ("calendar.csv", 3, "month", "50")),
        (put("calendar", 4, "publishes", "4500"), ("calendar.csv", 4, "month", "50")),
        (add("handovers", "2026-02", "7", "1", "8", "9"), ("handovers.csv", 3, "month", "50")),
        (add("handovers", "2026-03", "8", "2", "7", "9"), ("handovers.csv", 3, "month", "51")),
        (put("items", 2, "text", "Rice, white"), ("items.csv", 2, "item", "40")),
        (put("outlets", 2, "name", "Shop"), ("outlets.csv", 2, "outlet", "40")),
        (put("collectors", 2, "key", "9" * 32), ("collectors.csv", 2, "key", "40")),
    ],
)
def test_what_an_office_refuses(
    cpi: Cpi, standing: Path, tmp_path: Path, change: Change, wanted: Optional[Cell]
) -> None:
    sent = [
        record(0, "desk", "calendar", "2026-03", 4000, 5000, 6000),
        record(4500, KEY_8, "quote", 2, "2026-03", "price", 91),
    ]
    assert not [it for it in cpi.replay(sent, db=standing) if "refused" in it]
    of = sheets()
    del of["releases"], of["series"], of["prices"]
    change(of)
    folder = written(tmp_path / "again", of)
    ran = run(cpi, "take-in", folder, "--onto", standing, "--check")
    assert (ran.status, problems(folder)) == ((1, [wanted]) if wanted else (0, []))


def test_a_file_that_is_no_office_is_one_line(cpi: Cpi, tmp_path: Path) -> None:
    (tmp_path / "no.db").write_text("no office")
    ran = run(cpi, "take-in", written(tmp_path / "office", sheets()), "--onto", tmp_path / "no.db", "--check")
    assert ran.status == 1 and ran.err.startswith(f"cpi-tools take-in: {tmp_path / 'no.db'}: cpi: database failed (")
    assert (ran.out, ran.err.count("\n")) == ("", 1)


@pytest.mark.parametrize("words", [[], ["--check", "--write", "x"], ["--check", "--minor", "0"], ["--check", "--zone"]])
def test_words_that_are_not_the_tools(cpi: Cpi, tmp_path: Path, words: list[str]) -> None:
    with pytest.raises(SystemExit) as told:
        run(cpi, "take-in", tmp_path, *words)
    assert told.value.code == 2


def test_a_zone_that_is_none_is_one_line(cpi: Cpi, tmp_path: Path) -> None:
    ran = run(cpi, "take-in", written(tmp_path / "office", sheets()), "--check", "--zone", "Mars")
    assert (ran.status, ran.out) == (1, "") and ran.err.startswith("cpi-tools take-in: cpi: bad zone (")


# ---- sizes


def test_more_records_than_one_run_takes(cpi: Cpi, tmp_path: Path) -> None:
    """Two bundles a run: what several runs say is what one says."""
    of = sheets()
    put("prices", 6, "value", "8400")(of)
    source = Source(written(tmp_path / "office", of), SHEETS)
    told = []
    for most in (1_000_000, 2):
        taken = OfficeFiles(source, Options(), NOTHING, lambda _: {}, is_new=True).in_order()
        assert 10 < len([*taken.bundles]) <= taken.bundles.most
        told.append(Judge(cpi, "UTC0", False, ()).judge(taken, most=most))
    assert told[0] == told[1] and [problem.number for problem in told[0].problems] == ["26", "49 fault 2", "46"]


def test_imports_and_files_are_cut_at_their_limits() -> None:
    rows = [Sent(["outlet", str(at), "x"], Origin("outlets.csv", at), ("outlet", "name")) for at in range(40_001)]
    assert [len(bundle.rows) for bundle in make_bundles(0, "desk", rows)] == [20_000, 20_000, 1]
    parts = part_bundles((Bundle(at, "desk", rows[:1]) for at in range(5)), 2)
    assert [[it.at for it in part] for part in parts] == [[0, 1], [2, 3], [4]]
    assert Bundle(5, "desk", rows[:1], is_single=True).line() == "5,desk,outlet,0,x"


def test_a_plan_with_too_many_rows_is_told(cpi: Cpi, tmp_path: Path) -> None:
    of = sheets()
    of["classification"] += [["2026", "02", "Drinks", ""]] * 20_000
    folder = written(tmp_path / "office", of)
    assert run(cpi, "take-in", folder, "--check").status == 1
    told = rows_of(folder / "check" / "problems.csv")[0]
    assert (told["file"], told["row"], told["number"]) == ("classification.csv", "2", "10")
    assert told["because"] == "the plan of 2026 has 20,012 rows, but at most 20,000 are accepted"

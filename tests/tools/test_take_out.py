"""`cpi-tools take-out`: an office's spreadsheets, which taken in again give the same tables, of all revisions."""

from __future__ import annotations

import csv
import sqlite3
import stat
from pathlib import Path
from typing import Any

import openpyxl
import pytest

from cpi_tools.office.program import Cpi, record
from .offices import KEY, TABLES
from .ran import rows_of, run
from .spreadsheets import replayed, sheets, tables, written
from .test_take_in import sums
from .wide import in_percent, wide_prices

STORED = ("collector", "outlet", "item", "node", "plan_item", "plan_ref", "calendar", "assignment_2", "quote_2",
          "release_2", "frozen_2", "carried_2", "level_2")  # fmt: skip


def stored(file: Path, table: str) -> list[tuple[Any, ...]]:
    """The rows of a table, without receipts, which are counted anew."""
    with sqlite3.connect(file) as link:
        names = [row[1] for row in link.execute(f"PRAGMA table_info({table})") if row[1] != "receipt"]
        rows = sorted(link.execute(f"SELECT {', '.join(names)} FROM {table}"), key=str)
    link.close()
    return rows


def again(cpi: Cpi, folder: Path, *words: object) -> Path:
    """The office that some files make."""
    records = folder.parent / f"{folder.name}-records"
    ran = run(cpi, "take-in", folder, "--write", records, *words)
    assert ran.status == 0, ran.err
    return replayed(cpi, records, folder.parent / f"{folder.name}-again.db")


def test_out_and_in_again(cpi: Cpi, office: Path, tmp_path: Path) -> None:
    """An office with a revision, a reference month, a hand-over, a carry list and a node that leaves."""
    before = sums(office)
    ran = run(cpi, "take-out", office, tmp_path / "files")
    assert sums(office) == before
    assert (ran.status, ran.err) == (
        0,
        f"cpi-tools take-out: {tmp_path / 'files/collectors.csv'} has the collectors' keys\n",
    )
    assert ran.out.startswith(f"{tmp_path / 'files'}: items 4, outlets 1, collectors 3, series 208, ")
    assert {stat.S_IMODE(path.stat().st_mode) for path in (tmp_path / "files").iterdir()} == {0o600}
    corrected = [row for row in rows_of(tmp_path / "files/prices.csv") if row["revision"] == "2"]
    assert [(row["month"], row["slot"]) for row in corrected] == [("2025-03", "1"), ("2025-03", "2")]
    other = again(cpi, tmp_path / "files")
    assert len(tables(cpi, other)) == TABLES and tables(cpi, other) == tables(cpi, office)
    # (of an earlier revision the window isn't stored, and where it is the last one's nothing differs)
    for table in STORED:
        assert stored(other, table) == stored(office, table), table


def test_late_quotes_and_a_month_that_is_reopened(cpi: Cpi, office: Path, tmp_path: Path) -> None:
    """A quote that came after its freeze, and a last month that is open again with a correction in it."""
    sent = [
        record(14_001, KEY, "quote", 1, "2026-02", "price", 1234, "confirm"),
        record(0, "desk", "calendar", "2026-02", 14_000, 20_000, 30_000),
        record(19_999, KEY, "quote", 2, "2026-02", "missing", "stock"),
        record(13_001, KEY, "quote", 2, "2026-01", "price", 999, "confirm"),
    ]
    assert not [reply for reply in cpi.replay(sent, db=office) if "refused" in reply]
    assert run(cpi, "take-out", office, tmp_path / "files").status == 0
    late = [row for row in rows_of(tmp_path / "files/prices.csv") if (row["month"], row["revision"]) > ("2025-12", "1")]
    assert [(row["month"], row["slot"], row["value"]) for row in late if row["revision"] == "2"] == [
        ("2026-01", "2", "999"),
        ("2026-02", "1", "1234"),
        ("2026-02", "2", "stock"),
    ]
    other = again(cpi, tmp_path / "files")
    for table in STORED:
        assert stored(other, table) == stored(office, table), table


def as_cell(text: str) -> object:
    """A text as a spreadsheet that takes whatever it can for a number: codes like `01` and `01.1` too."""
    for kind in (int, float):
        try:
            return kind(text) if len(text) < 9 else text
        except ValueError:
            continue
    return text


def test_a_wide_workbook_with_decimals_and_percents(cpi: Cpi, office: Path, tmp_path: Path) -> None:
    """All in one workbook, which has neither confirmations nor what the first revision was frozen with."""
    assert run(cpi, "take-out", office, tmp_path / "files").status == 0
    book = openpyxl.Workbook()
    book.remove(book.active)
    for path in sorted((tmp_path / "files").glob("*.csv")):
        with open(path, encoding="utf-8", newline="") as file:
            rows = [*csv.reader(file)]
        rows = (
            wide_prices(path) if path.stem == "prices" else in_percent(path) if path.stem == "classification" else rows
        )
        sheet = book.create_sheet(path.stem)
        for row in rows:
            sheet.append([as_cell(cell) for cell in row])
    (tmp_path / "book").mkdir()
    book.save(tmp_path / "book/office.xlsx")
    ran = run(cpi, "take-in", tmp_path / "book/office.xlsx", "--write", tmp_path / "records", "--minor", 100,
              "--weights", "percent", "--confirm-history")  # fmt: skip
    assert ran.status == 0, (tmp_path / "book/check/problems.csv").read_text()
    other = tables(cpi, replayed(cpi, tmp_path / "records", tmp_path / "again.db"))
    wanted = tables(cpi, office)
    assert {*other} == {*wanted} and len(wanted) == TABLES
    assert [key for key, table in wanted.items() if other[key] != table] == [("2025-03", 1)]


def test_texts_with_separators_and_quotation_marks(cpi: Cpi, tmp_path: Path) -> None:
    of = sheets()
    odd = [' a ; "b", c ', "=1+1", "\u2028x\u0085", "'", "\ufeffname"]
    of["outlets"] += [[str(20 + at), name] for at, name in enumerate(odd)]
    office = again(cpi, written(tmp_path / "office", of))
    assert run(cpi, "take-out", office, tmp_path / "files").status == 0
    assert stored(again(cpi, tmp_path / "files"), "outlet") == stored(office, "outlet")
    assert [row[1] for row in stored(office, "outlet")][2:] == odd


@pytest.mark.parametrize("content", [b"", b"no office", None])
def test_a_file_that_is_no_office(cpi: Cpi, tmp_path: Path, content: Any) -> None:
    if content is not None:
        (tmp_path / "no.db").write_bytes(content)
    ran = run(cpi, "take-out", tmp_path / "no.db", tmp_path / "files")
    assert (ran.status, ran.out, ran.err.count("\n")) == (1, "", 1)
    assert {path.name for path in tmp_path.iterdir()} <= {"no.db"}


def test_nothing_takes_the_place_of_a_folder(cpi: Cpi, office: Path, tmp_path: Path) -> None:
    (tmp_path / "files").mkdir()
    ran = run(cpi, "take-out", office, tmp_path / "files")
    assert (ran.status, ran.out) == (1, "") and "is there already" in ran.err


# ---- onto the office that it came from


def reopened(cpi: Cpi, office: Path) -> Path:
    """The office with a quote after its freeze, and its last month open again with a correction in it."""
    sent = [
        record(14_001, KEY, "quote", 1, "2026-02", "price", 1234, "confirm"),
        record(0, "desk", "calendar", "2026-02", 14_000, 20_000, 30_000),
        record(19_999, KEY, "quote", 2, "2026-02", "missing", "stock"),
    ]
    assert not [reply for reply in cpi.replay(sent, db=office) if "refused" in reply]
    return office


def test_what_was_taken_out_is_passed_over_by_the_office_that_has_it(cpi: Cpi, office: Path, tmp_path: Path) -> None:
    """Freezes, a hand-over, a revision and a reopened month among it: no problem, and nothing to send."""
    reopened(cpi, office)
    assert run(cpi, "take-out", office, tmp_path / "files").status == 0
    before = sums(office)
    rows = sum(len(rows_of(path)) for path in (tmp_path / "files").glob("*.csv"))
    ran = run(cpi, "take-in", tmp_path / "files", "--onto", office, "--check")
    assert (ran.status, ran.err) == (0, "")
    # (a plan is one row of what is sent, and three sheets of rows of what is taken out)
    plans = {name: len(rows_of(tmp_path / f"files/{name}.csv")) for name in ("classification", "places", "plans")}
    standing = rows - sum(plans.values()) + plans["plans"]
    assert ran.out == f"nothing new, {standing} rows that the office already has\n"
    ran = run(cpi, "take-in", tmp_path / "files", "--onto", office, "--write", tmp_path / "records")
    assert (ran.status, ran.out.count("\n"), [*(tmp_path / "records").iterdir()]) == (0, 1, [])
    assert sums(office) == before


@pytest.mark.parametrize("name", ["items", "outlets", "collectors", "series", "handovers", "calendar", "releases"])
def test_a_sheet_by_itself_is_passed_over_too(cpi: Cpi, office: Path, tmp_path: Path, name: str) -> None:
    reopened(cpi, office)
    assert run(cpi, "take-out", office, tmp_path / "files").status == 0
    (tmp_path / "one").mkdir()
    (tmp_path / f"files/{name}.csv").rename(tmp_path / f"one/{name}.csv")
    ran = run(cpi, "take-in", tmp_path / "one", "--onto", office, "--check")
    assert (ran.status, ran.out.partition(",")[0], ran.err) == (0, "nothing new", "")


def test_series_without_their_slots_keep_those_that_they_have(cpi: Cpi, office: Path, tmp_path: Path) -> None:
    """Also the series that was handed over, which its first slot has no longer."""
    assert run(cpi, "take-out", office, tmp_path / "files").status == 0
    (tmp_path / "one").mkdir()
    series = rows_of(tmp_path / "files/series.csv")
    handed = rows_of(tmp_path / "files/handovers.csv")
    assert {(row["collector"], row["slot"]) for row in handed} <= {(row["collector"], row["slot"]) for row in series}
    columns = [name for name in series[0] if name != "slot"]
    rows = [",".join(columns), *(",".join(row[name] for name in columns) for row in series)]
    (tmp_path / "one/series.csv").write_text("\n".join(rows), encoding="utf-8")
    ran = run(cpi, "take-in", tmp_path / "one", "--onto", office, "--check")
    assert ran == (0, f"nothing new, {len(series)} rows that the office already has\n", "")


def test_what_differs_from_what_was_taken_out_is_sent(cpi: Cpi, office: Path, tmp_path: Path) -> None:
    """One price of the month that is open again, and one freeze with another carry list, among all that stands."""
    reopened(cpi, office)
    assert run(cpi, "take-out", office, tmp_path / "files").status == 0
    prices = tmp_path / "files/prices.csv"
    heads, *rows = prices.read_text(encoding="utf-8").splitlines()
    late = [row for row in rows if row.startswith("2026-02,") and row.endswith(",2")]
    assert len(late) == 2 and ",1234,confirm,2" in late[0]
    prices.write_text("\n".join([heads, *rows]).replace(",1234,confirm,2", ",1235,confirm,2"), encoding="utf-8")
    ran = run(cpi, "take-in", tmp_path / "files", "--onto", office, "--write", tmp_path / "records")
    assert (ran.status, ran.err, ran.out.partition(",")[0]) == (0, "", "1 quote")
    lines = (tmp_path / "records/records-01.csv").read_text(encoding="utf-8").splitlines()
    assert lines == [f'14000,{KEY},import,"quote,1,2026-02,price,1235,confirm', '"']
    releases = tmp_path / "files/releases.csv"
    heads, first, *others = releases.read_text(encoding="utf-8").splitlines()
    assert first.endswith(",")
    releases.write_text("\n".join([heads, f"{first}01.1.1.1-01", *others]) + "\n", encoding="utf-8")
    assert run(cpi, "take-in", tmp_path / "files", "--onto", office, "--check").status == 1
    told = [(row["file"], row["row"]) for row in rows_of(tmp_path / "files/check/problems.csv")]
    assert told[0] == ("releases.csv", "2")

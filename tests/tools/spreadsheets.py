"""Spreadsheets of an office for the tests of take-in: three months by hand, with a hand-over and their freezes; and
changes of them."""

from __future__ import annotations

import csv
from collections.abc import Callable, Sequence
from pathlib import Path

from cpi_tools.office.program import Cpi, record

KEY_7, KEY_8 = "a7" * 16, "b8" * 16

Sheets = dict[str, list[list[str]]]
"""Rows of cells by the sheet's name; the first names the columns."""

CLASSIFICATION = (
    ("year", "code", "title", "weight"),
    ("2026", "00", "All items", ""),
    ("2026", "01", "Food", ""),
    ("2026", "01.1", "Food", ""),
    ("2026", "01.1.1", "Cereals", ""),
    ("2026", "01.1.1.1", "Rice", ""),
    ("2026", "01.1.1.1-01", "Rice", "600000"),
    ("2026", "01.1.1.2", "Flour", ""),
    ("2026", "01.1.1.2-01", "Flour", "400000"),
)

PRICES = (
    ("month", "collector", "slot", "mark", "value", "confirm"),
    ("2025-12", "7", "1", "price", "200", ""),
    ("2025-12", "7", "2", "price", "80", ""),
    ("2025-12", "8", "1", "price", "240", ""),
    ("2026-01", "7", "1", "price", "210", ""),
    ("2026-01", "7", "2", "price", "84", ""),
    ("2026-01", "8", "1", "comparable", "246", ""),
    ("2026-02", "7", "1", "missing", "stock", ""),
    ("2026-02", "8", "2", "price", "90", ""),
)
"""The prices of three months."""


def sheets() -> Sheets:
    """The whole office."""
    return {
        "items": [
            ["item", "text", "unit", "low", "high"],
            ["RICE", "Rice", "1 kg", "500", "2000"],
            ["FLOUR", "Flour, wheat", "1 kg", "500", "2000"],
        ],
        "outlets": [["outlet", "name"], ["10", "Corner shop"], ["11", "Market hall"]],
        "collectors": [["collector", "key"], ["7", KEY_7], ["8", KEY_8]],
        "series": [
            ["collector", "slot", "outlet", "item", "first", "last"],
            ["7", "1", "10", "RICE", "2025-12", "2026-12"],
            ["7", "2", "10", "FLOUR", "2025-12", "2026-12"],
            ["8", "1", "11", "RICE", "2025-12", "2026-01"],
        ],
        "handovers": [["month", "collector", "slot", "to", "to_slot"], ["2026-02", "7", "2", "8", "2"]],
        "classification": [[*row] for row in CLASSIFICATION],
        "places": [["year", "item", "code"], ["2026", "RICE", "01.1.1.1-01"], ["2026", "FLOUR", "01.1.1.2-01"]],
        "plans": [["year", "reference"], ["2026", ""]],
        "calendar": [
            ["month", "opens", "closes", "publishes"],
            ["2025-12", "0", "1000", "1000"],
            ["2026-01", "1000", "2000", "3000"],
            ["2026-02", "2000", "4000", "5000"],
        ],
        "prices": [[*row] for row in PRICES],
        "releases": [
            ["month", "revision", "opens", "closes", "publishes", "frozen_at", "carry"],
            ["2025-12", "1", "0", "1000", "1000", "1000", ""],
            ["2026-01", "1", "1000", "2000", "3000", "2000", ""],
            ["2026-02", "1", "2000", "4000", "5000", "4000", "01.1.1.1-01"],
        ],
    }  # fmt: skip


def written(folder: Path, of: Sheets, delimiter: str = ",") -> Path:
    """The sheets as CSV files in a folder."""
    folder.mkdir(exist_ok=True)
    for name, rows in of.items():
        with open(folder / f"{name}.csv", "w", encoding="utf-8", newline="") as file:
            csv.writer(file, delimiter=delimiter).writerows(rows)
    return folder


# ---- changes

Change = Callable[[Sheets], None]


def put(name: str, row: int, column: str, text: str) -> Change:
    """Another text in one cell; rows as a spreadsheet counts them."""

    def change(of: Sheets) -> None:
        of[name][row - 1][of[name][0].index(column)] = text

    return change


def add(name: str, *cells: str) -> Change:
    """One more row."""
    return lambda of: of[name].append([*cells])


def drop(name: str, row: int) -> Change:
    """A row less."""

    def change(of: Sheets) -> None:
        del of[name][row - 1]

    return change


def without(name: str) -> Change:
    """A file less."""

    def change(of: Sheets) -> None:
        del of[name]

    return change


# ---- what an office holds


def tables(cpi: Cpi, file: Path) -> dict[tuple[str, int], str]:
    """Every published table of an office, as the program prints it."""
    listed = cpi.replay([record(9_999_999_999, "public", "tables")], db=file)[0]["tables"]
    known = [(month, revision) for month, revision, _ in listed]
    asked = [record(9_999_999_999, "public", "table", month, "csv", revision) for month, revision in known]
    return dict(zip(known, (reply["table"] for reply in cpi.replay(asked, db=file))))


def replayed(cpi: Cpi, folder: Path, file: Path, zone: str = "UTC0") -> Path:
    """The office that a folder of records makes; none is refused."""
    for part in sorted(folder.glob("records-*.csv")):
        replies = cpi.replay([part.read_text(encoding="utf-8")], db=file, zone=zone)
        told: Sequence[dict[str, object]] = [row for reply in replies for row in reply.get("rows", [reply])]
        assert not [row for row in told if "refused" in row]
    return file

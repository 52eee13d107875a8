"""The files of an office turned into what a spreadsheet would have: a column a month, units with decimals, percent."""

from __future__ import annotations

import csv
from collections.abc import Sequence
from decimal import Decimal
from pathlib import Path

from .ran import rows_of

Cells = list[list[str]]


def wide_prices(prices: Path) -> Cells:
    """A row a slot and a column a month, in units of 100 minor ones; a mark stands before its price. Of two quotes of a
    slot and month the later one stands."""
    months: list[str] = []
    cells: dict[tuple[str, str], dict[str, str]] = {}
    for row in rows_of(prices):
        if row["month"] not in months:
            months.append(row["month"])
        price = row["value"] if row["mark"] == "missing" else f"{Decimal(row['value']) / 100:.2f}"
        text = price if row["mark"] in ("price", "missing") else f"{row['mark']} {price}"
        cells.setdefault((row["collector"], row["slot"]), {})[row["month"]] = text
    heads = ["collector", "slot", *sorted(months)]
    return [heads, *([*slot, *(own.get(month, ".") for month in heads[2:])] for slot, own in cells.items())]


def in_percent(classification: Path) -> Cells:
    """The classification with weights in percent."""
    with open(classification, encoding="utf-8", newline="") as file:
        heads, *rows = csv.reader(file)
    return [heads, *([*row[:3], str(Decimal(row[3]) / 10_000) if row[3] else ""] for row in rows)]


def rewrite(path: Path, rows: Sequence[Sequence[str]]) -> None:
    """Other rows in a file."""
    with open(path, "w", encoding="utf-8", newline="") as file:
        csv.writer(file).writerows(rows)

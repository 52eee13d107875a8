"""Compares each figure in the SQLite file of a pack, read with Python's sqlite3, with the wanted rows.

A number is written with the decimals that DATA names, and so compared as text; an empty cell is NULL.
"""

from __future__ import annotations

import contextlib
import sqlite3
from collections.abc import Iterable, Iterator, Mapping
from pathlib import Path

NAMES = {"index": "index_value", "break": "is_break", "of": "of_code"}
"""The columns that have other names in the SQLite file than in CSV files."""

DECIMALS = {"month_change": 1, "year_change": 1, "change": 1, "twelve_month_rate": 1, "monthly": 1, "annual": 1}
"""Decimals of figures that don't have six."""

PRINTED_INDEX = ("printed", "index_value")


def shown(table: str, column: str, value: object) -> str:
    """A value in the form of a CSV cell."""
    if value is None:
        return ""
    if isinstance(value, float):
        return f"{value:.{1 if (table, column) == PRINTED_INDEX else DECIMALS.get(column, 6)}f}"
    return str(value)


def rows_of_sqlite(path: Path) -> dict[str, list[dict[str, str]]]:
    """The rows of all tables, in the order in which they were written, by the names of columns in CSV files."""
    there = {own: name for name, own in NAMES.items()}
    with contextlib.closing(sqlite3.connect(f"file:{path}?mode=ro", uri=True)) as link:
        assert link.execute("PRAGMA integrity_check").fetchall() == [("ok",)]
        tables = [name for (name,) in link.execute("SELECT name FROM sqlite_master WHERE type = 'table' ORDER BY name")]
        rows = {}
        for table in tables:
            asked = link.execute(f"SELECT * FROM {table} ORDER BY rowid")
            columns = [head[0] for head in asked.description]
            rows[table] = [
                {there.get(column, column): shown(table, column, value) for column, value in zip(columns, row)}
                for row in asked
            ]
        return rows


def sqlite_faults(path: Path, wanted: Mapping[str, Iterable[Mapping[str, str]]]) -> Iterator[str]:
    """The tables and rows that differ from some CSV files, by the files' names without their ending."""
    own = {name.replace("-", "_"): [{**row} for row in rows] for name, rows in wanted.items()}
    own = {name: [{key.replace("-", "_"): it for key, it in row.items()} for row in rows] for name, rows in own.items()}
    wrote = rows_of_sqlite(path)
    if wrote.keys() != own.keys():
        yield f"the file has the tables {sorted(wrote)}, wanted {sorted(own)}"
    for name in wrote.keys() & own.keys():
        if len(wrote[name]) != len(own[name]):
            yield f"{name} has {len(wrote[name])} rows, wanted {len(own[name])}"
        for row, want in zip(wrote[name], own[name]):
            if row != want:
                yield f"{name}: wrote {row}, wanted {want}"

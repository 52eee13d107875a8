"""The second office as the rows of a database: of schema 2, and of schema 1, which databases had before."""

from __future__ import annotations

import contextlib
import sqlite3
from collections.abc import Callable, Iterable, Iterator
from functools import partial
from typing import Any

from .index import before
from .office import DONE, Office, Reply
from .values import Mark, Month

Columns = tuple[Any, ...]
Rows = dict[str, list[Columns]]
"""By table."""

# The tables of schema 1, in the order in which they were made.
FIRST_TABLES = {
    "version": "CREATE TABLE version (number INTEGER PRIMARY KEY) STRICT",
    "collector": "CREATE TABLE collector (number INTEGER PRIMARY KEY, key TEXT NOT NULL UNIQUE) STRICT",
    "outlet": "CREATE TABLE outlet (number INTEGER PRIMARY KEY, name TEXT NOT NULL) STRICT",
    "item": "CREATE TABLE item (code TEXT NOT NULL PRIMARY KEY, text TEXT NOT NULL, unit TEXT NOT NULL, low INTEGER "
    "NOT NULL, high INTEGER NOT NULL) STRICT",
    "node": "CREATE TABLE node (year INTEGER NOT NULL, code TEXT NOT NULL, title TEXT NOT NULL, weight INTEGER NOT "
    "NULL, PRIMARY KEY (year, code)) STRICT",
    "plan_item": "CREATE TABLE plan_item (year INTEGER NOT NULL, item TEXT NOT NULL REFERENCES item (code), code TEXT "
    "NOT NULL, PRIMARY KEY (year, item)) STRICT",
    "calendar": "CREATE TABLE calendar (month INTEGER PRIMARY KEY, opens INTEGER NOT NULL, closes INTEGER NOT NULL, "
    "publishes INTEGER NOT NULL) STRICT",
    "assignment": "CREATE TABLE assignment (collector INTEGER NOT NULL REFERENCES collector (number), slot INTEGER NOT "
    "NULL, outlet INTEGER NOT NULL REFERENCES outlet (number), item TEXT NOT NULL REFERENCES item (code), first_month "
    "INTEGER NOT NULL, last_month INTEGER NOT NULL, PRIMARY KEY (collector, slot)) STRICT",
    "quote": "CREATE TABLE quote (collector INTEGER NOT NULL, slot INTEGER NOT NULL, month INTEGER NOT NULL, mark TEXT "
    "NOT NULL, value INTEGER NOT NULL, receipt INTEGER NOT NULL, PRIMARY KEY (collector, slot, month), FOREIGN KEY "
    "(collector, slot) REFERENCES assignment (collector, slot)) STRICT",
    "release": "CREATE TABLE release (month INTEGER PRIMARY KEY, frozen_at INTEGER NOT NULL, publishes INTEGER NOT "
    "NULL, carry TEXT NOT NULL) STRICT",
    "frozen": "CREATE TABLE frozen (month INTEGER NOT NULL REFERENCES release (month), collector INTEGER NOT NULL, "
    "slot INTEGER NOT NULL, item TEXT NOT NULL, last_month INTEGER NOT NULL, mark TEXT NOT NULL, value INTEGER NOT "
    "NULL, PRIMARY KEY (month, collector, slot)) STRICT",
    "carried": "CREATE TABLE carried (month INTEGER NOT NULL REFERENCES release (month), collector INTEGER NOT NULL, "
    "slot INTEGER NOT NULL, item TEXT NOT NULL, last_month INTEGER NOT NULL, ticks INTEGER NOT NULL, knum INTEGER NOT "
    "NULL, kden INTEGER NOT NULL, observed INTEGER NOT NULL, imputed INTEGER NOT NULL, PRIMARY KEY (month, collector, "
    "slot)) STRICT",
    "level": "CREATE TABLE level (month INTEGER NOT NULL REFERENCES release (month), code TEXT NOT NULL, title TEXT "
    "NOT NULL, weight INTEGER NOT NULL, within INTEGER NOT NULL, chained INTEGER NOT NULL, month_change INTEGER NOT "
    "NULL, year_change INTEGER, imputed INTEGER NOT NULL, PRIMARY KEY (month, code)) STRICT",
}

# The tables that schema 2 has beside them, and the old ones that are empty there.
OF_A_MONTH = ["release", "frozen", "carried", "level"]
EMPTY = ["assignment", "quote", *OF_A_MONTH]
TABLES = [*FIRST_TABLES, *(f"{name}_2" for name in EMPTY), "plan_ref"]
KEPT = [name for name in FIRST_TABLES if name not in ("version", *EMPTY)]


class Kept(Office):
    """A second office that keeps the rows of each release."""

    def __init__(self) -> None:
        super().__init__()
        self.of_releases: Rows = {f"{name}_2": [] for name in OF_A_MONTH}

    def freeze(self, now: int, month: Month, carry: list[str]) -> Reply:
        reply = super().freeze(now, month, carry)
        if reply == DONE:
            revision, publishes = len(self.tables[month]), self.tables[month][-1][0]
            release = [(now, publishes, " ".join(carry))]
            made: list[Iterable[Columns]] = [release, frozen(self, month), carried(self, month), levels(self, month)]
            for name, rows in zip(OF_A_MONTH, made):
                self.of_releases[f"{name}_2"] += [(number(month), revision, *row) for row in rows]
        return reply


def number(month: Month) -> int:
    return 100 * month[0] + month[1]


def mark_columns(mark: Mark) -> tuple[str, int]:
    kind, value = mark
    return (value or "none", 0) if kind == "missing" else (kind, value)


# ---- what a freeze stores of its month


def frozen(office: Office, month: Month) -> Iterator[Columns]:
    for quote in office.index.frozen[month][0]:
        yield *quote.series, quote.item, number(quote.last_month), *mark_columns(quote.mark)


def carried(office: Office, month: Month) -> Iterator[Columns]:
    index = office.index
    for code in index.aggregates(month[0]) if before(month) in index.frozen else []:
        for series in index.sample(month[0], code):
            item, last = office.assignments[series].item, office.last_month_of(series)
            ticks, scale, is_imputed = index.carried(month[0], month, series)
            observed = index.observed(month, series) is not None
            yield *series, item, number(last), ticks, *scale, int(observed), int(is_imputed)


def levels(office: Office, month: Month) -> Iterator[Columns]:
    for row in office.tables[month][-1][1]:
        yield *row[:7], int(row[7])


def released(table: str, office: Kept) -> list[Columns]:
    """The rows of all releases."""
    return office.of_releases[table]


# ---- all rows


def node_rows(office: Kept) -> list[Columns]:
    return [
        (year, code, title, office.index.weight(year, code))
        for year, (titles, *_) in office.plans.items()
        for code, title in titles.items()
    ]


ROWS: dict[str, Callable[[Kept], Iterable[Columns]]] = {
    "version": lambda office: [(2,)],
    "collector": lambda office: office.keys.items(),
    "outlet": lambda office: office.outlets.items(),
    "item": lambda office: [(code, *content) for code, content in office.items.items()],
    "node": node_rows,
    "plan_item": lambda office: [(year, *place) for year, plan in office.plans.items() for place in plan[2].items()],
    "calendar": lambda office: [(number(month), *window) for month, window in office.calendar.items()],
    **{name: lambda office: [] for name in EMPTY},
    "assignment_2": lambda office: [
        (*place, one.outlet, one.item, number(one.first), number(one.last), *one.series, one.copied)
        for place, one in office.assignments.items()
    ],
    "quote_2": lambda office: [
        (collector, slot, number(month), *mark_columns(mark), receipt)
        for (collector, slot, month), (mark, receipt) in office.quotes.items()
    ],
    **{f"{name}_2": partial(released, f"{name}_2") for name in OF_A_MONTH},
    "plan_ref": lambda office: [(year, number(plan[3])) for year, plan in office.plans.items() if plan[3]],
}


def rows_of(office: Kept, names: Iterable[str] = tuple(TABLES)) -> Rows:
    """The rows of some tables that the lists of a second office stand for."""
    return {name: sorted(ROWS[name](office)) for name in names}


# ---- schema 1


def first_of(rows: Rows) -> Rows:
    """The rows of schema 1 for those of an office without a further revision, a reference month or a hand-over."""
    releases = {name: [(month, *row) for month, _, *row in rows[f"{name}_2"]] for name in OF_A_MONTH}
    own = {"assignment": [row[:6] for row in rows["assignment_2"]], "quote": rows["quote_2"]}
    return {**{name: rows[name] for name in KEPT}, "version": [(1,)], **own, **releases}


def migrated(first: Rows) -> Rows:
    """The rows of schema 2 for those of schema 1: each slot has its own series, each release revision 1."""
    releases = {f"{name}_2": [(month, 1, *row) for month, *row in first[name]] for name in OF_A_MONTH}
    own = {"assignment_2": [(*row, *row[:2], None) for row in first["assignment"]], "quote_2": first["quote"]}
    old = {**{name: first[name] for name in KEPT}, **{name: [] for name in EMPTY}}
    return {**old, "version": [(2,)], **own, **releases, "plan_ref": []}


def make_first(path: str, rows: Rows) -> None:
    """A file of schema 1, by Python's sqlite3."""
    with contextlib.closing(sqlite3.connect(path)) as file, file:
        for name, text in FIRST_TABLES.items():
            file.execute(text)
            for row in rows[name]:
                file.execute(f"INSERT INTO {name} VALUES ({', '.join('?' * len(row))})", row)

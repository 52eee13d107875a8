"""The content of an office's file, as Python values: the only module with SQL, except `stored_pages`.
`docs/reference/FORMATS.md` describes the tables.

A file is read with Python's sqlite3, and so with the C library; it is always a copy, never a file that `cpi` has open.
"""

from __future__ import annotations

import contextlib
import hashlib
import json
import sqlite3
from collections import defaultdict
from collections.abc import Callable, Iterable, Iterator
from pathlib import Path
from typing import Any, NamedTuple, Optional

from ..text.terminal import Fault

Series = tuple[int, int]
"""The collector and the slot that a series was first given to."""

COMPARABLE = ("price", "comparable")
"""The marks of a price that is compared with the one before."""

OBSERVED = (*COMPARABLE, "other")
"""The marks of a price."""

REASONS = ("stock", "closed", "gone", "refused")
"""The marks of a missing price."""


class Release(NamedTuple):
    """A frozen month: its number, its revision, and the codes on its carry list."""

    month: int
    revision: int
    carry: tuple[str, ...]


class Frozen(NamedTuple):
    """A frozen quote: its series' item and last month; its mark, and the price in minor units, 0 if it is missing."""

    item: str
    last_month: int
    mark: str
    value: int


class Carried(NamedTuple):
    """The carried price of a series in a month: its item and last month; ticks, the scale's two numbers, two flags."""

    item: str
    last_month: int
    ticks: int
    knum: int
    kden: int
    observed: int
    imputed: int


class Level(NamedTuple):
    """The figures of a row of a table: weight in use, index and chained level in millionths of a point, changes in
    tenths of a percent (None if there is no annual change), and whether a price was imputed."""

    weight: int
    within: int
    chained: int
    month_change: int
    year_change: Optional[int]
    imputed: int


class Window(NamedTuple):
    """A row of the calendar: a month and its moments, in seconds since 1970 UTC."""

    month: int
    opens: int
    closes: int
    publishes: int


class Item(NamedTuple):
    """An item: its code, its text and unit, the tolerance in thousandths of the last price."""

    code: str
    text: str
    unit: str
    low: int
    high: int


Slot = tuple[int, int]
"""A collector and a slot of that collector's, whichever series is in it."""


class Assignment(NamedTuple):
    """A slot's item and outlet from its first to its last month, and their series."""

    collector: int
    slot: int
    outlet: int
    item: str
    first_month: int
    last_month: int
    series: Series

    def has_ended(self, month: int) -> bool:
        """Whether its last month is past in a month, so that the collector was to send nothing for it."""
        return self.last_month < month


class Plan(NamedTuple):
    """A year's plan: by code the titles of its nodes and their weights in parts per million, as sent and added up;
    by item its aggregate; the reference month, if there is one."""

    year: int
    titles: dict[str, str]
    weights: dict[str, int]
    places: dict[str, str]
    reference: Optional[int]

    def aggregates(self) -> dict[str, int]:
        """The weights of the elementary aggregates, whose codes are like `01.1.1.1-01`."""
        return {code: weight for code, weight in self.weights.items() if "-" in code}


class Quote(NamedTuple):
    """A finding: a mark and the price in minor units, or the reason why there is none and 0."""

    mark: str
    value: int


class StoredOffice:
    """The rows of an office's file."""

    def __init__(self, link: sqlite3.Connection):
        self._link = link

    def ask(self, text: str, *of: object) -> list[tuple[Any, ...]]:
        """The rows that answer a question in SQL."""
        return self._link.execute(text, of).fetchall()

    def define(self, name: str, function: Callable[..., int]) -> None:
        """Lets questions call a function of Python by a name."""
        self._link.create_function(name, -1, function)

    # ---- whether the file is sound

    def find_faults(self) -> Iterator[str]:
        """The faults that the C library finds in the file, and the rows that lack the row that they name; a line
        each."""
        for (text,) in self.ask("PRAGMA integrity_check"):
            # (one of its rows may be many lines, behind one that names the database)
            lines = [line for line in text.splitlines() if line != "ok" and not line.startswith("*** ")]
            yield from (f"integrity_check: {line}" for line in lines)
        for table, row, parent, _ in self.ask("PRAGMA foreign_key_check"):
            yield f"foreign_key_check: row {row} of {table} names no row of {parent}"

    def quick_fault(self) -> str:
        """The first fault that the C library finds as it checks each page and row, but not the keys; empty if there is
        none."""
        ((text,),) = self.ask("PRAGMA quick_check(1)")
        return next((line for line in text.splitlines() if line != "ok" and not line.startswith("*** ")), "")

    # ---- months

    def releases(self) -> list[Release]:
        """The frozen months, in the order of months and revisions."""
        rows = self.ask("SELECT month, revision, carry FROM release_2 ORDER BY month, revision")
        return [Release(month, revision, tuple(carry.split())) for month, revision, carry in rows]

    def frozen(self, release: Release) -> dict[Series, Frozen]:
        """The quotes that a release was computed from."""
        text = "SELECT collector, slot, item, last_month, mark, value FROM frozen_2 WHERE month = ? AND revision = ?"
        return {(row[0], row[1]): Frozen(*row[2:]) for row in self.ask(text, *release[:2])}

    def read_carried(self, release: Release) -> dict[Series, Carried]:
        """The carried prices of a release."""
        text = (
            "SELECT collector, slot, item, last_month, ticks, knum, kden, observed, imputed FROM carried_2"
            " WHERE month = ? AND revision = ?"
        )
        return {(row[0], row[1]): Carried(*row[2:]) for row in self.ask(text, *release[:2])}

    def levels(self, release: Release) -> dict[str, Level]:
        """The figures of a release's table, by code."""
        text = (
            "SELECT code, weight, within, chained, month_change, year_change, imputed FROM level_2"
            " WHERE month = ? AND revision = ?"
        )
        return {code: Level(*row) for code, *row in self.ask(text, *release[:2])}

    def titles(self, release: Release) -> dict[str, str]:
        """The titles of a release's table, by code."""
        text = "SELECT code, title FROM level_2 WHERE month = ? AND revision = ?"
        return dict(self.ask(text, *release[:2]))  # type: ignore[arg-type]

    def planned_titles(self, year: int) -> dict[str, str]:
        """The titles of a year's plan, by code."""
        return dict(self.ask("SELECT code, title FROM node WHERE year = ?", year))  # type: ignore[arg-type]

    def calendar(self) -> list[Window]:
        """The calendar, by month."""
        return [Window(*row) for row in self.ask("SELECT month, opens, closes, publishes FROM calendar ORDER BY month")]

    # ---- what was registered and planned

    def keys(self) -> dict[int, str]:
        """The key of each collector; it is never printed."""
        return dict(self.ask("SELECT number, key FROM collector ORDER BY number"))  # type: ignore[arg-type]

    def collectors(self) -> list[int]:
        """The numbers of the collectors."""
        return [int(row[0]) for row in self.ask("SELECT number FROM collector ORDER BY number")]

    def collector_of(self, key: str) -> Optional[int]:
        """The number of the collector who bears a key, if there is one."""
        collector = self.ask("SELECT number FROM collector WHERE key = ?", key)
        return int(collector[0][0]) if collector else None

    def outlets(self) -> dict[int, str]:
        """The name of each outlet."""
        return dict(self.ask("SELECT number, name FROM outlet ORDER BY number"))  # type: ignore[arg-type]

    def items(self) -> list[Item]:
        """The items, by code."""
        return [Item(*row) for row in self.ask("SELECT code, text, unit, low, high FROM item ORDER BY code")]

    def assignments(self) -> list[Assignment]:
        """All slots, in the order in which each series went from one to the next."""
        rows = self.ask(
            "SELECT collector, slot, outlet, item, first_month, last_month, series_collector, series_slot"
            " FROM assignment_2 ORDER BY series_collector, series_slot, first_month"
        )
        return [Assignment(*row[:6], (row[6], row[7])) for row in rows]  # type: ignore[call-arg]

    def plans(self) -> list[Plan]:
        """The plans, by year."""
        references = self.references()
        plans: dict[int, Plan] = {}
        for year, code, title, weight in self.ask("SELECT year, code, title, weight FROM node ORDER BY year, code"):
            plan = plans.setdefault(year, Plan(year, {}, {}, {}, references.get(year)))
            plan.titles[code] = title
            plan.weights[code] = weight
        for year, item, code in self.ask("SELECT year, item, code FROM plan_item ORDER BY year, item"):
            plans[year].places[item] = code
        return [*plans.values()]

    def references(self) -> dict[int, int]:
        """The reference month of each plan that has one, by year."""
        return dict(self.ask("SELECT year, month FROM plan_ref"))  # type: ignore[arg-type]

    def frozen_moments(self) -> dict[tuple[int, int], tuple[int, int]]:
        """By month and revision, when it was frozen and when it is published, in seconds since 1970 UTC."""
        rows = self.ask("SELECT month, revision, frozen_at, publishes FROM release_2")
        return {(month, revision): (frozen_at, publishes) for month, revision, frozen_at, publishes in rows}

    def quotes(self, month: int) -> dict[Slot, Quote]:
        """The stored quotes of a month, by the collector and the slot that they were sent for."""
        text = "SELECT collector, slot, mark, value FROM quote_2 WHERE month = ?"
        return {(row[0], row[1]): Quote(row[2], row[3]) for row in self.ask(text, month)}

    def months_of_quotes(self) -> list[int]:
        """The months that have a stored quote."""
        return [month for (month,) in self.ask("SELECT DISTINCT month FROM quote_2 ORDER BY month")]

    # ---- series and quotes

    def series(self) -> dict[Series, tuple[str, int]]:
        """The item of each series, and the greatest last month among its assignments."""
        rows = self.ask(
            "SELECT series_collector, series_slot, item, max(last_month) FROM assignment_2"
            " GROUP BY series_collector, series_slot"
        )
        return {(collector, slot): (item, last) for collector, slot, item, last in rows}

    def count_of_quotes(self) -> int:
        """The number of stored quotes."""
        return int(self.ask("SELECT count(*) FROM quote_2")[0][0])

    def quotes_beside_frozen(self) -> tuple[int, int]:
        """For the months in their latest revisions: how many frozen quotes have no stored quote, and how many have a
        stored quote that differs by now."""
        ((lost, other),) = self.ask(
            """
            SELECT coalesce(sum(stored.month IS NULL), 0), coalesce(sum(stored.mark <> frozen.mark
              OR stored.value <> frozen.value), 0)
            FROM frozen_2 AS frozen
            LEFT JOIN (
              SELECT a.series_collector, a.series_slot, q.month, q.mark, q.value
              FROM quote_2 AS q JOIN assignment_2 AS a ON a.collector = q.collector AND a.slot = q.slot
            ) AS stored ON stored.series_collector = frozen.collector AND stored.series_slot = frozen.slot
              AND stored.month = frozen.month
            WHERE frozen.revision = (SELECT max(revision) FROM release_2 WHERE month = frozen.month)
            """
        )
        return lost, other

    # ---- what stands for a month

    def receipts(self, month: int) -> dict[Slot, int]:
        """The receipt of each stored quote of a month, by the slot that it was sent for."""
        text = "SELECT collector, slot, receipt FROM quote_2 WHERE month = ?"
        return {(collector, slot): receipt for collector, slot, receipt in self.ask(text, month)}

    def response(self, month: int) -> list[tuple[int, int, str, str, int]]:
        """The number of a month's slots by collector, outlet, item and mark, which is empty if nothing was sent."""
        rows = self.ask(
            "SELECT a.collector, a.outlet, a.item, coalesce(q.mark, ''), count(*) FROM assignment_2 AS a"
            " LEFT JOIN quote_2 AS q ON q.collector = a.collector AND q.slot = a.slot AND q.month = ?"
            " WHERE ? BETWEEN a.first_month AND a.last_month GROUP BY 1, 2, 3, 4",
            *(month, month),
        )
        return [(collector, outlet, item, mark, count) for collector, outlet, item, mark, count in rows]

    def last_sent(self) -> dict[int, tuple[int, int]]:
        """By collector: the latest month with a quote, and the greatest receipt."""
        rows = self.ask("SELECT collector, max(month), max(receipt) FROM quote_2 GROUP BY collector")
        return {collector: (month, receipt) for collector, month, receipt in rows}

    def fingerprint(self, tables: Iterable[str]) -> str:
        """A sum over the content of some tables, in hexadecimal."""
        fingerprint = hashlib.sha256()
        for table in tables:
            for row in self._link.execute(f"SELECT * FROM {table} ORDER BY 1, 2"):
                fingerprint.update(repr(row).encode())
        return fingerprint.hexdigest()

    def copied_prices(self) -> dict[Slot, int]:
        """The price that was handed over with each slot, if there was one, in minor units."""
        text = "SELECT collector, slot, copied FROM assignment_2 WHERE copied IS NOT NULL"
        return {(collector, slot): copied for collector, slot, copied in self.ask(text)}

    def last_prices(self, month: int) -> dict[Slot, int]:
        """The last price of each slot before a month, in minor units, if it has one."""
        text = "SELECT collector, slot, value, max(month) FROM quote_2 WHERE month < ? AND value > 0"
        rows = self.ask(f"{text} GROUP BY collector, slot", month)
        return {**self.copied_prices(), **{(collector, slot): value for collector, slot, value, _ in rows}}

    def months_of_last_prices(self, month: int) -> dict[Series, int]:
        """The latest month before this one in which each series was observed, whoever had it."""
        rows = self.ask(
            "SELECT a.series_collector, a.series_slot, max(q.month) FROM quote_2 AS q"
            " JOIN assignment_2 AS a ON a.collector = q.collector AND a.slot = q.slot"
            " WHERE q.month < ? AND q.value > 0 GROUP BY a.series_collector, a.series_slot",
            month,
        )
        return {(collector, slot): latest for collector, slot, latest in rows}

    def months_observed(self, first: int, last: int) -> dict[Series, list[int]]:
        """The months from one to another in which each series was observed, whoever had it, in their order."""
        rows = self.ask(
            "SELECT a.series_collector, a.series_slot, q.month FROM quote_2 AS q"
            " JOIN assignment_2 AS a ON a.collector = q.collector AND a.slot = q.slot"
            " WHERE q.month BETWEEN ? AND ? AND q.value > 0 ORDER BY q.month",
            *(first, last),
        )
        lists: dict[Series, list[int]] = defaultdict(list)
        for collector, slot, month in rows:
            lists[collector, slot].append(month)
        return lists

    def frozen_of(self, series: Series) -> dict[tuple[int, int], Frozen]:
        """The frozen quotes of a series, by month and revision."""
        text = "SELECT month, revision, item, last_month, mark, value FROM frozen_2 WHERE collector = ? AND slot = ?"
        return {(row[0], row[1]): Frozen(*row[2:]) for row in self.ask(text, *series)}

    def carried_of(self, series: Series) -> dict[tuple[int, int], Carried]:
        """The carried prices of a series, by month and revision."""
        text = (
            "SELECT month, revision, item, last_month, ticks, knum, kden, observed, imputed FROM carried_2"
            " WHERE collector = ? AND slot = ?"
        )
        return {(row[0], row[1]): Carried(*row[2:]) for row in self.ask(text, *series)}

    def quotes_of_slot(self, slot: Slot) -> dict[int, tuple[str, int, int]]:
        """Mark, price and receipt of each quote of a slot, by month."""
        text = "SELECT month, mark, value, receipt FROM quote_2 WHERE collector = ? AND slot = ?"
        return {month: (mark, value, receipt) for month, mark, value, receipt in self.ask(text, *slot)}

    def quotes_of_series(self, wanted: Iterable[Series]) -> dict[Series, dict[int, tuple[str, int]]]:
        """By series the mark and price of each of its quotes, from any collector, by month; a series without one isn't
        there.

        It is one query: assignments have no index of their series, so it reads all of them once, and of the quotes only
        those that it returns (`CROSS JOIN` keeps SQLite from beginning with these).
        """
        text = (
            "SELECT a.series_collector, a.series_slot, q.month, q.mark, q.value FROM assignment_2 AS a"
            " CROSS JOIN quote_2 AS q ON q.collector = a.collector AND q.slot = a.slot"
            " WHERE (a.series_collector, a.series_slot) IN"
            " (SELECT json_extract(value, '$[0]'), json_extract(value, '$[1]') FROM json_each(?)) ORDER BY q.month"
        )
        quotes: dict[Series, dict[int, tuple[str, int]]] = defaultdict(dict)
        for collector, slot, month, mark, value in self.ask(text, json.dumps([*wanted])):
            quotes[collector, slot][month] = mark, value
        return dict(quotes)

    def last_quotes(self, most: int, newer: int = 0) -> list[tuple[int, int, int, int]]:
        """Collector, slot, month and receipt of the quotes that came new last, the latest first, without a number of newer
        ones. (A quote that was put right stays in its row.)"""
        text = "SELECT collector, slot, month, receipt FROM quote_2 ORDER BY rowid DESC LIMIT ? OFFSET ?"
        return [(collector, slot, month, receipt) for collector, slot, month, receipt in self.ask(text, most, newer)]

    def count_growing(self) -> tuple[int, ...]:
        """The figures that only grow: how many collectors, outlets, items, slots, months of the calendar, releases and
        quotes there are, and the sum of the receipts."""
        tables = ("collector", "outlet", "item", "assignment_2", "calendar", "release_2", "quote_2")
        counts = ", ".join(f"(SELECT count(*) FROM {table})" for table in tables)
        ((*found,),) = self.ask(f"SELECT {counts}, (SELECT coalesce(sum(receipt), 0) FROM quote_2)")
        return tuple(found)

    def last_receipts(self) -> dict[int, int]:
        """The last receipt of each collector."""
        rows = self.ask("SELECT collector, max(receipt) FROM quote_2 GROUP BY collector")
        return {collector: receipt for collector, receipt in rows}

    def all_quotes(self) -> Iterator[tuple[int, int, int, str, int, int]]:
        """Collector, slot, month, mark, value and receipt of each stored quote."""
        yield from self._link.execute("SELECT collector, slot, month, mark, value, receipt FROM quote_2")

    def latest_quotes(self, month: int) -> dict[Slot, tuple[int, str]]:
        """Month and mark of the latest quote of each slot up to a month, if it has one."""
        text = "SELECT collector, slot, mark, max(month) FROM quote_2 WHERE month <= ? GROUP BY collector, slot"
        return {(collector, slot): (latest, mark) for collector, slot, mark, latest in self.ask(text, month)}


class NotAnOffice(Fault):
    """A file without the tables of an office; one line."""


SCHEMA = 2
"""The tables that are read here."""


@contextlib.contextmanager
def read_copy(copy: Path) -> Iterator[StoredOffice]:
    """The rows of a copy that nothing else has open. Raises NotAnOffice if it isn't an office's file."""
    try:
        with stored_office(copy) as office:
            versions = office.ask("SELECT number FROM version")
            if versions != [(SCHEMA,)]:
                raise NotAnOffice(f"{copy.name} has tables of an earlier cpi: open it once with this one")
            yield office
    except sqlite3.Error as fault:
        raise NotAnOffice(f"{copy.name} can't be read as an office: {fault}") from fault


@contextlib.contextmanager
def unchanged_office(path: Path) -> Iterator[StoredOffice]:
    """The rows of a file and its log, neither of which is written: the C library's files next to them are removed
    again. Raises sqlite3.Error if it isn't a database."""
    try:
        with contextlib.closing(sqlite3.connect(f"{path.absolute().as_uri()}?mode=ro", uri=True)) as link:
            yield StoredOffice(link)
    finally:
        path.with_name(f"{path.name}-shm").unlink(missing_ok=True)


@contextlib.contextmanager
def stored_office(path: Path, is_settled: bool = False) -> Iterator[StoredOffice]:
    """The rows of a file that nobody writes to.

    `is_settled` says that its log is in it, so nothing at all is written next to it; otherwise the C library may put
    the log into the file. Raises sqlite3.Error if it isn't a database.
    """
    how = "mode=ro&immutable=1" if is_settled else "mode=rw"
    with contextlib.closing(sqlite3.connect(f"{path.absolute().as_uri()}?{how}", uri=True)) as link:
        yield StoredOffice(link)

"""What the data files of this folder say, and the desk's records of it."""

from __future__ import annotations

import calendar
import collections
import csv
import io
import os
from collections.abc import Iterable, Iterator, Mapping
from typing import NamedTuple, Optional

HERE = os.path.dirname(os.path.abspath(__file__))
ZONE = "CET-1CEST,M3.5.0,M10.5.0/3"

Row = tuple[object, ...]
"""The fields of a record, or the cells of a row."""


class Series(NamedTuple):
    """A series as the desk assigns it: whose it is, its outlet and item, and its first and last month (2025-12)."""

    collector: int
    slot: int
    outlet: int
    item: str
    first: str
    last: str


class Held(NamedTuple):
    """Who prices a series from a month on, with the slot."""

    first: str
    collector: int
    slot: int


def rows_of(name: str) -> list[dict[str, str]]:
    """The rows of a data file, each by the names of its columns."""
    with open(os.path.join(HERE, f"{name}.csv"), encoding="utf-8", newline="") as file:
        return list(csv.DictReader(file))


def text_of(rows: Iterable[Iterable[object]]) -> str:
    """Rows as CSV."""
    written = io.StringIO()
    csv.writer(written, lineterminator="\n").writerows(rows)
    return written.getvalue()


def moment(month: str, day: int, hour: int) -> int:
    """Seconds since 1970 of a full hour, UTC."""
    year, number = map(int, month.split("-"))
    return calendar.timegm((year, number, day, hour, 0, 0))


class Office:
    """The example's office as its desk knows it."""

    def __init__(self) -> None:
        self.basket, self.outlets = rows_of("basket"), rows_of("outlets")
        self.items = {row["item"]: row for row in rows_of("items")}
        self.calendar: dict[str, list[dict[str, str]]] = collections.defaultdict(list)
        for row in rows_of("calendar"):
            self.calendar[row["month"]].append(row)
        self.months = sorted(self.calendar)
        self.plans = {row["year"]: row for row in rows_of("plans")}
        self.keys = {int(row["collector"]): row["key"] for row in rows_of("collectors")}
        self.series = list(self.assigned())
        self.held = {series: [Held(series.first, series.collector, series.slot)] for series in self.series}
        self.handed: dict[str, list[Row]] = {row["month"]: [] for row in rows_of("handovers")}
        for row in sorted(rows_of("handovers"), key=lambda row: row["month"]):
            self.handed[row["month"]] += self.handed_over(row["month"], int(row["collector"]), int(row["to"]))

    def assigned(self) -> Iterator[Series]:
        """Every outlet prices each item of its kind and region; a collector's slots are counted outlet by outlet."""
        slots = collections.Counter[int]()
        for outlet in self.outlets:
            collector = int(outlet["collector"])
            for item, row in sorted(self.items.items()):
                if row["sold_in"] == outlet["kind"] and row["region"] in ("", outlet["region"]):
                    slots[collector] += 1
                    first = max(outlet["first"], row["first"])
                    last = min(outlet["last"], row["last"] or outlet["last"])
                    yield Series(collector, slots[collector], int(outlet["outlet"]), item, first, last)

    def handed_over(self, month: str, collector: int, to: int) -> Iterator[Row]:
        """All series of a collector that go on in the month get the next slots of another."""
        slots = max(held.slot for each in self.held.values() for held in each if held.collector == to)
        for series in sorted(self.series, key=lambda series: self.held[series][-1].slot):
            held = self.held[series][-1]
            if held.collector == collector and held.first < month <= series.last:
                slots += 1
                self.held[series].append(Held(month, to, slots))
                yield "handover", collector, held.slot, to, slots, month

    def holder(self, series: Series, month: str) -> Held:
        """Who prices a series in a month, with the slot."""
        return [held for held in self.held[series] if held.first <= month][-1]

    def weights(self, year: str) -> dict[str, int]:
        """The weights of a year by aggregate; an aggregate without one isn't in that year's plan."""
        column = f"weight_{year}"
        return {row["code"]: int(row[column]) for row in self.basket if row.get(column)}

    def spent(self, year: str) -> Optional[list[tuple[str, int, str]]]:
        """What was spent on each aggregate of a year's plan, with the year or the month at whose prices it is; None if
        the plan's weights are sent as they stand in the basket.

        What wasn't in the plan of the year before has no levels there, so it is at prices of the link month.
        """
        spent_in, before = self.plans[year]["spent_in"], str(int(year) - 1)
        if not spent_in:
            return None
        known = self.weights(before)
        return [
            (code, weight, spent_in if code in known else f"{before}-12") for code, weight in self.weights(year).items()
        ]

    # ---- the desk's records

    def registered(self) -> Iterator[list[Row]]:
        """The bodies of the imports by which the office begins."""
        goods = self.items.values()
        yield [("item", *[row[name] for name in ("item", "text", "unit", "low", "high")]) for row in goods]
        yield [("outlet", row["outlet"], row["name"]) for row in self.outlets]
        yield [("collector", number, key) for number, key in self.keys.items()]
        yield [("assign", *series) for series in self.series]

    def plan(self, year: str, weights: Mapping[str, int]) -> str:
        """The rows of a year's plan with its weights, in parts per million."""
        titles = [("T", row["code"], row["title"]) for row in self.basket]
        placed = [(item, row["aggregate"]) for item, row in self.items.items() if row["aggregate"] in weights]
        rows: list[Row] = [*titles, *(("W", *pair) for pair in weights.items()), *(("I", *pair) for pair in placed)]
        reference = self.plans[year]["reference"]
        rows += [("R", reference)] if reference else []
        return text_of(rows)

    def is_reopened(self, month: str) -> bool:
        """Whether a month has a second row in the calendar, so that it gets a revision."""
        return len(self.calendar[month]) > 1

    def window(self, month: str, revision: int = 1) -> list[str]:
        """The calendar row of a month's revision, as the desk sends it."""
        row = self.calendar[month][revision - 1]
        return [month, row["opens"], row["closes"], row["publishes"]]

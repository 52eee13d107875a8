"""The survey of examples/national, from its data files and the quotes that its collectors send: the stored quotes."""

from __future__ import annotations

import collections
import csv
import datetime
import functools
import os
from typing import NamedTuple, Optional

from second_office.requests import Record

from .places import TOP
from .records import rows_of

EXAMPLE = os.path.join(TOP, "examples/national")
ZONE = "CET-1CEST,M3.5.0,M10.5.0/3"

Place = tuple[int, int]
"""Collector and slot; for a series, those to which it was first given."""


class Quote(NamedTuple):
    """A mark, and a price if there is one."""

    mark: str
    price: Optional[int]


def data(name: str) -> list[dict[str, str]]:
    """The rows of a data file."""
    with open(os.path.join(EXAMPLE, f"{name}.csv"), encoding="utf-8", newline="") as file:
        return list(csv.DictReader(file))


@functools.lru_cache(None)
def previous(month: str) -> str:
    """The month before."""
    year, number = map(int, month.split("-"))
    return f"{year}-{number - 1:02}" if number > 1 else f"{year - 1}-12"


@functools.lru_cache(None)
def year_before(month: str) -> str:
    """The same month of the year before."""
    return f"{int(month[:4]) - 1}{month[4:]}"


class Survey:
    """The data files, and the stored quotes."""

    def __init__(self, prices: list[Record]) -> None:
        self.items = {row["item"]: row for row in data("items")}
        self.months = sorted(CALENDAR)
        self.collector_of = {row["key"]: int(row["collector"]) for row in data("collectors")}
        self.series: dict[Place, tuple[str, str, str]] = {}  # item, first and last month
        slots = collections.Counter[int]()
        for outlet in data("outlets"):
            for item, row in sorted(self.items.items()):
                if row["sold_in"] == outlet["kind"] and row["region"] in ("", outlet["region"]):
                    number = int(outlet["collector"])
                    slots[number] += 1
                    months = [month for month in self.months if outlet["first"] <= month <= outlet["last"]]
                    months = [month for month in months if row["first"] <= month <= (row["last"] or month)]
                    self.series[number, slots[number]] = item, months[0], months[-1]
        self.slots = {place: (place, first, last) for place, (_, first, last) in self.series.items()}
        self.handed: list[tuple[Place, Place, Place, str]] = []  # series, the slots before and after, and the month
        for row in sorted(data("handovers"), key=lambda row: row["month"]):
            self.hand_over(row["month"], int(row["collector"]), int(row["to"]), slots)
        self.quotes: dict[str, dict[Place, Quote]] = {month: {} for month in self.months}
        self.at_first: dict[str, dict[Place, Quote]] = {}
        """The quotes of the first revision of a reopened month."""
        self.last: dict[Place, dict[str, int]] = {}
        self.refused = collections.Counter[int]()
        for moment, key, _, body in prices:
            for _, slot, month, mark, value, *confirm in rows_of(body):
                place, first, last = self.slots[self.collector_of[key], int(slot)]
                if first <= month <= last:
                    quote = Quote(mark, None if mark == "missing" else int(value))
                    self.take(int(moment), place, month, quote, bool(confirm))
                else:
                    self.refused[22] += 1

    def hand_over(self, month: str, collector: int, to: int, slots: collections.Counter[int]) -> None:
        """Ends the slots of one collector before a month, and continues the same series in new slots of another
        collector."""
        for former in sorted(place for place in self.slots if place[0] == collector):
            series, first, last = self.slots[former]
            if first < month <= last:
                slots[to] += 1
                self.slots[former], self.slots[to, slots[to]] = (series, first, previous(month)), (series, month, last)
                self.handed.append((series, former, (to, slots[to]), month))

    # (from here on a place is the series: nothing that a former collector sends after a hand-over is stored, since the
    # windows of the months before have closed, so the copied price is the last one of the series)

    def of_revision(self, month: str, revision: int) -> dict[Place, Quote]:
        """The quotes that were stored when a revision of a month was frozen."""
        return self.at_first.get(month, self.quotes[month]) if revision == 1 else self.quotes[month]

    def take(self, moment: int, place: Place, month: str, quote: Quote, is_confirmed: bool) -> None:
        """Stores a quote, or counts its refusal."""
        if self.quotes[month].get(place) == quote:
            return
        begins, ends = window(month, moment)
        if begins != window(month)[0] and month not in self.at_first:
            self.at_first[month] = dict(self.quotes[month])
        if not begins <= moment < ends:
            self.refused[24 if moment >= ends else 23] += 1
        elif not is_confirmed and self.is_outside(place, month, quote):
            self.refused[26] += 1
        else:
            self.quotes[month][place] = quote
            if quote.price is not None:
                self.last.setdefault(place, {})[month] = quote.price

    def is_outside(self, place: Place, month: str, quote: Quote) -> bool:
        """Whether a price that can be compared is too far from the last one."""
        if quote.price is None or quote.mark not in ("price", "comparable"):
            return False
        earlier = [at for at in self.last.get(place, {}) if at < month]
        if not earlier:
            return False
        item, last = self.items[self.series[place][0]], self.last[place][max(earlier)]
        return not int(item["low"]) * last <= 1000 * quote.price <= int(item["high"]) * last


@functools.lru_cache(None)
def seconds(civil: str) -> int:
    """The moment of a civil time of Central Europe such as 2026-01-28T09:30, in seconds since 1970."""
    local = datetime.datetime.fromisoformat(f"{civil}+00:00")
    summer_begins, summer_ends = (last_sunday(local.year, at) for at in (3, 10))
    return int(local.timestamp()) - 3600 * (2 if summer_begins <= local.date() < summer_ends else 1)


def window(month: str, moment: int = 0) -> tuple[int, int]:
    """The first window of a month, from the 1st at 06:00 to the 24th at 18:00 of Central Europe, in seconds since 1970; if
    the month was reopened, the second one from its beginning on."""
    for row in CALENDAR[month][1:]:
        if seconds(row["opens"]) <= moment:
            return seconds(row["opens"]), seconds(row["closes"])
    return seconds(f"{month}-01T06:00"), seconds(f"{month}-24T18:00")


def published_at(month: str, revision: int = 1) -> int:
    """The 28th at 09:30 of Central Europe, in seconds since 1970; for a later revision, the time in its calendar
    row."""
    return seconds(f"{month}-28T09:30" if revision == 1 else CALENDAR[month][revision - 1]["publishes"])


def revisions(month: str) -> list[int]:
    """The numbers of a month's revisions."""
    return [*range(1, len(CALENDAR[month]) + 1)]


def last_sunday(year: int, month: int) -> datetime.date:
    days = (datetime.date(year, month, day) for day in range(31, 24, -1))
    return next(day for day in days if day.weekday() == 6)


CALENDAR: dict[str, list[dict[str, str]]] = {}
"""The rows of the office's calendar by month: a second one reopens the month."""
for _row in data("calendar"):
    CALENDAR.setdefault(_row["month"], []).append(_row)

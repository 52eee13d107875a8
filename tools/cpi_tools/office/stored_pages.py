"""Pages of an office's registered rows: the rows that contain each word of a search, so many at a time. They are read
from a copy, as in `stored`, and quickly for 200,000 series: the text of an outlet or an item is read once, and not for
each of its slots.

No row here contains a collector's key.
"""

from __future__ import annotations

import json
from collections.abc import Mapping, Sequence
from typing import Any, NamedTuple

from .stored import Assignment, Series, StoredOffice

Cells = tuple[Any, ...]
"""A row's cells; months are numbers like 202601."""


class Listing(NamedTuple):
    """A list: its columns, the SQL of its rows without an order, the order, the condition in SQL that a row contains a
    word, and the columns by which the list can be cut down to one value."""

    columns: tuple[str, ...]
    rows: str
    order: str
    has_word: str
    cut_by: tuple[str, ...] = ()


COUNTED = "LEFT JOIN (SELECT {0} AS counted, count(*) AS slots FROM assignment_2 GROUP BY {0}) ON counted = {1}"

OF_A_SLOT = (
    "outlet IN (SELECT number FROM outlet WHERE has(name, :word))"
    " OR item IN (SELECT code FROM item WHERE has(code || ' ' || text, :word)) OR :word IN ({})"
)


def month(column: str) -> str:
    """A month as `2026-01`, in SQL."""
    return f"substr({column}, 1, 4) || '-' || substr({column}, 5)"


LISTINGS: dict[str, Listing] = {
    "items": Listing(
        ("item", "text", "unit", "low", "high", "slots"),
        "SELECT code AS item, text, unit, low, high, coalesce(slots, 0) AS slots FROM item "
        + COUNTED.format("item", "code"),
        "item",
        "has(item || ' ' || text || ' ' || unit, :word)",
    ),
    "outlets": Listing(
        ("outlet", "name", "slots"),
        "SELECT number AS outlet, name, coalesce(slots, 0) AS slots FROM outlet " + COUNTED.format("outlet", "number"),
        "outlet",
        "has(outlet || ' ' || name, :word)",
    ),
    "collectors": Listing(
        ("collector", "slots"),
        "SELECT number AS collector, coalesce(slots, 0) AS slots FROM collector "
        + COUNTED.format("collector", "number"),
        "collector",
        "collector || '' = :word",
    ),
    "assignments": Listing(
        ("collector", "slot", "outlet", "name", "item", "text", "first", "last", "series"),
        "SELECT a.collector, a.slot, a.outlet, o.name, a.item, i.text, a.first_month AS first, a.last_month AS last,"
        " a.series_collector || '/' || a.series_slot AS series FROM assignment_2 AS a"
        " JOIN outlet AS o ON o.number = a.outlet JOIN item AS i ON i.code = a.item",
        "collector, slot",
        OF_A_SLOT.format(
            f"collector || '', outlet || '', collector || '/' || slot, series, {month('first')}, {month('last')}"
        ),
        ("collector", "outlet", "item"),
    ),
    "handovers": Listing(
        ("collector", "slot", "to", "to_slot", "month", "outlet", "name", "item", "text"),
        'SELECT h.of AS collector, h.of_slot AS slot, h.collector AS "to", h.slot AS to_slot, h.first_month AS month,'
        " h.outlet, o.name, h.item, i.text FROM (SELECT *, lag(collector) OVER held AS of, lag(slot) OVER held AS of_slot"
        " FROM assignment_2 WHERE (series_collector, series_slot) IN (SELECT series_collector, series_slot"
        " FROM assignment_2 WHERE (collector, slot) <> (series_collector, series_slot))"
        " WINDOW held AS (PARTITION BY series_collector, series_slot ORDER BY first_month)) AS h"
        " JOIN outlet AS o ON o.number = h.outlet JOIN item AS i ON i.code = h.item WHERE h.of IS NOT NULL",
        "month DESC, collector, slot",
        OF_A_SLOT.format(
            "collector || '', \"to\" || '', outlet || '', collector || '/' || slot, \"to\" || '/' || to_slot,"
            f" {month('month')}"
        ),
        ("outlet", "item"),
    ),
}
"""The lists by their names."""


class Found(NamedTuple):
    """So many rows were found, and these are some of them, from the row `first` on (0 is the first of all)."""

    total: int
    first: int
    rows: list[Cells]


def found_in(
    office: StoredOffice, name: str, query: str, cut: Mapping[str, str], first: int = 0, most: int = -1
) -> Found:
    """The rows of a list that have each word of a query, and exactly these values in the columns that it is cut down by;
    `most` of them, all if it is negative. Past the last row there are the last ones.

    A word is in a text somewhere, in any case of letters; a number, a slot like `7/2` or a month is a whole cell."""
    listing = LISTINGS[name]
    office.define("has", lambda text, word: int(word in str(text).casefold()))
    values = [(column, text) for column, text in cut.items() if text and column in listing.cut_by]
    tests = [f"CAST({column} AS TEXT) = ?" for column, _ in values]
    given = [text for _, text in values]
    for word in query.casefold().split():
        # (a name that is bound twice is one value, so each word has a number of its own)
        given.append(word)
        tests.append(f"({listing.has_word.replace(':word', f'?{len(given)}')})")
    text = f"FROM ({listing.rows}){' WHERE ' + ' AND '.join(tests) if tests else ''}"
    ((count,),) = office.ask(f"SELECT count(*) {text}", *given)
    start = max(0, min(first, (count - 1) // most * most if most > 0 else 0))
    rows = (
        office.ask(f"SELECT * {text} ORDER BY {listing.order} LIMIT ? OFFSET ?", *given, most, start) if count else []
    )
    return Found(count, start, rows)


def slots_of(office: StoredOffice, collectors: Sequence[int]) -> list[Assignment]:
    """All slots of some collectors."""
    slots = list[Assignment]()
    for collector in collectors:
        rows = office.ask(
            "SELECT collector, slot, outlet, item, first_month, last_month, series_collector, series_slot"
            " FROM assignment_2 WHERE collector = ? ORDER BY slot",
            collector,
        )
        slots += [Assignment(*row[:6], (row[6], row[7])) for row in rows]  # type: ignore[call-arg]
    return slots


def last_months_of(office: StoredOffice, collectors: Sequence[int]) -> dict[Series, int]:
    """The greatest last month of each series that was first given to one of some collectors, whoever has it."""
    text = (
        "SELECT series_collector, series_slot, max(last_month) FROM assignment_2 WHERE series_collector IN"
        " (SELECT value FROM json_each(?)) GROUP BY series_collector, series_slot"
    )
    rows = office.ask(text, json.dumps([*collectors]))
    return {(collector, slot): month for collector, slot, month in rows}


def collectors_in(office: StoredOffice) -> list[int]:
    """The numbers of the collectors."""
    return [number for (number,) in office.ask("SELECT number FROM collector ORDER BY number")]


def key_of(office: StoredOffice, collector: int) -> str:
    """The key of one collector that there is, for the sheet that is handed to that person."""
    ((key,),) = office.ask("SELECT key FROM collector WHERE number = ?", collector)
    return str(key)

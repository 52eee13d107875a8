"""Limits of the releases in a file: their headers, frozen quotes, carried prices, and the rows of their tables."""

from __future__ import annotations

from collections.abc import Callable, Iterator
from functools import partial

from .limit import DONE, Limit, month_of
from .months import INDEX, LEVEL, TICKS, Months
from .numbers import MOMENT, MONTH, PRICE, REVISION
from .places import FROZEN, KA, NODES, ONE, Records
from .stored import MOMENTS, MONTHS, NOT_READ, Stored, column, number_of
from .texts import NAME

WEIGHT = "that of a node above is their sum, at most 10^15"
OF_AGGREGATE = "| weight in use of an elementary aggregate | 1 to 10^9;"


def frozen(count: int) -> Records:
    """An office with so many frozen months, in which the next month can be frozen."""
    office = Months(["RICE"])
    office.plan(2026, {ONE: 1_000_000}, {"RICE": ONE})
    for _ in range(count):
        office.freeze({1: "price,100"})
    month = month_of(office.at)
    office.put("calendar", month, "0", "5000", "5000")
    office.records.append(["0", KA, "quote", "1", month, "price", "100"])
    return office.records


def told_tables(revision: int = 1, publishes: int = 1000) -> str:
    """The list of the published tables."""
    return f'{{"tables":[["2025-12",{revision},{publishes}]]}}'


def headers() -> Iterator[Limit[Stored]]:
    """The header of a release."""
    read = partial(column, before=FROZEN, asked="9999999999,public,tables", outside=NOT_READ)
    yield read("UPDATE release_2 SET revision = ?", (1, 9), REVISION, within=lambda at: told_tables(revision=at))
    yield read("UPDATE release_2 SET publishes = ?", MOMENTS, MOMENT, within=lambda at: told_tables(publishes=at))
    yield read("UPDATE release_2 SET frozen_at = ?", MOMENTS, MOMENT, within=told_tables())


def prices() -> Iterator[Limit[Stored]]:
    """Frozen quotes and carried prices, which the next freeze reads."""
    read = partial(column, within=DONE, outside=NOT_READ)
    first = {"before": frozen(1), "asked": "5000,desk,freeze,2026-01"}
    yield read("UPDATE frozen_2 SET value = ?", (1, 100_000_000), PRICE, **first)
    second = {"before": frozen(2), "asked": "5000,desk,freeze,2026-02"}
    yield read("UPDATE carried_2 SET ticks = ? WHERE month = 202601", (1, 10**15), TICKS, **second)
    yield read("UPDATE carried_2 SET last_month = ? WHERE month = 202601", MONTHS, MONTH, number_of, **second)


def decimals(millionths: int) -> str:
    """Points with six decimals."""
    return f"{millionths // 10**6}.{millionths % 10**6:06}"


def text_of(length: int) -> str:
    """A title of so many characters."""
    return "x" * length


def table_with(code: str, at: int, printed: Callable[[int], str], value: int) -> str:
    """The table of January as CSV, with another value in a field of one code."""
    rows = {node: [node, "1000000", "100.000000", "100.000000", "0.0", "", "0", node] for node in [*NODES, ONE]}
    rows[code][at] = printed(value)
    return '{"table":"' + "".join(",".join(row) + "\\n" for row in rows.values()) + '"}'


OF_TABLES: list[tuple[str, str, int, int, str, Callable[[int], str], Callable[[int], str]]] = [
    # the column, the code of the row, the field when it is printed, the most, how it is stored and printed
    ("weight", "00", 1, 10**15, WEIGHT, str, str),
    ("weight", ONE, 1, 10**9, OF_AGGREGATE, str, str),
    ("within", "00", 2, 10**13, INDEX, str, decimals),
    ("within", ONE, 2, 10**13, INDEX, str, decimals),
    ("chained", "00", 3, 10**15, LEVEL, str, decimals),
    ("chained", ONE, 3, 10**15, LEVEL, str, decimals),
    ("title", "00", 7, 400, NAME, text_of, text_of),
]


def tables() -> Iterator[Limit[Stored]]:
    """Rows of a table, which are read when it is printed."""
    read = partial(column, before=frozen(2), asked="9000,public,table,2026-01,csv", outside=NOT_READ, floor=0)
    for name, code, at, most, said, stored, printed in OF_TABLES:
        statement = f"UPDATE level_2 SET {name} = '?' WHERE month = 202601 AND code = '{code}'"
        told, is_said = partial(table_with, code, at, printed), said != WEIGHT
        yield read(statement, (1, most), said, stored, within=told, is_said=is_said)


LIMITS = [*headers(), *prices(), *tables()]

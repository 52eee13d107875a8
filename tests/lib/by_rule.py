"""Plans and quotes of many aggregates, made with a rule, as the records of a desk and of collectors."""

from __future__ import annotations

import itertools
from collections.abc import Iterable, Iterator
from typing import NamedTuple, Optional

from .offices import key_of

SLOTS = 400  # of a collector

Mark = tuple[Optional[str], Optional[int]]
"""The kind of a quote and its price."""


class Size(NamedTuple):
    aggregates: int
    subclasses: int  # over which the aggregates are spread
    series: int
    months: int


NATIONAL = Size(aggregates=6_532, subclasses=130, series=200_000, months=3)


def aggregate_of(n: int, subclasses: int) -> str:
    """The code of the n-th elementary aggregate: 13 divisions, and each further digit in turn."""
    number, place = divmod(n, subclasses)
    digits = [place // 13 % 10, place // 130 % 10, place // 1300 % 10]
    return f"{1 + place % 13:02}." + ".".join(map(str, digits)) + f"-{1 + number:02}"


def codes_above(code: str) -> list[str]:
    """The codes of the nodes above an aggregate."""
    subclass = code.partition("-")[0]
    return ["00", subclass[:2], subclass[:4], subclass[:6], subclass]


def title_of(code: str) -> str:
    return f"Title of {code}"


def month_of(turn: int) -> str:
    """The first December has the turn 0."""
    return f"{2025 + (11 + turn) // 12}-{(11 + turn) % 12 + 1:02}"


def mark_of(n: int, turn: int) -> Mark:
    """The kind of a series' quote in a month and its price; (None, None) for no quote."""
    if (n % 1019 + turn) % 97 == 0:
        return None, None
    if (n % 1009 + turn) % 17 == 0:
        return "missing", None
    if (n % 1013 + turn) % 41 == 0:
        return "other", 500 + n % 977
    return "comparable" if (n % 1013 + turn) % 43 == 0 else "price", 1000 + n % 977 + turn


def is_in_year(n: int, year: int) -> bool:
    """Whether the series' last month is the year's January or later; the years are counted."""
    return year < 1 or n % 23 != 0


class Plan:
    """The plan of a year: from each year to the next, one aggregate in twenty leaves and another one is new."""

    def __init__(self, size: Size, year: int) -> None:
        count, first = size.aggregates, year * (size.aggregates // 20)
        parts, rest = divmod(1_000_000, count)
        self.codes: dict[int, str] = {}  # by item
        self.weights: dict[str, int] = {}  # by code
        for place in range(count):
            n = first + place
            code = aggregate_of(n, size.subclasses)
            self.codes[n % count] = code
            self.weights[code] = parts + (place < rest) + (n // 2 % 7) * (1 - n % 2 * 2)


# ---- the records


def imported(caller: str, rows: Iterable[str]) -> str:
    return f'{caller},import,"' + "\n".join(rows) + '"'


def series_of(size: Size) -> Iterator[tuple[int, list[tuple[int, int]]]]:
    """By collector: the own slots, each with the number of its series."""
    for first in range(0, size.series, SLOTS):
        yield 1 + first // SLOTS, [*enumerate(range(first, min(first + SLOTS, size.series)), 1)]


def plan_record(size: Size, year: int) -> str:
    plan = Plan(size, year)
    nodes = {node for code in plan.weights for node in [*codes_above(code), code]}
    rows = [f"T,{node},{title_of(node)}" for node in sorted(nodes)]
    rows += [f"W,{code},{weight}" for code, weight in plan.weights.items()]
    rows += [f"I,I{item},{code}" for item, code in plan.codes.items()]
    return f'0,desk,plan,{2026 + year},"' + "\n".join(rows) + '"'


def lasting(n: int) -> str:
    """The first and the last month of a series."""
    return f"{month_of(-1)},{'2027' if is_in_year(n, 1) else '2026'}-12"


def setup(size: Size) -> Iterator[str]:
    """The records before the first December's quotes; of November there are some, as last prices."""
    for item in range(size.aggregates):
        yield f"0,desk,item,I{item},Item {item},1 kg,1,10000"
    yield "0,desk,outlet,1,Outlet"
    for collector, slots in series_of(size):
        yield f"0,desk,collector,{collector},{key_of(collector)}"
        rows = (f"assign,{collector},{slot},1,I{n % size.aggregates},{lasting(n)}" for slot, n in slots)
        yield imported("0,desk", rows)
    for turn in range(-1, size.months):
        yield f"0,desk,calendar,{month_of(turn)},0,1000,1000"
    for year in range(1 + (size.months - 2) // 12):
        yield plan_record(size, year)
    yield from quotes(size, -1)


def quotes(size: Size, turn: int) -> Iterator[str]:
    """The quotes of a month, an import for each collector."""
    year = (turn - 1) // 12
    for collector, slots in series_of(size):
        entries = ((slot, entry_of(n, turn)) for slot, n in slots if is_in_year(n, year))
        rows = [f"quote,{slot},{month_of(turn)},{entry}" for slot, entry in entries if entry]
        if rows:
            yield imported(f"10,{key_of(collector)}", rows)


def entry_of(n: int, turn: int) -> str | None:
    """The mark and the value that are sent; None for no quote."""
    if turn < 0:
        return f"price,{1000 + n % 977}" if begins_replaced(n) else None
    kind, price = mark_of(n, turn)
    return f"{kind},{price or 'stock'}" if kind else None


def begins_replaced(n: int) -> bool:
    """Whether the first price of a series from the December on is the price of a replacement, which needs a price
    before it."""
    marks = (mark_of(n, turn) for turn in itertools.count())
    return next(kind for kind, price in marks if price) != "price"


def freeze_record(turn: int) -> str:
    return f"1000,desk,freeze,{month_of(turn)}"


def table_record(turn: int) -> str:
    return f"1000,public,table,{month_of(turn)},csv"


def records_of(size: Size) -> Iterator[str]:
    yield from setup(size)
    for turn in range(size.months):
        yield from quotes(size, turn)
        yield freeze_record(turn)
        yield table_record(turn)

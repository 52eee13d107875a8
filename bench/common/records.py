"""The records of a made-up survey, as `cpi replay` reads them; the same ones each time.

50 items, an outlet for each collector, 400 slots of each, and a calendar whose windows are all open. The prices come
month by month.
"""

from __future__ import annotations

import random
from collections.abc import Iterable, Iterator, Sequence
from typing import Optional

from cpi_tools.text.terminal import Fault

COLLECTORS, SLOTS, ITEMS = 200, 400, 50
"""Of a national survey; the slots are those of a collector, and as many as one may have."""

MOST_ROWS = 20_000
"""The rows that one plan or one import may have."""


def month_of(turn: int, year: int = 2026) -> str:
    """A month by its turn: 0 is the January of the year, -1 the December before it."""
    return f"{year + turn // 12}-{turn % 12 + 1:02}"


def months_of(count: int, first: int = 0) -> list[str]:
    """So many months, from a turn of 2026 on."""
    return [month_of(turn) for turn in range(first, first + count)]


MONTHS = months_of(12)


def key_of(collector: int) -> str:
    """The key of a collector."""
    return f"{collector:032x}"


def make_import(moment: int, caller: str, rows: Iterable[str]) -> str:
    """The record of an import."""
    return f'{moment},{caller},import,"' + "\n".join(rows) + '"'


def make_setup(collectors: int, months: Sequence[str] = tuple(MONTHS), slots: int = SLOTS) -> Iterator[str]:
    """The desk's records: items, outlets, collectors, assignments and calendar rows."""
    for item in range(ITEMS):
        yield f'0,desk,item,ITEM{item},"Item {item}, loose",1 kg,1,10000'
    for collector in range(1, collectors + 1):
        yield f"0,desk,outlet,{collector},Outlet {collector}"
        yield f"0,desk,collector,{collector},{key_of(collector)}"
        for slot in range(1, slots + 1):
            yield f"0,desk,assign,{collector},{slot},{collector},ITEM{slot % ITEMS},{months[0]},{months[-1]}"
    for month in months:
        yield f"0,desk,calendar,{month},0,1000,1000"


def make_quote(collector: int, slot: int, month: str, price: int) -> str:
    """The record of a price."""
    return f"10,{key_of(collector)},quote,{slot},{month},price,{price}"


def make_prices(collectors: Iterable[int], months: Iterable[str] = tuple(MONTHS)) -> Iterator[str]:
    """A price for each slot and month, by month, and within a month by collector."""
    drawn, numbers = random.Random(7), list(collectors)
    for month in months:
        for collector in numbers:
            for slot in range(1, SLOTS + 1):
                yield make_quote(collector, slot, month, drawn.randint(100, 200))


def make_plan(
    year: int, codes: Sequence[str], places: Iterable[tuple[str, str]], reference: Optional[str] = None
) -> str:
    """The record of a plan: elementary aggregates of nearly one weight with all codes above them, and items with their
    places. With a reference the weights are of that month. Fault: it has more rows than a plan may have."""
    above = {code[:length] for code in codes for length in (2, 4, 6, 8)}
    weight, rest = divmod(1_000_000, len(codes))
    rows = [f"T,{code},Title of {code}" for code in ["00", *sorted(above), *codes]]
    rows += [f"W,{code},{weight + (number < rest)}" for number, code in enumerate(codes)]
    rows += [f"I,{item},{code}" for item, code in places]
    rows += [f"R,{reference}"] if reference else []
    if len(rows) > MOST_ROWS:
        raise Fault(f"the plan has {len(rows):,} rows, and {MOST_ROWS:,} at most are allowed")
    return f'0,desk,plan,{year},"' + "\n".join(rows) + '\n"'

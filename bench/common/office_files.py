"""Files of offices that `cpi` makes and the C library of SQLite fills, since a commit for each quote takes long."""

from __future__ import annotations

import itertools
import sqlite3
from collections.abc import Callable, Iterable, Iterator, Sequence
from pathlib import Path

from .processes import run_command
from .records import ITEMS, SLOTS, make_setup, months_of

QuoteRow = tuple[int, int, int, int, int]
"""Collector, slot, month as 202601, price in minor units, and receipt."""

Order = Callable[[int, Sequence[str]], Iterator[QuoteRow]]
"""Gives a price for each slot of so many collectors in each of some months."""

BLOCK = 80_000
"""Quotes of one transaction."""


def number_of(month: str) -> int:
    """202601 of `2026-01`."""
    return int(month[:4]) * 100 + int(month[5:])


def price_of(slot: int) -> int:
    """The price of a slot, the same in each month."""
    return 100 + slot % 100


def quotes_by_key(collectors: int, months: Sequence[str]) -> Iterator[QuoteRow]:
    """Quotes in the order of their keys: collector by collector, slot by slot."""
    for collector in range(1, collectors + 1):
        for slot in range(1, SLOTS + 1):
            for turn, month in enumerate(months):
                yield collector, slot, number_of(month), price_of(slot), turn * SLOTS + slot


def quotes_by_month(collectors: int, months: Sequence[str]) -> Iterator[QuoteRow]:
    """The same quotes in the order in which an office gets them: month by month."""
    for turn, month in enumerate(months):
        for collector in range(1, collectors + 1):
            for slot in range(1, SLOTS + 1):
                yield collector, slot, number_of(month), price_of(slot), turn * SLOTS + slot


def fill_table(path: Path, table: str, rows: Iterable[Sequence[object]]) -> None:
    """Adds rows to a table, some in each transaction; the log is in the file in the end."""
    office, left = sqlite3.connect(path), iter(rows)
    while block := list(itertools.islice(left, BLOCK)):
        with office:
            office.executemany(f"INSERT INTO {table} VALUES ({', '.join('?' * len(block[0]))})", block)
    office.execute("PRAGMA wal_checkpoint(TRUNCATE)")
    office.close()


def make_office(program: str, path: Path, collectors: int, quotes: int, order: Order = quotes_by_month) -> list[str]:
    """Makes the file of an office with so many quotes: its months, of which the last two have none."""
    months = months_of(-(-quotes // (collectors * SLOTS)) + 2)
    records = (record for record in make_setup(collectors, months) if ",assign," not in record)
    run_command([program, "replay", "--db", str(path)], "".join(f"{record}\n" for record in records).encode())
    ends = number_of(months[0]), number_of(months[-1])
    assignments = (
        (collector, slot, collector, f"ITEM{slot % ITEMS}", *ends, collector, slot, None)
        for collector in range(1, collectors + 1)
        for slot in range(1, SLOTS + 1)
    )
    fill_table(path, "assignment_2", assignments)
    rows = itertools.islice(order(collectors, months[:-2]), quotes)
    fill_table(path, "quote_2", ((*row[:3], "price", *row[3:]) for row in rows))
    return months

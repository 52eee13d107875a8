"""An office that has aged: its file as years leave it, with each price three times: quoted, frozen and carried.

SQLite fills the tables that `cpi` made. An office has collectors with 400 slots each, one item per slot and one
elementary aggregate per item, in five subclasses. No price changes, so that each index is 100, and a drill finds
nothing wrong. The quotes of a month come by all collectors in turn.
"""

from __future__ import annotations

import calendar
import contextlib
import shutil
import sqlite3
import subprocess
from collections.abc import Iterator
from pathlib import Path

SLOTS, SUBCLASSES, FIRST_YEAR = 400, 5, 2016
DAY = 86_400

FIRST_DECEMBER = 100 * (FIRST_YEAR - 1) + 12
"""The month with whose prices the prices of the first January are compared. A month is year * 100 + month."""

FAR = 2_000_000_000
"""A moment far ahead, at which the window of the last month closes, in seconds since 1970 UTC."""

NUMBERS = "WITH RECURSIVE number (at) AS (SELECT 1 UNION ALL SELECT at + 1 FROM number LIMIT :many)"
PRICE = "50 + (collector * 7919 + slot * 104729) % 49950"
TURN = "(collector * 48271 + slot * 16807) % 2147483647"

SURVEY = (
    ("item", "SELECT printf('ITEM%04d', at), 'Item ' || at || ', as described', '1 kg', 500, 2000 FROM number", True),
    ("collector", "SELECT at, printf('%032x', at) FROM number", False),
    ("outlet", "SELECT at, 'Shop ' || at || ', Main street' FROM number", False),
    (
        "assignment_2",
        f"SELECT number, at, number, printf('ITEM%04d', at), {FIRST_DECEMBER}, 219912, number, at, NULL"
        " FROM collector CROSS JOIN number",
        True,
    ),
)
"""The statements that fill the tables of the survey: a table, its rows, and whether they are made per slot, or else per
collector."""

QUOTES = f"""
INSERT INTO quote_2 SELECT collector, slot, :month, 'price', {PRICE}, :before + row_number() OVER (PARTITION BY collector
ORDER BY {TURN}) FROM assignment_2 ORDER BY {TURN}
"""

FROZEN = f"""
INSERT INTO frozen_2 SELECT :month, 1, collector, slot, item, last_month, 'price', {PRICE} FROM assignment_2
"""

CARRIED = f"""
INSERT INTO carried_2 SELECT :month, 1, collector, slot, item, last_month, 10000 * ({PRICE}), 10000, 1, 1, 0
FROM assignment_2
"""

LEVELS = """
INSERT INTO level_2 SELECT :month, 1, code, title, weight, 100000000, 100000000, 0, :annual, 0 FROM node WHERE year = :year
"""


def elementary_of(slot: int) -> str:
    """The code of the elementary aggregate of a slot's item."""
    subclass, number = divmod(slot - 1, SLOTS // SUBCLASSES)
    return f"01.1.1.{subclass + 1}-{number + 1:02}"


def nodes() -> Iterator[tuple[str, int]]:
    """The codes of a plan with their weights in millionths."""
    whole = 1_000_000
    yield from ((code, whole) for code in ("00", "01", "01.1", "01.1.1"))
    yield from ((f"01.1.1.{number + 1}", whole // SUBCLASSES) for number in range(SUBCLASSES))
    yield from ((elementary_of(slot), whole // SLOTS) for slot in range(1, SLOTS + 1))


def first_of(month: int) -> int:
    """The moment at which a month begins, in seconds since 1970 UTC."""
    return calendar.timegm((month // 100, month % 100, 1, 0, 0, 0))


def after(month: int) -> int:
    """The month after one."""
    return month + 1 if month % 100 < 12 else month + 89


def turn_of(month: int) -> int:
    """The number of months after the first December."""
    return 12 * (month // 100) + month % 100 - 12 * FIRST_YEAR


def last_month(years: int) -> int:
    """The last month of an office that is so many years old."""
    return 100 * (FIRST_YEAR + years - 1) + 12


@contextlib.contextmanager
def opened(path: Path) -> Iterator[sqlite3.Connection]:
    """The file of an office for one transaction, whose log is merged into the file at the end."""
    office = sqlite3.connect(path, isolation_level=None)
    office.execute("PRAGMA synchronous = OFF")
    office.execute("BEGIN")
    yield office
    office.execute("COMMIT")
    office.execute("PRAGMA wal_checkpoint(TRUNCATE)")
    office.close()


def begin(program: str, path: Path, collectors: int) -> None:
    """Makes the file of an office in its first year: its survey, and its first December."""
    subprocess.run([program, "replay", "--db", path], input=b"", stdout=subprocess.DEVNULL, check=True)
    with opened(path) as office:
        for table, rows, is_by_slots in SURVEY:
            many = SLOTS if is_by_slots else collectors
            office.execute(f"INSERT INTO {table} {NUMBERS} {rows}", {"many": many})
        quote(office, FIRST_DECEMBER)
        freeze(office, FIRST_DECEMBER)


def grow(path: Path, year: int) -> None:
    """Adds one year: each month is quoted and frozen, with its carried prices and its table."""
    with opened(path) as office:
        plan(office, year)
        for month in range(100 * year + 1, 100 * year + 13):
            quote(office, month)
            freeze(office, month)
            office.execute(CARRIED, {"month": month})
            annual = None if turn_of(month) < 12 else 0
            office.execute(LEVELS, {"month": month, "annual": annual, "year": year})


def go_on(path: Path, years: int) -> None:
    """Adds the current months of an office of so many years: a month with all quotes that isn't frozen yet, and the
    next one, whose window is open."""
    month = after(last_month(years))
    with opened(path) as office:
        plan(office, month // 100)
        quote(office, month)
        open_window = (after(month), first_of(after(month)), FAR, FAR + 1)
        office.execute("INSERT INTO calendar VALUES (?, ?, ?, ?)", open_window)


def copy(path: Path, to: Path) -> None:
    """Copies the file of an office that nobody has open."""
    shutil.copyfile(path, to)


def plan(office: sqlite3.Connection, year: int) -> None:
    """Adds the plan of a year."""
    rows = ((year, code, f"Title of {code}", weight) for code, weight in nodes())
    office.executemany("INSERT INTO node VALUES (?, ?, ?, ?)", rows)
    items = ((year, f"ITEM{slot:04}", elementary_of(slot)) for slot in range(1, SLOTS + 1))
    office.executemany("INSERT INTO plan_item VALUES (?, ?, ?)", items)


def quote(office: sqlite3.Connection, month: int) -> None:
    """Adds a month's row of the calendar and all its quotes. The table comes out nine days after the window."""
    closes = first_of(after(month))
    row = (month, first_of(month), closes, closes + 9 * DAY)
    office.execute("INSERT INTO calendar VALUES (?, ?, ?, ?)", row)
    office.execute(QUOTES, {"month": month, "before": turn_of(month) * SLOTS})


def freeze(office: sqlite3.Connection, month: int) -> None:
    """Adds a month's freeze with its frozen quotes, a day after the window."""
    closes = first_of(after(month))
    office.execute("INSERT INTO release_2 VALUES (?, 1, ?, ?, '')", (month, closes + DAY, closes + 9 * DAY))
    office.execute(FROZEN, {"month": month})

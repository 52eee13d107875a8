#!/usr/bin/env python3
"""A yardstick for `cpi replay`: what one would write today with Python's csv and the C library of SQLite.

The same records in, the same reply lines out, for the words item, outlet, collector, assign, calendar, quote (of a
price) and quotes, with the checks of an office that a valid input meets.

    yardstick.py < RECORDS          the office is in memory
    yardstick.py FILE < RECORDS     it is in a new database file, and each record that is accepted is one durable commit

    yardstick.py --freezes FILE < RECORDS

Only the words freeze and tables, over an office of docs/reference/FORMATS.md that is in the file. A month is computed
from the rows that a freeze reads, and its release is one durable commit. Prices are in minor units, ticks are 1/10,000
of these, and a month is a number such as 202601.
"""

from __future__ import annotations

import csv
import json
import sqlite3
import sys
from collections.abc import Iterable, Iterator, Mapping, Sequence
from typing import Any, Optional, Union

Reply = dict[str, object]
"""A reply line before it is written."""

Row = tuple[Any, ...]
"""A row as SQLite gives it."""

TABLES = """
CREATE TABLE item (code TEXT PRIMARY KEY, text, unit, low, high) WITHOUT ROWID;
CREATE TABLE outlet (number INTEGER PRIMARY KEY, name);
CREATE TABLE collector (number INTEGER PRIMARY KEY, key TEXT UNIQUE);
CREATE TABLE assignment (collector, slot, outlet, item, first_month, last_month,
    PRIMARY KEY (collector, slot)) WITHOUT ROWID;
CREATE TABLE calendar (month INTEGER PRIMARY KEY, opens, closes, publishes);
CREATE TABLE quote (collector, slot, month, mark, value, receipt, PRIMARY KEY (collector, slot, month)) WITHOUT ROWID;
CREATE INDEX quote_receipt ON quote (collector, receipt);
"""
LAST_PRICE = """SELECT value FROM quote WHERE collector = ? AND slot = ? AND month < ?
    ORDER BY month DESC LIMIT 1"""
PUT_QUOTE = """INSERT INTO quote VALUES (?, ?, ?, 'price', ?, ?)
    ON CONFLICT DO UPDATE SET mark = 'price', value = excluded.value, receipt = excluded.receipt"""
QUOTES = """SELECT slot, month, mark, value, receipt FROM quote WHERE collector = ? AND month BETWEEN ? AND ?
    ORDER BY month, slot"""


class Office:
    """An office in memory, or in a new file."""

    def __init__(self, file: Optional[str]) -> None:
        self.db = sqlite3.connect(file or ":memory:", isolation_level=None)
        if file:
            self.db.execute("PRAGMA journal_mode = WAL")
            self.db.execute("PRAGMA synchronous = FULL")
        self.db.executescript(TABLES)

    def find(self, statement: str, *values: object) -> Optional[Row]:
        """The first row of a question, if there is one."""
        row: Optional[Row] = self.db.execute(statement, values).fetchone()
        return row

    def reply(self, fields: Sequence[str]) -> Reply:
        """The reply to a record."""
        moment, caller, word, *rest = fields
        if caller == "desk":
            return self.command(word, rest)
        collector = self.find("SELECT number FROM collector WHERE key = ?", caller)
        if not collector:
            return {"refused": 11}
        if word == "quotes":
            rows = self.db.execute(QUOTES, (collector[0], number_of(rest[0]), number_of(rest[1])))
            return {"quotes": [[slot, text_of(at), *values] for slot, at, *values in rows]}
        return self.submit(collector[0], int(moment), int(rest[0]), number_of(rest[1]), int(rest[3]), len(rest) == 5)

    def command(self, word: str, rest: Sequence[str]) -> Reply:
        """Carries out a command of the desk."""
        row: list[Union[int, str]]
        if word == "item":
            table, row = "item", [*rest[:3], int(rest[3]), int(rest[4])]
        elif word == "outlet" or word == "collector":
            table, row = word, [int(rest[0]), rest[1]]
        elif word == "assign":
            table, row = "assignment", [*map(int, rest[:3]), rest[3], number_of(rest[4]), number_of(rest[5])]
        else:
            table, row = "calendar", [number_of(rest[0]), *map(int, rest[1:])]
        self.db.execute(f"INSERT INTO {table} VALUES ({', '.join('?' * len(row))})", row)
        return {"done": True}

    def submit(self, collector: int, now: int, slot: int, at: int, price: int, is_confirmed: bool) -> Reply:
        """The receipt of a price, or why it is refused."""
        assigned = self.find(
            "SELECT item, first_month, last_month FROM assignment WHERE collector = ? AND slot = ?", collector, slot
        )
        if not assigned:
            return {"refused": 20}
        item, first, last = assigned
        stored = self.find(
            "SELECT value, receipt FROM quote WHERE collector = ? AND slot = ? AND month = ?", collector, slot, at
        )
        if stored and stored[0] == price:
            return {"receipt": stored[1]}
        window = self.find("SELECT opens, closes FROM calendar WHERE month = ?", at)
        if not window:
            return {"refused": 21}
        if not first <= at <= last:
            return {"refused": 22}
        if now < window[0]:
            return {"refused": 23}
        if now >= window[1]:
            return {"refused": 24}
        before = self.find(LAST_PRICE, collector, slot, at)
        if before and not is_confirmed:
            low, high = self.db.execute("SELECT low, high FROM item WHERE code = ?", (item,)).fetchone()
            low, high = -(-before[0] * low // 1000), before[0] * high // 1000
            if not low <= price <= high:
                return {"high": high, "last": before[0], "low": low, "refused": 26}
        greatest = self.find("SELECT max(receipt) FROM quote WHERE collector = ?", collector)
        receipt = ((greatest and greatest[0]) or 0) + 1
        self.db.execute(PUT_QUOTE, (collector, slot, at, price, receipt))
        return {"receipt": receipt}


MONTH_QUOTES = """SELECT a.collector, a.slot, a.item, a.last_month, q.mark, q.value
    FROM assignment_2 AS a JOIN quote_2 AS q ON q.collector = a.collector AND q.slot = a.slot AND q.month = ?
    ORDER BY a.collector, a.slot"""
FROZEN_QUOTES = "SELECT collector, slot, item, last_month, mark, value FROM frozen_2 WHERE month = ? AND revision = 1"
CARRIED = """SELECT collector, slot, item, last_month, ticks, knum, kden, observed FROM carried_2
    WHERE month = ? AND revision = 1 ORDER BY collector, slot"""
LEVELS = "SELECT code, chained FROM level_2 WHERE month = ? AND revision = 1"
WHOLE, MOST = 10**8, 10**15
"""An index of 100, and the most ticks of a price, or a level, that the office stores."""

Sample = Mapping[tuple[int, int], tuple[str, Row]]
"""By series, its aggregate, and its base as a row of `carried`."""


def divide(over: int, under: int) -> int:
    """A quotient of numbers above 0, rounded half up."""
    return (2 * over + under) // (2 * under)


def change_of(before: int, now: int) -> int:
    """The change between two levels, in tenths of a percent."""
    size = divide(1000 * abs(now - before), before)
    return size if now >= before else -size


class Lack(Exception):
    """A freeze is refused by 49, with a fault and the code where it is."""

    def __init__(self, fault: int, code: str) -> None:
        super().__init__(fault, code)
        self.fault, self.code = fault, code


class Releases:
    """The freezes of an office whose tables are in a file, by the rules of docs/reference/OFFICE.md: of each month only
    the first revision."""

    def __init__(self, file: str) -> None:
        self.db = sqlite3.connect(file, isolation_level=None)
        self.db.execute("PRAGMA journal_mode = WAL")
        self.db.execute("PRAGMA synchronous = FULL")
        self.db.execute("PRAGMA foreign_keys = ON")

    def read(self, statement: str, *values: object) -> list[Row]:
        """The rows of a question."""
        return self.db.execute(statement, values).fetchall()

    def reply(self, fields: Sequence[str]) -> Reply:
        """The reply to a record."""
        moment, _, word, *rest = fields
        if word == "tables":
            rows = self.read("SELECT month, publishes FROM release_2 WHERE publishes <= ? ORDER BY month", int(moment))
            return {"tables": [[text_of(at), 1, publishes] for at, publishes in rows]}
        at, carry = number_of(rest[0]), rest[1:]
        months = [month for (month,) in self.read("SELECT month FROM release_2 ORDER BY month")]
        if at in months:
            return {"refused": 50}
        if at != month_after(months[-1]) if months else at % 100 != 12:
            return {"refused": 46}
        window = self.read("SELECT closes, publishes FROM calendar WHERE month = ?", at)
        if not window:
            return {"refused": 21}
        if int(moment) < window[0][0]:
            return {"refused": 47}
        try:
            return self.freeze(int(moment), window[0][1], at, carry, months[-1] if months else None)
        except Lack as lack:
            return {"code": lack.code, "fault": lack.fault, "refused": 49}

    def freeze(self, moment: int, publishes: int, at: int, carry: Sequence[str], last: Optional[int]) -> Reply:
        """Freezes a month after the last one, if there is one. Lack: its table can't be computed."""
        quotes, prices, levels = self.read(MONTH_QUOTES, at), list[Row](), list[Row]()
        if last:
            nodes = self.read("SELECT code, title, weight FROM node WHERE year = ? ORDER BY code", at // 100)
            if not nodes:
                return {"refused": 48}
            link = at // 100 * 100 - 88
            sample = self.sample(at // 100, link)
            prices = move_prices(sample, self.before(sample, link, last), quotes, carry)
            levels = [*self.table(at, link, last, nodes, sample, prices)]
        self.db.execute("BEGIN IMMEDIATE")
        header = at, moment, publishes, " ".join(sorted(set(carry)))
        self.db.execute("INSERT INTO release_2 VALUES (?, 1, ?, ?, ?)", header)
        self.db.executemany("INSERT INTO frozen_2 VALUES (?, 1, ?, ?, ?, ?, ?, ?)", ((at, *row) for row in quotes))
        self.db.executemany(f"INSERT INTO carried_2 VALUES ({at}, 1, {', '.join('?' * 9)})", prices)
        self.db.executemany(f"INSERT INTO level_2 VALUES ({at}, 1, {', '.join('?' * 8)})", levels)
        self.db.execute("COMMIT")
        return {"done": True}

    def sample(self, year: int, link: int) -> Sample:
        """By series, in order: the aggregate, and the base as a row of `carried`."""
        placed = self.read("SELECT item, code FROM plan_item WHERE year = ?", year)
        places: dict[str, str] = {item: code for item, code in placed}
        bases: dict[tuple[int, int], Row] = {(row[0], row[1]): row for row in self.read(CARRIED, link)}
        for collector, slot, item, last, _, value in self.read(FROZEN_QUOTES, link):
            if value:
                bases[collector, slot] = collector, slot, item, last, 10_000 * value, 10_000, 1, 1
        taken = sorted(series for series, row in bases.items() if row[3] > link and row[2] in places)
        return {series: (places[bases[series][2]], bases[series]) for series in taken}

    def before(self, sample: Sample, link: int, last: int) -> Iterable[Row]:
        """What the sample's series count as in the month before, as rows of `carried`."""
        return (row for _, row in sample.values()) if last == link else self.read(CARRIED, last)

    def read_levels(self, month: int) -> dict[str, int]:
        """The chained levels of a month, by code."""
        return {code: level for code, level in self.read(LEVELS, month)}

    def table(
        self, at: int, link: int, last: int, nodes: Sequence[Row], sample: Sample, prices: Sequence[Row]
    ) -> Iterator[Row]:
        """The rows of the table, by code."""
        ups, downs, sums = dict[str, int](), dict[str, int](), dict[str, list[int]]()
        for (code, base), price in zip(sample.values(), prices):
            ups[code] = ups.get(code, 0) + price[4]
            downs[code] = downs.get(code, 0) + base[4]
            if price[8]:
                sums.setdefault(code, [0, 0])[1] = 1
        for code, _, weight in nodes:
            if len(code) < 11:
                continue
            if code not in ups:
                raise Lack(1, code)
            index, is_imputed = divide(WHOLE * ups[code], downs[code]), sums.get(code, (0, 0))[1]
            for node in ("00", code[:2], code[:4], code[:6], code[:8], code):
                whole = sums.setdefault(node, [0, 0])
                whole[0] += weight * index
                whole[1] |= is_imputed
        links, lasts, years = (self.read_levels(month) for month in (link, last, at - 100))
        for code, title, weight in nodes:
            linked, within = links.get(code, WHOLE), divide(sums[code][0], weight)
            level = divide(linked * within, WHOLE)
            if not 1 <= level <= MOST:
                raise Lack(3, code)
            year = linked if at % 100 == 12 else years.get(code)
            by_month = change_of(linked if last == link else lasts[code], level)
            yield code, title, weight, within, level, by_month, year and change_of(year, level), sums[code][1]


def move_prices(sample: Sample, before: Iterable[Row], quotes: Sequence[Row], carry: Sequence[str]) -> list[Row]:
    """The carried prices of a month, by series, as rows of `carried`. Lack: an aggregate has no price, and isn't
    carried."""
    quoted = {(collector, slot): (mark, value) for collector, slot, _, _, mark, value in quotes}
    ups, downs, prices, rest = dict[str, int](), dict[str, int](), list[Row](), list[tuple[int, str, int]]()
    for row in before:
        collector, slot, item, last, ticks, up, down, was_observed = row
        code, mark, value = sample[collector, slot][0], *quoted.get((collector, slot), ("", 0))
        if mark != "price" and mark != "comparable":
            rest.append((len(prices), code, value))
            prices.append(row)
            continue
        now = (2 * value * up + down) // (2 * down)
        if was_observed:
            ups[code] = ups.get(code, 0) + now
            downs[code] = downs.get(code, 0) + ticks
        prices.append((collector, slot, item, last, now, up, down, 1, 0))
    for at, code, value in rest:
        collector, slot, item, last, ticks, up, down, _ = prices[at]
        if code in downs:
            ticks = (2 * ticks * ups[code] + downs[code]) // (2 * downs[code])
        elif code not in carry:
            raise Lack(2, min(code for _, code, _ in rest if code not in downs and code not in carry))
        prices[at] = (collector, slot, item, last, ticks, *((ticks, value, 1) if value else (up, down, 0)), 1)
    for row in prices:
        if not 1 <= row[4] <= MOST:
            raise Lack(3, min(sample[row[0], row[1]][0] for row in prices if not 1 <= row[4] <= MOST))
    return prices


def month_after(at: int) -> int:
    """The month after one."""
    return at + 1 if at % 100 < 12 else at + 89


def number_of(text: str) -> int:
    """202601 of `2026-01`."""
    return int(text[:4]) * 100 + int(text[5:])


def text_of(at: int) -> str:
    """`2026-01` of 202601."""
    return f"{at // 100}-{at % 100:02}"


def main() -> None:
    words = sys.argv[1:]
    office: Union[Office, Releases] = (
        Releases(words[1]) if words[:1] == ["--freezes"] else Office(words[0] if words else None)
    )
    for fields in csv.reader(sys.stdin):
        sys.stdout.write(json.dumps(office.reply(fields), separators=(",", ":"), sort_keys=True) + "\n")


if __name__ == "__main__":
    main()

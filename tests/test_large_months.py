"""Compares the tables of a year with a second computation, in three sizes up to that of a nation.

Plans and quotes are made by a rule (lib/by_rule.py). `cpi replay` is given the records of a desk and of collectors who
send them: it freezes a December, the year after it and a January with another plan, and prints each table; of national
size only the December, January and February, with as many aggregates in thirteen divisions as the body of a plan holds.
Here the same tables are computed from the same plans and quotes by the method as docs/reference/OFFICE.md tells it, with
whole numbers, and each row is compared. That the computation has nothing in common with the one of the second office,
not even its rounding, is what the comparison is worth.

The tests of a size go to one process, which sends its records once. A short run leaves out the second size.
"""

from __future__ import annotations

import functools
import json
import re
from collections import defaultdict
from collections.abc import Callable, Iterator
from typing import Optional

import pytest

from lib.by_rule import (
    NATIONAL, Mark, Plan, Size, codes_above, is_in_year, mark_of, month_of, records_of, table_record, title_of,
)  # fmt: skip
from lib.fault import Fault
from lib.program import PATIENCE, Program

HUNDRED = 100_000_000
REFUSED = re.compile(r'\{[^{}]*"refused"[^{}]*\}')
SIZES: dict[Size, list[pytest.MarkDecorator]] = {
    Size(aggregates=40, subclasses=13_000, series=400, months=14): [],
    Size(aggregates=2_000, subclasses=13_000, series=20_000, months=14): [pytest.mark.long],
    NATIONAL: [],
}
"""Each with what marks it: a short run leaves out the second."""


Carried = dict[int, tuple[int, int, int, bool]]
"""By series: ticks, scale up and down, and whether they were imputed."""

Levels = dict[str, int]
"""By node."""

Row = tuple[str, int, int, int, int, Optional[int], bool]
"""Code, weight, index, level, both changes, and whether something was imputed."""


def rounded(a: int, b: int) -> int:
    return (2 * a + b) // (2 * b)


# ---- the method


class Year:
    """A year's plan, its bases in ticks, and the link levels of its nodes; and what its months come to."""

    def __init__(self, size: Size, year: int, bases: Carried, links: Levels) -> None:
        self.count, self.plan, self.links = size.aggregates, Plan(size, year), links
        self.bases = {n: ticks for n, ticks in bases.items() if is_in_year(n, year)}

    def carried(self, before: Carried, marks: list[Mark], earlier: list[Mark]) -> Carried:
        """By series: ticks, scale, and whether they were imputed; from the month before, and the marks of both."""
        rows: Carried = {}
        lacking: list[tuple[int, int | None]] = []
        now, then = [0] * self.count, [0] * self.count
        for n, (ticks, up, down, _) in before.items():
            kind, price = marks[n]
            if price is None or kind == "other":
                lacking.append((n, price))
                continue
            own = rounded(price * up, down)
            rows[n] = own, up, down, False
            if earlier[n][1] is not None:
                now[n % self.count] += own
                then[n % self.count] += ticks
        for n, price in lacking:
            ticks, up, down, _ = before[n]
            value = rounded(ticks * now[n % self.count], then[n % self.count])
            rows[n] = (value, up, down, True) if price is None else (value, value, price, True)
        return rows

    def elementary(self, carried: Carried) -> dict[str, tuple[int, bool]]:
        """The Dutot index of each aggregate and whether something was imputed, by code."""
        now, base, flags = [0] * self.count, [0] * self.count, [False] * self.count
        for n, (ticks, _, _, is_imputed) in carried.items():
            now[n % self.count] += ticks
            base[n % self.count] += self.bases[n][0]
            flags[n % self.count] |= is_imputed
        return {code: (rounded(HUNDRED * now[item], base[item]), flags[item]) for item, code in self.plan.codes.items()}

    def nodes(self, elementary: dict[str, tuple[int, bool]]) -> dict[str, tuple[int, int, bool]]:
        """By node: weight, index within the year, and whether something below it was imputed."""
        weights: dict[str, int] = defaultdict(int)
        sums: dict[str, int] = defaultdict(int)
        flags: dict[str, bool] = defaultdict(bool)
        for code, (index, is_imputed) in elementary.items():
            for node in [*codes_above(code), code]:
                weights[node] += self.plan.weights[code]
                sums[node] += self.plan.weights[code] * index
                flags[node] |= is_imputed
        return {node: (weights[node], rounded(sums[node], weights[node]), flags[node]) for node in sorted(sums)}


def change(before: int, now: int) -> int:
    """In tenths of a percent."""
    size = rounded(1000 * abs(now - before), before)
    return size if now >= before else -size


def table_of(year: Year, carried: Carried, turn: int, levels: dict[int, Levels]) -> list[Row]:
    """The rows of a month: code, weight, index, level, changes, imputed. `levels` are those of the earlier months."""
    rows = []
    for node, (weight, within, is_imputed) in year.nodes(year.elementary(carried)).items():
        link = year.links.get(node, HUNDRED)
        level = rounded(link * within, HUNDRED)
        earlier = link if turn % 12 == 1 else levels[turn - 1][node]
        annual = link if turn % 12 == 0 else levels.get(turn - 12, {}).get(node)
        annual_change = None if annual is None else change(annual, level)
        rows.append((node, weight, within, level, change(earlier, level), annual_change, is_imputed))
    return rows


def tables(size: Size) -> Iterator[list[Row]]:
    """The rows of each month, from the first December on."""
    year: Year | None = None
    carried: Carried = {}
    levels: dict[int, Levels] = {}
    marks: list[Mark] = []
    for turn in range(size.months):
        table: list[Row] = []
        earlier, marks = marks, [mark_of(n, turn) for n in range(size.series)]
        if turn % 12 == 1:
            found = {n: (10_000 * price, 10_000, 1, False) for n, (_, price) in enumerate(earlier) if price is not None}
            taken_over = {n: (*row[:3], False) for n, row in carried.items()}
            year = Year(size, turn // 12, {**taken_over, **found}, levels.get(turn - 1, {}))
            carried = year.bases
        if year:
            carried = year.carried(carried, marks, earlier)
            table = table_of(year, carried, turn, levels)
            levels[turn] = {row[0]: row[3] for row in table}
        yield table


# ---- what the program prints


def tenths(number: int | None) -> str:
    return "" if number is None else f"{'-' if number < 0 else ''}{abs(number) // 10}.{abs(number) % 10}"


def millionths(number: int) -> str:
    return f"{number // 1_000_000}.{number % 1_000_000:06}"


def printed(row: Row) -> str:
    """A row as the program prints it."""
    code, weight, within, level, month_change, year_change, is_imputed = row
    changes = f"{tenths(month_change)},{tenths(year_change)}"
    return f"{code},{weight},{millionths(within)},{millionths(level)},{changes},{int(is_imputed)},{title_of(code)}"


def lines_of(program: Program, size: Size) -> dict[str, str]:
    """The line of each record."""
    records = [*records_of(size)]
    ran = program.replay("".join(f"{record}\n" for record in records).encode(), seconds=PATIENCE)
    lines = ran.out.decode().splitlines()
    assert (ran.status, ran.err, len(lines)) == (0, b"", len(records))
    return dict(zip(records, lines))


def difference(rows: list[str], wanted: list[str]) -> Fault:
    """What differs first in a table."""
    if len(rows) != len(wanted):
        return f"{len(rows)} rows, wanted {len(wanted)}"
    return next((f"wrote {row}, wanted {want}" for row, want in zip(rows, wanted) if row != want), None)


# ---- all


class Compared:
    """A size: the line of each record, and the rows of each month by the second computation."""

    def __init__(self, program: Program, size: Size) -> None:
        self.lines = lines_of(program, size)
        self.wanted = [[printed(row) for row in rows] for rows in tables(size)]


@pytest.fixture(scope="module")
def compared(program: Program) -> Callable[[Size], Compared]:
    """What gives a size, which is sent and computed once."""
    return functools.lru_cache(None)(lambda size: Compared(program, size))


def marks_of(size: Size) -> list[pytest.MarkDecorator]:
    """The marks of a size's tests, which go to one process."""
    return [pytest.mark.xdist_group(f"{size.aggregates} aggregates"), *SIZES[size]]


ANSWERED = [pytest.param(size, id=f"{size.aggregates} aggregates", marks=marks_of(size)) for size in SIZES]
MONTHS = [
    pytest.param(size, turn, id=f"{size.aggregates} aggregates, {month_of(turn)}", marks=marks_of(size))
    for size in SIZES
    for turn in range(size.months)
]


@pytest.mark.parametrize("size", ANSWERED)
def test_nothing_is_refused(compared: Callable[[Size], Compared], size: Size) -> None:
    refused = {
        record[:60]: match[0] for record, line in compared(size).lines.items() if (match := REFUSED.search(line))
    }
    assert refused == {}


@pytest.mark.parametrize("size, turn", MONTHS)
def test_a_table(compared: Callable[[Size], Compared], size: Size, turn: int) -> None:
    found = compared(size)
    rows = json.loads(found.lines[table_record(turn)])["table"].splitlines()
    assert len(found.wanted) == size.months
    assert bool(rows) == (turn > 0)
    assert difference(rows, found.wanted[turn]) is None

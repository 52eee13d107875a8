"""Recomputes the table of a month from the frozen quotes in an office's file, and compares every figure of it.

    examples/recompute FILE MONTH [REVISION]        (a month like 2026-01; else its latest revision)

This is the whole of that example, and it needs only Python: an auditor reads it from here to its end. Tools that
recompute a figure do so with its functions.

Only frozen quotes, plans with their reference months, assignments and carry lists are read, from the first December on;
an earlier month is read in its latest revision. The rules are in docs/reference/OFFICE.md, in the chapter "The index of
a month". The exit status is 0 only if no figure differs.
"""

from __future__ import annotations

import sqlite3
import sys
from collections.abc import Callable
from pathlib import Path
from typing import Any, Optional

Series = tuple[int, int]
"""A series: the number of its first collector, and its slot there."""

Quotes = dict[Series, tuple[str, int]]
"""The frozen quotes of a month: mark, and price in minor units (0 if there is none)."""

Kept = dict[Series, tuple[int, int, int, int]]
"""The carried prices of an aggregate: ticks, the scale's two numbers, and 1 if the price was imputed."""

Ask = Callable[..., list[Any]]
"""A query, with the values of its question marks, and its rows."""

Levels = dict[int, dict[str, int]]
"""The chained levels of a month by node, in millionths of a point."""


def round_ratio(a: int, b: int) -> int:
    """a / b to the nearest whole number, halves upwards (a not below 0, b > 0)."""
    return (2 * a + b) // (2 * b)


def change(before: Optional[int], now: int) -> Optional[int]:
    """The change between two levels in tenths of a percent; None without an earlier level."""
    if not before:
        return before
    size = round_ratio(1000 * abs(now - before), before)
    return size if now >= before else -size


def begin_year(ask: Ask, year: int, now: Quotes, kept: Kept) -> tuple[dict[str, int], dict[str, Kept]]:
    """The weights of a year, and the base of each series by aggregate: ticks, scale, imputed."""
    weights: dict[str, int] = dict(ask("SELECT code, weight FROM node WHERE year = ? AND code LIKE '%-__'", year))
    bases: dict[str, Kept] = {code: {} for code in weights}
    places = dict(ask("SELECT item, code FROM plan_item WHERE year = ?", year))
    text = "SELECT series_collector, series_slot, item FROM assignment_2 WHERE last_month > ?"
    for collector, slot, item in ask(text, year * 100):
        value = now.get((collector, slot), ("", 0))[1]
        base = (10_000 * value, 10_000, 1, 0) if value else kept.get((collector, slot))
        if base and item in places:
            bases[places[item]][collector, slot] = base
    return weights, bases


def in_use(ask: Ask, year: int, weights: dict[str, int], levels: Levels) -> dict[str, int]:
    """The weights of a year; with a reference month, prices move the plan's weights from there to the link month."""
    for (reference,) in ask("SELECT month FROM plan_ref WHERE year = ?", year):
        now, then = levels[year * 100 - 88], levels[reference]
        return {code: round_ratio(weight * now[code], then[code]) for code, weight in weights.items()}
    return weights


def carry_prices(kept: Kept, now: Quotes, before: Quotes, is_carried: bool) -> Kept:
    """The carried prices of one aggregate."""
    found = {it: now[it][1] for it in kept if it in now and now[it][0] in ("price", "comparable")}
    carried = {it: (round_ratio(price * kept[it][1], kept[it][2]), *kept[it][1:3], 0) for it, price in found.items()}
    matched = [it for it in found if before.get(it, ("", 0))[1]]
    up, down = (sum(prices[it][0] for it in matched) for prices in (carried, kept))
    up, down = (1, 1) if not matched and is_carried else (up, down)
    for key in kept.keys() - found.keys():
        ticks, price = round_ratio(kept[key][0] * up, down), now.get(key, ("", 0))[1]
        carried[key] = (ticks, ticks, price, 1) if price else (ticks, *kept[key][1:3], 1)
    return carried


def table(
    month: int, weights: dict[str, int], bases: dict[str, Kept], kept: dict[str, Kept], levels: Levels
) -> dict[str, tuple[Any, ...]]:
    """By node: weight, index, level, changes, imputed."""
    link = levels.get(month // 100 * 100 - 88, {})
    sums: dict[str, list[int]] = {}
    rows: dict[str, tuple[Any, ...]] = {}
    for code, weight in weights.items():
        index = round_ratio(
            10**8 * sum(it[0] for it in kept[code].values()), sum(base[0] for base in bases[code].values())
        )
        for node in {"00", *(code[:end] for end in (2, 4, 6, 8, 11))}:
            whole = sums.setdefault(node, [0, 0, 0])
            whole[:] = whole[0] + weight, whole[1] + weight * index, whole[2] | any(it[3] for it in kept[code].values())
    for node, (weight, total, is_imputed) in sums.items():
        within, base = round_ratio(total, weight), link.get(node, 10**8)
        level, year = round_ratio(base * round_ratio(total, weight), 10**8), levels.get(month - 100, {}).get(node)
        earlier = base if month % 100 == 1 else levels[month - 1][node]
        annual = change(base if month % 100 == 12 else year, level)
        rows[node] = (weight, within, level, change(earlier, level), annual, is_imputed)
    return rows


RELEASES = """SELECT month, revision, carry FROM release_2 AS r WHERE month = ?1 AND revision = ?2
OR month < ?1 AND revision = (SELECT max(revision) FROM release_2 WHERE month = r.month) ORDER BY month"""


def main(file: str, last: int, revision: Optional[int] = None) -> int:
    # (a file that isn't there isn't made)
    office = sqlite3.connect(f"{Path(file).absolute().as_uri()}?mode=rw", uri=True)

    def ask(text: str, *of: int) -> list[Any]:
        return office.execute(text, of).fetchall()

    now: Quotes = {}
    kept: dict[str, Kept] = {}
    bases: dict[str, Kept] = {}
    levels: Levels = {}
    rows: dict[str, tuple[Any, ...]] = {}
    weights: dict[str, int] = {}
    frozen = [it for (it,) in ask("SELECT revision FROM release_2 WHERE month = ? ORDER BY revision", last)]
    if not frozen or revision not in (None, *frozen):
        sys.exit(f"examples/recompute: {file} has no table of {last}{f' in revision {revision}' if revision else ''}")
    revision = revision or frozen[-1]
    for month, asked, carry in ask(RELEASES, last, revision):
        quotes = ask("SELECT collector, slot, mark, value FROM frozen_2 WHERE month = ? AND revision = ?", month, asked)
        before, now = now, {(collector, slot): (mark, value) for collector, slot, mark, value in quotes}
        if month % 100 == 1:
            old = {series: it for own in kept.values() for series, it in own.items()}
            weights, bases = begin_year(ask, month // 100, before, old)
            weights = in_use(ask, month // 100, weights, levels)
            kept = {code: {series: (*it[:3], 0) for series, it in own.items()} for code, own in bases.items()}
        kept = {code: carry_prices(own, now, before, code in carry.split()) for code, own in kept.items()}
        rows = table(month, weights, bases, kept, levels) if weights else {}
        levels[month] = {node: row[2] for node, row in rows.items()}
    text = "SELECT code, weight, within, chained, month_change, year_change, imputed FROM level_2"
    stored = {code: tuple(row) for code, *row in ask(f"{text} WHERE month = ? AND revision = ?", last, revision)}
    differ = sorted(code for code in stored.keys() | rows.keys() if stored.get(code) != rows.get(code))
    for code in differ:
        print(f"{code}: stored {stored.get(code)}, recomputed {rows.get(code)}")
    print(f"{last}: {len(stored)} rows, {len(differ)} differ")
    return 1 if differ else 0


if __name__ == "__main__":
    numbers = [word.replace("-", "", 1) for word in sys.argv[2:]]
    if len(numbers) not in (1, 2) or not all(map(str.isdecimal, numbers)):
        sys.exit("examples/recompute FILE MONTH [REVISION], a month like 2026-01")
    try:
        sys.exit(main(sys.argv[1], *map(int, numbers)))
    except sqlite3.Error as fault:
        sys.exit(f"examples/recompute: {sys.argv[1]}: {fault}")

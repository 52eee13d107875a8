"""Computes analytical core inflation a second time, from the bytes of published tables, without `cpi_tools`.

Each aggregate is a piece of a line as long as all weight, in the order of changes. A trimmed mean is the mean over the
part of the line that is left; a median is the least change that at least half of the line doesn't exceed.
"""

from __future__ import annotations

import csv
import io
from collections.abc import Mapping
from fractions import Fraction
from typing import NamedTuple, Optional

Levels = dict[str, tuple[Fraction, Fraction]]
"""By elementary aggregate of a table, its level and its weight."""

HUNDRED = Fraction(100)


class Measure(NamedTuple):
    """A measure: `median`, `trimmed-mean`, `items-rising` or `weight-rising`, and the part that is left out at each
    end, in percent of all weight."""

    name: str
    lower: Fraction = Fraction(0)
    upper: Fraction = Fraction(0)


def levels_of(table: bytes) -> Levels:
    """The elementary aggregates of a table of the program."""
    rows = csv.reader(io.StringIO(table.decode(), newline=""))
    return {row[0]: (Fraction(row[3]), Fraction(row[1])) for row in rows if "-" in row[0]}


def earlier(month: str, by: int) -> str:
    """The month so many months before."""
    year, number = map(int, month.split("-"))
    while by:
        year, number = (year - 1, 12) if number == 1 else (year, number - 1)
        by -= 1
    return f"{year}-{number:02}"


def changes_of(tables: Mapping[str, Levels], month: str, is_annual: bool) -> list[tuple[Fraction, Fraction]]:
    """The change of each aggregate that has one, and its weight: from the month or the year before. An aggregate that
    is new in the year has 100 in the December before."""
    against = earlier(month, 12 if is_annual else 1)
    then, is_december = tables.get(against, {}), against.endswith("-12")
    changes = []
    for code, (level, weight) in tables[month].items():
        base = then[code][0] if code in then else HUNDRED if is_december else None
        if base is not None:
            changes.append((level / base - 1, weight))
    return changes


def rounded(percent: Fraction) -> str:
    """To one decimal, halves away from zero."""
    tenths = int(abs(percent) * 10 + Fraction(1, 2))
    sign = "-" if percent < 0 and tenths else ""
    return f"{sign}{tenths // 10}.{tenths % 10}"


def figure_of(measure: Measure, changes: list[tuple[Fraction, Fraction]]) -> Optional[str]:
    """The figure of a measure in percent with one decimal; None if no aggregate has a change."""
    if not changes:
        return None
    whole = sum((weight for _, weight in changes), Fraction(0))
    if measure.name == "items-rising":
        return rounded(Fraction(100 * sum(1 for change, _ in changes if change > 0), len(changes)))
    if measure.name == "weight-rising":
        return rounded(100 * sum((weight for change, weight in changes if change > 0), Fraction(0)) / whole)
    if measure.name == "median":
        enough = [
            candidate
            for candidate, _ in changes
            if sum(weight for change, weight in changes if change <= candidate) / whole >= Fraction(1, 2)
        ]
        return rounded(100 * min(enough))
    begins, ends = measure.lower / 100, 1 - measure.upper / 100
    at, area = Fraction(0), Fraction(0)
    for change, weight in sorted(changes):
        left, at = at, at + weight / whole
        area += change * max(Fraction(0), min(at, ends) - max(left, begins))
    return rounded(100 * area / (ends - begins))


def core_again(tables: Mapping[str, bytes], measure: Measure) -> dict[str, tuple[str, str]]:
    """By month with rows, the figures of a measure by both changes, empty texts if there is none; `tables` has one of each
    month."""
    levels = {month: levels_of(table) for month, table in tables.items()}
    found = {}
    for month in sorted(levels):
        texts = [figure_of(measure, changes_of(levels, month, is_annual)) for is_annual in (False, True)]
        if levels[month]:
            found[month] = (texts[0] or "", texts[1] or "")
    return found

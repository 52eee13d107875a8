"""Computes sets of elementary aggregates a second time, in fractions: their indices, levels, changes and contributions.

It takes the weights and indices of elementary aggregates, which its callers take from prices or from printed tables,
and shares nothing with `cpi_tools`. A set is a function that says whether a code is in it.
"""

from __future__ import annotations

from collections.abc import Callable, Iterable, Mapping
from fractions import Fraction
from typing import NamedTuple, Optional

Set = Callable[[str], bool]


class Elementary(NamedTuple):
    """A month of an elementary aggregate: its weight in use, its index within the year, and whether it was imputed."""

    weight: int
    within: Fraction
    is_imputed: bool


class Figures(NamedTuple):
    """A month of a set: weight, index, level, monthly and annual change, imputed, and the December that is 100."""

    weight: int
    within: Fraction
    level: Fraction
    monthly: Fraction
    annual: Optional[Fraction]
    is_imputed: bool
    base: str


Months = Mapping[str, Mapping[str, Elementary]]
"""By month and code."""


def nearest(number: Fraction, parts: int) -> Fraction:
    """The nearest number that is whole in so many parts of one; a half goes up."""
    return Fraction((2 * parts * number.numerator + number.denominator) // (2 * number.denominator), parts)


def change(then: Fraction, now: Fraction) -> Fraction:
    """In percent, rounded to a tenth; a fall is rounded like a rise of its size."""
    size = nearest(100 * abs(now - then) / then, 10)
    return size if now >= then else -size


def earlier(month: str, by: int) -> str:
    at = int(month[:4]) * 12 + int(month[5:]) - 1 - by
    return f"{at // 12:04}-{at % 12 + 1:02}"


def within(weighed: Iterable[Elementary]) -> Fraction:
    """The weighted mean of indices."""
    elementaries = [*weighed]
    summed = sum((Fraction(elementary.weight) * elementary.within for elementary in elementaries), Fraction())
    return nearest(summed / sum(elementary.weight for elementary in elementaries), 10**6)


def figures(months: Months, is_in: Set) -> dict[str, Figures]:
    """A set in each month in which it contains something."""
    figures: dict[str, Figures] = {}
    for month, rows in sorted(months.items()):
        own = [row for code, row in rows.items() if is_in(code)]
        if not own:
            continue
        december = f"{int(month[:4]) - 1}-12"
        link, base = (
            (figures[december].level, figures[december].base) if december in figures else (Fraction(100), december)
        )
        level = nearest(link * within(own) / 100, 10**6)
        then = link if month.endswith("-01") else figures[earlier(month, 1)].level
        year = (
            link
            if month.endswith("-12")
            else figures[earlier(month, 12)].level
            if earlier(month, 12) in figures
            else None
        )
        annual = None if year is None else change(year, level)
        imputed = any(row.is_imputed for row in own)
        figures[month] = Figures(
            sum(row.weight for row in own), within(own), level, change(then, level), annual, imputed, base
        )
    return figures


def given(months: Months, month: str, code: str, to: Set) -> tuple[Optional[Fraction], Optional[Fraction]]:
    """The contributions of an elementary aggregate to the monthly and annual changes of a set, in percentage points.

    The sum over all of a set is the set's own change before it is rounded to tenths: the annual change goes through the
    December between, from which other weights apply.
    """
    now, then = (
        {each: month for each, month in months.get(at, {}).items() if to(each)} for at in (month, earlier(month, 1))
    )
    row, monthly = months[month].get(code), None
    if row:
        is_first = month.endswith("-01")
        start, before = (Fraction(100),) * 2 if is_first else (then[code].within, within(then.values()))
        monthly = 100 * Fraction(row.weight, sum(it.weight for it in now.values())) * (row.within - start) / before
    return monthly, _annual(months, month, code, to)


def _annual(months: Months, month: str, code: str, to: Set) -> Optional[Fraction]:
    december, year = f"{int(month[:4]) - 1}-12", earlier(month, 12)
    now = [row for each, row in months[month].items() if to(each)]
    row = months[month].get(code)
    if month.endswith("-12"):
        return Fraction(row.weight, sum(row.weight for row in now)) * (row.within - 100) if row else None
    if year not in months or not any(to(each) for each in months[year]):
        return None
    then, link = ({each: month for each, month in months[at].items() if to(each)} for at in (year, december))
    moved, start = within(link.values()), within(then.values())
    found = Fraction()
    if code in then:
        share = Fraction(then[code].weight, sum(it.weight for it in then.values()))
        found += 100 * share * (link[code].within - then[code].within) / start
    if row:
        found += moved / start * Fraction(row.weight, sum(row.weight for row in now)) * (row.within - 100)
    return found if row or code in then else None

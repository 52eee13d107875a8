"""The figures as readers are shown them: levels and changes by the office's own rule, and a month in one sentence."""

from __future__ import annotations

import copy
import functools
from collections.abc import Iterable, Iterator, Mapping, Sequence
from typing import Optional

from ...office.tables import Row, Series, before, link_of, rounded_change
from ...text.exact import HUNDRED, Ratio, decimal, points, round_ratio, scale_ratio, tenths
from ...text.languages import SPEAKS_ENGLISH, Speech
from ...text.terminal import Fault, month_name
from .measures import average, months_linked_to, reference_level, rereference


# ==== the change in prices in a month, in one sentence: the headline of the first page, of a release, of a feed and of
# a card


def headline(month: str, whole: Row, speech: Speech = SPEAKS_ENGLISH) -> str:
    """The sentence of a month by the row of all items, without its full stop: with the annual change, or the monthly
    change as long as there is no annual one."""
    is_annual = whole.year_change is not None
    change = whole.month_change if whole.year_change is None else whole.year_change
    size = speech.figure(tenths(abs(change)))
    return _say_change(speech, is_annual, change).format(month=speech.month(month), size=size)


def _say_change(speech: Speech, is_annual: bool, change: int) -> str:
    """The sentence, with its places."""
    if is_annual:
        if change == 0:
            return speech.t("In {month}, consumer prices were as high as a year earlier")
        if change > 0:
            return speech.t("In {month}, consumer prices were {size} percent higher than a year earlier")
        return speech.t("In {month}, consumer prices were {size} percent lower than a year earlier")
    if change == 0:
        return speech.t("In {month}, consumer prices didn't change from the previous month")
    if change > 0:
        return speech.t("In {month}, consumer prices rose by {size} percent from the previous month")
    return speech.t("In {month}, consumer prices fell by {size} percent from the previous month")


# ==== the figures as readers are shown them: levels with the office's own reference period, and changes by its own rule
#
# A node whose months are linked to the reference period has 100 there. Any other, and every node if the office names no
# period, has 100 in December before it came. Changes are those of the tables, which come from levels before rounding.
# If the office says `rates = published`, they come from the printed index, which has one decimal.

EXACT, PUBLISHED = "exact", "published"
RATES = (EXACT, PUBLISHED)
"""The levels from which changes are computed: levels before rounding, or the printed index."""


RATES_SAY = {EXACT: "from levels before rounding", PUBLISHED: "from the printed index with one decimal"}
"""The sentence about the rule in data files."""


def period_name(period: str) -> str:
    """`December 2025` of a month, and a year as it is."""
    return month_name(period) if len(period) == 7 else period


class NotCovered(Fault):
    """A reference period without a table; one line."""


class Shown:
    """The figures of all nodes as they are shown. Raises NotCovered if no table is of the reference period."""

    def __init__(self, series: Series, reference: str = "", rates: str = EXACT, provisional: int = 0):
        """The last `provisional` months can still be revised."""
        self.series, self.reference, self.rates = series, reference, rates
        self.provisional = frozenset(series.months[-provisional:] if provisional else [])
        """The provisional months, also of a part of the tables."""
        self.speech = SPEAKS_ENGLISH
        if reference not in ("", series.base) and not any(month.startswith(reference) for month in series.months):
            raise NotCovered(
                f"reference: no table covers {reference}; they are of {series.months[0]} to {series.months[-1]}"
            )
        self._bases = {code: self._base(code) for code in series.all_titles} if reference else {}

    def part(self, series: Series) -> Shown:
        """The figures of a part of the tables, which need not contain the reference period itself."""
        copy_ = copy.copy(self)
        copy_.series, last = series, series.every[-1]
        copy_.__dict__.pop("_factors", None)
        bases = ((code, self._bases.get(code)) for code in series.all_titles) if self.reference else ()
        copy_._bases = {code: base and (base[0], min(base[1], last), base[2]) for code, base in bases}
        return copy_

    def spoken(self, speech: Speech) -> Shown:
        """The figures for readers of another language."""
        copy_ = copy.copy(self)
        copy_.speech = speech
        return copy_

    @property
    def bases(self) -> Mapping[str, Optional[tuple[str, str, Ratio]]]:
        """By node the first and the last month that are linked to the reference period, and the level in it."""
        return self._bases

    def _base(self, code: str) -> Optional[tuple[str, str, Ratio]]:
        """The first and the last month that are linked to the reference period, and a node's level in it."""
        base = reference_level(self.series, code, self.reference)
        linked = months_linked_to(self.series, code, self.reference)
        return (linked[0], linked[-1], base) if base and linked else None

    def _base_in(self, month: str, code: str) -> Optional[Ratio]:
        """The level of the reference period for a level of a month; December before a run belongs to it."""
        base = self._bases.get(code)
        if base is None or not link_of(base[0]) <= month <= base[1]:
            return None
        return base[2]

    def find_reference(self, month: str, code: str) -> str:
        """The period in which a node is 100, for a level of a month."""
        return self.reference if self.is_rereferenced(month, code) else self.series.base_of(month, code)

    def is_rereferenced(self, month: str, code: str) -> bool:
        """Whether a node's level of a month is linked to the office's own reference period."""
        return self._base_in(month, code) is not None

    def hundreds(self, code: str) -> list[tuple[str, str]]:
        """The first month of each of a node's runs, with the period in which it is 100."""
        return [(month, self.find_reference(month, code)) for month in self.series.starts(code)]

    def of_level(self, chained: int, month: str, code: str) -> Ratio:
        """A chained level of a node in a month, in points of what is shown."""
        base = self._base_in(month, code)
        return rereference(chained, base) if base else Ratio(chained, 10**6)

    def row(self, month: str, code: str) -> Optional[Row]:
        """The row of a node, with the changes that are shown."""
        row = self.series.row(month, code)
        if row is None or self.rates == EXACT:
            return row
        monthly, annual = (self.change(month, code, is_annual) for is_annual in (False, True))
        return row._replace(month_change=row.month_change if monthly is None else monthly, year_change=annual)

    def text(self, month: str, code: str, digits: int = 6) -> str:
        """A node's level with some decimals, rounded once; empty without a row."""
        chained = self.series.level(month, code)
        if chained is None:
            return ""
        if not self._bases or not self._base_in(month, code):
            return points(chained, digits)
        return decimal(*self.of_level(chained, month, code), digits)

    def units(self, months: Sequence[str], code: str, digits: int = 6) -> list[Optional[int]]:
        """The levels in some months, in units of the last decimal; None without a row."""
        ratios = self._ratios(months, code, self.series.column(months, code, "chained"))
        return [None if ratio is None else scale_ratio(*ratio, digits) for ratio in ratios]

    def units_of_month(
        self, month: str, codes: Iterable[str], chained: Iterable[Optional[int]], digits: int
    ) -> Iterator[Optional[int]]:
        """Chained levels of some nodes in a month, in units of the last of some decimals."""
        factors, by = self._factors, 10**digits
        for code, level in zip(codes, chained):
            factor = factors.get(code)
            over, under = factor[2:] if factor and factor[0] <= month <= factor[1] else (1, 10**6)
            yield None if level is None else round_ratio(level * over * by, under)

    @functools.cached_property
    def _factors(self) -> Mapping[str, tuple[str, str, int, int]]:
        """By node the months, December before a run among them, whose levels are linked to the reference period, and what a
        chained level of these is multiplied by and divided by, to be in points of what is shown."""
        bases = ((code, base) for code, base in self._bases.items() if base)
        return {code: (link_of(base[0]), base[1], 100 * base[2].under, base[2].over * 10**6) for code, base in bases}

    def numbers(self, months: Sequence[str], code: str, chained: Sequence[Optional[int]]) -> list[Optional[float]]:
        """Chained levels of a node in some months as numbers for a picture, in points of what is shown."""
        return [None if ratio is None else ratio[0] / ratio[1] for ratio in self._ratios(months, code, chained)]

    def _ratios(
        self, months: Sequence[str], code: str, chained: Sequence[Optional[int]]
    ) -> Iterator[Optional[tuple[int, int]]]:
        """Chained levels of a node in some months, in points of what is shown, as `of_level` has each of them."""
        if code not in self._factors:
            return (None if it is None else (it, 10**6) for it in chained)
        (first, last, by, under), ratios = self._factors[code], zip(months, chained)
        return (
            None if ratio is None else (by * ratio, under) if first <= at <= last else (ratio, 10**6)
            for at, ratio in ratios
        )

    def average(self, code: str, year: int) -> Optional[Ratio]:
        """The mean of a node's twelve levels in a year, in points of what is shown."""
        found = average(self.series, code, year)
        return self.mean(found, code, year) if found else None

    def mean(self, chained: Ratio, code: str, year: int) -> Ratio:
        """The average of chained levels, in points of what is shown."""
        base = self._base_in(f"{year:04}-01", code)
        return Ratio(100 * chained.over * base.under, chained.under * base.over) if base else chained

    # ---- changes

    def changes(self, months: Sequence[str], code: str, is_annual: bool) -> list[Optional[int]]:
        """The changes of a node that are shown in some months, in tenths of a percent; None if there is none."""
        if self.rates == EXACT:
            return self.series.column(months, code, "year_change" if is_annual else "month_change")
        rows = [self.row(month, code) for month in months]
        return [row and (row.year_change if is_annual else row.month_change) for row in rows]

    def _print_level(self, chained: int, month: str, code: str) -> int:
        """A level with one decimal, in tenths of a point."""
        level = self.of_level(chained, month, code)
        return round_ratio(10 * level.over, level.under)

    def _printed_before(self, month: str, by: int, code: str) -> Optional[int]:
        """The printed level so many months before; December before a run has the level that it began from."""
        earlier = before(month, by)
        chained = self.series.level(earlier, code)
        if (
            chained is None
            and link_of(month) == earlier
            and month[:4] in {start[:4] for start in self.series.starts(code)}
        ):
            return self._print_level(HUNDRED, earlier, code)
        return None if chained is None else self._print_level(chained, earlier, code)

    def change(self, month: str, code: str, is_annual: bool) -> Optional[int]:
        """The monthly or annual change of a node, in tenths of a percent."""
        row = self.series.row(month, code)
        if row is None:
            return None
        printed = row.year_change if is_annual else row.month_change
        if self.rates == EXACT:
            return printed
        # (of a month whose table isn't out yet there is no printed index, and the table's own change stays)
        then = self._printed_before(month, 12 if is_annual else 1, code)
        return rounded_change(then, self._print_level(row.chained, month, code)) if then else printed

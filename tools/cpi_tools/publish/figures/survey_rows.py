"""Rows that an office publishes besides its tables: counts of its survey, and average prices of items."""

from __future__ import annotations

import re
from collections.abc import Iterable, Mapping, Sequence
from pathlib import Path
from typing import NamedTuple, Optional

from ...office.price_rules import FEWEST_OUTLETS
from ...office.public import MONTH
from ...text.exact import ALL_ITEMS, write_fixed
from ...text.terminal import Fault
from ...text.text_files import read_rows


# ==== the counts that an office publishes about its survey, by release and division, and the rule that keeps single
# outlets out of them
#
# A count is the number of prices that were requested, received or imputed; none of it is a price. A file of counts has
# a row for each division of each release and one for all items, whose division is `00`. A division with fewer outlets
# than the office's rule wants has a row without figures. So that nobody gets them by subtraction from all items,
# further divisions are hidden with it, those with the fewest outlets, until two or more together have as many outlets
# as the rule wants.
#
# Nor by subtraction between releases, since most counts of a division hardly change from month to month: what is hidden
# while all items have figures is the same divisions in each release, and none of them has figures in any. So these are
# chosen once, at the first release that hides some. If another division has too few outlets later, or one of these is
# no longer in the sample, it and all items have no figures in that release.

LEAST_OUTLETS, FEWEST_LEAST, MOST_LEAST = 5, 2, 99
"""Outlets that a division with figures has at least, if the office doesn't say it; the least and the most that it can
say."""

COUNTS = ("month", "revision", "division", "outlets", "asked", "priced", "replaced", "missing", "silent", "counted",
        "imputed")  # fmt: skip
"""The columns of a file of counts."""

DIVISION, REVISION, NUMBER = re.compile("0[0-9]|1[0-3]"), re.compile("[1-9]"), re.compile("0|[1-9][0-9]{0,8}")


class BadCounts(Fault):
    """A file of counts with a fault; one line."""


class Figures(NamedTuple):
    """The counts of a division in a release: outlets that were to price it; prices that were requested, received,
    and received for a replacement; prices for which only a reason came, and for which nothing came; prices in the
    index, and how many of these were imputed."""

    outlets: int
    asked: int
    priced: int
    replaced: int
    missing: int
    silent: int
    counted: int
    imputed: int


class Cell(NamedTuple):
    """A division, or all items, of a release like `2026-01` with its revision; without figures if these are hidden."""

    month: str
    revision: int
    division: str
    figures: Optional[Figures]

    @property
    def of(self) -> tuple[str, int]:
        """The month and the revision of its release."""
        return self.month, self.revision

    @property
    def texts(self) -> list[str]:
        """The cells of its row."""
        figures = self.figures or [""] * len(Figures._fields)
        return [self.month, str(self.revision), self.division, *map(str, figures)]


# ---- the rule

Outlets = Mapping[str, frozenset[int]]
"""The outlets of each division of a release."""


class Choice(NamedTuple):
    """Which divisions a release has, which of them have no figures, and whether all items have some."""

    divisions: frozenset[str]
    hidden: frozenset[str]
    has_total: bool


def choice_of(outlets: Outlets, least: int, earlier: Iterable[Choice]) -> Choice:
    """The figures that a release shows, given the releases that are already published."""
    earlier = [*earlier]
    # (of these anybody has the sum: all items less what is shown)
    sums = {choice.hidden for choice in earlier if choice.has_total and choice.hidden}
    shown = frozenset[str]().union(*(choice.divisions - choice.hidden for choice in earlier))
    few = frozenset(division for division, own in outlets.items() if len(own) < least)
    hidden = few.union(*sums).intersection(outlets)
    if hidden and not sums and not hidden & shown:
        hidden = _with_partners(hidden, outlets, least, shown)
    is_safe = not hidden & shown and sums <= {hidden} and _is_group(hidden, outlets, least)
    has_total = len(_all_of(outlets, outlets)) >= least and (not hidden or is_safe)
    return Choice(frozenset(outlets), hidden, has_total)


def _with_partners(hidden: frozenset[str], outlets: Outlets, least: int, shown: frozenset[str]) -> frozenset[str]:
    """Hidden divisions with the partners that are hidden for them, none of which ever had figures; without partners
    if all of them aren't enough."""
    group = hidden
    for division in sorted(frozenset(outlets) - hidden - shown, key=lambda outlet: (len(outlets[outlet]), outlet)):
        if _is_group(group, outlets, least):
            break
        group |= {division}
    return group if _is_group(group, outlets, least) else hidden


def _is_group(divisions: frozenset[str], outlets: Outlets, least: int) -> bool:
    """Whether the sum of some divisions says nothing of a few outlets."""
    return len(divisions) >= 2 and len(_all_of(outlets, divisions)) >= least


def _all_of(outlets: Outlets, divisions: Iterable[str]) -> frozenset[int]:
    """The outlets of some divisions together."""
    return frozenset[int]().union(*(outlets[division] for division in divisions))


# ---- files


def read_counts(path: Path, least: int) -> tuple[Cell, ...]:
    """The counts of a file, in its order. Raises BadCounts, also if the rule doesn't hold in it."""
    return read_rows(path, lambda rows: counts_of(rows, least), BadCounts)


def counts_of(rows: Sequence[Sequence[str]], least: int) -> tuple[Cell, ...]:
    """The counts of some rows, the first of which contains the names of the columns. Raises BadCounts."""
    if not rows or tuple(rows[0]) != COUNTS:
        raise BadCounts(f"its first row is {','.join(rows[0]) if rows else 'missing'}, and not {','.join(COUNTS)}")
    cells = [_cell(number, row) for number, row in enumerate(rows[1:], 2)]
    for number, cell in enumerate(cells, 2):
        if cell.figures and cell.figures.outlets < least:
            raise BadCounts(
                f"row {number}: {cell.division} has {cell.figures.outlets} outlets, and least_outlets is {least}: make the"
                " file anew by cpi-tools quality, with the same --config"
            )
    _test_releases(cells)
    return tuple(cells)


def _cell(number: int, row: Sequence[str]) -> Cell:
    """The cell of a row, by its number in the file. Raises BadCounts."""
    if len(row) != len(COUNTS):
        raise BadCounts(f"row {number} has {len(row)} cells, and not {len(COUNTS)}")
    for name, text, form, wanted in zip(COUNTS, row, (MONTH, REVISION, DIVISION), ("2026-01", "1 to 9", "00 to 13")):
        if not form.fullmatch(text):
            raise BadCounts(f"row {number}: {name} is {text or 'empty'}, and not like {wanted}")
    named = row[0], int(row[1]), row[2]
    if not any(row[3:]):
        return Cell(*named, None)
    for name, text in zip(COUNTS[3:], row[3:]):
        if not NUMBER.fullmatch(text):
            raise BadCounts(f"row {number}: {name} is {text or 'empty'}, and no whole number")
    figures = Figures(*map(int, row[3:]))
    if figures.asked != figures.priced + figures.missing + figures.silent:
        raise BadCounts(f"row {number}: asked is {figures.asked}, and not the sum of priced, missing and silent")
    if figures.replaced > figures.priced or figures.imputed > figures.counted:
        raise BadCounts(f"row {number}: replaced is more than priced, or imputed more than counted")
    return Cell(*named, figures)


def _test_releases(cells: Sequence[Cell]) -> None:
    """Raises BadCounts if a row appears twice, a release has no row of all items, or a single hidden division could
    be computed."""
    releases: dict[tuple[str, int], dict[str, Cell]] = {}
    for number, cell in enumerate(cells, 2):
        own = releases.setdefault(cell.of, {})
        if cell.division in own:
            raise BadCounts(f"row {number}: {cell.division} of {cell.month}, revision {cell.revision}, is there twice")
        own[cell.division] = cell
    for (month, revision), own in releases.items():
        if ALL_ITEMS not in own:
            raise BadCounts(f"{month}, revision {revision}, has no row of all items, whose division is {ALL_ITEMS}")
        hidden = [division for division, cell in own.items() if division != ALL_ITEMS and not cell.figures]
        if len(hidden) == 1 and own[ALL_ITEMS].figures:
            raise BadCounts(
                f"{month}, revision {revision}: only {hidden[0]} is hidden, so its figures are those of all items less the"
                " others: make the file anew by cpi-tools quality"
            )


# ==== average prices as rows: what an office publishes of items that it lists, and the form of the file
#
# A row is a month and an item, with the revision whose frozen prices were averaged. `average` is their sum over their
# number in the office's money, rounded once to its minor unit, halves away from zero. A row whose status is `hidden`
# has no figures, since too few outlets have prices, or one has too many (`office/price_rules.py`). A published row
# stays if its month is revised. If the office has a reason, the row gets the status `superseded`, and a further one has
# the reason; if that one is hidden, the earlier one isn't kept.

HEAD = ("month", "revision", "item", "title", "unit", "outlets", "prices", "average", "status", "reason")
"""The columns of a file of average prices."""

HIDDEN, SUPERSEDED = "hidden", "superseded"
"""The status of a row without figures, and of a row that a further one corrects; otherwise the status is empty."""

ITEM, AVERAGES_REVISION, POSITIVE = re.compile("[A-Z0-9]{1,12}"), re.compile("[1-9]"), re.compile("[1-9][0-9]{0,8}")

Key = tuple[str, str]
"""The month and the item of a row."""


class BadAverages(Fault):
    """A file of average prices with a fault; one line."""


class Mean(NamedTuple):
    """The numbers of outlets and prices behind an average, and the average in minor units."""

    outlets: int
    prices: int
    average: int


class Average(NamedTuple):
    """A row: an item in a month like `2026-01`; without a mean if the mean is hidden."""

    month: str
    revision: int
    item: str
    title: str
    unit: str
    mean: Optional[Mean]
    status: str = ""
    reason: str = ""

    @property
    def key(self) -> Key:
        """The month and the item."""
        return self.month, self.item

    @property
    def figures(self) -> tuple[object, ...]:
        """The fields that stay if the row was published: all except the office's words for the item."""
        return self.key, self.revision, self.mean

    def texts(self, digits: int) -> list[str]:
        """The cells of the row, for money with some decimals."""
        mean = self.mean
        numbers = [str(mean.outlets), str(mean.prices), write_fixed(mean.average, digits)] if mean else [""] * 3
        return [self.month, str(self.revision), self.item, self.title, self.unit, *numbers, self.status, self.reason]


def read_averages(path: Path, digits: int, least: int) -> tuple[Average, ...]:
    """The rows of a file, in its order, for money with some decimals. Raises BadAverages, also if a row has fewer outlets
    than an office wants."""
    return read_rows(path, lambda rows: parse_averages(rows, digits, least), BadAverages)


def parse_averages(rows: Sequence[Sequence[str]], digits: int, least: int) -> tuple[Average, ...]:
    """The averages of some rows, the first of which contains the names of the columns. Raises BadAverages."""
    if not rows or tuple(rows[0]) != HEAD:
        raise BadAverages(f"its first row is {','.join(rows[0]) if rows else 'missing'}: wanted {','.join(HEAD)}")
    averages = [_parse_average(number, row, digits) for number, row in enumerate(rows[1:], 2)]
    now = dict[Key, int]()
    for number, average in enumerate(averages, 2):
        wanted = FEWEST_OUTLETS if average.status == SUPERSEDED else least
        if average.mean and average.mean.outlets < wanted:
            raise BadAverages(
                f"row {number}: {average.item} of {average.month} has {average.mean.outlets} outlets: wanted least_outlets, {wanted}, or"
                " a correction of it that says why it is hidden"
            )
        if average.status != SUPERSEDED and now.setdefault(average.key, number) != number:
            raise BadAverages(
                f"row {number}: {average.item} of {average.month} is in row {now[average.key]} too: wanted one row"
            )
    return tuple(averages)


def _parse_average(number: int, row: Sequence[str], digits: int) -> Average:
    """The average of a row, by its number in the file. Raises BadAverages."""
    if len(row) != len(HEAD):
        raise BadAverages(f"row {number} has {len(row)} cells: wanted {len(HEAD)}")
    cells = dict(zip(HEAD, row))
    money = re.compile(rf"[0-9]+\.[0-9]{{{digits}}}" if digits else "[0-9]+")
    forms: dict[str, tuple[re.Pattern[str], str]] = {
        "month": (MONTH, "a month like 2026-01"),
        "revision": (AVERAGES_REVISION, "1 to 9"),
        "item": (ITEM, "the code of an item"),
        "status": (re.compile(f"|{HIDDEN}|{SUPERSEDED}"), f"nothing, {HIDDEN} or {SUPERSEDED}"),
    }
    if cells["status"] != HIDDEN:
        forms |= {name: (POSITIVE, "a whole number from 1 on") for name in ("outlets", "prices")}
        forms["average"] = money, f"an amount with {digits} decimals, as minor_digits says"
    for name, (form, wanted) in forms.items():
        if not form.fullmatch(cells[name]):
            raise BadAverages(f"row {number}: {name} is {cells[name] or 'empty'}: wanted {wanted}")
    if cells["status"] == HIDDEN and (cells["outlets"] or cells["prices"] or cells["average"]):
        raise BadAverages(f"row {number}: it is {HIDDEN} and has figures: wanted none")
    if cells["status"] == HIDDEN:
        mean = None
    else:
        mean = Mean(int(cells["outlets"]), int(cells["prices"]), int(cells["average"].replace(".", "")))
    named = cells["month"], int(cells["revision"]), cells["item"], cells["title"], cells["unit"]
    return Average(*named, mean, cells["status"], cells["reason"])


def find_current(rows: Iterable[Average]) -> Mapping[Key, Average]:
    """By month and item, the row that isn't superseded."""
    return {row.key: row for row in rows if row.status != SUPERSEDED}

"""What is computed from published tables, exactly: contributions, averages, reference periods; as of a moment too."""

from __future__ import annotations

import bisect
import functools
from collections import defaultdict
from collections.abc import Callable, Iterable, Iterator, Mapping, Sequence
from typing import NamedTuple, Optional

from ...office.tables import Row, Series, Table, Weighed, before, link_of
from ...text.exact import HUNDRED, Ratio
from ...text.languages import SPEAKS_ENGLISH, Speech, mark_text


# ==== the revised months that figures of a month are computed from: the month before, the link month, the year before
#
# The office computes a month from the latest revisions of those before it, published or not. So a change can differ
# from the one between the levels that were published first, and while a revision isn't out, from any that a reader can
# compute.

# t: a figure within a sentence: it counts in "the index"
INDEX = mark_text("the index")
# t: a figure within a sentence: it counts in "the monthly change"
ON_MONTH = mark_text("the monthly change")
# t: a figure within a sentence: it counts in "the annual change"
ON_YEAR = mark_text("the annual change")

Figures = dict[str, list[str]]
"""By the month that they are computed from, the figures of a month in words."""


class Base(NamedTuple):
    """A month in its latest published revision and in the one before, the level of a node in both in millionths of a
    point, and the figures that are computed from it, in words."""

    old: Table
    new: Table
    levels: tuple[int, int]
    figures: str


def in_words(figures: list[str], speech: Speech) -> str:
    """`the index and the monthly change`."""
    return speech.list_texts([speech.t(figure) for figure in figures])


def hidden_bases(series: Series, row: Row, has_changes: bool = True, speech: Speech = SPEAKS_ENGLISH) -> dict[str, str]:
    """By month, the figures of a row of the last month that are computed from a revision of it that isn't published
    yet: figures that the published levels don't give, each computed again as the office computes and rounds it. Without
    its changes only the index is checked."""
    month = series.months[-1]
    bases: Figures = defaultdict(list)
    if not series.is_row_linked(month, row):
        bases[link_of(month)].append(INDEX)
    if has_changes and not series.is_change_shown(month, row, False):
        bases[before(month)].append(ON_MONTH)
    if has_changes and not series.is_change_shown(month, row, True):
        bases[before(month, 12)].append(ON_YEAR)
    return {earlier: in_words(figures, speech) for earlier, figures in bases.items()}


def hidden_months(series: Series) -> frozenset[str]:
    """The months that figures of any row of the last month are computed from in a revision that isn't published yet."""
    return frozenset(month for row in series.last.rows.values() for month in hidden_bases(series, row))


def revised_bases(series: Series, row: Row, hidden: frozenset[str], speech: Speech = SPEAKS_ENGLISH) -> Iterator[Base]:
    """The months that the figures of a node in the last month are computed from whose latest revision, which is
    published, changed the node's level; `hidden` has the months with a revision that isn't published."""
    month = series.months[-1]
    figures: Figures = defaultdict(list)
    figures[link_of(month)].append(INDEX)
    figures[before(month)].append(ON_MONTH)
    if row.year_change is not None:
        figures[before(month, 12)].append(ON_YEAR)
    for old, new in series.revisions:
        if new is series.latest[new.month] and new.month in figures and new.month not in hidden:
            then, now = old.rows.get(row.code), new.rows.get(row.code)
            if then and now and then.chained != now.chained:
                yield Base(old, new, (then.chained, now.chained), in_words(figures[new.month], speech))


# ==== the changes of a further revision of a month: how many levels differ from the revision before, and the largest
# differences

GREATEST_DIFFERENCES = 10
"""Nodes whose levels a revision changed that a page shows."""


class Revised(NamedTuple):
    """A further revision with the one before, how many levels differ, and the greatest differences: code, old, new."""

    old: Table
    new: Table
    differing: int
    greatest: list[tuple[str, int, int]]


def revised_of(old: Table, new: Table) -> Revised:
    """The changes from a revision to the next one of the same month."""
    levels = [(code, old.rows[code].chained, row.chained) for code, row in new.rows.items()]
    differing = [level for level in levels if level[1] != level[2]]
    differing.sort(key=lambda it: (-abs(it[2] - it[1]), it[0]))
    return Revised(old, new, len(differing), differing[:GREATEST_DIFFERENCES])


def all_revised(vintages: Sequence[Table]) -> list[Revised]:
    """Each further revision with the one before, the last first; the tables are by month and revision."""
    pairs = zip(vintages, vintages[1:])
    return [revised_of(old, new) for old, new in pairs if old.month == new.month][::-1]


# ==== Contributions, annual averages and other reference periods, computed exactly from published tables
#
# Nothing is rounded before the end: each figure is a ratio of whole numbers, and is rounded once when it is written.
#
# **Contributions** of a node c to a node N at or above it, in percentage points; w are weights in use, I indices within
# the year (100 in December before), d is that December, p the month twelve months before.
#
# - To the change on the month before: `100 * w_c/w_N * (I_c - I_c before) / I_N before`; in January `before` is 100.
# - To the change on the year before: in December `w_c/w_N * (I_c - 100)`; else `100 * w'_c/w'_N * (I_c(d) - I_c(p)) /
#   I_N(p) + I_N(d)/I_N(p) * w_c/w_N * (I_c - 100)`, with the weights w' of the old year. A node that is in only one of
#   the two plans has only the term of that year.
#
# What lies next below N adds up to the change of N, across the link too, but for the rounding of what is published to
# millionths of a point.

Parts = tuple[int, int]
"""A number as numerator and denominator; of millions of them no `Ratio` is made."""


class Whole:
    """The common part of all contributions to a node in a month: its own weights and indices in the months that count.

    They can be asked for of each node at or below it, of any elementary aggregate of a special aggregate, and of a
    special aggregate to all items.
    """

    def __init__(self, series: Series, month: str, of: str, weighed: Sequence[Weighed]):
        """`weighed` are those of the month, of the month before, of the link month and of the year before."""
        self._of_now, self._of_earlier, self._of_link, self._of_year = weighed
        self._is_january, self._is_december = month.endswith("-01"), month.endswith("-12")
        self._now, self._then, self._at_link, self._a_year_ago = (each(of) for each in weighed)
        row = series.row(month, of)
        self._has_annual = row is not None and row.year_change is not None

    def to_month(self, code: str) -> Optional[Ratio]:
        """The percentage points that a node contributes to the monthly change; None if there is no contribution."""
        parts = self.parts_of_month(code)
        return Ratio(*parts) if parts else None

    def to_year(self, code: str) -> Optional[Ratio]:
        """The percentage points that a node contributes to the annual change; None if there is no contribution."""
        parts = self.parts_of_year(code)
        return Ratio(*parts) if parts else None

    def parts_of_month(self, code: str) -> Optional[Parts]:
        """`to_month` as numerator and denominator."""
        now, whole = self._of_now(code), self._now
        if now is None or whole is None:
            return None
        if self._is_january:
            return 100 * now[0] * (now[1] - HUNDRED), whole[0] * HUNDRED
        then, whole_then = self._of_earlier(code), self._then
        if then is None or whole_then is None:
            return None
        return 100 * now[0] * (now[1] - then[1]), whole[0] * whole_then[1]

    def parts_of_year(self, code: str) -> Optional[Parts]:
        """`to_year` as numerator and denominator."""
        whole = self._now
        if whole is None or not self._has_annual:
            return None
        now = self._of_now(code)
        if self._is_december:
            return (now[0] * (now[1] - HUNDRED), whole[0] * 10**6) if now else None
        whole_link, whole_then = self._at_link, self._a_year_ago
        if whole_link is None or whole_then is None:
            return None
        old = self._old_year(code, whole_then)
        if now is None:
            return old
        over, under = whole_link[1] * now[0] * (now[1] - HUNDRED), whole_then[1] * whole[0] * 10**6
        return (over * old[1] + old[0] * under, under * old[1]) if old else (over, under)

    def _old_year(self, code: str, whole_then: tuple[int, int]) -> Optional[Parts]:
        """The part of an annual contribution up to December."""
        link, then = self._of_link(code), self._of_year(code)
        if link is None or then is None:
            return None
        return 100 * then[0] * (link[1] - then[1]), whole_then[0] * whole_then[1]


class Contribution(NamedTuple):
    """The contribution of a node to another in a month, in percentage points; None if there is none."""

    code: str
    of: str
    to_month: Optional[Ratio]
    to_year: Optional[Ratio]


class Contributions:
    """The contributions of all months; a month whose changes don't follow from the published levels has none."""

    def __init__(self, series: Series, unexplained: Optional[Iterable[tuple[str, bool]]] = None):
        """`unexplained` are the months without contributions, if they are known: `Series.find_unexplained`."""
        self.series = series
        self.unexplained = frozenset(series.find_unexplained() if unexplained is None else unexplained)
        self._month, self._wholes = "", dict[str, Whole]()
        self._weighed: Sequence[Weighed] = ()

    def whole(self, month: str, to: str) -> Whole:
        """The common part of the contributions to a node in a month; the parts of one month are kept."""
        if month != self._month:
            self._month, self._wholes = month, {}
            months = (month, before(month), link_of(month), before(month, 12))
            self._weighed = [self.series.weighed_in(each) for each in months]
        found = self._wholes.get(to)
        if found is None:
            found = self._wholes[to] = Whole(self.series, month, to, self._weighed)
        return found

    def to_month(self, month: str, code: str, to: str) -> Optional[Ratio]:
        """The contribution of a node to the monthly change in a node at or above it."""
        return None if (month, False) in self.unexplained else self.whole(month, to).to_month(code)

    def to_year(self, month: str, code: str, to: str) -> Optional[Ratio]:
        """The contribution of a node to the annual change in a node at or above it."""
        return None if (month, True) in self.unexplained else self.whole(month, to).to_year(code)

    def of(self, month: str, code: str, to: str) -> Contribution:
        """The contributions of a node to both changes in a node at or above it."""
        return Contribution(code, to, self.to_month(month, code, to), self.to_year(month, code, to))

    def both(self, month: str, to: str) -> tuple[Callable[[str], Optional[Ratio]], Callable[[str], Optional[Ratio]]]:
        """Two functions of a node at or below a given one: its contributions to the monthly and to the annual change
        in that one in a month."""
        whole = self.whole(month, to)
        is_hidden = [(month, is_annual) in self.unexplained for is_annual in (False, True)]
        return _none if is_hidden[0] else whole.to_month, _none if is_hidden[1] else whole.to_year

    def below(self, month: str, to: str) -> list[Contribution]:
        """The contributions of all nodes directly below one in a month, including nodes that left in the year
        before."""
        children = (self.of(month, code, to) for code in self.series.children(to))
        return [each for each in children if each.to_month is not None or each.to_year is not None]


def _none(_: str) -> Optional[Ratio]:
    return None


# ---- averages, in points


def average(series: Series, code: str, year: int) -> Optional[Ratio]:
    """The mean of a node's twelve levels in a year; None if one is missing."""
    total = series.twelve(f"{year:04}-12").get(code)
    return None if total is None else Ratio(total, 12 * 10**6)


def average_change(series: Series, code: str, year: int) -> Optional[Ratio]:
    """The change in the annual average from the year before, in percent, from the averages before rounding."""
    now, then = average(series, code, year), average(series, code, year - 1)
    return Ratio(100 * (now.over - then.over), then.over) if now and then else None


def full_years(series: Series) -> list[int]:
    """The years that have tables with rows of twelve months."""
    ints = [int(month[:4]) for month in series.months]
    return sorted({year for year in ints if ints.count(year) == 12})


def twelve_month_rate(series: Series, month: str, code: str) -> Optional[Ratio]:
    """The change in percent from the mean level of the twelve months before to the mean level of the twelve months
    up to this one."""
    now, then = series.twelve(month).get(code), series.twelve(before(month, 12)).get(code)
    return Ratio(100 * (now - then), then) if now and then else None


# ---- another reference period, in points


def reference_level(series: Series, code: str, reference: str) -> Optional[Ratio]:
    """The level of a node in a reference period, a year like `2025` or a month like `2025-12`; None without it.

    In the first month of all, whose table has no rows, each node that begins there has 100.
    """
    if len(reference) == 4:
        return average(series, code, int(reference))
    if reference == series.base:
        return None if series.level(series.every[0], code) is None else Ratio(100, 1)
    level = series.level(reference, code)
    return None if level is None else Ratio(level, 10**6)


def months_linked_to(series: Series, code: str, reference: str) -> list[str]:
    """The months of a node whose levels are linked to its level of a reference period.

    They are all its months, unless it left the index and came back.
    """
    first = f"{reference}-01" if len(reference) == 4 else series.every[0] if reference == series.base else reference
    return next((run for run in series.runs(code) if first in run), [])


def rereference(chained: int, base: Ratio) -> Ratio:
    """A level of a node, in points, if the level of the reference period is 100."""
    return Ratio(100 * chained * base.under, base.over * 10**6)


# ==== the published tables as they were at the moment of a release: what its page is made of, now and in thirty years
#
# Later tables aren't in it, nor later revisions. Only few rows of few months are read: those of the month of the
# release, the months that its changes are against, and those of the reference period.

TABLE_DEPTH = 2
"""The table of a release has all items, divisions and groups; its file has all of them."""


class Published(NamedTuple):
    """All tables that are known now, the codes that the table of a release can have, and the runs of a node."""

    series: Series
    codes: Sequence[str]
    runs: Callable[[str], list[list[str]]]


class AsOf(Series):
    """The tables up to a release, whose month is the last one.

    It has the divisions and groups of the release's own table with their titles there, and no special aggregates: they
    are computed from tables by a list that the office may change.
    """

    def __init__(self, whole: Published, latest: Mapping[str, Table], of: Table):
        # (not as those of a Series are made, since nothing is read or computed again)
        self.whole, self.of, self._runs = whole.series, of, whole.runs
        self.latest = {month: latest[month] for month in sorted(latest) if month < of.month}
        self.latest[of.month] = of
        self._rows = {month: table.rows for month, table in self.latest.items()}
        self.months = self.every = [month for month, table in self.latest.items() if table.rows]
        self.vintages = [
            vintage for vintage in self.whole.vintages if vintage.month <= of.month and vintage.moment <= of.moment
        ]
        self.specials, self.core, self._twelve = {}, {}, {}
        self.other_titles = self.whole.other_titles
        self.titles = {code: of.rows[code].title for code in whole.codes if code in of.rows}

    @property
    def moment(self) -> int:
        """The moment of the release."""
        return self.of.moment

    def twelve(self, month: str) -> dict[str, int]:
        """The sums of a year, only for the nodes of the release, since otherwise thousands would be computed for
        each release."""
        found = self._twelve.get(month)
        if found is None:
            months = [before(month, by) for by in range(12)]
            levels = {code: [self.level(month, code) for month in months] for code in self.titles}
            found = {code: sum(filter(None, each)) for code, each in levels.items() if None not in each}
            self._twelve[month] = found
        return found

    def title(self, code: str) -> str:
        """The title of a node in the release, or of one that left in the table of the link month."""
        row = self.of.rows.get(code) or self.row(link_of(self.of.month), code)
        return self.name_node(code, row.title) if row else self.whole.title(code)

    def starts(self, code: str) -> list[str]:
        """The first month of each of a node's runs up to the release: a month has the same nodes in each revision."""
        return [month for month in self.whole.starts(code) if month <= self.of.month]

    def marks(self, code: str) -> Sequence[str]:
        """The months with which a node was back."""
        return self.starts(code)[1:]

    def runs(self, code: str) -> list[list[str]]:
        """The months of a node's runs up to the release."""
        runs = (run[: bisect.bisect_right(run, self.of.month)] for run in self._runs(code))
        return [run for run in runs if run]

    def children(self, code: str) -> list[str]:
        """The nodes directly below one, in any month."""
        return self.whole.children(code)


def given_then(as_of: AsOf, now: Contributions) -> Contributions:
    """The contributions to the changes of a release, by the tables up to it; `now` are those of all tables."""
    return Contributions(as_of, _find_unexplained(as_of, now))


def is_shown_then(as_of: AsOf, now: Contributions, month: str, is_annual: bool) -> bool:
    """Whether the changes of a month come from the levels that were published by the day of a release.

    `now` are the contributions by all tables: what is known there counts, if none of the tables from which the changes are
    computed was revised since.
    """
    bases: Sequence[str] = (month, before(month), link_of(month), before(month, 12))
    if all(as_of.latest.get(base) is as_of.whole.latest.get(base) for base in bases):
        return (month, is_annual) not in now.unexplained
    return as_of.is_shown(month, is_annual)


def _find_unexplained(as_of: AsOf, now: Contributions) -> Iterator[tuple[str, bool]]:
    """The changes of the release that don't come from the levels that were published by its day."""
    for is_annual in (False, True):
        if not is_shown_then(as_of, now, as_of.of.month, is_annual):
            yield as_of.of.month, is_annual


def each_as_of(series: Series) -> Iterator[AsOf]:
    """The tables up to each release that has rows, in the order of moments; those of one moment are all there then."""
    whole = Published(series, series.down_to(TABLE_DEPTH), functools.lru_cache(maxsize=None)(series.runs))
    by_moment: dict[int, list[Table]] = {}
    for table in series.vintages:
        by_moment.setdefault(table.moment, []).append(table)
    latest: dict[str, Table] = {}
    for moment in sorted(by_moment):
        for table in by_moment[moment]:
            if table.month not in latest or latest[table.month].revision < table.revision:
                latest[table.month] = table
        yield from (AsOf(whole, latest, table) for table in by_moment[moment] if table.rows)

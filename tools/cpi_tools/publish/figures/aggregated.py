"""The figures of special aggregates and of analytical core inflation, computed from published tables."""

from __future__ import annotations

from bisect import bisect_left, bisect_right
from collections.abc import Iterable, Iterator, Mapping, Sequence
from itertools import accumulate
from operator import le, mul
from typing import NamedTuple, Optional

from ...office.public import Published
from ...office.table_rows import NO_ROWS, Named, Rows
from ...office.tables import Aggregated, CoreMeasure, CoreRow, Row, Series, Table, before, link_of, rounded_change
from ...text.exact import HUNDRED, at_and_above, depth_of, round_ratio
from .specials import ITEMS, MEDIAN, TRIMMED, WHOLE, CoreDefinition, Membership, Sets, Special, definition_in


# ==== analytical core inflation: figures that leave out, or pass by, the changes of single months that are far from the
# others
#
# They are computed from the changes of elementary aggregates on the month and on the year before, as the published
# levels give them before any rounding, and from the weights in use in the month. An aggregate without such a change, as
# it is new, isn't counted. `b` is the level that a change is against: that of the month, or of the year, before; in
# January, or in December, that of December before, 100 if the aggregate wasn't there. All aggregates are in the order
# of their changes.
#
# - **Weighted median**: the change of the first aggregate with which the weights, added up from the least change on,
#   reach at least half of all weight. If they reach exactly half, it is that aggregate's, and not the next one's.
# - **Trimmed mean**: the mean by weights of the changes that are left if a share of all weight is left out at each end.
#   The aggregate at a cut counts with that part of its weight which is on the inner side.
# - **Share of items that rise**: how many aggregates have a level above `b`, in percent of those that are counted.
# - **Share of weight that rises**: the weight of these, in percent of the weight of those that are counted.
#
# All is exact. A figure is rounded once to one decimal, halves away from zero, as other changes are. A mean of
# thousands of fractions isn't made: whole numbers just below it and above it are, and if these are rounded alike, so is
# it.

ELEMENTARY = 5
"""The depth of an elementary aggregate."""


class Changes:
    """The changes of some elementary aggregates, at least one, from the least to the greatest."""

    def __init__(self, levels: Sequence[int], bases: Sequence[int], weights: Sequence[int]):
        # (two ratios that differ at all then differ by at least one whole number: 1/b and 1/c are their denominators)
        self._bits = 2 * max(bases).bit_length()
        near = [level / base for level, base in zip(levels, bases)]
        order = sorted(range(len(near)), key=near.__getitem__)
        columns = ([column[at] for at in order] for column in (levels, bases, weights))
        self._levels, self._bases, self._weights = columns
        self._keys = [(level << self._bits) // base for level, base in zip(self._levels, self._bases)]
        if not all(map(le, self._keys, self._keys[1:])):
            self._sort()
        self._reached = [*accumulate(self._weights)]
        self._total = self._reached[-1]

    def _sort(self) -> None:
        """Puts those in order that differ by less than binary fractions tell."""
        rows = sorted(zip(self._keys, self._levels, self._bases, self._weights))
        self._keys, self._levels, self._bases, self._weights = ([row[at] for row in rows] for at in range(4))

    def median(self) -> int:
        """The weighted median, in tenths of a percent."""
        at = bisect_left(self._reached, -(-self._total // 2))
        return rounded_change(self._bases[at], self._levels[at])

    def trimmed_mean(self, lower: int, upper: int) -> int:
        """The mean without hundredths of a percent of all weight at the ends, in tenths of a percent."""
        least, most = lower * self._total, (WHOLE - upper) * self._total
        first = bisect_right(self._reached, least // WHOLE)
        last = bisect_left(self._reached, -(-most // WHOLE))
        if first == last:
            return rounded_change(self._bases[first], self._levels[first])
        ends = WHOLE * self._reached[first] - least, most - WHOLE * self._reached[last - 1]
        inner = slice(first + 1, last)
        below = WHOLE * sum(map(mul, self._weights[inner], self._keys[inner]))
        below += ends[0] * self._keys[first] + ends[1] * self._keys[last]
        under = (most - least) << self._bits
        change = rounded_change(under, below)
        if change == rounded_change(under, below + most - least):
            return change
        weights = [ends[0], *(WHOLE * weight for weight in self._weights[inner]), ends[1]]
        return self._exact(weights, first, last)

    def _exact(self, weights: Sequence[int], first: int, last: int) -> int:
        """The mean from fractions, if it is too near to a rounding limit for floating-point numbers."""
        named = zip(weights, self._levels[first : last + 1], self._bases[first : last + 1])
        over, under = _add_fractions([(weight * level, base) for weight, level, base in named])
        return rounded_change(sum(weights) * under, over)

    @property
    def _unrisen(self) -> int:
        """The number of aggregates whose prices don't rise."""
        return bisect_right(self._keys, 1 << self._bits)

    def items_rising(self) -> int:
        """The share of the aggregates that rise, in tenths of a percent."""
        count = len(self._keys)
        return round_ratio(1000 * (count - self._unrisen), count)

    def weight_rising(self) -> int:
        """The share of their weight, in tenths of a percent."""
        unrisen = self._reached[self._unrisen - 1] if self._unrisen else 0
        return round_ratio(1000 * (self._total - unrisen), self._total)

    def figure(self, of: CoreDefinition) -> int:
        """The figure of a measure, in tenths of a percent."""
        if of.measure == MEDIAN:
            return self.median()
        if of.measure == TRIMMED:
            return self.trimmed_mean(of.lower, of.upper)
        return self.items_rising() if of.measure == ITEMS else self.weight_rising()


def _add_fractions(parts: Sequence[tuple[int, int]]) -> tuple[int, int]:
    """The sum of some fractions, halves of them first, so that only few numbers are large."""
    if len(parts) == 1:
        return parts[0]
    (one, under), (other, below) = _add_fractions(parts[: len(parts) // 2]), _add_fractions(parts[len(parts) // 2 :])
    return one * below + other * under, under * below


class CoreComputed:
    """The figures of measures by one table of each month."""

    def __init__(self, tables: Mapping[str, Table]):
        self._tables = tables
        self._places: tuple[Optional[Named], list[int]] = None, []

    def rows(self, measures: Mapping[str, Sequence[CoreDefinition]], month: str) -> dict[str, CoreRow]:
        """The figures of a month by id, of those measures that have one; `measures` has the rows of each."""
        monthly, annual = (self._changes(month, is_annual) for is_annual in (False, True))
        core_rows: dict[str, CoreRow] = {}
        for name, rows in measures.items():
            of = definition_in(rows, month)
            if of.measure and monthly:
                core_rows[name] = CoreRow(monthly.figure(of), annual.figure(of) if annual else None)
        return core_rows

    def _changes(self, month: str, is_annual: bool) -> Optional[Changes]:
        """The monthly or annual changes of a month; None if no aggregate has one."""
        rows, is_from_link = self._tables[month].rows, month.endswith("-12" if is_annual else "-01")
        earlier = link_of(month) if is_from_link else before(month, 12 if is_annual else 1)
        bases = (self._tables[earlier].rows if earlier in self._tables else NO_ROWS).levels_for(rows)
        places = self._elementary(rows)
        found = [HUNDRED if bases[at] is None and is_from_link else bases[at] for at in places]
        counted = [base for base in found if base is not None]
        if len(counted) < len(places):
            places = [at for at, base in zip(places, found) if base is not None]
        levels, weights = ([column[at] for at in places] for column in (rows.chained, rows.weight))
        return Changes(levels, counted, weights) if places else None

    def _elementary(self, rows: Rows) -> list[int]:
        """The places of elementary aggregates in a table, which are mostly those of the month before."""
        if self._places[0] is not rows.named:
            codes = enumerate(rows.named.codes)
            self._places = rows.named, [at for at, code in codes if depth_of(code) == ELEMENTARY]
        return self._places[1]


def measures_of(definitions: Iterable[CoreDefinition]) -> dict[str, list[CoreDefinition]]:
    """The rows of each measure by its id, in the order of the file."""
    measures: dict[str, list[CoreDefinition]] = {}
    for definition in definitions:
        measures.setdefault(definition.id, []).append(definition)
    return measures


def core_of(definitions: Sequence[CoreDefinition], tables: Mapping[str, Table]) -> dict[str, CoreMeasure]:
    """The measures that have a figure, by id, with their figures in each month that has a table with rows."""
    if not definitions:
        return {}
    measures, computed = measures_of(definitions), CoreComputed(tables)
    rows = {month: computed.rows(measures, month) for month in sorted(tables) if tables[month].rows}
    core_measures: dict[str, CoreMeasure] = {}
    for name, own in measures.items():
        figures = {month: row[name] for month, row in rows.items() if name in row}
        later = [core_definition.since for core_definition in own[1:] if core_definition.measure]
        changes = [since for since in later if min(figures, default=since) < since and since in figures]
        last = [core_definition for core_definition in own if core_definition.measure][-1]
        measures_in = {month: definition_in(own, month).measure for month in figures}
        core_measures[name] = CoreMeasure(own[-1].title, last.is_share, figures, measures_in, changes)
    return {name: measure for name, measure in core_measures.items() if measure.rows}


# ==== the figures of special aggregates, each computed from published tables as the office computes those of a node
#
# Within a year the index of a set is the mean of the indices of its elementary aggregates by their weights in use,
# rounded once to millionths of a point. Its level is that of December before times the index; it begins at 100 in
# December before. Other aggregates can belong to it in another year: the level goes on, and the year is marked.

Members = Mapping[str, tuple[str, ...]]
"""By year like `2026`, the elementary aggregates of a set, which are the same in each month of the year."""


def series_of(
    published: Iterable[Published], specials: Sequence[Special] = (), core: Sequence[CoreDefinition] = ()
) -> Series:
    """All tables, with the figures of those sets that have an aggregate in one of them, and of the measures of core
    inflation. Raises NotATable."""
    series, sets = Series(published), Sets(specials)
    tables = [series.latest[month] for month in series.months]
    for name in sets.ids:
        aggregate = aggregate_set(name, sets, tables, series.titles)
        if aggregate.rows:
            series.specials[name] = aggregate
    series.core = core_of(core, series.latest)
    return series


def aggregate_set(name: str, sets: Sets, tables: Sequence[Table], codes: Iterable[str]) -> Aggregated:
    """The figures of a set by tables with rows, the latest of each month, in the order of months; `codes` are all that
    is in any of them."""
    members: dict[str, tuple[str, ...]] = {}
    for table in tables:
        if table.month[:4] not in members:
            members[table.month[:4]] = _members(name, sets.in_month(table.month), table)
    computed = Computed(name, sets.title(name), members, {table.month: table for table in tables})
    rows = {table.month: row for table in tables if (row := computed.row(table.month))}
    starts, changes = [], []
    for month in _first_months(rows):
        earlier = members.get(before(month, 12)[:4], ())
        if not earlier:
            starts.append(month)
        elif earlier != members[month[:4]]:
            changes.append(month)
    last = sets.in_month(max(rows, default=""))
    return Aggregated(sets.title(name), rows, starts, changes, members, _cover(name, last, codes))


def _members(name: str, membership: Membership, table: Table) -> tuple[str, ...]:
    return tuple(code for code in table.rows if depth_of(code) == 5 and membership.has(name, code))


def _first_months(months: Iterable[str]) -> list[str]:
    """The first month of each year."""
    return [*{month[:4]: month for month in sorted(months, reverse=True)}.values()][::-1]


def _cover(name: str, membership: Membership, codes: Iterable[str]) -> list[str]:
    """The greatest nodes all of whose elementary aggregates belong to a set, in the order of codes."""
    parts: dict[str, list[bool]] = {}
    for code in codes:
        if depth_of(code) == 5:
            for node in at_and_above(code):
                parts.setdefault(node, []).append(membership.has(name, code))
    whole = {node for node, part in parts.items() if all(part)}
    return sorted(node for node in whole if not any(above in whole for above in [*at_and_above(node)][1:]))


class Mean(NamedTuple):
    """The weight of some elementary aggregates, the mean of their indices within the year, and whether a price in them was
    imputed."""

    weight: int
    within: int
    is_imputed: bool


class Computed:
    """The rows of a set by one table of each month: its title, its members by year, and the tables."""

    def __init__(self, name: str, title: str, members: Members, tables: Mapping[str, Table]):
        self._name, self._title, self._members, self._tables = name, title, members, tables
        self._means: dict[str, Mean] = {}
        self._levels: dict[str, Optional[int]] = {}

    def row(self, month: str) -> Optional[Row]:
        """The row of a month. There is none if published tables don't give the level that its monthly change starts
        from: the level of December or of the month before."""
        level = self._level(month)
        if level is None:
            return None
        link = self._link(month)
        monthly = link if month.endswith("-01") else self._level(before(month))
        annual = link if month.endswith("-12") else self._level(before(month, 12))
        if monthly is None:
            return None
        weight, within, is_imputed = self._mean(month)
        changes = rounded_change(monthly, level), annual and rounded_change(annual, level)
        return Row(self._name, weight, within, level, *changes, is_imputed, self._title)

    def _level(self, month: str) -> Optional[int]:
        """The chained level of a month; None if the set isn't in its table, or there is no December to link it to."""
        if month not in self._levels:
            link = self._link(month) if month in self._tables and self._members.get(month[:4]) else None
            self._levels[month] = None if link is None else round_ratio(link * self._mean(month).within, HUNDRED)
        return self._levels[month]

    def _link(self, month: str) -> Optional[int]:
        """The level to which the months of a year are linked: 100 if the set didn't exist in the year before."""
        return self._level(link_of(month)) if self._members.get(before(month, 12)[:4]) else HUNDRED

    def _mean(self, month: str) -> Mean:
        mean = self._means.get(month)
        if mean is None:
            rows = self._tables[month].rows
            mean = self._means[month] = _mean(rows, self._members[month[:4]])
        return mean


def _mean(rows: Mapping[str, Row], members: Iterable[str]) -> Mean:
    below = [rows[code] for code in members]
    weight = sum(row.weight for row in below)
    within = round_ratio(sum(row.weight * row.within for row in below), weight)
    return Mean(weight, within, any(row.is_imputed for row in below))


# ---- what revisions changed


class Vintage(NamedTuple):
    """A figure of a set as a publication had it: the table of its month then, the moment, and the row."""

    table: Table
    moment: int
    row: Row


Vintages = dict[str, dict[str, list[Vintage]]]
"""By id and month, the figures that a later publication changed, as each publication had them."""


def vintages_of(series: Series) -> Vintages:
    """The figures of sets that further revisions changed. The revision of a month whose table was already published
    can change the figures of that month and of later months."""
    vintages: Vintages = {name: {} for name in series.specials}
    again = published_again(series)
    latest: dict[str, Table] = {}
    for moment, tables in by_moment(series):
        first = min(table.month for table in tables)
        latest.update({table.month: table for table in tables if _is_later(table, latest.get(table.month))})
        months = [month for month in again if first <= month and month in latest and latest[month].rows]
        for name, it in series.specials.items() if months else ():
            computed = Computed(name, it.title, it.members, latest)
            for month in months:
                row, known = computed.row(month), vintages[name].setdefault(month, [])
                if row and (not known or known[-1].row != row):
                    known.append(Vintage(latest[month], moment, row))
    return {name: {month: it for month, it in months.items() if len(it) > 1} for name, months in vintages.items()}


def _is_later(table: Table, other: Optional[Table]) -> bool:
    return other is None or other.revision < table.revision


def by_moment(series: Series) -> Iterator[tuple[int, list[Table]]]:
    """The tables of each moment, in the order of moments."""
    tables: dict[int, list[Table]] = {}
    for table in series.vintages:
        tables.setdefault(table.moment, []).append(table)
    yield from sorted(tables.items())


def published_again(series: Series) -> list[str]:
    """The months whose figures can have changed after their publication, in order."""
    found: set[str] = set()
    latest: dict[str, Table] = {}
    for _, tables in by_moment(series):
        first = min(table.month for table in tables)
        found.update(month for month in latest if first <= month)
        latest.update({table.month: table for table in tables})
    return sorted(found)

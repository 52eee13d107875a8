"""Published tables as exact numbers, by month and by node.

Units: indices and levels are in millionths of a point, changes in tenths of a percent, weights as in the table. A month
is a text like `2026-01`. Each row that is read here gives the program's digits again (`Row.texts`): a row that wouldn't
isn't accepted.
"""

from __future__ import annotations

import bisect
import copy
import csv
import functools
from collections.abc import Callable, Iterable, Iterator, Mapping, Sequence
from datetime import datetime, timezone
from itertools import groupby
from typing import NamedTuple, Optional

from ..text.exact import ALL_ITEMS, HUNDRED, at_and_above, depth_of, parent_of, points, round_ratio, tenths
from ..text.terminal import Fault
from .public import Published, Sources
from .table_rows import NO_CHANGE, NO_ROWS, Row as Row, Rows, rows_of


class NotATable(Fault):
    """Bytes that aren't a printed table; one line."""


class Table(NamedTuple):
    """A release of a month. `rows` are by code, in the order of codes; the first December has none."""

    month: str
    revision: int
    moment: int
    sha256: str
    rows: Rows


def table_of(published: Published, last: Rows = NO_ROWS) -> Table:
    """A published table, read exactly, which shares equal values with the rows of another one. Raises NotATable."""
    month, revision, moment = published.listed
    data = published.table
    try:
        rows = rows_of(data.decode(), last)
    except (ValueError, csv.Error) as fault:
        raise NotATable(f"{month}, revision {revision}: no row of a table: {str(fault)[:100]}") from fault
    return Table(month, revision, moment, published.sha256, rows)


def tables_of(published: Iterable[Published]) -> Iterator[tuple[Published, Table]]:
    """Some published tables, each of which shares equal values with the one before. Raises NotATable."""
    last = NO_ROWS
    for each in published:
        table = table_of(each, last)
        last = table.rows or last
        yield each, table


# ---- months


@functools.lru_cache(maxsize=None)
def before(month: str, by: int = 1) -> str:
    """The month so many months before."""
    at = int(month[:4]) * 12 + int(month[5:]) - 1 - by
    return f"{at // 12:04}-{at % 12 + 1:02}"


@functools.lru_cache(maxsize=None)
def link_of(month: str) -> str:
    """December of the year before."""
    return f"{int(month[:4]) - 1:04}-12"


@functools.lru_cache(maxsize=None)
def iso(moment: int) -> str:
    """`2026-01-28T09:30:00Z` of seconds since 1970."""
    return datetime.fromtimestamp(moment, timezone.utc).strftime("%Y-%m-%dT%H:%M:%SZ")


class Aggregated(NamedTuple):
    """A special aggregate, which no table contains: its title, its rows by month, the first months of its runs, the
    months from which other elementary aggregates belong to it than before, these by year, and the greatest nodes wholly
    in it.
    """

    title: str
    rows: dict[str, Row]
    starts: list[str]
    changes: list[str]
    members: dict[str, tuple[str, ...]]
    cover: list[str]

    def part(self, last: str) -> Aggregated:
        """These tables up to a month, except for the greatest nodes, which later tables affect."""
        return Aggregated(
            self.title,
            {month: row for month, row in self.rows.items() if month <= last},
            [month for month in self.starts if month <= last],
            [month for month in self.changes if month <= last],
            {year: members for year, members in self.members.items() if year <= last[:4]},
            [],
        )


class CoreRow(NamedTuple):
    """The figures of a core measure in a month, by the monthly and the annual changes of aggregates, in tenths of a
    percent; the second is None in the first year."""

    monthly: int
    annual: Optional[int]

    @property
    def texts(self) -> tuple[str, str]:
        """Both with one decimal."""
        return tenths(self.monthly), tenths(self.annual)


class CoreMeasure(NamedTuple):
    """A measure of analytical core inflation, which no table contains: its title, whether it is a share and not a
    change, its figures by month, what it was in each (`median`), and the months from which on it is another one than
    before."""

    title: str
    is_share: bool
    rows: dict[str, CoreRow]
    measures: Mapping[str, str]
    changes: list[str]

    def part(self, first: str, last: str) -> CoreMeasure:
        """This measure in the months from `first` to `last`."""
        rows = {month: row for month, row in self.rows.items() if first <= month <= last}
        return self._replace(rows=rows, changes=[month for month in self.changes if month in rows])


class SeasonalRow(NamedTuple):
    """A month of an adjusted series: its level and the adjusted one in millionths of a point, and the change of the latter on
    the month before in tenths of a percent, None in the first month."""

    level: int
    adjusted: int
    month_change: Optional[int]

    @property
    def texts(self) -> tuple[str, str]:
        """The adjusted level and its change."""
        return points(self.adjusted), tenths(self.month_change)


class SeasonalSeries(NamedTuple):
    """A seasonally adjusted series, which no table contains: its title, what it was made by (method, software, version,
    settings, window), how many of the last months the office revises as a rule, and its figures by month."""

    title: str
    made_by: tuple[str, ...]
    window: int
    rows: dict[str, SeasonalRow]


# ---- all tables

NONE: Sequence[str] = ()

Weighed = Callable[[str], Optional[tuple[int, int]]]
"""Tells of a node its weight in use and its index within the year; None if it has none."""


Unexplained = tuple[str, bool]
"""A month, and whether it is its annual change, or that on the month before."""

Group = tuple[Mapping[str, int], list[Sequence[int]]]
"""Months one after the other whose tables have the same nodes: the place of each node, and a figure's column by month."""


def _groups(rows: Mapping[str, Rows], months: Sequence[str], name: str) -> list[Group]:
    """A figure of some months in groups of these; for a month without a table, no node has a place."""
    named = groupby((rows.get(month, NO_ROWS) for month in months), key=lambda row: row.named.places)
    return [(places, [getattr(it, name) for it in found]) for places, found in named]


class Series:
    """All published tables.

    `vintages` are all of them by month and revision, `latest` the latest revision by month, `every` the months whose
    table has rows, `titles` each code of any of these with its latest title, in the order of codes, `specials` the
    special aggregates by id, which `aggregated` computes. A question about a code below can be asked about such an id
    too. `core` are the measures of core inflation by id, which `aggregated` computes, and `seasonal` the adjusted series
    by code, which the office's programs make. `months` are those whose
    figures are written: all of them, but of a `part`. Raises NotATable if none has rows.
    """

    def __init__(self, published: Iterable[Published]):
        kept = Sources()
        read = ((kept.add(each, table.sha256), table) for each, table in tables_of(published))
        found = sorted(read, key=lambda it: it[0][0])
        self.sources, self.vintages = [source for source, _ in found], [table for _, table in found]
        self.latest = {table.month: table for table in self.vintages}
        self.months = self.every = [month for month, table in self.latest.items() if table.rows]
        if not self.months:
            raise NotATable("no table with rows is published yet")
        self.titles = self.every_title = _titles(self.latest[month].rows for month in self.months)
        self._rows = {month: table.rows for month, table in self.latest.items()}
        self.specials: dict[str, Aggregated] = {}
        self.core: dict[str, CoreMeasure] = {}
        self.seasonal: dict[str, SeasonalSeries] = {}
        self.other_titles: Mapping[str, str] = {}
        self._starts = _starts(self.latest[month] for month in self.months)
        self._twelve: dict[str, dict[str, int]] = {}
        self._children = _children(self.titles)

    def part(self, first: str, last: str) -> Series:
        """The tables up to a December or the last month, as if no later one were there; the figures of the months from
        a January on are written, of the nodes that are in one of these or in one of the year before."""
        part = copy.copy(self)
        for known in ("revised", "_grouped"):
            part.__dict__.pop(known, None)
        found = [(source, table) for source, table in zip(self.sources, self.vintages) if table.month <= last]
        part.sources, part.vintages = [source for source, _ in found], [table for _, table in found]
        part.latest = {month: table for month, table in self.latest.items() if month <= last}
        part.every = [month for month in self.every if month <= last]
        part.months = [month for month in part.every if first <= month]
        part.every_title = self.titles_to(last)
        written = {*_titles(part.latest[month].rows for month in part.every if before(first, 12) <= month)}
        part.titles = {code: title for code, title in part.every_title.items() if code in written}
        part._rows = {month: table.rows for month, table in part.latest.items()}
        kept = ((code, [month for month in starts if month <= last]) for code, starts in self._starts.items())
        part._starts = {code: starts for code, starts in kept if starts}
        part._children = _children(part.titles)
        part.specials = {}
        for name, it in self.specials.items():
            if any(before(first, 12) <= month <= last for month in it.rows):
                part.specials[name] = it.part(last)
        found_core = ((name, it.part(first, last)) for name, it in self.core.items())
        part.core = {name: part for name, part in found_core if part.rows}
        part._twelve = {}
        return part

    def titles_to(self, last: str) -> dict[str, str]:
        """Each code of the tables up to a month, with its latest title there, in the order of codes."""
        return _titles(self.latest[month].rows for month in self.every if month <= last)

    @property
    def base(self) -> str:
        """The first month, a December, whose level is 100."""
        return link_of(self.every[0])

    @property
    def last(self) -> Table:
        """The table of the last month."""
        return self.latest[self.months[-1]]

    @property
    def moment(self) -> int:
        """When the last of them was published: the moment of all output, in seconds since 1970 UTC."""
        return max(table.moment for table in self.vintages)

    @functools.cached_property
    def revisions(self) -> list[tuple[Table, Table]]:
        """Each further revision, after the one before."""
        return [pair for pair in zip(self.vintages, self.vintages[1:]) if pair[0].month == pair[1].month]

    def row(self, month: str, code: str) -> Optional[Row]:
        """The row of a node in the latest revision of a month."""
        rows = self._rows.get(month, NO_ROWS)
        place = rows.place(code)
        if place is not None:
            return rows.at(place)
        return self.specials[code].rows.get(month) if code in self.specials else None

    def weighed_in(self, month: str) -> Weighed:
        """A function that gives a node's weight in use and index within the year, in the latest revision of a month."""
        rows, specials = self._rows.get(month, NO_ROWS), self.specials
        places, weight, within = rows.named.places, rows.weight, rows.within

        def find_weight(code: str) -> Optional[tuple[int, int]]:
            place = places.get(code)
            if place is not None:
                return weight[place], within[place]
            row = specials[code].rows.get(month) if code in specials else None
            return (row.weight, row.within) if row else None

        return find_weight

    def level(self, month: str, code: str) -> Optional[int]:
        """The level of a node in the latest revision of a month, in millionths of a point."""
        rows = self._rows.get(month, NO_ROWS)
        place = rows.place(code)
        if place is not None:
            return rows.chained[place]
        row = self.specials[code].rows.get(month) if code in self.specials else None
        return row.chained if row else None

    def column(self, months: Iterable[str], code: str, name: str) -> list[Optional[int]]:
        """A figure of a node's rows in some months, such as `chained`; None in a month without a row or a change."""
        if code in self.specials:
            rows = self.specials[code].rows
            return [getattr(rows[month], name) if month in rows else None for month in months]
        found: list[Optional[int]] = []
        for places, columns in self._group_months((*months,), name):
            place = places.get(code)
            found += [None] * len(columns) if place is None else [column[place] for column in columns]
        return [None if it == NO_CHANGE else it for it in found] if name == "year_change" else found

    @functools.cached_property
    def _group_months(self) -> Callable[[tuple[str, ...], str], list[Group]]:
        """The groups of some months for a figure: thousands of nodes are asked for the same ones."""
        return functools.lru_cache(maxsize=256)(functools.partial(_groups, self._rows))

    def twelve(self, month: str) -> dict[str, int]:
        """By code, the sum of the levels of the twelve months up to one, in millionths of a point; a node without a
        level in one of them isn't there."""
        found = self._twelve.get(month)
        if found is None:
            found = self._twelve[month] = self._sums([before(month, by) for by in range(12)])
        return found

    def _sums(self, months: list[str]) -> dict[str, int]:
        tables = [self._rows.get(month, NO_ROWS) for month in months]
        sums = zip(tables[0].named.codes, zip(*(rows.levels_for(tables[0]) for rows in tables)))
        totals = {code: sum(levels) for code, levels in sums if None not in levels}
        for name, it in self.specials.items():
            if all(month in it.rows for month in months):
                totals[name] = sum(it.rows[month].chained for month in months)
        return totals

    def rows(self, code: str) -> list[Optional[Row]]:
        """The rows of a node in all months."""
        return [self.row(month, code) for month in self.months]

    @property
    def all_titles(self) -> dict[str, str]:
        """The titles of all nodes by code, and then those of special aggregates by id."""
        titles = {**self.titles, **{name: it.title for name, it in self.specials.items()}}
        return {code: self.name_node(code, title) for code, title in titles.items()} if self.other_titles else titles

    def title(self, code: str) -> str:
        """The title of a node."""
        return self.name_node(code, self.specials[code].title if code in self.specials else self.titles[code])

    def name_node(self, code: str, title: str) -> str:
        """The title of a node for readers, from its title in a table."""
        return self.other_titles.get(code, title)

    def with_titles(self, titles: Mapping[str, str]) -> Series:
        """The same tables for readers of another language: with its titles by code and, for codes without one, the
        tables' titles."""
        copy_ = copy.copy(self)
        copy_.other_titles = titles
        return copy_

    def level_in(self, month: str, code: str) -> int:
        """A node's level in a month, in millionths of a point: 100 in the first month of all."""
        level = self.level(month, code)
        return HUNDRED if level is None else level

    def link_level(self, month: str, code: str) -> int:
        """The level to which a node's level in the month of a year is linked, in millionths of a point: 100 in its
        first year."""
        return self.level_in(link_of(month), code)

    def runs(self, code: str) -> list[list[str]]:
        """The months of a node, split when it left the index and came back: the levels of two parts aren't linked.

        Each part has a base of its own, December before its first month.
        """
        starts = self.starts(code)
        if len(starts) == 1 and code in self.latest[self.every[-1]].rows:
            # (it never left)
            return [self.every[bisect.bisect_left(self.every, starts[0]) :]]
        limits = [*starts, "9999-12"]
        months = [month for month in self.every if self.level(month, code) is not None]
        return [[month for month in months if first <= month < end] for first, end in zip(limits, limits[1:])]

    def starts(self, code: str) -> list[str]:
        """The first month of each of a node's runs."""
        return self.specials[code].starts if code in self.specials else self._starts.get(code, [])

    def base_of(self, month: str, code: str) -> str:
        """The December in which the level of a node is 100, for a level of this month.

        A month in which the node has no level has the base of the run before it, or of the first run if there is none
        before.
        """
        starts = self.starts(code) or [month]
        if len(starts) == 1:
            return link_of(starts[0])
        return link_of(starts[max(0, bisect.bisect_right(starts, month) - 1)])

    def is_break(self, month: str, code: str) -> bool:
        """Whether a node is back in this month, so that its level isn't linked to its earlier ones."""
        return month in self.starts(code)[1:]

    def marks(self, code: str) -> Sequence[str]:
        """The months whose level is after a break: the node is back, or it is a special aggregate to which other
        elementary aggregates belong than in the month before."""
        starts = self._starts.get(code)
        if starts and len(starts) == 1:
            return NONE
        changes = self.specials[code].changes if code in self.specials else []
        return [*self.starts(code)[1:], *changes]

    def children(self, code: str) -> list[str]:
        """The nodes next below one, in any month; of a special aggregate the greatest ones that are wholly in it."""
        return self.specials[code].cover if code in self.specials else self._children.get(code, [])

    def path(self, code: str) -> list[str]:
        """The nodes above one, from all items down."""
        return [ALL_ITEMS] if code in self.specials else [*at_and_above(code)][:0:-1]

    def down_to(self, depth: int) -> list[str]:
        """The nodes of at most a depth: 0 all items, 1 divisions, .. 5 elementary aggregates."""
        return [code for code in self.titles if depth_of(code) <= depth]

    # ---- revisions under embargo

    def month_base(self, month: str, code: str) -> Optional[int]:
        """The level that a node's change on the month before is against, by the published tables."""
        if month.endswith("-01"):
            return self.link_level(month, code)
        return self.level(before(month), code)

    def year_base(self, month: str, code: str) -> Optional[int]:
        """The level that a node's change on the year before is against, by the published tables."""
        if month.endswith("-12"):
            return self.link_level(month, code)
        return self.level(before(month, 12), code)

    def is_change_shown(self, month: str, row: Row, is_annual: bool) -> bool:
        """Whether a row's change, if it has one, comes from the published levels."""
        change = row.year_change if is_annual else row.month_change
        base = (self.year_base if is_annual else self.month_base)(month, row.code)
        return change is None or (base is not None and change == rounded_change(base, row.chained))

    def is_shown(self, month: str, is_annual: bool) -> bool:
        """Whether the changes of a month come from the published levels.

        They aren't if a revision of the month with which they are compared isn't published yet: the office computes
        with the latest revision, published or not. An annual change goes over December before, to whose level the month
        is linked, so that December has to be the published one too.
        """
        if is_annual and not self.is_linked(month):
            return False
        rows, by = self._rows[month], 12 if is_annual else 1
        is_from_link = month.endswith("-12" if is_annual else "-01")
        earlier = self._rows.get(link_of(month) if is_from_link else before(month, by), NO_ROWS)
        changes = rows.year_change if is_annual else rows.month_change
        # (rounded_change, written out: there are millions of rows)
        for change, base, level in zip(changes, earlier.levels_for(rows), rows.chained):
            base = HUNDRED if base is None and is_from_link else base
            if change != NO_CHANGE:
                if base is None:
                    return False
                size = (2000 * abs(level - base) + base) // (2 * base)
                if change != (size if level >= base else -size):
                    return False
        return True

    def is_row_linked(self, month: str, row: Row) -> bool:
        """Whether a row's level is its index within the year on the published level of December before."""
        return row.chained == round_ratio(self.link_level(month, row.code) * row.within, HUNDRED)

    def is_linked(self, month: str) -> bool:
        """Whether each level of a month is its index within the year on the published level of December before."""
        rows = self._rows[month]
        links = self._rows.get(link_of(month), NO_ROWS).levels_for(rows)
        for level, link, within in zip(rows.chained, links, rows.within):
            if level != (2 * (HUNDRED if link is None else link) * within + HUNDRED) // (2 * HUNDRED):
                return False
        return True

    def find_unexplained(self, months: Optional[Iterable[str]] = None) -> Iterator[Unexplained]:
        """The months among some whose changes don't come from the published levels; among all months, if none are
        named."""
        for month in self.every if months is None else months:
            for is_annual in (False, True):
                if not self.is_shown(month, is_annual):
                    yield month, is_annual


def _titles(tables: Iterable[Rows]) -> dict[str, str]:
    """The latest title of each code, in the order of codes; tables are in the order of months."""
    titles: dict[str, str] = {}
    last = NO_ROWS.named
    for rows in tables:
        if rows.named is not last:
            last = rows.named
            titles.update(zip(last.codes, last.titles))
    return dict(sorted(titles.items()))


def _children(codes: Iterable[str]) -> dict[str, list[str]]:
    """By node, those next below it."""
    children: dict[str, list[str]] = {}
    for code in codes:
        above = parent_of(code)
        if above is not None:
            children.setdefault(above, []).append(code)
    return children


def _starts(tables: Iterable[Table]) -> dict[str, list[str]]:
    """By code, the months whose table contains it while the one before doesn't; tables are in the order of months."""
    found: dict[str, list[str]] = {}
    earlier = NO_ROWS
    for table in tables:
        for code in table.rows.keys() - earlier.keys():
            found.setdefault(code, []).append(table.month)
        earlier = table.rows
    return found


def rounded_change(then: int, now: int) -> int:
    """The change between two levels in tenths of a percent, a fall rounded as a rise of its size."""
    size = round_ratio(1000 * abs(now - then), then)
    return size if now >= then else -size

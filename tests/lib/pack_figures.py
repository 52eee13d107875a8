"""Computes every figure of a pack of `cpi-tools publish` a second time, from the tables that were computed from prices.

The formulas come from docs/data/DATA.md (*What is computed*) and docs/data/METHOD.md (*Special aggregates and
regions*); they are computed in fractions and rounded once. The module shares nothing with `cpi_tools`. An item is the
code of a node, or the id of a set of elementary aggregates. Levels and indices are in points, changes in percent,
contributions in percentage points.
"""

from __future__ import annotations

from collections.abc import Iterator, Mapping
from fractions import Fraction
from functools import cache, partial
from typing import NamedTuple, Optional

from .by_the_manual import Month, Row, change
from .nation import data, previous, year_before
from .sets import Elementary, Set, figures, nearest

ALL = "00"
HUNDRED = Fraction(100)


class Line(NamedTuple):
    """An item in a month: `base` is the December in which its level is 100, and `is_break` says that the level isn't
    linked to the one before, or that other elementary aggregates are in it."""

    weight: int
    within: Fraction
    level: Fraction
    monthly: Optional[Fraction]
    annual: Optional[Fraction]
    is_imputed: bool
    base: str
    is_break: bool


Lines = dict[str, Line]
"""Lines by month."""


class Named(NamedTuple):
    """A set of elementary aggregates: its title, and the function that says whether it contains a code."""

    title: str
    is_in: Set


Sets = Mapping[str, Named]
"""Sets by their ids."""


def sets_of_the_nation() -> Sets:
    """The special aggregates of the nation's file, whose lists name the codes and the other sets in them."""
    rows = {row["id"]: row for row in data("aggregates")}

    @cache
    def has(name: str, code: str) -> bool:
        if name not in rows:
            return name == ALL or code.startswith(name)
        inside, outside = (any(has(word, code) for word in rows[name][column].split()) for column in ("in", "out"))
        return inside and not outside

    return {name: Named(row["title"], partial(has, name)) for name, row in rows.items()}


def above(code: str) -> Optional[str]:
    """The node next above a node; all items and sets have none."""
    if code == ALL or not code[0].isdigit():
        return None
    return code[:8] if "-" in code else code[:-2] if "." in code else ALL


def depth(code: str) -> int:
    """The depth of a node below all items."""
    up = above(code)
    return 0 if up is None else 1 + depth(up)


def december_before(month: str) -> str:
    return f"{int(month[:4]) - 1}-12"


def months_of(year: str) -> list[str]:
    return [f"{year}-{number:02}" for number in range(1, 13)]


def lines_of_nodes(months: Mapping[str, Month]) -> dict[str, Lines]:
    """All nodes: a level begins at 100 in the December before the node comes, and again if the node left and
    returns."""
    lines: dict[str, Lines] = {}
    for month, it in sorted(months.items()):
        for row in it.rows:
            own = lines.setdefault(row.code, {})
            before = own.get(previous(month))
            base = before.base if before else december_before(month)
            figures_of_row = row.weight, row.within, row.level, row.monthly, row.annual, row.is_imputed
            own[month] = Line(*figures_of_row, base, bool(own) and not before)
    return lines


def lines_of_sets(found: Mapping[str, Month], sets: Sets) -> dict[str, Lines]:
    """All sets; in January a set can have other aggregates than in December."""
    months = {
        month: {row.code: Elementary(row.weight, row.within, row.is_imputed) for row in it.rows if "-" in row.code}
        for month, it in found.items()
    }
    lines: dict[str, Lines] = {}
    for name, (_, is_in) in sets.items():
        members = {month: {code for code in rows if is_in(code)} for month, rows in months.items()}
        for month, figure in figures(months, is_in).items():
            own, then = lines.setdefault(name, {}), members.get(previous(month))
            is_break = bool(own) and then != members[month]
            own[month] = Line(
                figure.weight,
                figure.within,
                figure.level,
                figure.monthly,
                figure.annual,
                figure.is_imputed,
                figure.base,
                is_break,
            )
    return lines


class Given(NamedTuple):
    """The contributions of an item to the monthly and annual changes of another, in percentage points."""

    to_month: Optional[Fraction]
    to_year: Optional[Fraction]


class Figures:
    """All figures of the items of a pack, with the year in which the index is 100, and whether changes are computed
    between printed indices. Items are in the order of the pack, nodes by their codes and then sets. `first` contains,
    by month and code, the rows that were published first, if later ones differ."""

    def __init__(
        self,
        months: Mapping[str, Month],
        sets: Sets,
        year: str,
        is_from_printed: bool = False,
        first: Mapping[tuple[str, str], Row] = {},
    ) -> None:
        self.months, self.year, self.is_from_printed = sorted(months), year, is_from_printed
        self.first = first
        nodes = lines_of_nodes(months)
        self.nodes = sorted(nodes)
        self.sets = sets
        self.lines = {**{code: nodes[code] for code in self.nodes}, **lines_of_sets(months, sets)}
        titles = {row.code: row.title for month in self.months for row in months[month].rows}
        self.titles = {**titles, **{name: it.title for name, it in sets.items()}}
        self.means = {code: self.mean(code, year) for code in self.lines}
        self.given = cache(self._given)  # (most forms have what an item gives to all items)

    def line(self, code: str, month: str) -> Optional[Line]:
        return self.lines[code].get(month)

    # ---- contributions

    def _given(self, month: str, code: str, to: str) -> Given:
        """The contribution of an item to another."""
        return Given(self._to_month(month, code, to), self._to_year(month, code, to))

    def _to_month(self, month: str, code: str, to: str) -> Optional[Fraction]:
        now, whole = self.line(code, month), self.line(to, month)
        if not now or not whole:
            return None
        start = before = HUNDRED
        if not month.endswith("-01"):
            then = previous(month)
            start, before = self.lines[code][then].within, self.lines[to][then].within
        return 100 * Fraction(now.weight, whole.weight) * (now.within - start) / before

    def _to_year(self, month: str, code: str, to: str) -> Optional[Fraction]:
        now, whole = self.line(code, month), self.line(to, month)
        if not whole or whole.annual is None:
            return None
        if month.endswith("-12"):
            return Fraction(now.weight, whole.weight) * (now.within - 100) if now else None
        then, december = year_before(month), december_before(month)
        start, end, old = self.lines[to][then], self.lines[to][december], self.line(code, then)
        parts = []
        if old:
            moved = self.lines[code][december].within - old.within
            parts.append(100 * Fraction(old.weight, start.weight) * moved / start.within)
        if now:
            parts.append(end.within / start.within * Fraction(now.weight, whole.weight) * (now.within - 100))
        return sum(parts, Fraction()) if parts else None

    # ---- means and levels

    def mean(self, code: str, year: str) -> Optional[Fraction]:
        """The mean of the twelve levels of a year."""
        return self._mean(code, months_of(year))

    def _mean(self, code: str, months: list[str]) -> Optional[Fraction]:
        levels = [line.level for line in map(self.lines[code].get, months) if line]
        return sum(levels, Fraction()) / len(months) if len(levels) == len(months) else None

    def mean_change(self, code: str, year: str) -> Optional[Fraction]:
        """The change between the means of the year before and a year."""
        now, then = self.mean(code, year), self.mean(code, str(int(year) - 1))
        return 100 * (now - then) / then if now and then else None

    def rate(self, code: str, month: str) -> Optional[Fraction]:
        """The rate between the means of twelve months and of the twelve months before."""
        back = [month]
        while len(back) < 24:
            back.append(previous(back[-1]))
        now, then = self._mean(code, back[:12]), self._mean(code, back[12:])
        return 100 * (now - then) / then if now and then else None

    def scale(self, code: str, base: str) -> Optional[Fraction]:
        """The mean level of the reference year, if levels with this base are linked to it."""
        line = self.line(code, f"{self.year}-01")
        return self.means[code] if line and line.base == base else None

    def hundred(self, code: str, base: str) -> str:
        """The period in which levels with this base are 100 as they are shown."""
        return self.year if self.scale(code, base) else base

    def shown(self, code: str, base: str, level: Fraction) -> Fraction:
        """A level with this base as it is shown: 100 in the reference year, if it is linked to it."""
        scale = self.scale(code, base)
        return 100 * level / scale if scale else level

    # ---- changes as they are shown

    def changes(self, code: str, month: str) -> tuple[Optional[Fraction], Optional[Fraction]]:
        """The monthly and the annual change."""
        line = self.lines[code][month]
        if not self.is_from_printed:
            return line.monthly, line.annual
        then, year = previous(month), year_before(month)
        return self.printed_change(code, month, then), self.printed_change(code, month, year)

    def printed(self, code: str, month: str) -> Fraction:
        """The index of a month with one decimal."""
        line = self.lines[code][month]
        return nearest(self.shown(code, line.base, line.level), 10)

    def printed_change(self, code: str, month: str, then: str) -> Optional[Fraction]:
        """The change between the printed indices of two months; a new item has 100 in the December before."""
        base = self.lines[code][month].base
        if then == base and not self.line(code, then):
            return change(nearest(self.shown(code, base, HUNDRED), 10), self.printed(code, month))
        return change(self.printed(code, then), self.printed(code, month)) if self.line(code, then) else None

    # ---- notes

    def notes(self, code: str, month: str) -> str:
        """The letters of a figure: a price was imputed, the figure was revised, the level isn't linked to earlier
        levels."""
        line = self.lines[code][month]
        return "i" * line.is_imputed + "r" * ((month, code) in self.first) + "b" * line.is_break

    # ---- pairs of items

    def below(self, code: str) -> list[str]:
        """The nodes next below one; for a set, the largest nodes that lie completely in it."""
        if code not in self.sets:
            return [node for node in self.nodes if above(node) == code]
        return [node for node in self.nodes if node in self._whole(code) and above(node) not in self._whole(code)]

    @cache
    def _whole(self, name: str) -> frozenset[str]:
        """The nodes that lie completely in a set."""
        inside, outside = set[str](), set[str]()
        for code in (code for code in self.nodes if "-" in code):
            to = inside if self.sets[name].is_in(code) else outside
            at: Optional[str] = code
            while at:
                to.add(at)
                at = above(at)
        return frozenset(inside - outside)

    def pairs(self) -> Iterator[tuple[str, str]]:
        """Each node with all items, and with the node above it."""
        for code in self.nodes[1:]:
            yield from ((code, to) for to in dict.fromkeys((ALL, above(code))) if to)

    def pairs_of_sets(self, month: str) -> Iterator[tuple[str, str]]:
        """Each set with all items, and each elementary aggregate that is in the set, or was a year ago, with the
        set."""
        old = previous(f"{month[:4]}-01")
        for name, (_, is_in) in self.sets.items():
            yield name, ALL
            known = (code for code in self.nodes if "-" in code and is_in(code))
            yield from ((code, name) for code in known if self.line(code, month) or self.line(code, old))

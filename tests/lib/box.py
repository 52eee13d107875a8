"""The index as the box of docs/develop/THEOREM.md writes it: each function is a line of the box, in whole numbers.

`plan_of`  the plan of a year, from the rows that the desk sends for it.
`Index`    the releases of an office so far: `release` adds a month's revision, made of its plan and its frozen quotes.
`printed`  a row of a table, as the office prints it.

A month is the number of months since 2000. S(e) is a list of series, and `d` the December before a month.
"""

from __future__ import annotations

from collections.abc import Callable, Iterable, Mapping, Sequence
from typing import NamedTuple, Optional

HUNDRED_POINTS = 10**8
TICKS = 10_000  # a minor unit

Series = tuple[int, int]
"""A series, by the collector and the slot that it was first given to."""


class Given(NamedTuple):
    """The facts about a series besides its prices: its item, and its last month."""

    item: str
    last_month: int


class Price(NamedTuple):
    """A frozen quote: its mark, and its price if there is one."""

    mark: str
    price: Optional[int]

    @property
    def comparable(self) -> Optional[int]:
        """The comparable price."""
        return self.price if self.mark in ("price", "comparable") else None


class Carried(NamedTuple):
    """The carried price of a series: C(m, s), the scale, and whether it is imputed."""

    ticks: int
    scale: tuple[int, int]
    is_imputed: bool = False


class Level(NamedTuple):
    """The row of a node in a table."""

    code: str
    title: str
    weight: int
    within: int
    chained: int
    month_change: int
    year_change: Optional[int]
    is_imputed: bool


class Plan(NamedTuple):
    """A plan: titles and weights by code, places by item, the reference month, and the aggregates of each node."""

    titles: Mapping[str, str]
    weights: Mapping[str, int]
    places: Mapping[str, str]
    reference: Optional[int]
    below: Mapping[str, Sequence[str]]


class Release(NamedTuple):
    """The latest revision of a month: its frozen quotes, its carried prices and its table."""

    frozen: Mapping[Series, Price]
    carried: Mapping[Series, Carried]
    levels: Mapping[str, Level]


def month_of(text: str) -> int:
    """A month such as 2026-01."""
    return 12 * (int(text[:4]) - 2000) + int(text[5:]) - 1


def plan_of(rows: Iterable[Sequence[str]]) -> Plan:
    """The plan of the rows that the desk sends."""
    kinds: dict[str, dict[str, str]] = {"T": {}, "W": {}, "I": {}, "R": {}}
    for kind, name, *value in rows:
        kinds[kind][name] = value[0] if value else ""
    weights = {code: int(parts) for code, parts in kinds["W"].items()}
    below = {node: [e for e in weights if node in ("00", e) or e.startswith((f"{node}.", f"{node}-"))]
             for node in kinds["T"]}  # fmt: skip
    reference = next(map(month_of, kinds["R"]), None)
    return Plan(kinds["T"], weights, kinds["I"], reference, {node: found for node, found in below.items() if found})


def rounded(a: int, b: int) -> int:
    """round(a/b) = floor((2a + b) / 2b)."""
    return (2 * a + b) // (2 * b)


def change(old: int, new: int) -> int:
    """round(1000 |new - old| / old), with the sign of new - old."""
    size = rounded(1000 * abs(new - old), old)
    return size if new >= old else -size


class Index:
    """The releases of an office so far, by month, and the facts about each series."""

    def __init__(self, given: Mapping[Series, Given]) -> None:
        self.given = given
        self.releases: dict[int, Release] = {}

    def release(self, m: int, plan: Optional[Plan], frozen: Mapping[Series, Price]) -> Release:
        """Adds a revision of a month. (The first month has no plan, and no table.)"""
        made = Month(self, m, plan, frozen).release() if plan else Release(frozen, {}, {})
        self.releases[m] = made
        return made


class Month:
    """A month m of a year with a plan, and its frozen quotes F(m)."""

    def __init__(self, index: Index, m: int, plan: Plan, frozen: Mapping[Series, Price]) -> None:
        self.m, self.d, self.plan, self.now = m, 12 * (m // 12) - 1, plan, frozen
        self.given, self.past = index.given, index.releases
        self.is_january, self.is_december = m % 12 == 0, m % 12 == 11
        self.bases = {s: base for s in sorted(self.given) if (base := self.B(s))}
        self.before = self.bases if self.is_january else self.past[m - 1].carried  # C(m - 1, s), and C(d, s) = B(s)
        self.sample = {e: self.S(e) for e in plan.weights}
        self.carried = {s: self.C(s, self.M(of)) for of in self.sample.values() for s in of}

    def B(self, s: Series) -> Optional[Carried]:
        """The base of a series, if it has one."""
        price = self.past[self.d].frozen.get(s)
        if price and price.price is not None:
            return Carried(TICKS * price.price, (TICKS, 1))
        return self.past[self.d].carried.get(s)

    def S(self, e: str) -> list[Series]:
        """The series with a base, a last month in January or later, and an item that the plan places in e."""
        of_year = (s for s in self.bases if self.given[s].last_month >= self.d + 1)
        return [s for s in of_year if self.plan.places.get(self.given[s].item) == e]

    def p(self, s: Series) -> Optional[int]:
        """The comparable price in F(m)."""
        return self.now[s].comparable if s in self.now else None

    def is_matched(self, s: Series) -> bool:
        """Comparable in F(m), and observed in m - 1."""
        last = self.past[self.m - 1].frozen.get(s)
        return self.p(s) is not None and last is not None and last.price is not None

    def at_scale(self, s: Series) -> int:
        """round(p × scale), of a series with a comparable price p."""
        num, den = self.before[s].scale
        return rounded((self.p(s) or 0) * num, den)

    def M(self, sample: list[Series]) -> tuple[int, int]:
        """Σ C(m, s) / Σ C(m - 1, s) over the matched s of S(e); 1/1 if there are none."""
        matched = [s for s in sample if self.is_matched(s)]
        return (sum(map(self.at_scale, matched)), sum(self.before[s].ticks for s in matched)) if matched else (1, 1)

    def C(self, s: Series, move: tuple[int, int]) -> Carried:
        """The carried price of a series."""
        if self.p(s) is not None:
            return self.before[s]._replace(ticks=self.at_scale(s), is_imputed=False)
        v = rounded(self.before[s].ticks * move[0], move[1])
        price = self.now[s].price if s in self.now else None
        return Carried(v, self.before[s].scale if price is None else (v, price), True)

    def I_of(self, e: str) -> int:
        """I(m, e) = round(10^8 Σ C(m, s) / Σ B(s)) over S(e)."""
        now, base = (sum(of[s].ticks for s in self.sample[e]) for of in (self.carried, self.bases))
        return rounded(HUNDRED_POINTS * now, base)

    def L(self, x: int, node: str) -> Optional[int]:
        """The chained level in the table of a month, if it has one."""
        row = self.past[x].levels.get(node) if x in self.past else None
        return row.chained if row else None

    def W(self, e: str) -> int:
        """w(e), or with reference month b, round(w(e) × L(d, e) / L(b, e))."""
        b = self.plan.reference
        return self.plan.weights[e] if b is None else rounded(
            self.plan.weights[e] * (self.L(self.d, e) or 1), self.L(b, e) or 1
        )  # fmt: skip

    def release(self) -> Release:
        """The release of the month."""
        weights, indices = ({e: of(e) for e in self.plan.weights} for of in (self.W, self.I_of))
        table = {node: self.row(node, weights.__getitem__, indices.__getitem__) for node in self.plan.below}
        return Release(self.now, self.carried, table)

    def row(self, node: str, weight: Callable[[str], int], index: Callable[[str], int]) -> Level:
        """The row of a node N, with W(e) and I(m, e) of each e: I(m, N), L(m, N) and both changes."""
        below = self.plan.below[node]
        whole = sum(map(weight, below))
        within = rounded(sum(weight(e) * index(e) for e in below), whole)
        link = self.L(self.d, node) or HUNDRED_POINTS
        chained = rounded(link * within, HUNDRED_POINTS)
        last = link if self.is_january else self.L(self.m - 1, node) or link
        year_ago = link if self.is_december else self.L(self.m - 12, node)
        year_change = None if year_ago is None else change(year_ago, chained)
        is_imputed = any(self.carried[s].is_imputed for e in below for s in self.sample[e])
        title = self.plan.titles[node]
        return Level(node, title, whole, within, chained, change(last, chained), year_change, is_imputed)


def printed(row: Level) -> list[str]:
    """The fields of a row."""
    points = [f"{level // 10**6}.{level % 10**6:06}" for level in (row.within, row.chained)]
    return [row.code, str(row.weight), *points, tenths(row.month_change), tenths(row.year_change),
            str(int(row.is_imputed)), row.title]  # fmt: skip


def tenths(change_in: Optional[int]) -> str:
    """A change in percent; empty if there is none."""
    if change_in is None:
        return ""
    return f"{'-' if change_in < 0 else ''}{abs(change_in) // 10}.{abs(change_in) % 10}"

"""A release with everything from which it was computed: each earlier month in its latest revision."""

from __future__ import annotations

from functools import cached_property
from typing import NamedTuple, Optional

from ..office.stored import (
    COMPARABLE,
    OBSERVED,
    Assignment,
    Carried,
    Frozen,
    Item,
    Level,
    Plan,
    Quote,
    Release,
    Series,
    StoredOffice,
)
from ..text.message import TICKS, Message, Money, message, month_of, row, whole
from ..text.terminal import Fault, link_month, month_before

AGGREGATE = 5
"""The depth of an elementary aggregate."""

WHOLE_SCALE = (TICKS, 1)
"""The scale of a price that nothing replaced: ticks per minor unit."""


class NotExplained(Fault):
    """The file doesn't contain a month, a node or a series; the message is one line."""


class Sent(NamedTuple):
    """A stored quote: who had the slot, the quote and its receipt."""

    slot: Assignment
    quote: Quote
    receipt: int


class Month:
    """The stored parts of a release: carried prices, frozen quotes and the rows of its table."""

    def __init__(self, office: StoredOffice, release: Release):
        self._office, self.release = office, release

    @cached_property
    def carried_prices(self) -> dict[Series, Carried]:
        """The carried price of each series, in order."""
        return dict(sorted(self._office.read_carried(self.release).items()))

    @cached_property
    def frozen(self) -> dict[Series, Frozen]:
        """The quotes with which the month was frozen."""
        return self._office.frozen(self.release)

    @cached_property
    def levels(self) -> dict[str, Level]:
        """The rows of the month's table, in the order of their codes."""
        return dict(sorted(self._office.levels(self.release).items()))

    def is_observed(self, series: Series) -> bool:
        """Whether a price of a series was observed."""
        return series in self.frozen and self.frozen[series].mark in OBSERVED


def _no_table(month: int) -> Message:
    """The reason why the first month isn't explained."""
    return message(
        "{month} has no table: it is the first month, from which the later ones are computed", month=month_of(month)
    )


class Sources:
    """A release of a month, the months from which it was computed, the survey, and how amounts of money are written.

    Raises NotExplained if the month isn't frozen, lacks that revision, or has no table.
    """

    def __init__(self, office: StoredOffice, month: int, revision: Optional[int] = None, money: Money = Money()):
        self.office, self.month, self.money = office, month, money
        self.releases = office.releases()
        self._latest = {release.month: release for release in self.releases}
        own = [release for release in self.releases if release.month == month and revision in (None, release.revision)]
        if not own:
            raise NotExplained(self._no_release(revision))
        self.own = Month(office, own[-1])
        plan = next((plan for plan in office.plans() if plan.year == month // 100), None)
        if plan is None or not self.own.levels:
            raise NotExplained(_no_table(month))
        self.plan: Plan = plan
        self.outlets = office.outlets()
        self.items: dict[str, Item] = {it.code: it for it in office.items()}

    def _no_release(self, revision: Optional[int]) -> Message:
        month, known = month_of(self.month), [
            release.revision for release in self.releases if release.month == self.month
        ]
        if known:
            given, all_of_them = whole(revision or 0), row([whole(it) for it in known])
            return message(
                "{month} has no revision {revision}; it has {revisions}",
                month=month,
                revision=given,
                revisions=all_of_them,
            )
        if not self.releases:
            return message("{month} isn't frozen; no month is", month=month)
        first, last = month_of(self.releases[0].month), month_of(self.releases[-1].month)
        return message("{month} isn't frozen; {first} to {last} are", month=month, first=first, last=last)

    @property
    def is_january(self) -> bool:
        """Whether the month is the first of its year."""
        return self.month % 100 == 1

    def latest(self, month: int) -> Optional[Month]:
        """The latest release of a month; None if it isn't frozen."""
        return Month(self.office, self._latest[month]) if month in self._latest else None

    def _find_month(self, month: int) -> Month:
        found = self.latest(month)
        if found is None:
            places = {"month": month_of(month), "own": month_of(self.month)}
            raise NotExplained(message("{month}, from which {own} is computed, is missing", **places))
        return found

    @cached_property
    def link(self) -> Month:
        """The link month."""
        return self._find_month(link_month(self.month))

    @cached_property
    def before(self) -> Month:
        """The month before."""
        return self.link if self.is_january else self._find_month(month_before(self.month))

    @cached_property
    def year_before(self) -> dict[str, Level]:
        """The table of the month twelve months earlier; empty if there is none."""
        year = self.latest(self.month - 100)
        return year.levels if year else {}

    # ---- samples and series

    @cached_property
    def aggregates(self) -> list[str]:
        """The elementary aggregates of the year."""
        return [*self.plan.aggregates()]

    @cached_property
    def samples(self) -> dict[str, list[Series]]:
        """The series of each aggregate's sample, from the rows of carried prices."""
        samples: dict[str, list[Series]] = {code: [] for code in self.aggregates}
        for series, price in self.own.carried_prices.items():
            samples.setdefault(self.plan.places.get(price.item, ""), []).append(series)
        return samples

    @cached_property
    def assignments(self) -> dict[Series, list[Assignment]]:
        """The assignments of each series, from the first collector to the last."""
        assignments: dict[Series, list[Assignment]] = {}
        for assignment in self.office.assignments():
            assignments.setdefault(assignment.series, []).append(assignment)
        return assignments

    def holder(self, series: Series, month: int) -> Assignment:
        """The assignment of the collector who prices a series in a month, or who had it last before."""
        own = self.assignments[series]
        return next((assignment for assignment in reversed(own) if assignment.first_month <= month), own[0])

    @cached_property
    def copied_prices(self) -> dict[tuple[int, int], int]:
        """The price with which each slot was handed over."""
        return self.office.copied_prices()

    @cached_property
    def stored_quotes(self) -> dict[tuple[Series, int], Sent]:
        """The quotes now stored for the month and for the link month, by series and month."""
        sendings: dict[tuple[Series, int], Sent] = {}
        for month in (self.month, link_month(self.month)):
            quotes, receipts = self.office.quotes(month), self.office.receipts(month)
            for own in self.assignments.values():
                for it in own:
                    if it[:2] in quotes and it.first_month <= month <= it.last_month:
                        sendings[it.series, month] = Sent(it, quotes[it[:2]], receipts[it[:2]])
        return sendings

    # ---- what a series counted as

    def base(self, series: Series) -> tuple[int, tuple[int, int]]:
        """The base of a series in ticks, and its scale."""
        if self.link.is_observed(series):
            return self.link.frozen[series].value * WHOLE_SCALE[0], WHOLE_SCALE
        price = self.link.carried_prices[series]
        return price.ticks, (price.knum, price.kden)

    def then(self, series: Series) -> tuple[int, tuple[int, int]]:
        """The price in ticks that a series counted as in the month before, and its scale; in January its base."""
        if self.is_january:
            return self.base(series)
        price = self.before.carried_prices[series]
        return price.ticks, (price.knum, price.kden)

    def is_comparable(self, series: Series) -> bool:
        """Whether a series has a comparable price."""
        return series in self.own.frozen and self.own.frozen[series].mark in COMPARABLE

    def is_matched(self, series: Series) -> bool:
        """Whether a series has a comparable price, and was observed in the month before."""
        return self.is_comparable(series) and self.before.is_observed(series)

    def row(self, table: str, key: object) -> str:
        """The name of a row of the release."""
        return f"{table} ({self.month}, {self.own.release.revision}, {key})"

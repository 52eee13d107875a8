"""Frozen quotes: each release recomputed from them, and the single prices of published releases."""

from __future__ import annotations

from collections.abc import Iterator, Sequence
from pathlib import Path
from typing import Any, NamedTuple

from ..text.terminal import month_text
from . import recompute
from .program import Cpi, record
from .public import Listed, listed_in
from .stored import Assignment, Carried, Frozen, Level, Release, Series, StoredOffice


# ==== recomputes each release of an office from its frozen quotes, in one pass over all months and revisions
#
# The rules are the functions of `recompute`. An earlier month is read from its latest revision, as computed here: no
# carried price and no level from the file is used.

Kept = dict[str, dict[Series, tuple[int, int, int, int]]]
"""By aggregate and series: ticks, the scale's two numbers, and whether the price was imputed."""


class Computed(NamedTuple):
    """A release as it has to be: its carried prices, and the figures of its table; and the source of the table: the
    weights in use, and the sample of each aggregate with its bases."""

    release: Release
    carried: dict[Series, Carried]
    levels: dict[str, Level]
    weights: dict[str, int]
    kept: Kept
    bases: Kept


class Months:
    """The pass over the months: the earlier months, each in its latest revision."""

    def __init__(self, office: StoredOffice):
        self._office = office
        self._series = office.series()
        self._quotes: dict[Series, tuple[str, int]] = {}
        self._kept: Kept = {}
        self._bases: Kept = {}
        self._levels: dict[int, dict[str, int]] = {}
        self._weights: dict[str, int] = {}

    def compute(self, release: Release, frozen: dict[Series, Frozen], is_latest: bool) -> Computed:
        """A release of these frozen quotes, which later months are computed from where it is its month's latest.

        Raises ArithmeticError, LookupError, TypeError or ValueError if the file's content can't be computed with.
        """
        quotes = {series: (quote.mark, quote.value) for series, quote in frozen.items()}
        kept, weights, bases = self._kept, self._weights, self._bases
        if release.month % 100 == 1:
            kept, weights = self._begin_year(release.month // 100)
            bases = kept
        kept = {
            code: recompute.carry_prices(own, quotes, self._quotes, code in release.carry) for code, own in kept.items()
        }
        rows = recompute.table(release.month, weights, bases, kept, self._levels) if weights else {}
        levels = {code: Level(*row) for code, row in rows.items()}
        if is_latest:
            self._quotes, self._kept, self._weights, self._bases = quotes, kept, weights, bases
            self._levels[release.month] = {code: row.chained for code, row in levels.items()}
        return Computed(release, dict(self._carry_prices(kept, quotes)), levels, weights, kept, bases)

    def _begin_year(self, year: int) -> tuple[Kept, dict[str, int]]:
        """The bases of a year by aggregate and series, and its weights in use."""
        old = {series: price for own in self._kept.values() for series, price in own.items()}
        weights, bases = recompute.begin_year(self._office.ask, year, self._quotes, old)
        weights = recompute.in_use(self._office.ask, year, weights, self._levels)
        kept: Kept = {
            code: {series: (ticks, knum, kden, 0) for series, (ticks, knum, kden, _) in own.items()}
            for code, own in bases.items()
        }
        return kept, weights

    def _carry_prices(self, kept: Kept, quotes: dict[Series, tuple[str, int]]) -> Iterator[tuple[Series, Carried]]:
        """The carried prices that the file contains: a series is observed if its quote has a price."""
        for own in kept.values():
            for series, (ticks, knum, kden, imputed) in own.items():
                observed = int(quotes.get(series, ("", 0))[1] > 0)
                yield series, Carried(*self._series[series], ticks, knum, kden, observed, imputed)


def differing(stored: dict[Any, Any], wanted: dict[Any, Any]) -> list[Any]:
    """The keys at which two tables differ, in order."""
    return sorted(key for key in stored.keys() | wanted.keys() if stored.get(key) != wanted.get(key))


# ==== the single prices of published releases: what each was computed from, with the outlet where it was found


class FrozenQuote(NamedTuple):
    """A frozen quote: its item, the number of its outlet, its mark, and the price in minor units, 0 if it is missing."""

    item: str
    outlet: int
    mark: str
    price: int


def read_published(cpi: Cpi, copy: Path, at: int) -> list[Listed]:
    """The tables that a copy has published at a moment, as the public reads it."""
    with cpi.session(copy) as asked:
        return listed_in(asked.ask(record(at, "public", "tables")))


def read_last_releases(office: StoredOffice, published: Sequence[Listed]) -> dict[str, Release]:
    """By month like `2026-01`, the last revision that is published, of months whose table has rows."""
    out = {(listing.month, listing.revision) for listing in published}
    releases = {
        month_text(release.month): release
        for release in office.releases()
        if (month_text(release.month), release.revision) in out
    }
    return {month: release for month, release in releases.items() if office.titles(release)}


def read_frozen_quotes(office: StoredOffice, release: Release, slots: Sequence[Assignment]) -> Iterator[FrozenQuote]:
    """The quotes that a release was computed from; `slots` are all of the office."""
    outlets = {slot.series: slot.outlet for slot in slots if slot.first_month <= release.month <= slot.last_month}
    for series, quote in office.frozen(release).items():
        yield FrozenQuote(quote.item, outlets[series], quote.mark, quote.value)

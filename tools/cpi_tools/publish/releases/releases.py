"""The releases of an office: each table that was published, in the words and figures of its day, with a page that stays.

A release is a month with its revision. Its page is made of the tables up to its moment (`measures`), so later tables
change nothing of it; a later revision adds a line that leads to it.
"""

from __future__ import annotations

from collections.abc import Callable, Iterator, Sequence
from functools import cached_property
from pathlib import Path
from typing import NamedTuple, Optional

import jinja2

from ...office.tables import Row, Series, Table, before
from ...text.exact import ALL_ITEMS, decimal, parent_of
from ...text.page_templates import write_page
from ...text.languages import Speech
from ..figures.measures import (
    AsOf,
    Base,
    Contributions,
    Revised,
    each_as_of,
    given_then,
    hidden_bases,
    revised_bases,
    revised_of,
)
from ..figures.config import Config
from .pictures import Given, lead_of, sorted_values, with_bars
from ..figures.figures import Known, notes_then
from ..figures.shown_figures import EXACT, Shown, headline
from ..figures.announcements import FOLDER, GivenReason, card_of, given_reasons, name_of, page_of_release
from ..forms.site_texts import RATES_TEXTS, release_text

LAST_RELEASES = 5
"""Releases that the first page names."""


class Release(NamedTuple):
    """A release with the tables as they were, and the revisions of its month that came later. If its month was among
    the last ones that could still be revised, `provisional` is the number of these months, and otherwise 0.
    `reasons` are those of a further revision."""

    as_of: AsOf
    shown: Shown
    later: tuple[Table, ...]
    provisional: int = 0
    reasons: tuple[GivenReason, ...] = ()

    @property
    def table(self) -> Table:
        """Its table."""
        return self.as_of.of

    @property
    def whole(self) -> Row:
        """The row of all items, with the changes that are shown."""
        row = self.shown.row(self.table.month, ALL_ITEMS)
        assert row
        return row

    @property
    def is_annual(self) -> bool:
        """Whether its headline has the annual change; otherwise it has the monthly one."""
        return self.whole.year_change is not None

    @property
    def headline(self) -> str:
        """Its sentence."""
        return headline(self.table.month, self.whole, self.shown.speech)

    @property
    def index_text(self) -> str:
        """The index of all items with one decimal."""
        return self.shown.speech.figure(self.shown.text(self.table.month, ALL_ITEMS, 1))

    @property
    def reference_period(self) -> str:
        """The period in which the index of all items is 100."""
        return self.shown.find_reference(self.table.month, ALL_ITEMS)

    @property
    def last_said(self) -> int:
        """When the office last said something of it: at its publication, or when it gave a reason later."""
        return max(self.table.moment, *(reason.moment for reason in self.reasons), 0)

    @property
    def name(self) -> str:
        """`2026-01-r1`."""
        return name_of(self.table.month, self.table.revision)

    @property
    def page(self) -> str:
        """The address of its page in the site."""
        return page_of_release(self.table.month, self.table.revision)

    @property
    def text(self) -> str:
        """The name of the release: its month, and its revision if it is a further one."""
        return release_text(self.shown.speech, self.table.month, self.table.revision)

    @property
    def card(self) -> str:
        """The address of its card in the site."""
        return card_of(self.table.month, self.table.revision)


class Moved(NamedTuple):
    """The nodes that came with a month or left with it: the greatest ones, with their titles then."""

    came: list[tuple[str, str]]
    left: list[tuple[str, str]]


def releases_of(series: Series, config: Config, speech: Speech) -> list[Release]:
    """All releases that have rows, by month and revision. Raises BadReasons."""
    releases, reasons = [], given_reasons(config.reasons, series, config.planned)
    for as_of in each_as_of(series):
        month = as_of.of.month
        reference = config.reference_in(month)
        is_covered = any(month.startswith(reference) for month in (as_of.base, *as_of.months))
        shown = Shown(as_of, reference if is_covered else "", config.rates_in(month)).spoken(speech)
        provisional = _provisional(as_of, config.provisional_in(month))
        own = tuple(reasons.get((month, as_of.of.revision), ()))
        releases.append(Release(as_of, shown, tuple(_later(series, as_of.of)), provisional, own))
    return sorted(releases, key=lambda release: (release.table.month, release.table.revision))


def _later(series: Series, of: Table) -> Iterator[Table]:
    """The revisions of a month that came later than one of its tables."""
    return (vintage for vintage in series.vintages if vintage.month == of.month and vintage.revision > of.revision)


def _provisional(as_of: AsOf, months: int) -> int:
    """The number of months, if the release's month was among the last ones of its day; otherwise 0."""
    of = as_of.of
    after = {
        vintage.month
        for vintage in as_of.whole.vintages
        if vintage.month > of.month and vintage.moment <= of.moment and vintage.rows
    }
    return months if len(after) < months else 0


def hundreds_of(releases: Sequence[Release]) -> str:
    """In which period the index of some releases, the last one first, is 100, and from which month on if they differ:
    `December 2024 = 100, from December 2025 on 2025 = 100`."""
    found, speech = dict[str, str](), releases[0].shown.speech
    for release in reversed(releases):
        found.setdefault(speech.period(release.reference_period), speech.month(release.table.month))
    first, *others = found
    text = speech.t("{period} = 100", period=first)
    for period in others:
        text = speech.t("{bases}; since {month}, {period} = 100", bases=text, month=found[period], period=period)
    return text


# ---- what the page of a release says


def given_in(release: Release, contributions: Contributions) -> tuple[list[Given], str]:
    """The contributions of divisions to the change in a release's headline, and the place of zero on the track of
    their bars."""
    found = given_then(release.as_of, contributions).below(release.table.month, ALL_ITEMS)
    return with_bars(release.shown, release.table.month, sorted_values(found, release.is_annual))


def page_words(release: Release, rows: list[Given], zero: str) -> dict[str, object]:
    """The values for the template of a release's page; the rows come from `given_in`."""
    as_of, shown, whole = release.as_of, release.shown, release.whole
    month = as_of.of.month
    change = whole.month_change if whole.year_change is None else whole.year_change
    return {
        "release": release,
        "series": as_of,
        "shown": shown,
        "month": month,
        "table": as_of.of,
        "whole": whole,
        "rates_text": shown.speech.t(RATES_TEXTS[shown.rates]),
        "level_of": lambda chained, of, code: shown.speech.figure(decimal(*shown.of_level(chained, of, code), 1)),
        "is_annual": release.is_annual,
        "change": change,
        "notes": notes_then(shown, ALL_ITEMS, release.provisional),
        "rows": rows,
        "zero": zero,
        "lead": lead_of(rows, change),
        "hidden": hidden_bases(as_of, as_of.of.rows[ALL_ITEMS], shown.rates == EXACT, shown.speech),
        "bases_revised": [*_revised_bases(as_of, rows, shown.speech)],
        "items": [(code, shown.row(month, code)) for code in as_of.titles],
        "revised": revision_before(as_of),
        "since": revised_since(as_of),
        "before": release_before(as_of),
        "moved": moved_in(as_of),
    }


def _revised_bases(as_of: AsOf, rows: list[Given], speech: Speech) -> Iterator[Base]:
    """The revised months that the figures of all items are computed from, but those of which a further revision wasn't
    published then, as the divisions show it."""
    bases = [as_of.of.rows[ALL_ITEMS], *(as_of.of.rows[row.code] for row in rows if row.row)]
    hidden = frozenset(month for row in bases for month in hidden_bases(as_of, row))
    return revised_bases(as_of, bases[0], hidden, speech)


def revision_before(as_of: AsOf) -> Optional[Revised]:
    """The changes of a release, if it is a further revision of its month."""
    mine = [
        vintage
        for vintage in as_of.vintages
        if vintage.month == as_of.of.month and vintage.revision < as_of.of.revision
    ]
    return revised_of(mine[-1], as_of.of) if mine else None


def release_before(as_of: AsOf) -> Optional[Table]:
    """The first release of the month before, which this one is read after."""
    earlier = (
        vintage for vintage in as_of.vintages if vintage.month == before(as_of.of.month) and vintage.revision == 1
    )
    return next((vintage for vintage in earlier if vintage.rows), None)


def revised_since(as_of: AsOf) -> list[Revised]:
    """The revisions after the first release of the previous month, up to the first release of a month."""
    last = release_before(as_of)
    if last is None or as_of.of.revision > 1:
        return []
    pairs = zip(as_of.vintages, as_of.vintages[1:])
    found = (
        pair for pair in pairs if pair[0].month == pair[1].month != as_of.of.month and pair[1].moment > last.moment
    )
    return [revised_of(old, new) for old, new in found]


def moved_in(as_of: AsOf) -> Moved:
    """The nodes that came or left with the first month of a year."""
    earlier = as_of.latest.get(before(as_of.of.month))
    if not as_of.of.month.endswith("-01") or earlier is None or not earlier.rows:
        return Moved([], [])
    return Moved(*(_greatest(one, other) for one, other in ((as_of.of, earlier), (earlier, as_of.of))))


def _greatest(one: Table, other: Table) -> list[tuple[str, str]]:
    """The nodes of a table that another hasn't, without those below such a node."""
    keys = one.rows.keys() - other.rows.keys()
    return [(code, one.rows[code].title) for code in sorted(keys) if parent_of(code) not in keys]


# ---- writing


More = Callable[[Release, Sequence[Given]], dict[str, object]]
"""The other values for the template of a release: from the release and from the contributions of divisions to its
change."""


class ReleasePages:
    """All releases, whose pages it writes."""

    def __init__(self, known: Known, config: Config):
        self.contributions = known.contributions
        self.all = releases_of(known.series, config, known.shown.speech)

    @property
    def latest(self) -> Release:
        """The release whose figures the first page has."""
        return self.all[-1]

    @property
    def last(self) -> list[Release]:
        """The releases that were published last, the last one first."""
        by_moment = sorted(self.all, key=lambda it: (it.table.moment, it.table.month, it.table.revision))
        return by_moment[: -LAST_RELEASES - 1 : -1]

    @cached_property
    def other_hundreds(self) -> frozenset[str]:
        """The names of releases whose index is 100 in another period than in the release before."""
        return frozenset(
            now.name for before, now in zip(self.all, self.all[1:]) if now.reference_period != before.reference_period
        )

    def by_year(self) -> list[tuple[str, list[Release]]]:
        """All releases by the year of their month, the last first."""
        years: dict[str, list[Release]] = {}
        for it in reversed(self.all):
            years.setdefault(it.table.month[:4], []).append(it)
        return [*years.items()]

    def write(self, pages: jinja2.Environment, folder: Path, more: More) -> None:
        """Writes the page of each into the folder of a site; `more` is what its template is handed too."""
        (folder / FOLDER).mkdir()
        for it in self.all:
            rows, zero = given_in(it, self.contributions)
            words = {**page_words(it, rows, zero), **more(it, rows)}
            write_page(pages, "release.html", folder / it.page, **words)

"""Quality in figures: timeliness, punctuality, revisions, response and imputation, and the files of them."""

from __future__ import annotations

import json
from collections.abc import Iterable, Iterator, Sequence
from datetime import date, datetime, timedelta, timezone
from functools import cached_property
from itertools import groupby
from pathlib import Path
from typing import NamedTuple, Optional

from ...office.tables import Series, Table, iso
from ...text.clocks import Clock
from ...text.exact import ALL_ITEMS, Ratio, decimal, tenths
from ...text.languages import SPEAKS_ENGLISH
from ..figures.announcements import Reasons
from ..figures.config import Config
from ..figures.survey_rows import BadCounts, Cell, Figures
from ..forms.manifest import TableId
from ..forms.tidy import write_rows
from .published_before import CSV, HIDDEN_FIGURE, Figure, KeptQuality, refuse_none, superseded_by
from .releases import Release, releases_of


# ==== quality in figures: timeliness, punctuality, revisions, response and imputation, by sections of SIMS
#
# All but response and the number of imputed prices comes from published tables and announced moments. Those two come
# from the counts that the office hands in, of which `survey_rows` has the rule. Changes are those that the pages of
# releases show, and what revisions did to them is the last one less the first.

SHOWN_RELEASES = 12
"""Releases in the triangle of a page, and in means of the newest ones."""


class Lag(NamedTuple):
    """A release, and the number of days after its month on which it was published, in the office's time zone."""

    table: Table
    days: int


class Kept(NamedTuple):
    """A published release with the moment for which it was announced, in seconds since 1970 UTC."""

    table: Table
    announced: int

    @property
    def delay(self) -> int:
        """The number of seconds by which it was late; below 0 if it was early."""
        return self.table.moment - self.announced


class Sizes(NamedTuple):
    """The effect of revisions on a change of an item: the number of months in which the change is known, the number
    in which the last figure differs from the first, and the sums of the differences and of their sizes, in tenths of
    a percentage point."""

    code: str
    is_annual: bool
    months: int
    revised: int
    total: int
    absolute: int

    @property
    def mean(self) -> Ratio:
        """The mean revision, in percentage points."""
        return Ratio(self.total, 10 * self.months)

    @property
    def mean_absolute(self) -> Ratio:
        """The mean absolute revision, in percentage points."""
        return Ratio(self.absolute, 10 * self.months)

    @property
    def mean_absolute_text(self) -> str:
        """The mean absolute revision with three decimals."""
        return decimal(*self.mean_absolute, 3)


class Point(NamedTuple):
    """A change in tenths of a percent as it was known at a moment, and whether it differs from the moment before."""

    change: int
    is_revised: bool

    @property
    def text(self) -> str:
        """The change with one decimal."""
        return tenths(self.change)


class Column(NamedTuple):
    """The tables that were published at a moment."""

    moment: int
    tables: tuple[Table, ...]


class Triangle(NamedTuple):
    """The change of all items of each of some months as it was known after each of some publications."""

    is_annual: bool
    columns: list[Column]
    rows: list[tuple[str, list[Optional[Point]]]]


class Imputed(NamedTuple):
    """An item of the last table: its weight in use, and the weight of its aggregates with an imputed price."""

    code: str
    imputed: int
    weight: int

    @property
    def percent(self) -> Ratio:
        """The weight with imputed prices as a percentage of the item's weight."""
        return Ratio(100 * self.imputed, self.weight)

    @property
    def percent_text(self) -> str:
        """The percentage with two decimals."""
        return decimal(*self.percent, 2)


class Quality:
    """Quality in figures of all published tables; `releases` are the releases of the pages."""

    def __init__(self, series: Series, config: Config, releases: Sequence[Release]):
        self.series, self.config, self.releases = series, config, releases
        self.codes = [ALL_ITEMS, *series.children(ALL_ITEMS)]

    # ---- timeliness and punctuality

    @cached_property
    def lags(self) -> list[Lag]:
        """The figures of all releases, by month and revision."""
        return [Lag(release.table, days_after(release.table, self.config.clock)) for release in self.releases]

    @property
    def first_lags(self) -> list[Lag]:
        """The figures of the newest first releases."""
        return [lag for lag in self.lags if lag.table.revision == 1][-SHOWN_RELEASES:]

    @property
    def mean_lag(self) -> Ratio:
        """The mean of these lags, in days."""
        days = [lag.days for lag in self.first_lags]
        return Ratio(sum(days), len(days))

    @property
    def mean_lag_text(self) -> str:
        """The mean with one decimal."""
        return decimal(*self.mean_lag, 1)

    @cached_property
    def announcements(self) -> list[Kept]:
        """The announced releases, with the announced time, or the time before the last move if they moved."""
        known = dict[TableId, int]()
        for one in self.config.announced:
            moments = (one.before, one.planned, one.moment)
            known[one.of] = next(moment for moment in moments if moment is not None)
        tables = (release.table for release in self.releases)
        return [Kept(table, known[id_of(table)]) for table in tables if id_of(table) in known]

    @property
    def on_time(self) -> int:
        """The number of releases that weren't later than announced."""
        return len(self.announcements) - len(self.late)

    @property
    def late(self) -> list[Kept]:
        """The releases that were later than announced."""
        return [each for each in self.announcements if each.delay > 0]

    # ---- revisions

    @cached_property
    def sizes(self) -> list[Sizes]:
        """The revisions of all items and of divisions, first of the monthly and then of the annual change."""
        return [
            sizes
            for code in self.codes
            for is_annual in (False, True)
            if (sizes := sizes_of(self.releases, code, is_annual))
        ]

    @cached_property
    def triangle(self) -> Triangle:
        """The triangle of the newest releases, for the change in the headline of the last one."""
        return triangle_of(self.releases, self.releases[-1].is_annual)

    # ---- response and imputation

    @cached_property
    def counts(self) -> list[Cell]:
        """The counts of published releases, by month, revision and division."""
        out = {id_of(release.table) for release in self.releases}
        return sorted((cell for cell in self.config.counts if cell.of in out), key=lambda cell: cell[:3])

    @property
    def last_counts(self) -> list[Cell]:
        """The counts of the newest release that has some."""
        return [cell for cell in self.counts if cell.of == self.counts[-1].of]

    @property
    def count_of_hidden(self) -> int:
        """The number of rows without figures."""
        return sum(cell.figures is None for cell in self.counts)

    @cached_property
    def imputed_weights(self) -> list[Imputed]:
        """The imputed weights of the last table."""
        return imputed_of(self.series.last, self.codes)


def id_of(table: Table) -> TableId:
    """The month and the revision of a table."""
    return table.month, table.revision


# ---- by the calendar


def days_after(table: Table, clock: Clock) -> int:
    """The number of days from the last day of a table's month to its publication."""
    year, month = int(table.month[:4]), int(table.month[5:])
    last = date(year + month // 12, month % 12 + 1, 1) - timedelta(days=1)
    return (datetime.fromtimestamp(table.moment, clock.zone or timezone.utc).date() - last).days


# ---- revisions


def change_of(release: Release, code: str, is_annual: bool) -> Optional[int]:
    """A change of an item as the page of a release shows it, in tenths of a percent."""
    row = release.shown.row(release.table.month, code)
    return None if row is None else row.year_change if is_annual else row.month_change


def sizes_of(releases: Iterable[Release], code: str, is_annual: bool) -> Optional[Sizes]:
    """The effect of revisions on a change of an item; None if no month has it."""
    ends: dict[str, tuple[int, int]] = {}
    for release in releases:
        change = change_of(release, code, is_annual)
        if change is not None:
            first, _ = ends.get(release.table.month, (change, change))
            ends[release.table.month] = first, change
    moved = [last - first for first, last in ends.values()]
    if not moved:
        return None
    return Sizes(code, is_annual, len(moved), sum(map(bool, moved)), sum(moved), sum(abs(size) for size in moved))


def triangle_of(releases: Sequence[Release], is_annual: bool) -> Triangle:
    """The triangle of the last publications, for the months that were first published by one of these."""
    changes = {id_of(release.table): change_of(release, ALL_ITEMS, is_annual) for release in releases}
    by_moment: dict[int, list[Table]] = {}
    for release in releases:
        by_moment.setdefault(release.table.moment, []).append(release.table)
    columns = [Column(moment, tuple(by_moment[moment])) for moment in sorted(by_moment)][-SHOWN_RELEASES:]
    months = sorted({table.month for column in columns for table in column.tables})[-SHOWN_RELEASES:]
    tables = [release.table for release in releases]
    return Triangle(is_annual, columns, [(month, _points(month, columns, tables, changes)) for month in months])


def _points(
    month: str, columns: Iterable[Column], tables: Sequence[Table], changes: dict[TableId, Optional[int]]
) -> list[Optional[Point]]:
    """The change of a month after each publication; None before the month was published."""
    points, before = list[Optional[Point]](), None
    for column in columns:
        known = [table for table in tables if table.month == month and table.moment <= column.moment]
        change = changes[id_of(known[-1])] if known else None
        points.append(None if change is None else Point(change, before is not None and before != change))
        before = change
    return points


# ---- imputation


def imputed_of(table: Table, codes: Iterable[str]) -> list[Imputed]:
    """The weight of aggregates with an imputed price, for each item of a table."""
    rows = [row for code, row in table.rows.items() if "-" in code]

    def weights(code: str) -> Iterator[tuple[int, int]]:
        return ((row.weight, row.weight * row.is_imputed) for row in rows if code in (ALL_ITEMS, row.code[:2]))

    sums = ((code, [sum(each) for each in zip(*weights(code))]) for code in codes if code in table.rows)
    return [Imputed(code, imputed, weight) for code, (weight, imputed) in sums]


# ==== quality in figures as files: `quality.csv`, a row a figure, and `quality.json`, the same by sections of SIMS
#
# | section | indicator | of | |---|---|---| | `S.13.3.3` | `outlets`, `asked`, `priced`, `replaced`, `missing`, `silent`,
# `response_rate` | a release and a division | | `S.14.1` | `time_lag` | a release | | `S.14.2` | `delay` | a release that
# was announced | | `S.17.2` | `months`, `revised_months`, `mean_revision`, `mean_absolute_revision` | a change of a
# division | | `S.17.2` | `published_change` | a release: the rows of the triangle | | `S.18.5` | `counted`, `imputed`,
# `imputation_rate` | a release and a division | | `S.18.5` | `imputed_weight` | a division in the last table |
#
# A figure that is hidden is empty, and its status is `hidden`. One with the status `superseded` was published before,
# and the office said why it differs now (`published_quality`).

JSON = "quality.json"
"""The second file in the folder `data`."""

SECTIONS = {
    "S.13.3.3": "Non-response error",
    "S.14.1": "Timeliness",
    "S.14.2": "Punctuality",
    "S.17.2": "Data revision, practice",
    "S.18.5": "Data compilation",
}
"""The sections of SIMS that have figures, and their names."""

MONTH_CHANGE, YEAR_CHANGE = "month_change", "year_change"

BETWEEN = ",\n     "
"""The text between two members of an object."""


def write_quality(
    series: Series, config: Config, folder: Path, packs: Sequence[KeptQuality] = (), given: Reasons = {}
) -> None:
    """Writes both files into the folder `data` if the office wants them, after those that packs before have. Raises BadCounts
    if the counts have a division that no table has, or OtherQuality."""
    if not config.has_quality:
        refuse_none(packs)
        return
    quality = Quality(series, config, releases_of(series, config, SPEAKS_ENGLISH))
    strange = next((cell for cell in quality.counts if cell.division not in series.titles), None)
    if strange:
        raise BadCounts(
            f"the counts of quality have division {strange.division} in {strange.month}, revision {strange.revision},"
            " and no table has it: make the file anew by cpi-tools quality, from this office"
        )
    figures = [*_figures(quality)]
    figures = sorted([*superseded_by(figures, packs, given), *figures], key=_section)
    write_rows(folder / CSV, Figure._fields, figures)
    (folder / JSON).write_text(_json(figures, config), encoding="utf-8")


def _section(figure: Figure) -> tuple[int, ...]:
    return tuple(map(int, figure.section.split(".")[1:]))


def _figures(quality: Quality) -> Iterator[Figure]:
    """All figures; those of a section are in their order."""
    yield from _of_releases(quality)
    yield from _of_revisions(quality)
    yield from _of_counts(quality)
    month, revision, moment = quality.series.last[:3]
    for each in quality.imputed_weights:
        text = decimal(*each.percent, 2)
        release = month, str(revision), iso(moment)
        yield Figure("S.18.5", "imputed_weight", "", *release, each.code, text, "percent", "")


def _of_releases(quality: Quality) -> Iterator[Figure]:
    for lag in quality.lags:
        release = lag.table.month, str(lag.table.revision), iso(lag.table.moment)
        yield Figure("S.14.1", "time_lag", "", *release, ALL_ITEMS, str(lag.days), "days", "")
    for kept in quality.announcements:
        release = kept.table.month, str(kept.table.revision), iso(kept.table.moment)
        yield Figure("S.14.2", "delay", "", *release, ALL_ITEMS, str(kept.delay), "seconds", "")


def _of_revisions(quality: Quality) -> Iterator[Figure]:
    for sizes in quality.sizes:
        of = YEAR_CHANGE if sizes.is_annual else MONTH_CHANGE
        means = decimal(*sizes.mean, 6), decimal(*sizes.mean_absolute, 6)
        for name, value, unit in (
            ("months", str(sizes.months), "months"),
            ("revised_months", str(sizes.revised), "months"),
            ("mean_revision", means[0], "percentage points"),
            ("mean_absolute_revision", means[1], "percentage points"),
        ):
            yield Figure("S.17.2", name, of, "", "", "", sizes.code, value, unit, "")
    for is_annual, of in ((False, MONTH_CHANGE), (True, YEAR_CHANGE)):
        for release in quality.releases:
            change = change_of(release, ALL_ITEMS, is_annual)
            if change is not None:
                named = release.table.month, str(release.table.revision), iso(release.table.moment)
                yield Figure("S.17.2", "published_change", of, *named, ALL_ITEMS, tenths(change), "percent", "")


def _of_counts(quality: Quality) -> Iterator[Figure]:
    moments = {id_of(release.table): iso(release.table.moment) for release in quality.releases}
    for section, names, rate in (
        ("S.13.3.3", Figures._fields[:6], "response_rate"),
        ("S.18.5", Figures._fields[6:], "imputation_rate"),
    ):
        for cell in quality.counts:
            named = cell.month, str(cell.revision), moments[cell.of], cell.division
            status = "" if cell.figures else HIDDEN_FIGURE
            for name in names:
                unit = "outlets" if name == "outlets" else "prices"
                value = str(getattr(cell.figures, name)) if cell.figures else ""
                yield Figure(section, name, "", *named, value, unit, status)
            yield Figure(section, rate, "", *named, rate_of(cell, rate), "percent", status)


def rate_of(cell: Cell, rate: str) -> str:
    """The response or the imputation rate of a cell in percent with one decimal; empty if it has none."""
    if cell.figures is None:
        return ""
    response, imputation = (cell.figures.priced, cell.figures.asked), (cell.figures.imputed, cell.figures.counted)
    part, whole = response if rate == "response_rate" else imputation
    return decimal(100 * part, whole, 1) if whole else ""


def _json(figures: list[Figure], config: Config) -> str:
    """The figures by their sections; a figure is an object without what is empty."""
    named = {"structure": "SIMS 2.0", "office": config.office, "title": config.title}
    about = json.dumps({**named, "least_outlets": config.least_outlets}, ensure_ascii=False, indent=1)
    sections = (
        f'  {{\n   "section": "{section}",\n   "name": "{SECTIONS[section]}",\n   "figures": [\n'
        + ",\n".join(map(_object, own))
        + "\n   ]\n  }"
        for section, own in groupby(figures, key=lambda figure: figure.section)
    )
    return f'{about[:-2]},\n "sections": [\n' + ",\n".join(sections) + "\n ]\n}\n"


def _object(figure: Figure) -> str:
    """A figure as the standard module indents it, which does that tens of times slower."""
    named = {name: text for name, text in zip(Figure._fields, figure) if text and name != "section"}
    return f"    {{\n     {json.dumps(named, ensure_ascii=False, separators=(BETWEEN, ': '))[1:-1]}\n    }}"

"""What single pages of the site say: averages, core, adjusted series, the example, a node's months, releases."""

from __future__ import annotations

from collections.abc import Callable, Iterable, Iterator, Mapping, Sequence
from functools import lru_cache, partial
from pathlib import Path
from typing import NamedTuple, Optional, TypeVar

import jinja2
from markupsafe import Markup, escape

from ...office.tables import CoreRow, SeasonalRow, before, iso, rounded_change
from ...text.exact import ALL_ITEMS, HUNDRED, Ratio, decimal, points, scale_ratio, tenths, with_sign, write_fixed
from ...text.languages import Speech
from ...text.others import apart
from ...text.page_templates import NO_FIGURE, write_page
from ..figures.aggregated import measures_of
from ..figures.announcements import GivenReason, given_reasons
from ..figures.config import Config
from ..figures.figures import Known, provisional_then
from ..figures.own_words import OwnWords, Section
from ..figures.seasonal_series import METHODS, STL
from ..figures.shown_figures import EXACT, Shown
from ..figures.specials import ITEMS, MEDIAN, TRIMMED, CoreDefinition, definition_in
from ..figures.survey_rows import Average, find_current
from ..forms.manifest import NewFiles
from ..releases.cards import NO_CARDS, Cards
from ..releases.drawings import ReleasePictures, write_cards
from ..releases.pictures import Given
from ..releases.release_feeds import (
    BIBTEX,
    DATACITE,
    ICS,
    RIS,
    CalendarOf,
    doi_of,
    write_citations,
    write_feed,
    write_ics,
)
from ..releases.releases import Release, ReleasePages, hundreds_of
from ..releases.site_languages import ALONE, Version, write_change
from ..releases.statements import END, Statements, write_press_text
from .addresses import LOST, address_of, dataset, release_dataset


# ==== the page `average-prices.html`: the averages of the newest month, beside the averages of earlier ones


class AverageLine(NamedTuple):
    """An item: its title, its unit, its average in each month that the page shows (None: hidden), and the number of
    outlets behind the newest average."""

    title: str
    unit: str
    cells: Sequence[Optional[str]]
    outlets: str


class AveragesPage:
    """The average prices of an office that publishes some. `months` are the months of the columns, the newest first;
    none if the file has no row."""

    def __init__(self, config: Config, speech: Speech):
        self._config, self._speech, self._rows = config, speech, find_current(config.averages)
        self.corrections = [row for row in config.averages if row.reason]
        self.months = self._months()

    def _months(self) -> list[str]:
        """The newest month, the one before and the one a year before, if they have a row."""
        known = {month for month, _ in self._rows}
        if not known:
            return []
        last = max(known)
        year, number = int(last[:4]), int(last[5:])
        before = f"{year - 1}-12" if number == 1 else f"{year}-{number - 1:02}"
        return [month for month in (last, before, f"{year - 1}-{number:02}") if month in known]

    @property
    def lines(self) -> list[AverageLine]:
        """The items of the newest month."""
        rows = [row for key, row in sorted(self._rows.items()) if key[0] == self.months[0]]
        return [
            AverageLine(
                row.title,
                row.unit,
                [self._cell(self._rows.get((month, row.item))) for month in self.months],
                self._speech.whole(row.mean.outlets) if row.mean else NO_FIGURE,
            )
            for row in rows
        ]

    def _cell(self, row: Optional[Average]) -> Optional[str]:
        """An average as the page shows it, a dash if there is none; None if it is hidden."""
        if row is None:
            return NO_FIGURE
        return self._speech.figure(write_fixed(row.mean.average, self._config.minor_digits)) if row.mean else None


# ==== analytical core inflation on pages: the page `core.html`, and the last month on the first page


class CoreLine(NamedTuple):
    """A measure: its id, its title, its figures by month, whether they are shares, its description now, and the
    reason if its definition changed for all months."""

    id: str
    title: str
    rows: dict[str, CoreRow]
    is_share: bool
    says: str
    definitions: Sequence[GivenReason]


class CorePage:
    """The measures of an office that has some."""

    def __init__(self, known: Known, recent: Known, config: Config):
        """`recent` are the figures of the months that pages show."""
        self._known, self._speech, self._config = known, known.shown.speech, config
        self.months = recent.series.months[::-1]
        self.measures = [*self._lines()]

    def _lines(self) -> list[CoreLine]:
        series, rows = self._known.series, measures_of(self._config.core)
        reasons = given_reasons(self._config.reasons, series, self._config.planned)
        lines = []
        for name, it in series.core.items():
            of, title = definition_in(rows[name], max(it.rows)), series.name_node(name, it.title)
            why = [reason for key, given in sorted(reasons.items()) if key[0] == name for reason in given]
            lines.append(CoreLine(name, title, it.rows, it.is_share, self._says(of), why))
        return lines

    def _says(self, of: CoreDefinition) -> str:
        """The description of a measure."""
        t = self._speech.t
        if of.measure == MEDIAN:
            return t(
                "Weighted median: the aggregates are sorted by their changes. The median is the change in"
                " the first aggregate at which the weights add up to at least half of the total weight."
            )
        if of.measure == TRIMMED:
            lower, upper = (self._speech.figure(_percent(it)) for it in (of.lower, of.upper))
            return t(
                "Trimmed mean: the weighted mean without {lower} percent of the total weight at the lower end and {upper} percent at the upper end. An aggregate that a cut divides counts only with the part of its weight that remains.",
                lower=lower,
                upper=upper,
            )
        if of.measure == ITEMS:
            return t("Percentage of elementary aggregates whose prices rise.")
        return t("Percentage of the total weight that belongs to elementary aggregates whose prices rise.")

    def cell(self, core_line: CoreLine, month: str, is_annual: bool) -> str:
        """A figure of a measure as a page shows it."""
        row = core_line.rows.get(month)
        units = None if row is None else row.annual if is_annual else row.monthly
        if units is None:
            return NO_FIGURE
        return self._speech.percent(tenths(units) if core_line.is_share else with_sign(tenths(units)))

    def all_items(self, month: str, is_annual: bool) -> str:
        """The change in all items next to the measures."""
        row = self._known.shown.row(month, ALL_ITEMS)
        units = None if row is None else row.year_change if is_annual else row.month_change
        return NO_FIGURE if units is None else self._speech.percent(with_sign(tenths(units)))


def _percent(hundredths: int) -> str:
    """`15` of 1,500, and `7.5` of 750."""
    return decimal(hundredths, 100, 2).rstrip("0").rstrip(".")


# ==== adjusted series on pages: the page `seasonal.html`, and the last month on the first page


class SeasonalLine(NamedTuple):
    """A series: its code, its title, its figures by month, the description of its adjustment, and whether the method
    is a simple one."""

    code: str
    title: str
    rows: dict[str, SeasonalRow]
    says: str
    is_analytical: bool


class SeasonalPage:
    """The adjusted series of an office that has some."""

    def __init__(self, known: Known, recent: Known, corrections: Sequence[GivenReason]):
        """`recent` are the figures of the months that pages show."""
        self._speech, series = known.shown.speech, known.series
        self.corrections, self.months = corrections, recent.series.months[::-1]
        self.lines = [
            SeasonalLine(code, series.title(code), it.rows, self._says(it.made_by), it.made_by[0] == METHODS[STL])
            for code, it in series.seasonal.items()
        ]

    def _says(self, made_by: Sequence[str]) -> str:
        """The description of a series' adjustment."""
        *words, window = made_by
        method, software, version, settings = (apart(word, self._speech.language.dir) for word in words)
        return self._speech.tn(
            "{method} with {software} {version} and the settings {settings}. Each new release may revise the last"
            " {count} month.",
            "{method} with {software} {version} and the settings {settings}. Each new release may revise the last"
            " {count} months.",
            int(window),
            method=method,
            software=software,
            version=version,
            settings=settings,
        )

    def level(self, seasonal_line: SeasonalLine, month: str) -> str:
        """The adjusted index of a month with one decimal."""
        row = seasonal_line.rows.get(month)
        return NO_FIGURE if row is None else self._speech.figure(points(row.adjusted, 1))

    def change(self, seasonal_line: SeasonalLine, month: str) -> str:
        """Its monthly change."""
        row = seasonal_line.rows.get(month)
        units = None if row is None else row.month_change
        return NO_FIGURE if units is None else self._speech.percent(with_sign(tenths(units)))


# ==== the worked example of the page on how to read the index, in published figures that anybody can compute with


class Change(NamedTuple):
    """A change between two months: their names as `2026-12`, the period that is 100, both levels as texts, the change in
    percent with three decimals, the same in tenths of a percent as it is published, the difference in points, and what
    100 of money has become."""

    then: str
    now: str
    hundred: str
    level_then: str
    level_now: str
    percent: str
    tenths: int
    points: str
    hundred_now: str


class Example(NamedTuple):
    """The contribution of a division to the monthly change, in percentage points: its code, both weights, its index
    within the year in both months, and the index of all items in the month before, as texts; and the contribution."""

    code: str
    weight: int
    whole_weight: int
    within_then: str
    within_now: str
    whole_then: str
    points: Ratio


def change(shown: Shown, month: str, is_annual: bool) -> Optional[Change]:
    """The computation of the change in all items; None if there is none, or if the published levels don't give it,
    since it depends on a revision that isn't published yet."""
    series, line = shown.series, shown.change(month, ALL_ITEMS, is_annual)
    row = series.row(month, ALL_ITEMS)
    level = (series.year_base if is_annual else series.month_base)(month, ALL_ITEMS)
    if row is None or line is None or level is None:
        return None
    then = before(month, 12 if is_annual else 1)
    for hundred, texts in _levels(shown, (then, month), (level, row.chained)):
        was, now = (int(text.replace(".", "")) for text in texts)
        if rounded_change(was, now) == line:
            digits = len(texts[0].partition(".")[2])
            percent, hundred_now = decimal(100 * (now - was), was, 3), decimal(100 * now, was, 2)
            return Change(then, month, hundred, *texts, percent, line, decimal(now - was, 10**digits, 1), hundred_now)
    return None


def _levels(shown: Shown, months: tuple[str, str], levels: tuple[int, int]) -> Iterator[tuple[str, tuple[str, str]]]:
    """The levels of both months as they can be read: as they are shown, in the digits that changes are computed
    from, and otherwise as chained levels."""
    digits = 6 if shown.rates == EXACT else 1
    then, now = (decimal(*shown.of_level(level, month, ALL_ITEMS), digits) for level, month in zip(levels, months))
    yield shown.find_reference(months[1], ALL_ITEMS), (then, now)
    yield shown.series.base_of(months[1], ALL_ITEMS), (points(levels[0]), points(levels[1]))


def find_given(known: Known, month: str) -> Optional[Example]:
    """The contribution of the division that contributes most to a month's change in all items, up or down; None if
    that isn't known."""
    series = known.series
    parts = [(it.code, it.to_month) for it in known.contributions.below(month, ALL_ITEMS) if it.to_month is not None]
    if not parts:
        return None
    code, value = max(parts, key=lambda part: (abs(part[1].over) / part[1].under, part[0]))
    now, whole = series.row(month, code), series.row(month, ALL_ITEMS)
    earlier = before(month)
    then, whole_then = (None if month.endswith("-01") else series.row(earlier, it) for it in (code, ALL_ITEMS))
    if now is None or whole is None:
        return None
    within_then, whole_within = (it.within if it else HUNDRED for it in (then, whole_then))
    return Example(code, now.weight, whole.weight, points(within_then), points(now.within), points(whole_within), value)


# ==== the office's own words as the page of the method shows them


class ShownSection(NamedTuple):
    """A section with its title in the language of the page; `other` is the version of the site in whose language its text
    is, if that is another one."""

    section: Section
    title: str
    html: Markup
    other: Optional[Version]


def own_words_of(words: OwnWords, speech: Speech, versions: Sequence[Version]) -> dict[str, object]:
    """The values for the template: the sections before and after the tool's own, and the titles of sections that no
    language has."""
    return {
        "said_first": _list_sections(words, speech, versions, is_first=True),
        "said_last": _list_sections(words, speech, versions, is_first=False),
        "unsaid": [speech.t(it.title) for it in words.unsaid()],
    }


def _list_sections(words: OwnWords, speech: Speech, versions: Sequence[Version], is_first: bool) -> list[ShownSection]:
    own, others = speech.language.tag, {version.tag: version for version in versions}
    return [
        ShownSection(
            statement.section,
            speech.t(statement.section.title),
            statement.html,
            others.get(statement.tag) if statement.tag != own else None,
        )
        for statement in words.said_in(own, is_first)
    ]


# ==== the rows of a node's months on its page: thousands of pages have dozens of them, so no template is run for each
# row

T = TypeVar("T")


class MonthRows:
    """Writes rows of a table: month, index, index within the year, both changes, notes, and the
    revision of the month's table. On a telephone the month is `Dec 2026`, and some columns aren't shown."""

    def __init__(self, shown: Shown):
        self._shown, self._speech = shown, shown.speech
        self._ends: dict[str, tuple[str, str]] = {}
        self._levels, self._within = (_Cells[Optional[int]](self._level, kind) for kind in ("n", "n wide"))
        self._changes = _Cells[Optional[int]](partial(write_change, shown.speech))
        self._notes = _Cells[str](escape)

    def of(self, code: str, months: Iterable[str], notes: Mapping[str, str], marks: Mapping[str, str]) -> Markup:
        """The rows of the months of a node with their notes, and the sentence below a month with a mark."""
        shown, months = self._shown, [*months]
        ends = [self._ends.get(month) or self._of_month(month) for month in months]
        levels = map(self._levels.__getitem__, shown.units(months, code, 1))
        own = [
            None if it is None else scale_ratio(it, 10**6, 1) for it in shown.series.column(months, code, "within")
        ]
        within = map(self._within.__getitem__, own)
        changes = (
            map(self._changes.__getitem__, shown.changes(months, code, is_annual)) for is_annual in (False, True)
        )
        letters = map(self._notes.__getitem__, (notes.get(month, "") for month in months))
        rows = [f"{end[0]}{''.join(cells)}{end[1]}" for end, *cells in zip(ends, levels, within, *changes, letters)]
        if marks:
            rows = [f"{row}{self._mark(marks[month])}" if month in marks else row for month, row in zip(months, rows)]
        return Markup("\n".join(rows))

    def _mark(self, text: str) -> str:
        """The row below a month with a mark."""
        return f'\n<tr class="break"><td colspan="7">{escape(text)}</td></tr>'

    def _of_month(self, month: str) -> tuple[str, str]:
        """The beginning and the end of a month's rows."""
        revision = self._speech.figure(str(self._shown.series.latest[month].revision))
        head = f'<tr><th scope="row" class="month">{self._speech.month_head(month)}</th>'
        found = self._ends[month] = head, f'<td class="n wide">{revision}</td></tr>'
        return found

    def _level(self, tenths: Optional[int]) -> str:
        """A level of so many tenths of a point; a row has one."""
        assert tenths is not None
        return self._speech.figure(write_fixed(tenths, 1))


class _Cells(dict[T, str]):
    """Cells that have few different values, each written once."""

    def __init__(self, text: Callable[[T], str], kind: str = "n"):
        super().__init__()
        self._text, self._kind = text, kind

    def __missing__(self, value: T) -> str:
        text = self[value] = f'<td class="{self._kind}">{self._text(value)}</td>'
        return text


# ==== the part of the website that is about releases: their pages, the calendar, the feed, the map of all pages, and
# the page that is shown if there is none


class ReleaseSite:
    """Writes these pages and files into the folder of a site."""

    def __init__(self, known: Known, config: Config, cards: Cards, version: Version = ALONE):
        self.version = version
        self.series, self.config, self.speech = known.series, config, known.shown.speech
        self.cards = cards if config.address else NO_CARDS
        self.releases = ReleasePages(known, config)
        self.statements = Statements(known.series, known.contributions, config, self.speech)
        self.calendar = CalendarOf(known.series, config)

    def prepare(self, pages: jinja2.Environment) -> None:
        """The values about releases for the templates of all pages, and the filters for moments in the office's time
        zone."""
        clock, latest = self.config.clock, self.releases.latest
        speech = self.speech
        # (all pages have the moment of the last table)
        day = lru_cache(partial(clock.day, speech=speech))
        pages.filters.update(day=day, local=partial(clock.local, speech=speech), iso=iso)
        pages.globals.update(
            clock=clock,
            calendar=self.calendar,
            release_pages=self.releases,
            hundreds_of=hundreds_of,
            provisional_then=partial(provisional_then, speech=speech),
            address_of=lambda page, version=self.version: address_of(self.config, page, version),
            card=self.version.folder + latest.card if self.cards.are_written else "",
            card_says=latest.headline,
            dataset="",
            cited_in=[("BibTeX", BIBTEX), ("RIS", RIS)],
            DATACITE=DATACITE,
            PRESS_TEXT=END,
            doi_of=partial(doi_of, self.config),
        )

    def dataset(self, names: Sequence[tuple[str, int]], files: NewFiles) -> str:
        """The description of the data for other programs, with files by their names and sizes."""
        if not self.config.address:
            return ""
        datasets = [(name, size, files.sum_of(f"data/{name}")) for name, size in names]
        return dataset(self.config, self.series, datasets, self.speech, self.version)

    def write(self, pages: jinja2.Environment, pack: Path) -> None:
        """Writes all of it into the folder of a pack that already contains the other pages of the site."""
        version, folder = self.version, pack / self.version.folder
        for name in ("releases.html", "calendar.html"):
            write_page(pages, name, folder / name, **version.standing("", name, name))
        pictures = ReleasePictures(pages, self.config, folder, version)
        self.releases.write(pages, folder, partial(self._of_release, pack, pictures))
        for it in self.releases.all:
            write_citations(pack, self.config, it, version, self._size(pack, it))
        # (an office's own address is that of its pages in the language)
        own = self.config._replace(address=address_of(self.config, "", version))
        if not version.folder:
            write_page(pages, LOST, folder / LOST)
        write_ics(self.series, own, self.releases.all, folder / ICS, self.speech)
        if self.config.address:
            write_cards(self.cards, self.config, self.releases.all, pack, version)
            write_feed(folder, own, self.series, self.releases.all, self.speech)

    @staticmethod
    def _size(pack: Path, release: Release) -> int:
        """The bytes of the table of a release."""
        return (pack / "data" / "tables" / f"{release.name}.csv").stat().st_size

    def _of_release(
        self, pack: Path, pictures: ReleasePictures, release: Release, rows: Sequence[Given]
    ) -> dict[str, object]:
        """The place of a release's page, its pictures, and its description for other programs."""
        releases: dict[str, object] = self.version.standing("../", f"{release.name}.html", release.page)
        releases.update(pictures.write(release, rows))
        paragraphs = releases["statement"] = self.statements.of(release, rows)
        write_press_text(pack, self.config, release, paragraphs, self.version)
        if not self.config.address:
            return releases
        releases["dataset"] = release_dataset(self.config, release, self._size(pack, release), self.version)
        if self.cards.are_written:
            releases.update(card=self.version.folder + release.card, card_says=release.headline)
        return releases

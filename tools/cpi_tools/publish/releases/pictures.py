"""The pictures of a pack's pages: level and changes of a node, how much was imputed, and contributions."""

from __future__ import annotations

import functools
from collections.abc import Iterable, Iterator, Sequence
from fractions import Fraction
from typing import NamedTuple, Optional

from markupsafe import Markup

from ...office.table_rows import Rows
from ...office.tables import Row, Series, before, link_of
from ...text import charts
from ...text.charts import OTHER, OWN, Line, Picture
from ...text.exact import ALL_ITEMS, HUNDRED, Ratio, decimal, depth_of, tenths, with_sign
from ...text.languages import SPEAKS_ENGLISH, Speech, mark_text
from ...text.others import Worded, apart, of_others, others, word_text
from ...text.page_templates import NO_FIGURE
from ..figures.measures import Contribution
from ..figures.shown_figures import Shown


# ==== the contributions of nodes to the change in a node above them, as the rows of a table with bars, and the lead
# about them

Values = list[tuple[str, Ratio]]
"""Codes with percentage points."""


class Given(NamedTuple):
    """The contribution of a node to the change in the node directly above it: a row of a table, with its bar."""

    code: str
    title: str
    row: Optional[Row]
    value: Ratio
    bar: charts.Bar


class Lead(NamedTuple):
    """The largest contribution to a change, the largest one in the other direction, and the sum of all, in
    percentage points."""

    most: Optional[Given]
    against: Optional[Given]
    total: Ratio


def values_of(parts: Iterable[Contribution], is_annual: bool) -> Values:
    """The codes of those that give something, with what they give."""
    values = [(part.code, part.to_year if is_annual else part.to_month) for part in parts]
    return [(code, value) for code, value in values if value is not None]


def sorted_values(parts: Iterable[Contribution], is_annual: bool) -> Values:
    """The contributions, the largest first."""
    return sorted(values_of(parts, is_annual), key=lambda value: (-Fraction(*value[1]), value[0]))


def with_bars(shown: Shown, month: str, values: Values) -> tuple[list[Given], str]:
    """The rows of a table of what some nodes give, and where zero is on the track."""
    track = charts.track([value.over / value.under for _, value in values])
    rows = [
        Given(code, shown.series.title(code), shown.row(month, code), value, bar)
        for (code, value), bar in zip(values, track.bars)
    ]
    return rows, track.zero


def lead_of(rows: Sequence[Given], change: int) -> Lead:
    """The lead about contributions, the largest first, and about the change in tenths of a percent that they
    explain."""
    sign = -1 if change < 0 else 1
    # (the first row gives most to a rise, the last one to a fall)
    ends = rows[::sign]
    most = ends[0] if ends and ends[0].value.over * sign > 0 else None
    against = ends[-1] if ends and ends[-1].value.over * sign < 0 else None
    total = Ratio(0, 1)
    for row in rows:
        total = total.plus(row.value)
    return Lead(most, against, total)


# ==== the pictures of a pack's pages: the level and the changes of a node, and how much was imputed

LEVEL, YEAR, MONTH, IMPUTED, GIVEN, SETS = "level", "year", "month", "imputed", "contributions", "sets"
"""The kinds of pictures, by which their files are named."""


KEY = mark_text("<b>Full line</b>: {full}. <i>Broken line</i>: {broken}.")
"""The text about the lines of a picture; in each language with these elements."""


CUT = mark_text("{unit}; the axis doesn't begin at zero")
"""A unit below the name of a picture whose axis is cut."""


class Chart(NamedTuple):
    """A picture with its kind, its name and its unit, what its lines and its marks are, where it has any, the language of
    all of them, how high it is, and its figures by month, the newest first, if its page has them."""

    kind: str
    name: str
    unit: str
    picture: Markup
    full: Worded = of_others("")
    broken: Worded = of_others("")
    marks: str = ""
    speech: Speech = SPEAKS_ENGLISH
    height: int = charts.HEIGHT
    figures: Sequence[tuple[str, str]] = ()

    @property
    def is_cut(self) -> bool:
        """Whether the axis of its values neither begins at zero nor crosses it."""
        return self.kind == LEVEL and 'class="zero"' not in self.picture

    @property
    def whole_unit(self) -> str:
        """Its unit, and that its axis is cut if it is."""
        return self.speech.t(CUT, unit=self.unit) if self.is_cut else self.unit

    @property
    def key(self) -> Markup:
        """The texts about its lines and its marks, as elements of a page."""
        if not self.broken:
            return Markup("")
        form = self.speech.t(KEY)
        texts = Markup(form).format(full=others(self.full), broken=others(self.broken))
        return texts + Markup(" {}").format(self.marks) if self.marks else texts


def _ends(values: Sequence[Optional[float]], months: Sequence[str]) -> list[tuple[str, float]]:
    """The months with a value."""
    return [(month, value) for month, value in zip(months, values) if value is not None]


def of_node(shown: Shown, code: str) -> list[Chart]:
    """The level, next to the level of all items, and both changes: up to the last month of the node."""
    series, speech = shown.series, shown.speech
    title = apart(series.title(code), speech.language.dir)
    end = next(at for at in range(len(series.months), 0, -1) if series.level(series.months[at - 1], code) is not None)
    months = series.months[max(0, end - charts.MOST_MONTHS) : end]
    levels = [_level(shown, code, months)]
    names = (
        (True, YEAR, speech.t("Annual change"), mark_text("{title}: annual change")),
        (False, MONTH, speech.t("Monthly change"), mark_text("{title}: monthly change")),
    )
    for is_annual, kind, texts, of_title in names:
        values = [None if change is None else change / 10 for change in shown.changes(months, code, is_annual)]
        known = _ends(values, months)
        if known:
            # (what isn't known yet isn't drawn: the annual change begins with the second year)
            first = months.index(known[0][0])
            picture = Picture(kind, speech.t(of_title, title=title), _between(speech, known), speech)
            drawn = charts.columns(picture, months[first:], values[first:])
            levels.append(Chart(kind, texts, speech.t("Percent"), drawn, speech=speech))
    return levels


def figures_of(shown: Shown, code: str, kind: str) -> list[tuple[str, str]]:
    """The months of a picture of a node, which has figures in the last ones of all, and its figures as texts, the newest
    first."""
    speech, months = shown.speech, shown.series.months[-charts.MOST_MONTHS :]
    if kind == LEVEL:
        months = [before(months[0]), *months] if len(months) == 1 else months
        figures = [(month, _text(shown, month, code)) for month in months]
    else:
        changes = shown.changes(months, code, kind == YEAR)
        figures = [
            (month, "" if change is None else with_sign(tenths(change))) for month, change in zip(months, changes)
        ]
        figures = figures[next(at for at, (_, text) in enumerate(figures) if text) :]
    return [(speech.month(month), speech.figure(text) if text else NO_FIGURE) for month, text in figures[::-1]]


def _between(speech: Speech, known: Sequence[tuple[str, float]]) -> str:
    """The smallest and the largest of some changes in percent, each with its month."""
    values = [value for _, value in known]
    (low_month, low), (high_month, high) = (known[values.index(most(values))] for most in (min, max))
    least, greatest = (speech.figure(charts.write_signed(it)) for it in (low, high))
    if len(known) == 1:
        return speech.t("{change} percent in {month}.", change=least, month=speech.month(low_month))
    if low == high:
        first, last = (speech.month(month) for month, _ in (known[0], known[-1]))
        return speech.t("{change} percent from {first} to {last}.", change=least, first=first, last=last)
    return speech.t(
        "Between {least} percent in {least_month} and {greatest} percent in {greatest_month}.",
        least=least,
        least_month=speech.month(low_month),
        greatest=greatest,
        greatest_month=speech.month(high_month),
    )


def base_text(shown: Shown, code: str) -> str:
    """The period in which the level of a node is 100, and the next one if the node left the index and came again."""
    return _base_text(shown.speech, tuple(shown.hundreds(code)))


@functools.lru_cache(maxsize=1024)
def _base_text(speech: Speech, hundreds: tuple[tuple[str, str], ...]) -> str:
    first, *others = [(speech.month(month), speech.period(hundred)) for month, hundred in hundreds]
    texts = speech.t("{period} = 100", period=first[1])
    for month, period in others:
        texts = speech.t("{bases}; since {month}, {period} = 100", bases=texts, month=month, period=period)
    return texts


def _level(shown: Shown, code: str, months: Sequence[str]) -> Chart:
    """The level of a node in some months, next to the level of all items, which is 100 in the same period."""
    series, title, speech = shown.series, shown.series.title(code), shown.speech
    # (a first month alone is no line: it is drawn from the December before it, which it is linked to)
    months = [before(months[0]), *months] if len(months) == 1 else months
    levels = _numbers(shown, months, code)
    there = [month for month, level in zip(months, levels) if level is not None]
    breaks, marks = (
        [month for month in found if months[0] < month <= months[-1]]
        for found in (series.starts(code)[1:], series.marks(code))
    )
    lines = [Line(OWN, levels, speech.figure(_text(shown, there[-1], code)))]
    if code != ALL_ITEMS:
        lines.append(Line(OTHER, _beside(shown, code, tuple(months))))
    named = speech.t("{title}: index", title=apart(title, speech.language.dir))
    says = _say_levels(shown, code, there, breaks)
    picture = Picture(LEVEL, named, " ".join(says), speech)
    drawn = charts.lines(picture, months, lines, breaks=breaks, marks=marks)
    chart = Chart(LEVEL, speech.t("Index"), base_text(shown, code), drawn, speech=speech)
    if code == ALL_ITEMS:
        return chart
    return chart._replace(
        full=of_others(title), broken=_beside_text(shown, code), marks=_say_marks(shown, code, breaks, marks)
    )


def _find_level(shown: Shown, month: str, code: str) -> Optional[int]:
    """The chained level of a node in a month; in December before its first month it is 100."""
    chained = shown.series.level(month, code)
    return HUNDRED if chained is None and month < shown.series.months[0] else chained


def _numbers(shown: Shown, months: Sequence[str], code: str) -> list[Optional[float]]:
    """Levels as numbers for a picture."""
    first, found = shown.series.months[0], shown.series.column(months, code, "chained")
    chained = [HUNDRED if it is None and month < first else it for month, it in zip(months, found)]
    return shown.numbers(months, code, chained)


@functools.lru_cache(maxsize=64)
def _of_all(shown: Shown, months: tuple[str, ...]) -> Sequence[Optional[float]]:
    """The level of all items, which is in the picture of each of thousands of items."""
    return _numbers(shown, months, ALL_ITEMS)


def _text(shown: Shown, month: str, code: str) -> str:
    """A level with one decimal place; empty if there is no level."""
    chained = _find_level(shown, month, code)
    return "" if chained is None else decimal(*shown.of_level(chained, month, code), 1)


def _beside(shown: Shown, code: str, months: tuple[str, ...]) -> Sequence[Optional[float]]:
    """The levels of all items in some months, if they are 100 in the period in which a node's level is."""
    base, of_all = shown.bases.get(code), _of_all(shown, months)
    if base and link_of(base[0]) <= months[0] and months[-1] <= base[1]:
        return of_all
    return [_beside_in(shown, code, month, level) for month, level in zip(months, of_all)]


def _beside_in(shown: Shown, code: str, month: str, of_all: Optional[float]) -> Optional[float]:
    """The level of all items in a month next to a node; `of_all` is the level that is shown for all items
    themselves."""
    chained = _find_level(shown, month, ALL_ITEMS)
    if chained is None or shown.is_rereferenced(month, code):
        return of_all
    return 100 * chained / shown.series.level_in(shown.series.base_of(month, code), ALL_ITEMS)


def _beside_text(shown: Shown, code: str) -> Worded:
    """The text about the line of all items: their title, and their period if another one is shown for them
    elsewhere."""
    periods, of_all = (tuple(hundred for _, hundred in shown.hundreds(it)) for it in (code, ALL_ITEMS))
    return _beside_in_periods(shown.speech, shown.series.title(ALL_ITEMS), periods, periods == of_all)


@functools.lru_cache(maxsize=1024)
def _beside_in_periods(speech: Speech, title: str, periods: tuple[str, ...], is_same: bool) -> Worded:
    named = of_others(title)
    if is_same:
        return named
    if len(periods) == 1:
        return word_text(speech.t("{title}, also with {period} = 100"), title=named, period=speech.period(periods[0]))
    return word_text(speech.t("{title}, always with the same reference period"), title=named)


def _say_marks(shown: Shown, code: str, breaks: Sequence[str], marks: Sequence[str]) -> str:
    """The text about the marks of a picture."""
    speech = shown.speech
    texts = [
        speech.t(
            "since {month}, {period} = 100",
            month=speech.month(month),
            period=speech.period(shown.find_reference(month, code)),
        )
        for month in breaks
    ]
    others = [month for month in marks if month not in breaks]
    texts += [speech.t("from {month} on, it contains different items", month=speech.month(month)) for month in others]
    return speech.t("A mark shows a break: {breaks}.", breaks="; ".join(texts)) if texts else ""


def _say_levels(shown: Shown, code: str, months: Sequence[str], breaks: Sequence[str]) -> Iterator[str]:
    """The first level and the last one, of each part between two breaks; a node has a level in all these months."""
    speech, limits = shown.speech, ["", *breaks, "9999-12"]
    for begin, end in zip(limits, limits[1:]):
        part = [month for month in months if begin <= month < end]
        if not part:
            continue
        ends = part[:1] if len(part) == 1 else (part[0], part[-1])
        texts = [(speech.month(month), speech.figure(_text(shown, month, code))) for month in ends]
        (first, then), (last, now) = texts[0], texts[-1]
        if len(texts) == 1:
            yield speech.t("{level} in {month}.", level=then, month=first)
        else:
            yield speech.t("From {then} in {first} to {now} in {last}.", then=then, first=first, now=now, last=last)


class Imputed(NamedTuple):
    """The weight of aggregates in which a price was imputed, in percent: of the last month, of those that the
    picture shows, and the picture."""

    last: str
    figures: list[tuple[str, str]]
    chart: Chart

    @property
    def picture(self) -> Markup:
        """The picture by itself."""
        return self.chart.picture


def _share_imputed(rows: Rows) -> str:
    """The share of the weight that belongs to elementary aggregates in which a price was imputed, in percent."""
    found = zip(rows.named.codes, rows.weight, rows.is_imputed)
    imputed = sum(weight for code, weight, is_imputed in found if is_imputed and depth_of(code) == 5)
    return decimal(100 * imputed, rows[ALL_ITEMS].weight, 0)


def of_imputed(series: Series, speech: Speech = SPEAKS_ENGLISH) -> Imputed:
    """The share of the weight that belongs to aggregates in which a price was imputed."""
    months = series.months[-charts.MOST_MONTHS :]
    shares = [_share_imputed(series.latest[month].rows) for month in months]
    low, high = (most(shares, key=int) for most in (min, max))
    least, greatest = speech.figure(low), speech.figure(high)
    if low != high:
        says = speech.t("Between {least} and {greatest} percent of the weight.", least=least, greatest=greatest)
    else:
        says = speech.t("{share} percent of the weight.", share=least)
    name = speech.t("Aggregates in which a price was imputed")
    figures = [(speech.month(month), speech.figure(share)) for month, share in zip(months, shares)][::-1]
    drawn = charts.columns(Picture(IMPUTED, name, says, speech), months, [float(share) for share in shares])
    chart = Chart(IMPUTED, name, speech.t("Percent of the total weight"), drawn, speech=speech)
    return Imputed(figures[0][1], figures, chart)

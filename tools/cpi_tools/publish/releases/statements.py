"""What an office says of a release to the press, in whole sentences; as a file of plain characters too."""

from __future__ import annotations

from collections.abc import Iterator, Sequence
from fractions import Fraction
from pathlib import Path
from typing import NamedTuple, Optional

from ...office.tables import Series, Table, before
from ...text.exact import ALL_ITEMS, Ratio, scale_ratio, tenths, with_sign
from ...text.languages import Speech
from ...text.others import Worded, apart, of_others, word_text
from ..figures.aggregated import CoreComputed, Vintages, measures_of, vintages_of
from ..figures.announcements import FOLDER, Reasons, given_reasons
from ..figures.config import Config
from ..figures.figures import notes_then
from ..figures.measures import Contributions, Revised, is_shown_then
from ..figures.shown_figures import EXACT
from ..forms.site_texts import month_lead
from .pictures import Given
from .releases import Release, revised_since, revision_before
from .site_languages import Version, pp


# ==== the sentences of a release as a text for the press, next to its page: plain characters, a paragraph a line

END = ".txt"
"""The ending of the file's name."""


def write_press_text(
    pack: Path, config: Config, release: Release, paragraphs: Sequence[Worded], version: Version
) -> None:
    """Writes the text of a release next to its page."""
    text = "\n".join(_lines(config, release, paragraphs, version)) + "\n"
    (pack / version.folder / FOLDER / f"{release.name}{END}").write_bytes(text.encode())


def _lines(config: Config, release: Release, paragraphs: Sequence[Worded], version: Version) -> Iterator[str]:
    """The lines of the text."""
    speech = release.shown.speech
    t, way = speech.t, speech.language.dir
    period = speech.period(release.reference_period)
    yield apart(config.office, way)
    yield t("{before}, {after}", before=apart(config.title, way), after=release.text)
    yield t("Published {moment}.", moment=config.clock.day(release.table.moment, speech))
    yield ""
    yield f"{release.headline}."
    yield t("The index is {index} ({period} = 100).", index=release.index_text, period=period)
    for paragraph in paragraphs:
        yield ""
        yield apart(paragraph, way)
    notes = notes_then(release.shown, ALL_ITEMS, release.provisional).sentences
    if notes:
        yield ""
    for _, says in notes:
        yield says
    yield ""
    yield from ways_of(release, config, version)


def ways_of(release: Release, config: Config, version: Version) -> Iterator[str]:
    """The contact for a release, and the addresses of its page and of the method, in sentences."""
    speech = release.shown.speech
    if config.contact:
        yield speech.t("Contact: {contact}", contact=apart(config.contact, speech.language.dir))
    if config.address:
        page, method = (f"{config.address}{version.folder}{name}" for name in (release.page, "method.html"))
        yield speech.t("This release: {address}", address=page)
        yield speech.t("Method: {address}", address=method)


# ==== an office's sentences for the press about a release, made from the figures that were published by its day
#
# The sentences of special aggregates and of core inflation are those that the office names (`press`). Their figures are
# those of the release's day. If a set or a measure got another definition for all months later, its earlier figures are
# no longer computed, and the releases before that don't mention it.

MOST_NAMED = 3
"""Contributions that a sentence names."""


class Named(NamedTuple):
    """The changes of a special aggregate or of a measure of core inflation in a release, in tenths of a percent."""

    title: str
    is_core: bool
    monthly: int
    annual: Optional[int]


class Statements:
    """The sentences of all releases of a site, in its language."""

    def __init__(self, series: Series, contributions: Contributions, config: Config, speech: Speech):
        self._series, self._now, self._config, self._speech = series, contributions, config, speech
        self._reasons: Reasons = given_reasons(config.reasons, series, config.planned)
        named = [name for name in config.press if name in series.specials]
        self._vintages: Vintages = vintages_of(series) if named else {}

    @property
    def speech(self) -> Speech:
        """The language of the sentences."""
        return self._speech

    def of(self, release: Release, rows: Sequence[Given]) -> list[Worded]:
        """The paragraphs of a release below its headline; the rows are the contributions of divisions to its change."""
        paragraphs = (
            self._contributions(rows),
            [_plain(month_lead(self._speech, release.whole))] if release.is_annual else [],
            [_say_special(self._speech, it) for it in self._all_named(release)],
            self._since_last_month(release),
            self._say_revised(release),
        )
        return [_join([*it]) for paragraph in paragraphs if (it := [*paragraph])]

    # ---- contributions

    def _contributions(self, rows: Sequence[Given]) -> Iterator[Worded]:
        """The largest ones up and down, of those that are shown with another figure than zero."""
        t, shown = self._speech.t, [row for row in rows if _is_seen(row.value)]
        ups = [given_value for given_value in shown if given_value.value.over > 0][:MOST_NAMED]
        downs = [given_value for given_value in shown[::-1] if given_value.value.over < 0][:MOST_NAMED]
        if len(ups) == 1:
            form = t("The largest upward contribution, in percentage points, came from {items}.")
        else:
            form = t("The largest upward contributions, in percentage points, came from {items}.")
        if ups:
            yield word_text(form, items=self._list_items(ups))
        if len(downs) == 1:
            form = t("The largest downward contribution, in percentage points, came from {items}.")
        else:
            form = t("The largest downward contributions, in percentage points, came from {items}.")
        if downs:
            yield word_text(form, items=self._list_items(downs))

    def _list_items(self, rows: Sequence[Given]) -> Worded:
        """Some items, each with what it gives."""
        # t: an item with its contribution in percentage points: Transport (+0.51)
        form = self._speech.t("{title} ({points})")
        texts = [word_text(form, title=of_others(row.title), points=pp(row.value, 2, self._speech)) for row in rows]
        return Worded(self._speech.list_texts(["{}"] * len(texts)), *texts)

    # ---- special aggregates and core inflation

    def _all_named(self, release: Release) -> Iterator[Named]:
        """The aggregates and measures that the office names, in its order, with the figures of the release's day."""
        config, month = self._config, release.table.month
        if release.shown.rates != EXACT or month < config.press_since:
            return
        measures = {name: measure for name, measure in measures_of(config.core).items() if name in config.press}
        core = CoreComputed(release.as_of.latest).rows(measures, month) if measures else {}
        for name in config.press:
            if release.table.moment < self._find_definition(name):
                continue
            if name in core and name in self._series.core and not self._series.core[name].is_share:
                title = self._series.name_node(name, self._series.core[name].title)
                yield Named(title, True, core[name].monthly, core[name].annual)
            elif name in self._series.specials:
                yield from self._say_set(name, release)

    def _say_set(self, name: str, release: Release) -> Iterator[Named]:
        """The changes of a special aggregate as they were on the release's day."""
        month, moment = release.table.month, release.table.moment
        row = self._series.specials[name].rows.get(month)
        vintage = self._vintages.get(name, {}).get(month, [])
        then = [vintage.row for vintage in vintage if vintage.moment <= moment]
        row = then[-1] if then else None if vintage else row
        if row:
            yield Named(self._series.title(name), False, row.month_change, row.year_change)

    def _find_definition(self, name: str) -> int:
        """The moment from which on the definition of a set or a measure is the one of now."""
        return max((it.moment for of, given in self._reasons.items() if of[0] == name for it in given), default=0)

    # ---- against the month before

    def _since_last_month(self, release: Release) -> Iterator[Worded]:
        """The annual change of the previous month, and the contributions that have changed most since."""
        month, speech = before(release.table.month), self._speech
        row = release.shown.row(month, ALL_ITEMS) if month in release.as_of.latest else None
        if not release.is_annual or row is None or row.year_change is None:
            return
        change = speech.percent(with_sign(tenths(row.year_change)))
        yield _plain(speech.t("In {month}, the annual change was {change}.", month=speech.month(month), change=change))
        differences = self._differences(release, month)
        if differences:
            yield from self._say_movers(differences)

    def _differences(self, release: Release, month: str) -> list[tuple[Fraction, str]]:
        """The differences of each division's contribution to the annual change from its contribution in the previous
        month, the largest first; none if one of both isn't known."""
        as_of, now = release.as_of, release.table.month
        if not all(is_shown_then(as_of, self._now, each, True) for each in (month, now)):
            return []
        contributions = Contributions(as_of, [])
        earlier, later = (
            {it.code: Fraction(*it.to_year) for it in contributions.below(each, ALL_ITEMS) if it.to_year}
            for each in (month, now)
        )
        differences = [
            (later.get(code, Fraction()) - earlier.get(code, Fraction()), code) for code in {**later, **earlier}
        ]
        return [
            (value, as_of.title(code))
            for value, code in sorted(differences, key=lambda difference: (-difference[0], difference[1]))
        ]

    def _say_movers(self, differences: Sequence[tuple[Fraction, str]]) -> Iterator[Worded]:
        """The contributions that rose and fell most."""
        t, (first, last) = self._speech.t, (differences[0], differences[-1])
        is_up, is_down = (_is_seen(_ratio(it[0])) and it[0] * sign > 0 for it, sign in ((first, 1), (last, -1)))
        up, down = of_others(first[1]), of_others(last[1])
        points, other_points = (pp(_ratio(it[0]), 2, self._speech) for it in (first, last))
        if is_up and is_down:
            form = t(
                "Compared with that month, in percentage points, the contribution of {up} rose most ({points}), and"
                " the contribution of {down} fell most ({other_points})."
            )
            yield word_text(form, up=up, points=points, down=down, other_points=other_points)
        elif is_up:
            form = t("Compared with that month, in percentage points, the contribution of {up} rose most ({points}).")
            yield word_text(form, up=up, points=points)
        elif is_down:
            form = t("Compared with that month, in percentage points, the contribution of {down} fell most ({points}).")
            yield word_text(form, down=down, points=other_points)

    # ---- revisions

    def _say_revised(self, release: Release) -> Iterator[Worded]:
        """The revisions since the release before, or by this one, and their reasons."""
        t, own, since = self._speech.t, revision_before(release.as_of), revised_since(release.as_of)
        if own:
            yield from self._own(release, own)
        for it in since:
            last = self._speech.month(before(release.table.month))
            now, then = self._both(release, it) if it.new.rows else ("", "")
            places = {"month": self._speech.month(it.new.month), "last": last, "now": now, "then": then}
            if not it.new.rows:
                form = t(
                    "After the release of {last}, {month} was revised: it is the base month of the index, so it has no levels of its own."
                )
            elif now == then:
                form = t(
                    "After the release of {last}, {month} was revised: the revision of the index of all items is too"
                    " small to appear in the digits shown."
                )
            else:
                form = t(
                    "After the release of {last}, {month} was revised: the index of all items is {now}, and was {then}"
                    " before."
                )
            yield word_text(form, **places)
            yield from self._why(it.new, release.table.moment)

    def _own(self, release: Release, own: Revised) -> Iterator[Worded]:
        """The changes by a further revision."""
        t, (now, then) = self._speech.t, self._both(release, own)
        places = {"month": self._speech.month(own.new.month), "now": now, "then": then}
        if now == then:
            form = t(
                "This release revises {month}: the revision of the index of all items is too small to appear in the"
                " digits shown."
            )
        else:
            form = t("This release revises {month}: the index of all items is {now}, and was {then} before.")
        yield word_text(form, **places)
        yield from self._why(own.new, release.table.moment)

    def _both(self, release: Release, it: Revised) -> tuple[str, str]:
        """The index of all items by a revision, and by the one before."""
        levels = ((each.rows[ALL_ITEMS].chained, it.new.month) for each in (it.new, it.old))
        found = [release.shown.of_level(chained, month, ALL_ITEMS) for chained, month in levels]
        now, then = (self._speech.figure(tenths(scale_ratio(*each, 1))) for each in found)
        return now, then

    def _why(self, table: Table, moment: int) -> Iterator[Worded]:
        """The reasons that the office had given by a moment."""
        tag = self._speech.language.tag
        for reason in self._reasons.get((table.month, table.revision), ()):
            if reason.moment <= moment:
                yield word_text(self._speech.t("Reason: {reason}"), reason=of_others(reason.say(tag)))


def _say_special(speech: Speech, it: Named) -> Worded:
    """The sentence of a special aggregate, or of a measure of core inflation."""
    monthly, annual = (
        "" if change is None else speech.percent(with_sign(tenths(change))) for change in (it.monthly, it.annual)
    )
    if it.is_core and annual:
        form = speech.t(
            "Analytical core inflation ({title}) was {annual} compared with a year earlier and {monthly} compared with the previous month."
        )
    elif it.is_core:
        form = speech.t("Analytical core inflation ({title}) was {monthly} compared with the previous month.")
    elif annual:
        form = speech.t(
            "The index of {title} changed by {annual} from a year earlier and by {monthly} from the previous month."
        )
    else:
        form = speech.t("The index of {title} changed by {monthly} from the previous month.")
    return word_text(form, title=of_others(it.title), annual=annual, monthly=monthly)


def _join(sentences: Sequence[Worded]) -> Worded:
    """Some sentences as one paragraph."""
    return Worded(" ".join(["{}"] * len(sentences)), *sentences)


def _plain(text: str) -> Worded:
    """Words of ours without texts of others."""
    return Worded(text.replace("{", "{{").replace("}", "}}"))


def _ratio(value: Fraction) -> Ratio:
    return Ratio(value.numerator, value.denominator)


def _is_seen(value: Ratio) -> bool:
    """Whether percentage points are shown with another figure than zero."""
    return scale_ratio(*value, 2) != 0

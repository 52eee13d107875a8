"""The figures of all nodes in all months, for forms that have a column for each kind, and the notes at them."""

from __future__ import annotations

import functools
from array import array
from collections.abc import Callable, Iterable, Mapping
from typing import NamedTuple, Optional

from ...office.table_rows import NO_CHANGE, NO_ROWS, Named
from ...office.tables import Row, Series
from ...text.exact import ALL_ITEMS, decimal, scale_ratio, write_fixed
from ...text.languages import SPEAKS_ENGLISH, Speech, mark_text, mark_text_as
from .measures import Contributions, Parts
from .shown_figures import EXACT, Shown


# ==== Notes at a figure: a letter for each, and what it says. A figure is of an item in a month.
#
# - `i`, imputed: the month's table marks the item, since a price at or below it was imputed.
# - `r`, revised: the month was published again, and the item's row differs from the first one.
# - `b`, break: the level isn't linked to earlier levels, or other elementary aggregates are in the special aggregate.
# - `p`, provisional: the month is one of the last ones, as many as the office says it may still revise.

IMPUTED_MARK, REVISED, BREAK, PROVISIONAL = "i", "r", "b", "p"

NAMES: Mapping[str, tuple[str, str]] = {
    IMPUTED_MARK: mark_text_as("a note at a figure", "imputed"),
    REVISED: mark_text_as("a note at a figure", "revised"),
    BREAK: mark_text_as("a note at a figure", "break"),
    PROVISIONAL: mark_text_as("a note at a figure", "provisional"),
}
"""The letters in the order in which they are written, with their names."""

SAYS: Mapping[str, str] = {
    IMPUTED_MARK: mark_text("at least one price at or below the item was imputed"),
    REVISED: mark_text("another figure was published first"),
    BREAK: mark_text("the level isn't linked to earlier levels"),
    PROVISIONAL: mark_text("the office may still revise it"),
}
"""A few words about a figure for each letter."""


class Notes:
    """The notes of all figures. The last `provisional` months can still be revised."""

    def __init__(self, shown: Shown, provisional: int = 0):
        self.shown, self.provisional, self.speech = shown, provisional, shown.speech
        series = shown.series
        self.last = frozenset(series.months[-provisional:] if provisional else [])
        """The provisional months."""
        self._first: dict[str, Mapping[str, Row]] = {}
        for table in series.vintages:
            if table is not series.latest[table.month]:
                self._first.setdefault(table.month, table.rows)

    @property
    def provisional_text(self) -> str:
        """The sentence about provisional months."""
        return self.speech.tn(
            "Provisional: the office may still revise the last month.",
            "Provisional: the office may still revise the last {count} months.",
            self.provisional,
        )

    def first(self, month: str, code: str) -> Optional[Row]:
        """The row that was published first, if the latest one is another; a special aggregate has none."""
        then, now = self._first.get(month, {}).get(code), self.shown.series.row(month, code)
        return then if then and now and then.texts != now.texts else None

    def by_month(self, code: str, months: Optional[Iterable[str]] = None) -> dict[str, str]:
        """By month, the letters of an item's figures, such as `ir`; a month without a note is missing. If no months
        are named they are all."""
        series, found = self.shown.series, dict[str, str]()
        marks, months = frozenset(series.marks(code)), [*(series.months if months is None else months)]
        for month, is_imputed in zip(months, series.column(months, code, "is_imputed")):
            if is_imputed is not None and (letters := self._letters(month, code, is_imputed == 1, month in marks)):
                found[month] = letters
        return found

    def _letters(self, month: str, code: str, is_imputed: bool, is_break: bool) -> str:
        """The letters of a row."""
        mark = IMPUTED_MARK if is_imputed else ""
        if month in self._first and self.first(month, code):
            mark += REVISED
        mark += BREAK if is_break else ""
        return mark + PROVISIONAL if month in self.last else mark

    def sentences(self, month: str, code: str) -> list[tuple[str, str]]:
        """The notes of a month's figures, each a letter and a sentence; of a break none, which has its own."""
        said = {
            IMPUTED_MARK: self.speech.t(
                "At least one price of this item, or of an item below it, was imputed in that month: it was moved like"
                " the other prices in its elementary aggregate."
            ),
            REVISED: self._find_first(month, code),
            PROVISIONAL: self.provisional_text,
        }
        letters = self.by_month(code, [month]).get(month, "")
        return [(letter, said[letter]) for letter in letters if letter in said]

    def _find_first(self, month: str, code: str) -> str:
        """The sentence about the figure that was first published."""
        row = self.first(month, code)
        if row is None:
            return ""
        then, now = decimal(*self.shown.of_level(row.chained, month, code), 1), self.shown.text(month, code, 1)
        speech, named = self.speech, self.speech.month(month)
        if then == now:
            return speech.t(
                "Revised: the figure first published for {month} differed by too little to appear in the digits shown.",
                month=named,
            )
        index = speech.figure(then)
        return speech.t("Revised: the index for {month} was first published as {index}.", month=named, index=index)


class Then(NamedTuple):
    """The notes of a release's headline as they were known on its day: the letters, and each with its sentence."""

    letters: str
    sentences: list[tuple[str, str]]


def notes_then(shown: Shown, code: str, provisional: int) -> Then:
    """The notes of an item in the last month of the tables that were published up to a release; `provisional` is the
    number of months that the office said on that day it may still revise."""
    month, notes = shown.series.months[-1], Notes(shown)
    letters, sentences = notes.by_month(code, [month]).get(month, ""), notes.sentences(month, code)
    if not provisional:
        return Then(letters, sentences)
    return Then(letters + PROVISIONAL, [*sentences, (PROVISIONAL, provisional_then(provisional, shown.speech))])


def provisional_then(months: int, speech: Speech = SPEAKS_ENGLISH) -> str:
    """The sentence about provisional months that stays on a release, if its month was one of the last that could be
    revised on its day."""
    return speech.tn(
        "Provisional: on that day the office could still revise the last month.",
        "Provisional: on that day the office could still revise the last {count} months.",
        months,
    )


def note_names(speech: Speech) -> dict[str, str]:
    """The names of letters in a language."""
    return {letter: speech.tc(*name) for letter, name in NAMES.items()}


def explain_letters(speech: Speech) -> dict[str, str]:
    """The meanings of letters in a language."""
    return {letter: speech.t(text) for letter, text in SAYS.items()}


def present(speech: Speech, letters: dict[str, str]) -> list[tuple[str, str, str]]:
    """The notes that some months have: letter, name and what it says."""
    return _rows_of(speech, frozenset("".join(letters.values())))


@functools.lru_cache(maxsize=64)
def _rows_of(speech: Speech, letters: frozenset[str]) -> list[tuple[str, str, str]]:
    names, says = note_names(speech), explain_letters(speech)
    return [(letter, names[letter], says[letter]) for letter in NAMES if letter in letters]


# ==== the figures of all nodes in all months, for forms that have a column or a series for each kind of them
#
# A figure is a whole number of units of its last decimal: digits are those of the printed table, or six for what is
# computed here, which is rounded once. Those of thousands of nodes are kept in a column for each month, and become
# texts when a form asks for those of a node; an empty text says that there is no figure.

NONE = NO_CHANGE
"""The value in a column if there is no figure."""


class Figure(NamedTuple):
    """A kind of figure: its name, its decimals, and those of all nodes in a month."""

    name: str
    digits: int
    of_month: Callable[[Known, str], Iterable[Optional[int]]]


class _Texts(dict[int, str]):
    """The texts of figures that have few different values."""

    def __init__(self, digits: int):
        super().__init__()
        self._digits = digits

    def __missing__(self, units: int) -> str:
        text = self[units] = "" if units == NONE else write_fixed(units, self._digits)
        return text


def _six_decimals(units: int) -> str:
    if units == NONE:
        return ""
    text = f"{units:07}" if units >= 0 else f"{units:08}"
    return f"{text[:-6]}.{text[-6:]}"


class Known:
    """The sources of figures: the tables, the contributions, and the figures shown to readers."""

    def __init__(
        self,
        series: Series,
        contributions: Contributions,
        shown: Shown,
        recent: Optional[Known] = None,
        nodes: bool = True,
    ):
        """`recent` are the figures of the last months, from which those are taken; without `nodes` only special
        aggregates have figures."""
        self.series, self.contributions, self.shown = series, contributions, shown
        self._nodes = tuple(series.titles) if nodes else ()
        self.titles = {code: series.title(code) for code in (*self._nodes, *series.specials)}
        self.codes = tuple(self.titles)
        self._at = {code: at for at, code in enumerate(self.codes)}
        self._recent = recent
        self._columns: dict[tuple[str, int], list[array[int]]] = {}
        self._of_months: dict[tuple[str, str], array[int]] = {}
        self._written: dict[str, list[str]] = {}
        self._places: tuple[Optional[Named], list[Optional[int]]] = None, []
        self._texts: dict[int, Callable[[int], str]] = {
            0: _Texts(0).__getitem__,
            1: _Texts(1).__getitem__,
            6: _six_decimals,
        }

    def columns(self, figure: Figure, first: int = 0) -> list[array[int]]:
        """A kind of figure by month, from one on that is counted from 0, and then by code: made once, NONE if there is
        none."""
        column = self._columns.get((figure.name, first))
        if column is None:
            column = [self.column(figure, month) for month in self.series.months[first:]]
            self._columns[figure.name, first] = column
        return column

    def column(self, figure: Figure, month: str) -> array[int]:
        """A kind of figure of a month by code."""
        column = self._of_months.get((figure.name, month))
        if column is None:
            column = self._of_months[figure.name, month] = self._make_column(figure, month)
        return column

    def _make_column(self, figure: Figure, month: str) -> array[int]:
        recent = self._recent
        if recent is None or month < recent.series.months[0]:
            return array("q", (NONE if it is None else it for it in figure.of_month(self, month)))
        column = recent.column(figure, month)
        if recent.codes == self.codes:
            return column
        places = (recent._at.get(code) for code in self.codes)
        return array("q", (NONE if place is None else column[place] for place in places))

    def texts(self, figure: Figure, code: str) -> list[str]:
        """A kind of figure of a node in all months as texts. (Several forms have the same ones, so they are kept in one text
        for each node.)"""
        at, written = self._at[code], self._written.setdefault(figure.name, [""] * len(self.codes))
        if not written[at]:
            written[at] = ",".join(self.texts_from(figure, code, 0))
        return written[at].split(",")

    def texts_from(self, figure: Figure, code: str, first: int) -> list[str]:
        """The texts of a node's figures, from a month on that is counted from 0."""
        at, text = self._at[code], self._texts[figure.digits]
        return [text(column[at]) for column in self.columns(figure, first)]

    def texts_of_month(self, figure: Figure, month: str) -> list[str]:
        """A kind of figure of all nodes in a month as texts."""
        return [*map(self._texts[figure.digits], self.column(figure, month))]

    def values(self, month: str, name: str) -> list[Optional[int]]:
        """A column of a month's table, such as `chained`, in the order of codes."""
        series = self.series
        rows = series.latest[month].rows if month in series.latest else NO_ROWS
        if self._places[0] is not rows.named:
            self._places = rows.named, [rows.place(code) for code in self._nodes]
        column = getattr(rows, name)
        places = [None if place is None else column[place] for place in self._places[1]]
        of_sets = (it.rows.get(month) for it in series.specials.values())
        return places + [None if row is None else getattr(row, name) for row in of_sets]


def _levels(known: Known, month: str) -> Iterable[Optional[int]]:
    return _show_levels(known, month, 6)


def _print_levels(known: Known, month: str) -> Iterable[Optional[int]]:
    return _show_levels(known, month, 1)


def _show_levels(known: Known, month: str, digits: int) -> Iterable[Optional[int]]:
    return known.shown.units_of_month(month, known.codes, known.values(month, "chained"), digits)


def _changes(name: str, is_annual: bool) -> Callable[[Known, str], Iterable[Optional[int]]]:
    def of_month(known: Known, month: str) -> Iterable[Optional[int]]:
        if known.shown.rates == EXACT:
            return known.values(month, name)
        return (known.shown.change(month, code, is_annual) for code in known.codes)

    return of_month


def _give_contributions(is_annual: bool) -> Callable[[Known, str], Iterable[Optional[int]]]:
    def of_month(known: Known, month: str) -> Iterable[Optional[int]]:
        contributions = known.contributions
        if (month, is_annual) in contributions.unexplained:
            return (None for _ in known.codes)
        whole = contributions.whole(month, ALL_ITEMS)
        given = whole.parts_of_year if is_annual else whole.parts_of_month
        return (None if code == ALL_ITEMS else _millionths(given(code)) for code in known.codes)

    return of_month


def _millionths(value: Optional[Parts]) -> Optional[int]:
    return None if value is None else scale_ratio(*value, 6)


def _shares(known: Known, month: str) -> Iterable[Optional[int]]:
    whole = known.series.row(month, ALL_ITEMS)
    of_all = whole.weight if whole else 0
    return (
        scale_ratio(1000 * value, of_all, 6) if value and of_all else None for value in known.values(month, "weight")
    )


LEVEL = Figure("level", 6, _levels)
"""The level with the office's own reference period, if it has one."""

PRINTED = Figure("printed", 1, _print_levels)
"""The level as pages show it, rounded once to one decimal."""

CHAINED = Figure("chained", 6, lambda known, month: known.values(month, "chained"))
"""The chained level, 100 in the December before the node entered the index."""

MONTH_CHANGE = Figure("month change", 1, _changes("month_change", False))
YEAR_CHANGE = Figure("year change", 1, _changes("year_change", True))
"""The monthly and annual changes, in percent, as they are shown."""

WEIGHT = Figure("weight", 0, lambda known, month: known.values(month, "weight"))
"""The weight in use."""

SHARE = Figure("share", 6, _shares)
"""The weight in use as a part of the weight of all items, per mille."""

IMPUTED = Figure("imputed", 0, lambda known, month: known.values(month, "is_imputed"))
"""1 if a price at or below the node was imputed, otherwise 0."""

GIVEN_MONTH = Figure("given on the month", 6, _give_contributions(False))
GIVEN_YEAR = Figure("given on the year", 6, _give_contributions(True))
"""The contributions to the changes of all items, in percentage points, on the year of a node that left in it too; all
items give none to themselves."""

"""The figures as a cube of items, measures and months: as JSON-stat 2.0 and as a PX file of PC-Axis."""

from __future__ import annotations

import json
import re
import textwrap
from collections.abc import Callable, Iterable, Iterator, Sequence
from functools import partial
from typing import Any, NamedTuple, Optional, TextIO

from ...office.tables import Series, iso
from ...text.exact import ALL_ITEMS
from ...text.languages import SPEAKS_ENGLISH, Speech, mark_text, mark_text_as
from ...text.terminal import time_text
from ..figures import figures
from ..figures.announcements import coming
from ..figures.config import Config
from ..figures.figures import Figure, Known
from ..figures.shown_figures import EXACT, PUBLISHED
from .artefacts import Tongue, first_of, others_of


# ==== the figures as a cube of items, measures and months, for the forms that are one: JSON-stat and PX

ITEM = mark_text_as("what an index is of: the name of a dimension in a file of data", "Item")

BREAK, IMPUTED, PROVISIONAL = "b", "i", "p"
# t: what a status of a figure means
REVISABLE = mark_text("Provisional: the office may still revise it")
STATUSES = {
    BREAK: mark_text("Break: not linked to the earlier levels, or with different elementary aggregates"),
    IMPUTED: mark_text("A price at or below the item was imputed"),
    BREAK + IMPUTED: mark_text("Break, and a price was imputed"),
}
"""The statuses of a level, with their meanings."""


class Measure(NamedTuple):
    """A measure: its id, its name, its unit, the decimals of its figures, the kind of figures, and the decimals that
    are enough to show."""

    id: str
    name: str
    unit: str
    decimals: int
    figure: Figure
    shown: int

    @property
    def is_level(self) -> bool:
        """Whether it is a level, which has a status."""
        return self.figure in (figures.LEVEL, figures.CHAINED)


# t: the unit of an index
POINTS, PERCENT = mark_text("points"), mark_text("percent")

INDEX = Measure("index", mark_text("Index"), POINTS, 6, figures.LEVEL, 1)
CHAINED_NAME = mark_text("Chained level, the December before the item entered the index = 100")
CHAINED = Measure("chained", CHAINED_NAME, POINTS, 6, figures.CHAINED, 1)
OTHERS = (
    Measure("month_change", mark_text("Monthly change"), PERCENT, 1, figures.MONTH_CHANGE, 1),
    Measure("year_change", mark_text("Annual change"), PERCENT, 1, figures.YEAR_CHANGE, 1),
    Measure("weight", mark_text("Weight in use"), mark_text("units of the weight in use"), 0, figures.WEIGHT, 0),
    Measure("share", mark_text("Share of the total weight, per mille"), mark_text("per mille"), 6, figures.SHARE, 2),
    Measure(
        "contribution",
        mark_text("Contribution to the annual change in all items"),
        mark_text("percentage points"),
        6,
        figures.GIVEN_YEAR,
        2,
    ),
)


IMPUTED_PRICES = Measure("imputed", STATUSES[IMPUTED], mark_text("1 yes, 0 no"), 0, figures.IMPUTED, 0)
"""The measure for forms whose cells have no status."""


def measures_of(config: Config) -> tuple[Measure, ...]:
    """The measures of a cube; chained levels are one if the office has a reference period of its own."""
    return (INDEX, CHAINED, *OTHERS) if config.reference else (INDEX, *OTHERS)


def all_measures_of(config: Config) -> tuple[Measure, ...]:
    """The measures of a cube, and whether a price was imputed."""
    return (*measures_of(config), IMPUTED_PRICES)


def figures_of(known: Known, measure: Measure, code: str) -> list[str]:
    """A measure of an item in all months, empty texts if there is none."""
    return known.texts(measure.figure, code)


def statuses_of(known: Known, code: str, is_level: bool = True) -> Iterator[tuple[int, str]]:
    """The months of an item with a status, counted from 0, and the status; a figure that is no level is provisional at
    most."""
    marks, provisional = known.series.marks(code) if is_level else (), known.shown.provisional
    for at, (month, imputed) in enumerate(zip(known.series.months, known.texts(figures.IMPUTED, code))):
        status = (BREAK if month in marks else "") + (IMPUTED if is_level and imputed == "1" else "")
        if imputed and (status or month in provisional):
            yield at, status + (PROVISIONAL if month in provisional else "")


def meanings_of(known: Known, speech: Speech) -> dict[str, str]:
    """The meaning of each status in the cube."""
    meanings = {status: speech.t(text) for status, text in STATUSES.items()}
    if known.shown.provisional:
        last = speech.t(REVISABLE)
        both = {
            f"{it}{PROVISIONAL}": speech.t("{before}, {after}", before=says, after=last)
            for it, says in meanings.items()
        }
        meanings.update({PROVISIONAL: last, **both})
    return meanings


def provisional_note(months: int, speech: Speech) -> str:
    """The sentence about the last months that can be revised; empty if none can."""
    if not months:
        return ""
    return speech.tn(
        "Provisional: the office may still revise the last month.",
        "Provisional: the office may still revise the last {count} months.",
        months,
    )


def notes_of(known: Known, code: str, speech: Speech = SPEAKS_ENGLISH) -> list[str]:
    """The periods in which an item is 100, and its breaks."""
    (_, first), *others = known.shown.hundreds(code)
    notes = [speech.t("Index: {period} = 100.", period=speech.period(first))]
    for month, hundred in others:
        places = {"month": speech.month(month), "period": speech.period(hundred)}
        notes.append(speech.t("Break: from {month} on, {period} = 100; not linked to the earlier levels.", **places))
    changes = known.series.specials[code].changes if code in known.series.specials else []
    for month in changes:
        name = speech.month(month)
        notes.append(speech.t("Break: from {month} on, it contains different elementary aggregates.", month=name))
    return notes


RATES_SAY = {
    EXACT: mark_text(
        "Changes are computed from levels before rounding, and rounded to one decimal place, with halves rounded away"
        " from zero."
    ),
    PUBLISHED: mark_text(
        "Changes are computed from the printed index with one decimal place, and rounded to one decimal place, with"
        " halves rounded away from zero."
    ),
}
"""The sentence about the rule for changes."""


def general_notes(known: Known, config: Config, speech: Speech = SPEAKS_ENGLISH) -> list[str]:
    """The notes on the whole cube; the configuration contains the office's texts in the language."""
    notes = [speech.t(RATES_SAY[known.shown.rates])]
    if config.reference:
        base = speech.month(known.series.base)
        notes.append(
            speech.t(
                "The chained level is 100 in {month}, or in the December before the item entered the index.", month=base
            )
        )
    notes += filter(None, [provisional_note(config.provisional if known.shown.provisional else 0, speech)])
    return notes + [speech.t("Licence: {licence}", licence=config.licence) for _ in [0] if config.licence]


# ==== the cube as JSON-stat 2.0 (https://json-stat.org/full/): one dataset of items, measures and months
#
# The form has one language. The texts of the others are in `extension.languages`, by their tags, at the same places as
# in the dataset itself.
#
# Figures have the digits of the other forms, as numbers of JSON, and null if there is none. Levels have their statuses,
# and each figure of a month that can still be revised has `p`. They are in the order of items, then of measures, then
# of months.

JSON_STAT = "cpi.jsonstat.json"


class JsonStat:
    """Writes the dataset: its description, and then one measure of an item after the other."""

    def __init__(
        self, file: TextIO, known: Known, config: Config, codes: Optional[Sequence[str]] = None, head: str = ""
    ):
        """`codes` are the items, if they aren't all, and `head` is the beginning of the text, if it is made already."""
        self._file, self._separator = file, "\n"
        items = known.codes if codes is None else codes
        file.write(head or _head(known, config, len(items), lambda tongue: _items(known, tongue, items)))
        statuses = ",".join(f'"{place}":"{status}"' for place, status in _statuses(known, config, items))
        file.write(f',\n "status": {{{statuses}}},\n "value": [')

    def add(self, measure: Measure, figures: Sequence[str]) -> None:
        """Writes a measure of an item in all months."""
        if measure is not IMPUTED_PRICES:
            values = ",".join(figure or "null" for figure in figures)
            self._file.write(f"{self._separator}{values}")
            self._separator = ",\n"

    def end(self) -> None:
        """Writes the end of the dataset."""
        self._file.write("\n ]\n}\n")


Items = Callable[[Tongue], dict[str, Any]]
"""The items of a dataset in a language: their codes, titles, and notes, and which are below others."""


def _head(known: Known, config: Config, count: int, items: Items) -> str:
    """The text of a dataset of so many items up to its statuses."""
    head = {**_about(known, config, count, items), "dimension": _dimensions(known, first_of(config), items)}
    return json.dumps(head, ensure_ascii=False, indent=1)[:-2]


class HeadsOfOne:
    """The beginnings of datasets of one item: most differ only in its code and its titles, so each other text is made once."""

    def __init__(self, known: Known, config: Config):
        self._known, self._config = known, config
        self._tongues = (first_of(config), *others_of(config))
        self._known_heads: dict[tuple[object, ...], str] = {}

    def of(self, code: str) -> str:
        """The beginning of the dataset of an item."""
        series = self._known.series
        changes = series.specials[code].changes if code in series.specials else ()
        # (by what its notes say)
        key = (*self._known.shown.hundreds(code), *changes)
        head = self._known_heads.get(key)
        if head is None:
            head = self._known_heads[key] = _head(self._known, self._config, 1, partial(self._mark_item, code))
        head = head.replace(_text(CODE), _text(code))
        for tongue in self._tongues:
            head = head.replace(_text(_mark(tongue)), _text(tongue.title(series, code)))
        return head

    def _mark_item(self, code: str, tongue: Tongue) -> dict[str, Any]:
        """An item with marks in the places of its code and its title."""
        notes = notes_of(self._known, code, tongue.speech)
        return {"index": [CODE], "label": {CODE: _mark(tongue)}, "child": {}, "note": {CODE: notes}}


CODE = "\0code"
"""A mark, which no text has."""


def _mark(tongue: Tongue) -> str:
    """The mark of a title in a language."""
    return f"\0title {tongue.tag}"


def _text(text: str) -> str:
    return json.dumps(text, ensure_ascii=False)


def _about(known: Known, config: Config, count: int, items: Items) -> dict[str, Any]:
    """The description of the dataset of some items, without its dimensions."""
    series, measures, own = known.series, measures_of(config), first_of(config)
    others = {tongue.tag: _in_language(known, tongue, items) for tongue in others_of(config)}
    return {
        "version": "2.0",
        "class": "dataset",
        "label": own.config.title,
        "source": own.config.office,
        "updated": iso(series.moment),
        "note": general_notes(known, own.config, own.speech),
        "id": ["item", "measure", "month"],
        "size": [count, len(measures), len(series.months)],
        "role": {"time": ["month"], "metric": ["measure"]},
        "extension": {
            "status": _statuses_in(known, own),
            **_terms(own.config),
            **({"languages": others} if others else {}),
        },
    }


def _terms(config: Config) -> dict[str, str]:
    """The contact and the licence, if the office gives them."""
    return {name: text for name, text in (("contact", config.contact), ("licence", config.licence)) if text}


def _statuses_in(known: Known, tongue: Tongue) -> dict[str, Any]:
    """The meanings of the statuses."""
    return {"label": meanings_of(known, tongue.speech)}


def _in_language(known: Known, tongue: Tongue, items: Items) -> dict[str, Any]:
    """The texts of the dataset in another language."""
    dimensions = _dimensions(known, tongue, items)
    for dimension in dimensions.values():
        dimension["category"] = {
            name: dimension["category"][name] for name in ("label", "unit", "note") if name in dimension["category"]
        }
        if "unit" in dimension["category"]:
            dimension["category"]["unit"] = {
                id: {"label": unit["label"]} for id, unit in dimension["category"]["unit"].items()
            }
    return {
        "label": tongue.config.title,
        "source": tongue.config.office,
        "note": general_notes(known, tongue.config, tongue.speech),
        "dimension": dimensions,
        "extension": {"status": _statuses_in(known, tongue), **_terms(tongue.config)},
    }


def _items(known: Known, tongue: Tongue, codes: Sequence[str]) -> dict[str, Any]:
    titles = {code: tongue.title(known.series, code) for code in codes}
    return {
        "index": [*titles],
        "label": titles,
        "child": _children(known.series, codes),
        "note": {code: notes_of(known, code, tongue.speech) for code in titles},
    }


def _dimensions(known: Known, tongue: Tongue, items: Items) -> dict[str, Any]:
    measures, t = measures_of(tongue.config), tongue.speech.t
    units = {measure.id: {"label": t(measure.unit), "decimals": measure.decimals} for measure in measures}
    named = {
        "index": [measure.id for measure in measures],
        "label": {measure.id: t(measure.name) for measure in measures},
        "unit": units,
    }
    return {
        "item": {"label": t("Item, by COICOP 2018"), "category": items(tongue)},
        "measure": {"label": t("Figure"), "category": named},
        "month": {"label": t("Month"), "category": {"index": known.series.months}},
    }


def _children(series: Series, codes: Sequence[str]) -> dict[str, list[str]]:
    """The items directly below each item, if both are in the dataset; special aggregates have none."""
    there, nodes = frozenset(codes), (code for code in codes if code not in series.specials)
    children = ((code, [child for child in series.children(code) if child in there]) for code in nodes)
    return {code: below for code, below in children if below}


def _statuses(known: Known, config: Config, codes: Iterable[str]) -> Iterator[tuple[int, str]]:
    """The places of figures with a status, counted from 0 over the whole cube."""
    measures, months = measures_of(config), len(known.series.months)
    for at, code in enumerate(codes):
        for which, measure in enumerate(measures):
            begin = (at * len(measures) + which) * months
            figures = known.texts(measure.figure, code) if known.shown.provisional else ()
            statuses = statuses_of(known, code, measure.is_level) if measure.is_level or figures else ()
            yield from ((begin + month, status) for month, status in statuses if not figures or figures[month])


# ==== the cube as a PX file of PC-Axis (its file format 2013), which PxWeb shows
#
# Rows are items, columns are measures and then months. A text of PX can't have a quotation mark in it, which becomes an
# apostrophe; the values of a variable have to differ, so an item is named by its code and its title. A keyword with
# texts appears once for each language of the pages, `TITLE[fr]` after `TITLE`. Keywords are in the order of the
# format's list; the properties of each figure, such as its unit, come after CODES.
#
# No index is a sum of others, so PxWeb must not add any up: a table without items is that of all items.

PX = "cpi.px"
NONE = '".."'
"""A cell without a figure, which isn't available."""

FREE = re.compile(r"\bCC0\b|public domain", re.IGNORECASE)
"""A licence by which nothing is kept under copyright."""

MOST, CELLS = 120, 20
"""The largest number of characters in a line of a text, and of cells in a line."""


class Px:
    """Writes the file: its keywords, and then a measure of an item after the other."""

    def __init__(self, file: TextIO, known: Known, config: Config):
        self._file = file
        for keyword, value in _keywords(known, config):
            file.write(f"{keyword}={value};\n")
        file.write("DATA=\n")

    def add(self, _: Measure, texts: Sequence[str]) -> None:
        """Writes a measure of an item in all months."""
        cells = [figure or NONE for figure in texts]
        lines = (" ".join(cells[at : at + CELLS]) for at in range(0, len(cells), CELLS))
        self._file.write("\n".join(lines) + "\n")

    def end(self) -> None:
        """Writes the end of the data."""
        self._file.write(";\n")


def moment_of(moment: int) -> str:
    """`20260128 08:30` in UTC, of seconds since 1970."""
    date, clock = time_text(moment).split(" ")[:2]
    return f"{date.replace('-', '')} {clock[:5]}"


def quote(text: str) -> str:
    """A text in quotation marks; a long one goes on in further lines, each in its own."""
    plain = " ".join(text.replace('"', "'").split())
    if 0 < len(plain) <= MOST:
        return f'"{plain}"'
    parts = textwrap.wrap(plain, MOST, break_on_hyphens=False, drop_whitespace=False) or [""]
    return "\n".join(f'"{part}"' for part in parts)


def list_texts(texts: Iterable[str]) -> str:
    """Some texts, each in a line."""
    return ",\n".join(map(quote, texts))


def _keywords(known: Known, config: Config) -> Iterator[tuple[str, str]]:
    """The keywords before the data, in the order that the format asks for."""
    moment = moment_of(known.series.moment)
    yield "CHARSET", '"ANSI"'
    yield "AXIS-VERSION", '"2013"'
    yield "CODEPAGE", '"utf-8"'
    first, others = first_of(config), others_of(config)
    yield "LANGUAGE", quote(first.tag)
    if others:
        yield "LANGUAGES", ",".join(quote(tongue.tag) for tongue in (first, *others))
    yield "CREATION-DATE", f'"{moment}"'
    following = [it.moment for it in coming(known.series, config.planned)]
    if following:
        yield "NEXT-UPDATE", f'"{moment_of(min(following))}"'
    yield "DECIMALS", "6"
    yield "SHOWDECIMALS", "0"
    yield "MATRIX", '"CPI"'
    yield "AGGREGALLOWED", "NO"
    yield "SUBJECT-CODE", '"CPI"'
    yield from in_languages((first, *others), lambda tongue: _px_in_language(known, tongue, moment))


def in_languages(
    tongues: Sequence[Tongue], keywords: Callable[[Tongue], Iterator[tuple[str, str]]]
) -> Iterator[tuple[str, str]]:
    """Keywords with texts in each language; after the first language each keyword has the language's tag."""
    for tongue in tongues:
        mark = "" if tongue is tongues[0] else f"[{tongue.tag}]"
        for keyword, value in keywords(tongue):
            name, bracket, rest = keyword.partition("(")
            yield f"{name}{mark}{bracket}{rest}", value


def _px_in_language(known: Known, tongue: Tongue, moment: str) -> Iterator[tuple[str, str]]:
    """The keywords with texts, or with the names of variables, in a language."""
    series, measures, t, config = known.series, all_measures_of(tongue.config), tongue.speech.t, tongue.config
    item, figure, month = map(quote, (tongue.speech.tc(*ITEM), t("Figure"), t("Month")))
    is_first = tongue.tag == first_of(config).tag
    yield "SUBJECT-AREA", quote(config.title)
    if is_first and config.licence:
        yield "COPYRIGHT", "NO" if FREE.search(config.licence) else "YES"
    yield "TITLE", quote(t("{title} by item, figure and month", title=config.title))
    yield "CONTENTS", quote(config.title)
    yield "UNITS", quote(t("by figure"))
    yield "STUB", item
    yield "HEADING", f"{figure},{month}"
    yield "CONTVARIABLE", figure
    yield f"VALUES({item})", list_texts(_item(known, code, tongue) for code in series.all_titles)
    yield f"VALUES({figure})", list_texts(t(measure.name) for measure in measures)
    yield f"VALUES({month})", list_texts(map(tongue.speech.month, series.months))
    yield f"TIMEVAL({month})", "TLIST(M1),\n" + list_texts(each.replace("-", "") for each in series.months)
    yield f"CODES({item})", list_texts(series.all_titles)
    yield f"CODES({figure})", list_texts(measure.id for measure in measures)
    yield f"CODES({month})", list_texts(each.replace("-", "M") for each in series.months)
    yield f"ELIMINATION({item})", quote(_item(known, ALL_ITEMS, tongue))
    yield from _of_measures(known, measures, moment, tongue)
    yield "SOURCE", quote(config.office)
    if is_first:
        yield "OFFICIAL-STATISTICS", "YES"
    yield "NOTE", quote("#".join(general_notes(known, config, tongue.speech)))
    yield from _notes(known, measures, tongue)


def _of_measures(known: Known, measures: Sequence[Measure], moment: str, tongue: Tongue) -> Iterator[tuple[str, str]]:
    """Decimals, time, unit, contact and base period of each figure."""
    t, named = tongue.speech.t, [(measure, quote(tongue.speech.t(measure.name))) for measure in measures]
    for it, name in named:
        if it.shown:
            yield f"PRECISION({quote(t('Figure'))},{name})", str(it.shown)
    for _, name in named:
        yield f"LAST-UPDATED({name})", f'"{moment}"'
    for it, name in named:
        yield f"UNITS({name})", quote(t(it.unit))
    for _, name in named if tongue.config.contact else ():
        yield f"CONTACT({name})", quote(tongue.config.contact)
    for it, name in named:
        if it.is_level:
            yield f"BASEPERIOD({name})", quote(_base(known, it))


def _base(known: Known, measure: Measure) -> str:
    """The period in which all items are 100 last; items with another period say so in a note."""
    month = known.series.months[-1]
    is_chained = measure.figure is figures.CHAINED
    return known.series.base_of(month, ALL_ITEMS) if is_chained else known.shown.find_reference(month, ALL_ITEMS)


def _notes(known: Known, measures: Iterable[Measure], tongue: Tongue) -> Iterator[tuple[str, str]]:
    """The notes of items, of each provisional month, and of each level after a break."""
    t, item = tongue.speech.t, quote(tongue.speech.tc(*ITEM))
    for month in known.series.months:
        if month in known.shown.provisional:
            yield f"VALUENOTE({quote(t('Month'))},{quote(tongue.speech.month(month))})", quote(t(REVISABLE))
    for code in known.series.all_titles:
        notes = " ".join(notes_of(known, code, tongue.speech))
        yield f"VALUENOTE({item},{quote(_item(known, code, tongue))})", quote(notes)
    for code in known.series.all_titles:
        for month in known.series.marks(code):
            for measure in measures:
                if measure.is_level:
                    names = (_item(known, code, tongue), t(measure.name), tongue.speech.month(month))
                    yield f"CELLNOTE({','.join(map(quote, names))})", quote(t(STATUSES[BREAK]))


def _item(known: Known, code: str, tongue: Tongue) -> str:
    """A unique name of an item."""
    return f"{code} {tongue.title(known.series, code)}"

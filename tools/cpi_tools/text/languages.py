"""The language of a page: its texts by a catalogue of `po/`, and how it says figures, months and moments.

English is the source, and needs no package; other languages are said by `speech_cldr`.
"""

from __future__ import annotations

import argparse
from collections.abc import Callable, Sequence
from datetime import datetime
from functools import lru_cache
from importlib import metadata
from pathlib import Path
from typing import Any, NamedTuple, Union

from .others import Places
from .terminal import Fault, month_name, needs


# ==== The language of a page that a tool writes: its texts come from a catalogue in `po/`, through gettext and Babel.
# English is the source.
#
# Commands write English on a terminal.

PO = Path(__file__).resolve().parents[3] / "po"
"""The catalogues, `LANG.po`."""

SOURCE = "en"

COUNTS = (*range(1000), 10**6)
"""Counts that include one of each category of CLDR."""


class Language(NamedTuple):
    """A language: its tag (BCP 47), the direction of its script, and the functions that give a text, its form for a
    count, and a text by its context."""

    tag: str
    dir: str
    gettext: Callable[[str], str]
    ngettext: Callable[[str, str, int], str]
    pgettext: Callable[[str, str], str]


ENGLISH = Language(
    SOURCE,
    "ltr",
    lambda text: text,
    lambda one, many, count: one if count == 1 else many,
    lambda context, text: text,
)


def list_known() -> list[str]:
    """The codes of the languages: the source, and every language with a catalogue."""
    return [SOURCE, *sorted(path.stem for path in PO.glob("*.po"))]


def in_themselves() -> dict[str, str]:
    """The languages by their codes, each with its name in itself, such as `français`; with its code if Babel isn't
    installed, which English doesn't need."""
    try:
        from babel import Locale
    except ImportError:
        return {code: code for code in list_known()}

    return {code: Locale.parse(code).get_display_name() or code for code in list_known()}


def a_language(text: str) -> str:
    """A type of argparse: a language that has a catalogue."""
    if text not in list_known():
        raise argparse.ArgumentTypeError(f"{text!r} has no catalogue: one of {', '.join(list_known())}")
    return text


def names_by() -> str:
    """The version of the package that names months in other languages; empty if it isn't installed."""
    try:
        return metadata.version("babel")
    except metadata.PackageNotFoundError:
        return ""


def language_of(code: str) -> Language:
    """A language by its code. Raises Fault if its catalogue can't be read."""
    if code == SOURCE:
        return ENGLISH
    needs("babel", "python3-babel")
    return _language_in(_file_of(code))


@lru_cache(maxsize=8)
def _language_in(file: _File) -> Language:
    """The language of a catalogue."""
    from babel import Locale

    code, (catalog, form) = file.path.stem, _read(file)
    texts = {message.id: message.string for message in catalog if message.id and not message.context}
    within = {(message.context, message.id): message.string for message in catalog if message.context}
    plurals = {names[0]: strings for names, strings in texts.items() if isinstance(names, tuple)}

    def ngettext(one: str, many: str, count: int) -> str:
        strings = plurals.get(one) or ()
        return (strings[form(count)] if strings else "") or ENGLISH.ngettext(one, many, count)

    return Language(
        code.replace("_", "-"),
        Locale.parse(code).text_direction,
        lambda text: texts.get(text) or text,
        ngettext,
        lambda context, text: within.get((context, text)) or text,
    )


class Words(NamedTuple):
    """The texts of scripts in a language: each text, or its plural forms, by its English text, and the number of the
    form for each of CLDR's categories of counts."""

    texts: dict[str, Union[str, list[str]]]
    plural: dict[str, int]


def words_of(code: str, folder: str) -> Words:
    """The texts, in a language, of the scripts in a folder of the repository. Raises Fault if its catalogue can't be
    read."""
    from babel import Locale

    catalog, form = _read(_file_of(code))
    texts: dict[str, Union[str, list[str]]] = {}
    for message in catalog:
        if any(place.startswith(folder) and place.endswith(".js") for place, _ in message.locations):
            is_counted = isinstance(message.id, tuple)
            texts[message.id[0] if is_counted else message.id] = [*message.string] if is_counted else message.string
    rule, plural = Locale.parse(code).plural_form, dict[str, int]()
    for count in COUNTS:
        plural.setdefault(rule(count), form(count))
    return Words(texts, {"other": max(plural.values()), **plural})


class _File(NamedTuple):
    """The file of a catalogue, with its time, in nanoseconds since 1970, and its size, which show whether it was
    changed."""

    path: Path
    changed: int
    size: int


def _file_of(code: str) -> _File:
    """The file of a language's catalogue. Raises Fault if there is none."""
    path = PO / f"{code}.po"
    try:
        file = path.stat()
    except OSError as fault:
        raise Fault(f"{path}: {fault}") from fault
    return _File(path, file.st_mtime_ns, file.st_size)


@lru_cache(maxsize=8)
def _read(file: _File) -> tuple[Any, Callable[[int], int]]:
    """A catalogue, and its plural form for a count. A process reads it once."""
    needs("babel", "python3-babel")
    from babel.messages.pofile import read_po
    from gettext import c2py  # type: ignore[attr-defined]

    try:
        with file.path.open("rb") as opened:
            catalog = read_po(opened, locale=file.path.stem, abort_invalid=True)
        return catalog, c2py(catalog.plural_expr)
    except (OSError, ValueError) as fault:
        raise Fault(f"{file.path}: {fault}") from fault


# ==== writes the texts, figures, months and moments of a tool's page: here in English; `speech_cldr` writes other
# languages
#
# A figure is passed as it was made, in ASCII with a point, perhaps with the minus sign of mathematics: `105.7`, `+0.3`,
# `−0.3`. Texts come from gettext; an argument of that name fills a place of a text such as `{month}`.

MINUS = "\u2212"
"""The minus sign of mathematics, which a page shows in place of a hyphen."""

LATIN = "latn"
DIGITS = (LATIN, "arab", "deva")
"""The systems of digits that an office can choose, by their names in Unicode."""


class Speech:
    """Writes English."""

    def __init__(self, language: Language = ENGLISH, digits: str = LATIN):
        self.language, self.digits = language, digits

    # ---- texts

    def t(self, text: str, **places: object) -> str:
        """A text of a catalogue, with its places filled."""
        found = self.language.gettext(text)
        return found.format_map(Places(places)) if places else found

    def tc(self, context: str, text: str) -> str:
        """A text that catalogues list with its context, since it is translated otherwise in other places."""
        return self.language.pgettext(context, text)

    def tn(self, one: str, many: str, count: int, **places: object) -> str:
        """The form of a text for a count, which fills the place `{count}`."""
        form = self.language.ngettext(one, many, count)
        return form.format_map(Places({"count": self.whole(count), **places}))

    def list_texts(self, texts: Sequence[str]) -> str:
        """At least one text: `a`, `a and b`, or `a, b and c`."""
        return " and ".join([*filter(None, [", ".join(texts[:-1])]), texts[-1]])

    def row(self, texts: Sequence[str]) -> str:
        """At least one text, with commas only: `a, b, c`."""
        row = texts[0]
        for text in texts[1:]:
            row = self.t("{before}, {after}", before=row, after=text)
        return row

    def inner(self, title: str) -> str:
        """A title within a sentence: its first letter small, if the second is small too."""
        return title[:1].lower() + title[1:] if title[1:2].islower() else title

    # ---- figures

    def figure(self, text: str) -> str:
        """A figure."""
        return text

    def write_numbers(self, text: str) -> str:
        """A text of a catalogue, with its numbers in the digits of the pages."""
        return text

    def whole(self, number: int) -> str:
        """A whole number, such as `1,626`."""
        return f"{number:,}"

    def percent(self, text: str) -> str:
        """A change in percent, `+0.3 %`."""
        return f"{text}\u202f%"

    def share(self, text: str) -> str:
        """A part of a whole in percent, `12.50 %`."""
        return f"{text} %"

    @property
    def signs(self) -> dict[str, str]:
        """The character in a figure for each ASCII character that is replaced."""
        return {}

    # ---- months and moments

    def month(self, month: str) -> str:
        """`January 2026` for `2026-01`."""
        return month_name(month)

    def year(self, year: str) -> str:
        """A year by its four digits."""
        return year

    def month_mark(self, month: str) -> str:
        """`Jan` for `2026-01`, at the axis of a picture."""
        return month_name(month)[:3]

    def month_head(self, month: str) -> str:
        """The head of a row as HTML: `January 2026`, which a phone shows as `Jan 2026`."""
        name = month_name(month)
        return f'{name[:3]}<span class="wide">{name[3:-5]}</span>{name[-5:]}'

    def period(self, period: str) -> str:
        """A period: `December 2025` for a month, or a year by itself."""
        return self.month(period) if len(period) == 7 else self.year(period)

    def moment(self, at: datetime, zone: str) -> str:
        """`28 January 2026, 09:30 CET` for a civil time and the name of its zone."""
        return f"{at.day} {month_name(at.strftime('%Y-%m'))}, {self.time(at, zone)}"

    def time(self, at: datetime, zone: str) -> str:
        """`09:30 CET`."""
        return f"{at.strftime('%H:%M')} {zone}"


SPEAKS_ENGLISH = Speech()


def speech_of(code: str, digits: str = LATIN) -> Speech:
    """The Speech of a language with a system of digits; English has its own. Raises Fault if its catalogue can't be
    read."""
    if code == SOURCE:
        return SPEAKS_ENGLISH
    language = language_of(code)
    from .speech_cldr import Cldr  # (its package is needed by other languages only)

    return Cldr(language, digits)


def mark_text(text: str) -> str:
    """A text that is translated when it is used: only a mark for the catalogues."""
    return text


def mark_text_as(context: str, text: str) -> tuple[str, str]:
    """Marks a text with its context for the catalogues."""
    return context, text

"""Writes figures, months and moments in languages other than English, with CLDR's data from Babel."""

from __future__ import annotations

import functools
import re
from collections.abc import Mapping, Sequence
from datetime import date, datetime

from babel import Locale
from babel.dates import format_date, format_skeleton
from babel.lists import format_list
from markupsafe import Markup, escape

from .languages import LATIN, MINUS, Language, Speech
from .others import CLOSES, LEFT_TO_RIGHT

BREAKLESS = "\xa0"
"""NO-BREAK SPACE."""

ZEROS: Mapping[str, str] = {"latn": "0", "arab": "\u0660", "deva": "\u0966"}
"""The first digit of each system."""

ARABIC: Mapping[str, str] = {
    "decimal": "\u066b", "group": "\u066c", "percentSign": "\u066a\u061c", "plusSign": "\u061c+", "minusSign": "\u061c-",
}  # fmt: skip
"""The signs that go with the digits `arab` by CLDR; Babel only provides the signs for a language's Latin digits. The
signs for `deva` are the same as for Latin digits."""

NARROW: Mapping[str, str] = {"fr": "\u202f"}
"""By language, the space before a percent sign if Babel's locale has another one: French has a narrow one, as before a
question mark."""

NUMBER = re.compile(r"[#0,.]+")

WRITTEN = re.compile(
    r"<[^>]*>|\{[a-z_]+\}|%\([a-z_]+\)s|[A-Za-z-]*[A-Z]{2}[A-Za-z-]*\s[0-9]+(?:\.[0-9]+)*|[0-9]+(?:\.[0-9]+){2,}"
    r"|(?:(?<=&nbsp;)|(?<![A-Za-z0-9.,:/#&;_-]))(?P<number>[0-9]+(?:[.,][0-9]+)*)(?![A-Za-z0-9_/-]|[.:][A-Za-z0-9])"
)
"""The ignored parts of a catalogue's text, and a number in it. It ignores tags, places, a name in capitals with its
number, such as COICOP 2018, and a code such as 01.1.1; a number within a name, such as SHA-256, isn't a number."""


class Cldr(Speech):
    """A language by its locale, with a system of digits."""

    def __init__(self, language: Language, digits: str = LATIN):
        super().__init__(language, digits)
        self._locale = locale = Locale.parse(language.tag, sep="-")
        zero = ord(ZEROS[digits])
        own = {chr(ord("0") + at): chr(zero + at) for at in range(10)}
        signs = {**locale.number_symbols, **(ARABIC if digits == "arab" else {})}
        minus = signs["minusSign"].replace("-", MINUS)
        named = {".": signs["decimal"], ",": signs["group"], "+": signs["plusSign"], "-": minus, MINUS: minus}
        self._signs = {**own, **named}
        self._digits, self._figures = str.maketrans(own), str.maketrans(self._signs)
        # (the texts of a catalogue have the language's own signs)
        latin = {locale.number_symbols[name]: signs[name] for name in ("group", "decimal")}
        self._written = str.maketrans({**own, **latin})
        before, after = NUMBER.split(locale.percent_formats[None].pattern, maxsplit=1)
        space = NARROW.get(locale.language, BREAKLESS)
        self._percent = [part.replace("%", signs["percentSign"]).replace(BREAKLESS, space) for part in (before, after)]
        if digits != LATIN:
            self.language = language._replace(
                gettext=lambda text: self.write_numbers(language.gettext(text)),
                ngettext=lambda one, many, count: self.write_numbers(language.ngettext(one, many, count)),
                pgettext=lambda context, text: self.write_numbers(language.pgettext(context, text)),
            )

    def list_texts(self, texts: Sequence[str]) -> str:
        return str(format_list(texts, locale=self._locale))

    def inner(self, title: str) -> str:
        """A title unchanged: CLDR doesn't say which words a language writes with small letters."""
        return title

    def figure(self, text: str) -> str:
        return text.translate(self._figures)

    @property
    def signs(self) -> dict[str, str]:
        return {sign: text for sign, text in self._signs.items() if sign != text}

    @functools.lru_cache(maxsize=4000)
    def write_numbers(self, text: str) -> str:
        if self.digits == LATIN:
            return text
        return WRITTEN.sub(lambda it: it[0].translate(self._written) if it["number"] else it[0], text)

    def whole(self, number: int) -> str:
        return self.figure(f"{number:,}")

    def percent(self, text: str) -> str:
        return self.figure(text).join(self._percent)

    def share(self, text: str) -> str:
        return self.percent(text)

    @functools.lru_cache(maxsize=2000)
    def month(self, month: str) -> str:
        return self._write_date("yMMMM", _day(month))

    def year(self, year: str) -> str:
        return year.translate(self._digits)

    @functools.lru_cache(maxsize=2000)
    def month_mark(self, month: str) -> str:
        names: Mapping[int, str] = self._locale.months["stand-alone"]["abbreviated"]
        return names[int(month[5:])]

    @functools.lru_cache(maxsize=2000)
    def month_head(self, month: str) -> str:
        names = escape(self.month(month)), escape(self._write_date("yMMM", _day(month)))
        return Markup('<span class="wide">{}</span><span class="narrow">{}</span>').format(*names)

    def moment(self, at: datetime, zone: str) -> str:
        day = format_date(at, "long", locale=self._locale).translate(self._digits)
        return self.t("{day} at {time}", day=day, time=self.time(at, zone))

    def time(self, at: datetime, zone: str) -> str:
        """The time, and the name of its zone, both from left to right, so that no bracket next to them is turned."""
        text = f"{self._write_date('Hm', at)} {zone}"
        return f"{LEFT_TO_RIGHT}{text}{CLOSES}" if self.language.dir == "rtl" else text

    def _write_date(self, skeleton: str, at: date) -> str:
        """A date in the form that the language has for some of its parts."""
        return str(format_skeleton(skeleton, at, locale=self._locale)).translate(self._digits)


def _day(month: str) -> datetime:
    """The first day of a month."""
    return datetime(int(month[:4]), int(month[5:]), 1)

"""What a map says of the forms of an office: patterns of names, names of months, and what columns and texts mean."""

from __future__ import annotations

import functools
import re
import unicodedata
from collections.abc import Collection, Mapping, Sequence
from datetime import date
from fractions import Fraction
from pathlib import Path
from typing import NamedTuple, Optional

from ..sheet_numbers import Rule


# ==== names of months in the languages that a map may name, converted to English, which `sheet_numbers` reads
#
# The names are the names in calendars, in full and as offices abbreviate them; for Arabic they are the names of Egypt
# and the Gulf, of the Levant and Iraq, of Morocco, and of Algeria and Tunisia. No name is two months.

ENGLISH = "jan feb mar apr may jun jul aug sep oct nov dec".split()

NAMES: dict[str, tuple[str, ...]] = {
    "en": (
        "january,jan", "february,feb", "march,mar", "april,apr", "may", "june,jun", "july,jul", "august,aug",
        "september,sept,sep", "october,oct", "november,nov", "december,dec",
    ),
    "fr": (
        "janvier,janv,jan", "février,févr,fév", "mars,mar", "avril,avr", "mai", "juin", "juillet,juil", "août,aoû",
        "septembre,sept,sep", "octobre,oct", "novembre,nov", "décembre,déc",
    ),
    "es": (
        "enero,ene", "febrero,feb", "marzo,mar", "abril,abr", "mayo,may", "junio,jun", "julio,jul", "agosto,ago",
        "septiembre,setiembre,sept,sep,set", "octubre,oct", "noviembre,nov", "diciembre,dic",
    ),
    "ar": (
        "يناير,كانون الثاني,جانفي", "فبراير,شباط,فيفري", "مارس,آذار", "أبريل,إبريل,نيسان,أفريل",
        "مايو,أيار,ماي", "يونيو,يونيه,حزيران,جوان", "يوليو,يوليه,تموز,يوليوز,جويلية", "أغسطس,آب,غشت,أوت",
        "سبتمبر,أيلول,شتنبر", "أكتوبر,تشرين الأول", "نوفمبر,تشرين الثاني,نونبر", "ديسمبر,كانون الأول,دجنبر",
    ),
}  # fmt: skip
"""The names of the twelve months by language, in small letters, with commas between those of one month."""


def fold(text: str) -> str:
    """A text in small letters without accents, the same for two spellings of a name."""
    parts = unicodedata.normalize("NFKD", text.lower())
    return "".join(sign for sign in parts if not unicodedata.combining(sign))


@functools.lru_cache(maxsize=None)
def numbers(languages: tuple[str, ...]) -> dict[str, int]:
    """The number of each name in some languages, by its folded form."""
    pairs = ((names, at) for language in languages for at, names in enumerate(NAMES[language], 1))
    return {fold(name): at for names, at in pairs for name in names.split(",")}


@functools.lru_cache(maxsize=None)
def _pattern(languages: tuple[str, ...]) -> re.Pattern[str]:
    longest = sorted(numbers(languages), key=len, reverse=True)
    return re.compile(rf"(?<![^\W\d_])({'|'.join(map(re.escape, longest))})(?![^\W\d_])\.?")


def in_english(text: str, languages: Sequence[str]) -> str:
    """A text with the name of a month in English, if it has one in these languages: `dec 2025` for `déc. 2025`. A
    Spanish `de` around it is left out. A text without such a name is returned unchanged."""
    own = tuple(languages)
    plain = fold(text) if own else text
    match = _pattern(own).search(plain) if own else None
    if not match:
        return text
    before, after = plain[: match.start()], plain[match.end() :]
    if "es" in own:
        before, after = re.sub(r"\bde\s*$", " ", before), re.sub(r"^\s*(de|del)\b", " ", after)
    return f"{before}{ENGLISH[numbers(own)[match[1]] - 1]}{after}"


def month_of_name(text: str, languages: Sequence[str]) -> int:
    """The number of a month's name by itself, also in English; 0 if it isn't a name."""
    plain = fold(text.strip().rstrip("."))
    return numbers(tuple(languages)).get(plain, 0) or numbers(("en",)).get(plain, 0)


# ==== patterns of the names of files and sheets, and of months, as a map writes them: `quotes-{year}{month}.csv`
#
# `{year}` is a year of four digits and `{year2}` one of two, from 2000 on; `{month}` a month's number and `{name}` its
# name; `{day}` a day of the month; `*` is any text. Other names, such as `{outlet}`, match a text for a column of that
# name.

OF_MONTHS = {
    "year": "[0-9]{4}",
    "year2": "[0-9]{2}",
    "month": "[0-9]{1,2}",
    "name": r"[^\W\d_]+(?: [^\W\d_]+)?\.?",
    "day": "[0-9]{1,2}",
}
"""The places of a month, and their contents."""

PLACE = re.compile(r"\{([a-z0-9_]+)\}|(\*)|([^{}*]+)|(.)", re.S)


class Pattern:
    """A pattern, which ignores the case of letters."""

    def __init__(self, text: str, columns: Collection[str], languages: Sequence[str]):
        """`columns` are the names that may be in braces besides the names for months. Raises ValueError with the
        problem."""
        self.text, self._languages = text, tuple(languages)
        self.places: list[str] = []
        parts = (self._part(match, columns) for match in PLACE.finditer(text))
        self._form = re.compile("".join(parts), re.I | re.S)
        own = {*self.places} & {*OF_MONTHS}
        if own and ("year" in own) + ("year2" in own) != 1:
            raise ValueError("a month needs {year} or {year2}, and not both")
        if own and ("month" in own) + ("name" in own) != 1:
            raise ValueError("a month needs {month} or {name}, and not both")

    def _part(self, match: re.Match[str], columns: Collection[str]) -> str:
        """The regular expression of a part."""
        name, star, plain, odd = match.groups()
        if odd:
            raise ValueError(f"{odd} has no other brace")
        if name is None:
            return ".*" if star else re.escape(plain)
        if name not in OF_MONTHS and name not in columns:
            raise ValueError(f"{{{name}}} is none of {', '.join(f'{{{place}}}' for place in (*OF_MONTHS, *columns))}")
        if name in self.places:
            raise ValueError(f"{{{name}}} is there twice")
        self.places.append(name)
        return f"(?P<{name}>{OF_MONTHS.get(name, '.+?')})"

    @property
    def has_month(self) -> bool:
        """Whether the pattern contains the places of a month."""
        return not {*self.places}.isdisjoint(OF_MONTHS)

    def values(self, text: str) -> Optional[Mapping[str, str]]:
        """The values of the places in a text; None if it doesn't have this form: columns, `month` as `2025-12`, and
        `day` as `2025-12-31`, empty if the pattern has no day."""
        match = self._form.fullmatch(text.strip())
        if not match:
            return None
        given = match.groupdict()
        values = {name: text for name, text in given.items() if name not in OF_MONTHS}
        if not self.has_month:
            return values
        year = int(given.get("year") or f"20{given['year2']}")
        month = int(given["month"]) if "month" in given else month_of_name(given["name"], self._languages)
        try:
            day = date(year, month, int(given.get("day") or 1))
        except ValueError:
            return None
        if not 2000 <= day.year <= 2199:
            return None
        return {**values, "month": f"{day:%Y-%m}", "day": f"{day}" if "day" in given else ""}


# ==== a map of the forms of an office: the files of each sheet, and the meanings of their columns and texts

NONE = "none"
"""The meaning of a text that gives nothing on purpose: its row or cell is left out, and counted."""

UNKNOWN = "?"
"""In a proposal, a question to a person; a map that contains it is refused."""

CODED = ("outlet", "item", "collector", "code")
"""The columns whose texts may be codes of the office."""

Texts = Mapping[str, str]


class Files(NamedTuple):
    """Files of one form: the names of files, and of sheets in workbooks, the row of their heading, and their encoding,
    empty for UTF-8 and UTF-16. `columns` are the office's columns by ours."""

    files: Pattern
    sheets: Optional[Pattern]
    heading: int
    encoding: str
    columns: Mapping[str, tuple[str, ...]]


class Join(NamedTuple):
    """A table whose rows are found through columns that it shares with another table: its columns by the other
    table's."""

    form: Files
    on: Texts


class Table(NamedTuple):
    """A table of the map, which gives the rows of one of our sheets.

    `key` is its place in the map; `values` are texts that all rows have. `heads` is the meaning of columns that the map
    doesn't name: a `month`, a `year`, or nothing. `flag` names the columns after these. `marks`, by column, and
    `cells`, by the text of a price, give its meaning: `price`, `comparable`, `other`, a reason, or none. `only`
    contains the texts that a column may have in rows that count. If `has_sums`, weights of codes that aren't elementary
    aggregates aren't read.
    """

    sheet: str
    key: tuple[str, ...]
    form: Files
    values: Texts
    unread: frozenset[str]
    heads: str
    month: Optional[Pattern]
    flag: str
    marks: Mapping[str, Texts]
    cells: Texts
    units: Mapping[str, Fraction]
    only: Mapping[str, frozenset[str]]
    has_sums: bool
    join: Optional[Join]


class OfficeMap(NamedTuple):
    """A map with its files: itself, and the tables of codes. `ignored` are names of files and sheets that aren't read
    on purpose. `minor`, `decimal` and `weights` are empty if the command's arguments give them; codes are ours by the
    office's, by column."""

    path: Path
    parts: tuple[Path, ...]
    minor: int
    decimal: str
    weights: str
    languages: tuple[str, ...]
    rule: Rule
    codes: Mapping[str, Texts]
    tables: tuple[Table, ...]
    ignored: tuple[str, ...] = ()

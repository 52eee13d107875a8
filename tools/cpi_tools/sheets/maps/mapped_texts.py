"""Texts of an office by its map: months, codes, marks and quantities, and what a person has to see of them."""

from __future__ import annotations

import re
from collections.abc import Mapping, Sequence
from fractions import Fraction
from typing import NamedTuple, Optional

from ...text.message import message, whole
from ...text.others import of_others
from ..cells import Alike, Capped, MonthRead, Numeral, Origin, SheetFault, cut
from ..price_cells import COMPARABLE, EMPTY, LIKE, MISSING, OTHER, PRICE, REASONS, Codes
from ..sheet_numbers import Numbers, month_of, told_no_month
from .map_files import PRICE_IN_TEXT
from .office_map import NONE, Pattern, Table, Texts, in_english


# ==== findings in sheets that are read with a map: problems, warnings, months in another spelling, and rows left out


class Findings:
    """The findings in the files of one sheet."""

    def __init__(self) -> None:
        self.faults = Capped()
        self.warnings: list[SheetFault] = []
        self.readings: list[MonthRead] = []
        self._read: set[tuple[str, str, str]] = set()
        self._left: dict[tuple[str, str, str], tuple[Origin, int]] = {}

    def refuse(self, origin: Origin, because: str, do: str) -> None:
        """Adds a problem at a cell."""
        self.faults.add(SheetFault(origin, because, do))

    def read(self, origin: Origin, text: str, month: str) -> None:
        """Adds a month that was read from another spelling, once for each column of a file."""
        key = (origin.file, origin.column, text)
        if month != text and key not in self._read:
            self._read.add(key)
            self.readings.append(MonthRead(origin.file, origin.column, text, month))

    def leave_out(self, origin: Origin, text: str) -> None:
        """Counts a row or a cell that the map leaves out on purpose."""
        key = (origin.file, origin.column, text)
        first, count = self._left.get(key, (origin, 0))
        self._left[key] = (first, count + 1)

    def end(self) -> None:
        """Adds a warning for each text that was left out, with the number of times."""
        alike = Alike(self.warnings)
        for (_, _, text), (origin, count) in self._left.items():
            because = message(
                'the map leaves "{text}" out (number of times: {count})', text=cut(text), count=whole(count)
            )
            alike.add(SheetFault(origin, because, message("nothing, if it is neither a price nor a row of the office")))
        alike.end()
        self._left.clear()


# ==== texts of an office, read with its map: months in its languages, its codes, its marks, and the quantity that was
# priced

DAY_IN_TEXT = re.compile("([0-9]{4}-[0-9]{2}-[0-9]{2})([T ].*)?")

MEASURE = re.compile(r"([0-9][0-9 .,]*?) *([^\W\d_]+)\.?")
"""The unit of an item, such as `500 g`."""


class Months:
    """Reads months, with a pattern if there is one."""

    def __init__(self, pattern: Optional[Pattern], languages: Sequence[str], findings: Findings):
        self._pattern, self._languages, self._findings = pattern, tuple(languages), findings
        self._read: dict[str, tuple[str, str]] = {}

    def of(self, text: str) -> tuple[str, str]:
        """The month and the day of a text; empty if it has none."""
        if text not in self._read:
            self._read[text] = self._of(text)
        return self._read[text]

    def _of(self, text: str) -> tuple[str, str]:
        if self._pattern:
            values = self._pattern.values(text)
            return (values["month"], values["day"]) if values else ("", "")
        day = DAY_IN_TEXT.fullmatch(text)
        return month_of(in_english(text, self._languages)), day[1] if day else ""

    def at(self, origin: Origin, text: str) -> tuple[str, str]:
        """The month and the day of a text; a text that isn't a month is a problem, and another spelling is reported."""
        month, day = self.of(text)
        if month:
            self._findings.read(origin, text, month)
        elif self._pattern and text:
            because = message('"{text}" isn\'t like {pattern}', text=cut(text), pattern=of_others(self._pattern.text))
            self._findings.refuse(origin, because, message("correct the cell, or the month in the map"))
        else:
            self._findings.refuse(origin, told_no_month(text), LIKE)
        return month, day


class KnownCodes(dict[str, Optional[str]]):
    """Our codes by the office's codes in a column; None if a text has none, or is left out."""

    def __init__(self, codes: Texts, used: set[str]):
        super().__init__()
        self._codes, self._used = codes, used

    def __missing__(self, text: str) -> Optional[str]:
        code = self._codes.get(text) if text else text
        if code is None or code == NONE:
            return None
        if text:
            self._used.add(text)
        self[text] = code
        return code


class OurCodes:
    """Our codes by the office's codes."""

    def __init__(self, codes: Mapping[str, Texts], findings: Findings):
        self._codes, self._findings = codes, findings
        self.used: dict[str, set[str]] = {column: set() for column in codes}
        self.known = {column: KnownCodes(own, self.used[column]) for column, own in codes.items()}
        """The codes of each column that has codes, for texts about which there is nothing to report."""

    def of(self, column: str, origin: Origin, text: str) -> Optional[str]:
        """Our code for a text of a column; None if the map leaves it out, or has none, which is a problem."""
        codes = self._codes.get(column)
        if codes is None or not text:
            return text
        code = codes.get(text)
        if code is None:
            table = of_others(f"codes.{column}")
            because = message('the map has no code for "{text}" in {table}', text=cut(text), table=table)
            self._findings.refuse(origin, because, message("add a line for it to {table}", table=table))
            return None
        self.used[column].add(text)
        if code == NONE:
            self._findings.leave_out(origin, text)
            return None
        return code


class Meaning(NamedTuple):
    """The meaning of a cell of prices: our mark, empty for a price by itself, and its text."""

    mark: str
    text: str


NO_QUOTE = Meaning("", "")
"""The meaning of a cell without a quote, such as an empty cell below a month."""

MOST_KNOWN = 50_000
"""The most different texts of prices whose meaning is kept."""


class CellTexts:
    """The meanings that the map gives to texts in place of a price."""

    def __init__(self, cells: Texts, numbers: Numbers):
        plain = {text: meaning for text, meaning in cells.items() if PRICE_IN_TEXT not in text}
        self._codes = Codes(plain, numbers)
        self._forms = [(_form_of(text), meaning) for text, meaning in cells.items() if PRICE_IN_TEXT in text]

    def of(self, text: str) -> tuple[str, str]:
        """The meaning of a text, empty if the map gives none, and the price in it."""
        if meaning := self._codes.reason(text):
            return meaning, text
        for form, meaning in self._forms if not isinstance(text, Numeral) else ():
            if match := form.fullmatch(text.strip()):
                return meaning, match[1]
        return "", text


def _form_of(text: str) -> re.Pattern[str]:
    before, _, after = text.strip().partition(PRICE_IN_TEXT)
    return re.compile(f"{re.escape(before)}(.*[0-9].*?){re.escape(after)}")


class Marks:
    """Converts an office's marks, next to a price or in place of it, to our marks."""

    def __init__(self, table: Table, numbers: Numbers, findings: Findings):
        self._table, self._findings = table, findings
        self._cells = CellTexts(table.cells, numbers)
        self._prices: dict[str, tuple[str, str]] = {}
        self._kinds: dict[tuple[str, ...], Optional[Meaning]] = {}

    def plain(self, text: str, marks: tuple[str, ...], columns: Sequence[str]) -> Optional[Meaning]:
        """The meaning of a cell with the texts of the columns next to it; None if there is something to report about
        it."""
        known = self._prices.get(text) if type(text) is str else None
        if known is None:
            meant, price = self._cells.of(text)
            word = text.strip().lower()
            known = meant or (word if word in REASONS else ""), price
            if type(text) is str and len(self._prices) < MOST_KNOWN:
                self._prices[text] = known
        key = (known[0], *marks)
        if key not in self._kinds:
            self._kinds[key] = self._kind(known[0], marks, columns)
        kind = self._kinds[key]
        if kind is None or kind.mark == MISSING:
            return kind
        return NO_QUOTE if self._table.heads and text.strip() in EMPTY else Meaning(kind.mark, known[1])

    def _kind(self, meant: str, marks: tuple[str, ...], columns: Sequence[str]) -> Optional[Meaning]:
        """The mark of a cell, or the reason, from the meaning of its text and the marks next to it; None if there is
        something to report."""
        of_marks = [self._table.marks[column].get(mark) for column, mark in zip(columns, marks)]
        meanings = [*([meant] if meant else []), *(meaning for meaning in of_marks if meaning is not None)]
        return None if None in of_marks or NONE in meanings else find_mark(meanings, meant)

    def meaning(self, text: str, origin: Origin, beside: Sequence[tuple[str, str, Origin]]) -> Optional[Meaning]:
        """The meaning of a cell; None if it isn't a quote, or if the map has no line for a mark next to it, which is
        given with its column and cell."""
        meant, price = self._cells.of(text)
        word = text.strip().lower()
        meant = meant or (word if word in REASONS else "")
        meanings = [meant] if meant else []
        places = [(origin, text)] if meant else []
        for column, mark, at in beside:
            meaning = self._table.marks[column].get(mark)
            if meaning is None:
                self._refuse(column, mark, at)
                return None
            meanings.append(meaning)
            places.append((at, mark))
        if NONE in meanings:
            self._findings.leave_out(*places[meanings.index(NONE)])
            return None
        kind = find_mark(meanings, meant)
        if kind.mark != MISSING and self._table.heads and text.strip() in EMPTY:
            return None
        return kind if kind.mark == MISSING else Meaning(kind.mark, price)

    def _refuse(self, column: str, mark: str, origin: Origin) -> None:
        table = of_others(f"{'.'.join(self._table.key)}.marks.{column}")
        because = message('the map has no line for the mark "{text}" in {table}', text=cut(mark), table=table)
        self._findings.refuse(origin, because, message("add a line for it to {table}", table=table))


def find_mark(meanings: Sequence[str], meant: str) -> Meaning:
    """Our mark from some meanings, or the reason why there is no price; `meant` is the meaning of the price's text, if
    it isn't empty."""
    reason = next((meaning for meaning in meanings if meaning in REASONS), "")
    if reason:
        return Meaning(MISSING, reason)
    mark = next((meaning for meaning in meanings if meaning in (OTHER, COMPARABLE)), "")
    return Meaning(mark or (PRICE if meant == PRICE else ""), "")


class Measures:
    """Converts prices of other quantities than the item's unit."""

    def __init__(self, table: Table, numbers: Numbers, unit_of: Mapping[str, str], findings: Findings):
        """`unit_of` gives the unit of each item."""
        self._units, self._numbers, self._unit_of, self._findings = table.units, numbers, unit_of, findings

    def share(self, item: str, quantity: tuple[str, Origin], unit: tuple[str, Origin]) -> str:
        """The factor that converts a price to the item's unit; empty, and a problem, if it isn't known."""
        factor = self._factor(*unit)
        number = self._numbers.of(quantity[0])
        if number is None or number <= 0:
            because = message('"{text}" isn\'t a quantity above 0', text=cut(quantity[0]))
            self._findings.refuse(quantity[1], because, message("correct the cell"))
        size = self._size(item, quantity[1])
        if factor is None or size is None or number is None or number <= 0:
            return ""
        return str(size / (number * factor))

    def _factor(self, text: str, origin: Origin) -> Optional[Fraction]:
        """The size of a unit in the smallest one; if the text is empty, the map must have only one unit."""
        if not text and len(self._units) == 1:
            return next(iter(self._units.values()))
        factor = self._units.get(text.strip().lower())
        if factor is None:
            because = message('the map has no unit "{text}"', text=cut(text))
            self._findings.refuse(origin, because, message("add a line for it to {table}", table=of_others("units")))
        return factor

    def _size(self, item: str, origin: Origin) -> Optional[Fraction]:
        """The unit of an item in the smallest unit of the map."""
        text = self._unit_of.get(item, "")
        match = MEASURE.fullmatch(text.strip())
        number = self._numbers.of(match[1]) if match else None
        factor = self._units.get(match[2].lower()) if match else None
        if number is None or number <= 0 or factor is None:
            because = message(
                'the item {item} has the unit "{text}", but it should be a number with a unit that the map contains',
                item=of_others(item),
                text=cut(text),
            )
            do = message("add its unit to {table}, or read this item without a quantity", table=of_others("units"))
            self._findings.refuse(origin, because, do)
            return None
        return number * factor

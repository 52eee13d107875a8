"""Cells of spreadsheets as texts that know their file, row and column, and the faults in them."""

from __future__ import annotations

from collections.abc import Iterable, Iterator, Mapping, Sequence
from dataclasses import dataclass, field
from pathlib import Path
from types import MappingProxyType
from typing import NamedTuple, Optional, Union

from ..text.message import Message, message, whole
from ..text.others import Worded, of_others
from ..text.terminal import is_line

ROWS_LOOKED_AT = 20
"""The number of rows in which the heading of a sheet is searched."""


class Origin(NamedTuple):
    """The place of a text: its file, its row as a spreadsheet counts it (the heading is row 1), and the column's name.

    Row 0 means the whole file.
    """

    file: str
    row: int
    column: str = ""

    def at(self, column: str) -> Origin:
        """The place in the same row at a column."""
        return self._replace(column=column)


class SheetFault(NamedTuple):
    """A fault of a sheet that is found before its rows are read, or a remark on the sheet for its reader."""

    origin: Origin
    because: str
    do: str


class BadSheet(Exception):
    """A sheet that can't be read as a table at all."""

    def __init__(self, origin: Origin, because: str, do: str):
        super().__init__(because)
        self.fault = SheetFault(origin, because, do)


class Numeral(str):
    """The text of a cell that is a number in a workbook: with a point, whatever the decimal sign of texts is. The text
    of a cell in percent format is what it shows, `45.5%`. `currency` is the text that the cell shows next to the
    number, `EUR` or `$`.
    """

    currency: str = ""


class Dated(str):
    """The text of a cell that is a date in a workbook, `2026-01-31`, or a time, `2026-01-31T06:00`."""


class Columns(NamedTuple):
    """The columns that a sheet must have, and those that it may have; `texts` are the columns in which a blank before
    or after a text counts."""

    needed: tuple[str, ...]
    others: tuple[str, ...] = ()
    texts: tuple[str, ...] = ()


NO_NAMES: Mapping[str, str] = MappingProxyType({})


@dataclass
class Row:
    """A row's texts by the names of their columns; a missing column has empty texts. `names` are the office's names of
    columns, if they differ."""

    origin: Origin
    cells: dict[str, str]
    names: Mapping[str, str] = field(default_factory=lambda: NO_NAMES, compare=False)

    def __getitem__(self, column: str) -> str:
        return self.cells.get(column, "")

    def name(self, column: str) -> str:
        """The office's name of a column."""
        return self.names.get(column, column)

    def name_columns(self, columns: Sequence[str]) -> tuple[str, ...]:
        """The office's names of some columns."""
        return tuple(map(self.name, columns)) if self.names else tuple(columns)

    def at(self, column: str) -> Origin:
        """The place of a column's cell."""
        return self.origin.at(self.name(column))


class SlotNumbers(NamedTuple):
    """What has the quotes of a series: collector and slot by their numbers in the store of prices, its first and its
    last month, and the month from which on another slot has the series."""

    collector: int
    slot: int
    first: str
    last: str
    until: str


class SentNumbers(NamedTuple):
    """How a price is sent, as the store of prices has it: the number of its mark, its value, and the number of its
    cell's text."""

    mark: int
    value: Union[int, str]
    said: int


class QuotedSeries:
    """Our outlet and item of quotes; and the slot that they are of, if the reader of prices knows it."""

    __slots__ = ("outlet", "item", "slot")

    def __init__(self, outlet: str, item: str):
        self.outlet, self.item = outlet, item
        self.slot: Optional[SlotNumbers] = None


class QuotedMonth:
    """The month of quotes, and their day, empty if there is none; its number in the store of prices, 0 as long as that
    isn't known."""

    __slots__ = ("text", "day", "number")

    def __init__(self, text: str, day: str):
        self.text, self.day, self.number = text, day, 0


class QuotedText:
    """The text of a price, and its mark, empty for a price by itself; and how it is sent, if that is known."""

    __slots__ = ("mark", "text", "sent")

    def __init__(self, mark: str, text: str):
        self.mark, self.text = mark, text
        self.sent: Optional[SentNumbers] = None


class QuotePlace:
    """What quotes of a file share, or of one column of it: the file, and its names of columns; and the numbers of forms
    in the store of prices, for prices without a mark and with one, -1 as long as they aren't known."""

    __slots__ = ("file", "names", "plain", "marked")

    def __init__(self, file: str, names: Mapping[str, str]):
        self.file, self.names = file, names
        self.plain = self.marked = -1


Quote = tuple[int, QuotedSeries, QuotedMonth, QuotedText, QuotePlace]
"""A row with one price of which nothing is to be told: its number, and what it shares with others. There are millions
of quotes, and few different texts."""


class Quotes(list[Quote]):
    """Some quotes, in the order of their sheet."""


def row_of_quote(quote: Quote) -> Row:
    """The same as a row."""
    number, series, month, text, place = quote
    cells = {"outlet": series.outlet, "item": series.item, "month": month.text, "value": text.text, "day": month.day}
    if text.mark:
        cells["mark"] = text.mark
    return Row(Origin(place.file, number), cells, place.names)


@dataclass
class Texts:
    """The cells of a sheet row by row, read once; a row may be shorter than others. Faults of single cells
    and warnings are added while the rows are read. An error in reading is a BadSheet."""

    rows: Iterator[Sequence[str]]
    faults: list[SheetFault] = field(default_factory=list)
    warnings: list[SheetFault] = field(default_factory=list)
    is_plain: bool = False
    """Whether every cell is only a text, as in CSV; cells of a workbook may also be numbers and dates."""


@dataclass
class Sheet:
    """A sheet: its file; its columns in small letters, and as they are written; and the rows that aren't empty. If the
    rows are an iterator, faults and warnings are found while they are read. `quotes` takes the place of `rows` for a
    sheet with millions of prices."""

    file: str
    columns: tuple[str, ...]
    written: tuple[str, ...]
    rows: Iterable[Row]
    faults: list[SheetFault]
    warnings: list[SheetFault]
    quotes: Optional[Iterable[Union[Row, Quotes]]] = None


def read_whole(sheet: Optional[Sheet]) -> Optional[Sheet]:
    """A sheet with all its rows; None if there is no sheet. Raises BadSheet if a row can't be read."""
    if sheet:
        rows = sheet.rows if sheet.quotes is None else rows_of_quotes(sheet.quotes)
        sheet.rows, sheet.quotes = tuple(share_texts(rows)), None
    return sheet


def share_texts(rows: Iterable[Row]) -> Iterator[Row]:
    """Rows of which equal texts take memory only once: a sheet of a nation's series has few different ones."""
    known: dict[str, str] = {}
    for row in rows:
        cells = row.cells
        for name, text in cells.items():
            if type(text) is str:
                cells[name] = known.setdefault(text, text)
        yield row


def rows_of_quotes(quotes: Iterable[Union[Row, Quotes]]) -> Iterator[Row]:
    """Rows and quotes as rows."""
    for some in quotes:
        yield from map(row_of_quote, some) if isinstance(some, Quotes) else (some,)


class MonthRead(NamedTuple):
    """A text in another spelling than `2026-01`, and the month as which it was read."""

    file: str
    column: str
    text: str
    month: str


MOST_ALIKE = 20
"""Faults of one kind in a sheet that are listed cell by cell; the others are counted."""


class Alike:
    """Faults of one kind: the first are listed one by one, and one more line counts the others."""

    def __init__(self, text: list[SheetFault]):
        self._faults, self._count, self._last = text, 0, SheetFault(Origin("", 0), "", "")

    def add(self, fault: SheetFault) -> None:
        """Adds a fault."""
        self._count, self._last = self._count + 1, fault
        if self._count <= MOST_ALIKE:
            self._faults.append(fault)

    def end(self) -> None:
        """Adds the line that counts the faults that weren't listed."""
        if self._count > MOST_ALIKE:
            more = whole(self._count - MOST_ALIKE)
            # t: {fault} is a problem, such as: the cell's formula has no value
            because = message(
                "{count} more cells of this kind, the last one here: {fault}", count=more, fault=self._last.because
            )
            self._faults.append(self._last._replace(because=because))


MOST_TOLD = 10_000
"""Problems of a check that are listed one by one; the others are counted."""


class Capped:
    """The first faults, in their order; those after `MOST_TOLD` are counted."""

    def __init__(self) -> None:
        self._faults: list[SheetFault] = []
        self._more = 0

    def add(self, fault: SheetFault) -> None:
        """Adds a fault; one that equals the last isn't listed again."""
        if len(self._faults) >= MOST_TOLD:
            self._more += 1
        elif not self._faults or self._faults[-1] != fault:
            self._faults.append(fault)

    def all(self) -> list[SheetFault]:
        """The faults that are listed, and a line with the number of the others."""
        last = (
            [SheetFault(self._faults[-1].origin, more_of(self._more), message("correct those above first"))]
            if self._more
            else []
        )
        return [*self._faults, *last]


def more_of(count: int) -> Message:
    """The line for problems that aren't listed one by one."""
    return message("{count} more problems of this kind from here on", count=whole(count))


LONG = 80
"""The most characters of a cell that a line shows."""


def quote_text(text: str) -> str:
    """A text in quotation marks, its beginning if it is long; an invisible character, such as a blank of no width, is
    shown with its number."""
    first = text if len(text) <= LONG else f"{text[:LONG]}.."
    return f'"{first}"' if first.isprintable() else f'"{ascii(first)[1:-1]}"'


def cut(text: str) -> Worded:
    """A text, cut like `quote_text`, for a place of a text of ours that contains the quotation marks."""
    return of_others(quote_text(text)[1:-1])


def label_of(path: Path) -> str:
    """The name of a file as one line of UTF-8, whatever bytes the system has for it."""
    return path.name if is_line(path.name) else ascii(path.name)[1:-1]

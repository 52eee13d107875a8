"""The sheet of prices, with a row for each price, or a column for each month. Each cell becomes the quote of a slot in
a month."""

from __future__ import annotations

import re
from collections.abc import Collection, Iterator, Mapping, Sequence
from fractions import Fraction
from typing import NamedTuple, Optional, Union

from ..text.message import Message, message
from ..text.others import of_others
from .cells import (
    Capped,
    Columns,
    MonthRead,
    Numeral,
    Origin,
    Quote,
    Quotes,
    Row,
    SentNumbers,
    Sheet,
    SheetFault,
    SlotNumbers,
    cut,
    row_of_quote,
)
from .sheet_numbers import Numbers, month_of, told_no_month
from .price_store import Form, Price, PriceStore, StoreRow
from .record_rows import slot_of

REASONS = ("stock", "closed", "gone", "refused")
"""The reasons why there is no price."""

MISSING, PRICE, COMPARABLE, OTHER = "missing", "price", "comparable", "other"
MARKS = (MISSING, PRICE, COMPARABLE, OTHER)
EMPTY = ("", ".")
"""Cells of a wide sheet that aren't quotes."""

DAY, SHARE = "day", "share"
"""The facts that a map gives about a row besides its columns: the day of a price, `2026-01-15`; and the factor that
converts a price to the item's unit, such as `1000/450`."""

VALUE = of_others("value")
NAMES_CODES = of_others("--missing")

OF_A_ROW = ("month", "value")
"""The columns that only a sheet with a row for each price has."""

MONTH = of_others("2026-01")
LIKE = message("write a month like {month}", month=MONTH)


NO_CODES: Mapping[str, str] = {}


class Place(NamedTuple):
    """The outlet and item of a slot from its first to its last month; all as texts."""

    collector: str
    slot: str
    outlet: str
    item: str
    first: str
    last: str


AFTER_ALL = "~"
"""After each month, as a text."""


class Held(NamedTuple):
    """A place, and the month from which another slot has its series, empty if none has."""

    place: Place
    until: str = ""

    def is_in(self, month: str) -> bool:
        """Whether the slot prices in a month."""
        return self.place.first <= month <= self.place.last and not (self.until and self.until <= month)


class Cell(NamedTuple):
    """A cell with a price or a reason, and the names of the columns of its month and its text."""

    row: Row
    month: str
    text: str
    month_column: str
    text_column: str


class Quoted(NamedTuple):
    """The form in which a cell is sent: its mark and value, hints about an invalid price, and whether it is the code of
    a reason."""

    mark: str
    value: str
    hint: Union[Message, str]
    is_code: bool = False


MOST_KNOWN = 50_000
"""The most different cells whose mark and value are kept."""


class Codes:
    """The values that mean a reason why there is no price."""

    def __init__(self, codes: Mapping[str, str], numbers: Numbers):
        self._numbers, self._codes = numbers, [*codes]
        self._texts = {text.strip().lower(): reason for text, reason in codes.items()}
        found = ((numbers.of(text), reason) for text, reason in codes.items())
        self._values: dict[Fraction, str] = {value: reason for value, reason in found if value is not None}
        self._met = set[Union[str, Fraction, None]]()

    def reason(self, text: str) -> str:
        """The reason that a text means, whatever its form (`9999.99`, `9,999.990`); empty if it isn't a code."""
        key = text.strip().lower()
        reason = self._texts.get(key, "")
        if not reason and not self._values:
            return ""
        value = self._numbers.of(text)
        reason = reason or ("" if value is None else self._values.get(value, ""))
        if reason:
            self._met |= {key, value} - {None}
        return reason

    def unmet(self) -> list[str]:
        """The codes, as they were given, that haven't occurred so far."""
        return [code for code in self._codes if self._met.isdisjoint({code.strip().lower(), self._numbers.of(code)})]


class PriceCells:
    """Reads a sheet of prices."""

    def __init__(
        self,
        sheet: Sheet,
        columns: Columns,
        numbers: Numbers,
        minor: int,
        ignored: Collection[str],
        codes: Mapping[str, str] = NO_CODES,
    ):
        """`minor` is the number of minor units in a unit of the prices; `ignored` are columns, in small letters, that
        aren't read on purpose; `codes` are the texts that mean a reason."""
        self._sheet, self._numbers, self._minor = sheet, numbers, minor
        self._codes = Codes(codes, numbers)
        self._places: dict[tuple[str, str], tuple[Held, ...]] = {}
        self._of_slots: dict[tuple[str, str], Place] = {}
        self._read: dict[str, str] = {}
        self._currency: Optional[tuple[str, Cell]] = None
        self._quoted: dict[tuple[str, str], Quoted] = {}
        self._forms: dict[tuple[int, str, str, bool, str], tuple[Mapping[str, str], Form]] = {}
        self._has_items = "item" in sheet.columns
        self.faults = Capped()
        self.count = 0
        self.keeps_fractions = False
        """Whether a price that isn't whole is kept exactly, `500/3`, for a rule of the office."""
        self.is_wide = "value" not in sheet.columns
        self._months = self._months_of_columns(columns, ignored)
        self.is_wide &= bool(self._months) or "month" not in sheet.columns
        slot = ("outlet", "item") if {"outlet", "item"} & {*sheet.columns} else ("collector", "slot")
        self.needed: tuple[str, ...] = slot if self.is_wide else (*slot, *OF_A_ROW)
        if self.is_wide and not self._months:
            because = message("no column is a month, and there is no column {column}", column=VALUE)
            do = message(
                "write a month like {month} above the prices, or write each price in a row of its own", month=MONTH
            )
            self.faults.add(SheetFault(self.heading, because, do))

    # ---- the form of the sheet

    def _months_of_columns(self, columns: Columns, ignored: Collection[str]) -> list[tuple[str, str, str]]:
        """The columns of a wide sheet that are months: name, name as written, and month. A column that is neither a
        month nor a known column is a problem."""
        months: dict[str, tuple[str, str, str]] = {}
        known = {*columns.needed, *columns.others}
        for column, written in zip(self._sheet.columns, self._sheet.written):
            month = month_of(written)
            if column in ignored or not column:
                continue
            if month and self.is_wide and month in months:
                two = {"one": of_others(months[month][1]), "other": of_others(written)}
                both = message('"{one}" and "{other}" are both the month {month}', **two, month=of_others(month))
                self._tell_column(written, both, message("keep only one of the two columns"))
            elif month and self.is_wide:
                months[month] = (column, written, month)
            elif month:
                because = message(
                    "{text} is a month, but a sheet with a column {column} has a row for each price",
                    text=of_others(written),
                    column=VALUE,
                )
                do = message("delete the column {column}, or the columns that are months", column=VALUE)
                self._tell_column(written, because, do)
            elif column not in known:
                do = message(
                    "write a month like {month}; if the column has no prices, name it: {words}",
                    month=MONTH,
                    words=of_others(f'--ignore "{written}"'),
                )
                self._tell_column(written, told_no_month(written), do)
        if months and "month" in self._sheet.columns and "month" not in ignored:
            column = of_others("month")
            because = message("a sheet with a column for each month can't have a column {column}", column=column)
            do = message("delete the column {column}, or write each price in a row of its own", column=column)
            self._tell_column("month", because, do)
        return [*months.values()]

    def _tell_column(self, column: str, because: Message, do: Message) -> None:
        self.faults.add(SheetFault(self.heading.at(column), because, do))

    @property
    def heading(self) -> Origin:
        """The row of the heading."""
        return Origin(self._sheet.file, 1)

    def readings(self) -> list[MonthRead]:
        """Each text that was read as a month, once for each column, except texts like `2026-01`."""
        of_heads = [MonthRead(self._sheet.file, written, written, month) for _, written, month in self._months]
        of_rows = [MonthRead(self._sheet.file, "month", text, month) for text, month in self._read.items()]
        return [head for head in (*of_heads, *of_rows) if head.month not in ("", head.text)]

    def _cells(self, row: Row) -> Iterator[Cell]:
        """The cells of a row that have a price or a reason."""
        if self.is_wide:
            cells = ((month, written, row[column]) for column, written, month in self._months)
            yield from (Cell(row, cell, text, name, name) for cell, name, text in cells if text.strip() not in EMPTY)
        elif month := self._month(row):
            names = row.names
            yield Cell(row, month, row["value"], names.get("month", "month"), names.get("value", "value"))

    def _month(self, row: Row) -> str:
        """The month of a row; empty, and reported, if it can't be read."""
        text = row["month"]
        month = self._read.get(text)
        if month is None:
            month = self._read[text] = month_of(text)
        if not month:
            self.faults.add(SheetFault(row.at("month"), told_no_month(text), LIKE))
        return month

    # ---- whose price it is

    def place(self, places: Sequence[Place], handed: Sequence[Row]) -> None:
        """Notes the outlet and item of each slot, and the months from which other slots take over by hand-overs."""
        held = {(place.collector, place.slot): Held(place) for place in places}
        for row in handed:
            former = held.get((row["collector"], row["slot"]))
            if former:
                new = former.place._replace(collector=row["to"], slot=row["to_slot"], first=row["month"])
                held[row["collector"], row["slot"]] = former._replace(until=row["month"])
                held[row["to"], row["to_slot"]] = Held(new)
        self._of_slots = {slot: holding.place for slot, holding in held.items()}
        for holding in held.values():
            of = holding.place.outlet, holding.place.item
            self._places[of] = (*self._places.get(of, ()), holding)

    @property
    def slots(self) -> Mapping[tuple[str, str], Place]:
        """The outlet and item of each slot, by collector and slot."""
        return self._of_slots

    def _slot(self, cell: Cell) -> Optional[tuple[str, str, str]]:
        """The collector and slot of a price, as given, or found from its outlet and item; and the column that gives
        them."""
        row, cells = cell.row, cell.row.cells
        collector = cells.get("collector", "")
        if collector and row["slot"] or not self._has_items:
            return None if self._is_of_another(row) else (collector, row["slot"], "slot")
        of_series = self._places.get((cells.get("outlet", ""), cells.get("item", "")), ())
        places = [
            series.place
            for series in of_series
            if series.is_in(cell.month) and collector in ("", series.place.collector)
        ]
        if len(places) == 1:
            return places[0].collector, places[0].slot, "item"
        self.faults.add(self._told_no_slot(cell, bool(of_series), bool(places)))
        return None

    def _is_of_another(self, row: Row) -> bool:
        """Reports a row whose slot has another item or outlet than the row names."""
        of = self._of_slots.get((row["collector"], row["slot"]))
        for name in ("outlet", "item") if of else ():
            if row[name] and row[name] != getattr(of, name):
                self.faults.add(told_of_another(row, name, getattr(of, name)))
                return True
        return False

    def _told_no_slot(self, cell: Cell, has_series: bool, has_several: bool) -> SheetFault:
        """The reason why a price doesn't belong to one slot; once for a row if this holds in all its months."""
        row = cell.row
        if not row["outlet"] or not row["item"]:
            return told_unnamed(row)
        named = {"item": cut(row["item"]), "outlet": cut(row["outlet"]), "month": of_others(cell.month)}
        if has_several:
            because = message(
                'more than one slot prices the item "{item}" in the outlet "{outlet}" in {month}', **named
            )
        elif has_series:
            because = message('no series has the item "{item}" in the outlet "{outlet}" in {month}', **named)
        else:
            because = message('no series has the item "{item}" in the outlet "{outlet}"', **named)
        do = message("check the outlet, the item and the months of its series, or give the collector and the slot")
        return SheetFault(row.at("item"), because, do)

    # ---- quotes

    def unmet_codes(self) -> Iterator[SheetFault]:
        """Reports each code of a reason that hasn't occurred so far: the sheet may write it in another way."""
        sign = of_others(self._numbers.decimal)
        for code in self._codes.unmet():
            because = message('no price is "{text}", which {option} names', text=cut(code), option=NAMES_CODES)
            do = message(
                'write it as it is in a cell of the sheet, whose numbers have the decimal sign "{sign}"', sign=sign
            )
            yield SheetFault(self.heading, because, do)

    def make_rows(self, store: PriceStore) -> Iterator[Sequence[StoreRow]]:
        """All cells as rows of a store, some at a time, in the order of the sheet."""
        for row in self._sheet.rows if self._sheet.quotes is None else self._sheet.quotes:
            if isinstance(row, Quotes):
                yield self._rows_of_quotes(row, store)
            else:
                yield [store.number(price) for price in self._prices_of(row)]

    def _prices_of(self, row: Row) -> Iterator[Price]:
        """The cells of a row as they are sent."""
        for cell in self._cells(row):
            self.count += 1
            slot, turn = self._slot(cell), self._turn(cell.row)
            if slot is not None and turn is not None:
                yield self._price_of(cell, turn, *slot)

    def _rows_of_quotes(self, quotes: Quotes, store: PriceStore) -> Sequence[StoreRow]:
        """Quotes as rows of a store; those of which not all is known, or there may be something to tell, are read as
        rows of the sheet."""
        rows: list[StoreRow] = []
        add = rows.append
        for quote in quotes:
            number, series, month, text, place = quote
            slot, sent, at = series.slot, text.sent, month.text
            form = place.marked if text.mark else place.plain
            if slot is not None and sent is not None and form >= 0 and month.number:
                collector, slot_number, first, last, until = slot
                if first <= at <= last and at < until:
                    mark, value, said = sent
                    self.count += 1
                    add((month.number, 1, collector, slot_number, mark, value, "", number, form, said, month.day))
                    continue
            rows += self._learn_quote(quote, store)
        return rows

    def _learn_quote(self, quote: Quote, store: PriceStore) -> list[StoreRow]:
        """The row of a store that a quote is, none if it has a problem; notes what its texts are in the store."""
        _, series, month, text, place = quote
        rows = [store.number(price) for price in self._prices_of(row_of_quote(quote))]
        for month_number, _, collector, slot, mark, value, _, _, form, said, _ in rows:
            held = self._places.get((series.outlet, series.item), ())
            if len(held) == 1:
                of_series, until = held[0]
                series.slot = SlotNumbers(collector, slot, of_series.first, of_series.last, until or AFTER_ALL)
            if self._read.get(month.text) == month.text:
                month.number = month_number
            text.sent = SentNumbers(mark, value, said)
            if text.mark:
                place.marked = form
            else:
                place.plain = form
        return rows

    def _turn(self, row: Row) -> Optional[int]:
        revision = row["revision"]
        if not revision:
            return 1
        if not re.fullmatch("[1-9]|10", revision):
            because, do = message('"{text}" isn\'t a revision', text=of_others(revision)), message(
                "write 1 to 9, or leave it empty"
            )
            self.faults.add(SheetFault(row.at("revision"), because, do))
            return None
        return int(revision)

    def _price_of(self, cell: Cell, turn: int, collector: str, slot: str, column: str) -> Price:
        """The quote of a cell: a reason, or a price by itself or after its mark; `confirm` as in the row."""
        row, text = cell.row, cell.text
        cells = row.cells
        own = cells.get("mark", "")
        # (a number of a workbook may have a currency, which is looked at in each cell)
        is_plain = type(text) is str and not cells.get(SHARE)
        quoted = self._quoted.get((own, text)) if is_plain else None
        if quoted is None:
            quoted = self._read_cell(cell, own)
            if is_plain and len(self._quoted) < MOST_KNOWN:
                self._quoted[own, text] = quoted
        mark, value, hint, is_code = quoted
        form, confirm = self._form(cell, bool(own), column), "" if is_code else cells.get("confirm", "")
        sent = (cell.month, turn, collector, slot, mark, value, confirm)
        return Price(*sent, row.origin.row, form, str(text), hint, cells.get(DAY, ""))

    def _read_cell(self, cell: Cell, mark: str) -> Quoted:
        """The mark and the value of a cell; `mark` is the mark of its row."""
        value = cell.text
        if not mark:
            first, *others = value.split() or [""]
            word = first.lower()
            if word in REASONS:
                mark, value = MISSING, " ".join([word, *others])
            else:
                mark = word if others and word in MARKS else PRICE
                value = value.strip()[len(first) :].strip() if others and word in MARKS else value
        if mark != MISSING and (reason := self._codes.reason(value)):
            return Quoted(MISSING, reason, "", is_code=True)
        if mark == MISSING:
            return Quoted(mark, value.strip(), "")
        minor, hint = self._minor_units(cell, value)
        return Quoted(mark, minor.strip(), hint)

    def _form(self, cell: Cell, has_mark: bool, column: str) -> Form:
        """The origin of a cell's fields; few cells differ in it."""
        row, file = cell.row, cell.row.origin.file
        key = (id(row.names), file, cell.text_column, has_mark, column)
        known = self._forms.get(key)
        if known is None:
            mark_column = row.name("mark") if has_mark else cell.text_column
            own = row.name("collector" if column == "slot" else "item")
            columns = (row.name(column), cell.month_column, mark_column, cell.text_column, row.name("confirm"), own)
            # (the names are kept, so that no others get their identity)
            known = self._forms[key] = row.names, Form(file, columns)
        return known[1]

    def _look_at_currency(self, cell: Cell, currency: str) -> None:
        """Reports a price whose cell shows another currency than the first price with a currency."""
        first = self._currency = self._currency or (currency, cell)
        if first[0] != currency:
            because = message(
                'the price is shown in "{currency}", but the price in row {row}, {column} in "{other}"',
                currency=cut(currency),
                row=first[1].row.origin.row,
                column=of_others(first[1].text_column),
                other=cut(first[0]),
            )
            do = message("write all prices in one currency, and give all cells its format")
            self.faults.add(SheetFault(cell.row.origin.at(cell.text_column), because, do))

    def _minor_units(self, cell: Cell, text: str) -> tuple[str, Union[Message, str]]:
        """A price in minor units; another text goes unchanged to the program, which refuses it, with hints about it."""
        number = self._numbers.of(text)
        if isinstance(text, Numeral) and text.currency:
            self._look_at_currency(cell, text.currency)
        if number is None:
            return text, self._numbers.told_none(text) if text else message("the cell is empty")
        share = cell.row[SHARE]
        minor = number * self._minor * (Fraction(share) if share else 1)
        if self._minor % 1000 and (doubt := self._numbers.told_thousands(text)):
            return f"{text} * {self._minor}", doubt
        if minor.denominator == 1:
            return str(minor.numerator), ""
        hint = message(
            "{text} isn't a whole number of minor units ({option})",
            text=of_others(f"{text} * {share}" if share else text),
            option=of_others("--minor"),
        )
        if self.keeps_fractions:
            return str(minor), hint
        return text if self._minor == 1 else f"{text} * {self._minor}", hint


def told_of_another(row: Row, name: str, other: str) -> SheetFault:
    """The problem of a row whose slot has another outlet or item, `name`, than the row."""
    named = {"text": cut(row[name]), "slot": slot_of(row["collector"], row["slot"]), "other": cut(other)}
    if name == "outlet":
        because = message('the row names the outlet "{text}", but slot {slot} is in "{other}"', **named)
        do = message("correct the slot or the outlet, or leave one of the two out")
    else:
        because = message('the row names the item "{text}", but slot {slot} prices "{other}"', **named)
        do = message("correct the slot or the item, or leave one of the two out")
    return SheetFault(row.at(name), because, do)


def told_unnamed(row: Row) -> SheetFault:
    """The problem of a row that has prices, but no outlet, no item or neither."""
    do = message("write it in each row with a price; rows with a unit, a total or a note aren't read, so delete them")
    if row["outlet"]:
        return SheetFault(row.at("item"), message("the row has prices, but names no item"), do)
    if row["item"]:
        return SheetFault(row.at("outlet"), message("the row has prices, but names no outlet"), do)
    return SheetFault(row.at("outlet"), message("the row has prices, but names neither an outlet nor an item"), do)

"""Rows of prices in a file whose texts were all seen before: nothing is to be told of them, so they are quotes at once.

A file has millions of rows, and few different outlets, items, months and prices. A row whose texts aren't all known
goes the way of `plain_rows` and `mapped_rows`, which report problems; its texts are known from then on if there were
none. Texts are kept as the file has them, with their blanks, so that a known one needs no second look.
"""

from __future__ import annotations

from collections.abc import Callable, Iterable, Iterator, Mapping, Sequence
from operator import itemgetter
from typing import Any, NamedTuple, Optional, Union

from ..cells import BadSheet, Quote, QuotedMonth, QuotedSeries, QuotedText, QuotePlace, Quotes, Row
from ..price_cells import DAY
from ..sheet_files import MARK_OF_TEXT, RowCells
from .mapped_texts import MOST_KNOWN, NO_QUOTE, Marks
from .plain_rows import PlaceForm, PlainRows
from .office_map import Table

MOST_QUOTES = 1000
"""Quotes that are handed on together."""

MOST_SERIES = 400_000
"""Series whose texts are kept; then they are begun anew, so that memory has a bound whatever is in the columns."""

NO_TEXT = QuotedText("", "")
"""An empty cell below a month."""

KeyOf = Callable[[Sequence[str]], Any]
"""Gives the texts of some cells of a row: one text, or a tuple of several."""


class QuickTexts:
    """The texts that are known in all files of a table: the series by the texts of their outlet and then of their item,
    and prices by their text and the marks next to it."""

    def __init__(self) -> None:
        self.outlets: dict[Any, dict[Any, QuotedSeries]] = {}
        self.prices: dict[Any, QuotedText] = {}
        self._once: dict[Any, Any] = {}
        self._count = 0

    def keep_series(self, outlet_key: Any, item_key: Any, outlet: str, item: str) -> QuotedSeries:
        """The series of some texts, which is kept."""
        items = self.outlets.get(outlet_key)
        if items and item_key in items:
            return items[item_key]
        if self._count >= MOST_SERIES:
            self.outlets.clear()
            self._once.clear()
            self._count = 0
        self._count += 1
        series = QuotedSeries(self._share(outlet), self._share(item))
        self.outlets.setdefault(outlet_key, {})[self._share(item_key)] = series
        return series

    def _share(self, text: Any) -> Any:
        """An equal text that is kept once."""
        return self._once.setdefault(text, text)

    def keep_price(self, key: Any, text: QuotedText) -> None:
        """Keeps a price."""
        if len(self.prices) >= MOST_KNOWN:
            self.prices.clear()
        self.prices[key] = text


QUICK = {"outlet", "item", "month", "value"}
"""The columns of rows that are quotes."""


def is_quick(table: Table, form: PlaceForm) -> bool:
    """Whether rows have nothing but what a quote has."""
    if table.sheet != "prices" or table.units or table.join:
        return False
    own = {*table.form.columns, *form.fixed}
    if table.heads:
        return own == QUICK - {"month", "value"}
    return own - {DAY} == QUICK and len(table.form.columns.get("value", ())) == 1


class PriceColumn(NamedTuple):
    """A column of prices: its place and that of its flag, -1 if it has none; the texts of both and of the marks beside;
    its month, if its heading says that, and what its quotes share."""

    at: int
    flag: int
    key_of: KeyOf
    month: Optional[QuotedMonth]
    place: QuotePlace


def key_of_outlet(places: Sequence[int], only: Sequence[int], fixed: str) -> KeyOf:
    """Gives the texts of the outlet, and those that say whether a row counts."""
    if places or not only:
        return key_of_cells([*places, *only], fixed)
    of_only = itemgetter(*only)
    return lambda line: (fixed, of_only(line))


def key_of_cells(places: Sequence[int], fixed: str) -> KeyOf:
    """Gives the texts at some places, or a fixed one if there are none."""
    if not places:
        return lambda _: fixed
    of_places: KeyOf = itemgetter(*places)
    return of_places


def has_mark(line: Sequence[str], places: Iterable[int]) -> bool:
    """Whether one of some cells begins with the mark of a text."""
    return any(line[at].lstrip().startswith(MARK_OF_TEXT) for at in places)


class QuickRows:
    """Reads the rows of a file."""

    def __init__(self, table: Table, form: PlaceForm, plain: PlainRows, marks: Marks, raw: RowCells, known: QuickTexts):
        """`raw` makes the cells of a row."""
        self._plain, self._marks, self._raw, self._known = plain, marks, raw, known
        places, own, self._heads = plain.places, dict(plain.columns), form.head.heads
        self._beside, self._names = [places[name] for name in plain.beside], plain.beside
        self._flagged = (*plain.beside, table.flag)
        only = [places[name] for name in table.only]
        self._outlet_of = key_of_outlet(own.get("outlet", []), only, form.fixed.get("outlet", ""))
        self._item_of = key_of_cells(own.get("item", []), form.fixed.get("item", ""))
        self._month_of = key_of_cells(own.get("month", []), form.fixed.get("month", ""))
        self._months: dict[Any, QuotedMonth] = {}
        self._is_single = not table.heads
        self._columns = [*self._price_columns(form, own)]
        self._read = {*only, *self._beside, *(at for each in own.values() for at in each)}
        self._read |= {at for column in self._columns for at in (column.at, column.flag) if at >= 0}
        self._unread = [at for at, head in enumerate(self._heads) if head and at not in self._read]
        self._quotes = Quotes()

    def _price_columns(self, form: PlaceForm, own: Mapping[str, Sequence[int]]) -> Iterator[PriceColumn]:
        if self._is_single:
            at = own["value"][0]
            yield PriceColumn(at, -1, itemgetter(at, *self._beside), None, QuotePlace(form.label, form.names))
            return
        for (at, month, flag), names in zip(self._plain.wide, form.wide_names):
            key_of = itemgetter(at, *self._beside, *([flag] if flag >= 0 else []))
            yield PriceColumn(at, flag, key_of, QuotedMonth(month, ""), QuotePlace(form.label, names))

    # ---- rows

    def read(
        self, lines: Iterator[Sequence[str]], first: int, look_at: Callable[[int, list[str]], Sequence[Row]]
    ) -> Iterator[Union[Row, Quotes]]:
        """The rows of some lines, of which the first has a number; `look_at` makes those of the cells that aren't all
        known. Raises BadSheet, once it has given the rows above."""
        quotes, width, is_odd = self._quotes, len(self._heads), self._make_test()
        add = self._make_adder() if self._is_single else self._make_adder_of_months()
        try:
            for number, line in enumerate(lines, first):
                if len(line) < width:
                    # (some programs leave out the last cells of a row if they are empty)
                    line = [*line, *[""] * (width - len(line))]
                if not (len(line) == width and not (is_odd and is_odd(line)) and add(number, line)):
                    yield from self._look(number, line, look_at)
                if len(quotes) >= MOST_QUOTES:
                    yield self._take()
        except BadSheet:
            yield self._take()
            raise
        yield self._take()

    def _look(
        self, number: int, line: Sequence[str], look_at: Callable[[int, list[str]], Sequence[Row]]
    ) -> Iterator[Union[Row, Quotes]]:
        """The rows of a line of which not all is known, behind the quotes so far; none if it becomes quotes itself."""
        cells = self._raw.cells(number, line)
        if cells is None or self._learn(number, line, cells):
            return
        rows = look_at(number, cells)
        if rows and self._quotes:
            yield self._take()
        yield from rows

    def _take(self) -> Quotes:
        """The quotes so far."""
        taken = Quotes(self._quotes)
        self._quotes.clear()
        return taken

    def _make_test(self) -> Optional[Callable[[Sequence[str]], bool]]:
        """A function that says whether the cells that aren't read have something to tell; None if there are none."""
        unread, gaps, named, heads = self._unread, self._raw.gaps, self._raw.named, self._heads
        # (a price is known whatever column of months it is in, so also that which is the name of the first one)
        is_of_months = not self._is_single and any(column.at == named for column in self._columns)
        if not unread and not gaps and not is_of_months:
            return None
        if gaps or is_of_months or named in unread:
            return lambda line: (
                any(line[at] for at in gaps) or has_mark(line, unread) or line[named].strip().lower() == heads[named]
            )
        if len(unread) == 1:
            (one,) = unread
            return lambda line: MARK_OF_TEXT in line[one] and has_mark(line, unread)
        of_unread = itemgetter(*unread)
        return lambda line: MARK_OF_TEXT in "".join(of_unread(line)) and has_mark(line, unread)

    def _make_adder(self) -> Callable[[int, Sequence[str]], bool]:
        """A function that adds the quote of a row with one price if all is known, and says whether it is."""
        outlets, prices, months, add = self._known.outlets, self._known.prices, self._months, self._quotes.append
        outlet_of, item_of, month_of = self._outlet_of, self._item_of, self._month_of
        _, _, price_of, _, place = self._columns[0]

        def add_quote(number: int, line: Sequence[str]) -> bool:
            items, month, text = outlets.get(outlet_of(line)), months.get(month_of(line)), prices.get(price_of(line))
            series = items.get(item_of(line)) if items else None
            if series is None or month is None or text is None:
                return False
            add((number, series, month, text, place))
            return True

        return add_quote

    def _make_adder_of_months(self) -> Callable[[int, Sequence[str]], bool]:
        """The same for the quotes of a row with a price for each month."""
        outlets, prices, quotes = self._known.outlets, self._known.prices, self._quotes
        outlet_of, item_of, columns = self._outlet_of, self._item_of, self._columns

        def add_quotes(number: int, line: Sequence[str]) -> bool:
            items = outlets.get(outlet_of(line))
            series = items.get(item_of(line)) if items else None
            if series is None:
                return False
            own: list[Quote] = []
            for _, _, price_of, month, place in columns:
                text = prices.get(price_of(line))
                if text is None:
                    return False
                if text is not NO_TEXT and month:
                    own.append((number, series, month, text, place))
            quotes.extend(own)
            return True

        return add_quotes

    # ---- what isn't known yet

    def _learn(self, number: int, line: Sequence[str], cells: Sequence[str]) -> bool:
        """Adds the quotes of a row if there is nothing to tell of it; whether that is so. Its texts are known from then
        on, but for those of a row that may be a heading, and of one with marks of texts."""
        row = self._plain.name_columns(cells)
        if row is None:
            return False
        is_kept = len(line) == len(self._heads) and not self._raw.is_like_heading(cells)
        kept = line if is_kept and not has_mark(line, self._read) else None
        month = self._learn_month(row, kept) if self._is_single else None
        texts = [self._learn_text(column, cells, kept) for column in self._columns]
        if self._is_single and month is None or None in texts:
            return False
        series = self._learn_series(row, kept)
        for text, column in zip(texts, self._columns):
            of = column.month or month
            if of and text and text is not NO_TEXT:
                self._quotes.append((number, series, of, text, column.place))
        return True

    def _learn_month(self, row: Mapping[str, str], kept: Optional[Sequence[str]]) -> Optional[QuotedMonth]:
        """The month of a row with one price; None if it wasn't looked at yet, or is none."""
        text = row.get("month", "")
        known = (text, row[DAY]) if DAY in row else self._plain.months.get(text)
        if known is None or not known[0]:
            return None
        month = QuotedMonth(*known)
        if kept and len(self._months) < MOST_KNOWN:
            month = self._months.setdefault(self._month_of(kept), month)
        return month

    def _learn_text(
        self, column: PriceColumn, cells: Sequence[str], kept: Optional[Sequence[str]]
    ) -> Optional[QuotedText]:
        """The price of a column with its mark; None if there is something to tell."""
        key = column.key_of(kept) if kept else None
        known = self._known.prices.get(key) if kept else None
        if known:
            return known
        marks, names = [cells[at] for at in self._beside], self._names
        if column.flag >= 0:
            marks, names = [*marks, cells[column.flag]], self._flagged
        meaning = self._marks.plain(cells[column.at], tuple(marks), names)
        if meaning is None:
            return None
        text = NO_TEXT if meaning is NO_QUOTE else QuotedText(meaning.mark, meaning.text)
        if kept:
            self._known.keep_price(key, text)
        return text

    def _learn_series(self, row: Mapping[str, str], kept: Optional[Sequence[str]]) -> QuotedSeries:
        """The series of a row."""
        if not kept:
            return QuotedSeries(row["outlet"], row["item"])
        return self._known.keep_series(self._outlet_of(kept), self._item_of(kept), row["outlet"], row["item"])

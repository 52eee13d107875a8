"""The prices of a sheet on the disk, so that memory doesn't grow with them: they are read row by row, and sent month by
month.

The store is a private SQLite file without a name, which ends with the process. Memory holds one import of a collector;
the file contains numbers for collectors and slots, whose names are in memory.
"""

from __future__ import annotations

import sqlite3
from collections import Counter
from collections.abc import Callable, Collection, Iterable, Iterator, Sequence
from itertools import groupby
from typing import NamedTuple, Optional, Union

from ..text.terminal import month_text
from .cells import BadSheet, Origin
from .sheet_numbers import MISSING, Differ, Given, Rule, one_of, pack_hint
from .record_rows import COLLECTOR, SLOT, Cells, QuoteRows, Sent

TABLES = """
CREATE TABLE price (
  id INTEGER PRIMARY KEY, month INT, turn INT, collector INT, slot INT, mark INT, value, confirm TEXT,
  row INT, form INT, said INT, day TEXT
);
CREATE TABLE said (id INTEGER PRIMARY KEY, given TEXT, hint TEXT);
CREATE TABLE item (id INTEGER PRIMARY KEY, item TEXT, aggregate TEXT);
CREATE TABLE series (
  collector INT, slot INT, item_id INT, is_new INT, PRIMARY KEY (collector, slot)
) WITHOUT ROWID;
CREATE TABLE counted (item_id INT, minor INT, times INT);
CREATE TABLE stored (month INT, collector INT, slot INT, turn INT, mark INT, value);
CREATE INDEX by_slot ON stored (collector, slot);
"""

CACHE = "PRAGMA cache_size = -32000"
"""Kilobytes of memory, also for sorting."""

INSERT = f"INSERT INTO price VALUES (NULL{', ?' * 11})"
INDEX = "CREATE INDEX by_month ON price (month, collector, turn, slot)"

IS_STORED = """
SELECT 1 FROM stored AS it WHERE it.month = price.month AND it.collector = price.collector AND it.slot = price.slot
  AND it.turn IN (price.turn, 0) AND it.mark = price.mark AND it.value = price.value
"""

IS_NUMBER = "mark != 0 AND typeof(value) = 'integer'"
"""A price that is a whole number of minor units; mark 0 is `missing`."""

FIGURES = f"""
SELECT price.id, item, aggregate, value AS minor, is_new
  FROM price JOIN series USING (collector, slot) JOIN item ON item.id = item_id WHERE {IS_NUMBER}
"""

MOST_SAID = 50_000
"""Texts of cells whose numbers are kept in memory."""


QUOTE = "id, collector, slot, mark, value, confirm"
"""The columns of a `QuoteRow`."""

Value = Union[int, str]
"""A value of a price: minor units as a number, other texts as they are."""

StoreRow = tuple[int, int, int, int, int, Value, str, int, int, int, str]
"""The columns of `price` but for its number: texts by their numbers."""


class Form(NamedTuple):
    """The origin of a price's fields: the file, and the names of their columns (the last one gives its slot)."""

    file: str
    columns: tuple[str, ...]


class Price(NamedTuple):
    """A price or a reason as it is sent, with the revision whose freeze takes it first; the row of its file, its form,
    its cell's text, hints about an invalid price, and its day, `2026-01-15`, if the file says it."""

    month: str
    turn: int
    collector: str
    slot: str
    mark: str
    value: str
    confirm: str
    row: int
    form: Form
    given: str
    hint: str
    day: str = ""


class Series(NamedTuple):
    """A slot with its item, the item's aggregate, empty if it isn't known, and whether no office has a price of it."""

    collector: str
    slot: str
    item: str
    aggregate: str
    is_new: bool


class Values(NamedTuple):
    """A price in minor units, with the number of its occurrences for an item of an aggregate."""

    item: str
    aggregate: str
    minor: int
    times: int


class Figure(NamedTuple):
    """A price in minor units: its number in the store, and its item and aggregate; `is_new` comes from its series."""

    number: int
    item: str
    aggregate: str
    minor: int
    is_new: bool


class PricedCell(NamedTuple):
    """The cell of a price: its number in the store, its slot, its place, its text, and its value in minor units."""

    number: int
    collector: str
    slot: str
    origin: Origin
    given: str
    minor: int


class Repeated(NamedTuple):
    """A row with the slot, month and revision of a row above, with the texts of both cells; `first_file` is the file of
    the row above, if it is a different one."""

    month: str
    collector: str
    slot: str
    first_row: int
    first_file: str
    first: str
    origin: Origin
    text: str
    is_same: bool


class StoredPrice(NamedTuple):
    """A quote that an office has: frozen with the revision `turn`, or the stored one (0)."""

    month: str
    collector: str
    slot: str
    turn: int
    mark: str
    value: str


class Late(NamedTuple):
    """Prices of a month whose revisions are frozen: the first of them, and their number."""

    first: Sent
    number: int


class Names(dict[str, int]):
    """Numbers for texts with few different values, and the texts by their numbers."""

    def __init__(self) -> None:
        super().__init__()
        self.texts: list[str] = []

    def __missing__(self, text: str) -> int:
        number = self[text] = len(self.texts)
        self.texts.append(text)
        return number


class MonthNumbers(dict[str, int]):
    """202601 for `2026-01`, for each month with a price."""

    def __missing__(self, month: str) -> int:
        number = self[month] = int(month.replace("-", ""))
        return number


def value_of(text: str) -> Value:
    """A value as the store has it: a number if it is one of minor units above 0."""
    is_number = text.isascii() and text.isdigit() and text[0] != "0" and len(text) < 19
    return int(text) if is_number else text


class PriceStore:
    """The prices of an office's sheets."""

    def __init__(self) -> None:
        self._link = sqlite3.connect("", isolation_level=None)
        self._link.executescript(f"PRAGMA journal_mode = OFF; PRAGMA synchronous = OFF; {CACHE}; {TABLES}")
        self._link.execute("BEGIN")
        self._numbers: dict[Form, int] = {}
        self._forms: list[Form] = []
        self._last: Optional[Form] = None
        self._last_number = 0
        self._months, self._collectors, self._slots, self._marks = MonthNumbers(), Names(), Names(), Names()
        self._missing = self._marks[MISSING]
        self._said: dict[tuple[str, str], int] = {}
        self._unsaid: list[tuple[int, str, str]] = []
        self._last_said = 0

    def close(self) -> None:
        """Closes the store; nothing remains of it."""
        self._link.close()

    # ---- filling

    def fill(self, prices: Iterable[Price]) -> None:
        """Stores prices, in the order of the sheet, and makes them quick to find by month."""
        self.fill_rows(map(self.number, prices))

    def fill_rows(self, rows: Iterable[StoreRow]) -> None:
        """The same with rows of the store."""
        try:
            self._link.executemany(INSERT, rows)
        except BadSheet:
            # (those above the row that can't be read are stored, and are judged like the others)
            self._end_filling()
            raise
        self._end_filling()

    def _end_filling(self) -> None:
        self._write_said()
        self._link.execute(INDEX)

    def number(self, price: Price) -> StoreRow:
        """The row of the store that a price is."""
        month, turn, collector, slot, mark, value, confirm, row, form, given, hint, day = price
        if form is not self._last:
            self._last, self._last_number = form, self._number_form(form)
        numbers = self._months[month], turn, self._collectors[collector], self._slots[slot], self._marks[mark]
        said = self._say(given, pack_hint(hint) if hint else "")
        return (*numbers, value_of(value), confirm, row, self._last_number, said, day)

    def _number_form(self, form: Form) -> int:
        """The number of a form; there are few of them, and one after the other is mostly the same."""
        number = self._numbers.get(form)
        if number is None:
            number = self._numbers[form] = len(self._forms)
            self._forms.append(form)
        return number

    def _say(self, given: str, hint: str) -> int:
        """The number of a cell's text and of hints about it; a second one if it comes again after many others."""
        number = self._said.get((given, hint))
        if number is None:
            if len(self._said) >= MOST_SAID:
                self._write_said()
            self._last_said = number = self._last_said + 1
            self._said[given, hint] = number
            self._unsaid.append((number, given, hint))
        return number

    def _write_said(self) -> None:
        """Stores the texts that aren't stored yet."""
        self._link.executemany("INSERT INTO said VALUES (?, ?, ?)", self._unsaid)
        self._said, self._unsaid = {}, []

    def _place(self, form: int, row: int) -> Origin:
        """The cell of a price."""
        file, columns = self._forms[form]
        return Origin(file, row, columns[3])

    def _slot(self, collector: int, slot: int) -> tuple[str, str]:
        """The names of a collector and of a slot."""
        return self._collectors.texts[collector], self._slots.texts[slot]

    def settle(self, rule: Rule) -> Iterator[tuple[Origin, Differ]]:
        """Combines several prices of a slot, month and revision into one with a rule, and rounds it if the rule says
        so; reports prices whose marks differ."""
        link = self._link
        link.execute("CREATE TEMP TABLE kept (id INTEGER PRIMARY KEY, value, confirm TEXT, said INT)")
        odd: list[tuple[tuple[object, ...], Differ]] = []
        link.executemany("INSERT INTO kept VALUES (?, ?, ?, ?)", self._settle_prices(rule, odd))
        self._write_said()
        for _, differ in sorted(odd):
            form, row = link.execute("SELECT form, row FROM price WHERE id = ?", (differ.number,)).fetchone()
            yield self._place(form, row), differ
        if rule.several:
            link.execute("DELETE FROM price WHERE id NOT IN (SELECT id FROM kept)")
        link.execute(
            "UPDATE price SET (value, confirm, said) = (SELECT value, confirm, said FROM kept WHERE kept.id = price.id)"
            " WHERE id IN (SELECT id FROM kept)"
        )
        link.execute("DROP TABLE kept")

    def _settle_prices(
        self, rule: Rule, odd: list[tuple[tuple[object, ...], Differ]]
    ) -> Iterator[tuple[int, Value, str, int]]:
        """Number, value, `confirm` and the number of its text of each price that is kept. Those that differ are `odd`,
        each behind its month, revision and slot."""
        order = "month, turn, collector, slot, day, price.id" if rule.several else "price.id"
        where = "" if rule.several else " WHERE value GLOB '[0-9]*/[0-9]*'"
        rows = self._link.execute(
            "SELECT month, turn, collector, slot, price.id, mark, value, confirm, hint, given"
            f" FROM price JOIN said ON said.id = said{where} ORDER BY {order}"
        )
        for of, group in groupby(rows, key=lambda row: tuple(row[:4]) if rule.several else (row[4],)):
            own = [*group]
            one = one_of([Given(row[4], self._marks.texts[row[5]], str(row[6]), *row[7:9]) for row in own], rule)
            if isinstance(one, Differ):
                month, turn, collector, slot = of
                odd.append(((month, turn, *self._slot(collector, slot)), one))
            else:
                given = next(row[9] for row in own if row[4] == one.number)
                yield one.number, value_of(one.value), one.confirm, self._say(given, pack_hint(one.hint))

    def take_repeated(self) -> Iterator[Repeated]:
        """Removes each row with the slot, month and revision of a row above, and returns these rows."""
        self._link.execute(
            "CREATE TEMP TABLE repeated AS SELECT b.id, b.month, b.collector, b.slot, a.row AS first_row,"
            " a.form AS first_form, sa.given AS first, b.row, sb.given,"
            " a.mark = b.mark AND a.value = b.value AS is_same, b.form"
            " FROM (SELECT min(id) AS id, month, collector, turn, slot FROM price"
            "   GROUP BY month, collector, turn, slot HAVING count(*) > 1) AS g"
            " JOIN price AS a ON a.id = g.id"
            " JOIN price AS b ON b.month = g.month AND b.turn = g.turn AND b.collector = g.collector"
            "   AND b.slot = g.slot AND b.id > g.id"
            " JOIN said AS sa ON sa.id = a.said JOIN said AS sb ON sb.id = b.said"
        )
        self._link.execute("DELETE FROM price WHERE id IN (SELECT id FROM repeated)")
        for _, month, collector, slot, *of, is_same, form in self._link.execute("SELECT * FROM repeated ORDER BY id"):
            first_row, first_form, first, row, text = of
            file, origin = self._forms[first_form].file, self._place(form, row)
            other, named = "" if file == origin.file else file, (month_text(month), *self._slot(collector, slot))
            yield Repeated(*named, first_row, other, first, origin, text, bool(is_same))

    def take_stored(self, stored: Iterable[StoredPrice]) -> int:
        """Removes each price that an office has with the same value; returns their number."""
        rows = (
            (
                self._months[quote.month],
                self._collectors[quote.collector],
                self._slots[quote.slot],
                quote.turn,
                self._marks[quote.mark],
                value_of(quote.value),
            )
            for quote in stored
        )
        self._link.executemany("INSERT INTO stored VALUES (?, ?, ?, ?, ?, ?)", rows)
        months = "SELECT DISTINCT month FROM stored"
        count = self._link.execute(f"DELETE FROM price WHERE month IN ({months}) AND EXISTS ({IS_STORED})").rowcount
        self._link.execute("DELETE FROM stored")
        return count

    def confirm(self, number: int) -> None:
        """Marks a price to be sent with `confirm` from now on."""
        self._link.execute("UPDATE price SET confirm = 'confirm' WHERE id = ?", (number,))

    # ---- figures, for those who look at them together

    def name_series(self, series: Iterable[Series]) -> None:
        """Says what each slot prices, and counts the prices of each item."""
        items: dict[tuple[str, str], int] = {}
        rows = (
            (
                self._collectors[each.collector],
                self._slots[each.slot],
                items.setdefault((each.item, each.aggregate), len(items)),
                each.is_new,
            )
            for each in series
        )
        self._link.executemany("INSERT OR REPLACE INTO series VALUES (?, ?, ?, ?)", rows)
        self._link.executemany("INSERT INTO item VALUES (?, ?, ?)", ((number, *of) for of, number in items.items()))
        self._link.execute(
            "INSERT INTO counted SELECT item_id, value, count(*) FROM price JOIN series USING (collector, slot)"
            f" WHERE {IS_NUMBER} GROUP BY item_id, value"
        )

    def list_values(self) -> Iterator[Values]:
        """All prices of series, by item, aggregate and value."""
        values = "SELECT item, aggregate, minor, times FROM counted JOIN item ON item.id = item_id"
        return map(Values._make, self._link.execute(f"{values} ORDER BY item, aggregate, minor"))

    def firsts(self) -> Iterator[Figure]:
        """The first price of each slot, by item."""
        first = f"SELECT min(month << 40 | id) AS at FROM price WHERE {IS_NUMBER} GROUP BY collector, slot"
        return map(
            Figure._make,
            self._link.execute(
                f"SELECT price.id, item, aggregate, value, is_new FROM ({first})"
                " JOIN price ON price.id = at & ((1 << 40) - 1) JOIN series USING (collector, slot)"
                " JOIN item ON item.id = item_id ORDER BY item"
            ),
        )

    def values_of_many(self, items: int) -> Iterator[tuple[int, int]]:
        """The values that are prices of at least so many items, each with the number of these items."""
        return self._link.execute(
            "SELECT minor, count(DISTINCT item) AS items FROM counted JOIN item ON item.id = item_id"
            " GROUP BY minor HAVING items >= ?",
            (items,),
        )

    def values(self) -> Iterator[int]:
        """The different values, each once."""
        return (minor for (minor,) in self._link.execute("SELECT DISTINCT minor FROM counted"))

    def figures_of(self, values: Collection[tuple[str, int]]) -> list[Figure]:
        """The prices of items that have one of some values, in the order of the sheet."""
        if not values:
            return []
        self._link.execute("CREATE TEMP TABLE wanted (item TEXT, minor INT, PRIMARY KEY (item, minor))")
        self._link.executemany("INSERT INTO wanted VALUES (?, ?)", values)
        rows = self._link.execute(f"{FIGURES} AND (item, minor) IN (SELECT item, minor FROM wanted) ORDER BY price.id")
        figures = [*map(Figure._make, rows)]
        self._link.execute("DROP TABLE wanted")
        return figures

    def cells(self, numbers: Iterable[int]) -> Iterator[PricedCell]:
        """The cells of some prices."""
        for number in numbers:
            row = self._link.execute(
                "SELECT collector, slot, row, form, given, value FROM price JOIN said ON said.id = said"
                " WHERE price.id = ?",
                (number,),
            ).fetchone()
            collector, slot, at, form, given, minor = row
            yield PricedCell(number, *self._slot(collector, slot), self._place(form, at), given, minor)

    # ---- reading

    def months(self) -> list[str]:
        """The months with a price."""
        months: list[str] = []
        above = 0
        while month := self._link.execute("SELECT min(month) FROM price WHERE month > ?", (above,)).fetchone()[0]:
            months.append(month_text(month))
            above = month
        return months

    def most_bundles(self) -> int:
        """An upper bound of the number of imports that send the prices: one for a collector, a month and a revision."""
        rows = self._link.execute("SELECT count(*) FROM (SELECT DISTINCT month, collector, turn FROM price)").fetchone()
        return int(rows[0]) + 1

    def late(self, month: str, first: int, last: int) -> Optional[Late]:
        """The quotes of a month whose revision is from `first` to `last`, None if there are none."""
        of = "FROM price WHERE month = ? AND turn BETWEEN ? AND ?"
        among = (self._months.get(month, 0), first, last)
        (count,) = self._link.execute(f"SELECT count(*) {of}", among).fetchone()
        if not count:
            return None
        (number,) = self._link.execute(f"SELECT id {of} ORDER BY turn, id LIMIT 1", among).fetchone()
        return Late(self._make_record(month, number), count)

    def imports(
        self, month: str, first: int, last: int, key_of: Callable[[str], str]
    ) -> Iterator[tuple[str, QuoteRows]]:
        """The quotes of a month whose revision is from `first` to `last`, as what each key sends: in the order of revisions
        and of the sheet, as far as no import has a slot twice. `key_of` has the keys of collectors."""
        of = "FROM price WHERE month = ? AND turn BETWEEN ? AND ? GROUP BY turn ORDER BY turn"
        among = (self._months.get(month, 0), first, last)
        parts = self._link.execute(f"SELECT turn, min(id), max(id), count(*) {of}", among).fetchall()
        if not parts:
            return
        turn, number, last_number, count = parts[0]
        if len(parts) > 1:
            imports = self._imports_of_turns(month, [turn for turn, *_ in parts], key_of)
        elif last_number - number + 1 == count:
            imports = self._imports_of_run(number, last_number, key_of)
        else:
            imports = self._imports_of_collectors(month, turn, key_of)
        for key, quotes in imports:
            yield key, QuoteRows(month, quotes, self._slots.texts, self._marks.texts, self._make_record)

    def _imports_of_run(self, first: int, last: int, key_of: Callable[[str], str]) -> Iterator[tuple[str, list[Cells]]]:
        """Imports of quotes that are one after the other in the sheet, of one month and revision, by their numbers."""
        of_keys: dict[str, list[Cells]] = {}
        of_collectors: dict[int, list[Cells]] = {}
        for quote in self._link.execute(f"SELECT {QUOTE} FROM price WHERE id BETWEEN ? AND ?", (first, last)):
            own = of_collectors.get(quote[COLLECTOR])
            if own is None:
                key = key_of(self._collectors.texts[quote[COLLECTOR]])
                own = of_collectors[quote[COLLECTOR]] = of_keys.setdefault(key, [])
            own.append(quote)
        yield from of_keys.items()

    def _imports_of_collectors(
        self, month: str, turn: int, key_of: Callable[[str], str]
    ) -> Iterator[tuple[str, list[Cells]]]:
        """Imports of the quotes of a month and a revision, collector by collector."""
        number, of_keys = self._months[month], dict[str, list[int]]()
        of = "FROM price WHERE month = ? AND turn = ? GROUP BY collector ORDER BY min(id)"
        for (collector,) in self._link.execute(f"SELECT collector {of}", (number, turn)):
            of_keys.setdefault(key_of(self._collectors.texts[collector]), []).append(collector)
        one = f"SELECT {QUOTE} FROM price WHERE month = ? AND collector = ? AND turn = ?"
        for key, collectors in of_keys.items():
            quotes = [quote for each in collectors for quote in self._link.execute(one, (number, each, turn))]
            quotes.sort()
            yield key, quotes

    def _imports_of_turns(
        self, month: str, turns: Sequence[int], key_of: Callable[[str], str]
    ) -> Iterator[tuple[str, list[Cells]]]:
        """Imports of the quotes of several revisions of a month: one has each slot once, and the next one those that
        come again."""
        of_keys: dict[str, list[int]] = {}
        imports: dict[tuple[int, str], None] = {}
        for again, collector in self._senders(month, turns):
            key = key_of(self._collectors.texts[collector])
            own = of_keys.setdefault(key, [])
            if collector not in own:
                own.append(collector)
            imports.setdefault((again, key))
        for again, key in imports:
            quotes = [quote for collector in of_keys[key] for quote in self._quotes(month, collector, turns, again)]
            yield key, [cells for _, cells in sorted(quotes)]

    def _senders(self, month: str, turns: Sequence[int]) -> Iterator[tuple[int, int]]:
        """The collectors of a month's quotes in their order, each behind how often the slot was there before: once for each
        of both, or more often."""
        seen = Counter[tuple[int, int]]()
        of = "SELECT collector, slot FROM price WHERE month = ? AND turn BETWEEN ? AND ? ORDER BY turn, id"
        for collector, slot in self._link.execute(of, (self._months[month], turns[0], turns[-1])):
            yield seen[collector, slot], collector
            seen[collector, slot] += 1

    def _quotes(self, month: str, collector: int, turns: Sequence[int], again: int) -> Iterator[tuple[int, Cells]]:
        """The quotes of a collector whose slots were there so often before, each behind its revision."""
        of = f"SELECT turn, {QUOTE} FROM price WHERE month = ? AND collector = ? AND turn BETWEEN ? AND ?"
        rows = self._link.execute(of, (self._months[month], collector, turns[0], turns[-1])).fetchall()
        seen = Counter[int]()
        for turn, *quote in sorted(rows):
            if seen[quote[SLOT]] == again:
                yield turn, tuple(quote)
            seen[quote[SLOT]] += 1

    def _make_record(self, month: str, number: int) -> Sent:
        """The row of an import that a quote is, by its number."""
        row = self._link.execute(
            "SELECT collector, slot, mark, value, confirm, row, form, hint, given"
            " FROM price JOIN said ON said.id = said WHERE price.id = ?",
            (number,),
        ).fetchone()
        collector, slot, mark, value, confirm, at, form, hint, given = row
        file, (*columns, own) = self._forms[form]
        of, name = self._slot(collector, slot)
        fields = ["quote", name, month, self._marks.texts[mark], str(value), *([confirm] if confirm else [])]
        return Sent(fields, Origin(file, at), tuple(columns), own, hint, given, of, number)

"""Rows of sheets that become records: what is sent for each; and an office's sheets with their columns."""

from __future__ import annotations

import contextlib
import tempfile
from array import array
from collections import Counter
from collections.abc import Callable, Collection, Iterable, Iterator, Sequence
from dataclasses import dataclass, field
from operator import itemgetter
from pathlib import Path
from typing import Any, NamedTuple, Protocol, Union, overload, runtime_checkable

from ..office.program import Reply, record
from ..text.others import Worded, of_others
from ..text.terminal import naming
from ..text.text_files import quote_cell
from .cells import Columns, Origin, SheetFault


# ==== rows of sheets that become records: the record that is sent for each, its origin, and the cell to which a refusal
# refers

MOST_ROWS = 20_000
"""The most rows of one import, and of one plan."""

MOST_RECORDS = 1_000_000
"""The most records of one replay."""

DESK = "desk"

FIELDS: dict[str, tuple[str, ...]] = {
    "item": ("item", "text", "unit", "low", "high"),
    "outlet": ("outlet", "name"),
    "collector": ("collector", "key"),
    "assign": ("collector", "slot", "outlet", "item", "first", "last"),
    "handover": ("collector", "slot", "to", "to_slot", "month"),
    "calendar": ("month", "opens", "closes", "publishes"),
    "quote": ("slot", "month", "mark", "value", "confirm"),
    "freeze": ("month", "carry"),
    "T": ("code", "title"),
    "W": ("code", "weight"),
    "I": ("item", "code"),
    "R": ("reference",),
}
"""The fields of each word after it, and those of the rows of a plan; a freeze has any number of codes."""

SPEAKS_OF: dict[tuple[str, int], str] = {
    ("item", 40): "item",
    ("outlet", 40): "outlet",
    ("collector", 40): "key",
    ("assign", 40): "slot",
    ("assign", 41): "item",
    ("assign", 42): "outlet",
    ("assign", 43): "collector",
    ("handover", 20): "slot",
    ("handover", 22): "month",
    ("handover", 40): "to_slot",
    ("handover", 43): "to",
    ("handover", 50): "month",
    ("handover", 51): "month",
    ("calendar", 50): "month",
    ("quote", 20): "slot",
    ("quote", 21): "month",
    ("quote", 22): "month",
    ("quote", 23): "month",
    ("quote", 24): "month",
    ("quote", 25): "mark",
    ("quote", 26): "value",
    ("freeze", 21): "month",
    ("freeze", 44): "carry",
    ("freeze", 46): "month",
    ("freeze", 48): "month",
    ("freeze", 49): "month",
    ("freeze", 50): "month",
}
"""The field to which a refusal of a word refers; 11 and 27 of a quote refer to its collector, 47 to a freeze's time,
and 10 to any field."""


class Problem(NamedTuple):
    """A row that isn't accepted: its place, the refusal's number, the reason, and what to do."""

    origin: Origin
    number: str
    because: str
    do: str


def slot_of(collector: str, slot: str) -> Worded:
    """`7/2` for a collector's slot, as a sheet gives both."""
    return of_others(f"{collector}/{slot}")


def problem_of(fault: SheetFault) -> Problem:
    """A fault of a sheet as a problem: it isn't a refusal, so it has no number."""
    return Problem(fault.origin, "", fault.because, fault.do)


@dataclass
class Sent:
    """A row of an import or a plan, or a record by itself: its word and fields, its origin, and the name of the column
    from which each field came.

    `own` is the column that says who sends it, or when; `hint` contains hints about a text that the program can't read
    (`pack_hint`). A price, a weight and a freeze have the text of their cell; a quote has the number of its collector, and
    its number in the store of prices.
    """

    fields: list[str]
    origin: Origin
    columns: tuple[str, ...]
    own: str = ""
    hint: str = ""
    given: str = ""
    collector: str = ""
    number: int = 0

    @property
    def word(self) -> str:
        """The record's word, or the letter of a plan's row."""
        return self.fields[0]

    def sources(self) -> Iterator[tuple[str, str]]:
        """Each field's name with the column from which it came."""
        return zip(FIELDS[self.word], self.columns)

    def text_of(self, name: str) -> str:
        """The text of a field in its cell; empty if the row has no such field."""
        if name in ("value", "weight", "frozen_at"):
            return self.given
        if name == "carry":
            return " ".join(self.fields[2:])
        names = FIELDS[self.word]
        return self.fields[1 + names.index(name)] if name in names[: len(self.fields) - 1] else ""

    def column(self, number: int) -> str:
        """The column to which a refusal refers; none for 10, about which the row itself says nothing."""
        if (self.word, number) in (("quote", 11), ("quote", 27), ("freeze", 47)):
            return self.own
        return self.name_column(SPEAKS_OF.get((self.word, number), ""))

    def name_column(self, name: str) -> str:
        """The column from which a field came, by the field's name."""
        return dict(self.sources()).get(name, "")

    def at(self, name: str) -> Origin:
        """The cell of a field."""
        return self.origin.at(self.name_column(name))


class SentRows(Sequence[Sent]):
    """Rows of an import that are made whenever they are read, so that a nation's series take little memory."""

    def __init__(self, numbers: Sequence[int], make: Callable[[int], Sent]):
        """`make` makes the row of a number."""
        self._numbers, self._make = numbers, make

    def __len__(self) -> int:
        return len(self._numbers)

    def __iter__(self) -> Iterator[Sent]:
        return map(self._make, self._numbers)

    @overload
    def __getitem__(self, at: int) -> Sent:
        ...

    @overload
    def __getitem__(self, at: slice) -> SentRows:
        ...

    def __getitem__(self, at: Union[int, slice]) -> Union[Sent, SentRows]:
        if isinstance(at, slice):
            return SentRows(self._numbers[at], self._make)
        return self._make(self._numbers[at])


@runtime_checkable
class WithBody(Protocol):
    """Rows that know the body of their import."""

    def body(self) -> str:
        """The body."""


@dataclass
class Bundle:
    """The rows that go to the program as one record: an import of rows, one row by itself, or a plan of rows.

    `at` is its moment in seconds since 1970 UTC, or another text, which the program will refuse; `year` is the plan's
    as a text.
    """

    at: Union[int, str]
    caller: str
    rows: Sequence[Sent]
    year: str = ""
    is_single: bool = field(default=False)

    def line(self) -> str:
        """The record."""
        if self.year:
            return record_with_body(self.at, self.caller, "plan", self.year, body=body_of(self.rows))
        if self.is_single:
            return record(self.at, self.caller, *self.rows[0].fields)
        return record_with_body(self.at, self.caller, "import", body=body_of(self.rows))

    def pair_replies(self, reply: Reply) -> Iterator[tuple[Sent, Reply]]:
        """Each row with its reply; if everything was refused at once, only the first row with that reply."""
        if not self.is_single and "rows" in reply:
            yield from zip(self.rows, reply["rows"])
        else:
            yield self.rows[0], reply


class KeptLines:
    """Records in a file without a name, which goes with the process, so that they are written as they were judged."""

    def __init__(self) -> None:
        self._folder = Path(tempfile.gettempdir())
        with naming(self._folder):
            self._file = tempfile.TemporaryFile()
        self._sizes = array("Q")

    def close(self) -> None:
        """Ends the file; nothing is left of it."""
        # (what it has is wanted no more, so also not what can't be written)
        with contextlib.suppress(OSError):
            self._file.close()

    def add(self, line: str) -> None:
        """Adds a record. Raises OSError."""
        content = line.encode()
        self._sizes.append(len(content))
        with naming(self._folder):
            self._file.write(content)

    def __iter__(self) -> Iterator[str]:
        with naming(self._folder):
            self._file.seek(0)
        for size in self._sizes:
            yield self._file.read(size).decode()


def record_with_body(*fields: object, body: str) -> str:
    """A record whose last field is a body: rows, each of several fields, so it is between quotes."""
    return f"{record(*fields)},{quote_cell(body)}" if "," in body else record(*fields, body)


def body_of(rows: Iterable[Sent]) -> str:
    """The body of an import or a plan; rows that know the body provide it themselves."""
    if isinstance(rows, WithBody):
        return rows.body()
    return "".join(f"{record(*row.fields)}\n" for row in rows)


def make_bundles(at: int, caller: str, rows: Iterable[Sent]) -> list[Bundle]:
    """Imports of at most 20,000 rows each."""
    all_rows = rows if isinstance(rows, Sequence) else [*rows]
    return [Bundle(at, caller, all_rows[start : start + MOST_ROWS]) for start in range(0, len(all_rows), MOST_ROWS)]


# ==== quotes of a month as rows of an import, as they are in the store of prices: each becomes a `Sent` when it is read
#
# Few of millions of quotes are refused, so only their texts are joined.

ODD = ('"', "\r")
"""Characters that put a cell of a record between quotes, besides commas and ends of lines."""


class QuoteRow(NamedTuple):
    """A quote in the store: its number there, the numbers of its collector, slot and mark, its value, and `confirm`."""

    number: int
    collector: int
    slot: int
    mark: int
    value: Union[int, str]
    confirm: str


NUMBER, COLLECTOR, SLOT, MARK = map(QuoteRow._fields.index, ("number", "collector", "slot", "mark"))

Cells = tuple[Any, ...]
"""The cells of a `QuoteRow` as the store gives them."""

SentOf = Callable[[str, int], Sent]
"""The row of an import that a quote of a month is, by its number."""


class QuoteRows(Sequence[Sent]):
    """Some quotes of a month, in their order."""

    def __init__(
        self, month: str, quotes: Sequence[Cells], slots: Sequence[str], marks: Sequence[str], sent_of: SentOf
    ):
        """`slots` and `marks` are names by their numbers."""
        self._month, self._quotes, self._slots, self._marks, self._sent_of = month, quotes, slots, marks, sent_of

    def __len__(self) -> int:
        return len(self._quotes)

    @overload
    def __getitem__(self, at: int) -> Sent:
        ...

    @overload
    def __getitem__(self, at: slice) -> QuoteRows:
        ...

    def __getitem__(self, at: Union[int, slice]) -> Union[Sent, QuoteRows]:
        if isinstance(at, slice):
            return QuoteRows(self._month, self._quotes[at], self._slots, self._marks, self._sent_of)
        return self._sent_of(self._month, self._quotes[at][NUMBER])

    @property
    def month(self) -> str:
        """The month of all quotes."""
        return self._month

    def marks(self) -> Counter[str]:
        """How many there are by their marks."""
        counts = Counter(map(itemgetter(MARK), self._quotes))
        return Counter({self._marks[mark]: count for mark, count in counts.items()})

    def mark(self, at: int) -> str:
        """The mark of one of them, by its place."""
        return self._marks[self._quotes[at][MARK]]

    def confirm(self, numbers: Collection[int]) -> None:
        """Those of some numbers are sent with `confirm` from now on."""
        quotes = map(QuoteRow._make, self._quotes)
        self._quotes = [each._replace(confirm="confirm") if each.number in numbers else each for each in quotes]

    def body(self) -> str:
        """The body of an import of them."""
        slots, marks, confirmed = self._slots, {*map(itemgetter(MARK), self._quotes)}, 0
        heads = {mark: f",{self._month},{self._marks[mark]}," for mark in marks}
        lines = []
        for _, _, slot, mark, value, confirm in self._quotes:
            if confirm:
                confirmed += 1
                value = f"{value},{confirm}"
            lines.append(f"quote,{slots[slot]}{heads[mark]}{value}\n")
        body = "".join(lines)
        count = len(lines)
        is_plain = body.count(",") == 4 * count + confirmed and body.count("\n") == count
        if is_plain and not any(sign in body for sign in ODD):
            return body
        return "".join(f"{record(*sent.fields)}\n" for sent in self)


# ==== the sheets of an office, and their columns: docs/decide/MIGRATING-AN-OFFICE.md describes each of them

SHEETS: dict[str, Columns] = {
    "items": Columns(FIELDS["item"], ("code",), texts=("text", "unit")),
    "outlets": Columns(FIELDS["outlet"], texts=("name",)),
    "collectors": Columns(("collector",), ("key",)),
    "series": Columns(("collector", "outlet", "item", "first", "last"), ("slot",)),
    "classification": Columns(("year", "code", "title", "weight"), texts=("title",)),
    "places": Columns(("year", "item", "code")),
    "plans": Columns(("year", "reference")),
    "handovers": Columns(("month", "collector", "slot", "to", "to_slot")),
    "calendar": Columns(FIELDS["calendar"]),
    "prices": Columns(
        ("month", "value"),
        ("collector", "slot", "outlet", "item", "mark", "confirm", "revision"),
    ),
    "releases": Columns(("month",), ("revision", "opens", "closes", "publishes", "frozen_at", "carry")),
}
"""The sheets of an office, in the order in which their rows are sent."""

NEEDED = ("items", "outlets", "collectors", "series", "classification", "calendar")
"""The sheets without which there is no office; an existing office needs none of them."""

MONTHS = {
    "series": ("first", "last"),
    "plans": ("reference",),
    "handovers": ("month",),
    "calendar": ("month",),
    "releases": ("month",),
}
"""The columns that contain months, besides the columns of prices."""

WINDOW = ("opens", "closes", "publishes")
MOVED = FIELDS["handover"]
DATES = {*WINDOW, "frozen_at", "code", *(column for columns in MONTHS.values() for column in columns)}
"""The columns that have their own text about a cell that is a date."""

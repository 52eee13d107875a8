"""Limits of a file's content: a greatest receipt, and the columns of its tables.

The program makes the file, and a statement changes it as another program would. A row of the small tables outside the
limits prevents the file from being opened; a row of another table is refused with 90 when it is read.
"""

from __future__ import annotations

from collections.abc import Callable, Iterator
from functools import partial
from typing import Any, NamedTuple, Optional

from second_office.office import Office
from second_office.requests import Record

from .limit import Limit, Told, count_of, month_of, refused
from .numbers import ITEMS, MOMENT, MONTH, OF_PLACES, PRICE, TOLERANCE
from .places import KA, OPEN, Records, records_of
from .texts import ITEM_CODE, KEY, NAME

RECEIPTS = "| receipts of one collector | 1 to 1,000,000 |"

NOT_OPENED, NOT_READ = "cpi: database failed", refused(90)


class Stored(NamedTuple):
    """The records of an office, statements that change its file, and the record that is then sent to it."""

    before: Records
    statements: list[str]
    asked: Record
    second: Optional[Callable[[Office], None]] = None
    """The same change to the second office, if that is compared too."""


# ---- receipts

QUOTED = [*OPEN, *records_of(f"1500,{KA},quote,1,2026-01,price,5")]


def of_receipt(receipt: int) -> Stored:
    """A quote whose collector's last receipt is one less."""

    def change(office: Office) -> None:
        place = (7, 1, (2026, 1))
        office.quotes[place] = office.quotes[place][0], receipt - 1

    asked = ["1500", KA, "quote", "1", "2026-01", "price", "6"]
    return Stored(QUOTED, [f"UPDATE quote_2 SET receipt = {receipt - 1}"], asked, change)


def told_receipt(receipt: int) -> str:
    """The answer to a quote with that receipt."""
    return f'{{"receipt":{receipt}}}'


# ---- columns


def number_of(count: int) -> str:
    """A month in the form of a column."""
    return month_of(count).replace("-", "")


def changed(statement: str, spelled: Callable[[int], str], before: Records, asked: str, value: int) -> Stored:
    """A file that a statement with the value has changed."""
    return Stored(before, [statement.replace("?", spelled(value))], asked.split(","))


def column(
    statement: str,
    ends: tuple[Optional[int], Optional[int]],
    said: str,
    spelled: Callable[[int], str] = str,
    before: Records = OPEN,
    asked: str = "0,public,tables",
    within: Told = '{"tables":[]}',
    outside: str = NOT_OPENED,
    **others: Any,
) -> Limit[Stored]:
    """The limit of a column, tested with a statement that contains its value."""
    ask = partial(changed, statement, spelled, before, asked)
    return Limit(statement, *ends, ask, within, outside, outside, said, **others)


MONTHS = count_of("2000-01"), count_of("2199-12")
MOMENTS = 0, 9_999_999_999
Column = tuple[str, tuple[int, int], str, Callable[[int], str]]
"""Columns of a row with `?` in place of the value, the ends, the words of the documents, and the way in which the value
is written."""

OF_ITEMS: list[Column] = [
    ("'TEA', '?', 'kg', 1, 1000", (1, 400), NAME, "x".__mul__),
    ("'TEA', 'Tea', '?', 1, 1000", (1, 400), NAME, "x".__mul__),
    ("'TEA', 'Tea', 'kg', ?, 1000", (1, 1000), TOLERANCE, str),
    ("'TEA', 'Tea', 'kg', 1000, ?", (1000, 10_000), TOLERANCE, str),
]


def opened() -> Iterator[Limit[Stored]]:
    """The small tables, which are tested as the file is opened."""
    yield column(f"INSERT INTO collector VALUES (?, '{'c' * 32}')", (1, 9999), OF_PLACES)
    yield column("INSERT INTO collector VALUES (9, '?')", (32, 32), KEY, "c".__mul__)
    yield column("INSERT INTO outlet VALUES (?, 'Shop')", (1, 999_999), OF_PLACES)
    yield column("INSERT INTO outlet VALUES (11, '?')", (1, 400), NAME, "x".__mul__, floor=0)
    yield column("INSERT INTO item VALUES ('?', 'Tea', 'kg', 1, 1000)", (1, 12), ITEM_CODE, "A".__mul__, floor=0)
    for columns, ends, said, spelled in OF_ITEMS:
        yield column(f"INSERT INTO item VALUES ({columns})", ends, said, spelled, floor=0)
    yield column("INSERT INTO calendar VALUES (?, 0, 1, 2)", MONTHS, MONTH, number_of)
    yield column("INSERT INTO calendar VALUES (202602, ?, 9999999999, 9999999999)", (0, None), MOMENT)
    for columns in ("0, ?, 9999999999", "0, 1, ?"):
        yield column(f"INSERT INTO calendar VALUES (202602, {columns})", (1, MOMENTS[1]), MOMENT, is_said=False)


OF_ASSIGNMENTS: list[Column] = [
    ("8, ?, 10, 'RICE', 202512, 202612, 8, ?, NULL", (1, 400), OF_PLACES, str),
    ("7, 3, 10, 'RICE', 202512, 202612, ?, 3, NULL", (1, 9999), OF_PLACES, str),
    ("7, 3, 10, 'RICE', 202512, 202612, 7, ?, NULL", (1, 400), OF_PLACES, str),
    ("7, 3, 10, 'RICE', ?, 219912, 7, 3, NULL", MONTHS, MONTH, number_of),
    ("7, 3, 10, 'RICE', 200001, ?, 7, 3, NULL", MONTHS, MONTH, number_of),
    ("7, 3, 10, 'RICE', 202512, 202612, 7, 3, ?", (1, 100_000_000), PRICE, str),
]
OF_QUOTES: list[Column] = [
    ("7, 1, 202601, 'price', ?, 1", (1, 100_000_000), PRICE, str),
    ("7, 1, 202601, 'comparable', ?, 1", (1, 100_000_000), PRICE, str),
    ("7, 1, 202601, 'other', ?, 1", (1, 100_000_000), PRICE, str),
    ("7, 1, 202601, 'price', 5, ?", (1, 1_000_000), RECEIPTS, str),
]


def surveyed() -> Iterator[Limit[Stored]]:
    """Assignments and quotes, which are read with the survey."""
    read: dict[str, Any] = {"asked": "0,public,items", "within": ITEMS, "outside": NOT_READ}
    for table, rows in (("assignment_2", OF_ASSIGNMENTS), ("quote_2", OF_QUOTES)):
        for columns, ends, said, spelled in rows:
            yield column(f"INSERT INTO {table} VALUES ({columns})", ends, said, spelled, **read)


LIMITS = [
    Limit("a receipt", None, 1_000_000, of_receipt, told_receipt, "", refused(27), RECEIPTS, "RECEIPT"),
    *opened(),
    *surveyed(),
]

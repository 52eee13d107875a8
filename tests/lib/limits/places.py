"""Records with a value in one of their places, in an office in which everything else of them is in order.

A place is a record in which `?` is the value. The text after a bar is a row of a plan's body, added to the rows of a
valid plan.
"""

from __future__ import annotations

from collections.abc import Callable, Iterator, Mapping
from functools import partial
from typing import Any, Optional

from second_office.records import text_of
from second_office.requests import Record

from .limit import BAD, DONE, Limit, Told, count_of, month_of

Records = list[Record]
Spelled = Callable[[int], str]
"""The way in which a value is written."""

KA, KB, KC = "a" * 32, "b" * 32, "c" * 32
"""The keys of the collectors 7 and 8, and one that nobody has. The collector 8 has no slot."""

NODES = ["00", "01", "01.1", "01.1.1", "01.1.1.1"]
"""The codes above two elementary aggregates."""

ONE, OTHER = "01.1.1.1-01", "01.1.1.1-02"

PLAN = text_of([*(["T", code, code] for code in [*NODES, ONE]), ["W", ONE, "1000000"], ["I", "RICE", ONE]])
"""The body of a plan."""


def records_of(text: str) -> Records:
    """The records of lines without quotation marks."""
    return [line.split(",") for line in text.splitlines()]


OPEN = records_of(
    f"""0,desk,item,RICE,Rice,1 kg,1,10000
0,desk,item,FLOUR,Flour,1 kg,700,1500
0,desk,outlet,10,Shop
0,desk,collector,7,{KA}
0,desk,collector,8,{KB}
0,desk,assign,7,1,10,RICE,2025-12,2026-12
0,desk,assign,7,2,10,FLOUR,2025-12,2026-12
0,desk,calendar,2025-12,0,1000,1000
0,desk,calendar,2026-01,1000,2000,3000"""
)
"""The records before the record with the value."""

FROZEN = [*OPEN, *records_of("1000,desk,freeze,2025-12")]


def quoted(rice: int, flour: int) -> Records:
    """The records before, with a price of each item in December."""
    quote = f"500,{KA},quote"
    return [*OPEN, *records_of(f"{quote},1,2025-12,price,{rice}\n{quote},2,2025-12,price,{flour}")]


def two_digits(value: int) -> str:
    """A number of two digits."""
    return f"{value:02}"


def sent(*head: str, before: Records = OPEN) -> Callable[[str], Records]:
    """The records before, and a record whose last field is a body."""
    return lambda body: [*before, [*head, body]]


def asked_at(place: str, spelled: Spelled, before: Records, value: int) -> Records:
    """The records before, and the record of the place with the value."""
    head, bar, row = place.partition("|")
    text = spelled(value)
    record = [field.replace("?", text) for field in head.split(",")]
    return [*before, record + ([f"{PLAN}{row.replace('?', text)}\n"] if bar else [])]


def each(
    places: Mapping[str, Told],
    least: Optional[int],
    most: Optional[int],
    said: str,
    spelled: Spelled = str,
    before: Records = OPEN,
    outside: Told = BAD,
    **others: Any,
) -> Iterator[Limit[Records]]:
    """A limit in each of its places, with the answer within it; outside the limit the record isn't valid."""
    for place, within in places.items():
        asked = partial(asked_at, place, spelled, before)
        told: dict[str, Any] = {"below": outside, "above": outside, **others}
        yield Limit(place, least, most, asked, within, said=said, **told)


def moving(
    place: str, least: Optional[int], most: Optional[int], said: str, within: Told = DONE, **others: Any
) -> Limit[Records]:
    """A limit that the office's content decides, so that the documents can't give its number."""
    (limit,) = each({place: within}, least, most, said, is_said=False, **others)
    return limit


def moving_month(
    place: str, first: Optional[str], last: Optional[str], said: str, within: Told = DONE, **others: Any
) -> Limit[Records]:
    """A limit of a month, from the first to the last, that the office's content decides."""
    least, most = (None if month is None else count_of(month) for month in (first, last))
    return moving(place, least, most, said, within, spelled=month_of, **others)

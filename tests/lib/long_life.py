"""An office through two years: 200 slots, plans of 100 aggregates, each kind of record, some of them in imports."""

from __future__ import annotations

from collections.abc import Iterator, Sequence

from second_office.records import text_of
from second_office.requests import Record

from .offices import LAST, aggregates, key_of, plan_of, registered

ITEMS = [f"ITEM{at}" for at in range(100)]
SLOTS = range(1, 201)
TITLE = "Group with a title of some length,"
FORWARD = ["2025-12", "2027-12"]


def office_of(collectors: Sequence[int]) -> Iterator[Record]:
    """An office with its plan, and the months 2025-12 and 2026-01, the second of which stays open."""
    yield from registered(collectors, SLOTS, ITEMS, FORWARD)
    yield ["0", "desk", "calendar", "2025-12", "0", "1000", "1000"]
    yield ["0", "desk", "calendar", "2026-01", "1000", str(LAST), str(LAST)]
    yield ["0", "desk", "plan", "2026", plan_of(aggregates(100), ITEMS, TITLE)]


def entries(month: str, price: int) -> list[Record]:
    """A quote of each slot."""
    return [["quote", str(slot), month, "price", str(price + slot)] for slot in SLOTS]


def second_year() -> Iterator[Record]:
    """The months after January, in which everything but half of December's prices is carried, and then a January whose
    plan's weights are moved by these prices."""
    for at in range(2, 14):
        month = f"2026-{at:02}" if at < 13 else "2027-01"
        opens = 5000 + 100 * at
        yield ["0", "desk", "calendar", month, str(opens), str(opens + 50), str(opens + 50)]
        if month == "2026-12":
            yield [str(opens), key_of(1), "import", text_of(entries(month, 1200))]
        if month == "2027-01":
            yield ["0", "desk", "plan", "2027", plan_of(aggregates(100), ITEMS, TITLE, references=["2026-01"])]
        yield [str(opens + 50), "desk", "freeze", month, *aggregates(100)]
    yield [str(LAST), "public", "table", month, "text"]


def handed_over() -> Iterator[Record]:
    """Half of the first collector's series go to the second, one by one and in an import, and are listed."""
    yield ["0", "desk", "calendar", "2027-03", "9000", "9500", "9500"]
    hand_overs = [["handover", "1", str(slot), "2", str(200 + slot), "2027-03"] for slot in SLOTS[:100]]
    yield from (["9000", "desk", *each] for each in hand_overs[:50])
    yield ["9000", "desk", "import", text_of(hand_overs[50:])]
    yield from (["9000", key_of(number), "work", "2027-03"] for number in (1, 2))


def years() -> Iterator[Record]:
    """An office, its quotes one by one and by imports, two freezes, the second of which is repeated, another year and a
    January, series that are handed over, and tables."""
    yield from office_of([1, 2])
    for number in (1, 2):
        yield ["500", key_of(number), "import", text_of(entries("2025-12", 1000))]
    yield ["1000", "desk", "freeze", "2025-12"]
    yield ["0", "desk", "calendar", "2026-01", "1000", "2000", "3000"]
    for entry in entries("2026-01", 1010):
        yield ["1500", key_of(1), *entry]
    yield ["1500", key_of(2), "import", text_of(entries("2026-01", 1020))]
    yield ["1500", key_of(1), "quotes", "2025-12", "2026-01"]
    yield ["1500", key_of(1), "work", "2026-01"]
    yield ["2000", "desk", "freeze", "2026-01"]
    yield ["3000", "public", "table", "2026-01", "text"]
    yield ["0", "desk", "calendar", "2026-01", "1000", "2500", "4000"]
    yield ["2400", key_of(1), "quote", "1", "2026-01", "price", "1300"]
    yield ["2500", "desk", "freeze", "2026-01"]
    yield from second_year()
    yield from handed_over()
    yield ["4000", "public", "table", "2026-01", "text"]
    yield ["3000", "public", "import", "items\n" * 40]

"""An office for these tests: fifteen months with all that a computation of their tables has to get right.

A month with a revision, a missing price, a replacement that can't be compared, an aggregate on the carry list, a series
that is handed over, a node that leaves, and a plan with a reference month. Its last month is open for
ever, and a collector has many slots in it: tests under load send quotes there.
"""

from __future__ import annotations

import random
from collections.abc import Iterator

from cpi_tools.office.program import record
from lib.offices import plan_with

KEY, OTHER_KEY, LOAD_KEY = "a" * 32, "b" * 32, "f" * 32
MONTHS = [f"{at // 12:04}-{at % 12 + 1:02}" for at in range(2024 * 12 + 11, 2026 * 12 + 2)]
"""2024-12 to 2026-02."""

LOAD_MONTH, LOAD_COLLECTOR, LOAD_SLOTS = "2030-01", 9, 200

ITEMS = {"RICE": "01.1.1.1-01", "FLOUR": "01.1.1.2-01", "FUEL": "07.2.2.1-01", "PHONE": "08.1.1.1-01"}
WEIGHTS = {
    2025: {"01.1.1.1-01": 400_000, "01.1.1.2-01": 150_000, "07.2.2.1-01": 450_000},
    2026: {"01.1.1.1-01": 580_000, "07.2.2.1-01": 420_000},
}
REFERENCE = {2026: "2025-06"}
TITLES = {
    "00": "All items", "01": "Food", "01.1": 'Food, "proper"', "01.1.1": "Cereals", "01.1.1.1": "Rice",
    "01.1.1.1-01": "Rice, packed", "01.1.1.2": "Flour", "01.1.1.2-01": "Flour & <meal>", "07": "Transport",
    "07.2": "Running", "07.2.2": "Fuels", "07.2.2.1": "Petrol", "07.2.2.1-01": "Petrol",
}  # fmt: skip

TABLES = len(MONTHS) + 1
"""One of each month, and a revision."""


def plan(year: int) -> str:
    """The plan of a year as the body of its record."""
    return plan_with(TITLES, WEIGHTS[year], ITEMS, [REFERENCE[year]] if year in REFERENCE else [])


def registered() -> Iterator[str]:
    """Items, outlets, collectors and assignments."""
    yield from (record(0, "desk", "item", item, item.title(), "1", 1, 10_000) for item in ITEMS)
    yield record(0, "desk", "outlet", 1, "Harbour market")
    for number, key in ((1, KEY), (2, OTHER_KEY), (LOAD_COLLECTOR, LOAD_KEY)):
        yield record(0, "desk", "collector", number, key)
    for slot in range(1, 9):
        yield record(0, "desk", "assign", 1, slot, 1, [*ITEMS][(slot - 1) // 2], "2024-12", "2027-12")
    yield record(0, "desk", "calendar", LOAD_MONTH, 1, 9_999_999_998, 9_999_999_999)
    for slot in range(1, LOAD_SLOTS + 1):
        yield record(0, "desk", "assign", LOAD_COLLECTOR, slot, 1, "RICE", LOAD_MONTH, LOAD_MONTH)


def entry(month: str, slot: int, price: int) -> tuple[object, ...]:
    """Mark and value of a slot in a month."""
    if month == "2025-05" and slot == 2:
        return "missing", "stock"
    if month == "2025-07" and slot in (3, 4):
        return "missing", "gone"
    if month == "2025-04" and slot == 5:
        return "other", 2 * price
    return "price", price


def quoted(month: str, at: int, drawn: random.Random, prices: dict[int, int]) -> Iterator[str]:
    """A price of each slot; from 2025-06 on the third is another collector's first."""
    for slot in range(1, 9):
        prices[slot] = max(50, prices.get(slot, 1000 * slot) * drawn.randint(960, 1050) // 1000)
        key, own = (OTHER_KEY, 1) if slot == 3 and month >= "2025-06" else (KEY, slot)
        yield record(at, key, "quote", own, month, *entry(month, slot, prices[slot]))


def lived() -> list[str]:
    """The records of the whole office; none is refused."""
    drawn, prices, found = random.Random(3), {}, [*registered()]  # type: ignore[var-annotated]
    for number, month in enumerate(MONTHS):
        opens = 1000 * number
        found.append(record(opens, "desk", "calendar", month, opens, opens + 500, opens + 900))
        if month.endswith("-01"):
            found.append(record(opens, "desk", "plan", month[:4], plan(int(month[:4]))))
        if month == "2025-06":
            found.append(record(opens, "desk", "handover", 1, 3, 2, 1, month))
        found += quoted(month, opens + 1, drawn, prices)
        carry = ["01.1.1.2-01"] if month == "2025-07" else []
        found.append(record(opens + 500, "desk", "freeze", month, *carry))
        if month == "2025-03":
            found.append(record(opens + 501, "desk", "calendar", month, opens, opens + 600, opens + 950))
            found.append(record(opens + 550, KEY, "quote", 1, month, "price", 1200))
            found.append(record(opens + 550, KEY, "quote", 2, month, "missing", "refused"))
            found.append(record(opens + 600, "desk", "freeze", month))
    return found

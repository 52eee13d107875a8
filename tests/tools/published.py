"""An office for the tests of what is published: 31 months and three revisions. Flour leaves, telephones come, and
pears leave and are back.

Under embargo are both revisions of the last month, and the second revision of the month two before it.
"""

from __future__ import annotations

import random
from collections.abc import Iterator
from pathlib import Path
from typing import NamedTuple

from cpi_tools.office.program import Cpi, record
from lib.offices import plan_with

KEY = "0123456789abcdef0123456789abcdef"
MONTHS = [f"{at // 12:04}-{at % 12 + 1:02}" for at in range(2024 * 12 + 11, 2027 * 12 + 6)]
"""2024-12 to 2027-06."""

REVISED, HIDDEN_REVISION, LAST = "2026-03", "2027-04", "2027-06"
NOW = 1_700_000_000
"""A moment that every clock has passed; all but what is under embargo is published long before it."""

LONG_AFTER = 9_000_000_000
"""A moment that no clock shows in the lifetime of these tests: what is published then is under embargo now."""

WEIGHTS = {
    2025: {"01.1.1.1-01": 400_000, "01.1.1.2-01": 150_000, "01.1.6.2-01": 100_000, "07.2.2.1-01": 350_000},
    2026: {"01.1.1.1-01": 380_000, "07.2.2.1-01": 420_000, "08.1.1.1-01": 200_000},
    2027: {"01.1.1.1-01": 390_000, "01.1.6.2-01": 90_000, "07.2.2.1-01": 310_000, "08.1.1.1-01": 210_000},
}
ITEMS = {"RICE": "01.1.1.1-01", "FLOUR": "01.1.1.2-01", "FUEL": "07.2.2.1-01", "PHONE": "08.1.1.1-01",
         "PEAR": "01.1.6.2-01"}  # fmt: skip
TITLES = {
    "00": "All items", "01": "Food", "01.1": 'Food, "proper"', "01.1.1": "Cereals", "01.1.1.1": "Rice",
    "01.1.1.1-01": "Rice, packed", "01.1.1.2": "Flour", "01.1.1.2-01": "Flour & <meal>", "01.1.6": "Fruit",
    "01.1.6.2": "Pears", "01.1.6.2-01": "Pears", "07": "Transport",
    "07.2": "Running", "07.2.2": "Fuels", "07.2.2.1": "Petrol", "07.2.2.1-01": "Petrol", "08": "Communication",
    "08.1": "Equipment", "08.1.1": "Telephones", "08.1.1.1": "Mobile", "08.1.1.1-01": "=Mobile",
}  # fmt: skip
CODES = 21
SLOTS = range(1, 2 * len(ITEMS) + 1)


class Office(NamedTuple):
    """Its file, a moment at which all is out that isn't under embargo, and what is: month and revision."""

    file: Path
    at: int
    hidden: list[tuple[str, int]]


def shown() -> list[tuple[str, int]]:
    """What is published at `Office.at`: month and revision."""
    return sorted([(month, 1) for month in MONTHS[:-1]] + [(REVISED, 2)])


def plan(year: int) -> str:
    """The plan of a year as the body of its record."""
    return plan_with(TITLES, WEIGHTS[year], ITEMS)


def registered() -> Iterator[str]:
    """Items, an outlet, a collector and its slots."""
    yield from (record(0, "desk", "item", item, item.title(), "1", 1, 10_000) for item in ITEMS)
    yield record(0, "desk", "outlet", 1, "Harbour market")
    yield record(0, "desk", "collector", 1, KEY)
    for slot in SLOTS:
        yield record(0, "desk", "assign", 1, slot, 1, [*ITEMS][(slot - 1) // 2], "2024-12", "2027-12")


def priced(at: int, month: str, drawn: random.Random, prices: dict[int, int]) -> Iterator[str]:
    """A price of each slot; one is missing each May."""
    for slot in SLOTS:
        prices[slot] = max(50, prices.get(slot, 1000 * slot) * drawn.randint(960, 1050) // 1000)
        mark = ("missing", "stock") if slot == 2 and month.endswith("-05") else ("price", prices[slot])
        yield record(at, KEY, "quote", slot, month, *mark)


def revised(opens: int, month: str, price: int, publishes: int) -> list[str]:
    """The month again, with another price of the first slot."""
    return [
        record(opens, "desk", "calendar", month, opens, opens + 600, publishes),
        record(opens + 550, KEY, "quote", 1, month, "price", price),
        record(opens + 600, "desk", "freeze", month),
    ]


def lived() -> list[str]:
    """The records of the whole office; none is refused."""
    drawn, prices, found = random.Random(3), {}, [*registered()]  # type: ignore[var-annotated]
    for number, month in enumerate(MONTHS):
        opens = 1000 * number
        publishes = LONG_AFTER if month == LAST else opens + 900
        found.append(record(opens, "desk", "calendar", month, opens, opens + 500, publishes))
        if month.endswith("-01"):
            found.append(record(opens, "desk", "plan", month[:4], plan(int(month[:4]))))
        found += priced(opens + 1, month, drawn, prices)
        found.append(record(opens + 500, "desk", "freeze", month))
        if month == REVISED:
            found += revised(opens, month, 1200, opens + 990)
        if month in (HIDDEN_REVISION, LAST):
            found += revised(opens, month, 1500, LONG_AFTER + 1)
    return found


def made(cpi: Cpi, file: Path) -> Office:
    """The office in a file; nothing of it is refused."""
    refused = [reply for reply in cpi.replay(lived(), db=file) if "refused" in reply]
    assert not refused
    return Office(file, NOW, [(HIDDEN_REVISION, 2), (LAST, 1), (LAST, 2)])

"""Offices for the tests of what single prices are published for: one worked by hand, and one drawn at random.

Both say what was frozen as it was sent, by month and revision. The last table of each is under embargo.
"""

from __future__ import annotations

import random
from collections.abc import Iterator
from pathlib import Path
from typing import NamedTuple, Optional

from cpi_tools.office.program import Cpi, record
from lib.offices import RICE_AND_FLOUR, key_of, plan_with, quoted

NOW = 1_700_000_000
"""A moment at which all is published that isn't under embargo."""

LONG_AFTER = 9_000_000_000

MONTHS = ("2025-12", "2026-01", "2026-02", "2026-03")
REVISED, HIDDEN = "2026-02", "2026-03"
FIRST_OUT = 2_700
"""A moment at which the first revision of REVISED is published, and the second one isn't."""


class Sent(NamedTuple):
    """What a freeze took of a series: its item, its outlet, a mark, and a price in minor units if there is one."""

    item: str
    outlet: int
    mark: str
    price: Optional[int]


Frozen = dict[tuple[str, int], list[Sent]]
"""By month and revision, what was frozen."""


class PricedOffice(NamedTuple):
    """Its file, and what was frozen."""

    file: Path
    frozen: Frozen


def make_office(cpi: Cpi, records: list[str], frozen: Frozen, file: Path) -> PricedOffice:
    refused = [reply for reply in cpi.replay(records, db=file) if "refused" in reply]
    assert not refused, refused[:3]
    return PricedOffice(file, frozen)


# ---- worked by hand

PLACES = [("RICE", 1), ("RICE", 2), ("RICE", 3), ("RICE", 4), ("RICE", 5), ("FLOUR", 1), ("FLOUR", 1), ("FLOUR", 1),
          ("FLOUR", 1), ("FLOUR", 2), ("FLOUR", 3), ("FLOUR", 4), ("PEAR", 1), ("PEAR", 2)]  # fmt: skip
"""Item and outlet of each slot, from 1 on. Pears are in no plan."""

PRICES: dict[tuple[str, int], list[Optional[int]]] = {
    ("2025-12", 1): [*[200] * 5, *[100] * 7, *[300] * 2],
    ("2026-01", 1): [200, 210, 220, 230, 241, 100, 100, 100, 100, 90, 80, 70, 310, 320],
    ("2026-02", 1): [205, 210, 221, 231, 242, 100, 101, 102, None, 90, 110, 100, 310, 320],
    ("2026-02", 2): [205, 210, 221, 231, 252, 100, 101, 102, None, 90, 110, 100, 310, 320],
    ("2026-03", 1): [999] * 14,
}
"""The price of each slot by month and revision, in minor units. One of flour is missing; the last one of rice in February
is of a replacement, and was 2.42 at first."""


def mark_in(month: str, slot: int, price: Optional[int]) -> str:
    return "stock" if price is None else "other" if (month, slot) == (REVISED, 5) else "price"


def worked_records() -> Iterator[str]:
    """Each month opens at 0, 1000, .. and closes 500 later; February is open again at 2800."""
    yield from (
        record(0, "desk", "item", item, f"Text of {item}", "1 kg", 1, 10_000) for item in ("RICE", "FLOUR", "PEAR")
    )
    yield from (record(0, "desk", "outlet", number, f"Shop {number}") for number in range(1, 6))
    yield record(0, "desk", "collector", 7, key_of(7))
    for slot, (item, outlet) in enumerate(PLACES, 1):
        yield record(0, "desk", "assign", 7, slot, outlet, item, MONTHS[0], "2026-12")
    yield f"0,desk,plan,2026,{quoted(RICE_AND_FLOUR)}\n"
    for (month, revision), prices in PRICES.items():
        opens = 1000 * MONTHS.index(month) + 800 * (revision - 1)
        publishes = LONG_AFTER if month == HIDDEN else opens + 600
        yield record(opens, "desk", "calendar", month, opens, opens + 500 // revision, publishes)
        for slot, price in enumerate(prices, 1):
            mark = mark_in(month, slot, price)
            if revision == 1 or price != PRICES[month, 1][slot - 1]:
                answer: list[object] = ["missing", mark] if price is None else [mark, price]
                answer += ["confirm"] if mark == "price" else []
                yield record(opens + 1, key_of(7), "quote", slot, month, *answer)
        yield record(opens + 500 // revision, "desk", "freeze", month)


def make_worked_office(cpi: Cpi, file: Path) -> PricedOffice:
    """The office that was worked by hand."""
    frozen = {
        (month, revision): [
            Sent(*place, mark_in(month, slot, price), price)
            for slot, (place, price) in enumerate(zip(PLACES, prices), 1)
        ]
        for (month, revision), prices in PRICES.items()
    }
    return make_office(cpi, [*worked_records()], frozen, file)


# ---- drawn

ITEMS = {"BREAD": "01.1.1.3-01", "ROLLS": "01.1.1.3-01", "RICE": "01.1.1.1-01", "MILK": "01.1.4.1-01",
         "SHOES": "03.2.1.1-01", "BOOTS": "03.2.1.1-01", "FUEL": "07.2.2.1-01"}  # fmt: skip
CODES = sorted({code[:end] for code in ITEMS.values() for end in (2, 4, 6, 8, 11)} | {"00"})
WEIGHTS = {"01.1.1.3-01": 200_000, "01.1.1.1-01": 200_000, "01.1.4.1-01": 200_000, "03.2.1.1-01": 200_000,
           "07.2.2.1-01": 200_000}  # fmt: skip
DRAWN_MONTHS = ("2025-12", "2026-01", "2026-02", "2026-03", "2026-04", "2026-05")
HANDED = "2026-03"
"""From this month on collector 3 has what collector 2 had."""


class Life:
    """A random office while it lives: each item has some outlets, with one to three slots in each."""

    def __init__(self, seed: int):
        self._draw = random.Random(seed)
        self.frozen: Frozen = {}
        self._slots: dict[int, tuple[str, int]] = {}
        for item in ITEMS:
            for outlet in self._draw.sample(range(1, 10), self._draw.randint(2, 7)):
                for _ in range(self._draw.choice([1, 1, 1, 2, 5])):
                    self._slots[len(self._slots) + 1] = item, outlet

    def records(self) -> Iterator[str]:
        """All records: odd slots are collector 1's, even ones collector 2's, and then 3's."""
        yield from (record(0, "desk", "item", item, f"Text of {item}", "1", 1, 10_000) for item in ITEMS)
        yield from (record(0, "desk", "outlet", number, f"Shop {number}") for number in range(1, 10))
        yield from (record(0, "desk", "collector", number, key_of(number)) for number in (1, 2, 3))
        for slot, (item, outlet) in self._slots.items():
            yield record(0, "desk", "assign", 2 - slot % 2, slot, outlet, item, DRAWN_MONTHS[0], "2026-12")
        yield record(0, "desk", "plan", "2026", plan_with(dict.fromkeys(CODES, "Node"), WEIGHTS, ITEMS))
        for number, month in enumerate(DRAWN_MONTHS):
            yield from self._month(1000 * number, month)

    def _month(self, opens: int, month: str) -> Iterator[str]:
        publishes = LONG_AFTER if month == DRAWN_MONTHS[-1] else opens + 900
        yield record(opens, "desk", "calendar", month, opens, opens + 500, publishes)
        if month == HANDED:
            yield from (
                record(opens, "desk", "handover", 2, slot, 3, slot, month) for slot in self._slots if not slot % 2
            )
        sent = dict[int, Sent]()
        for slot, place in self._slots.items():
            found = self._sent(place, month, slot)
            if found:
                sent[slot] = found
                yield self._quote(opens + 1, slot, month, found)
        self.frozen[month, 1] = [*sent.values()]
        yield record(opens + 500, "desk", "freeze", month)
        if month == REVISED:
            yield record(opens + 550, "desk", "calendar", month, opens + 550, opens + 600, opens + 950)
            for slot, sending in sent.items():
                if sending.price and self._draw.random() < 0.1:
                    sent[slot] = sending._replace(price=sending.price + 11)
                    yield self._quote(opens + 560, slot, month, sent[slot])
            self.frozen[month, 2] = [*sent.values()]
            yield record(opens + 600, "desk", "freeze", month)

    def _sent(self, place: tuple[str, int], month: str, slot: int) -> Optional[Sent]:
        """What is sent for a slot; nothing of some. In the first month each has a price, and so has one of each item."""
        chance, price = self._draw.random(), self._draw.randrange(50, 40_000)
        is_first = place not in [self._slots[other] for other in range(1, slot)]
        if month == DRAWN_MONTHS[0] or (is_first and chance < 0.8):
            return Sent(*place, "price", price)
        if chance < 0.1:
            return None
        if chance < 0.25:
            return Sent(*place, self._draw.choice(["stock", "closed", "gone", "refused"]), None)
        return Sent(*place, self._draw.choice(["price", "price", "comparable", "other"]), price)

    def _quote(self, at: int, slot: int, month: str, sending: Sent) -> str:
        collector = 1 if slot % 2 else 2 if month < HANDED else 3
        answer: list[object] = ["missing", sending.mark] if sending.price is None else [sending.mark, sending.price]
        answer += ["confirm"] if sending.mark in ("price", "comparable") else []
        return record(at, key_of(collector), "quote", slot, month, *answer)


def draw_office(cpi: Cpi, file: Path, seed: int) -> PricedOffice:
    """A random office."""
    life = Life(seed)
    records = [*life.records()]
    return make_office(cpi, records, life.frozen, file)

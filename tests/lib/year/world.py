"""A made-up country, drawn with a seed: its items and shops, the collectors of each shop, and the true price of each
item.

The prices that a collector finds depend only on the seed and that collector, so the prices of all others can be drawn
again.
"""

from __future__ import annotations

import random
from typing import NamedTuple

from lib.offices import key_of, plan_with

from .moments import Month

ITEMS = {
    "RICE": "01.1.1.1-01",
    "BREAD": "01.1.1.3-01",
    "MILK": "01.1.4.1-01",
    "FUEL": "07.2.2.1-01",
    "SHOES": "03.2.1.1-01",
    "PHONE": "08.1.1.1-01",
}
WEIGHTS = [260_000, 180_000, 120_000, 240_000, 110_000, 90_000]
OUTLETS = 7
SENDERS = 2
"""The number of collectors that are offices which send files."""

MOVED = 100
"""A series that is handed over gets the number of its slot plus this number."""

STEPS = [90, 97, 99, 100, 100, 100, 101, 102, 104, 109]
REASONS = ["stock", "closed", "gone", "refused"]


class Quote(NamedTuple):
    """A quote from a shop: a mark with its value."""

    mark: str
    value: str


class World:
    """A country of so many collectors, each with so many slots. All collectors except `seen` are drawn with
    `others`."""

    def __init__(self, seed: int, collectors: int, slots: int, months: list[Month], others: int = 0) -> None:
        self.seed, self.others, self.months = seed, others, months
        self.collectors = range(1, collectors + 1)
        self.slots = range(1, slots + 1)
        self.seen = 1
        """The collector who must not be affected by the others."""
        self.found: dict[tuple[int, int], list[Quote]] = {}
        for collector in self.collectors:
            for slot in self.slots:
                self.found[collector, slot] = self._walk(collector, slot)

    @property
    def senders(self) -> list[int]:
        """The collectors that send files: the last but one, which leaves."""
        return [*self.collectors][-1 - SENDERS : -1]

    @property
    def leaver(self) -> int:
        """The collector who leaves, and whose series go to collector 2."""
        return self.collectors[-1]

    def drawn(self, *of: object) -> random.Random:
        """A separate random stream for each purpose."""
        return random.Random("/".join(map(str, (self.seed, *of))))

    def _walk(self, collector: int, slot: int) -> list[Quote]:
        others = 0 if collector == self.seen else self.others
        drawn = self.drawn(others, collector, slot)
        price, quotes = drawn.randrange(100, 9000), list[Quote]()
        for month in self.months:
            price = max(20, price * drawn.choice(STEPS) // 100)
            kind = drawn.random() if month.at else 1.0
            if kind < 0.07:
                quotes.append(Quote("missing", drawn.choice(REASONS)))
            elif kind < 0.1:
                price = price * drawn.choice([60, 180]) // 100
                quotes.append(Quote("other", str(price)))
            elif kind < 0.14:
                quotes.append(Quote("comparable", str(price)))
            else:
                price = price * 2 if kind < 0.16 else price  # (far from the last one, so that it is confirmed)
                quotes.append(Quote("price", str(price)))
        return quotes

    def quote(self, collector: int, slot: int, month: Month) -> Quote:
        """The quote that a collector finds in a slot; for a series that was taken over, the quote that its former slot
        would have."""
        place = (self.leaver, slot - MOVED) if slot > MOVED else (collector, slot)
        return self.found[place][month.at]

    def item(self, slot: int) -> str:
        return [*ITEMS][slot % len(ITEMS)]

    def survey(self) -> list[str]:
        """The desk's rows for items, outlets, collectors and slots."""
        rows = [f"item,{item},{item.title()},1 kg,700,1500" for item in ITEMS]
        rows += [f"outlet,{number},Shop {number}" for number in range(1, OUTLETS + 1)]
        for collector in self.collectors:
            rows.append(f"collector,{collector},{key_of(collector)}")
            for slot in self.slots:
                place = f"{collector},{slot},{1 + (collector + slot) % OUTLETS},{self.item(slot)}"
                rows.append(f"assign,{place},{self.months[0].name},2099-12")
        return rows

    def plan(self, year: int) -> str:
        """The plan of a year; its weights rotate among the aggregates from year to year, and the weights of 2027 are
        moved from the June before."""
        by = year % len(WEIGHTS)
        weights = dict(zip(sorted(ITEMS.values()), WEIGHTS[by:] + WEIGHTS[:by]))
        nodes = sorted({code[:end] for code in weights for end in (2, 4, 6, 8, 11)} | {"00"})
        references = [f"{year - 1}-06"] if year > 2026 else []
        return plan_with({node: f"Group {node}" for node in nodes}, weights, ITEMS, references)

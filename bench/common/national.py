"""The office of 200,000 series: 500 collectors with 400 slots each.

A plan is one body of at most 20,000 rows, in which an aggregate has a title, a weight and the place of an item. So
there are 6,640 aggregates with 6,718 nodes, and as many items as aggregates, with some 30 series each. One price in
seventeen is missing.
"""

from __future__ import annotations

from collections.abc import Iterator, Sequence
from dataclasses import dataclass
from pathlib import Path
from typing import Optional

from cpi_tools.text.terminal import Fault

from .office_files import fill_table, number_of
from .processes import run_command
from .records import SLOTS, key_of, make_import, make_plan, months_of

COLLECTORS, SMALL, LEAST = 500, 5, 50
"""The collectors of this office and those of a small run; with fewer than `LEAST` it has a tenth of the aggregates, so
that each has a price in every month."""

MONTHS = tuple(months_of(3, -1))
"""A December, January and February, which are quoted."""

REFERENCE = "2026-06"
"""The month of the weights of 2027."""


def aggregate_of(number: int) -> str:
    """The code of an elementary aggregate."""
    subclass, place = divmod(number, 99)
    return f"01.1.{subclass // 10}.{subclass % 10}-{place + 1:02}"


@dataclass(frozen=True)
class Nation:
    """An office of so many collectors."""

    collectors: int = COLLECTORS

    @property
    def series(self) -> int:
        """How many series it has."""
        return self.collectors * SLOTS

    @property
    def aggregates(self) -> int:
        """How many elementary aggregates it has, and items."""
        return 6_640 if self.collectors >= LEAST else 664

    def item_of(self, collector: int, slot: int) -> str:
        """The item of a slot."""
        return f"I{(collector * SLOTS + slot) % self.aggregates}"

    def price_of(self, collector: int, slot: int, turn: int) -> Optional[int]:
        """The price of a slot in a month, in minor units; None if it is missing."""
        number = collector * SLOTS + slot
        return None if (number % 1009 + turn) % 17 == 0 else 1000 + number % 977 + turn

    def make_plan(self, year: int, reference: Optional[str] = None) -> str:
        """The record of the plan of a year."""
        codes = [aggregate_of(number) for number in range(self.aggregates)]
        return make_plan(year, codes, ((f"I{number}", code) for number, code in enumerate(codes)), reference)

    def make_survey(self, months: Sequence[str]) -> Iterator[str]:
        """The desk's records before the first quote, without the assignments."""
        for number in range(self.aggregates):
            yield f"0,desk,item,I{number},Item {number},1 kg,1,10000"
        yield "0,desk,outlet,1,Outlet"
        for collector in range(1, self.collectors + 1):
            yield f"0,desk,collector,{collector},{key_of(collector)}"
        for month in months:
            yield f"0,desk,calendar,{month},0,1000,1000"
        yield self.make_plan(2026)
        if months[-1] >= "2027-01":
            yield self.make_plan(2027, REFERENCE)

    def make_assignments(self, months: Sequence[str]) -> Iterator[str]:
        """The records of the assignments, an import for each collector."""
        for collector in range(1, self.collectors + 1):
            slots = range(1, SLOTS + 1)
            rows = (f"assign,{collector},{n},1,{self.item_of(collector, n)},{months[0]},2027-12" for n in slots)
            yield make_import(0, "desk", rows)

    def make_quotes(self, months: Sequence[str], turn: int) -> Iterator[str]:
        """The records of the quotes of a month, an import for each collector."""
        for collector in range(1, self.collectors + 1):
            rows = []
            for slot in range(1, SLOTS + 1):
                price = self.price_of(collector, slot, turn)
                rows.append(f"quote,{slot},{months[turn]},{f'price,{price}' if price else 'missing,stock'}")
            yield make_import(10, key_of(collector), rows)

    def write_office(self, program: str, path: Path) -> None:
        """Makes the file of the office before its first freeze, with its quotes of three months. Fault: a record is
        refused."""
        records = "".join(f"{record}\n" for record in self.make_survey(MONTHS))
        if b"refused" in run_command([program, "replay", "--db", str(path)], records.encode()).output:
            raise Fault("a record of the survey was refused, and none should be")
        places = [(collector, slot) for collector in range(1, self.collectors + 1) for slot in range(1, SLOTS + 1)]
        ends = number_of(MONTHS[0]), 202712
        assignments = ((*place, 1, self.item_of(*place), *ends, *place, None) for place in places)
        fill_table(path, "assignment_2", assignments)
        for turn, month in enumerate(MONTHS):
            prices = ((collector, slot, self.price_of(collector, slot, turn)) for collector, slot in places)
            rows = (
                (collector, slot, number_of(month), "price" if price else "stock", price or 0, turn * SLOTS + slot)
                for collector, slot, price in prices
            )
            fill_table(path, "quote_2", rows)

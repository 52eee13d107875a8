"""Limits of the numbers that a freeze computes: carried prices, weights in use, indices and chained levels.

Prices reach each of them to the last digit: a replacement that can't be compared (`other`) sets the scale by which
later prices are multiplied.
"""

from __future__ import annotations

from collections.abc import Mapping, Sequence

from second_office.records import text_of
from second_office.requests import Record

from .limit import DONE, Limit, month_of, refused
from .places import KA, NODES, ONE, OTHER

FIRST = 12 * 2025 + 11
"""December 2025, which is frozen first."""

Quotes = Mapping[int, str]
"""The mark with its price, such as `price,100`, by slot."""


class Months:
    """The records of an office through months that are frozen one after the other."""

    def __init__(self, items: Sequence[str], last: str = "2030-12") -> None:
        self.at = FIRST
        self.records: list[Record] = [["0", "desk", "outlet", "10", "Shop"], ["0", "desk", "collector", "7", KA]]
        for slot, item in enumerate(items, 1):
            self.put("item", item, item, "1 kg", "1", "10000")
            self.put("assign", "7", str(slot), "10", item, month_of(FIRST), last)

    def put(self, *words: str) -> None:
        """Adds a record of the desk."""
        self.records.append(["0", "desk", *words])

    def plan(self, year: int, weights: Mapping[str, int], places: Mapping[str, str], *references: str) -> None:
        """The plan of a year, with or without a reference month."""
        rows = [["T", code, code] for code in [*NODES, *weights]] + [["R", month] for month in references]
        rows += [["W", code, str(weight)] for code, weight in weights.items()]
        self.put("plan", str(year), text_of(rows + [["I", item, code] for item, code in places.items()]))

    def freeze(self, quotes: Quotes, *carry: str) -> None:
        """Freezes the next month, with its quotes and its carry list."""
        month, now = month_of(self.at), 1000 * (self.at - FIRST)
        self.put("calendar", month, str(now), str(now + 600), str(now + 600))
        rows = [["quote", str(slot), month, *quote.split(","), "confirm"] for slot, quote in quotes.items()]
        if rows:
            self.records.append([str(now), KA, "import", text_of(rows)])
        self.records.append([str(now + 600), "desk", "freeze", month, *carry])
        self.at += 1

    def idle(self, count: int, *carry: str) -> None:
        """Adds so many months without a quote."""
        for _ in range(count):
            self.freeze({}, *carry)


def pair(first: str, second: str) -> Quotes:
    """Quotes of the slots 1 and 2."""
    return {1: first, 2: second}


# ---- a carried price

PRODUCTS = {
    10**15 - 1: (90_090_991, 11_099_889),
    10**15: (10**8, 10**7),
    10**15 + 1: (19_645_651, 50_901_851),
}
"""Numbers of ticks as the product of two prices."""


def carried(ticks: int) -> list[Record]:
    """A freeze in which a carried price has so many ticks, beside another that keeps the index within its limits."""
    base, scaled, price = 1, 10**8, max(1, 10_000 * ticks)
    if ticks in PRODUCTS:
        base, price = PRODUCTS[ticks]
        scaled = 10_000
    office = Months(["GOLD", "RICE"])
    office.plan(2026, {ONE: 1_000_000}, {"GOLD": ONE, "RICE": ONE})
    for first in (f"price,{base}", f"other,{scaled}", f"price,{price}"):
        office.freeze(pair(first, "price,100"))
    return office.records


# ---- an index within the year

HALF = 5 * 10**7
"""The ticks of a base of 5,000."""

SCALED = pair("other,1", f"other,{10**8}")
"""In the first month of a year: the first series is then scaled by HALF, the second by a half."""


def prices_of(ticks: int) -> Quotes:
    """Prices of two series that were so scaled, which are carried at so many ticks together. Their bases are 10^8."""
    first = (ticks - 1) // HALF
    return pair(f"price,{first}", f"price,{2 * (ticks - first * HALF)}")


def index(millionths: int) -> list[Record]:
    """A freeze that gives an aggregate that index."""
    office = Months(["GOLD", "SALT"])
    office.plan(2026, {ONE: 1_000_000}, {"GOLD": ONE, "SALT": ONE})
    if millionths < 10:
        # scaled down twice: to 5,000 ticks a minor unit, and to one tick for 10,000 of them
        office.freeze({1: f"price,{HALF}"})
        for quote in (f"other,{10**8}", "price,1", f"other,{HALF}"):
            office.freeze({1: quote}, ONE)
        office.freeze({1: f"price,{max(10_000, HALF * millionths)}"})
    else:
        office.freeze(pair("price,5000", "price,5000"))
        office.freeze(SCALED, ONE)
        office.freeze(prices_of(millionths))
    return office.records


# ---- a chained level

FACTORS = {
    10**15 - 1: (10**10 + 3178, 10**13 - 3_177_999),
    10**15: (10**10, 10**13),
    10**15 + 1: (10**10 + 3146, 10**13 - 3_145_999),
}
"""Levels as a link level and an index, whose product is divided by 10^8 and rounded."""

BELOW_TWO = {0: 40, 1: 100, 2: 200}
"""Levels as prices, if the link level is 1 and the base 100."""


def level(millionths: int) -> list[Record]:
    """A freeze in the second year in which each node has that chained level. Other items are priced in that year."""
    office = Months(["GOLD", "SALT", "OIL", "TEA"])
    office.plan(2026, {ONE: 1_000_000}, {"GOLD": ONE, "SALT": ONE})
    office.plan(2027, {ONE: 1_000_000}, {"OIL": ONE, "TEA": ONE})
    if millionths in BELOW_TWO:
        office.freeze({1: f"price,{10**8}"})
        office.idle(11, ONE)
        office.freeze({1: "price,1", 3: "price,100"})
        office.freeze({3: f"price,{BELOW_TWO[millionths]}"})
    else:
        link, within = FACTORS[millionths]
        office.freeze(pair("price,5000", "price,5000"))
        office.freeze(SCALED, ONE)
        office.idle(10, ONE)
        office.freeze({**prices_of(link), 3: "price,5000", 4: "price,5000"})
        office.freeze({slot + 2: quote for slot, quote in SCALED.items()}, ONE)
        office.freeze({slot + 2: quote for slot, quote in prices_of(within).items()})
    return office.records


# ---- a weight in use


def weight(parts: int) -> list[Record]:
    """The freeze of a January in which a weight is in use as so many parts, moved from the January before."""
    office = Months(["GOLD", "SALT", "OIL", "TEA"])
    weights = {ONE: 1, OTHER: 999_999} if parts < 10 else {ONE: 1_000_000}
    others = {"TEA": OTHER} if parts < 10 else {}
    office.plan(2026, weights, {"GOLD": ONE, "SALT": ONE, **others})
    office.plan(2027, weights, {"OIL": ONE, **others}, "2026-01")
    if parts < 10:
        office.freeze({1: "price,100", 4: "price,100"})
        office.freeze({}, ONE, OTHER)
        office.idle(10, ONE, OTHER)
        office.freeze({1: f"price,{BELOW_TWO[parts]}", 3: "price,100", 4: "price,100"})
        office.freeze({3: "price,100", 4: "price,100"})
    else:
        office.freeze(pair("price,5000", "price,5000"))
        office.freeze(SCALED, ONE)
        office.idle(10, ONE)
        office.freeze({**prices_of(100 * parts), 3: "price,100"})
        office.freeze({3: "price,100"})
    return office.records


# ---- a sample


def sampled(last: int) -> list[Record]:
    """The freeze of January, with a series that is priced up to that month."""
    office = Months(["RICE"], month_of(last))
    office.plan(2026, {ONE: 1_000_000}, {"RICE": ONE})
    office.freeze({1: "price,100"})
    office.freeze({}, ONE)
    return office.records


OF_ONE, OF_ALL = refused(49, code=ONE, fault=3), refused(49, code="00", fault=3)

TICKS = "| carried price, ticks of 1/10,000 of a minor unit | 1 to 10^15 |"
INDEX = "| index within the year, millionths of a point | 1 to 10^13 |"
LEVEL = "| chained level, millionths of a point | 1 to 10^15 |"
SAMPLE = "whose last month is January or later"
UNSAMPLED = refused(49, code=ONE, fault=1)
WEIGHT = "| weight in use of an elementary aggregate | 1 to 10^9;"

LIMITS: list[Limit[list[Record]]] = [
    Limit("a carried price", 1, 10**15, carried, DONE, OF_ONE, OF_ONE, TICKS, "TICKS", floor=0),
    Limit("an index within the year", 1, 10**13, index, DONE, OF_ONE, OF_ONE, INDEX, "INDEX", floor=0),
    Limit("a chained level", 1, 10**15, level, DONE, OF_ALL, OF_ALL, LEVEL, "LEVEL", floor=0),
    Limit("a weight in use", 1, 10**9, weight, DONE, OF_ONE, OF_ONE, WEIGHT, "WEIGHT_IN_USE", floor=0),
    Limit("the last month in a sample", FIRST + 1, None, sampled, DONE, UNSAMPLED, "", SAMPLE, is_said=False),
]

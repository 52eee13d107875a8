"""An office of three years: sugar and flour leave after 2011, bread comes in 2012, and flour is back in 2013.

Rice stands still. Its tables are worked by hand, each index within the year from January on:

            2011                        2012                    2013, up to February
    rice    200 / 200    = 100          100                     100
    flour   1100 / 1000  = 110                                  1210 / 1100 = 110, 100 in 2012-12 anew
    sugar   330 / 300    = 110
    bread                               600 / 500 = 120         630 / 600 = 105, chained 126
    all     .4, .4, .2:    106          .5, .5: 110             .4, .3, .3: 104.5
    chained 106                         106 * 1.1 = 116.6       116.6 * 1.045 = 121.847
"""

from __future__ import annotations

from collections.abc import Iterator

from cpi_tools.office.program import record
from lib.offices import plan_with
from .offices import ANNA

ITEMS = {"RICE": "01.1.1.1-01", "FLOUR": "01.1.1.2-01", "BREAD": "01.1.1.3-01", "SUGAR": "01.1.8.1-01"}
TITLES = {
    "00": "All items", "01": "Food", "01.1": "Food proper", "01.1.1": "Cereals", "01.1.8": "Sugar",
    "01.1.1.1": "Rice", "01.1.1.2": "Flour", "01.1.1.3": "Bread", "01.1.8.1": "Sugar",
    **{code: item.title() for item, code in ITEMS.items()},
}  # fmt: skip
RICE, FLOUR, BREAD, SUGAR = ITEMS.values()
WEIGHTS = {
    2011: {RICE: 400_000, FLOUR: 400_000, SUGAR: 200_000},
    2012: {RICE: 500_000, BREAD: 500_000},
    2013: {RICE: 400_000, FLOUR: 300_000, BREAD: 300_000},
}
MONTHS = [f"{at // 12:04}-{at % 12 + 1:02}" for at in range(2010 * 12 + 11, 2013 * 12 + 2)]
"""2010-12 to 2013-02."""

PRICES = {
    1: [("2010-12", 200)],
    2: [("2010-12", 1000), ("2011-01", 1100), ("2013-01", 1210)],
    3: [("2010-12", 500), ("2012-01", 600), ("2013-01", 630)],
    4: [("2010-12", 300), ("2011-01", 330)],
}
"""By slot, in the order of the items, its prices from some months on."""


def lived() -> Iterator[str]:
    """The records of the office; none is refused."""
    yield from (record(0, "desk", "item", item, item.title(), "1", 1, 10_000) for item in ITEMS)
    yield record(0, "desk", "outlet", 1, "Corner shop")
    yield record(0, "desk", "collector", 7, ANNA)
    for slot, item in enumerate(ITEMS, 1):
        yield record(0, "desk", "assign", 7, slot, 1, item, MONTHS[0], "2099-12")
    for year, weights in WEIGHTS.items():
        yield record(0, "desk", "plan", year, plan_with(TITLES, weights, ITEMS))
    for at, month in enumerate(MONTHS):
        yield record(0, "desk", "calendar", month, 1000 * at, 1000 * at + 500, 1000 * at + 600)
        for slot, prices in PRICES.items():
            price = [price for first, price in prices if first <= month][-1]
            yield record(1000 * at + 1, ANNA, "quote", slot, month, "price", price)
        yield record(1000 * at + 500, "desk", "freeze", month)

"""A collector with a long list: number 9, whose key is NOBODY, with so many rows in an outlet, and last prices."""

from __future__ import annotations

import time

from cpi_tools.office.program import record
from .offices import BEFORE, DESK, MONTH_SECONDS, NOBODY, NOW
from .phone import Phone
from .stage import Stage

ROWS_AN_OUTLET = 20
FIRST_OUTLET = 100

LAST = 200
"""The last price of each slot: 1.40 to 3.00 are taken without a second look."""

LONG_ITEM = "Rice, long grain, parboiled, of the shop's own brand, in a box with a window, for six people or more, "
LONG_ITEM += "not organic, as near to the door as can be found"
LONG_OUTLET = (
    "The supermarket at the corner of the long street and the market place, opposite the old town hall, second "
)
LONG_OUTLET += "floor, left of the stairs, behind the glass door"
LONG_UNIT = "a box of 1 kg, or two of 500 g"


def give_list(
    stage: Stage, slots: int, item: str = "Rice, long grain", outlet: str = "Shop", unit: str = "1 kg"
) -> None:
    """Gives the collector slots 1 to `slots` of an item, with a last price each."""
    far = int(time.time()) + MONTH_SECONDS
    outlets = range(FIRST_OUTLET, FIRST_OUTLET + (slots + ROWS_AN_OUTLET - 1) // ROWS_AN_OUTLET)
    rows = [record("calendar", BEFORE, 0, far, far), record("collector", 9, NOBODY)]
    rows += [record("item", "LONG", item, unit, 700, 1500)]
    rows += [record("outlet", number, f"{outlet} {number}") for number in outlets]
    places = ((slot, FIRST_OUTLET + (slot - 1) // ROWS_AN_OUTLET) for slot in range(1, slots + 1))
    rows += [record("assign", 9, slot, number, "LONG", "2010-12", "2199-12") for slot, number in places]
    assert stage.ask("POST", "/api/import", DESK, "\n".join(rows)).reply == {"rows": [{"done": True}] * len(rows)}
    quotes = "\n".join(record("quote", slot, BEFORE, "price", LAST) for slot in range(1, slots + 1))
    assert len(stage.ask("POST", "/api/import", NOBODY, quotes).reply["rows"]) == slots
    work = stage.ask("GET", f"/api/work/{NOW}", NOBODY).reply["work"]
    assert [row[6] for row in work] == [LAST] * slots


def open_list(phone: Phone, stage: Stage, slots: int) -> None:
    """Opens the page with such a list, without the notice that the browser may clear its storage."""
    give_list(stage, slots)
    phone.sign_in(NOBODY)
    phone.notice_is_read()
    phone.browser.run("scrollTo(0, 0)")

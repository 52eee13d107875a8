"""The office of these tests: three published tables and a revision, and a month whose window is open now."""

from __future__ import annotations

import datetime
import time
from collections.abc import Iterator

from cpi_tools.office.program import record
from lib.offices import RICE_AND_FLOUR

DESK, ANNA, BENO, NOBODY = "d" * 32, "a" * 32, "b" * 32, "c" * 32
"""The keys of the desk, of collectors 7 and 8, and one that nobody bears."""

SCRIPT = "<script>document.title='owned'</script>"
IMAGE = "<img src=x onerror=\"document.title='owned'\">"
"""Texts with markup: an item's and a title, and an outlet's."""

ARABIC = "خضروات طازجة"
OVERRIDE = "1 l\u202e 2.06"
LEAVING = "1 kg\u2069\u2029\u202e 2.06"
"""Titles that are written from right to left: by their letters, by an override, and by one that has left the element
that it is in, so far as a POP DIRECTIONAL ISOLATE and a new paragraph can."""

TURNING = (ARABIC, OVERRIDE, LEAVING)

MONTH_SECONDS = 30 * 86_400


def month_now(by: int = 0) -> str:
    """This month, or one so many months later."""
    today = datetime.date.today()
    count = today.year * 12 + today.month - 1 + by
    return f"{count // 12:04}-{count % 12 + 1:02}"


NOW, BEFORE = month_now(), month_now(-1)

PLAN = (
    RICE_AND_FLOUR.replace("Food and drink", f"Food {SCRIPT}")
    .replace("T,01.1,Food", f"T,01.1,{ARABIC}")
    .replace("Cereals", OVERRIDE)
    .replace("T,01.1.1.1,Rice", f"T,01.1.1.1,{LEAVING}")
)

ITEMS = (
    ("RICE", "Rice, white", "1 kg", 700, 1500),
    ("FLOUR", "Flour, wheat", "1 kg", 700, 1500),
    ("TEA", SCRIPT, "100 g", 700, 1500),
    ("MILK", "Milk, whole", "1 l", 700, 1500),
)
SLOTS = (
    (7, 1, 10, "RICE"),
    (7, 2, 10, "FLOUR"),
    (7, 3, 11, "TEA"),
    (7, 4, 11, "MILK"),
    (8, 1, 12, "RICE"),
    (8, 2, 12, "FLOUR"),
)


def registered() -> Iterator[str]:
    """Items, outlets, collectors, slots, windows and the plan."""
    yield from (record(0, "desk", "item", *item) for item in ITEMS)
    for number, name in ((10, "Corner shop"), (11, IMAGE), (12, "Market hall")):
        yield record(0, "desk", "outlet", number, name)
    for number, key in ((7, ANNA), (8, BENO)):
        yield record(0, "desk", "collector", number, key)
    yield from (record(0, "desk", "assign", *slot, "2010-12", "2199-12") for slot in SLOTS)
    far = int(time.time()) + MONTH_SECONDS
    for month, *moments in (
        ("2010-12", 0, 1000, 1000), ("2011-01", 1000, 2000, 3000), ("2011-02", 2000, 3000, 4000),
        (BEFORE, 4000, 5000, far), (NOW, 5000, far, far),
    ):  # fmt: skip
        yield record(0, "desk", "calendar", month, *moments)
    yield record(0, "desk", "plan", 2011, PLAN)


def sent(at: int, key: str, month: str, *prices: tuple[int, int]) -> str:
    """An import of a collector: slots with their prices."""
    return record(at, key, "import", "".join(f"quote,{slot},{month},price,{price}\n" for slot, price in prices))


def lived() -> list[str]:
    """The records of the office; none is refused.

    Its tables are worked by hand. Rice: 2011-01 (210 + 252) / (200 + 240) = 1.05; 2011-02 first (214 + 260) / 440, in
    its revision (214 + 270) / 440 = 1.1. Flour: (490 + 505) / (500 + 510) and (480 + 500) / 1010.
    """
    return [
        *registered(),
        sent(100, ANNA, "2010-12", (1, 200), (2, 500)),
        sent(100, BENO, "2010-12", (1, 240), (2, 510)),
        record(1000, "desk", "freeze", "2010-12"),
        sent(1100, ANNA, "2011-01", (1, 210), (2, 490)),
        sent(1100, BENO, "2011-01", (1, 252), (2, 505)),
        record(2000, "desk", "freeze", "2011-01"),
        sent(2100, ANNA, "2011-02", (1, 214), (2, 480)),
        sent(2100, BENO, "2011-02", (1, 260), (2, 500)),
        record(3000, "desk", "freeze", "2011-02"),
        record(3500, "desk", "calendar", "2011-02", 3500, 3600, 4100),
        sent(3550, BENO, "2011-02", (1, 270)),
        record(3600, "desk", "freeze", "2011-02"),
        sent(4500, ANNA, BEFORE, (1, 320), (2, 480), (4, 100)),
        sent(4500, BENO, BEFORE, (1, 999)),
    ]

"""Compares the civil times that `cpi replay --zone` reads with the clocks of the C library.

For each zone below it takes 200 civil times from 2000 to 2199, most within three hours of a change of the clock. The
program is sent each one as the opening of a window, then a quote one second before the moment at which the C library's
clock shows it, which has to be refused by 23, and the quote at that moment, which has to get its receipt. A
time that the clock shows twice is the earlier moment; one that it leaves out is as much later as the clock is moved.
The first time is the beginning of 2026, whose moment is given below for some of the zones. Among the times there are
some that the clock shows twice, some that it shows once, and some that it doesn't show.
"""

from __future__ import annotations

import calendar
import contextlib
import random
import time
from collections.abc import Iterator
from functools import lru_cache
from typing import NamedTuple

import pytest

from lib.program import Program
from lib.records import first_difference

Time = tuple[int, ...]
"""Year, month, day, hour and minute."""

ZONES = [
    "UTC0",
    "CET-1CEST,M3.5.0,M10.5.0/3",
    "EST5EDT,M3.2.0,M11.1.0",
    "AEST-10AEDT,M10.1.0,M4.1.0/3",
    "NST3:30NDT,M3.2.0,M11.1.0",
    "LHST-10:30LHDT-11,M10.1.0,M4.1.0",
    "CHADT-12:45CHADT-13:45,M9.5.0/2:45,M4.1.0/3:45",
    "IST-1GMT0,M10.5.0,M3.5.0/1",
    "<+0530>-5:30",
    "<-03>3",
]
NEW_YEAR = (2026, 1, 1, 0, 0)
NEW_YEARS = {
    "UTC0": 1767225600,
    "CET-1CEST,M3.5.0,M10.5.0/3": 1767222000,
    "EST5EDT,M3.2.0,M11.1.0": 1767243600,
    "<-03>3": 1767236400,
}
KEY = "a" * 32
DESK = [
    "0,desk,item,RICE,Rice,1 kg,1,10000",
    "0,desk,outlet,1,Shop",
    f"0,desk,collector,1,{KEY}",
    "0,desk,assign,1,1,1,RICE,2000-01,2199-12",
]
LAST = 9_999_999_999
DONE = '{"done":true}'
HOURS = 3 * 3600
TIMES = 200
"""So many civil times are drawn for each zone."""


class Sent(NamedTuple):
    """Records and their lines under a zone, and how often its clock shows the times in them."""

    records: list[str]
    lines: list[str]
    shown: set[int]


@contextlib.contextmanager
def with_clock(zone: str) -> Iterator[None]:
    """Within it the clock of this process is that of a zone."""
    try:
        with pytest.MonkeyPatch.context() as changed:
            changed.setenv("TZ", zone)
            time.tzset()
            yield
    finally:
        time.tzset()


def offset(moment: int) -> int:
    return int(time.localtime(moment).tm_gmtoff)


def civil(moment: int) -> Time:
    """The clock's year, month, day, hour and minute, and its second."""
    return tuple(time.localtime(moment)[:6])


def changes(year: int) -> Iterator[int]:
    """The moments of a year at which the clock is changed."""
    first = calendar.timegm((year, 1, 1, 0, 0, 0))
    for day in range(first, first + 365 * 86_400, 86_400):
        low, high = day, day + 86_400
        if offset(low) != offset(high):
            while high - low > 1:
                middle = (low + high) // 2
                low, high = (middle, high) if offset(middle) == offset(low) else (low, middle)
            yield high


def drawn_times(drawn: random.Random, count: int) -> Iterator[Time]:
    """Civil times at full minutes, most of them near a change of the clock."""
    while count:
        moment = calendar.timegm((drawn.randrange(2000, 2200), drawn.randrange(1, 13), 15, 0, 0, 0))
        near = list(changes(time.gmtime(moment).tm_year))
        if near and drawn.random() < 0.8:
            moment = drawn.choice(near) + drawn.randrange(-HOURS, HOURS)
        shown = calendar.timegm((*civil(moment)[:5], 0))
        # also a time that the clock leaves out
        shown += 60 * drawn.choice([0, 0, 30, 60, -30, -60])
        if 2000 <= time.gmtime(shown).tm_year <= 2199:
            count -= 1
            yield time.gmtime(shown)[:5]


def moments_of(shown: Time) -> tuple[list[int], int]:
    """The moments at which the clock shows the time, and the one that is meant by it."""
    in_utc = calendar.timegm((*shown, 0))
    offsets = {offset(in_utc + day * 86_400) for day in (-1, 0, 1)}
    utcs = sorted(in_utc - each for each in offsets if civil(in_utc - each) == (*shown, 0))
    return utcs, utcs[0] if utcs else in_utc - min(offsets)


def records_of(price: int, shown: Time, moment: int) -> Iterator[tuple[str, str]]:
    """A window that opens at a time, a quote one second before that moment and one at it, each with its line."""
    year, month, day, hour, minute = shown
    opens = f"{year:04}-{month:02}-{day:02}T{hour:02}:{minute:02}"
    quote = f"{KEY},quote,1,2026-01,price,{price}"
    yield f"0,desk,calendar,2026-01,{opens},{LAST},{LAST}", DONE
    yield f"{moment - 1},{quote}", '{"refused":23}'
    yield f"{moment},{quote}", f'{{"receipt":{price}}}'


@lru_cache(maxsize=None)
def sent(zone: str) -> Sent:
    """What is sent under a zone, by the clock of the C library."""
    pairs, met = [(record, DONE) for record in DESK], set[int]()
    with with_clock(zone):
        for price, shown in enumerate([NEW_YEAR, *drawn_times(random.Random(zone), TIMES)], 1):
            found, moment = moments_of(shown)
            met.add(len(found))
            pairs += records_of(price, shown, NEW_YEARS.get(zone, moment) if shown == NEW_YEAR else moment)
    return Sent([record for record, _ in pairs], [line for _, line in pairs], met)


@pytest.mark.parametrize("zone", ZONES)
def test_civil_times(program: Program, zone: str) -> None:
    records, wanted, _ = sent(zone)
    ran = program.replay("".join(f"{record}\n" for record in records).encode(), None, "--zone", zone)
    assert ran.status == 0
    assert first_difference(records, ran.out.decode().split("\n")[:-1], wanted) is None


@pytest.mark.parametrize("count", [0, 1, 2])
def test_times_that_the_clock_shows_so_often_are_met(count: int) -> None:
    assert any(count in sent(zone).shown for zone in ZONES)

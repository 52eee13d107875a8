"""The faults of a country, drawn with its seed, each by itself, so that any of them can be left out."""

from __future__ import annotations

import time
from typing import NamedTuple

from .moments import DAY, HOUR, Month
from .world import World

EACH_MONTH = {
    "killed": 4,
    "lost": 3,
    "cut": 2,
    "garbled": 1,
    "slow": 2,
    "refusing": 1,
    "full": 1,
    "clock": 1,
    "burst": 1,
    "restarted": 1,
    "front": 2,
    "certificates": 1,
    "rotated": 2,
    "publisher": 1,
    "desk": 1,
    "two desks": 1,
}
"""The number of each kind that is drawn for a month; `offline` is one for each collector."""

OF_A_MACHINE = {"burned": 1, "promoted": 2}
"""The month, of three, in which the machine is lost, by the way in which the office continues: from a backup, or on a
second machine."""

UPGRADED = "upgraded"
"""In the second month the office has a file of version 1.0, whose tables are of schema 1, and gets this version."""

KINDS = [*EACH_MONTH, "offline", *OF_A_MACHINE, UPGRADED]
KILLS = ["killed before", "killed within", "killed meanwhile", "killed after"]
CERTAIN = {"killed": ["killed before", "killed within", "killed after"], "full": ["refusing"]}
"""The forms of a kind whose effect doesn't depend on records that others have sent."""


class Fault(NamedTuple):
    """A fault: its number, its kind, its form, its moment, and the person on whose next exchange or day it falls."""

    number: int
    kind: str
    how: str
    moment: int
    whom: str

    def __str__(self) -> str:
        moment = time.strftime("%Y-%m-%d %H:%M:%S", time.gmtime(self.moment))
        return f"{self.number} ({self.how}, {moment}, {self.whom})"


def drawn_faults(world: World, kinds: list[str], is_certain: bool = False) -> list[Fault]:
    """All faults of these kinds, with numbers that are the same whichever kinds are chosen."""
    faults: list[Fault] = []
    for month in world.months:
        drawn = world.drawn("faults", month.name)
        for kind in KINDS:
            for whom in falls_on(kind, world, month):
                moment = drawn.randrange(month.opens, month.publishes + DAY)
                if kind in OF_A_MACHINE:
                    moment = month.opens + drawn.choice([8, 13]) * DAY - drawn.randrange(2 * HOUR)
                elif kind in ("offline", UPGRADED):
                    moment = drawn.randrange(month.opens, month.closes - 3 * DAY)
                elif kind == "burst":
                    moment = drawn.randrange(month.opens + DAY, month.closes - DAY)
                ways = KILLS if kind == "killed" else [kind]
                how = drawn.choice(ways)
                if is_certain and kind in CERTAIN and how not in CERTAIN[kind]:
                    how = CERTAIN[kind][0]
                chosen = "desk" if kind == "desk" else drawn.choice(people(world))
                chosen = f"collector {world.seen}" if is_certain else chosen
                faults.append(Fault(len(faults), kind, how, moment, whom or chosen))
    return [fault for fault in faults if fault.kind in kinds]


def people(world: World) -> list[str]:
    """The people who ask the office."""
    named = [f"{'sender' if collector in world.senders else 'collector'} {collector}" for collector in world.collectors]
    return [*named, "desk", "desk", "public"]


def falls_on(kind: str, world: World, month: Month) -> list[str]:
    """The people on whom the faults of a kind fall in a month, one for each; empty if they are drawn."""
    if kind == "offline":
        return [f"collector {collector}" for collector in world.collectors if collector not in world.senders]
    if kind == UPGRADED:
        return ["all"] if month.at == 1 else []
    if kind in OF_A_MACHINE:
        return ["all"] if month.at % 3 == OF_A_MACHINE[kind] else []
    return [""] * EACH_MONTH[kind]


LASTING = {"refusing": 30 * HOUR, "full": 30 * HOUR, "clock": 3 * HOUR, "offline": DAY, "two desks": DAY}
"""The duration of a fault, if it doesn't end by itself."""

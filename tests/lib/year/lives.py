"""One country's life, drawn with a seed: the promises that it broke, and the shortest list of faults that still breaks
them."""

from __future__ import annotations

import collections
import tempfile
import time
from collections.abc import Callable
from typing import NamedTuple, Optional

from lib.program import Program

from .country import Country, Heard
from .faults import Fault, drawn_faults
from .judge import Broken
from .moments import months
from .outside import LOOKS
from .slips import SLIPS
from .world import World


class Size(NamedTuple):
    """The size of a country."""

    months: int
    collectors: int
    slots: int


class Life(NamedTuple):
    """The course of a life: the promise that it broke, if any, and the faults that it met."""

    broken: Optional[str]
    survived: "collections.Counter[str]"
    messages: int
    drills: int
    heard: dict[str, list[Heard]]


class Ways(NamedTuple):
    """The variations of a life: a wrong system, the drawing of others' prices, and the checks."""

    slip: str = ""
    others: int = 0
    looks: frozenset[str] = LOOKS


def life(program: Program, seed: int, size: Size, faults: list[Fault], ways: Ways = Ways()) -> Life:
    """Runs a country's life, in its own folder."""
    world = World(seed, size.collectors, size.slots, months(size.months), ways.others)
    with tempfile.TemporaryDirectory() as room:
        country, broken = Country(program, room, world, faults), None
        country.outside.looks = ways.looks
        if ways.slip:
            SLIPS[ways.slip].make(country)
        try:
            country.run()
        except Broken as found:
            broken = f"at {time.strftime('%Y-%m-%d %H:%M:%S', time.gmtime(country.now))}: {found}"
        return Life(broken, country.survived, country.wire.count, country.keeping.drills, country.heard)


def faults_of(seed: int, size: Size, kinds: list[str], is_certain: bool = False) -> list[Fault]:
    """The faults of a seed of these kinds."""
    return drawn_faults(World(seed, size.collectors, size.slots, months(size.months)), kinds, is_certain)


def shortest(faults: list[Fault], is_broken: Callable[[list[Fault]], bool]) -> list[Fault]:
    """A list of faults that still breaks the promise, and from which none can be left out: it leaves out halves first,
    and then each."""
    step = max(1, len(faults) // 2)
    while faults:
        for at in range(0, len(faults), step):
            fewer = faults[:at] + faults[at + step :]
            if is_broken(fewer):
                faults = fewer
                break
        else:
            if step == 1:
                break
            step = max(1, step // 2)
    return faults


def apart(one: Life, other: Life, who: str) -> Optional[str]:
    """The difference between the answers to somebody in two lives; published tables aren't compared."""
    hearing = [[it for it in each.heard[who] if "table" not in it.reply] for each in (one, other)]
    for here, there in zip(*hearing):
        if here != there:
            return f"{who}: {here} in one world, and {there} in the other"
    counts = [len(each) for each in hearing]
    return None if counts[0] == counts[1] else f"{who}: {counts} answers in the two worlds"

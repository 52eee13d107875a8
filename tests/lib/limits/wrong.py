"""Wrong limits of the second office, each of which some value of the table must find."""

from __future__ import annotations

import contextlib
from collections.abc import Callable, Iterable, Iterator

from second_office import limits as ranges

from ..fault import Fault
from .limit import Asked, Limit
from .sides import fault_of

Wrong = tuple[str, str, float]
"""The name of a range, an end of it, and another number for that."""


NAMES = [name for name, one in vars(ranges).items() if isinstance(one, ranges.Range)]
"""The ranges of the second office."""


def wrong_ends(name: str) -> Iterator[Wrong]:
    """Each end of a range changed by one, and its most doubled."""
    one: ranges.Range = getattr(ranges, name)
    for end in ("least", "most"):
        was = getattr(one, end)
        if abs(was) != ranges.ENDLESS:
            yield from ((name, end, number) for number in (was - 1, was + 1))
    if one.most != ranges.ENDLESS:
        yield name, "most", 2 * one.most


@contextlib.contextmanager
def with_end(wrong: Wrong) -> Iterator[None]:
    """Within this context, the second office has that limit."""
    name, end, number = wrong
    one = getattr(ranges, name)
    was = getattr(one, end)
    setattr(one, end, number)
    try:
        yield
    finally:
        setattr(one, end, was)


def unfound(wrong: Wrong, asked: Iterable[tuple[Limit[Asked], Callable[[Asked], str]]]) -> Fault:
    """The fault, if no value finds a wrong limit of the second office."""
    with with_end(wrong):
        for limit, answer in asked:
            if limit.rule == wrong[0] and any(fault_of(limit, value, answer) for value in limit.values()):
                return None
    return "no value found it"

"""Values that might not be prices: a code that another program writes if there is no price, or a price in another unit.

The program can't detect such a value if it is the first one of its series, since it compares with the last price. So
this module compares these with the other prices of the sheet:

- a first price more than ten times away from the median of the other first prices of its item, or of its aggregate if
  the item has no others;
- a price of nines, and one value in series of many items, if it is as far away from the median of its item's prices, or
  of its aggregate's, or if there are no others.

Nothing is taken in until a person says what the value is.
"""

from __future__ import annotations

import itertools
import re
from bisect import bisect_left, bisect_right
from collections.abc import Collection, Iterator, Mapping, Sequence
from itertools import groupby
from typing import NamedTuple, Optional

from ..text.message import Message, message, whole
from ..text.others import of_others
from .cells import Capped, SheetFault, cut
from .price_store import PriceStore

FAR = 10
"""A price is far from another if it is more than this many times as high or as low."""

MANY_ITEMS = 5
"""A value in the series of this many items may be a code."""

NINES = re.compile("9{4,}")


class Doubts(NamedTuple):
    """The cells in doubt, and their slots: collector and slot."""

    cells: list[SheetFault]
    slots: frozenset[tuple[str, str]]


NO_DOUBTS = Doubts([], frozenset())


class Doubted(NamedTuple):
    """A price in doubt: its number in the store, and the reason."""

    number: int
    because: Message


def doubts_of(store: PriceStore, minor: int, priced: Collection[int]) -> Doubts:
    """The prices in doubt of a store whose series are known; `priced` are the values, in minor units, that a person has
    declared to be prices."""
    odd = _odd_values(store, minor)
    medians = _Medians(store, odd)
    found = {it.number: it for it in _far_firsts(store, medians)}
    found.update({it.number: it for it in _far_odd(store, odd, medians)})
    faults, slots = Capped(), set[tuple[str, str]]()
    for cell in store.cells(sorted(found)):
        if cell.minor not in priced:
            because = found[cell.number].because
            says = message('"{text}" might not be a price: {because}', text=cut(cell.given), because=because)
            faults.add(SheetFault(cell.origin, says, _what_to_do(cell.given)))
            slots.add((cell.collector, cell.slot))
    return Doubts(faults.all(), frozenset(slots))


def _what_to_do(text: str) -> Message:
    value = text.split()[-1] if text.split() else text
    return message(
        "if it means that there is no price, name it with {missing}; if it is a price, with {price}",
        missing=of_others(f'--missing "{value}=stock"'),
        price=of_others(f'--price "{value}"'),
    )


def _odd_values(store: PriceStore, minor: int) -> Mapping[int, Message]:
    """The values that may be codes, and the reason for each."""
    messages = {
        value: message("it occurs in series of {count} items", count=whole(count))
        for value, count in store.values_of_many(MANY_ITEMS)
    }
    nines = message("it consists only of nines")
    return {**messages, **{value: nines for value in store.values() if is_nines(value, minor)}}


def is_nines(value: int, minor: int) -> bool:
    """Whether a price in minor units is 9999, 99999.99 or the like."""
    units, rest = divmod(value, minor)
    digits = str(rest).zfill(len(str(minor - 1))) if minor > 1 else ""
    return NINES.fullmatch(str(units)) is not None and {*digits} in (set(), {"0"}, {"9"})


def is_far(value: int, other: int) -> bool:
    """Whether a price is more than ten times as high or as low as another one."""
    return value > FAR * other or other > FAR * value


class Counted:
    """Values in their order, each with its number of occurrences."""

    def __init__(self, values: Sequence[tuple[int, int]]):
        self._values = [value for value, _ in values]
        self._ends = [*itertools.accumulate(times for _, times in values)]

    def __iter__(self) -> Iterator[int]:
        return iter(self._values)

    def _at(self, place: int) -> int:
        """The value at a place, with each value repeated as often as it occurs."""
        return self._values[bisect_right(self._ends, place)]

    def median(self) -> int:
        """The median; the lower one of two in the middle."""
        return self._at((self._ends[-1] - 1) // 2)

    def median_without(self, value: int) -> Optional[int]:
        """The median of the other values than one that occurs; None if there are none."""
        own = bisect_left(self._values, value)
        first, after = self._ends[own - 1] if own else 0, self._ends[own]
        left = self._ends[-1] - (after - first)
        place = (left - 1) // 2
        return None if not left else self._at(place if place < first else place + after - first)


class _Medians:
    """The medians of items, and the odd values that are far from the other prices of their item, or of their
    aggregate."""

    def __init__(self, store: PriceStore, odd: Collection[int]):
        self._by_aggregate: dict[str, dict[str, int]] = {}
        self.far: set[tuple[str, int]] = set()
        """Items with such a value."""
        alone: list[tuple[str, str, int]] = []
        for (item, aggregate), own in groupby(store.list_values(), key=lambda value: (value.item, value.aggregate)):
            values = Counted([(it.minor, it.times) for it in own])
            self._by_aggregate.setdefault(aggregate, {})[item] = values.median()
            for value in (value for value in values if value in odd):
                other = values.median_without(value)
                if other is None:
                    alone.append((item, aggregate, value))
                elif is_far(value, other):
                    self.far.add((item, value))
        for item, aggregate, value in alone:
            other = self.of_others(item, aggregate)
            if other is None or is_far(value, other):
                self.far.add((item, value))

    def of_others(self, item: str, aggregate: str) -> Optional[int]:
        """The median of the medians of the other items of an aggregate; None if there are none."""
        medians = self._by_aggregate.get(aggregate, {}) if aggregate else {}
        others = sorted(value for name, value in medians.items() if name != item)
        return median(others) if others else None


def median(values: Sequence[int]) -> int:
    """The median of sorted values; the lower one of two in the middle."""
    return values[(len(values) - 1) // 2]


def _far_odd(store: PriceStore, odd: Mapping[int, Message], medians: _Medians) -> Iterator[Doubted]:
    """The prices of odd values that are far from the others, or have no others."""
    for figure in store.figures_of(medians.far):
        yield Doubted(figure.number, odd[figure.minor])


def _far_firsts(store: PriceStore, medians: _Medians) -> Iterator[Doubted]:
    """The first prices of new series that are far from the first prices of their item, or, if it has no others, from
    the other items of their aggregate."""
    for (item, aggregate), found in groupby(store.firsts(), key=lambda figure: (figure.item, figure.aggregate)):
        firsts = [*found]
        values = sorted(it.minor for it in firsts)
        for it in firsts:
            others = values
            if len(values) < 3:
                others = [*values]
                others.remove(it.minor)
            other = median(others) if others else medians.of_others(item, aggregate)
            if it.is_new and other is not None and is_far(it.minor, other):
                because = message(
                    "it is a first price that differs from the median of {of} by a factor of more than ten",
                    of=of_others(item if others else aggregate),
                )
                yield Doubted(it.number, because)

"""Rules on prices: formulas of an elementary index, and of how many outlets figures may leave the office."""

from __future__ import annotations

from collections import Counter
from collections.abc import Callable, Iterable, Sequence
from math import prod


# ==== formulas of an elementary index: how the prices of a sample moved, as one figure (the Manual's chapter on
# elementary indices)
#
# A sample is pairs of prices: a series' current price, and its base. An index is in parts of `ONE`.

ONE, ONE_DIGITS = 10**8, 8
"""An index of 1 (100 points, in millionths of a point), and its digits."""

Pairs = Sequence[tuple[int, int]]
"""The current prices of the series of a sample, and their bases, in ticks."""


def dutot(pairs: Pairs) -> int:
    """The ratio of the sums, rounded down: a series weighs by its base price."""
    return ONE * sum(now for now, _ in pairs) // sum(then for _, then in pairs)


def jevons(pairs: Pairs) -> int:
    """The geometric mean of the ratios, rounded down: each series weighs the same."""
    over, under, count = prod(now for now, _ in pairs), prod(then for _, then in pairs), len(pairs)
    wanted = over * 10 ** (ONE_DIGITS * count) // under
    low, high = 0, 1 << (wanted.bit_length() // count + 1)
    while high - low > 1:
        middle = (low + high) // 2
        if pow(middle, count) <= wanted:
            low = middle
        else:
            high = middle
    return low


def carli(pairs: Pairs) -> int:
    """The arithmetic mean of the ratios, each rounded down: it is never below Jevons, and the Manual advises against
    it."""
    return sum(ONE * now // then for now, then in pairs) // len(pairs)


FORMULAS: dict[str, Callable[[Pairs], int]] = {"Jevons": jevons, "Carli": carli}
"""The formulas that this office doesn't publish, by the names that the Manual has for them."""


# ==== the rule by which figures of single prices may leave the office: from enough outlets, if no outlet has most of
# the prices
#
# An outlet is one number of the office. The rule knows no owners: shops of one chain are as many outlets.

FEWEST_OUTLETS = 3
"""The least number of outlets that an office can set: with two, each could compute the price of the other."""


def may_show(outlets: Iterable[int], least: int) -> bool:
    """Whether prices may be shown together. `outlets` contains the outlet of each price: at least `least` outlets have
    to be among them, and none may have more than half of the prices."""
    counts = Counter(outlets)
    return len(counts) >= max(least, FEWEST_OUTLETS) and 2 * max(counts.values()) <= sum(counts.values())

"""Computes the published figures about single prices a second time, without `cpi_tools`."""

from __future__ import annotations

from collections.abc import Sequence
from decimal import ROUND_HALF_UP, Decimal
from typing import Optional

Price = tuple[int, int]
"""An outlet, and its price in minor units."""


def is_shown(outlets: Sequence[int], least: int) -> bool:
    """Whether there are enough outlets, and no outlet has more prices than all others together."""
    names = sorted(outlets)
    each = [names[at] for at in range(len(names)) if at == 0 or names[at] != names[at - 1]]
    return len(each) >= least and all(names.count(one) <= sum(other != one for other in names) for one in each)


def mean_again(prices: Sequence[Price], least: int) -> Optional[tuple[int, int, int]]:
    """The numbers of outlets and prices, and the mean in minor units, halves up; None if the rule hides it."""
    outlets = [outlet for outlet, _ in prices]
    if not is_shown(outlets, least):
        return None
    total = sum(Decimal(price) for _, price in prices)
    mean = (Decimal(total) / len(prices)).quantize(Decimal(1), ROUND_HALF_UP)
    return len(dict.fromkeys(outlets)), len(prices), int(mean)

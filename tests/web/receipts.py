"""The receipts of a collector's quotes, as the office has them."""

from __future__ import annotations

from typing import Any

from .offices import ANNA, NOW
from .stage import Stage

NEXT = 10
"""The receipt that Anna gets next: nine of hers were given before."""


def stored(stage: Stage, slot: int, key: str = ANNA) -> list[tuple[Any, ...]]:
    """Mark, value and receipt of a slot's quote of this month."""
    return [tuple(row[2:]) for row in stage.quotes(key) if row[0] == slot]


def next_receipt(stage: Stage) -> int:
    """The receipt that one more entry of Anna's gets: it tells how many were given."""
    receipt: int = stage.ask("PUT", f"/api/quote/4/{NOW}", ANNA, "price,101").reply["receipt"]
    return receipt

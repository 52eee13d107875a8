"""A phone's knowledge of the quotes of a month, with which it detects that the office was restored from a copy.

It follows quotes.js of the page, rule by rule, and shares no code with it.
"""

from __future__ import annotations

from typing import Any, NamedTuple

FORMER = 4
"""The most replaced quotes of a slot that are kept."""


class Stored(NamedTuple):
    """A quote of a slot with its receipt."""

    slot: int
    mark: str
    value: str
    receipt: int

    @property
    def quote(self) -> tuple[str, str]:
        return self.mark, self.value


def stored_of(rows: list[list[Any]], month: str) -> dict[int, Stored]:
    """The quotes of a month in a list of the office, by slot."""
    return {row[0]: Stored(row[0], row[2], str(row[3]), row[4]) for row in rows if row[1] == month}


class Known:
    """A phone's knowledge of a month: its work list, the quotes by slot, and the replaced quotes."""

    def __init__(self, work: list[list[Any]], quotes: dict[int, Stored]) -> None:
        self.work, self.quotes = work, quotes
        self.former: list[Stored] = []
        self.is_doubted = False

    @property
    def greatest(self) -> int:
        return max((quote.receipt for quote in self.quotes.values()), default=0)

    def mark(self, stored: Stored) -> None:
        """Notes that the office has stored a quote."""
        before = self.quotes.get(stored.slot)
        if before and before != stored:
            self._replaced(before)
        self.quotes[stored.slot] = stored

    def _replaced(self, before: Stored) -> None:
        own = [it for it in self.former if it.slot == before.slot]
        others = [it for it in self.former if it.slot != before.slot]
        self.former = [*others, *own[1 - FORMER :], before]

    def compare(self, now: dict[int, Stored]) -> tuple[bool, list[tuple[Stored, int]]]:
        """Whether the office, which has these quotes now, was restored from a copy; and the quotes that it lacks, each
        with the receipt of the quote in its place, if the phone had seen that one before. From now on the phone knows
        these quotes."""
        known, self.quotes = self.quotes, dict(now)
        changed = [it for slot, it in known.items() if now.get(slot) != it]
        intact = max((it.receipt for slot, it in known.items() if now.get(slot) == it), default=0)
        is_back = any(not _is_later(now.get(it.slot), it) for it in changed)
        lost = [it for it in changed if is_back and _is_lost(it, now.get(it.slot), intact)]
        seen = [now[it.slot].receipt if now.get(it.slot) in self.former else 0 for it in lost]
        if is_back:
            self.former = [it for it in self.former if it.receipt <= intact]
        for it in changed:
            there = now.get(it.slot)
            if it not in lost and there and there.quote != it.quote:
                self._replaced(it)
        return is_back, list(zip(lost, seen))


def _is_later(there: "Stored | None", before: Stored) -> bool:
    return there is not None and there.receipt > before.receipt


def _is_lost(it: Stored, there: "Stored | None", intact: int) -> bool:
    """Whether a quote was stored after the copy, and the office has none in its place, or another one."""
    if there is None:
        return True
    return there.quote != it.quote and (there.receipt <= it.receipt or it.receipt > intact)

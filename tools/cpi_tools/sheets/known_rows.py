"""What an office has already to which rows are added: such rows are passed over."""

from __future__ import annotations

from collections.abc import Callable, Iterable, Iterator
from typing import NamedTuple

from ..office.stored import Plan, Quote, StoredOffice
from ..text.terminal import month_text
from .cells import Row
from .price_cells import Place
from .price_store import StoredPrice
from .record_rows import MOVED, WINDOW, Sent
from .take_out import Held, held_by, rows_of_handovers, rows_of_series, slot_in, told_quote


# ==== The rows that an office already has, to which others are added. A row that the office has is skipped.

Window = tuple[str, ...]
"""The times at which a window opens and closes, and at which its table is published, as texts."""


class Frozen(NamedTuple):
    """A release that an office has: the times of its publication and its freeze, in seconds as texts, and its carry
    list."""

    publishes: str
    frozen_at: str
    carry: frozenset[str]


class Known(NamedTuple):
    """What an office has already, all as texts: keys by collector; the fields of items and the names of outlets; places
    as slots have them, in their order, and as they were first given; windows by month; hand-overs; the rows of plans by
    year; releases by month and revision; and the prices that it has of a month."""

    keys: dict[str, str]
    items: dict[str, tuple[str, ...]]
    outlets: dict[str, str]
    places: dict[Place, None]
    given: frozenset[Place]
    windows: dict[str, Window]
    handovers: frozenset[tuple[str, ...]]
    plans: dict[str, frozenset[tuple[str, ...]]]
    releases: dict[tuple[str, str], Frozen]
    prices_of: Callable[[str], Iterable[StoredPrice]]

    def has(self, row: Sent) -> bool:
        """Whether the office has exactly this row of items, outlets, collectors or series."""
        first, *others = row.fields[1:]
        if row.word == "item":
            return self.items.get(first) == (first, *others)
        if row.word == "assign":
            place = Place(first, *others)
            return place in self.given or place in self.places
        return [(self.outlets if row.word == "outlet" else self.keys).get(first)] == others

    def revision_of(self, month: str) -> int:
        """The latest revision of a month; 0 if there is none."""
        return max((int(revision) for released, revision in self.releases if released == month), default=0)

    def has_handover(self, row: Row) -> bool:
        """Whether the office has a hand-over."""
        return tuple(row[it] for it in MOVED) in self.handovers

    def has_plan(self, year: str, rows: Iterable[Sent]) -> bool:
        """Whether the plan of a year consists of exactly these rows."""
        return self.plans.get(year) == frozenset(tuple(row.fields) for row in rows)


NOTHING = Known({}, {}, {}, {}, frozenset(), {}, frozenset(), {}, {}, lambda _: ())


# ==== the rows that an office already has, in the form in which they are taken out; identical rows are skipped

STORED = 0
"""The revision of a stored quote, whichever freeze took it."""


def known_of(stored: StoredOffice) -> Known:
    """The rows in the copy of an office; the prices of a month can be read as long as the copy is open."""
    held = held_by(stored)
    return Known(
        keys={str(number): key for number, key in stored.keys().items()},
        items={it.code: tuple(map(str, it)) for it in stored.items()},
        outlets={str(number): name for number, name in stored.outlets().items()},
        places=dict.fromkeys(
            Place(
                str(assignment.collector),
                str(assignment.slot),
                str(assignment.outlet),
                assignment.item,
                *map(month_text, assignment[4:6]),
            )
            for assignment in stored.assignments()
        ),
        given=frozenset(Place(*map(str, row)) for row in rows_of_series(held)),
        windows={month_text(it.month): window_of(*it[1:]) for it in stored.calendar()},
        handovers=frozenset((*map(str, row[1:]), str(row[0])) for row in rows_of_handovers(held)),
        plans=dict(plans_of(stored)),
        releases=dict(releases_of(stored)),
        prices_of=lambda month: prices_of(stored, held, month),
    )


def window_of(*moments: int) -> Window:
    """A window as texts."""
    assert len(moments) == len(WINDOW)
    return tuple(map(str, moments))


def plans_of(stored: StoredOffice) -> Iterator[tuple[str, frozenset[tuple[str, ...]]]]:
    """The rows of each year's plan, as they are sent."""
    yield from ((str(plan.year), frozenset(rows_of_plan(plan))) for plan in stored.plans())


def rows_of_plan(plan: Plan) -> Iterator[tuple[str, ...]]:
    """The rows of a plan, as they are sent."""
    yield from (("T", code, title) for code, title in plan.titles.items())
    yield from (("W", code, str(weight)) for code, weight in plan.aggregates().items())
    yield from (("I", item, code) for item, code in plan.places.items())
    if plan.reference:
        yield ("R", month_text(plan.reference))


def releases_of(stored: StoredOffice) -> Iterator[tuple[tuple[str, str], Frozen]]:
    """Each release by month and revision."""
    moments = stored.frozen_moments()
    for month, revision, carry in stored.releases():
        frozen_at, publishes = moments[month, revision]
        yield (month_text(month), str(revision)), Frozen(str(publishes), str(frozen_at), frozenset(carry))


def prices_of(stored: StoredOffice, held: Held, month: str) -> Iterator[StoredPrice]:
    """The quotes that each freeze of a month took, and the stored quotes of the month."""
    number = int(month.replace("-", ""))
    for release in stored.releases():
        if release.month == number:
            for series, frozen in stored.frozen(release).items():
                slot = slot_in(held[series], number)
                yield stored_price(month, slot, release.revision, Quote(frozen.mark, frozen.value))
    for slot, quote in stored.quotes(number).items():
        yield stored_price(month, slot, STORED, quote)


def stored_price(month: str, slot: tuple[int, int], turn: int, quote: Quote) -> StoredPrice:
    """A quote in the form in which it is compared with the quotes taken in."""
    mark, value = told_quote(quote)
    return StoredPrice(month, str(slot[0]), str(slot[1]), turn, mark, str(value))

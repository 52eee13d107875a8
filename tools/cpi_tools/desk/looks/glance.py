"""The month at a glance: how much of it has come, by weight, division, collector and outlet, and who is silent.

Nothing here is frozen, so it is quick: the slots are counted by the file's own tables. Moments are seconds since 1970
UTC, months numbers like 202601.
"""

from __future__ import annotations

from collections import defaultdict
from collections.abc import Callable, Iterable, Iterator, Mapping, Sequence
from typing import NamedTuple, Optional, TypeVar

from ...office.quote_marks import SILENT
from ...office.stored import StoredOffice
from ...office.trial import State, state_of
from ...text.message import Cell, Section, columns, message, moment_of, month_of
from ...text.terminal import month_text
from ..month.facts import NOT_IN_PLAN, NO_PLACE, NO_PLAN
from ..month.response import RESPONSE, Count, most_silent, percent, weighted_by
from ..serve.watched_office import Heard

Key = TypeVar("Key", int, str)


NO_SLOTS = message("The month has no slots.")


class Share(NamedTuple):
    """The response in a month: slots with a price, all slots, and in millionths the priced share by the weights of the
    plan (None without a plan)."""

    priced: int
    slots: int
    weighed: Optional[int]


class CollectorShare(NamedTuple):
    """How far a collector is in a month: the slots by their entries, the last month with an entry (None if there is none),
    and when the application first saw the last entry, if it knows."""

    number: int
    entries: Count
    last_month: Optional[int]
    seen_at: Optional[int]

    @property
    def slots(self) -> int:
        """All slots."""
        return self.entries.slots

    @property
    def missing(self) -> int:
        """Slots that were sent as missing, with a reason."""
        return self.entries.missing

    @property
    def silent(self) -> int:
        """Slots for which nothing was sent."""
        return self.entries.marks[SILENT]

    @property
    def answers(self) -> int:
        """Slots with an entry."""
        return self.slots - self.silent


class Glance(NamedTuple):
    """The content of a month's page: the moment of the copy, the month's state, its entries, its tables, and its
    collectors by number."""

    at: int
    state: State
    share: Share
    missing: int
    silent: int
    sections: list[Section]
    collectors: Sequence[CollectorShare] = ()

    @property
    def month(self) -> str:
        """The month as a text."""
        return month_text(self.state.month)


class Slots:
    """The slots of a month, counted."""

    def __init__(self, office: StoredOffice, month: int):
        self.rows = office.response(month)
        plans = {plan.year: plan for plan in office.plans()}
        self.plan = plans.get(month // 100) or plans.get(month // 100 + 1)
        self.outlets = office.outlets()

    def code(self, item: str) -> str:
        """The aggregate in which the year's plan places an item."""
        return self.plan.places.get(item, NO_PLACE) if self.plan else NO_PLACE

    def by(self, key: Callable[[int, int, str], Key]) -> dict[Key, Count]:
        """Counts by something of collector, outlet and item, in its order."""
        counts: dict[Key, Count] = defaultdict(Count)
        for collector, outlet, item, mark, count in self.rows:
            counts[key(collector, outlet, item)].add_many(mark or SILENT, count)
        return dict(sorted(counts.items()))

    def weigh(self, by_code: Mapping[str, Count], codes: Iterable[str]) -> tuple[int, int]:
        """Parts of the plan's weight that are priced, in millionths, and the weight in all."""
        return weighted_by(by_code, self.plan.weights if self.plan else {}, codes)


def glance_at(office: StoredOffice, month: int, at: int, heard: Mapping[int, Heard]) -> Glance:
    """The month as a copy of the moment `at` has it. Raises Refused if the calendar has no row for it."""
    state, slots = state_of(office, month), Slots(office, month)
    total = slots.by(lambda collector, outlet, item: 0).get(0, Count())
    by_code = slots.by(lambda collector, outlet, item: slots.code(item))
    parts, weight = slots.weigh(by_code, by_code)
    share = Share(total.with_price, total.slots, parts // weight if weight else None)
    last = {collector: it for collector, (it, _) in office.last_sent().items()}
    collectors = [*shares_of(slots, last, heard)]
    sections = [by_division(slots, by_code), by_collector(collectors), by_outlet(slots)]
    return Glance(at, state, share, total.missing, total.marks[SILENT], sections, collectors)


def by_division(slots: Slots, by_code: Mapping[str, Count]) -> Section:
    """The response by division, by weight too."""
    rows: list[list[Cell]] = []
    for code, it in slots.by(lambda collector, outlet, item: slots.code(item)[:2]).items():
        parts, weight = slots.weigh(by_code, [each for each in by_code if each[:2] == code])
        title = slots.plan.titles.get(code, NOT_IN_PLAN) if slots.plan else NO_PLAN
        rows.append([code, title, *it.cells(), percent(parts, weight * 10**6)])
    note = message(
        "For the percentage by weight, each aggregate's weight in the plan is multiplied by the share of its slots"
        " that have a price. A slot counts in the division in which the year's plan places its item."
    )
    heads = columns("=division", "title", *RESPONSE, "#percent by weight")
    return Section("divisions", message("By division"), note, heads, rows, NO_SLOTS)


def shares_of(slots: Slots, last: Mapping[int, int], heard: Mapping[int, Heard]) -> Iterator[CollectorShare]:
    """How far each collector is, by number; `last` is by collector the last month with an entry."""
    for number, count in slots.by(lambda collector, outlet, item: collector).items():
        known = heard.get(number)
        yield CollectorShare(number, count, last.get(number), known.at if known and known.is_seen else None)


def by_collector(collectors: Iterable[CollectorShare]) -> Section:
    """The response by collector, and since when each of them is silent."""
    rows: list[list[Cell]] = []
    for share in collectors:
        month = month_of(share.last_month) if share.last_month else ""
        moment = moment_of(share.seen_at) if share.seen_at is not None else ""
        rows.append([share.number, month, moment, *share.entries.cells()])
    note = message(
        "Collectors with the most slots without a response come first. The office's file doesn't record when a price"
        " arrived: the time shown here is the time at which this application first saw the last entry, so only"
        " entries that arrived while it was running have one."
    )
    heads = columns("#collector", "last month with an entry", "last entry seen", *RESPONSE)
    return Section("collectors", message("By collector"), note, heads, most_silent(rows), NO_SLOTS, shown=100)


def by_outlet(slots: Slots) -> Section:
    """The response by outlet."""
    found = slots.by(lambda collector, outlet, item: outlet)
    rows: list[list[Cell]] = [[number, slots.outlets[number], *it.cells()] for number, it in found.items()]
    heads = columns("#outlet", "name", *RESPONSE)
    note = message("Those with the most slots without a response come first.")
    return Section("outlets", message("By outlet"), note, heads, most_silent(rows), NO_SLOTS, False, 100)


def month_at(office: StoredOffice, at: int) -> Optional[int]:
    """The month that the desk works at: the first month that isn't frozen and whose window has opened; without one, the
    last month whose window has opened; without that, the first month of the calendar."""
    calendar = office.calendar()
    frozen = {release.month for release in office.releases()}
    opened = [it.month for it in calendar if it.opens <= at]
    waiting = [month for month in opened if month not in frozen and month > max(frozen, default=0)]
    return next(iter([*waiting[:1], *opened[-1:], *(it.month for it in calendar[:1])]), None)


def months_of(office: StoredOffice) -> Sequence[int]:
    """The months of the calendar, the latest first."""
    return [it.month for it in reversed(office.calendar())]

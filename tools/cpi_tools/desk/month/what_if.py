"""`cpi-tools desk what-if`: a month's table if some quotes were others; and tables that come out early."""

from __future__ import annotations

import csv
import io
from collections import defaultdict
from collections.abc import Iterator, Mapping, Sequence
from pathlib import Path
from typing import NamedTuple, Optional

from ...office.copying import private_copy
from ...office.program import Cpi
from ...office.stored import StoredOffice, Window, read_copy
from ...office.trial import Frozen, Record, State, as_frozen, freeze_on_copy, reopen, state_of
from ...text.message import (
    Cell,
    Code,
    Message,
    Section,
    columns,
    message,
    moment_of,
    month_of,
    said_as,
    sentences,
    whole,
)
from ...text.terminal import Fault, link_month, month_before, month_text, slot_text, time_text


# ==== tables that come out before a revision from which they are computed: everybody can compute figures of that
# revision from them
#
# A month is computed from the latest revisions of months before it, published or not (docs/reference/OFFICE.md, the
# index of a month). So its table shows something of these revisions, and a revision that comes out later has lost its
# embargo. The first month of all has no levels. Moments are seconds since 1970 UTC.

LINK = (
    "each level of that revision, to a millionth or two: 100 times the row's chained level, divided by its index within"
    " the year"
)
MONTH = (
    "each level of that revision, to about 0.05 percent: the row's chained level, divided by 1 plus its monthly change"
)
YEAR = (
    "each level of that revision, to about 0.05 percent: the row's chained level, divided by 1 plus its annual change"
)
WEIGHTS = (
    "how the prices of each aggregate moved from that revision to December, if they know the plan: the row's weight in"
    " use, divided by its weight there"
)
"""The figures of a month that a table's readers can compute from it, and how."""

WAYS: Mapping[str, Message] = {
    LINK: message(
        "Until then, anyone can compute each level of that revision from the table, to within a millionth or two: 100"
        " times the row's chained level, divided by its index within the year."
    ),
    MONTH: message(
        "Until then, anyone can compute each level of that revision from the table, to within about 0.05 percent: the"
        " row's chained level, divided by 1 plus its monthly change."
    ),
    YEAR: message(
        "Until then, anyone can compute each level of that revision from the table, to within about 0.05 percent: the"
        " row's chained level, divided by 1 plus its annual change."
    ),
    WEIGHTS: message(
        "Until then, anyone who knows the plan can compute from the table how the prices of each aggregate moved from"
        " that revision to December: the row's weight in use, divided by its weight in the plan."
    ),
}
"""The same figures, in a sentence of the catalogues."""


class Early(NamedTuple):
    """A table that comes out before a revision of an earlier month that it is computed from, or may be: the table's
    month and moment, the earlier month with its revision and that one's moment, what can be computed of it, and what
    the desk can still do, if anything."""

    month: int
    comes_out: int
    earlier: int
    revision: int
    publishes: int
    way: str
    remedy: Message

    def warning(self) -> Message:
        """The warning, in whole sentences."""
        first = message(
            "The table of {table} is published at {moment}, but revision {revision} of {base}, from which it is"
            " computed, only at {later}.",
            table=month_of(self.month),
            moment=moment_of(self.comes_out),
            revision=whole(self.revision),
            base=month_of(self.earlier),
            later=moment_of(self.publishes),
        )
        return sentences(first, WAYS[self.way], self.remedy)

    def __str__(self) -> str:
        return str(self.warning())


def ways(month: int, reference: Optional[int]) -> dict[int, str]:
    """The earlier months that the table of a month is computed from, and what can be computed of each; `reference` is
    the month whose prices the weights of the year's plan are of."""
    found = {reference: WEIGHTS} if reference else {}
    return {**found, month - 100: YEAR, month_before(month): MONTH, link_month(month): LINK}


class Moments:
    """When each table of an office comes out."""

    def __init__(self, office: StoredOffice):
        self.references = office.references()
        self.calendar = {row.month: row for row in office.calendar()}
        self.released: dict[int, dict[int, int]] = defaultdict(dict)
        for (month, revision), (_, publishes) in office.frozen_moments().items():
            self.released[month][revision] = publishes

    def ways(self, month: int) -> dict[int, str]:
        """As `ways`, without months that have no levels."""
        first = min(self.released, default=month)
        return {at: way for at, way in ways(month, self.references.get(month // 100)).items() if at > first}

    def latest(self, month: int) -> tuple[int, int]:
        """The latest revision of a month and its moment; (0, 0) if it isn't frozen."""
        return max(self.released[month].items(), default=(0, 0)) if month in self.released else (0, 0)

    def find_unpublished(self, month: int, comes_out: int, at: int, remedy: Message) -> Iterator[Early]:
        """Each revision that the table of a month is computed from and that comes out after it, and after `at`."""
        for earlier, way in sorted(self.ways(month).items()):
            revision, publishes = self.latest(earlier)
            if publishes > max(comes_out, at):
                yield Early(month, comes_out, earlier, revision, publishes, way, remedy)

    def next_out(self, month: int) -> Optional[tuple[int, int, str]]:
        """The first table to come out, by the calendar, that will be computed from a month: its moment, its month, and
        what can be computed from it."""
        rows = [it for it in self.calendar.values() if it.month > month and it.month not in self.released]
        matching_rows = [
            (row.publishes, row.month, self.ways(row.month)[month]) for row in rows if month in self.ways(row.month)
        ]
        return min(matching_rows, default=None)


def early_tables(office: StoredOffice, state: State, at: int) -> list[Early]:
    """The tables that come out too early for a month in its state at a moment: its own table before a table from which
    it is computed, and a table that will be computed from it before its own."""
    moments, month = Moments(office), state.month
    later_moment = message("Before {table} is frozen, set a later release time for it.", table=month_of(month))
    if state.is_frozen:
        revision, publishes = moments.latest(month)
        early_releases = [
            *moments.find_unpublished(month, moments.released[month][1], at, message("This can no longer be changed."))
        ]
    else:
        revision, publishes = state.revision + 1, max(state.window.publishes, at)
        early_releases = [*moments.find_unpublished(month, publishes, at, later_moment)]
    following = moments.next_out(month)
    if following and following[0] < publishes and publishes > at:
        first, later, way = following
        named = {"table": month_of(later), "base": month_of(month)}
        remedy = (
            message("Before {table} is frozen, set a later release time for it.", table=named["table"])
            if state.is_frozen
            else message(
                "Before {table} is frozen, set a later release time for it, or an earlier one for {base}.", **named
            )
        )
        early_releases.append(Early(later, first, month, revision, publishes, way, remedy))
    return early_releases


def until_when(office: StoredOffice, month: int) -> Optional[str]:
    """By when a further revision of a frozen month has to come out; None if the calendar has no table of a month that
    will be computed from it."""
    following = Moments(office).next_out(month)
    if following is None:
        return None
    first, later, way = following
    return (
        f"A further revision of {month_text(month)} has to come out by {time_text(first)}: from then on everybody can"
        f" compute from the table of {month_text(later)} {way}."
    )


# ==== `cpi-tools desk what-if`: the table of a month, compared with its table if some quotes were others
#
# Both are frozen by the program, on two copies. Of the last frozen month it is what a further revision would change.

Place = tuple[int, int]
"""A collector and a slot."""


class Tried(NamedTuple):
    """The trial: slots without a price and for which reason, prices of slots in minor units, codes to carry."""

    missing: Sequence[Place]
    reason: str
    prices: Sequence[tuple[Place, int]]
    carry: Sequence[str]


class Beside(NamedTuple):
    """A month now, and after the trial; for a frozen one, by when a further revision has to come out, if by the
    calendar another table will be computed from it."""

    as_is: Frozen
    tried: Frozen
    until: Optional[str]


class NotTried(Fault):
    """Something that can't be tried; one line."""


def what_if(cpi: Cpi, office_copy: Path, month: int, at: int, tried: Tried) -> Beside:
    """Freezes a month twice. Raises Refused if the program refuses a freeze or a quote."""
    with read_copy(office_copy) as office:
        state = state_of(office, month)
        carry = next((each.carry for each in reversed(office.releases()) if each.month == month), ())
        after, calendar = reopen(state) if state.is_frozen else (state, None)
        quotes = [*quotes_of(office, after.window, tried)]
        until = until_when(office, month) if state.is_frozen else None
    moment = max(at, state.window.closes)
    with private_copy(office_copy) as copy:
        as_is = as_frozen(cpi, copy, state, carry) if state.is_frozen else freeze_on_copy(cpi, copy, state, moment)
    with private_copy(office_copy) as copy:
        sent = [calendar, *quotes] if calendar else quotes
        return Beside(as_is, freeze_on_copy(cpi, copy, after, moment, tried.carry, sent), until)


def quotes_of(office: StoredOffice, window: Window, tried: Tried) -> Iterator[Record]:
    """The records that the collectors would send, within the window. Raises NotTried if nobody has such a slot."""
    keys, known = office.keys(), {assignment[:2] for assignment in office.assignments()}
    sent: list[tuple[Place, list[object]]] = [(place, ["missing", tried.reason]) for place in tried.missing]
    sent += [(place, ["price", price, "confirm"]) for place, price in tried.prices]
    for place, fields in sent:
        if place not in known:
            slot = slot_text(place)
            says = message(
                "No collector has slot {slot}: write a collector and a slot, with a slash between them.",
                slot=Code(slot),
            )
            raise NotTried(said_as(f"nobody has slot {slot}: give COLLECTOR/SLOT", says))
        yield [window.opens, keys[place[0]], "quote", place[1], month_text(window.month), *fields]


# ---- the nodes that differ


HEADS = columns(
    *("=code", "#index", "#month %", "#year %", "#what if: index", "#what if: month %", "#what if: year %", "title")
)


def differences(beside: Beside) -> Section:
    """The rows of the two tables that differ, side by side."""
    rows = differing(beside.as_is.table, beside.tried.table)
    return Section("what-if", message("Items that change"), "", HEADS, rows, message("None: the tables are the same."))


def differing(one: bytes, other: bytes) -> list[list[Cell]]:
    """The rows of two tables that differ: the code, the figures of each, and the title."""
    before, after = rows_of(one), rows_of(other)
    rows: list[list[Cell]] = []
    for code in sorted(before.keys() | after.keys()):
        if before.get(code) != after.get(code):
            title = (after.get(code) or before[code])[-1]
            rows.append([code, *figures(before.get(code)), *figures(after.get(code)), title])
    return rows


def rows_of(table: bytes) -> dict[str, list[str]]:
    """The rows of a table by their codes."""
    return {row[0]: row for row in csv.reader(io.StringIO(table.decode(), newline=""))}


def figures(row: Optional[Sequence[str]]) -> list[Cell]:
    """Index and both changes."""
    return ["", "", ""] if row is None else [row[2], row[4], row[5]]

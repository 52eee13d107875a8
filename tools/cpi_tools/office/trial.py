"""A month that the program itself freezes, on a copy: the real result, before the freeze.

No rule of the office is written here. Each code that comes onto a carry list was named by a refusal of the program, and
each table is as the program prints it to the public from its moment on.
"""

from __future__ import annotations

from collections.abc import Iterable, Sequence
from pathlib import Path
from typing import NamedTuple, Optional

from ..text.terminal import Fault, month_text
from .program import LAST_MOMENT, Cpi, Reply, Session, record
from .public import Listed, Published, listed_in
from .refusals import COLLECTOR, DESK, refusal_words
from .stored import StoredOffice, Window
from .tables import before, link_of

Record = Sequence[object]
"""The fields of a record: moment, caller, word, arguments."""

NOTHING_TO_COMPARE = (49, 2)
"""Refusal and fault of an aggregate that needs a place on the carry list."""

MOST_REVISIONS = 9


class Refused(Fault):
    """The program refused a trial on a copy; one line in the words of the guides: the desk's, or the collectors'."""

    def __init__(self, reply: Reply, what: str, word: Optional[str] = None, to: str = DESK):
        self.reply = reply
        self.words = words = refusal_words(reply, to, word)
        at = "".join(f", {name} {reply[name]}" for name in ("fault", "code") if name in reply)
        super().__init__(f"{what}: refused by {reply['refused']}{at}: {words.because}; {words.do}")


class State(NamedTuple):
    """The state of a month: its row of the calendar, its latest revision or 0, and whether it is reopened."""

    month: int
    window: Window
    revision: int
    is_reopened: bool

    @property
    def is_frozen(self) -> bool:
        """Whether the month is frozen and not reopened."""
        return self.revision > 0 and not self.is_reopened


class Frozen(NamedTuple):
    """A month that is frozen on a copy: revision, carry list, those tables that its changes are against, and its own as
    the last of them. `others` are the latest tables of all other months, if they were asked for."""

    copy: Path
    revision: int
    carry: tuple[str, ...]
    tables: list[Published]
    others: Optional[list[Published]] = None

    @property
    def table(self) -> bytes:
        """The bytes of its table."""
        return self.tables[-1].table


def state_of(office: StoredOffice, month: int) -> State:
    """The state of a month. Raises Refused if the calendar has no row for it."""
    calendar = {each.month: each for each in office.calendar()}
    if month not in calendar:
        last = f", which ends with {month_text(max(calendar))}" if calendar else ""
        raise Refused({"refused": 21}, f"{month_text(month)}, by the calendar{last}")
    revision = max((each.revision for each in office.releases() if each.month == month), default=0)
    window = calendar[month]
    is_reopened = revision > 0 and window.publishes > office.frozen_moments()[month, revision][1]
    return State(month, window, revision, is_reopened)


def reopen(state: State) -> tuple[State, Record]:
    """A frozen month as if it were reopened for a revision that is published a second later, and the record of it."""
    window = state.window._replace(publishes=state.window.publishes + 1)
    return state._replace(window=window, is_reopened=True), calendar_record(window)


def calendar_record(window: Window) -> Record:
    """The desk's record of a row of the calendar."""
    return [0, "desk", "calendar", month_text(window.month), *window[1:]]


# ---- the freeze


def freeze_on_copy(
    cpi: Cpi,
    copy: Path,
    state: State,
    at: int,
    carry: Sequence[str] = (),
    sent: Iterable[Record] = (),
    known: Optional[Sequence[Published]] = None,
) -> Frozen:
    """Freezes a month on a copy at a moment, and lets each aggregate that a refusal names be carried.

    The copy is changed. `carry` is the beginning of the list, and `sent` are records that are sent first. With `known`,
    tables that are at hand, the tables of all other months are there too, and only those are printed that aren't known.
    One run of the program does it all, so the copy is opened once. Raises Refused if one of these is refused, or the
    freeze for any other reason.
    """
    with cpi.session(copy) as session:
        for fields in sent:
            must(session, fields)
        listed = frozen_with(session, state.month, at, carry)
        tables = tables_around(session, month_text(state.month), state.revision + 1)
        others = None if known is None else other_tables_in(session, month_text(state.month), known)
    return Frozen(copy, state.revision + 1, listed, tables, others)


def as_frozen(
    cpi: Cpi, copy: Path, state: State, carry: tuple[str, ...], known: Optional[Sequence[Published]] = None
) -> Frozen:
    """The latest release of a frozen month, as if it had just been made; `known` as for `freeze_on_copy`."""
    month = month_text(state.month)
    with cpi.session(copy) as session:
        tables = tables_around(session, month, state.revision)
        others = None if known is None else other_tables_in(session, month, known)
        return Frozen(copy, state.revision, carry, tables, others)


def must(session: Session, fields: Record) -> None:
    """Sends a record. Raises Refused if it is refused, without any collector's key that it contains."""
    reply = session.ask(record(*fields))
    if "refused" in reply:
        to = DESK if fields[1] == "desk" else COLLECTOR
        raise Refused(reply, " ".join(str(field) for field in fields[2:]), str(fields[2]), to)


def frozen_with(session: Session, month: int, at: int, carry: Sequence[str]) -> tuple[str, ...]:
    """Freezes a month; the carry list that it took."""
    listed = [*carry]
    while True:
        reply = session.ask(record(at, "desk", "freeze", month_text(month), *listed))
        if reply == {"done": True}:
            return tuple(listed)
        if (reply.get("refused"), reply.get("fault")) != NOTHING_TO_COMPARE:
            raise Refused(reply, f"a freeze of {month_text(month)}", "freeze")
        listed.append(reply["code"])


def tables_around(session: Session, month: str, revision: int) -> list[Published]:
    """The tables of the month before, of a year before and of the link month, in their latest revisions, and last the
    table of a revision of the month: as they are printed once all are published."""
    earlier = {before(month), before(month, 12), link_of(month)}
    listed = listed_in(session.ask(record(LAST_MOMENT, "public", "tables")))
    latest = {each.month: each for each in listed if each.month in earlier}
    (own,) = [each for each in listed if (each.month, each.revision) == (month, revision)]
    return [Published(each, print_table(session, each)) for each in [*sorted(latest.values()), own]]


def other_tables_in(session: Session, month: str, known: Sequence[Published]) -> list[Published]:
    """The latest tables of all months but one, as they are printed once all are published. Known tables aren't printed
    again: a revision of a month always has the same table."""
    had = {publication.listed[:2]: publication.table for publication in known}
    listed = listed_in(session.ask(record(LAST_MOMENT, "public", "tables")))
    latest = {each.month: each for each in sorted(listed) if each.month != month}
    # (the table of the first December is empty)
    return [
        Published(each, had[each[:2]] if each[:2] in had else print_table(session, each)) for each in latest.values()
    ]


def print_table(session: Session, listed: Listed) -> bytes:
    """A table as the program prints it for the public once it is published."""
    reply = session.ask(record(LAST_MOMENT, "public", "table", listed.month, "csv", listed.revision))
    if "table" not in reply:
        raise Refused(reply, f"the table of {listed.month}", "table")
    text: str = reply["table"]
    return text.encode()

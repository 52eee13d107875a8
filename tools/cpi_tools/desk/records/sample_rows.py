"""Rows of a person's tray: judged by `cpi` on a copy, row by row, and sent to the office. A row that isn't carried out
stays in the tray with the answer.

Slots that nobody named: of an assignment, or of a hand-over's new holder. It is the slot that has exactly this already,
so that a row that is given twice doesn't make a second series; else the first that is free.
"""

from __future__ import annotations

import hashlib
import secrets
from collections import defaultdict
from collections.abc import Iterable, Iterator, Sequence
from typing import NamedTuple, Optional

from ...office.program import Reply
from ...office.stored import StoredOffice, read_copy
from ...office.stored_pages import last_months_of, slots_of
from ...text.clocks import Clock
from ...text.text_files import line_of
from ...text.message import message as _
from ...text.others import Worded, own_line
from ...text.terminal import Fault, month_text
from ..freeze.freezes import sum_of
from ..serve.desk import Desk
from ..serve.request_context import replaced_since
from ..serve.sessions import Session
from .sending import COLLECTORS, GOING, GOOD, KEY, NOT_SENT, NO_REPLY, REFUSED, Tray, Waiting, record_reply, what_stands
from .desk_log import ANSWERED, HIDDEN, LOOKED_UP, SENT, Entry, hide_key
from .sample_kinds import KINDS, NOT_READ, Kind, bounds_read, has_bounds, why_not_read
from .record_judge import at_clock, judge_records

NO_REPLY_YET, NOT_SENT_YET, KEY_IS_GONE, WAS_ENDED = "no-reply", "not-sent", "key", "ended"
"""The code in the tray's file for a row without an answer; a fault is given in its own words."""

WHY = {
    NO_REPLY_YET: NO_REPLY,
    NOT_SENT_YET: NOT_SENT,
    KEY_IS_GONE: _(
        "A key is kept only in memory, and the application has been restarted since: discard this row, and enter "
        "it again."
    ),
    WAS_ENDED: _("Not sent: the application was stopped first."),
}
"""The reasons, as a page shows them."""


def answer_of(row: Waiting) -> Worded:
    """The text that a page shows next to a row."""
    if row.reply is not None:
        return record_reply(row.record, row.reply).answer
    if row.why == NOT_READ:
        return why_not_read(row.cells, KINDS["items"])
    if row.why in WHY or not row.why:
        return WHY.get(row.why, Worded(""))
    return _("Not sent: {fault}", fault=own_line(row.why))


class Record(NamedTuple):
    """A row of the tray with the record that goes to the office, or why there is none."""

    row: Waiting
    fields: list[str]
    fault: str = ""


# ---- records of rows


def records_of(tray: Tray, kind: Kind, rows: Sequence[Waiting], office: StoredOffice, clock: Clock) -> list[Record]:
    """The records of rows: with the slots and keys that nobody gave, and with moments by the office's clock."""
    if kind.name == COLLECTORS:
        return [_with_key(tray, kind, row) for row in rows]
    if has_bounds(kind):
        return [_with_bounds(kind, row) for row in rows]
    cells = [[*row.cells] for row in rows]
    if kind.optional:
        fill_slots(kind, cells, office)
    return [Record(row, at_clock([kind.word, *own], clock)) for row, own in zip(rows, cells)]


def _with_bounds(kind: Kind, row: Waiting) -> Record:
    cells, why = bounds_read(kind, row.cells)
    return Record(row, [kind.word, *cells], NOT_READ if why else "")


def _with_key(tray: Tray, kind: Kind, row: Waiting) -> Record:
    if tray.key(row.number) is None and not row.cells[KEY]:
        tray.keep_key(row.number, secrets.token_hex(16))
    key = tray.key(row.number)
    return Record(row, [kind.word, row.cells[0], key or HIDDEN], "" if key else KEY_IS_GONE)


def fill_slots(kind: Kind, rows: Sequence[list[str]], office: StoredOffice) -> None:
    """Fills in the slots that nobody named."""
    at = kind.columns.index(kind.optional)
    holders = {row[at - 1] for row in rows} | {row[0] for row in rows}
    slots = FreeSlots(office, holders)
    for row in rows:
        if row[at]:
            slots.take(row[at - 1], row[at])
    for row in rows:
        if not row[at]:
            given = [*row[:at], *row[at + 1 :]]
            row[at] = slots.find_slot(*given) if kind.word == "assign" else slots.handed_over(*given)


# ---- judging


def judge(desk: Desk, person: str, kind: Kind) -> None:
    """Judges all rows of a person's tray again, together and in their order. Raises Fault."""
    settle(desk, person, kind)
    rows = [row for row in desk.tray.rows(person, kind.name) if row.state != GOING]
    if not rows:
        return
    with desk.copies_now() as copy:
        with read_copy(copy.path) as office:
            records = records_of(desk.tray, kind, rows, office, desk.given.clock)
            stood = what_stands(office, [record.fields for record in records])
        asked = [record.fields for record in records if not record.fault]
        replies = iter(judge_records(desk.cpi, copy.path, asked))
    changed = {
        record.row.number: _judge_record(record, None if record.fault else next(replies))._replace(stood=before)
        for record, before in zip(records, stood)
    }
    desk.tray.change(person, kind.name, changed)


def _judge_record(it: Record, reply: Optional[Reply]) -> Waiting:
    record = hide_key(it.fields)
    if reply is None:
        return it.row._replace(record=record, state=REFUSED, reply=None, why=it.fault, since=0)
    state = REFUSED if "refused" in reply else GOOD
    return it.row._replace(record=record, state=state, reply=reply, why="", since=0)


# ---- sending


def sum_of_rows(rows: Sequence[Waiting]) -> str:
    """A sum of rows as they were given, so that nobody drops or mends others than the page showed."""
    return sum_of([[row.number, row.cells] for row in rows])


def state_of(rows: Sequence[Waiting]) -> str:
    """A sum of the rows that would be sent, so that only rows are sent that somebody saw."""
    seen = [line_of([row.number, *row.record]) for row in rows if row.state == GOOD]
    return hashlib.sha256("\n".join(seen).encode()).hexdigest()


class Sent(NamedTuple):
    """The number of rows sent, and the number of those that were carried out."""

    total: int
    done: int


class NotAsSeen(Fault):
    """The rows that would be sent aren't those that the person saw; one line."""


def send(desk: Desk, session: Session, kind: Kind, seen: str) -> Sent:
    """Sends the rows that the copy would carry out, if `seen` is their sum. Raises Fault if nothing was sent."""
    with desk.tray.lock:
        all_rows = desk.tray.rows(session.person, kind.name)
        rows = [row for row in all_rows if row.state == GOOD]
        if not rows or state_of(all_rows) != seen:
            raise NotAsSeen(
                _("These rows were already sent, or have changed since they were shown: see the current state.")
            )
        if others := replaced_since([row.record for row in rows], [row.stood for row in rows]):
            raise NotAsSeen(others)
        records = [_for_office(desk.tray, kind, row) for row in rows]
        since = desk.log.entries[-1].number if desk.log.entries else 0
        going = {row.number: row._replace(state=GOING, reply=None, why=NO_REPLY_YET, since=since) for row in rows}
        desk.tray.change(session.person, kind.name, going)
    try:
        replies = desk.send(session, records)
    except Fault as fault:
        changed = {row.number: row._replace(reply=None, why=str(fault)) for row in rows}
        desk.tray.change(session.person, kind.name, changed)
        raise
    waiting = {tuple(record) for entry in desk.log.open_entries() for record in entry.records}
    after = {row.number: _after(row, since, reply, waiting) for row, reply in zip(rows, replies)}
    desk.tray.change(session.person, kind.name, after)
    return Sent(len(rows), sum(waiting_item is None for waiting_item in after.values()))


def _for_office(tray: Tray, kind: Kind, row: Waiting) -> list[str]:
    """The record of a row, with its key. Raises Fault if the key is gone."""
    if kind.name != COLLECTORS:
        return row.record
    key = tray.key(row.number)
    if key is None:
        raise Fault(WHY[KEY_IS_GONE])
    return [*row.record[:2], key]


def _after(row: Waiting, since: int, reply: Optional[Reply], waiting: set[tuple[str, ...]]) -> Optional[Waiting]:
    """A row after it was sent: None if it was carried out."""
    if reply is None:
        if tuple(row.record) in waiting:
            return row._replace(state=GOING, reply=None, why=NO_REPLY_YET, since=since)
        return row._replace(reply=None, why=NOT_SENT_YET, since=0)
    return (
        None if record_reply(row.record, reply).is_done else row._replace(state=REFUSED, reply=reply, why="", since=0)
    )


# ---- what was on its way as the application ended


def settle(desk: Desk, person: str, kind: Kind) -> None:
    """Finds in the log the results of rows that were on their way; those that were carried out go. Raises Fault."""
    going = [row for row in desk.tray.rows(person, kind.name) if row.state == GOING]
    if going:
        entries = [*desk.log.entries]
        changed = {row.number: found_in_log(row, entries) for row in going}
        desk.tray.change(person, kind.name, changed)


def found_in_log(row: Waiting, entries: Sequence[Entry]) -> Optional[Waiting]:
    """A row by what the log says of it: None if it was carried out."""
    for reply in _replies(row, entries):
        if reply is None:
            return row
        return (
            None
            if record_reply(row.record, reply).is_done
            else row._replace(state=REFUSED, reply=reply, why="", since=0)
        )
    return row._replace(state=REFUSED, reply=None, why=WAS_ENDED, since=0)


def _replies(row: Waiting, entries: Sequence[Entry]) -> Iterator[Optional[Reply]]:
    """The reply to each time that a row was sent; None of one whose reply isn't known."""
    for entry in entries:
        if entry.what == SENT and entry.number > row.since and row.record in entry.records:
            ends = [it for it in entries if it.of == entry.number]
            if not ends:
                yield None
            elif ends[0].what in (ANSWERED, LOOKED_UP):
                yield ends[0].replies[entry.records.index(row.record)]


MOST_DIGITS = 9
"""No collector has a longer number."""


class FreeSlots:
    """The slots of an office's collectors, and the slots that have been given out since; all as texts."""

    def __init__(self, office: StoredOffice, collectors: Iterable[str]):
        numbers = sorted(
            {int(collector) for collector in collectors if collector.isdecimal() and len(collector) < MOST_DIGITS}
        )
        self._taken: dict[str, set[str]] = defaultdict(set)
        self._assigned: dict[Sequence[str], list[str]] = defaultdict(list)
        self._handed: dict[Sequence[str], list[str]] = defaultdict(list)
        self._series: dict[Sequence[str], tuple[str, str]] = {}
        last = last_months_of(office, numbers)
        for assignment in slots_of(office, numbers):
            collector, slot, series = (
                str(assignment.collector),
                str(assignment.slot),
                (str(assignment.series[0]), str(assignment.series[1])),
            )
            self._taken[collector].add(slot)
            self._series[collector, slot] = series
            first = month_text(assignment.first_month)
            if series == (collector, slot):
                ends = month_text(last[assignment.series])
                self._assigned[collector, str(assignment.outlet), assignment.item, first, ends].append(slot)
            else:
                self._handed[collector, *series, first].append(slot)

    def take(self, collector: str, slot: str) -> None:
        """A slot that somebody named."""
        self._taken[collector].add(slot)

    def find_slot(self, collector: str, outlet: str, item: str, first: str, last: str) -> str:
        """The slot of an assignment."""
        return self._one_of(collector, self._assigned[collector, outlet, item, first, last])

    def handed_over(self, collector: str, slot: str, to: str, month: str) -> str:
        """The slot of `to` that a series goes to from a month on."""
        series = self._series.get((collector, slot), (collector, slot))
        return self._one_of(to, self._handed[to, *series, month])

    def _one_of(self, collector: str, standing: list[str]) -> str:
        if standing:
            return standing.pop(0)
        number = 1
        while str(number) in self._taken[collector]:
            number += 1
        self._taken[collector].add(str(number))
        return str(number)

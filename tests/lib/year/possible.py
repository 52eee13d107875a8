"""The offices that are possible after all answers: one, or several if a message had no answer.

It contains the second office, once for each possible result of the messages without an answer. Each answer leaves only
the offices that give it. Once none is left, the judged office has broken a promise.
"""

from __future__ import annotations

import copy
from collections.abc import Iterator
from typing import Any, Optional

from second_office.index import Index
from second_office.office import Office
from second_office.requests import Record, caller_of, request_of, rows_of
from second_office.rows import Kept

from .asked import Asked

NO_DISK = {"refused": 90}
MOST = 5000
"""The most offices that are distinguished."""


def copied(office: Kept) -> Kept:
    """A separate office with the same content."""
    twin = copy.copy(office)
    for name in ("items", "plans", "calendar", "outlets", "keys", "assignments", "quotes"):
        setattr(twin, name, dict(getattr(office, name)))
    twin.tables = {month: list(of) for month, of in office.tables.items()}
    twin.of_releases = {name: list(rows) for name, rows in office.of_releases.items()}
    twin.index = Index(twin.plans, office.index.frozen, dict(office.index.known))
    return twin


def content(office: Office) -> tuple[Any, ...]:
    """The content that distinguishes two offices."""
    lists = office.items, office.plans, office.calendar, office.outlets, office.keys, office.assignments
    return (*lists, office.quotes, office.tables)


def outline(office: Office) -> tuple[Any, ...]:
    """The content that two equal offices share, as a key."""
    lengths = tuple(len(each) for each in content(office))
    return (*lengths, hash(frozenset(office.quotes.items())), hash(frozenset(office.calendar.items())))


def stored_by(asked: Asked, office: Office) -> tuple[Any, ...]:
    """The changes in an office when it stores something from a command: a message that changes nothing isn't
    written."""
    lengths = tuple(len(each) for each in content(office))
    receipts = sum(receipt for place, (_, receipt) in office.quotes.items() if office.keys.get(place[0]) == asked.key)
    return (*lengths, receipts, tuple(office.calendar.values()), sum(len(of) for of in office.tables.values()))


def prefixes(office: Kept, record: Record) -> Iterator[Kept]:
    """The records that may be stored after a record without an answer: nothing, some first rows of an import, or
    everything."""
    yield office
    if record[2] == "import":
        now, caller = int(record[0]), caller_of(record[1])
        for row in rows_of(record[3]):
            office = copied(office)
            assert caller
            office.answer(now, caller, request_of(row[0], row[1:]))
            yield office
    else:
        office = copied(office)
        office.reply(record)
        yield office


def replied(office: Office, record: Record, reply: Any, may_refuse: bool) -> Optional[Any]:
    """Carries out a record, except the parts that were refused with 90; returns the wanted reply, if it differs."""
    if may_refuse and reply == NO_DISK:
        return None
    given = reply.get("rows") if isinstance(reply, dict) else None
    if not (may_refuse and record[2] == "import" and given and NO_DISK in given):
        wanted = office.reply(record)
        return None if wanted == reply else wanted
    now, caller, rows = int(record[0]), caller_of(record[1]), rows_of(record[3])
    assert caller
    told = [
        NO_DISK if it == NO_DISK else office.answer(now, caller, request_of(row[0], row[1:]))
        for row, it in zip(rows, given)
    ]
    return None if told == given else {"rows": told}


class Possible:
    """The offices that are possible."""

    def __init__(self, offices: list[Kept]) -> None:
        self.offices = offices
        self.has_stored = False
        """Whether the last command that was answered has stored something, in each office that may have answered."""

    def answered(self, asked: Asked, now: int, reply: Any, may_refuse: bool) -> str | None:
        """The fault of an answer, if no office can have given it; offices that can't have given it are left out."""
        record, left, wanted, changed = asked.record(now), list[Kept](), list[Any](), list[bool]()
        for office in self.offices:
            twin = copied(office) if len(self.offices) > 1 and asked.is_command else office
            before = stored_by(asked, twin) if asked.is_command else ()
            other = replied(twin, record, reply, may_refuse)
            if other is None:
                left.append(twin)
                changed.append(asked.is_command and stored_by(asked, twin) != before)
            else:
                wanted.append(other)
        if not left:
            return (
                f"{record[1][:7]} {' '.join(record[2:])[:200]!r} is answered {reply!r:.300}, and not {wanted[0]!r:.300}"
            )
        self.offices = distinct(left)
        self.has_stored = all(changed)
        return None

    def unanswered(self, asked: Asked, now: int) -> None:
        """Notes a message whose result nobody knows."""
        record = asked.record(now)
        if asked.is_command:
            self.offices = distinct([each for office in self.offices for each in prefixes(office, record)])

    def settle(self) -> None:
        """Keeps one of several equal offices."""
        self.offices = distinct(self.offices)

    def kept(self) -> list[Kept]:
        """Copies of the current offices."""
        return [copied(office) for office in self.offices]

    def doubtful(self) -> set[int]:
        """The collectors whose lists differ in the offices."""
        first, *others = (office.quotes.items() for office in self.offices)
        return {collector for other in others for (collector, *_), _ in first ^ other}


def distinct(offices: list[Kept]) -> list[Kept]:
    """The different offices, the first of each."""
    if len(offices) == 1:
        return offices
    records: dict[tuple[Any, ...], list[Kept]] = {}
    for office in offices:
        alike = records.setdefault(outline(office), [])
        if not any(content(office) == content(other) for other in alike):
            alike.append(office)
    each = [office for alike in records.values() for office in alike]
    assert len(each) <= MOST, f"{len(each)} offices are possible"
    return each

"""The answers to one reader, whatever the others send: runs with the records of others left out or changed."""

from __future__ import annotations

import random
from collections.abc import Callable, Iterable, Iterator
from typing import Any, NamedTuple

from second_office.index import before
from second_office.office import Assignment, Office, Place
from second_office.records import KEYS
from second_office.requests import Record
from second_office.values import Month

from .fault import Fault
from .records import first_difference


class Run(NamedTuple):
    """Records, and the line of each."""

    records: list[Record]
    lines: list[str]


Again = Callable[[list[Record]], list[str]]
"""The lines that the program writes for other records."""

Quotes = dict[tuple[int, int, Month], Any]
"""By collector, slot and month."""

COLLECTORS = KEYS[:3]


def is_of_others(record: Record, key: str) -> bool:
    return record[1] in KEYS and record[1] != key


def lines_to(reader: str, run: Run) -> Run:
    """The requests of one reader, and the answers."""
    pairs = [(record, line) for record, line in zip(*run) if record[1] == reader]
    return Run([record for record, _ in pairs], [line for _, line in pairs])


def told_otherwise(readers: Iterable[str], one: Run, other: Run) -> Fault:
    """The answers to one of the readers that differ between two runs."""
    for reader in readers:
        told, wanted = lines_to(reader, one), lines_to(reader, other)
        fault = first_difference(told.records, told.lines, wanted.lines)
        if fault:
            return fault
    return None


def without_others(drawn: random.Random, run: Run, again: Again, _: set[str]) -> Fault:
    """The records of other collectors are left out."""
    key = drawn.choice(COLLECTORS)
    alone = [record for record in run.records if not is_of_others(record, key)]
    return told_otherwise(["public", key], Run(alone, again(alone)), run)


def is_freeze(record: Record) -> bool:
    return record[2] == "freeze" or (record[2] == "import" and "\nfreeze," in record[3])


def instead(drawn: random.Random, record: Record) -> list[Record]:
    """The replacement of another collector's record: nothing, the quote with another mark or price, or an additional
    quote."""
    if record[2] != "quote" or len(record) < 7 or drawn.random() < 0.4:
        return []
    price = str(1 + int(record[6]) // 2) if record[5] != "missing" and record[6].isdecimal() else "100"
    entry = drawn.choice([["price", price], ["other", price], ["missing", "stock"], ["price", price, "confirm"]])
    other = [*record[:5], *entry]
    return drawn.choice([[other], [record, other], [other, record]])


Changes = dict[int, list[Record]]
"""The replacement of a record, by its place."""


class Watched:
    """A second office with other records: the assignments of one collector, without their series, after each record of
    the desk, and the hand-overs to it with the quotes of the former slot before and after."""

    def __init__(self, records: Iterable[tuple[int, Record]], number: int) -> None:
        self.assigned: list[tuple[int, dict[Place, Assignment]]] = []
        office, begun = Office(), dict[Place, tuple[Place, Quotes]]()
        for at, record in records:
            office.reply(record)
            if record[1] == "desk":
                own = {place: one for place, one in office.assignments.items() if place[0] == number}
                self.assigned.append((at, {place: one._replace(series=(0, 0)) for place, one in own.items()}))
                for place, one in own.items():
                    if place != one.series and place not in begun:
                        former = former_of(office, one)
                        begun[place] = former, quotes_of(office, former)
        self.came = {at: (former, then, quotes_of(office, former)) for at, (former, then) in begun.items()}


def former_of(office: Office, new: Assignment) -> Place:
    """The slot whose assignment of the series ended when the new one began; the first one, if that has been shortened
    since."""
    ends = (new.series, before(new.first))
    return next((at for at, one in office.assignments.items() if (one.series, one.last) == ends), new.series)


def quotes_of(office: Office, place: Place) -> Quotes:
    """The quotes of a slot."""
    return {at: quote for at, quote in office.quotes.items() if at[:2] == place}


def changed_alike(
    drawn: random.Random, records: list[Record], number: int, end: int
) -> tuple[list[Record], Iterator[str]]:
    """The records, with the records of other collectors changed from a place on, so that this collector always has the
    same assignments; and the facts about hand-overs to this collector."""
    key = KEYS[number - 1]
    others = [at for at in range(end, len(records)) if is_of_others(records[at], key)]
    changes: Changes = {at: instead(drawn, records[at]) for at in others if drawn.random() < 0.7}
    wanted = Watched(enumerate(records), number)
    while True:
        pairs = [(at, each) for at, record in enumerate(records) for each in changes.get(at, [record])]
        found = Watched(pairs, number)
        differs = next((one[0] for one, other in zip(found.assigned, wanted.assigned) if one != other), None)
        if differs is None:
            return [record for _, record in pairs], told_of(changes, wanted, found)
        take_back(drawn, changes, records, differs)


def take_back(drawn: random.Random, changes: Changes, records: list[Record], end: int) -> None:
    """Takes back some changes before a record of the desk: of a hand-over, first the changes of the former
    collector."""
    earlier = [at for at in changes if at < end]
    if records[end][2] == "handover" and records[end][3] in ("1", "2", "3"):
        own = [at for at in earlier if records[at][1] == KEYS[int(records[end][3]) - 1]]
        of_the_slot = [at for at in own if records[at][2] != "quote" or records[at][3] == records[end][4]]
        earlier = of_the_slot or own or earlier
    for at in drawn.sample(earlier, (len(earlier) + 1) // 2):
        del changes[at]


def told_of(changes: Changes, wanted: Watched, found: Watched) -> Iterator[str]:
    """The kinds of KINDS that are met by changes."""
    if changes and not wanted.came:
        yield "others' quotes changed, without a hand-over"
    for place, (former, *then) in wanted.came.items():
        if former[0] != place[0] and place in found.came:
            told = zip(("before it", "after it"), then, found.came[place][1:])
            others = [name for name, one, other in told if one != other]
            yield from (f"a hand-over, and the former's quotes are others {name}" for name in others)


def with_others_changed(drawn: random.Random, run: Run, again: Again, met: set[str], end: int = 0) -> Fault:
    """The records of other collectors from a place on are changed."""
    number = drawn.choice([1, 2, 3])
    changed, told = changed_alike(drawn, run.records, number, end)
    met.update(told)
    return told_otherwise(["public", KEYS[number - 1]], Run(changed, again(changed)), run)


def with_others_changed_at_the_end(drawn: random.Random, run: Run, again: Again, met: set[str]) -> Fault:
    """The records of other collectors after the last freeze are changed."""
    last = max((at for at, record in enumerate(run.records) if is_freeze(record)), default=-1)
    return with_others_changed(drawn, run, again, met, 1 + last)


def freeze_done(record: Record, line: str) -> str | None:
    """The month that was frozen by a record, if one was."""
    if not is_freeze(record):
        return None
    if record[2] == "freeze":
        return record[3] if "done" in line else None
    return record[3].split("\nfreeze,")[1][:7] if '{"done":true}' in line else None


def publishes(month: str, pairs: Iterable[tuple[Record, str]]) -> int:
    """The publication time in the calendar row of a month, after these records and lines."""
    done = [record for record, line in pairs if record[2:4] == ["calendar", month] and "done" in line]
    return int(done[-1][6])


def told_before(moment: int, run: Run) -> Run:
    """The records of earlier moments and their lines."""
    pairs = [(record, line) for record, line in zip(*run) if int(record[0]) < moment]
    return Run([record for record, _ in pairs], [line for _, line in pairs])


def without_last_freeze(drawn: random.Random, run: Run, again: Again, _: set[str]) -> Fault:
    """The last freeze isn't made, and the desk sends nothing that was refused from then on."""
    pairs = list(zip(*run))
    frozen = [(at, month) for at, pair in enumerate(pairs) if (month := freeze_done(*pair))]
    if not frozen:
        return None
    end, month = frozen[-1]
    until = publishes(month, pairs[:end])
    after = [record for record, line in pairs[end + 1 :] if record[1] != "desk" or "refused" not in line]
    left = run.records[:end] + after
    told = told_before(until, Run(left, again(left)))
    return told_otherwise(["public", *COLLECTORS], told, told_before(until, run))

"""`cpi-tools gaps NEW --office OLD`: the rows that only the old file of an office contains, written as rows to send."""

from __future__ import annotations

import csv
import io
import os
from collections import defaultdict
from collections.abc import Collection, Iterable, Iterator, Mapping, Sequence
from itertools import groupby
from pathlib import Path
from typing import NamedTuple, Optional, TextIO

from ..office.folders import new_room, private_file, write_rows
from ..office.stored import REASONS, StoredOffice
from ..sheets.known_rows import Known, known_of, rows_of_plan
from ..sheets.price_cells import COMPARABLE, PRICE
from ..sheets.record_rows import DESK
from ..sheets.take_out import held_by, rows_of_handovers, rows_of_series
from ..text.terminal import Fault, month_text, write_count


# ==== `cpi-tools gaps NEW --office OLD`: the rows that only the old file of an office contains, as rows to send
#
# After a promotion, a restore or a cut line two files go on from one office. OLD contains answered commands that NEW
# lacks: its prices, and its records of the desk.
#
# **Which of two prices is the later one.** No file has moments of prices. But a collector's receipts count on from
# those that both files have. So every difference between the files came after the last common receipt, which is taken
# to be the greatest number that all differences leave for it. A price of OLD is missing if only its own receipt is
# greater; if only NEW's receipt is, NEW has corrected it since. If both are greater nobody knows, and a person decides.
# So it is with records of the desk that both have and that differ, which have no receipts.
#
# A slot that both gave to different series, or a number to different persons, is one too: nothing is sent for it.

OTHER_PERSON = "this number is another collector"
"""Why nothing is sent for a number that NEW gave to another person."""

Fields = tuple[str, ...]
"""The fields of a record without its moment and its caller, the word first: a row of an import."""

At = tuple[int, int, int]
"""Collector, slot, and month as a number like 202601."""


class Entry(NamedTuple):
    """A stored quote: its mark, its price or its reason as a text, and its receipt."""

    mark: str
    value: str
    receipt: int

    @property
    def text(self) -> str:
        """The report for a person."""
        return f"{self.mark} {self.value}, receipt {self.receipt}"


class Missing(NamedTuple):
    """A price that NEW lacks: its slot and month, OLD's price, and NEW's."""

    at: At
    entry: Entry
    here: Optional[Entry]

    @property
    def fields(self) -> Fields:
        """The row that its collector sends. A price that could be outside of the tolerance is confirmed: it was accepted
        once."""
        confirm = ("confirm",) if self.entry.mark in (PRICE, COMPARABLE) else ()
        return ("quote", str(self.at[1]), month_text(self.at[2]), *self.entry[:2], *confirm)


class Different(NamedTuple):
    """A row that both have with other content: its sender (`desk`, or the number of a collector), its kind, and OLD's
    and NEW's content."""

    by: str
    what: str
    old: str
    new: str


class Lacking(NamedTuple):
    """NEW's gaps: the records of the desk in the order in which an office takes them, the prices by collector, and the
    freezes, which come after them; the differences; and how many prices NEW has corrected since."""

    records: list[Fields]
    prices: list[Missing]
    freezes: list[Fields]
    different: list[Different]
    put_right: int

    @property
    def to_send(self) -> int:
        """The number of rows to send."""
        return len(self.records) + len(self.prices) + len(self.freezes)


def lacking(old: StoredOffice, new: StoredOffice) -> Lacking:
    """The rows that one file of an office contains and another one lacks. Raises Fault if they are of two offices."""
    has, knows = known_of(old), known_of(new)
    if has.keys and knows.keys and not {*has.keys.items()} & {*knows.keys.items()}:
        raise Fault("they are of two offices: no collector has the same key in both")
    others = {number for number, key in has.keys.items() if knows.keys.get(number, key) != key}
    different = list[Different]()
    records = [*_records(old, Registered(knows), others, different)]
    freezes = [*_freezes(old, new, different)]
    prices, put_right = _prices(old, new, _find_barred(old, new, others), different)
    return Lacking(records, prices, freezes, different, put_right)


# ---- the records of the desk


def _records(
    old: StoredOffice, registered: Registered, others: Collection[str], different: list[Different]
) -> Iterator[Fields]:
    """The records that NEW lacks. `others` are the numbers that it gave to other persons."""
    for fields in _list_records(old):
        here = registered.here(fields)
        numbers = {"assign": fields[1:2], "handover": fields[1:4:2]}.get(fields[0], ())
        if here is None and not {*numbers} & {*others}:
            yield fields
        elif here != fields:
            different.append(Different(DESK, *_compare(fields, here)))


def _list_records(old: StoredOffice) -> Iterator[Fields]:
    """All records of the desk but the freezes, in the order in which an office takes them."""
    held = held_by(old)
    yield from (("item", *map(str, it)) for it in old.items())
    yield from (("outlet", str(number), name) for number, name in old.outlets().items())
    yield from (("collector", str(number), key) for number, key in old.keys().items())
    yield from (("assign", *map(str, row)) for row in rows_of_series(held))
    yield from (("plan", str(plan.year), body_of(rows_of_plan(plan))) for plan in old.plans())
    yield from (("handover", *map(str, row[1:]), str(row[0])) for row in rows_of_handovers(held))
    yield from (("calendar", month_text(it.month), *map(str, it[1:])) for it in old.calendar())


def body_of(rows: Iterable[Iterable[str]]) -> str:
    """Rows as the body of a record."""
    text = io.StringIO()
    csv.writer(text, lineterminator="\n").writerows(rows)
    return text.getvalue()


class Registered:
    """NEW's records of the desk, by the fields that a record of OLD shares with the one in its place."""

    def __init__(self, knows: Known):
        self._knows = knows
        self._places = defaultdict[Fields, list[Fields]](list)
        for place in (*knows.given, *knows.places):
            self._places[place[:2]].append(place)
        self._moved = {(way, *row[at : at + 2]): row for row in knows.handovers for way, at in (("from", 0), ("to", 2))}

    def here(self, fields: Fields) -> Optional[Fields]:
        """NEW's record in the place of a record of OLD; None if it has none."""
        word, first = fields[:2]
        if word == "assign":
            return _after((word,), _same_or_first(fields[1:], self._places.get(fields[1:3], [])))
        if word == "handover":
            ways = (("from", *fields[1:3]), ("to", *fields[3:5]))
            return _after((word,), _same_or_first(fields[1:], [self._moved[way] for way in ways if way in self._moved]))
        if word == "plan":
            return self._plan(fields)
        if word == "item":
            return _after((word,), self._knows.items.get(first))
        if word == "calendar":
            return _after((word, first), self._knows.windows.get(first))
        text = (self._knows.outlets if word == "outlet" else self._knows.keys).get(first)
        return None if text is None else (word, first, text)

    def _plan(self, fields: Fields) -> Optional[Fields]:
        """The plan of a year, whose rows have no order."""
        rows = self._knows.plans.get(fields[1])
        if rows is None:
            return None
        is_same = rows == frozenset(tuple(row) for row in csv.reader(io.StringIO(fields[2], newline="")))
        return fields if is_same else (*fields[:2], body_of(sorted(rows)))


def _same_or_first(fields: Fields, others: Sequence[Fields]) -> Optional[Fields]:
    """The fields if they are among others, or else the first of these; None if there are none."""
    return fields if fields in others else others[0] if others else None


def _after(fields: Fields, others: Optional[Fields]) -> Optional[Fields]:
    """Some fields and those that follow; None if there are none."""
    return None if others is None else (*fields, *others)


def _compare(fields: Fields, here: Optional[Fields]) -> tuple[str, str, str]:
    """A record's kind, and OLD's and NEW's content, None if NEW has another collector. A key is in no text."""
    word, first = fields[:2]
    if word == "collector" or here is None:
        what = f"{word} {first}" if word == "collector" else f"{word} {first}/{fields[2]}"
        return what, "its key" if word == "collector" else ",".join(fields[3:]), OTHER_PERSON
    if word == "plan":
        return f"plan {first}", write_count(fields[2].count("\n"), "row"), write_count(here[2].count("\n"), "row")
    own = 3 if word in ("assign", "handover") else 2
    return f"{word} {'/'.join(fields[1:own])}", ",".join(fields[own:]), ",".join(here[own:])


def _freezes(old: StoredOffice, new: StoredOffice, different: list[Different]) -> Iterator[Fields]:
    """The freezes that NEW lacks, in their order. One that both have is the same if its carry list and its table are."""
    releases = {release[:2]: release for release in new.releases()}
    for release in old.releases():
        month = month_text(release.month)
        here = releases.get(release[:2])
        if here is None:
            yield ("freeze", month, *release.carry)
            continue
        lists = [sorted(it.carry) for it in (release, here)]
        what = f"freeze {month} revision {release.revision}"
        if lists[0] != lists[1]:
            different.append(Different(DESK, what, *(f"carried {' '.join(it) or 'nothing'}" for it in lists)))
        elif (old.levels(release), old.titles(release)) != (new.levels(here), new.titles(here)):
            different.append(Different(DESK, what, "its table", "another table"))


# ---- prices


def entries_of(office: StoredOffice) -> dict[At, Entry]:
    """All stored quotes."""
    return {
        (collector, slot, month): Entry("missing", mark, receipt)
        if mark in REASONS
        else Entry(mark, str(value), receipt)
        for collector, slot, month, mark, value, receipt in office.all_quotes()
    }


def _find_barred(old: StoredOffice, new: StoredOffice, others: Collection[str]) -> dict[tuple[int, int], str]:
    """The slots for which nothing can be sent, and why: NEW gave the number to another person, or the slot to another
    series."""
    of_new = {(place.collector, place.slot): (place.outlet, place.item) for place in new.assignments()}
    found = dict[tuple[int, int], str]()
    for assignment in old.assignments():
        slot = (assignment.collector, assignment.slot)
        if str(assignment.collector) in others:
            found[slot] = OTHER_PERSON
        elif of_new.get(slot, (assignment.outlet, assignment.item)) != (assignment.outlet, assignment.item):
            found[slot] = "this slot prices another item or outlet"
    return found


def last_common(old: Mapping[At, Entry], new: Mapping[At, Entry]) -> dict[int, int]:
    """By collector the greatest receipt up to which both may be one office. Every difference came after it: a price
    that one of them lacks, or the later one of two."""
    found = dict[int, int]()
    for at in old.keys() | new.keys():
        entries = old.get(at), new.get(at)
        if entries[0] != entries[1]:
            differs = max(entry.receipt for entry in entries if entry)
            found[at[0]] = min(differs - 1, found.get(at[0], differs))
    return found


def _prices(
    old: StoredOffice, new: StoredOffice, barred: Mapping[tuple[int, int], str], different: list[Different]
) -> tuple[list[Missing], int]:
    """The prices that NEW lacks, by collector, month and slot, and how many it put right since."""
    has, knows = entries_of(old), entries_of(new)
    common, missing, put_right = last_common(has, knows), list[Missing](), 0
    for at, entry in sorted(has.items(), key=lambda it: (it[0][0], it[0][2], it[0][1])):
        here, last = knows.get(at), common.get(at[0], 0)
        if here and here[:2] == entry[:2]:
            continue
        what = f"quote {at[0]}/{at[1]} {month_text(at[2])}"
        if at[:2] in barred:
            different.append(Different(str(at[0]), what, entry.text, barred[at[:2]]))
        elif here is None or here.receipt <= last < entry.receipt:
            missing.append(Missing(at, entry, here))
        elif entry.receipt <= last < here.receipt:
            put_right += 1
        else:
            different.append(Different(str(at[0]), what, entry.text, here.text))
    return missing, put_right


# ==== the written gaps between an office and its old file: rows to send, by the person who sends them, in the order in
# which an office takes them; and each difference between both, a line each
#
#     1-desk.csv           records of the desk: rows of an import
#     2-collector-7.csv    prices of a collector: rows of an import under that collector's key
#     3-freezes.csv        freezes, which come after the prices
#     prices.csv           all of these prices with their receipts, as `gaps --receipts` writes them
#     different.csv        what both have, but not the same: a person decides

HEADS = ("collector", "slot", "month", "mark", "value", "receipt")
"""The columns of a list of prices."""

DIFFERENT = ("by", "record", "old", "new")
"""The columns of differences."""


def rows_by_person(lacks: Lacking) -> Iterator[tuple[str, ...]]:
    """All rows to send, each after the person who sends it: `desk`, or the number of a collector."""
    yield from ((DESK, *fields) for fields in lacks.records)
    yield from ((str(price.at[0]), *price.fields) for price in lacks.prices)
    yield from ((DESK, *fields) for fields in lacks.freezes)


def write_records(file: TextIO, rows: Iterable[Sequence[str]]) -> None:
    """Writes records, which a program reads: each text as it is."""
    csv.writer(file, lineterminator="\n").writerows(rows)


def because_of_entry(here: Optional[Entry]) -> str:
    """Why a price is missing: the office's row in its place."""
    if here is None:
        return "nothing is stored for this slot and month"
    return f"{here.mark} {here.value} is stored, with receipt {here.receipt}"


def write_folder(folder: Path, lacks: Lacking) -> None:
    """Writes the files of mode 0600 into a new folder, whole or not at all. Raises Fault and OSError."""
    if os.path.lexists(folder):
        raise Fault(f"{folder} is there already: name a folder that isn't")
    folder.parent.mkdir(parents=True, exist_ok=True)
    with new_room(".cpi-gaps-", folder.parent) as room:
        made = room / "files"
        made.mkdir(mode=0o700)
        for name, rows in _files(lacks):
            with private_file(made / name) as file:
                write_records(file, rows)
        if lacks.prices:
            prices = (
                (*price.at[:2], month_text(price.at[2]), *price.entry, because_of_entry(price.here))
                for price in lacks.prices
            )
            write_rows(made / "prices.csv", (*HEADS, "because"), prices)
        if lacks.different:
            write_rows(made / "different.csv", DIFFERENT, lacks.different)
        made.rename(folder)


def _files(lacks: Lacking) -> Iterator[tuple[str, list[Fields]]]:
    """The files of rows to send, by their names."""
    if lacks.records:
        yield "1-desk.csv", lacks.records
    for collector, own in groupby(lacks.prices, key=lambda price: price.at[0]):
        yield f"2-collector-{collector}.csv", [it.fields for it in own]
    if lacks.freezes:
        yield "3-freezes.csv", lacks.freezes


def lines_of(lacks: Lacking, old: Path, new: Path) -> Iterator[str]:
    """The report for a person besides the rows: the differences, a line each, and the sum."""
    for it in lacks.different:
        yield f"{it.what} differs, so a person decides: old {it.old}; new {it.new}"
    for each in lacks.prices:
        if each.here:
            what = f"quote {each.at[0]}/{each.at[1]} {month_text(each.at[2])}"
            yield f"{what} is later in the old file: old {each.entry.text}; new {each.here.text}"
    if any(fields[0] == "collector" for fields in lacks.records):
        yield "the rows of new collectors have their keys"
    yield f"{new} lacks {_sum(lacks)} of {old}{_rest(lacks)}"


def _sum(lacks: Lacking) -> str:
    """The sentence with the number of prices and records that an office lacks."""
    collectors = len({price.at[0] for price in lacks.prices})
    parts = [write_count(len(lacks.records), "record")] if lacks.records else []
    parts += (
        [f"{write_count(len(lacks.prices), 'price')} of {write_count(collectors, 'collector')}"] if lacks.prices else []
    )
    parts += [write_count(len(lacks.freezes), "freeze")] if lacks.freezes else []
    return ", ".join(parts) or "nothing"


def _rest(lacks: Lacking) -> str:
    """The sentence with the number of those that differ, or have been corrected since."""
    count = len(lacks.different)
    rest = f"; {count:,} {'differs' if count == 1 else 'differ'}" if count else ""
    return rest + (f"; {write_count(lacks.put_right, 'price')} put right since" if lacks.put_right else "")

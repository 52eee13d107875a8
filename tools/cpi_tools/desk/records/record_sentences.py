"""Each record as a sentence, with the names of its numbers and codes, so that a person reads it before it is sent."""

from __future__ import annotations

import argparse
import csv
import io
from collections import Counter
from collections.abc import Callable, Iterable, Mapping, Sequence
from typing import NamedTuple, Optional

from ...office.quote_marks import MARKS, mark_words
from ...office.stored import OBSERVED, REASONS, Slot, StoredOffice
from ...text.message import (
    Code,
    Figure,
    Message,
    MonthName,
    Price,
    message as _,
    message_of,
    month_name_of,
    part_texts,
    place_text,
    sentences,
    whole,
)
from ...text.others import of_others
from ...text.terminal import a_month
from ..year.clock_faults import LAST_MOMENT, both_clocks
from .sample_kinds import THOUSANDTHS, percent_of


# ==== the names that belong to the numbers and codes of records: from the office, and from the records themselves

Fields = Sequence[str]
"""A record without moment and caller."""


class Names(NamedTuple):
    """Texts and units of items by their codes, names of outlets by their numbers, the item and outlet of slots, and titles
    of nodes by their codes."""

    items: Mapping[str, tuple[str, str]] = {}
    outlets: Mapping[str, str] = {}
    slots: Mapping[tuple[str, str], tuple[str, str]] = {}
    titles: Mapping[str, str] = {}


NO_NAMES = Names()


def names_in(records: Iterable[Fields]) -> Names:
    """The names that records themselves give."""
    items, outlets = dict[str, tuple[str, str]](), dict[str, str]()
    slots = dict[tuple[str, str], tuple[str, str]]()
    for fields in records:
        if len(fields) == 6 and fields[0] == "item":
            items[fields[1]] = (fields[2], fields[3])
        elif len(fields) == 3 and fields[0] == "outlet":
            outlets[fields[1]] = fields[2]
        elif len(fields) == 7 and fields[0] == "assign":
            slots[fields[1], fields[2]] = (fields[4], fields[3])
    return Names(items, outlets, slots)


def names_of(office: StoredOffice, records: Sequence[Fields], listed: Sequence[Fields]) -> Names:
    """These names, with those of an office; `listed` are the records whose slots are named."""
    own = names_in(records)
    items = {it.code: (it.text, it.unit) for it in office.items()}
    outlets = {str(number): name for number, name in office.outlets().items()}
    slots = {place: slot for place in slots_in(listed) for slot in [slot_of(office, place)] if slot}
    return Names({**items, **own.items}, {**outlets, **own.outlets}, {**slots, **own.slots})


def slots_in(records: Iterable[Fields]) -> set[tuple[str, str]]:
    """The slots that hand-overs speak of."""
    return {(fields[1], fields[2]) for fields in records if len(fields) == 6 and fields[0] == "handover"}


def slot_of(office: StoredOffice, place: tuple[str, str]) -> tuple[str, str]:
    """The item and the outlet of a slot; nothing if nobody has it."""
    collector, slot = place
    if not (collector.isdecimal() and slot.isdecimal() and len(collector + slot) < 12):
        return ("", "")
    where: Slot = (int(collector), int(slot))
    rows = office.ask("SELECT item, outlet FROM assignment_2 WHERE collector = ? AND slot = ?", *where)
    return (str(rows[0][0]), str(rows[0][1])) if rows else ("", "")


# ==== each record as a sentence, so that a person reads it before it is sent: with moments by the office's clock and in
# UTC, bounds in percent, prices as amounts, and names next to numbers and codes
#
# A record whose form isn't in docs/reference/FORMATS.md has no sentence: a page shows it as it is.

FORMS = {"text": _("as text"), "csv": _("as CSV")}
"""The forms of a printed table."""

PERCENT = "\u202f%"


class NoSentence(Exception):
    """A record of another form."""


def sentence_of(fields: Fields, names: Names = NO_NAMES) -> Optional[Message]:
    """A record, without moment and caller, as a sentence; None of one of another form."""
    try:
        return SENTENCES[fields[0]](fields[1:], names)
    except (NoSentence, KeyError, IndexError, ValueError, argparse.ArgumentTypeError, csv.Error):
        return None


# ---- parts of sentences


def some(fields: Fields, *counts: int) -> Fields:
    """The fields, if they are so many. Raises NoSentence."""
    if len(fields) not in counts:
        raise NoSentence
    return fields


def month(text: str) -> MonthName:
    """A month by its name. Raises NoSentence, or another fault of `sentence_of`."""
    return month_name_of(a_month(text))


def number(text: str) -> int:
    """A number as records have it. Raises NoSentence."""
    if not (text.isascii() and text.isdecimal() and len(text) <= 10):
        raise NoSentence
    return int(text)


def figure(text: str) -> Figure:
    """A number as it is written, without marks of thousands. Raises NoSentence."""
    return Figure(number(text))


def moment(text: str) -> Message:
    """A moment by both clocks. Raises NoSentence."""
    at = number(text)
    if at > LAST_MOMENT:
        raise NoSentence
    return both_clocks(at)


def item_named(code: str, names: Names) -> Message:
    """An item by its name, unit and code, as far as they are known."""
    text, unit = names.items.get(code, ("", ""))
    if not text:
        return _("item {code}", code=of_others(code))
    # t: an item: its name, unit, and code
    return _("{item}, {unit} ({code})", item=of_others(text), unit=of_others(unit), code=of_others(code))


def outlet_named(text: str, names: Names) -> Message:
    """An outlet by its name and number, as far as they are known."""
    name = names.outlets.get(text, "")
    if not name:
        return _("outlet {number}", number=of_others(text))
    # t: an outlet: its name and number
    return _("{outlet} (outlet {number})", outlet=of_others(name), number=of_others(text))


def node_named(code: str, names: Names) -> Message:
    """A node by its code and title, as far as that is known."""
    title = names.titles.get(code, "")
    return _("{code} {title}", code=Code(code), title=of_others(title)) if title else place_text(Code(code))


# ---- questions


def of_items(fields: Fields, names: Names) -> Message:
    """The sentence of `items`."""
    some(fields, 0)
    return _("Asks for the list of items.")


def of_tables(fields: Fields, names: Names) -> Message:
    """The sentence of `tables`."""
    some(fields, 0)
    return _("Asks for the list of published tables.")


def of_table(fields: Fields, names: Names) -> Message:
    """The sentence of `table`: month, form, and perhaps a revision."""
    of, how = month(some(fields, 2, 3)[0]), FORMS[fields[1]]
    if len(fields) == 2:
        return _("Asks for the table of {month} {how}.", month=of, how=how)
    revision = figure(fields[2])
    return _("Asks for the table of {month}, revision {revision}, {how}.", month=of, revision=revision, how=how)


def of_quotes(fields: Fields, names: Names) -> Message:
    """The sentence of `quotes`: the first month and the last one."""
    first, last = map(month, some(fields, 2))
    return _("Asks for the collector's own quotes from {first} to {last}.", first=first, last=last)


def of_work(fields: Fields, names: Names) -> Message:
    """The sentence of `work`: a month."""
    return _("Asks for the collector's own work list of {month}.", month=month(some(fields, 1)[0]))


# ---- what is sent


def of_quote(fields: Fields, names: Names) -> Message:
    """The sentence of `quote`: slot, month, mark, value, and perhaps `confirm`."""
    slot, of, mark, value = some(fields, 4, 5)[:4]
    places = {"slot": figure(slot), "month": month(of)}
    if len(fields) == 5 and fields[4] != "confirm":
        raise NoSentence
    if mark == "missing":
        return _(
            "Slot {slot} has no price in {month}: {reason}.", reason=MARKS[REASONS[REASONS.index(value)]], **places
        )
    price, words = Price(number(value)), mark_words(OBSERVED[OBSERVED.index(mark)])
    if len(fields) == 4:
        return _("Slot {slot} in {month}: {mark} {price}.", mark=words, price=price, **places)
    return _("Slot {slot} in {month}: {mark} {price}, confirmed.", mark=words, price=price, **places)


def of_item(fields: Fields, names: Names) -> Message:
    """The sentence of `item`: code, text, unit, and its bounds in thousandths."""
    code, text, unit, low, high = some(fields, 5)
    if not (THOUSANDTHS.fullmatch(low) and THOUSANDTHS.fullmatch(high)):
        raise NoSentence
    return _(
        "Item {code} is {item}, {unit}. A price from {low} to {high} of the last one needs no confirmation.",
        code=of_others(code),
        item=of_others(text),
        unit=of_others(unit),
        low=Figure(f"{percent_of(int(low))}{PERCENT}"),
        high=Figure(f"{percent_of(int(high))}{PERCENT}"),
    )


def of_calendar(fields: Fields, names: Names) -> Message:
    """The sentence of `calendar`: a month and its three moments."""
    of, opens, closes, publishes = some(fields, 4)
    return _(
        "{month}: the window opens on {opens} and closes on {closes}; the table is published on {publishes}.",
        month=month(of),
        opens=moment(opens),
        closes=moment(closes),
        publishes=moment(publishes),
    )


def of_collector(fields: Fields, names: Names) -> Message:
    """The sentence of `collector`: the number; the key stays out of it."""
    return _("Collector {number} gets a key.", number=figure(some(fields, 2)[0]))


def of_outlet(fields: Fields, names: Names) -> Message:
    """The sentence of `outlet`: number and name."""
    where, name = some(fields, 2)
    return _("Outlet {number} is {name}.", number=figure(where), name=of_others(name))


def of_assign(fields: Fields, names: Names) -> Message:
    """The sentence of `assign`: collector, slot, outlet, item, and the first and the last month."""
    collector, slot, outlet, item, first, last = some(fields, 6)
    return _(
        "Collector {collector}, slot {slot}: {item} at {outlet}, from {first} to {last}.",
        collector=figure(collector),
        slot=figure(slot),
        item=item_named(item, names),
        outlet=outlet_named(outlet, names),
        first=month(first),
        last=month(last),
    )


def of_handover(fields: Fields, names: Names) -> Message:
    """The sentence of `handover`: who has the slot, who takes it over, and the first month."""
    collector, slot, other, new, first = some(fields, 5)
    places: dict[str, object] = {
        "collector": figure(collector),
        "slot": figure(slot),
        "other": figure(other),
        "new": figure(new),
        "month": month(first),
    }
    item, outlet = names.slots.get((collector, slot), ("", ""))
    if not item:
        return _("From {month} on, slot {slot} of collector {collector} is slot {new} of collector {other}.", **places)
    return _(
        "From {month} on, slot {slot} of collector {collector}, {item} at {outlet}, is slot {new} of collector"
        " {other}.",
        item=item_named(item, names),
        outlet=outlet_named(outlet, names),
        **places,
    )


def of_freeze(fields: Fields, names: Names) -> Message:
    """The sentence of `freeze`: the month, and the aggregates that are carried."""
    of, *codes = fields
    if not codes:
        return _("{month} is frozen; no aggregate is carried.", month=month(of))
    carried = part_texts([node_named(code, names) for code in codes])
    return message_of(
        "{month} is frozen, with one aggregate carried: {codes}.",
        "{month} is frozen, with {count} aggregates carried: {codes}.",
        len(codes),
        month=month(of),
        codes=carried,
    )


def of_plan(fields: Fields, names: Names) -> Message:
    """The sentence of `plan`: the year, and how many rows of each kind."""
    year, body = some(fields, 2)
    rows = [row for row in csv.reader(io.StringIO(body.removeprefix("\ufeff"), newline=""), strict=True) if row]
    kinds = Counter(row[0] for row in rows)
    if not rows or kinds.keys() - {"T", "W", "I", "R"}:
        raise NoSentence
    places = {"year": figure(year), "titles": whole(kinds["T"]), "places": whole(kinds["I"])}
    weights = {"weights": whole(kinds["W"]), "sum": whole(sum(number(row[2]) for row in rows if row[0] == "W"))}
    plan = _(
        "The plan of {year}. Titles: {titles}; placed items: {places}; weights: {weights}, which add up to {sum}"
        " parts per million.",
        **places,
        **weights,
    )
    references = [month(row[1]) for row in rows if row[0] == "R"]
    if not references:
        return plan
    return sentences(plan, _("The weights are at the prices of {month}.", month=references[0]))


def of_import(fields: Fields, names: Names) -> Message:
    """The sentence of `import`: how many records it has."""
    (body,) = some(fields, 1)
    rows = [row for row in csv.reader(io.StringIO(body.removeprefix("\ufeff"), newline=""), strict=True) if row]
    return message_of("An import of one record.", "An import of {count} records.", len(rows))


SENTENCES: Mapping[str, Callable[[Sequence[str], Names], Message]] = {
    "items": of_items,
    "tables": of_tables,
    "table": of_table,
    "quotes": of_quotes,
    "work": of_work,
    "quote": of_quote,
    "item": of_item,
    "calendar": of_calendar,
    "collector": of_collector,
    "outlet": of_outlet,
    "plan": of_plan,
    "assign": of_assign,
    "handover": of_handover,
    "freeze": of_freeze,
    "import": of_import,
}
"""The function that writes the sentence of a record, by its word."""

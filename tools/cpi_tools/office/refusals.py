"""A text for each refusal of the office and each fault line of the program, and what to do about it.

The rows for the desk and the collectors are the rows of `docs/desk/DESK.md` and `docs/desk/COLLECTING.md`, word for
word (a link there is its text here).
"""

from __future__ import annotations

from collections.abc import Mapping
from typing import Any, NamedTuple, Optional


class Words(NamedTuple):
    """The reason of a refusal or an end, and what to do."""

    because: str
    do: str


class Refusal(NamedTuple):
    """A row of a guide: its readers, the numbers of refusals, the fault and the record's word if it is for only one,
    and its text."""

    to: str
    numbers: tuple[int, ...]
    fault: Optional[int]
    word: Optional[str]
    words: Words


DESK, COLLECTOR = "desk", "collector"


def desk(*numbers: int, because: str, do: str, fault: Optional[int] = None, word: Optional[str] = None) -> Refusal:
    """A row of the desk's guide."""
    return Refusal(DESK, numbers, fault, word, Words(because, do))


def collector(number: int, because: str, do: str) -> Refusal:
    """A row of the collectors' guide."""
    return Refusal(COLLECTOR, (number,), None, None, Words(because, do))


REFUSALS: tuple[Refusal, ...] = (
    desk(
        10,
        because="the record's form is wrong, or a number is outside its limits",
        do="check it against FORMATS; nothing was done",
    ),
    desk(12, because="the desk can't use this command", do="quotes and work lists are for collectors"),
    desk(
        20,
        word="handover",
        because="the former collector has no such slot",
        do="check the collector and the slot",
    ),
    desk(21, because="the month has no calendar row", do="send that row, then this record again"),
    desk(
        22,
        word="handover",
        because="the month isn't after the first month of the former slot, or is after its last month",
        do="take a month after the first; if the series ends before that, there is nothing to hand over",
    ),
    desk(
        30,
        because="no such table or revision is published at that time",
        do="wait until the release time",
    ),
    desk(
        40,
        because="the code, number, key or slot exists with other content; for a hand-over, the new slot is taken; for an"
        " assignment, the slot has been handed over since",
        do="use the next free one",
    ),
    desk(
        41,
        42,
        43,
        because="the item, outlet or collector (in a hand-over, either collector) isn't registered",
        do="register it first",
    ),
    desk(
        44,
        because="the plan has the fault with this number (OFFICE lists the faults)",
        do="correct it, and send the whole plan again",
    ),
    desk(
        44,
        fault=8,
        word="freeze",
        because="a code on the carry list has no weight this year",
        do="remove the code",
    ),
    desk(45, because="a month of that year is frozen", do="this plan stays as it is; change next year's plan"),
    desk(
        46,
        because="the month is neither the last frozen month nor the next one, or the first month isn't a December",
        do="freeze the months in order",
    ),
    desk(47, because="the window hasn't closed yet", do="wait until it closes"),
    desk(48, because="the year has no plan", do="send the plan"),
    desk(
        49,
        fault=1,
        because="an aggregate has no series with a base price",
        do="place items in it that were priced in December, or remove its weight",
    ),
    desk(
        49,
        fault=2,
        because="an aggregate has nothing to compare",
        do="freeze again with its code on the carry list",
    ),
    desk(
        49,
        fault=3,
        because="a price, an index, a level or a price-updated weight is outside its limits",
        do="look for an error in that aggregate's prices or weight",
    ),
    desk(
        49,
        fault=5,
        because="the plan has a reference month, but an aggregate has no row in that month's table or in December's",
        do="send the plan with another reference month, or price-update the weights yourself and send it without one",
    ),
    desk(
        50,
        word="freeze",
        because="the month is frozen",
        do="there is nothing more to do for this month; if it has an error and is the last frozen one, reopen it",
    ),
    desk(
        50,
        word="calendar",
        because="this row can't reopen the frozen month: a later month is frozen too, the month has nine revisions, or"
        " the new release time isn't later than the last one",
        do="set a later release time, or leave the month as it is",
    ),
    desk(
        50,
        word="handover",
        because="that month or a later one is frozen",
        do="take the month after the last frozen one",
    ),
    desk(
        51,
        because="the former slot has a quote of that month or of a later one",
        do="take the month after its last quote",
    ),
    desk(90, because="memory ran out, or the disk failed", do="nothing was changed; try again"),
    collector(
        10,
        because="the record's form is wrong, or a price or number is outside its limits",
        do="check the fields and send it again",
    ),
    collector(11, because="this key isn't registered", do="check the key; if it is right, ask the desk"),
    collector(12, because="only the desk can do that", do="ask the desk"),
    collector(20, because="you have no such slot", do="check the work list"),
    collector(21, because="the month has no window yet", do="ask the desk"),
    collector(
        22,
        because="the slot isn't yours in that month, or no longer is",
        do="check the work list of the month",
    ),
    collector(23, because="the window isn't open yet", do="send it once the window is open"),
    collector(
        24,
        because="the window has closed",
        do="tell the desk; the price won't count this month unless the desk opens the window again",
    ),
    collector(25, because="the entry is a replacement, but the slot has no price to replace", do="send it as `price`"),
    collector(
        26,
        because="the price is far from the last one",
        do="look again; correct it, or send it with `confirm`",
    ),
    collector(
        27,
        because="your receipts are used up",
        do="the desk registers a new number with slots of its own",
    ),
    collector(90, because="memory ran out, or the disk failed", do="nothing was stored; send it again"),
)

PLAN_FAULTS: Mapping[int, Words] = {
    1: Words(
        "a code appears twice among the titles, or twice among the weights",
        "remove one of the two rows",
    ),
    2: Words(
        "a weight or an item is at a code that isn't an elementary aggregate",
        "use a code like 01.1.1.1-01",
    ),
    3: Words("a weight is 0", "omit the aggregate, or give it a weight"),
    4: Words("the weights don't add up to 1,000,000", "correct the weights"),
    5: Words("a node has no title", "give it a title"),
    6: Words("the plan places an item that isn't registered", "register the item first, or remove its place"),
    7: Words("the plan places an item twice", "remove one of the two places"),
    8: Words(
        "the plan places an item at an elementary aggregate without a weight",
        "place it elsewhere, or give the aggregate a weight",
    ),
    10: Words(
        "there are two reference months, or one that is after December of the previous year",
        "give only one month, and none after that December",
    ),
}
"""The faults of a plan, refusal 44, by `docs/reference/OFFICE.md`."""

FAULTS: Mapping[str, Words] = {
    "bad zone": Words("the time zone isn't a POSIX rule", "write it like CET-1CEST,M3.5.0,M10.5.0/3"),
    "bad key": Words("the desk's key isn't 32 characters 0-9 and a-f", "make one with `openssl rand -hex 16`"),
    "bad month": Words("the month isn't like 2026-01, or isn't from 2000-01 to 2199-12", "correct the month"),
    "unknown schema": Words(
        "a later version of the program, or another program, wrote the file", "open it with the program that wrote it"
    ),
    "database failed": Words(
        "the file isn't an office, another program holds it, or the disk failed",
        "`cpi-tools doctor FILE` says which; no answered command is lost",
    ),
    "no port": Words("cpi can't listen on the port", "check what listens there, or choose another port"),
    "read failed": Words(
        "the input can't be read, or contains more than 1,000,000 records", "send the records that have no reply yet"
    ),
    "write failed": Words("a line can't be written", "check where the output goes; no answered command is lost"),
    "out of memory": Words("the system refused memory", "give cpi more memory; no answered command is lost"),
    "no table": Words("no such table is published at that time", "wait until the release time"),
    "no clock": Words(
        "the machine's clock can't be read, or shows a time that an office can't have",
        "set the clock, and start cpi again",
    ),
    "a word isn't UTF-8": Words("an argument isn't UTF-8", "write it in UTF-8"),
}
"""The lines of the program on standard error, without `cpi: ` before them."""


def refusal_words(reply: Mapping[str, Any], to: str = DESK, word: Optional[str] = None) -> Words:
    """The words of a refusal, such as `{"refused": 49, "fault": 2, "code": ".."}`.

    `to` is who was refused, DESK or COLLECTOR; `word` the record's word. If a number has several rows, the one for this
    fault and this word is taken; a refusal that only the other guide explains gets that guide's text.
    """
    number, fault = reply["refused"], reply.get("fault")
    if number == 44 and word != "freeze" and isinstance(fault, int) and fault in PLAN_FAULTS:
        return PLAN_FAULTS[fault]
    rows = [row for row in REFUSALS if number in row.numbers and row.fault in (None, fault)]
    if not rows:
        return Words(f"refusal {number}", "see OFFICE")
    return max(
        rows, key=lambda row: (row.word in (None, word), row.to == to, row.word == word, row.fault == fault)
    ).words


def told_fault(line: str) -> str:
    """A line of the program with its meaning and what to do, such as `cpi: no port (..; ..)`."""
    words = FAULTS.get(line[5:]) if line.startswith("cpi: ") else None
    return f"{line} ({words.because}; {words.do})" if words else line


def sentence(words: str) -> str:
    """A cell of a row as the desk's page says it."""
    return f"{words[0].upper()}{words[1:]}".replace("'", "\u2019").removesuffix(".") + "."

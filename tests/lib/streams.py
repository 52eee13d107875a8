"""Drawn streams of records over a second office, with the lines and the rows of a file after each command."""

from __future__ import annotations

import itertools
import random
from collections.abc import Callable, Iterator, Sequence

from second_office.office import Office, Reply
from second_office.records import text_of
from second_office.requests import Record
from second_office.rows import Kept, Rows, first_of, make_first, rows_of

from . import records as texts
from .offices import aggregates, key_of, plan_of, registered
from .program import PATIENCE, Program

# The tables whose rows a record of each word can change.
CHANGED = {
    "collector": ["collector"],
    "outlet": ["outlet"],
    "item": ["item"],
    "plan": ["node", "plan_item", "plan_ref"],
    "calendar": ["calendar"],
    "assign": ["assignment_2"],
    "handover": ["assignment_2"],
    "quote": ["quote_2"],
    "freeze": ["release_2", "frozen_2", "carried_2", "level_2"],
}


def line_of(reply: Reply) -> bytes:
    """The line of a reply."""
    return f"{Office().written(reply)}\n".encode()


class Stream:
    """Records over a second office, with the line of each, and the rows before them and after each command: a record is
    a command, except an import, whose rows are commands. The file with which it begins is made by a setup, or contains
    rows of schema 1."""

    def __init__(self, setup: list[Record], office: Kept, records: list[Record], is_of_schema_1: bool = False) -> None:
        self.setup, self.records = setup, records
        self.lines: list[bytes] = []
        self.states, self.ends = [rows_of(office)], [0]
        self.first = first_of(self.states[0]) if is_of_schema_1 else None
        for record in records:
            is_import = record[2] == "import"
            commands = [[*record[:2], *row] for row in texts.rows_of(record[3])] if is_import else [record]
            replies = [self._reply(office, command) for command in commands]
            self.lines.append(line_of({"rows": replies} if is_import else replies[0]))
            self.ends.append(len(self.states) - 1)

    def _reply(self, office: Kept, command: Record) -> Reply:
        reply = office.reply(command)
        self.states.append({**self.states[-1], **rows_of(office, CHANGED[command[2]])})
        return reply

    def begin(self, program: Program, path: str) -> Rows:
        """Makes the file, if there is one, and gives the rows that it should contain."""
        if self.first:
            make_first(path, self.first)
            return self.first
        if self.setup:
            program.replay(text_of(self.setup).encode(), path, seconds=PATIENCE)
            return self.states[0]
        return {}


def price(drawn: random.Random) -> str:
    return str(drawn.randrange(500, 2000))


def items_of(count: int) -> list[str]:
    return [f"ITEM{at}" for at in range(count)]


def even_plan(codes: Sequence[str], items: Sequence[str], title: str, *references: str) -> str:
    """A plan whose aggregates have the same weight, except the first."""
    return plan_of(codes, items, title, 1_000_000 // len(codes), references)


def office_of(setup: list[Record]) -> Kept:
    """The second office after records that were all accepted."""
    office = Kept()
    for record in setup:
        if "refused" in office.reply(record):
            raise ValueError(f"{record} of a setup is refused")
    return office


def lists(collectors: Sequence[int], slots: int, items: Sequence[str], months: Sequence[str]) -> Iterator[Record]:
    """The desk's first records."""
    yield from registered(collectors, range(1, slots + 1), items, months, outlets=5)
    for at, month in enumerate(months):
        yield ["0", "desk", "calendar", month, str(1000 * at), str(1000 * at + 900), str(1000 * at + 900)]


# ---- the streams


def quotes(drawn: random.Random) -> Stream:
    collectors, slots, months, items = [1, 2, 3], 400, ["2026-01", "2026-02"], items_of(10)
    setup = [*lists(collectors, slots, items, months)]
    setup += [["0", "desk", "plan", "2026", even_plan(aggregates(10), items, "Group")]]
    places = [(number, slot, month) for number in collectors for slot in range(1, slots + 1) for month in months]
    drawn.shuffle(places)
    sent: list[Record] = []
    for at in range(2000):
        kind = drawn.random()
        if kind < 0.8 or not sent:
            number, slot, month = places.pop()
            entry = ["missing", "stock"] if kind < 0.05 else ["price", price(drawn)]
            now = 1000 * months.index(month) + at % 900
            record = [str(now), key_of(number), "quote", str(slot), month, *entry]
        elif kind < 0.9:
            record = drawn.choice(sent)
        else:
            record = [*drawn.choice(sent)[:5], "price", price(drawn)]
        sent.append(record)
    return Stream(setup, office_of(setup), [*partly_imported(drawn, sent)])


def caller_and_month(record: Record) -> tuple[str, str]:
    return record[1], record[4]


def partly_imported(drawn: random.Random, sent: list[Record]) -> Iterator[Record]:
    """The records, some consecutive ones as imports, one for each collector and month, in which a slot occurs once: so
    records that are sent again after a kill get the same answers."""
    at = 0
    while at < len(sent):
        here = sent[at : at + (30 if drawn.random() < 0.01 else 1)]
        at += len(here)
        if len(here) == 1:
            yield here[0]
            continue
        for (caller, _), group in itertools.groupby(sorted(here, key=caller_and_month), caller_and_month):
            rows = [*{row[3]: row for row in group}.values()]
            yield [rows[0][0], caller, "import", text_of([row[2:] for row in rows])]


def plans(drawn: random.Random) -> Stream:
    items = items_of(300)
    setup = [*lists([1], 1, items, ["2026-01"])]
    bodies = [
        even_plan(aggregates(300), items, "Group"),
        even_plan(aggregates(250, 20), items, "Other", "2025-06"),
        even_plan(aggregates(300), items, "Group", "2025-12"),
    ]
    records = [["0", "desk", "plan", "2026", bodies[at % 3]] for at in range(21)]
    return Stream(setup, office_of(setup), records)


def months_priced(
    drawn: random.Random, months: Sequence[str], slots: Sequence[int], plan: int, marks: list[str]
) -> tuple[list[Record], Kept]:
    """A setup with a quote of nearly every slot in each month, sent in one import, and its office."""
    items = items_of(20)
    setup = [*lists([1], len(slots), items, months)]
    setup += [["0", "desk", "plan", "2026", even_plan(aggregates(plan), items, "Group")]]
    office = office_of(setup)
    for at, month in enumerate(months):
        marked = [
            (slot, drawn.choice(marks if at else ["price"])) for slot in slots if at == 0 or drawn.random() < 0.95
        ]
        entries = [(slot, mark, "stock" if mark == "missing" else price(drawn)) for slot, mark in marked]
        rows = [["quote", str(slot), month, *entry] for slot, *entry in entries]
        setup.append([str(1000 * at), key_of(1), "import", text_of(rows)])
        year, number_in_year = map(int, month.split("-"))
        for slot, mark, value in entries:
            # (by hand, since the second office would look all quotes through for each)
            stored = mark, value if mark == "missing" else int(value)
            office.quotes[1, slot, (year, number_in_year)] = stored, len(office.quotes) + 1
    return setup, office


def freezes(drawn: random.Random) -> Stream:
    """The quotes are stored before, except the quotes by which a month that is frozen again differs. The reference
    month and the link month of the second plan are two of these."""
    months = ["2025-12", *(f"2026-{at:02}" for at in range(1, 13)), "2027-01"]
    slots, records = range(1, 401), list[Record]()
    setup, office = months_priced(drawn, months, slots, 20, ["price"])
    for at, month in enumerate(months):
        if month == "2027-01":
            records.append(["0", "desk", "plan", "2027", even_plan(aggregates(20), items_of(20), "Group", "2026-02")])
        records.append([str(1000 * at + 900), "desk", "freeze", month])
        for closes in {0: [920], 2: [920, 940], 12: [920]}.get(at, []):
            records += frozen_again(drawn, month, slots, 1000 * at, 1000 * at + closes)
    return Stream(setup, office, records)


def frozen_again(drawn: random.Random, month: str, slots: Sequence[int], opens: int, closes: int) -> Iterator[Record]:
    """A month is reopened, gets other prices, and is frozen again."""
    others = sorted(drawn.sample(slots, 3))
    rows = [["quote", str(slot), month, "price", price(drawn), "confirm"] for slot in others]
    yield [str(opens), "desk", "calendar", month, str(opens), str(closes), str(closes)]
    yield [str(closes - 1), key_of(1), "import", text_of(rows)]
    yield [str(closes), "desk", "freeze", month]


def hand_overs(drawn: random.Random) -> Stream:
    """Some of the series have a last price; a hand-over that was sent before is done."""
    months = ["2026-01", "2026-02", "2026-03", "2026-04"]
    setup = [*lists([1], 400, ["RICE", "TEA"], months)]
    setup += [["0", "desk", "collector", str(number), key_of(number)] for number in (2, 3)]
    priced = sorted(drawn.sample(range(1, 401), 200))
    rows = [["quote", str(slot), months[0], "price", price(drawn)] for slot in priced]
    setup.append(["0", key_of(1), "import", text_of(rows)])
    sent: list[Record] = []
    for at, slot in enumerate(drawn.sample(range(1, 401), 400)):
        sent.append(["handover", "1", str(slot), "2", str(at + 1), months[1]])
        if at % 4 == 3:
            # (the one of some turns before goes on to the third collector)
            sent.append(["handover", "2", str(at - 2), "3", str(at // 4 + 1), months[2]])
        if drawn.random() < 0.05:
            sent.append(drawn.choice(sent))
    records, at = list[Record](), 0
    while at < len(sent):
        here = sent[at : at + (20 if drawn.random() < 0.03 else 1)]
        at += len(here)
        records.append(["0", "desk", *here[0]] if len(here) == 1 else ["0", "desk", "import", text_of(here)])
    return Stream(setup, office_of(setup), records)


def new_file(_: random.Random) -> Stream:
    records = [*lists([1, 2], 5, ["RICE", "TEA"], ["2025-12", "2026-01"])]
    return Stream([], Kept(), records)


def of_schema_1(drawn: random.Random) -> Stream:
    """Four months are frozen in the file; then the last is reopened and frozen again."""
    months = ["2025-12", "2026-01", "2026-02", "2026-03"]
    slots = range(1, 201)
    _, office = months_priced(drawn, months, slots, 10, ["price"] * 8 + ["comparable", "missing"])
    for at, month in enumerate(months):
        reply = office.reply([str(1000 * at + 900), "desk", "freeze", month])
        if "done" not in reply:
            raise ValueError(f"the freeze of {month} before a stream is told {reply}")
    return Stream([], office, [*frozen_again(drawn, months[-1], slots, 3000, 3920)], is_of_schema_1=True)


STREAMS: dict[str, tuple[Callable[[random.Random], Stream], int]] = {
    "quotes": (quotes, 8),
    "plans": (plans, 3),
    "freezes": (freezes, 3),
    "hand-overs": (hand_overs, 2),
    "a new file": (new_file, 2),
    "a file of schema 1": (of_schema_1, 2),
}
"""The streams by name, with the number of kills, out of twenty, that each gets."""

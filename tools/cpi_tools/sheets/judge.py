"""The judge of the records taken in: the program itself, which also shows the cell that it can't read."""

from __future__ import annotations

import itertools
from collections import Counter, defaultdict
from collections.abc import Collection, Iterable, Iterator, Sequence
from dataclasses import dataclass, field
from pathlib import Path
from typing import NamedTuple, Optional

from ..office.folders import new_room
from ..office.program import LAST_MOMENT, Cpi, Reply, Session, record, reply_of
from ..office.refusals import Words, refusal_words, sentence
from ..office.stored import stored_office
from ..text.message import Code, Message, message, place_text, said_as, whole
from ..text.others import of_others
from ..text.terminal import month_text
from .cells import MOST_TOLD, Origin, more_of
from .office_files import Taken
from .record_rows import DESK, FIELDS, MOST_RECORDS, MOST_ROWS, Bundle, Problem, QuoteRows, Sent, make_bundles
from .row_refusals import said_words, words_of


# ==== Finds the cell of a record that the program can't read: it asks the program, with the given cells up to one and
# good cells after it. The first cell that makes the record unreadable is the odd one. This module contains no form of a
# field.
#
# The program names the number of a plan's fault, and this module finds its rows.

GOOD: dict[str, tuple[str, ...]] = {
    "item": ("A", "x", "x", "1", "1000"),
    "outlet": ("1", "x"),
    "collector": ("1", "0" * 32),
    "assign": ("1", "1", "1", "A", "2000-01", "2199-12"),
    "handover": ("1", "1", "1", "1", "2000-01"),
    "calendar": ("2000-01", "0", "9999999999", "9999999999"),
    "quote": ("1", "2000-01", "price", "1"),
    "freeze": ("2000-01",),
    "T": ("00", "x"),
    "W": ("01.1.1.1-01", "1"),
    "I": ("A", "01.1.1.1-01"),
    "R": ("2000-01",),
}
"""Fields that the program can read in any office."""

OTHER_VALUE = "stock"
"""The text after a mark that takes no price."""

NO_RECORD = {"refused": 10}


def are_read(cpi: Cpi, rows: Sequence[Sequence[str]]) -> list[bool]:
    """Whether the program can read each row, of an import or of a plan, and nothing else about it."""
    lines = [record(*row) if len(row[0]) > 1 else record("plan", "2000", record(*row)) for row in rows]
    sent = [
        record(0, DESK, "import", "\n".join(lines[start : start + MOST_ROWS]))
        for start in range(0, len(lines), MOST_ROWS)
    ]
    return [reply != NO_RECORD for answer in cpi.replay(sent) for reply in answer["rows"]]


def try_fields(row: Sent) -> Iterator[tuple[str, list[str]]]:
    """The name of each field, with the row up to that field; a mark is tried with a price and with a reason."""
    good, given = GOOD[row.word], row.fields[1:]
    names = FIELDS[row.word]
    for at in range(len(given)):
        name = names[min(at, len(names) - 1)]
        whole = [row.word, *given[: at + 1], *good[at + 1 :]]
        yield name, whole
        if name == "mark":
            yield name, [*whole[:-1], OTHER_VALUE]


def odd_columns(cpi: Cpi, rows: Sequence[Sent]) -> list[str]:
    """The column of the first cell of each row that the program can't read; an empty text if it can read the whole
    row."""
    trials = [[*try_fields(row)] for row in rows]
    read = iter(are_read(cpi, [fields for own in trials for _, fields in own]))
    columns = []
    for row, own in zip(rows, trials):
        can: dict[str, bool] = {}
        for name, _ in own:
            is_read = next(read)
            # (of the two trials of a mark one is enough)
            can[name] = is_read or (name == "mark" and can.get(name, False))
        odd = next((name for name, is_read in can.items() if not is_read), "")
        columns.append(row.name_column(odd) if odd else "")
    return columns


Rows = dict[str, list[Sent]]
"""The rows of a plan by their letters."""


def faulty_cells(cpi: Cpi, plan: Bundle, reply: Reply, items: Collection[str]) -> list[Origin]:
    """The cells to which the refusal of a whole plan refers, at least one; `items` are the items that the office
    knows."""
    rows: Rows = defaultdict(list)
    for row in plan.rows:
        rows[row.word].append(row)
    cells = [*cells_of_fault(cpi, rows, reply, items)] if reply["refused"] == 44 else []
    first = plan.rows[0]
    return cells or [first.origin.at(first.own)]


def unreadable(cpi: Cpi, plan: Bundle) -> list[tuple[Sent, str]]:
    """The rows of a plan that the program can't read, each with that column; none if the reason is the plan's year, or
    too many rows."""
    read = are_read(cpi, [row.fields for row in plan.rows])
    bad = [row for row, is_read in zip(plan.rows, read) if not is_read]
    return [*zip(bad, odd_columns(cpi, bad))]


def has_too_many_rows(plan: Bundle) -> bool:
    """Whether a plan has more rows than the program accepts."""
    return len(plan.rows) > MOST_ROWS


def cells_of_fault(cpi: Cpi, rows: Rows, reply: Reply, items: Collection[str]) -> Iterator[Origin]:
    """The cells to which a fault of a plan, 1 to 10, refers."""
    fault, weights, places = reply["fault"], rows["W"], rows["I"]
    if fault == 1:
        yield from (row.at("code") for kind in ("T", "W") for row in find_repeated(rows[kind]))
    elif fault == 2:
        yield from (row.at("code") for row in no_aggregates(cpi, [*weights, *places]))
    elif fault == 3:
        yield from (row.at("weight") for row in weights if not row.fields[2].strip("0"))
    elif fault == 4:
        yield from (row.at("weight") for row in weights[-1:])
    elif fault == 5:
        below = [row for row in weights if is_at_or_below(row.fields[1], reply["code"])]
        yield from (row.at("code") for row in below[:1])
    elif fault == 6:
        yield from (row.at("item") for row in places if row.fields[1] not in items)
    elif fault == 7:
        yield from (row.at("item") for row in find_repeated(places))
    elif fault == 8:
        weighted = {row.fields[1] for row in weights}
        yield from (row.at("code") for row in places if row.fields[2] not in weighted)
    elif fault == 10:
        references = rows["R"]
        yield from (row.at("reference") for row in references[1:] or references)


def find_repeated(rows: Sequence[Sent]) -> Iterator[Sent]:
    """The rows whose first field also occurs in a row above."""
    seen: set[str] = set()
    for row in rows:
        if row.fields[1] in seen:
            yield row
        seen.add(row.fields[1])


def no_aggregates(cpi: Cpi, rows: Sequence[Sent]) -> Iterator[Sent]:
    """The rows whose code isn't an elementary aggregate: each, as a plan of its own, has fault 2."""
    for start in range(0, len(rows), MOST_ROWS):
        own = rows[start : start + MOST_ROWS]
        lines = "\n".join(record("plan", "2000", record(*row.fields)) for row in own)
        (answer,) = cpi.replay([record(0, DESK, "import", lines)])
        yield from (row for row, reply in zip(own, answer["rows"]) if reply.get("fault") == 2)


def is_at_or_below(code: str, node: str) -> bool:
    """Whether a code is a node or below it."""
    return node in ("00", code) or code.startswith((f"{node}.", f"{node}-"))


# ==== The judge of the records taken in: the program itself, over an office in memory or over a copy. This module
# contains no rule.

MOST_BUNDLES = MOST_RECORDS // 3
"""Bundles of one run: besides its record, a bundle may be sent again with `confirm`, and a table may be requested."""

TAKEN = b'{"receipt":'
"""The beginning of a row's reply if it is taken."""

# ---- moments


def moments_of(cpi: Cpi, texts: Iterable[str], zone: str) -> dict[str, int]:
    """The moments of civil times, in seconds since 1970 UTC, as the program reads them with the rule of a clock.

    Each is sent as the opening of the window of another month, in an office that is then deleted. Times that the
    program can't read are left out.
    """
    civil = sorted(text for text in set(texts) if "T" in text)
    months = [f"{year:04}-{month:02}" for year in range(2000, 2200) for month in range(1, 13)]
    moments: dict[str, int] = {}
    for start in range(0, len(civil), len(months)):
        asked = dict(zip(months, civil[start : start + len(months)]))
        sent = [record(0, DESK, "calendar", it, text, LAST_MOMENT, LAST_MOMENT) for it, text in asked.items()]
        with new_room("cpi-tools-") as room:
            clock = room / "clock.db"
            cpi.replay(sent, db=clock, zone=zone)
            with stored_office(clock) as stored:
                moments.update((asked[month_text(it.month)], it.opens) for it in stored.calendar())
    return moments


# ---- what became of it


class Confirmed(NamedTuple):
    """A price outside the tolerance that was confirmed, in minor units like its last price and the two bounds."""

    origin: Origin
    price: str
    last: int
    low: int
    high: int


@dataclass
class Month:
    """The changes in a month: the number of accepted quotes by their marks, hand-overs, refused rows, and the result of
    each freeze. The level of all items is in millionths of a point, None if no table has rows."""

    quotes: Counter[str] = field(default_factory=Counter)
    handed: int = 0
    refused: int = 0
    freezes: list[Message] = field(default_factory=list)
    level: Optional[str] = None


@dataclass
class Judged:
    """The program's verdict: problems in the order in which rows are sent, the number of accepted rows by their words,
    the prices that were confirmed, and the months."""

    problems: list[Problem] = field(default_factory=list)
    taken: Counter[str] = field(default_factory=Counter)
    confirmed: list[Confirmed] = field(default_factory=list)
    months: dict[str, Month] = field(default_factory=lambda: defaultdict(Month))


MONTH_OF = {"quote": 2, "calendar": 1, "handover": 5, "freeze": 1}
"""The place of the month among the fields of a record."""


class Judge:
    """Sends the records taken in, one by one, and keeps the program's reply to each row."""

    def __init__(self, cpi: Cpi, zone: str, is_confirmed: bool, items: Collection[str]):
        """`is_confirmed` lets prices outside the tolerance be sent again with `confirm`; `items` are the items that the
        office already has."""
        self._cpi, self._zone, self._is_confirmed = cpi, zone, is_confirmed
        self._items = {*items}
        self._refused: list[tuple[Optional[Bundle], Sent, Reply]] = []
        """The refused rows, each with its plan if it belongs to one."""
        self._more = 0
        self._judged = Judged()

    def judge(self, taken: Taken, db: Optional[Path] = None, most: int = MOST_BUNDLES) -> Judged:
        """The program's verdict on all records, over an office in memory, or over a copy, which this changes.

        If a price was confirmed, it is sent with `confirm` from then on. A run of the program gets at most so many
        bundles; if there may be more of them, the office is a file that is deleted afterwards.
        """
        self._confirm, self._doubted = taken.store.confirm, taken.doubts.slots
        bundles = iter(taken.bundles)
        with new_room("cpi-tools-") as room:
            file = db or (room / "judged.db" if taken.bundles.most > most else None)
            for first in bundles:
                with self._cpi.session(db=file, zone=self._zone) as session:
                    for bundle in itertools.chain([first], itertools.islice(bundles, most - 1)):
                        line = self._send(session, bundle)
                        if taken.bundles.kept:
                            taken.bundles.kept.add(line)
        self._judged.problems = [*taken.problems, *self._problems()]
        return self._judged

    def _send(self, session: Session, bundle: Bundle) -> str:
        """Sends a record, and a second one if prices of it are confirmed; the line of the record as it is sent from now
        on."""
        outside, line = [], bundle.line()
        said = session.ask_line(line)
        if isinstance(bundle.rows, QuoteRows) and said.count(TAKEN) == len(bundle.rows):
            # (each row has a receipt)
            self._count_quotes(bundle.rows, [])
            return line
        for row, reply in self._to_look_at(bundle, reply_of(said)):
            if reply.get("refused") == 26 and (row.collector, row.fields[1]) in self._doubted:
                # (whether it is outside depends on what is in doubt)
                self._judged.months[row.fields[2]].refused += 1
            elif reply.get("refused") == 26 and self._is_confirmed:
                outside.append(row)
                bounds = (reply[name] for name in ("last", "low", "high"))
                self._judged.confirmed.append(Confirmed(row.origin.at(row.column(26)), row.fields[4], *bounds))
            else:
                self._note(bundle, row, reply)
        for row in outside:
            row.fields.append("confirm")
            self._confirm(row.number)
        for again in make_bundles(0, bundle.caller, outside):
            again.at = bundle.at
            self._send(session, again)
        if bundle.is_single and bundle.rows[0].word == "freeze":
            self._look_at_table(session, bundle.rows[0].fields[1])
        if outside and isinstance(bundle.rows, QuoteRows):
            bundle.rows.confirm({row.number for row in outside})
            line = bundle.line()
        return line

    def _to_look_at(self, bundle: Bundle, reply: Reply) -> Iterator[tuple[Sent, Reply]]:
        """Each row with its reply, except accepted quotes, which are only counted."""
        rows, replies = bundle.rows, reply.get("rows")
        if replies is None or not isinstance(rows, QuoteRows):
            yield from bundle.pair_replies(reply)
            return
        refused = [(at, its) for at, its in enumerate(replies) if "refused" in its]
        self._count_quotes(rows, [at for at, _ in refused])
        yield from ((rows[at], its) for at, its in refused)

    def _count_quotes(self, rows: QuoteRows, refused: Collection[int]) -> None:
        """Counts quotes but for those that are refused, by their places."""
        quotes = rows.marks()
        quotes.subtract(map(rows.mark, refused))
        self._judged.months[rows.month].quotes.update(quotes)
        self._judged.taken["quote"] += len(rows) - len(refused)

    def _note(self, bundle: Bundle, row: Sent, reply: Reply) -> None:
        """Counts an accepted row, or keeps its refusal."""
        month = None if bundle.year or row.word not in MONTH_OF else self._judged.months[row.fields[MONTH_OF[row.word]]]
        is_refused = "refused" in reply
        if is_refused and len(self._refused) < MOST_TOLD:
            self._refused.append((bundle if bundle.year else None, row, reply))
        elif is_refused:
            self._more += 1
        else:
            self._judged.taken["plan" if bundle.year else row.word] += 1
            self._items |= {row.fields[1]} if row.word == "item" else set()
        if month is None:
            return
        month.refused += is_refused
        if row.word == "freeze":
            month.freezes.append(number_of(reply) if is_refused else frozen_with(row.fields[2:]))
        elif row.word == "quote" and not is_refused:
            month.quotes[row.fields[3]] += 1
        elif row.word == "handover" and not is_refused:
            month.handed += 1

    def _look_at_table(self, session: Session, month: str) -> None:
        """Notes the level of all items in the month's table."""
        table = session.ask(record(LAST_MOMENT, "public", "table", month, "csv")).get("table", "")
        if table:
            self._judged.months[month].level = table.split(",", 4)[3]

    # ---- refusals at their cells

    def _problems(self) -> Iterator[Problem]:
        """Each refusal with the cells to which it refers."""
        odd = iter(odd_columns(self._cpi, [row for plan, row, reply in self._refused if is_unread(plan, reply)]))
        for plan, row, reply in self._refused:
            if plan:
                yield from self._plan_problems(plan, reply)
            else:
                column = next(odd) or row.own if is_unread(plan, reply) else row.column(reply["refused"])
                words = words_of(row, reply, column)
                yield Problem(row.origin.at(column), number_of(reply), words.because, words.do)
        if self._more:
            yield Problem(self._refused[-1][1].origin, "", more_of(self._more), message("correct those above first"))

    def _plan_problems(self, plan: Bundle, reply: Reply) -> Iterator[Problem]:
        unread = unreadable(self._cpi, plan) if reply["refused"] == 10 else []
        found = {}
        for row, column in unread:
            words = words_of(row, reply, column)
            because = of_plan(plan, words.because)
            # (a row of the sheet is a title and a weight, and both may have the same problem)
            found[row.origin.at(column)] = Problem(row.origin.at(column), number_of(reply), because, words.do)
        yield from found.values()
        if not unread:
            words = words_of_plan(plan, reply)
            cells = faulty_cells(self._cpi, plan, reply, self._items)
            yield from (Problem(origin, number_of(reply), *words) for origin in cells)


def is_unread(plan: Optional[Bundle], reply: Reply) -> bool:
    """Whether a row was refused because it isn't a record; a plan is checked as a whole."""
    return not plan and reply["refused"] == 10


def frozen_with(carry: Sequence[str]) -> Message:
    """The text of a freeze that was carried out, with its carry list if it has one."""
    return message("frozen, carrying {codes}", codes=Code(" ".join(carry))) if carry else message("frozen")


def of_plan(plan: Bundle, fault: str) -> Message:
    """The text of a plan's problem."""
    return message("the plan of {year}: {fault}", year=of_others(plan.year), fault=fault)


def number_of(reply: Reply) -> Message:
    """The number of a refusal with its fault, in the form of the guides: `26`, `49 fault 2`."""
    number = Code(reply["refused"])
    if "fault" in reply:
        # t: the number of a refusal, and that of its fault
        return message("{number} fault {fault}", number=number, fault=Code(reply["fault"]))
    return place_text(number)


def words_of_plan(plan: Bundle, reply: Reply) -> Words:
    """The reason why a whole plan was refused, with the rest of the reply, and what to do."""
    if reply["refused"] == 10:
        return words_of_size(plan)
    because, do = said_words(reply, "plan")
    if "found" in reply:
        told_so, _ = refusal_words(reply, DESK, "plan")
        sum_of_all = message("They add up to {sum}.", sum=whole(reply["found"]))
        because = said_as(f"{told_so}, but to {reply['found']:,}", message(sentence(told_so)), sum_of_all)
    return Words(of_plan(plan, because), do)


def words_of_size(plan: Bundle) -> Words:
    """The reason why a whole plan can't be read although its rows can."""
    if has_too_many_rows(plan):
        because = message(
            "the plan of {year} has {count} rows, but at most {most} are accepted",
            year=of_others(plan.year),
            count=whole(len(plan.rows)),
            most=whole(MOST_ROWS),
        )
        return Words(because, message("remove the rows that the year doesn't need"))
    because = message('the year of a plan is "{year}"', year=of_others(plan.year))
    return Words(because, message("write a year from {first} to {last}", first=Code(2000), last=Code(2199)))

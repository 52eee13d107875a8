"""`cpi-tools next-year FILE YEAR FOLDER`: what the desk has to see to before a year begins, and a draft of it."""

from __future__ import annotations

import argparse
import os
import sqlite3
from collections import Counter, defaultdict
from collections.abc import Collection, Iterable, Iterator, Sequence
from pathlib import Path
from typing import NamedTuple, Optional

from ...office.copying import private_copy
from ...office.folders import new_room, write_rows
from ...office.program import LAST_MOMENT, Cpi, Reply, Session, add_program, record
from ...office.stored import Assignment, Plan, Release, Series, Slot, StoredOffice, stored_office
from ...text.terminal import Fault, Progress, ToolWords, at_least, because_of, month_text, write_count
from ..record_rows import DESK
from ..take_out import COLUMNS, Held, Line, held_by
from . import draft_faults


# ==== finds the series in the sample of a coming year: the months up to its January are frozen on a copy, and read
# there
#
# The program decides which series are in a sample. Weights don't affect this, so on the copy an aggregate without
# series gives its weight to another one.

FIRST = 1
"""The revision of a month that is frozen for the first time."""

MOST_WEIGHT = 1_000_000


def months_after(month: int, last: int) -> Iterator[int]:
    """The months after one, up to another."""
    while month < last:
        month = month + 1 if month % 100 < 12 else month + 89
        yield month


def sample_of(stored: StoredOffice, release: Release, plan: Plan) -> dict[Series, str]:
    """The aggregate of each series with a carried price in a release."""
    return {series: plan.places[it.item] for series, it in stored.read_carried(release).items()}


def next_sample(cpi: Cpi, copy: Path, plan: Plan, last_frozen: int) -> dict[Series, str]:
    """The sample that a year's plan would have, as the aggregate of each series: the copy is frozen month by month to
    find it.

    Months that aren't frozen yet are frozen with the quotes that they have. Raises Fault if that is refused.
    """
    january = plan.year * 100 + 1
    with stored_office(copy) as stored:
        windows, keys = {it.month for it in stored.calendar()}, [*stored.keys().values()]
    with cpi.session(db=copy) as session:
        for month in months_after(last_frozen, january):
            if month not in windows:
                session.ask(record(0, DESK, "calendar", month_text(month), 0, 1, LAST_MOMENT))
            code = freeze(session, month) if month < january else None
            if code is not None:
                raise Fault(draft_faults.no_series(month, code))
        is_frozen = freeze_january(session, plan, priced_items(session, keys, january))
    with stored_office(copy) as stored:
        return sample_of(stored, Release(january, FIRST, ()), plan) if is_frozen else {}


def priced_items(session: Session, keys: Sequence[str], month: int) -> set[str]:
    """The items on the work lists of a month."""
    asked = (session.ask(record(LAST_MOMENT, key, "work", month_text(month))) for key in keys)
    return {row[3] for reply in asked for row in reply["work"]}


def freeze_january(session: Session, plan: Plan, items: Collection[str]) -> bool:
    """Freezes the first month of a plan, without the aggregates that have no series; returns whether any aggregate has
    one.

    Aggregates whose items nobody prices are left out at once, the others when a refusal names them.
    """
    priced = {plan.places[item] for item in items if item in plan.places}
    weights = {code: weight for code, weight in plan.aggregates().items() if code in priced}
    while weights:
        must(session.ask(plan_record(plan, weights)), f"the plan of {plan.year}")
        code = freeze(session, plan.year * 100 + 1)
        if code is None:
            return True
        del weights[code]
    return False


def freeze(session: Session, month: int) -> Optional[str]:
    """Freezes a month with the carry list that it needs; returns the code of an aggregate without a sample, if there is
    one."""
    carry: list[str] = []
    while True:
        reply = session.ask(record(LAST_MOMENT, DESK, "freeze", month_text(month), *carry))
        if reply.get("refused") == 49 and reply["fault"] == 2:
            carry.append(reply["code"])
        elif reply.get("refused") == 49 and reply["fault"] == 1:
            return str(reply["code"])
        else:
            must(reply, f"the freeze of {month_text(month)}", "freeze")
            return None


def must(reply: Reply, what: str, word: str = "plan") -> None:
    """Raises Fault if something was refused, in the words of the refusal."""
    if "refused" in reply:
        raise Fault(draft_faults.explain_refusal(reply, what, word))


def plan_record(plan: Plan, weights: dict[str, int]) -> str:
    """The record of a plan of some of its aggregates: the first also gets the weights of those that are left out."""
    first, *others = weights
    shared = {first: MOST_WEIGHT - sum(weights[code] for code in others), **{code: weights[code] for code in others}}
    rows = [record("T", code, title) for code, title in plan.titles.items()]
    rows += [record("W", code, weight) for code, weight in shared.items()]
    rows += [record("I", item, code) for item, code in plan.places.items() if code in shared]
    return record(0, DESK, "plan", plan.year, "\n".join(rows))


# ==== `cpi-tools next-year FILE YEAR FOLDER`: lists what the desk must do before a year begins, and drafts the year
#
# It lists the series that leave the sample, the series that were gone for three months, and the aggregates with fewer
# than three series; and it writes next year's plan and assignments as the files that `take-in` reads.

MOST_SLOTS = 400
"""The most slots of a collector."""

GONE_MONTHS = 3
"""The number of months for which a series is gone before it is reported."""

FEW = 3
"""An aggregate with fewer series than this is reported."""


class Now(NamedTuple):
    """The state of an office before the year begins.

    The holder of each series; the collectors' numbers, the outlets' names, the items' texts; the last frozen release
    and the sample that it was computed from; next year's plan if it exists, or else this year's; the months in which
    gone series were searched, and these series.
    """

    held: Held
    collectors: list[int]
    outlets: dict[int, str]
    texts: dict[str, str]
    last: Release
    sample: dict[Series, str]
    plan: Plan
    months: list[int]
    gone: set[Series]


def read(stored: StoredOffice, year: int) -> Now:
    """The state in the copy of an office. Raises Fault if the year can't be the next one."""
    plans = {plan.year: plan for plan in stored.plans()}
    plan = plans.get(year) or plans.get(year - 1)
    releases = stored.releases()
    last = releases[-1] if releases else None
    if plan is None:
        raise Fault(draft_faults.no_plan(year))
    if last is None:
        raise Fault(draft_faults.none_frozen())
    if last.month > year * 100:
        raise Fault(draft_faults.has_begun(last.month, year))
    current = plans.get(last.month // 100)
    held = held_by(stored)
    months = [month for month in stored.months_of_quotes() if month < year * 100][-GONE_MONTHS:]
    return Now(
        held=held,
        collectors=[*stored.keys()],
        outlets=stored.outlets(),
        texts={it.code: it.text for it in stored.items()},
        last=last,
        sample=sample_of(stored, last, current) if current else {},
        plan=plan._replace(year=year),
        months=months,
        gone=find_gone(stored, held, months),
    )


def find_gone(stored: StoredOffice, held: Held, months: Sequence[int]) -> set[Series]:
    """The series that were `gone` in each of three months, whoever held them."""
    series = {(it.collector, it.slot): it.series for own in held.values() for it in own}
    counts: Counter[Series] = Counter()
    for month in months:
        counts.update(series[slot] for slot, quote in stored.quotes(month).items() if quote.mark == "gone")
    return {own for own, count in counts.items() if count == GONE_MONTHS}


# ---- the lists


class Lists(NamedTuple):
    """The rows of each list, the rows of the draft's new series, and the collectors who need a new number for them."""

    leaving: list[Line]
    gone: list[Line]
    few: list[Line]
    series: list[Line]
    renumbered: dict[int, int]


SERIES_HEADS = ("collector", "slot", "outlet", "name", "item", "text", "code")
HEADS = {
    "leaving": (*SERIES_HEADS, "last", "because", "do"),
    "gone": (*SERIES_HEADS, "last", "because", "do"),
    "few-series": ("code", "title", "series", "outlets", "drafted", "do"),
}


def lists(now: Now, sample: dict[Series, str]) -> Lists:
    """The lists of what the desk must do, from the sample that the program would take."""
    leaving: list[Line] = []
    drafted: list[Line] = []
    slots = Slots(now.held, now.collectors)
    for series, code in sorted(now.sample.items()):
        if series in sample:
            continue
        it = now.held[series][-1]
        december = (now.plan.year - 1) * 100 + 12
        ends = it.last_month <= december
        is_drafted = it.last_month == december and series not in now.gone and it.item in now.plan.places
        if is_drafted:
            drafted.append(draft_row(it, slots.next(it.collector), now.plan.year))
        because = (
            f"its last month is {month_text(it.last_month)}" if ends else "its aggregate has no series, or no weight"
        )
        do = "price it in December in the slot of the draft too" if is_drafted else "look for another in its place"
        leaving.append((*_series_cells(now, it, code), month_text(it.last_month), because, do))
    return Lists(leaving, gone_rows(now), few_rows(now, sample, drafted), drafted, slots.renumbered)


def _series_cells(now: Now, assignment: Assignment, code: str) -> Line:
    """The cells of a series in the lists."""
    return (
        assignment.collector,
        assignment.slot,
        assignment.outlet,
        now.outlets[assignment.outlet],
        assignment.item,
        now.texts[assignment.item],
        code,
    )


class Slots:
    """The next free slot of each collector; a collector without a free slot gets a new number, with its own slots."""

    def __init__(self, held: Held, numbers: Iterable[int]):
        self._last: Counter[int] = Counter()
        for own in held.values():
            for it in own:
                self._last[it.collector] = max(self._last[it.collector], it.slot)
        self._greatest = max(numbers)
        self.renumbered: dict[int, int] = {}
        """The new numbers of collectors without a free slot, by their old ones."""

    def next(self, collector: int) -> Slot:
        """The next free slot of a collector."""
        number = self.renumbered.get(collector, collector)
        if self._last[number] >= MOST_SLOTS:
            self._greatest += 1
            number = self.renumbered[collector] = self._greatest
        self._last[number] += 1
        return number, self._last[number]


def draft_row(assignment: Assignment, slot: Slot, year: int) -> Line:
    """The same outlet and item in another slot, from December on through the year."""
    return *slot, assignment.outlet, assignment.item, month_text((year - 1) * 100 + 12), month_text(year * 100 + 12)


def gone_rows(now: Now) -> list[Line]:
    """The series that were gone in all of the last months."""
    because = "gone in " + ", ".join(map(month_text, now.months))
    do = "look for another in its place: the draft doesn't have it again"
    rows: list[Line] = []
    for series in sorted(now.gone):
        it = now.held[series][-1]
        rows.append((*_series_cells(now, it, now.plan.places.get(it.item, "")), month_text(it.last_month), because, do))
    return rows


def few_rows(now: Now, sample: dict[Series, str], drafted: Sequence[Line]) -> list[Line]:
    """The aggregates with fewer than three series in the sample, including those without any."""
    outlets: dict[str, list[int]] = defaultdict(list)
    for series, code in sample.items():
        outlets[code].append(now.held[series][-1].outlet)
    more = Counter(now.plan.places.get(str(row[3]), "") for row in drafted)
    rows: list[Line] = []
    for code in sorted(now.plan.aggregates()):
        count = len(outlets[code])
        if count < FEW:
            do = (
                "assign more, and price them in December"
                if count + more[code] < FEW
                else "price the draft's in December"
            )
            rows.append((code, now.plan.titles[code], count, len({*outlets[code]}), more[code], do))
    return rows


# ---- the files


def write_next_year(folder: Path, now: Now, lists: Lists) -> None:
    """Writes the lists, and the draft next to them, into an existing folder."""
    for name, rows in zip(HEADS, (lists.leaving, lists.gone, lists.few)):
        write_rows(folder / f"{name}.csv", HEADS[name], rows)
    draft, plan = folder / "draft", now.plan
    draft.mkdir(mode=0o700)
    weights = plan.aggregates()
    titles = ((plan.year, code, title, weights.get(code, "")) for code, title in plan.titles.items())
    write_rows(draft / "classification.csv", COLUMNS["classification"], titles)
    write_rows(draft / "places.csv", COLUMNS["places"], ((plan.year, *place) for place in plan.places.items()))
    write_rows(draft / "plans.csv", COLUMNS["plans"], [(plan.year, "")])
    write_rows(draft / "series.csv", COLUMNS["series"], lists.series)
    if lists.renumbered:
        write_rows(draft / "collectors.csv", ("collector",), ((number,) for number in lists.renumbered.values()))


def next_year(cpi: Cpi, file: Path, year: int, folder: Path) -> tuple[Now, Lists]:
    """Writes a new folder with the lists and the draft, completely or not at all.

    FILE is copied, and not a byte of it changes. Raises Fault if no right copy can be made, or the year can't be the
    next one.
    """
    if os.path.lexists(folder):
        raise Fault(draft_faults.is_there(folder))
    folder.parent.mkdir(parents=True, exist_ok=True)
    with private_copy(file) as copy, new_room(".cpi-next-", folder.parent) as room:
        # (the program opens it first, so it is an office, and of the schema that is read here)
        cpi.open(copy, file)
        with stored_office(copy) as stored:
            now = read(stored, year)
        found = lists(now, next_sample(cpi, copy, now.plan, now.last.month))
        made = room / "lists"
        made.mkdir(mode=0o700)
        write_next_year(made, now, found)
        made.rename(folder)
    return now, found


# ---- words

DESCRIPTION = """\
Prepares YEAR before it begins: lists the series that leave the sample, the series that were gone
in the last three months, and the aggregates with fewer than three series; and drafts the year's
plan and assignments. cpi itself shows which series are in the sample: on a copy, it freezes the
months up to January of YEAR with the quotes that they have. FILE doesn't change, and cpi may be
serving it.

FOLDER gets leaving.csv, gone.csv and few-series.csv, and draft/ with classification.csv (with this
year's weights, to be replaced by the new ones), places.csv, plans.csv and series.csv. In
series.csv, a series that ends in December goes on in a new slot from December on, unless it was
gone. Edit the draft in a spreadsheet, and take it in:

    cpi-tools take-in FOLDER/draft --onto FILE --check
"""

EPILOG = """\
example: cpi-tools next-year office.db 2027 next-year

exit status: 0 if the folder was written; 1 if it wasn't, and nothing is left (one line says why);
2 if the arguments are refused
"""


def add_words(tools: argparse._SubParsersAction[ToolWords]) -> None:
    """Adds the tool `next-year`."""
    says = "Draft next year's plan, and list the series that leave the sample"
    words = tools.add_parser("next-year", help=says, description=DESCRIPTION, epilog=EPILOG)
    words.add_argument("file", type=Path, metavar="FILE", help="the office's file, which is only read")
    words.add_argument("year", type=at_least(2000), metavar="YEAR", help="the coming year, such as 2027")
    words.add_argument("folder", type=Path, metavar="FOLDER", help="a folder that doesn't exist yet")
    add_program(words)
    words.set_defaults(run=run, tool="next-year", words=words)


def run(chosen: argparse.Namespace) -> int:
    """Runs the tool with its arguments; returns its exit status."""
    try:
        with Progress("cpi-tools next-year") as progress:
            progress.now(f"freezing a copy up to {chosen.year}-01")
            now, lists = next_year(Cpi(chosen.program), chosen.file, chosen.year, chosen.folder)
    except OSError as fault:
        raise Fault(because_of(fault)) from fault
    except sqlite3.Error as fault:
        raise Fault(f"{chosen.file} can't be read: {fault}") from fault
    print(f"leave the sample of {now.plan.year - 1}: {len(lists.leaving):,} of {len(now.sample):,} series")
    print(f"gone in {', '.join(map(month_text, now.months))}: {len(lists.gone):,} series")
    print(f"fewer than {FEW} series in {chosen.year} so far: {write_count(len(lists.few), 'aggregate')}")
    print(f"go on in {chosen.folder / 'draft'}: {len(lists.series):,} series")
    for number, new in lists.renumbered.items():
        print(f"collector {number} has no slot left, and is {new} in the draft, with a key that take-in draws")
    return 0

"""A copy's facts about a month that the program froze there, or refused; and levels as the website shows them."""

from __future__ import annotations

import contextlib
from collections import defaultdict
from collections.abc import Sequence
from functools import cached_property
from pathlib import Path
from typing import NamedTuple, Optional, Union

from ...office.copying import private_copy
from ...office.program import LAST_MOMENT, Cpi
from ...office.public import Listed, Published
from ...office.refusals import sentence
from ...office.stored import (
    COMPARABLE,
    OBSERVED,
    Assignment,
    Carried,
    Frozen,
    Item,
    Plan,
    Quote,
    Release,
    Series,
    StoredOffice,
    read_copy,
)
from ...office.tables import NotATable, Row, Series as Tables
from ...office.trial import Frozen as FrozenMonth, Refused, other_tables_in
from ...publish.figures.measures import Contributions
from ...publish.figures.shown_figures import NotCovered, Shown
from ...text.exact import ALL_ITEMS, points
from ...text.message import Figure, Message, MonthName, message, month_name_of, said_as, whole
from ...text.others import of_others
from ...text.terminal import Fault, link_month, month_before, month_text, slot_text


# ==== levels in the reference period of the website, computed with the code that computes the published ones
#
# The program's own levels are chained: a node has 100 in the December before its first month. Without a reference
# period, a page shows only these, and names their period.

Period = Union[MonthName, Figure]
"""A month by its name, or a year."""


def period_of(period: str) -> Period:
    """The words of a period, `2025` or `2025-12`."""
    return Figure(period) if len(period) == 4 else month_name_of(int(period[:4]) * 100 + int(period[5:]))


def chained_name(first: str, is_later: bool) -> Message:
    """`chained level, December 2023 = 100`, of the first December, and whether a node came later."""
    december = period_of(first)
    if is_later:
        return message("chained level, {december} = 100 or a later December", december=december)
    return message("chained level, {december} = 100", december=december)


def level_name(period: str) -> Message:
    """`level, 2025 = 100`."""
    return message("level, {period} = 100", period=period_of(period))


def with_period(level: str, period: str) -> Message:
    """`105.6 (2025 = 100)`."""
    # t: a level, and the period in which it is 100
    return message("{level} ({period} = 100)", level=Figure(level), period=period_of(period))


class Levels(NamedTuple):
    """The levels of a month: its tables with the tables of all other months, and the reference period, which is empty
    if the website has none, or if no table covers it."""

    month: str
    others: Sequence[Published]
    reference: str
    shown: Optional[Shown]
    first: str
    is_later: bool

    def of(self, code: str, month: str = "", digits: int = 1) -> str:
        """The level of a node with the reference period's as 100; empty if its levels aren't linked to that."""
        at = month or self.month
        if self.shown is None or not self.shown.is_rereferenced(at, code):
            return ""
        return self.shown.text(at, code, digits)

    def write_chained(self, code: str, digits: int = 1) -> str:
        """The chained level of a node; empty without one."""
        level = self.shown.series.level(self.month, code) if self.shown else None
        return "" if level is None else points(level, digits)

    @property
    def has_reference(self) -> bool:
        """Whether there are levels with a reference period besides the chained ones."""
        return bool(self.reference)

    @property
    def chained_name(self) -> Message:
        """The heading of chained levels."""
        return chained_name(self.first, self.is_later)

    @property
    def name(self) -> Message:
        """The heading of levels."""
        return level_name(self.reference) if self.has_reference else self.chained_name

    @property
    def name_before(self) -> Message:
        """The heading of levels of the month before."""
        return message("month before: {level}", level=self.name)

    def figure(self, chained: int, code: str, digits: int = 1) -> Message:
        """A level with its period, `105.6 (2025 = 100)`, of a chained one in millionths of a point."""
        level = self.of(code, digits=digits)
        return with_period(level, self.reference) if level else with_period(points(chained, digits), self.first)

    def with_table(self, table: bytes) -> Levels:
        """These levels with another table of the month."""
        return levels_of(self.others, self.month, table, self.reference)


def other_tables(cpi: Cpi, office_copy: Path, month: int, known: Sequence[Published] = ()) -> list[Published]:
    """The latest tables of all months but one, as they are printed once all are published, on a further copy; those that
    are known aren't printed again. Raises Fault."""
    with private_copy(office_copy) as copy, cpi.session(copy) as session:
        return other_tables_in(session, month_text(month), known)


def levels_of(others: Sequence[Published], month: str, table: bytes, reference: str) -> Levels:
    """The levels of a month whose table this is, with the tables of all other months."""
    own = Published(Listed(month, 1, LAST_MOMENT), table)
    try:
        series = Tables([*others, own])
    except NotATable:
        return Levels(month, others, "", None, month, False)
    try:
        shown = Shown(series, reference)
    except NotCovered:
        shown, reference = Shown(series), ""
    codes = dict(series.latest[month].rows) if month in series.latest else {}
    is_later = any(series.base_of(month, code) != series.base for code in codes)
    return Levels(month, others, reference, shown, series.base, is_later)


def levels_now(
    cpi: Cpi, office_copy: Path, month: int, table: bytes, reference: str, known: Optional[Levels] = None
) -> Optional[Levels]:
    """The levels of a month whose table this is, with the tables that a copy has of all other months; None if they can't
    be read. `known` are earlier levels of the month: their tables aren't printed again."""
    had = known.others if known else []
    with contextlib.suppress(Fault):
        is_known = others_listed(office_copy, month) == {it.listed[:2] for it in had}
        others = had if known and is_known else other_tables(cpi, office_copy, month, had)
        return levels_of(others, month_text(month), table, reference)
    return None


def others_listed(office_copy: Path, month: int) -> set[tuple[str, int]]:
    """The latest tables that a copy has of all months but one: month like `2026-01`, and revision. Raises Fault."""
    with read_copy(office_copy) as office:
        latest = {release.month: release.revision for release in office.releases() if release.month != month}
    return {(month_text(each), revision) for each, revision in latest.items()}


# ==== a refusal of the program in the sentences of the desk's page: a terminal shows it in one line


def refused_words(refused: Refused) -> Message:
    """The refused record and the reason, in the words of the catalogues."""
    words, reply = refused.words, refused.reply
    return said_as(
        str(refused),
        message("Refused with {number}.", number=whole(reply["refused"])),
        message(sentence(words.because)),
        *([more_of(reply)] if "fault" in reply or "code" in reply else []),
        message(sentence(words.do)),
    )


def more_of(reply: dict[str, object]) -> Message:
    """The place of the fault, and its number."""
    number, code = reply.get("fault"), of_others(str(reply.get("code")))
    if "code" not in reply:
        return message("Fault {number}.", number=number)
    return (
        message("Fault {number}, at {code}.", number=number, code=code)
        if number
        else message("The code is {code}.", code=code)
    )


# ==== a copy's facts about a month that the program froze there, or couldn't: then the facts that depend on the freeze
# are empty
#
# Prices are in minor units of money, the prices that count for a series in ticks (10,000 to a minor unit), indices and
# levels in millionths of a point, months are numbers like 202601.

NO_PLACE = "-"
"""Stands for the code of an item that the plan doesn't place."""

# t: in place of the title of a node, or of its division
NOT_IN_PLAN, NO_PLAN = message("not in the plan"), message("no plan")

TICKS = 10_000
"""Ticks of a minor unit of money."""


class Ratio(NamedTuple):
    """A comparable price of the month, with the last one before it, in minor units."""

    slot: Assignment
    last: int
    price: int


class Facts:
    """The facts of a month, from a copy of an office."""

    def __init__(
        self, office: StoredOffice, month: int, frozen: Optional[FrozenMonth], levels: Optional[Levels] = None
    ):
        """`levels` name the period of levels, if the caller has them."""
        self.office, self.month, self.levels = office, month, levels
        self.assignments = office.assignments()
        self.slots = sorted(
            assignment for assignment in self.assignments if assignment.first_month <= month <= assignment.last_month
        )
        self.quotes = office.quotes(month)
        self.last = office.last_prices(month)
        self.outlets, self.keys = office.outlets(), office.keys()
        self.items: dict[str, Item] = {it.code: it for it in office.items()}
        self.plans = {plan.year: plan for plan in office.plans()}
        self.plan: Optional[Plan] = self.plans.get(month // 100) or self.plans.get(month // 100 + 1)
        self.latest: dict[int, Release] = {release.month: release for release in office.releases()}
        self.release = self.latest.get(month) if frozen else None
        try:
            self.tables = Tables(frozen.tables) if frozen and frozen.table else None
        except NotATable:
            # (of a first December, whose table has no rows)
            self.tables = None

    # ---- what the survey says

    def quote(self, assignment: Assignment) -> Optional[Quote]:
        """A slot's quote, None if nothing was sent."""
        return self.quotes.get(assignment[:2])

    def is_priced(self, assignment: Assignment) -> bool:
        """Whether a slot has a stored price."""
        quote = self.quote(assignment)
        return quote is not None and quote.mark in OBSERVED

    def code(self, item: str) -> str:
        """The aggregate in which the year's plan places an item."""
        return self.plan.places.get(item, NO_PLACE) if self.plan else NO_PLACE

    def title(self, code: str) -> str:
        """The title of a node in the year's plan."""
        return self.plan.titles.get(code, NOT_IN_PLAN) if self.plan else NO_PLAN

    def item(self, code: str) -> str:
        """An item with its unit."""
        item = self.items[code]
        # t: an item and its unit: Rice, long grain, 1 kg
        return message("{item}, {unit}", item=of_others(item.text), unit=of_others(item.unit))

    def place_cells(self, assignment: Assignment) -> list[str]:
        """Slot, aggregate, item and outlet."""
        return [
            slot_text(assignment[:2]),
            self.code(assignment.item),
            self.item(assignment.item),
            self.outlets[assignment.outlet],
        ]

    @cached_property
    def holder(self) -> dict[Series, Assignment]:
        """The holder of each series in the month, or its last one."""
        assignments: dict[Series, Assignment] = {}
        for assignment in self.assignments:
            if assignment.first_month <= self.month or assignment.series not in assignments:
                assignments[assignment.series] = assignment
        return assignments

    @cached_property
    def ratios(self) -> list[Ratio]:
        """The comparable prices of slots that have a last price."""
        pairs = ((slot, self.quotes.get(slot[:2]), self.last.get(slot[:2])) for slot in self.slots)
        known = [(pair, quote, last) for pair, quote, last in pairs if quote and last]
        return [Ratio(pair, last, quote.value) for pair, quote, last in known if quote.mark in COMPARABLE]

    # ---- what the program froze

    @cached_property
    def contributions(self) -> Optional[Contributions]:
        """Each node's contribution to the changes of the nodes above it."""
        return Contributions(self.tables) if self.tables else None

    @cached_property
    def rows(self) -> dict[str, Row]:
        """The rows of the month's table."""
        table = self.tables.latest.get(month_text(self.month)) if self.tables else None
        return dict(table.rows) if table else {}

    @property
    def all_items(self) -> Optional[Row]:
        """The row of all items."""
        return self.rows.get(ALL_ITEMS)

    @cached_property
    def carried_prices(self) -> dict[Series, Carried]:
        """The price that counts for each series of a sample."""
        return dict(sorted(self.office.read_carried(self.release).items())) if self.release else {}

    @cached_property
    def samples(self) -> dict[str, list[Series]]:
        """The sample of each aggregate."""
        lists: dict[str, list[Series]] = defaultdict(list)
        for series, price in self.carried_prices.items():
            lists[self.code(price.item)].append(series)
        return dict(sorted(lists.items()))

    @cached_property
    def frozen(self) -> dict[Series, Frozen]:
        """The quotes that the month was frozen with."""
        return self.office.frozen(self.release) if self.release else {}

    @cached_property
    def frozen_before(self) -> dict[Series, Frozen]:
        """Those of the month before."""
        return self._frozen_of(month_before(self.month))

    def _frozen_of(self, month: int) -> dict[Series, Frozen]:
        return self.office.frozen(self.latest[month]) if month in self.latest else {}

    @cached_property
    def bases(self) -> dict[Series, int]:
        """The base of each series in ticks: its price in the link month, or what it counted as then."""
        link = link_month(self.month)
        if link not in self.latest:
            return {}
        carried = {series: it.ticks for series, it in self.office.read_carried(self.latest[link]).items()}
        priced = {series: it.value * TICKS for series, it in self._frozen_of(link).items() if it.value}
        return {**carried, **priced}

    @cached_property
    def counted_before(self) -> dict[Series, int]:
        """The price that counted for each series in the month before, in ticks; in January its base."""
        if self.month % 100 == 1:
            return self.bases
        before = self.latest.get(month_before(self.month))
        return {series: it.ticks for series, it in self.office.read_carried(before).items()} if before else {}

    def comparable(self, code: str) -> list[Series]:
        """The series of an aggregate's sample that have a comparable price."""
        now = self.frozen
        return [sample for sample in self.samples.get(code, []) if sample in now and now[sample].mark in COMPARABLE]

    def find_matches(self, code: str) -> list[Series]:
        """Those of them that were observed in the month before too."""
        then = self.frozen_before
        return [it for it in self.comparable(code) if it in then and then[it].mark in OBSERVED]

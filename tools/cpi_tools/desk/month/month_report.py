"""`cpi-tools desk month`: a month before it is frozen, as a page, as CSV files and as a text."""

from __future__ import annotations

from collections.abc import Callable, Mapping, Sequence
from pathlib import Path
from typing import NamedTuple, Optional

from ...office.copying import private_copy
from ...office.program import Cpi
from ...office.public import Published
from ...office.stored import read_copy
from ...office.trial import Frozen, Refused, State, as_frozen, freeze_on_copy, state_of
from ...text.exact import ALL_ITEMS, Ratio, decimal, depth_of, points, tenths, with_sign
from ...text.message import (
    NUMBER,
    Cell,
    Column,
    Figure,
    Message,
    Moment,
    Month,
    Section,
    columns,
    message,
    moment_of,
    month_name_of,
    month_of,
    sentences,
    text_of,
    whole,
)
from ...text.others import of_others
from ...text.terminal import link_month, month_before, month_text
from . import closing, response, unusual
from .facts import Facts, Levels, refused_words
from .what_if import Early, early_tables


# ==== the provisional table: as the program froze it on a copy, with each node's contribution to the changes of all
# items

HEADS = columns(
    *("=code", "title", "#weight", "#index", "#level before", "#level", "#month %", "#year %"),
    *("#adds, month", "#adds, year", "imputed"),
)


def heads_of(facts: Facts) -> tuple[Column, ...]:
    """The headings of the table; the headings of levels name their period, if it is known."""
    if facts.levels is None:
        return HEADS
    heads = [*HEADS]
    link = month_name_of(link_month(facts.month))
    heads[INDEX] = Column(message("index, {december} = 100", december=link), NUMBER)
    heads[BEFORE : LEVEL + 1] = [Column(facts.levels.name_before, NUMBER), Column(facts.levels.name, NUMBER)]
    chained = [Column(facts.levels.chained_name, NUMBER)] if facts.levels.has_reference else []
    return (*heads[:-1], *chained, heads[-1])


# t: one letter that marks an imputed row
IMPUTED = message("i")

INDEX, BEFORE, LEVEL = 3, 4, 5
"""Cells of a row: the index, and the levels of the month before and of the month."""


def write_contribution(ratio: Optional[Ratio]) -> str:
    """A contribution in percentage points with three decimals."""
    return decimal(*ratio, 3) if ratio else ""


def to_month(facts: Facts, code: str) -> Optional[Ratio]:
    """A node's contribution to the month's change of all items, in percentage points."""
    month = month_text(facts.month)
    return facts.contributions.of(month, code, ALL_ITEMS).to_month if facts.contributions else None


def row_of(facts: Facts, code: str) -> Optional[list[Cell]]:
    """A node of the table, or one that left the plan and still adds to the year's change; None of any other."""
    if facts.tables is None or facts.contributions is None:
        return None
    now, then = facts.rows.get(code), facts.tables.row(month_text(month_before(facts.month)), code)
    given = facts.contributions.of(month_text(facts.month), code, ALL_ITEMS)
    if now is None:
        title = message("{title} (left the plan)", title=of_others(facts.tables.titles[code]))
        empty = [""] * (1 if facts.levels is None or not facts.levels.has_reference else 2)
        return [code, title, *[""] * 7, write_contribution(given.to_year), *empty] if given.to_year else None
    levels, chained = levels_of_row(facts, code, then.chained if then else None, now.chained)
    figures = [points(now.within, 2), *levels, tenths(now.month_change), tenths(now.year_change)]
    adds = [write_contribution(given.to_month), write_contribution(given.to_year)]
    return [code, now.title, now.weight, *figures, *adds, *chained, IMPUTED if now.is_imputed else ""]


def levels_of_row(facts: Facts, code: str, then: Optional[int], now: int) -> tuple[list[str], list[str]]:
    """The levels of a node in the month before and in the month, and the chained one if those are of another period."""
    chained = [points(then, 2) if then is not None else "", points(now, 2)]
    if facts.levels is None or not facts.levels.has_reference:
        return chained, []
    before = facts.levels.of(code, month_text(month_before(facts.month)), 2) if then is not None else ""
    return [before, facts.levels.of(code, digits=2)], chained[1:]


def table(facts: Facts) -> Section:
    """The whole table, and what left the plan within a year."""
    cells = (row_of(facts, code) for code in (facts.tables.titles if facts.tables else ()))
    note = message(
        "Contributions to the change in all items are in percentage points. The file {file} contains the table byte"
        " for byte.",
        file="provisional.csv",
    )
    rows = [row for row in cells if row]
    return Section(
        "table",
        message("The whole table"),
        note,
        heads_of(facts),
        rows,
        message("The month has no table."),
        False,
        4000,
    )


def top(whole: Section) -> Section:
    """All items and the divisions of the whole table."""
    rows = [row for row in whole.rows if depth_of(str(row[0])) <= 1]
    note = message("Contributions to the change in all items are in percentage points.")
    title = message("All items and divisions, compared with the previous month")
    return Section("top", title, note, whole.columns, rows, whole.empty)


# ==== `cpi-tools desk month`: a month before it is frozen, as a page, as CSV files and as a text

PERCENT = "\u202f%"
"""Behind a figure, on the same line as it."""

Now = Callable[[str], None]
"""A function that gets the current step."""


class Asked(NamedTuple):
    """The questions about a month: its moment, how many quotes are left out, the fences' distance in percent, and how
    many priced series or outlets are few."""

    month: int
    at: int
    left_out: int
    width: int
    small: int


class Card(NamedTuple):
    """A figure, what it is, and a word to it."""

    figure: str
    name: Message
    word: Optional[Message]


class Division(NamedTuple):
    """A division's contribution to the month's change of all items: percentage points as a text and for a picture."""

    code: str
    title: str
    text: str
    points: float


class Report(NamedTuple):
    """The content of a page and a text about a month; `warnings` are about tables that come out too early."""

    month: Month
    at: Moment
    standing: Message
    is_frozen: bool
    lead: Optional[Message]
    warnings: list[Message]
    fault: Optional[Message]
    cards: list[Card]
    divisions: list[Division]
    sections: list[Section]
    table: bytes
    levels: Optional[Levels] = None


# ---- the month on a copy


class OnCopy(NamedTuple):
    """A month that was tried on a copy: its state, the tables that come out too early, the freeze, and why there is
    none, if there is none."""

    state: State
    early: list[Early]
    frozen: Optional[Frozen]
    fault: Optional[Message]


def report_of(cpi: Cpi, office_copy: Path, asked: Asked, now: Now) -> Report:
    """Freezes the month on a further copy if it can be frozen, and says all there is to say about it.

    It is frozen when its window closes, or at the requested moment if that is later. Raises Refused if the calendar has
    no row for the month.
    """
    with private_copy(office_copy) as copy:
        tried = tried_on(cpi, office_copy, copy, asked, now)
        with read_copy(copy) as office:
            return report_with(cpi, office_copy, tried, Facts(office, asked.month, tried.frozen), asked, now)


def tried_on(
    cpi: Cpi, office_copy: Path, copy: Path, asked: Asked, now: Now, known: Optional[Sequence[Published]] = None
) -> OnCopy:
    """Freezes the month on `copy`, a further copy of `office_copy`; `known` as of `freeze_on_copy`. Raises Refused as
    `report_of` does."""
    with read_copy(office_copy) as office:
        state = state_of(office, asked.month)
        carry = next((each.carry for each in reversed(office.releases()) if each.month == asked.month), ())
        early = early_tables(office, state, asked.at)
    now(message("freezing {month} on a copy", month=month_of(asked.month)))
    try:
        frozen = (
            as_frozen(cpi, copy, state, carry, known)
            if state.is_frozen
            else freeze_on_copy(cpi, copy, state, frozen_at(state, asked), known=known)
        )
    except Refused as refused:
        return OnCopy(state, early, None, refused_words(refused))
    return OnCopy(state, early, frozen, None)


def frozen_at(state: State, asked: Asked) -> int:
    """When the month is frozen on a copy."""
    return max(asked.at, state.window.closes)


def report_with(cpi: Cpi, office_copy: Path, tried: OnCopy, facts: Facts, asked: Asked, now: Now) -> Report:
    """All there is to say of a month that was tried on a copy, whose facts these are."""
    state, frozen, left = tried.state, tried.frozen, list[unusual.Left]()
    if frozen and facts.rows and asked.left_out and not state.is_frozen:
        now(message("leaving out quotes one at a time"))
        trial = unusual.Trial(cpi, office_copy, state, frozen_at(state, asked), frozen.carry)
        left = unusual.left_out(facts, trial, asked.left_out)
    now(message("counting"))
    sections = sections_of(facts, asked, frozen, left)
    report = gather(facts, asked, state, sections, tried.fault, frozen.table if frozen else b"")
    return report._replace(warnings=[early_release.warning() for early_release in tried.early])


def sections_of(facts: Facts, asked: Asked, frozen: Optional[Frozen], left: Sequence[unusual.Left]) -> list[Section]:
    """All sections, in their order on the page."""
    survey = [
        unusual.outliers(facts, asked.width),
        response.by_collector(facts),
        response.by_division(facts),
        response.by_outlet(facts),
        response.by_reason(facts),
        response.silent(facts),
        response.long_missing(facts),
        response.quarterly(facts),
        response.report_gone(facts),
        response.replacements(facts),
    ]
    if not frozen or not facts.rows:
        return survey
    whole = table(facts)
    return [
        top(whole),
        closing.carry(facts, frozen.carry),
        closing.carry_series(facts, frozen.carry),
        response.report_unmatched(facts),
        unusual.influence(facts, left),
        *survey,
        closing.report_imputed(facts),
        closing.small(facts, asked.small),
        closing.homogeneity(facts),
        whole,
    ]


def gather(
    facts: Facts, asked: Asked, state: State, sections: list[Section], fault: Optional[Message], table: bytes
) -> Report:
    """The report of its parts."""
    return Report(
        month_of(asked.month),
        moment_of(asked.at),
        standing(state, asked.at),
        state.is_frozen,
        lead(facts, state.is_frozen),
        [],
        fault,
        [*index_cards(facts), *survey_cards(facts, sections), *aggregate_cards(facts, sections)],
        divisions(facts),
        sections,
        table,
        facts.levels,
    )


# ---- in words


def standing(state: State, at: int) -> Message:
    """The month's state at a moment."""
    window, revision = state.window, whole(state.revision)
    named = {"revision": revision, "moment": moment_of(window.closes)}
    if state.is_frozen:
        moment = moment_of(window.publishes)
        return message("frozen, revision {revision}; release time {moment}", revision=revision, moment=moment)
    if at < window.opens:
        opens = moment_of(window.opens)
        if state.is_reopened:
            return message(
                "reopened after revision {revision}; the window opens {moment}", revision=revision, moment=opens
            )
        return message("the window opens {moment}", moment=opens)
    if state.is_reopened:
        if at < window.closes:
            return message("reopened after revision {revision}; the window is open until {moment}", **named)
        return message("reopened after revision {revision}; the window closed {moment}; not frozen yet", **named)
    if at < window.closes:
        return message("the window is open until {moment}", moment=named["moment"])
    return message("the window closed {moment}; not frozen yet", moment=named["moment"])


def lead(facts: Facts, is_frozen: bool) -> Optional[Message]:
    """The month's figures, or the figures that it would have."""
    top = facts.all_items
    if top is None:
        return None
    month, annual = (Figure(tenths(change).replace("-", "\u2212")) for change in (top.month_change, top.year_change))
    level = facts.levels.figure(top.chained, ALL_ITEMS) if facts.levels else Figure(points(top.chained, 1))
    named: dict[str, str] = {"level": level, "month": month}
    most = [
        division
        for division in sorted(divisions(facts), key=lambda division: -abs(division.points))[:2]
        if division.points
    ]
    first = changes(is_frozen, {**named, "annual": annual} if annual else named)
    return sentences(first, of_most(most)) if most else first


def changes(is_frozen: bool, named: Mapping[str, str]) -> Message:
    """The level of all items and its changes; `annual` is named if there is one."""
    if is_frozen and "annual" in named:
        return message(
            "All items are at {level}: the monthly change is {month} percent, and the annual change is {annual}"
            " percent.",
            **named,
        )
    if is_frozen:
        return message("All items are at {level}: the monthly change is {month} percent.", **named)
    if "annual" in named:
        return message(
            "As things stand, all items would be at {level}: the monthly change would be {month} percent, and the"
            " annual change {annual} percent.",
            **named,
        )
    return message(
        "As things stand, all items would be at {level}: the monthly change would be" " {month} percent.", **named
    )


def of_most(most: Sequence[Division]) -> Message:
    """The one division or the two whose contributions are the largest."""
    named = {"title": of_others(most[0].title), "points": Figure(most[0].text)}
    if len(most) == 1:
        return message(
            "The largest contribution to the month's change comes from {title}: {points} percentage points.", **named
        )
    second = {"other": of_others(most[1].title), "other_points": Figure(most[1].text)}
    return message(
        "The largest contributions to the month's change come from {title} ({points} percentage points) and {other}"
        " ({other_points}).",
        **named,
        **second,
    )


def divisions(facts: Facts) -> list[Division]:
    """Each division's contribution to the month's change of all items."""
    divisions = []
    for code in facts.rows:
        given = to_month(facts, code) if depth_of(code) == 1 else None
        if given:
            text = with_sign(decimal(*given, 3))
            divisions.append(Division(code, facts.title(code), text, given.over / given.under))
    return divisions


def index_cards(facts: Facts) -> list[Card]:
    """Of all items."""
    top = facts.all_items
    if top is None:
        return []
    year = f"{with_sign(tenths(top.year_change))}{PERCENT}" if top.year_change is not None else "\u2013"
    month = f"{with_sign(tenths(top.month_change))}{PERCENT}"
    level = message("level {level}", level=Figure(points(top.chained, 2)))
    if facts.levels:
        level = message("level {level}", level=facts.levels.figure(top.chained, ALL_ITEMS, 2))
    if facts.levels and facts.levels.has_reference:
        chained = Figure(points(top.chained, 2))
        level = message("{level}; {name}: {chained}", level=level, name=facts.levels.chained_name, chained=chained)
    # t: the change of all items on the month before: under a figure, short
    on_month = message("monthly change in all items")
    # t: the change of all items on the year before: under a figure, short
    return [Card(month, on_month, level), Card(year, message("annual change"), None)]


def survey_cards(facts: Facts, sections: Sequence[Section]) -> list[Card]:
    """Of the survey."""
    count, rows = response.in_all(facts), {section.key: len(section.rows) for section in sections}
    share = f"{response.percent(count.with_price, count.slots) or '0.0'}{PERCENT}"
    # t: slots with a price; short
    return [
        Card(share, message("priced"), of_slots(facts, count)),
        # t: slots of which nothing was sent; short
        Card(
            whole(rows["silent"]),
            message("silent"),
            message("{count} missing with a reason", count=whole(count.missing)),
        ),
        Card(
            whole(rows["long-missing"]),
            message("missing for two months or more"),
            message("{count} gone without a replacement", count=whole(rows["gone"])),
        ),
        # t: prices to look at, of which a figure is the count; short
        Card(whole(rows["outliers"]), message("to look at"), message("confirmed, unusual, or with nothing to compare")),
    ]


def of_slots(facts: Facts, count: response.Count) -> Message:
    """The number of slots with a price, and their share by weight if there is one."""
    by_weight = response.weighted_percent(facts, {facts.code(slot.item) for slot in facts.slots})
    named = {"priced": whole(count.with_price), "slots": whole(count.slots)}
    if not by_weight:
        return message("{priced} of {slots} slots", **named)
    return message("{priced} of {slots} slots, {percent} by weight", **named, percent=Figure(f"{by_weight} %"))


def aggregate_cards(facts: Facts, sections: Sequence[Section]) -> list[Card]:
    """Of the aggregates."""
    if facts.all_items is None:
        return []
    rows = {section.key: len(section.rows) for section in sections}
    count = sum(price.imputed for price in facts.carried_prices.values())
    share = f"{closing.imputed_percent(facts, facts.samples)}{PERCENT}"
    return [
        Card(share, message("imputed, by weight"), message("{count} series", count=whole(count))),
        Card(whole(rows["carry"]), message("on the carry list"), message("aggregates with nothing to compare")),
        Card(whole(rows["small"]), message("small aggregates"), message("few priced series or outlets")),
    ]


FOLDED = ("table", "silent", "homogeneity", "carry-series", "outlets")
"""Sections that a text leaves to the CSV files."""


def text_of_report(report: Report) -> str:
    """The report for a terminal: its cards, and the first rows of its sections."""
    warnings = [f"Warning: {warning}" for warning in report.warnings]
    head = [f"{report.month} at {report.at}: {report.standing}", *([report.lead] if report.lead else []), *warnings]
    cards = [f"  {card.figure:>9}  {card.name}{f' ({card.word})' if card.word else ''}" for card in report.cards]
    parts = [
        text_of(section, 16 if section.key == "top" else 8) for section in report.sections if section.key not in FOLDED
    ]
    return "\n\n".join(["\n".join([*head, *cards]), *parts])

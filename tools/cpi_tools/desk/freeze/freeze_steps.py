"""The steps of a freeze: the checklist, the page for confirming, the comparison with the office, the receipt."""

from __future__ import annotations

import contextlib
import time
from collections.abc import Mapping, Sequence
from typing import NamedTuple, Optional

from ...office.copying import private_copy
from ...office.stored import read_copy
from ...office.trial import as_frozen, state_of
from ...text.exact import ALL_ITEMS, decimal, depth_of, points
from ...text.message import (
    CODE as CODE_COLUMN,
    NUMBER,
    TEXT,
    Cell,
    Column,
    Figure,
    Message,
    Section,
    columns,
    message as _,
    message_of,
    moment_of,
    row as row_of,
    sentences,
    whole,
)
from ...text.others import Worded, of_others
from ...text.terminal import Fault, month_text
from ..looks.looks import Look
from ..looks.looks_views import price_of
from ..looks.month_trials import Tried, beside, known_levels
from ..month.closing import close
from ..month.facts import Levels, chained_name, level_name, levels_now, with_period
from ..month.month_report import Card, changes
from ..month.what_if import rows_of
from ..records.desk_log import CONFIRMED, DONE_ALREADY, DROPPED, FROZEN, FROZEN_STEP, PREPARED, UNSEEN, DeskLog, Entry
from ..serve.faults import says
from ..serve.request_context import desk, session
from .freezes import Prepared, sum_of, table_sum


# ==== texts about a freeze: why one of its forms isn't carried out, and what the log says about it

NOT_PREPARED = _("There is no prepared freeze of this month: somebody may have sent it or discarded it. See the log.")


def other_trial(trial: Tried) -> Message:
    """The message that the page showed another trial than the last one."""
    if not trial.by:
        return _(
            "There is a new trial of the month, and it differs from the one that you saw: read it. Nothing was done."
        )
    return _(
        "{name} ran a new trial of the month, {moment}, and it differs from the one that you saw: read it. Nothing"
        " was done.",
        name=of_others(trial.by),
        moment=moment_of(trial.at),
    )


def other_prepared(prepared: Prepared) -> Message:
    """The message that another freeze is prepared than the page showed."""
    return _(
        "{name} prepared another freeze, {moment}, and it differs from the one that you saw: read it. Nothing was"
        " done.",
        name=of_others(prepared.by),
        moment=moment_of(prepared.at),
    )


def not_prepared() -> Message:
    """The message that no freeze is prepared, with who sent or dropped the last one."""
    for entry in reversed(desk().log.entries):
        if entry.text.startswith(PREPARED):
            break
        if entry.what == FROZEN or entry.text.startswith((DROPPED, CONFIRMED, DONE_ALREADY)):
            places = {"name": of_others(entry.by), "moment": moment_of(entry.at)}
            return _(
                "There is no longer a prepared freeze: {name} sent it or discarded it," " {moment}. See the log.",
                **places,
            )
    return NOT_PREPARED


def describe_freeze(prepared: Prepared) -> str:
    """A prepared freeze in a line of the log."""
    carried = "; ".join(f"{code} carried: {why}" for code, why in zip(prepared.carry, prepared.why))
    open_because = UNSEEN.format(because=prepared.because) if prepared.because else ""
    what = f"{' '.join(prepared.record)}, revision {prepared.revision}; table {prepared.table}"
    why = "".join(f"; revised, {tag}: {text}" for tag, text in prepared.reasons.items())
    return f"{what}{f'; {carried}' if carried else ''}{why}{open_because}"


# ==== the page for the person who confirms a freeze: the figures of the trial whose table was prepared, the prices that
# nobody at the desk has seen, and the changes since it was prepared

MOST = 5
"""So many contributions, and so many movers."""

AGGREGATE = 5
"""The depth of an elementary aggregate."""

CODE, TITLE, LEVEL, MONTH_CHANGE, ADDS = 0, 1, 5, 6, 8
"""Cells of a row of the whole table of a report."""


def heads_of(trial: Tried) -> tuple[Column, ...]:
    """The headings of contributions and movers, with the period of levels."""
    level = Column(trial.report.levels.name if trial.report.levels else _("level"), NUMBER)
    return (*columns("=code", "title"), level, *columns("#month %", "#adds, month"))


LOOKS = columns("=slot", "item", "outlet", "#change %", "#moves all items, about", "why")


class Signed(NamedTuple):
    """The content of the page: the sentence about all items, the report's cards, the sections, the open prices that
    need a reason, the changes since it was prepared (none if nothing changed), and a sum of those prices."""

    lead: Optional[Message]
    cards: list[Card]
    sections: list[Section]
    weighty: list[Look]
    changed: Optional[Message]
    seen: str


def signed_of(prepared: Prepared, trial: Tried, open_looks: Sequence[Look], reason_above: int) -> Signed:
    """The content of the page. `open_looks` are the prices that nobody has seen; the page asks for a reason for those
    that move all items by more than `reason_above` millionths of a point."""
    parts = {section.key: section for section in trial.report.sections}
    rows = [each for each in parts["table"].rows if depth_of(str(each[CODE])) == AGGREGATE] if "table" in parts else []
    sections = [parts["top"]] if "top" in parts else []
    sections += [largest(rows, heads_of(trial)), movers(rows, heads_of(trial)), open_section(open_looks)]
    sections += [since(prepared, trial)] if has_other_table(prepared, trial) else []
    weighty = [each for each in open_looks if abs(each.weight) > reason_above]
    shown = [[*each.slot, each.price] for each in weighty]
    return Signed(
        trial.report.lead, trial.report.cards, sections, weighty, find_changes(prepared, trial), sum_of(shown)
    )


def has_other_table(prepared: Prepared, trial: Tried) -> bool:
    """Whether the last trial's table differs from the prepared one."""
    return table_sum(trial.report.table) != prepared.table


def find_changes(prepared: Prepared, trial: Tried) -> Optional[Message]:
    """The changes since a freeze was prepared: if there are any, the freeze isn't sent."""
    says = list[Message]()
    if has_other_table(prepared, trial):
        says.append(_("The table differs from the prepared one."))
    if trial.closed and [each.code for each in trial.closed.named] != prepared.carry:
        says.append(_("The carry list has changed."))
    publishes = trial.state.window.publishes
    if prepared.publishes and publishes != prepared.publishes:
        places = {"then": moment_of(prepared.publishes), "now": moment_of(publishes)}
        says.append(_("The release time was {then}, and is now {now}.", **places))
    return sentences(*says, _("Discard the freeze, and prepare it again.")) if says else None


def largest(rows: Sequence[Sequence[Cell]], heads: tuple[Column, ...]) -> Section:
    """The aggregates that add most to the month's change of all items."""
    note = _("The contributions to the change in all items are in percentage points.")
    return Section("largest", _("The largest contributions"), note, heads, _first(rows, ADDS))


def movers(rows: Sequence[Sequence[Cell]], heads: tuple[Column, ...]) -> Section:
    """The aggregates with the largest monthly changes."""
    return Section("movers", _("What changed most"), "", heads, _first(rows, MONTH_CHANGE))


def _first(rows: Sequence[Sequence[Cell]], by: int) -> list[list[Cell]]:
    """The first rows by the size of a cell; rows whose cell is empty or zero are omitted."""
    sized = [(abs(float(str(each[by]))), each) for each in rows if each[by] not in ("", None)]
    chosen = sorted((pair for pair in sized if pair[0]), key=lambda pair: -pair[0])[:MOST]
    return [[each[CODE], each[TITLE], each[LEVEL], each[MONTH_CHANGE], each[ADDS]] for _size, each in chosen]


def open_section(looks: Sequence[Look]) -> Section:
    """The prices that nobody at the desk has seen, those first that move all items most."""
    rows: list[list[Cell]] = [
        [look.name, of_others(look.item), of_others(look.outlet), look.percent, points_of(look), row_of(look.why)]
        for look in looks
    ]
    title = _("Prices to look at that nobody has seen")
    note = _("The prices with the largest estimated effect on all items, in points, come first.")
    return Section("open", title, note, LOOKS, rows, _("None: somebody has seen each price."), shown=20)


def points_of(look: Look) -> str:
    """By how many points a price moves all items, about: its weight is what they would move by without it."""
    return decimal(-look.weight, 10**6, 3)


def since(prepared: Prepared, trial: Tried) -> Section:
    """The nodes whose figures differ from those that were prepared."""
    tables = prepared.text.encode(), trial.report.table
    # t: the heading of a column: a figure of the table that was prepared
    heads = (lambda name: _("prepared: {head}", head=name)), (lambda name: _("now: {head}", head=name))
    return beside(
        "since-prepared", _("What has changed since the freeze was prepared"), tables, heads, trial.report.levels
    )


# ==== The receipt of a freeze: the frozen month, who prepared and who confirmed it, and the figures of its table. It is
# a line of the desk's log, so its page exists as long as the log.

RECEIPT_LEVEL, RECEIPT_MONTH, RECEIPT_YEAR = 3, 4, 5
"""Cells of a row of a table: the chained index, and both changes in percent."""


class Figures(NamedTuple):
    """A node of the table: its code and title, its level in points with one decimal, its changes in percent, and its
    chained level if the level is of another period; what it hasn't is empty."""

    code: str
    title: str
    level: str
    month: str
    year: str
    chained: str = ""


class Receipt(NamedTuple):
    """The receipt of a freeze. Moments are in seconds since 1970 UTC; `table` is the SHA-256 of the office's table,
    `prepared` the SHA-256 of the confirmed one; `because` is why prices were left that nobody had seen, and `reasons`
    why the month was revised, in each language by its tag. `period` is the reference period of the levels, `first` the
    December in which chained levels are 100, a later one for some nodes if `is_later`; earlier receipts contain none of
    these.
    """

    month: int
    revision: int
    prepared_by: str
    prepared_at: int
    confirmed_by: str
    confirmed_at: int
    because: str
    carry: list[str]
    why: list[str]
    table: str
    prepared: str
    publishes: int
    figures: list[Figures]
    reasons: Mapping[str, str] = {}
    period: str = ""
    first: str = ""
    is_later: bool = False

    @property
    def section(self) -> Section:
        """All items and the divisions, as a table of the page."""
        chained = chained_name(self.first, self.is_later) if self.first else _("level")
        names = [level_name(self.period) if self.period else chained, _("month %"), _("year %")]
        names += [chained] if self.period else []
        ends = Column(_("code"), CODE_COLUMN), Column(_("title"), TEXT)
        heads = (*ends, *(Column(name, NUMBER) for name in names))
        rows: list[list[Cell]] = [[each.code, of_others(each.title), *each[2:][: len(names)]] for each in self.figures]
        return Section("figures", _("All items and divisions"), "", heads, rows)

    @property
    def lead(self) -> Optional[Message]:
        """The level of all items and its changes, in a sentence; None of a table without rows."""
        top = next((row for row in self.figures if row.code == ALL_ITEMS), None)
        if top is None:
            return None
        level, period = (top.level, self.period) if top.level else (top.chained, "")
        of = period or self.first
        named: dict[str, str] = {
            "level": with_period(level, of) if of else Figure(level),
            "month": _write_signed(top.month),
        }
        if top.year:
            named["annual"] = _write_signed(top.year)
        return changes(True, named)


def _write_signed(change: str) -> Figure:
    return Figure(change.replace("-", "\u2212"))


def receipt_of(prepared: Prepared, table: bytes, levels: Optional[Levels] = None) -> Receipt:
    """The receipt of a freeze that was confirmed and carried out, with the table that the office has of it, and its
    levels if they are known."""
    return Receipt(
        month=prepared.month,
        revision=prepared.revision,
        prepared_by=prepared.by,
        prepared_at=prepared.at,
        confirmed_by=prepared.confirmed_by,
        confirmed_at=prepared.confirmed_at,
        because=prepared.because,
        carry=prepared.carry,
        why=prepared.why,
        table=table_sum(table),
        prepared=prepared.table,
        publishes=prepared.publishes,
        figures=figures_of(table, levels),
        period=levels.reference if levels else "",
        first=levels.first if levels else "",
        is_later=bool(levels and levels.is_later),
        reasons=prepared.reasons,
    )


def figures_of(table: bytes, levels: Optional[Levels]) -> list[Figures]:
    """All items and the divisions of a table."""
    figures = list[Figures]()
    for code, row in rows_of(table).items():
        if depth_of(code) <= 1:
            chained = points(int(row[RECEIPT_LEVEL].replace(".", "")), 1)
            own = [levels.of(code), chained] if levels and levels.has_reference else [chained, ""]
            figures.append(Figures(code, row[-1], own[0], row[RECEIPT_MONTH], row[RECEIPT_YEAR], own[1]))
    return figures


class Kept(NamedTuple):
    """A receipt with its line of the log, and the sum of that line."""

    receipt: Receipt
    line: int
    sum: str


def keep(log: DeskLog, receipt: Receipt) -> Entry:
    """Writes a receipt into the log. Raises Fault."""
    what = f"{month_text(receipt.month)}, revision {receipt.revision}; table {receipt.table}"
    text = FROZEN_STEP.format(what=what, by=receipt.prepared_by)
    return log.append(receipt.confirmed_by, FROZEN, replies=[receipt._asdict()], text=text)


def find_receipt(log: DeskLog, month: int, revision: int) -> Optional[Kept]:
    """The receipt of a month's revision, if the log has one."""
    for entry in reversed(log.entries):
        if entry.what == FROZEN and entry.replies:
            cells = {**entry.replies[0]}
            if (cells["month"], cells["revision"]) == (month, revision):
                cells["figures"] = [Figures(*row) for row in cells["figures"]]
                return Kept(Receipt(**cells), entry.number, log.sum_of_line(entry.number))
    return None


# ==== the checklist before a freeze, from the last trial of the month

NOTHING = Worded("")


class Step(NamedTuple):
    """A step of the checklist: its name, its state, and whether that is right: None is for people to judge."""

    name: Message
    says: Worded
    is_good: Optional[bool]


def steps_of(month: int, trial: Tried) -> list[Step]:
    """The steps before a freeze, from the last trial."""
    window, closed = trial.state.window, trial.closed
    is_closed = time.time() >= window.closes
    closes = moment_of(window.closes)
    seen = desk().marks.seen_by(session().person, month)
    left = sum(price_of(month, look) not in seen for look in trial.looks)
    until = _("closed {moment}", moment=closes)
    steps = [
        Step(
            _("Window"),
            until if is_closed else _("open until {moment}: a freeze would be refused", moment=closes),
            is_closed,
        ),
        Step(_("Response"), response_of(trial), None),
        Step(_("Prices to look at"), looks_left(left, len(trial.looks)), not left),
    ]
    if trial.report.fault:
        steps.append(Step(_("Trial"), trial.report.fault, False))
    if closed:
        steps.append(Step(_("Carry list"), carry_list(len(closed.named)), not closed.named))
    return [*steps, embargo(trial.report.warnings)]


def response_of(trial: Tried) -> Worded:
    """The number of slots with a price."""
    for card in trial.report.cards:
        if card.name == "priced" and card.word:
            # t: how many percent of the slots have a price; slots is a text such as 8 of 10 slots
            return _("{percent} priced: {slots}", percent=Figure(card.figure), slots=card.word)
    return NOTHING


def looks_left(left: int, count: int) -> Message:
    """The number of prices that this person hasn't seen."""
    if not left:
        # t: all prices that are to be looked at
        return _("all seen")
    return _("{left} of {count} that you haven't seen", left=whole(left), count=whole(count))


def carry_list(count: int) -> Message:
    """The content of the carry list."""
    if not count:
        return _("empty: nothing needs to be carried")
    return message_of("{count} aggregate with nothing to compare", "{count} aggregates with nothing to compare", count)


def embargo(warnings: list[Message]) -> Step:
    """Whether a table comes out too early."""
    good = _("no table is published before the tables that it is computed from")
    return Step(_("Embargo"), sentences(*warnings) if warnings else good, not warnings)


# ==== the freeze compared with the office: whether it would still be the prepared one, and its receipt once the office
# has carried it out

CHANGED = _(
    "The office has changed since the freeze was prepared, so the table would be different: discard the freeze, and"
    " prepare it again."
)


def what_differs(prepared: Prepared) -> Worded:
    """Why a freeze now would differ from the prepared one, or nothing: it is tried again on a copy."""
    try:
        with desk().copies_now() as copy:
            closed = close(desk().cpi, copy.path, prepared.month, int(time.time()))
            with read_copy(copy.path) as office:
                publishes = state_of(office, prepared.month).window.publishes
    except Fault as fault:
        return _("The month can't be frozen now: {fault}", fault=says(fault))
    is_other = [named.code for named in closed.named] != prepared.carry or table_sum(closed.table) != prepared.table
    if is_other or prepared.publishes not in (0, publishes):
        return CHANGED
    return NOTHING


def finish(prepared: Prepared) -> None:
    """Keeps the receipt of a freeze that was carried out, lets the reason of a revision go out, and forgets the
    prepared freeze. Raises Fault if the log can't be written: then the next page of the month tries it again."""
    if find_receipt(desk().log, prepared.month, prepared.revision) is None:
        keep(desk().log, receipt_of(prepared, *frozen_table(prepared)))
    if prepared.reasons:
        of = (prepared.month, prepared.revision, prepared.publishes)
        desk().reasons.go_out(*of, prepared.reasons, prepared.confirmed_by)
    desk().prepared.drop()


def frozen_table(prepared: Prepared) -> tuple[bytes, Optional[Levels]]:
    """The table that the office has of a freeze, with its levels; if no copy can be read now, the confirmed table."""
    with contextlib.suppress(Fault), desk().copies_now() as copy:
        with read_copy(copy.path) as office:
            state = state_of(office, prepared.month)
        with private_copy(copy.path) as own:
            table = as_frozen(desk().cpi, own, state, tuple(prepared.carry)).table
        reference = desk().site_config.reference_in(month_text(prepared.month))
        known = known_levels(desk().trials.latest(prepared.month))
        return table, levels_now(desk().cpi, copy.path, prepared.month, table, reference, known)
    return prepared.text.encode(), None

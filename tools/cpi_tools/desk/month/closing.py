"""`cpi-tools desk close`: the aggregates to check, the whole carry list, and the one record that freezes a month."""

from __future__ import annotations

from collections.abc import Callable, Iterable, Iterator, Sequence
from pathlib import Path
from typing import NamedTuple, Optional

from ...office.copying import private_copy
from ...office.price_rules import ONE, Pairs, dutot, jevons
from ...office.program import Cpi, record
from ...office.quote_marks import mark_text, marks_of
from ...office.stored import Series, read_copy
from ...office.trial import Frozen as FrozenMonth, State, freeze_on_copy, state_of
from ...text.exact import decimal
from ...text.message import Cell, Message, Section, columns, message as _, message, month_of, said_as, whole
from ...text.others import of_others
from ...text.terminal import Fault, month_text, time_text, write_count
from . import response
from .facts import Facts
from .response import PLACE, percent
from .what_if import Early, early_tables


# ==== aggregates to check: small ones, imputed ones, those on the carry list, and those that may not be homogeneous
#
# The prices that count for a series are read from a copy that the program froze. Next to it are shares, and geometric
# means of the same prices, which aren't published.

# ---- small, imputed, carried


def small(facts: Facts, least: int) -> Section:
    """The aggregates with fewer priced series or outlets than `least`."""
    rows: list[list[Cell]] = []
    for code, sample in facts.samples.items():
        priced = [it for it in sample if facts.carried_prices[it].observed]
        outlets = {facts.holder[it].outlet for it in priced}
        if len(priced) < least or len(outlets) < least:
            weight = facts.rows[code].weight
            rows.append([code, facts.title(code), weight, len(sample), len(priced), len(outlets)])
    note = message(
        "These aggregates have fewer than {count} priced series or outlets: a single shop can move their index, and"
        " the published index reveals it.",
        count=whole(least),
    )
    names = columns("=aggregate", "title", "#weight", "#series", "#priced", "#outlets")
    return Section("small", message("Small aggregates"), note, names, rows, is_open=False)


def imputed_parts(facts: Facts, codes: Iterable[str]) -> tuple[int, int]:
    """Parts of the weight in use whose prices are imputed, in millionths, and the weight in all: each aggregate by the
    imputed share of what its series count as."""
    parts = weight = 0
    for code in codes:
        carried = [facts.carried_prices[sample] for sample in facts.samples[code]]
        moved = sum(price.ticks for price in carried if price.imputed)
        parts += facts.rows[code].weight * moved * 10**6 // sum(price.ticks for price in carried)
        weight += facts.rows[code].weight
    return parts, weight


def imputed_percent(facts: Facts, codes: Iterable[str]) -> str:
    """The imputed share by weight, in percent with one decimal."""
    parts, weight = imputed_parts(facts, codes)
    return percent(parts, weight * 10**6)


def report_imputed(facts: Facts) -> Section:
    """Imputed prices by division, by count and by weight."""
    rows: list[list[Cell]] = []
    for division in sorted({code[:2] for code in facts.samples}):
        codes = [code for code in facts.samples if code[:2] == division]
        series = [facts.carried_prices[sample] for code in codes for sample in facts.samples[code]]
        count = sum(price.imputed for price in series)
        counts: list[Cell] = [len(series), count, percent(count, len(series))]
        weight = facts.rows[division].weight
        rows.append([division, facts.title(division), *counts, weight, imputed_percent(facts, codes)])
    note = message(
        "For the percentage by weight, each aggregate's weight in use is multiplied by the imputed share of its"
        " series' carried prices."
    )
    names = columns("=division", "title", "#series", "#imputed", "#percent", "#weight", "#percent by weight")
    return Section("imputed", message("Imputed prices"), note, names, rows)


def carry(facts: Facts, codes: Iterable[str]) -> Section:
    """The aggregates of a carry list, with their findings in this month and in the one before."""
    rows: list[list[Cell]] = []
    for code in codes:
        sample = facts.samples.get(code, [])
        then, now = (marks_of(sample, quotes) for quotes in (facts.frozen_before, facts.frozen))
        outlets = {facts.holder[sample].outlet for sample in sample}
        rows.append([code, facts.title(code), facts.rows[code].weight, len(sample), len(outlets), then, now])
    note = message(
        "No price in these aggregates can be compared with the previous month: the"
        " freeze is refused until the list contains each of them."
    )
    names = columns("=aggregate", "title", "#weight", "#series", "#outlets", "month before", "now")
    return Section("carry", message("The carry list"), note, names, rows, message("Empty: the freeze needs no entry."))


def carry_series(facts: Facts, codes: Iterable[str]) -> Section:
    """Each series of the aggregates of a carry list."""
    rows: list[list[Cell]] = []
    for code in codes:
        for series in facts.samples.get(code, []):
            place = facts.place_cells(facts.holder[series])
            then, now = facts.frozen_before.get(series), facts.frozen.get(series)
            rows.append([place[0], code, *place[2:], mark_text(then), mark_text(now)])
    note = message(
        "These are the entries for each series. If a price still comes in for one of"
        " them, its aggregate may not need to be on the list."
    )
    names = columns(*PLACE, "month before", "now")
    return Section("carry-series", message("Series of the carry list"), note, names, rows, is_open=False)


# ---- homogeneity


def homogeneity(facts: Facts) -> Section:
    """Dutot and Jevons for each aggregate, the widest gap of the year first."""
    pairs = [(code, sample, *pairs_of(facts, code, sample)) for code, sample in facts.samples.items()]
    rows: list[list[Cell]] = []
    for code, sample, month, year in sorted(pairs, key=lambda pair: -abs(gap(pair[3]) or 0)):
        ticks = [facts.carried_prices[it].ticks for it in sample]
        spread = decimal(max(ticks), min(ticks), 1)
        rows.append([code, facts.title(code), len(sample), len(month), spread, *means(month), *means(year)])
    note = message(
        "These figures are computed in addition to the index, and aren't published. They show how prices moved, as measured"
        " by the geometric mean of their ratios (Jevons), and how far the ratio of sums that the index uses (Dutot) is"
        " from it. A wide spread of prices with a wide gap shows that the aggregate isn't homogeneous: split it in the"
        " next plan."
    )
    names = columns(
        *("=aggregate", "title", "#series", "#matched", "#dearest / cheapest"),
        *("#Dutot, month", "#Jevons, month", "#gap, month", "#Dutot, year", "#Jevons, year", "#gap, year"),
    )
    return Section("homogeneity", message("Dutot compared with Jevons"), note, names, rows, is_open=False, shown=25)


def pairs_of(facts: Facts, code: str, sample: Sequence[Series]) -> tuple[Pairs, Pairs]:
    """The matched series' values, compared with the month before; and the whole sample, compared with its bases."""
    now, then, bases = facts.carried_prices, facts.counted_before, facts.bases
    month = [(now[match].ticks, then[match]) for match in facts.find_matches(code) if match in then]
    return month, [(now[series].ticks, bases[series]) for series in sample if series in bases]


def gap(pairs: Pairs) -> Optional[int]:
    """The difference between the Dutot index and the Jevons index."""
    return dutot(pairs) - jevons(pairs) if pairs else None


def means(pairs: Pairs) -> list[str]:
    """Dutot's and Jevons' changes and the gap between them, in percent."""
    if not pairs:
        return ["", "", ""]
    sums, geometric = dutot(pairs), jevons(pairs)
    return [decimal(100 * change, ONE, 2) for change in (sums - ONE, geometric - ONE, sums - geometric)]


# ==== `cpi-tools desk close`: the whole carry list of a month, who decided on it, and the one record that freezes it
#
# The month is frozen on a copy, which names every code. Nothing is sent to the office.

Answer = Callable[[str], str]
"""Shows a question, and gives the line that answers it."""


class Named(NamedTuple):
    """An aggregate in which nothing can be compared: its series' findings in few words, and each finding."""

    code: str
    title: str
    marks: str
    series: Section


class Closed(NamedTuple):
    """A month as it was frozen on a copy: what the refusals named, the rows of its table, how many slots are priced,
    the tables that come out too early, and the bytes of its own."""

    month: int
    closes: int
    revision: int
    named: list[Named]
    rows: int
    priced: int
    slots: int
    early: list[Early]
    table: bytes


class Decision(NamedTuple):
    """A decision to carry an aggregate, and the reason."""

    code: str
    title: str
    because: str


class NotClosed(Fault):
    """A month that can't be closed as it is asked; one line."""


def close(cpi: Cpi, office_copy: Path, month: int, at: int) -> Closed:
    """Freezes a month on a further copy, when its window closes or at a later moment.

    Raises NotClosed if it is frozen, Refused if the freeze is refused for anything that can't be carried.
    """
    with read_copy(office_copy) as office:
        state = state_of(office, month)
        early = early_tables(office, state, at)
    if state.is_frozen:
        raise NotClosed(_is_frozen(state))
    closes = state.window.closes
    with private_copy(office_copy) as copy:
        frozen = freeze_on_copy(cpi, copy, state, max(at, closes))
        with read_copy(copy) as office:
            return closed_of(Facts(office, month, frozen), closes, frozen, early)


def _is_frozen(state: State) -> Message:
    """Why a month isn't closed that is frozen."""
    places = {"month": month_of(state.month), "revision": whole(state.revision)}
    return said_as(
        f"{month_text(state.month)} is frozen, revision {state.revision}: reopen it to freeze it again",
        _("{month} is frozen, revision {revision}: reopen it to freeze it again.", **places),
    )


def closed_of(facts: Facts, closes: int, frozen: FrozenMonth, early: list[Early]) -> Closed:
    """A month that was frozen on a copy, whose facts these are."""
    named, count = [named_of(facts, code) for code in frozen.carry], response.in_all(facts)
    counts = (len(facts.rows), count.with_price, count.slots)
    return Closed(facts.month, closes, frozen.revision, named, *counts, early, frozen.table)


def named_of(facts: Facts, code: str) -> Named:
    """The text about an aggregate that a refusal named."""
    title = facts.title(code)
    series = carry_series(facts, [code])._replace(title=of_others(f"{code} {title}"))
    return Named(code, title, marks_of(facts.samples[code], facts.frozen), series)


# ---- decisions


def decide(closed: Closed, at: int, allowed: Optional[Sequence[str]], ask: Optional[Answer]) -> list[Decision]:
    """The decision on each aggregate that was named.

    `allowed` are the codes that may be carried, None all of them; `ask` is asked for each, None nobody. Raises
    NotClosed if one may not be carried, or if the window is open at the moment `at`.
    """
    others = [it.code for it in closed.named if allowed is not None and it.code not in allowed]
    if others:
        raise NotClosed(f"nothing can be compared in {', '.join(others)} either: name it too, or wait for a price")
    if at < closed.closes:
        raise NotClosed(f"the window is open until {time_text(closed.closes)}: ask for the record from then on")
    return [decision_on(it, ask) for it in closed.named]


def decision_on(it: Named, ask: Optional[Answer]) -> Decision:
    """The decision to carry an aggregate. Raises NotClosed for any other answer."""
    because = f"nothing to compare: {it.marks}"
    if ask is None:
        return Decision(it.code, it.title, because)
    word, _, why = ask(f"Carry {it.code} {it.title}? y and why, or n: ").strip().partition(" ")
    if word != "y":
        raise NotClosed(f"{it.code} isn't carried, so the month can't be frozen: wait for a price, or ask again")
    return Decision(it.code, it.title, why.strip() or because)


def closing_lines(
    closed: Closed, decisions: Sequence[Decision], by: Optional[str], allowed: Optional[Sequence[str]] = None
) -> Iterator[str]:
    """The note on a month that is closed: which table comes out too early, who decided what and why, which codes need
    no place on the list though they may be carried, and what its table will be."""
    yield from (f"Warning: {early_release}" for early_release in closed.early)
    for decision in decisions:
        yield f"carried: {decision.code} {decision.title}; {decision.because}{f'; decided by {by}' if by else ''}"
    for code in sorted({*(allowed or ())} - {decision.code for decision in decisions}):
        yield f"not carried: {code}; the freeze isn't refused for it"
    yield (
        f"{month_text(closed.month)}, revision {closed.revision}: {write_count(closed.rows, 'row')}, {closed.priced:,} of"
        f" {write_count(closed.slots, 'slot')} priced, {write_count(len(decisions), 'aggregate')} carried"
    )


def freeze_record(closed: Closed, at: int) -> str:
    """The one record to send."""
    return record(at, "desk", "freeze", month_text(closed.month), *(it.code for it in closed.named))

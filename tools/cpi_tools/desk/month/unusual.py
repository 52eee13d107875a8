"""Prices to check: those that are unusual, and those without which the level of all items would be another."""

from __future__ import annotations

from collections import defaultdict
from collections.abc import Iterator, Mapping, Sequence
from fractions import Fraction
from pathlib import Path
from typing import NamedTuple, Optional

from ...office.copying import private_copy
from ...office.program import LAST_MOMENT, Cpi, Session
from ...office.public import Listed, Published
from ...office.stored import Assignment, Series, Window
from ...office.tables import Row, table_of
from ...office.trial import MOST_REVISIONS, Record, State, calendar_record, frozen_with, must, print_table
from ...text.exact import ALL_ITEMS, decimal, depth_of, points, round_ratio
from ...text.message import Cell, Figure, Message, Price, Section, columns, message, price_of, row, whole
from ...text.terminal import Fault, month_text
from .facts import Facts, Ratio
from .response import PLACE


# ==== the level of all items without a quote: the program freezes the month on copies, without some quotes
#
# Aggregates don't touch each other below the mean, so that one freeze leaves out a quote in each of several: the
# program says the index of each of these aggregates, and the mean of all items is taken of its table's rows with one
# index put in place of another. First it checks that the mean of the unchanged rows is the program's own.
#
# An estimate in whole numbers says which quotes to try; no reported figure is an estimate.

AGGREGATE = 5
"""The depth of an elementary aggregate."""

Round = dict[str, Series]
"""The quotes that one freeze leaves out: at most one of each aggregate."""


class Left(NamedTuple):
    """A quote that was left out: the index of its aggregate and of all items without it, in millionths of a point."""

    series: Series
    code: str
    aggregate: int
    all_items: int


# ---- which to try


def estimates(facts: Facts, code: str) -> Iterator[tuple[int, Series]]:
    """The estimated effect of each comparable quote of an aggregate on all items, in millionths of a point."""
    now, then, sample = facts.carried_prices, facts.counted_before, facts.samples[code]
    matched = set(facts.find_matches(code))
    up, down = sum(now[match].ticks for match in matched), sum(then[match] for match in matched)
    moved = sum(then[it] for it in sample if now[it].imputed)
    scale = facts.rows[code].weight * 10**8
    base = sum(facts.bases[it] for it in sample) * facts.rows[ALL_ITEMS].weight
    for it in facts.comparable(code):
        ticks, before = now[it].ticks, then[it]
        if it not in matched:
            over, under = (up, down) if matched else (1, 1)
            yield scale * (before * over - ticks * under) // (base * under), it
            continue
        over, under = (up - ticks, down - before) if len(matched) > 1 else (1, 1)
        change = (before * over - ticks * under) * down + moved * (over * down - up * under)
        yield scale * change // (base * under * down), it


def candidates(facts: Facts, count: int) -> list[Series]:
    """The quotes that move all items most, by the estimate."""
    samples = [each for code in facts.samples for each in estimates(facts, code)]
    return [series for _, series in sorted(samples, key=lambda sample: (-abs(sample[0]), sample[1]))[:count]]


def rounds_of(facts: Facts, chosen: Sequence[Series]) -> list[Round]:
    """The chosen quotes, in as few freezes as have one of each aggregate at most."""
    rounds: list[Round] = []
    for series in chosen:
        code = facts.code(facts.carried_prices[series].item)
        free = next((each for each in rounds if code not in each), None)
        if free is None:
            rounds.append({code: series})
        else:
            free[code] = series
    return rounds


# ---- the freezes


class Trial(NamedTuple):
    """The place for leaving out quotes: the program, a copy on which the month isn't frozen, the time of its freeze,
    and its current carry list."""

    cpi: Cpi
    copy: Path
    state: State
    at: int
    carry: tuple[str, ...]

    @property
    def room(self) -> int:
        """The number of freezes that are possible on one copy: the revisions that the month has left."""
        return max(1, min(MOST_REVISIONS - self.state.revision, LAST_MOMENT - self.state.window.publishes))


def left_out(facts: Facts, trial: Trial, count: int) -> list[Left]:
    """The `count` most influential quotes, each left out, the greatest effect first."""
    rounds, remainders = rounds_of(facts, candidates(facts, count)), list[Left]()
    for start in range(0, len(rounds), trial.room):
        with private_copy(trial.copy) as copy, trial.cpi.session(copy) as session:
            for turn, each in enumerate(rounds[start : start + trial.room]):
                remainders += left_of(facts, each, rows_without(session, facts, trial, each, turn))
    return sorted(
        remainders, key=lambda remainder: (-abs(facts.rows[ALL_ITEMS].within - remainder.all_items), remainder.series)
    )


def rows_without(session: Session, facts: Facts, trial: Trial, each: Round, turn: int) -> Mapping[str, Row]:
    """Makes the quotes of a round missing, freezes, and puts them back; the rows of the table."""
    window, month = trial.state.window, month_text(trial.state.month)
    window = window._replace(publishes=window.publishes + turn)
    if turn:
        must(session, calendar_record(window))
    for series in each.values():
        must(session, quote_record(facts, window, series, "missing", "refused"))
    frozen_with(session, window.month, trial.at, [*{*trial.carry, *each}])
    listed = Listed(month, trial.state.revision + 1 + turn, window.publishes)
    rows = table_of(Published(listed, print_table(session, listed))).rows
    for series in each.values():
        stood = facts.frozen[series]
        must(session, quote_record(facts, window, series, stood.mark, stood.value, "confirm"))
    return rows


def quote_record(facts: Facts, window: Window, series: Series, *sent: object) -> Record:
    """The record that the collector of a series in the month sends for it."""
    record = facts.holder[series]
    return [window.opens, facts.keys[record.collector], "quote", record.slot, month_text(window.month), *sent]


def left_of(facts: Facts, each: Round, without: Mapping[str, Row]) -> Iterator[Left]:
    """The results for each quote of a round, from the rows without these quotes."""
    rows = [row for code, row in facts.rows.items() if depth_of(code) == AGGREGATE]
    total, weight = sum(row.weight * row.within for row in rows), sum(row.weight for row in rows)
    if round_ratio(total, weight) != facts.rows[ALL_ITEMS].within:
        raise Fault("the index of all items isn't the mean of its aggregates")
    for code, series in each.items():
        now, then = facts.rows[code], without[code]
        all_items = round_ratio(total + now.weight * (then.within - now.within), weight)
        yield Left(series, code, then.within, all_items)


# ---- the section


# t: of a price that is left out: its aggregate has nothing else to compare
CARRIED = message("carried")


def influence(facts: Facts, left: Sequence[Left]) -> Section:
    """The quotes that were left out, and what they move."""
    rows: list[list[Cell]] = []
    for remainder in left:
        last = facts.last.get(facts.holder[remainder.series][:2])
        price = [price_of(last), Price(facts.frozen[remainder.series].value)]
        moves = [
            facts.rows[ALL_ITEMS].within - remainder.all_items,
            facts.rows[remainder.code].within - remainder.aggregate,
        ]
        moved = [decimal(each, 10**6, digits) for each, digits in zip(moves, (4, 2))]
        alone = CARRIED if facts.find_matches(remainder.code) == [remainder.series] else ""
        rows.append(
            [*facts.place_cells(facts.holder[remainder.series]), *price, points(remainder.all_items), *moved, alone]
        )
    note = message(
        "The program froze the month once for each of these quotes, without that quote. The columns show the index of"
        " all items without the quote, and by how many points the quote moves all items and its aggregate. The note"
        " 'carried' means that nothing else in the aggregate could be compared."
    )
    names = columns(
        *PLACE, "#last price", "#price", "#all items without", "#moves all items", "#moves aggregate", "note"
    )
    empty = message("No trials were run: the month is frozen, or nothing can be compared.")
    return Section("influence", message("The quotes that move all items most"), note, names, rows, empty)


# ==== prices to check: those outside the tolerance, changes outside Tukey's fences of their aggregate, those that
# nothing else of their aggregate is compared with, and replacements of another quality
#
# The fences come from the Consumer Price Index Manual: price ratios of 1 aside, and the lowest and the highest
# twentieth of the others aside, the mean of the rest is the middle; the means of what lies below and above it are the
# two half middles; and the fences lie some times their distances from the middle away. Ratios are in ten-thousandths.

ONE = 10_000
"""A ratio of 1."""

LEAST_RATIOS = 4
"""Fewer changes make no fences."""

TWENTIETH = 20

PERCENT_OF_WIDTH = 250
"""The distance of the fences, in percent of the distances of the half middles from the middle."""


class Fences(NamedTuple):
    """The least and the greatest ratio that isn't unusual, in ten-thousandths."""

    low: Fraction
    high: Fraction

    def hold(self, ratio: int) -> bool:
        """Whether a ratio lies within."""
        return self.low <= ratio <= self.high


def fences_of(ratios: Sequence[int], width: int = PERCENT_OF_WIDTH) -> Optional[Fences]:
    """The fences of some ratios that aren't 1; None if there are too few. `width` is in percent."""
    if len(ratios) < LEAST_RATIOS:
        return None
    aside = len(ratios) // TWENTIETH
    kept = sorted(ratios)[aside : len(ratios) - aside]
    middle = Fraction(sum(kept), len(kept))
    below, above = [ratio for ratio in kept if ratio < middle], [ratio for ratio in kept if ratio > middle]
    if not below or not above:
        return Fences(middle, middle)
    low, high = (Fraction(sum(part), len(part)) for part in (below, above))
    times = Fraction(width, 100)
    return Fences(middle - times * (middle - low), middle + times * (high - middle))


def in_ten_thousandths(ratio: Ratio) -> int:
    """A ratio of two prices."""
    return round_ratio(ONE * ratio.price, ratio.last)


# t: why a price is to be looked at again
OF_AGGREGATE, OF_DIVISION = message("outside the fences of its aggregate"), message(
    "outside the fences of its division"
)
# t: why a price is to be looked at again: it was sent with the confirm button
CONFIRMED = message("confirmed")
ALONE = message("the only compared price in its aggregate")
OTHER = message("a replacement of different quality")


class Unusual(NamedTuple):
    """A price to check: its collector, the last price if it has one and this one, in minor units, and why."""

    slot: Assignment
    last: Optional[int]
    price: int
    why: list[Message]

    @property
    def percent(self) -> str:
        """The change as a text; empty if the prices can't be compared."""
        if not self.last or OTHER in self.why:
            return ""
        return decimal(100 * (self.price - self.last), self.last, 1)


class Usual:
    """The fences of each aggregate, and of each division for aggregates with too few changes."""

    def __init__(self, facts: Facts, width: int):
        groups: dict[str, list[int]] = defaultdict(list)
        for each in facts.ratios:
            ratio, code = in_ten_thousandths(each), facts.code(each.slot.item)
            if ratio != ONE:
                groups[code].append(ratio)
                groups[code[:2]].append(ratio)
        self._fences = {key: fences_of(ratios, width) for key, ratios in groups.items()}

    def why_not(self, code: str, ratio: int) -> Iterator[Message]:
        """The reason if a ratio lies outside the fences of its aggregate or division."""
        for key, words in ((code, OF_AGGREGATE), (code[:2], OF_DIVISION)):
            fences = self._fences.get(key)
            if fences:
                if ratio != ONE and not fences.hold(ratio):
                    yield words
                return


def is_within_tolerance(facts: Facts, ratio: Ratio) -> bool:
    """Whether a price lies within its item's tolerance of the last price. One that doesn't was confirmed."""
    item = facts.items[ratio.slot.item]
    return -(-ratio.last * item.low // 1000) <= ratio.price <= ratio.last * item.high // 1000


def why_unusual(facts: Facts, usual: Usual, ratio: Ratio) -> list[Message]:
    """Why a price needs another check, if it does."""
    confirmed = [] if is_within_tolerance(facts, ratio) else [CONFIRMED]
    return [*confirmed, *usual.why_not(facts.code(ratio.slot.item), in_ten_thousandths(ratio))]


def to_look_at(facts: Facts, width: int) -> list[Unusual]:
    """The prices of a month to check: those that can be compared, then replacements of another quality; `width` is the
    fences' width, in percent."""
    return [*_unusual(facts, width), *_find_replaced(facts)]


def _unusual(facts: Facts, width: int) -> Iterator[Unusual]:
    usual = Usual(facts, width)
    alone = {facts.find_matches(code)[0] for code in facts.samples if len(facts.find_matches(code)) == 1}
    for ratio in facts.ratios:
        why = why_unusual(facts, usual, ratio)
        why += [ALONE] if ratio.slot.series in alone and len(facts.samples[facts.code(ratio.slot.item)]) > 1 else []
        if why:
            yield Unusual(ratio.slot, ratio.last, ratio.price, why)


def _find_replaced(facts: Facts) -> Iterator[Unusual]:
    for slot in facts.slots:
        quote = facts.quote(slot)
        if quote and quote.mark == "other":
            yield Unusual(slot, facts.last.get(slot[:2]), quote.value, [OTHER])


def outliers(facts: Facts, width: int) -> Section:
    """The prices to check, the greatest changes first."""
    greatest = sorted(to_look_at(facts, width), key=lambda unusual_price: -_change(unusual_price))
    rows: list[list[Cell]] = [
        [
            *facts.place_cells(unusual_price.slot),
            None if unusual_price.last is None else Price(unusual_price.last),
            Price(unusual_price.price),
            unusual_price.percent,
            row(unusual_price.why),
        ]
        for unusual_price in greatest
    ]
    note = message(
        "A price outside its item's tolerance is stored only if it was confirmed. The fences are Tukey's: they"
        " are computed from the price ratios in an aggregate that differ from 1 (or in its division, if the aggregate"
        " has fewer than {least}). Each fence is {times} times as far from the mean of the ratios as the mean of the"
        " ratios on its side.",
        least=whole(LEAST_RATIOS),
        times=Figure(decimal(width, 100, 1)),
    )
    names = columns(*PLACE, "#last price", "#price", "#percent", "why")
    return Section("outliers", message("Prices to look at"), note, names, rows)


def _change(unusual_price: Unusual) -> int:
    """The distance of a price from the last one, in ten-thousandths; less than 0 if they can't be compared."""
    return (
        abs(in_ten_thousandths(Ratio(unusual_price.slot, unusual_price.last, unusual_price.price)) - ONE)
        if unusual_price.percent and unusual_price.last
        else -1
    )

"""The response: slots priced, missing by reason and silent; and samples that are priced too seldom to be compared."""

from __future__ import annotations

from collections import Counter, defaultdict
from collections.abc import Callable, Iterable, Iterator, Mapping, Sequence
from typing import Optional, TypeVar

from ...office.quote_marks import SILENT, mark_words, marks_of
from ...office.stored import COMPARABLE, OBSERVED, REASONS, Assignment, Quote
from ...text.exact import decimal
from ...text.message import Cell, Price, Section, columns, heads, message, month_of, price_of, whole
from ...text.terminal import month_before, month_text
from .facts import NO_PLACE, Facts


# ==== the response: slots priced, missing by reason and silent, by collector, outlet and division; and collectors who
# have been missing for long
#
# Nothing here depends on a freeze.

Key = TypeVar("Key", int, str)


def percent(part: int, whole: int) -> str:
    """A share in percent with one decimal; empty if there is no whole."""
    return decimal(100 * part, whole, 1) if whole else ""


class Count:
    """The number of slots, and the entries for them."""

    def __init__(self) -> None:
        self.slots = 0
        self.marks: Counter[str] = Counter()

    def add(self, quote: Optional[Quote]) -> None:
        """Counts a slot."""
        self.add_many(quote.mark if quote else SILENT, 1)

    def add_many(self, mark: str, count: int) -> None:
        """Counts some slots with one mark."""
        self.slots += count
        self.marks[mark] += count

    @property
    def with_price(self) -> int:
        """Slots with a price, of a replacement too."""
        return sum(self.marks[mark] for mark in OBSERVED)

    @property
    def missing(self) -> int:
        """Slots that were sent as missing, with a reason."""
        return sum(self.marks[reason] for reason in REASONS)

    def cells(self) -> list[Cell]:
        """The cells under RESPONSE."""
        replaced = [self.marks["comparable"], self.marks["other"]]
        return [
            self.slots,
            self.with_price,
            percent(self.with_price, self.slots),
            *replaced,
            self.missing,
            self.marks[SILENT],
        ]


RESPONSE = heads("#slots", "#priced", "#percent", "#comparable", "#other", "#missing", "#silent")


def counts(facts: Facts, key: Callable[[Assignment], Key]) -> dict[Key, Count]:
    """The counts of the slots by something of them, in its order."""
    counts: dict[Key, Count] = defaultdict(Count)
    for slot in facts.slots:
        counts[key(slot)].add(facts.quote(slot))
    return dict(sorted(counts.items()))


def in_all(facts: Facts) -> Count:
    """The count of all slots."""
    return counts(facts, lambda fact: 0).get(0, Count())


def weigh(facts: Facts, codes: Iterable[str]) -> tuple[int, int]:
    """Parts of the plan's weight that are priced, in millionths, and the weight in all: each aggregate by the share of
    its slots that have a price."""
    return weighted_by(
        counts(facts, lambda fact: facts.code(fact.item)), facts.plan.weights if facts.plan else {}, codes
    )


def weighted_by(by_code: Mapping[str, Count], weights: Mapping[str, int], codes: Iterable[str]) -> tuple[int, int]:
    """The priced parts of the weight, and the weight in all, from counts by aggregate and the weights of a plan."""
    known = [(weights[code], by_code[code]) for code in codes if code in by_code and code in weights]
    parts = sum(weight * count.with_price * 10**6 // count.slots for weight, count in known)
    return parts, sum(weight for weight, _ in known)


def weighted_percent(facts: Facts, codes: Iterable[str]) -> str:
    """The priced share by weight, in percent with one decimal."""
    parts, weight = weigh(facts, codes)
    return percent(parts, weight * 10**6)


def most_silent(rows: list[list[Cell]]) -> list[list[Cell]]:
    """Rows that end with RESPONSE, those with most silent slots first, then those with most missing."""
    return sorted(rows, key=lambda row: (-int(row[-1] or 0), -int(row[-2] or 0), str(row[0]).zfill(9)))


# ---- sections


def by_collector(facts: Facts) -> Section:
    """The response by collector."""
    rows: list[list[Cell]] = [
        [number, *count.cells()] for number, count in counts(facts, lambda fact: fact.collector).items()
    ]
    names, note = columns("#collector", *RESPONSE), message("Those with the most slots without a response come first.")
    return Section("collectors", message("Response by collector"), note, names, most_silent(rows))


def by_outlet(facts: Facts) -> Section:
    """The response by outlet."""
    found = counts(facts, lambda fact: fact.outlet)
    rows: list[list[Cell]] = [[number, facts.outlets[number], *count.cells()] for number, count in found.items()]
    names, note = columns("#outlet", "name", *RESPONSE), message(
        "Those with the most slots without a response come first."
    )
    return Section("outlets", message("Response by outlet"), note, names, most_silent(rows), is_open=False, shown=30)


def by_division(facts: Facts) -> Section:
    """The response by division, by weight too."""
    found = counts(facts, lambda fact: facts.code(fact.item)[:2])
    codes = {facts.code(slot.item) for slot in facts.slots} - {NO_PLACE}
    rows: list[list[Cell]] = [
        [code, facts.title(code), *count.cells(), weighted_percent(facts, [each for each in codes if each[:2] == code])]
        for code, count in found.items()
    ]
    note = message(
        "A slot counts in the division in which the year's plan places its item. For the percentage by weight, each"
        " aggregate's weight in the plan is multiplied by the share of its slots that have a price."
    )
    names = columns("=division", "title", *RESPONSE, "#percent by weight")
    return Section("divisions", message("Response by division"), note, names, rows)


def by_reason(facts: Facts) -> Section:
    """The entries for missing prices, by division and reason."""
    found = counts(facts, lambda fact: facts.code(fact.item)[:2])
    rows: list[list[Cell]] = [
        [code, facts.title(code), *(count.marks[reason] for reason in REASONS), count.missing]
        for code, count in found.items()
        if count.missing
    ]
    names = columns("=division", "title", *(f"#{reason}" for reason in REASONS), "#all")
    note = message("These reasons were sent for slots without a price.")
    return Section("missing", message("Missing, by reason"), note, names, rows)


PLACE = heads("slot", "=aggregate", "item", "outlet")


def silent(facts: Facts) -> Section:
    """The slots for which nothing was sent."""
    rows: list[list[Cell]] = [
        [*facts.place_cells(slot), price_of(facts.last.get(slot[:2]))]
        for slot in facts.slots
        if facts.quote(slot) is None
    ]
    note = message("Nothing was sent for these slots. The freeze counts them as missing.")
    names, empty = columns(*PLACE, "#last price"), message("Something was sent for every slot.")
    return Section("silent", message("Still silent"), note, names, rows, empty, is_open=False)


# t: of a series: no price of it was ever found
NEVER = message("never")


def long_missing(facts: Facts) -> Section:
    """Slots without a price now and in the month before, with the month in which their series was observed last."""
    before, seen = month_before(facts.month), facts.office.months_of_last_prices(facts.month)
    rows: list[list[Cell]] = []
    for slot in facts.slots:
        quote, last = facts.quote(slot), seen.get(slot.series, 0)
        is_new = slot.first_month == facts.month and slot.series == slot[:2]
        if not facts.is_priced(slot) and last < before and not is_new:
            now = mark_words(quote.mark if quote else SILENT)
            rows.append([*facts.place_cells(slot), now, month_of(last) if last else NEVER])
    rows.sort(key=lambda row: (row[-1] != NEVER, str(row[-1])))
    note = message(
        "These slots have no price in this month or in the previous one. Ask for a"
        " replacement, or let the series end."
    )
    names = columns(*PLACE, "now", "last priced")
    return Section("long-missing", message("Missing for two months or more"), note, names, rows, is_open=False)


def report_gone(facts: Facts) -> Section:
    """Slots whose latest word is `gone`: nothing took the place of what went."""
    rows: list[list[Cell]] = [[*facts.place_cells(slot), month_of(month)] for slot, month in gone_slots(facts)]
    note = message("The last entry for these slots is 'gone', and no replacement has come since.")
    names = columns(*PLACE, "sent for")
    return Section("gone", message("Gone without a replacement"), note, names, rows, is_open=False)


def gone_slots(facts: Facts) -> Iterator[tuple[Assignment, int]]:
    """Each of them, and the month of the word."""
    latest = facts.office.latest_quotes(facts.month)
    for slot in facts.slots:
        month, mark = latest.get(slot[:2], (0, ""))
        if mark == "gone":
            yield slot, month


def replacements(facts: Facts) -> Section:
    """The prices of replacements."""
    rows: list[list[Cell]] = []
    for slot in facts.slots:
        quote = facts.quote(slot)
        if quote and quote.mark in ("comparable", "other"):
            carried = facts.carried_prices.get(slot.series)
            scale = decimal(carried.knum, carried.kden * 10_000, 4) if carried else ""
            last, price = price_of(facts.last.get(slot[:2])), Price(quote.value)
            rows.append([*facts.place_cells(slot), last, mark_words(quote.mark), price, scale])
    note = message(
        "A replacement marked 'other' enters the index without moving it; its scale shows what one unit of its price"
        " counts as."
    )
    names = columns(*PLACE, "#last price", "mark", "#price", "#scale")
    return Section("replacements", message("Replacements"), note, names, rows, is_open=False)


# ==== samples that are priced too seldom to be compared: aggregates without a match for three months, and series that
# are priced only every third month
#
# A series is matched in a month if it has a comparable price there and an observed one in the month before
# (docs/reference/OFFICE.md, the index of a month). Without a match, nothing moves the missing prices of an aggregate.

MONTHS_WITHOUT_MATCH = 3
"""So many months without a match are listed: the month and those before it."""

QUARTER = 3
"""The months from one price to the next."""

LOOKED_AT = 2 * QUARTER + 1
"""The months, this one and those before it, whose prices show how often a series is priced."""


# ---- aggregates without a match


def months_until(month: int, count: int) -> list[int]:
    """A month and those before it, the latest first."""
    months = [month]
    while len(months) < count:
        months.append(month_before(months[-1]))
    return months


def matched_in(facts: Facts, month: int) -> set[str]:
    """The aggregates in which a series was matched in a frozen month."""
    release, plan = facts.latest[month], facts.plans[month // 100]
    now, then = (facts.office.frozen(facts.latest[each]) for each in (month, month_before(month)))
    sample = facts.office.read_carried(release)
    compared = [series for series in sample if series in now and now[series].mark in COMPARABLE]
    return {plan.places[sample[series].item] for series in compared if series in then and then[series].mark in OBSERVED}


def unmatched_codes(facts: Facts) -> list[str]:
    """The aggregates of the month without a match in it and in the months before; none if these aren't all frozen."""
    months = months_until(facts.month, MONTHS_WITHOUT_MATCH)
    # (the first month has no sample, and nothing before it)
    if any(month_before(each) not in facts.latest for each in months):
        return []
    codes = [code for code in facts.samples if not facts.find_matches(code)]
    for month in months[1:]:
        if codes:
            matched, planned = matched_in(facts, month), facts.plans[month // 100].weights
            codes = [code for code in codes if code in planned and code not in matched]
    return codes


def report_unmatched(facts: Facts) -> Section:
    """The aggregates that had no match for three months, with the findings of their series in each."""
    months = months_until(facts.month, MONTHS_WITHOUT_MATCH)
    codes, rows = unmatched_codes(facts), list[list[Cell]]()
    found = [facts.office.frozen(facts.latest[month]) for month in reversed(months)] if codes else []
    for code in codes:
        sample = facts.samples[code]
        marks = [marks_of(sample, quotes) for quotes in found]
        rows.append([code, facts.title(code), facts.rows[code].weight, len(sample), *marks])
    note = message(
        "In this month and in each of the two before it, no series had both a comparable price and an observed price"
        " in the previous month. So nothing moved the missing prices. Have one series of each aggregate priced every"
        " month, or place the aggregate's items with others."
    )
    names = columns("=aggregate", "title", "#weight", "#series", *map(month_text, reversed(months)))
    return Section("unmatched", message("Nothing compared for three months"), note, names, rows, is_open=False)


# ---- series that are priced every third month


def number_of(month: int) -> int:
    """Months since the year 0."""
    return month // 100 * 12 + month % 100 - 1


def is_quarterly(months: Sequence[int]) -> bool:
    """Whether a series that was observed in these months, in their order, was so twice at least and always three
    months apart."""
    gaps = [number_of(later) - number_of(one) for one, later in zip(months, months[1:])]
    return bool(gaps) and all(gap == QUARTER for gap in gaps)


def quarterly_rows(facts: Facts) -> Iterator[list[Cell]]:
    """A row for each slot whose series was priced every third month only."""
    looked_at = months_until(facts.month, LOOKED_AT)
    observed = facts.office.months_observed(looked_at[-1], looked_at[0])
    for slot in facts.slots:
        months = observed.get(slot.series, [])
        if is_quarterly(months):
            number = number_of(months[-1]) + QUARTER
            due = month_of(number // 12 * 100 + number % 12 + 1)
            yield [*facts.place_cells(slot), " ".join(map(month_text, months)), due]


def quarterly(facts: Facts) -> Section:
    """The series that were priced every third month only."""
    note = message(
        "In the last {count} months, these series were priced at least twice, each time three months after the"
        " previous price."
        " Such a series is never matched: it moves with its aggregate if another series there is priced every month;"
        " otherwise the carry list keeps it unchanged.",
        count=whole(LOOKED_AT),
    )
    names, rows = columns(*PLACE, "priced in", "next"), [*quarterly_rows(facts)]
    return Section("quarterly", message("Priced only every third month"), note, names, rows, is_open=False)

"""The tables of examples/national, computed with the formulas of the Consumer Price Index Manual (2020), in fractions.

Only the rounding follows docs/reference/OFFICE.md.
"""

from __future__ import annotations

import collections
from collections.abc import Iterable, Iterator, Mapping
from fractions import Fraction
from typing import NamedTuple, Optional

from .nation import Place, Quote, Survey, data, previous, revisions, year_before

MILLIONTHS = 10**6
TICKS = 10_000  # a minor unit


class Kept(NamedTuple):
    """The carried price of a series."""

    price: Fraction
    scale: Fraction
    is_imputed: bool


Prices = dict[Place, Kept]
Quotes = dict[Place, Quote]
Levels = dict[str, Fraction]


class Row(NamedTuple):
    """A row of a table: index, chained index, monthly and annual change."""

    code: str
    weight: int
    within: Fraction
    level: Fraction
    monthly: Optional[Fraction]
    annual: Optional[Fraction]
    is_imputed: bool
    title: str


class Month(NamedTuple):
    """The table of a month, and the aggregates that had to be carried."""

    rows: list[Row]
    carry: list[str]


Id = tuple[str, int]
"""A month and one of its revisions."""


def nearest(number: Fraction, parts: int) -> Fraction:
    """The nearest number that is whole in so many parts of one; a half goes up."""
    up, down = 2 * parts * number.numerator + number.denominator, 2 * number.denominator
    return Fraction(up // down, parts)


def total(prices: Iterable[Fraction]) -> Fraction:
    """The sum of prices that are whole in ticks."""
    return Fraction(sum(price.numerator * (TICKS // price.denominator) for price in prices), TICKS)


class Year:
    """A year's aggregates with their weights in use, samples and base prices, and the link level of each node."""

    def __init__(self, survey: Survey, year: int, before: Prices, levels: dict[str, Levels]) -> None:
        column, december = f"weight_{year}", f"{year - 1}-12"
        self.titles = {row["code"]: row["title"] for row in data("basket")}
        self.weights = {row["code"]: int(row[column]) for row in data("basket") if row[column]}
        self.links = levels.get(december, {})
        self.samples: dict[str, list[Place]] = {code: [] for code in self.weights}
        plan = next(row for row in data("plans") if row["year"] == str(year))
        if plan["spent_in"]:
            self.weights = self.worth_in_december([levels[f"{plan['spent_in']}-{at:02}"] for at in range(1, 13)])
        if plan["reference"]:
            self.weights = {code: self.moved(code, levels[plan["reference"]]) for code in self.weights}
        self.base: Prices = {}
        for place, (item, _, last) in sorted(survey.series.items()):
            code, quote = survey.items[item]["aggregate"], survey.quotes[december].get(place)
            base = before.get(place)
            if quote and quote.price is not None:
                base = Kept(Fraction(quote.price), Fraction(1), False)
            if base and last >= f"{year}-01" and code in self.weights:
                self.samples[code].append(place)
                self.base[place] = base
        self.nodes: dict[str, list[str]] = collections.defaultdict(list)  # the aggregates below each node
        for code in self.weights:
            for end in (2, 4, 6, 8, 11):
                self.nodes[code[:end]].append(code)
            self.nodes["00"].append(code)

    def moved(self, code: str, then: Levels) -> int:
        """The weight of an aggregate, moved by its prices from the reference month to the link month."""
        return int(nearest(self.weights[code] * self.links[code] / then[code], 1))

    def worth_in_december(self, months: list[Levels]) -> dict[str, int]:
        """The spending in a year of some months, at the prices of the link month, as shares of a million: the whole
        parts, and one more for the greatest remainders. An aggregate that is new was counted at the prices of the link
        month."""
        worth = {code: Fraction(weight) for code, weight in self.weights.items()}
        for code in worth:
            if code in self.links:
                worth[code] *= self.links[code] * 12 / sum(month[code] for month in months)
        whole = sum(worth.values())
        ints = {code: int(it * MILLIONTHS / whole) for code, it in worth.items()}
        missing = MILLIONTHS - sum(ints.values())
        remainders = {code: it * MILLIONTHS / whole % 1 for code, it in worth.items()}
        for code in sorted(remainders, key=lambda code: -remainders[code])[:missing]:
            ints[code] += 1
        return ints

    def carry(self, code: str, kept: Prices, now: Quotes, before: Quotes) -> tuple[Prices, bool]:
        """The carried prices of one aggregate, and whether no price could move a missing one."""
        prices: Prices = {}
        lacking: list[tuple[Place, Optional[int]]] = []
        for place in self.samples[code]:
            quote = now.get(place)
            if quote and quote.price is not None and quote.mark in ("price", "comparable"):
                scale = kept[place].scale
                prices[place] = Kept(nearest(quote.price * scale, TICKS), scale, False)
            else:
                lacking.append((place, quote.price if quote else None))
        matched = [place for place in prices if place in before and before[place].price is not None]
        movement = Fraction(1)
        if matched:
            movement = total(prices[at].price for at in matched) / total(kept[at].price for at in matched)
        for place, price in lacking:
            imputed = nearest(kept[place].price * movement, TICKS)
            prices[place] = Kept(imputed, imputed / price if price else kept[place].scale, True)
        return prices, bool(lacking and not matched)

    def carried(self, kept: Prices, now: Quotes, before: Quotes) -> tuple[Prices, dict[str, bool], list[str]]:
        """The carried prices of all aggregates, whether something was imputed in each, and the aggregates in which no
        price could move a missing one."""
        prices: Prices = {}
        flags, carry = dict[str, bool](), list[str]()
        for code in sorted(self.weights):
            own, is_idle = self.carry(code, kept, now, before)
            prices.update(own)
            flags[code] = any(it.is_imputed for it in own.values())
            carry += [code] if is_idle else []
        return prices, flags, carry

    def dutot(self, code: str, kept: Prices) -> Fraction:
        """The mean price now over the mean base price."""
        sample = self.samples[code]
        now, base = (total(prices[at].price for at in sample) for prices in (kept, self.base))
        return nearest(100 * now / base, MILLIONTHS)

    def rows(self, kept: Prices, flags: dict[str, bool], levels: dict[str, Levels], month: str) -> Iterator[Row]:
        """Code, weight, index, level, the levels with which changes are computed, whether something was imputed,
        title."""
        indices = {code: self.dutot(code, kept) for code in self.weights}
        for node in sorted(self.nodes):
            below = self.nodes[node]
            weight = sum(self.weights[code] for code in below)
            summed = sum((self.weights[code] * indices[code] for code in below), Fraction())
            within = nearest(summed / weight, MILLIONTHS)
            link = self.links.get(node, Fraction(100))
            level = nearest(link * within / 100, MILLIONTHS)
            monthly = link if month.endswith("-01") else levels[previous(month)][node]
            annual = link if month.endswith("-12") else levels.get(year_before(month), {}).get(node)
            is_imputed = any(flags[code] for code in below)
            changes = change(monthly, level), change(annual, level)
            yield Row(node, weight, within, level, *changes, is_imputed, self.titles[node])


def change(before: Fraction | None, now: Fraction) -> Fraction | None:
    """In percent, rounded to a tenth; a fall is rounded like a rise of its size."""
    if before is None:
        return None
    size = nearest(100 * abs(now - before) / before, 10)
    return size if now >= before else -size


def tables(survey: Survey) -> dict[Id, Month]:
    """By month and revision, in the order in which they were frozen: the rows of the table, and the aggregates that had
    to be carried. A month is computed from the last revisions of the months before it."""
    year: Year | None = None
    kept: Prices = {}
    levels, months = dict[str, Levels](), dict[Id, Month]()
    for month in survey.months[1:]:
        if month.endswith("-01"):
            year = Year(survey, int(month[:4]), dict(kept), levels)
            kept = year.base
        assert year
        before = kept
        for revision in revisions(month):
            quotes = survey.of_revision(month, revision)
            kept, flags, carry = year.carried(before, quotes, survey.quotes[previous(month)])
            rows = list(year.rows(kept, flags, levels, month))
            months[month, revision] = Month(rows, carry)
            levels[month] = {row.code: row.level for row in rows}
    return months


def latest(months: Mapping[Id, Month]) -> dict[str, Month]:
    """The last revision of each month."""
    return {month: table for (month, _), table in sorted(months.items())}


def moving(months: dict[str, Month]) -> Iterator[str]:
    """The fault of the weights of the four years, if any: weights that the program moved by prices, from a reference
    month, no longer add up to a million; all others do, and the weights that the office moved differ from the
    spending."""
    januaries = [month for month in sorted(months) if month.endswith("-01")]
    sums = [months[month].rows[0].weight for month in januaries]
    if [total == 1_000_000 for total in sums] != [True, True, True, False]:
        yield f"the weights add up to {sums}"
    for january in januaries[1:3]:
        spent = {row["code"]: int(row[f"weight_{january[:4]}"] or 0) for row in data("basket")}
        shares = {code: nearest(Fraction(it * 1_000_000, sum(spent.values())), 1) for code, it in spent.items()}
        apart = [row.code for row in months[january].rows if abs(row.weight - shares[row.code]) > 1 and "-" in row.code]
        if len(apart) < 200:
            yield f"the weights of {january[:4]} are what was spent, but for {len(apart)} of them"


def coming_and_going(months: dict[str, Month]) -> Iterator[str]:
    """The fault of the aggregates that the example shows, if any: one comes in the second year, and one isn't in the
    plan of the second year and returns in the third, where it begins at 100 in the December before."""
    by_month = {month: {row.code: row for row in it.rows} for month, it in months.items()}
    years = sorted({month[:4] for month in months})
    codes = [{code for code in by_month[f"{year}-01"] if "-" in code} for year in years]
    come, left = codes[1] - codes[0], codes[0] - codes[1]
    if (len(come), len(left)) != (1, 1) or not come | left <= codes[2] & codes[3]:
        yield f"{come} came in {years[1]}, and {left} left"
    for code, year in [(code, years[1]) for code in come] + [(code, years[2]) for code in left]:
        for node in (code, code[:8]):  # (its subclass has no other aggregate)
            row, december = by_month[f"{year}-01"][node], by_month[f"{int(year) - 1}-12"]
            if node in december or row.level != row.within or row.annual is not None:
                yield f"{node} doesn't begin in {year}: {row}"


def printed(row: Row) -> list[str]:
    """The fields of a row as the office prints them."""
    points = [f"{int(it)}.{int(it * MILLIONTHS) % MILLIONTHS:06}" for it in (row.within, row.level)]
    changes = [tenths(row.monthly), tenths(row.annual)]
    return [row.code, str(row.weight), *points, *changes, str(int(row.is_imputed)), row.title]


def tenths(number: Fraction | None) -> str:
    if number is None:
        return ""
    return f"{'-' if number < 0 else ''}{abs(number * 10) // 10}.{abs(number * 10) % 10}"

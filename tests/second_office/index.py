"""What frozen months come to: sums over whole lists, and recursion back to the base.

A month is a pair of year and number, a series a pair of collector and slot. Carried prices are in ticks, indices and
levels in millionths. Division is of whole numbers alone.
"""

from __future__ import annotations

from collections.abc import Callable
from typing import Any, Optional, TypeVar

from . import limits
from .values import Mark, Month

Series = tuple[int, int]
Scale = tuple[int, int]
"""Ticks and what they stand for, of which a price is scaled up and down."""

Plan = tuple[dict[str, str], dict[str, int], dict[str, str], Optional[Month]]
"""By node the title, by aggregate the weight, by item the aggregate, and the reference month."""

Row = tuple[str, str, int, int, int, int, Optional[int], bool]
"""Code, title, weight, index, level, both changes, whether something was imputed."""

Some = TypeVar("Some")
Rule = TypeVar("Rule", bound=Callable[..., Any])

HUNDRED = 100_000_000


def there(value: Some | None) -> Some:
    """What has to be there."""
    assert value is not None
    return value


def rounded(a: int, b: int) -> int:
    return (2 * a + b) // (2 * b)


def december_before(year: int) -> Month:
    return (year - 1, 12)


def before(month: Month) -> Month:
    year, number = month
    return (year, number - 1) if number > 1 else december_before(year)


def is_below(code: str, node: str) -> bool:
    return code != node and (node == "00" or code.startswith(node))


def sum_at(node: str, weights: dict[str, int]) -> int:
    """The sum of the weights at and below a node."""
    return sum(weights[code] for code in weights if code == node or is_below(code, node))


def change(before: int, now: int) -> int:
    """In tenths of a percent; a fall is rounded as a rise of its size."""
    size = rounded(1000 * abs(now - before), before)
    return size if now >= before else -size


def kept(rule: Rule) -> Rule:
    """The rule, computed once for each of its arguments: what is frozen changes by `with_month` alone."""

    def looked_up(self: Index, *of: Any) -> Any:
        place = (rule.__name__, *of)
        if place not in self.known:
            self.known[place] = rule(self, *of)
        return self.known[place]

    return looked_up  # type: ignore[return-value]


class FrozenQuote:
    def __init__(self, series: Series, item: str, last_month: Month, mark: Mark) -> None:
        self.series, self.item, self.last_month, self.mark = series, item, last_month, mark


Frozen = tuple[list[FrozenQuote], list[str]]
"""The quotes and the carry list of a month."""


class Index:
    """The index over the plans of the years and the frozen months, of each the quotes and the carry list of its latest
    revision."""

    def __init__(self, plans: dict[int, Plan], frozen: dict[Month, Frozen], known: dict[Any, Any]) -> None:
        self.plans, self.frozen, self.known = plans, frozen, known

    def with_month(self, month: Month, quotes: list[FrozenQuote], carry: list[str]) -> Index:
        """The same with one month more, or with a month that was frozen as it is now. What is looked up there stays out
        of this one, and what was looked up here counts there where no month was replaced."""
        known = {} if month in self.frozen else dict(self.known)
        return Index(self.plans, {**self.frozen, month: (quotes, carry)}, known)

    # ---- the plan of a year

    def weights(self, year: int) -> dict[str, int]:
        return self.plans[year][1] if year in self.plans else {}

    def aggregates(self, year: int) -> list[str]:
        return sorted(self.weights(year))

    def weight(self, year: int, node: str) -> int:
        return sum_at(node, self.weights(year))

    # ---- the weights in use

    def reference_months(self, year: int) -> list[Month]:
        """The link month and the reference month, where the plan has one."""
        reference = self.plans[year][3]
        return [december_before(year), reference] if reference else []

    def lacks_reference(self, year: int, code: str) -> bool:
        return any(self.level(month, code) is None for month in self.reference_months(year))

    @kept
    def moved(self, year: int) -> dict[str, int]:
        """By aggregate: the weight of the plan, moved by the prices from the reference month to the link month."""
        months, weights = self.reference_months(year), self.weights(year)
        if not months:
            return weights
        levels = {code: [self.level(month, code) for month in months] for code in weights}
        return {code: rounded(weights[code] * there(now), there(then)) for code, (now, then) in levels.items()}

    def weight_in_use(self, year: int, node: str) -> int:
        return sum_at(node, self.moved(year))

    # ---- the quotes of a month

    def mark(self, month: Month, series: Series) -> Mark:
        marks = [quote.mark for quote in self.frozen[month][0] if quote.series == series]
        return marks[0] if marks else ("missing", None)

    def observed(self, month: Month, series: Series) -> int | None:
        """The price that was found, or None."""
        kind, price = self.mark(month, series)
        return None if kind == "missing" else price

    def comparable(self, month: Month, series: Series) -> int | None:
        """The price that can be compared with the one before, or None."""
        kind, price = self.mark(month, series)
        return price if kind in ("price", "comparable") else None

    # ---- bases and samples

    @kept
    def base(self, year: int, series: Series) -> tuple[int, Scale] | None:
        """Ticks and scale in the link month, or None."""
        december = december_before(year)
        if december not in self.frozen:
            return None
        price = self.observed(december, series)
        if price is not None:
            return 10_000 * price, (10_000, 1)
        sampled = [code for code in self.aggregates(year - 1) if series in self.sample(year - 1, code)]
        return self.carried(year - 1, december, series)[:2] if sampled else None

    @kept
    def sample(self, year: int, code: str) -> list[Series]:
        """The series with a base that are priced in January or later and whose item is placed there."""
        quotes = {quote.series: quote for month in self.frozen for quote in self.frozen[month][0]}
        places = self.plans[year][2]
        lasting = [quote for quote in quotes.values() if quote.last_month >= (year, 1)]
        placed = [quote.series for quote in lasting if places.get(quote.item) == code]
        return sorted(series for series in placed if self.base(year, series) is not None)

    def aggregate_of(self, year: int, series: Series) -> str:
        return next(code for code in self.aggregates(year) if series in self.sample(year, code))

    # ---- a month

    def matched(self, month: Month, code: str) -> list[Series]:
        return [
            series
            for series in self.sample(month[0], code)
            if self.comparable(month, series) is not None and self.observed(before(month), series) is not None
        ]

    @kept
    def movement(self, month: Month, code: str) -> tuple[int, int] | None:
        """A pair, the numbers now and before; None where there is none."""
        year, matched = month[0], self.matched(month, code)
        if matched:
            now, then = (sum(self.carried(year, at, series)[0] for series in matched) for at in (month, before(month)))
            return now, then
        return (1, 1) if code in self.frozen[month][1] else None

    @kept
    def carried(self, year: int, month: Month, series: Series) -> tuple[int, Scale, bool]:
        """Ticks, scale, and whether they were imputed."""
        if month == december_before(year):
            return *there(self.base(year, series)), False
        earlier, scale, _ = self.carried(year, before(month), series)
        price, comparable = self.observed(month, series), self.comparable(month, series)
        if comparable is not None:
            return rounded(comparable * scale[0], scale[1]), scale, False
        now, then = there(self.movement(month, self.aggregate_of(year, series)))
        ticks = rounded(earlier * now, then)
        return ticks, scale if price is None else (ticks, price), True

    @kept
    def within(self, month: Month, node: str) -> int:
        """The index within the year: of an aggregate by Dutot, of a node above by the aggregates below it."""
        year = month[0]
        if node in self.weights(year):
            sample = self.sample(year, node)
            now = sum(self.carried(year, month, series)[0] for series in sample)
            return rounded(HUNDRED * now, sum(there(self.base(year, series))[0] for series in sample))
        weights = {code: weight for code, weight in self.moved(year).items() if is_below(code, node)}
        summed = sum(weight * self.within(month, code) for code, weight in weights.items())
        return rounded(summed, self.weight_in_use(year, node))

    # ---- the table of a month

    def nodes(self, month: Month) -> list[str]:
        """The codes of the table's rows; the first month has none."""
        if month not in self.frozen or before(month) not in self.frozen:
            return []
        return sorted(self.plans[month[0]][0])

    def level(self, month: Month, node: str) -> int | None:
        """The chained level in the table of the month, or None where it has no such row."""
        return self.chained(month, node) if node in self.nodes(month) else None

    def link(self, year: int, node: str) -> int:
        return self.level(december_before(year), node) or HUNDRED

    @kept
    def chained(self, month: Month, node: str) -> int:
        return rounded(self.link(month[0], node) * self.within(month, node), HUNDRED)

    def month_change(self, month: Month, node: str) -> int:
        year, number = month
        earlier = self.link(year, node) if number == 1 else self.level(before(month), node)
        return change(there(earlier), there(self.level(month, node)))

    def year_change(self, month: Month, node: str) -> int | None:
        year, number = month
        earlier = self.link(year, node) if number == 12 else self.level((year - 1, number), node)
        return None if earlier is None else change(earlier, there(self.level(month, node)))

    def is_imputed(self, month: Month, node: str) -> bool:
        year = month[0]
        under = [code for code in self.aggregates(year) if code == node or is_below(code, node)]
        return any(self.carried(year, month, series)[2] for code in under for series in self.sample(year, code))

    def table(self, month: Month) -> list[Row]:
        """The rows by code: code, title, weight, index, level, changes, and whether something was imputed."""
        return [
            (
                node,
                self.plans[month[0]][0][node],
                self.weight_in_use(month[0], node),
                self.within(month, node),
                self.chained(month, node),
                self.month_change(month, node),
                self.year_change(month, node),
                self.is_imputed(month, node),
            )
            for node in self.nodes(month)
        ]

    # ---- faults

    def needs_match(self, month: Month, code: str) -> bool:
        """Whether a series of the sample is without a comparable price and there is nothing to move it by."""
        is_short = any(self.comparable(month, series) is None for series in self.sample(month[0], code))
        return is_short and self.movement(month, code) is None

    def is_carried_outside(self, month: Month, code: str) -> bool:
        ticks = [self.carried(month[0], month, series)[0] for series in self.sample(month[0], code)]
        return not all(one in limits.TICKS for one in ticks)

    def fault(self, month: Month) -> tuple[int, str] | None:
        """The first fault of a month after the first, with its code: each is looked for everywhere before the next."""
        aggregates, nodes = self.aggregates(month[0]), self.nodes(month)
        faults: list[tuple[int, list[str], Callable[[str], bool]]] = [
            (5, aggregates, lambda code: self.lacks_reference(month[0], code)),
            (3, aggregates, lambda code: self.moved(month[0])[code] not in limits.WEIGHT_IN_USE),
            (1, aggregates, lambda code: not self.sample(month[0], code)),
            (2, aggregates, lambda code: self.needs_match(month, code)),
            (3, aggregates, lambda code: self.is_carried_outside(month, code)),
            (3, aggregates, lambda code: self.within(month, code) not in limits.INDEX),
            (3, nodes, lambda code: self.chained(month, code) not in limits.LEVEL),
        ]
        found = ((number, code) for number, codes, is_so in faults for code in codes if is_so(code))
        return next(found, None)

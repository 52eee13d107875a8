"""What the shops ask for, and what the collectors send of it: the one part of the example that no data file holds.

Everything is drawn from the seed, and computed with sums, products and quotients alone, so that one seed gives the same
records on every machine.
"""

from __future__ import annotations

import collections
import random
from collections.abc import Collection, Mapping
from typing import Any, NamedTuple, Optional

from office import Office, Series, moment, rows_of, text_of

SUMMER = [0, 0, 0.1, 0.3, 0.5, 0.8, 1, 1, 0.6, 0.3, 0.1, 0]  # how much of it is in each month, January first
SALE_MONTHS = ("01", "07")
CLOSED_MONTHS = 22  # of one outlet each
PER_MILLE = {"stock": 8, "refused": 1, "gone": 4, "comparable": 4, "other": 2}
LATE, SLIP, CORRECTED = 0.002, 0.003, 0.002
LATE_DAY, DAY_AGAIN = 25, 29
"""When a late price comes, and when it comes again if the month is reopened."""


class Entry(NamedTuple):
    """What is sent of a slot on a day of the month: the value is a price in minor units, or the reason why there is
    none."""

    day: int
    slot: int
    mark: str
    value: Any
    confirm: bool


class Trends:
    """How the prices of each aggregate move: its level in each month, over that of the first."""

    def __init__(self, office: Office, seed: str) -> None:
        self.rows = {row.pop("code"): {name: float(text) for name, text in row.items()} for row in rows_of("trends")}
        self.months, self.seed = office.months, seed
        self.levels: dict[str, list[float]] = {}

    def row(self, aggregate: str) -> dict[str, float]:
        """The row of the longest code that the aggregate begins with."""
        return next(self.rows[aggregate[:end]] for end in range(len(aggregate), 1, -1) if aggregate[:end] in self.rows)

    def level(self, aggregate: str, turn: int) -> float:
        """The level of an aggregate in a month, by the month's place."""
        if aggregate not in self.levels:
            self.levels[aggregate] = self.moved(self.row(aggregate), random.Random(f"{self.seed} {aggregate}"))
        return self.levels[aggregate][turn]

    def moved(self, row: Mapping[str, float], drawn: random.Random) -> list[float]:
        """The levels of all months by a row of trends."""
        levels, trend, unrest = [], 1.0, 0.0
        for turn, month in enumerate(self.months):
            if turn:
                trend *= 1 + row[f"change_{month[:4]}"] / 1200
            unrest = 0.8 * unrest + row["unrest"] / 500 * (drawn.random() + drawn.random() - 1)
            levels.append(trend * (1 + unrest) * (1 + row["summer"] / 100 * SUMMER[int(month[5:]) - 1]))
        return levels


def tagged(price: float) -> int:
    """A price as it stands on a tag."""
    if price < 500:
        return max(1, int(price + 0.5))
    if price < 10_000:
        return int(price / 10) * 10 + 9
    return max(1, int(price / 100 + 0.5)) * 100 - (10 if price < 100_000 else 0)


def is_out_of_season(months: str, turn: int, month: str) -> bool:
    """Whether a month lies in a gap like 10-3. In the first month every price is asked for."""
    if not months or not turn:
        return False
    first, last = map(int, months.split("-"))
    number = int(month[5:])
    return first <= number <= last if first <= last else number >= first or number <= last


class Shelf:
    """One item in one outlet: what is found there, and what is sent of it."""

    def __init__(self, office: Office, trends: Trends, series: Series, closed: Collection[str]) -> None:
        self.series, self.closed = series, closed
        self.item = office.items[series.item]
        self.is_reopened = office.is_reopened
        self.trends, self.row = trends, trends.row(self.item["aggregate"])
        self.drawn = random.Random(f"{trends.seed} {series.collector} {series.slot}")
        self.usual = int(self.item["price"]) * (0.9 + 0.2 * self.drawn.random())
        self.price: Optional[int] = None
        self.last: Optional[int] = None
        self.reason: Optional[str] = None
        self.away, self.is_replaced = 0, False

    def chance(self, share: float) -> bool:
        """Whether something comes that comes to such a share."""
        return self.drawn.random() < share

    # ---- what is found

    def missing(self, turn: int, month: str) -> Optional[str]:
        """Why there is no price in a month, if there is none."""
        if month in self.closed:
            return "closed"
        if is_out_of_season(self.item["out_of_season"], turn, month):
            return "stock"
        if self.away:
            self.away -= 1
            return self.reason
        for reason, most in (("stock", 3), ("refused", 5), ("gone", 1)):
            if self.chance(PER_MILLE[reason] / 1000):
                self.reason, self.away = reason, self.drawn.randrange(most)
                self.is_replaced = reason == "gone" and self.last is not None
                return reason
        return None

    def mark(self) -> str:
        """Price, or the kind of a replacement; a replacement has a price of its own."""
        mark = "price"
        if self.is_replaced:
            mark = "comparable" if self.chance(0.6) else "other"
        elif self.last is not None:
            mark = next((kind for kind in ("comparable", "other") if self.chance(PER_MILLE[kind] / 1000)), "price")
        self.is_replaced = False
        if mark == "comparable":
            self.usual *= 0.97 + 0.07 * self.drawn.random()
        if mark == "other":
            self.usual *= 0.75 + 0.6 * self.drawn.random()
        return mark

    def found(self, turn: int, month: str) -> tuple[str, Any]:
        """The mark of a month with its price or reason."""
        reason = self.missing(turn, month)
        if reason:
            return "missing", reason
        mark = self.mark()
        if self.price is None or mark != "price" or self.chance(self.row["changing"] / 100):
            self.price = tagged(self.usual * self.trends.level(self.item["aggregate"], turn))
        if self.chance(self.row["on_sale"] / 100 * (self.row["in_sale_months"] if month[5:] in SALE_MONTHS else 1)):
            return mark, tagged(self.price * (0.9 - 0.35 * self.drawn.random() * self.drawn.random()))
        return mark, self.price

    # ---- what is sent

    def is_inside(self, price: int) -> bool:
        """Whether a price is within the tolerance of the last one."""
        low, high = int(self.item["low"]), int(self.item["high"])
        return self.last is None or -(-self.last * low // 1000) <= price <= self.last * high // 1000

    def sent(self, turn: int, month: str) -> list[Entry]:
        """The entries of a month. What the office takes of them is the next month's last price."""
        day = 2 + int(self.series.outlet) * 7 % 18
        mark, value = self.found(turn, month)
        entry = Entry(day, self.series.slot, mark, value, False)
        if mark == "missing":
            return [entry]
        if self.chance(LATE):
            return self.late(entry, month)
        entries = self.with_slip(entry) if turn and mark == "price" else [entry]
        if mark != "other" and not self.is_inside(value):
            entries.append(entry._replace(day=day + 2, confirm=True))
        if mark == "other" or self.is_inside(entries[-1].value) or entries[-1].confirm:
            self.last = entries[-1].value
        return entries

    def late(self, entry: Entry, month: str) -> list[Entry]:
        """A price that comes after the window; in a month that is reopened it comes again, and is taken."""
        late = entry._replace(day=LATE_DAY)
        if not self.is_reopened(month):
            return [late]
        is_far = entry.mark != "other" and not self.is_inside(entry.value)
        self.last = entry.value
        return [late, entry._replace(day=DAY_AGAIN, confirm=is_far)]

    def with_slip(self, entry: Entry) -> list[Entry]:
        """The entry, or one with a slip of the pen before it; nine in ten of those that are refused come again."""
        if self.chance(CORRECTED) and self.is_inside(entry.value + 1):
            return [entry._replace(value=entry.value + 1), entry._replace(day=entry.day + 2)]
        wrong = entry.value * 10 if self.chance(0.5) else max(1, entry.value // 10)
        if self.chance(SLIP) and not self.is_inside(wrong):
            again = [entry._replace(day=entry.day + 2)] if self.chance(0.9) else []
            return [entry._replace(value=wrong), *again]
        return [entry]


class Shops:
    """All shops of the country: the records that come of a month, in the order of their moments."""

    def __init__(self, office: Office, seed: str) -> None:
        self.office, self.seed = office, seed
        trends, drawn = Trends(office, seed), random.Random(f"{seed} outlets")
        closed: dict[int, set[str]] = collections.defaultdict(set)
        for _ in range(CLOSED_MONTHS):
            closed[int(drawn.choice(office.outlets)["outlet"])].add(drawn.choice(office.months[1:]))
        self.shelves = [Shelf(office, trends, series, closed[series.outlet]) for series in office.series]

    def records(self, month: str) -> list[tuple[int, str, str]]:
        """Moment, key and body of each import of a month."""
        turn, drawn = self.office.months.index(month), random.Random(f"{self.seed} {month}")
        visits: dict[tuple[int, int], list[Entry]] = collections.defaultdict(list)
        for shelf in self.shelves:
            if shelf.series.first <= month <= shelf.series.last:
                held = self.office.holder(shelf.series, month)
                for entry in shelf.sent(turn, month):
                    visits[entry.day, held.collector].append(entry._replace(slot=held.slot))
        records = []
        for (day, collector), entries in sorted(visits.items()):
            body = text_of(row_of(entry, month) for entry in entries)
            records.append((moment(month, day, 10), self.office.keys[collector], body))
            if drawn.random() < 0.01:  # before the window opens
                records.append((moment(month, 1, 3), self.office.keys[collector], body.split("\n")[0] + "\n"))
            if drawn.random() < 0.02:  # the answer was lost, so the same comes again
                records.append((moment(month, day, 11), self.office.keys[collector], body))
        return sorted(records)


def row_of(entry: Entry, month: str) -> list[object]:
    """An entry as a row of an import."""
    return ["quote", entry.slot, month, entry.mark, entry.value, *(["confirm"] if entry.confirm else [])]

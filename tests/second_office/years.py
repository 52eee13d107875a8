"""The life of a small office through one to three years, drawn at random: what its desk and its collectors send.

A life is a generator of records, and is sent the reply to each. The desk goes by the replies, as a desk does: where a
freeze is refused for want of a match, it carries the aggregate; where a sample is empty, it sends a plan without it;
where prices can't move a weight from the reference month, it sends a plan with another one, or without any.
Now and then the last frozen month is reopened, quoted and frozen again, in one life of a few up to its last revision.
In most lives series are handed over, at any month and some of them several times.
"""

from __future__ import annotations

import random
from collections.abc import Generator, Iterator
from typing import TypeVar

from . import values
from .office import Place, Reply
from .records import KEYS, text_of
from .requests import Record

T = TypeVar("T")
Sent = Generator[Record, Reply, T]
"""Sends records, and is sent the reply to each; and what comes of it."""

ITEMS = ["RICE", "FLOUR", "SALT", "TEA", "OIL", "GOLD"]
AGGREGATES = ["01.1.1.1-01", "01.1.1.1-02", "01.1.1.2-01", "01.2.0.1-01", "02.1.1.1-01", "13.9.9.9-99"]
TITLES = ["Food, drink", 'Café "1"', "back\\slash", "\u2028", "é" * 200, " x ", "Rice", "All items"]
MOST_PRICE = 100_000_000
WILD_PRICES = [1, 10, 1000, 10_000, 100_000, 10_000_000, 100_000_000]
STEEP = [1, 100_001, 100_000, *[10_000] * 10, 10_000_001, 10_000_000]
BORDERS = {  # what GOLD is quoted at, month by month, alone in its aggregate: past a limit, and then up to it
    "steep": [("price", price) for price in STEEP],
    "scaled up": [("price", 100_000_000), ("other", 1), ("price", 1001), ("price", 1000)],
    "scaled down": [("price", 1), ("other", 100_000_000), ("price", 4999), ("price", 5000)],
}
KINDS = ["usual"] * 4 + ["wild"] * 3 + ["steep", "scaled down", "flat"] * 2 + ["scaled up"]
STEPS = [80, 99, 100, 100, 101, 130, 300]  # a price in hundredths of the last
MARKS = ["price"] * 14 + ["missing"] * 2 + ["comparable", "other", None]
REASONS = ["stock", "closed", "gone", "refused"]
STRANGER = KEYS[3]
FORMS = ["text", "csv"]
REVISIONS = ["1", "1", "2", "2", "3", "9", "0", "10", "01"]
CHANGES = ["none", "a title of no node", "another title", "another weight", "a reference", "two references"]
LATER = [1, 50, 50, 900, 900, 900, 0, -1]  # than the last publishing moment, in seconds


def month(at: int) -> str:
    """The month that so many follow 2025-12 with."""
    return f"{2025 + (11 + at) // 12}-{(11 + at) % 12 + 1:02}"


class Years:
    def __init__(self, drawn: random.Random) -> None:
        self.drawn, self.one = drawn, drawn.choice
        self.kind = self.one(KINDS)
        self.count = 12 * self.one([2, 3] if self.kind == "steep" else [1, 1, 2, 2, 3]) + 1  # of months
        self.assigned: dict[Place, tuple[str, int, int]] = {}  # by collector and slot: item, first and last month
        self.prices: dict[Place, int | None] = {}  # by collector and slot: the last price that was taken
        self.publishes = [self.closes(at) + drawn.choice([0, 0, 100, 900, 3000]) for at in range(self.count + 2)]
        self.moments = [[first] for first in self.publishes]  # of publishing, that were ever sent
        self.codes: list[str] = []
        self.places: dict[str, str] = {}
        self.body: list[Record] = []
        self.handing_over = self.one([0, 0.2, 0.2, 0.5, 1])  # how often, each month

    def is_so(self, share: float) -> bool:
        return self.drawn.random() < share

    def opens(self, at: int) -> int:
        return 1000 * at

    def closes(self, at: int) -> int:
        return 1000 * at + 600

    def send(self, now: int, caller: str, word: str, *arguments: object) -> Sent[Reply]:
        return (yield [str(now), caller, word, *map(str, arguments)])

    def __iter__(self) -> Sent[None]:
        yield from self.begun()
        for at in range(self.count):
            yield from self.opened(at)
            yield from self.handed_over(at)
            yield from self.collected(at)
            yield from self.handed_over(at)
            yield from self.looks(at)
            if not (yield from self.frozen(at)):
                break
            turns = [self.again, self.late, self.calendar_again, self.plan_again, self.looks, self.reopened]
            for turn in self.drawn.sample(turns, k=3):
                yield from turn(at)
        yield from self.calendar(at + 1)
        for late in range(6):
            yield from self.collected(at + late % 2, is_late=True)
            yield from self.looks(at)

    # ---- the desk's first records

    def begun(self) -> Sent[None]:
        for number, key in enumerate(KEYS[:3], 1):
            yield from self.send(0, "desk", "collector", number, key)
        for code in ITEMS:
            yield from self.send(0, "desk", "item", code, f"Text of {code}", "1 kg", 500, 2000)
        yield from self.send(0, "desk", "outlet", 10, "Shop")
        items = ITEMS + self.drawn.choices(ITEMS[:5], k=self.drawn.randrange(9))
        for number, item in enumerate(items):
            ends = sorted(self.drawn.choices(range(self.count), k=2)) if number >= len(ITEMS) else [0, self.count]
            first, last = ends if self.is_so(0.5) else (0, self.count)
            collector = self.one([1, 2, 3])
            slot = 1 + sum(place[0] == collector for place in self.assigned)
            self.assigned[collector, slot] = item, first, last
            yield from self.send(0, "desk", "assign", collector, slot, 10, item, month(first), month(last))

    # ---- hand-overs

    def handed_over(self, at: int) -> Sent[None]:
        """Some series, mostly from this month or the next on; what was done, or assigned, may be sent again."""
        while self.is_so(self.handing_over / 2):
            place, to = self.one([*self.assigned]), self.one([1, 2, 3])
            new = to, 1 + sum(place[0] == to for place in self.assigned)
            slots, is_new = (*place, *new), True
            if self.is_so(0.1):
                others = [(*place, *self.one([*self.assigned])), (*place, 4, 1), (9, 1, *new), (to, 400, *new)]
                slots, is_new = self.one(others), False
            of = max(at + self.one([0, 0, 0, 1, 1, 1, 2, 5, -1, -12]), 0)
            words = ["handover", *map(str, slots), month(of)]
            reply = yield from self.send(self.opens(at), "desk", *words)
            if is_new and "done" in reply:
                item, first, last = self.assigned[place]
                self.assigned[place], self.assigned[new] = (item, first, of - 1), (item, of, last)
                self.prices[new] = self.prices.get(place)
            if self.is_so(0.2):
                yield from self.send(self.opens(at), "desk", *words)
            if self.is_so(0.1):
                (collector, slot), (item, first, last) = self.one([*self.assigned.items()])
                yield from self.send(0, "desk", "assign", collector, slot, 10, item, month(first), month(last))

    # ---- plans

    def changed_plan(self) -> None:
        """Aggregates and places of the year before, some of them changed; at first all are new."""
        if not self.codes:
            self.codes = self.drawn.sample(AGGREGATES, k=self.one([1, 2, 3, 4]))
        if self.is_so(0.3):
            self.codes = sorted({*self.codes, self.one(AGGREGATES)})
        if self.is_so(0.3):
            self.codes.remove(self.one(self.codes))
        self.replaced()

    def replaced(self) -> None:
        """Each item has a place at an aggregate that is there; some are moved. What goes to borders stands alone."""
        kept = {AGGREGATES[-1]} if self.kind in BORDERS else set()
        codes = sorted({*self.codes} - kept) or [self.one(AGGREGATES[:-1])]
        for item in ITEMS:
            if self.places.get(item) not in codes or self.is_so(0.15):
                self.places[item] = self.one(codes)
        self.codes = sorted({*codes, *kept})
        self.places.update({"GOLD": code for code in kept})

    def weights(self) -> list[int]:
        most = 1_000_000 - len(self.codes)
        cuts = sorted(self.drawn.choices([0, 1, most, self.drawn.randrange(most)], k=len(self.codes) - 1))
        return [1 + after - before for before, after in zip([0, *cuts], [*cuts, most])]

    def new_body(self) -> list[Record]:
        nodes = {node for code in self.codes for node in values.path(code)}
        rows = [["T", node, self.one(TITLES)] for node in sorted(nodes | {self.one(AGGREGATES)})]
        rows += [["W", code, str(weight)] for code, weight in zip(self.codes, self.weights())]
        return rows + [["I", item, code] for item, code in self.places.items()]

    def reference(self, at: int) -> str:
        """A month that prices may move the weights of that year from: mostly one of the year before, and seldom one
        before the first that has rows. Where prices are steep, one by which a weight can pass its limits."""
        link = at - 1 - (at - 1) % 12
        if link > 0 and self.kind == "steep" and self.is_so(0.5):
            return month(self.one([1, 2]))
        first = min(link, 0 if self.is_so(0.1) else 1)
        return month(self.one([link, self.drawn.randrange(first, link + 1), self.drawn.randrange(link - 11, link + 1)]))

    def with_reference(self, at: int) -> list[Record]:
        """The rows of the plan, with or without a reference month. In the first year no month before it has rows."""
        rows = [row for row in self.body if row[0] != "R"]
        return rows + [["R", self.reference(at)]] if self.is_so(0.6 if at > 1 else 0.1) else rows

    def with_bad_reference(self, at: int) -> list[Record]:
        """The rows of the plan, with a reference month after the link month, or with two."""
        own = [["R", self.reference(at)] for _ in range(self.one([0, 1, 2]))]
        bad = self.one([[["R", month(at)], *own], [["R", month(at - 1)]] * 2])
        return [row for row in self.body if row[0] != "R"] + bad

    def plan(self, now: int, at: int) -> Sent[Reply]:
        year = month(at)[:4]
        self.drawn.shuffle(self.body)
        return (yield from self.send(now, "desk", "plan", year, text_of(self.body)))

    def new_plan(self, now: int, at: int) -> Sent[None]:
        self.changed_plan()
        self.body = self.new_body()
        if self.is_so(0.2):
            self.body = self.with_bad_reference(at)
            yield from self.plan(now, at)
        self.body = self.with_reference(at)
        yield from self.plan(now, at)

    # ---- a month

    def calendar(self, at: int, shift: int = 0, longer: int = 0) -> Sent[Reply]:
        publishes = self.publishes[at] + shift
        self.moments[at].append(publishes)
        moments = [self.opens(at), self.closes(at) + longer, publishes]
        return (yield from self.send(self.opens(at), "desk", "calendar", month(at), *moments))

    def opened(self, at: int) -> Sent[None]:
        """The month's calendar row, and in January the plan of its year, before and after freezes that want them."""
        is_january = month(at).endswith("-01")
        if self.is_so(0.1) and at > 0:
            yield from self.send(self.closes(at), "desk", "freeze", month(at), *self.carry())
        if self.is_so(0.2):
            yield from self.calendar(at, self.one([1, 50]))
        yield from self.calendar(at)
        if is_january and self.is_so(0.3):
            carry = self.drawn.choices(AGGREGATES, k=self.one([0, 1]))
            yield from self.send(self.closes(at) - self.one([0, 1]), "desk", "freeze", month(at), *carry)
        if is_january or (at == 0 and self.is_so(0.3)):
            yield from self.new_plan(self.opens(at), at)

    def collected(self, at: int, is_late: bool = False) -> Sent[None]:
        """The quotes of all series, by imports and one by one; where they are late, of some of them."""
        gone = self.drawn.choices(ITEMS, k=self.one([0, 0, 0, 1, 2]))
        for collector, key in enumerate(KEYS[:3], 1):
            places = [place for place in self.of(collector, at) if not (is_late and self.is_so(0.7))]
            entries = [(place, self.entry(place, gone, at)) for place in places]
            rows = [["quote", str(place[1]), month(at), *entry] for place, entry in entries if entry]
            now = self.opens(at) + self.drawn.randrange(600)
            if self.is_so(0.6):
                replies = (yield from self.send(now, key, "import", text_of(rows)))["rows"]
            else:
                replies = yield from self.one_by_one(now, key, rows)
            for row, reply in zip(rows, replies):
                if "receipt" in reply and row[3] != "missing":
                    self.prices[collector, int(row[1])] = int(row[4])
        yield from self.read(at)

    def of(self, collector: int, at: int) -> Iterator[Place]:
        """The slots of a collector that are active in a month, and now and then one that isn't."""
        for place, (_, first, last) in self.assigned.items():
            if place[0] == collector and (first <= at <= last or self.is_so(0.1)):
                yield place

    def one_by_one(self, now: int, key: str, rows: list[Record]) -> Sent[list[Reply]]:
        replies = []
        for row in rows:
            reply = yield from self.send(now, key, *row)
            if reply.get("refused") == 26 and self.is_so(0.7):
                reply = yield from self.send(now, key, *row, "confirm")
            replies.append(reply)
        return replies

    def entry(self, place: Place, gone: list[str], at: int) -> Record | None:
        """Mark, value, and `confirm` or nothing; or no quote at all."""
        item, last = self.assigned[place][0], self.prices.get(place)
        if self.kind == "flat":
            return ["price", str(2000 - at % 2)]  # a fall by half a tenth of a percent
        if item == "GOLD" and self.kind in BORDERS:
            mark, price = BORDERS[self.kind][min(at, len(BORDERS[self.kind]) - 1)]
            return [mark, str(price), "confirm"]
        if item == "GOLD" and self.kind == "wild" and self.is_so(0.7 if at % 12 < 2 else 0.2):
            mark = "price" if last is None else self.one(["price", "comparable", "other"])
            return [mark, str(self.one(WILD_PRICES)), "confirm"]
        if item in gone:
            return self.one([None, ["missing", self.one(REASONS)]])
        drawn = self.one(MARKS)
        if drawn == "missing":
            return [drawn, self.one(REASONS)]
        price = self.drawn.randrange(50, 900) if last is None else last * self.one(STEPS) // 100
        return [drawn, str(min(max(price, 1), MOST_PRICE))] if drawn else None

    def read(self, at: int) -> Sent[None]:
        now, key = self.opens(at) + 500, self.one(KEYS[:3])
        yield from self.send(now, key, "work", month(at))
        yield from self.send(now, key, "quotes", month(max(at - 1, 0)), month(at))

    # ---- the freeze

    def carry(self) -> list[str]:
        """A list of aggregates to carry, now and then with one of no weight."""
        listed = self.drawn.choices(self.codes, k=self.one([0, 0, 1, 2])) if self.codes else []
        return listed + (self.drawn.choices(AGGREGATES) if self.is_so(0.1) else [])

    def freeze(self, now: int, at: int, carry: list[str]) -> Sent[Reply]:
        """The freeze as a record of the desk, or as a row of an import between looks."""
        if self.is_so(0.8):
            return (yield from self.send(now, "desk", "freeze", month(at), *carry))
        rows = [["tables"], ["freeze", month(at), *carry], ["table", month(at), self.one(FORMS)]]
        replies: list[Reply] = (yield from self.send(now, "desk", "import", text_of(rows)))["rows"]
        return replies[1]

    def frozen(self, at: int, longer: int = 0) -> Sent[bool]:
        """Freezes the month, after attempts that are refused; tells whether it could be frozen."""
        yield from self.refused_freezes(at)
        carry = self.carry()
        for turn in range(10):
            reply = yield from self.freeze(self.closes(at) + longer + turn, at, carry)
            if "done" in reply:
                return True
            if reply["refused"] == 44:
                carry = []
            elif reply["refused"] == 49:
                yield from self.mended(at, reply, carry)
            else:
                return False
        return False

    def refused_freezes(self, at: int) -> Sent[None]:
        if self.is_so(0.2):
            yield from self.send(self.closes(at) - 1, "desk", "freeze", month(at), *self.carry())
        if self.is_so(0.2):
            other = self.one([at + 1, at + 2, at + 12, at - 1 if at else 12])
            yield from self.send(self.closes(at), "desk", "freeze", month(other), *self.carry())
        if self.is_so(0.1):
            yield from self.send(self.closes(at), self.one(["public", *KEYS]), "freeze", month(at))

    def mended(self, at: int, reply: Reply, carry: list[str]) -> Sent[None]:
        code, fault = reply["code"], reply["fault"]
        if fault == 1:
            self.codes.remove(code)
            self.replaced()
            self.body = self.new_body() + [row for row in self.body if row[0] == "R"]
            yield from self.plan(self.closes(at), at)
            carry[:] = [code for code in carry if code in self.codes]
        elif fault == 2:
            carry.append(code)
        elif fault == 5 or (self.is_referred() and self.is_so(0.5)):
            yield from self.referred_otherwise(at)
        else:
            yield from self.taken_back(at)

    def is_referred(self) -> bool:
        return any(row[0] == "R" for row in self.body)

    def referred_otherwise(self, at: int) -> Sent[None]:
        """The plan with another reference month, or without one; it stays as it is where the year is frozen."""
        before = self.body
        self.body = self.with_reference(at) if self.is_so(0.3) else [row for row in before if row[0] != "R"]
        if "refused" in (yield from self.plan(self.closes(at), at)):
            self.body = before

    def taken_back(self, at: int) -> Sent[None]:
        """Wild prices are taken back: the series was missing."""
        for (collector, slot), (item, first, last) in self.assigned.items():
            if item == "GOLD" and first <= at <= last:
                yield from self.send(self.opens(at), KEYS[collector - 1], "quote", slot, month(at), "missing", "gone")

    # ---- after the freeze

    def again(self, at: int) -> Sent[None]:
        yield from self.send(self.closes(at) + 50, "desk", "freeze", month(self.drawn.randrange(at + 1)), *self.carry())

    def late(self, at: int) -> Sent[None]:
        """Quotes of the frozen month: its window is as the calendar has it, and the moment goes back."""
        yield from self.collected(at, is_late=True)

    def calendar_again(self, at: int) -> Sent[None]:
        yield from self.calendar(self.drawn.randrange(at + 1), self.one([0, 0, 1, 700]))

    def reopened(self, at: int) -> Sent[None]:
        """Calendar rows of a frozen month, mostly the last one, with later, equal and earlier moments of publishing;
        where it is open again some quotes are changed, and it is frozen again."""
        for _ in range(self.one([0, 0, 1, 1, 1, 2, 3, 12])):
            of, later = at if self.is_so(0.9) else self.drawn.randrange(at + 1), self.one(LATER)
            longer = self.one([0, 0, later]) if later > 0 else 0
            reply = yield from self.calendar(of, later, longer)
            if "refused" in reply:
                yield from self.again(of)
                continue
            self.publishes[of] += later
            if self.is_so(0.5):
                yield from self.collected(of, is_late=True)
            if self.is_so(0.3):
                yield from self.plan_again(of)
            if self.is_so(0.9):
                yield from self.frozen(of, longer)

    def plan_again(self, at: int) -> Sent[None]:
        """The year's plan as it stands, with a title that doesn't count, with one that does, with a reference month
        that stands or doesn't, or with a fault."""
        if not self.body:
            return
        body, self.body = self.body, [row[:] for row in self.body]
        titles, weights = ([row for row in self.body if row[0] == kind] for kind in "TW")
        change = self.one(CHANGES)
        if change == "a title of no node":
            self.body.append(["T", "12.9.9.9", "Aside"])
        elif change == "another title":
            self.one(titles)[2] = "Another title"
        elif change == "another weight":
            self.one(weights)[2] = "7"
        elif change == "a reference":
            self.body = self.with_reference(at)
        elif change == "two references":
            self.body = self.with_bad_reference(at)
        yield from self.plan(self.closes(at) + 60, self.one([0, at, at]))
        self.body = body

    def looks(self, at: int) -> Sent[None]:
        """Looks at tables, round the moments of their publishing; some months have none."""
        for _ in range(self.drawn.randrange(4)):
            of = self.drawn.randrange(at + 2)
            of_publishing = self.one(self.moments[of])
            moments = [of_publishing - 1, of_publishing, self.closes(at) + 100, 10 * self.closes(at)]
            now, caller = self.one(moments), self.one(["public", "public", "desk", STRANGER, *KEYS[:3]])
            seen = self.one([month(of), month(of), month(at), "2150-01", "2025-11"])
            table = ["table", seen, self.one(FORMS)]
            looked = self.one([["tables"], table, table, [*table, self.one(REVISIONS)]])
            yield from self.send(now, caller, *looked)

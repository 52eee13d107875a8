"""Random records round a small office: three collectors, two items, four months, and what lies at every limit.

No month of it is ever frozen. In one half of such offices series are handed over.
"""

from __future__ import annotations

import csv
import io
import random
from collections.abc import Callable, Generator, Iterable, Iterator, Sequence
from typing import TypeVar

from .requests import Record

T = TypeVar("T")

KEYS = [f"{number * 0x1111:032x}" for number in range(1, 5)]
SHAPES_OF_KEYS = ["A" * 32, "a" * 31, "Desk"]
MONTHS = ["2025-12", "2026-01", "2026-02", "2026-03"]
OTHER_MONTHS = ["2025-11", "2150-01", "1999-12", "2026-13", "2026-1", "2200-01"]
ITEMS = ["RICE", "FLOUR"]
OTHER_ITEMS = ["TEA", "A", "0", "ABCDEFGHIJKL", "ABCDEFGHIJKLM", "rice", ""]
TEXTS = ["Rice, white", 'Café "1"', "back\\slash", "two\nlines", "tab\t", "é" * 200, "é" * 201, "", "\u2028", "x"]
NUMBERS = ["0", "1", "7", "399", "400", "401", "9999", "10000", "999999", "1000000", "+1", "-1", "01", "1.0", " 1", ""]
PRICES = ["1", "2", "69", "70", "71", "99", "100", "101", "149", "150", "151", "700", "100000000", "100000001", "0"]
REASONS = ["stock", "closed", "gone", "refused", "lost"]
MARKS = ["price", "price", "price", "missing", "comparable", "other", "Price"]
CIVIL = [
    "1970-01-01T00:00",
    "2000-02-29T00:00",
    "2026-02-28T23:59",
    "2026-02-28T24:00",
    "2026-02-30T00:00",
    "2100-02-29T00:00",
    "2199-12-31T23:59",
    "2200-01-01T00:00",
    "2026-1-01T00:00",
]
CODES = ["00", "01", "01.1", "01.1.1", "01.1.1.1", "01.1.1.1-01", "01.1.1.1-02", "01.1.1.2-01"]
OTHER_CODES = ["14.1", "00.1", "01.1.1.1-00", "1", "01.11", "13.9.0.9-99"]
PLAN = [
    ["T", "00", "All items"],
    ["T", "01", "Food"],
    ["T", "01.1", "Food products"],
    ["T", "01.1.1", "Cereals"],
    ["T", "01.1.1.1", "Rice"],
    ["T", "01.1.1.1-01", "Rice, white"],
    ["T", "01.1.1.2", "Flour"],
    ["T", "01.1.1.2-01", "Flour, wheat"],
    ["W", "01.1.1.1-01", "600000"],
    ["W", "01.1.1.2-01", "400000"],
    ["I", "RICE", "01.1.1.1-01"],
    ["I", "FLOUR", "01.1.1.2-01"],
]
REFERENCES = ["2025-12", "2025-12", "2025-06", "2000-01", "2026-01", "2199-12"]
OTHER_REFERENCES = ["", "1999-12", "2025-13", "2025-6", "2200-01", "01.1"]
WORDS = ["quote"] * 12 + ["quotes", "work", "work", "items", "item", "outlet", "collector", "assign", "assign"]
WORDS += ["calendar", "plan", "plan", "import", "freeze", "table", "tables", "Quote", ""]
NEW_SLOTS = ["6", *map(str, range(8, 25)), "400"]  # of series that are handed over
OF_THE_DESK = ("item", "outlet", "collector", "assign", "calendar", "plan", "freeze", "handover")


def text_of(rows: Iterable[Sequence[object]], end: str = "\n") -> str:
    written = io.StringIO()
    csv.writer(written, lineterminator=end).writerows(rows)
    return written.getvalue()


class Records:
    def __init__(self, drawn: random.Random, count: int, is_handing_over: bool) -> None:
        self.drawn = drawn
        self.count = count
        self.words = WORDS + ["quote"] * 8 + ["handover"] * 4 if is_handing_over else WORDS
        self.confirmed = 20 if is_handing_over else 2  # so that earlier prices decide seldom what is taken
        self.months = MONTHS[:2] * 3 + MONTHS if is_handing_over else MONTHS
        self.slots = ["1", "2", "3", "4", "5"] if is_handing_over else ["1", "2"]
        self.of_begun = (self.slots, [MONTHS[0], MONTHS[-1]]) if is_handing_over else (self.slots, MONTHS[::2])

    def mostly(self, usual: Sequence[T], others: Sequence[T], share: float = 0.9) -> T:
        return self.drawn.choice(usual if self.drawn.random() < share else others)

    def one(self, values: Sequence[T]) -> T:
        return self.drawn.choice(values)

    def month(self) -> str:
        return self.mostly(MONTHS, OTHER_MONTHS)

    def item(self) -> str:
        return self.mostly(ITEMS, OTHER_ITEMS)

    def code(self) -> str:
        return self.mostly(CODES, OTHER_CODES)

    def drop(self, rows: list[Record]) -> None:
        rows.remove(self.one(rows))

    def double(self, rows: list[Record]) -> None:
        rows.append(self.one(rows)[:])

    def change(self, rows: list[Record]) -> None:
        row, texts = self.one(rows), [self.code(), self.item(), self.one(TEXTS), self.one(NUMBERS)]
        row[self.drawn.randrange(1, len(row))] = self.one(texts)

    def add(self, rows: list[Record]) -> None:
        weight = self.one(["0", "1", "400000", "1000000", "1000001"])
        rows.append(self.one([["W", self.code(), weight], ["I", self.mostly(OTHER_ITEMS, ITEMS), self.code()]]))

    def refer(self, rows: list[Record]) -> None:
        """A reference month, now and then of another form, or a second one."""
        for _ in range(self.one([1, 1, 1, 2])):
            rows.append(["R", self.mostly(REFERENCES, OTHER_REFERENCES), *self.one([[]] * 9 + [["x"]])])

    def unweigh(self, rows: list[Record]) -> None:
        for row in rows:
            if row[0] == "W":
                row[2] = self.one([row[2], "0"])

    def displace(self, rows: list[Record]) -> None:
        """Places items at an aggregate without weight."""
        for row in rows:
            if row[0] == "I":
                row[2] = self.one([row[2], "01.1.1.1-02"])

    def plan_body(self) -> str:
        """The plan, with up to two changes."""
        rows = [row[:] for row in PLAN]
        changes: list[Callable[[list[Record]], None]]
        changes = [self.drop, self.double, self.drawn.shuffle, self.change, self.add, self.unweigh, self.displace]
        for change in self.drawn.choices([*changes, self.refer, self.refer], k=self.one([0, 0, 1, 1, 1, 2])):
            change(rows)
        return text_of(rows, self.one(["\n", "\r\n"]))

    def quote(self) -> Record:
        kind = self.one(MARKS)
        value = self.one(REASONS) if kind == "missing" else self.mostly(PRICES[:12], PRICES + NUMBERS)
        share = 0.8 if self.confirmed == 2 else 0.4
        last: Record = self.mostly([[]], [*[["confirm"]] * self.confirmed, ["Confirm"], [""]], share)
        month = self.mostly(self.months, OTHER_MONTHS)
        return [self.mostly(self.slots, [*NEW_SLOTS, *NUMBERS], 0.8), month, kind, value, *self.one([last])]

    def assign(self) -> Record:
        collector, slot = self.mostly(["1", "2", "3", "9"], NUMBERS), self.mostly(["1", "2", "3"], NUMBERS)
        outlet = self.mostly(["10", "11", "12"], NUMBERS)
        return [collector, slot, outlet, self.item(), self.month(), self.month()]

    def handover(self) -> Record:
        """A hand-over of one of the first slots to a slot that may stand."""
        collector, to = (self.mostly(["1", "2", "3"], ["4", "9", *NUMBERS], 0.95) for _ in range(2))
        slot, new_slot = self.mostly(self.slots, ["6", *NUMBERS], 0.95), self.mostly(NEW_SLOTS, ["1", *NUMBERS], 0.95)
        return [collector, slot, to, new_slot, self.mostly(MONTHS[2:], [*MONTHS, *OTHER_MONTHS], 0.7)]

    def calendar(self) -> Record:
        opens = self.one([0, 1000, 1500])
        moments = [opens, opens + self.one([0, 1, 500, 1000]), opens + self.one([500, 1000, 2000])]
        return [self.month(), *(self.mostly([str(moment)], CIVIL) for moment in moments)]

    def table(self) -> Record:
        """A table, in one case of two of a revision."""
        revision: Record = self.one([[], [self.mostly(["1", "2", "9"], NUMBERS)]])
        return [self.month(), self.mostly(["text", "csv"], ["", "Text", "html"]), *revision]

    def freeze(self) -> Record:
        """A freeze of a month that is no December, and so not the first one."""
        return [self.mostly(MONTHS[1:], OTHER_MONTHS), *(self.code() for _ in range(self.one([0, 0, 1, 2])))]

    def import_body(self) -> str:
        rows = [[word, *self.arguments(word)] for word in self.drawn.choices(self.words, k=self.drawn.randrange(5))]
        return self.one(["", "", "\ufeff"]) + text_of(rows, self.one(["\n", "\r\n"]))

    def arguments(self, word: str) -> Record:
        tolerances = [self.mostly(["700"], ["1", "1000", *NUMBERS]), self.mostly(["1500"], ["1000", "10001", *NUMBERS])]
        given: dict[str, Callable[[], Record]] = {
            "quote": self.quote,
            "quotes": lambda: [self.month(), self.month()],
            "work": lambda: [self.month()],
            "table": self.table,
            "freeze": self.freeze,
            "item": lambda: [self.item(), self.one(TEXTS), self.one(TEXTS), *tolerances],
            "outlet": lambda: [self.mostly(["10", "12"], NUMBERS), self.one(TEXTS)],
            "collector": lambda: [self.mostly(["1", "2", "4"], NUMBERS), self.mostly(KEYS, SHAPES_OF_KEYS)],
            "assign": self.assign,
            "handover": self.handover,
            "calendar": self.calendar,
            "plan": lambda: [self.mostly(["2026"], ["2000", "2199", "2200", "1999"]), self.plan_body()],
            "import": lambda: [self.import_body()],
        }
        arguments = given.get(word, list[str])()
        return self.mostly([arguments], [[*arguments, "x"], arguments[:-1]], 0.97)

    def caller(self, word: str) -> str:
        usual = ["desk"] if word in OF_THE_DESK else KEYS[:3]
        return self.mostly(usual, ["public", "desk", *KEYS, *SHAPES_OF_KEYS], 0.92)

    def begun(self) -> Iterator[Record]:
        """The desk's first records."""
        for number, key in enumerate(KEYS[:3], 1):
            yield ["0", "desk", "collector", str(number), key]
        for code in ITEMS:
            yield ["0", "desk", "item", code, f"Text of {code}", "1 kg", "700", "1500"]
        for outlet in (10, 11):
            yield ["0", "desk", "outlet", str(outlet), f"Shop {outlet}"]
        for collector in (1, 2, 3):
            for slot in self.of_begun[0]:
                yield ["0", "desk", "assign", str(collector), slot, "10", self.one(ITEMS), *self.of_begun[1]]
        for month in MONTHS:
            yield ["0", "desk", "calendar", month, "1000", "2000", "3000"]

    def __iter__(self) -> Generator[Record, object, None]:
        yield from self.begun()
        for _ in range(self.count):
            moment = self.mostly(["999", "1000", "1500", "1500", "1999", "2000"], ["9999999999", *NUMBERS], 0.97)
            word = self.one(self.words)
            yield [moment, self.caller(word), word, *self.arguments(word)]

"""Offices for the tests of the desk: a small one whose figures were worked by hand, and a long one.

The long one has fourteen months with replacements of both kinds, missing prices and carry lists, a hand-over of all
that a collector has, a revision, a node that leaves, and in its second year weights that prices moved, or a node that
enters.
"""

from __future__ import annotations

import csv
import io
import random
from collections.abc import Iterator
from pathlib import Path
from typing import NamedTuple

from cpi_tools.office.program import Cpi, Reply, Session, record
from lib.offices import RICE_AND_FLOUR, quoted

DAY = 86_400
MONTHS = ["2025-12", *(f"2026-{number:02}" for number in range(1, 13)), "2027-01", "2027-02"]

REVISED, HANDED = "2026-09", "2026-06"
"""A month with two revisions, and the one from which on another collector has what the third had."""


def key_of(collector: int) -> str:
    return "a" * 28 + f"{collector:04}"


# ---- its files and months


def bytes_of(path: Path) -> dict[str, bytes]:
    """The bytes of an office's file and of its log, by their names."""
    return {path.name: path.read_bytes() for path in path.parent.glob(f"{path.name}*")}


def number_of(month: str) -> int:
    """202601 of `2026-01`."""
    return int(month.replace("-", ""))


# ---- worked by hand: rice in two shops, flour in one

SMALL = f"""0,desk,item,RICE,Rice,1 kg,500,2000
0,desk,item,FLOUR,"Flour, <b>wheat</b>",1 kg,500,2000
0,desk,outlet,10,Corner shop
0,desk,outlet,11,Market hall
0,desk,collector,7,{key_of(7)}
0,desk,collector,8,{key_of(8)}
0,desk,assign,7,1,10,RICE,2025-12,2026-12
0,desk,assign,7,2,10,FLOUR,2025-12,2026-12
0,desk,assign,8,1,11,RICE,2025-12,2026-12
0,desk,calendar,2025-12,0,1000,1000
0,desk,calendar,2026-01,1000,2000,3000
0,desk,calendar,2026-02,2000,4000,5000
0,desk,plan,2026,{quoted(RICE_AND_FLOUR)}
10,{key_of(7)},quote,1,2025-12,price,200
10,{key_of(7)},quote,2,2025-12,price,80
10,{key_of(8)},quote,1,2025-12,price,240
1000,desk,freeze,2025-12
1500,{key_of(7)},quote,1,2026-01,price,210
1500,{key_of(7)},quote,2,2026-01,price,84
1500,{key_of(8)},quote,1,2026-01,price,246
2000,desk,freeze,2026-01
3500,{key_of(7)},quote,1,2026-02,missing,stock
3500,{key_of(7)},quote,2,2026-02,missing,closed
3500,{key_of(8)},quote,1,2026-02,price,252
"""


def small(cpi: Cpi, folder: Path) -> Path:
    """The file of the small office, before the freeze of 2026-02: rice of one shop and flour are missing."""
    path = folder / "small.db"
    refused = [reply for reply in cpi.replay([SMALL], db=path) if "refused" in reply]
    assert not refused
    return path


# ---- fourteen months


class Aggregate(NamedTuple):
    """How many series it has, and its weight in both years, 0 where it isn't in the plan."""

    series: int
    first: int
    second: int


AGGREGATES = {
    "01.1.1.1-01": Aggregate(6, 223_456, 210_000),
    "01.1.1.2-01": Aggregate(2, 76_544, 60_000),
    "01.1.6.1-01": Aggregate(3, 100_000, 130_000),
    "03.1.2.1-01": Aggregate(4, 150_000, 200_000),
    "07.2.2.2-01": Aggregate(5, 250_000, 250_000),
    "11.1.1.1-01": Aggregate(4, 200_000, 0),
    "12.1.1.1-01": Aggregate(2, 0, 150_000),
}
SPARSE, SPARSE_MONTHS = ("01.1.1.2-01", "01.1.6.1-01"), ("2026-03", "2027-01")
"""Aggregates of which every series is missing in these months, so that they need a place on the carry list."""

LEAVES = "11.1.1.1-01"


def opens(month: str) -> int:
    return 1_764_547_200 + MONTHS.index(month) * 31 * DAY


def closes(month: str) -> int:
    return opens(month) + 24 * DAY


def publishes(month: str) -> int:
    return opens(month) + 28 * DAY


def item_of(code: str) -> str:
    return "I" + code.replace(".", "").replace("-", "")


def plan_of(year: int, is_moved: bool) -> str:
    """A year's plan. One with moved weights can't have a new aggregate, so its weight is another's then."""
    weights = {code: aggregate.first if year == 2026 else aggregate.second for code, aggregate in AGGREGATES.items()}
    weights = {code: weight for code, weight in weights.items() if weight}
    if is_moved and year == 2027:
        weights["01.1.6.1-01"] += weights.pop("12.1.1.1-01")
    nodes = {"00", *(code[:end] for code in weights for end in (2, 4, 6, 8, 11))}
    rows = [record("T", code, f"Node, {code}") for code in sorted(nodes)]
    rows += [record("W", code, weight) for code, weight in weights.items()]
    rows += [record("I", item_of(code), code) for code in weights]
    return "\n".join([*rows, *(["R,2026-06"] if is_moved and year == 2027 else [])]) + "\n"


class Life:
    """The long office while it lives: who has which slot with which aggregate, what was sent last for each, and the
    carry list of each freeze."""

    def __init__(self, session: Session, is_moved: bool):
        self.session, self.is_moved = session, is_moved
        self.draw = random.Random(1)
        self.slots: dict[tuple[int, int], str] = {}
        self.last: dict[tuple[int, int], int] = {}
        self.carried: dict[str, list[str]] = {}

    def must(self, at: int, caller: str, *fields: object) -> Reply:
        """A reply that is no refusal."""
        reply = self.session.ask(record(at, caller, *fields))
        assert "refused" not in reply, (fields, reply)
        return reply

    def begin(self) -> None:
        """Registers all, and gives out the slots."""
        for code in AGGREGATES:
            self.must(0, "desk", "item", item_of(code), f"Thing of {code}", "1 kg", 600, 1600)
        for number in (1, 2, 3, 9):
            self.must(0, "desk", "outlet", number, f"Shop {number}, harbour")
            self.must(0, "desk", "collector", number, key_of(number))
        for code, aggregate in AGGREGATES.items():
            for turn in range(aggregate.series):
                collector = turn % 3 + 1
                slot = 1 + sum(each[0] == collector for each in self.slots)
                last = "2026-12" if code == LEAVES else "2027-12"
                self.must(0, "desk", "assign", collector, slot, collector, item_of(code), "2025-12", last)
                self.slots[collector, slot] = code

    def quote(self, month: str, place: tuple[int, int]) -> None:
        """A quote of a slot: mostly a price near the last one, at times missing, a replacement, or nothing."""
        chance, last, at, key = self.draw.random(), self.last.get(place), opens(month), key_of(place[0])
        if last is None:
            self.price(at, key, place, month, "price", self.draw.randrange(100, 900))
        elif chance < 0.04:
            return
        elif chance < 0.16 or (self.slots[place] in SPARSE and month in SPARSE_MONTHS):
            reason = self.draw.choice(["stock", "closed", "gone", "refused"])
            self.must(at, key, "quote", place[1], month, "missing", reason)
        elif chance < 0.24:
            self.price(at, key, place, month, "other", max(1, int(last * self.draw.uniform(0.5, 2))))
        else:
            times = self.draw.uniform(0.9, 1.12) if chance < 0.985 else 2
            self.price(at, key, place, month, "comparable" if chance < 0.3 else "price", max(1, int(last * times)))

    def price(self, at: int, key: str, place: tuple[int, int], month: str, mark: str, price: int) -> None:
        """Sends a price."""
        confirm = [] if mark == "other" else ["confirm"]
        self.must(at, key, "quote", place[1], month, mark, price, *confirm)
        self.last[place] = price

    def hand_over(self) -> None:
        """All of the third collector goes to the ninth."""
        for turn, (collector, slot) in enumerate([slot for slot in self.slots if slot[0] == 3], 1):
            self.must(0, "desk", "handover", collector, slot, 9, turn, HANDED)
            self.slots[9, turn] = self.slots.pop((collector, slot))
            self.last[9, turn] = self.last[collector, slot]

    def freeze(self, month: str) -> None:
        """Freezes a month with what the refusals name."""
        carry: list[str] = []
        while (reply := self.session.ask(record(closes(month), "desk", "freeze", month, *carry))) != {"done": True}:
            assert reply.get("fault") == 2, reply
            carry.append(reply["code"])
        self.carried[month] = carry

    def revise(self, month: str) -> None:
        """Reopens a month, puts a price right, and freezes it again."""
        self.must(0, "desk", "calendar", month, opens(month), closes(month), publishes(month) + DAY)
        place = next(it for it, code in self.slots.items() if code == "07.2.2.2-01")
        self.price(opens(month), key_of(place[0]), place, month, "price", self.last[place] + 7)
        self.freeze(month)

    def live(self, month: str, is_frozen: bool) -> None:
        """A month, with its freeze or without."""
        self.must(0, "desk", "calendar", month, opens(month), closes(month), publishes(month))
        if month.endswith("-01"):
            self.must(0, "desk", "plan", month[:4], plan_of(int(month[:4]), self.is_moved))
        if month == HANDED:
            self.hand_over()
        for place, code in [*self.slots.items()]:
            if code != LEAVES or month <= "2026-12":
                self.quote(month, place)
        if is_frozen:
            self.freeze(month)
        if is_frozen and month == REVISED:
            self.revise(month)


def long(cpi: Cpi, path: Path, until: str = "", is_moved: bool = True) -> Life:
    """The long office in a file: up to a month that isn't frozen yet, or all of it."""
    with cpi.session(db=path) as session:
        life = Life(session, is_moved)
        life.begin()
        for month in MONTHS[: MONTHS.index(until) + 1 if until else None]:
            life.live(month, month != until)
    return life


def levels_of(table: str) -> Iterator[tuple[str, str]]:
    """Code and index within the year of each row of a table as CSV."""
    yield from ((row[0], row[2]) for row in csv.reader(io.StringIO(table, newline="")))

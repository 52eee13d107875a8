"""The prices of a month to check, worst first, each with why: filters, order, and the desk's marks on them."""

from __future__ import annotations

import errno
import json
import os
import threading
import time
from collections import defaultdict
from collections.abc import Callable, Collection, Iterator, Mapping, Sequence
from pathlib import Path
from typing import Any, NamedTuple, Optional

from ...office.stored import COMPARABLE, OBSERVED, Assignment, Series
from ...text.exact import decimal, tenths
from ...text.message import Message, message as _, message, row, sentences, whole
from ...text.terminal import Fault, because_of, naming, slot_text
from ..field.field_questions import ANSWERED, OPEN
from ..month.facts import Facts
from ..month.unusual import ALONE, CONFIRMED, OF_AGGREGATE, OF_DIVISION, OTHER, Unusual, estimates, to_look_at
from ..serve.faults import of_system


# ==== marks of the desk's people on prices: `seen`, which is for one person, and notes, which all of them read
#
# A file that is only appended to, a JSON object a line. Each is for one price in one month: if another price comes, it
# needs another check.

SEEN, UNSEEN, NOTE = "seen", "unseen", "note"

MOST_LETTERS = 1_000
"""Letters of a note."""


class Price(NamedTuple):
    """The stored price of a slot in a month, in minor units."""

    month: int
    collector: int
    slot: int
    price: int


class Mark(NamedTuple):
    """A person's mark: the moment in seconds since 1970 UTC, the person, the price, SEEN, UNSEEN or NOTE, the text."""

    at: int
    by: str
    of: Price
    what: str
    text: str


class Marks:
    """The file, and its content."""

    def __init__(self, path: Path):
        self._path, self._lock = path, threading.Lock()
        self._all = list[Mark]()
        try:
            data = path.read_bytes() if path.exists() else b""
            whole = data[: data.rfind(b"\n") + 1]
            if whole != data:
                # (a line that a crash cut off: nobody was told that it is noted)
                os.truncate(path, len(whole))
        except OSError as fault:
            raise Fault(because_of(fault)) from fault
        for place, line in enumerate(whole.split(b"\n")[:-1], 1):
            try:
                at, by, of, what, text = json.loads(line)
                self._all.append(Mark(at, by, Price(*of), what, text))
            except (ValueError, TypeError) as fault:
                raise Fault(f"{path}: line {place} isn't as it was written: put the file aside") from fault

    def add(self, by: str, of: Price, what: str, text: str = "") -> None:
        """Notes something; it is on the disk afterwards. Raises Fault."""
        if len(text) > MOST_LETTERS:
            places = {"most": whole(MOST_LETTERS), "count": whole(len(text))}
            raise Fault(_("A note can have at most {most} characters, and this one has {count}.", **places))
        self._add([Mark(int(time.time()), by, of, what, text)])

    def add_all(self, by: str, prices: Sequence[Price], what: str) -> None:
        """Notes that a person has seen some prices, or hasn't; it is on the disk afterwards. Raises Fault."""
        now = int(time.time())
        self._add([Mark(now, by, of, what, "") for of in prices])

    def _add(self, made: Sequence[Mark]) -> None:
        with self._lock:
            self._append(b"".join(json.dumps(mark).encode() + b"\n" for mark in made))
            self._all += made

    def _append(self, lines: bytes) -> None:
        """Appends all of some lines, or nothing."""
        try:
            with naming(self._path):
                opened = os.open(self._path, os.O_WRONLY | os.O_CREAT | os.O_APPEND, 0o600)
                with os.fdopen(opened, "wb", buffering=0) as file:
                    before = os.fstat(opened).st_size
                    if file.write(lines) != len(lines):
                        os.ftruncate(opened, before)
                        raise OSError(errno.ENOSPC, os.strerror(errno.ENOSPC))
                    os.fsync(opened)
        except OSError as fault:
            raise Fault(_("Nothing was noted: {fault}", fault=of_system(fault))) from fault

    def seen_by(self, person: str, month: int) -> set[Price]:
        """The prices of a month that a person has seen."""
        prices = set[Price]()
        for it in self._all:
            if it.by == person and it.of.month == month and it.what in (SEEN, UNSEEN):
                (prices.add if it.what == SEEN else prices.discard)(it.of)
        return prices

    def seen_by_anybody(self, month: int) -> set[Price]:
        """The prices of a month that somebody has seen."""
        latest = {(it.by, it.of): it.what for it in self._all if it.of.month == month and it.what in (SEEN, UNSEEN)}
        return {price for (_by, price), what in latest.items() if what == SEEN}

    def last_of(self, month: int) -> tuple[str, int]:
        """The person who marked a price of a month last, and the time in seconds since 1970 UTC; nobody, if nobody
        did."""
        return next(((mark.by, mark.at) for mark in reversed(self._all) if mark.of.month == month), ("", 0))

    def notes_of(self, month: int) -> dict[Price, list[Mark]]:
        """The notes on prices of a month, the first ones first."""
        notes: dict[Price, list[Mark]] = {}
        for it in self._all:
            if it.of.month == month and it.what == NOTE:
                notes.setdefault(it.of, []).append(it)
        return notes


# ==== the prices of a month to check, worst first, each with why, and with a question for its collector
#
# The rule of `cpi-tools desk month` says which are unusual. The order is by an estimate of how far a price moves all
# items, which is shown, as one, to the person who confirms a freeze.

ASK = {
    CONFIRMED: message(
        "The price was confirmed although it is far from the last one: what is the price on the shelf, and for "
        "which quantity?"
    ),
    OTHER: message(
        "Another product was priced: which one, how much does it contain, and why is the" " previous one gone?"
    ),
    ALONE: message("No other price of its kind could be compared, so please check this one twice."),
}
ASK_ELSE = message("The price changed far more than the others of its kind: is it the same product, quantity and unit?")


class Other(NamedTuple):
    """A price of the same item elsewhere: its outlet, the price in minor units, and its change in percent as a text,
    which is empty if it can't be compared."""

    outlet: str
    price: int
    percent: str


class Look(NamedTuple):
    """A price to check: its collector, its series, its aggregate, its item and outlet, the last price and this one in
    minor units, the change in percent as a text (empty if it can't be compared), why, what to ask, by how many
    millionths of a point all items would move without it, by the estimate; the monthly change of its aggregate in
    percent as a text, and the prices of the same item elsewhere, by outlet."""

    slot: tuple[int, int]
    series: Series
    code: str
    item: str
    outlet: str
    last: Optional[int]
    price: int
    percent: str
    why: list[Message]
    ask: list[Message]
    weight: int
    aggregate: str = ""
    others: tuple[Other, ...] = ()

    @property
    def name(self) -> str:
        """`7/2`."""
        return slot_text(self.slot)

    @property
    def says(self) -> Message:
        """Why to check it, and what to ask, in sentences."""
        return sentences(message("Why: {reasons}.", reasons=row(self.why)), *self.ask)


def looks_of(facts: Facts, width: int) -> list[Look]:
    """The prices of a month to check, worst first; `width` is the fences' width, in percent."""
    beside = _Beside(facts)
    looks = [_look(facts, unusual_price, beside) for unusual_price in to_look_at(facts, width)]
    return sorted(looks, key=lambda look: (-abs(look.weight), CONFIRMED not in look.why, look.slot))


class _Beside:
    """The facts next to a price: the estimate of how far it moves all items, its aggregate, and the same item
    elsewhere."""

    def __init__(self, facts: Facts):
        self._facts, self._moves = facts, dict(_moves(facts))
        self._by_item: dict[str, list[Assignment]] = defaultdict(list)
        for slot in facts.slots:
            self._by_item[slot.item].append(slot)

    def estimate_effect(self, series: Series) -> int:
        """By how many millionths of a point a series moves all items, by the estimate; 0 without one."""
        return self._moves.get(series, 0)

    def aggregate(self, code: str) -> str:
        """The change of an aggregate on the month before in percent as a text."""
        row = self._facts.rows.get(code)
        return tenths(row.month_change) if row else ""

    def others(self, slot: Assignment) -> tuple[Other, ...]:
        """The prices of the item of a slot in its other slots."""
        found = [self._other(assignment) for assignment in self._by_item[slot.item] if assignment[:2] != slot[:2]]
        return tuple(sorted(it for it in found if it))

    def _other(self, slot: Assignment) -> Optional[Other]:
        quote = self._facts.quote(slot)
        if not quote or quote.mark not in OBSERVED:
            return None
        last = self._facts.last.get(slot[:2]) if quote.mark in COMPARABLE else None
        return Other(self._facts.outlets[slot.outlet], quote.value, change_of(last, quote.value))


def change_of(last: Optional[int], price: int) -> str:
    """The change from a price to another in percent as a text; empty without a last price."""
    return decimal(100 * (price - last), last, 1) if last else ""


def _moves(facts: Facts) -> Iterator[tuple[Series, int]]:
    """The estimate of each comparable price of a frozen month."""
    for code in facts.samples:
        yield from ((series, moved) for moved, series in estimates(facts, code))


def _look(facts: Facts, unusual_price: Unusual, beside: _Beside) -> Look:
    slot, why = unusual_price.slot, unusual_price.why
    place = facts.place_cells(slot)
    ask = [*dict.fromkeys(ASK.get(each, ASK_ELSE) for each in why)]
    known = (slot[:2], slot.series, place[1], place[2], place[3])
    moved, others = beside.estimate_effect(slot.series), beside.others(slot)
    return Look(
        *known,
        unusual_price.last,
        unusual_price.price,
        unusual_price.percent,
        why,
        ask,
        moved,
        beside.aggregate(place[1]),
        others,
    )


# ==== the prices to check that a page shows: their filters, their order, and the first one
#
# A page begins after a price, not at a number: in the meantime the earlier prices may have been marked, so that the
# list no longer shows them.

SHOWN = 50
"""Prices of a page."""

NOT_SEEN, ALREADY_SEEN, ALL = "", "seen", "all"

REASONS: dict[str, Message] = {
    "confirmed": CONFIRMED,
    "aggregate": OF_AGGREGATE,
    "division": OF_DIVISION,
    "quality": OTHER,
    "single": ALONE,
}
"""Why a price needs a check, by its word in an address."""

ORDERS: dict[str, Message] = {
    # t: an order of prices to look at: by how far each moves the index of all items
    "": _("Effect on all items"),
    # t: an order of prices: by the size of their change
    "change": _("Change"),
    "item": _("Item"),
    "code": _("Aggregate"),
    "slot": _("Collector and slot"),
}
"""In which order they are, by the word that an address has for it."""

SHOWS: dict[str, Message] = {NOT_SEEN: _("Not seen by me"), ALREADY_SEEN: _("Seen by me"), ALL: _("All of them")}
"""The choices of prices to show, by their words in an address."""

ASKED_SOME = "some"
ASKED: dict[str, Message] = {
    # t: of prices: the desk has put a question to their collectors
    ASKED_SOME: _("Asked about"),
    OPEN: _("No answer yet"),
    # t: of prices: their collectors have answered the desk's question
    ANSWERED: _("Answered"),
}
"""The state of the question about a price, by its word in an address."""

SORTED_BY: dict[str, Callable[[Look], Any]] = {
    "change": lambda it: -abs(float(it.percent or 0)),
    "item": lambda it: (str(it.item).casefold(), it.slot),
    "code": lambda it: it.code,
    "slot": lambda it: it.slot,
}
"""The keys of the orders; without one they are as they come, those first that move all items most."""


class Chosen(NamedTuple):
    """An address's choice: which prices are shown (a key of SHOWS), of which reason, division and collector, about
    which a collector was asked (a key of ASKED), in which order, after or before which price, and which one only; each
    is empty if the address doesn't say it."""

    show: str = ""
    reason: str = ""
    division: str = ""
    who: str = ""
    asked: str = ""
    sort: str = ""
    after: str = ""
    before: str = ""
    only: str = ""

    @property
    def query(self) -> dict[str, str]:
        """Its form in an address."""
        return {name: text for name, text in self._asdict().items() if text}

    @property
    def filters(self) -> dict[str, str]:
        """The filters without a place, so that the list begins with the first price."""
        return self._replace(after="", before="", only="").query

    def has(self, look: Look, is_seen: bool, question: str = "") -> bool:
        """Whether a price is one of those that are shown; `question` is what has become of the question about it."""
        if self.only:
            return key_of(look) == self.only
        if self.show != ALL and is_seen != (self.show == ALREADY_SEEN):
            return False
        return (
            (not self.reason or REASONS[self.reason] in look.why)
            and look.code.startswith(self.division)
            and self.who in ("", str(look.slot[0]))
            and (not self.asked or self.asked == question or (self.asked == ASKED_SOME and question != ""))
        )


class Part(NamedTuple):
    """The prices of a page, how many there are by its filters, and the words of an address for those before and after
    it, which are None if there are none."""

    looks: list[Look]
    number: int
    earlier: Optional[dict[str, str]]
    further: Optional[dict[str, str]]


def key_of(look: Look) -> str:
    """A price in an address: `8-1`."""
    return f"{look.slot[0]}-{look.slot[1]}"


def chosen_of(asked: Mapping[str, str]) -> Chosen:
    """The choice of an address or a form; words that none of these pages uses are ignored."""
    known = Chosen(**{name: asked.get(name, "") for name in Chosen._fields})
    show = ALL if asked.get("all") else known.show
    return known._replace(
        show=show if show in SHOWS else NOT_SEEN,
        reason=known.reason if known.reason in REASONS else "",
        asked=known.asked if known.asked in ASKED else "",
        sort=known.sort if known.sort in SORTED_BY else "",
    )


NO_QUESTIONS: Mapping[tuple[int, int], str] = {}


def part_of(
    looks: Sequence[Look],
    seen: Collection[tuple[int, int]],
    chosen: Chosen,
    asked: Mapping[tuple[int, int], str] = NO_QUESTIONS,
) -> Part:
    """The part of all prices that a page shows; `seen` contains the slots of the prices that the person has seen, and
    `asked` the state of the question about each slot."""
    ordered = sorted(looks, key=SORTED_BY[chosen.sort]) if chosen.sort else [*looks]
    fits = [chosen.has(look, look.slot in seen, asked.get(look.slot, "")) for look in ordered]
    by_filters = chosen._replace(only="")
    places = {key_of(it): at for at, it in enumerate(ordered)}
    wanted = [at for at, is_one in enumerate(fits) if is_one]
    # (a price that isn't there any more is no place, and those from the first one on are shown)
    after, before = places.get(chosen.after, -1), places.get(chosen.before, len(ordered))
    if before < len(ordered):
        shown = [at for at in wanted if at < before][-SHOWN:]
    else:
        shown = [at for at in wanted if at > after][:SHOWN]
    first, last = (shown[0], shown[-1]) if shown else (after + 1, after)
    earlier = {**chosen.filters, "before": key_of(ordered[first])} if first < len(ordered) else dict(chosen.filters)
    further = {**chosen.filters, "after": key_of(ordered[last])} if last >= 0 else {}
    return Part(
        [ordered[at] for at in shown],
        sum(by_filters.has(look, look.slot in seen, asked.get(look.slot, "")) for look in ordered),
        earlier if any(at < first for at in wanted) else None,
        further if any(at > last for at in wanted) else None,
    )

"""A collector's phone, which sends like the page of web/collect: the entries that it keeps, the order of its requests,
and the times of its retries.

It follows send.js, store.js, kept-lists.js and lists.js of the page, rule by rule, and shares no code with them.
"""

from __future__ import annotations

from collections.abc import Callable
from typing import Any, NamedTuple, Optional

from .asked import Asked
from .known import Known, Stored, stored_of

ROWS = 50
FIRST_WAIT, LONGEST_WAIT = 60, 900
FOR_A_WHILE = (21, 22, 23, 24)
OF_ALL = (11, 90)


class NoAnswer(Exception):
    """No answer from the office came."""


class Entry(NamedTuple):
    """An entry that the office hasn't stored, as far as the phone knows."""

    month: str
    slot: int
    mark: str
    value: str
    is_confirmed: bool
    version: int
    at: int
    seen: int
    mine: tuple[tuple[str, str], ...] = ()
    state: str = "waiting"
    reply: Any = None
    tried: int = 0
    times: int = 0
    had: int = 0
    """The receipt that the office gave to the entry, if it has been restored from a copy since."""

    @property
    def place(self) -> tuple[str, int]:
        return self.month, self.slot

    def row(self) -> str:
        """The row of an import."""
        return f"quote,{self.slot},{self.month},{self.mark},{self.value}{',confirm' if self.is_confirmed else ''}"

    def is_due(self, now: int, is_all: bool) -> bool:
        """Whether the entry should be sent now."""
        if self.state == "waiting":
            return True
        if self.state != "refused" or self.reply["refused"] not in FOR_A_WHILE:
            return False
        return is_all or now - self.tried >= min(LONGEST_WAIT, FIRST_WAIT * 2**self.times)


def has_moved_on(entry: Entry, quote: Optional[Stored]) -> bool:
    """Whether another device has stored a quote since the entry was made."""
    if quote is None or quote.receipt == entry.seen:
        return False
    return quote.quote not in [(entry.mark, entry.value), *entry.mine]


class Phone:
    """A phone with a key; `send` asks the office."""

    def __init__(self, key: str, send: Callable[[Asked], Any]) -> None:
        self.key, self.send = key, send
        self.queue: dict[tuple[str, int], Entry] = {}
        self.back: dict[tuple[str, int], Entry] = {}
        """The entries that an office restored from a copy lacks; they are sent before own entries of their slots."""
        self.lists: dict[str, Known] = {}  # by month
        self.top = 0
        """The greatest receipt that the office has given."""
        self.versions = 0
        self.fresh: set[int] = set()
        self.forgets = False  # a wrong phone: what was sent is gone, whether an answer came or not
        self.mixes = False  # a wrong phone: if a part of its rows was answered, it takes all for answered
        self.trusts = False  # a wrong phone: it never sees that the office was restored

    # ---- what the collector does

    def save(self, month: str, slot: int, mark: str, value: str, now: int, is_confirmed: bool = False) -> Entry:
        """Keeps an entry in place of the earlier entry of its slot and month."""
        lost = self.back.pop((month, slot), None)
        before, stored = self.queue.get((month, slot), lost), self.receipt(month, slot)
        mine = (*before.mine, (before.mark, before.value)) if before else ()
        seen = max(before.seen if before else 0, stored)
        if before and before.state == "moved":
            seen = max(seen, before.reply)
        self.versions += 1
        entry = Entry(month, slot, mark, value, is_confirmed, self.versions, now, seen, mine)
        self.queue[month, slot] = entry
        return entry

    def receipt(self, month: str, slot: int) -> int:
        """The receipt that the kept list has for a slot, or 0."""
        quote = self.lists[month].quotes.get(slot) if month in self.lists else None
        return quote.receipt if quote else 0

    def holds(self, month: str, slot: int) -> bool:
        """Whether the phone has an entry that the office hasn't stored."""
        return (month, slot) in self.queue or (month, slot) in self.back

    def to_do(self, month: str) -> list[int]:
        """The slots of the list that have neither a receipt nor an entry on the phone."""
        slots = [row[0] for row in self.lists[month].work] if month in self.lists else []
        return [slot for slot in slots if not self.receipt(month, slot) and not self.holds(month, slot)]

    # ---- what the page does

    def sync(self, now: int, is_all: bool = False) -> bool:
        """Sends the entries that are due; returns whether the office accepted all of them. Raises NoAnswer."""
        if not self.look_up(now, is_all):
            return False
        done: set[int] = set()
        while True:
            due = [*self.back.values(), *sorted(self.queue.values(), key=lambda entry: (entry.at, entry.slot))]
            sent = [entry for entry in due if entry.is_due(now, is_all) and entry.version not in done][:ROWS]
            if not sent:
                return True
            done.update(entry.version for entry in sent)
            rows = self.imported(sent)
            if rows is None:
                return False
            end = next((at for at, row in enumerate(rows) if row.get("refused") in OF_ALL), len(rows))
            for entry, row in list(zip(sent, rows))[:end]:
                self.settle(entry, row, now)
            if end < len(rows):
                if self.mixes:
                    self.drop(sent)
                return False

    def imported(self, sent: list[Entry]) -> Optional[list[Any]]:
        """The replies to the rows of an import, or None if the whole import was refused."""
        reply = self.send(Asked(self.key, ("import", "".join(entry.row() + "\n" for entry in sent))))
        if self.forgets:
            self.drop(sent)
        if reply is None or "rows" not in reply and reply.get("refused") not in OF_ALL:
            self.fresh.clear()
            raise NoAnswer
        self.fresh.difference_update(entry.version for entry in sent)
        rows: Optional[list[Any]] = reply.get("rows")
        return rows

    def drop(self, sent: list[Entry]) -> None:
        """Forgets entries, as only a wrong phone does."""
        for entry in sent:
            (self.back if entry.had else self.queue).pop(entry.place, None)

    def settle(self, sent: Entry, reply: Any, now: int) -> None:
        """Acts on the answer to an entry."""
        queue, receipt = self.back if sent.had else self.queue, reply.get("receipt")
        entry = queue.get(sent.place)
        if receipt:
            self.stored(sent.month, Stored(sent.slot, sent.mark, sent.value, receipt))
            if not sent.had:
                self.back.pop(sent.place, None)
        if entry is None:
            return
        if entry.version != sent.version:
            queue[sent.place] = entry._replace(seen=receipt or entry.seen)
        elif receipt:
            del queue[sent.place]
        else:
            is_same = entry.state == "refused" and entry.reply["refused"] == reply["refused"]
            times = entry.times + 1 if is_same else 0
            queue[sent.place] = entry._replace(state="refused", reply=reply, tried=now, times=times)

    def stored(self, month: str, stored: Stored) -> None:
        """Notes a receipt of the office; one that isn't greater than all earlier ones makes the phone doubt its
        lists."""
        known = self.lists.get(month)
        is_known = known is not None and known.quotes.get(stored.slot) == stored
        if stored.receipt <= self.top and not is_known:
            self.doubt()
        self.top = max(self.top, stored.receipt)
        if known:
            known.mark(stored)

    @property
    def is_in_doubt(self) -> bool:
        """Whether the office may lack something of a list."""
        return any(known.is_doubted for known in self.lists.values())

    def doubt(self) -> None:
        """Notes that the office may lack something of each list."""
        for known in self.lists.values():
            known.is_doubted = not self.trusts

    def look_up(self, now: int, is_all: bool) -> bool:
        """Looks up the office's quotes for entries that weren't sent at once; False if that is refused."""
        late = [entry for entry in self.entries() if entry.is_due(now, is_all) and entry.version not in self.fresh]
        for month in sorted({entry.month for entry in late}):
            reply = self.asked("quotes", month, month)
            if "quotes" not in reply:
                return False
            quotes = stored_of(reply["quotes"], month)
            self.keep(month, quotes, now)
            for entry in [
                entry for entry in self.entries() if entry.month == month and entry.version not in self.fresh
            ]:
                quote = quotes.get(entry.slot)
                if entry.is_due(now, is_all) and has_moved_on(entry, quote):
                    assert quote
                    queue = self.back if entry.had else self.queue
                    queue[entry.place] = entry._replace(state="moved", reply=quote.receipt, tried=now)
        return True

    def entries(self) -> list[Entry]:
        """All entries that the office hasn't stored, as far as the phone knows."""
        return [*self.back.values(), *self.queue.values()]

    def keep(self, month: str, quotes: dict[int, Stored], now: int) -> None:
        """Compares the office's quotes of a month with the known ones; missing ones are sent again."""
        known = self.lists.get(month)
        if known is None:
            return
        if self.trusts:
            known.quotes = {**known.quotes, **quotes}
            return
        is_back, lost = known.compare(quotes)
        if is_back:
            self.doubt()
        known.is_doubted = False
        for it, seen in lost:
            self.put_back(month, it, seen, now)
        self.top = max((each.greatest for each in self.lists.values()), default=0) if is_back else self.top
        self.top = max(self.top, known.greatest)

    def put_back(self, month: str, lost: Stored, seen: int, now: int) -> None:
        """Makes an entry of a quote that the office lacks; an own entry of its slot is sent after it."""
        own = self.queue.get((month, lost.slot))
        if own:
            self.queue[month, lost.slot] = own._replace(seen=seen, mine=(*own.mine, lost.quote))
        self.versions += 1
        entry = Entry(month, lost.slot, *lost.quote, True, self.versions, at=now, seen=seen, had=lost.receipt)
        self.back[month, lost.slot] = entry

    def refresh(self, month: str, now: int) -> bool:
        """Asks for the work list of a month, and for the quotes of each known month; returns whether there is a list.
        Raises NoAnswer."""
        reply = self.asked("work", month)
        months = sorted({month, *(name for name, known in self.lists.items() if known.is_doubted)})
        quotes = self.asked("quotes", months[0], months[-1])
        if "work" not in reply or "quotes" not in quotes:
            return False
        if month not in self.lists:
            self.lists[month] = Known(reply["work"], {})
        self.lists[month].work = reply["work"]
        for each in months:
            self.keep(each, stored_of(quotes["quotes"], each), now)
        return True

    def asked(self, *words: str) -> Any:
        """The reply to a question. Raises NoAnswer."""
        reply = self.send(Asked(self.key, words))
        if reply is None:
            raise NoAnswer
        return reply

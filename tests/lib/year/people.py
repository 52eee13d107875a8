"""The senders of prices: collectors with phones, who follow the page's list, and offices that send files."""

from __future__ import annotations

from typing import Any, Protocol

from lib.offices import key_of

from .asked import Asked
from .moments import DAY, HOUR, MINUTE, Month
from .phone import NoAnswer, Phone
from .world import Quote, World

LONGEST, WANTED = 15 * MINUTE, 5 * MINUTE
FAR, NO_PRICE = 26, 25


class Around(Protocol):
    """The surroundings of people."""

    world: World

    @property
    def now(self) -> int:
        """The current moment."""

    def at(self, moment: int, work: Any, *of: Any) -> None:
        """Schedules work for a later moment."""

    def ask(self, who: str, asked: Asked) -> Any:
        """The reply of the office, or None."""

    def met(self, kind: str) -> None:
        """Notes that a fault of a kind has hit somebody."""

    def wrote(self, collector: int, month: str, slot: int, quote: Quote) -> None:
        """Notes that somebody has written down the price in a slot."""

    def watch(self, collector: int, sheet: "dict[tuple[str, int], Quote]", held: Any) -> None:
        """Checks that everything that a collector has written is on the phone, or stored."""


class Collector:
    """A collector with a phone."""

    def __init__(self, number: int, around: Around) -> None:
        self.number, self.around = number, around
        self.name = f"collector {number}"
        self.phone = Phone(key_of(number), self._send)
        self.offline_until = self.tries = self.timer = 0
        self.drawn = around.world.drawn("person", number)
        self.sheet: dict[tuple[str, int], Quote] = {}
        """The last quote that was written, by month and slot."""
        self.wants_lists = False
        self.is_moved = False
        """Whether the office has moved since this collector compared list and sheet."""

    def _send(self, asked: Asked) -> Any:
        return None if self.around.now < self.offline_until else self.around.ask(self.name, asked)

    def goes_offline(self, until: int) -> None:
        """The phone is offline until then, and tries again once it is online."""
        self.offline_until = until
        self.around.at(until, self.sync)

    def visit(self, month: Month, share: float) -> None:
        """Checks the list of the month, and writes down a share of the open slots."""
        if not self.is_moved:
            self.around.watch(self.number, self.sheet, {*self.phone.queue, *self.phone.back})
        self._refresh(month)
        slots = self.phone.to_do(month.name)
        for at, slot in enumerate(slots[: round(len(slots) * share + 0.5)]):
            self.around.at(self.around.now + (at + 1) * MINUTE, self.enter, month, slot)

    def enter(self, month: Month, slot: int) -> None:
        """Writes down the price in a slot: now and then a wrong one, which is corrected later."""
        quote = self.around.world.quote(self.number, slot, month)
        if quote.mark == "price" and self.drawn.random() < 0.12:
            self.around.at(self.around.now + 5 * HOUR, self.write, month, slot, quote)
            quote = quote._replace(value=str(int(quote.value) + 1))
        self.write(month, slot, quote)

    def write(self, month: Month, slot: int, quote: Quote, is_confirmed: bool = False) -> None:
        """Saves an entry. If the page is in touch, it is sent without a check of the stored quotes."""
        self.sheet[month.name, slot] = quote
        self.around.wrote(self.number, month.name, slot, quote)
        has_line = self.around.now >= self.offline_until and not self.tries
        entry = self.phone.save(month.name, slot, *quote, now=self.around.now, is_confirmed=is_confirmed)
        if has_line and not entry.mine:
            self.phone.fresh.add(entry.version)
        self.sync()

    def sync(self, is_all: bool = False) -> None:
        """Sends the entries that are due, and tries again later if they aren't answered."""
        try:
            is_done = self.phone.sync(self.around.now, is_all)
        except NoAnswer:
            is_done = False
        if not is_done:
            self.tries += 1
            self.timer += 1
            wait = min(LONGEST, MINUTE * 2 ** min(self.tries, 5))
            self.around.at(self.around.now + wait, self._later, self.timer)
            return
        self.tries = 0
        self._want_lists()
        self._look()

    def _want_lists(self) -> None:
        """Asks for the page's lists, if it doubts one of them; again, if they don't come."""
        if self.phone.is_in_doubt and not self.wants_lists:
            self.wants_lists = True
            self.around.at(self.around.now + WANTED, self._ask_for_lists)

    def _ask_for_lists(self) -> None:
        self.wants_lists = False
        if self.phone.is_in_doubt:
            self._refresh(self.month())

    def month(self) -> Month:
        """The month that the page shows."""
        return max(month for month in self.around.world.months if month.begins <= self.around.now)

    def _later(self, timer: int) -> None:
        """The page has one timer: a later try takes the place of this one."""
        if timer == self.timer and self.tries:
            self.sync()

    def _look(self) -> None:
        """Decides about entries that the office refused, or that another device has overtaken."""
        for entry in self.phone.entries():
            name, slot = entry.place
            month = next(month for month in self.around.world.months if month.name == name)
            quote = Quote(entry.mark, entry.value)
            refusal = entry.reply["refused"] if entry.state == "refused" else 0
            if refusal == FAR:
                self.write(month, slot, quote, is_confirmed=True)
            elif refusal == NO_PRICE:
                self.write(month, slot, quote._replace(mark="price"))
            elif entry.state == "moved":
                self.write(month, slot, quote)

    def look_again(self, month: Month) -> None:
        """After the office has moved to another machine the page asks for its lists, and sends the missing entries
        again."""
        if not self._refresh(month):
            self.around.at(self.around.now + LONGEST, self.look_again, month)
            return
        self.is_moved = False
        self.sync(is_all=True)

    def _refresh(self, month: Month) -> bool:
        """Sends the waiting entries, and asks for the lists; returns whether they came."""
        self.sync(is_all=True)
        try:
            return self.phone.refresh(month.name, self.around.now)
        except NoAnswer:
            return False

    def holds(self, month: str, slot: int) -> bool:
        """Whether the phone still holds an entry, and says why it isn't stored."""
        return self.phone.holds(month, slot)


class Sender:
    """An office that sends a file of prices each month, and keeps it for two days after a backup."""

    def __init__(self, number: int, around: Around) -> None:
        self.number, self.around = number, around
        self.name, self.key = f"sender {number}", key_of(number)
        self.files: list[tuple[int, Month, str]] = []
        self.waiting: list[str] = []
        self.refused: set[str] = set()
        self.keeps = True

    def send_month(self, month: Month) -> None:
        """Makes the file of a month and sends it."""
        reply = self.around.ask(self.name, Asked(self.key, ("work", month.name)))
        if not reply or "work" not in reply:
            self.around.at(self.around.now + LONGEST, self.send_month, month)
            return
        rows = []
        for slot, *_, last, _, receipt in reply["work"]:
            quote = self.around.world.quote(self.number, slot, month)
            quote = quote if last or quote.mark == "missing" else quote._replace(mark="price")
            if receipt is None:
                self.around.wrote(self.number, month.name, slot, quote)
                rows.append(f"quote,{slot},{month.name},{quote.mark},{quote.value}")
        self.put(month, "".join(row + "\n" for row in rows))

    def put(self, month: Month, body: str) -> None:
        """Sends a file until it is answered; rows whose price is far off are confirmed by a second one."""
        reply = self.around.ask(self.name, Asked(self.key, ("import", body)))
        told = reply.get("rows", []) if reply else []
        if not told or any(row.get("refused") == 90 for row in told):
            self.waiting = [body]
            self.around.at(self.around.now + 10 * MINUTE, self.put, month, body)
            return
        self.waiting = []
        if self.keeps:
            self.files.append((self.around.now, month, body))
        self.refused.update(row for row, it in zip(body.splitlines(), told) if it.get("refused", FAR) != FAR)
        far = [row for row, it in zip(body.splitlines(), told) if it.get("refused") == FAR]
        if far:
            self.put(month, "".join(f"{row},confirm\n" for row in far))

    def again(self, since: int) -> None:
        """Sends the files again that were answered since a moment, or a day before it."""
        files, self.files = self.files, []
        for moment, month, body in files:
            if moment >= since - DAY:
                self.put(month, body)

    def holds(self, month: str, slot: int) -> bool:
        """Whether a row of a slot wasn't answered, or was refused."""
        rows = [*self.refused, *(row for body in self.waiting for row in body.splitlines())]
        return any(row.startswith(f"quote,{slot},{month},") for row in rows)

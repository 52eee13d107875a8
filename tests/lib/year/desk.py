"""The desk: a script of the records that it sends, with the mistakes that people make, and its log."""

from __future__ import annotations

import collections
from typing import Any

from lib.served import DESK

from .asked import Asked
from .moments import DAY, HOUR, MINUTE, Month
from .people import Around

AGAIN = 5 * MINUTE
NOT_CLOSED, FAULT, IS_FROZEN = 47, 49, 50
ROWS = 300
"""The most rows that are sent at once."""


def calendar(month: Month) -> str:
    """The row of a month's window."""
    return f"calendar,{month.name},{month.opens},{month.closes},{month.publishes}"


class Desk:
    """Sends one thing after another, each until it is answered."""

    def __init__(self, around: Around) -> None:
        self.around = around
        self.to_do: collections.deque[tuple[str, ...]] = collections.deque()
        self.log: list[tuple[int, tuple[str, ...]]] = []
        self.frozen: collections.Counter[str] = collections.Counter()
        """The number of revisions of each month that the desk has frozen, as far as the answers said."""
        self.freezes: set[tuple[str, ...]] = set()
        self.is_going = False
        self.is_blind = False
        self.is_forgetful = False  # a wrong desk, which sends nothing again after the office has moved
        self.is_double_until = 0
        """The time until which a second person at the desk sends the same records."""

    def send(self, *words: str) -> None:
        """Adds something at the end of the list of things to send."""
        self.to_do.append(words)
        if not self.is_going:
            self._go_on()

    def rows(self, rows: list[str]) -> None:
        """Sends rows as an import."""
        for at in range(0, len(rows), ROWS):
            self.send("import", "".join(row + "\n" for row in rows[at : at + ROWS]))

    def freeze(self, row: str) -> None:
        """Freezes a month by a row."""
        self._freeze(row)
        if not self.is_going:
            self._go_on()

    def _freeze(self, row: str) -> None:
        words = ("import", row + "\n")
        self.freezes.add(words)
        self.to_do.append(words)

    def slips(self, month: Month) -> None:
        """The mistakes at a desk: the wrong file, a freeze too early, a plan or a window sent twice, two people at
        once."""
        drawn = self.around.world.drawn("slips", month.name)
        ways = [["Dear Sir or Madam,", "price;shop;1,20"], [f"freeze,{month.name}", "items"], [calendar(month)] * 2]
        ways += [[f"quote,1,{month.name},price,100"], self.around.world.survey()[:40]]
        for way in drawn.sample(ways, 2):
            self.rows(way)

    def _go_on(self) -> None:
        """Sends the things on the list, until one isn't answered."""
        self.is_going = True
        while self.to_do:
            words = self.to_do[0]
            if self.around.now < self.is_double_until:
                self.around.met("two desks")
                self.around.ask("second desk", Asked(DESK, words))
            reply = self.around.ask("desk", Asked(DESK, words))
            if self.is_blind and reply is None and words in self.freezes:
                self._reopen(words[1].split(",")[1].strip())
            if not self._is_done(words, reply):
                self.around.at(self.around.now + AGAIN, self._go_on)
                return
        self.is_going = False

    def _reopen(self, month: str) -> None:
        """The action of a wrong desk: nobody answered its freeze, so it prepares the month and freezes it again."""
        now = self.around.now
        self.to_do.insert(1, ("import", f"calendar,{month},{now - HOUR},{now},{now + 9 * DAY}\nfreeze,{month}\n"))

    def _is_done(self, words: tuple[str, ...], reply: Any) -> bool:
        """Whether something has a final answer; then it leaves the list."""
        rows = reply.get("rows", [reply]) if reply else []
        if not rows or any(row.get("refused") == 90 for row in rows):
            return False
        if words in self.freezes and rows[0].get("refused") == NOT_CLOSED:
            return False
        self.to_do.popleft()
        self.log.append((self.around.now, words))
        if words in self.freezes:
            self._frozen(words[1].strip(), rows[0])
        return True

    def _frozen(self, row: str, reply: Any) -> None:
        """Acts on the answer to a freeze."""
        month = row.split(",")[1]
        if reply.get("refused") == FAULT:
            self._freeze(f"{row},{reply['code']}")
            self.to_do.rotate(1)
        elif reply.get("done") or reply.get("refused") == IS_FROZEN:
            self.frozen[month] += 1

    def again(self, since: int) -> None:
        """After the office has moved: sends the records that were answered since a moment once more."""
        if self.is_forgetful:
            return
        lost = [words for moment, words in self.log if moment >= since]
        self.log = [(moment, words) for moment, words in self.log if moment < since]
        self.to_do.extendleft(reversed(lost))
        if not self.is_going:
            self._go_on()

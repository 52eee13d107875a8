"""A country and its office, month by month in simulated time."""

from __future__ import annotations

import collections
import heapq
import itertools
from functools import partial
from typing import Any, NamedTuple, Optional, Union

from lib.offices import key_of
from lib.program import Program

from .asked import Asked
from .befalling import Befalling
from .closing import Closing
from .clock import Clock
from .desk import Desk, calendar
from .faults import Fault
from .judge import Broken, Judge
from .keeping import Keeping
from .machine import Machine
from .moments import DAY, HOUR, MINUTE, Month
from .outside import Outside
from .people import Collector, Sender
from .wire import Wire
from .world import MOVED, Quote, World

AGAIN = 10 * MINUTE
RESTART = 2 * MINUTE
"""The time for which the office is away before it is started again."""

HANDED_OVER, REVISED = 2, 1
"""The months of the hand-over and of the revision, counted from the first."""


class Heard(NamedTuple):
    """The answers to one collector or the public, with their times."""

    moment: int
    asked: Asked
    reply: Any


class Country:
    """Runs a world with its faults, in a folder."""

    def __init__(self, program: Program, room: str, world: World, faults: list[Fault]) -> None:
        self.world, self.faults = world, faults
        self.clock = Clock(room, world.months[0].begins)
        self.machine = Machine(program, room, self.clock)
        self.judge = Judge(lambda: self.clock.office, lambda: not self.machine.has_disk)
        self.wire = Wire(self.machine, self.judge)
        self.keeping = Keeping(self.machine, self.judge)
        self.desk, self.closing = Desk(self), Closing(self.machine, self.met)
        self.collectors = [
            Collector(collector, self) for collector in world.collectors if collector not in world.senders
        ]
        self.senders = [Sender(sender, self) for sender in world.senders]
        self.outside = Outside(self, self.machine.site)
        self.befalling = Befalling(self)
        self.queue: list[tuple[int, int, Any]] = []
        self.order = itertools.count()
        self.heard: dict[str, list[Heard]] = collections.defaultdict(list)
        self.survived = self.wire.met
        self.logged = 0
        """The number of messages that had passed the front when its log was last moved away."""

    # ---- what people have round them

    @property
    def now(self) -> int:
        return self.clock.now

    def at(self, moment: int, work: Any, *of: Any) -> None:
        """Schedules work for a later moment."""
        heapq.heappush(self.queue, (moment, next(self.order), partial(work, *of)))

    def ask(self, who: str, asked: Asked) -> Any:
        """Asks the office; the person who gets an answer remembers it. The operator starts the office again if it
        ended."""
        self.find_out()
        was_up, had_front = self.machine.is_up, self.machine.front.is_up
        reply = self.wire.ask(who, asked)
        if was_up and not self.machine.is_up:
            self.at(self.now + RESTART, self.restart)
        if had_front and not self.machine.front.is_up:
            self.at(self.now + RESTART, self.machine.front.start)
        if reply is not None:
            self.judge.given(asked, reply)
            self.heard[who].append(Heard(self.now, asked, reply))
        return reply

    def find_out(self) -> None:
        """Lets the judge find out the result of a message that had no answer."""
        for asked in self.judge.doubts():
            self.wire.find_out(asked)

    def met(self, kind: str) -> None:
        """Notes that a fault of a kind has occurred."""
        self.survived[kind] += 1

    def wrote(self, collector: int, month: str, slot: int, quote: Quote) -> None:
        self.judge.written[collector, month, slot] = quote

    def watch(self, collector: int, sheet: dict[tuple[str, int], Quote], held: Any) -> None:
        month = max(month.name for month in self.world.months if month.begins <= self.now)
        of_month = {place: quote for place, quote in sheet.items() if place[0] == month and place not in held}
        self.judge.is_stored(collector, of_month)

    def restart(self) -> None:
        """Starts the office again, as systemd does, unless the machine is lost."""
        if not self.machine.is_lost and not self.machine.start():
            self.at(self.now + RESTART, self.restart)

    # ---- the year

    def run(self) -> None:
        """Runs through all months. Raises Broken."""
        self.machine.start()
        self.machine.front.start()
        self.desk.rows(self.world.survey())
        for month in self.world.months:
            self._plan_month(month)
        for fault in self.faults:
            self.at(fault.moment, self.befalling.befalls, fault)
        try:
            while self.queue:
                moment, _, work = heapq.heappop(self.queue)
                self.clock.set(moment)
                work()
            told = self.machine.front.log_fault() if self.wire.through > self.logged else None
            if told:
                raise Broken(told)
        finally:
            self.machine.close()

    def _plan_month(self, month: Month) -> None:
        """Schedules everything that should happen for a month."""
        drawn = self.world.drawn("plan", month.name)
        self.at(max(month.begins - 10 * DAY, month.begins if month.at == 0 else 0), self.desk.rows, [calendar(month)])
        if month.name.endswith("-01"):
            self.at(month.begins - 9 * DAY, self._send_plan, month.year)
        if month.at == HANDED_OVER:
            self.at(month.begins - 2 * DAY, self.desk.rows, self._hand_overs(month))
        self.at(drawn.randrange(month.opens, month.closes), self.desk.slips, month)
        for sender in self.senders:
            self.at(drawn.randrange(month.opens + 5 * DAY, month.opens + 7 * DAY), sender.send_month, month)
        for collector in self.collectors:
            for day, share in ((2, 0.4), (8, 0.6), (13, 1.0), (16, 1.0), (18, 1.0)):
                moment = month.begins + day * DAY + drawn.randrange(9 * HOUR, 15 * HOUR)
                self.at(moment, collector.visit, month, share)
        self.at(month.freezes, self.freeze, month)
        self.outside.plan_month(month)
        if month.at == REVISED:
            self.at(month.publishes + HOUR, self._reopen, month)

    def _send_plan(self, year: int) -> None:
        for _ in range(2):  # (the second is a slip that costs nothing)
            self.desk.send("plan", str(year), self.world.plan(year))

    def _hand_overs(self, month: Month) -> list[str]:
        leaver = self.world.leaver
        return [f"handover,{leaver},{slot},2,{slot + MOVED},{month.name}" for slot in self.world.slots]

    def _reopen(self, month: Month) -> None:
        """A price was wrong: the last month is reopened, corrected, and frozen again."""
        again = month.publishes + 3 * DAY
        self.desk.rows([f"calendar,{month.name},{self.now},{again - 2 * DAY},{again}"])
        collector = self.collectors[1]
        self.at(self.now + 3 * HOUR, collector.write, month, 1, Quote("price", "777"), True)
        self.at(again - DAY, self.freeze, month)
        self.at(again - DAY + HOUR, self.outside.backup)
        self.at(again + MINUTE, self.outside.publish)

    def freeze(self, month: Month) -> None:
        """The desk freezes a month once all promises about it have been checked."""
        row = self._closed_by(month.name) if self.audit(month) else None
        if row is None:
            self.at(self.now + AGAIN, self.freeze, month)
            return
        self.desk.freeze(row)

    def _closed_by(self, month: str) -> Optional[str]:
        """The row that freezes a month; None if it can't be made now."""
        return self.closing.row(month) if "closing" in self.outside.looks else f"freeze,{month}"

    def audit(self, month: Month) -> bool:
        """Checks that all answered records are stored, and that all written prices exist; returns whether it could
        check."""
        listed: dict[int, list[list[Any]]] = {}
        for number in self.world.collectors:
            words = "quotes", self.world.months[0].name, month.name
            reply = self.ask("judge", Asked(key_of(number), words))
            if reply is None or "quotes" not in reply:
                return False
            listed[number] = reply["quotes"]
            self.judge.stands(number, listed[number])
        people: dict[int, Union[Collector, Sender]] = {collector.number: collector for collector in self.collectors}
        people.update({sender.number: sender for sender in self.senders})
        self.judge.is_complete(month.name, listed, lambda number, slot: people[number].holds(month.name, slot))
        return True

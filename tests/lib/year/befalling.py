"""The faults of a country: each begins at its moment, and ends."""

from __future__ import annotations

import os
from collections.abc import Callable
from typing import TYPE_CHECKING, Optional

from second_office.rows import first_of, make_first, rows_of

from .faults import LASTING, Fault
from .judge import Broken, Snapshot
from .keeping import Copy
from .machine import FREE
from .moments import HOUR, MINUTE

if TYPE_CHECKING:
    from .country import Country

AWAY = 2 * HOUR
"""The time for which the office is away once its machine is lost."""

LAG = 9 * HOUR
"""The age of the last copy when the machine is lost; a backup is older."""

BURST = 12
"""The number of prices that are changed, and changed back, while a backup is made."""

OF_AN_EXCHANGE = ("killed", "lost", "cut", "garbled", "slow", "front")


class Befalling:
    """Lets faults begin, and end."""

    def __init__(self, country: "Country") -> None:
        self.country = country
        self.ways: dict[str, Callable[[Fault, int], None]] = {
            **{kind: self.exchange for kind in OF_AN_EXCHANGE},
            "refusing": self.disk,
            "full": self.disk,
            "clock": self.clock,
            "burst": self.burst,
            "offline": self.offline,
            "burned": self.lost,
            "promoted": self.lost,
            "restarted": self.restarted,
            "certificates": self.certificates,
            "rotated": self.rotated,
            "publisher": self.publisher,
            "desk": self.desk,
            "two desks": self.two_desks,
            "upgraded": self.upgraded,
        }

    def befalls(self, fault: Fault) -> None:
        """A fault begins; on a lost machine none begins."""
        if not self.country.machine.is_lost:
            self.ways[fault.kind](fault, self.country.now + LASTING.get(fault.kind, 0))

    # ---- people, and the way to the office

    def exchange(self, fault: Fault, _: int) -> None:
        """Something happens to the next exchange of somebody."""
        self.country.wire.coming[fault.whom].append(fault.how)

    def offline(self, fault: Fault, until: int) -> None:
        """A phone has no line."""
        self.country.met(fault.kind)
        next(collector for collector in self.country.collectors if collector.name == fault.whom).goes_offline(until)

    def desk(self, fault: Fault, _: int) -> None:
        """The desk's programs are killed: one that gets a freeze ready, and one that has sent something."""
        self.country.closing.kills += 1
        self.country.wire.coming["desk"].append("desk")

    def two_desks(self, fault: Fault, until: int) -> None:
        """A second person of the desk has the same list, and sends from it too."""
        self.country.desk.is_double_until = until

    def publisher(self, fault: Fault, _: int) -> None:
        """The publisher is killed as it writes the next time."""
        self.country.outside.kills += 1

    # ---- the front

    def certificates(self, fault: Fault, _: int) -> None:
        """The front gets a new certificate."""
        self.country.met(fault.kind)
        if not self.country.machine.front.renew():
            raise Broken("the front shows the certificate that was there before the new one")

    def rotated(self, fault: Fault, _: int) -> None:
        """The log of the front is moved away."""
        front = self.country.machine.front
        if front.is_up and front.log.exists() and self.country.wire.through > self.country.logged:
            self.country.met(fault.kind)
            self.country.logged = self.country.wire.through
            told = front.rotate()
            if told:
                raise Broken(told)

    # ---- the machine

    def disk(self, fault: Fault, until: int) -> None:
        """The disk refuses all writes, or has little room."""
        machine = self.country.machine
        if machine.has_disk:
            self.country.met(fault.kind)
            machine.limit(0 if fault.how == "refusing" else machine.log_size() + 4096)
            self.country.at((self.country.now + until) // 2, self.country.outside.probe)
            self.country.at(until, self.frees)

    def frees(self) -> None:
        """The disk takes writes again; until now the probe has reported a refused write."""
        self.country.outside.probe()
        self.country.machine.limit(FREE)

    def clock(self, fault: Fault, until: int) -> None:
        """The clock of the office goes an hour forward or back, and is set right later."""
        self.country.met(fault.kind)
        self.country.clock.jump(HOUR if fault.number % 2 else -HOUR)
        self.country.at(until, self.country.clock.jump, 0)

    def restarted(self, fault: Fault, _: int) -> None:
        """The office is stopped and started, as for a change of its settings."""
        if self.country.machine.is_up:
            self.country.met(fault.kind)
            self.country.machine.stop()
            # (what the disk had refused to put into the file may be there now, which the probe takes for a write)
            self.country.judge.writes.is_clear = False
            self.country.restart()

    def upgraded(self, fault: Fault, _: int) -> None:
        """Until now the office had version 1.0, whose tables are of schema 1; this program takes over its file."""
        country, machine = self.country, self.country.machine
        country.find_out()
        if not machine.is_up or not machine.has_disk or len(country.judge.possible.offices) > 1:
            return
        rows = rows_of(country.judge.possible.offices[0])
        if any(row[1] > 1 for row in rows["release_2"]) or rows["plan_ref"]:
            return
        country.met(fault.kind)
        machine.stop()
        os.remove(machine.file)
        make_first(machine.file, first_of(rows))
        machine.stamp()
        country.restart()

    def lost(self, fault: Fault, _: int) -> None:
        """The machine is lost some hours after a copy."""
        self.country.met(fault.kind)
        copy = self.country.keeping.follow(str(fault.number)) if fault.kind == "promoted" else None
        self.country.at(self.country.now + LAG, self.burns, copy)

    def burns(self, copy: Optional[Copy]) -> None:
        """The machine is lost; the probe reports it, and later the office continues elsewhere."""
        country = self.country
        if country.machine.is_lost:
            return
        country.machine.burn()
        country.outside.probe()
        country.at(country.now + AWAY, self.comes_back, copy)

    def comes_back(self, copy: Optional[Copy]) -> None:
        """The office continues with a copy, and everybody sends the missing records again."""
        country = self.country
        country.machine.is_lost = False
        snapshot: Snapshot = country.keeping.promote(copy) if copy else country.keeping.restore()
        country.desk.again(snapshot.moment)
        for sender in country.senders:
            sender.again(snapshot.moment)
        for month in country.world.months:
            if month.opens <= country.now < month.closes:
                for collector in country.collectors:
                    collector.is_moved = True
                    country.at(country.now + HOUR + MINUTE, collector.look_again, month)

    def burst(self, fault: Fault, _: int) -> None:
        """A backup, while somebody sends price after price."""
        country, outside = self.country, self.country.outside
        collector = country.collectors[0]
        month = next(month for month in country.world.months if month.opens <= country.now < month.closes)
        slots = [slot for name, slot in collector.sheet if name == month.name]

        def send() -> None:
            for at in range(BURST):
                slot = slots[at % len(slots)]
                quote = collector.sheet[month.name, slot]
                other = quote._replace(value=str(int(quote.value) + 1)) if quote.mark != "missing" else quote
                collector.write(month, slot, other, is_confirmed=True)
                collector.write(month, slot, quote, is_confirmed=True)

        if "copies" in outside.looks:
            country.met(fault.kind)
            country.keeping.backup(send if slots else None)

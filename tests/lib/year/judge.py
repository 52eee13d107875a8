"""The judge: the promises of the office, and their results.

It hears of each exchange, and compares the replies with the second office. It also keeps the prices that people have
written down and the receipts that they got, and checks itself the stored, published and copied records.
"""

from __future__ import annotations

import hashlib
import json
import os
import re
from collections.abc import Callable, Iterator
from typing import Any, Optional

from lib.offices import key_of
from second_office.office import Office, month_text
from second_office.rows import Kept

from .asked import Asked
from .possible import Possible
from .probing import CRITICAL, JUMP, WARNING, Writes, is_late
from .world import Quote


MONTH = re.compile(r"\b20\d\d-(?:0[1-9]|1[0-2])\b")
KEPT, NO_TABLE = 2, {"refused": 30}
"""The number of seconds for which a front may cache that a table doesn't exist yet."""


class Broken(Exception):
    """A promise that was broken."""


class Snapshot:
    """The offices that a copy can contain: those between its beginning and its end."""

    def __init__(self, moment: int, offices: list[Kept]) -> None:
        self.moment, self.offices = moment, offices
        self.is_open = True


class Judge:
    """Judges an office. `clock` gives the time of its clock, `may_refuse` whether its disk can refuse writes now."""

    def __init__(self, clock: Callable[[], int], may_refuse: Callable[[], bool]) -> None:
        self.clock, self.may_refuse = clock, may_refuse
        self.possible = Possible([Kept()])
        self.open: list[Snapshot] = []
        self.written: dict[tuple[int, str, int], Quote] = {}
        self.held: dict[tuple[str, str, int], tuple[int, str, str]] = {}
        """The last receipt that somebody got, and its quote, by key, month and slot."""
        self.manifest: Optional[bytes] = None
        self.writes = Writes()
        self.shown: dict[tuple[str, ...], Any] = {}
        """The last answers to the public, by the words of the request."""

    # ---- exchanges

    def answered(self, asked: Asked, reply: Any) -> None:
        """Notes that the office has answered."""
        if self._is_kept_by_front(asked, reply):
            return
        told = reply.get("rows", [reply]) if isinstance(reply, dict) else []
        fault = self.possible.answered(asked, self.clock(), reply, self.may_refuse())
        self.writes.answered(self.clock(), any(row.get("refused") == 90 for row in told), self.possible.has_stored)
        self._keep()
        if fault:
            raise Broken(fault)

    def _is_kept_by_front(self, asked: Asked, reply: Any) -> bool:
        """Whether a front may have kept the answer: for a day the answer with a table by its revision, and for two
        seconds the answer that there is none."""
        if asked.key or asked.words[0] != "table" or len(asked.words) < 4:
            return False
        before = [office.reply(asked.record(self.clock() - KEPT)) for office in self.possible.offices]
        if "table" in reply and reply == self.shown.get(asked.words) or reply == NO_TABLE and reply in before:
            return True
        self.shown[asked.words] = reply
        return False

    def unanswered(self, asked: Asked) -> None:
        """Notes that the office may have carried something out."""
        self.possible.unanswered(asked, self.clock())
        self.writes.unanswered(self.clock(), asked.is_command, self.may_refuse())
        self._keep()

    def doubts(self) -> list[Asked]:
        """The requests after which fewer offices are possible."""
        if len(self.possible.offices) == 1:
            return []
        return [Asked(key_of(it), ("quotes", "2000-01", "2199-12")) for it in sorted(self.possible.doubtful())]

    def given(self, asked: Asked, reply: Any) -> None:
        """Notes a reply to somebody, which may contain receipts."""
        if asked.words[0] == "import" and asked.key:
            for row, told in zip(asked.words[1].splitlines(), reply.get("rows", [])):
                if "receipt" in told:
                    _, slot, month, mark, value, *_ = row.split(",")
                    self.held[asked.key, month, int(slot)] = told["receipt"], mark, value

    # ---- copies

    def begin_copy(self, moment: int) -> Snapshot:
        """Notes that a copy of the office begins."""
        snapshot = Snapshot(moment, self.possible.kept())
        self.open.append(snapshot)
        return snapshot

    def end_copy(self, snapshot: Snapshot) -> None:
        """Notes that the copy is complete."""
        self.open.remove(snapshot)

    def _keep(self) -> None:
        for snapshot in self.open:
            snapshot.offices += self.possible.kept()

    def restored(self, snapshot: Snapshot) -> None:
        """Notes that the office was restored from a copy: later answers may be lost, with their receipts."""
        self.possible = Possible(Possible(snapshot.offices).kept())
        self.possible.settle()
        self.held.clear()
        self.writes = Writes()

    # ---- what stands

    def stands(self, collector: int, quotes: list[list[Any]]) -> None:
        """Checks that each receipt that somebody holds is stored with its price, and that none is given twice."""
        key = key_of(collector)
        receipts = [row[4] for row in quotes]
        if len(set(receipts)) < len(receipts):
            raise Broken(f"collector {collector} has a receipt twice: {quotes}")
        listed = {(row[1], row[0]): (row[4], row[2], str(row[3])) for row in quotes}
        for (of, month, slot), held in self.held.items():
            found = listed.get((month, slot))
            if of == key and (found is None or found[0] < held[0] or found[0] == held[0] and found != held):
                raise Broken(f"collector {collector}, slot {slot}, {month}: {held} was answered, and {found} stands")

    def is_stored(self, collector: int, sheet: dict[tuple[str, int], Quote]) -> None:
        """Checks that prices that a collector has written, and the phone no longer holds, may be stored."""
        for (month, slot), quote in sheet.items():
            place = collector, slot, (int(month[:4]), int(month[5:]))
            stored = [office.quotes.get(place) for office in self.possible.offices]
            if not any(it and (it[0][0], str(it[0][1])) == quote for it in stored):
                what = f"collector {collector}, slot {slot}, {month}: {quote} was written"
                raise Broken(f"{what}, {stored} is stored, and the phone holds nothing")

    def is_complete(self, month: str, listed: dict[int, list[list[Any]]], holds: Callable[[int, int], bool]) -> None:
        """Checks that all prices that people have written for a month are stored, or that they still hold them."""
        for (collector, of, slot), quote in self.written.items():
            stored = {(row[2], str(row[3])) for row in listed[collector] if (row[1], row[0]) == (month, slot)}
            if of == month and quote not in stored and not holds(collector, slot):
                what = f"collector {collector}, slot {slot}, {month}: {quote} was written"
                raise Broken(f"{what}, {stored or 'nothing'} is stored, and nobody holds it")

    def revisions(self, frozen: dict[str, int]) -> None:
        """Checks that a month has as many revisions as the desk meant to freeze."""
        for office in self.possible.offices:
            for month, of in office.tables.items():
                if len(of) > frozen.get(month_text(month), 0):
                    raise Broken(
                        f"{month_text(month)} has {len(of)} revisions, and {frozen.get(month_text(month))} meant"
                    )

    def probed(self, is_reached: bool, jumped: int) -> tuple[int, int]:
        """The least and the greatest status that a probe may end with; given the moment of the clock's last jump."""
        if not is_reached:
            return CRITICAL, CRITICAL
        writes, late = self.writes, [is_late([office], self.clock()) for office in self.possible.offices]
        least, most = writes.told(
            self.clock(), jumped >= max(writes.refused or 0, writes.unheard or 0) - JUMP and writes.is_troubled
        )
        return max(least, WARNING if all(late) else least), max(most, CRITICAL if any(late) else most)

    # ---- what is published

    def site(self, folder: str, may_be_before: bool = False) -> None:
        """Checks that a pack contains the published tables, each as in the second office, and follows the manifest
        before. It may be the whole pack from before."""
        with open(os.path.join(folder, "manifest.json"), "rb") as found:
            text = found.read()
        manifest = json.loads(text)
        fault = sums_fault(folder)
        if fault:
            raise Broken(fault)
        if may_be_before and text == self.manifest:
            return
        listed = {(table["month"], table["revision"]): table["sha256"] for table in manifest["tables"]}
        if listed != self._published():
            apart = sorted(set(listed.items()) ^ set(self._published().items()))
            raise Broken(f"the site has other tables than are out: {apart[:4]}")
        early = pages_of(folder) - {month for month, _ in listed}
        if early:
            raise Broken(f"the site has pages of months that aren't out: {sorted(early)}")
        before = hashlib.sha256(self.manifest).hexdigest() if self.manifest else None
        if text != self.manifest and manifest["previous"] != before:
            raise Broken(f"the manifest follows {manifest['previous']}, and not {before}")
        self.manifest = text

    def _published(self) -> dict[tuple[str, int], str]:
        now, office = self.clock(), self.possible.offices[0]
        return {(month, revision): digest for month, revision, digest in digests(office, now)}


def digests(office: Office, now: int) -> Iterator[tuple[str, int, str]]:
    """Month, revision and SHA-256 of each published table as CSV."""
    for month, revision in office.published(now):
        table = office.printed_table(now, month, "csv", revision)["table"]
        yield month_text(month), revision, hashlib.sha256(table.encode()).hexdigest()


def pages_of(folder: str) -> set[str]:
    """The months in the names of a pack's files."""
    names = (os.path.join(where, name) for where, _, files in os.walk(folder) for name in files)
    return {month for name in names for month in MONTH.findall(os.path.relpath(name, folder))}


def sums_fault(folder: str) -> Optional[str]:
    """The fault of a pack's sums, with which anybody can check it: each file except theirs has one."""
    with open(os.path.join(folder, "SHA256SUMS"), encoding="utf-8") as found:
        sums = [line.rstrip("\n").split("  ", 1) for line in found]
    for own, name in sums:
        with open(os.path.join(folder, name), "rb") as file:
            if hashlib.sha256(file.read()).hexdigest() != own:
                return f"{name} of the pack has another sum than SHA256SUMS says"
    return None if any(name == "manifest.json" for _, name in sums) else "no sum of the pack is that of its manifest"

"""Forty collectors have one address, as in a training room or through a carrier's gateway: all are answered."""

from __future__ import annotations

import contextlib
import http.client
import json
import random
import time
from collections.abc import Iterator
from concurrent.futures import ThreadPoolExecutor
from threading import Barrier
from typing import NamedTuple, Optional

from lib.places import ROOT
from lib.offices import key_of
from .offices import DESK, ITEMS, NOW
from .peers import SECONDS, address_of, all_at_once
from .stage import Stage

COLLECTORS = range(100, 140)
GATEWAY = 600
"""The number of their address."""

EVERY = 5.0
"""Seconds from one save of a collector to the next."""

SAVES = 6

BUSY = (8.0, 6.0)
"""Seconds after which the office stands still, and for how many: more than `EVERY`, so all collectors wait at once."""

FOLDERS = ("collect", "shared")
FILES = [f"/{folder}/{path.name}" for folder in FOLDERS for path in (ROOT / "web" / folder).iterdir() if path.is_file()]
LISTS = (f"/work/{NOW}", "/items", f"/work/{NOW}", f"/quotes/{NOW}/{NOW}")
"""What a page of the collectors asks the office for while its user signs in."""


class Told(NamedTuple):
    """An answer: the seconds that it took, its status and its body."""

    seconds: float
    status: int
    body: bytes


class Collector:
    """A phone with a key, on one connection."""

    def __init__(self, stage: Stage, number: int):
        self.draw, self.field = random.Random(number), {"Authorization": f"CPI-Key {key_of(number)}"}
        self.line = http.client.HTTPSConnection(
            "localhost", stage.port, context=stage.context, timeout=SECONDS, source_address=(address_of(GATEWAY), 0)
        )

    def asks(self, path: str, body: Optional[str] = None, is_public: bool = False) -> Told:
        begun = time.monotonic()
        self.line.request("POST" if body else "GET", path, body, {} if is_public else self.field)
        answer = self.line.getresponse()
        found = answer.read()
        return Told(time.monotonic() - begun, answer.status, found)

    def files(self) -> list[Told]:
        """Asks for what the page is made of. (An office may have no calendar for its pages.)"""
        calendar = self.asks("/calendar.json", is_public=True)
        files = [self.asks(path, is_public=True) for path in FILES]
        return files if calendar.status == 404 else [*files, calendar]

    def lists(self) -> list[Told]:
        """Asks for all lists, one after another."""
        return [self.asks(f"/api{path}", is_public=path == "/items") for path in LISTS]

    def saves(self) -> Iterator[Told]:
        """Saves a price of each slot, from a random moment on, and each after the answer to the one before."""
        begun = time.monotonic() + self.draw.uniform(0, EVERY)
        for slot in range(1, SAVES + 1):
            time.sleep(max(0.0, begun + (slot - 1) * EVERY - time.monotonic()))
            yield self.asks("/api/import", f"quote,{slot},{NOW},price,{200 + slot}\n")


def registered() -> Iterator[str]:
    """The collectors with a slot for each save."""
    for number in COLLECTORS:
        yield f"collector,{number},{key_of(number)}"
        for slot in range(1, SAVES + 1):
            yield f"assign,{number},{slot},10,{ITEMS[slot % len(ITEMS)][0]},2010-12,2199-12"


def test_forty_collectors_of_one_address_are_all_answered(stage: Stage) -> None:
    """All sign in at once. Later forty saves wait for an office that is busy. Nobody is asked to come again."""
    rows = list(registered())
    assert stage.ask("POST", "/api/import", DESK, "\n".join(rows)).reply == {"rows": [{"done": True}] * len(rows)}
    together = Barrier(len(COLLECTORS) + 1)

    def collects(at: int) -> tuple[list[Told], list[Told], list[Told]]:
        collector = Collector(stage, COLLECTORS[at])
        with contextlib.closing(collector.line):
            files = collector.files()
            together.wait(SECONDS)
            return files, collector.lists(), list(collector.saves())

    def is_busy() -> None:
        together.wait(SECONDS)
        time.sleep(BUSY[0])
        with stage.standing_still():
            time.sleep(BUSY[1])

    with ThreadPoolExecutor(1) as beside:
        busy = beside.submit(is_busy)
        found = all_at_once(len(COLLECTORS), collects)
        busy.result()
    for files, lists, saves in found:
        assert {told.status for told in (*files, *lists, *saves)} == {200}
        assert [json.loads(told.body) for told in saves] == [{"rows": [{"receipt": n}]} for n in range(1, SAVES + 1)]
        assert max(told.seconds for told in saves) > 0.5
    assert stage.relay.rows("quote,") == len(COLLECTORS) * SAVES

"""A refused call tells a collector, and the public, nothing that they mustn't see: 90 is compared too.

Two offices show the collector who asks, and the public, the same; the other collector's key, their prices and a table
under embargo differ (lib/alike.py). Each request is sent to both, in memory and over a file. It runs once for each
growth of memory and each call of the disk that it makes, and only that one is refused (of the disk: that one and all
after it). Both offices must make as many calls, and with the same one refused give the same bytes, 90 included, and end
alike. Some calls must give a 90, else nothing is shown.

Three wrong programs that choose their 90 by what is hidden are found: one by another's price at any time, one by a table
under embargo, and one by another's price only if the disk fails.
"""

from __future__ import annotations

import contextlib
import itertools
import sqlite3
from collections.abc import Iterator
from typing import Any

import pytest

from lib.alike import HIGH, LOW, REQUESTS, Asked, Office, list_asked
from lib.fault import Fault
from lib.program import Program, Ran
from lib.refusing import UNAVAILABLE, Library, numbers_of
from lib.sample import Sample
from lib.tried import fault_in

pytestmark = pytest.mark.spread

MOST, SHORT = 300, 6
"""So many calls of a request are refused, for each kind, and so many in a short run."""

ENTRY = 6
"""The place of an entry among the requests."""


class Offices:
    """Both offices of a program, and how many answers were 90."""

    def __init__(self, program: Program, library: Library) -> None:
        self.low, self.high = Office(program, library, LOW), Office(program, library, HIGH)
        self.unavailable = 0

    def compare(self, asked: Asked, numbers: tuple[int, int]) -> Fault:
        """How the answers of both offices differ, if these calls are refused."""
        low, high = self.low.answer(asked, numbers[0]), self.high.answer(asked, numbers[1])
        self.unavailable += UNAVAILABLE in low.out
        return None if low == high else f"{low}, and {high}"

    def find(self, asked: Asked, sample: Sample) -> list[tuple[object, Fault]]:
        """What differs in a request, with each of its calls refused, and with none."""
        name = f"{asked.request.decode().strip()}, {asked.kind}, {'in a file' if asked.is_filed else 'in memory'}"
        low, high = self.low.calls(asked), self.high.calls(asked)
        counts: Fault = None if len(low) == len(high) else f"calls {low}, and {high}"
        places = [at - 1 for at in numbers_of(sample, name, min(len(low), len(high)), SHORT, MOST)]
        calls = [(0, 0), *((low[at], high[at]) for at in places)]
        return [(name, counts), *((f"{name}, calls {at}", self.compare(asked, at)) for at in calls)]

    def find_more(self, asked: Asked, sample: Sample, before: int) -> Iterator[tuple[object, Fault]]:
        """What differs with other calls refused, in an order that is drawn, until more than so many answers were 90."""
        low, high = self.low.calls(asked), self.high.calls(asked)
        count = min(len(low), len(high))
        for at in sample.drawn(f"{asked}, others").sample(range(count), count):
            if self.unavailable > before:
                return
            yield f"{asked}, call {at}", self.compare(asked, (low[at], high[at]))


@pytest.fixture(scope="session")
def library(tmp_path_factory: pytest.TempPathFactory) -> Library:
    """The library, once for each process."""
    return Library(str(tmp_path_factory.mktemp("library")))


@pytest.fixture(scope="module")
def offices(program: Program, library: Library) -> Offices:
    """Both offices of the program."""
    return Offices(program, library)


@pytest.mark.parametrize("request_", REQUESTS)
def test_a_refused_call_tells_nothing_of_others(offices: Offices, sample: Sample, request_: str) -> None:
    asked = [it for it in list_asked() if it.request.decode() == f"{request_}\n"]
    before = offices.unavailable
    tried = itertools.chain(
        (one for it in asked for one in offices.find(it, sample)), offices.find_more(asked[1], sample, before)
    )
    fault = fault_in(tried)
    assert fault is None, fault
    assert offices.unavailable > before, "no call gave a 90"


# ---- wrong programs


class Wrong(Program):
    """A program that takes 90 for an answer by something that the caller mustn't see."""

    def is_told(self, given: bytes, db: str | None, env: dict[str, str]) -> bool:
        """Whether the reply to the request becomes 90."""
        raise NotImplementedError

    def replay(self, given: bytes = b"", db: str | None = None, *words: str, **how: Any) -> Ran:
        last = given.splitlines(keepends=True)[-1:]
        is_wrong = last in ASKED and self.is_told(given, db, how.get("env") or {})
        ran = super().replay(given, db, *words, **how)
        return ran._replace(out=b"\n".join([*ran.lines()[:-1], UNAVAILABLE, b""])) if is_wrong and ran.out else ran


ASKED = [[f"{request}\n".encode()] for request in REQUESTS]


def read_number(db: str, question: str) -> int:
    """The number that a question to an office's file gives."""
    with contextlib.closing(sqlite3.connect(db)) as file:
        [[number]] = file.execute(question).fetchall()
    return int(number)


class ByPrice(Wrong):
    """Another's price of January is 299."""

    def is_told(self, given: bytes, db: str | None, env: dict[str, str]) -> bool:
        if db is None:
            return b"2026-01,price,299" in given
        return read_number(db, "SELECT max(value) FROM frozen_2") == 299


class ByTable(Wrong):
    """The index of the table under embargo is above 105."""

    def is_told(self, given: bytes, db: str | None, env: dict[str, str]) -> bool:
        # (a replay in memory has its table nowhere else)
        if db is None:
            return b"2026-01,price,299" in given and b"freeze,2026-01" in given
        return read_number(db, "SELECT max(within) FROM level_2") > 105_000_000


class ByPriceWithoutDisk(ByPrice):
    """Another's price is 299, and calls of the disk are refused."""

    def is_told(self, given: bytes, db: str | None, env: dict[str, str]) -> bool:
        is_refused = env.get("REFUSED_KIND") in ("disk", "log", "database") and env.get("REFUSED_NUMBER") != "0"
        return is_refused and super().is_told(given, db, env)


@pytest.mark.parametrize("wrong", [ByPrice, ByTable, ByPriceWithoutDisk])
def test_a_90_by_what_is_hidden_is_found(
    program: Program, library: Library, sample: Sample, wrong: type[Wrong]
) -> None:
    offices = Offices(wrong(program.path), library)
    asked = [it for it in list_asked() if it.request == ASKED[ENTRY][0]]
    found = [it for it in asked if fault_in(offices.find(it, sample)) is not None]
    assert found == (asked if wrong is not ByPriceWithoutDisk else asked[2:])


class Scripted(Office):
    """An office that answers a request by the line of the call that is refused."""

    def __init__(self, *lines: bytes) -> None:
        self.lines = lines

    def calls(self, asked: Asked) -> range:
        return range(len(self.lines))

    def answer(self, asked: Asked, number: int) -> Ran:
        return Ran(0, self.lines[number], b"")


class ScriptedOffices(Offices):
    """Two of these."""

    def __init__(self, low: Office, high: Office) -> None:
        self.low, self.high, self.unavailable = low, high, 0


def test_the_call_that_gives_the_first_90_is_compared_too(sample: Sample) -> None:
    offices = ScriptedOffices(Scripted(UNAVAILABLE), Scripted(b"{}"))
    assert fault_in(offices.find_more(next(list_asked()), sample, 0)) is not None
    offices = ScriptedOffices(Scripted(*[UNAVAILABLE] * 3), Scripted(*[UNAVAILABLE] * 3))
    assert len(list(offices.find_more(next(list_asked()), sample, 0))) == 1

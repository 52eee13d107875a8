"""Stops the disk at each of its calls in turn, and checks the office that is left.

A small library that is preloaded refuses a call and each one after it (lib/refused.c): of all files, of the log only, or
of the database file only. It also keeps what a machine without power would: the bytes that each file had when it was
synced last.

The files that a stopped run leaves, and those that were synced, have to be the office after the commands that were
answered by anything but 90, or after those and the next one. Python's sqlite3 reads the rows, and the program lists
what it opens. After the first 90 no command is accepted. A file of schema 1 is of schema 1 or of
schema 2, whole. (An office that was stopped while it was made may be no database yet; then the program makes it.)

The run of many prices copies its log into the database file before it ends. A long run takes up to 300 calls of each
kind and run, a short one draws a few.
"""

from __future__ import annotations

import functools
import os
import tempfile
from bisect import bisect_left
from collections.abc import Callable
from typing import NamedTuple

import pytest

from lib.fault import Fault
from lib.filed import answered, office_case
from lib.open_office import KA, OPEN
from lib.program import Program, Ran
from lib.records import records_of
from lib.refusing import UNAVAILABLE, Library, Stream, numbers_of, records_of_case
from lib.sample import Sample
from lib.stored import copied, stored, stored_in_copy
from lib.tried import fault_in
from second_office.rows import Rows, first_of, make_first, rows_of

pytestmark = pytest.mark.spread

KINDS = ["disk", "log", "database"]

CASES = ["a-replacement-needs-a-last-price", "tea-and-coffee", "a-copied-price-is-handed-on"]

MANY = 600
"""So many prices fill the log, of a thousand frames, once and more."""

MOST, SHORT = 300, 4
"""So many calls of a kind and run are refused, and so many in a short run."""

ACCEPTED = (b'{"done":true}', b'{"receipt":')
"""How the lines of accepted commands begin."""


class Office(NamedTuple):
    """The rows of an office, and what it lists."""

    rows: Rows
    lists: list[bytes]


class Run:
    """Records over the file of an office, which isn't there yet or is of schema 1."""

    def __init__(self, program: Program, library: Library, name: str) -> None:
        self.library, self.is_first = library, name == "schema 1"
        self.stream = Stream(program, name, records_named(name))
        self.whole = self.after(len(self.stream.sent))[1]
        self.met = set[int]()

    def begin(self, room: str) -> str:
        """The path of the file before the run."""
        path = f"{room}/office.db"
        if self.is_first:
            make_first(path, first_of(rows_of(answered(office_case().given)[0])))
        return path

    @functools.lru_cache(None)
    def after(self, count: int) -> tuple[Office, list[bytes]]:
        """The office after the first records, so many, and their lines."""
        with tempfile.TemporaryDirectory() as room:
            path = self.begin(room)
            lines = self.stream.answered(self.stream.sent[:count], path)
            return Office(stored(path), self.stream.answered(self.stream.views, path)), lines

    @functools.lru_cache(None)
    def before(self) -> Rows:
        """The rows of the file before the run, none if it isn't there."""
        with tempfile.TemporaryDirectory() as room:
            return stored(self.begin(room))

    def count(self, kind: str) -> int:
        """How many calls of a kind the run makes."""
        with tempfile.TemporaryDirectory() as room:
            return self.stream.counted(self.library, kind, self.stream.sent, self.begin(room))

    def stop(self, kind: str, number: int) -> Fault:
        """What is wrong if the calls of a kind are refused from one on."""
        with tempfile.TemporaryDirectory() as room:
            path, synced = self.begin(room), f"{room}/synced"
            os.mkdir(synced)
            copied(path, f"{synced}/office.db")
            environment = self.library.environment(kind, number, REFUSED_SYNCED=synced)
            ran = self.stream.run(self.stream.sent, path, environment)
            count = count_answered(ran)
            return (
                self.find_line_fault(ran, count)
                or self.find_fault("what it left", path, count)
                or self.find_fault("what was synced", f"{synced}/office.db", count)
            )

    def stop_and_count(self, kind: str, number: int) -> int:
        """How many records are answered if the calls of a kind are refused from one on."""
        with tempfile.TemporaryDirectory() as room:
            return count_answered(
                self.stream.run(self.stream.sent, self.begin(room), self.library.environment(kind, number))
            )

    def find_line_fault(self, ran: Ran, count: int) -> Fault:
        """What is wrong with the lines of a run, of which so many come before the first 90, or with its end."""
        if (ran.status, ran.err) not in ((0, b""), (1, b"cpi: database failed\n")):
            return f"{ran}"
        if ran.lines()[:count] != self.whole[:count]:
            return "a record was answered otherwise"
        late = [line for line in ran.lines()[count:] if line.startswith(ACCEPTED)]
        return f"after the first 90 it answers {late[0]!r}" if late else None

    def find_fault(self, name: str, path: str, count: int) -> Fault:
        """What is wrong with files, if so many records were answered."""
        faults, rows = stored_in_copy(path)
        if faults and rows:
            return f"{name} is damaged: {faults}"
        places = [place for place in (count, count + 1) if place <= len(self.stream.sent)]
        place = next((place for place in places if rows == self.after(place)[0].rows), None)
        if place is None and count == 0 and rows == self.before():
            place = 0
        if place is None:
            return f"{name} is no office after {count} records, or {count + 1}"
        self.met.add(place - count)
        is_listed = self.stream.answered(self.stream.views, path) == self.after(place)[0].lists
        return None if is_listed else f"{name} lists something else than after {place} records"


def records_named(name: str) -> list[bytes]:
    """The records of a run."""
    if name == "schema 1":
        return [f"1,{KA},quotes,2025-12,2026-12\n".encode()]
    if name == "many prices":
        prices = [f"1,{KA},quote,1,2026-01,price,{200 + at}\n".encode() for at in range(MANY)]
        return [*records_of(OPEN.encode()), *prices]
    return records_of_case(name)


def count_answered(ran: Ran) -> int:
    """How many records are answered before the first 90."""
    return next((at for at, line in enumerate(ran.lines()) if line == UNAVAILABLE), len(ran.lines()))


@pytest.fixture(scope="session")
def runs(program: Program, tmp_path_factory: pytest.TempPathFactory) -> Callable[[str], Run]:
    """The runs by their names, each once for each process."""
    library = Library(str(tmp_path_factory.mktemp("library")))
    return functools.lru_cache(None)(lambda name: Run(program, library, name))


@pytest.mark.parametrize("kind", KINDS)
@pytest.mark.parametrize("name", [*CASES, "many prices", "schema 1"])
def test_a_disk_that_stops(runs: Callable[[str], Run], sample: Sample, name: str, kind: str) -> None:
    run = runs(name)
    numbers = numbers_of(sample, f"{name}, {kind}", run.count(kind), SHORT, MOST)
    fault = fault_in((f"call {number}", run.stop(kind, number)) for number in numbers)
    assert fault is None, fault


def test_a_command_that_was_stopped(runs: Callable[[str], Run]) -> None:
    """Of eight calls of the log in a row one is the last of a command: if it is refused, one of the two
    offices has the command at hand, and the other hasn't."""
    run = runs(CASES[0])
    run.met.clear()
    first = run.count("log") // 4
    fault = fault_in((f"call {number}", run.stop("log", number)) for number in range(first, first + 8))
    assert fault is None, fault
    assert run.met == {0, 1}


def test_a_log_that_is_copied_in_between(runs: Callable[[str], Run]) -> None:
    """While many prices come, the log is copied into the database file: a call is refused there in mid-run."""
    run = runs("many prices")
    calls = range(1, run.count("database") + 1)
    first = calls[bisect_left(calls, 1, key=lambda number: run.stop_and_count("database", number))]
    assert 0 < run.stop_and_count("database", first) < len(run.stream.sent)
    fault = run.stop("database", first)
    assert fault is None, fault

"""Refuses each call of the program for input, output or a connection in turn, and checks what was done.

A small library that is preloaded counts the calls and refuses one (lib/refused.c); reads and writes are cut into pieces
of seven bytes, so that there are many.

- A read of the input is refused: the program ends with `cpi: read failed`, the records that had come whole are
  answered, and a file has them.
- A write of a line is refused: it ends with `cpi: write failed`, the bytes before it are there, and a file has
  the record whose line was cut too. The same record and all that follow are then answered as they would have been: a quote
  by the receipt that it has. (An office in memory ends as one over a file does.)
- A read of a message is refused: nothing was done, and nothing is written. A write of its response is: the bytes before
  it are heard, the quote is stored, and the same message again gives its receipt.

A test takes all calls of a kind, of which there is one at least; a short run draws a few of them.
"""

from __future__ import annotations

import functools
import tempfile
from collections.abc import Callable
from functools import partial
from typing import Union

import pytest

from lib.fault import Fault
from lib.open_office import QUOTE, QUOTED, QUOTES, RECEIPT, UNQUOTED, office
from lib.program import Program, Ran, failed
from lib.records import records_of
from lib.refusing import PIECE, Library, Stream, is_of_lines, numbers_of, records_of_case
from lib.sample import Sample
from lib.served import Served
from lib.tried import fault_in

pytestmark = pytest.mark.spread

STREAMS = ["a-replacement-needs-a-last-price", "what-stands-is-done-or-taken"]

MOST, SHORT = 300, 15
"""So many calls of a kind and case are refused, and so many in a short run."""

Shown = tuple[Ran, list[bytes]]
"""How a run with a call refused ended, and the views of its file."""


class Records:
    """The records of a case over a file, with a kind of call refused."""

    def __init__(self, program: Program, library: Library, name: str) -> None:
        self.library, self.stream = library, Stream(program, name, records_of_case(name))
        self.sent = self.stream.sent
        self.whole = self.stream.answered(self.sent)

    def count(self, kind: str) -> int:
        """How many calls of a kind there are."""
        with tempfile.TemporaryDirectory() as room:
            return self.stream.counted(self.library, kind, self.sent, f"{room}/office.db")

    @functools.lru_cache(None)
    def told(self, count: int) -> list[bytes]:
        """In memory: the views after so many records."""
        return self.stream.told(self.sent[:count])[1]

    @functools.lru_cache(None)
    def resumed(self, stand: int, start: int) -> list[bytes]:
        """In memory: the lines of the records from a place on, if so many stand before them."""
        return self.stream.answered(self.sent[:stand] + self.sent[start:])[stand:]

    def refused(self, kind: str, number: int, db: str) -> Shown:
        """A run over a new file."""
        ran = self.stream.run(self.sent, db, self.library.environment(kind, number))
        return ran, self.stream.answered(self.stream.views, db)

    def ended_otherwise(self, kind: str, number: int, ran: Ran, line: str) -> Fault:
        """Whether the end isn't that of this line, or in memory it is another one."""
        if (ran.status, ran.err) != (1, failed(line).err):
            return f"{ran}"
        in_memory = self.stream.run(self.sent, env=self.library.environment(kind, number))
        return None if ran == in_memory else "in memory it ends otherwise"

    def input_refused(self, number: int) -> Fault:
        """What is wrong if a read of the records is refused."""
        count = len(records_of(b"".join(self.sent)[: PIECE * (number - 1)]))
        with tempfile.TemporaryDirectory() as room:
            ran, shown = self.refused("input", number, f"{room}/office.db")
        fault = self.ended_otherwise("input", number, ran, "read failed")
        if fault:
            return fault
        if ran.lines() != self.whole[:count] or not is_of_lines(ran.out):
            return f"{len(ran.lines())} lines of {count} records that had come"
        return None if shown == self.told(count) else "the file shows something else"

    def output_refused(self, number: int) -> Fault:
        """What is wrong if a write of a line is refused."""
        lines = [line + b"\n" for line in self.whole]
        pieces = [(at, place) for at, line in enumerate(lines) for place in range(0, len(line), PIECE)]
        at, place = pieces[number - 1]
        with tempfile.TemporaryDirectory() as room:
            ran, shown = self.refused("output", number, f"{room}/office.db")
            again = self.stream.answered(self.sent[at:], f"{room}/office.db")
        fault = self.ended_otherwise("output", number, ran, "write failed")
        if fault:
            return fault
        if ran.out != b"".join(lines[:at]) + lines[at][:place]:
            return f"{len(ran.out)} bytes were written"
        if shown != self.told(at + 1):
            return "the file shows something else"
        return None if again == self.resumed(at + 1, at) else "the same records again were answered otherwise"


Heard = list[Union[bytes, int]]
"""Responses, and the status that the program ends with."""


def responses(program: Program, env: dict[str, str], *messages: bytes) -> Heard:
    """What is heard of the responses to messages, each over a connection of its own."""
    with tempfile.TemporaryDirectory() as room:
        path = office(program, room)
        with Served(program, path, len(messages), env=env) as served:
            heard = [served.ask_until_reset(message) for message in messages]
            return [*heard, served.end().status]


def connection_refused(program: Program, library: Library, kind: str, number: int) -> Fault:
    """What is wrong if a call for a connection is refused, within an entry."""
    found = responses(program, library.environment(kind, number), QUOTE, QUOTES, QUOTE, QUOTES)
    wanted: Heard = [RECEIPT[: PIECE * (number - 1)], QUOTED, RECEIPT, QUOTED, 0]
    if found[0] == RECEIPT:
        # (what is read after a response is thrown away)
        wanted[0] = RECEIPT
    elif kind == "receive":
        wanted[:2] = [b"", UNQUOTED]
    return None if found == wanted else f"{found}"


# ---- all


@pytest.fixture(scope="session")
def library(tmp_path_factory: pytest.TempPathFactory) -> Library:
    """The library, once for each process."""
    return Library(str(tmp_path_factory.mktemp("library")))


def refused(sample: Sample, name: str, count: int, fault: Callable[[int], Fault]) -> Fault:
    """What is wrong if calls are refused one by one, of so many."""
    return fault_in((f"call {number}", fault(number)) for number in numbers_of(sample, name, count, SHORT, MOST))


@pytest.mark.parametrize("kind", ["receive", "send"])
def test_a_message(program: Program, library: Library, sample: Sample, kind: str) -> None:
    count = library.counted(kind, lambda env: int(responses(program, env, QUOTE)[-1]))
    fault = refused(sample, kind, count, partial(connection_refused, program, library, kind))
    assert fault is None, fault


@pytest.mark.parametrize("name", STREAMS)
def test_the_input_of_records(program: Program, library: Library, sample: Sample, name: str) -> None:
    records = Records(program, library, name)
    fault = refused(sample, f"{name}, input", records.count("input"), records.input_refused)
    assert fault is None, fault


@pytest.mark.parametrize("name", STREAMS)
def test_the_output_of_records(program: Program, library: Library, sample: Sample, name: str) -> None:
    records = Records(program, library, name)
    fault = refused(sample, f"{name}, output", records.count("output"), records.output_refused)
    assert fault is None, fault

"""Refuses each growth of memory of the program in turn, and looks at what it answers then.

Cases of tests/cases are sent with each record twice (the rows of an import as records of their own), and at the end
what everybody may see and what each collector may see. The program runs once for each growth of memory that the run
meets, and only that one is refused (lib/refused.c counts them). Either one request is told 90, and then nothing was
done: all other lines are those of a run without it, and the record after it, which is the same, is answered as the
first one would have been. Or the program ends with status 1 and `cpi: out of memory` (over a file perhaps `cpi:
database failed`), and its lines are whole and the first of the run's. Or no line changes, but
only if the growth is one of a freeze: samples that find no room there are made when they are read.

Over a file it is up to 200 growths a case, evenly spread. There what is read may be kept in memory or not, so that no
request need be told 90; and a further run is shown by the file what the commands that were answered left, and of a run
that ended early perhaps the command at hand.

A test takes all growths of a case; a short run draws a few of them, and goes on until some request was told 90.
"""

from __future__ import annotations

import functools
import itertools
import tempfile
from collections.abc import Iterator
from typing import Union

import pytest

from lib.fault import Fault
from lib.program import Program, Ran
from lib.refusing import UNAVAILABLE, Library, Stream, is_of_lines, numbers_of, records_of_case
from lib.sample import Sample
from lib.tried import fault_in

pytestmark = pytest.mark.spread

NAMES = [
    "the-bounds-of-a-price",
    "a-replacement-needs-a-last-price",
    "marks-and-their-values",
    "what-stands-is-done-or-taken",
    "four-months-of-one-aggregate",
    "a-series-without-a-december-price-links-from-its-carried-one",
    "tea-and-coffee",
    "two-months-frozen-and-published",
    "a-carried-aggregate-is-named-at-the-freeze",
    "the-last-frozen-month-is-frozen-again",
    "weights-are-moved-by-prices",
    "a-copied-price-is-handed-on",
    "two-collectors-exchange-their-series",
]
IN_A_FILE = 200
"""So many growths are refused over a file, for each case."""
SHORT = 30
"""So many are in a short run, at least."""
ENDS = (b"cpi: out of memory\n", b"cpi: database failed\n")


def ends_early(ran: Ran, lines: list[bytes]) -> bool:
    """Whether it ended for want of memory, with the first of these lines."""
    told = ran.lines()
    return ran.status == 1 and ran.err in ENDS and is_of_lines(ran.out) and told == lines[: len(told)]


class InMemory:
    """A case in memory, and how many requests were told 90."""

    def __init__(self, program: Program, library: Library, name: str) -> None:
        self.library, self.told = library, list[int]()
        self.stream = Stream(program, name, records_of_case(name), times=2)
        self.records = self.stream.sent + self.stream.views
        self.whole = self.stream.answered(self.records)
        self.count = self.count_of(len(self.records))
        freezes = [at for at, record in enumerate(self.records) if b",freeze," in record]
        self.freezing = [range(self.count_of(at) + 1, self.count_of(at + 1) + 1) for at in freezes]

    def count_of(self, records: int) -> int:
        """The growths of a run of so many first records."""
        return self.stream.counted(self.library, "memory", self.records[:records])

    @functools.lru_cache(None)
    def without(self, at: int) -> list[bytes]:
        """The lines of a run without a record."""
        return self.stream.answered(self.records[:at] + self.records[at + 1 :])

    def fault(self, number: int) -> Fault:
        """What is wrong if the growth of that number is refused."""
        ran = self.stream.run(self.records, env=self.library.environment("memory", number))
        lines = ran.lines()
        places = [at for at, line in enumerate(lines) if line == UNAVAILABLE]
        is_of_a_freeze = any(number in growths for growths in self.freezing)
        if ends_early(ran, self.whole) or is_of_a_freeze and (ran.status, ran.err, lines) == (0, b"", self.whole):
            return None
        if ran.status or ran.err or len(places) != 1:
            return f"{ran}, {len(places)} replies of 90"
        if lines[: places[0]] + lines[places[0] + 1 :] != self.without(places[0]):
            return f"record {places[0]} was told 90 and left something"
        self.told.append(number)
        return None


class InAFile:
    """A case over a file, which is looked at afterwards in a further run."""

    def __init__(self, program: Program, library: Library, name: str) -> None:
        self.library, self.told = library, list[int]()
        self.stream = Stream(program, name, records_of_case(name), times=2)
        with tempfile.TemporaryDirectory() as room:
            self.count = self.stream.counted(library, "memory", self.stream.sent, f"{room}/office.db")

    @functools.lru_cache(None)
    def without(self, *places: int) -> tuple[list[bytes], list[bytes]]:
        """In memory: the lines without these records, and then the views."""
        return self.stream.told([record for at, record in enumerate(self.stream.sent) if at not in places])

    def first(self, count: int) -> list[bytes]:
        """In memory: the views after so many records."""
        return self.without(*range(count, len(self.stream.sent)))[1]

    def fault(self, number: int) -> Fault:
        """What is wrong if the growth of that number is refused."""
        with tempfile.TemporaryDirectory() as room:
            db = f"{room}/office.db"
            ran = self.stream.run(self.stream.sent, db, self.library.environment("memory", number))
            shown = self.stream.answered(self.stream.views, db)
        lines = ran.lines()
        places = [at for at, line in enumerate(lines) if line == UNAVAILABLE]
        if ends_early(ran, self.without()[0]):
            ends = [self.first(len(lines)), self.first(min(len(lines) + 1, len(self.stream.sent)))]
            return None if shown in ends else f"{len(lines)} lines, and the file shows something else"
        if ran.status or ran.err or len(places) > 1:
            return f"{ran}, {len(places)} replies of 90"
        others = [line for at, line in enumerate(lines) if at not in places]
        if (others, shown) != self.without(*places):
            return f"told 90 at {places}, and something was left"
        self.told += places
        return None


Way = Union[InMemory, InAFile]
"""How a case is sent."""


def tried(way: Way, sample: Sample, name: str, whole: int) -> Iterator[tuple[object, Fault]]:
    """Refuses growths of a case, and others until some request was told 90: a run in which none is refused nothing that
    a request needs."""
    numbers = numbers_of(sample, name, way.count, SHORT, whole)
    others = sample.drawn(f"{name}, others").sample(range(1, way.count + 1), way.count)
    for number in itertools.chain(numbers, itertools.takewhile(lambda _: not way.told, others)):
        yield f"growth {number}", way.fault(number)


@pytest.fixture(scope="session")
def library(tmp_path_factory: pytest.TempPathFactory) -> Library:
    """The library, once for each process."""
    return Library(str(tmp_path_factory.mktemp("library")))


@pytest.mark.parametrize("name", NAMES)
def test_growths_in_memory(program: Program, library: Library, sample: Sample, name: str) -> None:
    way = InMemory(program, library, name)
    fault = fault_in(tried(way, sample, f"{name} in memory", way.count))
    assert fault is None, fault
    assert way.told, "no request was told 90"


@pytest.mark.parametrize("name", NAMES)
def test_growths_over_a_file(program: Program, library: Library, sample: Sample, name: str) -> None:
    way = InAFile(program, library, name)
    fault = fault_in(tried(way, sample, f"{name} over a file", IN_A_FILE))
    assert fault is None, fault
    assert way.told, "no request was told 90"

"""Kills `cpi replay --db` at random moments, and looks at what its file holds.

Two hundred runs get the signal that no program can hold up, twenty in a short run, each at a drawn moment of one of
these streams of records:

- quotes: 2,000 of three collectors, a part of them in imports, some sent before and some in another's place,
- plans: one of three plans of a year in turn, so that one is in work at nearly every moment; two of them have a
  reference month, each another,
- freezes: fourteen months one after the other, of which three are reopened, with some other prices, and frozen again,
  one of them twice; the last is a January whose plan's weights are moved by prices,
- hand-overs: of 400 series from one collector to another, and of some of them on to a third, one by one and in imports,
- a new file: its tables are made, and an office is set up,
- a file of schema 1: its rows go to the tables of schema 2, and then some records follow.

After each kill:

- The lines that were written whole are those of the second office (tests/second_office).
- Python's sqlite3 reads a copy of the file and of the log beside it. Both are sound, and each of the twenty tables has
  just the rows of the second office after the records that have lines, or after one record more (of an import after
  some first rows): so a plan, a freeze and both rows of a hand-over are there as a whole or not at all. A file of
  schema 1 has all of its rows and none of the new tables if no record has a line, or it has the tables and the rows
  of schema 2.
- A further `cpi replay --db` gives a quote that was answered the receipt that it had, and lists the same quotes, items
  and tables. The records that had no line are then sent again, and have their lines.

Each stream is run once without a kill. Its tests go to one process, since it is dear to make.
"""

from __future__ import annotations

import functools
import json
import os
import random
import shutil
import signal
import tempfile
import time
from collections.abc import Callable, Iterator, Sequence
from typing import cast

import pytest

from lib.fault import Fault
from lib.offices import LAST
from lib.program import PATIENCE, Going, Program
from lib.records import first_difference
from lib.sample import Sample
from lib.stored import stored_in_copy
from lib.streams import STREAMS, Stream, line_of
from lib.tried import fault_in
from second_office import tables
from second_office.index import Row
from second_office.office import Reply, month_text
from second_office.records import text_of
from second_office.requests import Record
from second_office.rows import FIRST_TABLES, TABLES, Rows

TIMES = 10
"""How many runs a test kills; one in a short run."""
RESENT = 200  # how many records are sent again at most
Pairs = list[tuple[Record, bytes]]
"""Records with their lines."""


# ---- what is found, and what a further run has to answer


def found_in(path: str) -> tuple[list[object], Rows]:
    """What is wrong with a file and its log, and the rows of its tables, which are those of one of the schemas."""
    faults, rows = stored_in_copy(path)
    is_known = [*rows] in ([], TABLES, [*FIRST_TABLES])
    return faults if faults or is_known else [[*rows]], rows


def difference(rows: Rows, wanted: Rows) -> str:
    """What is in only one of two offices."""
    for name in wanted:
        more = [row for row in rows.get(name, []) if row not in wanted[name]]
        less = [row for row in wanted[name] if row not in rows.get(name, [])]
        if more or less:
            return f"{name} has {len(more)} rows more, {more[:2]}, and {len(less)} less, {less[:2]}"
    return "no row differs"


def month_of(number: int) -> str:
    """A month as it stands in a column."""
    return month_text((number // 100, number % 100))


def listed(rows: Rows) -> Iterator[tuple[Record, Reply]]:
    """Records that read, and their replies by the rows of the tables."""
    now, releases = str(LAST), rows["release_2"]
    yield [now, "public", "items"], {"items": [[*row] for row in rows["item"]]}
    published = [[month_of(month), revision, publishes] for month, revision, _, publishes, _ in releases]
    yield [now, "public", "tables"], {"tables": published}
    for collector, key in rows["collector"]:
        own = sorted((month, slot, entry) for holder, slot, month, *entry in rows["quote_2"] if holder == collector)
        quotes = [
            [slot, month_of(month), *((mark, value) if value else ("missing", mark)), receipt]
            for month, slot, (mark, value, receipt) in own
        ]
        yield [now, key, "quotes", "2000-01", "2199-12"], {"quotes": quotes}
    for month, revision, *_ in releases[-3:]:
        of_release = [row[2:] for row in rows["level_2"] if row[:2] == (month, revision)]
        text = tables.csv_of(cast(list[Row], of_release))
        asked = [now, "public", "table", month_of(month), "csv"]
        yield [*asked, str(revision)], {"table": text}
        if (month, revision) == releases[-1][:2]:
            # (without a revision it is the latest one's)
            yield asked, {"table": text}


def receipt_again(stream: Stream, answered: int, rows: Rows) -> Pairs:
    """The last quote with a line that still stands, and its line."""
    standing = {row[:3]: row[3:] for row in rows["quote_2"]}
    collector_of = {key: collector for collector, key in rows["collector"]}
    for record, line in zip(reversed(stream.records[:answered]), reversed(stream.lines[:answered])):
        if record[2] == "quote" and line.startswith(b'{"receipt":'):
            place = collector_of[record[1]], int(record[3]), int(record[4].replace("-", ""))
            if standing[place][2] == json.loads(line)["receipt"]:
                return [(record, line)]
    return []


def sent_again(stream: Stream, answered: int, is_more: bool) -> Pairs:
    """The records that had no line, and their lines; a month that was frozen all the same is frozen."""
    pairs = [*zip(stream.records, stream.lines)][answered : answered + RESENT]
    if is_more and pairs[0][0][2] == "freeze":
        pairs[0] = (pairs[0][0], line_of({"refused": 50}))
    return pairs


# ---- one run


class Scene:
    """A stream, the file that it begins with, how long its parts take, and what is wrong without a kill."""

    def __init__(self, program: Program, room: str, stream: Stream) -> None:
        self.program, self.stream = program, stream
        self.start, self.input = f"{room}/start.db", f"{room}/input.csv"
        with open(self.input, "w", encoding="utf-8") as file:
            file.write(text_of(stream.records))
        self.begins_with = stream.begin(program, self.start)
        self.fault = self.ready(room)

    def ready(self, room: str) -> Fault:
        """What is wrong with the file before the stream, or with a run that nobody kills; that one is timed."""
        faults, rows = found_in(self.start) if self.begins_with else ([], {})
        if faults or rows != self.begins_with:
            return f"{faults}, {difference(rows, self.begins_with)} before the stream"
        return self.whole(f"{room}/whole.db")

    def begun(self, path: str) -> Going:
        """A run that goes on."""
        if os.path.exists(self.start):
            shutil.copy(self.start, path)
        with open(self.input, "rb") as given:
            return self.program.begin("replay", "--db", path, stdin=given)

    def whole(self, path: str) -> Fault:
        """What is wrong with a run that nobody kills."""
        began, stream = time.perf_counter(), self.stream
        with self.begun(path) as going:
            lines = [going.line()]
            self.opening = time.perf_counter() - began
            lines += [going.line() for _ in stream.lines[1:]]
            self.each = (time.perf_counter() - began - self.opening) / len(lines)
            ended = going.end(PATIENCE)
            self.closing = time.perf_counter() - began - self.opening - self.each * len(lines)
        fault = first_difference(stream.records, lines, stream.lines)
        if fault or ended.status or ended.out:
            return f"{ended}, {fault}"
        faults, rows = found_in(path)
        return None if (faults, rows) == ([], stream.states[-1]) else f"{faults}, {difference(rows, stream.states[-1])}"

    def moment(self, drawn: random.Random) -> tuple[int, float]:
        """After how many lines the program is killed, and how long after that."""
        count = len(self.stream.lines)
        lines = drawn.choice([0, count] + [drawn.randrange(count + 1) for _ in range(10)])
        part = {0: self.opening, count: self.closing}.get(lines, self.each)
        return lines, drawn.uniform(0, 1.2 * part)

    def killed(self, path: str, lines: int, pause: float) -> list[bytes] | None:
        """The whole lines of a run that was killed, or None if it had ended before."""
        with self.begun(path) as going:
            written = [going.line() for _ in range(lines)]
            time.sleep(pause)
            going.process.send_signal(signal.SIGKILL)
            rest = b"".join(written) + going.out.read()
            status = going.process.wait()
        if status not in (0, -signal.SIGKILL):
            raise ChildProcessError(f"the program ended by itself with status {status}")
        return [line + b"\n" for line in rest.split(b"\n")[:-1]] if status else None

    def fault_after_kill(self, drawn: random.Random) -> Fault:
        """What is wrong after one kill."""
        lines, pause = self.moment(drawn)
        written = None
        while written is None:
            with tempfile.TemporaryDirectory() as room:
                path = f"{room}/office.db"
                written = self.killed(path, lines, pause)
                if written is not None:
                    fault = self.after(path, written)
                    return fault and f"killed {pause:.6f} s after {lines} lines: {fault}"
            pause /= 2
        return None

    def is_begun(self, path: str, answered: int) -> bool:
        """Whether a new file is there but for its first byte, which is written last: until then only `cpi` takes it,
        as one in which no table was made."""
        if answered or self.begins_with or not os.path.exists(path):
            return False
        with open(path, "rb") as file:
            return file.read(16) == b"\0QLite format 3\0"

    def after(self, path: str, written: Sequence[bytes]) -> Fault:
        """What is wrong with these lines, and with the file."""
        answered, stream = len(written), self.stream
        least, end = stream.ends[answered], stream.ends[min(answered + 1, len(stream.records))]
        fault = first_difference(stream.records, written, stream.lines[:answered])
        faults, rows = ([], {}) if self.is_begun(path, answered) else found_in(path)
        if fault or faults:
            return fault or f"the file isn't sound: {faults[:5]}"
        if answered == 0 and rows == self.begins_with:
            # (no table was made yet, or the tables are those of schema 1 still: the office is the same)
            rows = stream.states[0]
        held = [count for count in range(least, end + 1) if rows == stream.states[count]]
        if not held:
            return f"{answered} lines were written, and {difference(rows, stream.states[least])}"
        return self.further(path, answered, rows, held[0] > least)

    def further(self, path: str, answered: int, rows: Rows, is_more: bool) -> Fault:
        """What is wrong with a further run over the file."""
        pairs = receipt_again(self.stream, answered, rows)
        pairs += [(record, line_of(reply)) for record, reply in listed(rows)]
        pairs += sent_again(self.stream, answered, is_more)
        records, lines = [record for record, _ in pairs], [line for _, line in pairs]
        ran = self.program.replay(text_of(records).encode(), path, seconds=PATIENCE)
        fault = first_difference(records, ran.out.splitlines(keepends=True), lines)
        if ran.status or ran.err or fault:
            return f"a further run: status {ran.status}, {ran.err!r}, {fault}"
        faults, found = found_in(path)
        wanted = self.stream.states[self.stream.ends[min(answered + RESENT, len(self.stream.records))]]
        return None if (faults, found) == ([], wanted) else f"after a further run {faults}, {difference(found, wanted)}"


# ---- all


@pytest.fixture(scope="module")
def scene_of(program: Program, sample: Sample, tmp_path_factory: pytest.TempPathFactory) -> Callable[[str], Scene]:
    """What gives the scene of a stream, which is made once, and run whole."""

    @functools.lru_cache(None)
    def made(name: str) -> Scene:
        stream, _ = STREAMS[name]
        return Scene(program, str(tmp_path_factory.mktemp("scene")), stream(sample.drawn(name)))

    return made


def in_one_process(name: str) -> pytest.MarkDecorator:
    """The mark of a stream's tests."""
    return pytest.mark.xdist_group(f"killed, {name}")


WHOLE = [pytest.param(name, marks=in_one_process(name)) for name in STREAMS]
KILLED = [
    pytest.param(name, part, marks=in_one_process(name))
    for name, (_, parts) in STREAMS.items()
    for part in range(parts)
]


@pytest.mark.parametrize("name", WHOLE)
def test_whole(scene_of: Callable[[str], Scene], name: str) -> None:
    assert scene_of(name).fault is None


@pytest.mark.parametrize("name, part", KILLED)
def test_killed(scene_of: Callable[[str], Scene], sample: Sample, name: str, part: int) -> None:
    scene = scene_of(name)
    assert scene.fault is None
    kills = [sample.drawn(f"{name}, {part}, {at}") for at in range(sample.count(1, TIMES))]
    fault = fault_in((f"kill {at}", scene.fault_after_kill(drawn)) for at, drawn in enumerate(kills))
    assert fault is None, fault

"""Runs `cpi` if the system gives it too little memory.

A replay in memory, one over a file, a table and HTTP for a client are each run at twenty sizes of the memory that the
program may ask for, evenly spread from the least at which `cpi --help` works to the least at which the job is done
well, of which a short run takes a few. (Below the first the loader of the system ends with a status of its own.) Each
run ends by itself: with status 0 and no line on standard error, or with status 1 and one line, which is that of its
fault. And each job is run at as many sizes of address space. That counts the stack, and the system ends a program whose
stack can't grow, by SIGSEGV; so such a run may end in this way too. Of the replies of each run:

- What a replay wrote is whole lines. A record may be refused by 90; but for those the lines are the first lines of a
  run of the other records with ample memory. The file then holds what these records make of it, or one of the records
  that weren't answered more: of an import some first rows.
- A table is written whole, or not at all.
- Each message has its whole response, or that of 90, or none. Each quote that has a receipt stands in the file.
"""

from __future__ import annotations

import json
import resource
import shutil
import signal
import subprocess
import tempfile
from collections.abc import Callable, Iterator, Sequence
from functools import partial
from typing import NamedTuple

import pytest

from lib.fault import Fault
from lib.long_life import ITEMS, SLOTS, TITLE, entries, office_of, years
from lib.offices import aggregates, key_of, plan_of
from lib.program import Program, Ran, failed, with_data, with_memory
from lib.records import first_difference, rows_of
from lib.refusing import is_of_lines
from lib.sample import Sample
from lib.served import DESK, ENDED, FULL, Served, message, without_reports
from lib.stored import stored_in_copy
from lib.tried import fault_in
from second_office.records import text_of
from second_office.requests import Record
from second_office.rows import Rows

pytestmark = pytest.mark.spread

STEP = 16 * resource.getpagesize()
AMPLE, ENOUGH = 4_000_000_000, 512_000_000
NO_MEMORY, NO_DATABASE = failed("out of memory").err, failed("database failed").err
SECONDS = 300
SIZES, SHORT = 20, 5
"""At so many sizes each job is run, and in a short run."""
PARTS = 8
"""A short run looks less closely for the least size that is enough."""


class Limit(NamedTuple):
    """What is limited, how, and by which statuses the system may then end a program itself."""

    name: str
    of: Callable[[int], Callable[[], None]]
    ends: tuple[int, ...] = ()


ASKED_FOR = Limit("memory that it asks for", with_data)
ADDRESSES = Limit("addresses", with_memory, (-signal.SIGSEGV,))


def run(program: Program, limit: Limit, size: int, *words: str, given: bytes = b"") -> Ran:
    """A run with so many bytes."""
    return program.run(*words, given=given, seconds=SECONDS, preexec_fn=limit.of(size))


def replayed(program: Program, records: Sequence[Record], db: str | None = None) -> Ran:
    """A replay with ample memory."""
    return program.replay(text_of(records).encode(), db, seconds=SECONDS)


def least(is_enough: Callable[[int], bool], low: int, parts: int) -> int:
    """The least size that is enough, above one that isn't: to a step, or to one of so many parts of what there is more."""
    size = STEP
    while not is_enough(low + size):
        size *= 2
        if size > ENOUGH:
            raise ChildProcessError(f"{low + size // 2} bytes aren't enough")
    low, high, gap = low + (size // 2 if size > STEP else 0), low + size, max(STEP, size // parts)
    while high - low > gap:
        middle = low + (high - low) // 2 // STEP * STEP
        low, high = (low, middle) if is_enough(middle) else (middle, high)
    return high


def spread(low: int, high: int, count: int) -> list[int]:
    """So many sizes from one to the other, both among them."""
    return [low + (high - low) * at // (count - 1) for at in range(count)]


def helps(program: Program, limit: Limit, size: int) -> bool:
    """Whether the program is loaded at all."""
    try:
        return run(program, limit, size, "--help") == program.run("--help")
    except (OSError, subprocess.SubprocessError):
        return False


# ---- what is to be found


class Job:
    """What the program is run for."""

    limit = ASKED_FOR

    def is_enough(self, size: int) -> bool:
        """Whether the job is done well with so many bytes."""
        raise NotImplementedError

    def fault(self, size: int) -> Fault:
        """What is wrong with a run with so many bytes."""
        raise NotImplementedError


def ended_ill(ran: Ran, limit: Limit, *lines: bytes) -> Fault:
    """What is wrong with the end of a run: nothing if it ended well, with one of the lines, or by the system."""
    is_well = (ran.status, ran.err) == (0, b"") or (ran.status == 1 and ran.err in lines)
    is_ended = ran.status in limit.ends and ran.err == b""
    return None if is_well or is_ended else f"{ran}"


def without_refused(records: Sequence[Record], lines: Sequence[bytes]) -> tuple[list[Record], list[bytes]]:
    """The records and rows of imports that weren't refused by 90, with their replies."""
    pairs = []
    for record, line in zip(records, lines):
        reply = json.loads(line)
        if reply.get("refused") == 90:
            continue
        if "rows" in reply and {"refused": 90} in reply["rows"]:
            kept = [(row, each) for row, each in zip(rows_of(record[3]), reply["rows"]) if each != {"refused": 90}]
            record = [*record[:3], text_of([row for row, _ in kept])]
            rows = {"rows": [each for _, each in kept]}
            line = json.dumps(rows, separators=(",", ":"), ensure_ascii=False).encode()
        pairs.append((record, line))
    return [record for record, _ in pairs], [line for _, line in pairs]


def sound_rows(path: str) -> Rows:
    """The rows of a file and its log, which are sound."""
    faults, rows = stored_in_copy(path)
    if faults:
        raise ValueError(f"the file isn't sound: {faults[:3]}")
    return rows


class Replay(Job):
    """A replay, in memory or over a new file."""

    def __init__(self, program: Program, is_in_a_file: bool) -> None:
        self.program, self.is_in_a_file = program, is_in_a_file
        self.faults = [NO_MEMORY, NO_DATABASE] if is_in_a_file else [NO_MEMORY]
        self.records = [*years()]
        self.given = text_of(self.records).encode()
        self.wanted = replayed(program, self.records).lines()

    def replayed(self, room: str, size: int) -> Ran:
        words = ["--db", f"{room}/office.db"] if self.is_in_a_file else []
        return run(self.program, self.limit, size, "replay", *words, given=self.given)

    def is_enough(self, size: int) -> bool:
        with tempfile.TemporaryDirectory() as room:
            ran = self.replayed(room, size)
            return ran.status == 0 and ran.lines() == self.wanted

    def fault(self, size: int) -> Fault:
        with tempfile.TemporaryDirectory() as room:
            ran = self.replayed(room, size)
            lines = ran.lines()
            fault = ended_ill(ran, self.limit, *self.faults)
            if fault or not is_of_lines(ran.out):
                return fault or f"a line that isn't whole, {ran.out[-100:]!r}"
            if ran.status == 0 and len(lines) != len(self.records):
                return f"{len(lines)} lines for {len(self.records)} records, and status 0"
            records, told = without_refused(self.records, lines)
            wanted = self.wanted[: len(lines)] if told == lines else replayed(self.program, records).lines()
            fault = first_difference(range(len(told)), told, wanted)
            if self.is_in_a_file and not fault:
                fault = self.stood(f"{room}/office.db", records, self.next_of(lines))
            return fault

    def next_of(self, lines: Sequence[bytes]) -> Record | None:
        """The record that may have been begun without its line: the first that was refused by 90, or has no line."""
        refused = [at for at, line in enumerate(lines) if b'{"refused":90}' in line]
        at = refused[0] if refused else len(lines)
        return self.records[at] if at < len(self.records) else None

    def stood(self, path: str, records: list[Record], following: Record | None) -> Fault:
        """What is wrong with the rows of the file."""
        rows = sound_rows(path)
        if not rows:
            return "there are no tables" if records else None
        made = self.rows_of(records)
        if rows == made:
            return None
        if following and following[2] == "import":
            count = sum(len(rows[name]) - len(made[name]) for name in ("quote_2", "assignment_2"))
            following = [*following[:3], text_of(rows_of(following[3])[:count])]
        if following and rows == self.rows_of([*records, following]):
            return None
        return f"the file doesn't hold what {len(records)} records make of it"

    def rows_of(self, records: list[Record]) -> Rows:
        """The rows of a file that was made with ample memory."""
        with tempfile.TemporaryDirectory() as room:
            replayed(self.program, records, f"{room}/office.db")
            return sound_rows(f"{room}/office.db")


class Table(Job):
    """The table of a month, from a file."""

    def __init__(self, program: Program, room: str) -> None:
        self.program, self.start = program, f"{room}/table.db"
        lines = replayed(program, [*years()], self.start).lines()
        self.wanted = json.loads(lines[-2])["table"].encode()

    def printed(self, size: int) -> Ran:
        with tempfile.TemporaryDirectory() as room:
            path = shutil.copy(self.start, f"{room}/office.db")
            asked = ["--month", "2026-01", "--form", "text", "--at", "4000"]
            return run(self.program, self.limit, size, "table", "--db", path, *asked)

    def is_enough(self, size: int) -> bool:
        return self.printed(size) == (0, self.wanted, b"")

    def fault(self, size: int) -> Fault:
        ran = self.printed(size)
        if ran.out != (self.wanted if ran.status == 0 else b""):
            return f"status {ran.status}, and {len(ran.out)} bytes of {len(self.wanted)}"
        return ended_ill(ran, self.limit, NO_MEMORY, NO_DATABASE)


# ---- HTTP


COLLECTORS = range(1, 7)
WELL = b"HTTP/1.1 200 OK\r\n"


class Asked(NamedTuple):
    """A message of a collector, or of the desk as 0."""

    number: int
    word: str
    text: bytes


def asked() -> Iterator[Asked]:
    """Messages of six collectors: each response goes only by those of the same collector."""
    for number in COLLECTORS:
        key, body = key_of(number), text_of(entries("2026-01", 1000)).encode()
        yield Asked(number, "import", message("POST /import", key=key, body=body))
        yield Asked(number, "work", message("GET /work/2026-01", key=key))
        yield Asked(number, "quotes", message("GET /quotes/2026-01/2026-01", key=key))
    plan = plan_of(aggregates(100), ITEMS, TITLE, references=["2026-06"]).encode()
    yield Asked(0, "items", message("GET /items", key=DESK))
    yield Asked(0, "plan", message("PUT /plan/2027", key=DESK, body=plan))


def is_whole(text: bytes) -> bool:
    """Whether the body is as long as the head says."""
    head, _, body = text.partition(b"\r\n\r\n")
    return text.startswith(WELL) and f"Content-Length: {len(body)}\r\n".encode() in head + b"\r\n"


class Messages(Job):
    """HTTP for a client that sends each message over a connection of its own."""

    def __init__(self, program: Program, room: str) -> None:
        self.program, self.start = program, f"{room}/http.db"
        replayed(program, [*office_of(COLLECTORS)], self.start)
        self.messages = [*asked()]
        with tempfile.TemporaryDirectory() as inner:
            ran, self.wanted = self.served(inner, AMPLE)
        if ran != ENDED or any(not text.startswith(WELL) for text in self.wanted):
            raise ChildProcessError(f"{ran}, {[text[:60] for text in self.wanted]}")

    def served(self, room: str, size: int) -> tuple[Ran, list[bytes]]:
        """The end of the program, and the responses."""
        path = shutil.copy(self.start, f"{room}/office.db")
        with Served(self.program, path, len(self.messages), preexec_fn=self.limit.of(size)) as served:
            texts = [it.text for it in self.messages] if served.is_listening else []
            heard = [served.ask_until_reset(text, ends=True) for text in texts]
            return served.end(), heard

    def is_enough(self, size: int) -> bool:
        with tempfile.TemporaryDirectory() as room:
            ran, heard = self.served(room, size)
            return (ran, heard) == (ENDED, self.wanted)

    def fault(self, size: int) -> Fault:
        with tempfile.TemporaryDirectory() as room:
            all_of_it, heard = self.served(room, size)
            ran = without_reports(all_of_it)
            fault = ended_ill(ran, self.limit, NO_MEMORY, NO_DATABASE)
            fault = fault or (f"{ran}" if ran.out else self.answered_ill(heard))
            return fault or self.stood(f"{room}/office.db", heard)

    def answered_ill(self, heard: Sequence[bytes]) -> Fault:
        """Which response is neither whole nor that of 90; if an import has none, its collector's lists aren't
        known."""
        unknown = set()
        for (number, word, _), text, wanted in zip(self.messages, heard, self.wanted):
            is_none = text in (FULL, b"")
            is_cut = word == "import" and b'{"refused":90}' in text and is_whole(text)
            if word == "import" and (is_none or is_cut):
                unknown.add(number)
            if not (text == wanted or is_none or is_cut or (number in unknown and is_whole(text))):
                return f"{word} of {number} is answered {text[:300]!r}"
        return None

    def stood(self, path: str, heard: Sequence[bytes]) -> Fault:
        """Each quote that has a receipt stands, and no receipt stands twice; so does a plan that was answered."""
        rows = sound_rows(path)
        if not rows:
            return "there are no tables"
        quotes = {(collector, slot): (value, receipt) for collector, slot, _, _, value, receipt in rows["quote_2"]}
        for (number, word, _), text in zip(self.messages, heard):
            if word == "import" and text not in (b"", FULL):
                replies = json.loads(text.partition(b"\r\n\r\n")[2])["rows"]
                for slot, reply in zip(SLOTS, replies):
                    stands = quotes.get((number, slot))
                    if "receipt" in reply and stands != (1000 + slot, reply["receipt"]):
                        return f"quote {slot} of {number} was answered {reply}, and stands as {stands}"
            is_there = sum(row[0] == 2027 for row in rows["node"]) > 100 and (2027, 202606) in rows["plan_ref"]
            if word == "plan" and text not in (b"", FULL) and not is_there:
                return "the plan that was answered doesn't stand"
        for number in COLLECTORS:
            receipts = sorted(receipt for (collector, _), (_, receipt) in quotes.items() if collector == number)
            if receipts != [*range(1, len(receipts) + 1)]:
                return f"the receipts of {number} are {receipts[:5]}.."
        return None


# ---- all


JOBS: dict[str, Callable[[Program, str], Job]] = {
    "a replay": lambda program, _: Replay(program, False),
    "a replay over a file": lambda program, _: Replay(program, True),
    "a table": Table,
    "http": Messages,
}


@pytest.mark.parametrize("limit", [ASKED_FOR, ADDRESSES], ids=[ASKED_FOR.name, ADDRESSES.name])
@pytest.mark.parametrize("name", JOBS)
def test_each_size(program: Program, room: str, sample: Sample, name: str, limit: Limit) -> None:
    low = least(partial(helps, program, limit), 0, ENOUGH)
    job = JOBS[name](program, room)
    job.limit = limit
    assert not job.is_enough(low), "it needs no more than `cpi --help`"
    high = least(job.is_enough, low, sample.count(PARTS, ENOUGH))
    sizes = sample.of(spread(low, high, SIZES), SHORT, f"{name}, {limit.name}")
    fault = fault_in((f"{size} bytes", job.fault(size)) for size in sizes)
    assert fault is None, f"{name} needs {high} bytes, and `cpi --help` {low}: {fault}"

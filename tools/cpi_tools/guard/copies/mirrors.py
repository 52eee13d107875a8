"""A copy of an office's file and log, brought up to date page by page, and whether an office continues it."""

from __future__ import annotations

import contextlib
import hashlib
import os
import sqlite3
import time
from collections.abc import Iterator
from io import RawIOBase
from pathlib import Path
from typing import Any, NamedTuple, Optional

from ...office.copying import BLOCK, PATIENCE, CopyFailed, log_beside, mark_of, private_copy
from ...office.folders import whole_number
from ...office.stored import SCHEMA, StoredOffice, unchanged_office
from ...text.terminal import Fault, month_text, naming


# ==== whether an office continues its copy: its identity, the figures that only grow in its life, and its last quotes
#
# **Which office.** A collector's number never gets another key, and keys are drawn. So the key of one collector shows
# to which office a file belongs, whatever its machine, its folder and its name are. The note on the first copy that has
# a collector keeps that number with a sum of the key, and each later note has the same.
#
# **Marks.** No row of these tables is ever removed, and a quote that is put right gets a greater receipt. So no count
# of rows gets smaller, and the sum of all receipts grows with each answered price.
#
# **The last quotes.** A quote stays in its row, and a new one comes last. So an office that continues a copy has the
# last quotes of the copy at the same places. One that lost them, and has taken as many others since, hasn't.

LAST_QUOTES = 20
"""So many of the last quotes are in a note."""


class Identity(NamedTuple):
    """The identity of an office: the number of a collector, and a sum of that collector's number and key."""

    collector: int
    sum: str


class Marks(NamedTuple):
    """The figures that only grow: how many rows there are of each kind, and the sum of the receipts of all quotes."""

    collectors: int
    outlets: int
    items: int
    slots: int
    months: int
    tables: int
    quotes: int
    receipts: int


NAMES = ("collectors", "outlets", "items", "assigned slots", "months", "tables", "quotes", "sum of receipts")
"""The names of the marks."""

Quoted = tuple[int, int, str, int]
"""Collector, slot, month and receipt of a quote."""


class Known(NamedTuple):
    """The record of an office's life: its identity, None if it has no collector; its marks, None for a copy that an
    earlier version made; and its last quotes, the latest first."""

    identity: Optional[Identity]
    marks: Optional[Marks]
    receipts: tuple[Quoted, ...]


class NotCarried(Fault):
    """An office that doesn't go on from its copy, or is damaged; one line. `kind` stays the same while the cause does."""

    def __init__(self, kind: str, value: str):
        super().__init__(value)
        self.kind = kind


def known_of(file: Path, before: Optional[Known], is_anew: bool = False) -> Known:
    """The record of an office's file and log, which nobody else has open: both stay as they are. Raises NotCarried if
    the file is damaged; and, unless `is_anew`, if it doesn't continue the known copy."""
    if not file.stat().st_size:
        raise NotCarried("damage", "it is empty, so it is no office by itself")
    try:
        try:
            return _known_of(file, before, is_anew)
        except sqlite3.OperationalError:
            # (on some file systems of a network the C library reads no file with a log)
            with private_copy(file) as copy:
                return _known_of(copy, before, is_anew)
    except sqlite3.Error as fault:
        raise NotCarried("damage", f"it can't be read as an office: {fault}") from fault


def _known_of(file: Path, before: Optional[Known], is_anew: bool) -> Known:
    """The marks of an office's file. Raises NotCarried and sqlite3.Error."""
    with unchanged_office(file) as office:
        if fault := office.quick_fault():
            raise NotCarried("damage", f"it is damaged: {fault}")
        if office.ask("SELECT number FROM version") != [(SCHEMA,)]:
            raise NotCarried("damage", "its tables are those of another version of cpi: open it once with this one")
        if before and not is_anew:
            _refuse(office, before)
        identity = before.identity if before and not is_anew else None
        return Known(identity or identity_of(office), marks_of(office), last_quotes_of(office))


def identity_of(office: StoredOffice) -> Optional[Identity]:
    """The identity of an office, from its collector with the least number; None if it has no collector."""
    keys = office.keys()
    return Identity(min(keys), _sum_of(min(keys), keys[min(keys)])) if keys else None


def _sum_of(collector: int, key: str) -> str:
    return hashlib.sha256(f"{collector},{key}".encode()).hexdigest()


def marks_of(office: StoredOffice) -> Marks:
    """The marks of an office."""
    return Marks(*office.count_growing())


def last_quotes_of(office: StoredOffice, newer: int = 0) -> tuple[Quoted, ...]:
    """The last quotes of an office, as they were before a number of newer ones came."""
    rows = office.last_quotes(LAST_QUOTES, newer)
    return tuple((collector, slot, month_text(month), receipt) for collector, slot, month, receipt in rows)


def _refuse(office: StoredOffice, before: Known) -> None:
    """Raises NotCarried unless an office continues its copy. Nothing is known about a copy that is older than these
    notes."""
    if before.marks is None:
        return
    marks, other = marks_of(office), _other_collector(office, before.identity)
    # (of an office without that collector the marks say more)
    if lower := [] if other.endswith("has another key") else [*_lower(before.marks, marks)]:
        raise NotCarried("marks", f"it would take back what the copy has: {', '.join(lower)}")
    if other:
        raise NotCarried("identity", f"it is another office than that of the copy: {other}")
    newer = marks.quotes - before.marks.quotes
    if quote := _other_quote(before.receipts, last_quotes_of(office, newer)):
        collector, slot, month, receipt = quote
        value = f"the quote of slot {collector}/{slot} in {month}, receipt {receipt}, isn't at its place"
        raise NotCarried("quotes", f"it doesn't go on from the copy: {value}")


def _other_collector(office: StoredOffice, identity: Optional[Identity]) -> str:
    """Why a collector shows that it is another office; empty if the collector doesn't."""
    if not identity:
        return ""
    key = office.keys().get(identity.collector)
    if key is None:
        return f"it has no collector {identity.collector}"
    is_same = _sum_of(identity.collector, key) == identity.sum
    return "" if is_same else f"its collector {identity.collector} has another key"


def _lower(before: Marks, now: Marks) -> Iterator[str]:
    """The marks that would get smaller, with both numbers."""
    for was, found, name in zip(before, now, NAMES):
        if found < was:
            yield f"{name} {was:,} (here {found:,})"


def _other_quote(before: tuple[Quoted, ...], now: tuple[Quoted, ...]) -> Optional[Quoted]:
    """The first of the last quotes of a copy that an office hasn't at the same place, with that receipt or a later one;
    None if it has all."""
    for turn, was in enumerate(before):
        if turn >= len(now) or now[turn][:3] != was[:3] or now[turn][3] < was[3]:
            return was
    return None


# ---- as they are written


def identity_in(value: Any) -> Optional[Identity]:
    """The identity in a note. Raises ValueError, LookupError or TypeError if it is none."""
    return None if value is None else Identity(whole_number(value["collector"]), str(value["sum"]))


def marks_in(value: Any) -> Optional[Marks]:
    """The marks in a note; None if an earlier version wrote the note. Raises ValueError, LookupError or TypeError if
    they are none."""
    return None if value is None else Marks(*(whole_number(value[name]) for name in Marks._fields))


# ==== a copy of an office's file and log that is brought up to date in place: only pages that changed are written
#
# A round reads the office's file and log as `copying` does, in their order and with the same mark before and after, so
# the mirror at the end is a right copy of one moment. While it is being written it isn't one, so the keeper of a mirror
# also keeps a second one, which is whole.
#
# **The sum.** A SHA-256 of 300 MB takes more than a second of a processor without instructions for it. So each block of
# 16 KiB has its own SHA-256, which is recomputed only if the block changed, and the sum of a file is the SHA-256 of its
# blocks' sums, one after the other. `sum_of` computes the same of a file that nobody knows yet.

PAGE = 4096
"""Bytes of a page of the office's file; only whole pages are written."""

SUMMED = 1 << 14
"""Bytes of a block that has its own sum."""

QUIET_WITHIN = 5
"""Seconds for which a pass waits until the log is emptied again: a pass that begins right after that has the longest
time."""


class Taken(NamedTuple):
    """A round of a mirror: the moment at which the right pass began (seconds since 1970 UTC), how many passes it took,
    and the bytes that were written."""

    moment: int
    passes: int
    written: int


class Mirror:
    """A file that is brought to the bytes of another one, and the sum of each of its blocks."""

    def __init__(self, path: Path):
        """The mirror at a path, with the content that a former run left there. Raises OSError."""
        self.path = path
        self._sums = list[bytes]()
        self._size = 0
        self.pages = set[int]()
        """The numbers of the pages that were written, until somebody takes them away."""
        opened = os.open(path, os.O_RDWR | os.O_CREAT | os.O_CLOEXEC, 0o600)
        with naming(path), os.fdopen(opened, "rb", buffering=0) as file:
            for block in _blocks(file):
                self._sums += _sums_of(block)
                self._size += len(block)

    @property
    def size(self) -> int:
        """Its bytes."""
        return self._size

    def sum(self) -> str:
        """The sum of the file, in hexadecimal."""
        return _sum(self._sums)

    def take(self, source: Path) -> int:
        """Brings it to the bytes of another file, which is read from front to back; how many bytes were written. A file
        that isn't there counts as empty. Raises OSError."""
        with contextlib.ExitStack() as opened:
            try:
                file = opened.enter_context(source.open("rb", buffering=0))
            except FileNotFoundError:
                return self._cut(0)
            number = os.open(self.path, os.O_RDWR | os.O_CLOEXEC)
            opened.callback(os.close, number)
            at = written = 0
            for block in _blocks(file):
                with naming(self.path):
                    written += self._put(number, at, block)
                at += len(block)
        return written + self._cut(at)

    def _put(self, number: int, at: int, block: bytes) -> int:
        """Writes the pages of a block, at a place in bytes, that differ from the file's."""
        there = os.pread(number, len(block), at)
        if there == block:
            return 0
        written = 0
        for begin in range(0, len(block), SUMMED):
            part, old = block[begin : begin + SUMMED], there[begin : begin + SUMMED]
            if part != old:
                written += self._write_pages(number, at + begin, part, old)
                self._note(at + begin, part)
        return written

    def _write_pages(self, number: int, at: int, part: bytes, old: bytes) -> int:
        """Writes the pages of a part of the file that differ from the old ones, at a place; how many bytes."""
        written = 0
        for begin in range(0, len(part), PAGE):
            page = part[begin : begin + PAGE]
            if page != old[begin : begin + PAGE]:
                self.pages.add((at + begin) // PAGE)
                _write(number, at + begin, page)
                written += len(page)
        return written

    def _note(self, at: int, part: bytes) -> None:
        """Keeps the sum of a block at a place."""
        index = at // SUMMED
        self._sums[index : index + 1] = [hashlib.sha256(part).digest()]
        self._size = max(self._size, at + len(part))

    def _cut(self, size: int) -> int:
        """Cuts off everything past a size; no byte was written for it."""
        if size == self._size:
            return 0
        with naming(self.path), self.path.open("r+b", buffering=0) as file:
            file.truncate(size)
            self._sums[-(-size // SUMMED) :] = []
            self._size = size
            if begin := size % SUMMED:
                self._note(size - begin, os.pread(file.fileno(), begin, size - begin))
        return 0

    def sync(self) -> None:
        """Waits until it is on the disk. Raises OSError."""
        sync(self.path)


SECOND = 1_000_000_000
"""Nanoseconds."""


class MirroredOffice:
    """The mirrors of an office's file and of its log, in a folder."""

    def __init__(self, folder: Path, name: str):
        """The mirror of the file gets a name there, and the log's mirror the name that belongs to it. Raises
        OSError."""
        self.file = Mirror(folder / name)
        self.log = Mirror(log_beside(folder / name))

    def take(self, office: Path, patience: float = PATIENCE) -> Taken:
        """Brings both to one state of an office's file, which `cpi` can serve at the same time. Raises CopyFailed if
        the log isn't quiet for one pass within `patience` seconds, and OSError."""
        until, passes, written = time.monotonic() + patience, 0, 0
        while True:
            moment, before = int(time.time()), mark_of(office)
            written += self.file.take(office) + self.log.take(log_beside(office))
            passes += 1
            if mark_of(office) == before:
                break
            if time.monotonic() > until:
                raise CopyFailed(f"{office} is written so fast that it wasn't quiet for one copy in {patience:.0f} s")
            _await_emptied(office)
        if not self.file.size and not self.log.size:
            raise CopyFailed(f"{office} is empty, so it is no office")
        return Taken(moment, passes, written)

    def taken_and_stamped(self, office: Path, patience: float = PATIENCE) -> Taken:
        """Takes it, and gives a mirror that changed a time in whole seconds that it never had: rsync compares these.
        Raises CopyFailed and OSError."""
        mirrors = (self.file, self.log)
        before = [second_of(each.path) for each in mirrors]
        taken = self.take(office, patience)
        for each, moment in zip(mirrors, before):
            stamp(each.path, moment)
        return taken


def _await_emptied(office: Path) -> None:
    """Waits until the log is emptied once more, but not for long."""
    before, until = mark_of(office), time.monotonic() + QUIET_WITHIN
    while mark_of(office) == before and time.monotonic() < until:
        time.sleep(0.002)


def second_of(path: Path) -> int:
    """The time of a file in seconds since 1970 UTC, a part counting as a whole one; 0 if it isn't there. Raises OSError."""
    try:
        return -(-path.stat().st_mtime_ns // SECOND)
    except FileNotFoundError:
        return 0


def stamp(path: Path, before: int) -> None:
    """Gives a file that was written since a time later than before, in whole seconds. Raises OSError."""
    if path.stat().st_mtime_ns != before * SECOND:
        later = max(int(time.time()), before + 1) * SECOND
        os.utime(path, ns=(later, later))


def sum_of(path: Path) -> tuple[int, str]:
    """The size of a file in bytes, and its sum as for a mirror. Raises OSError."""
    sums, size = list[bytes](), 0
    with naming(path), path.open("rb", buffering=0) as file:
        for block in _blocks(file):
            sums += _sums_of(block)
            size += len(block)
    return size, _sum(sums)


def sum_of_bytes(data: bytes) -> str:
    """The sum of a file with these bytes."""
    return _sum(_sums_of(data))


def sync(path: Path) -> None:
    """Waits until a file or a folder is on the disk. Raises OSError."""
    opened = os.open(path, os.O_RDONLY | os.O_CLOEXEC)
    try:
        with naming(path):
            os.fsync(opened)
    finally:
        os.close(opened)


def _blocks(file: RawIOBase) -> Iterator[bytes]:
    """The blocks of a file in their order, each but the last one of BLOCK bytes, whatever size a read returns. The
    first end that is seen is the end: what a log gets afterwards would begin within a block."""
    while True:
        block = b""
        while len(block) < BLOCK and (more := file.read(BLOCK - len(block))):
            block += more
        if block:
            yield block
        if len(block) < BLOCK:
            return


def _sums_of(block: bytes) -> list[bytes]:
    """The sums of the parts of a block."""
    return [hashlib.sha256(block[at : at + SUMMED]).digest() for at in range(0, len(block), SUMMED)]


def _sum(sums: list[bytes]) -> str:
    return hashlib.sha256(b"".join(sums)).hexdigest()


def _write(number: int, at: int, page: bytes) -> None:
    """Writes a page at a place of a file."""
    left = memoryview(page)
    while left:
        done = os.pwrite(number, left, at)
        left, at = left[done:], at + done

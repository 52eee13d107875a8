"""The next open of an office's file: what it takes of what the unit allows, whether the log is its own, its end."""

from __future__ import annotations

import contextlib
import json
import os
import re
import resource
import shutil
import sqlite3
import subprocess
from collections.abc import Iterator, Mapping, Sequence
from pathlib import Path
from typing import Any, NamedTuple, Optional

from ..office.copying import has_frames, log_beside, private_copy
from ..office.stored import stored_office, unchanged_office
from ..text.terminal import Fault, because_of
from ..text.text_files import write_whole
from .copies.mirrors import Known, NotCarried, known_of


# ==== systemd's facts about a unit of this machine

SECONDS = 60
"""The seconds that a program of systemd can take."""

SPANS = {
    "us": 1e-6,
    "ms": 1e-3,
    "s": 1,
    "min": 60,
    "h": 3600,
    "d": 86_400,
    "w": 604_800,
    "month": 2_629_800,
    "y": 31_557_600,
}
"""By unit of systemd.time(7), its seconds."""


def run_systemd(words: Sequence[str]) -> subprocess.CompletedProcess[str]:
    """Runs a program of systemd. Raises Fault if there is none, or it doesn't end."""
    if not shutil.which(words[0]):
        raise Fault(f"there is no {words[0]} on this machine")
    try:
        return subprocess.run(
            words,
            env={**os.environ, "LC_ALL": "C.UTF-8"},
            stdin=subprocess.DEVNULL,
            capture_output=True,
            text=True,
            errors="replace",
            timeout=SECONDS,
            check=False,
        )
    except subprocess.TimeoutExpired as fault:
        raise Fault(f"{words[0]} didn't end within {SECONDS} seconds") from fault
    except OSError as fault:
        raise Fault(f"{words[0]} couldn't be started: {because_of(fault)}") from fault


def properties(unit: str, *names: str) -> Mapping[str, str]:
    """The values of some properties of a unit, by name; none of them if systemd doesn't know the unit. Raises Fault if
    it can't be asked."""
    words = ["systemctl", "show", f"--property={','.join(('LoadState', *names))}", unit]
    lines = (line.partition("=") for line in run_systemd(words).stdout.splitlines())
    values = {name: value for name, _, value in lines}
    return values if values.pop("LoadState", "") == "loaded" else {}


def seconds_of(span: str) -> Optional[float]:
    """The seconds of a span as `systemctl show` prints it, such as `1h 30min`; None for `infinity`, or another text."""
    parts = re.findall(r"([0-9.]+)([a-z]+)", span)
    if not parts or any(name not in SPANS for _, name in parts):
        return None
    return sum(float(number) * SPANS[name] for number, name in parts)


def bytes_of(value: str) -> Optional[int]:
    """A bound of memory as `systemctl show` prints it; None for `infinity`, or another text."""
    return int(value) if value.isdecimal() else None


# ==== whether the log next to an office's file belongs to it, before a program puts it into the file
#
# SQLite's format doesn't tie them: salts and sums of a log are its own, and `cpi` leaves the change counter of the file
# as it is. So they are judged by their content, in a private copy.
#
# **What is sure.** Without its log, the file is the office as it was when the log had been copied into it. So if it is
# whole without its log, it is whole with it too, is the same office, and has all that it had (`mirrors`): also
# each item, outlet and collector, whose rows never change. If it isn't, the log belongs to another file. A file that
# isn't whole by itself may have been written when the machine stopped: of its log nothing is known here, and `cpi`
# judges both.
#
# **What isn't sure.** A backup next to the log that came after it may be whole together with it: it is the office at
# the time before it, and nothing of that is lost. `cpi` writes the file first and the log afterwards, so a file that is
# younger than the last write of its log was perhaps put there: that is a warning.

FIXED = ("collector", "outlet", "item")
"""Tables whose rows are never changed."""


class OtherLog(NamedTuple):
    """Why a log seems to belong to another file than the one next to it, and whether that is sure."""

    because: str
    is_sure: bool


def other_log_of(path: Path) -> Optional[OtherLog]:
    """Why the log next to an office's file seems to belong to another one; None if nothing shows that. Neither is
    opened or locked. Raises CopyFailed and OSError."""
    if not path.exists() or not path.stat().st_size or not has_frames(path):
        return None
    with private_copy(path) as copy:
        if because := _fault_with_log(copy):
            return OtherLog(because, True)
    if path.stat().st_mtime_ns > log_beside(path).stat().st_mtime_ns:
        return OtherLog("the file was put there, or written, after the last write of its log", False)
    return None


def _fault_with_log(copy: Path) -> str:
    """The fault of a copy with its log, although it is whole without the log; empty if there is none, or if it isn't
    whole."""
    log, away = log_beside(copy), copy.with_name("log-of-the-copy")
    log.rename(away)
    # (the C library reads no file without any log)
    log.touch(mode=0o600)
    by_itself = _whole(copy)
    fixed = _fixed_rows(copy) if by_itself else set()
    away.replace(log)
    if not by_itself:
        return ""
    try:
        known_of(copy, by_itself)
    except NotCarried as fault:
        return str(fault).replace("the copy", "the file by itself")
    if not _whole(copy):
        return "with it rows and keys of the file don't fit together"
    if lost := sorted(fixed - _fixed_rows(copy)):
        table, key, *_ = lost[0]
        return f"with it the file's {table} {key} is another one"
    return _other_size(copy)


def _fixed_rows(copy: Path) -> set[tuple[Any, ...]]:
    """The rows that never change, each after its table."""
    with unchanged_office(copy) as office:
        return {(table, *row) for table in FIXED for row in office.ask(f"SELECT * FROM {table}")}


def _other_size(copy: Path) -> str:
    """Whether a log says that its file has another number of pages than the file's first page says, with the log put
    into the copy; empty if both say the same. Each change of that number writes both."""
    with stored_office(copy) as office:
        ((size, count),) = office.ask("SELECT page_size, page_count FROM pragma_page_size, pragma_page_count")
        office.ask("PRAGMA wal_checkpoint(TRUNCATE)")
    pages = copy.stat().st_size // size
    return "" if pages == count else f"it is the log of a file of {pages:,} pages, and the file has {count:,}"


def _whole(copy: Path) -> Optional[Known]:
    """The record of a whole office; None if it isn't whole."""
    try:
        known = known_of(copy, None)
        with unchanged_office(copy) as office:
            return None if next(office.find_faults(), "") else known
    except (NotCarried, sqlite3.Error):
        return None


# ==== the share of the memory and time, allowed by its unit and this machine, that the next open of an office's file
# takes
#
# `cpi` tests each row of a file as it opens it. It holds the rows of one table after the other, so the largest table
# decides how much memory it needs, and all rows decide how long it takes. A running office shows nothing of that: it
# holds the memory that its last open left. `bench/files --part age` measures both for files of one to ten years.

BYTES = 300
"""Bytes of memory that an open takes for each row of the largest table (282 to 296 were measured)."""

MICROSECONDS = 12
"""Microseconds that an open takes for each row (6 to 9 were measured, on an idle processor of 2.5 GHz)."""

ROWS = """
SELECT (SELECT max(rowid) FROM quote_2), (SELECT max(rowid) FROM frozen_2), (SELECT max(rowid) FROM carried_2),
(SELECT max(quotes) FROM (SELECT count(*) AS quotes FROM frozen_2
WHERE month = (SELECT max(month) FROM release_2) GROUP BY revision))
"""
"""The last number of a row in each of the large tables, none of which ever loses a row, and the quotes of the last
month's freeze."""


class Rows(NamedTuple):
    """The rows of a file: of its largest table, of all large tables together, and those that a month adds to the
    largest."""

    largest: int
    together: int
    monthly: int

    @property
    def memory(self) -> int:
        """The bytes of memory that an open takes."""
        return self.largest * BYTES

    @property
    def seconds(self) -> int:
        """The seconds that an open takes."""
        return self.together * MICROSECONDS // 1_000_000


class Allowed(NamedTuple):
    """The limits of an open: bytes of memory, and who sets them; the seconds of a start, None if nobody bounds them."""

    memory: int
    bounded_by: str
    seconds: Optional[int]


class NextOpen(NamedTuple):
    """The needs of the next open of a file, and its limits."""

    rows: Rows
    allowed: Allowed

    @property
    def memory_percent(self) -> int:
        """The share of the memory, rounded down."""
        return 100 * self.rows.memory // self.allowed.memory

    @property
    def seconds_percent(self) -> int:
        """The share of the time, rounded down; 0 if nobody bounds it."""
        return 100 * self.rows.seconds // self.allowed.seconds if self.allowed.seconds else 0

    @property
    def months_left(self) -> Optional[int]:
        """The number of further months until the open takes all of the memory; None if no month has been frozen yet."""
        if not self.rows.monthly:
            return None
        return max(0, self.allowed.memory // BYTES - self.rows.largest) // self.rows.monthly


def rows_of(path: Path) -> Rows:
    """The rows of an office's file, which `cpi` may have open.

    They are read from the file as it is, without its lock and its log: slightly old values are good enough for an
    estimate. If its pages are being written just then, a right copy is read. Raises Fault if that can't be done.
    """
    try:
        return _rows(f"{path.resolve().as_uri()}?mode=ro&immutable=1")
    except sqlite3.Error:
        try:
            with private_copy(path) as copy:
                return _rows(copy.as_uri())
        except sqlite3.Error as fault:
            raise Fault(f"how many rows {path} has can't be read: {fault}") from fault


def _rows(uri: str) -> Rows:
    office = sqlite3.connect(uri, uri=True)
    try:
        quotes, frozen, carried, monthly = (number or 0 for number in office.execute(ROWS).fetchone())
    finally:
        office.close()
    return Rows(max(quotes, frozen, carried), quotes + frozen + carried, monthly)


def machine_memory() -> int:
    """The bytes of memory of this machine."""
    return os.sysconf("SC_PAGE_SIZE") * os.sysconf("SC_PHYS_PAGES")


def free_memory() -> int:
    """The bytes of memory that a program started here may take: the memory available on this machine, and the bounds of
    this process and of its control groups."""
    soft, _ = resource.getrlimit(resource.RLIMIT_AS)
    bounds = [_available(), *_bounds_of_groups()]
    return min(bounds + [soft] if soft != resource.RLIM_INFINITY else bounds)


def _available() -> int:
    """The memory that the kernel calls available."""
    lines = Path("/proc/meminfo").read_text(encoding="ascii").splitlines()
    return next(int(line.split()[1]) * 1024 for line in lines if line.startswith("MemAvailable:"))


def _bounds_of_groups() -> Iterator[int]:
    """The bounds of memory of this process's control group and of those above it."""
    with contextlib.suppress(OSError):
        at = Path("/sys/fs/cgroup", Path("/proc/self/cgroup").read_text(encoding="utf-8").strip().rpartition("::/")[2])
        for group in (at, *at.parents):
            with contextlib.suppress(OSError):
                if (bound := bytes_of((group / "memory.max").read_text(encoding="ascii").strip())) is not None:
                    yield bound


def allowed_of(unit: Optional[str]) -> Allowed:
    """The limits of a unit on this machine, or of any program if no unit is named or systemd doesn't know it. Raises
    Fault if systemd can't be asked."""
    memory, bounded_by = machine_memory(), "this machine"
    values = properties(unit, "MemoryMax", "TimeoutStartUSec") if unit else {}
    bound = bytes_of(values.get("MemoryMax", ""))
    if bound is not None and bound < memory:
        memory, bounded_by = bound, f"{unit} (MemoryMax)"
    seconds = seconds_of(values.get("TimeoutStartUSec", ""))
    return Allowed(memory, bounded_by, None if seconds is None else int(seconds))


def next_open(path: Path, unit: Optional[str]) -> NextOpen:
    """The needs of the next open of an office's file, and the limits of its unit. Raises Fault if one of them can't be
    known."""
    return NextOpen(rows_of(path), allowed_of(unit))


MIB = 1 << 20


def in_words(opening: NextOpen) -> str:
    """The share of the allowed memory that an open takes, as half a sentence."""
    rows, allowed = opening.rows, opening.allowed
    text = (
        f"takes some {rows.memory // MIB:,} MiB of the {allowed.memory // MIB:,} MiB that {allowed.bounded_by} allows"
    )
    if (months := opening.months_left) is not None:
        text += f", and all of it in {months:,} months"
    if allowed.seconds:
        text += f"; and some {rows.seconds:,} of the {allowed.seconds:,} s of its start (TimeoutStartSec)"
    return text


# ==== when an open of an office's file that begins now is expected to end, for the front, which shows it to phones and
# pages
#
# The front answers `/opening.json` with this file while `cpi` opens a large office, and with 404 at any other time.

SHORT = 5
"""A shorter open, in seconds, isn't announced: the front tries a message again for longer than that."""


def announce_opening(office: Path, to: Path, now: float) -> None:
    """Writes since when and until when an office is opened, as JSON with `began` and `until`, in seconds since 1970 UTC.

    Nothing is written if the open takes less than SHORT seconds. Raises Fault if the rows of the office can't be counted,
    or if the file can't be written.
    """
    seconds = rows_of(office).seconds
    if seconds < SHORT:
        return
    times = {"began": int(now), "until": int(now) + seconds}
    try:
        write_whole(to, f"{json.dumps(times)}\n".encode(), 0o644)
    except OSError as fault:
        raise Fault(f"{to} can't be written: {because_of(fault)}") from fault

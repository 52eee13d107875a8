"""The desk's log: a file that only grows, with each record that was sent to the office, by whom, when, and with what
result.

Each line is a JSON object that contains the SHA-256 of the previous line, so a line that is changed, removed or
inserted breaks the chain. A line is on the disk before what it speaks of is done. A line that a crash cut off doesn't
change: the next line says so.
"""

from __future__ import annotations

import errno
import fcntl
import hashlib
import json
import os
import threading
import time
from collections.abc import Iterator, Sequence
from pathlib import Path
from typing import Any, NamedTuple, Optional

from ...office.program import Reply
from ...text.message import message as _, said_as
from ...text.terminal import Fault, because_of
from ..serve.faults import of_system

FIRST = "0" * 64
"""The first line's text in the place of a sum."""

SENT, ANSWERED, NOT_SENT, LOOKED_UP, SAID, CUT_OFF = "sent", "answered", "not sent", "looked up", "said", "cut off"
"""The kinds of lines: records that go out; the replies to them; a failure to send them; the office's file's content for
them; a step of a person; an incomplete line."""

FROZEN = "frozen"
"""The kind of a line about a month that two people froze. Its one reply is the receipt (`freeze_steps`)."""

PREPARED, DROPPED, CONFIRMED, DONE_ALREADY = "prepared: ", "dropped: ", "confirmed: ", "carried out already: "
"""The beginning of a step of a freeze, which `freeze_texts.describe_freeze` continues."""

FROZEN_STEP = "frozen: {what}; prepared by {by}"
UNSEEN = "; confirmed with prices that nobody has seen: {because}"
DROPPED_DRAFT, REMOVED_NOTE = "dropped the draft of {year}", "removed note {number} of the field, {month}"
ASKED = "asked collector {collector} about slot {slot}, {month}: question {number}"
WITHDREW = "withdrew question {number} to collector {collector}, {month}"
ANSWERED_QUESTION = "question {number} was answered by collector {collector}, {month}"
REMOVED_QUESTION = "removed question {number} and its answers, {month}"
OPENED_DRAFT = "opened the draft of the release of {month}, revision {revision}: {what}, {language}"
WRITTEN, PLANNED, NOT_PLANNED = "the website was written", "to be published", "not to be published"
"""Other steps, or how they begin."""

HIDDEN = "(key)"
"""Stands for the key of a collector, which is written nowhere."""


class Entry(NamedTuple):
    """A line: its number from 1 on, the moment in seconds since 1970 UTC, who, and what it speaks of. `records` belong
    to a line SENT, `of` is that line's number in the lines that follow from it, `replies` has one reply for each of its
    records, and `text` is the message."""

    number: int
    at: int
    by: str
    what: str
    records: list[list[str]]
    of: int
    replies: list[Reply]
    text: str


class BrokenLog(Fault):
    """A log whose chain doesn't hold; one line."""


def hide_key(fields: Sequence[str]) -> list[str]:
    """The fields of a record without the key of a collector."""
    return [*fields[:2], HIDDEN, *fields[3:]] if fields and fields[0] == "collector" else [*fields]


def sum_of(line: bytes) -> str:
    """The sum of a line that the next line contains; the line's end is included."""
    return hashlib.sha256(line).hexdigest()


def lines_of(data: bytes) -> list[bytes]:
    """The lines of a file, with their ends."""
    *whole, rest = data.split(b"\n")
    return [line + b"\n" for line in whole] + ([rest] if rest else [])


def entries_of(data: bytes, name: str) -> Iterator[Entry]:
    """The entries of a log, whose last line is whole. Raises BrokenLog if the chain doesn't hold."""
    before, number, is_cut = FIRST, 0, False
    for place, line in enumerate(lines_of(data), 1):
        entry = _entry(line)
        wrong = entry is not None and (entry[0] != before or entry[1].number != number + 1)
        if wrong or (is_cut and (entry is None or entry[1].what != CUT_OFF)):
            raise BrokenLog(
                f"{name}: line {place} doesn't follow from line {place - 1}, so the log was changed by something else:"
                " put the file aside and keep it, and a new one begins"
            )
        before, is_cut = sum_of(line), entry is None
        if entry:
            number = entry[1].number
            yield entry[1]


def _entry(line: bytes) -> Optional[tuple[str, Entry]]:
    """The sum and the entry of a line; None if it isn't whole."""
    try:
        entry = json.loads(line)
        given = [
            entry["number"],
            entry["at"],
            entry["by"],
            entry["what"],
            entry["records"],
            entry["of"],
            entry["replies"],
            entry["text"],
        ]
        return entry["before"], Entry(*given)
    except (ValueError, LookupError, TypeError):
        return None


class DeskLog:
    """The log in a file, which one process has at a time."""

    def __init__(self, path: Path):
        """Opens the file, or makes it, and reads it. Raises BrokenLog, or Fault."""
        self.path = path
        self._lock = threading.Lock()
        try:
            self._file = os.open(path, os.O_RDWR | os.O_CREAT | os.O_APPEND, 0o600)
            fcntl.flock(self._file, fcntl.LOCK_EX | fcntl.LOCK_NB)
            data = path.read_bytes()
        except BlockingIOError as fault:
            raise Fault(f"{path} is another process's: a desk has one application at a time") from fault
        except OSError as fault:
            raise Fault(because_of(fault)) from fault
        is_cut = bool(data) and not data.endswith(b"\n")
        if is_cut:
            self._write(b"\n")
            data += b"\n"
        lines = lines_of(data)
        # (the line that was cut off has no entry after it yet)
        is_cut = is_cut or bool(lines) and _entry(lines[-1]) is None
        self.entries = [*entries_of(data, path.name)]
        self._sums = {entry[1].number: sum_of(line) for line in lines if (entry := _entry(line))}
        self._before = sum_of(lines[-1]) if lines else FIRST
        if is_cut:
            self.append(
                "", CUT_OFF, text="the line before isn't whole: the machine or the disk failed as it was written"
            )

    def append(
        self,
        by: str,
        what: str,
        records: Sequence[Sequence[str]] = (),
        of: int = 0,
        replies: Sequence[Reply] = (),
        text: str = "",
    ) -> Entry:
        """Writes an entry, and waits until it is on the disk. Raises Fault, and then nothing may be done that it speaks
        of."""
        with self._lock:
            number = self.entries[-1].number + 1 if self.entries else 1
            kept = [hide_key(fields) for fields in records]
            entry = Entry(number, int(time.time()), by, what, kept, of, [*replies], text)
            line = line_of_entry(entry, self._before)
            self._write(line)
            self._before = self._sums[number] = sum_of(line)
            self.entries.append(entry)
            return entry

    def sum_of_line(self, number: int) -> str:
        """The SHA-256 of a line, which the next line contains."""
        return self._sums[number]

    def _write(self, line: bytes) -> None:
        """Writes a line whole, or not at all. Raises Fault."""
        try:
            size = os.fstat(self._file).st_size
            try:
                if os.write(self._file, line) != len(line):
                    raise OSError(errno.ENOSPC, os.strerror(errno.ENOSPC))
                os.fsync(self._file)
            except OSError:
                os.ftruncate(self._file, size)
                raise
        except OSError as fault:
            text = f"{self.path}: {fault.strerror}"
            done = _("The desk's log can't be written, so nothing was done.")
            raise Fault(said_as(f"{text}, so nothing was done", done, of_system(fault, text))) from fault

    def open_entries(self) -> list[Entry]:
        """The records that were sent, and whose result isn't known."""
        settled = {entry.of for entry in self.entries if entry.what in (ANSWERED, NOT_SENT, LOOKED_UP)}
        return [entry for entry in self.entries if entry.what == SENT and entry.number not in settled]

    def close(self) -> None:
        """Lets another process have it."""
        os.close(self._file)


def line_of_entry(entry: Entry, before: str) -> bytes:
    """The line of an entry after a line of that sum."""
    kept: dict[str, Any] = {**entry._asdict(), "before": before}
    return json.dumps(kept, ensure_ascii=True, separators=(",", ":"), sort_keys=True).encode() + b"\n"

"""The messages of `cpi serve`, in a journal or a file, and whether the last write of an office succeeded."""

from __future__ import annotations

import json
import os
import re
from pathlib import Path
from typing import NamedTuple, Optional, Protocol

from ...office.copying import HEADER_BYTES, log_beside
from ...text.terminal import Fault, because_of, naming, time_text
from ..next_open import properties, run_systemd
from .probe_looks import CRITICAL, OK, WARNING, Judgement


# ==== the messages of `cpi serve`: its lines in the journal of a unit, or in a file that received its output
#
# The number of connections that a running `cpi serve` has left before its limit, according to its messages.

MOST_BYTES = 1 << 20
"""Bytes at the end of a file that are read: more than 10,000 lines of `cpi serve`."""

EARLIER = 0.001
"""Seconds before the last line of a file: the times of files are only exact to some milliseconds, so a write to the log
just after a line may have the same time as the line."""

HARMLESS = ("Journal file ", "-- ")
"""The beginnings of the lines with which journalctl reports one old file of the journal, or that there is no entry."""


class Line(NamedTuple):
    """A line that the program wrote, and when (seconds since 1970 UTC). A file has no time of its lines: `moment` is
    then the time of the file's last line; for a line before the last one it is a little earlier, and the line may be
    much older."""

    moment: float
    text: str


class Said(Protocol):
    """Something that has the lines of the program."""

    def last(self, pattern: str) -> Optional[Line]:
        """The last line that matches a pattern (which has no capital letter); None if there is none. Raises Fault if
        the lines can't be read."""


class Journal:
    """The lines of a unit of systemd."""

    def __init__(self, unit: str):
        self.unit = unit

    def last(self, pattern: str) -> Optional[Line]:
        """The last line of the unit that matches."""
        if entry := self._entry("--grep", pattern):
            return entry
        if not self._entry() and not self._is_loaded():
            raise Fault(f"the journal has no line of {self.unit}, and systemd doesn't know this unit")
        return None

    def _entry(self, *chosen: str) -> Optional[Line]:
        """The last entry of the unit that some words choose."""
        words = ["journalctl", "--no-pager", "--output=json", f"--unit={self.unit}", "--lines=1", *chosen]
        ran = run_systemd(words)
        if not ran.stdout.strip():
            if lines := [line for line in ran.stderr.splitlines() if line.strip() and not line.startswith(HARMLESS)]:
                raise Fault(f"the journal of {self.unit} can't be read: {lines[0]}")
            return None
        try:
            entry = json.loads(ran.stdout.splitlines()[-1])
            return Line(int(entry["__REALTIME_TIMESTAMP"]) / 1_000_000, str(entry.get("MESSAGE")))
        except (ValueError, LookupError, TypeError) as fault:
            raise Fault(f"journalctl writes entries of {self.unit} in another form than JSON") from fault

    def _is_loaded(self) -> bool:
        """Whether systemd knows the unit: its journal may have lost the lines of an office that started long ago."""
        return "Id" in properties(self.unit, "Id")


class OutputFile:
    """The lines in a file that the program's output was sent to."""

    def __init__(self, path: Path):
        self.path = path

    def last(self, pattern: str) -> Optional[Line]:
        """The last line that matches, among the last `MOST_BYTES` of the file."""
        try:
            with naming(self.path), self.path.open("rb") as file:
                file.seek(max(0, os.fstat(file.fileno()).st_size - MOST_BYTES))
                text = file.read(MOST_BYTES).decode(errors="replace")
                written = os.fstat(file.fileno()).st_mtime
        except OSError as fault:
            raise Fault(because_of(fault)) from fault
        lines = text.splitlines()
        matching_lines = [at for at, line in enumerate(lines) if re.search(pattern, line)]
        if not matching_lines:
            return None
        is_last = matching_lines[-1] + 1 == len(lines)
        return Line(written if is_last else written - EARLIER, lines[matching_lines[-1]])


LEFT = r"cpi: ([0-9]+) connections of --limit are left"

TURNS = rf"^({LEFT}|cpi: listening on .*|cpi: served as many connections as --limit says)$"
"""The program's messages about its connections; after a start or an end, earlier messages no longer count."""


def connections_left(said: Said) -> Optional[int]:
    """So many connections were left at the program's last message; None if it printed none since it started. Raises
    Fault if its lines can't be read."""
    last = said.last(TURNS)
    match = re.fullmatch(LEFT, last.text) if last else None
    return int(match[1]) if match else None


# ==== whether the last write of an office succeeded, from the messages of `cpi serve` and from its files
#
# `cpi serve` says a line as it closes its file and opens it again after a failed request, and one if the open fails.
# Readers get answers all the while, so an answer doesn't show that the disk refuses every write. The log does:
#
# - As the program closes its file after a failed request, it puts the log into the file, and leaves no commit in the
#   log. An open changes neither, also of a log that a kill left. So a log that holds a commit, and that changed after
#   the line, holds a write that succeeded since.
# - Before its log grows long, and when it ends, the program puts the log into the file. So a file that changed after
#   the line, by more than the close can take, got a write that succeeded since.
#
# A failed request changes the log before its line, and the close changes log and file after it: so the times of the
# last changes say nothing by themselves.

FAILED = (
    r"^cpi: (database failed|(a request was refused by 90|a response couldn't be written|out of memory)"
    r"(, opening the file again)?)$"
)
"""The program's messages after a request that failed or may have failed, and when it can't open its file. After the
last connection of its limit it doesn't open the file again."""

CLOSE_SECONDS = 300
"""No close takes longer than this: it writes a log of some 1,000 pages into the file."""

MARKS = (bytes.fromhex("377f0682"), bytes.fromhex("377f0683"))
"""The first bytes of a log that contains data, by SQLite's file format."""

HOUR = 3600


class Writes(NamedTuple):
    """The last line on a failure, None if there is none; and whether a write is known to have succeeded since."""

    failure: Optional[Line]
    has_succeeded: bool


def writes_of(path: Optional[Path], said: Said) -> Writes:
    """Whether the last write of an office's file succeeded. Raises Fault if that can't be known."""
    failure = said.last(FAILED)
    if failure is None:
        return Writes(None, True)
    if path is None:
        raise Fault(f"whether a write succeeded since {failure_text(failure)} can't be known without --file")
    try:
        commit = last_commit(path)
        changed = path.stat().st_mtime
    except OSError as fault:
        raise Fault(because_of(fault)) from fault
    return Writes(failure, commit > failure.moment or changed > failure.moment + CLOSE_SECONDS)


def last_commit(path: Path) -> float:
    """When the log of a file last changed, if it contains a commit; else 0.

    The first frame of the log has the header's salts once it holds a commit: its first salt is written last.
    """
    try:
        with log_beside(path).open("rb", buffering=0) as log:
            header, frame = log.read(HEADER_BYTES), log.read(16)
            changed = os.fstat(log.fileno()).st_mtime
    except FileNotFoundError:
        return 0
    return changed if header[:4] in MARKS and len(frame) == 16 and frame[8:] == header[16:24] else 0


def failure_text(failure: Line) -> str:
    """A failure in words."""
    return f'"{failure.text}" of {time_text(int(failure.moment))}'


def judge_writes(writes: Writes, now: int, hours: int) -> Judgement:
    """The state of the writes. A failure is a warning for some hours, although a later write succeeded."""
    if writes.failure is None:
        return OK, ""
    if not writes.has_succeeded:
        return CRITICAL, f"no write is known to have succeeded since {failure_text(writes.failure)}"
    is_new = now < int(writes.failure.moment) + hours * HOUR
    return WARNING if is_new else OK, f"a write succeeded since, but cpi said {failure_text(writes.failure)}"

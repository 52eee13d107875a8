"""The office as the application sees it: asked while it runs, copied, and observed."""

from __future__ import annotations

import contextlib
import csv
import http.client
import json
import tempfile
import threading
import time
import urllib.parse
from collections.abc import Callable, Iterator, Mapping, Sequence
from pathlib import Path
from typing import Any, NamedTuple, Optional

from ...office.copying import log_beside, mark_of, right_copy
from ...office.program import Reply
from ...text.message import Message, message, message_of, sentences, whole
from ...text.others import of_others, own_line
from ...text.terminal import Fault, because_of
from ...text.text_files import line_of, write_whole


# ==== Right copies of the office's file for the pages, one after the other: each is deleted once there is a newer one
# and nobody reads it any more. They lie in a folder that only their owner can read, since keys and prices are in them.


class Copy(NamedTuple):
    """A copy of the office's file, and the moment at which copying began, in seconds since 1970 UTC."""

    path: Path
    at: int


class Held:
    """A copy in its folder, how many read it, and what the office's file looked like."""

    def __init__(self, file: Path, room: Path):
        self.state = state_of(file)
        self.readers = 0
        self._folder = tempfile.TemporaryDirectory(prefix="cpi-desk-", dir=room)
        try:
            at = int(time.time())
            self.copy = Copy(right_copy(file, Path(self._folder.name)), at)
        except BaseException:
            self.remove()
            raise

    def remove(self) -> None:
        """Removes it."""
        self._folder.cleanup()


def state_of(file: Path) -> tuple[object, ...]:
    """The sizes and times of the file and its log, which change with each commit. Raises OSError."""
    parts = [file.stat()]
    with contextlib.suppress(FileNotFoundError):
        parts.append(log_beside(file).stat())
    return (mark_of(file), *((part.st_size, part.st_mtime_ns) for part in parts))


def say_closed() -> Fault:
    """Why no copy is taken any more."""
    return Fault(message("The application is stopping, so it makes no further copy of the office."))


class Copies:
    """The copies of an office's file; the folders of copies are made in `room`."""

    def __init__(self, file: Path, room: Path):
        self._file, self._room = file, room
        self._copying, self._lock = threading.Lock(), threading.Lock()
        self._latest: Optional[Held] = None
        self._old: list[Held] = []
        self._is_closed = False

    def renew(self) -> bool:
        """Takes a new copy if the office's file changed; whether it did. Raises Fault, also once the copies are closed."""
        with self._copying:
            try:
                if self._latest and state_of(self._file) == self._latest.state:
                    return False
                held = Held(self._file, self._room)
            except OSError as fault:
                raise Fault(f"{self._file}: {fault.strerror}") from fault
            with self._lock:
                if self._is_closed:
                    held.remove()
                    raise say_closed()
                self._old += [self._latest] if self._latest else []
                self._latest = held
                self._sweep()
            return True

    @contextlib.contextmanager
    def latest(self) -> Iterator[Copy]:
        """The latest copy, which isn't deleted while it is in use. Raises Fault if there is none and none can be
        taken."""
        if not self._latest:
            self.renew()
        with self._lock:
            held = self._latest
            if not held:
                raise say_closed()
            held.readers += 1
        try:
            yield held.copy
        finally:
            with self._lock:
                held.readers -= 1
                self._sweep()

    def _sweep(self) -> None:
        for holding in [holding for holding in self._old if not holding.readers]:
            self._old.remove(holding)
            holding.remove()

    def close(self) -> None:
        """Removes all copies. It doesn't wait for a copy that is being taken; that copy is deleted once it is
        complete."""
        with self._lock:
            self._is_closed = True
            for holding in [*self._old, *([self._latest] if self._latest else [])]:
                holding.remove()
            self._old, self._latest = [], None


# ==== the application's observations of the office while it ran, since the file doesn't record when prices came: when
# each collector's last entry was first seen, and how far a month's response was, for comparison with a later month
#
# Both are files in the application's folder. An unreadable line there is reported, and nothing is written over it.

APART = 900
"""Seconds from one row of a month's response to the next."""

COMPARED = 3
"""A month is compared with so many earlier months."""


class Heard(NamedTuple):
    """The greatest receipt of a collector, when it was first seen, and whether an earlier one was seen before it: else
    the entry may be older."""

    receipt: int
    at: int
    is_seen: bool


class Seen(NamedTuple):
    """A row of a month's response: so many seconds after its window opened, its slots, those with a price, and their
    share by weight in millionths (-1 without a plan)."""

    month: int
    after: int
    slots: int
    priced: int
    weighed: int


class Expected(NamedTuple):
    """The response of earlier months at the same time after their windows opened: their priced shares in percent of all
    slots, the latest month first."""

    months: Sequence[tuple[int, str]]


class Observed:
    """The two files in a folder."""

    def __init__(self, folder: Path):
        self._heard_file, self._rows_file = folder / "heard.json", folder / "response.csv"
        try:
            self.heard = self._read_heard()
            self.rows = self._read_rows()
        except OSError as fault:
            raise Fault(because_of(fault)) from fault
        except (ValueError, TypeError, AttributeError) as fault:
            raise Fault(
                f"{folder}: heard.json or response.csv isn't as it was written: put it aside ({fault})"
            ) from fault

    def _read_heard(self) -> dict[int, Heard]:
        if not self._heard_file.exists():
            return {}
        kept = json.loads(self._heard_file.read_text(encoding="utf-8"))
        return {int(number): Heard(*it) for number, it in kept.items()}

    def _read_rows(self) -> list[Seen]:
        if not self._rows_file.exists():
            return []
        with self._rows_file.open(encoding="utf-8", newline="") as file:
            return [Seen(*map(int, row)) for row in csv.reader(file)]

    def hear(self, last: Mapping[int, tuple[int, int]], at: int) -> None:
        """Notes the greatest receipt of each collector, as a copy of a moment has them. Raises Fault."""
        found = dict(self.heard)
        for number, (_, receipt) in last.items():
            known = found.get(number)
            if known is None or known.receipt != receipt:
                found[number] = Heard(receipt, at, known is not None or bool(self.heard))
        if found != self.heard:
            self._write(self._heard_file, json.dumps({str(number): it for number, it in found.items()}))
            self.heard = found

    def note(self, row: Seen) -> None:
        """Notes how far a month is, if its last row is old enough. Raises Fault."""
        own = [it for it in self.rows if it.month == row.month]
        if own and row.after - own[-1].after < APART:
            return
        rows = [*self.rows, row]
        self._write(self._rows_file, "".join(f"{','.join(map(str, sighting))}\n" for sighting in rows))
        self.rows = rows

    def _write(self, to: Path, text: str) -> None:
        try:
            write_whole(to, text.encode(), 0o600)
        except OSError as fault:
            raise Fault(because_of(fault)) from fault

    def expect(self, month: int, after: int) -> Optional[Expected]:
        """The response of the last months before this one at that time; None if none was seen."""
        found = dict[int, str]()
        for row in self.rows:
            # (the rows of a month are in the order of their moments)
            if row.month < month and row.after <= after and row.slots:
                found[row.month] = f"{100 * row.priced / row.slots:.1f}"
        months = sorted(found.items(), reverse=True)[:COMPARED]
        return Expected(months) if months else None


# ==== the duration of the last work of each kind, so that a page can say how long a person waits

SHORT = 2
"""Seconds that needn't be mentioned."""

LONG = 120
"""From so many seconds on, the sentence gives minutes."""


class Durations:
    """The seconds of the last run of each kind, since the application began. `clock` is in seconds."""

    def __init__(self, clock: Callable[[], float] = time.monotonic):
        self._clock, self._lock = clock, threading.Lock()
        self._seconds: dict[str, float] = {}

    @contextlib.contextmanager
    def measure(self, kind: str) -> Iterator[None]:
        """Meanwhile work of a kind is done; what fails isn't measured."""
        begun = self._clock()
        yield
        self.keep(kind, self._clock() - begun)

    def keep(self, kind: str, seconds: float) -> None:
        """Keeps how long work of a kind took."""
        with self._lock:
            self._seconds[kind] = seconds

    def kinds(self) -> list[str]:
        """The kinds that take so long that a page says it."""
        with self._lock:
            return [kind for kind, seconds in self._seconds.items() if seconds >= SHORT]

    def about(self, kind: str) -> Message:
        """The sentence with the duration of the last run; nothing if it isn't known, or was short."""
        seconds = self._seconds.get(kind, 0.0)
        return about(seconds) if seconds >= SHORT else sentences()


def about(seconds: float) -> Message:
    """The sentence with the approximate duration of the last run, in seconds or minutes."""
    if seconds < LONG:
        count = round(seconds)
        return message_of(
            "Last time, it took about {count} second.", "Last time, it took about {count} seconds.", count
        )
    count = round(seconds / 60)
    return message_of("Last time, it took about {count} minute.", "Last time, it took about {count} minutes.", count)


# ==== the running office, as the application asks it: one message a connection, over HTTP (docs/reference/HTTP.md)
#
# A message whose reply was lost may have been carried out, in part or wholly. One that was never sent wasn't.

SECONDS = 300.0
"""For which a reply is waited: a freeze takes long, and so do all messages before it."""

QUICK_SECONDS = 30.0
"""Seconds that the office can take to answer a question."""

MOST_BYTES = 65_536
"""Bytes of a message's body at most."""

ANSWERED = (200, 400, 401, 403, 404, 409, 413)
"""The statuses of a message that was carried out, or refused as a whole; after any other one its fate isn't known."""

NOT_FOR_THE_DESK, NOBODYS = 12, 11
"""How the desk, and nobody else, is refused a work list, and how a key is that opens nothing."""


class NotSent(Fault):
    """The office couldn't be reached, so nothing was sent to it; one line."""


class NoReply(Fault):
    """A message was sent, and no reply to it came; one line."""


class Office:
    """An office at a URL such as http://127.0.0.1:8080."""

    def __init__(self, url: str, seconds: float = SECONDS):
        self._at, self._seconds = urllib.parse.urlsplit(url), seconds
        self.url = url

    def is_desk(self, key: str) -> bool:
        """Whether a key is the desk's. Raises NotSent or NoReply."""
        return self._ask("GET", "/work/2000-01", key, None, QUICK_SECONDS).get("refused") == NOT_FOR_THE_DESK

    def knows(self, key: str) -> bool:
        """Whether a key opens anything at the office. Raises NotSent or NoReply."""
        return self._ask("GET", "/work/2000-01", key, None, QUICK_SECONDS).get("refused") != NOBODYS

    def quotes(self, key: str, month: str) -> Reply:
        """The office's quotes of a month for the collector with a key, or its refusal of the key. Raises NotSent or
        NoReply."""
        return self._ask("GET", f"/quotes/{month}/{month}", key, None, QUICK_SECONDS)

    def wait(self) -> None:
        """Returns when the office has dealt with every message that came before this one: it answers one after the
        other. Raises NotSent or NoReply."""
        self._ask("GET", "/tables", None, None, self._seconds)

    def carry_out(self, key: str, records: Sequence[Sequence[str]]) -> list[Reply]:
        """The replies to some records of the desk, which are one import. Raises NotSent, or NoReply."""
        reply = self._ask("POST", "/import", key, body_of(records), self._seconds)
        replies: Any = reply.get("rows", [reply] * len(records) if "refused" in reply else None)
        if not isinstance(replies, list) or len(replies) != len(records):
            raise NoReply(message("{office} doesn't answer like an office.", office=of_others(self.url)))
        return replies

    def _ask(self, method: str, path: str, key: Optional[str], body: Optional[bytes], seconds: float) -> Reply:
        line = self._line(seconds)
        try:
            line.connect()
        except OSError as fault:
            places = {"office": of_others(self.url), "fault": own_line(fault.strerror or fault)}
            raise NotSent(message("The office at {office} can't be reached: {fault}", **places)) from fault
        fields = {"Authorization": f"CPI-Key {key}"} if key else {}
        try:
            line.request(method, self._at.path.rstrip("/") + path, body, fields)
            answer = line.getresponse()
            text = answer.read()
            reply = json.loads(text)
        except (OSError, http.client.HTTPException, ValueError) as fault:
            places = {"office": of_others(self.url), "fault": own_line(type(fault).__name__)}
            raise NoReply(message("No reply came from the office at {office}: {fault}", **places)) from fault
        finally:
            line.close()
        if answer.status not in ANSWERED or not isinstance(reply, dict):
            status = whole(answer.status)
            raise NoReply(
                message(
                    "The office at {office} answered with status {status}.",
                    office=of_others(self.url),
                    status=status,
                )
            )
        return reply

    def _line(self, seconds: float) -> http.client.HTTPConnection:
        host = self._at.hostname or ""
        if self._at.scheme == "https":
            return http.client.HTTPSConnection(host, self._at.port, timeout=seconds)
        return http.client.HTTPConnection(host, self._at.port, timeout=seconds)


def body_of(records: Sequence[Sequence[str]]) -> bytes:
    """Some records as the body of an import."""
    return "".join(f"{line_of(fields)}\n" for fields in records).encode()


def messages_of(records: Sequence[Sequence[str]]) -> list[list[list[str]]]:
    """Some records in as few messages as have room for them, in their order. Raises Fault if one is longer than a
    message."""
    messages: list[list[list[str]]] = []
    room = 0
    for fields in records:
        size = len(body_of([fields]))
        if size > MOST_BYTES:
            places = {"record": of_others(" ".join(fields)[:40]), "bytes": whole(size), "most": whole(MOST_BYTES)}
            raise Fault(message("The record {record}… has {bytes} bytes: a message can have at most {most}.", **places))
        if size > room:
            messages.append([])
            room = MOST_BYTES
        messages[-1].append([*fields])
        room -= size
    return messages

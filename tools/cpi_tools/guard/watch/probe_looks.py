"""The checks of a probe, with their levels: answer, files, backups, late months, certificate, and clock."""

from __future__ import annotations

import argparse
import calendar
import contextlib
import ctypes
import http.client
import json
import os
import re
import shutil
import socket
import sqlite3
import ssl
import time
import urllib.parse
from collections.abc import Iterable, Sequence
from pathlib import Path
from typing import NamedTuple, Optional, Union

from ...office.copying import log_beside, private_copy
from ...office.stored import Window, stored_office
from ...text.terminal import Fault, because_of
from ..backup import read_note
from ..copies.second_copies import refusal_of, state_of as state_of_copy


# ==== the end of a certificate: one in a file, or the one that a server shows

SEQUENCE, EXPLICIT_0, UTC_TIME, LONG_TIME = 0x30, 0xA0, 0x17, 0x18
"""Tags of DER: a sequence, the field of a version, a time with two digits of the year, and one with four."""

PEM = re.compile("-----BEGIN CERTIFICATE-----.*?-----END CERTIFICATE-----", re.S)


class Server(NamedTuple):
    """A server that shows a certificate."""

    host: str
    port: int


Place = Union[Server, Path]


class Certificate(NamedTuple):
    """The place of a certificate, and its end in seconds since 1970 UTC."""

    place: str
    ends: int


def place(text: str) -> Place:
    """A type of argparse: `localhost:443`, or the name of a file."""
    match = re.fullmatch(r"\[([0-9A-Fa-f:.]+)\]:([0-9]{1,5})|([^/:]+):([0-9]{1,5})", text)
    if not match:
        return Path(text)
    return Server(match[1] or match[3], int(match[2] or match[4]))


def certificate_at(where: Place, seconds: int) -> Certificate:
    """The certificate at a place; of several in a file, the one that ends first. Raises Fault if there is none."""
    name = str(where) if isinstance(where, Path) else f"{where.host}:{where.port}"
    try:
        files = _in_file(where) if isinstance(where, Path) else [_shown_by(where, seconds)]
        return Certificate(name, min(end_of(each) for each in files))
    except OSError as fault:
        because = because_of(fault) if isinstance(where, Path) else f"{name} shows no certificate: {fault}"
        raise Fault(because) from fault
    except (ValueError, IndexError) as fault:
        raise Fault(f"{name} has no certificate that can be read") from fault


def _in_file(path: Path) -> list[bytes]:
    """The certificates in a file."""
    return [ssl.PEM_cert_to_DER_cert(each) for each in PEM.findall(path.read_text(encoding="ascii", errors="replace"))]


def _shown_by(server: Server, seconds: int) -> bytes:
    """The certificate that a server shows, trusted or not: only its end is wanted."""
    context = ssl.SSLContext(ssl.PROTOCOL_TLS_CLIENT)
    context.check_hostname = False
    context.verify_mode = ssl.CERT_NONE
    with socket.create_connection(server, timeout=seconds) as line:
        with context.wrap_socket(line, server_hostname=server.host) as secured:
            return secured.getpeercert(binary_form=True) or b""


# ---- DER


def end_of(certificate: bytes) -> int:
    """The end of a certificate: the second time of its validity (RFC 5280, 4.1). Raises ValueError or IndexError if the
    bytes aren't a certificate."""
    signed = _parts(_one(certificate, SEQUENCE))[0]
    fields = _parts(_value(signed, SEQUENCE))
    if fields[0][0] == EXPLICIT_0:
        fields = fields[1:]
    # (the serial number, the algorithm and the issuer come before the validity)
    return _moment(*_parts(_value(fields[3], SEQUENCE))[1])


Part = tuple[int, bytes]
"""A tag and a value."""


def _parts(data: bytes) -> list[Part]:
    """The values that follow one another in some bytes."""
    parts, at = list[Part](), 0
    while at < len(data):
        tag, length, at = data[at], data[at + 1], at + 2
        if length & 0x80:
            count = length & 0x7F
            length, at = int.from_bytes(data[at : at + count], "big"), at + count
        if at + length > len(data):
            raise ValueError("a value is cut off")
        parts.append((tag, data[at : at + length]))
        at += length
    return parts


def _one(data: bytes, tag: int) -> bytes:
    """The one value in some bytes, which has a tag."""
    return _value(_parts(data)[0], tag)


def _value(part: Part, tag: int) -> bytes:
    if part[0] != tag:
        raise ValueError(f"the tag is {part[0]}, not {tag}")
    return part[1]


def _moment(tag: int, text: bytes) -> int:
    """`261225120000Z` or `20261225120000Z` in seconds since 1970. Of two digits, 50 is 1950."""
    line = text.decode("ascii")
    if tag == UTC_TIME:
        line = ("19" if int(line[:2]) >= 50 else "20") + line
    elif tag != LONG_TIME:
        raise ValueError(f"the tag of a time is {tag}")
    return calendar.timegm(time.strptime(line, "%Y%m%d%H%M%SZ"))


# ==== whether this machine's clock is synchronized, by the kernel: adjtimex(2), which needs no other program
#
# A daemon such as chrony or systemd-timesyncd says to the kernel how far the clock may be off, and the kernel lets that
# grow until the daemon says it again. `timedatectl` takes a clock for synchronized as this module does: if it may be
# off by less than 16 seconds, which the kernel also says of a clock that nobody set.

UNSYNCHRONIZED = 16_000_000
"""Microseconds that the kernel says of a clock that nobody sets (NTP_PHASE_LIMIT)."""


class MachineClock(NamedTuple):
    """The possible error of the clock, in microseconds."""

    error: int

    @property
    def is_synchronized(self) -> bool:
        """Whether a daemon keeps it right."""
        return self.error < UNSYNCHRONIZED


class Timex(ctypes.Structure):
    """`struct timex` of adjtimex(2)."""

    _fields_ = [
        ("modes", ctypes.c_uint),
        *((name, ctypes.c_long) for name in ("offset", "freq", "maxerror", "esterror")),
        ("status", ctypes.c_int),
        *((name, ctypes.c_long) for name in ("constant", "precision", "tolerance", "seconds", "fraction", "tick")),
        *((name, ctypes.c_long) for name in ("ppsfreq", "jitter")),
        ("shift", ctypes.c_int),
        *((name, ctypes.c_long) for name in ("stabil", "jitcnt", "calcnt", "errcnt", "stbcnt")),
        ("tai", ctypes.c_int),
        ("others", ctypes.c_int * 11),
    ]


def timex() -> Timex:
    """The kernel's facts about the clock. Raises Fault if it doesn't."""
    found = Timex()
    library = ctypes.CDLL(None, use_errno=True)
    # (with modes 0 nothing is set, which every user may ask)
    if library.adjtimex(ctypes.byref(found)) < 0:
        raise Fault(f"the kernel doesn't say whether the clock is synchronized: {os.strerror(ctypes.get_errno())}")
    return found


def machine_clock() -> MachineClock:
    """The clock of this machine. Raises Fault if the kernel says nothing of it."""
    return MachineClock(timex().maxerror)


# ==== the states of a probe, and the levels of a figure from which on it is a warning, and from which on critical

OK, WARNING, CRITICAL, UNKNOWN = range(4)
STATES = ("OK", "WARNING", "CRITICAL", "UNKNOWN")
"""The states of Nagios, by their exit statuses."""

BY_WEIGHT = (OK, UNKNOWN, WARNING, CRITICAL)
"""A part that can't be checked outweighs parts that are well, and hides no part that isn't."""

Judgement = tuple[int, str]
"""A state, and the text for it."""


class Levels(NamedTuple):
    """The value from which on a figure is a warning, and the value from which on it is critical."""

    warning: int
    critical: int


def worst(states: Iterable[int]) -> int:
    """The state that outweighs the others; OK if there is none."""
    return max(states, key=BY_WEIGHT.index, default=OK)


def state_of(value: int, levels: Levels) -> int:
    """The state of a figure that gets worse as it rises."""
    return CRITICAL if value >= levels.critical else WARNING if value >= levels.warning else OK


def state_of_rest(value: int, levels: Levels) -> int:
    """The state of a figure that gets worse as it falls, such as free space."""
    return state_of(-value, Levels(-levels.warning, -levels.critical))


def levels(text: str) -> Levels:
    """A type of argparse for a figure that gets worse as it rises: two whole numbers, `26,50`."""
    numbers = _two_numbers(text)
    if numbers.warning > numbers.critical:
        raise argparse.ArgumentTypeError(
            f"{text}: from {numbers.critical} on it is critical, so it never warns from {numbers.warning} on; a warning"
            " isn't above the critical value"
        )
    return numbers


def levels_of_rest(text: str) -> Levels:
    """A type of argparse for a figure that gets worse as it falls: two whole numbers, `21,7`."""
    numbers = _two_numbers(text)
    if numbers.warning < numbers.critical:
        raise argparse.ArgumentTypeError(
            f"{text}: from {numbers.critical} on downwards it is critical, so it never warns from {numbers.warning} on; a"
            " warning isn't below the critical value"
        )
    return numbers


def _two_numbers(text: str) -> Levels:
    match = re.fullmatch(r"([0-9]{1,10}),([0-9]{1,10})", text)
    if not match:
        raise argparse.ArgumentTypeError(f"{text} isn't two whole numbers like 26,50")
    return Levels(int(match[1]), int(match[2]))


# ==== the checks of a probe: an office's answer, its files, its backups, and its late months

MOST_BYTES = 1 << 20
"""Bytes of an answer that are read: the list of 200 years' tables in nine revisions has fewer."""


class Table(NamedTuple):
    """A published table: month, revision, and the moment from which everybody reads it."""

    month: int
    revision: int
    publishes: int


class Answer(NamedTuple):
    """The office's answer: its published tables, and after how many milliseconds it came."""

    tables: tuple[Table, ...]
    milliseconds: int


class Files(NamedTuple):
    """The bytes of an office's file and of its log, and the bytes that are left on its file system."""

    file: int
    log: int
    free: int


class Backup(NamedTuple):
    """The last backup: its path, the time at which copying it began, and its size in bytes."""

    path: Path
    copied: int
    size: int


class Backups(NamedTuple):
    """The last backup of a folder, and how many copies newer than it failed their drill."""

    last: Optional[Backup]
    failed_drills: int


def ask_tables(url: str, seconds: int, trusted: ssl.SSLContext) -> Answer:
    """The published tables that the office at a URL lists; the function appends `/tables` to it.

    `seconds` bound each wait for it. Raises Fault if nobody answers, or if the answer isn't an office's.
    """
    at = urllib.parse.urlsplit(url)
    begun = time.monotonic_ns()
    try:
        line = _line_to(at, seconds, trusted)
        line.request("GET", f"{at.path.rstrip('/')}/tables", headers={"Connection": "close"})
        response = line.getresponse()
        text = response.read(MOST_BYTES)
        line.close()
        if response.status != 200:
            raise Fault(f"{url} answers with status {response.status}")
        tables = tuple(Table(_month(month), revision, moment) for month, revision, moment in json.loads(text)["tables"])
        if not all(type(each.revision) is type(each.publishes) is int for each in tables):
            raise ValueError
    except OSError as fault:
        raise Fault(f"{url} doesn't answer: {because_of(fault)}") from fault
    except (http.client.HTTPException, ValueError, LookupError, TypeError) as fault:
        raise Fault(f"{url} answers, but not as an office does") from fault
    return Answer(tables, (time.monotonic_ns() - begun) // 1_000_000)


def trusting(authority: Optional[Path]) -> ssl.SSLContext:
    """Trusts the system's certificates, and those of another file. Raises Fault if it can't be read."""
    context = ssl.create_default_context()
    try:
        if authority:
            context.load_verify_locations(authority)
    except ssl.SSLError as fault:
        raise Fault(f"{authority} has no certificate that can be read") from fault
    except OSError as fault:
        raise Fault(f"{authority}: {fault.strerror}") from fault
    return context


def _line_to(at: urllib.parse.SplitResult, seconds: int, trusted: ssl.SSLContext) -> http.client.HTTPConnection:
    """A connection to the machine of a URL."""
    if at.scheme == "https":
        return http.client.HTTPSConnection(at.hostname or "", at.port, timeout=seconds, context=trusted)
    return http.client.HTTPConnection(at.hostname or "", at.port, timeout=seconds)


def _month(text: str) -> int:
    if not re.fullmatch(r"2[01][0-9]{2}-(0[1-9]|1[0-2])", text):
        raise ValueError(text)
    return int(text[:4]) * 100 + int(text[5:])


def files_of(path: Path) -> Files:
    """The sizes of an office's file and its log. Raises Fault if the file can't be checked."""
    try:
        size = path.stat().st_size
        free = shutil.disk_usage(path.parent).free
    except OSError as fault:
        raise Fault(because_of(fault)) from fault
    try:
        log = log_beside(path).stat().st_size
    except FileNotFoundError:
        log = 0
    return Files(size, log, free)


def last_backup(folder: Path) -> Optional[Backup]:
    """The backup in a folder that was copied last, according to the notes; None if there is none.

    A note whose backup isn't there, or has another size, counts for nothing. Raises Fault if the folder can't be read,
    or contains a file that should be a note and isn't.
    """
    backups = list[Backup]()
    try:
        for beside in folder.iterdir():
            path = beside.with_suffix("")
            note = read_note(path) if beside.suffix == ".sha256" else None
            if note and path.is_file() and path.stat().st_size == note.size:
                backups.append(Backup(path, note.copied, note.size))
    except OSError as fault:
        raise Fault(because_of(fault)) from fault
    return max(backups, key=lambda each: each.copied) if backups else None


def backups_of(folder: Path) -> Backups:
    """The backups in a folder, and the copies that failed their drill: the night's script gives these a name like
    `office-2026-01-31.db.bad`. Raises Fault as `last_backup` does."""
    last, failed = last_backup(folder), 0
    try:
        for path in folder.glob("*.db.bad"):
            with contextlib.suppress(FileNotFoundError):
                failed += last is None or path.stat().st_mtime > last.copied
    except OSError as fault:
        raise Fault(because_of(fault)) from fault
    return Backups(last, failed)


class SecondCopy(NamedTuple):
    """The newest second copy, by its note: when copying it began, in seconds since 1970 UTC, None if there is no copy;
    the machine on which it was promoted, empty if it wasn't; and why the office is no longer carried to it, empty if it
    is."""

    copied: Optional[int]
    promoted_on: str
    refused: str = ""


def second_copy_of(folder: Path) -> SecondCopy:
    """The second copy that `cpi-tools follow` keeps in a folder, or whose last note it keeps there. Raises Fault if the
    folder can't be read."""
    state = state_of_copy(folder)
    newest = state.newest()
    promoted_on = state.promotion.machine if state.promotion else ""
    return SecondCopy(state.notes[newest].copied if newest else None, promoted_on, refusal_of(folder))


def calendar_of(backup: Optional[Backup], file: Optional[Path]) -> Optional[list[Window]]:
    """The calendar in the last backup, or in a copy of the office's file if there is no backup; None if neither is
    named.

    Raises Fault if it can't be read.
    """
    try:
        if backup:
            with stored_office(backup.path, is_settled=True) as office:
                return office.calendar()
        if file:
            with private_copy(file) as copy, stored_office(copy) as office:
                return office.calendar()
    except sqlite3.Error as fault:
        raise Fault(f"the calendar of {backup.path if backup else file} can't be read: {fault}") from fault
    return None


def late_months(calendar: Sequence[Window], tables: Sequence[Table], now: int) -> tuple[Window, ...]:
    """The months whose publishing moment has come, and that have no table with that moment.

    A month that was frozen has the moment of its calendar row, and so has each revision; a month that is reopened has a
    row with a later one.
    """
    published = {(each.month, each.publishes) for each in tables}
    return tuple(row for row in calendar if row.publishes <= now and (row.month, row.publishes) not in published)

"""The published tables, read only as the public reads them.

The module sends only the records `tables` and `table,MONTH,csv,REVISION` of the caller `public`, in one replay over a
private copy, or gets the same two pages from a served office. A table under embargo is never answered, so nothing that
is written from here can hold one. Of the modules of `cpi-tools publish`, only this one reaches an office.
"""

from __future__ import annotations

import hashlib
import http.client
import json
import os
import re
import tempfile
import urllib.error
import urllib.request
from collections.abc import Callable, Iterator
from pathlib import Path
from typing import IO, Any, NamedTuple

from ..text.terminal import Fault
from .copying import private_copy
from .program import Cpi, record

TIMEOUT = 60.0
"""Seconds that a page may take."""

MONTH = re.compile(r"2[01][0-9]{2}-(0[1-9]|1[0-2])")

Report = Callable[[int, int], None]
"""A function that gets the number of finished tables, and of all."""


def no_report(_: int, __: int) -> None:
    """Tells nobody."""


class NotPublic(Fault):
    """The office gave no list of tables, or didn't give a table that it lists; the message is one line."""


class Listed(NamedTuple):
    """A published table as the office lists it: month like `2026-01`, revision, moment in seconds since 1970 UTC."""

    month: str
    revision: int
    moment: int

    @property
    def file_name(self) -> str:
        """The name of its own file, `2026-01-r1.csv`."""
        return f"{self.month}-r{self.revision}.csv"


class Published(NamedTuple):
    """A table as it was published: its row in the list, and its bytes as CSV."""

    listed: Listed
    table: bytes

    @property
    def name(self) -> str:
        """The name of its own file."""
        return self.listed.file_name

    @property
    def sha256(self) -> str:
        """The sum of its bytes, in hexadecimal."""
        return hashlib.sha256(self.table).hexdigest()


class Source(NamedTuple):
    """A published table whose bytes are in a file with others: its row in the list, the sum of its bytes, and their
    place."""

    listed: Listed
    sha256: str
    file: IO[bytes]
    begin: int
    size: int

    @property
    def name(self) -> str:
        """The name of its own file."""
        return self.listed.file_name

    @property
    def table(self) -> bytes:
        """Its bytes."""
        self.file.seek(self.begin)
        return self.file.read(self.size)


IN_MEMORY = 1 << 24
"""Bytes of tables that are kept in memory; the tables of thirty years of a national office are in a file without a
name."""


class Sources:
    """Keeps the bytes of published tables."""

    def __init__(self) -> None:
        self._file: IO[bytes] = tempfile.SpooledTemporaryFile(IN_MEMORY)

    def add(self, published: Published, its_sum: str) -> Source:
        """Keeps the bytes of one table, which have a sum."""
        begin = self._file.seek(0, os.SEEK_END)
        self._file.write(published.table)
        return Source(published.listed, its_sum, self._file, begin, len(published.table))


def listed_in(reply: Any) -> list[Listed]:
    """The tables of a reply, by month and revision. Raises NotPublic if it isn't such a list."""
    rows = reply.get("tables") if isinstance(reply, dict) else None
    if not isinstance(rows, list) or not all(_is_listed(row) for row in rows):
        raise NotPublic(f"the office doesn't list its tables: {str(reply)[:100]}")
    return sorted(Listed(*row) for row in rows)


def _is_listed(row: Any) -> bool:
    """Whether a row of the list is month, revision and moment (the month becomes the name of a file)."""
    is_row = isinstance(row, list) and [type(each) for each in row] == [str, int, int]
    return is_row and MONTH.fullmatch(row[0]) is not None and 1 <= row[1] <= 9 and 0 <= row[2]


def from_file(cpi: Cpi, path: Path, at: int, report: Report = no_report) -> list[Published]:
    """The tables that the public reads at the moment `at` from the office in a file, with one run of the program over a
    copy.

    Raises NotPublic, CopyFailed or CpiFailed.
    """
    return [*read_file(cpi, path, at, report)]


def read_file(cpi: Cpi, path: Path, at: int, report: Report = no_report) -> Iterator[Published]:
    """The same, one table after the other, so that only one of them is in memory."""
    with private_copy(path) as copy, cpi.session(copy) as office:
        listed = listed_in(office.ask(record(at, "public", "tables")))
        for done, each in enumerate(listed, 1):
            reply = office.ask(record(at, "public", "table", each.month, "csv", each.revision))
            if not isinstance(reply.get("table"), str):
                raise NotPublic(f"the table of {each.month}, revision {each.revision}, isn't answered: {reply}")
            yield Published(each, reply["table"].encode())
            report(done, len(listed))


def from_url(url: str, report: Report = no_report) -> list[Published]:
    """The tables that the public reads now at the address of an office, such as `http://127.0.0.1:8080`. Raises
    NotPublic."""
    return [*read_url(url, report)]


def read_url(url: str, report: Report = no_report) -> Iterator[Published]:
    """The same, one table after the other, so that only one of them is in memory."""
    base = url.rstrip("/")
    try:
        listed = listed_in(json.loads(_got(f"{base}/tables")))
    except ValueError as fault:
        raise NotPublic(f"{base}/tables isn't the list of an office's tables") from fault
    for done, each in enumerate(listed, 1):
        yield Published(each, _got(f"{base}/table/{each.month}/csv/{each.revision}"))
        report(done, len(listed))


def _got(address: str) -> bytes:
    """The body of a page."""
    try:
        with urllib.request.urlopen(address, timeout=TIMEOUT) as answer:
            body: bytes = answer.read()
            return body
    except urllib.error.HTTPError as fault:
        raise NotPublic(f"{address} was answered with status {fault.code}") from fault
    except (OSError, http.client.HTTPException, ValueError) as fault:
        because = getattr(fault, "reason", fault)
        raise NotPublic(f"{address} can't be read: {getattr(because, 'strerror', None) or because}") from fault

"""The freeze by two people: one prepares the record, another one confirms it, and then it is sent.

The program has one key for the desk and no roles, so this is a rule of the application. A prepared freeze is a file, so
that it outlives the application.
"""

from __future__ import annotations

import hashlib
import json
import time
from collections.abc import Mapping, Sequence
from pathlib import Path
from typing import NamedTuple, Optional

from ...text.message import message as _
from ...text.terminal import Fault, because_of, month_text
from ...text.text_files import write_whole
from ..month.closing import Closed
from ..serve.faults import not_as_written


class Prepared(NamedTuple):
    """A freeze that waits for a second person: who prepared it and when, its month and revision, the carry list, why
    each of its aggregates is carried, the SHA-256 of the table that it would make, when that is published (seconds since
    1970 UTC), why the month is revised in each language by its tag, and the table itself. Once somebody confirmed it, who
    and when, and why it was frozen with prices that nobody had seen."""

    by: str
    at: int
    month: int
    revision: int
    carry: list[str]
    why: list[str]
    table: str
    publishes: int = 0
    reasons: Mapping[str, str] = {}
    text: str = ""
    confirmed_by: str = ""
    confirmed_at: int = 0
    because: str = ""

    @property
    def record(self) -> list[str]:
        """The record that is sent."""
        return ["freeze", month_text(self.month), *self.carry]

    @property
    def sum(self) -> str:
        """A sum of the prepared freeze, so that nobody confirms or drops another freeze than the page showed."""
        return sum_of([*self[: self._fields.index("text")]])


def sum_of(shown: object) -> str:
    """A sum of what a page showed: of lists, texts and numbers."""
    return hashlib.sha256(json.dumps(shown).encode()).hexdigest()


def table_sum(table: bytes) -> str:
    """A prepared freeze's figures of a table."""
    return hashlib.sha256(table).hexdigest()


def prepared_of(by: str, closed: Closed, publishes: int, why: Sequence[str]) -> Prepared:
    """One person's preparation for a month that was frozen on a copy; `why` is for each aggregate on the carry list."""
    carry = [it.code for it in closed.named]
    if lacks := [code for code, each in zip(carry, why) if not each.strip()]:
        # t: codes is a list of elementary aggregates, with commas
        text = _(
            "Give the reason for carrying {codes}: the desk decides this, and the log records the reason.",
            codes=", ".join(lacks),
        )
        raise Fault(text)
    reasons, table = [it.strip() for it in why], closed.table
    made = Prepared(by, int(time.time()), closed.month, closed.revision, carry, reasons, table_sum(table), publishes)
    return made._replace(text=table.decode())


class PreparedFreeze:
    """The file with the prepared freeze, or without one."""

    def __init__(self, path: Path):
        self._path = path

    def read(self) -> Optional[Prepared]:
        """The prepared freeze. Raises Fault if the file can't be read."""
        try:
            return Prepared(**json.loads(self._path.read_text(encoding="utf-8")))
        except FileNotFoundError:
            return None
        except OSError as fault:
            raise Fault(because_of(fault)) from fault
        except (ValueError, TypeError) as fault:
            raise Fault(not_as_written(self._path, fault)) from fault

    def keep(self, it: Prepared) -> None:
        """Keeps it, and replaces an existing one. Raises Fault."""
        try:
            write_whole(self._path, json.dumps(it._asdict()).encode(), 0o600)
        except OSError as fault:
            raise Fault(because_of(fault)) from fault

    def drop(self) -> None:
        """Forgets it."""
        self._path.unlink(missing_ok=True)

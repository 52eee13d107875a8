"""The field notes: what collectors wrote about their prices, as a phone sends it and as a file keeps it."""

from __future__ import annotations

import contextlib
import hashlib
import json
import os
import re
import sqlite3
import threading
import time
import unicodedata
from collections.abc import Callable, Iterator, Mapping
from pathlib import Path
from typing import NamedTuple, Optional

from ...text.message import Message, message as _, whole
from ...text.others import of_others, own_line
from ...text.terminal import Fault, because_of
from .field_limits import MOST_BRAND_LETTERS, MOST_LETTERS, MOST_NOTES, MOST_PHOTO_BYTES, MOST_QUANTITY_LETTERS


# ==== the common part of the files of field notes and of questions to collectors: each is a separate SQLite file next
# to the office's, whose rows disappear by themselves after some months, and their bytes are overwritten


class FieldFile:
    """Such a file. Rows are kept for so many months, beginning with the current one; `clock` gives the seconds since
    1970 UTC."""

    SCHEMA = ""
    """The statements that make its tables."""

    def __init__(self, path: Path, months: int, clock: Callable[[], float] = time.time):
        """Opens the file, or makes it. Raises Fault."""
        self.path, self.months, self._clock = path, months, clock
        self._lock = threading.Lock()
        try:
            os.close(os.open(path, os.O_RDWR | os.O_CREAT, 0o600))
            self._link = sqlite3.connect(path, check_same_thread=False, isolation_level=None)
            for text in ("PRAGMA secure_delete = ON", "PRAGMA synchronous = FULL"):
                self._link.execute(text)
            self._link.executescript(self.SCHEMA)
        except OSError as fault:
            raise Fault(because_of(fault)) from fault
        except sqlite3.Error as fault:
            raise Fault(self._unreadable(path=of_others(str(path)), fault=own_line(fault))) from fault
        self.forget()

    def _unreadable(self, **places: object) -> Message:
        """The message about a file that isn't such a file."""
        raise NotImplementedError

    def _unusable(self, **places: object) -> Message:
        """The message if it can't be read or written now."""
        raise NotImplementedError

    def forget(self) -> int:
        """Removes the rows of months that are past for long enough; how many. Raises Fault."""
        raise NotImplementedError

    def close(self) -> None:
        """Ends it."""
        with self._lock:
            self._link.close()

    @contextlib.contextmanager
    def _asking(self) -> Iterator[sqlite3.Connection]:
        """The file, while nobody else uses it. Raises Fault."""
        with self._lock:
            try:
                yield self._link
            except sqlite3.Error as fault:
                raise Fault(self._unusable(path=of_others(str(self.path)), fault=own_line(fault))) from fault

    @contextlib.contextmanager
    def _changing(self) -> Iterator[sqlite3.Connection]:
        """The file, for changes: afterwards all of them are on the disk, or none if anything failed. Raises Fault."""
        with self._asking() as link:
            link.execute("BEGIN IMMEDIATE")
            try:
                yield link
                link.execute("COMMIT")
            except BaseException:
                if link.in_transaction:
                    link.execute("ROLLBACK")
                raise

    def first_month(self) -> int:
        """The first month that is kept."""
        now = time.gmtime(self._clock())
        count = now.tm_year * 12 + now.tm_mon - self.months
        return count // 12 * 100 + count % 12 + 1


# ==== the field notes: what collectors wrote about their prices, in a separate SQLite file next to the office's
#
# A note is of one price: the slot, the month and the receipt. It contains a collector's number and never a key. Whoever
# reads one names whose it is to be, so a collector is never handed another's. Notes of months that are long past go by
# themselves, and the bytes that they had are written over.

SCHEMA = """
CREATE TABLE IF NOT EXISTS note (
  number INTEGER PRIMARY KEY AUTOINCREMENT, collector INTEGER NOT NULL, slot INTEGER NOT NULL, month INTEGER NOT NULL,
  receipt INTEGER NOT NULL, at INTEGER NOT NULL, is_sale INTEGER NOT NULL, brand TEXT NOT NULL, quantity TEXT NOT NULL,
  text TEXT NOT NULL, photo BLOB, digest TEXT NOT NULL UNIQUE
);
CREATE INDEX IF NOT EXISTS of_month ON note (month, collector, slot);
"""
COLUMNS = "number, collector, slot, month, receipt, at, is_sale, brand, quantity, text, photo IS NOT NULL"


class Of(NamedTuple):
    """The price that a note is of: who has sent it, in which slot and month, and its receipt."""

    collector: int
    slot: int
    month: int
    receipt: int


class Said(NamedTuple):
    """A collector's note on a price: whether it is a sale's, brand and quantity of a replacement, a text, and a
    photograph as it came, empty for none."""

    is_sale: bool
    brand: str
    quantity: str
    text: str
    photo: bytes


class FieldNote(NamedTuple):
    """A note that is kept: its number, the price that it is of, when it came in seconds since 1970 UTC, and what it
    says."""

    number: int
    collector: int
    slot: int
    month: int
    receipt: int
    at: int
    is_sale: bool
    brand: str
    quantity: str
    text: str
    has_photo: bool


class TooMany(Exception):
    """A collector has MOST_NOTES notes of the month."""


class FieldNotes(FieldFile):
    """The file of the notes."""

    SCHEMA = SCHEMA

    def _unreadable(self, **places: object) -> Message:
        return _("The field notes in {path} can't be read: {fault}", **places)

    def _unusable(self, **places: object) -> Message:
        return _("The field notes in {path} can't be read or written: {fault}", **places)

    # ---- writing

    def number_of(self, of: Of, said: Said) -> Optional[int]:
        """The number that the same note of the same price has, if it is kept; None if there is room for it. So whoever
        sends it again, or too many, costs nothing else. Raises TooMany or Fault."""
        with self._asking() as link:
            return _number_of(link, of, digest_of(of, said))

    def add(self, of: Of, said: Said, photo: Optional[bytes]) -> int:
        """Keeps a note with its photograph as it is to be kept; its number. A note that is sent again keeps its number.
        It is on the disk afterwards. Raises TooMany or Fault."""
        digest = digest_of(of, said)
        with self._asking() as link:
            had = _number_of(link, of, digest)
            if had is not None:
                return had
            row = (of.collector, of.slot, of.month, of.receipt, int(self._clock()), *said[:4], photo, digest)
            made = link.execute(
                "INSERT INTO note (collector, slot, month, receipt, at, is_sale, brand, quantity, text, photo, digest)"
                " VALUES (?, ?, ?, ?, ?, ?, ?, ?, ?, ?, ?)",
                row,
            )
            assert made.lastrowid is not None
            return made.lastrowid

    def remove(self, month: int, number: int) -> bool:
        """Removes a note of a month for good; whether it was there. Raises Fault."""
        with self._asking() as link:
            return link.execute("DELETE FROM note WHERE month = ? AND number = ?", (month, number)).rowcount > 0

    def forget(self) -> int:
        """Removes the notes of months that are past for long enough; how many. Raises Fault."""
        with self._asking() as link:
            return link.execute("DELETE FROM note WHERE month < ?", (self.first_month(),)).rowcount

    # ---- reading

    def of_month(self, month: int, collector: Optional[int] = None) -> list[FieldNote]:
        """The notes of a month, of one collector or of all, the first ones first. Raises Fault."""
        where, of = ("", ()) if collector is None else (" AND collector = ?", (collector,))
        with self._asking() as link:
            found = link.execute(f"SELECT {COLUMNS} FROM note WHERE month = ?{where} ORDER BY number", (month, *of))
            return [FieldNote(*row)._replace(is_sale=bool(row[6]), has_photo=bool(row[10])) for row in found]

    def photo(self, number: int, collector: Optional[int] = None) -> Optional[bytes]:
        """The photograph of a note, if it has one and is this collector's, or whoever's if none is named. Raises
        Fault."""
        where, of = ("", ()) if collector is None else (" AND collector = ?", (collector,))
        with self._asking() as link:
            row = link.execute(f"SELECT photo FROM note WHERE number = ?{where}", (number, *of)).fetchone()
            return row[0] if row else None


def _number_of(link: sqlite3.Connection, of: Of, digest: str) -> Optional[int]:
    """The number of the note with a sum; None if another one may be kept of that collector and month. Raises TooMany."""
    had = link.execute("SELECT number FROM note WHERE digest = ?", (digest,)).fetchone()
    if had:
        return int(had[0])
    counted = "SELECT count(*) FROM note WHERE month = ? AND collector = ?"
    if link.execute(counted, (of.month, of.collector)).fetchone()[0] >= MOST_NOTES:
        raise TooMany
    return None


def digest_of(of: Of, said: Said) -> str:
    """A sum by which a note that is sent twice is known, in hexadecimal."""
    photo = hashlib.sha256(said.photo).hexdigest() if said.photo else ""
    return hashlib.sha256(json.dumps([*of, *said[:4], photo]).encode()).hexdigest()


# ==== a field note as a phone sends it: its fields are read, or one of them is refused with the wanted form

FIELDS = {"text": MOST_LETTERS, "brand": MOST_BRAND_LETTERS, "quantity": MOST_QUANTITY_LETTERS}
"""The letters that each text has at most."""

MOST_RECEIPT = 10**9


class Refused(Exception):
    """The refusal of a note: a status, and the answer."""

    def __init__(self, status: int, **answer: object):
        super().__init__(str(answer))
        self.status, self.answer = status, answer


class Sent(NamedTuple):
    """A note that was read: the receipt of its price, and what it says."""

    receipt: int
    said: Said


def sent_of(form: Mapping[str, str], photo: bytes) -> Sent:
    """The note of a form with a photograph, empty for none. Raises Refused."""
    receipt = form.get("receipt", "")
    if not re.fullmatch("[1-9][0-9]{0,9}", receipt, re.ASCII) or int(receipt) > MOST_RECEIPT:
        raise Refused(400, fault="form", field="receipt", wanted=_("The receipt of the price: a number of at least 1."))
    sale = form.get("sale", "")
    if sale not in ("", "yes"):
        raise Refused(400, fault="form", field="sale", wanted=_("The word yes, or nothing."))
    if len(photo) > MOST_PHOTO_BYTES:
        raise Refused(413, fault="long", field="photo", wanted=_("At most {most} bytes.", most=whole(MOST_PHOTO_BYTES)))
    said = Said(sale == "yes", text_of(form, "brand"), text_of(form, "quantity"), text_of(form, "text"), photo)
    if not any(said):
        raise Refused(400, fault="form", field="text", wanted=_("Some text: the note is empty."))
    return Sent(int(receipt), said)


def text_of(form: Mapping[str, str], name: str) -> str:
    """A text of a form, without blanks at its ends. Raises Refused if it is too long or has invisible commands."""
    text = form.get(name, "").replace("\r\n", "\n").strip()
    if len(text) > FIELDS[name]:
        raise Refused(
            400,
            fault="form",
            field=name,
            wanted=_(
                "At most {most} characters; this text has {count}.", most=whole(FIELDS[name]), count=whole(len(text))
            ),
        )
    if any(unicodedata.category(letter) == "Cc" and letter not in "\n\t" for letter in text):
        raise Refused(400, fault="form", field=name, wanted=_("A text without control characters."))
    return text

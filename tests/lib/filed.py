"""Offices in files: the cases that are replayed over them, the rows that are stored, and the lists."""

from __future__ import annotations

import json
import os
import re
import sqlite3
from collections.abc import Iterator, Sequence
from contextlib import closing
from typing import Any

from second_office.office import month_text
from second_office.records import text_of
from second_office.requests import Record
from second_office.rows import TABLES, Kept, rows_of

from . import records
from .cases import Case
from .fault import Fault
from .offices import LAST
from .program import Program, Ran, failed
from .stored import faults_of, stored, tables_of

KEY = "a" * 32
"""The key of the collector of the office below."""

MOST_READ = 100_000
"""Bytes of a case that the second office reads; it searches all quotes for each."""

QUOTE = f"1500,{KEY},quotes,2025-12,2026-01\n".encode()

OTHER_KEY = "b" * 32
COLLECTOR = f"0,desk,collector,8,{OTHER_KEY}\n".encode()
HAND_OVER = COLLECTOR + b"0,desk,handover,7,4,8,1,2026-03\n"
"""A second collector, who gets the fourth series of that office from March on."""


def office_case() -> Case:
    """Records after which three months are frozen."""
    return Case("a-carried-aggregate-is-named-at-the-freeze")


def office(program: Program, room: str) -> str:
    """The file of an office with three months frozen."""
    case = office_case()
    return replayed(program, case, room, [case.given])[2]


def empty(program: Program, room: str) -> str:
    """The file of an empty office."""
    program.replay(b"", f"{room}/office.db")
    return f"{room}/office.db"


def replayed(program: Program, case: Case, room: str, parts: Sequence[bytes]) -> tuple[list[int], bytes, str]:
    """The statuses and lines of runs over one new file, one for each part, and the file."""
    path = os.path.join(room, "office.db")
    ran = [program.run(*case.words, "--db", path, given=part) for part in parts]
    return [each.status for each in ran], b"".join(each.out for each in ran), path


# ---- what is stored


def answered(given: bytes) -> tuple[Kept, list[bytes]]:
    """The second office after these records, and its lines; no lines where there are too many records."""
    office, sent = Kept(), rows_in(given) if len(given) <= MOST_READ else []
    return office, [office.line(record).encode(errors="surrogateescape") + b"\n" for record in sent]


def rows_in(given: bytes) -> list[Record]:
    """The fields of the records."""
    return records.rows_of(given.decode(errors="surrogateescape"))


def unsound(case: Case, path: str) -> Fault:
    """The faults that the C library of SQLite finds in the file."""
    if not os.path.exists(path):
        return None if case.status else "there is no file"
    with closing(sqlite3.connect(path)) as file:
        faults, names = faults_of(file), tables_of(file)
    return None if not faults and names == TABLES else f"the C library finds {faults[:3]}, {names}"


def stored_otherwise(case: Case, path: str) -> Fault:
    """The table whose rows differ from the second office's, if that gives the lines of the case. It has the clock of
    UTC0."""
    office, lines = answered(case.given)
    if case.status or "--zone" in case.words or lines != case.lines:
        return None
    found, wanted = stored(path), rows_of(office)
    others = [name for name in TABLES if found[name] != wanted[name]]
    return f"{others[0]} has {found[others[0]][:3]}, wanted {wanted[others[0]][:3]}" if others else None


# ---- what is printed and listed


def asked_tables(case: Case) -> Iterator[tuple[str, str, str, str, Any]]:
    """The tables that a case asks for by plain records, where nothing is frozen later: moment, month, form, revision or
    nothing, and the reply."""
    sent = [record.decode("utf-8", "replace").strip("\r\n") for record in records.records_of(case.given)]
    sent = [record for record in sent if record]
    lines = case.wanted.split(b"\n")[:-1]
    if len(sent) != len(lines):
        return
    last = max((at for at, record in enumerate(sent) if "freeze," in record), default=-1)
    pattern = re.compile(r"([0-9]+),public,table,([0-9]{4}-[0-9]{2}),(text|csv)(?:,([1-9]))?")
    for record, line in list(zip(sent, lines))[last + 1 :]:
        if match := pattern.fullmatch(record):
            yield match[1], match[2], match[3], match[4], json.loads(line)


def printed_otherwise(program: Program, case: Case, path: str) -> Fault:
    """The table that is printed differently from the file."""
    for at, month, form, revision, reply in asked_tables(case):
        words = ["--db", path, "--month", month, "--form", form, "--at", at]
        wanted = failed("bad month") if reply.get("refused") == 10 else failed("no table")
        if "table" in reply:
            wanted = Ran(0, reply["table"].encode(), b"")
        ran = program.run("table", *words, *(["--revision", revision] if revision else []))
        if ran != wanted:
            return f"cpi table {' '.join(words[2:])}: {ran}"
    return None


def kept_otherwise(program: Program, case: Case, path: str) -> Fault:
    """The fault of a file that contains the records of a case."""
    return unsound(case, path) or stored_otherwise(case, path) or printed_otherwise(program, case, path)


def listing(office: Kept) -> Iterator[Record]:
    """The requests for everything that everybody and each collector may list, and for each revision of each table."""
    yield from ([str(LAST), "public", word] for word in ("items", "tables"))
    months = [month_text(month) for month in sorted(office.calendar)]
    for key in office.keys.values():
        yield [str(LAST), key, "quotes", months[0], months[-1]]
        yield from ([str(LAST), key, "work", month] for month in months)
    for month, revisions in sorted(office.tables.items()):
        yield [str(LAST), "public", "table", month_text(month), "text"]
        for revision in range(1, len(revisions) + 2):
            yield [str(LAST), "public", "table", month_text(month), "csv", str(revision)]


def told_otherwise(program: Program, path: str, office: Kept, sent: Sequence[Record]) -> Fault:
    """The fault of the lines of records over a file that should contain this second office."""
    wanted = "".join(f"{office.line(record)}\n" for record in sent).encode()
    ran = program.replay(text_of(sent).encode(), path)
    return None if ran == (0, wanted, b"") else f"{ran}, wanted {wanted[:160]!r}"


def listed_otherwise(program: Program, path: str, office: Kept) -> Fault:
    """The fault of the lists of a file that should contain this second office."""
    return told_otherwise(program, path, office, [*listing(office)])

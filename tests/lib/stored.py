"""Reads and changes files of offices with Python's sqlite3."""

from __future__ import annotations

import contextlib
import os
import shutil
import sqlite3
import tempfile
from collections.abc import Iterable

from second_office.rows import Rows

ENDS = ("", "-wal")
"""The endings of the file and of the log beside it."""


def copied(path: str, copy: str) -> str:
    """A copy of a file and of the log beside it."""
    for end in ENDS:
        if os.path.exists(path + end):
            shutil.copy(path + end, copy + end)
    return copy


def tables_of(file: sqlite3.Connection) -> list[str]:
    """The names of the tables, in the order in which they were made."""
    names = file.execute("SELECT name FROM sqlite_schema WHERE name NOT LIKE 'sqlite_%'")
    return [name for (name,) in names]


def rows_in(file: sqlite3.Connection) -> Rows:
    """The rows of each table."""
    return {name: sorted(file.execute(f"SELECT * FROM {name}")) for name in tables_of(file)}


def faults_of(file: sqlite3.Connection) -> list[object]:
    """The faults of the file's integrity and its foreign keys."""
    faults: list[object] = [row for (row,) in file.execute("PRAGMA integrity_check") if row != "ok"]
    return faults + file.execute("PRAGMA foreign_key_check").fetchall()


def stored(path: str) -> Rows:
    """The rows of each table of a file."""
    with contextlib.closing(sqlite3.connect(path)) as file:
        return rows_in(file)


def stored_in_copy(path: str) -> tuple[list[object], Rows]:
    """The faults of a copy of a file and its log, and the rows of its tables."""
    with tempfile.TemporaryDirectory() as room:
        try:
            with contextlib.closing(sqlite3.connect(copied(path, f"{room}/copy.db"))) as copy:
                return faults_of(copy), rows_in(copy)
        except sqlite3.Error as fault:
            return [repr(fault)], {}


def change(path: str, statements: Iterable[str]) -> None:
    """Changes a file as another program would, which ignores foreign keys."""
    with contextlib.closing(sqlite3.connect(path)) as file:
        with file:
            file.execute("PRAGMA foreign_keys = OFF")
            for statement in statements:
                file.execute(statement)
        file.execute("PRAGMA wal_checkpoint(TRUNCATE)")

"""Files of offices that another program has changed: refused by a line and left as they are, or read in part."""

from __future__ import annotations

import os
from collections.abc import Callable, Sequence

from .cases import content
from .filed import QUOTE
from .fault import Fault
from .program import Program, failed
from .stored import change, copied
from .tried import fault_in

Begin = Callable[[Program, str], str]
"""Makes a file in a folder."""

Way = list[str]
"""Statements that change a file."""

OTHER_VERSIONS: list[Way] = [
    *([f"UPDATE version SET number = {number}"] for number in (0, 3, 9)),
    ["INSERT INTO version VALUES (3)"],
    ["DELETE FROM version"],
    ["DROP TABLE version", "CREATE TABLE version (number TEXT NOT NULL) STRICT", "INSERT INTO version VALUES ('2')"],
]
OTHER_LEVEL = ["DROP TABLE level", "CREATE TABLE level (month INTEGER NOT NULL, code TEXT NOT NULL) STRICT"]

NO_YEARS = (-1, 0, 1999, 2200, 10**12)
"""Numbers that aren't years of a plan."""

# Rows of the tables of both schemas that can't be in an office.
NO_ROWS: list[Way] = [
    ["DELETE FROM outlet"],
    ["DELETE FROM collector"],
    ["DELETE FROM item WHERE code = 'RICE'"],
    ["UPDATE outlet SET name = ''"],
    ["UPDATE collector SET key = 'none'"],
    ["UPDATE item SET low = 0 WHERE code = 'FLOUR'"],
    ["UPDATE calendar SET closes = opens WHERE month = 202601"],
    ["UPDATE calendar SET month = 202613 WHERE month = 202602"],
    *([f"INSERT INTO node VALUES ({year}, '00', 'All items', 1)"] for year in NO_YEARS),
    *([f"INSERT INTO plan_item VALUES ({year}, 'RICE', '01.1.1.1')"] for year in NO_YEARS),
]


def of_no_type(table: str, row: str) -> Way:
    """Puts a row that the types of its table refuse, which are ignored meanwhile."""
    begin, end = "PRAGMA writable_schema = ON", "PRAGMA writable_schema = RESET"
    free = f"UPDATE sqlite_schema SET sql = replace(sql, ' STRICT', '') WHERE name = '{table}'"
    bind = f"UPDATE sqlite_schema SET sql = sql || ' STRICT' WHERE name = '{table}'"
    return [begin, free, end, f"INSERT INTO {table} VALUES ({row})", begin, bind, end]


def opened(program: Program, path: str, line: str) -> Fault:
    """The fault of a replay over a path that can't be opened, if any: it must print one line, end with status 1, read
    nothing, and leave the file unchanged."""
    before = content(path) if os.path.isfile(path) else None
    ran = program.replay(QUOTE, path)
    if ran != failed(line):
        return f"{os.path.basename(path)}: {ran}"
    is_same = before is None or content(path) == before
    return None if is_same else f"{os.path.basename(path)}: the file has changed"


def opened_each(program: Program, room: str, ways: Sequence[Way], line: str, begin: Begin) -> Fault:
    """The fault of `opened` for each of some ways to change a file."""
    made = begin(program, room)
    return fault_in((way, opened(program, changed(made, f"{room}/{at}.db", way), line)) for at, way in enumerate(ways))


def changed(path: str, copy: str, way: Way) -> str:
    """A copy of a file, changed in this way."""
    change(copied(path, copy), way)
    return copy


def read_in_part(program: Program, path: str, told: Sequence[bytes], refused: Sequence[bytes]) -> Fault:
    """The fault, if the latter records aren't the only ones that are refused with 90; the former are sent before and
    after them."""
    ran = program.replay(b"".join([*told, *refused, *told]), path)
    lines = [line == b'{"refused":90}' for line in ran.out.splitlines()]
    wanted = [False] * len(told) + [True] * len(refused) + [False] * len(told)
    return None if lines == wanted and not ran.status else f"{ran}"

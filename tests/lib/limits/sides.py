"""The answers of the program and of the second office, compared with the answers in the documents."""

from __future__ import annotations

import json
import os
import shutil
import tempfile
import threading
from collections.abc import Callable

from second_office import http_messages
from second_office.office import Office
from second_office.records import text_of

from ..fault import Fault
from ..offices import LAST
from ..open_office import OPEN
from ..program import Program, Ran
from ..records import rows_of
from ..served import DESK
from ..stored import change
from .limit import Asked, Limit
from .places import Records
from .stored import Stored

IN_MEMORY = "/dev/shm" if os.access("/dev/shm", os.W_OK) else None
"""A folder in memory, if there is one: these tests don't test the disk."""

READ = [f"{LAST},public,{word}\n".encode() for word in ("items", "tables")]
"""Records that read a file: the survey, and the headers of releases."""


def last_of(lines: list[str]) -> str:
    """The last line, if all lines before it were accepted."""
    return next((f"before it, {line}" for line in lines[:-1] if "refused" in line), lines[-1] if lines else "")


def told_by(ran: Ran) -> str:
    """The last line of a run, or of its fault, if it has one."""
    if ran.status == 2:
        return "status 2"
    return last_of((ran.out if ran.status == 0 else ran.err).decode().splitlines())


class Sides:
    """Both sides, with the files that the program made so far."""

    def __init__(self, program: Program, room: str) -> None:
        self.program, self.room = program, room
        self.files: dict[str, str] = {}
        self.lock = threading.Lock()

    def records(self, records: Records) -> str:
        """The program's line to the last of some records."""
        return told_by(self.program.replay(text_of(records).encode()))

    def words(self, words: list[str]) -> str:
        """The line of a run with these arguments."""
        return told_by(self.program.run(*words))

    def kept(self, records: Records) -> str:
        """The program's line to the last of some records over a new file, whose content is then read again."""
        with tempfile.TemporaryDirectory(dir=self.room) as room:
            path = f"{room}/office.db"
            told = told_by(self.program.replay(text_of(records).encode(), path))
            tables = json.loads(self.program.replay(READ[-1], path).out).get("tables", [])
            asked = [f"{LAST},public,table,{month},csv,{revision}\n".encode() for month, revision, _ in tables]
            again = self.program.replay(b"".join([*READ, *asked]), path)
        return told if again.status == 0 and b"refused" not in again.out else f"read again, {again}"

    def made(self, records: Records) -> str:
        """The file of an office after these records, which is made once."""
        text = text_of(records)
        with self.lock:
            if text not in self.files:
                path = f"{self.room}/{len(self.files)}.db"
                told = told_by(self.program.replay(text.encode(), path))
                if "refused" in told or told.startswith("cpi: "):
                    raise ChildProcessError(told)
                self.files[text] = path
            return self.files[text]

    def stored(self, asked: Stored) -> str:
        """The program's line to a record, over a file that was changed."""
        with tempfile.TemporaryDirectory(dir=self.room) as room:
            path = shutil.copy(self.made(asked.before), f"{room}/office.db")
            change(path, asked.statements)
            return told_by(self.program.replay(text_of([asked.asked]).encode(), path))


def second_records(records: Records) -> str:
    """The second office's line to the last of some records."""
    office = Office()
    return last_of([office.line(record) for record in records])


def second_stored(asked: Stored) -> str:
    """The second office's line to a record, once it is changed."""
    office = Office()
    for record in asked.before:
        office.reply(record)
    if asked.second:
        asked.second(office)
    return office.line(asked.asked)


def second_message(text: bytes) -> str:
    """The second reading's response to a message."""
    office = Office()
    for record in rows_of(OPEN):
        office.reply(record)
    return http_messages.answered(office, text, 1, DESK).decode()


def fault_of(limit: Limit[Asked], value: int, answer: Callable[[Asked], str]) -> Fault:
    """The fault, if the answer differs from the documents' answer."""
    got, wanted = answer(limit.asked(value)), limit.told(value)
    return None if got == wanted else f"{got[:300]!r}, wanted {wanted[:300]!r}"

"""The files of the desk's application as they are copied, and as a backup has them in one file."""

from __future__ import annotations

import contextlib
import io
import os
import re
import shutil
import sqlite3
import tarfile
import time
from collections.abc import Iterator
from pathlib import Path
from typing import NamedTuple, Optional

from ...office.folders import NotPlain, hold_folder
from ...text.terminal import Fault, because_of
from .mirrors import sum_of_bytes


# ==== The files of the desk's application as they are copied: its folder contains the desk's log, notes on prices,
# field notes, questions to collectors, the draft of a year, and waiting entries. A backup, a second copy, a restore and
# a promotion all read it so.
#
# Each file is read at one moment, while the application runs. The logs are only appended to, and only whole lines are
# taken. All others but the notes of the field and the questions are written whole or not at all. Of those, SQLite
# files, nobody commits a change while it is read.
#
# **Which of two folders is the later one.** By the logs: one continues another if each of its logs begins with the
# other's. Each change of a question is in the desk's log first.

HERE = Path("/var/lib/cpi-desk")
"""The folder of the package."""

LOG = "desk.log"
"""The desk's log, without which there is nothing of a desk."""

LOGS = (LOG, "looks.jsonl")
"""The files that are only appended to."""

NOTES = "field-notes.db"
"""The notes of the field."""

DATABASE = ".db"
"""The ends of the names of SQLite files."""

ASIDE = "before-"
"""The beginning of the name of a folder that contains an earlier desk, which was put aside."""

MOST_FILES = 10_000
"""Files of a folder at most."""

NAME = re.compile(r"(?!before-)[A-Za-z0-9][A-Za-z0-9._-]{0,99}(/[A-Za-z0-9][A-Za-z0-9._-]{0,99}){0,3}")
"""A file's name below the folder. Hidden files are not whole yet."""

BESIDE = ("-journal", "-wal", "-shm")
"""SQLite's temporary files next to a file."""


class Sized(NamedTuple):
    """The size of a file in bytes, and its sum as in `mirrors`."""

    size: int
    sum: str


class Seen(NamedTuple):
    """Values that change if a file does: its number, its size and its time in nanoseconds since 1970 UTC."""

    number: int
    size: int
    time: int


def seen_in(folder: Path) -> dict[str, Seen]:
    """The files of a folder by their names; none if it isn't there. Raises Fault."""
    sightings = dict[str, Seen]()
    try:
        for path in _files_below(folder):
            known = path.lstat()
            sightings[str(path.relative_to(folder))] = Seen(known.st_ino, known.st_size, known.st_mtime_ns)
    except OSError as fault:
        raise Fault(because_of(fault)) from fault
    if len(sightings) > MOST_FILES:
        raise Fault(f"{folder} has {len(sightings):,} files, and {MOST_FILES:,} are copied at most")
    return sightings


def _files_below(folder: Path) -> Iterator[Path]:
    """The plain files that are copied, in the order of their names."""
    for top, folders, names in os.walk(folder):
        here = Path(top)
        folders[:] = sorted(name for name in folders if is_name(str((here / name).relative_to(folder))))
        for name in sorted(names):
            path = here / name
            if is_name(str(path.relative_to(folder))) and path.is_file() and not path.is_symlink():
                yield path


def is_name(name: str) -> bool:
    """Whether a file of that name is copied."""
    return bool(NAME.fullmatch(name)) and ".." not in name and not name.endswith(BESIDE)


def lines_in(path: Path) -> bytes:
    """The whole lines of a log; nothing if it isn't there. Raises OSError, also if it is a link or no file: root reads the
    folder of another user."""
    try:
        with hold_folder(path.parent) as folder, os.fdopen(folder.open_file(path.name), "rb") as file:
            data = file.read()
    except FileNotFoundError:
        return b""
    return data[: data.rfind(b"\n") + 1]


def measure_bytes(data: bytes) -> Sized:
    """Size and sum of some bytes."""
    return Sized(len(data), sum_of_bytes(data))


def goes_on(data: bytes, before: Optional[Sized]) -> bool:
    """Whether a log continues an earlier one, whose size and sum are all that is known."""
    return before is None or (len(data) >= before.size and measure_bytes(data[: before.size]) == before)


def is_later(folder: Path, other: Path) -> bool:
    """Whether the logs of a folder continue the logs of another one, or are the same. A file that isn't plain doesn't.
    Raises OSError."""
    try:
        return all(lines_in(folder / name).startswith(lines_in(other / name)) for name in LOGS)
    except NotPlain:
        return False


class Notes(NamedTuple):
    """The extent of the field notes: the number of the last note that ever came, which only grows; and the number and
    the sum of the last note that is kept."""

    came: int
    kept: int
    sum: str


NO_NOTES = Notes(0, 0, "")


def notes_in(link: sqlite3.Connection) -> Notes:
    """The notes of a file."""
    ((came,),) = link.execute("SELECT coalesce(max(seq), 0) FROM sqlite_sequence WHERE name = 'note'")
    rows = link.execute("SELECT number, digest FROM note ORDER BY number DESC LIMIT 1").fetchall()
    return Notes(came, *(rows[0] if rows else (0, "")))


def notes_go_on(link: sqlite3.Connection, before: Notes) -> bool:
    """Whether the notes of a file go on from earlier ones: none that is there is another one under the same number. (One
    that is kept no longer may be gone.)"""
    rows = link.execute("SELECT digest FROM note WHERE number = ?", (before.kept,)).fetchall()
    return notes_in(link).came >= before.came and rows in ([], [(before.sum,)])


@contextlib.contextmanager
def unchanging(path: Path) -> Iterator[sqlite3.Connection]:
    """Meanwhile nobody commits a change to an SQLite file. Raises Fault. (Opening and closing the file in this process
    ends that: so it is read once.)"""
    try:
        address = f"{path.absolute().as_uri()}?mode=ro"
        with contextlib.closing(sqlite3.connect(address, uri=True, isolation_level=None)) as link:
            link.execute("BEGIN")
            link.execute("SELECT count(*) FROM sqlite_master").fetchall()
            yield link
    except sqlite3.Error as fault:
        raise Fault(f"{path} can't be read now: {fault}") from fault


# ==== The desk's folder in a backup: one file next to the office's, `office.db.desk.tar`, with its sum in the note on
# the backup. A backup of an earlier version has none.
#
# The office's file is copied first. So the desk's log in the backup has each record that the office in it has.

MOST_BYTES = 1 << 36
"""Bytes of a file in the desk's folder at most."""


def desk_beside(path: Path) -> Path:
    """The path of the desk's folder in a backup: `office.db.desk.tar` for `office.db`."""
    return path.with_name(f"{path.name}.desk.tar")


def write_desk(desk: Path, to: Path) -> bool:
    """Writes a desk's folder to a new file of mode 0600; whether there is one: it has a log. Raises Fault and OSError."""
    seen = seen_in(desk)
    if LOG not in seen:
        return False
    opened = os.open(to, os.O_WRONLY | os.O_CREAT | os.O_EXCL | os.O_CLOEXEC, 0o600)
    with os.fdopen(opened, "wb") as file, tarfile.open(fileobj=file, mode="w", format=tarfile.PAX_FORMAT) as tar:
        for name in seen:
            _add(tar, desk, name)
    return True


def _add(tar: tarfile.TarFile, desk: Path, name: str) -> None:
    """Adds a file as it is at one moment."""
    of_file = tarfile.TarInfo(name)
    of_file.mode, of_file.mtime = 0o600, int(time.time())
    if name.endswith(DATABASE):
        with unchanging(desk / name), (desk / name).open("rb") as file:
            of_file.size = os.fstat(file.fileno()).st_size
            tar.addfile(of_file, file)
        return
    data = lines_in(desk / name) if name in LOGS else (desk / name).read_bytes()
    of_file.size = len(data)
    tar.addfile(of_file, io.BytesIO(data))


def read_desk(tar: Path, to: Path) -> None:
    """Writes the files of a desk's folder in a backup to a folder that is empty. Raises Fault if it contains anything
    else."""
    try:
        with tarfile.open(tar, mode="r:") as files:
            for each in files:
                if not each.isfile() or not is_name(each.name) or each.size > MOST_BYTES:
                    raise Fault(f"{tar} has {each.name!r}, which no desk's folder has")
                source = files.extractfile(each)
                assert source
                path = to / each.name
                path.parent.mkdir(mode=0o700, parents=True, exist_ok=True)
                number = os.open(path, os.O_WRONLY | os.O_CREAT | os.O_EXCL | os.O_CLOEXEC, 0o600)
                with os.fdopen(number, "wb") as file:
                    shutil.copyfileobj(source, file, 1 << 20)
    except tarfile.TarError as fault:
        raise Fault(f"{tar} can't be read: {fault}") from fault
    except OSError as fault:
        raise Fault(because_of(fault)) from fault

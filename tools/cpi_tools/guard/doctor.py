"""`cpi-tools doctor FILE`: why an office can't be opened, in one line, with what to do.

`cpi` says `database failed` for each cause. The causes that need no copy come first here, so that the answer is quick
for a file of any size; then `cpi` judges a private copy, and SQLite's C library names the copy's faults. The file
itself is only read, and never locked.
"""

from __future__ import annotations

import argparse
import contextlib
import os
import pwd
import shutil
import signal
import sqlite3
import stat
import sys
import time
from collections.abc import Generator, Iterator
from pathlib import Path
from shlex import quote
from typing import NamedTuple, Optional

from ..office.access import User, acting_as, holders_of, is_held, may, owner_and_mode, this_user, user_of
from ..office.copying import has_frames, log_beside, private_copy
from ..office.folders import first_line
from ..office.program import LAST_MOMENT, Cpi, CpiFailed, add_program, record
from ..office.stored import SCHEMA, stored_office
from ..text.terminal import Fault, Progress, ToolWords, because_of
from .follow import restoring_beside
from .next_open import MIB, NextOpen, announce_opening, free_memory, in_words, next_open, other_log_of
from .promote import HERE

HALF = 50
"""If the next open takes so many percent of its limit, there is a warning, as in the probe."""

LEAST_FREE = 1 << 20
"""With less room on its disk than this an office can't be written for long."""

MAGIC = b"SQLite format 3\0"
"""The first bytes of each file of SQLite."""

OTHERS = (
    (b"\x1f\x8b", "a gzip file"),
    (b"\xfd7zXZ", "an xz file"),
    (b"PK\x03\x04", "a zip file"),
)
"""The kinds of other files, by their first bytes."""

RESTORE = "Restore the last good backup: `cpi-tools restore` puts the file and its log aside"
DOUBT = "if a backup was put there, the log is that of the file before, and what it has comes into the backup"
OTHER_FILE = "Name the office's file, or restore it from a backup"


class Cause(NamedTuple):
    """Why a file can't be opened, and what to do."""

    because: str
    do: str


def cause_of(path: Path, user: User, cpi: Cpi, progress: Optional[Progress] = None) -> Optional[Cause]:
    """The first cause why a user can't open a file as an office; None if it can be opened. Raises Fault if it can't be
    found out."""
    try:
        with contextlib.closing(_causes(path, user, cpi, progress)) as found:
            return next(found, None)
    except OSError as fault:
        raise Fault(because_of(fault)) from fault


def _causes(path: Path, user: User, cpi: Cpi, progress: Optional[Progress]) -> Generator[Cause, None, None]:
    """The causes, the cheap ones first. Each is searched for only if there is none before it."""
    now = progress.now if progress else lambda _: None
    yield from of_restore(path)
    yield from of_place(path)
    yield from of_access(path.absolute(), user)
    yield from of_holders(path)
    yield from of_disk(path)
    yield from of_beginning(path)
    if path.stat().st_size or has_frames(path):
        yield from of_memory(path)
        now("copying it")
        yield from of_log(path)
        with private_copy(path) as copy:
            now("cpi opens a copy")
            yield from of_content(path, copy, cpi)


# ---- where it is

KINDS = (
    (stat.S_ISDIR, "it is a folder", "Name the file in it"),
    (stat.S_ISFIFO, "it is a pipe and no file", "Name the office's file"),
    (stat.S_ISSOCK, "it is a socket and no file", "Name the office's file"),
    (stat.S_ISBLK, "it is a device and no file", "Name the office's file"),
    (stat.S_ISCHR, "it is a device and no file", "Name the office's file"),
)


def of_place(path: Path) -> Iterator[Cause]:
    """The cause, if the file doesn't exist."""
    try:
        mode = path.stat().st_mode
    except FileNotFoundError:
        yield _missing(path)
    except NotADirectoryError:
        yield Cause(
            f"{_first_that_is_no_folder(path)}, which its name takes for a folder, is a file", "Correct the name"
        )
    except PermissionError:
        # (told by what the user may do)
        pass
    else:
        yield from (Cause(because, do) for is_kind, because, do in KINDS if is_kind(mode))
        for each in (path, log_beside(path)):
            if each.exists() and (names := each.stat().st_nlink) > 1:
                yield Cause(
                    f"{each} has {names} names (hard links), and cpi opens no such file",
                    f"Remove the others (`find -samefile {quote(str(each))}`), or copy it to a name of its own",
                )


def _missing(path: Path) -> Cause:
    if path.is_symlink():
        return Cause(f"it is a link to {os.readlink(path)}, which isn't there", "Correct the link")
    if not path.parent.exists():
        folder = next(each for each in reversed(path.absolute().parents) if not each.exists())
        return Cause(f"there is no folder {folder}", "Make the folder, or mend the name")
    if has_frames(path):
        return Cause(
            f"there is no such file, but its log {log_beside(path).name} is there, with something in it: cpi makes no"
            " other file, since the log would be lost",
            "Find out where the file went, or put the log aside to begin an empty office",
        )
    return Cause(
        "there is no such file, and cpi would make an empty office of that name", "Check the name before you start cpi"
    )


def _first_that_is_no_folder(path: Path) -> Path:
    return next(each for each in reversed(path.absolute().parents) if each.exists() and not each.is_dir())


def of_restore(path: Path) -> Iterator[Cause]:
    """Whether a restore was cut off."""
    if os.path.lexists(mark := restoring_beside(path)):
        yield Cause(first_line(mark, "") or "a restore isn't done", "Run cpi-tools restore again")


# ---- who may open it


def of_access(path: Path, user: User) -> Iterator[Cause]:
    """The missing rights of a user that an open needs: to enter the folders, read and write file and log, or make the
    log."""
    folders = [*reversed(path.parents), *reversed(path.resolve().parents)]
    with acting_as(user):
        denied = [each for each in folders if not may(each, os.X_OK)]
    if denied:
        yield Cause(*_explain_denial(denied[0], "enter", user))
        return
    if os.statvfs(path).f_flag & os.ST_RDONLY:
        yield Cause("its disk is mounted read-only", "Mount it for writing (`findmnt -T` shows the mount)")
        return
    log = log_beside(path)
    asked = [(path, os.R_OK, "read"), (path, os.W_OK, "write")]
    if log.exists():
        asked += [(log, os.R_OK, "read"), (log, os.W_OK, "write")]
    else:
        asked += [(log.parent, os.W_OK, "make the log in")]
    with acting_as(user):
        found = [(each, what) for each, mode, what in asked if not may(each, mode)]
    yield from (Cause(*_explain_denial(each, what, user)) for each, what in found[:1])


NEEDS = {"read": 0o400, "write": 0o200, "make the log in": 0o200, "enter": 0o100}
"""The bits of the owner's part of a mode that let the owner act."""


def _explain_denial(path: Path, what: str, user: User) -> tuple[str, str]:
    """A user's missing right, the reason, and the remedy."""
    owner, mode = owner_and_mode(path)
    folder, _ = owner_and_mode(path.parent)
    word = quote(str(path))
    because = f"{user.name} may not {what} {path}, which belongs to {owner.name} and has mode {mode}"
    if user.number == 0 or owner.number == user.number and int(mode, 8) & NEEDS[what]:
        return because, f"Its mode isn't what forbids it: look at `lsattr -d {word}`, and for a security module"
    if owner.number == user.number:
        return because, f"Let its owner do it: `chmod u+rwX {word}`"
    if folder.number == user.number:
        return (
            f"{because}, while its folder belongs to {folder.name}",
            f"Give it to {user.name}: `chown {user.name}: {word}`",
        )
    return because, f"Act as {owner.name} (`runuser -u {owner.name} -- ..`), or give it to {user.name} by `chown`"


def opener_of(path: Path, named: Optional[str]) -> User:
    """The user that is to open a file: the named one, or the one that runs this program. For root, who may open
    everything, it is the owner of the folder, as of the folder of a service. Raises Fault if the user doesn't exist, or
    if this one can't take that user's rights."""
    if named is None:
        folder = path.absolute().parent
        return user_of(folder.stat().st_uid) if os.geteuid() == 0 and folder.is_dir() else this_user()
    try:
        opener = pwd.getpwnam(named)
    except KeyError as fault:
        raise Fault(f"there is no user {named}") from fault
    if os.geteuid() not in (0, opener.pw_uid):
        raise Fault(f"only root can see what {named} may do")
    return user_of(opener.pw_uid)


# ---- who holds it, and whether there is room


def of_holders(path: Path) -> Iterator[Cause]:
    """The cause, if a program holds the file."""
    if not is_held(path):
        return
    held = [*holders_of(path)]
    if held:
        of_unit = f" of {held[0].unit}" if held[0].unit else ""
        others = f" and {len(held) - 1} more" if held[1:] else ""
        yield Cause(
            f"{held[0].name}, process {held[0].process}{of_unit}, holds it{others}",
            "Leave it to that program, ask it over HTTP, or stop it first",
        )
    elif os.geteuid() == 0:
        yield Cause("a process that isn't seen from here holds it", "Look for it in the containers of this machine")
    else:
        yield Cause(
            f"a process of another user holds it, and {this_user().name} can't see which", "Ask again as root, who can"
        )


def of_disk(path: Path) -> Iterator[Cause]:
    """Whether there is room on its disk."""
    free = shutil.disk_usage(path.parent).free
    if free < LEAST_FREE:
        yield Cause(
            f"its disk is full: {free:,} bytes are left on it", "Make room there, and leave the log as it is (-wal)"
        )


# ---- whether there is memory

UNIT = "cpi.service"
"""The unit of the package, whose office is at `HERE`."""

MORE = f"Raise MemoryMax by `systemctl edit {UNIT}`, or move the office to a machine with more memory"


def opening_of(path: Path) -> Optional[NextOpen]:
    """The memory that the next open of a file takes, next to the limits of its unit and of this machine; None if it
    can't be known."""
    is_of_unit = path.resolve() == HERE and shutil.which("systemctl")
    try:
        return next_open(path, UNIT if is_of_unit else None)
    except Fault:
        # (what is wrong with the file is found by others)
        return None


def of_memory(path: Path) -> Iterator[Cause]:
    """Whether an open takes more memory than it may have."""
    if (found := opening_of(path)) and found.memory_percent >= 100:
        yield Cause(f"an open {in_words(found)}", MORE)


def _of_free_memory(path: Path) -> Iterator[Cause]:
    """Whether a file in which SQLite finds no fault couldn't be opened because memory ran out."""
    free = free_memory()
    if (found := opening_of(path)) and 3 * found.rows.memory > 2 * free:
        need, left = found.rows.memory // MIB, free // MIB
        yield Cause(
            f"an open takes some {need:,} MiB of memory, and {left:,} MiB are free here",
            "End other programs, or open it on a machine with more memory",
        )


# ---- what it is


def of_beginning(path: Path) -> Iterator[Cause]:
    """Whether a file begins as SQLite's files do. An empty one gets the tables of an office from cpi."""
    with path.open("rb") as file:
        begin = file.read(4096)
    if not begin or begin.startswith(MAGIC):
        return
    known = next((name for mark, name in OTHERS if begin.startswith(mark)), None)
    what = known or ("a text file" if _is_text(begin) else "a file of another program")
    yield Cause(f"it isn't an office but {what}", OTHER_FILE)


def _is_text(begin: bytes) -> bool:
    """Whether the first bytes of a file are a text, whose last letter may be cut off."""
    text = begin.decode("utf-8", errors="replace")
    return all(each.isprintable() or each in "\t\r\n" for each in text[:-1]) and text.count("\ufffd", 0, -1) == 0


def of_log(path: Path) -> Iterator[Cause]:
    """Whether its log surely belongs to another file."""
    if (other := other_log_of(path)) and other.is_sure:
        log = log_beside(path)
        yield Cause(
            f"its log {log.name} is that of another file: {other.because}",
            f"By itself the file is whole. Keep both: if it was put there, as from a backup, `cpi-tools restore` puts the"
            f" log aside; by hand: `mv {quote(str(log))} {quote(str(log))}.other`",
        )


def of_content(path: Path, copy: Path, cpi: Cpi) -> Iterator[Cause]:
    """The messages of cpi and SQLite about a copy. Raises CpiFailed if it isn't the file that cpi failed at."""
    try:
        replies = cpi.open(copy, path, [record(LAST_MOMENT, "public", asked) for asked in ("tables", "items")])
    except CpiFailed as fault:
        text = str(fault)
        if fault.status == -signal.SIGKILL:
            yield from _of_free_memory(path)
        if fault.status != 1 or not any(f"cpi: {line}" in text for line in ("unknown schema", "database failed")):
            raise
        yield from _of_refused(path, copy, cpi)
    else:
        if {"refused": 90} in replies:
            yield Cause("cpi opens it, but can't read its survey: another program changed it, or a disk did", RESTORE)


def _of_refused(path: Path, copy: Path, cpi: Cpi) -> Iterator[Cause]:
    """Why cpi refused to open a copy."""
    # (as it ended, cpi put the log of the copy into it)
    if has_frames(path) and _opens_without_log(path, cpi):
        yield Cause(
            f"its log {log_beside(path).name} is damaged, or is that of another file: without it cpi opens the file",
            "Keep both: `cpi-tools restore` puts them aside, and restores the last good backup",
        )
    yield from _of_tables(copy)
    yield from _of_free_memory(path)
    yield Cause("it has tables or rows that no office has: another program changed it, or a disk did", RESTORE)


def _opens_without_log(path: Path, cpi: Cpi) -> bool:
    """Whether cpi opens another copy of a file if it has no log."""
    with private_copy(path) as copy:
        log_beside(copy).unlink()
        try:
            cpi.open(copy, path)
        except CpiFailed:
            return False
    return True


def _of_tables(copy: Path) -> Iterator[Cause]:
    """SQLite's message about a copy that cpi refused."""
    try:
        with stored_office(copy) as office:
            tables = {name for (name,) in office.ask("SELECT name FROM sqlite_master WHERE type = 'table'")}
            if "version" not in tables:
                others = ", ".join(sorted(tables)[:3])
                yield Cause(f"it is a file of SQLite and no office: it has the tables {others}", OTHER_FILE)
                return
            versions = [number for (number,) in office.ask("SELECT number FROM version")]
            faults = [*office.find_faults()]
    except sqlite3.OperationalError as fault:
        yield Cause(f"it is a file of SQLite and no office: {fault}", OTHER_FILE)
        return
    except sqlite3.Error as fault:
        yield Cause(f"it is damaged: {fault}", RESTORE)
        return
    if faults:
        yield Cause(f"it is damaged: {faults[0]}", RESTORE)
    elif not any(number in range(1, SCHEMA + 1) for number in versions):
        text = ", ".join(map(str, versions)) or "none"
        yield Cause(
            f"its tables are of schema {text}, and this cpi opens schema {SCHEMA} or an earlier one",
            "Open it with the version of cpi that wrote it",
        )


# ---- words

DESCRIPTION = """\
Says in one line why cpi can't open FILE as an office, and what to do. Another program may hold
FILE; the user may lack permission; FILE may not exist, not be an office, be damaged, or have
another schema; its disk may be full or read-only. The tool first checks the causes that need no
copy of FILE. Then cpi opens a private copy of FILE and its log, in the folder that TMPDIR names,
and SQLite checks it. FILE itself is only read: it is neither written nor locked.

The user is the one who runs this tool. If root runs it, who may open every file, the user is the
owner of FILE's folder instead: so the tool finds a file that root created in the folder of a
service. Without root, the tool can't see whether another user's process holds FILE, and the line
says so.

The memory and time needed to open FILE grow with the number of its rows. If opening FILE needs
more memory than cpi.service (for /var/lib/cpi/office.db) or this machine allows, the tool names
that as the cause; if it needs at least half of that, the tool warns.

If the log next to FILE belongs to another file, cpi would apply the log to FILE when it opens FILE.
The tool recognizes such a log by the contents of both: FILE alone is whole, but with the log it
is damaged, another office, or an earlier one. With --log, the tool checks only this, as cpi-serve
does before each start with a log. If both fit together, but FILE is newer than the log, the tool
warns.

With --opening, the tool only writes the time at which an open that begins now is expected to end,
as cpi-serve does before each start. The front shows that time to phones and pages until the office
listens. If the open takes less than five seconds, the tool writes nothing.
"""

EPILOG = """\
example: cpi-tools doctor office.db

exit status: 0 if nothing is wrong, and cpi opens FILE; 1 if something is wrong, or if a line on
standard error says that the tool can't tell; 2 if the arguments are refused
"""


def add_words(tools: argparse._SubParsersAction[ToolWords]) -> None:
    """The tool `doctor`."""
    words = tools.add_parser(
        "doctor",
        help="Say why an office can't be opened, and what to do",
        description=DESCRIPTION,
        epilog=EPILOG,
    )
    words.add_argument("file", type=Path, metavar="FILE", help="the office's file, which is only read")
    words.add_argument("--user", metavar="NAME", help="the user who needs to open it")
    words.add_argument("--log", action="store_true", help="only check whether the log next to FILE belongs to it")
    words.add_argument(
        "--opening", type=Path, metavar="JSON", help="only write when an open that begins now is expected to end"
    )
    add_program(words)
    words.set_defaults(run=run, tool="doctor", words=words)


def _looked_at_log(path: Path) -> int:
    """Checks only whether the log belongs to another file; the exit status."""
    try:
        causes = [*of_log(path)]
        other = other_log_of(path)
    except OSError as fault:
        raise Fault(because_of(fault)) from fault
    for cause in causes:
        print(f"{path}: {cause.because}. {cause.do}.")
    if other and not other.is_sure:
        print(f"{path}: {other.because}: {DOUBT}")
    return 1 if causes else 0


def run(chosen: argparse.Namespace) -> int:
    """Runs the tool by its words; its exit status."""
    path: Path = chosen.file
    if chosen.log:
        return _looked_at_log(path)
    if chosen.opening:
        announce_opening(path, chosen.opening, time.time())
        return 0
    cpi = Cpi(chosen.program)
    with Progress("cpi-tools doctor") as progress:
        cause = cause_of(path, opener_of(path, chosen.user), cpi, progress)
    if cause:
        print(f"{path}: {cause.because}. {cause.do}.")
        return 1
    if (other := other_log_of(path)) and not other.is_sure:
        print(f"cpi-tools doctor: {path}: warning: {other.because}: {DOUBT}", file=sys.stderr)
    if (taken := opening_of(path)) and max(taken.memory_percent, taken.seconds_percent) >= HALF:
        print(f"cpi-tools doctor: {path}: warning: its next open {in_words(taken)}", file=sys.stderr)
    is_empty = not path.stat().st_size and not has_frames(path)
    print(f"{path}: nothing is wrong" + (", but it is empty: cpi makes a new office of it" if is_empty else ""))
    return 0

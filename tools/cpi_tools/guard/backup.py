"""`cpi-tools backup FILE DEST`: one file that `cpi` has opened and put the log into, with a note of its SHA-256 next to
it.

DEST and its note are written under other names and renamed, so each is whole or isn't there.
"""

from __future__ import annotations

import argparse
import contextlib
import hashlib
import os
import re
import sys
import time
from pathlib import Path
from typing import NamedTuple, Optional

from ..office.copying import EMPTIED_BYTES, PATIENCE, has_frames, log_beside, right_copy
from ..office.program import LAST_MOMENT, Cpi, CpiFailed, add_program, record
from ..office.folders import new_room
from ..text.terminal import Fault, Progress, ToolWords, a_file, at_least, because_of, time_text, write_count
from ..text.text_files import rename_to_new
from .copies.desk_files import LOG, desk_beside, seen_in, write_desk


LF = b"\n"

NUMBER_OF_LINE = re.compile(rb'"number":([0-9]{1,18}),')
"""The number that a line of the desk's log has."""


class BackupFailed(Fault):
    """No backup was made, or a note can't be read; one line."""


class Note(NamedTuple):
    """The note next to a backup: the office's file, the moment at which copying began (seconds since 1970 UTC), how
    many tables the program listed, the backup's size in bytes, its SHA-256 in hexadecimal, and the SHA-256 of the
    desk's folder next to it, empty if there is none; and the last line of the desk's log, as `last_line_of` gives it,
    if the backup was asked to note that."""

    office: str
    copied: int
    tables: int
    size: int
    sha256: str
    desk: str = ""
    desk_log: str = ""


# ---- the note


def note_beside(path: Path) -> Path:
    """The path of the note on a backup: `office.db.sha256` for `office.db`."""
    return path.with_name(path.name + ".sha256")


def note_text(note: Note, name: str) -> str:
    """A note that `sha256sum --check` can read; its other lines are comments there."""
    fields = f"# office: {note.office}\n# copied: {note.copied}\n# tables: {note.tables}\n# bytes: {note.size}\n"
    fields += f"# desk: {note.desk}\n" if note.desk else ""
    fields += f"# desk log: {note.desk_log}\n" if note.desk_log else ""
    return f"{fields}{note.sha256}  {name}\n"


def read_note(path: Path) -> Optional[Note]:
    """The note next to a backup, None if there is none. Raises BackupFailed if it isn't a note."""
    beside = note_beside(path)
    try:
        text = beside.read_text(encoding="utf-8", errors="replace")
    except FileNotFoundError:
        return None
    except OSError as fault:
        raise BackupFailed(because_of(fault)) from fault
    fields = dict(re.findall(r"^# (office|copied|tables|bytes|desk|desk log): (.*)$", text, re.M))
    sums = re.findall(r"^([0-9a-f]{64})  ", text, re.M)
    numbers = [fields.get(name, "") for name in ("copied", "tables", "bytes")]
    if len(sums) != 1 or "office" not in fields or not all(re.fullmatch("[0-9]{1,18}", each) for each in numbers):
        raise BackupFailed(f"{beside} isn't a note that cpi-tools wrote")
    copied, tables, size = map(int, numbers)
    return Note(fields["office"], copied, tables, size, sums[0], fields.get("desk", ""), fields.get("desk log", ""))


def last_line_of(path: Path) -> str:
    """The number and the SHA-256 of the last line of the desk's log, `line 17, SHA-256 ..`, or `no line`: a line that a
    crash cut off has no number. Raises BackupFailed if the file can't be read."""
    try:
        lines = path.read_bytes().split(b"\n")[:-1]
    except OSError as fault:
        raise BackupFailed(because_of(fault)) from fault
    for line in reversed(lines):
        if numbers := NUMBER_OF_LINE.findall(line):
            return f"line {int(numbers[0])}, SHA-256 {hashlib.sha256(line + LF).hexdigest()}"
    return "no line"


def hash_of(path: Path) -> str:
    """SHA-256 of a file, in hexadecimal."""
    found = hashlib.sha256()
    with path.open("rb", buffering=0) as file:
        while block := file.read(1 << 20):
            found.update(block)
    return found.hexdigest()


# ---- the backup


def settle(cpi: Cpi, copy: Path, of: Path) -> int:
    """Lets the program open a copy of the file `of` and end, so that the log is in it, and removes the log; how many
    tables it has.

    Raises CpiFailed if the program finds no office in it.
    """
    replies = cpi.open(copy, of, [record(LAST_MOMENT, "public", "tables")])
    if len(replies) != 1 or "tables" not in replies[0]:
        raise CpiFailed(f"{cpi.path} doesn't list the tables of {of}")
    remove_log(copy)
    return len(replies[0]["tables"])


def remove_log(copy: Path) -> None:
    """Removes the log of a copy that the program has closed. Raises CpiFailed if a part of the log is left in it."""
    if has_frames(copy):
        raise CpiFailed("cpi ended, and its log isn't in the file")
    log_beside(copy).unlink(missing_ok=True)


def back_up(
    cpi: Cpi,
    path: Path,
    to: Path,
    is_replacing: bool = False,
    patience: float = PATIENCE,
    pause: Optional[int] = None,
    progress: Optional[Progress] = None,
    desk: Optional[Path] = None,
    desk_log: Optional[Path] = None,
) -> Note:
    """Makes the backup `to` of an office's file, and a note next to it, with the last line of `desk_log` if there is
    one; the note. `desk` is the folder of the desk's pages, which the backup includes.

    `is_replacing` lets it replace an existing file. `patience` (seconds) and `pause` (a process) are arguments of
    `right_copy`. Raises BackupFailed, CopyFailed or CpiFailed, and leaves nothing, if it wasn't made.
    """
    now = progress.now if progress else lambda _: None
    try:
        _look_at(path, to, is_replacing)
        to.parent.mkdir(mode=0o700, parents=True, exist_ok=True)
        with new_room(".cpi-backup-", to.parent) as room:
            now(f"copying {path}")
            begun = int(time.time())
            copy = right_copy(path, room, patience, pause)
            archive = room / "desk"
            has_desk = desk is not None and _has_desk(desk, archive)
            now("cpi opens the copy")
            tables = settle(cpi, copy, path)
            now("writing it to the disk")
            line = last_line_of(desk_log) if desk_log else ""
            of_desk = hash_of(archive) if has_desk else ""
            note = Note(path.name, begun, tables, copy.stat().st_size, hash_of(copy), of_desk, line)
            written = room / "note"
            written.write_text(note_text(note, to.name), encoding="utf-8")
            written.chmod(0o600)
            _put(copy, written, to, is_replacing, archive if has_desk else None)
    except OSError as fault:
        raise BackupFailed(because_of(fault)) from fault
    return note


def _has_desk(desk: Path, to: Path) -> bool:
    """Whether the desk's folder was written to a file. If it can't be read, a line says so: the office comes first."""
    try:
        return write_desk(desk, to)
    except (Fault, OSError) as fault:
        because = because_of(fault) if isinstance(fault, OSError) else fault
        print(f"cpi-tools backup: the desk's folder isn't in it: {because}", file=sys.stderr)
        return False


def log_of(to: Path) -> Path:
    """The log that would be put into a backup in its place: by its name, whatever a link there leads to now."""
    return to.with_name(f"{to.name}-wal")


def _look_at(path: Path, to: Path, is_replacing: bool) -> None:
    """Reports before any work what prevents a backup."""
    path.stat()
    if to.is_dir():
        raise BackupFailed(f"{to} is a folder: name the file")
    if to.exists() and not to.is_file():
        raise BackupFailed(f"{to} is no file, so nothing takes its place")
    if to.exists() and to.samefile(path):
        raise BackupFailed(f"{to} is the office itself")
    if log_beside(path) in (to.resolve(), note_beside(to).resolve()):
        raise BackupFailed(f"{to} is the office's log")
    for each in () if is_replacing else (to, note_beside(to), desk_beside(to)):
        if os.path.lexists(each):
            raise BackupFailed(f"{each} is there already (--replace puts the backup in its place)")
    if to.exists() and not note_beside(to).exists():
        raise BackupFailed(f"{to} has no note, so it isn't known to be a backup, and nothing takes its place")
    _look_at_log(to)


def _look_at_log(to: Path) -> None:
    """Reports a log with data at the place of a backup: it would be put into the backup when that is opened, and
    contains what somebody did to an office there."""
    log = log_of(to)
    if os.path.lexists(log) and log.lstat().st_size > EMPTIED_BYTES:
        raise BackupFailed(f"{log} is there, and would be put into the backup: look whose it is, or name another file")


def _put(copy: Path, written: Path, to: Path, is_replacing: bool, archive: Optional[Path]) -> None:
    """Puts a backup, the desk's folder and the note into their place, each on the disk before it has its name.

    If a backup is replaced, the old note is removed first: a backup with the note of another would seem damaged.
    """
    pairs = [(copy, to), *([(archive, desk_beside(to))] if archive else []), (written, note_beside(to))]
    for each, _ in pairs:
        _sync(each)
    _look_at_log(to)
    log_of(to).unlink(missing_ok=True)
    if is_replacing:
        note_beside(to).unlink(missing_ok=True)
        desk_beside(to).unlink(missing_ok=True)
        for each, place in pairs:
            each.replace(place)
    else:
        with contextlib.ExitStack() as undone:
            for each, place in pairs:
                _rename_to_new(each, place)
                undone.callback(place.unlink)
            undone.pop_all()
    _sync(to.parent)


def _rename_to_new(path: Path, to: Path) -> None:
    """Renames a file to a free name. Raises BackupFailed if another file took it, even a moment ago."""
    try:
        rename_to_new(path, to)
    except FileExistsError:
        raise BackupFailed(f"{to} is there already (--replace puts the backup in its place)") from None


def _sync(path: Path) -> None:
    """Waits until a file or a folder is on the disk."""
    opened = os.open(path, os.O_RDONLY)
    try:
        os.fsync(opened)
    finally:
        os.close(opened)


# ---- words


DESCRIPTION = """\
Copies an office's file and its log, whether cpi is running or not. cpi opens the copy, which puts
the log into it. The result is one file, DEST, and next to it DEST.sha256 with its checksum, which
`sha256sum --check` can read. Both have mode 0600, because the file contains the collectors' keys.
The tool doesn't lock the office, and writes nothing to it. The backup contains every command that
was answered before the copying began. `cpi-tools drill DEST` checks whether it is whole. With
--desk, the tool also backs up the folder of the desk's pages, in one file, DEST.desk.tar, and adds
its checksum to the note DEST.sha256.

To restore, stop the office, and run `cpi-tools restore DEST`, which puts the old file and its log
aside.
"""

EPILOG = """\
example: cpi-tools backup office.db backup/office.db

exit status: 0 if the backup was made; 1 if it wasn't, and nothing is left (one line says why); 2
if the arguments are refused; 4 if it was made without the desk's folder (one line says why)
"""

WITHOUT_DESK = 4
"""The exit status if a desk's folder couldn't be read, and the office's backup was made without it."""


def add_words(tools: argparse._SubParsersAction[ToolWords]) -> None:
    """The tool `backup`."""
    words = tools.add_parser(
        "backup",
        help="Back up an office's file, whether cpi is running or not",
        description=DESCRIPTION,
        epilog=EPILOG,
    )
    words.add_argument("file", type=Path, metavar="FILE", help="the office's file, which is only read")
    words.add_argument("dest", type=a_file, metavar="DEST", help="the backup: a file that doesn't exist yet")
    words.add_argument("--desk", type=Path, metavar="FOLDER", help="also back up this folder of the desk's pages")
    words.add_argument("--replace", action="store_true", help="replace another backup at DEST, with its note")
    words.add_argument(
        "--desk-log",
        type=Path,
        metavar="LOG",
        help="the log of the desk's pages: the note records the checksum of its last line",
    )
    words.add_argument(
        "--patience",
        type=at_least(0),
        default=PATIENCE,
        metavar="SECONDS",
        help="how long to wait for a period in which the log isn't emptied (%(default)s)",
    )
    words.add_argument(
        "--pause",
        type=at_least(2),
        metavar="PROCESS",
        help="the process ID of cpi, to pause it while a large file that is written all the time is read",
    )
    add_program(words)
    words.set_defaults(run=run, tool="backup", words=words)


def run(chosen: argparse.Namespace) -> int:
    """Runs the tool by its words; its exit status."""
    with Progress("cpi-tools backup") as progress:
        note = back_up(
            Cpi(chosen.program),
            chosen.file,
            chosen.dest,
            is_replacing=chosen.replace,
            patience=chosen.patience,
            pause=chosen.pause,
            progress=progress,
            desk=chosen.desk,
            desk_log=chosen.desk_log,
        )
    print(
        f"{chosen.dest}: {write_count(note.size, 'byte')}, {write_count(note.tables, 'table')},"
        f" copied {time_text(note.copied)}, SHA-256 {note.sha256}"
    )
    if note.desk:
        print(f"{desk_beside(chosen.dest)}: the desk's folder, SHA-256 {note.desk}")
    return WITHOUT_DESK if chosen.desk and not note.desk and LOG in seen_in(chosen.desk) else 0

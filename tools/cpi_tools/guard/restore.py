"""`cpi-tools restore BACKUP`: a backup becomes the office of this machine, and the existing file and log are put aside
together.

All of it is checked before anything changes. While the files change their places, a mark next to the office keeps
`cpi-serve` from starting: a file without its log, or a log next to another file, would be an office of another day.
"""

from __future__ import annotations

import argparse
import contextlib
import fcntl
import os
import subprocess
import sys
import time
from collections.abc import Iterator
from pathlib import Path
from typing import IO, NamedTuple, Optional

from ..office.access import acting_as, holders_of, is_held, user_of
from ..office.copying import BLOCK, has_frames, right_copy
from ..office.folders import first_line, new_room
from ..office.program import Cpi, add_program
from ..text.terminal import Fault, Progress, ToolWords, a_file, because_of, write_count
from ..text.text_files import write_whole
from .backup import WITHOUT_DESK, log_of, note_beside, read_note, settle
from .copies.desk_files import desk_beside, read_desk
from .copies.desk_copies import add_desk, place_desk, refuse_desk
from .copies.mirrors import Known, NotCarried, known_of, sync
from .copies.places import LOCK
from .copies.second_copies import CopyNote, second_text, state_of
from .drill import MOST_TOLD, Drilled, drill, told_line
from .follow import mark_beside, restoring_beside
from .next_open import other_log_of
from .promote import HERE, SYSTEMD, desk_of

ROOM = Path("/var/lib/cpi-follow")
"""The room of the follower of the package."""

UNITS = ("cpi.service", "cpi-follow.service")
"""The units of the package that may not run during a restore."""

START = "systemctl start cpi.service"

BESIDE = ("-wal", "-shm", "-journal")
"""SQLite's files next to a file, by the ends of their names: each belongs to that file."""


class Looked(NamedTuple):
    """The content of a backup: its private copy, one file without a log; its drill's findings; its marks; and a private
    copy of the desk's folder, if the backup contains it."""

    copy: Path
    drilled: Drilled
    known: Known
    desk: Optional[Path]


# ---- what is in the way


def refuse(office: Path, backup: Path) -> None:
    """Raises Fault if the office may not be replaced, or runs."""
    if not office.parent.is_dir():
        raise Fault(f"{office.parent} is no folder: install the package of cpi first, or name another place (--office)")
    if not backup.is_file():
        raise Fault(f"{backup} is no file")
    if office.exists() and backup.samefile(office):
        raise Fault(f"{backup} is the office itself")
    if os.path.lexists(mark := mark_beside(office)):
        text = first_line(mark, "another machine was promoted")
        raise Fault(f"{mark}: {text}: the office is on that machine, and a second one here would take prices too")
    _refuse_units(office)
    if office.exists() and is_held(office):
        held = next(holders_of(office), None)
        who = f"{held.name}, process {held.process}," if held else "a program"
        raise Fault(f"{who} holds {office}: stop the office of this machine first")


def _refuse_units(office: Path) -> None:
    """Raises Fault if a unit of the package runs, and this is its office."""
    if office.absolute() != HERE or not SYSTEMD.is_dir():
        return
    for unit in UNITS:
        words = ["systemctl", "show", "--property=ActiveState", "--value", unit]
        ran = subprocess.run(words, stdin=subprocess.DEVNULL, capture_output=True, text=True, check=False)
        if (state := ran.stdout.strip()) not in ("", "inactive", "failed"):
            raise Fault(f"{unit} is {state}: systemctl stop {' '.join(UNITS)}")


@contextlib.contextmanager
def without_follower(folders: list[Path]) -> Iterator[None]:
    """While it lasts, no follower of this machine writes to these folders. Raises Fault if one does."""
    with contextlib.ExitStack() as locks:
        for folder in folders:
            if (folder / LOCK).exists():
                lock = locks.enter_context((folder / LOCK).open("rb"))
                try:
                    fcntl.flock(lock, fcntl.LOCK_EX | fcntl.LOCK_NB)
                except BlockingIOError as fault:
                    raise Fault(f"a cpi-tools follow runs that keeps {folder}: stop it first") from fault
        yield


def rooms_of(office: Path) -> list[Path]:
    """The rooms in which a follower of an office may be."""
    beside = office.with_name(f"{office.name}.follow")
    return [beside, ROOM] if office.absolute() == HERE else [beside]


# ---- the backup


def looked_at(cpi: Cpi, backup: Path, room: Path) -> Looked:
    """Copies a backup to a room, and checks all of the copy. Raises Fault if it isn't a whole office."""
    if (other := other_log_of(backup)) and other.is_sure:
        raise Fault(f"{log_of(backup)} isn't the log of {backup}, which is whole by itself: {other.because}")
    copy = right_copy(backup, room)
    if read_note(backup):
        note_beside(copy).write_bytes(note_beside(backup).read_bytes())
        desk_beside(copy).symlink_to(desk_beside(backup.absolute()))
    drilled = drill(cpi, copy)
    for text in drilled.faults[1:MOST_TOLD]:
        print(f"cpi-tools restore: {backup}: {text}", file=sys.stderr)
    if drilled.faults:
        raise Fault(f"{backup} isn't a whole office, and nothing was changed: {drilled.faults[0]}")
    if has_frames(copy) or not drilled.note:
        settle(cpi, copy, backup)
    desk = _desk_in(backup, room) if drilled.note and drilled.note.desk else None
    return Looked(copy, drilled, _record_copy(cpi, copy, backup), desk)


def _desk_in(backup: Path, room: Path) -> Path:
    """A private copy of the desk's folder in a backup. Raises Fault."""
    made = room / "desk"
    made.mkdir(mode=0o700)
    read_desk(desk_beside(backup), made)
    return made


def _record_copy(cpi: Cpi, copy: Path, backup: Path) -> Known:
    """The record of a copy without a log. The tables of an earlier version are brought to this one first."""
    for is_settled in (False, True):
        # (the C library reads no file without any log)
        log_of(copy).write_bytes(b"")
        try:
            return known_of(copy, None)
        except NotCarried:
            if is_settled:
                raise
            settle(cpi, copy, backup)
    raise AssertionError


def newer_lines(backup: Path, looked: Looked, folders: list[Path]) -> Iterator[str]:
    """A line for each folder with a note of a second copy, which says whether the backup or that copy is newer."""
    for folder in folders:
        if folder.is_dir() and (last := state_of(folder).last()):
            yield f"{folder}: {_newer(backup, looked, last)}"


def _newer(backup: Path, looked: Looked, last: CopyNote) -> str:
    """Whether the backup or a second copy with this note is newer: by their content, or by their times if that doesn't
    decide."""
    of_copy = f"the second copy of {second_text(last.copied)}"
    if last.marks:
        try:
            known_of(looked.copy, last.record_of_office)
        except NotCarried as fault:
            text = str(fault).replace("it would take back what the copy has", "the backup hasn't what it has")
            return f"{of_copy} is newer than {backup.name}: {text}. cpi-tools promote takes it"
        return f"{backup.name} has all that {of_copy} has"
    copied = looked.drilled.note.copied if looked.drilled.note else None
    if copied is None:
        return f"{of_copy}, and nobody knows when {backup.name} was made, which has no note"
    which = "is newer than" if last.copied > copied else "is older than"
    return f"{of_copy} {which} {backup.name}, which was made {second_text(copied)}"


# ---- its place


def put_in_place(copy: Path, office: Path, because: str) -> Optional[Path]:
    """Puts aside the files at the place of an office, and puts a copy there instead: as the owner of the folder, with
    mode 0600, on the disk; all of it or nothing. The folder of the files that were put aside, None if there were none.
    Raises OSError."""
    restoring, text = restoring_beside(office), f"{because}, begun {second_text(int(time.time()))}, isn't done\n"
    aside: Optional[Path] = None
    folder = office.parent.stat()
    owner = user_of(folder.st_uid)._replace(group=folder.st_gid)
    with copy.open("rb", buffering=0) as source, acting_as(owner):
        with new_room(".cpi-restore-", office.parent) as room:
            _write(source, room / office.name)
            write_whole(restoring, text.encode(), 0o644)
            try:
                sync(office.parent)
                if there := [path for path in _files_of(office) if os.path.lexists(path)]:
                    aside = _new_folder(office)
                    _move(there, aside)
                (room / office.name).rename(office)
            except BaseException:
                _put_back(office, aside)
                raise
            sync(office.parent)
        restoring.unlink()
        sync(office.parent)
    return aside


def _write(source: IO[bytes], to: Path) -> None:
    """Writes a new file of mode 0600, onto the disk."""
    number = os.open(to, os.O_WRONLY | os.O_CREAT | os.O_EXCL | os.O_NOFOLLOW | os.O_CLOEXEC, 0o600)
    with os.fdopen(number, "wb") as file:
        while block := source.read(BLOCK):
            file.write(block)
        file.flush()
        os.fsync(number)


def _move(there: list[Path], aside: Path) -> None:
    """Moves files to a folder, the office's file first: a log without a file isn't an office."""
    for path in there:
        path.rename(aside / path.name)
    for folder in (aside, aside.parent):
        sync(folder)


def _files_of(office: Path) -> list[Path]:
    return [office, *(office.with_name(f"{office.name}{end}") for end in BESIDE)]


def _new_folder(office: Path) -> Path:
    """A new folder next to an office, named by the moment; two of one second have different names."""
    moment = time.strftime("%Y%m%d-%H%M%S", time.gmtime())
    for number in range(1, 1000):
        folder = office.with_name(f"{office.name}.before-{moment}" + (f"-{number}" if number > 1 else ""))
        with contextlib.suppress(FileExistsError):
            folder.mkdir(mode=0o700)
            return folder
    raise Fault(f"{folder} is there already")


def _put_back(office: Path, aside: Optional[Path]) -> None:
    """Moves back the files that were put aside, the log first, and removes the mark."""
    if aside:
        for path in reversed(_files_of(office)):
            if os.path.lexists(aside / path.name):
                (aside / path.name).rename(path)
        aside.rmdir()
    restoring_beside(office).unlink(missing_ok=True)


# ---- words

DESCRIPTION = f"""\
Makes BACKUP the office of this machine. First it checks everything: another machine may have been
promoted, the office or its follower may be running, a log next to BACKUP may belong to another
file, or a second copy may be newer. It drills BACKUP, says what it found, and asks. Then it moves
FILE and its log aside together, to a folder next to FILE that is named after the time, and puts
BACKUP in their place, with the folder's owner and mode 0600: all of this or nothing. If the
machine stops meanwhile, cpi-serve starts no office until the restore has been run again.

If BACKUP includes the desk's folder, the tool restores that folder too, and moves the present one
into a folder inside the restored one. The present one stays if its logs continue those of BACKUP.

BACKUP doesn't contain what was answered after it was made. The files that were moved aside contain
it, if they can be read. A follower doesn't replace a newer copy with an older office: promote that
copy instead, or run cpi-tools follow --anew. The last line shows the command that starts the
office: {START}
"""

EPILOG = """\
example: cpi-tools restore backup/office.db --office office.db

exit status: 0 if BACKUP is now the office; 1 if it isn't, and nothing was changed (one line says
why); 2 if the arguments are refused; 4 if it is now the office, but the desk's folder isn't in its
place (one line says why)
"""


def add_words(tools: argparse._SubParsersAction[ToolWords]) -> None:
    """The tool `restore`."""
    words = tools.add_parser(
        "restore", help="Make a backup the office of this machine", description=DESCRIPTION, epilog=EPILOG
    )
    add = words.add_argument
    add("backup", type=Path, metavar="BACKUP", help="the backup, with its note if there is one")
    add("--office", type=a_file, default=HERE, metavar="FILE", help="the office's file on this machine (%(default)s)")
    text = (
        "the folder where cpi-tools follow keeps a second copy, or prepares its rounds, to find which office is newer"
        " (by default, the known folders)"
    )
    add("--copy", type=Path, metavar="FOLDER", help=text)
    add_desk(words)
    add("--yes", action="store_true", help="don't ask")
    add_program(words)
    words.set_defaults(run=run, tool="restore", words=words)


def run(chosen: argparse.Namespace) -> int:
    """Runs the tool by its words; its exit status."""
    office, backup = chosen.office, chosen.backup
    folders = rooms_of(office) + ([chosen.copy] if chosen.copy else [])
    desk = desk_of(office, chosen.desk)
    cpi = Cpi(chosen.program)
    try:
        refuse(office, backup)
        with without_follower(folders), new_room("cpi-restore-") as room:
            with Progress("cpi-tools restore") as progress:
                progress.now(f"drilling {backup}")
                looked = looked_at(cpi, backup, room)
            _tell(office, backup, looked, folders)
            print(desk_line(looked, desk))
            _ask(office, chosen.yes)
            refuse(office, backup)
            aside = put_in_place(looked.copy, office, f"the restore of {backup}")
            _tell_restored(office, backup, looked.drilled, aside)
            status = _restore_desk(looked, desk, office) if looked.desk and desk else 0
    except OSError as fault:
        raise Fault(because_of(fault)) from fault
    print(f"start it: {START}")
    return status


def _tell_restored(office: Path, backup: Path, found: Drilled, aside: Optional[Path]) -> None:
    """Prints what was done."""
    quotes, tables = write_count(found.quotes, "quote"), write_count(found.tables, "table")
    print(f"{office}: restored from {backup}, with {quotes} and {tables}")
    if aside:
        print(f"{aside}: what was at that place before")


def _restore_desk(looked: Looked, desk: Path, office: Path) -> int:
    """Puts the desk's folder of a backup into its place, once the office is in its own; the exit status."""
    assert looked.desk
    try:
        placed = place_desk(looked.desk, desk, office.parent.stat())
    except (Fault, OSError) as fault:
        because = because_of(fault) if isinstance(fault, OSError) else fault
        print(f"cpi-tools restore: the desk's folder isn't in its place: {because}", file=sys.stderr)
        return WITHOUT_DESK
    if placed.is_placed:
        print(f"{desk}: the desk's folder of the backup")
    if placed.aside:
        print(f"{placed.aside}: the one before")
    return 0


def desk_line(looked: Looked, desk: Optional[Path]) -> str:
    """The plan for the desk's folder. Raises Fault if its pages have it and it is to be replaced."""
    if not looked.desk:
        return "the backup has no desk's folder, so that of this machine stays as it is"
    if not desk:
        return "the backup has a desk's folder too, which goes nowhere: --desk names its place"
    if refuse_desk(looked.desk, desk):
        return f"{desk} stays as it is: the desk's logs there go on from those of the backup"
    return f"{desk} gets the desk's folder of the backup"


def _tell(office: Path, backup: Path, looked: Looked, folders: list[Path]) -> None:
    """The findings before anything changes."""
    for warning in looked.drilled.warnings:
        print(f"cpi-tools restore: {backup}: warning: {warning}", file=sys.stderr)
    print(told_line(backup, looked.drilled))
    for line in newer_lines(backup, looked, folders):
        print(line)
    if os.path.lexists(restoring := restoring_beside(office)):
        print(f"{restoring}: {first_line(restoring, 'a restore')}")


def _ask(office: Path, is_said: bool) -> None:
    """Asks whether the office is to be replaced. Raises Fault if it isn't."""
    if is_said:
        return
    if not sys.stdin.isatty():
        raise Fault("nobody can be asked here, and nothing was changed: --yes says that it is meant")
    print(f"Put {office} and its log aside, and restore this backup? [yes/no] ", end="", flush=True)
    if sys.stdin.readline().strip().lower() not in ("y", "yes"):
        raise Fault("nothing was changed")

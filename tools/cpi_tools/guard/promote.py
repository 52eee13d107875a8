"""`cpi-tools promote DEST`: the copy that `cpi-tools follow` kept at DEST becomes the office of this machine.

The copy is taken to a folder that only this user can change, and compared with its note there. Then it is drilled. Only
then DEST gets the mark that makes the first machine's follower stop that office, and last the copy gets its name.

Root runs it, but both folders belong to others: DEST to the user who carries, and the office's to the one who serves.
So below them each file is opened by its plain name from the folder's descriptor (`folders`), and the office's user
gets the file that was drilled, whatever has its name by then.
"""

from __future__ import annotations

import argparse
import contextlib
import errno
import itertools
import os
import secrets
import shutil
import sqlite3
import stat
import subprocess
import sys
import time
from collections.abc import Mapping
from pathlib import Path
from typing import IO, NamedTuple, Optional

from ..office.access import acting_as, is_held, this_user, user_of
from ..office.copying import log_beside
from ..office.folders import HeldFolder, NotPlain, hold_folder, new_room, refuse_without_room
from ..office.program import Cpi, add_program
from ..office.stored import unchanged_office
from ..text.terminal import Fault, Progress, ToolWords, a_file, because_of, write_count
from .backup import log_of
from .copies.desk_files import HERE as DESK
from .copies.desk_copies import add_desk, promoted_desk, refuse_held
from .copies.generations import KEPT, PASSED, Damaged, drilled_in, repository_of, taken_generation
from .copies.mirrors import sync
from .copies.carriers import drop_changes
from .copies.second_copies import (
    DESK as DESK_COPY,
    NAMES,
    OFFICE,
    CopyNote,
    Promotion,
    fault_of,
    promotion_of,
    second_text,
    state_of,
    write_promotion,
)
from .drill import MOST_TOLD, Drilled, drill
from .follow import mark_beside, restoring_beside

HERE = Path("/var/lib/cpi/office.db")
"""The office's file of the package."""

UNITS = ("cpi.service", "cpi-backup.timer")
"""The units that `--start` starts."""

START = ("systemctl", "enable", "--now", *UNITS)

SYSTEMD = Path("/run/systemd/system")
"""It exists if systemd runs the machine."""


class Wanted(NamedTuple):
    """The source of a promotion: a copy by its folder, None for the newest one; or a generation by its name, the folder
    in which generations are kept, and a room for the desk's folder of one."""

    copy: Optional[str] = None
    generation: Optional[str] = None
    kept: Path = KEPT
    desk: Optional[Path] = None


class Promoted(NamedTuple):
    """A promotion: the folder of the copy or the generation, its note, its drill's findings, and the path of the file
    that was at the place before, if there was one."""

    name: str
    note: CopyNote
    drilled: Drilled
    aside: Optional[Path]


def promote(
    cpi: Cpi,
    dest: Path,
    office: Path,
    wanted: Wanted = Wanted(),
    is_replacing: bool = False,
    is_again: bool = False,
    progress: Optional[Progress] = None,
) -> Promoted:
    """Makes the newest copy at `dest`, another one, or a generation of them the file `office` of this machine.

    `is_replacing` puts existing files aside, and `is_again` says that a copy of `dest` may have been promoted before,
    or that the existing office may have prices that the copy lacks. Raises Fault, and changes nothing, if the copy
    isn't whole.
    """
    now = progress.now if progress else lambda _: None
    try:
        _look_at(office, is_replacing)
        if not is_again and (promotion := promotion_of(dest)):
            raise Fault(f"{dest}: {_told_before(promotion)} (--again promotes a copy once more)")
        with new_room(".cpi-promote-", _place_of_room(office)) as room, hold_folder(office.parent) as home:
            now(f"copying {dest}")
            name, note, of = _take_copy(dest, wanted, room)
            if is_replacing and not is_again:
                _compare(room / OFFICE, office, note)
            now("drilling it")
            drilled = _drill_copy(cpi, room / OFFICE, of)
            if wanted.desk and (room / DESK_COPY).is_dir():
                shutil.move(room / DESK_COPY, wanted.desk / DESK_COPY)
            drop_changes(dest)
            write_promotion(dest, note.copied)
            aside = _put_aside(office, home) if is_replacing else None
            _place(room / OFFICE, office, home)
    except OSError as fault:
        raise Fault(because_of(fault)) from fault
    return Promoted(name, note, drilled, aside)


def _look_at(office: Path, is_replacing: bool) -> None:
    """Reports before any work what is in the way of the office's file."""
    if not office.parent.is_dir():
        raise Fault(f"{office.parent} is no folder: install the package of cpi first, or name another place (--office)")
    if office.exists() and is_held(office):
        raise Fault(f"a program holds {office}: stop the office of this machine first")
    for each in () if is_replacing else (office, log_of(office)):
        if os.path.lexists(each):
            raise Fault(f"{each} is there already (--replace puts it aside, with its log)")


def _place_of_room(office: Path) -> Optional[Path]:
    """The nearest folder that only this user can change, for the copy until it has its place: the office's folder, or
    the one above it, so that it needn't be copied again; else None, for the folder of temporary files."""
    for folder in (office.parent, office.absolute().parent.parent):
        if not folder.is_dir():
            return None
        known = folder.stat()
        if known.st_uid == os.geteuid() and not known.st_mode & (stat.S_IWGRP | stat.S_IWOTH):
            return folder
    return None


# ---- what was promoted before


def _told_before(promotion: Promotion) -> str:
    """The place of an earlier promotion of a copy, and its time."""
    return (
        f"{promotion.machine} was promoted {second_text(promotion.promoted)} with the copy of"
        f" {second_text(promotion.copied)}"
    )


def _compare(copy: Path, office: Path, note: CopyNote) -> None:
    """Raises Fault if the file that is to be put aside has prices that the copy hasn't, so it took them since. An
    office with a mark next to it is a former one, whose prices were sent again elsewhere."""
    if os.path.lexists(mark_beside(office)):
        return
    there = _last_receipts(copy)
    owner = user_of(office.parent.stat().st_uid) if os.geteuid() == 0 else this_user()
    with acting_as(owner):
        here = _last_receipts(office)
    for collector, receipt in sorted(here.items()):
        if receipt > there.get(collector, 0):
            raise Fault(
                f"{office} took prices since the copy of {second_text(note.copied)}: receipt {receipt} of collector"
                f" {collector} isn't in that copy (--again puts it aside nevertheless)"
            )


def _last_receipts(office: Path) -> Mapping[int, int]:
    """The last receipt of each collector. A file that isn't an office has none."""
    with contextlib.suppress(sqlite3.Error, OSError), unchanged_office(office) as opened:
        return opened.last_receipts()
    return {}


# ---- the copy


def _take_copy(dest: Path, wanted: Wanted, room: Path) -> tuple[str, CopyNote, Path]:
    """Takes the wanted copy to a room: its name, its note, and its place. Raises Fault and OSError."""
    if wanted.generation is not None:
        note = _taken_generation(wanted.kept, wanted.generation, room)
        return f"generation {wanted.generation}", note, wanted.kept / wanted.generation
    name, note = _copy_wanted(dest, wanted.copy, room / OFFICE)
    return name, note, dest / name


def _taken_generation(kept: Path, name: str, room: Path) -> CopyNote:
    """Takes a generation to a room; the note of the copy that it was. Of a name that isn't there the others are printed.
    Raises Fault and OSError."""
    repository = repository_of(kept)
    if not repository.is_there():
        raise Fault(f"{repository.path} isn't there, so no generation was kept in {kept}")
    if name not in (there := drilled_in(repository.names())):
        print("".join(f"{each}\n" for each in there), end="")
        listed = "those that passed their drill are listed" if there else "and none has passed its drill"
        raise Fault(f"{kept} has no generation {name}: {listed}")
    try:
        note = taken_generation(repository, f"{PASSED}{name}", room)
    except Damaged as fault:
        raise Fault(f"{kept / name} can't be taken, and nothing was promoted: {fault}") from fault
    for path in (room / OFFICE, log_beside(room / OFFICE)):
        with contextlib.suppress(FileNotFoundError):
            sync(path)
    return note


def _copy_wanted(dest: Path, wanted: Optional[str], to: Path) -> tuple[str, CopyNote]:
    """Copies one of the two copies; its folder and its note. A follower may be writing to the place: it may get to this
    copy while it is read, so it is read again if there is a newer note afterwards."""
    while True:
        state = state_of(dest)
        name = wanted or state.newest()
        if name is None:
            raise Fault(f"{dest} has no copy with a whole note, so nothing was carried there whole")
        if not (note := state.notes.get(name)):
            raise Fault(f"{dest / name} has no note that is whole, so it isn't a whole copy")
        try:
            _copy(dest / name / OFFICE, to, note)
            fault = fault_of(to, note)
        except NotPlain as found:
            fault = because_of(found)
        if not fault:
            return name, note
        if state_of(dest).notes == state.notes:
            raise Fault(f"{dest / name} isn't whole, and nothing was promoted: {fault}{_other(dest, name, to)}")


def _copy(path: Path, to: Path, note: CopyNote) -> None:
    """Copies a file of a copy and its log, with mode 0600 and onto the disk, and at most one byte more of them than its
    note says. A log without a byte is none. Raises Fault if the disk has no room for the sizes in the note."""
    size, log = note.file.size, note.log.size
    for target in (to, log_beside(to)):
        target.unlink(missing_ok=True)
    refuse_without_room(f"{path.parent} has, by its note,", size + log, to.parent)
    with hold_folder(path.parent.parent) as place, place.folder(path.parent.name) as copy:
        for name, target, most in ((path.name, to, size), (f"{path.name}-wal", log_beside(to), log)):
            with contextlib.suppress(FileNotFoundError):
                _copy_file(copy.open_file(name, links=1), target, most + 1, name == path.name)


def _copy_file(number: int, target: Path, most: int, is_needed: bool) -> None:
    """Copies so many bytes of an open file to a new one; of one without a byte only if it is needed."""
    with os.fdopen(number, "rb") as source:
        if is_needed or os.fstat(number).st_size:
            opened = os.open(target, os.O_WRONLY | os.O_CREAT | os.O_EXCL | os.O_CLOEXEC, 0o600)
            with os.fdopen(opened, "wb") as to:
                while most and (block := source.read(min(most, 1 << 20))):
                    to.write(block)
                    most -= len(block)
            sync(target)


def _other(dest: Path, name: str, to: Path) -> str:
    """A line about the other copy, which is copied too, if it is whole."""
    (other,) = [each for each in NAMES if each != name]
    note = state_of(dest).notes.get(other)
    with contextlib.suppress(OSError, Fault):
        if note:
            _copy(dest / other / OFFICE, to, note)
        if note and not fault_of(to, note):
            return f" (--copy {other} takes the one of {second_text(note.copied)}, which is whole)"
    return ""


def _drill_copy(cpi: Cpi, copy: Path, of: Path) -> Drilled:
    """The findings of the copy's drill. Raises Fault if there is a fault."""
    found = drill(cpi, copy)
    for line in found.faults[1:MOST_TOLD]:
        print(f"cpi-tools promote: {of}: {line}", file=sys.stderr)
    if found.faults:
        raise Fault(f"{of} isn't a whole office, and nothing was promoted: {found.faults[0]}")
    return found


# ---- its place


def _put_aside(office: Path, home: HeldFolder) -> Optional[Path]:
    """Moves an existing file, its log and its mark to a folder next to it; which one, or None."""
    there = [path.name for path in (office, log_of(office), mark_beside(office)) if home.has(path.name)]
    if not there:
        return None
    name = _free_name(home, f"{office.name}.before-{int(time.time())}")
    with home.new_folder(name) as aside:
        for each in there:
            home.move(each, aside, each)
        return office.with_name(name)


def _free_name(home: HeldFolder, name: str) -> str:
    """The name, followed by a number if it is taken already: an office was put aside in the same second."""
    names = (f"{name}-{number}" if number else name for number in itertools.count())
    return next(each for each in names if not home.has(each))


def _place(copy: Path, office: Path, home: HeldFolder) -> None:
    """Gives a copy its name, its log first, and the owner of the folder. A mark that another machine was promoted goes,
    since now it is this one, and that of a restore that was cut off."""
    owner = os.fstat(home.number)
    with hold_folder(copy.parent) as room:
        for name, to in ((log_beside(copy).name, log_of(office).name), (copy.name, office.name)):
            if room.has(name):
                _hand_over(room, name, home, to, owner)
    for mark in (mark_beside(office), restoring_beside(office)):
        home.remove(mark.name)
    home.sync()


def _hand_over(room: HeldFolder, name: str, home: HeldFolder, to: str, owner: os.stat_result) -> None:
    """Moves a file out of the room to a place where nobody else can change it, and gives it to an owner: the open file
    itself, so nothing else can be given away in its place."""
    opened = room.open_file(name, os.O_RDWR, links=1)
    with os.fdopen(opened, "r+b") as file:
        _give(opened, owner)
        try:
            room.move(name, home, to)
        except OSError as fault:
            if fault.errno != errno.EXDEV:
                raise
            _write_over(file, home, to, owner)


def _write_over(file: IO[bytes], home: HeldFolder, to: str, owner: os.stat_result) -> None:
    """Copies an open file from another disk, and gives the new one to an owner before it has its name."""
    beside = f".{to}-{secrets.token_hex(8)}"
    try:
        with os.fdopen(home.open_file(beside, os.O_WRONLY | os.O_CREAT | os.O_EXCL), "wb") as written:
            shutil.copyfileobj(file, written, 1 << 20)
            written.flush()
            _give(written.fileno(), owner)
            os.fsync(written.fileno())
            home.move(beside, home, to)
            if not home.has(to, os.fstat(written.fileno())):
                raise NotPlain(home.path / to, "the file that was promoted")
    except OSError:
        with contextlib.suppress(OSError):
            home.remove(beside)
        raise


def _give(opened: int, owner: os.stat_result) -> None:
    """Gives an open file to the owner and the group of a folder, which only root can."""
    if os.geteuid() == 0:
        os.fchown(opened, owner.st_uid, owner.st_gid)


# ---- words

DESCRIPTION = f"""\
Makes the copy that cpi-tools follow kept in the folder DEST the office of this machine. The tool
compares the newest copy with its note, and drills it. Then it marks DEST, so that the follower of
the first machine stops the office there, and puts the copy in its place, FILE. A copy that isn't
whole is refused, and nothing is changed.

First make sure that the first machine can't answer any more: turn it off, or take its address
away. The copy doesn't contain what that machine answered after the copy was made: the last lines
say what has to be sent again, and since when.

The tool refuses to promote a copy of DEST twice, and --replace refuses to put aside an office that
has accepted prices since the copy. The refusal names the time and the machine; --again overrides
it.

If both copies contain the result of an accident, --generation takes an earlier state that
cpi-tools keep kept. A NAME that doesn't exist, such as list, prints the names of all generations.
A generation is drilled and marked like a copy.

The desk's folder takes its place too, from the generation or else from DEST, if there is one. A
folder that is already there is put aside in a folder inside it, or stays if its logs continue
those of the copy.

With --start, the tool starts the office. Otherwise, it prints the command for that:
{' '.join(START)}
"""

EPILOG = """\
example: cpi-tools promote /var/lib/cpi-copy --office office.db

exit status: 0 if FILE is now the office; 1 if it isn't (one line says why); 2 if the arguments are
refused
"""


def add_words(tools: argparse._SubParsersAction[ToolWords]) -> None:
    """The tool `promote`."""
    words = tools.add_parser(
        "promote", help="Make a second copy the office of this machine", description=DESCRIPTION, epilog=EPILOG
    )
    add = words.add_argument
    add("dest", type=Path, metavar="DEST", help="the folder with the two copies")
    add("--office", type=a_file, default=HERE, metavar="FILE", help="the office's file on this machine (%(default)s)")
    which = words.add_mutually_exclusive_group()
    which.add_argument("--copy", choices=NAMES, help="which of the two copies, if the newest isn't whole")
    which.add_argument("--generation", metavar="NAME", help="a generation that cpi-tools keep kept")
    add("--kept", type=Path, default=KEPT, metavar="FOLDER", help="where generations are kept (%(default)s)")
    add("--replace", action="store_true", help="put an existing FILE aside, with its log")
    add("--again", action="store_true", help="promote once more, or put aside an office that has accepted prices since")
    add_desk(words)
    add("--start", action="store_true", help="start the units of the office")
    add_program(words)
    words.set_defaults(run=run, tool="promote", words=words)


def run(chosen: argparse.Namespace) -> int:
    """Runs the tool by its words; its exit status."""
    if chosen.start and not SYSTEMD.is_dir():
        raise Fault("systemd doesn't run this machine, so --start can't start the office: start it by hand")
    try:
        if desk := desk_of(chosen.office, chosen.desk):
            refuse_held(desk)
        # (next to the copy's room, so that the desk's folder gets there by its name, and needs no further room)
        with new_room(".cpi-promote-desk-", _place_of_room(chosen.office)) as room:
            found = _promote_copy(chosen, room)
            _place_desk(chosen, found, room)
    except OSError as fault:
        raise Fault(because_of(fault)) from fault
    if not chosen.start:
        print(f"start it: {' '.join(START)}")
    moment = f"{second_text(found.note.copied)} ({found.note.copied})"
    print(f"what {found.note.machine} answered since {moment} may be missing:")
    print("- the desk sends again what it sent since then (cpi-tools gaps --records)")
    print("- collectors send again what has no receipt here (cpi-tools gaps --receipts)")
    return 0


def _promote_copy(chosen: argparse.Namespace, room: Path) -> Promoted:
    """Promotes the chosen copy, and starts it if asked to; the promotion. The desk's folder of a generation is in a
    room then."""
    with Progress("cpi-tools promote") as progress:
        wanted = Wanted(chosen.copy, chosen.generation, chosen.kept, room)
        how = (wanted, chosen.replace, chosen.again)
        found = promote(Cpi(chosen.program), chosen.dest, chosen.office, *how, progress)
        print(f"{chosen.office}: {_summary(found)}")
        if found.aside:
            print(f"{found.aside}: what was at that place before")
        if chosen.start:
            progress.now("starting the office")
            _start()
    return found


def desk_of(office: Path, named: Optional[Path]) -> Optional[Path]:
    """The desk's folder that belongs to an office's file: the named one, or the package's."""
    return named or (DESK if office.absolute() == HERE else None)


def _place_desk(chosen: argparse.Namespace, found: Promoted, room: Path) -> None:
    """Puts the copy of the desk's folder into its place: a generation's, if one with it was promoted. The office is in
    its own place by then, whatever the result of this."""
    desk = desk_of(chosen.office, chosen.desk)
    if not desk:
        return
    is_kept = (room / DESK_COPY).is_dir()
    if chosen.generation is not None and not is_kept:
        print(f"{found.name} has no desk's folder: that of the copies is taken")
    try:
        for line in promoted_desk(chosen.dest, desk, chosen.office.parent, room if is_kept else None):
            print(line)
    except Fault as fault:
        print(f"cpi-tools promote: the desk's folder isn't in its place: {fault}", file=sys.stderr)


def _summary(found: Promoted) -> str:
    """The line on the copy that was promoted."""
    quotes, tables = write_count(found.drilled.quotes, "quote"), write_count(found.drilled.tables, "table")
    return f"{found.name} of {found.note.machine} is the office now, with {quotes} and {tables}"


def _start() -> None:
    """Starts the units. Raises Fault if that fails."""
    ran = subprocess.run(START, stdin=subprocess.DEVNULL, capture_output=True, text=True, errors="replace", check=False)
    if ran.returncode:
        line = (ran.stderr.strip().splitlines() or ["no reason given"])[-1]
        raise Fault(f"the copy is in its place, but {' '.join(START)} failed: {line}")

"""Copies of the desk's folder: how a follower keeps one at another place, and how one takes the folder's place."""

from __future__ import annotations

import argparse
import contextlib
import fcntl
import itertools
import os
import shutil
import sqlite3
import time
from collections.abc import Iterator, Mapping
from pathlib import Path
from typing import NamedTuple, Optional

from ...office.folders import HeldFolder, NotPlain, hold_folder, new_room, refuse_without_room
from ...office.stored import unchanged_office
from ...text.terminal import Fault, because_of
from .desk_changes import APPEND, PAGES, WHOLE, DeskChanges, Index, Part, index_at, index_of, write_desk_changes
from .desk_files import (
    ASIDE,
    DATABASE,
    HERE,
    LOG,
    LOGS,
    NOTES,
    NO_NOTES,
    Seen,
    Sized,
    goes_on,
    is_later,
    lines_in,
    measure_bytes,
    notes_go_on,
    notes_in,
    seen_in,
    unchanging,
)
from .mirrors import PAGE, Mirror, sum_of
from .places import Place
from .second_copies import DESK, second_text


# ==== the follower's part of the desk's folder: after each round of the office, its changes are carried to the place of
# the copy (`desk_changes`)
#
# The office is copied first. So the log there has each record that the office there has, and it may have later ones.

MIRRORS = "desk-mirrors"
"""The folder of the place with a copy of each SQLite file, which shows the changed pages."""


class DeskFollower:
    """The record of the desk's folder and of its copy at a place."""

    def __init__(self, desk: Path, place: Place):
        self._desk, self._place = desk, place
        self._settled: Optional[tuple[dict[str, Seen], Index]] = None
        self._mirrors = dict[str, Mirror]()
        self._carried = dict[str, Sized]()
        self._entries = dict[str, tuple[Seen, Sized]]()
        self._notes, self._beside, self._is_other = NO_NOTES, NO_NOTES, False

    def carry(self) -> str:
        """Carries the changes; a line to print if the copy's log doesn't go on. Raises Fault: the copy then is the
        earlier one."""
        try:
            there, seen = self._place.desk_index(), seen_in(self._desk)
            if self._settled == (seen, there) or (there is None and LOG not in seen):
                return ""
            if LOG not in seen:
                raise Fault(f"{self._desk / LOG} is gone, so the copy of the desk's folder stays as it is")
            return self._carry(there, seen)
        except OSError as fault:
            raise Fault(because_of(fault)) from fault

    def _carry(self, there: Optional[Index], seen: dict[str, Seen]) -> str:
        """Carries the changes, if a file may have changed."""
        files, data = self._look(seen, there)
        other = self._other(there, files, data) if there else ""
        known = there.files if there and not other else {}
        for name in files.keys() - data.keys() if other else ():
            if not name.endswith(DATABASE):
                data[name] = self._read(name)
                files[name] = measure_bytes(data[name])
        parts = [part for name in files if (part := self._part(name, files[name], known.get(name)))]
        number = there.number + bool(other) if there else 1
        after = Index(number, int(time.time()), self._notes, files)
        if not parts and known.keys() == files.keys():
            self._settled = (seen, there) if there else None
            return ""
        self._carried.clear()
        changes = DeskChanges(there, after, tuple(parts))
        self._place.put_desk(after, lambda to: write_desk_changes(to, changes, data, self._room))
        self._settled = (seen, after)
        self._carried.update({name: files[name] for name in files if name.endswith(DATABASE)})
        return f"{other} doesn't go on from the copy's, which stays: this desk is put next to it" if other else ""

    @property
    def _room(self) -> Path:
        """The folder of the mirrors."""
        return self._place.seen / MIRRORS

    def _read(self, name: str) -> bytes:
        """A file that is written whole, or the whole lines of a log."""
        return lines_in(self._desk / name) if name in LOGS else (self._desk / name).read_bytes()

    def _look(self, seen: Mapping[str, Seen], there: Optional[Index]) -> tuple[dict[str, Sized], dict[str, bytes]]:
        """Size and sum of each file, and the bytes of those that may have to be carried. A file that was read before,
        and is still there, isn't read again."""
        files, data = dict[str, Sized](), dict[str, bytes]()
        known, notes = (there.files, there.notes) if there else ({}, NO_NOTES)
        if NOTES not in seen or notes != self._beside:
            self._entries.pop(NOTES, None)
            self._notes, self._beside, self._is_other = NO_NOTES, notes, NOTES not in seen and notes.came > 0
        for name, own in seen.items():
            before = self._entries.get(name)
            if before and before[0] == own and (name.endswith(DATABASE) or before[1] == known.get(name)):
                files[name] = before[1]
                continue
            if name.endswith(DATABASE):
                files[name] = self._mirror(name)
            else:
                data[name] = self._read(name)
                files[name] = measure_bytes(data[name])
            self._entries[name] = (own, files[name])
        return files, data

    def _mirror(self, name: str) -> Sized:
        """Brings the mirror of an SQLite file to it; its size and sum."""
        mirror = self._mirrors.pop(name, None)
        if mirror is None:
            path = self._room / name
            path.parent.mkdir(mode=0o700, parents=True, exist_ok=True)
            mirror = Mirror(path)
        with unchanging(self._desk / name) as link:
            if name == NOTES:
                self._notes, self._is_other = notes_in(link), not notes_go_on(link, self._beside)
            mirror.take(self._desk / name)
        self._mirrors[name] = mirror
        return Sized(mirror.size, mirror.sum())

    def _part(self, name: str, entry: Sized, before: Optional[Sized]) -> Optional[Part]:
        """The part that brings a file up to date at the place; None if it is up to date."""
        if entry == before:
            return None
        if not name.endswith(DATABASE):
            return Part(name, APPEND if name in LOGS and before else WHOLE)
        mirror = self._mirrors[name]
        last = -(-entry.size // PAGE)
        # (of a copy that isn't known all pages are carried)
        is_known = before is not None and before == self._carried.get(name)
        pages = {page for page in mirror.pages if page < last} if is_known else {*range(last)}
        mirror.pages.clear()
        return Part(name, PAGES, tuple(sorted(pages)))

    def _other(self, there: Index, files: Mapping[str, Sized], data: Mapping[str, bytes]) -> str:
        """The file that doesn't continue the copy's: a log, or the field notes; empty if all do."""
        changed = [name for name in LOGS if files.get(name) != there.files.get(name)]
        others = [name for name in changed if not goes_on(data.get(name, b""), there.files.get(name))]
        return next(iter(others), NOTES if self._is_other else "")


# ==== a copy of the desk's folder takes its place: a second copy's in a promotion, or a backup's in a restore
#
# Root does it, in a folder that belongs to the office's user: each file is made new below the folder's descriptor, and
# the file that was written is given away. The former files are put aside in a folder in it. A folder whose logs
# continue the copy's contains all of the copy, so it stays.


def add_desk(words: argparse.ArgumentParser) -> None:
    """The option of a tool with which the desk's folder takes its place."""
    named = f"where the desk's folder belongs ({HERE} for the package's office)"
    words.add_argument("--desk", type=Path, metavar="FOLDER", help=named)


class Placed(NamedTuple):
    """Whether a copy took the place of a desk's folder, or that folder stays; and the path of the earlier folder."""

    is_placed: bool
    aside: Optional[Path]


# ---- a second copy


def promoted_desk(dest: Path, target: Path, like: Path, kept: Optional[Path] = None) -> Iterator[str]:
    """Puts the desk's folder of a second copy into its place, with the owner of the folder `like`: the folder at
    `dest`, or the one in `kept`, out of a generation. The line that reports it. Raises Fault."""
    try:
        with new_room("cpi-desk-") as room:
            made = room / "files"
            made.mkdir(mode=0o700)
            copied = copied_desk(kept or dest, made)
            if copied is None:
                yield f"{dest / DESK}: there is no copy of the desk's folder whose index can be read"
                return
            index, faults = copied
            yield from (f"the desk's folder: {fault}" for fault in faults)
            yield _say_placed(target, place_desk(made, target, like.stat()), f"that of {second_text(index.copied)}")
            yield from _others(dest, index, kept is not None)
    except OSError as fault:
        raise Fault(because_of(fault)) from fault


def _others(dest: Path, index: Index, is_kept: bool) -> Iterator[str]:
    """The other desk's folders that stay with the copies, after one of them, or of a generation, took its place."""
    if not is_kept and index.number > 1:
        yield f"{dest / DESK}: earlier ones that it doesn't go on from are in folders 1 to {index.number - 1}"
    last: Optional[Index] = None
    with contextlib.suppress(OSError):
        last = index_of(dest) if is_kept else None
    if last and last.files != index.files:
        yield f"{dest / DESK / str(last.number)}: the desk's folder as it was carried last, {second_text(last.copied)}"


def _say_placed(target: Path, placed: Placed, what: str) -> str:
    """The line about a desk's folder that was to take its place."""
    if not placed.is_placed:
        return f"{target}: stays as it is, since its logs go on from those of the copy"
    aside = f"; what was there is in {placed.aside}" if placed.aside else ""
    return f"{target}: the desk's folder is {what}{aside}"


def copied_desk(dest: Path, to: Path) -> Optional[tuple[Index, list[str]]]:
    """Copies the desk's folder of a place to an empty folder; its index, and a line on each file that isn't as that says.
    None if there is none. Raises OSError."""
    faults = list[str]()
    with hold_folder(dest) as place:
        index = index_at(place)
        if index is None:
            return None
        with place.folder(DESK) as desk, desk.folder(str(index.number)) as folder:
            refuse_without_room(f"{folder.path} has", _size_of(folder, index), to)
            for name in index.files:
                try:
                    _copy_from(folder, name, to / name)
                except OSError as fault:
                    faults.append(because_of(fault))
    for name, wanted in index.files.items():
        if (to / name).exists():
            if name in LOGS:
                # (a line that was being received)
                os.truncate(to / name, min(wanted.size, (to / name).stat().st_size))
            if sum_of(to / name) != wanted:
                faults.append(_not_whole(to / name, name))
    return index, faults


def _size_of(folder: HeldFolder, index: Index) -> int:
    """The bytes of the files of a folder that an index names."""
    size = 0
    for name in index.files:
        with contextlib.suppress(OSError), os.fdopen(folder.opened_below(name)) as file:
            size += os.fstat(file.fileno()).st_size
    return size


def _not_whole(path: Path, name: str) -> str:
    """A file that was being received as the first machine was lost; an SQLite file only if it can be read."""
    if name.endswith(DATABASE):
        with contextlib.suppress(sqlite3.Error), unchanged_office(path) as opened:
            if not opened.quick_fault():
                return f"{name} isn't as its index says, and is whole"
        path.rename(path.with_name(f"{path.name}.damaged"))
        return f"{name} is damaged, so it has the name {path.name}.damaged"
    return f"{name} isn't as its index says"


def _copy_from(folder: HeldFolder, name: str, to: Path) -> None:
    """Copies a file of a folder that is open, by plain names. Raises OSError."""
    to.parent.mkdir(mode=0o700, parents=True, exist_ok=True)
    with os.fdopen(folder.opened_below(name, links=1), "rb") as source:
        number = os.open(to, os.O_WRONLY | os.O_CREAT | os.O_EXCL | os.O_CLOEXEC, 0o600)
        with os.fdopen(number, "wb") as file:
            shutil.copyfileobj(source, file, 1 << 20)


# ---- its place


def refuse_desk(made: Path, target: Path) -> bool:
    """Whether the folder `target` stays, since its logs continue those of `made`. Raises Fault if it is to be replaced
    and the desk's pages have it, and OSError."""
    if seen_in(target) and is_later(target, made):
        return True
    refuse_held(target)
    return False


def refuse_held(target: Path) -> None:
    """Raises Fault if the desk's pages have a folder, and OSError."""
    # (a pipe would be waited for, and what isn't a file is put aside)
    with contextlib.suppress(FileNotFoundError, NotPlain), hold_folder(target) as folder, os.fdopen(
        folder.open_file(LOG)
    ) as log:
        try:
            fcntl.flock(log, fcntl.LOCK_EX | fcntl.LOCK_NB)
        except BlockingIOError as fault:
            raise Fault(f"the desk's pages have {target}: systemctl stop cpi-desk.service") from fault


def place_desk(made: Path, target: Path, owner: os.stat_result) -> Placed:
    """Gives the files of a folder that only this user can change the place of a desk's folder, and its owner. Raises
    Fault and OSError."""
    if refuse_desk(made, target):
        return Placed(False, None)
    size = sum(seen.size for seen in seen_in(made).values())
    refuse_without_room("the desk's folder has", size, target if target.is_dir() else target.parent)
    if not target.is_dir():
        target.mkdir(mode=0o700)
        with hold_folder(target) as folder:
            _give(folder.number, owner)
    with hold_folder(target) as home:
        aside = _put_aside(home, owner)
        for name in seen_in(made):
            *above, leaf = name.split("/")
            with contextlib.ExitStack() as opened:
                folder = home
                for each in above:
                    folder = opened.enter_context(_folder(folder, each, owner))
                _write(made / name, folder, leaf, owner)
                folder.sync()
        home.sync()
    return Placed(True, aside)


@contextlib.contextmanager
def _folder(folder: HeldFolder, name: str, owner: os.stat_result) -> Iterator[HeldFolder]:
    """A folder in another one, which is made and given to an owner if it isn't there."""
    if folder.has(name):
        with folder.folder(name) as path:
            yield path
        return
    with folder.new_folder(name) as made:
        _give(made.number, owner)
        yield made


def _put_aside(home: HeldFolder, owner: os.stat_result) -> Optional[Path]:
    """Moves all content of a folder to a new folder in it, except earlier ones; the new folder, or None."""
    there = [name for name in sorted(os.listdir(home.number)) if not name.startswith((ASIDE, "."))]
    if not there:
        return None
    begin = f"{ASIDE}{time.strftime('%Y%m%d-%H%M%S', time.gmtime())}"
    names = (f"{begin}-{number}" if number else begin for number in itertools.count())
    name = next(each for each in names if not home.has(each))
    with home.new_folder(name) as aside:
        _give(aside.number, owner)
        for each in there:
            home.move(each, aside, each)
    return home.path / name


def _write(source: Path, folder: HeldFolder, name: str, owner: os.stat_result) -> None:
    """Writes a new file of mode 0600, onto the disk, and gives it to an owner."""
    number = folder.open_file(name, os.O_WRONLY | os.O_CREAT | os.O_EXCL)
    with os.fdopen(number, "wb") as file, source.open("rb") as own:
        shutil.copyfileobj(own, file, 1 << 20)
        file.flush()
        _give(number, owner)
        os.fsync(number)


def _give(number: int, owner: os.stat_result) -> None:
    """Gives an open file or folder to an owner and a group, which only root can."""
    if os.geteuid() == 0:
        os.fchown(number, owner.st_uid, owner.st_gid)

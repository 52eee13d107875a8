"""The places of second copies: a folder of this machine, or one that a carrier reaches.

A round at a folder writes there itself, and each file is on the disk before its note is. For a place elsewhere, a round
keeps a mirror in a room on this machine, and a carrier transfers it. Either checks its copy before the copy's note says
that it is whole: it isn't damaged, and the office continues the newest copy (`mirrors`).
"""

from __future__ import annotations

import contextlib
import fcntl
import shutil
import time
from collections.abc import Callable, Iterator
from pathlib import Path
from typing import NamedTuple, Optional, Protocol

from ...office.copying import CopyFailed
from ...office.folders import hold_folder
from ...text.terminal import Fault
from ...text.text_files import write_whole
from .carriers import CAME, CARRIED, Carrier, Changes, carrier_of, of_mirror, received_text, write_changes
from .desk_changes import CARRIED_DESK, Index, desk_received_text, index_of, put_in_desk
from .mirrors import Known, MirroredOffice, NotCarried, Taken, known_of, second_of, stamp, sync
from .second_copies import (
    DRILLED,
    MOST_BYTES,
    NAMES,
    NOTE,
    OFFICE,
    RECEIVED,
    REFUSED,
    CopyNote,
    State,
    note_of,
    state_of,
    sums_of,
    write_note,
)

LOCK = "follow.lock"
"""The lock file of the only follower that writes to a folder."""

ASIDE = "aside"
"""The folder with files that aren't carried, next to the copies, as long as rounds are refused."""

COMPARED_EACH = 3600.0
"""Seconds after which a copy elsewhere is compared as a whole, so that a page that its disk lost is carried again."""


class Place(Protocol):
    """A place for a second copy, and the folder of this machine in which a probe sees it."""

    name: str
    seen: Path

    def state(self) -> State:
        """The state of the copies at the place. Raises Fault if it can't be known."""

    def round(self, office: Path, state: State, patience: float, is_anew: bool) -> tuple[CopyNote, Taken]:
        """Brings the older copy up to date; its note. `is_anew` lets it be an office that doesn't go on from the newer
        copy. Raises Fault and OSError, and the newer copy is whole then."""

    def desk_index(self) -> Optional[Index]:
        """The content of the copy of the desk's folder, as it was last seen with the state; None if there is none.
        Raises OSError."""

    def put_desk(self, after: Index, write: Callable[[Path], None]) -> None:
        """Puts changes of the desk's folder into its copy, which has `after` then; `write` writes them to a file. Raises
        Fault and OSError."""


class Folder:
    """A folder of this machine, such as one on another disk."""

    def __init__(self, folder: Path):
        self.name, self.seen, self._folder = str(folder), folder, folder
        self._mirrors = Mirrors()

    def state(self) -> State:
        """What is there."""
        return state_of(self._folder)

    def round(self, office: Path, state: State, patience: float, is_anew: bool) -> tuple[CopyNote, Taken]:
        """The note of the older copy is removed first, and the new one is written last."""
        name, number = state.next()
        folder = self._folder / name
        folder.mkdir(mode=0o700, exist_ok=True)
        if (self._folder / REFUSED).exists() and not is_anew:
            self._look_aside(office, state, patience)
        (folder / NOTE).unlink(missing_ok=True)
        mirror, taken = self._mirrors.take(folder, office, patience)
        try:
            note = note_of(office, number, taken, mirror, _record_mirror(mirror, state, is_anew))
        except NotCarried:
            self._put_back(mirror, folder, state)
            raise
        _write_note(mirror, folder, note)
        self._mirrors.remove(self._folder / ASIDE)
        return note, taken

    def _look_aside(self, office: Path, state: State, patience: float) -> None:
        """After a round that wasn't carried, checks the office next to the copies, which stay as they are. Without room
        for that, the older copy has to do. Raises NotCarried, if it still isn't to be carried, and CopyFailed."""
        aside = self._folder / ASIDE
        try:
            aside.mkdir(mode=0o700, exist_ok=True)
            mirror, _ = self._mirrors.take(aside, office, patience)
            _record_mirror(mirror, state, False)
        except OSError:
            self._mirrors.remove(aside)

    def _put_back(self, mirror: MirroredOffice, folder: Path, state: State) -> None:
        """Brings the older copy, with the files that aren't carried, up to the newest one: so both are whole. If that
        can't be done, it has no note, and the newest one stays."""
        if not (newest := state.newest()):
            return
        with contextlib.suppress(OSError, CopyFailed):
            mirror.taken_and_stamped(self._folder / newest / OFFICE)
            if sums_of(mirror) == (state.notes[newest].file, state.notes[newest].log):
                _write_note(mirror, folder, state.notes[newest])

    def desk_index(self) -> Optional[Index]:
        """The content of the copy of the desk's folder."""
        return index_of(self._folder)

    def put_desk(self, after: Index, write: Callable[[Path], None]) -> None:
        """By the way of a place elsewhere, so the same rules hold."""
        came = self._folder / CAME
        came.mkdir(mode=0o700, exist_ok=True)
        write(came / CARRIED_DESK)
        put_in_desk(self._folder)


class Elsewhere:
    """A place that a carrier reaches, with a room on this machine: the mirror that is carried, and the record of the
    place.

    The first round of each copy compares it with the mirror as a whole. From then on it is known which pages changed
    since its last round, and only these are read and carried, if a program there puts them in.
    """

    def __init__(self, carrier: Carrier, room: Path):
        self.name, self.seen, self._carrier, self._room = carrier.name, room, carrier, room
        self._mirrors, self._lags = Mirrors(), dict[str, Lag]()
        self._mirror: Optional[MirroredOffice] = None
        self._is_unheard = self._is_asked = False

    def state(self) -> State:
        """The content of the place, as it was fetched now."""
        there = self._room / "there"
        there.mkdir(mode=0o700, parents=True, exist_ok=True)
        self._carrier.fetch(there)
        self._show_last_drill(there)
        return state_of(there)

    def _show_last_drill(self, there: Path) -> None:
        """Puts the note on the last drill into the folder in which a probe of this machine sees it. Raises OSError."""
        seen = self.seen / DRILLED
        try:
            with hold_folder(there) as fetched:
                text = fetched.text(DRILLED, MOST_BYTES)
        except FileNotFoundError:
            seen.unlink(missing_ok=True)
            return
        if not seen.exists() or seen.read_text(encoding="utf-8", errors="replace") != text:
            write_whole(seen, text.encode(), 0o600)

    def round(self, office: Path, state: State, patience: float, is_anew: bool) -> tuple[CopyNote, Taken]:
        """The mirror needn't be on the disk: the next round sees the parts that it lacks after a crash."""
        name, number = state.next()
        folder = self._room / "mirror"
        folder.mkdir(mode=0o700, exist_ok=True)
        mirror, taken = self._mirrors.take(folder, office, patience)
        self._note_pages(mirror)
        note = note_of(office, number, taken, mirror, _record_mirror(mirror, state, is_anew))
        # (after a fault the copy isn't known any more)
        lag = self._lags.pop(name, None)
        if lag and lag.note != state.notes.get(name):
            lag = None
        if not (lag and lag.is_recent() and self._is_received() and self._carry_changes(name, lag, note, mirror)):
            # (a copy that isn't known may be what a killed round left, with any time)
            self._carry(name, note, is_whole=not lag or not lag.is_recent())
        self._lags[name] = Lag(note, set(), set(), lag.compared if lag and lag.is_recent() else time.monotonic())
        last = self._room / NAMES[0]
        last.mkdir(mode=0o700, exist_ok=True)
        write_note(last, note)
        return note, taken

    def desk_index(self) -> Optional[Index]:
        """The content of the copy of the desk's folder, as it was fetched last."""
        return index_of(self._room / "there")

    def put_desk(self, after: Index, write: Callable[[Path], None]) -> None:
        """As one file, which a program there puts in."""
        if not self._takes_desk():
            raise Fault(f"{self.name} has no cpi-receive, so the desk's folder isn't carried there")
        changes = self._room / CARRIED_DESK
        write(changes)
        output = self._carrier.carry_changes(changes)
        changes.unlink()
        if desk_received_text(after) not in output.splitlines():
            raise Fault(f"{self.name} doesn't take the desk's folder: bring cpi there to this version")

    def _takes_desk(self) -> bool:
        """Whether cpi-receive exists there. After the first carrying, all this is seen in what was fetched since."""
        there = self._room / "there"
        if not (there / RECEIVED).exists() and not self._is_asked:
            self._is_asked = True
            self._carrier.fetch(there)
        return (there / RECEIVED).exists()

    def _note_pages(self, mirror: MirroredOffice) -> None:
        """Notes for each copy that these pages were written now. Of another mirror nothing is known."""
        if mirror is not self._mirror:
            self._mirror, self._lags = mirror, {}
        for lag in self._lags.values():
            lag.file.update(mirror.file.pages)
            lag.log.update(mirror.log.pages)
        mirror.file.pages.clear()
        mirror.log.pages.clear()

    def _is_received(self) -> bool:
        """Whether a program there puts changed pages into a copy, as far as is known."""
        return not self._is_unheard and (self._room / "there" / RECEIVED).exists()

    def _carry(self, name: str, note: CopyNote, is_whole: bool) -> None:
        """Carries the mirror and its note."""
        folder = self._room / "mirror"
        before = second_of(folder / NOTE)
        write_note(folder, note)
        stamp(folder / NOTE, before)
        self._carrier.carry(folder, name, is_whole)

    def _carry_changes(self, name: str, lag: Lag, note: CopyNote, mirror: MirroredOffice) -> bool:
        """Carries the pages that changed since the last round of a copy; whether it has them now."""
        file, log = mirror.file, mirror.log
        of_file, of_log = of_mirror(file.path, lag.file, file.size), of_mirror(log.path, lag.log, log.size)
        changes = self._room / CARRIED
        write_changes(changes, Changes(name, lag.note, note, of_file, of_log), file.path)
        text = self._carrier.carry_changes(changes)
        changes.unlink()
        # (what was there once can be gone: then the key runs rsync only)
        self._is_unheard = received_text(name, note) not in text.splitlines()
        return not self._is_unheard


class Lag(NamedTuple):
    """The record of a copy elsewhere: its note, the pages of its file and of its log that changed in the mirror since
    then, and when all of it was compared last (by the clock that never jumps)."""

    note: CopyNote
    file: set[int]
    log: set[int]
    compared: float

    def is_recent(self) -> bool:
        """Whether it needn't be compared as a whole."""
        return time.monotonic() - self.compared < COMPARED_EACH


class Mirrors:
    """The mirrors of a follower, by their folders: it knows the sums of their content from round to round."""

    def __init__(self) -> None:
        self._known = dict[Path, MirroredOffice]()

    def take(self, folder: Path, office: Path, patience: float) -> tuple[MirroredOffice, Taken]:
        """The mirror in a folder, brought to an office's file. It is read again after a fault, which may have left a
        block that was written in part. Raises CopyFailed and OSError."""
        mirror = self._known.pop(folder, None) or MirroredOffice(folder, OFFICE)
        taken = mirror.taken_and_stamped(office, patience)
        self._known[folder] = mirror
        return mirror, taken

    def remove(self, folder: Path) -> None:
        """Removes a mirror that isn't needed any more, with its folder."""
        self._known.pop(folder, None)
        shutil.rmtree(folder, ignore_errors=True)


def _write_note(mirror: MirroredOffice, folder: Path, note: CopyNote) -> None:
    """Writes the note of a copy in a folder, once the copy is on the disk. Raises OSError."""
    for each in (mirror.file, mirror.log):
        each.sync()
    write_note(folder, note)
    sync(folder)


def _record_mirror(mirror: MirroredOffice, state: State, is_anew: bool) -> Known:
    """The record of a mirrored office, which has to go on from the newest copy. If that copy has the same bytes, they
    were checked before. Raises NotCarried."""
    last = state.last()
    if last and last.marks and (last.file, last.log) == sums_of(mirror):
        return last.record_of_office
    return known_of(mirror.file.path, last.record_of_office if last else None, is_anew)


def place_of(dest: str, room: Path, ssh: Optional[str]) -> Place:
    """The place of a word of the command line."""
    if carrier := carrier_of(dest, ssh):
        return Elsewhere(carrier, room)
    return Folder(Path(dest))


@contextlib.contextmanager
def kept_for_one(dest: str, room: Path) -> Iterator[None]:
    """Meanwhile no other follower of this machine writes to a place. Raises Fault if one does, and OSError."""
    is_elsewhere = carrier_of(dest) is not None
    folder = room if is_elsewhere else Path(dest)
    if is_elsewhere:
        room.mkdir(mode=0o700, parents=True, exist_ok=True)
    else:
        state_of(folder)
    with (folder / LOCK).open("a", encoding="ascii") as lock:
        try:
            fcntl.flock(lock, fcntl.LOCK_EX | fcntl.LOCK_NB)
        except BlockingIOError as fault:
            raise Fault(f"another cpi-tools follow keeps {dest}") from fault
        yield

"""A second copy of an office at another place: two folders that take turns, with a note in each."""

from __future__ import annotations

import contextlib
import json
import os
import shutil
import socket
import time
from collections.abc import Iterator
from datetime import datetime, timezone
from pathlib import Path
from typing import NamedTuple, Optional

from ...office.copying import log_beside
from ...office.folders import HeldFolder, NotPlain, hold_folder, moment_of, plain_json, whole_number
from ...text.terminal import Fault, because_of, is_line
from ...text.text_files import write_whole
from .mirrors import Identity, Known, Marks, MirroredOffice, Taken, identity_in, marks_in, sum_of


# ==== a second copy of an office at another place: two folders that take turns, a note in each, a mark of a promotion,
# and a note on the kept generations
#
#     DEST/copy-1/office.db, office.db-wal, office.db.json
#     DEST/copy-2/office.db, office.db-wal, office.db.json
#     DEST/promoted.json
#     DEST/drilled.json
#
# Each round brings the older of the two copies up to date, and writes its note last. So whatever stops a round, the
# other copy is whole. A note has the sums of its file and log, so a copy that was cut off is noticed even if an earlier
# note is next to it. The copy that counts is the one whose note has the greatest number of a round.
#
# The two files of a copy are in a state that a crash could leave at its moment, so `cpi` opens them as they are.
#
# An intruder may control the machine that carries to a place. So files there are read only by their plain names, never
# through a link; and the mark is in a folder where that machine's key can't write (`cpi-receive`).

NAMES = ("copy-1", "copy-2")
"""The folders that take turns."""

OFFICE = "office.db"
"""The name of the office's file in a copy."""

LOG = f"{OFFICE}-wal"
"""The name of its log there."""

NOTE = "office.db.json"
"""The note on a copy. By its name it comes after file and log, since rsync carries files in the order of their names."""

MARK = "promoted.json"
"""The mark of a place whose copy was promoted: nothing is carried there any more. `promote` writes it, and a follower's
key only reads it."""

DESK, INDEX = "desk", "index.json"
"""The folder of a place with the copy of the desk's folder, and the file in it that describes the copy's content."""

RECEIVED = "received.lock"
"""A lock at a place on another machine, in which a program puts changed pages into a copy: one carrying at a time holds
it."""

REFUSED = "refused.json"
"""Is there as long as rounds are refused, since the office doesn't go on from its copy."""

DRILLED = "drilled.json"
"""The file that names the generation of the copies that passed its drill last, if somebody keeps them (`generations`).
A follower's key only reads it."""

MOST_BYTES = 1 << 16
"""Bytes of a note that are read."""


class Sum(NamedTuple):
    """The size of a file in bytes, and its sum (`mirrors`)."""

    size: int
    sum: str


class CopyNote(NamedTuple):
    """The note next to a copy: the office's file and its machine; the number of the round; the moment at which copying
    began, in seconds since 1970 UTC; size and sum of file and log; the last new quotes, each with collector, slot,
    month and receipt; the office's identity, and its marks, which earlier versions didn't write."""

    office: str
    machine: str
    round: int
    copied: int
    file: Sum
    log: Sum
    receipts: tuple[tuple[int, int, str, int], ...]
    identity: Optional[Identity] = None
    marks: Optional[Marks] = None

    @property
    def record_of_office(self) -> Known:
        """The record of the office in it."""
        return Known(self.identity, self.marks, self.receipts)


class Promotion(NamedTuple):
    """The promotion of a place's copy: the machine, the time, and the moment of that copy, in seconds since 1970
    UTC."""

    machine: str
    promoted: int
    copied: int


class State(NamedTuple):
    """The record of a place: the note of each copy by its folder, if it can be read, and its promotion."""

    notes: dict[str, CopyNote]
    promotion: Optional[Promotion]

    def of_another(self, office: Path) -> str:
        """The office of the newest copy, if it isn't from an office's file on this machine; else nothing."""
        note = self.last()
        if note and (note.machine, note.office) != (socket.gethostname(), str(office.absolute())):
            return f"{note.office} of {note.machine}"
        return ""

    def newest(self) -> Optional[str]:
        """The folder of the newest copy; None if there is none."""
        by_round = {note.round: name for name, note in self.notes.items()}
        return by_round[max(by_round)] if by_round else None

    def last(self) -> Optional[CopyNote]:
        """The note of the newest copy; None if there is none."""
        newest = self.newest()
        return self.notes[newest] if newest else None

    def next(self) -> tuple[str, int]:
        """The folder of the next round, and its number."""
        last = max((note.round for note in self.notes.values()), default=0)
        without = [name for name in NAMES if name not in self.notes]
        return (without or sorted(NAMES, key=lambda name: self.notes[name].round))[0], last + 1


def second_text(moment: int) -> str:
    """`2026-01-25 09:00:07 UTC` of seconds since 1970."""
    return datetime.fromtimestamp(moment, timezone.utc).strftime("%Y-%m-%d %H:%M:%S UTC")


# ---- what is written at a place


def sums_of(mirrored: MirroredOffice) -> tuple[Sum, Sum]:
    """The sums of a mirror: of its file, and of its log."""
    return Sum(mirrored.file.size, mirrored.file.sum()), Sum(mirrored.log.size, mirrored.log.sum())


def note_of(office: Path, number: int, taken: Taken, mirrored: MirroredOffice, known: Known) -> CopyNote:
    """The note on a round."""
    whose = str(office.absolute()), socket.gethostname(), number, taken.moment
    return CopyNote(*whose, *sums_of(mirrored), known.receipts, known.identity, known.marks)


def note_text(note: CopyNote) -> str:
    """A note as it is written, which `note_in` reads."""
    parts = {"file": note.file, "log": note.log, "identity": note.identity, "marks": note.marks}
    return json.dumps({**note._asdict(), **{name: part and part._asdict() for name, part in parts.items()}})


def write_note(folder: Path, note: CopyNote) -> None:
    """Writes the note next to a copy, whole or not at all. Raises OSError."""
    write_whole(folder / NOTE, f"{note_text(note)}\n".encode(), 0o600)


def write_promotion(folder: Path, copied: int) -> Promotion:
    """Writes that the copy of a place, of the moment `copied`, was promoted on this machine now. Raises OSError."""
    promotion = Promotion(socket.gethostname(), int(time.time()), copied)
    with hold_folder(folder) as place:
        place.write_whole(MARK, (json.dumps(promotion._asdict()) + "\n").encode(), 0o644)
        place.sync()
    return promotion


def write_refusal(folder: Path, because: str) -> None:
    """Writes that a round was refused now, and why. Raises OSError."""
    fields = {"refused": int(time.time()), "because": because}
    write_whole(folder / REFUSED, (json.dumps(fields) + "\n").encode(), 0o600)


# ---- what is read there


def state_of(folder: Path) -> State:
    """The record of a place that is a folder of this machine. A note that can't be read counts as none: a round was
    stopped while it was written. Raises Fault if the folder, or the mark of a promotion, can't be read."""
    if not folder.is_dir():
        raise Fault(f"{folder} is no folder: make it first, so that nothing is copied to a disk that isn't mounted")
    try:
        with hold_folder(folder) as place:
            return state_in(place)
    except OSError as fault:
        raise Fault(because_of(fault)) from fault


def state_in(place: HeldFolder) -> State:
    """The same of a place that is open. Raises Fault and OSError."""
    notes = {name: note for name in NAMES if (note := _note_in(place, name))}
    return State(notes, _promotion_in(place))


def promotion_of(folder: Path) -> Optional[Promotion]:
    """The promotion of a place. Raises Fault if its mark can't be read, since then nobody knows its content."""
    try:
        with hold_folder(folder) as place:
            return _promotion_in(place)
    except OSError as fault:
        raise Fault(because_of(fault)) from fault


def _promotion_in(place: HeldFolder) -> Optional[Promotion]:
    """The same of a place that is open. Raises Fault and OSError."""
    try:
        fields = plain_json(place.text(MARK, MOST_BYTES))
        return Promotion(str(fields["machine"]), moment_of(fields["promoted"]), moment_of(fields["copied"]))
    except FileNotFoundError:
        return None
    except (ValueError, LookupError, TypeError) as fault:
        raise Fault(f"{place.path / MARK} isn't a mark that cpi-tools wrote") from fault


def refusal_of(folder: Path) -> str:
    """Why the last round was refused; empty if it wasn't. Raises Fault if that can't be read."""
    try:
        with hold_folder(folder) as place:
            return str(plain_json(place.text(REFUSED, MOST_BYTES))["because"])
    except FileNotFoundError:
        return ""
    except OSError as fault:
        raise Fault(because_of(fault)) from fault
    except (ValueError, LookupError, TypeError) as fault:
        raise Fault(f"{folder / REFUSED} isn't a refusal that cpi-tools follow wrote") from fault


def _note_in(place: HeldFolder, name: str) -> Optional[CopyNote]:
    """The note of a copy; None if there is no whole one, or if another file is in its place. Raises OSError if it can't
    be read."""
    try:
        with place.folder(name) as copy:
            return note_in(copy.text(NOTE, MOST_BYTES))
    except (FileNotFoundError, NotPlain):
        return None


def note_in(text: str) -> Optional[CopyNote]:
    """The note of a text; None if it is none that is whole."""
    try:
        fields = plain_json(text)
        file, log = (Sum(whole_number(fields[name]["size"]), str(fields[name]["sum"])) for name in ("file", "log"))
        receipts = tuple(
            (whole_number(row[0]), whole_number(row[1]), str(row[2]), whole_number(row[3]))
            for row in fields["receipts"]
        )
        office, machine = str(fields["office"]), str(fields["machine"])
        if not is_line("".join((office, machine, *(row[2] for row in receipts)))):
            return None
        known = identity_in(fields.get("identity")), marks_in(fields.get("marks"))
        return CopyNote(
            office, machine, whole_number(fields["round"]), moment_of(fields["copied"]), file, log, receipts, *known
        )
    except (ValueError, LookupError, TypeError, AttributeError):
        return None


def fault_of(office: Path, note: CopyNote) -> str:
    """Why the file of a copy and its log don't match a note; empty if they do. Raises OSError."""
    for path, wanted in ((office, note.file), (log_beside(office), note.log)):
        try:
            fault = Sum(*sum_of(path))
        except FileNotFoundError:
            fault = Sum(*EMPTY)
        if fault.size != wanted.size:
            return f"{path.name} has {fault.size:,} bytes, and {wanted.size:,} by its note"
        if fault.sum != wanted.sum:
            return f"{path.name} hasn't the sum of its note"
    return ""


EMPTY = (0, "e3b0c44298fc1c149afbf4c8996fb92427ae41e4649b934ca495991b7852b855")
"""The size and the sum of a file without a byte."""


# ==== the two copies of a place as open files, for a user who may not open them by name
#
# Root opens them: plain files only, by their own names below the folder's descriptor, so no link leads anywhere. The
# other user reads the open files, and takes the newest copy that has the sums of its note. A round that writes at the
# same time is noticed, because the sums differ then; the other copy is whole.

BLOCK = 1 << 20
"""Bytes that are read at once."""


class NotWhole(Fault):
    """No copy is whole at this moment; one line."""


class OpenCopy(NamedTuple):
    """A copy of a place: the path of its folder, the descriptors of its note, its file and its log, None for missing
    ones; and why it can't be read, empty if it can."""

    path: Path
    note: Optional[int]
    office: Optional[int]
    log: Optional[int]
    fault: str = ""


@contextlib.contextmanager
def open_copies(dest: Path) -> Iterator[list[OpenCopy]]:
    """The copies of a place, open to be read until the end. Raises OSError if the place can't be opened."""
    with hold_folder(dest) as place, contextlib.ExitStack() as stack:
        yield [_open_copy(place, name, stack) for name in NAMES]


def _open_copy(place: HeldFolder, name: str, stack: contextlib.ExitStack) -> OpenCopy:
    """A copy, whose files are closed at the end of a stack."""
    path = place.path / name
    try:
        copy = stack.enter_context(place.folder(name))
        note, office, log = (_opened_file(copy, each, stack) for each in (NOTE, OFFICE, LOG))
        return OpenCopy(path, note, office, log)
    except OSError as fault:
        return OpenCopy(path, None, None, None, because_of(fault))


def _opened_file(copy: HeldFolder, name: str, stack: contextlib.ExitStack) -> Optional[int]:
    """The descriptor of a file of a copy; None if there is none. Raises OSError."""
    try:
        opened = copy.open_file(name, links=1)
    except FileNotFoundError:
        return None
    stack.callback(os.close, opened)
    return opened


def take_newest(copies: list[OpenCopy], room: Path) -> CopyNote:
    """Copies the newest of open copies that is whole to a folder, with its note; which one. Raises NotWhole if none is,
    with the cause of the newest, and other Faults, and OSError."""
    faults = [copy.fault for copy in copies if copy.fault]
    notes = [(note, copy) for copy in copies if (note := _note_of(copy))]
    for note, copy in sorted(notes, key=lambda each: -each[0].round):
        for name in (OFFICE, LOG):
            (room / name).unlink(missing_ok=True)
        _refuse_large(copy, note, shutil.disk_usage(room).free)
        _copy(copy.office, note.file.size + 1, room / OFFICE)
        _copy(copy.log, note.log.size + 1, room / LOG)
        if not (fault := fault_of(room / OFFICE, note)):
            (room / NOTE).write_text(f"{note_text(note)}\n", encoding="ascii")
            return note
        faults.append(f"{copy.path} isn't whole: {fault}")
    raise NotWhole(faults[0] if faults else f"{copies[0].path.parent} has no copy with a whole note")


def _note_of(copy: OpenCopy) -> Optional[CopyNote]:
    """The note of an open copy; None if it has none that is whole."""
    return None if copy.note is None else note_in(os.pread(copy.note, MOST_BYTES, 0).decode(errors="replace"))


def _refuse_large(copy: OpenCopy, note: CopyNote, free: int) -> None:
    """Raises Fault if so many bytes aren't enough for a copy: a file may be larger than anything that is in it."""
    sizes = ((copy.office, note.file.size), (copy.log, note.log.size))
    size = sum(min(os.fstat(number).st_size, most) for number, most in sizes if number is not None)
    if size > free:
        raise Fault(f"{copy.path} has {size:,} bytes, and the disk of the generations has {free:,} left")


def _copy(source: Optional[int], most: int, to: Path) -> None:
    """Copies an open file from its beginning, without moving in it, but no more than so many bytes. Raises OSError."""
    with to.open("xb") as file:
        at = 0
        while source is not None and (block := os.pread(source, min(BLOCK, most - at), at)):
            file.write(block)
            at += len(block)

"""Generations of a second copy: the state of office and desk in each hour of a day, day of a month, month of a year."""

from __future__ import annotations

import contextlib
import json
import os
import re
import resource
import shutil
import sqlite3
from collections.abc import Iterator, Mapping
from datetime import datetime, timezone
from pathlib import Path
from typing import NamedTuple, Optional

from ...office.access import user_of
from ...office.folders import HeldFolder, hold_folder, moment_of, plain_json, refuse_without_room, whole_number
from ...office.stored import unchanged_office
from ...text.terminal import Fault, because_of, is_line, write_count
from .borg import Repository
from .desk_changes import Index, index_at, index_of
from .desk_files import DATABASE, LOGS, MOST_FILES, is_name
from .mirrors import sum_of, sum_of_bytes
from .second_copies import DESK, DRILLED, INDEX, LOG, MOST_BYTES, NOTE, OFFICE, CopyNote, Sum, fault_of, note_in


# ==== the desk's folder in a generation: as it lies next to the copies, an index and the folder that counts
#
# Root opens its files, plain ones only and by their own names below the place's descriptor, as it opens the two copies
# (`open_copies`). The user of the generations reads the open files, and checks all of them after they came out of the
# repository again. A fault of the desk's folder is reported, and keeps no generation of the office away.

OTHER_FILES = 100
"""So many files may be open besides those of the desk's folder."""

BLOCK = 1 << 20
"""Bytes that are read at once."""


class OpenDesk(NamedTuple):
    """The desk's folder of a place: the path of its copy, its index, None if there is none that counts, the descriptors of
    its files, and a line for each that can't be opened."""

    path: Path
    listed: Optional[Index]
    files: dict[str, int]
    faults: tuple[str, ...] = ()


class KeptDesk(NamedTuple):
    """The desk's folder of a generation: a sum that tells it from another one, empty if there is none, and a line for
    each file that isn't as the index says."""

    sum: str
    faults: tuple[str, ...]

    @property
    def fault(self) -> str:
        """Its fault, in a line; empty if there is none."""
        others = f" (and {write_count(len(self.faults) - 1, 'more fault')})" if self.faults[1:] else ""
        return f"the desk's folder isn't whole: {self.faults[0]}{others}" if self.faults else ""


# ---- by root


@contextlib.contextmanager
def open_desk(dest: Path) -> Iterator[OpenDesk]:
    """The desk's folder of a place, open to be read until the end. Raises OSError if the place can't be opened."""
    path = dest / DESK
    with hold_folder(dest) as place, contextlib.ExitStack() as stack:
        try:
            index = index_at(place)
            opened = OpenDesk(path, None, {}) if index is None else _open_desk(place, index, stack)
        except OSError as fault:
            opened = OpenDesk(path, None, {}, (because_of(fault),))
        yield opened


def _open_desk(place: HeldFolder, index: Index, stack: contextlib.ExitStack) -> OpenDesk:
    """The files that an index names, which are closed at the end of a stack. Raises OSError."""
    _let_open(min(len(index.files), MOST_FILES) + OTHER_FILES)
    files, faults = dict[str, int](), list[str]()
    desk = stack.enter_context(place.folder(DESK))
    folder = stack.enter_context(desk.folder(str(index.number)))
    for name in index.files:
        try:
            files[name] = folder.opened_below(name, links=1)
            stack.callback(os.close, files[name])
        except FileNotFoundError:
            pass  # (which is said of what was taken)
        except OSError as fault:
            faults.append(because_of(fault))
    return OpenDesk(folder.path, index, files, tuple(faults))


def _let_open(count: int) -> None:
    """Lets this process have so many files open, as far as the machine lets it."""
    soft, hard = resource.getrlimit(resource.RLIMIT_NOFILE)
    wanted = count if hard == resource.RLIM_INFINITY else min(count, hard)
    if soft != resource.RLIM_INFINITY and soft < wanted:
        resource.setrlimit(resource.RLIMIT_NOFILE, (wanted, hard))


# ---- by the user of the generations


def take_desk(desk: OpenDesk, to: Path) -> KeptDesk:
    """Copies an open desk's folder to a folder, as it is at its place; nothing if it can't be copied."""
    if desk.listed is None:
        return KeptDesk("", desk.faults)
    size = sum(os.fstat(number).st_size for number in desk.files.values())
    try:
        # (it is in the repository too, and the office needs room besides)
        refuse_without_room(f"a generation of {desk.path} needs", 2 * size, to)
        _copy_all(desk.files, desk.listed, to / DESK)
        taken = kept_desk_in(to)
    except (Fault, OSError) as fault:
        shutil.rmtree(to / DESK, ignore_errors=True)
        return KeptDesk("", (because_of(fault) if isinstance(fault, OSError) else str(fault),))
    return taken._replace(faults=(*desk.faults, *taken.faults))


def _copy_all(files: Mapping[str, int], index: Index, to: Path) -> None:
    """Copies open files to a folder, as an index has them, and the index last. Raises OSError."""
    folder = to / str(index.number)
    folder.mkdir(mode=0o700, parents=True)
    for name, number in files.items():
        # (a log may have a line more, which is being received)
        most = index.files[name].size if name in LOGS else os.fstat(number).st_size
        _copy(number, most, folder / name)
    (to / INDEX).write_text(f"{index.text}\n", encoding="ascii")


def _copy(number: int, most: int, to: Path) -> None:
    """Copies an open file from its beginning, but no more than so many bytes. Raises OSError."""
    to.parent.mkdir(mode=0o700, parents=True, exist_ok=True)
    with to.open("xb") as file:
        at = 0
        while block := os.pread(number, min(BLOCK, most - at), at):
            file.write(block)
            at += len(block)


def kept_desk_in(folder: Path) -> KeptDesk:
    """The desk's folder that lies in a folder, as in a generation. Raises OSError."""
    try:
        index = index_of(folder)
    except OSError:
        index = None
    if index is None:
        return KeptDesk("", ())
    faults = tuple(_faults(folder / DESK / str(index.number), index))
    parts = index._replace(copied=0).text, *faults
    return KeptDesk(sum_of_bytes("\n".join(parts).encode()), faults)


def _faults(folder: Path, index: Index) -> Iterator[str]:
    """The files that differ from an index, and the faults that SQLite finds in one of them."""
    for name, wanted in index.files.items():
        try:
            if sum_of(folder / name) != wanted:
                yield f"{name} isn't as its index says"
            elif name.endswith(DATABASE) and (fault := _fault_of(folder / name)):
                yield f"{name} is damaged: {fault}"
        except OSError:
            yield f"{name} isn't there"


def _fault_of(path: Path) -> str:
    """The first fault that SQLite finds in a file; empty if there is none."""
    try:
        with unchanged_office(path) as opened:
            return opened.quick_fault()
    except sqlite3.Error as fault:
        return str(fault)


# ---- names in the repository


def place_in(room: Path, name: str) -> Optional[Path]:
    """The path for a file of an archive that belongs to a desk's folder; None if it doesn't."""
    match = re.fullmatch(rf"{DESK}/(?:{re.escape(INDEX)}|[1-9][0-9]{{0,9}}/(.+))", name)
    return room / name if match and (match[1] is None or is_name(match[1])) else None


# ==== generations of a second copy: the office's state in each hour of a day, each day of a month and each month of a
# year
#
#     FOLDER/repository    a repository of borg, with an archive for each generation
#     FOLDER/borg          what borg keeps for itself
#
# FOLDER belongs to a user of its own, whom neither the machine that carries nor the user of the copies reaches. A
# generation is called `new-MOMENT` until it was taken out again and passed its drill; then it is `drilled-MOMENT`, and
# only then it counts. One that failed is `failed-MOMENT`. The moment comes from this machine's clock, so the machine
# that carries can't choose which generations stay.
#
#     DEST/drilled.json    the generation that passed its drill last, next to the copies, for a follower to read
#
# The repository itself is checked once a week (`CHECK_DAYS`): no drill reads data that only an old generation contains.

KEPT = Path("/var/lib/cpi-keep")
"""The folder of the package for generations."""

FILES = (OFFICE, LOG, NOTE)
"""The content of a generation: the office's file, its log, and the note of the copy that it was; and the desk's folder,
if there is one (`kept_desk`)."""

CHECK_DAYS = 7
"""So many days after a check of the repository the next one begins."""

NEW, PASSED, FAILED = "new-", "drilled-", "failed-"
"""The beginning of an archive's name, by the result of its drill."""

KEEP = ("--keep-hourly", "24", "--keep-daily", "31", "--keep-monthly", "12")
"""Borg's words for the generations that stay, of those that passed their drill."""

KEEP_FAILED = ("--keep-last", "3")
"""Its words for those that failed it."""


class Damaged(Fault):
    """The file from the repository isn't the one that its note describes; one line."""


class LastDrill(NamedTuple):
    """The record of a copy's generations: the last one that passed its drill, empty if none did; the moment of the
    latest copy that had its bytes, in seconds since 1970 UTC; their sums; since then the generation that failed its
    drill with its reason, and the fault of the last run, each empty if there is none; the sum of the desk's folder;
    when the repository was last found whole, and when a check of it last began, each 0 if never; and the fault that
    this check found.
    """

    generation: str = ""
    copied: int = 0
    file: Optional[Sum] = None
    log: Optional[Sum] = None
    failed: str = ""
    fault: str = ""
    desk: str = ""
    checked: int = 0
    tried: int = 0
    damaged: str = ""


# ---- the note on the last drill


def last_drill_of(dest: Path) -> Optional[LastDrill]:
    """The record of the generations of the copies in a folder; None if nobody keeps any. Raises Fault if that can't be
    read."""
    try:
        with hold_folder(dest) as place:
            return last_drill_in(place.text(DRILLED, MOST_BYTES))
    except FileNotFoundError:
        return None
    except OSError as fault:
        raise Fault(because_of(fault)) from fault
    except (ValueError, LookupError, TypeError) as fault:
        raise Fault(f"{dest / DRILLED} isn't a note that cpi-tools keep wrote") from fault


def last_drill_in(text: str) -> LastDrill:
    """The last drill in a text. Raises ValueError, LookupError or TypeError if the text isn't one."""
    fields = plain_json(text)
    file, log = (part and Sum(whole_number(part["size"]), str(part["sum"])) for part in (fields["file"], fields["log"]))
    generation, failed, fault = (str(fields[name]) for name in ("generation", "failed", "fault"))
    # (an earlier version wrote no more)
    desk, damaged = (str(fields.get(name, "")) for name in ("desk", "damaged"))
    if not is_line("".join((generation, failed, fault, desk, damaged))):
        raise ValueError(text)
    checked, tried = (moment_of(fields.get(name, 0)) for name in ("checked", "tried"))
    return LastDrill(generation, moment_of(fields["copied"]), file, log, failed, fault, desk, checked, tried, damaged)


def write_last_drill(dest: Path, last: LastDrill) -> None:
    """Writes the note next to the copies, whole or not at all. Raises OSError."""
    parts = {"file": last.file and last.file._asdict(), "log": last.log and last.log._asdict()}
    with hold_folder(dest) as place:
        place.write_whole(DRILLED, (json.dumps({**last._asdict(), **parts}) + "\n").encode(), 0o644)


# ---- generations by name


def repository_of(folder: Path) -> Repository:
    """The repository of a folder, which may not be there yet. Raises OSError if the folder isn't."""
    return Repository(folder, user_of(os.stat(folder).st_uid))


def generation_of(moment: int) -> str:
    """`2026-01-25-090007` of seconds since 1970 UTC."""
    return datetime.fromtimestamp(moment, timezone.utc).strftime("%Y-%m-%d-%H%M%S")


def is_generation(name: str) -> bool:
    """Whether a text has the form of a generation's name."""
    return bool(re.fullmatch(r"[0-9]{4}-[0-9]{2}-[0-9]{2}-[0-9]{6}", name))


def drilled_in(names: list[str]) -> list[str]:
    """The generations that passed their drill, of the names of all archives."""
    return [name.removeprefix(PASSED) for name in names if name.startswith(PASSED)]


def taken_generation(repository: Repository, archive: str, room: Path) -> CopyNote:
    """Takes the files of an archive to a folder, as they were at a place; the note of the copy that it was, whose sums
    the file and the log have. A log without a byte is none. Raises Damaged if it isn't whole, other Faults, and
    OSError."""
    written = repository.take_out(archive, lambda name: room / name if name in FILES else place_in(room, name))
    if lacks := sorted(set(FILES) - written):
        raise Damaged(f"it isn't whole: it has no {lacks[0]}")
    note = note_in((room / NOTE).read_text(encoding="utf-8", errors="replace"))
    fault = fault_of(room / OFFICE, note) if note else f"{NOTE} isn't a note"
    if not note or fault:
        raise Damaged(f"it isn't whole: {fault}")
    if not note.log.size:
        (room / LOG).unlink()
    return note

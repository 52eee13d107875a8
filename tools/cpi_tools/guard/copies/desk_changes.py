"""The parts of the desk's folder that a copy lacks, as one file: it is carried to the place of the copy, and put into
it there.

    DEST/desk/index.json     which of the folders counts, and the size and sum of each file in it
    DEST/desk/1, 2, ..       the folder, and one for each desk that didn't go on from the one before

    the first line: the index before and then, and of each file how it is written
    the bytes of these, one after the other

**A log only grows**, even for the program that puts changes in: an intruder on the first machine can add lines, and
takes none away. If a log doesn't continue the copy's, a new folder is begun, and the former one doesn't change. The
index comes last, so whatever stops it, the next changes begin from the state that the index describes.

The carried file comes from another machine: each file is opened by its plain name from the place's descriptor
(`folders`), and a link, a pipe or a file with a second name is refused.
"""

from __future__ import annotations

import contextlib
import itertools
import json
import os
from collections.abc import Iterator, Mapping
from pathlib import Path
from typing import IO, Any, NamedTuple, Optional

from ...office.folders import HeldFolder, hold_folder, moment_of, plain_json, whole_number
from ...text.terminal import Fault, because_of, naming
from .desk_files import DATABASE, LOGS, MOST_FILES, Notes, Sized, is_name
from .mirrors import PAGE
from .carriers import CAME, LONGEST_LINE, NotFitting
from .second_copies import DESK, INDEX

CARRIED_DESK = "desk-changes"
"""The file of changes."""

MOST_FOLDERS = 10**9
"""The greatest number of a folder."""

WHOLE, APPEND, PAGES = "whole", "append", "pages"
"""The ways to write a file: all of it, its new end, or the changed pages of an SQLite file."""


class Index(NamedTuple):
    """The record of a copy of the desk's folder: the number of the current folder, the moment at which it was read, in
    seconds since 1970 UTC, how far its field notes go, and its files."""

    number: int
    copied: int
    notes: Notes
    files: dict[str, Sized]

    @property
    def text(self) -> str:
        """As it is written, which `index_in` reads."""
        files = {name: [*self.files[name]] for name in sorted(self.files)}
        return json.dumps({"number": self.number, "copied": self.copied, "notes": self.notes, "files": files})


class Part(NamedTuple):
    """A file to write: its name, WHOLE, APPEND or PAGES, and the numbers of the pages."""

    name: str
    way: str
    pages: tuple[int, ...] = ()


class DeskChanges(NamedTuple):
    """The index before, None if there was none, the index after, and the content to write."""

    before: Optional[Index]
    after: Index
    parts: tuple[Part, ...]

    def size_of(self, part: Part) -> int:
        """The bytes of a part. Raises NotFitting if its file has no such part."""
        size = self.after.files[part.name].size
        if part.way == APPEND:
            before = self.before.files.get(part.name) if self.before else None
            if before is None or before.size > size:
                raise NotFitting(f"{part.name} can't be appended to")
            return size - before.size
        if part.way == PAGES:
            return sum(page_sizes(part, size))
        return size


def page_sizes(part: Part, size: int) -> Iterator[int]:
    """The bytes of each page of a part. Raises NotFitting if one is past the end of its file."""
    for page in part.pages:
        if page < 0 or page * PAGE >= size:
            raise NotFitting(f"{part.name} has a page past its end")
        yield min(PAGE, size - page * PAGE)


def index_in(text: str) -> Optional[Index]:
    """The index of a text; None if it is none."""
    try:
        read = plain_json(text)
        files = {str(name): Sized(whole_number(size), str(sum_)) for name, (size, sum_) in read["files"].items()}
        index = Index(
            whole_number(read["number"], MOST_FOLDERS), moment_of(read["copied"]), _notes(*read["notes"]), files
        )
        return index if index.number > 0 and all(map(is_name, files)) and len(files) <= MOST_FILES else None
    except (ValueError, LookupError, TypeError, AttributeError):
        return None


def _notes(came: Any, kept: Any, sum_: Any) -> Notes:
    return Notes(whole_number(came), whole_number(kept), str(sum_))


def index_at(place: HeldFolder) -> Optional[Index]:
    """The index of a place; None if there is none that is whole. Raises OSError."""
    try:
        with place.folder(DESK) as desk:
            return index_in(desk.text(INDEX, LONGEST_LINE))
    except FileNotFoundError:
        return None


def index_of(place: Path) -> Optional[Index]:
    """The index of the copy at a path. Raises OSError."""
    with hold_folder(place) as folder:
        return index_at(folder)


# ---- where the desk is


def write_desk_changes(to: Path, changes: DeskChanges, data: Mapping[str, bytes], mirrors: Path) -> None:
    """Writes a file of changes: the bytes of parts from `data`, or from the mirror of that name if `data` doesn't
    contain it. Raises OSError."""
    head = {
        "before": changes.before.text if changes.before else "",
        "index": changes.after.text,
        "parts": changes.parts,
    }
    opened = os.open(to, os.O_WRONLY | os.O_CREAT | os.O_TRUNC | os.O_CLOEXEC, 0o600)
    with naming(to), os.fdopen(opened, "wb") as file:
        file.write(json.dumps(head).encode() + b"\n")
        for part in changes.parts:
            if part.way == PAGES:
                with (mirrors / part.name).open("rb", buffering=0) as source:
                    for page, size in zip(part.pages, page_sizes(part, changes.after.files[part.name].size)):
                        file.write(os.pread(source.fileno(), size, page * PAGE))
            else:
                own = data[part.name]
                file.write(own[len(own) - changes.size_of(part) :])


# ---- where the copy is


def desk_received_text(index: Index) -> str:
    """The line that reports that the changes are in their copy."""
    return f"cpi-tools receive: the desk's folder {index.number} is that of {index.copied}"


def read_desk_head(file: IO[bytes]) -> DeskChanges:
    """The content of the first line of a file of changes; the file is at its first byte then. Raises NotFitting."""
    try:
        read = plain_json(file.readline(LONGEST_LINE))
        before, index = (index_in(read[name]) for name in ("before", "index"))
        parts = tuple(_part(each) for each in read["parts"])
        if index is None or (read["before"] and before is None):
            raise ValueError
        if not {part.name for part in parts} <= index.files.keys() or len(parts) > len(index.files):
            raise ValueError
        return DeskChanges(before, index, parts)
    except (ValueError, LookupError, TypeError) as fault:
        raise NotFitting("its first line isn't one that cpi-tools follow wrote") from fault


def _part(read: Any) -> Part:
    name, way, pages = read
    if way not in (WHOLE, APPEND, PAGES) or any(type(page) is not int for page in pages):
        raise ValueError
    if (way == PAGES) != name.endswith(DATABASE):
        raise ValueError
    return Part(name, way, tuple(pages))


def put_in_desk(place: Path) -> Index:
    """Puts the changes of the desk's folder that lie at a place into its copy there, and removes them. Raises Fault:
    nothing was written if they don't belong to that copy, would take a line of a log away, or aren't plain files."""
    try:
        with hold_folder(place) as whole, whole.folder(CAME) as came:
            with os.fdopen(came.open_file(CARRIED_DESK, links=1), "rb") as file:
                changes = read_desk_head(file)
                _refuse(whole, changes, os.fstat(file.fileno()).st_size - file.tell())
                with whole.made_folder(DESK) as desk:
                    _put(file, changes, desk)
            came.remove(CARRIED_DESK)
    except NotFitting as fault:
        raise NotFitting(f"{place / CAME / CARRIED_DESK}: {fault}") from fault
    except OSError as fault:
        raise Fault(because_of(fault)) from fault
    return changes.after


def _refuse(place: HeldFolder, changes: DeskChanges, size: int) -> None:
    """Raises NotFitting unless the changes can be put into the copy."""
    before, index = index_at(place), changes.after
    if before != changes.before:
        raise NotFitting("the desk's copy isn't the one that it changes")
    if size != sum(map(changes.size_of, changes.parts)):
        raise NotFitting(f"it has {size:,} bytes of files, and another number by its first line")
    ways = {part.name: part.way for part in changes.parts}
    number = before.number if before else 0
    if index.number == number and before:
        _refuse_logs(before, index, ways)
    elif index.number != number + 1:
        raise NotFitting(f"its folder is {index.number}, after {number}")
    known = before.files if before and index.number == number else {}
    if lacks := [name for name, of in index.files.items() if name not in ways and known.get(name) != of]:
        raise NotFitting(f"it lacks {lacks[0]}")


def _refuse_logs(before: Index, index: Index, ways: Mapping[str, str]) -> None:
    """Raises NotFitting if the changes would do anything but append to a log of the copy."""
    for name in LOGS:
        if name in before.files and (name not in index.files or ways.get(name, APPEND) != APPEND):
            raise NotFitting(f"{name} is only appended to")


def _put(file: IO[bytes], changes: DeskChanges, desk: HeldFolder) -> None:
    """Writes the files, removes those that are gone, and writes the index last."""
    if not changes.before or changes.before.number != changes.after.number:
        _leave(desk, str(changes.after.number))
    with desk.made_folder(str(changes.after.number)) as folder:
        for part in changes.parts:
            with _folder_of(folder, part.name) as (own, name):
                _put_part(file, changes, part, own, name)
        if changes.before and changes.before.number == changes.after.number:
            for name in changes.before.files.keys() - changes.after.files.keys():
                with _folder_of(folder, name) as (own, leaf):
                    own.remove(leaf)
        folder.sync()
    desk.write_whole(INDEX, f"{changes.after.text}\n".encode(), 0o600)
    desk.sync()


def _leave(desk: HeldFolder, name: str) -> None:
    """Renames anything in the place of a new folder: a carrying was stopped, or its index was lost."""
    if desk.has(name):
        names = (f"left-{name}-{number}" for number in itertools.count(1))
        desk.move(name, desk, next(each for each in names if not desk.has(each)))


@contextlib.contextmanager
def _folder_of(folder: HeldFolder, name: str) -> Iterator[tuple[HeldFolder, str]]:
    """The folder of a file, which is made if it isn't there, and its name in it. Raises OSError."""
    *above, leaf = name.split("/")
    with contextlib.ExitStack() as opened:
        for each in above:
            folder = opened.enter_context(folder.made_folder(each))
        yield folder, leaf
        if above:
            folder.sync()


def _put_part(file: IO[bytes], changes: DeskChanges, part: Part, folder: HeldFolder, name: str) -> None:
    """Writes a part of a file, onto the disk."""
    size = changes.size_of(part)
    if part.way == WHOLE:
        folder.write_whole(name, file.read(size), 0o600)
        return
    whole = changes.after.files[part.name].size
    with os.fdopen(folder.open_file(name, os.O_RDWR | os.O_CREAT, links=1), "r+b") as to, naming(folder.path / name):
        if part.way == APPEND:
            if os.fstat(to.fileno()).st_size < whole - size:
                raise NotFitting(f"{part.name} is shorter here than its index says")
            to.seek(whole - size)
            to.write(file.read(size))
        else:
            for page, bytes_of_page in zip(part.pages, page_sizes(part, whole)):
                to.seek(page * PAGE)
                to.write(file.read(bytes_of_page))
        to.truncate(whole)
        to.flush()
        os.fsync(to.fileno())

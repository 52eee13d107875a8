"""What is carried to another machine: the pages that a copy there lacks, and the programs that carry them."""

from __future__ import annotations

import contextlib
import json
import os
import re
import shutil
import subprocess
from collections.abc import Collection, Sequence
from pathlib import Path
from typing import IO, Any, NamedTuple, Optional, Protocol

from ...office.copying import log_beside
from ...office.folders import MOST, HeldFolder, hold_folder, plain_json
from ...text.terminal import Fault, because_of, naming
from .mirrors import PAGE
from .second_copies import (
    DESK,
    DRILLED,
    INDEX,
    LOG,
    MARK,
    NAMES,
    NOTE,
    OFFICE,
    RECEIVED,
    CopyNote,
    Sum,
    note_in,
    note_text,
    state_in,
)


# ==== the pages that a copy of an office hasn't got of a newer one, as one file: it is carried to the place of the
# copy, and put into it there
#
#     the first line: which copy, its note before, its note then, and of each file the time and the numbers of its pages
#     the pages, one after the other, in the order of their numbers; the last one of a file may be shorter
#
# The note goes before the first page is written, and the new one comes last, as in each round. So whatever stops it,
# the copy isn't whole until a whole one is carried, and the other copy counts.
#
# The carried files come from another machine, and only pages are taken from them: each file below the place is opened
# by its plain name from the place's descriptor (`folders`), and a link, a pipe or a file with a second name is
# refused before anything is written.

CAME = "received"
"""The folder of a place to which a file of changes is carried."""

CARRIED = "changes"
"""That file."""

CHANGES = f"{CAME}/{CARRIED}"
"""Its path at a place."""

LONGEST_LINE = 1 << 26
"""Bytes of the first line at most."""


class NotFitting(Fault):
    """Changes that can't be put into a copy; one line. Nothing was written."""


class OfFile(NamedTuple):
    """The record of a file: its time in nanoseconds since 1970 UTC, and the numbers of its pages, rising from 0."""

    time: int
    pages: list[int]


class Changes(NamedTuple):
    """The changed copy, its note before and after, and the records of its file and of its log."""

    name: str
    before: CopyNote
    note: CopyNote
    file: OfFile
    log: OfFile

    @property
    def size(self) -> int:
        """Bytes of all pages. Raises NotFitting if one is past the end of its file."""
        return sum(_sizes(self.file, self.note.file)) + sum(_sizes(self.log, self.note.log))


def _sizes(of: OfFile, whole: Sum) -> list[int]:
    """The bytes of each page of a file."""
    if any(page < 0 or page * PAGE >= whole.size for page in of.pages):
        raise NotFitting("it has a page past the end of its file")
    return [min(PAGE, whole.size - page * PAGE) for page in of.pages]


# ---- where the office is


def of_mirror(path: Path, pages: Collection[int], size: int) -> OfFile:
    """The pages to write of a mirrored file: pages past its end are gone. Raises OSError."""
    return OfFile(path.stat().st_mtime_ns, sorted(page for page in pages if page * PAGE < size))


def write_changes(to: Path, changes: Changes, mirrored: Path) -> None:
    """Writes a file of changes; `mirrored` is the mirror of the office's file. Raises OSError."""
    head = {
        "name": changes.name,
        "before": note_text(changes.before),
        "note": note_text(changes.note),
        "file": changes.file,
        "log": changes.log,
    }
    opened = os.open(to, os.O_WRONLY | os.O_CREAT | os.O_TRUNC | os.O_CLOEXEC, 0o600)
    with naming(to), os.fdopen(opened, "wb") as file:
        file.write(json.dumps(head).encode() + b"\n")
        sources = ((mirrored, changes.file, changes.note.file), (log_beside(mirrored), changes.log, changes.note.log))
        for path, of, whole in sources:
            with path.open("rb", buffering=0) as source:
                for page, size in zip(of.pages, _sizes(of, whole)):
                    file.write(os.pread(source.fileno(), size, page * PAGE))


# ---- where the copy is


def received_text(name: str, note: CopyNote) -> str:
    """The line that reports that the changes are in their copy."""
    return f"cpi-tools receive: {name} is round {note.round}"


def read_head(file: IO[bytes]) -> Changes:
    """The content of the first line of a file of changes; the file is at its first page then. Raises NotFitting."""
    try:
        fields = plain_json(file.readline(LONGEST_LINE))
        before, note = (note_in(fields[name]) for name in ("before", "note"))
        if before is None or note is None or fields["name"] not in NAMES:
            raise ValueError
        return Changes(fields["name"], before, note, *(_of_file(fields[name]) for name in ("file", "log")))
    except (ValueError, LookupError, TypeError) as fault:
        raise NotFitting("its first line isn't one that cpi-tools follow wrote") from fault


def _of_file(fields: Any) -> OfFile:
    time, pages = fields
    if type(time) is not int or abs(time) > MOST or any(type(page) is not int for page in pages):
        raise ValueError
    return OfFile(time, pages)


def put_in(place: Path) -> Changes:
    """Puts the changes that lie at a place into the copy that they belong to, and removes them. Raises Fault: nothing
    was written if they don't belong to that copy as its note says it, if it isn't made of plain files, or if a copy was
    promoted."""
    try:
        with hold_folder(place) as whole, whole.folder(CAME) as came:
            with os.fdopen(came.open_file(CARRIED, links=1), "rb") as file:
                changes = read_head(file)
                _refuse(whole, changes, os.fstat(file.fileno()).st_size - file.tell())
                with whole.folder(changes.name) as copy:
                    _put(file, changes, copy)
            came.remove(CARRIED)
    except NotFitting as fault:
        raise NotFitting(f"{place / CHANGES}: {fault}") from fault
    except OSError as fault:
        raise Fault(because_of(fault)) from fault
    return changes


def drop_changes(place: Path) -> None:
    """Removes changes that lie at a place: no copy takes them once one was promoted, and they may have the last room of
    its disk. Files that can't be removed stay."""
    with contextlib.suppress(OSError), hold_folder(place) as whole, whole.folder(CAME) as came:
        came.remove(CARRIED)


def _refuse(place: HeldFolder, changes: Changes, size: int) -> None:
    """Raises NotFitting unless the changes can be put into their copy."""
    state = state_in(place)
    if state.promotion:
        raise NotFitting("a copy was promoted here")
    if state.notes.get(changes.name) != changes.before:
        raise NotFitting(f"{changes.name} isn't the copy that it changes")
    if size != changes.size:
        raise NotFitting(f"it has {size:,} bytes of pages, and {changes.size:,} by its first line")


def _put(file: IO[bytes], changes: Changes, copy: HeldFolder) -> None:
    """Writes the pages, and the note last. Both files are open before the first one is written."""
    with contextlib.ExitStack() as opened:
        files = list[IO[bytes]]()
        for name in (OFFICE, LOG):
            number = copy.open_file(name, os.O_RDWR | os.O_CREAT, links=1)
            files.append(opened.enter_context(os.fdopen(number, "r+b")))
        copy.remove(NOTE, is_missing_ok=False)
        copy.sync()
        office, log = files
        _write_pages(file, office, changes.file, changes.note.file, copy.path / OFFICE)
        _write_pages(file, log, changes.log, changes.note.log, copy.path / LOG)
    copy.write_whole(NOTE, f"{note_text(changes.note)}\n".encode(), 0o600)
    copy.sync()


def _write_pages(file: IO[bytes], to: IO[bytes], of: OfFile, whole: Sum, path: Path) -> None:
    """Writes the pages of a file, onto the disk."""
    with naming(path):
        for page, size in zip(of.pages, _sizes(of, whole)):
            to.seek(page * PAGE)
            to.write(file.read(size))
        to.truncate(whole.size)
        to.flush()
        os.utime(to.fileno(), ns=(of.time, of.time))
        os.fsync(to.fileno())


# ==== Programs that carry a second copy to another machine: rsync over ssh, or rclone. Each has its own checks and its
# own access.
#
# `fetch` brings the notes of a place and the mark of its promotion to a folder of this machine; `carry` brings a copy
# to one of the two folders there, its note last.

SILENCE = 30
"""Seconds for which a line may carry nothing, and the longest wait for it to begin."""

LONGEST = 3600
"""Seconds for which one carrying may last: the first one of a large file over a slow line is the longest."""

SSH = (
    "ssh -o BatchMode=yes -o UpdateHostkeys=no -o ConnectTimeout=10 -o ServerAliveInterval=10 -o ServerAliveCountMax=3"
)
"""The program that reaches the other machine. It asks nobody, leaves its list of machines as it is, and ends when the
other side is silent."""

OWN = re.compile(r"rsync: |\[\w+\] |cpi-receive: |cpi-tools receive: |\S*rrsync\b|\d{4}/\d\d/\d\d \S+ ERROR\b")
"""The beginning of a carrier's line, here or on the other machine. ssh warns in lines of its own."""

AFTERWARDS = re.compile(r"rsync error: |rsync: connection unexpectedly closed|rsync: \[\w+\] (read|write) error: ")
"""The message of rsync once the other side has ended, whatever the cause was."""

BESIDE = re.compile(r"Warning: Permanently added|(\d{4}/\d\d/\d\d \S+ )?NOTICE\b")
"""Lines that name no cause."""

MODES = ("--perms", "--chmod=D700,F600")
"""The carried files are as secret as the office."""


class Carrier(Protocol):
    """A program that carries to a place on another machine."""

    name: str

    def fetch(self, to: Path) -> None:
        """Brings the notes of the place and the mark of its promotion to a folder. Raises Fault."""

    def carry(self, copy: Path, to: str, is_whole: bool) -> None:
        """Brings a copy with its note to one of the two folders there; `is_whole` compares all of it, whatever its time
        is. Raises Fault."""

    def carry_changes(self, changes: Path) -> str:
        """Carries a file of changed pages to a place where a program puts them into their copy; the lines that it
        printed. Raises Fault."""


class Rsync:
    """A folder of another machine, by rsync over ssh. Of a file only the pages that differ are carried, and rsync
    compares the sum of the whole file at the end."""

    def __init__(self, machine: str, folder: str, ssh: Optional[str] = None):
        self.name = f"{machine}:{folder}"
        self._at = f"{self.name.rstrip('/')}/" if folder else self.name
        self._words = ["rsync", "--times", f"--timeout={SILENCE}", f"--rsh={ssh or SSH}"]

    def fetch(self, to: Path) -> None:
        """Files that are gone there go here too. Two notes of one second may have the same size, so all are read."""
        notes = [f"--include=/{name}/{NOTE}" for name in NAMES]
        chosen = [*(f"--include=/{name}/" for name in NAMES), *notes]
        chosen += [f"--include=/{name}" for name in (MARK, RECEIVED, DRILLED)]
        chosen += [f"--include=/{DESK}/", f"--include=/{DESK}/{INDEX}", "--exclude=*"]
        _run([*self._words, "--recursive", "--delete", "--ignore-times", *chosen, self._at, f"{to}/"], self.name)

    def carry(self, copy: Path, to: str, is_whole: bool) -> None:
        """In place, each file on the disk there before the next one begins. Unless all is compared, a file with the
        same size and the earlier time is skipped: `taken_and_stamped` gives each change a second of its own."""
        how = ["--inplace", "--no-whole-file", f"--block-size={PAGE}", "--fsync", *MODES]
        how += ["--ignore-times"] if is_whole else []
        _run([*self._words, *how, *_files_of(copy), f"{self._at}{to}/"], self.name)

    def carry_changes(self, changes: Path) -> str:
        """In place too: a part of it that a killed rsync leaves is removed before the next one arrives."""
        return _run([*self._words, "--inplace", "--whole-file", *MODES, str(changes), self._at], self.name)


class Rclone:
    """A folder of a store that rclone knows. It carries whole files."""

    def __init__(self, remote: str):
        self.name = f"rclone:{remote}"
        self._at = f"{remote.rstrip('/')}/" if not remote.endswith(":") else remote
        self._words = ["rclone", f"--timeout={SILENCE}s", f"--contimeout={SILENCE}s", "--retries=1"]

    def fetch(self, to: Path) -> None:
        """Files that are gone there go here too."""
        chosen = [f"--include=/{name}/{NOTE}" for name in NAMES] + [f"--include=/{MARK}", f"--include=/{DRILLED}"]
        _run([*self._words, "sync", *chosen, self._at, str(to)], self.name)

    def carry(self, copy: Path, to: str, is_whole: bool) -> None:
        """File by file, so that the note is the last one."""
        for path in map(Path, _files_of(copy)):
            _run([*self._words, "copyto", str(path), f"{self._at}{to}/{path.name}"], self.name)

    def carry_changes(self, changes: Path) -> str:
        """The program doesn't exist there."""
        raise Fault(f"{self.name} can't be brought changed pages")


def _files_of(copy: Path) -> list[str]:
    """The files of a copy in the order in which they are carried."""
    return [str(copy / OFFICE), str(log_beside(copy / OFFICE)), str(copy / NOTE)]


def carrier_of(dest: str, ssh: Optional[str] = None) -> Optional[Carrier]:
    """The carrier to a place: rclone for `rclone:REMOTE:PATH`, rsync for `[USER@]MACHINE:FOLDER`; None for a folder of
    this machine, which has a slash before any colon, or no colon."""
    if dest.startswith("rclone:"):
        return Rclone(dest.partition(":")[2])
    machine, colon, folder = dest.partition(":")
    if not colon or "/" in machine or not machine:
        return None
    return Rsync(machine, folder, ssh)


def _run(words: Sequence[str], name: str) -> str:
    """Runs the carrying program; its output on the way. Raises Fault with the line of that which says why."""
    if not shutil.which(words[0]):
        raise Fault(f"there is no {words[0]}, which carries to {name}: Debian's package {words[0]} has it")
    try:
        ran = subprocess.run(
            words,
            stdin=subprocess.DEVNULL,
            capture_output=True,
            text=True,
            errors="replace",
            timeout=LONGEST,
            check=False,
        )
    except subprocess.TimeoutExpired as fault:
        raise Fault(f"{name}: {words[0]} didn't end within {LONGEST} seconds") from fault
    except OSError as fault:
        raise Fault(f"{words[0]} couldn't be started: {because_of(fault)}") from fault
    if ran.returncode:
        raise Fault(f"{name}: {_cause(ran.stderr) or f'{words[0]} ended with status {ran.returncode}'}")
    return ran.stderr


def _cause(output: str) -> str:
    """The line that says why a carrying failed: the carrier's first one, or the last one of another program, or rsync's
    last message. The times of rclone go."""
    lines = [line for each in output.splitlines() if (line := each.strip()) and not BESIDE.match(line)]
    causes = [line for line in lines if not AFTERWARDS.match(line)]
    own = [line for line in causes if OWN.match(line)]
    line = next(iter(own[:1] or causes[-1:] or lines), "")
    return re.sub(r"^\d{4}/\d\d/\d\d \S+ (ERROR *: *)?", "", line)

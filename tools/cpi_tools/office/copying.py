"""A right copy of an office's file while `cpi` runs, commits, and copies its log into the file.

**How the files are written.** `cpi` writes each commit to the log next to the file, `FILE-wal`: frames of a page each,
after a header of 32 bytes. Before the first write that finds 1,000 frames there, and when it ends, it copies the log
into the file: pages into the file, sync, the header's first byte zero, sync, a new header with new salts. The log isn't
cut then but written from its beginning again. While `cpi` runs, only it holds SQLite's lock on the file, so the C
library's `.backup` and `VACUUM INTO` find the file locked, and leave an empty file.

**Why copying one after the other isn't enough.** If the log is emptied between the two reads, the copy contains the
earlier file and the later log. Answered commands are then missing, and no check of the file tells.

**Why this copy is right.** The file is copied, then the log from front to back, and the log's header is the same before
and after. So the log wasn't emptied in the meantime: each page that was being written into the file is whole in frames
that were read afterwards, and these come first when the copy is opened. A transaction that is being written ends the
log, or is whole: its first byte that counts is written last. So the copy is what a crash could leave at one moment
after the copy began, and contains each command that was answered before. No lock is taken and nothing is written to the
office.

It is true for file systems of this machine, where a read sees every earlier write of another program.
"""

from __future__ import annotations

import contextlib
import os
import signal
import stat
import time
from collections.abc import Iterator
from io import RawIOBase
from pathlib import Path
from typing import NamedTuple, Optional

from ..text.terminal import Fault, because_of, naming
from .folders import new_room

BLOCK = 1 << 20
"""Bytes that are read at once. The blocks of a file are read in their order, which the log needs."""

HEADER_BYTES = 32
"""The log's header: its mark, the size of a page, how often it was emptied, two salts, two sums."""

EMPTIED_BYTES = 41
"""The rest of the log when `cpi` ends: the header, and the gate of a first frame, shut. No frame is in it."""

PATIENCE = 60
"""Seconds after which a copy is given up because the log never was quiet long enough."""


class CopyFailed(Fault):
    """No right copy could be made; one line."""


class Mark(NamedTuple):
    """A value that changes if the log is emptied, or if another file takes the place of either file.

    The identities are device and number of the file. If there is no log, writes go to the file itself, so its size in
    bytes and the time of its last change in nanoseconds count too.
    """

    file: tuple[int, int]
    log: Optional[tuple[int, int]]
    header: bytes
    settled: Optional[tuple[int, int]]


def log_beside(path: Path) -> Path:
    """`office.db-wal` for `office.db`; for a link, the log next to the linked file, since `cpi` keeps it there."""
    file = path.resolve()
    return file.with_name(file.name + "-wal")


def mark_of(path: Path) -> Mark:
    """The mark of an office's file at this moment."""
    whole = path.stat()
    file = (whole.st_dev, whole.st_ino)
    try:
        with log_beside(path).open("rb", buffering=0) as log:
            known = os.fstat(log.fileno())
            return Mark(file, (known.st_dev, known.st_ino), log.read(HEADER_BYTES), None)
    except FileNotFoundError:
        return Mark(file, None, b"", (whole.st_size, whole.st_mtime_ns))


def right_copy(path: Path, folder: Path, patience: float = PATIENCE, pause: Optional[int] = None) -> Path:
    """Copies an office's file and its log into an existing folder; the path of the file's copy.

    `cpi` can run and write in the meantime. The copies have mode 0600, since the collectors' keys are in them, and the
    times of now. Files in the folder with the same names are replaced. `patience` is in seconds. `pause` is the number
    of the process of `cpi`, which then stops while it is copied: its files are those that a crash would leave, whatever
    their size and however busy it is. Raises CopyFailed, and leaves nothing, if no right copy was made.
    """
    copy = folder / path.name
    try:
        if not stat.S_ISREG(path.stat().st_mode):
            raise CopyFailed(f"{path} is no file")
        if copy.exists() and copy.samefile(path):
            raise CopyFailed(f"{path} can't be copied onto itself")
        with _standing_still(path, pause) if pause is not None else contextlib.nullcontext():
            try:
                _copy_until_quiet(path, copy, patience)
            except BaseException:
                _remove(copy)
                raise
    except OSError as fault:
        raise CopyFailed(because_of(fault)) from fault
    if copy.stat().st_size == 0 and not has_frames(copy):
        _remove(copy)
        raise CopyFailed(f"{path} is empty, so it is no office")
    return copy


@contextlib.contextmanager
def private_copy(path: Path, patience: float = PATIENCE) -> Iterator[Path]:
    """A right copy in a separate folder that nobody else can read, and that is removed at the end."""
    with new_room("cpi-tools-") as room:
        yield right_copy(path, room, patience)


def has_frames(path: Path) -> bool:
    """Whether more is left of a file's log than `cpi` leaves when it ends."""
    log = log_beside(path)
    return log.exists() and log.stat().st_size > EMPTIED_BYTES


def _copy_until_quiet(path: Path, copy: Path, patience: float) -> None:
    """Copies file and log again until the mark is the same before and after."""
    begun, wait = time.monotonic(), 0.0
    while True:
        before = mark_of(path)
        _copy_bytes(path, copy)
        _copy_log(path, copy)
        if mark_of(path) == before:
            return
        if time.monotonic() - begun > patience:
            raise CopyFailed(
                f"{path} is written so fast that it wasn't quiet for one copy in {patience:.0f} seconds (see --pause)"
            )
        time.sleep(wait)
        wait = min(0.2, 2 * wait + 0.001)


def _copy_log(path: Path, copy: Path) -> None:
    """Copies the log; if there is none, the copy has none either."""
    try:
        _copy_bytes(log_beside(path), log_beside(copy))
    except FileNotFoundError:
        log_beside(copy).unlink(missing_ok=True)


def _copy_bytes(path: Path, copy: Path) -> None:
    """Copies a file block by block, in order, to a new file of mode 0600."""
    with path.open("rb", buffering=0) as source:
        copy.unlink(missing_ok=True)
        with os.fdopen(os.open(copy, os.O_WRONLY | os.O_CREAT | os.O_EXCL, 0o600), "wb", buffering=0) as target:
            while block := _read(source, path):
                _write_all(target, block, copy)


def _read(source: RawIOBase, path: Path) -> bytes:
    """The next block of a file, empty at its end."""
    with naming(path):
        return source.read(BLOCK) or b""


def _write_all(target: RawIOBase, block: bytes, copy: Path) -> None:
    """Writes a block."""
    left = memoryview(block)
    with naming(copy):
        while left:
            left = left[target.write(left) or 0 :]


def _remove(copy: Path) -> None:
    """Removes a copy and its log, if they exist."""
    for each in (copy, log_beside(copy)):
        with contextlib.suppress(OSError):
            each.unlink()


# ---- a process that stands still


@contextlib.contextmanager
def _standing_still(path: Path, process: int) -> Iterator[None]:
    """Stops the process that has the file open, and lets it continue at the end, also after a fault.

    Until the end, signals that would stop this program wait. (If SIGKILL ends this program, the other one stays stopped
    until somebody sends it SIGCONT.)
    """
    if not _has_open(process, path):
        raise CopyFailed(f"process {process} doesn't have {path} open")
    held = signal.pthread_sigmask(signal.SIG_BLOCK, {signal.SIGINT, signal.SIGTERM, signal.SIGHUP})
    try:
        os.kill(process, signal.SIGSTOP)
        while _state_of(process) not in "TtZX":
            time.sleep(0.001)
        yield
    finally:
        with contextlib.suppress(ProcessLookupError):
            os.kill(process, signal.SIGCONT)
        signal.pthread_sigmask(signal.SIG_SETMASK, held)


def _has_open(process: int, path: Path) -> bool:
    """Whether a process has a file open, as far as the system lets this program see it."""
    with contextlib.suppress(OSError):
        for opened in Path(f"/proc/{process}/fd").iterdir():
            with contextlib.suppress(OSError):
                if opened.samefile(path):
                    return True
    return False


def _state_of(process: int) -> str:
    """The letter of a process's state by proc(5): T is stopped, X is dead."""
    try:
        text = Path(f"/proc/{process}/stat").read_text(encoding="ascii", errors="replace")
    except (FileNotFoundError, ProcessLookupError):
        return "X"
    return text.rpartition(")")[2].split()[0]

"""Folders and files of the tools: intermediate, written whole, private, and those that others may change meanwhile."""

from __future__ import annotations

import contextlib
import errno
import fcntl
import json
import os
import secrets
import shutil
import stat
import tempfile
import time
from collections.abc import Iterable, Iterator, Sequence
from pathlib import Path
from typing import Any, NoReturn, Optional, TextIO, Union

from ..text.terminal import Fault, because_of, naming
from ..text.text_files import Writer


# ==== Folders for a tool's intermediate files: copies of an office, files that aren't whole yet. Each is removed at the
# end of its tool; if a tool was killed, the next tool that makes one in the same place removes its folder.

MARK = ".cpi-room"
"""A file in each room, which its tool has locked as long as it runs (flock(2)). The kernel drops the lock of a tool that
was killed."""

YOUNG = 60.0
"""For so many seconds a room may not be locked yet."""


@contextlib.contextmanager
def new_room(prefix: str, folder: Optional[Path] = None) -> Iterator[Path]:
    """A new folder of mode 0700 in `folder`, by default the folder for temporary files; at the end it is removed with
    all its content. First it removes rooms of the same prefix that killed tools left in the same place. Raises
    OSError."""
    place = folder or Path(tempfile.gettempdir())
    _remove_left(place, prefix)
    with tempfile.TemporaryDirectory(prefix=prefix, dir=place) as made, (Path(made) / MARK).open("xb") as mark:
        # (without locks, as on some file systems of a network, nobody takes it for one that was left)
        with contextlib.suppress(OSError):
            fcntl.flock(mark, fcntl.LOCK_EX | fcntl.LOCK_NB)
        yield Path(made)


def refuse_without_room(what: str, size: int, folder: Path) -> None:
    """Raises Fault if the disk of a folder has no room for so many bytes: a file may have more of them than its own disk."""
    if size > (free := shutil.disk_usage(folder).free):
        raise Fault(f"{what} {size:,} bytes, and {folder} has {free:,} left")


def stays(room: Path) -> None:
    """From here on no other tool removes the room, even if this tool is killed."""
    (room / MARK).unlink()


def _remove_left(place: Path, prefix: str) -> None:
    with contextlib.suppress(OSError):
        for name in os.listdir(place):
            if name.startswith(prefix):
                _remove_if_left(place / name)


def _remove_if_left(room: Path) -> None:
    with contextlib.suppress(OSError), (room / MARK).open("rb") as mark:
        seen = os.fstat(mark.fileno())
        if seen.st_uid == os.geteuid() and time.time() - seen.st_mtime > YOUNG:
            fcntl.flock(mark, fcntl.LOCK_EX | fcntl.LOCK_NB)
            shutil.rmtree(room)


# ==== files that only their owner can read, since keys and prices are in them


@contextlib.contextmanager
def private_file(path: Path) -> Iterator[TextIO]:
    """A new file of mode 0600, open for writing, in place of an existing one."""
    path.unlink(missing_ok=True)
    opened = os.open(path, os.O_WRONLY | os.O_CREAT | os.O_EXCL, 0o600)
    with naming(path), open(opened, "w", encoding="utf-8", newline="") as file:
        yield file


def write_rows(path: Path, heads: Sequence[str], rows: Iterable[Sequence[object]]) -> None:
    """Writes a CSV file of mode 0600, in place of an existing one."""
    with private_file(path) as file:
        out = Writer(file)
        out.writerow(heads)
        out.writerows(rows)


# ==== folders that another user or another machine can change at any time: each file below is opened from the folder's
# descriptor and by its own name, so no link leads out of the folder, and nothing is made, written or given away outside
#
# The opened file is the one that is written, whatever its name leads to by then.

FOLDER = os.O_RDONLY | os.O_DIRECTORY | os.O_CLOEXEC
PLAIN = os.O_NOFOLLOW | os.O_NONBLOCK | os.O_CLOEXEC
"""By this a link isn't followed, and a pipe isn't waited for."""


LONGEST_LINE = 1000
"""Bytes of a first line at most."""


class NotPlain(OSError):
    """A link, a pipe or another file is in the place of a plain file or a folder."""

    def __init__(self, path: Path, wanted: str):
        super().__init__(errno.EINVAL, f"it isn't {wanted}", str(path))


class HeldFolder:
    """An open folder: its path, which is only for messages, and its descriptor, through which every step is done."""

    def __init__(self, path: Path, number: int):
        self.path, self.number = path, number

    def open_file(self, name: str, flags: int = os.O_RDONLY, links: Optional[int] = None) -> int:
        """The descriptor of a plain file, with so many links if a number is given. Raises NotPlain and other OSErrors,
        which have the file's path."""
        try:
            opened = os.open(name, flags | PLAIN, 0o600, dir_fd=self.number)
        except OSError as fault:
            if fault.errno in (errno.ELOOP, errno.ENXIO, errno.EISDIR):
                raise NotPlain(self.path / name, "a plain file") from fault
            raise self._name_file(fault, name) from fault
        known = os.fstat(opened)
        if stat.S_ISREG(known.st_mode) and links in (None, known.st_nlink):
            os.set_blocking(opened, True)
            return opened
        os.close(opened)
        raise NotPlain(self.path / name, "a plain file" if not stat.S_ISREG(known.st_mode) else "a file of one name")

    def opened_below(self, name: str, links: Optional[int] = None) -> int:
        """The descriptor of a plain file that lies in folders of it, by its names with a `/` between. Raises OSError."""
        *above, leaf = name.split("/")
        with contextlib.ExitStack() as opened:
            folder = self
            for each in above:
                folder = opened.enter_context(folder.folder(each))
            number = folder.open_file(leaf, links=links)
        return number

    def text(self, name: str, most: int) -> str:
        """The first bytes of a file as a text. Raises OSError."""
        with os.fdopen(self.open_file(name), "rb") as file:
            return file.read(most).decode(errors="replace")

    @contextlib.contextmanager
    def folder(self, name: str) -> Iterator[HeldFolder]:
        """A folder in it. Raises NotPlain if it is a link or no folder, and other OSErrors."""
        try:
            number = os.open(name, FOLDER | os.O_NOFOLLOW, dir_fd=self.number)
        except OSError as fault:
            if fault.errno in (errno.ELOOP, errno.ENOTDIR):
                raise NotPlain(self.path / name, "a folder") from fault
            raise self._name_file(fault, name) from fault
        with _closing(self.path / name, number) as held_folder:
            yield held_folder

    @contextlib.contextmanager
    def new_folder(self, name: str) -> Iterator[HeldFolder]:
        """A new folder of mode 0700 in it, which stays. Raises OSError, also if somebody puts another folder in its
        place."""
        try:
            os.mkdir(name, 0o700, dir_fd=self.number)
        except OSError as fault:
            raise self._name_file(fault, name) from fault
        with self.folder(name) as path:
            known = os.fstat(path.number)
            if known.st_uid != os.geteuid() or known.st_mode & 0o077:
                raise NotPlain(self.path / name, "the folder that was made")
            yield path

    @contextlib.contextmanager
    def made_folder(self, name: str) -> Iterator[HeldFolder]:
        """A folder in it, which is made with mode 0700 if it isn't there. Raises OSError, as `folder` does."""
        try:
            os.mkdir(name, 0o700, dir_fd=self.number)
        except FileExistsError:
            pass
        except OSError as fault:
            raise self._name_file(fault, name) from fault
        with self.folder(name) as path:
            yield path

    def remove(self, name: str, is_missing_ok: bool = True) -> None:
        """Removes a file, or a link itself. Raises OSError."""
        try:
            os.unlink(name, dir_fd=self.number)
        except FileNotFoundError as fault:
            if not is_missing_ok:
                raise self._name_file(fault, name) from fault
        except OSError as fault:
            raise self._name_file(fault, name) from fault

    def move(self, name: str, to: HeldFolder, as_name: str) -> None:
        """Gives a file of this folder a name in another one, or in this one. Raises OSError."""
        try:
            os.rename(name, as_name, src_dir_fd=self.number, dst_dir_fd=to.number)
        except OSError as fault:
            raise to._name_file(fault, as_name) from fault

    def write_whole(self, name: str, content: bytes, mode: int) -> None:
        """Writes a file with a mode, whole or not at all, in place of any other. Raises OSError."""
        beside = f".{name}-{secrets.token_hex(8)}"
        opened = self.open_file(beside, os.O_WRONLY | os.O_CREAT | os.O_EXCL)
        try:
            with os.fdopen(opened, "wb") as file:
                file.write(content)
                file.flush()
                os.fchmod(opened, mode)
                os.fsync(opened)
            self.move(beside, self, name)
        except BaseException as fault:
            with contextlib.suppress(OSError):
                self.remove(beside)
            raise self._name_file(fault, name) if isinstance(fault, OSError) else fault

    def has(self, name: str, status: Optional[os.stat_result] = None) -> bool:
        """Whether anything has a name in it, a link too; or whether a file has that name, as it was seen."""
        try:
            found = os.stat(name, dir_fd=self.number, follow_symlinks=False)
        except FileNotFoundError:
            return False
        return status is None or (found.st_dev, found.st_ino) == (status.st_dev, status.st_ino)

    def sync(self) -> None:
        """Waits until its names are on the disk. Raises OSError."""
        try:
            os.fsync(self.number)
        except OSError as fault:
            fault.filename = str(self.path)
            raise

    def _name_file(self, fault: OSError, name: str) -> OSError:
        """The fault, with the path of a file of this folder."""
        fault.filename, fault.filename2 = str(self.path / name), None
        return fault


@contextlib.contextmanager
def hold_folder(path: Path) -> Iterator[HeldFolder]:
    """A folder that somebody named, who may name a link to it. Raises OSError."""
    with _closing(path, os.open(path, FOLDER)) as held_folder:
        yield held_folder


def first_line(path: Path, otherwise: str) -> str:
    """The first line of a plain file in another user's folder; `otherwise` if it isn't such a file, or is empty."""
    with contextlib.suppress(OSError), hold_folder(path.parent) as folder:
        return next(iter(folder.text(path.name, LONGEST_LINE).splitlines()), otherwise)
    return otherwise


@contextlib.contextmanager
def _closing(path: Path, number: int) -> Iterator[HeldFolder]:
    """A folder until its end; then its descriptor is closed."""
    try:
        yield HeldFolder(path, number)
    finally:
        os.close(number)


# ==== JSON that another machine or another user wrote: texts and whole numbers, as the tools write it. Every other
# error is a fault of that text, and doesn't end the tool that reads it.

LAST_SECOND = 253_402_300_799
"""The last second of the year 9999, since 1970 UTC: a later moment can't be printed."""

MOST = 1 << 62
"""No number of a note comes near it."""


def plain_json(text: Union[str, bytes]) -> Any:
    """The value of a text. Raises ValueError if it isn't JSON, is nested too deep, or contains numbers that aren't
    whole."""
    try:
        return json.loads(text, parse_float=_refuse, parse_constant=_refuse)
    except RecursionError as fault:
        raise ValueError("it is nested too deep") from fault


def _refuse(text: str) -> NoReturn:
    raise ValueError(f"{text} is no whole number")


def whole_number(value: Any, most: int = MOST) -> int:
    """A whole number from 0 to `most`. Raises ValueError or TypeError if it is none."""
    number = int(value)
    if not 0 <= number <= most:
        raise ValueError(f"{str(value)[:20]} is out of range")
    return number


def moment_of(value: Any) -> int:
    """A moment in seconds since 1970 UTC. Raises ValueError or TypeError if it can't be printed."""
    return whole_number(value, LAST_SECOND)


# ==== a folder of files that is written whole or not at all


class NotPlaced(Fault):
    """A folder that can't be put in its place; one line."""


def files_of(folder: Path) -> list[str]:
    """All files of a folder, by their names in it. (A pack has tens of thousands, and no `Path` is made of each.)"""
    files = list[str]()
    for top, _, names in os.walk(folder):
        within = Path(top).relative_to(folder).as_posix()
        files += names if within == "." else [f"{within}/{name}" for name in names]
    return sorted(files)


def refuse_shared(out: Path, what: str) -> None:
    """Raises NotPlaced if others can read the content of `out`, so that nothing private takes its place."""
    if out.exists() and out.stat().st_mode & 0o077:
        raise NotPlaced(f"{out} can be read by others, and {what} may not: give it a folder of its own")


def behind_link(out: Path) -> Path:
    """The folder that a symbolic link leads to, so that the link isn't replaced by a folder; `out` itself if it is none.

    Raises NotPlaced if the link leads to nothing, for instance to a disk that isn't mounted.
    """
    if not out.is_symlink():
        return out
    try:
        return out.resolve(strict=True)
    except (OSError, RuntimeError) as fault:
        raise NotPlaced(f"{out} is a symbolic link to {os.readlink(out)}, which isn't there") from fault


@contextlib.contextmanager
def written_folder(out: Path, known_by: str, is_private: bool = True) -> Iterator[Path]:
    """A new folder, which takes the place of `out` at the end; after a fault nothing is left of it.

    An existing folder `out` is replaced as a whole if it contains the file `known_by`, so that nothing else is lost. If
    `out` is a symbolic link, the folder that it leads to is replaced, and the link stays. Only its owner can read a
    private folder. Raises NotPlaced.
    """
    out = behind_link(out)
    if out.exists() and not (out / known_by).is_file():
        raise NotPlaced(f"{out} is there already, and isn't a folder that this tool wrote: it has no {known_by}")
    try:
        out.parent.mkdir(parents=True, exist_ok=True)
        with naming(out), new_room(f".{out.name}-", out.parent) as room:
            new = room / "new"
            new.mkdir(mode=0o700 if is_private else 0o777)
            yield new
            # (what stood there is in the room for a moment)
            stays(room)
            _put(new, out, room / "old")
    except OSError as fault:
        raise NotPlaced(because_of(fault)) from fault


def _put(new: Path, out: Path, old: Path) -> None:
    """Puts a folder in its place; the former content is put aside first, and comes back if that fails. If another
    folder exists there by then, the new one stays next to it, under a name that the fault contains."""
    if not out.exists():
        new.rename(out)
        return
    out.rename(old)
    try:
        new.rename(out)
    except BaseException as fault:
        try:
            old.rename(out)
        except OSError:
            kept = out.with_name(f"{out.name}.before-{int(time.time())}")
            old.rename(kept)
            raise NotPlaced(f"{out} couldn't be replaced, and what stood there is {kept} now") from fault
        raise

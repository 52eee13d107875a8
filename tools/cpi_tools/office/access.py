"""Users of this machine: their rights on files, work that another user does, and who holds an office's file."""

from __future__ import annotations

import contextlib
import fcntl
import json
import os
import pwd
import re
import signal
import stat
import struct
import sys
import traceback
from collections.abc import Callable, Iterator
from pathlib import Path
from typing import Any, NamedTuple, NoReturn, Optional

from ..text.terminal import Fault, because_of, is_line
from .folders import plain_json


# ==== finds the program that holds an office's file: the kernel is asked, without a lock
#
# `cpi` and SQLite's C library lock the same bytes of the file. F_GETLK, which takes no lock, shows on every file system
# whether somebody holds the file. /proc names the holder: the process that has the file open under a lock.

LOCK_BEGIN, LOCK_BYTES = 0x40000000, 512
"""The locked bytes, by SQLite's file format: the pending byte, the reserved byte, and the readers' bytes."""

FLOCK = "hhqqi4x"
"""`struct flock` of fcntl(2): type, whence, start, length, process."""


class Holder(NamedTuple):
    """A process that holds a file: its number, its name, and the unit of systemd that it belongs to."""

    process: int
    name: str
    unit: Optional[str]


def is_held(path: Path) -> bool:
    """Whether another process has the lock on a file, which has to be readable. Raises OSError."""
    asked = struct.pack(FLOCK, fcntl.F_WRLCK, os.SEEK_SET, LOCK_BEGIN, LOCK_BYTES, 0)
    opened = os.open(path, os.O_RDONLY | os.O_NONBLOCK | os.O_CLOEXEC)
    try:
        found = struct.unpack(FLOCK, fcntl.fcntl(opened, fcntl.F_GETLK, asked))
    finally:
        os.close(opened)
    return bool(found[0] != fcntl.F_UNLCK)


def holders_of(path: Path) -> Iterator[Holder]:
    """The processes that hold a file, as far as this user can see them: root sees all, others their own."""
    known = path.stat()
    for process in sorted(int(each) for each in os.listdir("/proc") if each.isdecimal()):
        if process != os.getpid() and _has_locked(Path(f"/proc/{process}"), (known.st_dev, known.st_ino)):
            yield Holder(process, _name_of(process), _unit_of(process))


def _has_locked(process: Path, file: tuple[int, int]) -> bool:
    """Whether a process has a file open under a lock."""
    with contextlib.suppress(OSError):
        for opened in (process / "fd").iterdir():
            with contextlib.suppress(OSError):
                known = opened.stat()
                is_it = (known.st_dev, known.st_ino) == file
                if is_it and "\nlock:" in (process / "fdinfo" / opened.name).read_text(encoding="ascii"):
                    return True
    return False


def _name_of(process: int) -> str:
    """The name of a program. (Its arguments aren't printed: they may contain a key.)"""
    try:
        return Path(f"/proc/{process}/comm").read_text(encoding="utf-8", errors="replace").strip()
    except OSError:
        return "a program that has ended"


def _unit_of(process: int) -> Optional[str]:
    """The service of the machine that a process belongs to, None if it belongs to none."""
    with contextlib.suppress(OSError):
        return unit_in(Path(f"/proc/{process}/cgroup").read_text(encoding="utf-8", errors="replace"))
    return None


def unit_in(groups: str) -> Optional[str]:
    """`cpi.service` from the text of /proc/PID/cgroup, None if it names no service of the machine."""
    match = re.search(r"/system\.slice/(?:[^/\n]+/)*?([^/\n]+\.service)(?=/|$)", groups, re.M)
    return match[1] if match else None


# ==== the rights of a user on files, as the system decides them: by modes, groups, access lists and mounts alike


class User(NamedTuple):
    """A user: name, number and group."""

    name: str
    number: int
    group: int


def user_of(number: int) -> User:
    """The user with a number, who may have no name."""
    try:
        user = pwd.getpwuid(number)
    except KeyError:
        return User(f"user {number}", number, number)
    return User(user.pw_name, number, user.pw_gid)


def this_user() -> User:
    """The user that runs this program."""
    return user_of(os.geteuid())


@contextlib.contextmanager
def acting_as(user: User) -> Iterator[None]:
    """In this context the process has the rights of a user, which only root can take. For the own user nothing
    changes."""
    if user.number == os.geteuid():
        yield
        return
    before = os.geteuid(), os.getegid(), os.getgroups()
    try:
        os.setgroups(os.getgrouplist(user.name, user.group))
        os.setegid(user.group)
        os.seteuid(user.number)
        yield
    finally:
        os.seteuid(before[0])
        os.setegid(before[1])
        os.setgroups(before[2])


def may(path: Path, asked: int) -> bool:
    """Whether this process can read, write or execute a file: R_OK, W_OK, X_OK of `os`."""
    return os.access(path, asked, effective_ids=True)


def owner_and_mode(path: Path) -> tuple[User, str]:
    """The owner of a file, and its mode like `0600`. Raises OSError."""
    known = path.stat()
    return user_of(known.st_uid), f"{stat.S_IMODE(known.st_mode):04o}"


# ==== work that another user does: a process that has been root gives that up for good, and answers in JSON
#
# Files that root opened before stay open in it. So a user gets the files that are meant for it, and no way to others.

MOST_BYTES = 1 << 20
"""Bytes of an answer that are read."""

Work = Callable[[], dict[str, Any]]
"""The work to do; its answer contains only JSON values."""


def done_as(user: User, work: Work) -> dict[str, Any]:
    """The answer of some work that a user does. Raises the Fault of the work, or another one if its process ends
    without an answer, or if this process, which isn't root, has another user."""
    if user.number == os.geteuid():
        return work()
    if os.geteuid() != 0:
        raise Fault(f"only root or {user.name} can do this, and this is {this_user().name}")
    reading, writing = os.pipe()
    child = os.fork()
    if not child:
        os.close(reading)
        _do(user, work, writing)
    os.close(writing)
    try:
        with os.fdopen(reading, "rb") as answers:
            text = answers.read(MOST_BYTES)
    except BaseException:
        # (a process without the right to end another user's leaves that to who started both)
        with contextlib.suppress(OSError):
            os.kill(child, signal.SIGTERM)
        raise
    finally:
        _, status = os.waitpid(child, 0)
    return _answer_in(text, f"the process of {user.name} ended with status {os.waitstatus_to_exitcode(status)}")


def _answer_in(text: bytes, ended: str) -> dict[str, Any]:
    """The answer of another user's process. Raises the Fault that it says, or that it ended without an answer."""
    try:
        answer = plain_json(text)
        if "fault" in answer and is_line(str(answer["fault"])):
            raise Fault(str(answer["fault"]))
        return dict(answer["done"])
    except (ValueError, LookupError, TypeError) as fault:
        raise Fault(f"{ended}, without an answer") from fault


def _do(user: User, work: Work, writing: int) -> NoReturn:
    """Does the work as a user, writes the answer, and ends this process, whatever happens."""
    status = 1
    try:
        os.setgroups([])
        os.setresgid(user.group, user.group, user.group)
        os.setresuid(user.number, user.number, user.number)
        os.umask(0o077)
        answer = _answer_of(work)
        with os.fdopen(writing, "wb") as answers:
            answers.write(json.dumps(answer).encode())
        status = 0
    except SystemExit as end:
        status = end.code if isinstance(end.code, int) else 1
    except BaseException:  # pylint: disable=broad-except
        traceback.print_exc()
        sys.stderr.flush()
    os._exit(status)


def _answer_of(work: Work) -> dict[str, Any]:
    """The report on some work: its result, or its fault."""
    try:
        return {"done": work()}
    except Fault as fault:
        return {"fault": str(fault)}
    except OSError as fault:
        return {"fault": because_of(fault)}

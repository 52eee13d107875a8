"""A repository of Debian's borgbackup in a folder: each archive in it contains the files of one moment.

Borg runs as the user to whom the folder belongs, whoever runs the tool, so nothing in it ever belongs to another one.
Extracted bytes come through a pipe: borg writes no file for the tool, and gives none a name, an owner or a mode.

Borg's locks are folders, which stay if a run is killed. Borg takes away the locks of processes of this host that are
gone. But it knows a host by its network card, and a unit without a network has none; and once the machine has started
again, another process may have that number. So a run is named by its machine and the start of that, and locks of
earlier starts of the same machine go first. Locks of another machine stay, as on a disk that two machines share, and so
do locks of a container on the same kernel: their processes may run.
"""

from __future__ import annotations

import contextlib
import fcntl
import os
import re
import shutil
import subprocess
import tarfile
from collections.abc import Callable, Collection, Iterable, Iterator, Sequence
from datetime import datetime, timezone
from pathlib import Path
from typing import IO, Any, NamedTuple, NoReturn, Optional

from ...office.access import User
from ...office.folders import HeldFolder, hold_folder, plain_json
from ...text.terminal import Fault, because_of, write_count

LOCK_WAIT = 120
"""Seconds for which borg waits until another run has done its work in the repository."""

FOLDER = "repository"
"""The repository, in the folder of its user."""

OWN = "borg"
"""Borg's own files, in the same folder: its cache, and the repositories that it knows."""

CUT = ("--chunker-params", "fixed,16384", "--files-cache", "disabled", "--compression", "zstd,3")
"""The options that cut and pack a file: an office's file changes page by page in its place, so pieces of four pages
stay."""


MOST_BYTES = 1 << 20
"""Bytes of a file of borg's that are read here."""

FOUND = 1
"""The exit status of borg's check if it found a fault; if it couldn't do something, the status is greater."""

HOST = "cpi-keep@"
"""The beginning of the name by which borg knows the holder of a lock; the machine and its start follow."""

NO_LOCK = "Failed to create/acquire the lock"
"""Borg's message if another run works in the repository."""

LOCKED, ROSTER = "lock.exclusive", "lock.roster"
"""Borg's locks: a folder with a file for an exclusive holder, and a file that lists exclusive and shared holders."""


class Repository:
    """The repository in a folder, and the user to whom both belong."""

    def __init__(self, folder: Path, owner: User):
        self.path, self._own, self._owner = folder.absolute() / FOLDER, folder.absolute() / OWN, owner
        self._is_free = False

    def is_there(self) -> bool:
        """Whether there is a repository. Raises OSError if that can't be seen."""
        return "config" in os.listdir(self.path) if self.path.exists() else False

    def make(self) -> None:
        """Makes the repository. (Its content is as secret as the copies next to it, and protected in the same way: its
        folder is closed to others.) Raises Fault."""
        self._run("init", "--encryption", "none", str(self.path))

    def names(self) -> list[str]:
        """The names of all archives, the oldest first. Raises Fault."""
        return self._run("list", "--short", str(self.path)).decode(errors="replace").splitlines()

    def put(self, name: str, moment: int, folder: Path, files: Iterable[str]) -> None:
        """Puts files and folders of a folder into a new archive of a moment, in seconds since 1970 UTC. Raises Fault."""
        at = datetime.fromtimestamp(moment, timezone.utc).strftime("%Y-%m-%dT%H:%M:%S")
        self._run("create", *CUT, "--timestamp", at, self._at(name), *files, folder=folder)

    def take_out(self, name: str, place: Callable[[str], Optional[Path]]) -> set[str]:
        """Writes files of an archive to new files of mode 0600, each where `place` says by its name, or nowhere; which
        ones. Raises Fault and OSError."""
        self._free()
        words = self._words("export-tar", self._at(name), "-")
        with subprocess.Popen(words, stdout=subprocess.PIPE, stderr=subprocess.PIPE, **self._how()) as process:
            assert process.stdout and process.stderr
            try:
                written, cut = _write_files(process.stdout, place), ""
            except tarfile.TarError as fault:
                written, cut = set(), str(fault)
            finally:
                process.stdout.close()
            said = process.stderr.read()
        if process.returncode or cut:
            self._refuse(said or cut.encode())
        return written

    def rename(self, name: str, to: str) -> None:
        """Gives an archive another name. Raises Fault."""
        self._run("rename", self._at(name), to)

    def remove(self, names: Collection[str]) -> None:
        """Removes archives. Raises Fault."""
        self._run("delete", str(self.path), *names)

    def prune(self, begin: str, keep: Sequence[str]) -> None:
        """Removes archives whose name begins so, but those that borg's words keep, and gives their room back. (It gives
        some back each time: a repository that has much of it wants a large room at its next change.) Raises Fault."""
        self._run("prune", "--glob-archives", f"{begin}*", *keep, str(self.path))
        self._run("compact", str(self.path))

    def damage(self, seconds: int) -> str:
        """The faults of a repository: by all sums, by its index, and by the parts of each archive. Empty if nothing is.
        Raises Fault, also if that isn't known after so many seconds."""
        try:
            ran = self._ran("check", str(self.path), seconds=seconds)
        except subprocess.TimeoutExpired as fault:
            raise Fault(f"{self.path}: its check wasn't done after {write_count(seconds, 'second')}") from fault
        if ran.returncode not in (0, FOUND):
            self._refuse(ran.stderr)
        return cause_in(ran.stderr.decode(errors="replace")) if ran.returncode else ""

    # ---- running borg

    def _at(self, name: str) -> str:
        """The name that borg gives an archive."""
        return f"{self.path}::{name}"

    def _words(self, *words: str) -> list[str]:
        """The words that run borg. Raises Fault if it isn't there."""
        if not shutil.which("borg"):
            raise Fault("there is no borg, which keeps generations: Debian's package borgbackup has it")
        return ["borg", "--lock-wait", str(LOCK_WAIT), *words]

    def _how(self, folder: Optional[Path] = None) -> dict[str, Any]:
        """The arguments with which borg is run: as the owner, with nobody else's settings, and with hours and days in
        UTC."""
        kept = {"PATH": os.environ.get("PATH", os.defpath), "LC_ALL": "C.UTF-8", "TZ": "UTC"}
        kept.update(BORG_BASE_DIR=str(self._own), HOME=str(self._own), PYTHONDONTWRITEBYTECODE="1")
        kept["BORG_HOST_ID"] = this_start().host
        # (it has no key, and is where its folder is)
        kept.update(BORG_UNKNOWN_UNENCRYPTED_REPO_ACCESS_IS_OK="yes", BORG_RELOCATED_REPO_ACCESS_IS_OK="yes")
        how: dict[str, Any] = {"env": kept, "stdin": subprocess.DEVNULL, "cwd": folder or "/", "umask": 0o077}
        if self._owner.number != os.geteuid():
            how.update(user=self._owner.number, group=self._owner.group, extra_groups=[])
        return how

    def _run(self, *words: str, folder: Optional[Path] = None) -> bytes:
        """Runs borg; its output. Raises Fault with its cause in one line."""
        ran = self._ran(*words, folder=folder)
        if ran.returncode:
            self._refuse(ran.stderr)
        written: bytes = ran.stdout
        return written

    def _ran(
        self, *words: str, folder: Optional[Path] = None, seconds: Optional[int] = None
    ) -> "subprocess.CompletedProcess[bytes]":
        """Runs borg, for so many seconds at most; how it ended. Raises subprocess.TimeoutExpired, and Fault if it can't be
        started."""
        self._free()
        try:
            how = self._how(folder)
            return subprocess.run(self._words(*words), capture_output=True, check=False, timeout=seconds, **how)
        except OSError as fault:
            raise Fault(f"borg couldn't be started: {because_of(fault)}") from fault

    def _free(self) -> None:
        """Takes away the locks that runs of earlier starts of this machine left; none if anybody else has one. Raises
        Fault."""
        if self._is_free:
            return
        self._is_free = True
        try:
            with contextlib.suppress(FileNotFoundError), hold_folder(self.path) as opened:
                # (by who has done so meanwhile it is free, and may be locked anew)
                if _is_alone(opened) and self._has_only_left():
                    self._run("break-lock", str(self.path))
        except OSError as fault:
            raise Fault(because_of(fault)) from fault

    def _has_only_left(self) -> bool:
        """Whether there are locks, and all are of earlier starts of this machine. Raises OSError."""
        who = {each for folder in (self.path, *self._own.glob(".cache/borg/*")) for each in _who_locks(folder)}
        return bool(who) and all(map(this_start().is_after, who))

    def _refuse(self, said: bytes) -> NoReturn:
        """Raises Fault with the line of borg that says why."""
        cause = cause_in(said.decode(errors="replace"))
        hint = ""
        if NO_LOCK in cause:
            # (such as that of a machine that lost its power under an earlier version, which nobody can know)
            free = f"runuser -u {self._owner.name} -- env BORG_BASE_DIR={self._own} borg break-lock {self.path}"
            hint = f" Is a run of cpi-keep.service not done? Stop it, if it can't be waited for. If none runs: {free}"
        raise Fault(f"{self.path}: {cause}{hint}")


class Start(NamedTuple):
    """A start of a machine: the machine's identity, the run of its kernel, and the space in which processes have
    numbers. Parts that this user can't see are empty."""

    machine: str
    kernel: str
    space: str

    @property
    def host(self) -> str:
        """Borg's name for the holder of a lock."""
        return HOST + "_".join(self)

    def is_after(self, host: str) -> bool:
        """Whether a host, as borg names it, is an earlier start of the same machine. A part that can't be seen shows
        nothing."""
        if not host.startswith(HOST) or host.count("_") < 2:
            return False
        was = Start(*host.removeprefix(HOST).rsplit("_", 2))
        return was.machine == self.machine != "" and "" != was.kernel != self.kernel != ""


def this_start() -> Start:
    """This start of the machine."""
    space = ""
    with contextlib.suppress(OSError):
        space = str(os.stat("/proc/self/ns/pid").st_ino)
    machine = _text_of("/etc/machine-id") or os.uname().nodename
    return Start(machine, _text_of("/proc/sys/kernel/random/boot_id"), space)


def _text_of(path: str) -> str:
    """The text of a system file, in a line; empty if it isn't there, or is hidden."""
    with contextlib.suppress(OSError):
        return Path(path).read_text(encoding="ascii", errors="replace").strip()
    return ""


def _is_alone(folder: HeldFolder) -> bool:
    """Locks a folder until this process closes it; whether no other process had locked it."""
    with contextlib.suppress(OSError):
        fcntl.flock(folder.number, fcntl.LOCK_EX | fcntl.LOCK_NB)
        return True
    return False


def _who_locks(folder: Path) -> Iterator[str]:
    """The holders of locks in a folder, as borg names hosts. A name that isn't borg's isn't known. Raises OSError."""
    with contextlib.suppress(FileNotFoundError, NotADirectoryError), hold_folder(folder) as opened:
        with contextlib.suppress(FileNotFoundError), opened.folder(LOCKED) as locks:
            yield from (name.rpartition("-")[0].rpartition(".")[0] for name in os.listdir(locks.number))
        with contextlib.suppress(FileNotFoundError):
            try:
                roster = plain_json(opened.text(ROSTER, MOST_BYTES))
                yield from [str(host) for entries in roster.values() for host, *_ in entries]
            except (ValueError, LookupError, TypeError, AttributeError):
                yield ""


def _write_files(stream: IO[bytes], place: Callable[[str], Optional[Path]]) -> set[str]:
    """Writes the files of an archive that borg sends; which ones. Raises tarfile.TarError and OSError."""
    written = set[str]()
    with tarfile.open(fileobj=stream, mode="r|") as tar:
        for member in tar:
            source, to = tar.extractfile(member) if member.isreg() else None, place(member.name)
            if source and to and member.name not in written:
                to.parent.mkdir(mode=0o700, parents=True, exist_ok=True)
                opened = os.open(to, os.O_WRONLY | os.O_CREAT | os.O_EXCL | os.O_CLOEXEC, 0o600)
                with os.fdopen(opened, "wb") as file:
                    shutil.copyfileobj(source, file, 1 << 20)
                written.add(member.name)
    # (borg fills its last block up, and fails if nobody reads that)
    while stream.read(1 << 20):
        pass
    return written


def cause_in(said: str) -> str:
    """Why borg failed: the system's first fault in its output, or its first line outside of a traceback."""
    if system := re.search(r"\[Errno \d+\] (.+?)(?:: '.*)?$", said, re.M):
        return system[1]
    others = ("Local Exception", "Traceback")
    lines = [line for line in said.splitlines() if line.strip() and not line.startswith((" ", *others))]
    return lines[0] if lines else "borg failed and gave no reason"

"""Copies of the office, and its way back: backups, their drills, a restore, and a second machine."""

from __future__ import annotations

import contextlib
import glob
import os
import shutil
import time
from collections.abc import Callable
from typing import NamedTuple, Optional

from .judge import Broken, Judge, Snapshot
from .machine import Machine
from .tools import PATIENCE, Going


class Copy(NamedTuple):
    """A copy, and the offices that it can contain."""

    path: str
    snapshot: Snapshot


class Keeping:
    """Copies the office, and restores it."""

    def __init__(self, machine: Machine, judge: Judge) -> None:
        self.machine, self.judge = machine, judge
        self.copies: list[Copy] = []
        self.is_plain = False  # a wrong backup: the file without its log
        self.has_two = False  # the first machine serves again, though the second one was promoted
        self.drills = 0

    @property
    def last(self) -> Copy:
        return self.copies[-1]

    def backup(self, meanwhile: Optional[Callable[[], None]] = None) -> None:
        """Makes a backup, while something else goes on, and drills it."""
        path = os.path.join(self.machine.room, f"backup-{len(self.copies)}.db")
        snapshot = self.judge.begin_copy(self.machine.clock.now)
        if self.is_plain:
            shutil.copy(self.machine.file, path)
        else:
            going = self.machine.tools.begin("backup", self.machine.file, path)
            if meanwhile:
                wait_for_reading(going, self.machine.file)
                meanwhile()
            ended = going.end()
            if ended.status:
                raise Broken(f"a backup failed: {ended.told}")
        self.judge.end_copy(snapshot)
        self.copies.append(Copy(path, snapshot))
        self.drill(path)

    def drill(self, path: str) -> None:
        """Checks that a copy passes its drill."""
        ended = self.machine.tools.run("drill", path)
        self.drills += 1
        if ended.status not in ((0, 3) if self.is_plain else (0,)):
            raise Broken(f"a drill ends with {ended.status}: {ended.told}")

    def restore(self) -> Snapshot:
        """Puts the last backup in place of the office, and starts it."""
        shutil.copy(self.last.path, self.machine.file)
        self.judge.restored(self.last.snapshot)
        self.machine.start()
        return self.last.snapshot

    def follow(self, at: str) -> Copy:
        """One round of the follower to another machine."""
        folder = os.path.join(self.machine.room, f"second-{at}")
        os.makedirs(folder, mode=0o700, exist_ok=True)
        snapshot = self.judge.begin_copy(self.machine.clock.now)
        ended = self.machine.tools.run("follow", self.machine.file, folder, "--once")
        self.judge.end_copy(snapshot)
        if ended.status:
            raise Broken(f"a round of the follower ends with {ended.status}: {ended.told}")
        return Copy(folder, snapshot)

    def promote(self, copy: Copy) -> Snapshot:
        """Makes the second machine replace the first, which is lost."""
        ended = self.machine.tools.run("promote", copy.path, "--office", self.machine.file)
        if ended.status:
            raise Broken(f"a promotion ends with {ended.status}: {ended.told}")
        if self.has_two:
            self._take_the_first_again()
        self.judge.restored(copy.snapshot)
        self.machine.start()
        return copy.snapshot

    def _take_the_first_again(self) -> None:
        """Makes the file of the machine that was considered lost the office again, as only a wrong system does."""
        for path in glob.glob(self.machine.file + "*"):
            os.remove(path)
        for path in glob.glob(os.path.join(self.machine.room, f"burned-{self.machine.burned}", "*")):
            shutil.copy(path, self.machine.room)


def wait_for_reading(going: Going, path: str) -> None:
    """Waits until a program has a file open, or has ended."""
    until = time.monotonic() + PATIENCE
    while going.is_going and not has_open(going.process, path) and time.monotonic() < until:
        time.sleep(0.001)


def has_open(process: int, path: str) -> bool:
    """Whether a process has a file open."""
    folder = f"/proc/{process}/fd"
    with contextlib.suppress(OSError):
        for name in os.listdir(folder):
            with contextlib.suppress(OSError):
                if os.readlink(os.path.join(folder, name)) == path:
                    return True
    return False

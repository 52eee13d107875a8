"""The clock of the simulated office: its programs read the time from a file, by Debian's faketime.

The time stands still until the simulation sets it, so each message is carried out at a second that the judge knows.
"""

from __future__ import annotations

import contextlib
import glob
import os
import time

LIBRARY = "/usr/lib/{}-linux-gnu/faketime/libfaketime.so.1"


class Clock:
    """The time of the country, and by how many seconds the clock of the office differs from it."""

    def __init__(self, room: str, now: int) -> None:
        self.path = os.path.join(room, "clock")
        self.now, self.ahead = now, 0
        self.shown = -1
        self.stamps = 0
        self.jumped = 0
        """The time of its last jump."""
        self.set(now)

    @property
    def office(self) -> int:
        """The time that the office's clock shows."""
        return self.now + self.ahead

    def set(self, now: int) -> None:
        """Sets the time to this moment."""
        self.now = now
        if self.office == self.shown:
            return
        self.shown, self.stamps = self.office, 0
        with open(self.path + ".new", "w", encoding="ascii") as out:
            out.write(time.strftime("%Y-%m-%d %H:%M:%S\n", time.gmtime(self.office)))
        os.replace(self.path + ".new", self.path)

    def stamp(self, *paths: str) -> None:
        """Files were changed just now, each later than those before it: their times are of this clock too, to the
        thousandth of a second."""
        for path in paths:
            self.stamps += 1
            moment = 10**9 * self.office + 10**6 * min(self.stamps, 999)
            with contextlib.suppress(FileNotFoundError):
                os.utime(path, ns=(moment, moment))

    def jump(self, ahead: int) -> None:
        """Makes the office's clock differ by so many seconds from now on."""
        self.ahead, self.jumped = ahead, self.now
        self.set(self.now)

    def environment(self) -> dict[str, str]:
        """The environment with which a program reads this clock."""
        return faked("FAKETIME_TIMESTAMP_FILE", self.path)


def faked(name: str, value: str) -> dict[str, str]:
    """The variables of a program, one of which makes faketime set its time."""
    library = LIBRARY.format(os.uname().machine)
    more = {"FAKETIME_NO_CACHE": "1", "NO_FAKE_STAT": "1", "FAKETIME_DONT_FAKE_MONOTONIC": "1", "TZ": "UTC"}
    return {**os.environ, **more, "LD_PRELOAD": library, name: value}


def forget(process: int) -> None:
    """Removes what faketime has left in /dev/shm of a process that was killed."""
    for path in glob.glob(f"/dev/shm/*faketime_s*_{process}"):
        with contextlib.suppress(OSError):
            os.remove(path)


def is_there() -> bool:
    """Whether Debian's faketime is installed."""
    return os.path.exists(LIBRARY.format(os.uname().machine))

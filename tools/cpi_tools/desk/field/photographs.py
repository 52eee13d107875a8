"""Photographs that collectors send: each is opened in a separate process, one at a time, and written again without a
camera's additions, such as the place.

So a picture made to use up all memory and time uses up only its process's, which are bounded, and the desk's pages go
on. Nothing of the sent bytes is kept but the pixels.
"""

from __future__ import annotations

import contextlib
import os
import signal
import subprocess
import sys
import threading
from collections.abc import Iterator
from pathlib import Path
from typing import Optional

from ...text.message import Message, message as _, whole
from ...text.terminal import Fault
from .field_limits import MOST_PHOTO_BYTES, MOST_SENT_SIDE
from .one_photograph import NO_PICTURE, TOO_COSTLY, TOO_LARGE

PATIENCE = 20
"""Seconds within which a photograph is opened, however busy the machine is; else its phone sends it again later."""

MOST_WAITING = 3
"""Photographs at most that are opened or wait for it, each of another collector: they hold as many of the application's
threads, and the others are the desk's."""

MESSAGES = {
    NO_PICTURE: _("This isn't a picture: send a JPEG, PNG or WebP file."),
    TOO_LARGE: _("The picture is larger than {most} pixels on a side.", most=whole(MOST_SENT_SIDE)),
    TOO_COSTLY: _("The picture needs more memory or time than a photograph does."),
}
"""The message about a refused picture, by the status of its process."""

SIGNALS = {
    -signal.SIGXCPU: TOO_COSTLY,
    -signal.SIGSEGV: NO_PICTURE,
    -signal.SIGABRT: NO_PICTURE,
    -signal.SIGBUS: NO_PICTURE,
}
"""The meaning for its picture of a signal that ended the process."""


class NotAPicture(Fault):
    """The bytes aren't a picture that is taken; one line."""


class Busy(Exception):
    """A photograph can't be opened now, whatever it is: it is to be sent again. It has a line if the machine is at
    fault, and none if others wait."""


class Turns:
    """The photograph that is being opened, and those that wait for their turn."""

    def __init__(self) -> None:
        self._one, self._door = threading.Lock(), threading.Lock()
        self._collectors: set[int] = set()

    def is_full(self) -> bool:
        """Whether no other photograph may wait now."""
        with self._door:
            return len(self._collectors) >= MOST_WAITING

    @contextlib.contextmanager
    def turn(self, collector: int) -> Iterator[None]:
        """The turn of a collector's photograph, once it comes. Raises Busy if as many wait as may, or one of this
        collector."""
        with self._door:
            if collector in self._collectors or len(self._collectors) >= MOST_WAITING:
                raise Busy
            self._collectors.add(collector)
        try:
            with self._one:
                yield
        finally:
            with self._door:
                self._collectors.discard(collector)


def without_traces(data: bytes) -> bytes:
    """A picture as `one_photograph` writes it again. Raises NotAPicture or Busy."""
    modules = str(Path(__file__).resolve().parents[3])
    command = [sys.executable, "-m", f"{__package__}.one_photograph"]
    kept = {"PATH": os.environ.get("PATH", ""), "PYTHONPATH": modules, "PYTHONDONTWRITEBYTECODE": "1"}
    try:
        ran = subprocess.run(
            command,
            input=data,
            stdout=subprocess.PIPE,
            stderr=subprocess.DEVNULL,
            env=kept,
            timeout=PATIENCE,
            check=False,
        )
    except (OSError, subprocess.TimeoutExpired) as fault:
        raise Busy(str(fault)) from fault
    if ran.returncode == 0 and 0 < len(ran.stdout) <= MOST_PHOTO_BYTES:
        return ran.stdout
    raise _fault_of(ran.returncode)


def _fault_of(status: int) -> Exception:
    """The reason why a process wrote no JPEG: the picture is at fault, or the machine."""
    text: Optional[Message] = MESSAGES.get(SIGNALS.get(status, status))
    return NotAPicture(text) if text else Busy(f"status={status}")

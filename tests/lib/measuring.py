"""Notes the lines of cpi-tools that a Python process runs. `untested.py` makes each process of a test begin with this.

It begins when the process reads cpi-tools, so that other programs lose no time. A process may be killed at any moment,
so its lines go to its own file five times a second, not only at its end. A test sees nothing of it: the thread that
writes is none of `threading`, gets no signal, and writes by functions that were taken before a test replaced them.
"""

from __future__ import annotations

import _thread
import atexit
import importlib.abc
import os
import signal
import sys
from collections.abc import Mapping
from importlib.machinery import ModuleSpec
from os import O_APPEND, O_CREAT, O_WRONLY, close, getpid
from os import open as opened
from os import write
from select import select
from typing import Any, Optional

PACKAGE = "cpi_tools"
SECONDS = 0.2


class Measuring:
    """The lines that this process runs; those of `sources`, or of a copy of it, are noted in the folder `notes`."""

    def __init__(self, sources: str, notes: str) -> None:
        self.sources, self.notes = sources, notes
        self.names: dict[str, str] = {}
        self.noted: dict[str, set[int]] = {}
        self.lines: Mapping[str, Any] = {}
        self.writing = _thread.allocate_lock()

    def begin(self) -> None:
        """Begins to measure, in each thread from now on. Another Python than Debian's may have no coverage.py, and its
        program goes on all the same."""
        try:
            from coverage import Coverage  # type: ignore[import]
        except ImportError:
            return
        measured = Coverage(data_file=None, config_file=False, include=[f"*/{PACKAGE}/*"], check_preimported=False)
        measured.start()
        # (its own ways to save empty what it has, and may lose a line that is run meanwhile)
        self.lines = measured._collector.data
        atexit.register(self.note)
        before = signal.pthread_sigmask(signal.SIG_BLOCK, signal.valid_signals())
        try:
            _thread.start_new_thread(self.note_for_ever, ())
        finally:
            signal.pthread_sigmask(signal.SIG_SETMASK, before)

    def note_for_ever(self) -> None:
        """Notes new lines from time to time, without end."""
        while True:
            # (`time.sleep` fails under faketime)
            select([], [], [], SECONDS)
            self.note()

    def note(self) -> None:
        """Notes the new lines."""
        # (in a process that was forked meanwhile nobody gives it back)
        if not self.writing.acquire(timeout=5):
            return
        try:
            found = {file: set(lines) - self.noted.get(file, set()) for file, lines in list(self.lines.items())}
            news = {file: lines for file, lines in found.items() if lines}
            text = "".join(f"\n{self.name_of(file)}:{' '.join(map(str, lines))}." for file, lines in news.items())
            if text and self.is_written(f"{text}\n".encode()):
                for file, lines in news.items():
                    self.noted.setdefault(file, set()).update(lines)
        finally:
            self.writing.release()

    def is_written(self, data: bytes) -> bool:
        """Whether everything was written. A test may forbid all writes for a while, or take all descriptors."""
        try:
            file = opened(f"{self.notes}/{getpid()}", O_WRONLY | O_APPEND | O_CREAT, 0o666)
        except OSError:
            return False
        try:
            return write(file, data) == len(data)
        except OSError:
            return False
        finally:
            close(file)

    def name_of(self, file: str) -> str:
        """The name in the sources of a file, or of a copy of it; a file that differs has none."""
        if file not in self.names:
            name = file.rpartition(f"/{PACKAGE}/")[2]
            own = f"{self.sources}/{name}"
            self.names[file] = name if file == own or contents(file) == contents(own) else ""
        return self.names[file]


def contents(file: str) -> Optional[bytes]:
    """The content of a file; empty if it can't be read."""
    try:
        with open(file, "rb") as found:
            return found.read()
    except OSError:
        return None


class Waiting(importlib.abc.MetaPathFinder):
    """Waits until cpi-tools is read."""

    def __init__(self, measuring: Measuring) -> None:
        self.measuring = measuring

    def find_spec(self, name: str, path: object = None, target: object = None) -> Optional[ModuleSpec]:
        """Finds nothing, but begins to measure."""
        if name == PACKAGE:
            sys.meta_path.remove(self)
            self.measuring.begin()
        return None


def wait(sources: str, notes: str) -> None:
    """Measures this process once it reads cpi-tools."""
    sys.meta_path.insert(0, Waiting(Measuring(os.path.realpath(sources), notes)))


def lines_of(notes: str) -> dict[str, set[int]]:
    """The lines that all processes noted, by the names of their files."""
    lines: dict[str, set[int]] = {}
    for entry in os.scandir(notes):
        with open(entry.path, encoding="utf-8") as file:
            for line in file:
                name, colon, numbers = line.rstrip("\n").partition(":")
                # (a line without the stop at its end was cut by a fault)
                if colon and numbers.endswith("."):
                    lines.setdefault(name, set()).update(int(word) for word in numbers[:-1].split())
    return lines

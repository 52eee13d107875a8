"""What the tools share at the terminal: a line for a fault, progress, ends by signals, values as texts, and output."""

from __future__ import annotations

import argparse
import contextlib
import importlib.util
import io
import os
import re
import signal
import sys
import threading
import time
from collections.abc import Callable, Iterator
from datetime import datetime, timezone
from pathlib import Path
from types import FrameType
from typing import Any, NoReturn, Optional, TextIO, Union, cast


# ==== the functions that the tools share at the terminal: one line for a fault, progress, ends by signals, and texts of
# values

QUIET_SECONDS = 1.0
"""Work that takes no longer than this reports no progress."""


class Fault(Exception):
    """Ends a tool with its message of one line, and status 1."""


def because_of(fault: OSError) -> str:
    """A fault of the system in one line: the file, and why."""
    named = f"{fault.filename}: " if fault.filename else ""
    return f"{named}{fault.strerror or fault}"


@contextlib.contextmanager
def naming(path: Union[str, Path]) -> Iterator[None]:
    """Within this context, a fault of the system that names no file gets the name of this one: faults of reads and
    writes name none."""
    try:
        yield
    except OSError as fault:
        fault.filename = fault.filename or str(path)
        raise


# ---- values as texts


def time_text(moment: int) -> str:
    """`2026-01-25 09:00 UTC` for seconds since 1970."""
    return datetime.fromtimestamp(moment, timezone.utc).strftime("%Y-%m-%d %H:%M UTC")


def month_text(month: int) -> str:
    """`2026-01` for 202601."""
    return f"{month // 100:04}-{month % 100:02}"


MONTHS = "January February March April May June July August September October November December".split()


def month_name(month: str) -> str:
    """`January 2026` for `2026-01`."""
    return f"{MONTHS[int(month[5:]) - 1]} {month[:4]}"


def month_before(month: int) -> int:
    """The month before a month: 202512 for 202601."""
    return month - 1 if month % 100 > 1 else month - 89


def link_month(month: int) -> int:
    """December of the year before: 202512 for 202606."""
    return month // 100 * 100 - 88


def slot_text(slot: tuple[int, int]) -> str:
    """`7/2` for a collector's slot, or for the series that was first given to it."""
    return f"{slot[0]}/{slot[1]}"


def write_count(count: int, one: str) -> str:
    """A count with its noun: `1 table`, `25 tables`."""
    return f"{count:,} {one if count == 1 else one + 's'}"


def is_line(text: str) -> bool:
    """Whether a text is one line of UTF-8: the name of a file may be something else, and can't be shown then."""
    return not re.search("[\r\n\ud800-\udfff]", text)


# ---- words of the command line


class ToolWords(argparse.ArgumentParser):
    """The parser of a tool's arguments; the lines of its help are printed as they are written."""

    status_of_error = 2
    """The exit status if the arguments are refused."""

    def __init__(self, **named: Any):
        super().__init__(formatter_class=argparse.RawDescriptionHelpFormatter, **named)

    def error(self, message: str) -> NoReturn:
        """Says in one line why the arguments are refused, and ends the program."""
        self.exit(self.status_of_error, f"{self.prog}: {message} (see {self.prog} --help)\n")


def at_least(least: int) -> Callable[[str], int]:
    """A type of argparse: a whole number that isn't below `least`."""

    def number(text: str) -> int:
        if re.fullmatch(r"[0-9]{11,}", text):
            raise argparse.ArgumentTypeError(f"{text} has more than ten digits")
        if not re.fullmatch(r"[0-9]{1,10}", text) or int(text) < least:
            raise argparse.ArgumentTypeError(f"{text} isn't a whole number from {least} on")
        return int(text)

    return number


def a_file(text: str) -> Path:
    """A type of argparse: the name of a file."""
    if not text or text.endswith("/"):
        raise argparse.ArgumentTypeError(f"{text or 'an empty word'} names no file")
    return Path(text)


def a_month(text: str) -> int:
    """A type of argparse: 202601 for `2026-01`."""
    if not re.fullmatch(r"2[01][0-9]{2}-(0[1-9]|1[0-2])", text):
        raise argparse.ArgumentTypeError(f"{text} isn't a month like 2026-01")
    return int(text[:4]) * 100 + int(text[5:])


def a_moment(text: str) -> int:
    """A type of argparse: seconds since 1970, given as a number, or as a time in UTC like `2026-01-25T09:00`."""
    if re.fullmatch(r"[0-9]{1,10}", text):
        return int(text)
    try:
        moment = datetime.strptime(text.rstrip("Z"), "%Y-%m-%dT%H:%M").replace(tzinfo=timezone.utc)
    except ValueError as fault:
        raise argparse.ArgumentTypeError(f"{text} is no time like 2026-01-25T09:00, and no seconds") from fault
    return int(moment.timestamp())


def a_slot(text: str) -> tuple[int, int]:
    """A type of argparse: (7, 2) for `7/2`, a collector and a slot."""
    if not re.fullmatch(r"[1-9][0-9]{0,3}/[1-9][0-9]{0,2}", text):
        raise argparse.ArgumentTypeError(f"{text} isn't COLLECTOR/SLOT, like 7/2")
    collector, _, slot = text.partition("/")
    return int(collector), int(slot)


# ---- progress


class Progress:
    """Reports the current step on standard error, if that is a terminal and the work takes longer than a second.

    A line shows the work, its progress, and its seconds so far; it is written once a second, over the line before, and
    is deleted at the end.
    """

    def __init__(self, name: str, stream: TextIO = sys.stderr):
        self.name, self.stream = name, stream
        self.what = ""
        self.begun = time.monotonic()
        self._is_over = threading.Event()
        self._thread: Optional[threading.Thread] = None

    def now(self, what: str) -> None:
        """The current step from here on."""
        self.what = what

    def __enter__(self) -> Progress:
        if self.stream.isatty():
            self._thread = threading.Thread(target=self._tell, daemon=True)
            self._thread.start()
        return self

    def __exit__(self, *_: object) -> None:
        self._is_over.set()
        if self._thread:
            self._thread.join()

    def _tell(self) -> None:
        # (signals are the main thread's: it may hold them back for a while)
        signal.pthread_sigmask(signal.SIG_BLOCK, signal.valid_signals())
        is_told = False
        while not self._is_over.wait(QUIET_SECONDS):
            seconds = int(time.monotonic() - self.begun)
            self._write(f"\r\x1b[K{self.name}: {self.what}, {seconds} s")
            is_told = True
        if is_told:
            self._write("\r\x1b[K")

    def _write(self, text: str) -> None:
        self.stream.write(text)
        self.stream.flush()


# ---- signals

ENDING = (signal.SIGTERM, signal.SIGHUP)


@contextlib.contextmanager
def ends_by_signals() -> Iterator[None]:
    """Within this context, a signal that asks the program to end raises an exception, so that nothing unfinished is
    left.

    A signal that is ignored, as with `nohup`, stays ignored.
    """
    is_main = threading.current_thread() is threading.main_thread()
    heeded = [number for number in ENDING if is_main and signal.getsignal(number) is not signal.SIG_IGN]
    before = {number: signal.signal(number, _end) for number in heeded}
    try:
        yield
    finally:
        for number, handler in before.items():
            signal.signal(number, handler)


def _end(number: int, _: Optional[FrameType]) -> None:
    raise SystemExit(128 + number)


# ---- packages of Python


def needs(module: str, package: str) -> None:
    """Raises Fault if this Python lacks a package that one tool needs, with the package to install."""
    if importlib.util.find_spec(module) is None:
        raise Fault(
            f"{sys.executable} has no {module}: Debian's {package} has it for /usr/bin/python3,"
            " which cpi-tools takes if CPI_PYTHON names no other Python"
        )


# ==== the output of the tools on a terminal, or into a file or a pipe in its place: standard output and standard error
#
# A text of others may contain invisible characters that turn the direction of the line around them, such as
# RIGHT-TO-LEFT OVERRIDE, or that a terminal obeys. Plain text has no elements that could isolate them (`others.py`
# contains the rule for pages), so each of them is shown as a sign, `<U+202E>`.

UNSEEN = re.compile("[\u061c\u200e\u200f\u202a-\u202e\u2066-\u2069\x00-\x08\x0b-\x1f\x7f-\x9f]")
"""The characters with the property Bidi_Control (Unicode Standard Annex 9), and the controls of ISO 6429, except tab
and the end of a line."""


def show_unseen(text: str) -> str:
    """A text with a sign in place of each invisible character that turns directions or that a terminal obeys."""
    return UNSEEN.sub(lambda found: f"<U+{ord(found[0]):04X}>", text)


class CannotWrite(Fault):
    """Standard output can't be written, for instance because its disk is full; the message is one line."""


class Output(io.TextIOBase):
    """A stream (None, if it is closed) to which texts go as they are shown. Raises CannotWrite if it can't be written,
    and lets BrokenPipeError through to the caller."""

    def __init__(self, stream: Optional[TextIO], name: str):
        super().__init__()
        self._stream, self._name = stream, name

    def write(self, text: str) -> int:
        with self._open_stream() as stream:
            stream.write(show_unseen(text))
        return len(text)

    def flush(self) -> None:
        if self._stream:
            with self._open_stream() as stream:
                stream.flush()

    def isatty(self) -> bool:
        return bool(self._stream and self._stream.isatty())

    def fileno(self) -> int:
        return self._stream.fileno() if self._stream else super().fileno()

    def goes_nowhere(self) -> None:
        """Discards everything that is written from here on, and everything that waits to be written."""
        with contextlib.suppress(OSError):
            os.dup2(os.open(os.devnull, os.O_WRONLY), self.fileno())

    @contextlib.contextmanager
    def _open_stream(self) -> Iterator[TextIO]:
        """The stream, whose faults are one line."""
        if self._stream is None:
            raise CannotWrite(f"{self._name} is closed")
        try:
            yield self._stream
        except BrokenPipeError:
            raise
        except OSError as fault:
            self.goes_nowhere()
            raise CannotWrite(f"{self._name}: {fault.strerror or fault}") from fault


@contextlib.contextmanager
def shown_outputs() -> Iterator[Output]:
    """Within this context, standard output and standard error are written in this way; yields standard output."""
    out, error = Output(sys.stdout, "standard output"), Output(sys.stderr or io.StringIO(), "standard error")
    with contextlib.redirect_stdout(cast(TextIO, out)), contextlib.redirect_stderr(cast(TextIO, error)):
        yield out

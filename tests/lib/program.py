"""The program under test: its runs, and the memory and disk that a run may use."""

from __future__ import annotations

import contextlib
import resource
import signal
import subprocess
import threading
from collections.abc import Callable, Sequence
from typing import IO, Any, NamedTuple


class Ran(NamedTuple):
    """The result of a run: its status, standard output and standard error."""

    status: int
    out: bytes
    err: bytes

    def __str__(self) -> str:
        return f"status {self.status}, {self.out[:160]!r}, {self.err[:160]!r}"

    def lines(self) -> list[bytes]:
        """The lines that were written, without their ends; text after the last end isn't a line."""
        return self.out.split(b"\n")[:-1]


WELL = Ran(0, b"", b"")
"""A run that writes nothing, and has no fault."""


def failed(line: str) -> Ran:
    """A run that writes only the line of its fault."""
    return Ran(1, b"", f"cpi: {line}\n".encode())


PATIENCE = 900
"""The most seconds of a run."""


class Going:
    """A run that goes on, with pipes to it; at the end of a `with` it is killed if it still runs, and also after
    `patience` seconds, so that nobody waits for it without end."""

    def __init__(self, words: Sequence[str], patience: float = PATIENCE, **how: Any) -> None:
        how = {"stdin": subprocess.PIPE, "stdout": subprocess.PIPE, **how}
        self.process: subprocess.Popen[bytes] = subprocess.Popen(words, **how)
        self.timer = threading.Timer(patience, self.process.kill)
        self.timer.daemon = True
        self.timer.start()

    def __enter__(self) -> Going:
        return self

    def __exit__(self, *_: object) -> None:
        self.timer.cancel()
        self.process.kill()
        self.process.wait()
        for pipe in (self.process.stdin, self.process.stdout, self.process.stderr):
            if pipe:
                with contextlib.suppress(BrokenPipeError):
                    pipe.close()

    @property
    def given(self) -> IO[bytes]:
        """The pipe to its standard input."""
        assert self.process.stdin
        return self.process.stdin

    @property
    def out(self) -> IO[bytes]:
        """The pipe from its standard output."""
        assert self.process.stdout
        return self.process.stdout

    def send(self, data: bytes) -> None:
        """Sends bytes to the run at once."""
        self.given.write(data)
        self.given.flush()

    def line(self) -> bytes:
        """The next line that it writes, with its end."""
        return self.out.readline()

    def end(self, seconds: float = 60) -> Ran:
        """Ends its input, and returns its output since the last read, once it has ended."""
        out, err = self.process.communicate(timeout=seconds)
        self.timer.cancel()
        return Ran(self.process.returncode, out or b"", err or b"")


class Program:
    """A file that is run, such as cpi."""

    def __init__(self, path: str) -> None:
        self.path = path

    def run(self, *words: str | bytes, given: bytes = b"", seconds: float = 300, **how: Any) -> Ran:
        """A run with these arguments and this standard input; `how` is passed to subprocess."""
        how = {"stdout": subprocess.PIPE, "stderr": subprocess.PIPE, **how}
        how = how if "stdin" in how else {"input": given, **how}
        ran = subprocess.run([self.path, *words], timeout=seconds, check=False, **how)
        return Ran(ran.returncode, ran.stdout or b"", ran.stderr or b"")

    def replay(self, given: bytes = b"", db: str | None = None, *words: str, **how: Any) -> Ran:
        """A replay of these records, in memory or over the file."""
        return self.run("replay", *([] if db is None else ["--db", db]), *words, given=given, **how)

    def begin(self, *words: str, **how: Any) -> Going:
        """A run that goes on; `how` goes to subprocess."""
        return Going([self.path, *words], **how)


# ---- what is done in a process before it becomes the program


def with_memory(size: int) -> Callable[[], None]:
    """Limits the program to so many bytes of addresses."""
    return lambda: resource.setrlimit(resource.RLIMIT_AS, (size, size))


def with_data(size: int) -> Callable[[], None]:
    """Limits the program to so many bytes of requested memory. Its stack doesn't count: the system grows it by itself,
    and ends a program whose stack can't grow, whatever that program does."""
    return lambda: resource.setrlimit(resource.RLIMIT_DATA, (size, size))


def with_disk(most: int) -> Callable[[], None]:
    """Limits the program to files of so many bytes; a write past that fails, but doesn't kill the program."""

    def limit() -> None:
        signal.signal(signal.SIGXFSZ, signal.SIG_IGN)
        resource.setrlimit(resource.RLIMIT_FSIZE, (most, most))

    return limit

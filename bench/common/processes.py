"""What a process has used so far, by /proc; and what a command used from its start to its end."""

from __future__ import annotations

import contextlib
import os
import subprocess
import tempfile
import time
from collections.abc import Sequence
from pathlib import Path
from typing import IO, NamedTuple, Optional, Union

from cpi_tools.text.terminal import Fault


class Cost(NamedTuple):
    """What something took: seconds by the clock and of the processor, and the greatest memory of one process in MB."""

    wall: float
    processor: float
    memory: float


class Ran(NamedTuple):
    """What a command took, and what it printed."""

    cost: Cost
    output: bytes


def read_processor(process: int) -> float:
    """Seconds of the processor that a process has used, without those of processes that it started."""
    return int(Path(f"/proc/{process}/schedstat").read_text(encoding="ascii").split()[0]) / 1e9


def read_memory(process: int, field: str) -> float:
    """A figure of a process's memory in MB: `VmRSS` is what it holds, `VmHWM` the most that it held. 0 if it has
    ended."""
    try:
        lines = Path(f"/proc/{process}/status").read_text(encoding="utf-8").splitlines()
    except OSError:
        return 0.0
    return next((int(line.split()[1]) / 1024 for line in lines if line.startswith(f"{field}:")), 0.0)


def end_of(words: Sequence[str], status: int, *said: IO[bytes]) -> Fault:
    """The fault of a command that ended with another status than 0, with the end of what it wrote last."""
    for file in said:
        file.seek(0)
    texts = [file.read().decode(errors="replace").strip()[-300:] for file in said]
    return Fault(f"{' '.join(words)}: status {os.waitstatus_to_exitcode(status)}: {' '.join(filter(None, texts))}")


def run_command(words: Sequence[str], given: Union[bytes, Path] = b"", output: Optional[Path] = None) -> Ran:
    """Runs a command, whose standard input is a text or a file; the output goes to a file, or else into the answer.

    The cost counts all that it starts. (For a short process the system counts the memory that this one had when it was
    started.) Fault: the status isn't 0.
    """
    with contextlib.ExitStack() as stack:
        source = stack.enter_context(open(given, "rb") if isinstance(given, Path) else file_of(given))
        written = stack.enter_context(open(output, "w+b") if output else file_of(b""))
        faults = stack.enter_context(file_of(b""))
        begun = time.monotonic()
        process = subprocess.Popen(words, stdin=source, stdout=written, stderr=faults)
        _, status, used = os.wait4(process.pid, 0)
        wall = time.monotonic() - begun
        process.returncode = status
        if status:
            raise end_of(words, status, written, faults)
        written.seek(0)
        text = b"" if output else written.read()
    return Ran(Cost(wall, used.ru_utime + used.ru_stime, used.ru_maxrss / 1024), text)


def file_of(text: bytes) -> IO[bytes]:
    """A new file without a name that has a text, at its beginning."""
    file = tempfile.TemporaryFile()
    file.write(text)
    file.seek(0)
    return file


def watch_command(words: Sequence[str]) -> Cost:
    """Runs a command without input, whose output nobody reads. The memory is only its own, looked at 20 times a second.
    Fault: the status isn't 0."""
    begun, most, ended, status = time.monotonic(), 0.0, 0, 0
    with file_of(b"") as faults:
        process = subprocess.Popen(words, stdin=subprocess.DEVNULL, stdout=subprocess.DEVNULL, stderr=faults)
        while not ended:
            time.sleep(0.05)
            most = max(most, read_memory(process.pid, "VmHWM"))
            ended, status, used = os.wait4(process.pid, os.WNOHANG)
        process.returncode = status
        if status:
            raise end_of(words, status, faults)
    return Cost(time.monotonic() - begun, used.ru_utime + used.ru_stime, most)

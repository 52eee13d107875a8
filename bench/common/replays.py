"""A program that is fed through a pipe, record by record, and what it uses for them."""

from __future__ import annotations

import contextlib
import os
import subprocess
import threading
import time
from collections.abc import Sequence
from types import TracebackType
from typing import IO, NamedTuple, Optional

from cpi_tools.text.terminal import Fault

from .processes import read_memory, read_processor

DONE = b'{"done":true}\n'
"""The reply to a record that is carried out and gives nothing."""


class Timed(NamedTuple):
    """Seconds of the processor and by the clock for some records, and their replies."""

    processor: float
    wall: float
    replies: bytes


class Replay:
    """A process that answers each line with a line, until the context ends: `cpi replay`, or a yardstick in its
    place."""

    def __init__(self, *words: str) -> None:
        self.words = words
        self.process = subprocess.Popen(words, stdin=subprocess.PIPE, stdout=subprocess.PIPE, bufsize=0)

    def __enter__(self) -> Replay:
        return self

    def __exit__(self, kind: Optional[type[BaseException]], _: object, __: Optional[TracebackType]) -> None:
        if kind:
            self.process.kill()
        self.input.close()
        self.output.read()
        if self.process.wait() and not kind:
            raise Fault(f"{' '.join(self.words)} ended with status {self.process.returncode}")

    @property
    def input(self) -> IO[bytes]:
        """The pipe to it."""
        assert self.process.stdin
        return self.process.stdin

    @property
    def output(self) -> IO[bytes]:
        """The pipe from it."""
        assert self.process.stdout
        return self.process.stdout

    def send(self, text: bytes) -> None:
        """Writes all of a text, as far as the pipe takes some at a time, or as long as somebody reads it."""
        left = memoryview(text)
        with contextlib.suppress(BrokenPipeError):
            while left:
                left = left[self.input.write(left) :]

    def exchange(self, records: Sequence[str]) -> bytes:
        """The replies to some records. Fault: it ended before."""
        text = "".join(f"{record}\n" for record in records).encode()
        sender = threading.Thread(target=self.send, args=(text,))
        sender.start()
        replies, ended = [], 0
        while ended < len(records):
            piece = os.read(self.output.fileno(), 1 << 20)
            if not piece:
                raise Fault(f"{' '.join(self.words)} ended before all its replies")
            replies.append(piece)
            ended += piece.count(b"\n")
        sender.join()
        return b"".join(replies)

    def carry_out(self, records: Sequence[str]) -> bytes:
        """The same. Fault: one of them is refused."""
        replies = self.exchange(records)
        if refused := replies.count(b"refused"):
            raise Fault(f"{refused:,} of {len(records):,} records were refused, and none should be")
        return replies

    def rest(self) -> float:
        """Waits until it waits for input again: the seconds of the processor that it has used by then."""
        before, now = -1.0, read_processor(self.process.pid)
        while now > before:
            time.sleep(0.02)
            before, now = now, read_processor(self.process.pid)
        return now

    def time(self, records: Sequence[str]) -> Timed:
        """What some records take, from rest to rest. Fault: one of them is refused."""
        used, begun = self.rest(), time.perf_counter()
        replies = self.carry_out(records)
        wall = time.perf_counter() - begun
        return Timed(self.rest() - used, wall, replies)

    def read_processor(self) -> float:
        """Seconds of the processor that it has used so far."""
        return read_processor(self.process.pid)

    def read_memory(self, field: str = "VmRSS") -> float:
        """A figure of its memory in MB, as `processes.read_memory` has it."""
        return read_memory(self.process.pid, field)

"""cpi-tools at the machine of the office: each run is a separate process, with the office's clock."""

from __future__ import annotations

import contextlib
import json
import os
import select
import signal
import subprocess
import time
from typing import NamedTuple, Optional

from lib.places import TOP

from . import clock as clocks

START = os.path.join(TOP, "tools/cpi_tools/start")
FORKING = os.path.join(os.path.dirname(os.path.abspath(__file__)), "forking.py")

PATIENCE = 300
"""Seconds of the real clock after which something counts as hanging."""


class Ended(NamedTuple):
    """The result of a tool: its status (for a kill the negative signal), its output, and its lines about faults."""

    status: int
    out: str
    err: str

    @property
    def told(self) -> str:
        return (self.out + self.err)[-600:]


class Going:
    """A tool that runs, or has ended. Only one runs at a time."""

    def __init__(self, tools: "Tools", process: int) -> None:
        self.tools, self.process = tools, process

    @property
    def is_going(self) -> bool:
        return not self.tools.has_line(0)

    def kill(self) -> None:
        """Ends it with the signal that nobody can block, if it hasn't ended."""
        if self.is_going:
            with contextlib.suppress(ProcessLookupError):
                os.kill(self.process, signal.SIGKILL)

    def end(self) -> Ended:
        """Waits for its end; returns its result."""
        return self.tools.ended()


class Tools:
    """Starts tools, with some variables for all of them."""

    def __init__(self, room: str, environment: dict[str, str]) -> None:
        self.environment = environment
        self.files = [os.path.join(room, name) for name in ("tool.out", "tool.err")]
        self.server: Optional[subprocess.Popen[bytes]] = None
        self.heard = b""

    def begin(self, *words: str) -> Going:
        """Starts a tool."""
        if not self.server:
            pipe, words_ = subprocess.PIPE, [START, FORKING]
            self.server = subprocess.Popen(words_, stdin=pipe, stdout=pipe, bufsize=0, env=self.environment)
            self.heard = b""
        assert self.server.stdin
        self.server.stdin.write(json.dumps([*self.files, *words]).encode() + b"\n")
        return Going(self, int(self._line()))

    def has_line(self, seconds: float) -> bool:
        """Whether the server has written something unread within so many seconds."""
        assert self.server and self.server.stdout
        if b"\n" not in self.heard and select.select([self.server.stdout], [], [], seconds)[0]:
            self.heard += os.read(self.server.stdout.fileno(), 1000)
        return b"\n" in self.heard

    def _line(self) -> bytes:
        until = time.monotonic() + PATIENCE
        while not self.has_line(1):
            if time.monotonic() > until or not self.server or self.server.poll() is not None:
                raise TimeoutError("a tool hangs")
        line, _, self.heard = self.heard.partition(b"\n")
        return line

    def ended(self) -> Ended:
        """Waits for the end of the last started tool; returns its result."""
        status = int(self._line())
        told = []
        for path in self.files:
            with open(path, encoding="utf-8", errors="replace") as file:
                told.append(file.read())
        return Ended(status, *told)

    def run(self, *words: str) -> Ended:
        """Runs a tool to its end."""
        return self.begin(*words).end()

    def close(self) -> None:
        """Ends the server of the tools."""
        if self.server:
            with self.server:
                self.server.kill()
            clocks.forget(self.server.pid)
            self.server = None


def environment_of(program: str, clock: dict[str, str]) -> dict[str, str]:
    """The variables of tools that run a program with a clock; Debian's packages belong to its own Python."""
    return {**clock, "CPI": program, "CPI_PYTHON": "/usr/bin/python3"}

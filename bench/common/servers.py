"""Servers of HTTP on this machine, which run as long as somebody measures them."""

from __future__ import annotations

import contextlib
import http.client
import subprocess
from collections.abc import Iterator, Mapping, Sequence
from pathlib import Path
from typing import NamedTuple, Optional, Union

from cpi_tools.text.terminal import Fault
from lib.served import DESK, free_port

from .processes import read_memory, read_processor

PATIENCE = 600.0
"""Seconds for which somebody waits for an answer."""

MANY = 1_000_000
"""Connections, more than a bench makes."""


class Server(NamedTuple):
    """A server that listens: its process and its port."""

    process: subprocess.Popen[bytes]
    port: int

    def read_processor(self) -> float:
        """Seconds of the processor that it has used so far."""
        return read_processor(self.process.pid)

    def read_memory(self, field: str) -> float:
        """A figure of its memory in MB, as `processes.read_memory` has it."""
        return read_memory(self.process.pid, field)

    def ask(self, method: str, path: str, key: str, body: Union[bytes, str] = b"") -> bytes:
        """The answer to a request under a key, over a connection of its own. Fault: it isn't 200, or has a refusal."""
        line = http.client.HTTPConnection("127.0.0.1", self.port, timeout=PATIENCE)
        with contextlib.closing(line):
            line.request(method, path, body or None, {"Authorization": f"CPI-Key {key}"})
            answer = line.getresponse()
            text = answer.read()
        if answer.status != 200 or b"refused" in text:
            raise Fault(f"{method} {path} was answered {answer.status} {text[:100]!r}")
        return text


@contextlib.contextmanager
def start_server(words: Sequence[str]) -> Iterator[Server]:
    """A server that names its port at the end of its first line; it is killed when the context ends. Fault: it ended
    before."""
    with subprocess.Popen(words, stdout=subprocess.PIPE) as process:
        try:
            assert process.stdout
            line = process.stdout.readline()
            if not line:
                raise Fault(f"{' '.join(words)} ended before it listened")
            yield Server(process, int(line.rpartition(b":")[2]))
        finally:
            process.kill()


def words_of_office(program: str, file: Path, port: int, options: Optional[Mapping[str, str]] = None) -> list[str]:
    """The words of `cpi serve` for a file, with more options or others in place of these."""
    given = {"--db": str(file), "--port": str(port), "--desk-key": DESK, "--limit": str(MANY), **(options or {})}
    return [program, "serve", *(word for option in given.items() for word in option)]


@contextlib.contextmanager
def serve_office(
    program: str, file: Path, options: Optional[Mapping[str, str]] = None, port: int = 0
) -> Iterator[Server]:
    """The office of a file, which is served at a port, or at one that is free, until the context ends."""
    with start_server(words_of_office(program, file, port or free_port(), options)) as server:
        yield server

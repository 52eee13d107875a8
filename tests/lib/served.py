"""An office that is served, and its peers: HTTP/1.1 messages, responses byte for byte, connections."""

from __future__ import annotations

import contextlib
import itertools
import os
import re
import socket
import struct
import subprocess
from collections.abc import Sequence
from typing import Any, TypeVar

from .program import PATIENCE, Program, Ran

DESK = "d" * 31 + "e"
"""The key of the desk."""

S = TypeVar("S", bound="Served")

SECONDS = 40
"""The most seconds that a peer waits, and that a test waits for the end of the program."""


def message(line: str, *fields: str, key: str | None = None, body: bytes | None = None, end: str = "\r\n") -> bytes:
    """A message with these fields; it may contain a key, and it gives the length of its body."""
    lines = [f"{line} HTTP/1.1", *fields]
    lines += [f"Authorization: CPI-Key {key}"] if key else []
    lines += [] if body is None else [f"Content-Length: {len(body)}"]
    return "".join(each + end for each in [*lines, ""]).encode() + (body or b"")


def padded(size: int) -> bytes:
    """A message whose head has so many bytes."""
    start, end = b"GET /items HTTP/1.1\r\nX: ", b"\r\n\r\n"
    return start + b"y" * (size - len(start) - len(end)) + end


def response(status: str, body: str, media: str = "application/json", more: str = "") -> bytes:
    """A response with this body, and perhaps one more field."""
    head = f"HTTP/1.1 {status}\r\nContent-Type: {media}\r\nContent-Length: {len(body)}\r\nConnection: close\r\n"
    return (head + more + "\r\n" + body).encode()


def refused(status: str, number: int) -> bytes:
    """The response of a refusal."""
    return response(status, f'{{"refused":{number}}}\n')


FULL = refused("503 Service Unavailable", 90)

REFUSED = b"cpi: a request was refused by 90"
REOPENING = REFUSED + b", opening the file again\n"
REOPENED = REOPENING + b"cpi: the file is open again\n"
"""The lines on standard error after a connection with a 90 in its response, if more connections are to be served."""

LIMIT = b"cpi: served as many connections as --limit says\n"
"""The line on standard error at the end of the limit."""

ENDED = Ran(0, b"", LIMIT)
"""The end of a program that served the requested number of connections, none of them with a 90."""


SHAKES = [REFUSED, b"cpi: out of memory"]
"""The reasons why the book is reopened: the beginnings of lines on standard error; after the last connection the lines
end there."""

REPORTS = {*(shake + b", opening the file again\n" for shake in SHAKES), b"cpi: the file is open again\n", LIMIT}
"""The lines on standard error that don't name the fault of an end."""

LAST_REPORTS = {shake + b"\n" for shake in SHAKES}
"""The reports after the last connection, if the program ends well; otherwise the same words can be the fault."""


def without_reports(ran: Ran) -> Ran:
    """The end of a program, with the line of its fault only."""
    reports = REPORTS if ran.status else REPORTS | LAST_REPORTS
    lines = ran.err.splitlines(keepends=True)
    return ran._replace(err=b"".join(line for line in lines if line not in reports))


def ended_after(responses: Sequence[bytes]) -> Ran:
    """The end of a program that gave these responses, one for each connection of its limit."""
    has_90 = [b'"refused":90}' in each for each in responses]
    last = [REFUSED + b"\n"] if has_90[-1] else []
    return Ran(0, b"", b"".join([REOPENED] * sum(has_90[:-1]) + last + [LIMIT]))


FIRST_PORT, EACH, PARTS = 12_000, 2_000, 10
"""From this port on there are so many for each process of a run, in so many parts. (Linux gives out the ports from 32,768
on to whoever connects, or asks for any.)"""


def own_port(number: int) -> int:
    """A port from the range that only this process of the run has."""
    worker = re.sub(r"\D", "", os.environ.get("PYTEST_XDIST_WORKER", ""))
    part = (int(worker) + 1) % PARTS if worker else 0
    return FIRST_PORT + EACH * part + number % EACH


PORTS = map(own_port, itertools.count(7 * os.getpid()))
"""One after the other. (They begin elsewhere in a process that a test has started, and in that of another run.)"""


def free_port() -> int:
    """A port of this machine on which nothing listens now, and that no other process of the run gets."""
    for port in itertools.islice(PORTS, EACH):
        with contextlib.suppress(OSError), socket.socket() as one:
            one.bind(("", port))
            return port
    raise OSError("no port is free")


def words_of(path: str, port: int, limit: int, *more: str, key: str = DESK) -> list[str]:
    """The arguments with which cpi serves a file for so many connections."""
    return ["serve", "--db", path, "--port", str(port), "--desk-key", key, "--limit", str(limit), *more]


def peer_of(port: int, is_narrow: bool = False) -> socket.socket:
    """A connection; on a narrow one, little is sent before the peer accepts any."""
    one = socket.socket()
    if is_narrow:
        one.setsockopt(socket.SOL_SOCKET, socket.SO_RCVBUF, 4096)
        one.setsockopt(socket.IPPROTO_TCP, socket.TCP_MAXSEG, 536)
    one.settimeout(SECONDS)
    one.connect(("127.0.0.1", port))
    return one


def reset(peer: socket.socket) -> None:
    """Lets a connection end by a reset once it is closed."""
    peer.setsockopt(socket.SOL_SOCKET, socket.SO_LINGER, struct.pack("ii", 1, 0))


def heard(peer: socket.socket) -> bytes:
    """Everything that a peer receives from now on."""
    return b"".join(iter(lambda: peer.recv(1 << 16), b""))


def heard_until_reset(peer: socket.socket) -> bytes:
    """Everything that a peer receives from now on, if the connection may be broken off."""
    parts = []
    with contextlib.suppress(ConnectionError):
        while part := peer.recv(1 << 16):
            parts.append(part)
    return b"".join(parts)


class Served:
    """A program that serves a file, for so many connections; at the end of a `with` it is killed if it still runs."""

    def __init__(self, program: Program, path: str, limit: int, *more: str, **how: Any) -> None:
        for _ in range(5):
            self.port = free_port()
            words = words_of(path, self.port, limit, *more)
            self.going = program.begin(*words, stderr=subprocess.PIPE, patience=PATIENCE + limit, **how)
            self.first = self.going.line()
            # (another program may have taken the port meanwhile)
            if self.first or self.end().err != b"cpi: no port\n":
                break

    def __enter__(self: S) -> S:
        return self

    def __exit__(self, *_: object) -> None:
        self.going.__exit__()

    @property
    def is_listening(self) -> bool:
        """Whether its first line says so."""
        return self.first == f"cpi: listening on 127.0.0.1:{self.port}\n".encode()

    def peer(self, is_narrow: bool = False) -> socket.socket:
        """A connection to it."""
        if not self.is_listening:
            raise OSError(f"the first line is {self.first!r}")
        return peer_of(self.port, is_narrow)

    def ask(self, text: bytes, ends: bool = False) -> bytes:
        """The whole response to a message; the peer may end its side, and otherwise keeps it open."""
        with self.peer() as one:
            one.sendall(text)
            if ends:
                one.shutdown(socket.SHUT_WR)
            return heard(one)

    def ask_until_reset(self, text: bytes, ends: bool = False) -> bytes:
        """The received part of the response to a message, if the connection may be broken off."""
        with contextlib.suppress(ConnectionError), self.peer() as one:
            one.sendall(text)
            if ends:
                one.shutdown(socket.SHUT_WR)
            return heard_until_reset(one)
        return b""

    def ask_and_go(self, text: bytes) -> bytes:
        """The first bytes of a long response to a message, whose peer resets the connection after them."""
        with self.peer(is_narrow=True) as one:
            one.sendall(text)
            begun = one.recv(8)
            reset(one)
        return begun

    def end(self) -> Ran:
        """The status, the output after the first line, and the faults, once the program has ended."""
        return self.going.end(SECONDS)

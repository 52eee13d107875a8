"""Clients of the front that do as they like: each a connection, from an address of this machine that is its own."""

from __future__ import annotations

import contextlib
import http.client
import random
import socket
import time
import warnings
from collections.abc import Callable
from concurrent.futures import ThreadPoolExecutor
from typing import Optional, TypeVar

from .offices import NOW
from .stage import Stage

T = TypeVar("T")

SECONDS = 60.0
"""For which a peer waits at most."""


def address_of(number: int) -> str:
    """One of the addresses at which this machine reaches itself: limits by address take each for a client."""
    return f"127.0.{1 + number // 250}.{1 + number % 250}"


def drawn_key() -> str:
    """A key that nobody bears, another one each time, so that no limit of a key is met by it."""
    return f"{random.getrandbits(128):032x}"


class Peer:
    """A connection over TLS."""

    def __init__(self, stage: Stage, number: int = 0):
        plain = socket.create_connection(("127.0.0.1", stage.port), SECONDS, (address_of(number), 0))
        self.line = stage.context.wrap_socket(plain, server_hostname="localhost")

    @staticmethod
    def put(key: str, length: int) -> str:
        """The head of a quote with a body of so many bytes."""
        field = f"Authorization: CPI-Key {key}\r\n"
        return f"PUT /api/quote/4/{NOW} HTTP/1.1\r\nHost: localhost\r\n{field}Content-Length: {length}\r\n\r\n"

    def send(self, text: str) -> None:
        self.line.sendall(text.encode())

    def rest(self) -> bytes:
        """All that comes until the front closes."""
        found = b""
        with contextlib.suppress(OSError):
            while piece := self.line.recv(65536):
                found += piece
        return found

    def head(self) -> str:
        """What has come by now."""
        self.line.settimeout(0.01)
        with contextlib.suppress(OSError):
            return self.line.recv(4096).decode()
        return ""

    def __enter__(self) -> Peer:
        return self

    def __exit__(self, *_: object) -> None:
        self.line.close()


def asked(stage: Stage, path: str, key: Optional[str] = None, address: int = 0) -> int:
    """The status of a GET."""
    source = (address_of(address), 0)
    line = http.client.HTTPSConnection(
        "localhost", stage.port, context=stage.context, timeout=SECONDS, source_address=source
    )
    with contextlib.closing(line):
        line.request("GET", path, headers={"Authorization": f"CPI-Key {key}"} if key else {})
        answer = line.getresponse()
        answer.read()
        return answer.status


def timed(work: Callable[[], T]) -> tuple[float, T]:
    """The seconds that some work takes, and what it gives."""
    begun = time.monotonic()
    found = work()
    return time.monotonic() - begun, found


def busy(processor_seconds: float = 0.03) -> float:
    """How many times as long as on a machine without other work something takes now that the processor does."""
    begun, used = time.monotonic(), time.thread_time()
    while time.thread_time() - used < processor_seconds:
        pass
    return max(1.0, (time.monotonic() - begun) / processor_seconds)


def answered_within(seconds: float, work: Callable[[], list[tuple[float, T]]]) -> list[T]:
    """What some peers are answered, each within so many seconds of a machine without other work.

    If one of them waited longer the machine may have been at other work just then, so it is tried once more, and said so:
    what is promised holds in that trial.
    """
    for is_last in (False, True):
        before, found = busy(), work()
        longest, most = max(waited for waited, _ in found), seconds * max(before, busy())
        if longest < most or is_last:
            break
        warnings.warn(f"waited {longest:.1f} s for {most:.1f}: tried again", stacklevel=2)
    assert longest < most
    return [answer for _, answer in found]


def once(condition: Callable[[], bool], seconds: float = 60) -> bool:
    """Whether a condition holds within some seconds, looked at again and again."""
    begun = time.monotonic()
    while not condition():
        if time.monotonic() - begun > seconds:
            return False
        time.sleep(0.02)
    return True


def all_at_once(count: int, work: Callable[[int], T]) -> list[T]:
    """Does some work so often side by side, each with its number."""
    with ThreadPoolExecutor(count) as pool:
        return list(pool.map(work, range(count)))

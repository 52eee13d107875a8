"""Ways to an office, past the front and through it; each peer has an address of its own, each message a connection."""

from __future__ import annotations

import contextlib
import http.client
import ssl
import tempfile
from collections import Counter
from collections.abc import Iterable, Iterator
from pathlib import Path
from typing import NamedTuple, Optional

from cpi_tools.tryout.trial_services import Front, Place, draw_certificate
from lib.served import free_port
from web.peers import address_of

from . import TOP

PATIENCE = 120.0
"""Seconds for which a peer waits."""

ZONE = "CET-1CEST,M3.5.0,M10.5.0/3"
"""The clock of the made-up country."""


class Way(NamedTuple):
    """A way to the office: its name, its port, what is before each path, and TLS if it is spoken."""

    name: str
    port: int
    prefix: str
    context: Optional[ssl.SSLContext]

    def connect(self, number: int) -> http.client.HTTPConnection:
        """A connection of a peer, each number from an address of its own."""
        source = (address_of(number), 0)
        if self.context:
            return http.client.HTTPSConnection(
                "localhost", self.port, context=self.context, timeout=PATIENCE, source_address=source
            )
        return http.client.HTTPConnection("127.0.0.1", self.port, timeout=PATIENCE, source_address=source)

    def ask(
        self, number: int, key: Optional[str], method: str = "GET", path: str = "/tables", body: Optional[bytes] = None
    ) -> tuple[int, bytes]:
        """The status of an answer and its body; 0 if none came."""
        headers = {"Authorization": f"CPI-Key {key}"} if key else {}
        with contextlib.closing(self.connect(number)) as line, contextlib.suppress(OSError, http.client.HTTPException):
            line.request(method, f"{self.prefix}{path}", body, headers)
            answer = line.getresponse()
            return answer.status, answer.read()
        return 0, b""


class Stage(NamedTuple):
    """A folder, an nginx with ops/nginx.conf that isn't started yet, and both ways to the office."""

    folder: Path
    front: Front
    past: Way
    through: Way


@contextlib.contextmanager
def open_stage() -> Iterator[Stage]:
    """A stage in a new folder until the context ends."""
    with tempfile.TemporaryDirectory() as room:
        folder = Path(room)
        draw_certificate(folder, "localhost")
        plain = f"127.0.0.1:{free_port()}"
        place = Place("localhost", "127.0.0.1", free_port(), plain, free_port(), TOP / "web")
        context = ssl.create_default_context(cafile=str(folder / "ca.crt"))
        past, through = Way("port", place.office_port, "", None), Way("front", place.port, "/api", context)
        yield Stage(folder, Front(TOP / "ops/nginx.conf", folder, place), past, through)


def show_statuses(statuses: Iterable[int]) -> str:
    """`3 by 200, 1 by nothing`."""
    counts = sorted(Counter(statuses).items())
    return ", ".join(f"{count:,} by {status or 'nothing'}" for status, count in counts) or "none"

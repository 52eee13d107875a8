"""The line between a browser and the front: counts its bytes, stops and goes on, and is cut."""

from __future__ import annotations

import contextlib
import socket
import threading
from collections.abc import Iterator
from typing import NamedTuple

from .browser import Browser


class Counted(NamedTuple):
    """What went over a wire: bytes from the browser and from the front, TLS included and the heads of TCP and IP not,
    and how many connections were opened."""

    up: int
    down: int
    connections: int

    @property
    def both(self) -> int:
        """Bytes both ways."""
        return self.up + self.down

    def since(self, before: Counted) -> Counted:
        """What went over it after an earlier count."""
        return Counted(*(now - then for now, then in zip(self, before)))


class Wire:
    """Listens at a port of its own and hands the bytes of each connection on to another, the front's, and back.

    It knows nothing of TLS, and the certificate is for `localhost` at any port, so pages work through it as before the
    front itself. A browser takes its address, either one of its own or the one of the tests:

        with Wire(stage.port) as wire:
            browser = Browser(wire.url, stage.folder / "ca.crt", home)

        with Wire(stage.port) as wire, through(wire, browser):
            browser.open("/collect/")
            before = wire.counted()
            ...
            assert wire.counted().since(before).both < 600

    `hang` stops the flow both ways: connections stay open, new ones are taken, and nothing comes, not even an end.
    `go_on` lets it flow again, with all that was sent meanwhile. `cut` ends all connections; new ones are taken. A line
    that comes back after a while as a new one: `hang`, later `cut`, then `go_on`.
    """

    def __init__(self, to: int):
        self.to = to
        self._listener = socket.create_server(("127.0.0.1", 0), backlog=256)
        self.port: int = self._listener.getsockname()[1]
        self._lock = threading.Lock()
        self._counted = Counted(0, 0, 0)
        self._open: set[socket.socket] = set()
        self._flows = threading.Event()
        self._flows.set()
        threading.Thread(target=self._accept, daemon=True).start()

    @property
    def url(self) -> str:
        return f"https://localhost:{self.port}"

    def counted(self) -> Counted:
        """What went over it by now."""
        with self._lock:
            return self._counted

    # ---- the line

    def hang(self) -> None:
        """Stops the flow."""
        self._flows.clear()

    def go_on(self) -> None:
        """Lets it flow."""
        self._flows.set()

    @contextlib.contextmanager
    def hanging(self) -> Iterator[None]:
        """The flow stops meanwhile."""
        self.hang()
        try:
            yield
        finally:
            self.go_on()

    def cut(self) -> None:
        """Ends all connections, both ways; what is under way is lost."""
        with self._lock:
            ends = list(self._open)
        for end in ends:
            with contextlib.suppress(OSError):
                end.shutdown(socket.SHUT_RDWR)

    def close(self) -> None:
        """Takes no more connections, and ends those that are open."""
        with contextlib.suppress(OSError):
            self._listener.shutdown(socket.SHUT_RDWR)
        self._listener.close()
        self.cut()
        self.go_on()

    def __enter__(self) -> Wire:
        return self

    def __exit__(self, *_: object) -> None:
        self.close()

    # ---- its connections

    def _accept(self) -> None:
        with contextlib.suppress(OSError):
            while True:
                client, _ = self._listener.accept()
                threading.Thread(target=self._hand_on, args=(client,), daemon=True).start()

    def _hand_on(self, client: socket.socket) -> None:
        """Connects to the front, and hands on until both ways have ended."""
        with client, contextlib.suppress(OSError), socket.create_connection(("127.0.0.1", self.to)) as front:
            for end in (client, front):
                end.setsockopt(socket.IPPROTO_TCP, socket.TCP_NODELAY, 1)
            self._count(connections=1)
            with self._lock:
                self._open |= {client, front}
            back = threading.Thread(target=self._pump, args=(front, client, False), daemon=True)
            back.start()
            self._pump(client, front, True)
            back.join()
            with self._lock:
                self._open -= {client, front}

    def _pump(self, source: socket.socket, sink: socket.socket, is_up: bool) -> None:
        """Hands on what comes one way, until it ends; a fault ends both ways."""
        try:
            while piece := source.recv(65536):
                self._flows.wait()
                self._count(**{"up" if is_up else "down": len(piece)})
                sink.sendall(piece)
            self._flows.wait()
            sink.shutdown(socket.SHUT_WR)
        except OSError:
            for end in (source, sink):
                with contextlib.suppress(OSError):
                    end.shutdown(socket.SHUT_RDWR)

    def _count(self, up: int = 0, down: int = 0, connections: int = 0) -> None:
        with self._lock:
            before = self._counted
            self._counted = Counted(before.up + up, before.down + down, before.connections + connections)


@contextlib.contextmanager
def through(wire: Wire, browser: Browser) -> Iterator[Browser]:
    """The browser's addresses are those of a wire meanwhile, and it keeps nothing of them."""
    before, browser.url = browser.url, wire.url
    try:
        yield browser
    finally:
        wire.go_on()
        browser.fresh()
        browser.url = before

"""Between the front and the office: sees what the office is asked, and loses or holds replies to commands."""

from __future__ import annotations

import contextlib
import socket
import threading
import time
from typing import Optional


class Relay:
    """Listens at a port and hands each connection on to another.

    So many replies to commands as `lose` says are taken from the office and thrown away: `lost` is set once one is, and
    the front hears nothing, not even the end, while `paused` is set. While `held` is set, replies to commands wait.
    Another answer may take the place of each reply to a command (`answers_instead`), until the office answers itself again.
    """

    def __init__(self, port: int, to: int):
        self.to = to
        self.lock = threading.Lock()
        self.seen: list[tuple[bytes, bytes]] = []
        self.lost, self.paused, self.held = threading.Event(), threading.Event(), threading.Event()
        self.lose = 0
        self.times: list[float] = []
        self.instead: Optional[tuple[bytes, bool]] = None
        self.listener = socket.create_server(("127.0.0.1", port), backlog=256)
        threading.Thread(target=self._accept, daemon=True).start()

    def fresh(self) -> None:
        """As if it had just begun."""
        self.lose = 0
        self.seen, self.times = [], []
        self.instead = None
        for event in (self.lost, self.paused, self.held):
            event.clear()

    def rows(self, start: str) -> int:
        """How often a row that begins so was sent to the office."""
        return sum(row.startswith(start) for _, body in self.seen for row in body.decode().splitlines())

    def quotes(self, month: str) -> list[str]:
        """The rows of a month that were sent to the office."""
        rows = [row for head, body in self.seen if head.startswith(b"POST") for row in body.decode().splitlines()]
        return [row for row in rows if row.startswith("quote,") and row.split(",")[2] == month]

    def asked(self) -> list[str]:
        """What the office was asked: method and path."""
        return [b" ".join(head.split(b" ", 2)[:2]).decode() for head, _ in self.seen]

    def answers_instead(self, answer: bytes, is_stored: bool) -> None:
        """Each reply to a command is this one, and its connection ends; the office has it if it `is_stored`."""
        self.instead = (answer, is_stored)

    def answers(self) -> None:
        """The office answers itself."""
        self.instead = None

    def _accept(self) -> None:
        while True:
            client, _ = self.listener.accept()
            threading.Thread(target=self._hand_on, args=(client,), daemon=True).start()

    def _hand_on(self, client: socket.socket) -> None:
        seen, times = self.seen, self.times  # those of the test in which the connection began
        with client, contextlib.suppress(OSError), socket.create_connection(("127.0.0.1", self.to)) as office:
            head, body = whole_message(client)
            if not head:
                return
            with self.lock:
                seen.append((head, body))
                times.append(time.monotonic())
            is_command = not head.startswith(b"GET")
            instead = self.instead if is_command else None
            if instead and not instead[1]:
                client.sendall(instead[0])
                return
            office.sendall(head + b"\r\n\r\n" + body)
            reply = b"".join(iter(lambda: office.recv(65536), b""))
            if instead:
                reply = instead[0]
            if is_command and self._is_lost():
                return
            while is_command and self.held.is_set():
                time.sleep(0.01)
            client.sendall(reply)

    def _is_lost(self) -> bool:
        """Whether a reply is thrown away; the front hears of it once the relay isn't paused."""
        with self.lock:
            if not self.lose:
                return False
            self.lose -= 1
        self.lost.set()
        while self.paused.is_set():
            time.sleep(0.01)
        return True


def whole_message(client: socket.socket) -> tuple[bytes, bytes]:
    """Head and body of the message that comes; both empty where it is cut."""
    head = b""
    while b"\r\n\r\n" not in head:
        piece = client.recv(65536)
        if not piece:
            return b"", b""
        head += piece
    head, body = head.split(b"\r\n\r\n", 1)
    lengths = [line.split(b":")[1] for line in head.split(b"\r\n") if line.lower().startswith(b"content-length:")]
    while lengths and len(body) < int(lengths[0]):
        piece = client.recv(65536)
        if not piece:
            return b"", b""
        body += piece
    return head, body

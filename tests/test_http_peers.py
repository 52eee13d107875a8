"""Serves an office by `cpi serve`, to peers that are slow, silent, greedy or gone.

Peers that send nothing, that send a byte now and then, that take nothing of a long response or go away within it, that
close at once or not at all, or that send far more than is read: each is served or given up within its time, and the
next one is served. A peer that goes away costs no opening of the file, and loses nothing of what it asked. Nobody
answers at another address than 127.0.0.1.
"""

from __future__ import annotations

import contextlib
import errno
import os
import socket
import threading
import time
from collections.abc import Iterator

import pytest

from lib.open_office import ITEMS, KA, LONG, OPEN, QUOTE, QUOTED, QUOTES, RECEIPT, RICE, UNQUOTED, office
from lib.program import Program
from lib.served import ENDED, Served, heard, heard_until_reset, message, refused, reset

pytestmark = pytest.mark.spread

LARGE = refused("413 Payload Too Large", 10)
QUOTE_AND_ITEMS = message("POST /import", key=KA, body=b"quote,1,2026-01,price,210\nitems\n")


def served(program: Program, room: str, limit: int, records: str = OPEN) -> Served:
    """The office, served for so many connections."""
    return Served(program, office(program, room, records), limit)


@contextlib.contextmanager
def takes(least: float, most: float) -> Iterator[None]:
    """What is done takes more than the one and less than the other, in seconds."""
    began = time.monotonic()
    yield
    assert least < time.monotonic() - began < most


def drip(one: socket.socket, text: bytes, pause: float, size: int = 1) -> None:
    """Sends the bytes by so many at a time, up to the peer's end. What is late once doesn't make the rest late."""
    began = time.monotonic()
    with contextlib.suppress(OSError):
        for turn, at in enumerate(range(0, len(text), size), 1):
            one.sendall(text[at : at + size])
            time.sleep(max(0, began + turn * pause - time.monotonic()))


@contextlib.contextmanager
def dripping_meanwhile(one: socket.socket, text: bytes, pause: float) -> Iterator[None]:
    """A peer that drips while something else is done."""
    dripped = threading.Thread(target=drip, args=(one, text, pause))
    dripped.start()
    yield
    dripped.join()


# ---- peers that are slow


def test_taking_nothing(program: Program, room: str) -> None:
    """A peer that takes nothing of a long response is given up, and the next is served."""
    with served(program, room, 3, LONG) as it, it.peer(is_narrow=True) as one:
        with takes(4, 25):
            one.sendall(ITEMS)
            assert it.ask(QUOTE) == RECEIPT
        assert it.ask(QUOTES) == QUOTED
        assert it.end() == ENDED


def drip_an_entry(program: Program, room: str, size: int, wanted: bytes, quotes: bytes) -> None:
    """A peer sends so many bytes of an entry each second: what it is to hear, and the quotes that are to stand then."""
    with served(program, room, 2) as it:
        with it.peer() as one:
            drip(one, QUOTE, 1, size)
            # (a peer that is given up may be reset)
            assert heard_until_reset(one) == wanted
        assert it.ask(QUOTES) == quotes
        assert it.end() == ENDED


def test_slow(program: Program, room: str) -> None:
    """A message of 118 bytes whose last ones come after fourteen seconds does nothing, and is answered nothing."""
    drip_an_entry(program, room, 8, b"", UNQUOTED)


def test_steady(program: Program, room: str) -> None:
    """The same message is answered if its last bytes come after seven seconds."""
    drip_an_entry(program, room, 16, RECEIPT, QUOTED)


def test_dripping(program: Program, room: str) -> None:
    """A peer that sends a byte each half second is given up after ten seconds, and not after the minute that it takes;
    the one behind it is served."""
    with served(program, room, 2) as it, takes(8, 20), it.peer() as one, dripping_meanwhile(one, QUOTE, 0.5):
        time.sleep(0.2)
        assert it.ask(ITEMS) == RICE
        assert it.end() == ENDED


def test_silent(program: Program, room: str) -> None:
    """A peer that sends nothing is given up, and told nothing; the one that waits behind it is served."""
    with served(program, room, 2) as it:
        with takes(4, 9):
            one = it.peer()
            assert it.ask(ITEMS) == RICE
        with one:
            assert heard(one) == b""
        assert it.end() == ENDED


# ---- peers that stay, or send more


def test_dripping_afterwards(program: Program, room: str) -> None:
    """A peer that goes on sending after its message has its response, and is closed after a second or two."""
    with served(program, room, 2) as it, it.peer() as one:
        one.sendall(ITEMS)
        with dripping_meanwhile(one, b"x" * 100, 0.1):
            with takes(0, 4):
                assert one.recv(1 << 16) == RICE
                assert it.ask(ITEMS) == RICE
            assert it.end() == ENDED


def test_a_word_afterwards(program: Program, room: str) -> None:
    """A peer that sends a little after its response loses nothing of it, and isn't reset."""
    with served(program, room, 1) as it, it.peer() as one:
        one.sendall(QUOTE)
        begun = one.recv(1)
        one.sendall(b" and more")
        one.shutdown(socket.SHUT_WR)
        assert begun + heard(one) == RECEIPT
        assert it.end() == ENDED


def test_staying(program: Program, room: str) -> None:
    """A peer that doesn't close after its response is left after a second, and the one behind it is served."""
    with served(program, room, 2) as it, it.peer() as one:
        one.sendall(QUOTE)
        with takes(0, 4):
            assert it.ask(QUOTES) == QUOTED
        assert heard(one) == RECEIPT
        assert it.end() == ENDED


def test_far_too_much(program: Program, room: str) -> None:
    """A body of 4 MB is refused before it is read, and the peer that sends it all has its whole response."""
    big = message("POST /import", key=KA, body=b"x" * 4_000_000)
    with served(program, room, 3) as it:
        assert it.ask(big) == LARGE
        assert it.ask(ITEMS + b"x" * 1_000_000) == RICE
        assert it.ask(ITEMS) == RICE
        assert it.end() == ENDED


# ---- peers that go away, and where they are


def test_going_away(program: Program, room: str) -> None:
    """Of a peer that goes away within a long response the message stands."""
    with served(program, room, 3, LONG) as it:
        assert it.ask_and_go(QUOTE_AND_ITEMS) == b"HTTP/1.1"
        assert it.ask(QUOTES) == QUOTED
        assert it.ask(QUOTE) == RECEIPT
        assert it.end() == ENDED


def test_opened_once(program: Program, room: str) -> None:
    """A file that can't be opened again is served on after peers who go away within a long response, and at once."""
    path = office(program, room, LONG)
    with Served(program, path, 12) as it:
        os.remove(path)
        os.mkdir(path)
        with takes(0, 4):
            for _ in range(4):
                assert it.ask_and_go(QUOTE_AND_ITEMS) == b"HTTP/1.1"
                assert it.ask(QUOTES) == QUOTED
                assert it.ask(QUOTE) == RECEIPT
        assert it.end() == ENDED


def test_closing(program: Program, room: str) -> None:
    """Peers that close at once, with a reset or without, and after their message, are each one connection."""
    with served(program, room, 40) as it:
        for at in range(39):
            with it.peer() as one:
                if at % 3:
                    one.sendall(ITEMS)
                if at % 2:
                    reset(one)
        assert it.ask(ITEMS) == RICE
        assert it.end() == ENDED


def test_elsewhere(program: Program, room: str) -> None:
    """Nobody answers at another address of this machine."""
    with served(program, room, 1) as it:
        with socket.socket() as one:
            one.settimeout(10)
            assert one.connect_ex(("127.0.0.2", it.port)) == errno.ECONNREFUSED
        assert it.ask(ITEMS) == RICE
        assert it.end() == ENDED


def test_limited(program: Program, room: str) -> None:
    """After the last connection there is nobody to listen."""
    with served(program, room, 2) as it:
        assert it.ask(ITEMS) == RICE
        assert it.ask(ITEMS) == RICE
        assert it.end() == ENDED
        with pytest.raises(ConnectionRefusedError):
            it.peer().close()

"""Loads on an office while it is copied: quotes one after the other, and connections, of which some shake it.

The slots of the load's collector are priced in turn, each time at another price, so the greatest receipt that a copy
has tells which receipt each slot has to have: a copy of two moments shows, and so does a quote that is lost.
"""

from __future__ import annotations

import contextlib
import sqlite3
import subprocess
import threading
import time
from collections.abc import Iterator
from pathlib import Path
from typing import Optional

from cpi_tools.office.program import Cpi
from lib.served import free_port, heard, message, peer_of, reset, words_of
from .offices import LOAD_COLLECTOR, LOAD_KEY, LOAD_MONTH, LOAD_SLOTS

DESK_KEY = "d" * 32
BEFORE_COPIES = 30
"""So many quotes are answered before the first copy."""


def slot_of(number: int) -> int:
    """The slot of the quote whose receipt is to be `number`."""
    return number % LOAD_SLOTS + 1


def price_of(number: int) -> int:
    """Its price, another one than the slot had before."""
    return 1000 + number // LOAD_SLOTS % 2


class Load:
    """Quotes that a thread sends until the load ends; `told` is the last receipt that was answered."""

    def __init__(self, cpi: Cpi, file: Path):
        self.cpi, self.file = cpi, file
        self.told = 0
        self.rounds = 0
        self.fault: Optional[BaseException] = None
        self._is_over = threading.Event()
        self._thread = threading.Thread(target=self._run)

    @property
    def is_over(self) -> bool:
        return self._is_over.is_set()

    def work(self) -> None:
        """Works until it is over, or for a while."""
        raise NotImplementedError

    def _run(self) -> None:
        try:
            while not self.is_over:
                self.work()
                self.rounds += 1
        except BaseException as fault:  # noqa: B902 (told by whoever waits)
            self.fault = fault

    def __enter__(self) -> Load:
        self._thread.start()
        self.wait_for(BEFORE_COPIES)
        return self

    def wait_for(self, told: int) -> None:
        """Waits until so many quotes were answered."""
        while self.told < told and not self.fault:
            time.sleep(0.001)
        if self.fault:
            raise self.fault

    def __exit__(self, *_: object) -> None:
        self._is_over.set()
        self._thread.join()
        if self.fault:
            raise self.fault


class Quotes(Load):
    """Quotes by `cpi replay`, as fast as they are answered; the program ends and starts again after each `EACH`."""

    EACH = 1500

    def work(self) -> None:
        with self.cpi.session(self.file) as session:
            for _ in range(self.EACH):
                if self.is_over:
                    return
                number = self.told + 1
                words = f"{slot_of(number)},{LOAD_MONTH},price,{price_of(number)}"
                reply = session.ask(f"50,{LOAD_KEY},quote,{words}")
                assert reply == {"receipt": number}, reply
                self.told = number


class Connections(Load):
    """Quotes over `cpi serve`; after each `CALM` a peer goes away within a long reply, so the file is opened again.

    The program ends after `LIMIT` connections and starts again, as a unit of systemd has it.
    """

    CALM, LIMIT = 12, 100

    def __init__(self, cpi: Cpi, file: Path):
        super().__init__(cpi, file)
        self.port = free_port()
        self.shaken = 0

    def work(self) -> None:
        with served(self.cpi, self.file, self.port, self.LIMIT, has_end=True):
            for at in range(1, self.LIMIT + 1):
                if self.is_over:
                    return
                if at % self.CALM == 0:
                    self.shake()
                else:
                    self.quote()

    def quote(self) -> None:
        number = self.told + 1
        body = f"price,{price_of(number)}"
        with peer_of(self.port) as one:
            one.sendall(message(f"PUT /quote/{slot_of(number)}/{LOAD_MONTH}", key=LOAD_KEY, body=body.encode()))
            answer = heard(one)
        assert answer.endswith(b'{"receipt":%d}\n' % number), answer
        self.told = number

    def shake(self) -> None:
        with peer_of(self.port, is_narrow=True) as one:
            one.sendall(message("POST /import", key=LOAD_KEY, body=b"items\n" * 5000))
            assert one.recv(8) == b"HTTP/1.1"
            reset(one)
        self.shaken += 1


@contextlib.contextmanager
def served(
    cpi: Cpi, file: Path, port: int, limit: int = 1000, has_end: bool = False
) -> Iterator[subprocess.Popen[bytes]]:
    """An office that listens at a port; at the end it is killed. If it `has_end` it may end by itself until then."""
    words = words_of(str(file), port, limit, key=DESK_KEY)
    with subprocess.Popen([str(cpi.path), *words], stdout=subprocess.PIPE) as process:
        try:
            assert process.stdout
            assert process.stdout.readline() == f"cpi: listening on 127.0.0.1:{port}\n".encode()
            yield process
            if has_end:
                # (after its last connection it ends by itself, and copies its log into the file)
                with contextlib.suppress(subprocess.TimeoutExpired):
                    process.wait(2)
        finally:
            process.kill()


def faults_of(copy: Path, before: int) -> list[str]:
    """What is wrong with a copy, read by the C library, of an office under load: `before` quotes were answered
    before."""
    with contextlib.closing(sqlite3.connect(copy)) as link:
        lines = [line for (line,) in link.execute("PRAGMA integrity_check") if line != "ok"]
        rows = link.execute("SELECT slot, receipt FROM quote_2 WHERE collector = ?", (LOAD_COLLECTOR,))
        receipts = dict(rows.fetchall())
    last = max(receipts.values(), default=0)
    if last < before:
        lines.append(f"{before} quotes were answered, {last} are there")
    if receipts != {slot_of(number): number for number in range(max(1, last - LOAD_SLOTS + 1), last + 1)}:
        lines.append("it mixes two moments")
    return lines

"""The office ends after its connections and comes back: until then the front tries again what wasn't sent."""

from __future__ import annotations

import contextlib
import socket
import threading
import time
from collections.abc import Iterator
from concurrent.futures import ThreadPoolExecutor
from typing import Optional

import pytest

from .offices import ANNA, BENO, NOW
from .relay import whole_message
from .stage import Stage

ASKED: tuple[tuple[str, str, str, Optional[str]], ...] = (
    ("GET", f"/api/work/{NOW}", ANNA, None),
    ("PUT", f"/api/quote/1/{NOW}", ANNA, "price,321"),
    ("POST", "/api/import", BENO, f"quote,1,{NOW},price,270\nquote,2,{NOW},price,500\n"),
)
AWAY = 1.3
"""Seconds for which the office is away: more than one try, which is each second."""


@contextlib.contextmanager
def before_port(stage: Stage, port: int) -> Iterator[None]:
    """The front hands on to this port meanwhile, past the relay."""
    stage.front.stop()
    relay = stage.front.place.office_port
    stage.front.start(lambda text: text.replace(f"http://127.0.0.1:{relay};", f"http://127.0.0.1:{port};"))
    try:
        yield
    finally:
        stage.front.stop()
        stage.front.start()


def test_a_message_waits_for_the_office_while_nobody_listens_there(stage: Stage) -> None:
    """Each is answered as ever, once the office is back."""
    with before_port(stage, stage.office_port):
        stage.stop_office()
        with ThreadPoolExecutor(len(ASKED)) as pool:
            asked = [pool.submit(stage.ask, *it) for it in ASKED]
            time.sleep(AWAY)
            assert not any(each.done() for each in asked)
            stage.start_office()
            assert [each.result().status for each in asked] == [200] * len(ASKED)
        assert [row[2:4] for row in stage.quotes(ANNA)] == [["price", 321]]
        assert [row[2:4] for row in stage.quotes(BENO)] == [["price", 270], ["price", 500]]


class Silent:
    """Listens, reads each message, and answers none."""

    def __init__(self) -> None:
        self.listener = socket.create_server(("127.0.0.1", 0))
        self.port: int = self.listener.getsockname()[1]
        self.seen: list[str] = []
        threading.Thread(target=self._serve, daemon=True).start()

    def _serve(self) -> None:
        with contextlib.suppress(OSError):
            while True:
                peer, _ = self.listener.accept()
                with peer:
                    self.seen.append(whole_message(peer)[0].split(b" ")[0].decode())


@pytest.fixture
def silent() -> Iterator[Silent]:
    office = Silent()
    yield office
    office.listener.close()


def test_a_message_that_was_sent_is_not_sent_again_unless_it_only_reads(stage: Stage, silent: Silent) -> None:
    """One that only reads is sent once more, and no more than that: it may be what the office fails at."""
    with before_port(stage, silent.port):
        for method, path, key, body in ASKED:
            answer = stage.ask(method, path, key, body)
            assert (answer.status, answer.fields["Retry-After"]) == (502, "2")
    assert silent.seen == ["GET", "GET", "PUT", "POST"]


def test_an_office_that_ends_in_a_crowd_answers_all_who_read(stage: Stage) -> None:
    """It ends after three connections, with others in its queue, and comes back for the rest."""

    def comes_back() -> None:
        assert stage.office
        stage.office.wait(timeout=60)
        stage.stop_office()
        time.sleep(0.3)
        stage.start_office()

    with before_port(stage, stage.office_port), ThreadPoolExecutor(13) as pool:
        stage.stop_office()
        stage.start_office(limit=3)
        back = pool.submit(comes_back)
        statuses = list(pool.map(lambda _: stage.ask("GET", f"/api/work/{NOW}", ANNA).status, range(12)))
        back.result()
    assert statuses == [200] * 12

"""Long forms from people who aren't signed in at the desk: the front takes none, and neither does the application, and the
pages are there meanwhile."""

from __future__ import annotations

import contextlib
import os
import socket
import statistics
import threading
import time
from collections.abc import Callable, Iterator
from pathlib import Path

import pytest

from .desk_pages import PREFIX, DeskPages, desk_pages
from .offices import DESK
from .peers import Peer, all_at_once, answered_within, timed
from .stage import Stage

FIELDS = b"a=&" * 5_300_000
"""A form of 15.9 MB, which kept the application busy for a minute."""

FORMS = 8
"""So many come at once: one for each of its threads."""

PAGE_SECONDS, BUSY_SECONDS = 1.0, 5.0
"""The page is there within the first, or on a machine that does much else within the second."""

PROCESSOR_SECONDS = 20.0
"""What the application may use for all of them: it was a minute for each."""


@pytest.fixture
def fronted(stage: Stage, tmp_path: Path) -> Iterator[DeskPages]:
    """The application behind the front."""
    with desk_pages(stage, tmp_path, f"{stage.url}{PREFIX}/") as pages:
        yield pages


def head_of(host: str, path: str, length: int) -> bytes:
    """The head of a form."""
    return (
        f"POST {path} HTTP/1.1\r\nHost: {host}\r\nContent-Type: application/x-www-form-urlencoded\r\n"
        f"Content-Length: {length}\r\nConnection: close\r\n\r\n"
    ).encode()


def status_of(answer: bytes) -> int:
    """The status of an answer."""
    return int(answer.split(b" ", 2)[1]) if answer.startswith(b"HTTP/") else 0


def sent_to_the_front(stage: Stage, number: int) -> int:
    """What the front answers to a long form."""
    with Peer(stage, number) as peer, contextlib.suppress(OSError):
        peer.line.sendall(head_of("localhost", f"{PREFIX}/sign-in", len(FIELDS)))
        with contextlib.suppress(OSError):
            peer.line.sendall(FIELDS)
        return status_of(peer.rest())
    return 0


def sent_past_the_front(pages: DeskPages) -> bytes:
    """What the application answers to a long form of somebody at the machine."""
    with socket.socket(socket.AF_UNIX) as line:
        line.settimeout(120)
        line.connect(str(pages.socket))
        line.sendall(head_of(f"localhost:{pages.stage.port}", f"{PREFIX}/sign-in", len(FIELDS)) + FIELDS)
        front = b""
        while piece := line.recv(65536):
            front += piece
    return front


def used(pages: DeskPages) -> float:
    """The processor seconds of the application by now."""
    assert pages.process
    cells = Path(f"/proc/{pages.process.pid}/stat").read_text(encoding="ascii").rpartition(")")[2].split()
    return (int(cells[11]) + int(cells[12])) / os.sysconf("SC_CLK_TCK")


def the_page(stage: Stage) -> bytes:
    """The page to sign in, from another address than that of the forms."""
    with Peer(stage, 20) as peer:
        peer.send(f"GET {PREFIX}/sign-in HTTP/1.1\r\nHost: localhost:{stage.port}\r\nConnection: close\r\n\r\n")
        return peer.rest()


@contextlib.contextmanager
def beside(work: Callable[[], None]) -> Iterator[None]:
    """Meanwhile some work goes on."""
    thread = threading.Thread(target=work, daemon=True)
    thread.start()
    try:
        yield
    finally:
        thread.join(300)


def pages_meanwhile(stage: Stage, work: Callable[[], None]) -> list[tuple[float, bytes]]:
    """The page to sign in again and again while some work goes on: how long each took."""
    found = list[tuple[float, bytes]]()
    with beside(work):
        for _ in range(10):
            found.append(timed(lambda: the_page(stage)))
            time.sleep(0.05)
    assert statistics.median(seconds for seconds, _ in found) < PAGE_SECONDS
    return found


def test_eight_long_forms_are_refused_by_the_front_and_the_page_is_there(fronted: DeskPages, stage: Stage) -> None:
    statuses = list[int]()

    def flood() -> None:
        statuses.extend(all_at_once(FORMS, lambda _: sent_to_the_front(stage, 1)))

    before = used(fronted)
    answers = answered_within(BUSY_SECONDS, lambda: pages_meanwhile(stage, flood))
    assert {status_of(answer) for answer in answers} == {200}
    assert set(statuses) == {413} and len(statuses) >= FORMS
    assert used(fronted) - before < PROCESSOR_SECONDS


def test_eight_long_forms_past_the_front_cost_no_more_than_their_bytes(fronted: DeskPages, stage: Stage) -> None:
    told = list[bytes]()

    def flood() -> None:
        told.extend(all_at_once(FORMS, lambda _: sent_past_the_front(fronted)))

    before = used(fronted)
    answers = pages_meanwhile(stage, flood)
    assert used(fronted) - before < PROCESSOR_SECONDS
    assert {status_of(answer) for _, answer in answers} == {200}
    assert {status_of(answer) for answer in told} == {413} and len(told) == FORMS
    assert all(b"Before you sign in, a form can have at most 4,096 bytes" in answer for answer in told)


def test_a_form_of_a_person_signs_in_as_before(fronted: DeskPages, stage: Stage) -> None:
    """Also one of the greatest length that the front takes; one byte more is refused."""
    fields = {"Content_Type": "application/x-www-form-urlencoded", "Origin": stage.url}
    form = f"name=Ada&key={DESK}&to=/&x="
    for length, status in ((len(form), 303), (4_096, 303), (4_097, 413)):
        answer = stage.ask("POST", f"{PREFIX}/sign-in", body=form.ljust(length, "x"), **fields)
        assert answer.status == status, length
    # (the other forms, of people who are signed in, are as long as before)
    long = stage.ask("POST", f"{PREFIX}/records/judge", body="text=" + "x" * 1_000_000, **fields)
    assert long.status == 403 and b"Your session has ended" in long.body

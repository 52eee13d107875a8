"""Records that the desk sends by a front which answers in the office's place: what became of them is looked up."""

from __future__ import annotations

import http.client
import threading
from collections.abc import Iterator
from http.server import BaseHTTPRequestHandler, ThreadingHTTPServer
from pathlib import Path

import pytest

from cpi_tools.desk.records.desk_log import ANSWERED, LOOKED_UP, SENT
from cpi_tools.desk.serve.watched_office import NoReply, Office
from cpi_tools.office.program import Cpi
from cpi_tools.text.terminal import Fault
from lib.served import free_port
from .desk_apps import ADA
from .loads import DESK_KEY, served
from .test_desk_app_sending import OTHER, OUTLET, Stand, outlets, small

__all__ = ["small"]

pytestmark = pytest.mark.spread

ANSWERS = {
    "": (0, b""),
    "gateway": (502, b"<html>Bad Gateway</html>"),
    "other status": (503, b'{"done": true}'),
    "a list": (200, b"[]"),
    "no rows": (200, b'{"rows": []}'),
    "nothing of it": (200, b'{"tables": []}'),
}
"""What the front answers to records in the office's place: a status, and a text."""


class Front(ThreadingHTTPServer):
    """A front before an office; it passes records on or not, and `answers` in the office's place or not."""

    def __init__(self, office_port: int) -> None:
        self.office_port, self.answers, self.is_passed_on, self.posts = office_port, "", True, 0
        super().__init__(("127.0.0.1", 0), Asked)


class Asked(BaseHTTPRequestHandler):
    """A request."""

    server: Front

    def do_GET(self) -> None:
        self._answer(*self._passed_on(b""))

    def do_POST(self) -> None:
        front = self.server
        front.posts += 1
        body = self.rfile.read(int(self.headers["Content-Length"]))
        found = self._passed_on(body) if front.is_passed_on else (0, b"")
        self._answer(*(ANSWERS[front.answers] if front.answers else found))

    def _passed_on(self, body: bytes) -> tuple[int, bytes]:
        line = http.client.HTTPConnection("127.0.0.1", self.server.office_port, timeout=60)
        fields = {name: value for name, value in self.headers.items() if name == "Authorization"}
        line.request(self.command, self.path, body or None, fields)
        answer = line.getresponse()
        return answer.status, answer.read()

    def _answer(self, status: int, text: bytes) -> None:
        self.send_response(status)
        self.send_header("Content-Length", str(len(text)))
        self.end_headers()
        self.wfile.write(text)

    def log_message(self, format: str, *args: object) -> None:
        pass


@pytest.fixture
def front(cpi: Cpi, small: Path) -> Iterator[Front]:
    """A front before the small office."""
    port = free_port()
    with served(cpi, small, port, 100_000), Front(port) as front:
        thread = threading.Thread(target=front.serve_forever)
        thread.start()
        yield front
        front.shutdown()
        thread.join()


@pytest.fixture
def stand(cpi: Cpi, small: Path, tmp_path: Path, front: Front) -> Iterator[Stand]:
    stand = Stand(cpi, small, tmp_path / "log", front.server_port)
    yield stand
    stand.log.close()


@pytest.mark.sampled(4)
@pytest.mark.parametrize("answer", [name for name in ANSWERS if name])
@pytest.mark.parametrize("is_passed_on", [True, False])
def test_what_the_front_answers_is_no_reply(
    stand: Stand, small: Path, front: Front, answer: str, is_passed_on: bool
) -> None:
    """Nothing counts as carried out by such an answer, or as refused, and nothing is sent twice."""
    front.answers, front.is_passed_on = answer, is_passed_on
    assert stand.sender.send(ADA, DESK_KEY, [OUTLET]) == [{"stands": True} if is_passed_on else {"absent": True}]
    assert stand.kinds() == [SENT, LOOKED_UP] and front.posts == 1
    assert (outlets(small).get(12) == OUTLET[2]) == is_passed_on
    front.answers, front.is_passed_on = "", True
    assert stand.sender.send(ADA, DESK_KEY, [OTHER]) == [{"done": True}]
    assert stand.kinds() == [SENT, LOOKED_UP, SENT, ANSWERED] and front.posts == 2


def test_as_long_as_nobody_can_look_nothing_more_is_sent(stand: Stand, front: Front, small: Path) -> None:
    """The record waits in the log, whatever the file's state is then."""
    look_up = stand.sender._look_up

    def fails(*_: object) -> list[object]:
        raise Fault("the copy can't be taken")

    stand.sender._look_up = fails  # type: ignore[assignment]
    front.answers = "gateway"
    assert stand.sender.send(ADA, DESK_KEY, [OUTLET]) == [None]
    front.answers = ""
    with pytest.raises(Fault, match="the copy can't be taken"):
        stand.sender.send(ADA, DESK_KEY, [OTHER])
    assert (
        stand.kinds() == [SENT]
        and front.posts == 1
        and [entry.records for entry in stand.log.open_entries()] == [[OUTLET]]
    )
    stand.sender._look_up = look_up
    assert [it.replies for it in stand.sender.settle(ADA)] == [[{"stands": True}]]
    assert 13 not in outlets(small)


def test_the_fault_names_the_office_and_the_status(front: Front) -> None:
    office = Office(f"http://127.0.0.1:{front.server_port}")
    for answer, told in (
        ("gateway", "No reply came from the office at "),
        ("no rows", "doesn't answer like an office"),
    ):
        front.answers = answer
        with pytest.raises(NoReply, match=told):
            office.carry_out(DESK_KEY, [OUTLET])
    front.answers = "other status"
    with pytest.raises(NoReply, match="answered with status 503"):
        office.carry_out(DESK_KEY, [OUTLET])

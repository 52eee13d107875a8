"""Sends messages to `cpi serve`, and compares each whole response with a second reading's.

The second reading (tests/second_office/http_messages.py) follows docs/reference/FORMATS.md over the second office, and
has no code in common with the program. Each message has a connection of its own, whose peer ends what it sends. Each
test begins an office, and sends it what is served, twice; then it sends messages that are cut after each of their
bytes; heads, fields, bodies and lengths at their limits, and bytes that no head has; or 10,000 of random bytes, or
10,000 with one byte changed. A few come by Python's `http.client`, and by `curl`, if it is installed.
"""

from __future__ import annotations

import http.client
import shutil
import subprocess
from collections.abc import Sequence
from typing import Optional

import pytest

from lib import messages
from lib.messages import VALID, Compared
from lib.open_office import KA
from lib.program import Program
from lib.sample import Sample
from lib.served import ENDED, LIMIT, message
from lib.tried import fault_in

pytestmark = pytest.mark.spread

PARTS = 4
"""Into so many tests the messages of a kind are divided if they are many."""
LEFT = b"cpi: 1000 connections of --limit are left\n"


def compare(program: Program, room: str, texts: Sequence[bytes]) -> None:
    """Sends messages in their order, since each changes what the next ones are answered, to an office that was sent
    before what is served."""
    assert texts
    sent = [*VALID, *VALID, *texts]
    with Compared(program, room, len(sent)) as served:
        fault = fault_in((f"message {at}", served.fault(text)) for at, text in enumerate(sent))
        assert fault is None, fault
        assert served.end() == (0, b"", LEFT * (len(sent) > 1000) + LIMIT)


def test_limits(program: Program, room: str) -> None:
    compare(program, room, [*messages.limits()])


def test_odd_words(program: Program, room: str) -> None:
    compare(program, room, [*messages.odd_words()])


@pytest.mark.parametrize("part", range(PARTS))
def test_odd_bytes(program: Program, room: str, sample: Sample, part: int) -> None:
    compare(program, room, sample.of([*messages.odd_bytes()], 600, "odd bytes")[part::PARTS])


@pytest.mark.parametrize("part", range(PARTS))
def test_cut(program: Program, room: str, sample: Sample, part: int) -> None:
    compare(program, room, sample.of([*messages.cuts()], 600, "cuts")[part::PARTS])


@pytest.mark.parametrize("part", range(PARTS))
def test_random_bytes(program: Program, room: str, sample: Sample, part: int) -> None:
    count = sample.count(600, 10_000) // PARTS
    compare(program, room, [*messages.drawn_bytes(sample.drawn(f"random bytes {part}"), count)])


@pytest.mark.parametrize("part", range(PARTS))
def test_a_byte_changed(program: Program, room: str, sample: Sample, part: int) -> None:
    count = sample.count(2_000, 10_000) // PARTS
    compare(program, room, [*messages.changed(sample.drawn(f"a byte changed {part}"), count)])


# ---- other clients

Request = tuple[str, str, Optional[bytes]]
"""Method, path and body."""

REQUESTS: list[Request] = [
    ("GET", "/items", None),
    ("PUT", "/quote/1/2026-01", b"price,210"),
    ("GET", "/none", None),
]


def test_client_of_python(program: Program, room: str) -> None:
    """Status and body, as Python's client reads them."""
    with Compared(program, room, len(REQUESTS)) as served:
        for method, path, body in REQUESTS:
            wanted = served.wanted(message(f"{method} {path}", key=KA, body=body))
            one = http.client.HTTPConnection("127.0.0.1", served.port, timeout=40)
            one.request(method, path, body, {"Authorization": f"CPI-Key {KA}"})
            response = one.getresponse()
            found = str(response.status).encode(), response.read()
            assert found == (wanted.split(b" ")[1], wanted.partition(b"\r\n\r\n")[2])
        assert served.end() == ENDED


@pytest.mark.skipif(not shutil.which("curl"), reason="there is no curl here")
def test_curl(program: Program, room: str) -> None:
    """The whole response, as curl prints it."""
    with Compared(program, room, len(REQUESTS)) as served:
        for method, path, body in REQUESTS:
            wanted = served.wanted(message(f"{method} {path}", key=KA, body=body))
            words = ["curl", "-s", "-i", "-X", method, "-H", f"Authorization: CPI-Key {KA}"]
            words += [] if body is None else ["--data-binary", "@-"]
            words += [f"http://127.0.0.1:{served.port}{path}"]
            assert subprocess.run(words, input=body or b"", stdout=subprocess.PIPE, check=False).stdout == wanted
        assert served.end() == ENDED

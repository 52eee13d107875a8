"""The messages of tests/test_http_messages.py through the front: odd, cut, random, with a byte changed; a short run draws
a fifth of those that are drawn.

None reaches the office under a key that it did not come with, and each is answered, or closed.
"""

from __future__ import annotations

import contextlib
import random
import re
import socket
from collections import Counter
from collections.abc import Iterator

import pytest

from lib import messages, served
from lib.sample import Sample

from .offices import DESK, NOW
from .stage import Stage

SECONDS = 60.0


def drawn(sample: Sample) -> Iterator[bytes]:
    """All of them, with the paths of the front, the key of the desk, and a month whose window is open."""
    chance = random.Random(43) if sample.is_long else sample.drawn("messages through the front")
    given = [*messages.VALID, *messages.limits(), *sample.of([*messages.odd()], 400, "odd messages")]
    given += chance.sample(list(messages.cuts()), sample.count(300, 1500))
    given += messages.drawn_bytes(chance, sample.count(200, 1000))
    given += messages.changed(chance, sample.count(2_000, 10_000) - len(given))
    chance.shuffle(given)
    for at, text in enumerate(given):
        moved = re.sub(rb"(?<=^GET |^PUT )/(?!/)|(?<=^POST )/(?!/)", b"/api/", text, count=1)
        moved = moved.replace(served.DESK.encode(), DESK.encode()).replace(b"2026-01", NOW.encode())
        # (the interface asks for no Host, nginx does; a few come without)
        yield moved.replace(b"\n", b"\nHost: localhost\r\n", 1) if at % 20 else moved


def plain(text: str) -> str:
    """The front without TLS: what is tried is what comes through it, and a handshake each would take minutes."""
    text = re.sub(r"(listen 127\.0\.0\.1:\d+) ssl http2;", r"\1;", text)
    # (all of them have one address, and most one key)
    return re.sub(r"\n *limit_(req|conn) +(zone=)?cpi_(requests|address|bearer).*", "", text)


@pytest.fixture
def plain_stage(stage: Stage) -> Iterator[Stage]:
    """The stage with a front that speaks no TLS."""
    stage.front.stop()
    stage.front.start(plain)
    yield stage
    stage.front.stop()


def answered(stage: Stage, text: bytes) -> bytes:
    """What is answered to a message whose peer then ends what it sends."""
    with socket.create_connection(("127.0.0.1", stage.port), SECONDS) as line, contextlib.suppress(ConnectionError):
        line.sendall(text)
        line.shutdown(socket.SHUT_WR)
        return served.heard_until_reset(line)
    return b""


def keys_of(head: bytes) -> list[bytes]:
    """The keys that stand in the fields of a head, and nowhere else."""
    fields = re.findall(rb"(?im)^authorization:(.*?)\r?$", head)
    return [key for field in fields for key in re.findall(rb"[0-9a-fA-F]{32}", field)]


def test_no_message_reaches_the_office_under_a_key_that_it_did_not_come_with(
    plain_stage: Stage, sample: Sample
) -> None:
    told: Counter[str] = Counter()
    reached, borne = 0, 0
    for text in drawn(sample):
        before = len(plain_stage.relay.seen)
        answer = answered(plain_stage, text)
        told[answer[9:12].decode(errors="replace") if answer.startswith(b"HTTP/1.1 ") else "closed"] += 1
        came_with = keys_of(text)
        for head, _ in plain_stage.relay.seen[before:]:
            reached += 1
            borne += len(keys_of(head))
            assert len(re.findall(rb"(?i)\r\nauthorization:", head)) <= 1, head
            assert [key for key in keys_of(head) if key not in came_with] == [], (text, head)
            assert re.match(rb"(GET|PUT|POST) /[a-z]+[^ ]* HTTP/1\.1\r\n", head), head
            assert keys_of(head) or re.match(rb"GET /(items|tables|table/[^ ]*) ", head), head
    count = sum(told.values())
    assert count == sample.count(2_000, 10_000)
    assert {"200", "400", "401", "404"} <= set(told) and told["500"] == told["504"] == 0, told
    assert reached > borne > count / 10, (reached, borne, told)
    # (after all of them the office answers as before)
    assert plain_stage.office and plain_stage.office.poll() is None
    print(f"{count} messages: {reached} reached the office, {borne} of them with a key; {dict(told)}")

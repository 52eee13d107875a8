"""What comes without a key gets no further than the front, and one key takes no more than its share of the office."""

from __future__ import annotations

import contextlib
import http.client
import itertools
import json
import random
import subprocess
import time
from collections import Counter
from collections.abc import Iterator
from concurrent.futures import ThreadPoolExecutor
from typing import Any, Optional

from .offices import ANNA, BENO, NOBODY, NOW
from .peers import SECONDS, Peer, address_of, all_at_once, drawn_key, once, timed
from .stage import Stage

OWN = (
    ("GET", f"/work/{NOW}", None),
    ("GET", f"/quotes/{NOW}/{NOW}", None),
    ("PUT", f"/quote/1/{NOW}", b"price,321"),
    ("PUT", "/plan/2011", b""),
    ("POST", "/import", b"items\n"),
)
"""A message for each route that needs a key."""

MOST_ASKED = 16
"""Rows of one import that ask for something."""

ASKING = (b"items", b"tables", b"table,2011-02,csv", b"work,2011-02", b"quotes,2011-01,2011-02")


def answered(
    line: http.client.HTTPConnection, method: str, path: str, body: Optional[bytes], field: Optional[str]
) -> tuple[int, bytes]:
    """The status and the body of an answer to a message with this field `Authorization`, or without one."""
    with contextlib.closing(line):
        line.request(method, path, body, {} if field is None else {"Authorization": field})
        answer = line.getresponse()
        return answer.status, answer.read()


addresses = itertools.cycle(range(50_000))
"""Each message has an address of its own, so that its limits aren't met."""


def by_front(stage: Stage, method: str, path: str, body: Optional[bytes], field: Optional[str]) -> int:
    """What the front says, asked from one more address."""
    source = (address_of(next(addresses)), 0)
    line = http.client.HTTPSConnection(
        "localhost", stage.port, context=stage.context, timeout=SECONDS, source_address=source
    )
    return answered(line, method, f"/api{path}", body, field)[0]


def by_office(stage: Stage, method: str, path: str, body: Optional[bytes], field: Optional[str]) -> tuple[int, bytes]:
    """What the office says past the front."""
    return answered(
        http.client.HTTPConnection("127.0.0.1", stage.office_port, timeout=SECONDS), method, path, body, field
    )


def imported(stage: Stage, key: str, body: bytes) -> int:
    """The status of an import at the front."""
    return by_front(stage, "POST", "/import", body, f"CPI-Key {key}")


def head_of(key: str) -> str:
    """The first lines of an import."""
    return f"POST /api/import HTTP/1.1\r\nHost: localhost\r\nAuthorization: CPI-Key {key}\r\n"


# ---- no key


def test_who_has_no_key_costs_the_office_nothing(stage: Stage) -> None:
    """Neither without the field nor with an empty one; what everybody may ask is answered with both."""
    for field in (None, "", "  "):
        for method, path, body in OWN:
            assert by_front(stage, method, path, body, field) == 403, (method, path)
    assert stage.relay.seen == []
    for path in ("/items", "/tables", "/table/2011-02/csv"):
        assert {by_front(stage, "GET", path, None, field) for field in (None, "", "  ")} == {200}


def test_the_front_refuses_as_itself(stage: Stage) -> None:
    """Nobody takes it for the office's."""
    for key, body, status in ((None, "items\n", 403), (drawn_key(), "items\n" * 17, 413)):
        answer = stage.ask("POST", "/api/import", key, body)
        assert (answer.status, answer.fields["Content-Type"]) == (status, "text/html; charset=utf-8")
        assert answer.fields["Cache-Control"] == "no-store" and b"refused" not in answer.body


FIELDS = (
    f"CPI-Key {ANNA}", f"cpi-key {ANNA}", f"cPI-kEY    {ANNA}", f"CPI-Key {ANNA} ", f"\tCPI-Key {ANNA}\t ",
    f"CPI-Key {NOBODY}",
    f"CPI-Key\t{ANNA}", f"CPI-Key{ANNA}", f"CPI-Key {ANNA.upper()}", f"CPI-Key {ANNA}a", f"CPI-Key {ANNA[1:]}",
    f"Bearer {ANNA}", ANNA, " \t", "CPI-Key", f"CPI-Key {ANNA} {ANNA}", f"CPI-Key {ANNA},", f'CPI-Key "{ANNA}"', "\xe9",
)  # fmt: skip
"""Spellings of the field, of which the office reads some."""


def test_a_field_that_the_office_reads_reaches_it_and_no_other_does(stage: Stage) -> None:
    """What the front says of a field is what the office says, on each route."""
    for field in FIELDS:
        for method, path, body in (*OWN, ("GET", "/tables", None)):
            before = len(stage.relay.seen)
            status, _ = by_office(stage, method, path, body, field)
            assert by_front(stage, method, path, body, field) == status, (field, method, path)
            assert len(stage.relay.seen) - before == (0 if status == 400 else 1), (field, method, path)


# ---- what an import may ask


def rows_that_ask(reply: bytes) -> int:
    """How many rows of an import the office took for rows that ask."""
    words = {"items", "tables", "table", "work", "quotes"}
    return sum(bool(words & set(row)) for row in json.loads(reply)["rows"])


def written(row: bytes) -> Iterator[bytes]:
    """A row in each way that the office reads."""
    word, comma, rest = row.partition(b",")
    for first in (word, b'"%s"' % word, b'""%s' % word, b'"%s"%s' % (word[:2], word[2:])):
        yield first + comma + rest


def test_an_import_asks_sixteen_times_and_no_more(stage: Stage) -> None:
    for row, end in itertools.product(ASKING, (b"\n", b"\r\n", b"\r")):
        for one in written(row):
            for count, status in ((MOST_ASKED, 200), (MOST_ASKED + 1, 413)):
                body = b"\xef\xbb\xbf" + (one + end) * count
                assert rows_that_ask(by_office(stage, "POST", "/import", body, f"CPI-Key {ANNA}")[1]) == count
                before = len(stage.relay.seen)
                assert imported(stage, drawn_key(), body) == status, one
                assert len(stage.relay.seen) - before == (status == 200)


def odd_bodies(count: int) -> Iterator[bytes]:
    """Bodies of pieces that begin, end and hide rows."""
    draw = random.Random(20261127)
    hiding = (b'"', b'""', b",", b"\xef\xbb\xbf", b"quote,1", b"x", b" ", b"\x00", b"\xff")
    for _ in range(count):
        odd = draw.choice((0.02, 0.1, 0.3))
        pieces = (draw.choice(hiding if draw.random() < odd else ASKING) for _ in range(draw.randrange(10, 60)))
        yield b"".join(piece + draw.choice((b"\n", b"\n", b"\r", b"\r\n", b"")) for piece in pieces)


def test_no_import_that_asks_more_comes_through_however_it_is_written(stage: Stage) -> None:
    asked: Counter[bool] = Counter()
    for body in odd_bodies(150):
        status, reply = by_office(stage, "POST", "/import", body, f"CPI-Key {ANNA}")
        is_more = status == 200 and rows_that_ask(reply) > MOST_ASKED
        asked[is_more] += 1
        assert not is_more or imported(stage, drawn_key(), body) == 413, body
    assert min(asked[True], asked[False]) > 30


def test_an_import_that_sends_may_be_long_whatever_its_words(stage: Stage) -> None:
    """Words of rows that ask, within rows that send; a hundred thousand quotation marks; an empty import."""
    item = b'item,A1,"Vegetables, table salt, tables","work items",700,1500\n'
    quote = f"quote,1,{NOW},price,1\n".encode()
    for row in (item, quote, b"quote\n", b"item\n", b'"\n', b'"', b"\n", b"t", b"items"):
        assert imported(stage, drawn_key(), row * (65_536 // len(row))) == 200, row
    assert imported(stage, drawn_key(), b"") == 200
    with Peer(stage) as peer:
        peer.send(f"{head_of(ANNA)}Connection: close\r\n\r\n")
        assert peer.rest().startswith(b"HTTP/1.1 200 ")


def test_a_chunked_import_asks_no_more(stage: Stage) -> None:
    """Also where its chunks are so small that they aren't all in the front's memory."""
    for body, size, status in (
        (b"items\n" * MOST_ASKED, 1, 200),
        (b"items\n" * (MOST_ASKED + 1), 1, 413),
        (b"items\n" * 10_000, 1, 413),
        (b"items\n" * 10_000, 9_000, 413),
        (b"quote\n" * 10_000, 9_000, 200),
        (b"", 1, 200),
    ):
        chunks = [body[at : at + size] for at in range(0, len(body), size)]
        sent = b"".join(b"%x\r\n%s\r\n" % (len(chunk), chunk) for chunk in chunks) + b"0\r\n\r\n"
        with Peer(stage) as peer:
            peer.send(f"{head_of(drawn_key())}Connection: close\r\nTransfer-Encoding: chunked\r\n\r\n")
            peer.line.sendall(sent)
            assert peer.rest().startswith(f"HTTP/1.1 {status} ".encode()), (body[:6], len(body), size)


def test_an_import_of_http_2_asks_no_more(stage: Stage) -> None:
    """With its length and without: as browsers send it, and in pieces."""
    words = ["curl", "-s", "--http2", "--cacert", f"{stage.folder}/ca.crt", "-o", "/dev/null"]
    for body, status in (
        (b"items\n" * MOST_ASKED, 200),
        (b"items\n" * (MOST_ASKED + 1), 413),
        (b"quote\n" * 10_922, 200),
        (b"items\n" * 10_922, 413),
        (b"", 200),
    ):
        for field in ("Content-Type: text/csv", "Content-Length:"):  # (curl leaves out an empty one)
            sent = ["-w", "%{http_version} %{http_code}", "--data-binary", "@-", "-H", field]
            key = ["-H", f"Authorization: CPI-Key {drawn_key()}", f"{stage.url}/api/import"]
            ran = subprocess.run([*words, *sent, *key], input=body, stdout=subprocess.PIPE, check=True)
            assert ran.stdout.decode() == f"2 {status}", (body[:6], len(body), field)


# ---- what one key may take


def test_one_key_has_one_import_at_a_time_from_wherever_it_comes(stage: Stage) -> None:
    key, other = drawn_key(), drawn_key()
    with ThreadPoolExecutor(2) as beside:
        stage.relay.held.set()
        try:
            first = beside.submit(imported, stage, key, b"items\n")
            assert once(lambda: len(stage.relay.seen) == 1)
            answer = stage.ask("POST", "/api/import", key, "items\n")
            assert (answer.status, answer.fields["Retry-After"]) == (429, "2")
            for field in (f"CPI-Key {key}", f"cpi-key   {key} "):
                assert by_front(stage, "POST", "/import", b"items\n", field) == 429
            assert by_front(stage, "GET", f"/work/{NOW}", None, f"CPI-Key {key}") == 401
            second = beside.submit(imported, stage, other, b"items\n")
            assert once(lambda: len(stage.relay.seen) == 3)
        finally:
            stage.relay.held.clear()
        assert (first.result(), second.result()) == (200, 200)
    assert imported(stage, key, b"items\n") == 200


def test_the_office_has_two_long_imports_at_a_time(stage: Stage) -> None:
    """Whoever sends them; what a phone sends at once is no long one: fifty rows."""
    long, short = b"quote\n" * 700, b"quote,400,2026-11,comparable,100000000,confirm\n" * 50
    with ThreadPoolExecutor(3) as beside:
        stage.relay.held.set()
        try:
            asked = [beside.submit(imported, stage, drawn_key(), long) for _ in range(2)]
            assert once(lambda: len(stage.relay.seen) == 2)
            assert imported(stage, drawn_key(), long) == 429
            asked.append(beside.submit(imported, stage, drawn_key(), short))
            assert once(lambda: len(stage.relay.seen) == 3)
        finally:
            stage.relay.held.clear()
        assert [each.result() for each in asked] == [200] * 3
    assert imported(stage, drawn_key(), long) == 200


def test_a_key_is_counted_whatever_its_peers_do(stage: Stage) -> None:
    """A peer that is gone before its reply gives no other one room: the office has that import still."""
    key = drawn_key()
    stage.relay.held.set()
    try:
        with Peer(stage, 1) as peer:
            peer.send(f"{head_of(key)}Content-Length: 6\r\n\r\nitems\n")
            assert once(lambda: len(stage.relay.seen) == 1)
        time.sleep(0.3)
        assert imported(stage, key, b"items\n") == 429
    finally:
        stage.relay.held.clear()
    assert once(lambda: imported(stage, key, b"items\n") == 200)


def test_imports_of_a_key_are_paced(stage: Stage) -> None:
    """Of sixteen at once the last ones are held up for two seconds or so; another key isn't meanwhile."""
    key = drawn_key()
    with ThreadPoolExecutor(1) as beside:
        crowd = beside.submit(lambda: all_at_once(16, lambda _: timed(lambda: imported(stage, key, b""))))
        time.sleep(0.3)
        assert imported(stage, drawn_key(), b"") == 200
        assert not crowd.done()
        found = crowd.result()
    assert {status for _, status in found} <= {200, 429}
    held = [status for seconds, status in found if seconds > 1]
    assert held and set(held) == {200}


def test_one_key_takes_a_third_of_the_queue(stage: Stage) -> None:
    """Of fifty messages of one key, each from another address, 32 wait; another collector has a place beside them."""
    key = drawn_key()
    found: list[Any] = []

    def told(_: int) -> int:
        status = by_front(stage, "GET", f"/work/{NOW}", None, f"CPI-Key {key}")
        found.append(status)
        return status

    with stage.standing_still(), ThreadPoolExecutor(2) as beside:
        crowd = beside.submit(lambda: all_at_once(50, told))
        assert once(lambda: len(found) == 18)
        other = beside.submit(by_front, stage, "GET", f"/work/{NOW}", None, f"CPI-Key {BENO}")
        time.sleep(0.3)
        assert len(found) == 18 and not other.done()
        stage.go_on()
        assert Counter(crowd.result()) == {401: 32, 503: 18}
        assert other.result() == 200


def test_who_asks_faster_than_anybody_reads_is_told_to_wait_wherever_it_comes_from(stage: Stage) -> None:
    """Twenty messages a second, and a hundred more at once, are a key's; another key is served meanwhile."""
    key = drawn_key()
    found = all_at_once(250, lambda _: by_front(stage, "GET", f"/work/{NOW}", None, f"CPI-Key {key}"))
    assert set(found) <= {401, 429, 503} and found.count(429) > 10
    assert by_front(stage, "GET", f"/work/{NOW}", None, f"CPI-Key {BENO}") == 200


def test_no_key_that_is_refused_stands_in_a_log(stage: Stage) -> None:
    key = drawn_key()
    for field in (f"CPI-Key {key}", f"Bearer {key}", key.upper()):
        for body in (b"items\n" * 20, b""):
            by_front(stage, "POST", "/import", body, field)
    with stage.standing_still():
        with ThreadPoolExecutor(1) as beside:
            first = beside.submit(imported, stage, key, b"")
            assert once(lambda: len(stage.relay.seen) == 2)
            assert imported(stage, key, b"") == 429
            stage.go_on()
        assert first.result() == 200
    logs = stage.logs(8)
    assert key not in logs.lower() and "CPI-Key" not in logs and "Bearer" not in logs

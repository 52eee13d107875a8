"""HTTP messages to a small office: valid, at their limits, odd, cut, changed, or made of random bytes.

The office is served, and compared with a second reading of the messages, which follows docs/reference/FORMATS.md over
the second office.
"""

from __future__ import annotations

import csv
import io
import random
import time
from collections.abc import Iterator

from second_office import http_messages
from second_office.office import Office

from .fault import Fault
from .offices import LAST
from .open_office import KA, KC, OPEN, QUOTE, office
from .program import Program
from .served import DESK, Served, message, padded

SETUP = f"""{OPEN}0,desk,calendar,2025-12,0,1,1
0,desk,calendar,2026-02,0,{LAST},{LAST}
1,desk,freeze,2025-12
"""
"""The records of the office."""

PLAN = b"""T,00,A
T,01,A
T,01.1,A
T,01.1.1,A
T,01.1.1.1,A
T,01.1.1.1-01,A
W,01.1.1.1-01,1000000
I,RICE,01.1.1.1-01
"""
REFERENCES = [b"R,2025-06\n", b"R,2026-01\n", b"R,2025-06\n" * 2]
HAND_OVERS = b"handover,7,1,7,2,2026-02\nhandover,7,1,7,3,2026-01\nhandover,7,9,9,1,2026-02\n"
VALID = [
    QUOTE,
    message("PUT /quote/1/2026-01", key=KA, body=b"price,230,confirm\r\n"),
    message("PUT /quote/1/2026-01", key=KA, body=b"missing,stock"),
    message("GET /quotes/2026-01/2026-01", key=KA),
    message("GET /work/2026-01", "Host: office", key=KA),
    message("GET /items"),
    message("GET /tables", key=KC),
    message("GET /table/2026-01/text"),
    message("GET /table/2026-01/csv", key=DESK),
    message("GET /table/2025-12/text"),
    message("GET /table/2025-12/text/1"),
    message("GET /table/2025-12/csv/1", key=KA),
    # (a month that is reopened and frozen again: once, and then its calendar row stands)
    message("POST /import", key=DESK, body=b"calendar,2025-12,0,1,2\nfreeze,2025-12\ntables\n"),
    message("GET /table/2025-12/text/2"),
    message("POST /import", key=DESK, body=b'item,TEA,"Tea, green",1 kg,500,2000\noutlet,11,Market\n'),
    message("POST /import", key=KA, body=b"quote,1,2026-01,price,215\nquotes,2026-01,2026-01\nitems\n"),
    # (a series is handed over to another slot of the same collector; then what a hand-over is refused by)
    message("POST /import", key=DESK, body=HAND_OVERS),
    message("GET /work/2026-02", key=KA),
    message("PUT /quote/2/2026-02", key=KA, body=b"comparable,220"),
    message("PUT /plan/2026", key=DESK, body=b"T,00,All items\nT,01,Food\nW,01.1.1.1-01,1\n"),
    # (plans with a reference month, which stands, comes after the link month, or is two)
    *(message("PUT /plan/2026", key=DESK, body=PLAN + rows) for rows in REFERENCES),
    message("DELETE /items"),
]


LENGTHS = [
    ["9", "9"], ["9, 9"], ["-1"], ["+9"], ["18446744073709551616"], ["009"], ["\t9 \t"], [""], ["65537"], ["9 9"],
]  # fmt: skip
LINES = [
    "GET /items", "GET  /items", " GET /items", "get /items", "HEAD /items", "GET items", "GET *", "GET http://a/items",
]  # fmt: skip
TARGETS = [
    "/", "//", "/items/", "/items?a", "/table/2026-01", "/table//text", "/work/2026-13", "/table/2026-01/html",
    "/table/2026-13/text/1", "/table/2025-12/html/1", "/table/2025-12//1", "/table/2025-12/1/text",
]  # fmt: skip
REVISIONS = ["", "0", "1", "01", "9", "10", "+1", "1?", "x", "1/", "1/1"]
VERSIONS = ["HTTP/1.0", "HTTP/1.2", "HTTP/2.0", "http/1.1", "HTTP/1.1 ", "", "HTTP/1.10"]
CREDENTIALS = [
    f"cpi-key   {KA}", f"CPI-Key\t{KA}", f"CPI-Key{KA}", f"CPI-Key {KA} x", KA, "", f"Basic {KA}",
    f"CPI-Key {KA.upper()}",
]  # fmt: skip
BODIES = [
    b"", b"\n", b"price,5\nprice,6", b"price,\xff", b'"price",210', b"\xef\xbb\xbfprice,210", b"price,210,Confirm",
    b"comparable,5", b"R,2025-12", b"R,2025-13",
]  # fmt: skip
HEADS = [b"GET /items%s HTTP/1.1\r\n\r\n", b"GET%s /items HTTP/1.1\r\n\r\n", b"GET /items HTTP/1.1%s\r\n\r\n"]
FIELDS = [b"X%s: y", b"X: y%sz", b"%sX: y", b"X:%s"]


def limits() -> Iterator[bytes]:
    """Heads, fields, bodies and lengths at their limits, and past them."""
    yield from (padded(size) for size in (8191, 8192, 8193))
    yield from (message("GET /items", *["X: y"] * count) for count in (63, 64, 65))
    yield from (message("POST /import", key=KA, body=b"\n" * size) for size in (65_535, 65_536, 65_537))
    yield from (message("POST /import", key=KA, body=b"x\n" * count) for count in (20_000, 20_001))
    for values in LENGTHS:
        yield message("PUT /quote/1/2026-01", *[f"Content-Length: {each}" for each in values], key=KA) + b"price,210"
    yield from (b"\r\n" * count + padded(8192 - 2 * count) for count in (1, 100))


def odd_bytes() -> Iterator[bytes]:
    """Heads with each byte in places where most of them don't belong."""
    for byte in range(256):
        yield from (head.replace(b"%s", bytes([byte])) for head in HEADS)
        for text in FIELDS:
            yield b"GET /items HTTP/1.1\r\n" + text.replace(b"%s", bytes([byte])) + b"\r\n\r\n"


def odd() -> Iterator[bytes]:
    """Messages with parts that are rare or never occur."""
    yield from odd_bytes()
    yield from odd_words()


def odd_words() -> Iterator[bytes]:
    """Lines, targets, versions, fields and bodies that messages rarely or never contain."""
    yield from (message(line, end="\n") for line in ("GET /items", "GET /nothing"))
    for line in LINES:
        yield from (message(line), message(line, "Host: one", "Host: two"), message(line, "X: y", " folded"))
    for target in [*TARGETS, *(f"/table/2025-12/text/{revision}" for revision in REVISIONS)]:
        yield from (message(f"GET {target}"), message(f"GET {target}", key="abc"), message(f"PUT {target}", body=b"x"))
    yield from (f"GET /items {version}\r\n\r\n".encode() for version in VERSIONS)
    yield from (message("GET /work/2026-01", f"Authorization: {value}") for value in CREDENTIALS)
    yield message("GET /items", f"Authorization: CPI-Key {KA}", key=KA)
    for field in ("Transfer-Encoding: chunked", "transfer-encoding:", "TRANSFER-ENCODING: x"):
        yield message("GET /nothing", field, "Content-Length: x")
    for body in BODIES:
        yield message("PUT /quote/1/2026-01", key=KA, body=body)
        yield message("POST /import", key=KA, body=body)
        yield message("PUT /plan/2026", key=DESK, body=body)
    yield from (b"", b"GET\r\n\r\n", b"\r\n", b"GET /items HTTP/1.1", QUOTE + b"and more")


def cuts() -> Iterator[bytes]:
    """The valid messages, each cut after each of its bytes."""
    return (text[:at] for text in VALID for at in range(len(text)))


def drawn_bytes(drawn: random.Random, count: int) -> Iterator[bytes]:
    """So many messages of random bytes."""
    for _ in range(count):
        yield drawn.randbytes(drawn.choice([1, 8, 60, 200])) + drawn.choice([b"", b"\n", b"\r\n\r\n"])


def changed(drawn: random.Random, count: int) -> Iterator[bytes]:
    """So many valid messages with one byte changed."""
    for _ in range(count):
        text = bytearray(drawn.choice(VALID))
        text[drawn.randrange(len(text))] = drawn.randrange(256)
        yield bytes(text)


class Compared(Served):
    """The office of these messages in a new file, served, and the second reading of the messages sent to it."""

    def __init__(self, program: Program, room: str, limit: int) -> None:
        self.path = office(program, room, SETUP)
        super().__init__(program, self.path, limit)
        self.office = Office()
        for record in csv.reader(io.StringIO(SETUP)):
            self.office.reply(record)

    def wanted(self, text: bytes) -> bytes:
        """The response that the second reading gives."""
        return http_messages.answered(self.office, text, int(time.time()), DESK)

    def told(self, text: bytes) -> str:
        """The program's response."""
        return self.ask(text, ends=True).decode()

    def fault(self, text: bytes) -> Fault:
        """The difference between the answers to a message whose peer then stops sending."""
        wanted = self.wanted(text)
        try:
            got = self.ask(text, ends=True)
        except OSError as fault:
            return f"{text[:300]!r}: {fault!r}"
        return None if got == wanted else f"{text[:300]!r} is answered {got[:200]!r}, wanted {wanted[:200]!r}"

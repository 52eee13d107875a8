"""Sends `cpi replay` bytes that no office sends, and compares its lines with those of the second office.

Records of every kind come in a stream that ends after each of its bytes; with NUL put in at each place, and in place of
each byte; with bytes that aren't UTF-8 in each field; in 400 streams with some bytes changed at random; and in 40 of
random bytes. The second office (tests/second_office) reads them by Python's `csv`.
"""

from __future__ import annotations

import csv
import io
import random
from collections.abc import Iterator

import pytest

from lib.fault import Fault
from lib.offices import RICE_AND_FLOUR, quoted
from lib.program import Program
from lib.sample import Sample
from lib.tried import fault_in
from second_office.office import Office

pytestmark = pytest.mark.spread

KEY = b"a" * 32
SETUP = (
    b"""0,desk,item,RICE,"Rice, white",1 kg,700,1500
0,desk,item,FLOUR,Flour,1 kg,700,1500
0,desk,outlet,10,Corner shop
0,desk,collector,7,%s
0,desk,assign,7,1,10,RICE,2025-12,2026-12
0,desk,assign,7,2,10,FLOUR,2025-12,2026-12
0,desk,calendar,2025-12,0,1000,1000
0,desk,calendar,2026-01,1000,2000,3000
"""
    % KEY
)
TITLED = RICE_AND_FLOUR.replace("Rice, packed", "Rice, wh\u00efte").replace('"Flour, wheat"', "Flour")
PLAN = f"0,desk,plan,2026,{quoted(TITLED)}\n".encode()

# A record of each kind; the next one is asked of what they leave.
KINDS = [
    b"0,public,items\n",
    '0,desk,item,TEA,"Th\u00e9 ""vert"", \u8336",100 g,500,2000\r\n'.encode(),
    b'0,desk,outlet,11,"Market\n"\r',
    b"0,desk,outlet,11,Market\r",
    b"0,desk,collector,8,%s\n" % (b"b" * 32),
    b"0,desk,assign,8,1,11,RICE,2025-12,2026-12\r\n",
    PLAN,
    b"500,%s,quote,1,2025-12,price,200\n" % KEY,
    b"500,%s,quote,2,2025-12,missing,stock\r\n" % KEY,
    b"500,%s,quote,2,2025-12,price,500,confirm\n" % KEY,
    b'500,%s,import,"quote,1,2025-12,price,210\r\n""quote"",2,2025-12,price,490\nitems,""x""""y""\n"\n' % KEY,
    b"500,%s,work,2025-12\n" % KEY,
    b"1000,desk,freeze,2025-12\n",
    b"1500,%s,quotes,2025-12,2026-01\r" % KEY,
    b"1500,%s,quote,1,2026-01,price,215\n" % KEY,
    b"0,desk,calendar,2026-02,2026-01-31T00:00,2026-02-28T24:00,2026-03-01T08:30\n",
    b"0,desk,calendar,2026-02,2026-01-31T00:00,2026-02-28T23:59,2026-03-01T08:30\n",
    b"2000,desk,freeze,2026-01,01.1.1.1-01,01.1.1.2-01\n",
    b"2999,public,table,2026-01,csv\n",
    b"3000,public,tables\n",
    b"3000,public,table,2026-01,text\n",
    b"3000,desk,calendar,2026-01,1000,2000,3001\n",
    b"3000,desk,freeze,2026-01,01.1.1.2-01\r\n",
    b"3001,public,table,2026-01,text,2\n",
    b"3001,desk,handover,7,1,8,2,2026-02\r\n",
]
PROBES = [
    b"1500,%s,work,2025-12\n" % KEY,
    b"1500,%s,work,2026-02\n" % (b"b" * 32),
    b"1500,%s,quotes,2025-12,2026-12\n" % KEY,
    b"9999,public,items\n",
    b"9999,public,tables\n",
    b"9999,public,table,2026-01,csv\n",
    b"9999,public,table,2026-01,text,1\n",
]


MARK = b"\xef\xbb\xbf"
SMALL = [b"", MARK[:1], MARK[:2], MARK, MARK + b'"', b'"', b'""', b'"""', b",", b"\r", b"\n", b"\r\n", b"\0"]
NOT_UTF_8 = [
    b"\xff",
    b"\xfe",
    b"\x80",
    b"\xc0\xaf",
    b"\xed\xa0\x80",
    b"\xf4\x90\x80\x80",
    b"\xe2\x82",
    b"\xf8\x88\x80\x80\x80",
]
PARTS = 4
"""Into so many tests the streams of a kind are divided if they are many."""


@pytest.fixture(autouse=True)
def long_fields() -> Iterator[None]:
    """Python's csv takes fields as long as the program does."""
    before = csv.field_size_limit(10_000_000)
    yield
    csv.field_size_limit(before)


def read_again(field: str) -> str:
    """A field, read from its bytes."""
    return field.encode(errors="surrogateescape").decode(errors="surrogateescape")


def wanted_of(stream: bytes) -> bytes:
    """The lines of the second office. (Python before 3.11 reads no NUL, which counts as any other control byte.)"""
    text = stream.replace(b"\0", b"\1").decode(errors="surrogateescape").removeprefix("\ufeff")
    office = Office()
    # (the bytes of a character may meet only in the field, as quotation marks between them go)
    rows = [[*map(read_again, row)] for row in csv.reader(io.StringIO(text, newline="")) if row]
    return "".join(f"{office.line(row)}\n" for row in rows).encode()


def fault_of(program: Program, stream: bytes) -> Fault:
    """What the program writes otherwise."""
    wanted = wanted_of(stream)
    ran = program.replay(stream)
    if ran == (0, wanted, b""):
        return None
    pairs = zip(ran.out.splitlines(), wanted.splitlines())
    first = next((f"{line!r}, wanted {other!r}" for line, other in pairs if line != other), "")
    return f"status {ran.status}, {ran.err[:100]!r}, {ran.out.count(10)} lines for {wanted.count(10)}, {first}"


@pytest.mark.parametrize("part", range(PARTS))
def test_cut(program: Program, sample: Sample, part: int) -> None:
    """The stream of all kinds, ended after each of its bytes."""
    whole = b"".join(KINDS)
    ends = sample.of(range(len(whole) + 1), 400, "cuts")[part::PARTS]
    fault = fault_in((f"{end} bytes, {whole[:end][-40:]!r}", fault_of(program, SETUP + whole[:end])) for end in ends)
    assert fault is None, fault


@pytest.mark.parametrize("stream", SMALL, ids=ascii)
def test_nothing_else(program: Program, stream: bytes) -> None:
    assert fault_of(program, stream) is None


@pytest.mark.parametrize("at", range(len(KINDS)))
def test_nul_within(program: Program, at: int) -> None:
    """A kind again and again, with NUL in place of each of its bytes, and before each."""
    kind = KINDS[at]
    changed = [kind[:place] + b"\0" + kind[place + more :] for place in range(len(kind) - 1) for more in (0, 1)]
    assert changed
    assert fault_of(program, SETUP + b"".join(KINDS[:at] + changed + KINDS[at:] + PROBES)) is None


def test_nul_after_each_byte(program: Program) -> None:
    assert fault_of(program, b"".join(bytes([byte, 0]) for byte in SETUP + b"".join(KINDS))) is None


def test_a_record_of_nul(program: Program) -> None:
    stream = b"\0" * 100_000 + b"\n" + b"0,desk,item,TEA,Tea,1 kg,500,2000\n0,public,items\n"
    assert fault_of(program, stream) is None


def with_bytes(bad: bytes) -> Iterator[bytes]:
    """The kinds with these bytes in each field: at its front, and at its end."""
    for kind in KINDS:
        if b'"' in kind:
            yield from (kind.replace(b"T,01.1,", b"T,01.1," + bad), kind.replace(b"items", b"items" + bad))
            continue
        fields = kind.rstrip(b"\r\n").split(b",")
        for at, field in enumerate(fields):
            for text in (bad + field, field + bad):
                yield b",".join([*fields[:at], text, *fields[at + 1 :]]) + b"\n"


@pytest.mark.parametrize("bad", NOT_UTF_8, ids=bytes.hex)
def test_not_utf_8(program: Program, bad: bytes) -> None:
    assert fault_of(program, SETUP + b"".join([*with_bytes(bad), *PROBES])) is None


def changed(drawn: random.Random) -> bytes:
    """The stream of all kinds with some bytes changed, left out, doubled or put in."""
    text = bytearray(b"".join(KINDS))
    for _ in range(drawn.choice([1, 2, 5, 20])):
        place = drawn.randrange(len(text))
        byte = drawn.choice([drawn.randrange(256), *b'",\n\r\0\xef\xbb\xbf'])
        text[place : place + drawn.choice([0, 1, 1])] = bytes([byte] * drawn.choice([0, 1, 1, 1, 2]))
    return bytes(text)


def test_a_character_whose_bytes_quotation_marks_part(program: Program) -> None:
    """It is one once the marks are gone, as the field is read."""
    ran = program.replay(b'0,desk,item,TEA,"\xe8"\x8c\xb6,100 g,500,2000\n0,public,items\n')
    assert ran.out.decode() == '{"done":true}\n{"items":[["TEA","\u8336","100 g",500,2000]]}\n'
    assert fault_of(program, b'0,desk,item,TEA,"\xe8"\x8c\xb6,100 g,500,2000\n0,public,items\n') is None


@pytest.mark.parametrize("part", range(PARTS))
def test_some_bytes_changed(program: Program, sample: Sample, part: int) -> None:
    drawn, probes = sample.drawn(f"some bytes changed {part}"), b"\n" + b"".join(PROBES)
    streams = (SETUP + changed(drawn) + probes for _ in range(sample.count(160, 400) // PARTS))
    fault = fault_in((f"stream {at}", fault_of(program, stream)) for at, stream in enumerate(streams))
    assert fault is None, fault


def test_random_bytes(program: Program, sample: Sample) -> None:
    drawn = sample.drawn("random bytes")
    streams = (drawn.randbytes(drawn.choice([10, 1000, 30_000])) for _ in range(40))
    fault = fault_in((f"stream {at}", fault_of(program, stream)) for at, stream in enumerate(streams))
    assert fault is None, fault

"""Sends `cpi replay` more than any office sends, and looks at its lines and at its memory.

- A replay takes 1,000,000 records: of one record more, 1,000,000 lines are written, and it ends with status 1 and the
  line `cpi: read failed`. With 1,000,000 records it ends well.
- One field without an end, of 160 MB: the memory grows with what was read of it, and no faster. So it is with a field
  of 100 MB at each place of a record, with rows of a great many fields, and with one import of one field. Two hundred
  records of a megabyte take the memory of one; nothing is kept of 100 MB of empty lines. Each of these is one reply 10,
  and the next record is answered.
- Anyone may send an import of 20,000 rows, each of which lists 300 items. Its one line is 200 MB: at its peak the
  program takes at most 1.5 bytes of memory for each byte of it. If it may have only 100 MB, memory is refused in the
  middle of the import: it ends with status 1 and `cpi: out of memory`, the lines of the records before the import stand
  whole, and of the import's none.
- A message without a key may send 10,000 such rows: its response is 110 MB, and stands in memory once too.

A short run sends a fifth of the fields.

The tests of this file go to one process: each takes hundreds of megabytes.
"""

from __future__ import annotations

import contextlib
import hashlib
import os
import subprocess
import threading
from collections.abc import Callable, Iterable, Iterator
from functools import partial
from typing import NamedTuple

import pytest

from lib.program import Going, Program, Ran, with_memory
from lib.sample import Sample
from lib.served import Served, message, response

MB = 1_000_000
SHORT, WHOLE = 1, 5
"""How many parts of five are sent in a run."""
REFUSED = b'{"refused":10}\n'
AFTER = b"0,desk,item,TEA,Tea,1 kg,500,2000\n0,public,items\n"
LISTED = b'{"done":true}\n{"items":[["TEA","Tea","1 kg",500,2000]]}\n'

Pieces = Callable[[], Iterable[bytes]]
"""What is sent, piece by piece, each time anew."""


# ---- a program that is looked at while it reads


def begun(program: Program) -> Going:
    return program.begin("replay", stderr=subprocess.PIPE, bufsize=0)


def peak(going: Going) -> int:
    """The greatest memory that the program had so far, in bytes."""
    with open(f"/proc/{going.process.pid}/status", encoding="ascii") as status:
        return next(1024 * int(line.split()[1]) for line in status if line.startswith("VmHWM:"))


def send(going: Going, pieces: Iterable[bytes]) -> None:
    """Writes the pieces, each whole, up to the end of the program."""
    with contextlib.suppress(BrokenPipeError):
        for piece in pieces:
            left = memoryview(piece)
            while left:
                left = left[going.given.write(left) :]


def read(going: Going, lines: int) -> Iterator[bytes]:
    """What the program writes, in pieces, up to the end of so many lines."""
    while lines > 0:
        piece = os.read(going.out.fileno(), 1 << 20)
        if not piece:
            return
        lines -= piece.count(b"\n")
        yield piece


def length_and_sum(pieces: Iterable[bytes]) -> tuple[int, str]:
    length, digest = 0, hashlib.sha256()
    for piece in pieces:
        length += len(piece)
        digest.update(piece)
    return length, digest.hexdigest()


# ---- how many records


RECORD, LINE, MOST = b"0,public,items\n", b'{"items":[]}\n', 1_000_000


@pytest.mark.parametrize("more, status, told", [(0, 0, b""), (1, 1, b"cpi: read failed\n")], ids=["most", "one more"])
def test_a_million_records(program: Program, more: int, status: int, told: bytes) -> None:
    ran = program.replay(RECORD * (MOST + more))
    assert (ran.status, len(ran.out), ran.err) == (status, len(LINE) * MOST, told)
    assert ran.out.count(LINE) == MOST


# ---- how much memory

# The memory of a program that does nothing, and how many bytes it may take for each byte of a field, of a body that is
# read once more row by row, and of a row of empty fields.
BASE, FIELD, BODY, COMMA = 8 * MB, 3.5, 6.5, 64


class Held(NamedTuple):
    """An input, its lines, and the most memory that it may take."""

    pieces: Pieces
    wanted: bytes
    most: float


def many(piece: bytes, count: int) -> Iterator[bytes]:
    """So many bytes of a piece, a megabyte at a time."""
    whole = piece * (MB // len(piece))
    for _ in range(count // len(whole)):
        yield whole


def around(before: bytes, inner: Pieces, after: bytes) -> Pieces:
    """An input with these bytes before and after it, and then two further records."""
    return lambda: (piece for part in ([before], inner(), [after + AFTER]) for piece in part)


PLACES = {
    "the moment": (b"", b",public,items\n"),
    "the caller": (b"0,", b",items\n"),
    "the word": (b"0,public,", b"\n"),
    "a name": (b"0,desk,outlet,1,", b"\n"),
    "a name in quotation marks": (b'0,desk,outlet,1,"', b'"\n'),
    "a field too many": (b"0,public,items,", b"\n"),
}
BODIES = {
    "a title of a plan": (b'0,desk,plan,2026,"T,00,', REFUSED),
    "a row of an import": (b'0,public,import,"items,', b'{"rows":[{"refused":10}]}\n'),
}


def of_a_field(before: bytes, after: bytes, hundred: int) -> Held:
    """A record of one field of so many bytes."""
    return Held(around(before, partial(many, b"x", hundred), after), REFUSED + LISTED, BASE + FIELD * hundred)


def of_marks(hundred: int) -> Held:
    quoted = around(b'0,desk,outlet,1,"', partial(many, b'""', hundred), b'"\n')
    return Held(quoted, REFUSED + LISTED, BASE + FIELD * hundred)


def of_a_body(before: bytes, line: bytes, hundred: int) -> Held:
    """A record with a body of one field of so many bytes."""
    return Held(around(before, partial(many, b"x", hundred), b'"\n'), line + LISTED, BASE + BODY * hundred)


def of_rows(hundred: int) -> Held:
    rows = around(b'0,public,import,"', partial(many, b"items\n", hundred // 5), b'"\n')
    return Held(rows, REFUSED + LISTED, BASE + BODY * hundred // 5)


def of_fields(count: int) -> Held:
    """A row of so many empty fields, and one."""
    fields = [b"," * MB] * (count // MB) + [b"," * (count % MB)]
    return Held(around(b"", lambda: fields, b"\n"), REFUSED + LISTED, BASE + COMMA * count)


def of_records(hundred: int) -> Held:
    """Records of a megabyte."""
    count, record = 2 * hundred // MB, b"0,desk,outlet,1," + b"x" * (MB - 17) + b"\n"
    return Held(around(b"", lambda: (record for _ in range(count)), b""), REFUSED * count + LISTED, BASE + FIELD * MB)


def of_empty_lines(hundred: int) -> Held:
    return Held(around(b"", partial(many, b"\n\r\n\r", hundred), b""), LISTED, BASE)


INPUTS: dict[str, Callable[[int], Held]] = {
    **{name: partial(of_a_field, *place) for name, place in PLACES.items()},
    "quotation marks": of_marks,
    **{name: partial(of_a_body, *body) for name, body in BODIES.items()},
    "a body of millions of rows": of_rows,
    "a row of 65,536 fields": lambda _: of_fields(65_535),
    "a row of millions of fields": lambda hundred: of_fields(hundred // 20),
    "records of a megabyte": of_records,
    "empty lines": of_empty_lines,
}
"""What is sent, by how many bytes a hundred megabytes are."""


@pytest.mark.parametrize("name", INPUTS)
def test_memory(program: Program, sample: Sample, name: str) -> None:
    """The lines of an input, and the memory that it takes."""
    inputs = INPUTS[name](20 * MB * sample.count(SHORT, WHOLE))
    with begun(program) as going:
        sender = threading.Thread(target=send, args=(going, inputs.pieces()))
        sender.start()
        lines = b"".join(read(going, inputs.wanted.count(b"\n")))
        sender.join()
        took = peak(going)
        ran = going.end()
    assert Ran(ran.status, lines + ran.out, ran.err) == (0, inputs.wanted, b"")
    assert took <= inputs.most


def test_a_field_without_an_end(program: Program, sample: Sample) -> None:
    """A quotation mark, and then one letter for ever: the memory by and by, and the line when the stream ends."""
    size, sent = 4 * MB, 0
    with begun(program) as going:
        send(going, [b'0,public,"'])
        for _ in range(8 * sample.count(SHORT, WHOLE)):
            send(going, [b"a" * size])
            sent += size
            assert peak(going) <= BASE + FIELD * sent
        assert going.end() == (0, REFUSED, b"")


# ---- a long line


ITEMS, ROWS, ROWS_OF_MESSAGE = 300, 20_000, 10_000
BOUND, NARROW = 1.5, 100 * MB
CODES = sorted(f"I{item}" for item in range(ITEMS))
SETUP = "".join(f"0,desk,item,{code},Item {code},1 kg,500,2000\n" for code in CODES).encode()
IMPORT = ('0,public,import,"' + "items\n" * ROWS + '"\n').encode()
DONE = b'{"done":true}\n' * ITEMS
ROW = ('{"items":[' + ",".join(f'["{code}","Item {code}","1 kg",500,2000]' for code in CODES) + "]}").encode()


def line_of_import(rows: int) -> Iterator[bytes]:
    """The pieces of the line of an import of so many rows."""
    yield b'{"rows":[' + ROW
    following = b"," + ROW
    for _ in range(1, rows):
        yield following
    yield b"]}\n"


def test_a_line_of_200_mb(program: Program) -> None:
    """The memory that the import takes, beside its line."""
    with begun(program) as going:
        sender = threading.Thread(target=send, args=(going, [SETUP + IMPORT]))
        sender.start()
        told = length_and_sum(read(going, ITEMS + 1))
        sender.join()
        most = peak(going)
        ran = going.end()
    assert told == length_and_sum([DONE, *line_of_import(ROWS)])
    assert ran == (0, b"", b"")
    assert most <= BOUND * told[0]


def test_a_line_of_200_mb_without_memory(program: Program) -> None:
    """The import if memory is refused in its middle."""
    ran = program.replay(SETUP + IMPORT, preexec_fn=with_memory(NARROW))
    assert ran == (1, DONE, b"cpi: out of memory\n")


def test_a_response_of_110_mb(program: Program, room: str) -> None:
    """The memory that an import over HTTP takes, beside its response."""
    program.replay(SETUP, f"{room}/office.db")
    with Served(program, f"{room}/office.db", 2) as served:
        told = served.ask(message("POST /import", body=b"items\n" * ROWS_OF_MESSAGE))
        most = peak(served.going)
    wanted = response("200 OK", b"".join(line_of_import(ROWS_OF_MESSAGE)).decode())
    assert length_and_sum([told]) == length_and_sum([wanted]), told[:200]
    assert most <= BOUND * len(told)

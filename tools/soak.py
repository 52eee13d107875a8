#!/usr/bin/env python3
"""Compares `cpi` with the second readings over random records and messages, for as long as is asked.

It isn't part of ./test, which does the same for a minute with seeds of its own. In turn, each with a further seed:

- four runs of tests/test_second_office.py: records round every limit, and the lives of offices through one to three
  years, in memory and over files, and without the records of others,
- an office that is served for some 1,500 messages as tests/test_http_messages.py has them: some as they should be, some
  cut, some with bytes changed, some of random bytes; between them peers that close at once, that send byte by byte, or
  that send more than is read; and at the end what `cpi replay` lists of the office's file.

With --year MONTHS COLLECTORS it lives the years of made-up countries under all faults in place of these, one seed after
another (see tests/year). It prints the seed and the moment of a promise that is broken; tests/year makes it again.

The first seed is drawn from the clock where it isn't given. The counts are told each minute and at the end. A check is
a run of records, a message, a peer, a file, or a life.
"""

from __future__ import annotations

import argparse
import collections
import os
import random
import socket
import sys
import tempfile
import time
from collections.abc import Callable, Iterator
from functools import partial

sys.path.insert(0, os.path.join(os.path.dirname(os.path.abspath(__file__)), "../tests"))

from lib.fault import Fault  # noqa: E402
from lib.kinds import KINDS  # noqa: E402
from lib.messages import Compared  # noqa: E402
from lib.open_office import ITEMS, KA, KC, QUOTES  # noqa: E402
from lib.program import Program  # noqa: E402
from lib.records import first_difference  # noqa: E402
from lib.runs import fault_of  # noqa: E402
from lib.script_words import program_of, words_of  # noqa: E402
from lib.served import DESK, heard, message, reset  # noqa: E402
from lib.year.faults import KINDS as FAULTS  # noqa: E402
from lib.year.lives import Size, faults_of, life  # noqa: E402
from second_office.records import text_of  # noqa: E402

RUNS, MESSAGES, PEERS, MINUTE, SLOTS, LEAST = 4, 1500, 15, 60, 10, 5
WAYS = ["closes", "resets", "sends and resets", "byte by byte", "too much"]
RECORDS = [
    ["1500", KA, "quotes", "2000-01", "2199-12"],
    ["1500", KA, "work", "2026-01"],
    ["0", "public", "items"],
    ["1500", "public", "tables"],
    ["1500", "public", "table", "2025-12", "text"],
]


class Checks:
    """Counts what is right, and prints each fault."""

    def __init__(self) -> None:
        self.passed = self.failed = 0

    def check(self, name: str, find: Callable[[], Fault]) -> None:
        """Counts what this finds: a fault, or what it raises, or nothing wrong."""
        try:
            fault = find()
        except Exception as raised:
            fault = f"it ended early: {raised!r}"
        if fault is None:
            self.passed += 1
        else:
            self.failed += 1
            print(f"FAILED {name}: {fault}"[:1000], flush=True)


def drawn_entry(drawn: random.Random) -> str:
    """An entry: a mark and its value."""
    price = drawn.randrange(1, 2000)
    return drawn.choice([f"price,{price}", f"price,{price},confirm", "missing,closed", "other,5"])


def drawn_import(drawn: random.Random, month: str) -> bytes:
    """The body of an import, with rows of several kinds."""
    code = drawn.choice(["TEA", "SALT", f"N{drawn.randrange(50)}"])
    rows = [f"quote,1,{month},{drawn_entry(drawn)}", "items", f"item,{code},Text,1 kg,700,1500"]
    rows += [f"outlet,{drawn.randrange(20)},Shop", f"calendar,2025-12,0,1,{drawn.randrange(1, 9)}"]
    rows += ["freeze,2025-12", "tables"]
    rows += [f"handover,7,{drawn.randrange(1, 4)},7,{drawn.randrange(2, 6)},{month}"]
    return "\n".join(drawn.choices(rows, k=drawn.randrange(6))).encode()


def drawn_message(drawn: random.Random) -> bytes:
    """A message that may change the office, or list what stands."""
    key = drawn.choice([KA] * 6 + [KC, DESK, None])
    month = drawn.choice(["2026-01", "2026-01", "2026-02"])
    form, revision = drawn.choice(["text", "csv"]), drawn.choice(["", "/1", "/2", "/0"])
    lines = [f"GET /quotes/2026-01/{month}", f"GET /work/{month}", "GET /items", "GET /tables"]
    lines += [f"GET /table/{drawn.choice(['2025-12', '2025-12', month])}/{form}{revision}"]
    return drawn.choice(
        [
            message(f"PUT /quote/{drawn.choice('1112')}/{month}", key=key, body=drawn_entry(drawn).encode()),
            message("POST /import", key=key, body=drawn_import(drawn, month)),
            *(message(line, key=key) for line in lines),
        ]
    )


def changed(drawn: random.Random, text: bytes) -> bytes:
    """The same with some bytes changed."""
    found = bytearray(text)
    for _ in range(drawn.choice([1, 1, 2, 5])):
        found[drawn.randrange(len(found))] = drawn.randrange(256)
    return bytes(found)


def sent(drawn: random.Random) -> Iterator[tuple[str, bytes]]:
    """The messages of one office."""
    for _ in range(MESSAGES):
        text, kind = drawn_message(drawn), drawn.random()
        if kind < 0.5:
            yield "as they should be", text
        elif kind < 0.7:
            yield "with bytes changed", changed(drawn, text)
        elif kind < 0.85:
            yield "cut", text[: drawn.randrange(len(text))]
        else:
            yield "of random bytes", drawn.randbytes(drawn.choice([1, 30, 300, 9000])) + drawn.choice(
                [b"", b"\r\n\r\n"]
            )


def peer(drawn: random.Random, served: Compared) -> Fault:
    """A peer of another kind, which changes nothing, and what it is told otherwise."""
    with served.peer() as one:
        way = drawn.choice(WAYS)
        if way == "sends and resets":
            one.sendall(ITEMS)
        if way in ("resets", "sends and resets"):
            reset(one)
        if way in ("closes", "resets", "sends and resets"):
            return None
        text = drawn.choice([ITEMS, QUOTES]) + (b"x" * 300_000 if way == "too much" else b"")
        wanted = served.wanted(text)
        for part in [text] if way == "too much" else [text[at : at + 1] for at in range(len(text))]:
            one.sendall(part)
        one.shutdown(socket.SHUT_WR)
        return None if heard(one) == wanted else f"one that is sent {way} is answered otherwise"


def in_the_file(program: Program, served: Compared) -> Fault:
    """What is listed otherwise in the file of an office that was served, or another end of the program."""
    ended = served.end()
    ran = program.replay(text_of(RECORDS).encode(), served.path)
    wanted = [served.office.line(record) for record in RECORDS]
    fault = first_difference(RECORDS, ran.out.decode().splitlines(), wanted)
    return fault or (None if (ended.status, ran.status) == (0, 0) else f"{ended}; {ran}")


def serve(checks: Checks, program: Program, seed: int, counts: collections.Counter[str]) -> None:
    """Compares what is answered by one office."""
    drawn, name = random.Random(seed), f"office {seed}"
    texts = [*sent(drawn)]
    peers = {drawn.randrange(len(texts)) for _ in range(PEERS)}
    with tempfile.TemporaryDirectory() as room, Compared(program, room, len(texts) + len(peers)) as served:
        for at, (kind, text) in enumerate(texts):
            if at in peers:
                counts["peers of another kind"] += 1
                checks.check(f"{name}, a peer", partial(peer, drawn, served))
            counts[f"messages {kind}"] += 1
            checks.check(f"{name}, message {at}", partial(served.fault, text))
        checks.check(f"{name}, its file", partial(in_the_file, program, served))
    counts["offices served"] += 1


def lived(program: Program, seed: int, size: Size, counts: collections.Counter[str]) -> Fault:
    """What a country has broken in its life under all faults."""
    found = life(program, seed, size, faults_of(seed, size, FAULTS))
    counts.update(messages=found.messages, drills=found.drills, **found.survived)
    counts["months"] += size.months
    return f"seed {seed}, {found.broken}" if found.broken else None


def compare(checks: Checks, program: Program, seed: int, met: set[str], counts: collections.Counter[str]) -> None:
    """Runs of records, and an office that is served."""
    for at in range(seed, seed + RUNS):
        checks.check(f"run {at}", partial(fault_of, program, at, met))
    counts["runs of records"] += RUNS
    serve(checks, program, seed, counts)


def read_words() -> tuple[argparse.Namespace, Program]:
    """What this script is asked for, and the program that it tries."""
    words = words_of(__doc__)
    words.add_argument("seconds", type=int, help="how long")
    words.add_argument("--first", type=int, default=int(time.time()), metavar="SEED", help="the first seed")
    words.add_argument(
        "--year", nargs=2, type=int, metavar=("MONTHS", "COLLECTORS"), help="live years of countries of this size"
    )
    chosen = words.parse_args()
    if chosen.year and (chosen.year[0] < 1 or chosen.year[1] < LEAST):
        words.error(f"--year {chosen.year[0]} {chosen.year[1]}: a month at least, and {LEAST} collectors")
    return chosen, program_of(words, chosen)


def main() -> int:
    """The exit status: 0 if nothing differed."""
    chosen, program = read_words()
    checks, met, counts = Checks(), set[str](), collections.Counter[str]()
    print(f"from seed {chosen.first}", flush=True)
    began = minute = time.monotonic()
    seed = chosen.first
    while time.monotonic() - began < chosen.seconds:
        if chosen.year:
            size = Size(chosen.year[0], chosen.year[1], SLOTS)
            checks.check(f"life {seed}", partial(lived, program, seed, size, counts))
            seed += 1
        else:
            compare(checks, program, seed, met, counts)
            seed += RUNS
        if time.monotonic() - minute > MINUTE:
            minute = time.monotonic()
            print(f"{minute - began:.0f} s: {listed(counts)}", flush=True)
    print(f"{time.monotonic() - began:.0f} s: {listed(counts)}")
    if not chosen.year:
        print(f"{len(met & KINDS)} of {len(KINDS)} kinds of replies were met")
    print(f"{checks.passed} passed, {checks.failed} failed", flush=True)
    return 1 if checks.failed else 0


def listed(counts: collections.Counter[str]) -> str:
    """The counts, by their names."""
    return ", ".join(f"{count} {name}" for name, count in counts.items())


if __name__ == "__main__":
    sys.exit(main())

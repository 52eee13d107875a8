"""Peers that ask the most of an office, again and again and each time from another address; and who waits beside them.

What is asked: imports of 64 KiB whose rows each ask for a table, for all items, for a work list or for all own quotes;
the most that the front lets into one import; and all own quotes by their route. Without a key, with a collector's, and
with those of ten collectors.
"""

from __future__ import annotations

import contextlib
import csv
import datetime
import itertools
import json
import random
import subprocess
import sys
import threading
import time
from collections import Counter
from collections.abc import Iterable, Iterator, Sequence
from pathlib import Path
from typing import NamedTuple, Optional

from cpi_tools.office.copying import right_copy
from cpi_tools.text.terminal import Fault

from . import TOP
from .processes import run_command
from .records import key_of, make_setup
from .ways import PATIENCE, Way

MOST_BYTES = 65_536
"""The bytes of an import."""

PEERS = 20
NOW = datetime.date.today().strftime("%Y-%m")
ALL_MONTHS = "quotes,2000-01,2199-12"

FAR = 9_999_999_000
"""A moment that is far ahead, in seconds since 1970 UTC."""

Message = tuple[str, str, Optional[bytes]]
"""Method, path and body."""

Asks = list[tuple[Optional[str], list[Message]]]
"""Keys, and the messages that are sent under each, by turns."""

INVENTED = "invented"
"""In the place of a key: another one for each message, which nobody bears."""


# ---- the office


class Country(NamedTuple):
    """An office with this month open: its file, and the keys of its collectors."""

    file: Path
    keys: list[str]


def make_country(program: str, folder: Path, given: str) -> Country:
    """The made-up country of examples/national: a copy of a given file, or else it lives through two to three years
    first, which takes some minutes. Fault: it couldn't."""
    with open(TOP / "examples/national/collectors.csv", encoding="utf-8", newline="") as file:
        keys = [row["key"] for row in csv.DictReader(file)]
    if given:
        return Country(right_copy(Path(given), folder), keys)
    path, words = folder / "office.db", [sys.executable, str(TOP / "examples/national/run"), "--program", program]
    words += ["--open", NOW, "--db", str(path), "--out", str(folder / "out")]
    ran = subprocess.run(words, stdout=subprocess.DEVNULL, stderr=subprocess.PIPE, text=True, check=False)
    if ran.returncode:
        raise Fault(f"examples/national/run ended with status {ran.returncode}: {ran.stderr[-300:]}")
    return Country(path, keys)


def make_small_country(program: str, folder: Path) -> Country:
    """A dozen collectors without prices, in place of it."""
    path, numbers = folder / "office.db", range(1, 13)
    records = [*make_setup(len(numbers), [NOW], slots=10), f"0,desk,calendar,{NOW},0,{FAR},{FAR}"]
    run_command([program, "replay", "--db", str(path)], "".join(f"{record}\n" for record in records).encode())
    return Country(path, [key_of(number) for number in numbers])


# ---- what is asked


def fill_import(row: str) -> bytes:
    """An import of one row, as often as there is room for."""
    return f"{row}\n".encode() * (MOST_BYTES // (len(row) + 1))


def make_imports() -> Iterator[tuple[str, Message]]:
    """By name, imports of rows that ask, as many as there is room for."""
    last = (datetime.date.today().replace(day=1) - datetime.timedelta(days=1)).strftime("%Y-%m")
    for row in (f"table,{last},csv", "items", f"work,{NOW}", ALL_MONTHS):
        body = fill_import(row)
        yield f"{len(body) // (len(row) + 1):,} rows `{row}`", ("POST", "/import", body)


def read_work(way: Way, key: str) -> Sequence[Sequence[int]]:
    """The rows of a collector's work list. Fault: it isn't given."""
    status, body = way.ask(0, key, "GET", f"/work/{NOW}")
    if status != 200:
        raise Fault(f"the work list of {NOW} was answered {status} {body[:100]!r}")
    rows: list[list[int]] = json.loads(body)["work"]
    return rows


def make_largest(way: Way, key: str) -> list[Message]:
    """The most that the front lets into an import: two by turns, each of 16 rows that ask for all quotes and as many
    prices as there is room for. Each price is another one than that of the import before, so each is stored anew."""
    work, messages = read_work(way, key), list[Message]()
    for turn in range(2):
        body = f"{ALL_MONTHS}\n".encode() * 16
        for row in itertools.cycle(work):
            quote = f"quote,{row[0]},{NOW},price,{(row[6] or 100) + turn}\n".encode()
            if len(body) + len(quote) > MOST_BYTES:
                break
            body += quote
        messages.append(("POST", "/import", body))
    return messages


def list_asks(past: Way, keys: Sequence[str]) -> dict[str, Asks]:
    """By name, what the peers ask; another collector than the second sends all of it."""
    first, _, *more = keys
    imports, quotes = dict(make_imports()), ("GET", "/quotes/2000-01/2199-12", None)
    every: list[Message] = list(imports.values())
    most = {key: make_largest(past, key) for key in (first, *more[:9])}
    unknown: Message = ("POST", "/import", fill_import("quote"))
    asks: dict[str, Asks] = {"nobody": [], "no key, all of these imports": [(None, every)]}
    asks["a key that nobody bears, another each time, 10,922 rows `quote`"] = [(INVENTED, [unknown])]
    asks |= {f"one key, {name}": [(first, [message])] for name, message in imports.items()}
    asks["one key, the most that an import may ask"] = [(first, most[first])]
    asks["one key, all own quotes"] = [(first, [quotes])]
    asks["one key, all of it"] = [(first, [*most[first], quotes, *every])]
    asks["ten keys, the most that an import may ask"] = list(most.items())
    asks["ten keys, all of it"] = [(key, [*messages, quotes, *every]) for key, messages in most.items()]
    return asks


# ---- who waits


class Waits(NamedTuple):
    """What another collector waited, in seconds, and the statuses that this one and the peers had."""

    seconds: list[float]
    others: list[int]
    peers: Counter[int]


@contextlib.contextmanager
def send_meanwhile(way: Way, asks: Asks) -> Iterator[Counter[int]]:
    """Peers that send these meanwhile; the statuses that they had, once they are done."""
    over, statuses, lock = threading.Event(), Counter[int](), threading.Lock()
    addresses, turns = itertools.count(1000), itertools.count()

    def send() -> None:
        while not over.is_set():
            turn = next(turns)
            key, messages = asks[turn % len(asks)]
            message = messages[turn // len(asks) % len(messages)]
            key = f"{random.getrandbits(128):032x}" if key == INVENTED else key
            status, _ = way.ask(next(addresses) % 60_000, key, *message)
            with lock:
                statuses[status] += 1

    threads = [threading.Thread(target=send, daemon=True) for _ in range(PEERS if asks else 0)]
    for thread in threads:
        thread.start()
    try:
        yield statuses
    finally:
        over.set()
        for thread in threads:
            thread.join(PATIENCE)


def measure_waits(way: Way, key: str, asks: Asks, seconds: float) -> Waits:
    """What a collector waits beside peers for so long, who asks for the work list and sends a price, by turns."""
    waits, statuses, addresses = list[float](), list[int](), itertools.cycle(range(70, 270))
    row = read_work(way, key)[0]
    price = f"quote,{row[0]},{NOW},price,{row[6] or 100}\n".encode()
    messages: Iterable[Message] = [("GET", f"/work/{NOW}", None), ("POST", "/import", price)]
    with send_meanwhile(way, asks) as peers:
        begun, turns = time.monotonic(), itertools.cycle(messages)
        while time.monotonic() - begun < seconds:
            time.sleep(0.2)
            before = time.monotonic()
            statuses.append(way.ask(next(addresses), key, *next(turns))[0])
            waits.append(time.monotonic() - before)
    return Waits(waits, statuses, peers)

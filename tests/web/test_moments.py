"""A published table is there for everybody within two seconds of its moment, and never before it: each revision."""

from __future__ import annotations

import contextlib
import http.client
import threading
import time
from collections.abc import Callable
from typing import NamedTuple

from .offices import DESK
from .peers import SECONDS, address_of
from .stage import Stage

REVISIONS = 9
WITHIN = 2
"""Seconds after its moment within which a table is there, as seen by a client of this machine, whose clock is the
office's."""


class Seen(NamedTuple):
    """An answer: when it was asked for and when it was there, by the clock, and what it was."""

    begun: float
    ended: float
    text: str


def watch(stage: Stage, number: int, path: str, until: float, sightings: list[Seen]) -> None:
    """Asks for the same again and again over one connection, from addresses of its own."""
    line = http.client.HTTPSConnection(
        "localhost", stage.port, context=stage.context, timeout=SECONDS, source_address=(address_of(300 + number), 0)
    )
    with contextlib.closing(line):
        while time.time() < until:
            begun = time.time()
            line.request("GET", path)
            answer = line.getresponse()
            text = answer.read().decode()
            sightings.append(Seen(begun, time.time(), text if answer.status == 200 else ""))
            time.sleep(0.08)


def frozen(stage: Stage, first: int) -> None:
    """A month that is frozen nine times; its revisions are published second by second."""
    rows = "".join(
        f"calendar,2011-03,6000,7000,{first + at}\nfreeze,2011-03,01.1.1.1-01,01.1.1.2-01\n" for at in range(REVISIONS)
    )
    assert stage.ask("POST", "/api/import", DESK, rows).reply == {"rows": [{"done": True}] * (2 * REVISIONS)}


def head(revision: int) -> str:
    """The first line of a revision's text."""
    return "CPI 2011-03\n" if revision == 1 else f"CPI 2011-03 revision {revision}\n"


def faults(sightings: list[Seen], moment: int, is_there: Callable[[str], bool]) -> list[Seen]:
    """The answers that have it before its moment, and those that lack it two seconds after."""
    early = [seen for seen in sightings if is_there(seen.text) and seen.ended < moment]
    return early + [seen for seen in sightings if not is_there(seen.text) and seen.begun >= moment + WITHIN]


def test_each_revision_is_there_at_its_moment_and_not_before(stage: Stage) -> None:
    first = int(time.time()) + 2
    paths = ["/api/tables", "/api/table/2011-03/text"]
    paths += [f"/api/table/2011-03/text/{revision}" for revision in range(1, REVISIONS + 1)]
    sightings: dict[str, list[Seen]] = {path: [] for path in paths}
    frozen(stage, first)
    until = first + REVISIONS - 1 + WITHIN + 0.5
    threads = [
        threading.Thread(target=watch, args=(stage, number, path, until, sightings[path]))
        for number, path in enumerate(paths)
    ]
    for thread in threads:
        thread.start()
    for thread in threads:
        thread.join()
    for revision in range(1, REVISIONS + 1):
        moment = first + revision - 1
        later = tuple(head(each) for each in range(revision, REVISIONS + 1))
        told = f'["2011-03",{revision},{moment}]'
        assert faults(sightings["/api/tables"], moment, lambda text: told in text) == []
        assert faults(sightings["/api/table/2011-03/text"], moment, lambda text: text.startswith(later)) == []
        named = sightings[f"/api/table/2011-03/text/{revision}"]
        assert faults(named, moment, lambda text: text.startswith(head(revision))) == []
        assert named[0].text == "" and named[-1].text.startswith(head(revision))
    assert min(map(len, sightings.values())) > 40
    # (what was asked for some hundred times was a few requests to the office: two a second and list, at most)
    assert len(stage.relay.seen) < sum(map(len, sightings.values())) / 2


def test_what_nobody_asked_for_in_a_while_isnt_an_old_one(stage: Stage) -> None:
    """A list that was kept before a moment is handed out to nobody behind it, also where many ask at once."""
    first = int(time.time()) + 2
    assert stage.ask("GET", "/api/tables").status == 200
    rows = f"calendar,2011-03,6000,7000,{first}\nfreeze,2011-03,01.1.1.1-01,01.1.1.2-01\n"
    assert stage.ask("POST", "/api/import", DESK, rows).reply == {"rows": [{"done": True}] * 2}
    time.sleep(max(0.0, first + WITHIN - time.time()))
    sightings: dict[int, list[Seen]] = {number: [] for number in range(20)}
    until = time.time() + 0.3
    threads = [
        threading.Thread(target=watch, args=(stage, number, "/api/tables", until, seen))
        for number, seen in sightings.items()
    ]
    for thread in threads:
        thread.start()
    for thread in threads:
        thread.join()
    texts = {seen.text for several in sightings.values() for seen in several}
    assert len(texts) == 1 and f'["2011-03",1,{first}]' in texts.pop()

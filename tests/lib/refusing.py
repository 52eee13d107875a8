"""Programs in which one call, for memory or to the system, is refused: a preloaded library, and the records that are
sent.

`cc` builds the library (refused.c). The tests send the records of cases, and then views: the requests for everything
that everybody, the desk and each collector may list.
"""

from __future__ import annotations

import os
import subprocess
from collections.abc import Callable, Iterator, Sequence

from .cases import Case
from .places import TOP
from .program import Program, Ran
from .records import records_of
from .sample import Sample

PIECE = 7
"""The number of bytes that are read and written at a time when such calls are counted."""

FIRST, LAST = "2025-11", "2026-06"
MONTHS = ["2025-12", "2026-01", "2026-02", "2026-03", "2026-04", "2027-01"]
AT = 9_999_999_999
UNAVAILABLE = b'{"refused":90}'
SECONDS = 120


class Library:
    """The library, built in a folder."""

    def __init__(self, room: str) -> None:
        self.path, self.counter = f"{room}/refused.so", f"{room}/counted"
        words = ["-O1", "-fno-builtin", "-shared", "-fPIC", "-o", self.path, f"{TOP}/tests/lib/refused.c"]
        subprocess.run(["cc", *words], check=True)

    def environment(self, kind: str, number: int, **more: str) -> dict[str, str]:
        """The environment of a program whose call of that kind and number is refused."""
        asked = {"LD_PRELOAD": self.path, "REFUSED_KIND": kind, "REFUSED_NUMBER": str(number)}
        return {**os.environ, **asked, **more}

    def counted(self, kind: str, run: Callable[[dict[str, str]], int]) -> int:
        """The number of calls of that kind in a run in which none is refused, and the run's status."""
        status = run(self.environment(kind, 0, REFUSED_COUNT=self.counter))
        if status:
            raise ChildProcessError(f"with the library: status {status}")
        with open(self.counter, encoding="ascii") as file:
            return int(file.read())


def without_imports(records: Sequence[bytes]) -> Iterator[bytes]:
    """The records with each row of an import as a separate record."""
    for record in records:
        head, word, body = record.partition(b',import,"')
        if word:
            rows = body.rpartition(b'"')[0].replace(b'""', b'"').splitlines()
            yield from (head + b"," + row + b"\n" for row in rows)
        else:
            yield record


def records_of_case(name: str) -> list[bytes]:
    """The records of a case, with each row of an import as a separate record."""
    return [*without_imports(records_of(Case(name).given))]


def views_of(records: Sequence[bytes]) -> list[bytes]:
    """The requests for everything that may be listed after these records."""
    keys = sorted({record.split(b",")[4].strip().decode() for record in records if b",desk,collector," in record})
    views = [f"{AT},public,items", f"{AT},public,tables"]
    views += [f"{AT},public,table,{month},{form}" for month in MONTHS for form in ("text", "csv", "csv,1", "csv,2")]
    for key in keys:
        views.append(f"{AT},{key},quotes,{FIRST},{LAST}")
        views += [f"{AT},{key},work,{month}" for month in MONTHS]
    return [view.encode() + b"\n" for view in views]


class Stream:
    """Records, each of them so many times, and the views after them."""

    def __init__(self, program: Program, name: str, records: Sequence[bytes], times: int = 1) -> None:
        self.program, self.name = program, name
        self.sent = [record for record in records for _ in range(times)]
        self.views = views_of(records)

    def run(self, records: Sequence[bytes], db: str | None = None, env: dict[str, str] | None = None) -> Ran:
        """A replay of some records."""
        return self.program.replay(b"".join(records), db, seconds=SECONDS, env=env)

    def answered(self, records: Sequence[bytes], db: str | None = None) -> list[bytes]:
        """The lines of a run without a refused call."""
        ran = self.run(records, db)
        if ran.status or ran.err or len(ran.lines()) != len(records):
            raise ChildProcessError(f"{self.name}: {ran}")
        return ran.lines()

    def told(self, records: Sequence[bytes]) -> tuple[list[bytes], list[bytes]]:
        """The lines of records in memory, and then the lines of the views."""
        lines = self.answered([*records, *self.views])
        return lines[: len(records)], lines[len(records) :]

    def counted(self, library: Library, kind: str, records: Sequence[bytes], db: str | None = None) -> int:
        """The number of calls of a kind in a replay of these records."""
        return library.counted(kind, lambda env: self.run(records, db, env).status)


def is_of_lines(out: bytes) -> bool:
    """Whether a text ends at the end of a line."""
    return out == b"" or out.endswith(b"\n")


def numbers_of(sample: Sample, name: str, count: int, short: int, whole: int) -> Sequence[int]:
    """The numbers of the calls that a run refuses: up to so many in a long run, evenly spread; in a short run fewer,
    drawn, with the first and the last."""
    if sample.is_long:
        return spread(count, whole)
    calls = range(1, count + 1)
    return sorted({*sample.of(calls, short, name), *calls[:1], *calls[-1:]})


def spread(count: int, most: int) -> Sequence[int]:
    """The numbers from 1 on, as many as there are, but up to so many of them, evenly spread."""
    return range(1, count + 1) if count <= most else sorted({1 + at * count // most for at in range(most)})

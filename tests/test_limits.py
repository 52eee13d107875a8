"""Asks `cpi` and a second office round each limit of a number that docs/ names, and compares both with the documents.

Each limit is asked with values one below, at and one above its ends, and everything else in order: in a record, in a
message to `cpi serve`, in words of the command line, and in a row of a file. Records with a value at an end are also
carried out over a file, which is then read again. A table (tests/lib/limits) has the answers that the documents give,
and cites the documents for each limit. Every row of the limits of docs/reference/OFFICE.md has its values there, or
names the file that tests it, or says why nothing can reach it.

Then each limit of the second office (tests/second_office/limits.py) is changed by one, and doubled. Some value of the
table has to find each of these wrong limits.
"""

from __future__ import annotations

import tempfile
from collections.abc import Callable, Iterator, Sequence
from pathlib import Path
from typing import Any

import pytest

from lib.fault import Fault
from lib.limits import bodies, messages, months, numbers, released, standing, stored, texts, words
from lib.limits.elsewhere import ELSEWHERE
from lib.limits.limit import Limit, unsaid
from lib.limits.sides import IN_MEMORY, Sides, fault_of, second_message, second_records, second_stored
from lib.limits.wrong import NAMES, unfound, wrong_ends
from lib.messages import Compared
from lib.places import ROOT
from lib.program import Program
from lib.tried import fault_in

pytestmark = pytest.mark.spread

Limits = Sequence[Limit[Any]]

RECORDS: dict[str, Limits] = {
    "numbers": numbers.LIMITS,
    "texts": texts.LIMITS,
    "bodies": bodies.LIMITS,
    "standing": standing.LIMITS,
    "months": months.LIMITS,
}
FILES: dict[str, Limits] = {"stored": stored.LIMITS, "released": released.LIMITS}
ALL_RECORDS = [limit for limits in RECORDS.values() for limit in limits]
ALL_FILES = [limit for limits in FILES.values() for limit in limits]
RECEIPTS = [limit for limit in stored.LIMITS if limit.rule]
EVERY: list[Limit[Any]] = [*ALL_RECORDS, *messages.LIMITS, *words.LIMITS, *ALL_FILES]

Answer = Callable[[Any], str]
SECOND: dict[str, tuple[Limits, Answer]] = {
    "records": (ALL_RECORDS, second_records),
    "receipts": (RECEIPTS, second_stored),
    "messages": (messages.LIMITS, second_message),
}


# ---- the documents


@pytest.fixture(scope="module")
def documents() -> str:
    """The text of the documents that have limits."""
    names = "docs/reference/OFFICE.md", "docs/reference/FORMATS.md"
    return "".join((ROOT / name).read_text(encoding="utf-8") for name in names)


def rows_of_limits(text: str) -> Iterator[str]:
    """The rows of the table of limits."""
    table = text.partition("\n## Limits\n")[2].partition("\n## ")[0]
    yield from (line for line in table.splitlines()[3:] if line.startswith("|"))


def unknown_row(row: str) -> Fault:
    """That a row of the documents has no limit here."""
    known = [*(limit.said for limit in EVERY), *(other.said for other in ELSEWHERE)]
    return None if any(said in row for said in known) else "no value is asked of it"


def test_the_documents_say_each_limit(documents: str) -> None:
    assert fault_in((limit.name, unsaid(limit, documents)) for limit in EVERY) is None


def test_each_limit_of_the_documents_is_asked_for(documents: str) -> None:
    assert fault_in((row, unknown_row(row)) for row in rows_of_limits(documents)) is None


@pytest.mark.parametrize("said, file", [other[:2] for other in ELSEWHERE])
def test_a_limit_that_is_tested_elsewhere(documents: str, said: str, file: str | None) -> None:
    assert said in documents
    assert file is None or Path(ROOT, file).exists()


# ---- the program and the second office


@pytest.fixture(scope="module")
def sides(program: Program) -> Iterator[Sides]:
    """The program, and a room for its files."""
    with tempfile.TemporaryDirectory(dir=IN_MEMORY) as room:
        yield Sides(program, room)


def fault_in_values(limits: Limits, answer: Answer) -> Fault:
    """Which values of some limits a side answers otherwise than the documents do."""
    values = ((limit, value) for limit in limits for value in limit.values())
    return fault_in((f"{limit.name} with {value}", fault_of(limit, value, answer)) for limit, value in values)


@pytest.mark.parametrize("name", RECORDS)
def test_records(sides: Sides, name: str) -> None:
    assert fault_in_values(RECORDS[name], sides.records) is None


def ends_of(limit: Limit[Any]) -> list[int]:
    """The ends of a limit at which a record is carried out."""
    ends = sorted({end for end in (limit.least, limit.most) if end is not None})
    return [value for value in ends if "refused" not in limit.told(value)]


@pytest.mark.parametrize("name", RECORDS)
def test_records_at_the_ends_over_a_file(sides: Sides, name: str) -> None:
    """Each is carried out over a file of its own, which is then read again."""
    values = ((limit, value) for limit in RECORDS[name] for value in ends_of(limit))
    tried = ((f"{limit.name} with {value}", fault_of(limit, value, sides.kept)) for limit, value in values)
    assert fault_in(tried) is None


def test_words(sides: Sides) -> None:
    assert fault_in_values(words.LIMITS, sides.words) is None


@pytest.mark.parametrize("name", FILES)
def test_rows_of_files(sides: Sides, name: str) -> None:
    assert fault_in_values(FILES[name], sides.stored) is None


def test_messages(program: Program, sides: Sides) -> None:
    count = sum(len(limit.values()) for limit in messages.LIMITS)
    with Compared(program, sides.room, count) as served:
        assert fault_in_values(messages.LIMITS, served.told) is None


@pytest.mark.parametrize("name", SECOND)
def test_the_second_office(name: str) -> None:
    assert fault_in_values(*SECOND[name]) is None


@pytest.mark.parametrize("name", NAMES)
def test_a_wrong_limit_of_the_second_office_is_found(name: str) -> None:
    every = [(limit, answer) for limits, answer in SECOND.values() for limit in limits]
    assert fault_in((wrong, unfound(wrong, every)) for wrong in wrong_ends(name)) is None

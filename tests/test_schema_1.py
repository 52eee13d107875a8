"""Opens files of schema 1, which databases had before, and looks at what becomes of them.

- The first records of a case, of which none freezes a month again, puts a plan with a reference month or hands a series
  over, are in a file that Python makes of the second office; the rest is replayed over it. A long run takes up to three
  places of each case, a short one draws some.
- Three files in tests/data were written by the program that had schema 1: they are migrated, and stay as they are from
  then on. So are those that Python makes, also if they hold rows that stand for nothing.
- If there is no room, no right to write, or an office that can't be, a file stays of schema 1; if the log of the
  migration is cut, or copied into the file in part, it is of one schema, whole.
"""

from __future__ import annotations

import gzip
import os
import shutil
import tempfile
from collections.abc import Iterator

import pytest

from lib.cases import Case, content, names
from lib.damage import NO_ROWS, OTHER_LEVEL, OTHER_VERSIONS, Begin, Way, opened_each, read_in_part

from lib.filed import (
    QUOTE, answered, kept_otherwise, listed_otherwise, listing, office_case, rows_in, told_otherwise, unsound,
)  # fmt: skip
from lib.fault import Fault
from lib.places import ROOT
from lib.program import WELL, Program, failed, with_disk
from lib.records import record_ends
from lib.refusing import spread
from lib.sample import Sample
from lib.stored import change, copied, stored
from lib.tried import fault_in
from second_office.office import month_text
from second_office.requests import Record
from second_office.rows import FIRST_TABLES, Kept, Rows, first_of, make_first, migrated, rows_of

pytestmark = pytest.mark.spread

PLACES = 3  # in how many places a case is cut at most whose first records are in a file of schema 1
PARTS = 8  # so many tests share the cases


# ---- cases


def first_places(case: Case) -> list[int]:
    """The ends of the records of a case up to the one that freezes a month again, puts a plan with a reference month or
    hands a series over; none if the second office gives other lines."""
    if case.status or "--zone" in case.words or answered(case.given)[1] != case.lines:
        return []
    office, places, begin = Kept(), list[int](), 0
    for end in record_ends(case.given):
        for record in rows_in(case.given[begin:end]):
            office.reply(record)
        if any(len(revisions) > 1 for revisions in office.tables.values()) or rows_of(office, ["plan_ref"])["plan_ref"]:
            break
        if any(place != one.series for place, one in office.assignments.items()):
            break
        places.append(end)
        begin = end
    return places


def rest_replayed(program: Program, case: Case, place: int) -> Fault:
    """What is wrong if the first records are in a file of schema 1, and the rest is replayed over it."""
    office, lines = answered(case.given[:place])
    with tempfile.TemporaryDirectory() as room:
        path = f"{room}/office.db"
        make_first(path, first_of(rows_of(office)))
        ran = program.run(*case.words, "--db", path, given=case.given[place:])
        if ran[:2] != (case.status, b"".join(case.lines[len(lines) :])):
            return f"{ran}"
        return kept_otherwise(program, case, path)


def places_of(name: str) -> list[int]:
    """Where a case is cut, of these ends."""
    places = first_places(Case(name))[::-1]
    return [places[at - 1] for at in spread(len(places), PLACES)]


@pytest.mark.parametrize("part", range(PARTS))
def test_cases_whose_first_records_are_of_schema_1(program: Program, sample: Sample, part: int) -> None:
    some = sample.of(names()[part::PARTS], 6, f"cases {part}")
    cuts = sample.of([(name, place) for name in some for place in places_of(name)], 8, f"places {part}")
    tried = ((f"{name} from byte {place}", rest_replayed(program, Case(name), place)) for name, place in cuts)
    assert fault_in(tried) is None


# ---- written files

# The cases whose first records, so many, are in files that the program with schema 1 wrote.
WRITTEN = {
    "the-last-frozen-month-is-frozen-again": 19,
    "four-months-of-one-aggregate": 32,
    "a-series-without-a-december-price-links-from-its-carried-one": 48,
}


@pytest.mark.parametrize("name", WRITTEN)
def test_a_file_that_the_program_wrote(program: Program, room: str, name: str) -> None:
    case, path = Case(name), f"{room}/office.db"
    with gzip.open(ROOT / f"tests/data/{name}.db.gz") as packed, open(path, "wb") as file:
        shutil.copyfileobj(packed, file)
    place = record_ends(case.given)[WRITTEN[name] - 1]
    assert opened_and_kept(program, case, path, place) is None
    assert goes_on(program, case, path, place) is None


def opened_and_kept(program: Program, case: Case, path: str, place: int) -> Fault:
    """The file is migrated when it is opened, and not changed when it is opened again."""
    first = stored(path)
    if first != first_of(rows_of(answered(case.given[:place])[0])):
        return "the written file doesn't hold the first records"
    ran = program.replay(b"", path)
    if ran != WELL or stored(path) != migrated(first):
        return f"the rows aren't those of schema 1: {ran}"
    before = content(path)
    ran = program.replay(b"", path)
    if ran != WELL or content(path) != before:
        return f"the file was changed when it was opened again: {ran}"
    return unsound(case, path)


def goes_on(program: Program, case: Case, path: str, place: int) -> Fault:
    """The lists and tables are those of before, and the last month can be frozen again; so can the rest of the case be
    sent."""
    office, lines = answered(case.given[:place])
    rest = shutil.copy(path, f"{path}.rest")
    goes = listed_otherwise(program, path, office) or told_otherwise(program, path, office, [*frozen_again(office)])
    if goes or stored(path) != rows_of(office):
        return goes or "other rows after the last month was frozen again"
    ran = program.replay(case.given[place:], rest)
    return None if ran == (0, b"".join(case.lines[len(lines) :]), b"") else f"the rest of the case: {ran}"


def frozen_again(office: Kept) -> Iterator[Record]:
    """The last frozen month is reopened and frozen again; then all is listed."""
    month = max(office.tables)
    opens, closes, publishes = office.calendar[month]
    yield ["0", "desk", "calendar", month_text(month), str(opens), str(closes + 100), str(publishes + 200)]
    yield [str(closes + 100), "desk", "freeze", month_text(month), *office.index.frozen[month][1]]
    yield from listing(office)


# ---- one office for the checks below


def first_office(_: Program, room: str) -> str:
    """An office in a file of schema 1."""
    make_first(f"{room}/office.db", first_of(rows_of(answered(office_case().given)[0])))
    return f"{room}/office.db"


def first_empty(_: Program, room: str) -> str:
    make_first(f"{room}/office.db", first_of(rows_of(Kept())))
    return f"{room}/office.db"


@pytest.mark.parametrize("begin", [first_office, first_empty])
def test_versions_of_schema_1(program: Program, room: str, begin: Begin) -> None:
    assert opened_each(program, room, OTHER_VERSIONS, "unknown schema", begin) is None


@pytest.mark.parametrize("begin", [first_office, first_empty])
def test_tables_other_than_of_schema_1(program: Program, room: str, begin: Begin) -> None:
    ways: list[Way] = [
        *([f"DROP TABLE {table}"] for table in FIRST_TABLES),
        ["CREATE TABLE note (text TEXT) STRICT"],
        ["CREATE TABLE plan_ref (year INTEGER PRIMARY KEY, month INTEGER NOT NULL) STRICT"],
        ["ALTER TABLE item RENAME COLUMN unit TO size"],
        OTHER_LEVEL,
        ["CREATE INDEX by_receipt ON quote (receipt)"],
        ["CREATE VIEW prices AS SELECT value FROM quote"],
        ["UPDATE version SET number = 2"],
    ]
    assert opened_each(program, room, ways, "database failed", begin) is None


def test_rows_of_schema_1_that_cannot_be(program: Program, room: str) -> None:
    ways = [*NO_ROWS, ["DELETE FROM assignment WHERE slot = 2"], ["DELETE FROM release WHERE month = 202601"]]
    assert opened_each(program, room, ways, "database failed", first_office) is None


def test_rows_of_schema_1_that_stand_for_nothing(program: Program, room: str) -> None:
    """They are migrated as the others are, and stand for nothing still."""
    path = first_office(program, room)
    change(path, ["UPDATE quote SET value = 0 WHERE slot = 1 AND month = 202602"])
    wanted = migrated(stored(path))
    assert read_in_part(program, path, [b"5000,public,tables\n"], [QUOTE]) is None
    assert stored(path) == wanted


@pytest.mark.parametrize("begin", [first_office, first_empty])
def test_lists_of_schema_1(program: Program, room: str, begin: Begin) -> None:
    """All lists are told by the run that migrates a file, and by the next one, which leaves the file as it is."""
    path = begin(program, room)
    office, wanted = answered(office_case().given if begin is first_office else b"")[0], migrated(stored(path))
    assert listed_otherwise(program, path, office) is None
    before = content(path)
    assert listed_otherwise(program, path, office) is None
    assert content(path) == before
    assert stored(path) == wanted


def test_a_table_of_schema_1(program: Program, room: str) -> None:
    """`cpi table` over a file of schema 1, and again over what it made of it."""
    path = first_office(program, room)
    wanted = migrated(stored(path))
    words = ["table", "--db", path, "--month", "2026-01", "--form", "text", "--at", "3000"]
    asked: list[list[str]] = [[], ["--revision", "1"], ["--revision", "2"]]
    latest, first, second = (program.run(*words, *more) for more in asked)
    assert first.status == 0
    assert first.out.startswith(b"CPI 2026-01\n")
    assert latest == first
    assert second == failed("no table")
    assert stored(path) == wanted


# ---- migrations that are broken off

STEP = 2060  # how far a log is cut at a time: half a frame of a page of 4,096 bytes


def schema_of(rows: Rows, first: Rows) -> int:
    """The schema of the office whose rows of schema 1 are those; 0 if they are others."""
    return 1 if rows == first else 2 if rows == migrated(first) else 0


def migrating(program: Program, path: str) -> tuple[bytes, bytes]:
    """The log and the file, while a program that has migrated it waits for a command."""
    with program.begin("replay", "--db", path) as going:
        going.send(QUOTE)
        going.line()
        contents = content(path + "-wal"), content(path)
        going.end()
    return contents


def parts_of(program: Program, path: str) -> tuple[list[tuple[bytes, bytes]], list[tuple[bytes, bytes]]]:
    """Files with the log that migrates them: first with the log cut, and then with a part of it copied to the file."""
    begun = content(path)
    log, waiting = migrating(program, path)
    assert waiting == begun
    closed = content(path)
    # (behind its frames the log has room)
    cuts = [(begun, log[:length]) for length in range(0, len(log.rstrip(b"\0")) + 2 * STEP, STEP)]
    copies = [(closed[:length] + begun[length:], log) for length in range(0, len(closed) + STEP, STEP)]
    return cuts, copies


def test_a_log_in_part(program: Program, room: str) -> None:
    """A file of schema 1, and the log that migrates it: if the log is cut the file is of schema 1, or from some length
    on of schema 2, and if it was copied into the file in part it is of schema 2, whole. The office is the same."""
    path, office = first_office(program, room), answered(office_case().given)[0]
    first, schemas = stored(path), list[int]()
    cuts, copies = parts_of(program, path)
    for at, contents in enumerate(cuts + copies):
        path = f"{room}/{at}.db"
        for end, data in zip(("", "-wal"), contents):
            with open(path + end, "wb") as part:
                part.write(data)
        schemas.append(schema_of(stored(copied(path, f"{room}/copy-{at}.db")), first))
        assert listed_otherwise(program, path, office) is None, f"part {at}, of schema {schemas[-1]}"
        assert stored(path) == migrated(first), f"part {at}, of schema {schemas[-1]}"
    assert schemas[0] == 1
    assert schemas == sorted(schemas)
    assert {*schemas[len(cuts) :]} == {2}


def test_no_room_to_migrate(program: Program, room: str) -> None:
    """A file that may not grow past some size is of schema 1 or of schema 2, whole, and is migrated once there is
    room."""
    begun, met = first_office(program, room), set[tuple[int, int]]()
    first, size = stored(begun), os.path.getsize(begun)
    for most in range(0, 5 * size, size // 10):
        path = shutil.copy(begun, f"{room}/{most}.db")
        ran = program.replay(b"", path, preexec_fn=with_disk(most))
        number = schema_of(stored(copied(path, f"{room}/copy-{most}.db")), first)
        told = f"a file of at most {most} bytes"
        assert number in (1, 2), told
        assert ran in (WELL, failed("database failed")), told
        assert (number, ran.status) != (1, 0), told
        met.add((number, ran.status))
        assert program.replay(b"", path) == WELL, told
        assert stored(path) == migrated(first), told
    assert {(1, 1), (2, 0)} <= met


def as_nobody() -> None:
    """Whoever may write everywhere becomes nobody."""
    if os.geteuid() == 0:
        os.setgroups([])
        os.setgid(65534)
        os.setuid(65534)


def test_no_right_to_migrate(program: Program) -> None:
    """A file that may only be read is left as it was."""
    with tempfile.TemporaryDirectory() as room:
        path, copy = first_office(program, room), shutil.copy(program.path, f"{room}/cpi")
        for name, mode in ((room, 0o755), (copy, 0o755), (path, 0o444)):
            os.chmod(name, mode)
        before = content(path)
        assert Program(copy).replay(QUOTE, path, preexec_fn=as_nobody) == failed("database failed")
        assert content(path) == before

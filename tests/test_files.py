"""Runs a built program over database files, and compares it with what it does in memory.

- Each case of tests/cases is replayed over a new file, and again in two runs that are cut after a record: the lines are
  those of the case. A long run cuts after each of up to 60 records of a case (else evenly spread), a short one draws a
  record. One case is replayed in a run for each record.
- Each table that a case asks for is printed by `cpi table` from the file as it is at the end, if no later freeze and
  no later moment can change it: the same bytes, or `cpi: no table`.
- The file is read by the C library of SQLite: its integrity and its foreign keys are sound, and it has the twenty
  tables that docs/reference/FORMATS.md names, with the rows of the second office (tests/second_office) if that gives
  the case's lines. A file that the C library made is an office.
- A hand-over changes the two assignments of the file and nothing else; a file in which another program wrote the same
  rows is the same office. What is frozen again stands beside what was.
- A file that another program has open is refused, and one after a killed program, one that finds no room on the disk,
  and a copy beside its log hold every line that was answered.
"""

from __future__ import annotations

import contextlib
import json
import os
import signal
import sqlite3
import tempfile
import threading
from collections.abc import Sequence
from typing import Any

import pytest

from lib.cases import Case, names

from lib.filed import (
    COLLECTOR, HAND_OVER, KEY, OTHER_KEY, QUOTE, answered, kept_otherwise, listed_otherwise, office, office_case,
    replayed, stored_otherwise,
)  # fmt: skip
from lib.fault import Fault
from lib.program import Going, Program, Ran, failed, with_disk
from lib.records import record_ends, records_of
from lib.refusing import spread
from lib.sample import Sample
from lib.stored import change, copied, stored
from lib.tried import fault_in
from second_office.rows import TABLES, Rows

pytestmark = pytest.mark.spread

CUTS = 60
"""In so many places a case is cut at most."""

PARTS = 16
"""So many tests share the cases that are cut."""


# ---- cases


@pytest.mark.parametrize("name", names())
def test_a_case_over_a_file(program: Program, room: str, name: str) -> None:
    case = Case(name)
    statuses, lines, path = replayed(program, case, room, [case.given])
    assert statuses == [case.status]
    assert lines == case.wanted
    assert kept_otherwise(program, case, path) is None


def places_of(case: Case, sample: Sample) -> list[int]:
    """The ends of the records after which a case is cut."""
    places = record_ends(case.given)[:-1] if case.status == 0 else []
    spread_places = [places[at - 1] for at in spread(len(places), CUTS)]
    return sample.of(spread_places, 1, f"a cut of {case.name}")


def cut(program: Program, case: Case, place: int) -> Fault:
    """What is wrong with a case in two runs."""
    with tempfile.TemporaryDirectory() as room:
        statuses, lines, _ = replayed(program, case, room, [case.given[:place], case.given[place:]])
    if statuses != [0, case.status] or lines != case.wanted:
        return f"statuses {statuses}, {len(lines)} bytes for {len(case.wanted)}"
    return None


@pytest.mark.parametrize("part", range(PARTS))
def test_cases_in_two_runs(program: Program, sample: Sample, part: int) -> None:
    cases = [Case(name) for name in names()[part::PARTS]]
    cuts = ((case, place) for case in cases for place in places_of(case, sample))
    assert fault_in((f"{case.name} at byte {place}", cut(program, case, place)) for case, place in cuts) is None


def test_an_office_that_is_opened_for_each_record(program: Program, room: str) -> None:
    """It goes on, though it is closed after each."""
    case = office_case()
    parts = records_of(case.given)
    statuses, lines, path = replayed(program, case, room, parts)
    assert statuses == [0] * len(parts)
    assert lines == case.wanted
    assert stored_otherwise(case, path) is None
    assert listed_otherwise(program, path, answered(case.given)[0]) is None


# ---- hand-overs

DONE = b'{"done":true}\n'
NEXT_MONTH = b"0,desk,calendar,2026-03,5000,6000,6000\n"
ASKED = f"5000,{OTHER_KEY},work,2026-03\n5000,{OTHER_KEY},quote,1,2026-03,price,981\n".encode()


def changed(before: Rows, after: Rows) -> set[str]:
    """The tables that have other rows."""
    return {table for table in TABLES if before[table] != after[table]}


def test_a_hand_over_in_a_file(program: Program, room: str) -> None:
    """The former assignment ends, and the new one has the rest of it and the last price."""
    path = office(program, room)
    before = stored(path)
    ran = program.replay(HAND_OVER + NEXT_MONTH, path)
    after = stored(path)
    less = [row for row in before["assignment_2"] if row not in after["assignment_2"]]
    more = [row for row in after["assignment_2"] if row not in before["assignment_2"]]
    assert ran == (0, DONE * 3, b"")
    assert changed(before, after) == {"collector", "calendar", "assignment_2"}
    (former,) = less
    assert more == [(*former[:5], 202602, *former[6:]), (8, 1, *former[2:4], 202603, former[5], 7, 4, 490)]


@pytest.mark.parametrize("price", ["490", "491", "NULL"])
def test_a_hand_over_by_another_program(program: Program, room: str, price: str) -> None:
    """Who writes its rows by hand has the same office, one with a price of 1 more has that price, and one without has
    none."""
    records = HAND_OVER + NEXT_MONTH + ASKED
    wanted = program.replay(office_case().given + records).out.splitlines(keepends=True)[-5:]
    path, new = office(program, room), f"8, 1, outlet, item, 202603, last_month, 7, 4, {price}"
    statements = [f"INSERT INTO collector VALUES (8, '{OTHER_KEY}')"]
    statements += [f"INSERT INTO assignment_2 SELECT {new} FROM assignment_2 WHERE slot = 4"]
    change(path, [*statements, "UPDATE assignment_2 SET last_month = 202602 WHERE collector = 7 AND slot = 4"])
    if price != "490":
        assert b",490," in wanted[3]
        wanted[3:] = [wanted[3].replace(b",490,", f",{price.lower()},".encode()), b'{"receipt":1}\n']
    assert program.replay(records, path) == (0, b"".join(wanted), b"")


# What both collectors are to price in the last frozen month and in the one after it.
LISTS = "".join(f"5000,{key},work,{month}\n" for key in (KEY, OTHER_KEY) for month in ("2026-02", "2026-03")).encode()
RICE, FLOUR = [10, "Corner shop", "RICE", "Rice", "1 kg"], [10, "Corner shop", "FLOUR", "Flour, wheat", "1 kg"]
FEBRUARY: list[list[Any]] = [
    [1, *RICE, 210, "price", 9],
    [2, *RICE, 300, "price", 10],
    [3, *RICE, 540, "price", 11],
    [4, *FLOUR, 490, "missing", 12],
]
MARCH = [[*row[:7], None, None] for row in FEBRUARY]
HANDED = [[1, *FLOUR, 490, None, None]]


def test_lists_of_a_hand_over(program: Program, room: str) -> None:
    """The work lists of both collectors, before a series is handed over and after it, each time that the file is
    opened; a hand-over that stands changes nothing. In memory they are the same."""
    path, sent, heard = office(program, room), office_case().given, office_case().wanted
    for records, work in (
        (COLLECTOR + NEXT_MONTH, [FEBRUARY, MARCH, [], []]),
        (HAND_OVER, [FEBRUARY, MARCH[:3], [], HANDED]),
        (HAND_OVER, [FEBRUARY, MARCH[:3], [], HANDED]),
    ):
        lines = "".join(json.dumps({"work": rows}, separators=(",", ":")) + "\n" for rows in work).encode()
        for given, wanted in ((records, DONE * 2), (LISTS, lines)):
            assert program.replay(given, path) == (0, wanted, b"")
            sent, heard = sent + given, heard + wanted
    assert program.replay(sent) == (0, heard, b"")


# ---- other files, and words before the file


def test_a_file_of_the_c_library(program: Program, room: str) -> None:
    """The tables as the C library makes them from the statements of a file of ours, with a first row."""
    ours, path = office(program, room), f"{room}/theirs.db"
    with contextlib.closing(sqlite3.connect(ours)) as other:
        made = other.execute("SELECT sql FROM sqlite_schema WHERE sql IS NOT NULL ORDER BY rowid")
        texts = [text for (text,) in made]
    rows = ["INSERT INTO version VALUES (2)", "INSERT INTO item VALUES ('RICE', 'Rice', '1 kg', 500, 2000)"]
    change(path, [*texts, *rows])
    ran = program.replay(b"0,public,items\n0,desk,item,TEA,Tea,1 kg,500,2000\n", path)
    assert ran == (0, b'{"items":[["RICE","Rice","1 kg",500,2000]]}\n' + DONE, b"")


def test_a_zone_is_refused_before_a_file_is_made(program: Program, room: str) -> None:
    path = f"{room}/new.db"
    assert program.run("replay", "--zone", "nowhere", "--db", path, given=QUOTE) == failed("bad zone")
    assert not os.path.exists(path)


def test_a_month_is_refused_before_a_file_is_made(program: Program, room: str) -> None:
    path = f"{room}/new.db"
    words = ["table", "--db", path, "--form", "csv", "--at", "3000", "--month", "2026-13"]
    assert program.run(*words, given=QUOTE) == failed("bad month")
    assert not os.path.exists(path)


def access(path: str) -> list[int]:
    """Who may read and write a file and its log."""
    return [os.stat(each).st_mode & 0o777 for each in (path, path + "-wal")]


def test_a_file_for_its_owner_only(program: Program, room: str) -> None:
    """A file that is made is for its owner only, with its log; one that is there keeps its access, and its log gets
    it. What isn't a path makes no file."""
    new, shared = f"{room}/new.db", f"{room}/shared.db"
    with open(shared, "wb"):
        os.chmod(shared, 0o640)
    outlet, paths = b"0,desk,outlet,10,Shop\n", [new, shared, ":memory:"]
    ran = [program.replay(outlet, path, cwd=room, umask=0o022) for path in paths]
    assert ran == [Ran(0, DONE, b"")] * 2 + [failed("database failed")]
    assert [access(new), access(shared)] == [[0o600] * 2, [0o640] * 2]
    assert sorted(os.listdir(room)) == ["new.db", "new.db-wal", "shared.db", "shared.db-wal"]


# ---- a month that is frozen again

AGAIN = f"""2000,desk,calendar,2026-02,2000,4100,6000
4099,{KEY},quote,1,2026-02,price,231
4100,desk,freeze,2026-02
4100,desk,freeze,2026-02,01.1.1.2-01
4100,desk,freeze,2026-02,01.1.1.2-01
5999,public,table,2026-02,csv
6000,public,table,2026-02,csv
6000,public,table,2026-02,text,2
6000,public,tables
6000,desk,outlet,12,Market
""".encode()
CHANGED = {"calendar", "outlet", "quote_2", "release_2", "frozen_2", "carried_2", "level_2"}


def test_a_month_that_is_frozen_again(program: Program, room: str) -> None:
    """What is frozen again stands beside what was, each revision with its table."""
    path = office(program, room)
    before = stored(path)
    wanted = program.replay(office_case().given + AGAIN).out.splitlines(keepends=True)[-10:]
    assert wanted[3] == DONE
    assert wanted[5] != wanted[6]
    assert program.replay(AGAIN, path) == (0, b"".join(wanted), b"")
    after = stored(path)
    kept = [table for table in TABLES if table not in ("calendar", "quote_2")]
    assert [row for table in kept for row in before[table] if row not in after[table]] == []
    assert changed(before, after) == CHANGED
    for revision, at in (("1", 5), ("2", 6)):
        words = ["--month", "2026-02", "--form", "csv", "--at", "6000", "--revision", revision]
        ran = program.run("table", "--db", path, *words)
        assert ran == (0, json.loads(wanted[at])["table"].encode(), b"")


# ---- programs beside each other, killed, and without room


def test_two_programs(program: Program, room: str) -> None:
    """A second program is told that the database failed, and the first goes on."""
    path = office(program, room)
    with program.begin("replay", "--db", path) as first:
        first.send(QUOTE)
        begun = first.line()
        second = program.replay(QUOTE, path)
        first.send(QUOTE)
        ended = first.end()
    assert second == failed("database failed")
    assert begun.startswith(b'{"quotes":[[1,')
    assert (ended.status, ended.out) == (0, begun)


SLOT = "0,desk,assign,7,{},10,RICE,2026-01,2026-12\n"
SETUP = f"""0,desk,item,RICE,Rice,1 kg,1,10000
0,desk,outlet,10,Corner shop
0,desk,collector,7,{KEY}
{''.join(SLOT.format(slot) for slot in range(1, 401))}0,desk,calendar,2026-01,0,9000,9000
""".encode()


def quotes(count: int) -> list[bytes]:
    """So many records that are each answered by the next receipt."""
    places = [(1 + at % 400, 100 + at // 400) for at in range(count)]
    return [f"1500,{KEY},quote,{slot},2026-01,price,{price}\n".encode() for slot, price in places]


def set_up(program: Program, room: str) -> str:
    """The file of an office with the slots of these quotes."""
    program.replay(SETUP, f"{room}/office.db")
    return f"{room}/office.db"


def assert_that_they_stand(program: Program, path: str, lines: Sequence[bytes], sent: Sequence[bytes]) -> None:
    """Every quote that was answered stands, and one that is sent again has the same receipt."""
    done = [json.loads(line) for line in lines]
    receipts = [reply["receipt"] for reply in done if "receipt" in reply]
    assert receipts
    assert receipts == [*range(1, len(receipts) + 1)]
    ran = program.replay(sent[len(receipts) - 1] + QUOTE.replace(b"2025-12", b"2026-01"), path)
    assert ran.status == 0
    again, listed = (json.loads(line) for line in ran.lines())
    assert again == {"receipt": len(receipts)}
    kept = max(row[4] for row in listed["quotes"])
    assert kept in (len(receipts), len(receipts) + 1)


def give(going: Going, data: bytes) -> None:
    with contextlib.suppress(BrokenPipeError):
        going.send(data)


def test_a_program_that_is_killed(program: Program, room: str) -> None:
    path, sent = set_up(program, room), quotes(3000)
    with program.begin("replay", "--db", path) as going:
        giver = threading.Thread(target=give, args=(going, b"".join(sent)))
        giver.start()
        lines = [going.line() for _ in range(700)]
        going.process.send_signal(signal.SIGKILL)
        lines += going.out.read().split(b"\n")[:-1]
        giver.join()
    assert_that_they_stand(program, path, lines, sent)


def test_no_room_on_the_disk(program: Program, room: str) -> None:
    """A file that may not grow: the quotes past that are refused by 90, and those before it stand."""
    path, sent = set_up(program, room), quotes(3000)
    most = 1000 * 1000 + os.path.getsize(path)
    lines = program.replay(b"".join(sent), path, preexec_fn=with_disk(most)).lines()
    assert len(lines) == len(sent)
    assert lines[-1] == b'{"refused":90}'
    assert_that_they_stand(program, path, lines[: lines.index(b'{"refused":90}')], sent)


def test_a_log_beside_the_file(program: Program, room: str) -> None:
    """A file and its log that are copied while the program waits for a command hold every answered quote."""
    path, sent = set_up(program, room), quotes(500)
    with program.begin("replay", "--db", path) as going:
        going.send(b"".join(sent))
        lines = [going.line() for _ in sent]
        has_log = os.path.exists(path + "-wal")
        copy = copied(path, f"{room}/copy.db")
        going.end()
    assert has_log
    assert_that_they_stand(program, copy, lines, sent)

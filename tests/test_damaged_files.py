"""Opens files that can't be offices, or that hold rows which no office has.

A folder, a path that leads nowhere, a text, versions that aren't known, other tables, rows outside the limits or
without their parents, rows of plans of no year: each has its line and its status, and the file stays as it was. If a
quote, an assignment, its series or its copied price, or a plan can stand for nothing, the survey can't be read: what
asks for it is refused by 90, and published tables can still be read. A row of a published table that is outside the
limits shuts out only that table.
"""

from __future__ import annotations

import os
from pathlib import Path

import pytest

from lib.damage import (
    NO_ROWS, NO_YEARS, OTHER_LEVEL, OTHER_VERSIONS, Begin, Way, of_no_type, opened, opened_each, read_in_part,
)  # fmt: skip
from lib.filed import KEY, QUOTE, answered, empty, listed_otherwise, office, office_case
from lib.program import Program
from lib.stored import change, stored
from second_office.records import text_of
from second_office.rows import TABLES

FAILED = "database failed"


def test_a_folder(program: Program, room: str) -> None:
    os.mkdir(f"{room}/folder")
    assert opened(program, f"{room}/folder", FAILED) is None


def test_a_path_that_leads_nowhere(program: Program, room: str) -> None:
    assert opened(program, f"{room}/none/office.db", FAILED) is None


def test_a_text(program: Program, room: str) -> None:
    Path(room, "text.db").write_text("Prices of March\n" * 400, encoding="ascii")
    assert opened(program, f"{room}/text.db", FAILED) is None


@pytest.mark.parametrize("begin", [office, empty])
def test_an_unknown_version(program: Program, room: str, begin: Begin) -> None:
    assert opened_each(program, room, OTHER_VERSIONS, "unknown schema", begin) is None


REFERENCES, OTHER_COLUMNS = "CREATE TABLE plan_ref (year INTEGER PRIMARY KEY", ["at INTEGER", "month TEXT"]
OTHER_TABLES: list[Way] = [
    *([f"DROP TABLE {table}"] for table in TABLES),
    ["CREATE TABLE note (text TEXT) STRICT"],
    ["ALTER TABLE item RENAME COLUMN unit TO size"],
    ["ALTER TABLE release_2 RENAME COLUMN revision TO number"],
    OTHER_LEVEL,
    *(["DROP TABLE plan_ref", f"{REFERENCES}, {column} NOT NULL) STRICT"] for column in OTHER_COLUMNS),
    ["CREATE INDEX by_receipt ON quote_2 (receipt)"],
    ["CREATE VIEW prices AS SELECT value FROM quote_2"],
    ["CREATE TRIGGER no_names AFTER INSERT ON outlet BEGIN DELETE FROM outlet; END"],
    ["UPDATE version SET number = 1"],
]


@pytest.mark.parametrize("begin", [office, empty])
def test_other_tables(program: Program, room: str, begin: Begin) -> None:
    """Each table left out, one too many, columns that lack or have another name or type, an index, a view, a trigger,
    and the number of the schema before."""
    assert opened_each(program, room, OTHER_TABLES, FAILED, begin) is None


def test_rows_that_cannot_be(program: Program, room: str) -> None:
    """Rows whose parents are gone, rows of the small tables outside the limits, and rows of plans of no year."""
    gone = [["DELETE FROM assignment_2 WHERE slot = 2"], ["DELETE FROM release_2 WHERE month = 202601"]]
    references = [[f"INSERT INTO plan_ref VALUES ({year}, 202512)"] for year in NO_YEARS]
    texts = [of_no_type("node", "'x', '00', 'All items', 1"), of_no_type("plan_item", "'x', 'RICE', '01.1.1.1'")]
    assert opened_each(program, room, [*NO_ROWS, *gone, *references, *texts], FAILED, office) is None


def test_rows_of_the_first_and_the_last_year(program: Program, room: str) -> None:
    """Such rows make no plan, but are of years that one can have: the file is opened."""
    path = office(program, room)
    change(path, [f"INSERT INTO node VALUES ({year}, '00', 'All items', 1)" for year in (2000, 2199)])
    change(path, [f"INSERT INTO plan_ref VALUES ({year}, 202512)" for year in (2000, 2199)])
    ran = program.replay(TABLES_TOLD, path)
    assert ran.status == 0
    assert b"tables" in ran.out


Records = list[bytes]

TABLES_TOLD, TABLE = b"5000,public,tables\n", b"5000,public,table,2026-01,csv\n"
ITEMS, WORK = b"5000,public,items\n", f"1500,{KEY},work,2026-01\n".encode()
PUBLISHED: Records = [TABLES_TOLD, TABLE]
SURVEY: Records = [ITEMS, WORK, QUOTE, b"5000,desk,outlet,12,Market\n"]
LEVEL = "WHERE month = 202601 AND code = '00'"
NO_SERIES = [("series_collector", 0), ("series_collector", 10_000), ("series_slot", 0), ("series_slot", 401)]
NO_PRICES = [("copied", 0), ("copied", -1), ("copied", 100_000_001)]
READ_IN_PART: list[tuple[str, Records, Records]] = [
    # a way to change a file, what is told then, and what is refused
    ("UPDATE quote_2 SET value = 0 WHERE slot = 1 AND month = 202602", PUBLISHED, SURVEY),
    *(
        (f"UPDATE level_2 SET weight = {weight} {LEVEL}", [TABLES_TOLD, ITEMS, WORK], [TABLE])
        for weight in (0, 10**15 + 1)
    ),
    # a slot whose series can't be, or that has a copied price which is none
    *(
        (f"UPDATE assignment_2 SET {column} = {value} WHERE slot = 1", PUBLISHED, SURVEY)
        for column, value in NO_SERIES + NO_PRICES
    ),
]


@pytest.mark.parametrize("way, told, refused", READ_IN_PART, ids=[way for way, _, _ in READ_IN_PART])
def test_rows_that_stand_for_nothing(program: Program, room: str, way: str, told: Records, refused: Records) -> None:
    """Once the office is changed so, only these records are refused by 90."""
    path = office(program, room)
    change(path, [way])
    assert read_in_part(program, path, told, refused) is None


# Months that no plan of 2026 can have as its reference: one after its link month, and numbers that are no month.
NO_REFERENCES = [202601, 209912, 202513, 202500, 199912, 0, -1]


@pytest.mark.parametrize("month", NO_REFERENCES)
def test_a_reference_month_of_no_plan(program: Program, room: str, month: int) -> None:
    """A plan with such a month can't be read, and so nothing that takes a plan; what was published can."""
    path = office(program, room)
    change(path, [f"INSERT INTO plan_ref VALUES (2026, {month})"])
    ran = program.replay(b"5000,public,tables\n5000,public,items\n" + WORK, path)
    assert ran.status == 0
    tables, *others = ran.lines()
    assert b"tables" in tables
    assert others == [b'{"refused":90}'] * 2


def test_a_reference_month_without_a_plan(program: Program, room: str) -> None:
    """It stands for nothing, and is gone once there is a plan of its year."""
    path = office(program, room)
    plan = text_of([["T", row[1], "Of 2027"] for row in stored(path)["node"]])
    plan += "W,01.1.1.1-01,600000\nW,01.1.1.2-01,400000\n"
    change(path, ["INSERT INTO plan_ref VALUES (2027, 202612)"])
    assert listed_otherwise(program, path, answered(office_case().given)[0]) is None
    ran = program.replay(text_of([["5000", "desk", "plan", "2027", plan]] * 2).encode(), path)
    assert ran == (0, b'{"done":true}\n' * 2, b"")
    assert stored(path)["plan_ref"] == []

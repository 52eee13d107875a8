"""`cpi-tools drill`: what is whole passes, what was changed is found, and nothing that is looked at changes."""

from __future__ import annotations

import contextlib
import os
import re
import shutil
import sqlite3
import subprocess
from pathlib import Path

import pytest

from cpi_tools.command_line import main
from cpi_tools.office.frozen_quotes import Months, differing
from cpi_tools.guard.backup import Note, hash_of, note_beside, note_text
from cpi_tools.office.copying import CopyFailed, log_beside
from cpi_tools.guard.drill import (
    MOST_TOLD,
    Counts,
    Drilled,
    computed_faults,
    differences,
    drill,
    figures_of,
    note_of,
    told_line,
)
from cpi_tools.office.program import Cpi
from cpi_tools.office.stored import Level, stored_office
from lib.places import ROOT
from .offices import LOAD_KEY, LOAD_MONTH, TABLES, registered
from .ran import Ran, run

ROWS, CARRIED = 13 * 13 + 2 * 11, 13 * 6 + 2 * 4
"""Rows of the tables, and carried prices: of 2025 with its revision, and of two months of 2026, which have two nodes
and two series less; none of the first December. (Two series have no place in a plan.)"""


def change(file: Path, *statements: str) -> None:
    """Changes an office's file by the C library, and leaves no log."""
    with contextlib.closing(sqlite3.connect(file)) as link:
        for statement in statements:
            assert link.execute(statement).rowcount == 1, statement
        link.commit()


def with_note(file: Path) -> Path:
    """The note on a file as it is now."""
    note_beside(file).write_text(note_text(Note("office.db", 1_700_000_000, TABLES, 1, hash_of(file)), file.name))
    return file


def test_an_office_passes_and_is_left_as_it_is(cpi: Cpi, office: Path) -> None:
    with_note(office)
    before = {path.name: path.read_bytes() for path in office.parent.iterdir()}
    found = drill(cpi, office)
    assert found.faults == ()
    assert (found.tables, found.rows, found.quotes, found.other_quotes) == (TABLES, ROWS, 8 * (TABLES - 1), 0)
    assert found.carried == CARRIED
    assert {path.name: path.read_bytes() for path in office.parent.iterdir()} == before
    assert told_line(Path("office.db"), found) == (
        f"office.db: nothing is wrong; {TABLES} tables with {ROWS} rows and {CARRIED} carried prices computed"
        f" anew, {found.quotes} quotes; copied 2023-11-14 22:13 UTC"
    )


PRICE = "UPDATE quote_2 SET value = value + 1 WHERE collector = 1 AND slot = 2 AND month = 202602"

CHANGES = {
    "a frozen price": (
        "UPDATE frozen_2 SET value = value + 1 WHERE month = 202602 AND collector = 1 AND slot = 1",
        ["2026-02 revision 1: 1 carried price other", "2026-02 revision 1: 6 rows of its table other than"],
    ),
    "a frozen price of a revision that another one followed": (
        "UPDATE frozen_2 SET value = value + 1 WHERE month = 202503 AND revision = 1 AND collector = 1 AND slot = 1",
        ["2025-03 revision 1: 1 carried price other", "2025-03 revision 1: "],
    ),
    "a carried price": (
        "UPDATE carried_2 SET ticks = ticks + 1 WHERE month = 202507 AND collector = 1 AND slot = 3",
        ["2025-07 revision 1: 1 carried price other than its quotes give, the first of series 1/3"],
    ),
    "a scale": (
        "UPDATE carried_2 SET kden = kden + 1 WHERE month = 202504 AND collector = 1 AND slot = 5",
        ["2025-04 revision 1: 1 carried price other than its quotes give, the first of series 1/5"],
    ),
    "whether a price was observed": (
        "UPDATE carried_2 SET observed = 0 WHERE month = 202504 AND collector = 1 AND slot = 5",
        ["2025-04 revision 1: 1 carried price other than its quotes give, the first of series 1/5"],
    ),
    "a level": (
        "UPDATE level_2 SET chained = chained + 1 WHERE month = 202512 AND revision = 1 AND code = '07.2'",
        ["2025-12 revision 1: 1 row of its table other than its quotes give, the first at 07.2"],
    ),
    "a level of a revision that another one followed": (
        "UPDATE level_2 SET chained = chained + 1 WHERE month = 202503 AND revision = 1 AND code = '00'",
        ["2025-03 revision 1: 1 row of its table other than its quotes give, the first at 00"],
    ),
    "a change on the year": (
        "UPDATE level_2 SET year_change = NULL WHERE month = 202601 AND code = '00'",
        ["2026-01 revision 1: 1 row of its table other than its quotes give, the first at 00"],
    ),
    "a weight": (
        "UPDATE node SET weight = weight + 1 WHERE year = 2026 AND code = '01.1.1.1-01'",
        ["2026-01 revision 1: ", "2026-02 revision 1: "],
    ),
    "a title": (
        "UPDATE level_2 SET title = 'Other' WHERE month = 202602 AND code = '01'",
        ["2026-02 revision 1: the titles aren't those of the year's plan"],
    ),
    "a carry list": (
        "UPDATE release_2 SET carry = '' WHERE month = 202507",
        ["2025-07 revision 1: can't be computed from what is stored (ZeroDivisionError"],
    ),
}


@pytest.mark.parametrize("what", CHANGES)
def test_what_was_changed_is_found_without_a_note(what: str, office: Path) -> None:
    """The computation alone finds it; what `cpi` says of such files is another test's."""
    statement, wanted = CHANGES[what]
    change(office, statement)
    found = computed_alone(office)
    assert len(found) == len(wanted), found
    for line, begin in zip(found, wanted):
        assert line.startswith(begin)


def computed_alone(file: Path) -> list[str]:
    """The faults of a file by the computation, without the program."""
    with stored_office(file) as office:
        return [fault for faults in computed_faults(office, None, Counts()) for fault in faults]


def test_changed_figures_are_found_in_a_drill(cpi: Cpi, office: Path) -> None:
    """A price, a carried price and a level at once, each told at its place, of a file that `cpi` opens."""
    change(office, *(CHANGES[what][0] for what in ("a frozen price", "a carried price", "a level")), PRICE)
    found = drill(cpi, office)
    assert [fault.partition(":")[0] for fault in found.faults] == [
        "2025-07 revision 1", "2025-12 revision 1", "2026-02 revision 1", "2026-02 revision 1",
    ]  # fmt: skip
    # (A quote that was changed looks as one that was sent again after its month was frozen: this is told, and no fault.
    # The other one is that whose frozen price was changed.)
    assert found.other_quotes == 2
    assert "(2 of them not as frozen last); no note of its SHA-256" in told_line(office, found)


def byte_of(file: Path, table: str, where: str, column: str) -> int:
    """Where in a file the last byte of a number is that one row alone has; the row's number is made known by changing
    it in a copy, whose one other byte in the table's pages is the place."""
    other = file.with_name("other.db")
    shutil.copy(file, other)
    change(file, f"UPDATE {table} SET {column} = {column} WHERE {where}")
    change(other, f"UPDATE {table} SET {column} = {column} + 1 WHERE {where}")
    old, new = file.read_bytes(), other.read_bytes()
    other.unlink()
    places = [at for at in range(4096, len(old)) if old[at] != new[at]]
    assert len(places) == 1, places
    return places[0]


@pytest.mark.parametrize(
    ("table", "where", "column"),
    [
        ("quote_2", "collector = 1 AND slot = 1 AND month = 202602", "value"),
        ("carried_2", "collector = 1 AND slot = 1 AND month = 202602", "ticks"),
        ("level_2", "code = '00' AND month = 202602", "chained"),
    ],
)
def test_a_byte_that_changed_is_found_by_the_note(office: Path, table: str, where: str, column: str) -> None:
    place = byte_of(office, table, where, column)
    with_note(office)
    data = bytearray(office.read_bytes())
    data[place] ^= 1
    office.write_bytes(data)
    with contextlib.closing(sqlite3.connect(office)) as link:
        assert link.execute("PRAGMA integrity_check").fetchall() == [("ok",)]
    faults: list[str] = []
    assert note_of(office, faults)
    assert faults == ["its bytes aren't those of its note office.db.sha256"]


def test_rows_that_lack_another_and_pages_that_are_torn_are_found(cpi: Cpi, office: Path) -> None:
    with contextlib.closing(sqlite3.connect(office)) as link:
        link.execute("DELETE FROM calendar")
        link.execute("DELETE FROM item WHERE code = 'PHONE'")
        link.execute("DELETE FROM quote_2 WHERE collector = 1 AND slot = 1 AND month = 202602")
        link.commit()
    found = drill(cpi, office)
    assert [fault for fault in found.faults if fault.startswith("foreign_key_check: row ")]
    assert [fault for fault in found.faults if fault == "1 quote that a month was frozen with and that no slot has"]


def test_a_torn_file_is_told(cpi: Cpi, office: Path) -> None:
    data = bytearray(office.read_bytes())
    for at in range(3 * 4096, len(data), 3 * 4096):
        data[at : at + 200] = bytes(200)
    office.write_bytes(data)
    found = drill(cpi, office)
    assert any(fault.startswith("cpi: database failed") for fault in found.faults)
    assert any("integrity_check" in fault or "C library" in fault for fault in found.faults)


def test_each_fault_is_a_line_and_of_many_the_first_ones(
    cpi: Cpi, office: Path, capsys: pytest.CaptureFixture[str]
) -> None:
    """Where the rows of frozen quotes begin in their page is lost: SQLite's check tells it in an answer of many lines,
    and of each row in one."""
    with contextlib.closing(sqlite3.connect(office)) as link:
        ((page,),) = link.execute("SELECT rootpage FROM sqlite_master WHERE name = 'frozen_2'")
    data, at = bytearray(office.read_bytes()), (page - 1) * 4096 + 8
    data[at : at + 100] = bytes(100)
    office.write_bytes(data)
    found = drill(cpi, office)
    assert sum(fault.startswith("integrity_check: ") for fault in found.faults) > MOST_TOLD
    assert not any("\n" in fault or "***" in fault for fault in found.faults)
    status, begin = main(["drill", str(office), "--program", str(cpi.path)]), f"cpi-tools drill: {office}: "
    ran = capsys.readouterr()
    lines = [f"{begin}{fault}" for fault in found.faults[:MOST_TOLD]]
    lines += [f"{begin}and {len(found.faults) - MOST_TOLD:,} more", f"{begin}warning: {lacks_both(office)}"]
    assert (status, ran.err.splitlines()) == (1, lines)
    assert ran.out.startswith(f"{office}: {len(found.faults)} faults and 1 warning; ")


# ---- what may lack a part of its office

NO_COLLECTOR = "no collector is registered in it: either its office has no survey yet, or its data stayed in a log"


def lacks_both(copy: Path) -> str:
    """The warning on a copy that has neither a note nor a log."""
    return (
        f"neither a note ({copy.name}.sha256) nor a log ({copy.name}-wal) is next to it: if it was copied without its"
        " log, it lacks the answered commands that were only in the log"
    )


def killed_office(cpi: Cpi, file: Path) -> Path:
    """The file of an office whose program was killed after it answered a survey, all of which is in the log."""
    with contextlib.suppress(KeyError), cpi.session(file) as session:
        for each in registered():
            assert session.ask(each) == {"done": True}
        raise KeyError
    return file


def drilled(cpi: Cpi, copy: Path) -> Ran:
    return run(cpi, "drill", copy)


def test_the_file_of_a_killed_office_without_its_log_is_warned_of(cpi: Cpi, tmp_path: Path) -> None:
    """The file by itself is a sound office in which nothing was ever done; with its log it has the survey."""
    office, copy = killed_office(cpi, tmp_path / "office.db"), tmp_path / "x.db"
    shutil.copy(office, copy)
    found, begin = drilled(cpi, copy), f"cpi-tools drill: {copy}: warning: "
    assert (found.status, found.err.splitlines()) == (3, [f"{begin}{lacks_both(copy)}", f"{begin}{NO_COLLECTOR}"])
    assert found.out.startswith(f"{copy}: 2 warnings; 0 tables ") and ", 0 quotes, no collector; no note" in found.out
    shutil.copy(log_beside(office), log_beside(copy))
    whole = drilled(cpi, copy)
    assert (whole.status, whole.err) == (0, "")
    assert whole.out.startswith(f"{copy}: nothing is wrong; 0 tables ") and "no collector" not in whole.out


def test_a_file_with_neither_note_nor_log_is_warned_of_whatever_it_has(cpi: Cpi, office: Path) -> None:
    found = drilled(cpi, office)
    assert (found.status, found.err) == (3, f"cpi-tools drill: {office}: warning: {lacks_both(office)}\n")
    log_beside(office).write_bytes(bytes(41))
    assert drilled(cpi, office)[::2] == (0, "")
    log_beside(office).unlink()
    with_note(office)
    assert drilled(cpi, office)[::2] == (0, "")


def test_an_office_without_a_collector_is_warned_of_unless_a_note_says_that_it_is_whole(
    cpi: Cpi, tmp_path: Path
) -> None:
    """The file of an office that was just made, with the log that the program left, and its backup."""
    office, backup = tmp_path / "office.db", tmp_path / "backup.db"
    assert cpi.replay([], db=office) == [] and log_beside(office).exists()
    assert drilled(cpi, office)[::2] == (3, f"cpi-tools drill: {office}: warning: {NO_COLLECTOR}\n")
    assert run(cpi, "backup", office, backup).status == 0
    found = drilled(cpi, backup)
    assert (found.status, found.err) == (0, "")
    assert found.out.startswith(f"{backup}: nothing is wrong; ") and ", 0 quotes, no collector; copied " in found.out


def test_the_night_keeps_the_backup_of_an_office_before_its_survey(cpi: Cpi, tmp_path: Path) -> None:
    office, kept = tmp_path / "office.db", tmp_path / "kept"
    assert cpi.replay([], db=office) == []
    kept.mkdir()
    (tmp_path / "bin").mkdir()
    (tmp_path / "bin/cpi-tools").symlink_to(ROOT / "cpi-tools")
    ways = {"PATH": f"{tmp_path}/bin:{os.environ['PATH']}", "CPI": str(cpi.path)}
    told = subprocess.run(
        [ROOT / "ops/cpi-backup"],
        env={**os.environ, **ways, "CPI_OFFICE": str(office), "CPI_BACKUPS": str(kept)},
        capture_output=True,
        text=True,
        check=False,
    )
    assert (told.returncode, told.stderr) == (0, "")
    names = sorted(path.name for path in kept.iterdir() if path.is_file())
    assert len(names) == 2 and names[1] == f"{names[0]}.sha256" and names[0].endswith(".db")


def test_what_is_no_office_is_told(cpi: Cpi, tmp_path: Path) -> None:
    text, empty, other = tmp_path / "text", tmp_path / "empty", tmp_path / "other.db"
    text.write_text("no database\n" * 1000)
    empty.touch()
    with contextlib.closing(sqlite3.connect(other)) as link:
        link.execute("CREATE TABLE release (month)")
    for path in (text, other):
        begins = [fault.partition(" (")[0].partition(" read")[0] for fault in drill(cpi, path).faults]
        assert begins == ["cpi: database failed", "the C library can't"]
    for path, told in ((empty, "is empty, so it is no office"), (tmp_path, "is no file"), (tmp_path / "x", "No such")):
        with pytest.raises(CopyFailed, match=told):
            drill(cpi, path)
    assert empty.stat().st_size == 0 and not log_beside(empty).exists()


def test_a_log_beside_a_copy_belongs_to_it(cpi: Cpi, office: Path, tmp_path: Path) -> None:
    with cpi.session(office) as session:
        assert session.ask(f"50,{LOAD_KEY},quote,1,{LOAD_MONTH},price,1000") == {"receipt": 1}
        (tmp_path / "copy").mkdir()
        copy = Path(shutil.copy(office, tmp_path / "copy"))
        shutil.copy(log_beside(office), tmp_path / "copy")
    found = drill(cpi, copy)
    assert (found.faults, found.quotes) == ((), 8 * (TABLES - 1) + 1)
    assert log_beside(copy).stat().st_size > 41


def test_a_log_beside_a_backup_is_none_of_it(cpi: Cpi, office: Path) -> None:
    """A backup is one file, of which its note tells: what a log has beside it is of later. One with nothing in it is
    that of a program that has ended."""
    with_note(office)
    log_beside(office).write_bytes(bytes(41))
    assert drill(cpi, office).faults == ()
    with pytest.raises(KeyError):
        with cpi.session(office) as session:
            assert session.ask("0,desk,outlet,77,Kiosk") == {"done": True}
            raise KeyError
    told = "office.db-wal beside it has something in it, of which its note doesn't tell"
    assert drill(cpi, office).faults == (told,)


def test_a_note_that_is_none_is_told(cpi: Cpi, office: Path) -> None:
    note_beside(office).write_text("text")
    assert drill(cpi, office).faults == (f"{note_beside(office)} isn't a note that cpi-tools wrote",)


def test_figures_are_read_from_what_is_printed() -> None:
    text = '00,1000000,99.750000,101.000001,-0.3,,1,"All, ""items"""\n01,5,0.000001,100.000000,0.0,12.3,0,Food\n'
    levels, titles = figures_of(text)
    assert levels == {
        "00": Level(1_000_000, 99_750_000, 101_000_001, -3, None, 1),
        "01": Level(5, 1, 10**8, 0, 123, 0),
    }
    assert titles == {"00": 'All, "items"', "01": "Food"}
    assert figures_of("") == ({}, {})
    for other in ("00,1,99.75,1.000000,0.0,,0,x\n", "{'refused': 30}", "00,1\n"):
        with pytest.raises(ValueError):
            figures_of(other)


def test_a_table_that_is_printed_otherwise_is_a_fault(cpi: Cpi, office: Path) -> None:
    """As the program prints the last table nothing differs; in another figure, in another title and as none it does."""
    month, text = (202602, 1), cpi.table(office, "2026-02", "csv", 9_999_999_999).decode()
    with stored_office(office) as stored:
        months = Months(stored)
        for each in stored.releases():
            wanted = months.compute(each, stored.frozen(each), each[:2] != (202503, 1))
        found = [
            [*differences(stored, wanted, {month: told})]
            for told in (
                text,
                re.sub(r"^00,(\d+)", lambda weight: f"00,{int(weight[1]) + 1}", text),
                text.replace(",Petrol\n", ",Diesel\n", 1),
                "{'refused': 30}",
            )
        ]
    other = ["cpi prints it in another way than it is stored"]
    assert found == [[], other, other, ["cpi prints no table of it"]]


def test_a_table_that_is_not_listed_is_a_fault(made: Path) -> None:
    with stored_office(made, is_settled=True) as office:
        told = next(computed_faults(office, {}, Counts()))
    assert told == [f"{TABLES} releases stored, 0 tables listed by cpi"]


def test_what_differs() -> None:
    assert differing({"a": 1, "b": 2}, {"b": 3, "c": 4}) == ["a", "b", "c"]
    assert differing({"a": 1}, {"a": 1}) == []


def test_the_line_tells_faults() -> None:
    found = Drilled(1, 2, 3, 4, 0, 5, None, ("one",))
    assert told_line(Path("x"), found).startswith("x: 1 fault; 1 table with 2 rows and 3 carried prices")

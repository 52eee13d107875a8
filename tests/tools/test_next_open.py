"""What the next open of an office's file takes: how many rows a file has while `cpi` holds it, what an open of it really
takes, what a unit allows, and what the probe and the doctor say of both."""

from __future__ import annotations

import os
import sqlite3
import subprocess
from pathlib import Path
from subprocess import PIPE
from typing import Optional

import pytest

from cpi_tools.guard import doctor, next_open
from cpi_tools.office.access import this_user
from cpi_tools.command_line import parser
from cpi_tools.guard.watch.probe_looks import CRITICAL, OK, WARNING
from cpi_tools.guard.next_open import MIB, Allowed, NextOpen, Rows, allowed_of, bytes_of, in_words, rows_of, seconds_of
from cpi_tools.guard.watch.probe_output import judge_office
from cpi_tools.office.program import Cpi
from cpi_tools.text.terminal import Fault
from lib import aged
from .test_probe import chosen, seen

COLLECTORS = 25
"""With 400 series each, so that a year's rows outweigh what the program holds of an empty file."""


@pytest.fixture(scope="module")
def year_old(cpi: Cpi, tmp_path_factory: pytest.TempPathFactory) -> Path:
    """An office that is one year old."""
    path = tmp_path_factory.mktemp("aged") / "office.db"
    aged.begin(str(cpi.path), path, COLLECTORS)
    aged.grow(path, aged.FIRST_YEAR)
    return path


def counted(path: Path) -> list[int]:
    """The rows of the three large tables, counted one by one."""
    office = sqlite3.connect(path)
    counts = [
        office.execute(f"SELECT count(*) FROM {table}").fetchone()[0] for table in ("quote_2", "frozen_2", "carried_2")
    ]
    office.close()
    return counts


def memory_of_open(program: object, path: Path) -> int:
    """The greatest memory of an open, in bytes, as the kernel counts it while the program waits for its next record."""
    with subprocess.Popen([str(program), "replay", "--db", str(path)], stdin=PIPE, stdout=PIPE) as process:
        assert process.stdin and process.stdout
        process.stdin.write(b"0,public,tables\n")
        process.stdin.flush()
        assert process.stdout.readline().startswith(b'{"tables":')
        lines = Path(f"/proc/{process.pid}/status").read_text().splitlines()
        process.stdin.close()
    return next(int(line.split()[1]) for line in lines if line.startswith("VmHWM:")) * 1024


def test_the_rows_of_a_file_are_those_that_count_finds(year_old: Path, made: Path) -> None:
    """Of an office that frozen months made, and of one that `cpi` lived through."""
    for path in (year_old, made):
        counts = counted(path)
        rows = rows_of(path)
        assert (rows.largest, rows.together) == (max(counts), sum(counts)) and rows.monthly
    assert rows_of(year_old).monthly == COLLECTORS * aged.SLOTS


def test_rows_are_read_while_cpi_holds_the_file(cpi: Cpi, office: Path) -> None:
    """And nothing is left beside the file, or changed."""
    before = rows_of(office)
    with cpi.session(office) as session:
        assert "tables" in session.ask("0,public,tables")
        there = sorted(os.listdir(office.parent)), office.read_bytes()
        assert rows_of(office) == before
        assert (sorted(os.listdir(office.parent)), office.read_bytes()) == there


def test_a_file_that_is_no_office_has_no_known_rows(tmp_path: Path) -> None:
    (tmp_path / "text").write_text("text")
    with pytest.raises(Fault, match="how many rows .*text has can't be read: file is not a database"):
        rows_of(tmp_path / "text")
    with pytest.raises(Fault, match="none: No such file or directory"):
        rows_of(tmp_path / "none")


def test_an_open_takes_the_memory_that_is_said(cpi: Cpi, year_old: Path, tmp_path: Path) -> None:
    """Neither a fifth more nor a third less than what it takes beside an open of an empty file."""
    empty = memory_of_open(cpi.path, tmp_path / "empty.db")
    taken = memory_of_open(cpi.path, year_old) - empty
    said = rows_of(year_old).memory
    assert 0.67 * said < taken < 1.2 * said, (taken, said)


@pytest.mark.parametrize(
    ("text", "seconds"),
    [
        ("1h", 3600),
        ("1min 30s", 90),
        ("2h 5ms", 7200.005),
        ("500ms", 0.5),
        ("infinity", None),
        ("", None),
        ("7 x", None),
    ],
)
def test_spans_of_systemd_are_read(text: str, seconds: Optional[float]) -> None:
    assert seconds_of(text) == seconds


def test_bounds_of_memory_are_read() -> None:
    assert [bytes_of(text) for text in ("4294967296", "infinity", "")] == [4 << 30, None, None]


def unit_shows(monkeypatch: pytest.MonkeyPatch, text: str) -> None:
    """systemd says these properties of a unit."""
    shown = subprocess.CompletedProcess[str]([], 0, text, "")
    monkeypatch.setattr(next_open, "run_systemd", lambda words: shown)


def test_the_smaller_one_of_machine_and_unit_bounds(monkeypatch: pytest.MonkeyPatch) -> None:
    monkeypatch.setattr(next_open, "machine_memory", lambda: 8 << 30)
    unit_shows(monkeypatch, f"LoadState=loaded\nMemoryMax={4 << 30}\nTimeoutStartUSec=1h\n")
    assert allowed_of("cpi.service") == Allowed(4 << 30, "cpi.service (MemoryMax)", 3600)
    assert allowed_of(None) == Allowed(8 << 30, "this machine", None)
    unit_shows(monkeypatch, f"LoadState=loaded\nMemoryMax={16 << 30}\nTimeoutStartUSec=infinity\n")
    assert allowed_of("cpi.service") == Allowed(8 << 30, "this machine", None)
    unit_shows(monkeypatch, "LoadState=not-found\nMemoryMax=1\nTimeoutStartUSec=1s\n")
    assert allowed_of("cpi.service") == Allowed(8 << 30, "this machine", None)


def office_of(largest: int, monthly: int = 0, seconds: Optional[int] = None, memory: int = 4 << 30) -> NextOpen:
    """An office with so many quotes, each of them frozen and carried, in a unit with these bounds."""
    return NextOpen(Rows(largest, 3 * largest, monthly), Allowed(memory, "cpi.service (MemoryMax)", seconds))


@pytest.mark.parametrize(
    ("found", "state"),
    [
        (office_of(1000), OK),
        # (the bound is 14,316,557 rows of 300 bytes)
        (office_of(7_158_278), OK),
        (office_of(7_158_279), WARNING),
        (office_of(11_453_247), CRITICAL),
        (office_of(1_000_000, seconds=100), OK),
        (office_of(1_000_000, seconds=72), WARNING),
        (office_of(1_000_000, seconds=45), CRITICAL),
    ],
)
def test_the_probe_warns_at_half_of_what_is_allowed(found: NextOpen, state: int) -> None:
    told = (f"the next open of its file {in_words(found)}",) if state else ()
    assert judge_office(seen(next_open=found), chosen()) == (state, told)


def test_the_words_say_how_much_of_what_and_how_long_it_lasts() -> None:
    """A national office in its sixth year: 200,000 series."""
    assert in_words(office_of(12_000_000, 200_000, 3600)) == (
        "takes some 3,433 MiB of the 4,096 MiB that cpi.service (MemoryMax) allows, and all of it in 11 months; and some"
        " 432 of the 3,600 s of its start (TimeoutStartSec)"
    )
    assert in_words(office_of(1000)) == "takes some 0 MiB of the 4,096 MiB that cpi.service (MemoryMax) allows"


def test_the_doctor_tells_too_little_memory_from_damage(
    cpi: Cpi, year_old: Path, tmp_path: Path, monkeypatch: pytest.MonkeyPatch
) -> None:
    """Under a bound of addresses `cpi` says `database failed`, as of a damaged file."""
    bounded = tmp_path / "cpi"
    bounded.write_text(f'#!/bin/sh\nulimit -v 40000\nexec {cpi.path} "$@"\n')
    bounded.chmod(0o755)
    program, user = Cpi(bounded), this_user()
    monkeypatch.setattr(doctor, "free_memory", lambda: 40_000 << 10)
    cause = doctor.cause_of(year_old, user, program)
    need = rows_of(year_old).memory // MIB
    assert cause and cause.because == f"an open takes some {need} MiB of memory, and 39 MiB are free here"
    monkeypatch.setattr(doctor, "free_memory", lambda: 4 << 30)
    cause = doctor.cause_of(year_old, user, program)
    assert cause and cause.because.startswith("it has tables or rows that no office has")
    assert doctor.cause_of(year_old, user, cpi) is None


def test_the_doctor_names_an_open_that_its_unit_does_not_allow(
    cpi: Cpi, year_old: Path, monkeypatch: pytest.MonkeyPatch, capsys: pytest.CaptureFixture[str]
) -> None:
    """Before it copies anything; from half of the bound on it warns."""
    need = rows_of(year_old).memory
    monkeypatch.setattr(doctor, "HERE", year_old.resolve())
    monkeypatch.setattr("shutil.which", lambda name: name)
    words = parser().parse_args(["doctor", str(year_old), "--program", str(cpi.path)])
    for bound, status in ((need, 1), (2 * need, 0), (2 * need + 200, 0)):
        unit_shows(monkeypatch, f"LoadState=loaded\nMemoryMax={bound}\nTimeoutStartUSec=1h\n")
        assert doctor.run(words) == status
        told = capsys.readouterr()
        words_of_open = f"takes some {need // MIB} MiB of the {bound // MIB} MiB that cpi.service (MemoryMax) allows"
        assert (words_of_open in told.out, words_of_open in told.err) == (status == 1, bound == 2 * need), told

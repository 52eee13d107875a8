"""What stands in the way of a copy, seldom: each is one line that names the file, and what was whole stays whole."""

from __future__ import annotations

import contextlib
import io
import os
import shutil
import signal
import subprocess
import sys
import threading
import time
from collections.abc import Iterator
from pathlib import Path

import pytest

from cpi_tools.guard.copies import carriers
from cpi_tools.guard import gaps
from cpi_tools.guard.backup import back_up, note_beside
from cpi_tools.office.copying import right_copy
from cpi_tools.guard.drill import drill
from cpi_tools.office.program import Cpi
from cpi_tools.guard.copies.second_copies import MARK, NAMES, NOTE, OFFICE, state_of
from .ran import run

HOLDER = "import sys, time\nheld = open(sys.argv[1], 'rb')\nprint('held', flush=True)\ntime.sleep(600)\n"
"""A program that has a file open."""


@pytest.fixture
def dest(tmp_path: Path) -> Path:
    """A place that is a folder."""
    (tmp_path / "dest").mkdir()
    return tmp_path / "dest"


# ---- a copy, and its drill


@contextlib.contextmanager
def held(office: Path) -> Iterator["subprocess.Popen[bytes]"]:
    """A process that has the file open meanwhile."""
    with subprocess.Popen([sys.executable, "-c", HOLDER, str(office)], stdout=subprocess.PIPE) as process:
        try:
            assert process.stdout and process.stdout.readline() == b"held\n"
            yield process
        finally:
            process.kill()


def test_a_process_that_ends_as_it_is_stopped_leaves_what_a_crash_would(
    office: Path, dest: Path, monkeypatch: pytest.MonkeyPatch
) -> None:
    stop, killed = os.kill, list[int]()
    with held(office) as process:

        def ends(number: int, how: int) -> None:
            stop(number, how)
            if how == signal.SIGSTOP:
                process.kill()
                process.wait()
                killed.append(number)

        monkeypatch.setattr(os, "kill", ends)
        copy = right_copy(office, dest, pause=process.pid)
        monkeypatch.undo()
        assert killed == [process.pid] and copy.read_bytes() == office.read_bytes()


def test_a_process_that_is_slow_to_stop_is_waited_for(
    office: Path, dest: Path, monkeypatch: pytest.MonkeyPatch
) -> None:
    """The copy begins once it stands still, and then it goes on."""
    stop, sent = os.kill, list[int]()
    with held(office) as process:

        def later(number: int, how: int) -> None:
            sent.append(how)
            if how == signal.SIGSTOP:
                threading.Timer(0.2, stop, (number, how)).start()
            else:
                stop(number, how)

        monkeypatch.setattr(os, "kill", later)
        begun = time.monotonic()
        copy = right_copy(office, dest, pause=process.pid)
        monkeypatch.undo()
        assert time.monotonic() - begun >= 0.2 and copy.read_bytes() == office.read_bytes()
        assert sent == [signal.SIGSTOP, signal.SIGCONT]


def test_a_note_that_can_t_be_read_is_a_fault_of_the_backup(cpi: Cpi, office: Path, tmp_path: Path) -> None:
    copy = tmp_path / "copy.db"
    back_up(cpi, office, copy)
    note = note_beside(copy)
    note.unlink()
    note.mkdir()
    ran = run(cpi, "drill", copy)
    assert (ran.status, ran.err) == (1, f"cpi-tools drill: {copy}: {note}: Is a directory\n")
    assert "1 fault; " in ran.out and "nothing is wrong" not in ran.out


def test_a_backup_that_is_gone_can_t_be_drilled(cpi: Cpi, office: Path, tmp_path: Path) -> None:
    """Only its note is left."""
    copy = tmp_path / "copy.db"
    back_up(cpi, office, copy)
    copy.unlink()
    ran = run(cpi, "drill", copy)
    assert (ran.status, ran.out, ran.err) == (1, "", f"cpi-tools drill: {copy}: No such file or directory\n")


def test_a_program_that_lists_no_tables_shows_no_whole_office(office: Path, tmp_path: Path) -> None:
    other = tmp_path / "other"
    other.write_text("#!/bin/sh\nwhile read -r line; do echo '{\"done\":true}'; done\n", encoding="utf-8")
    other.chmod(0o755)
    found = drill(Cpi(str(other)), office)
    assert found.faults[0] == "cpi doesn't list the tables: {'done': True}" and found.tables


# ---- lists of what was sent


def test_a_list_comes_by_standard_input_too(office: Path, monkeypatch: pytest.MonkeyPatch) -> None:
    heads = "collector,slot,month,mark,value,receipt\n"
    monkeypatch.setattr(sys, "stdin", io.TextIOWrapper(io.BytesIO(f"{heads}1,1,2031-01,price,210,7\n".encode())))
    ran = run(None, "gaps", office, "--receipts", "-")
    assert (ran.status, ran.err) == (3, f"cpi-tools gaps: 1 of 1 row is missing in {office}\n")
    assert ran.out.splitlines()[1] == "1,1,2031-01,price,210,7,nothing is stored for this slot and month"
    monkeypatch.setattr(sys, "stdin", io.TextIOWrapper(io.BytesIO(b"collector\n")))
    told = run(None, "gaps", office, "--receipts", "-")
    assert told.status == 1 and told.err.startswith("cpi-tools gaps: standard input: its first line has no column slot")


def test_a_list_that_is_too_long_is_refused_whole(
    office: Path, tmp_path: Path, monkeypatch: pytest.MonkeyPatch
) -> None:
    """Nothing is said of its first rows, as if they were all."""
    monkeypatch.setattr(gaps, "MOST_BYTES", 80)
    path = tmp_path / "list.csv"
    for more, status in (("", 3), ("2,1,2031-01,price,210,7\n", 1)):
        path.write_text(f"collector,slot,month,mark,value,receipt\n1,1,2031-01,price,210,7\n{more}", encoding="utf-8")
        ran = run(None, "gaps", office, "--receipts", path)
        assert ran.status == status
    assert (ran.out, ran.err) == ("", f"cpi-tools gaps: {path} has more than 80 bytes: cut it in pieces\n")


# ---- a second copy


def test_a_place_that_can_t_be_locked_is_told(office: Path, dest: Path) -> None:
    (dest / "follow.lock").mkdir()
    ran = run(None, "follow", office, dest, "--once")
    assert (ran.status, ran.out, ran.err) == (1, "", f"cpi-tools follow: {dest}/follow.lock: Is a directory\n")


def test_a_mark_or_a_note_that_can_t_be_read_stops_a_round(office: Path, dest: Path) -> None:
    """Nobody knows whether the copy was promoted, or whose it is; so nothing is written over it."""
    assert run(None, "follow", office, dest, "--once").status == 0
    before = (dest / NAMES[0] / OFFICE).read_bytes()
    for path in (dest / MARK, dest / NAMES[1] / NOTE):
        path.mkdir(parents=True)
        ran = run(None, "follow", office, dest, "--once")
        assert (ran.status, ran.out) == (1, "")
        assert ran.err in (
            f"cpi-tools follow: {path}: {told}\n" for told in ("it isn't a plain file", "Is a directory")
        )
        path.rmdir()
    assert (dest / NAMES[0] / OFFICE).read_bytes() == before
    assert [*state_of(dest).notes] == [NAMES[0]] and not (dest / NAMES[1] / OFFICE).exists()


def test_a_note_whose_text_would_break_a_line_is_none(office: Path, dest: Path) -> None:
    assert run(None, "follow", office, dest, "--once").status == 0
    note = dest / NAMES[0] / NOTE
    note.write_text(note.read_text(encoding="utf-8").replace(str(office), r"a\nb"), encoding="utf-8")
    assert state_of(dest).notes == {} and state_of(dest).newest() is None


def test_a_copy_without_its_log_isn_t_promoted_if_its_note_has_one(cpi: Cpi, office: Path, dest: Path) -> None:
    """The log has answered commands. An empty one is none, so a copy may lack that."""
    log, to = office.with_name("office.db-wal"), dest.parent / "there.db"
    assert not log.exists() and run(None, "follow", office, dest, "--once").status == 0
    (dest / NAMES[0] / f"{OFFICE}-wal").unlink()
    assert run(cpi, "promote", dest, "--office", to).status == 0
    shutil.rmtree(dest)
    dest.mkdir()
    log.write_bytes(b"\0" * 4000)
    assert run(None, "follow", office, dest, "--once").status == 0
    (dest / NAMES[0] / f"{OFFICE}-wal").unlink()
    other = dest.parent / "other.db"
    ran = run(cpi, "promote", dest, "--office", other)
    assert (ran.status, ran.out, other.exists()) == (1, "", False)
    assert "isn't whole, and nothing was promoted: office.db-wal has 0 bytes, and 4,000 by its note" in ran.err


# ---- what carries


def stand_in(folder: Path, text: str, monkeypatch: pytest.MonkeyPatch) -> None:
    """A program that stands for rclone."""
    (folder / "bin").mkdir()
    (folder / "bin/rclone").write_text(text, encoding="utf-8")
    (folder / "bin/rclone").chmod(0o755)
    monkeypatch.setenv("PATH", f"{folder}/bin:{os.environ['PATH']}")


def test_a_carrying_that_never_ends_is_given_up(office: Path, tmp_path: Path, monkeypatch: pytest.MonkeyPatch) -> None:
    stand_in(tmp_path, "#!/bin/sh\nexec sleep 600\n", monkeypatch)
    monkeypatch.setattr(carriers, "LONGEST", 1)
    ran = run(None, "follow", office, "rclone:store:a", "--once")
    told = "cpi-tools follow: rclone:store:a: rclone didn't end within 1 seconds\n"
    assert (ran.status, ran.out, ran.err) == (1, "", told)


def test_a_carrier_that_can_t_be_started_is_told(office: Path, tmp_path: Path, monkeypatch: pytest.MonkeyPatch) -> None:
    stand_in(tmp_path, "#!/nowhere/python\n", monkeypatch)
    # (else one that is installed would be taken)
    monkeypatch.setenv("PATH", str(tmp_path / "bin"))
    ran = run(None, "follow", office, "rclone:store:a", "--once")
    assert (ran.status, ran.out, ran.err.count("\n")) == (1, "", 1)
    assert ran.err.startswith("cpi-tools follow: rclone couldn't be started: ")


def test_a_carrier_that_fails_without_a_word_has_its_status(
    office: Path, tmp_path: Path, monkeypatch: pytest.MonkeyPatch
) -> None:
    stand_in(tmp_path, "#!/bin/sh\nexit 7\n", monkeypatch)
    ran = run(None, "follow", office, "rclone:store:a", "--once")
    told = "cpi-tools follow: rclone:store:a: rclone ended with status 7\n"
    assert (ran.status, ran.out, ran.err) == (1, "", told)

"""`cpi_tools.office.copying`: a copy has each command that was answered before it, whatever the program does meanwhile."""

from __future__ import annotations

import contextlib
import io
import os
import shutil
import signal
import sqlite3
import subprocess
import sys
import threading
import time
from collections.abc import Callable, Iterator
from pathlib import Path
from typing import Any

import pytest

from cpi_tools.office import copying
from cpi_tools.office.copying import CopyFailed, has_frames, log_beside, mark_of, private_copy, right_copy
from cpi_tools.office.program import Cpi, Session
from .loads import faults_of, price_of, slot_of
from .offices import LOAD_KEY, LOAD_MONTH


def send(session: Session, begin: int, count: int) -> int:
    """Sends quotes, and gives the last receipt."""
    for number in range(begin + 1, begin + count + 1):
        reply = session.ask(f"50,{LOAD_KEY},quote,{slot_of(number)},{LOAD_MONTH},price,{price_of(number)}")
        assert reply == {"receipt": number}
    return begin + count


ENOUGH = 350
"""So many quotes are more than 1,000 frames, so that the log is emptied among them."""


class Beside:
    """What is done each time that a file was copied: the file itself is the first, its log the second."""

    def __init__(self, monkeypatch: pytest.MonkeyPatch, meanwhile: Callable[[int], None]):
        self.count, self.meanwhile, self.copy_bytes = 0, meanwhile, copying._copy_bytes
        monkeypatch.setattr(copying, "_copy_bytes", self.copied)

    def copied(self, path: Path, copy: Path) -> None:
        self.copy_bytes(path, copy)
        self.count += 1
        self.meanwhile(self.count)


def test_a_copy_has_what_stands_in_the_log_alone(cpi: Cpi, office: Path, tmp_path: Path) -> None:
    with cpi.session(office) as session:
        last = send(session, 0, 20)
        (tmp_path / "copy").mkdir()
        copy = right_copy(office, tmp_path / "copy")
        assert has_frames(copy)
    assert faults_of(copy, last) == []
    assert [path.stat().st_mode & 0o777 for path in (copy, tmp_path / "copy/office.db")] == [0o600, 0o600]


def test_a_copy_is_made_again_where_the_log_is_emptied_between_the_two(
    cpi: Cpi, office: Path, tmp_path: Path, monkeypatch: pytest.MonkeyPatch
) -> None:
    """At the first copy the log is emptied after the file was read: plain copying lacks what was answered before."""
    with cpi.session(office) as session:
        before = send(session, 0, 250)
        marks = [mark_of(office)]
        (tmp_path / "plain").mkdir()
        plain = Path(shutil.copy(office, tmp_path / "plain"))

        def meanwhile(count: int) -> None:
            if count == 1:
                send(session, before, ENOUGH)
                shutil.copy(log_beside(office), tmp_path / "plain")
                marks.append(mark_of(office))

        beside = Beside(monkeypatch, meanwhile)
        with private_copy(office, patience=3600) as copy:
            assert beside.count == 4
            assert marks[0] != marks[1] == mark_of(office)
            assert faults_of(copy, before + ENOUGH) == []
    assert faults_of(plain, before) != []


def put_into(office: Path, table: int) -> None:
    """Puts the page of a table, by its number, from the log into the file, as the program does that empties the log,
    page by page."""
    log = log_beside(office).read_bytes()
    frames = [log[at : at + 24 + 4096] for at in range(32, len(log), 24 + 4096)]
    (page,) = [frame[24:] for frame in frames if int.from_bytes(frame[:4], "big") == table]
    with office.open("r+b") as file:
        file.seek((table - 1) * 4096)
        file.write(page)


def test_a_page_that_is_in_the_file_already_stands_whole_in_the_log_that_is_copied(
    tmp_path: Path, monkeypatch: pytest.MonkeyPatch
) -> None:
    """Between the two reads a transaction changes two pages, and one of them comes into the file, with the log not yet
    emptied. A log that was read before the file would lack both, and the copy would have half of the transaction."""
    office = tmp_path / "office.db"
    with contextlib.closing(sqlite3.connect(office, isolation_level=None)) as link:
        link.executescript("PRAGMA page_size = 4096; PRAGMA journal_mode = WAL; PRAGMA wal_autocheckpoint = 0;")
        for table in "abc":
            link.executescript(f"CREATE TABLE {table} (x); INSERT INTO {table} VALUES (1);")
        link.executescript("PRAGMA wal_checkpoint(TRUNCATE); UPDATE c SET x = 2;")
        ((page,),) = link.execute("SELECT rootpage FROM sqlite_master WHERE name = 'a'")

        def meanwhile(count: int) -> None:
            if count == 1:
                link.executescript("BEGIN; UPDATE a SET x = 2; UPDATE b SET x = 2; COMMIT;")
                put_into(office, page)

        beside = Beside(monkeypatch, meanwhile)
        (tmp_path / "copy").mkdir()
        copy = right_copy(office, tmp_path / "copy")
        assert beside.count == 2
    with contextlib.closing(sqlite3.connect(copy)) as link:
        assert link.execute("SELECT a.x, b.x, c.x FROM a, b, c").fetchall() == [(2, 2, 2)]


def test_a_copy_is_made_again_where_the_program_ends_meanwhile(
    cpi: Cpi, office: Path, monkeypatch: pytest.MonkeyPatch
) -> None:
    with contextlib.ExitStack() as running:
        session = running.enter_context(cpi.session(office))
        before = send(session, 0, 20)
        beside = Beside(monkeypatch, lambda count: running.close() if count == 1 else None)
        with private_copy(office, patience=3600) as copy:
            assert beside.count == 4
            assert faults_of(copy, before) == []


def test_a_copy_that_is_never_quiet_is_given_up_and_leaves_nothing(
    tmp_path: Path, monkeypatch: pytest.MonkeyPatch
) -> None:
    """The mark changes with each copy, as that of an office which is written all the time."""
    office = tmp_path / "office.db"
    office.write_bytes(bytes(100))
    log_beside(office).write_bytes(bytes(100))
    (tmp_path / "copy").mkdir()
    beside = Beside(monkeypatch, lambda count: log_beside(office).write_bytes(bytes([count]) * 100) and None)
    with pytest.raises(CopyFailed, match=r"office.db is written so fast .* in 1 seconds \(see --pause\)"):
        right_copy(office, tmp_path / "copy", patience=1)
    assert beside.count > 4
    assert [*(tmp_path / "copy").iterdir()] == []


@pytest.mark.parametrize("what", ["header", "other log", "other file", "log that comes", "size", "time"])
def test_what_changes_a_mark(what: str, tmp_path: Path) -> None:
    office = tmp_path / "office.db"
    office.write_bytes(bytes(100))
    if what not in ("log that comes", "size", "time"):
        log_beside(office).write_bytes(bytes(100))
    before = mark_of(office)
    assert mark_of(office) == before
    if what == "header":
        log_beside(office).write_bytes(bytes(31) + b"1" + bytes(68))
    elif what in ("other log", "other file"):
        path = log_beside(office) if what == "other log" else office
        (tmp_path / "new").write_bytes(path.read_bytes())
        (tmp_path / "new").replace(path)
    elif what == "log that comes":
        log_beside(office).touch()
    elif what == "size":
        office.write_bytes(bytes(101))
        os.utime(office, ns=(before.settled or (0, 0))[1:] * 2)
    else:
        os.utime(office, ns=(1, 1))
    assert mark_of(office) != before


def test_frames_that_are_added_change_no_mark(tmp_path: Path) -> None:
    office = tmp_path / "office.db"
    office.write_bytes(bytes(100))
    log_beside(office).write_bytes(bytes(100))
    before = mark_of(office)
    log_beside(office).write_bytes(bytes(32) + b"1" * 100)
    office.write_bytes(b"1" * 100)
    assert mark_of(office) == before


def test_a_program_that_stands_still_is_copied_at_once(
    cpi: Cpi, office: Path, tmp_path: Path, monkeypatch: pytest.MonkeyPatch
) -> None:
    """With a patience of nothing, while another thread sends quotes."""
    told, is_over = [0], threading.Event()

    def keep_sending() -> None:
        while not is_over.is_set():
            told[0] = send(session, told[0], 1)

    with cpi.session(office) as session:
        thread = threading.Thread(target=keep_sending)
        thread.start()
        try:
            while told[0] < 30:
                time.sleep(0.001)
            seen: list[int] = []

            def meanwhile(_: int) -> None:
                time.sleep(0.2)
                seen.append(told[0])

            Beside(monkeypatch, meanwhile)
            before = told[0]
            (tmp_path / "copy").mkdir()
            copy = right_copy(office, tmp_path / "copy", patience=0, pause=session.process)
            assert len(seen) == 2 and seen[0] == seen[1]
        finally:
            is_over.set()
            thread.join()
        assert send(session, told[0], 1) > before
    assert faults_of(copy, before) == []


@contextlib.contextmanager
def holding(path: Path) -> Iterator[subprocess.Popen[bytes]]:
    """A process that has a file open."""
    code = f"import time; it = open({str(path)!r}); print(flush=True); time.sleep(60)"
    with subprocess.Popen([sys.executable, "-c", code], stdout=subprocess.PIPE) as process:
        assert process.stdout and process.stdout.readline()
        try:
            yield process
        finally:
            process.kill()


def test_a_process_goes_on_after_a_fault(tmp_path: Path, monkeypatch: pytest.MonkeyPatch) -> None:
    office = tmp_path / "office.db"
    office.write_bytes(bytes(100))

    def fail(_: int) -> None:
        assert copying._state_of(process.pid) == "T"
        raise OSError(28, "No space left on device", "copy")

    with holding(office) as process:
        Beside(monkeypatch, fail)
        (tmp_path / "copy").mkdir()
        with pytest.raises(CopyFailed, match="copy: No space left on device"):
            right_copy(office, tmp_path / "copy", pause=process.pid)
        deadline = time.monotonic() + 60
        while copying._state_of(process.pid) == "T" and time.monotonic() < deadline:
            time.sleep(0.001)
        assert copying._state_of(process.pid) != "T"
        assert signal.SIGTERM not in signal.pthread_sigmask(signal.SIG_BLOCK, set())


def test_only_a_process_that_has_the_file_open_is_stopped(tmp_path: Path) -> None:
    office, other = tmp_path / "office.db", tmp_path / "other.db"
    for path in (office, other):
        path.write_bytes(bytes(100))
    (tmp_path / "copy").mkdir()
    with holding(other) as process:
        with pytest.raises(CopyFailed, match=f"process {process.pid} doesn't have .*office.db open"):
            right_copy(office, tmp_path / "copy", pause=process.pid)
        assert copying._state_of(process.pid) != "T"


def test_the_c_library_finds_a_running_office_locked(cpi: Cpi, office: Path) -> None:
    """Why a backup isn't made by `.backup` of SQLite's shell."""
    with cpi.session(office) as session:
        send(session, 0, 1)
        with contextlib.closing(sqlite3.connect(office, timeout=0)) as link:
            with pytest.raises(sqlite3.OperationalError, match="locked"):
                link.execute("SELECT count(*) FROM quote_2")


def test_what_can_not_be_copied_is_told(tmp_path: Path) -> None:
    office = tmp_path / "office.db"
    with pytest.raises(CopyFailed, match="office.db: No such file or directory"):
        right_copy(office, tmp_path)
    office.touch()
    with pytest.raises(CopyFailed, match="office.db can't be copied onto itself"):
        right_copy(office, tmp_path)
    (tmp_path / "copy").mkdir()
    with pytest.raises(CopyFailed, match="office.db is empty, so it is no office"):
        right_copy(office, tmp_path / "copy")
    with pytest.raises(CopyFailed, match="copy is no file"):
        right_copy(tmp_path / "copy", tmp_path)
    assert [*(tmp_path / "copy").iterdir()] == []
    (tmp_path / "copy/other.db").write_text("a copy of before")
    with pytest.raises(CopyFailed, match="other.db: No such file or directory"):
        right_copy(tmp_path / "other.db", tmp_path / "copy")
    assert (tmp_path / "copy/other.db").read_text() == "a copy of before"


def test_of_a_link_the_file_is_copied_with_the_log_beside_the_file(tmp_path: Path) -> None:
    for name in ("real", "copy"):
        (tmp_path / name).mkdir()
    (tmp_path / "real/office.db").write_bytes(b"1" * 100)
    (tmp_path / "real/office.db-wal").write_bytes(b"2" * 100)
    (tmp_path / "link.db").symlink_to("real/office.db")
    copy = right_copy(tmp_path / "link.db", tmp_path / "copy")
    assert not copy.is_symlink() and copy.read_bytes() == b"1" * 100
    assert log_beside(copy).read_bytes() == b"2" * 100
    log_beside(tmp_path / "real/office.db").write_bytes(b"3" * 100)
    assert mark_of(tmp_path / "link.db") == mark_of(tmp_path / "real/office.db")


class Narrow(io.RawIOBase):
    """A file that takes few bytes at once, as a system may."""

    def __init__(self) -> None:
        self.found = bytearray()

    def write(self, block: Any) -> int:
        self.found += bytes(block)[:3]
        return min(3, len(bytes(block)))


def test_a_write_that_takes_few_bytes_goes_on() -> None:
    target = Narrow()
    copying._write_all(target, b"0123456789", Path("copy"))
    assert target.found == b"0123456789"


def test_an_old_log_beside_a_copy_goes(tmp_path: Path) -> None:
    office = tmp_path / "office.db"
    office.write_bytes(bytes(100))
    (tmp_path / "copy").mkdir()
    (tmp_path / "copy/office.db-wal").write_bytes(bytes(100))
    right_copy(office, tmp_path / "copy")
    assert [path.name for path in (tmp_path / "copy").iterdir()] == ["office.db"]

"""`cpi-tools backup`: one file and its note, whole or not there; under load nothing that was answered is missing."""

from __future__ import annotations

import contextlib
import os
import random
import resource
import signal
import sqlite3
import subprocess
import time
from pathlib import Path

import pytest

from cpi_tools.guard import backup
from cpi_tools.office import copying
from cpi_tools.guard.backup import BackupFailed, Note, back_up, hash_of, note_beside, note_text, read_note, remove_log
from cpi_tools.office.copying import log_beside
from cpi_tools.guard.drill import drill
from cpi_tools.office.program import Cpi, CpiFailed, record
from cpi_tools.text.terminal import time_text
from lib.places import ROOT
from .loads import Connections, Load, Quotes, faults_of
from .offices import LOAD_KEY, LOAD_MONTH, TABLES

TOOL = ROOT / "cpi-tools"


def run(cpi: Cpi, *words: object, **named: object) -> "subprocess.CompletedProcess[str]":
    """`cpi-tools backup` as it is called."""
    command = [str(TOOL), "backup", *map(str, words), "--program", str(cpi.path)]
    return subprocess.run(command, capture_output=True, text=True, check=False, **named)  # type: ignore[call-overload]


def names(folder: Path) -> list[str]:
    return sorted(path.name for path in folder.iterdir())


def test_a_backup_is_one_file_with_its_log_in_it_and_a_note(cpi: Cpi, office: Path, tmp_path: Path) -> None:
    """While the program runs and the last quote stands in the log alone."""
    to = tmp_path / "backup" / "office-1.db"
    with cpi.session(office) as session:
        assert session.ask(f"50,{LOAD_KEY},quote,2,{LOAD_MONTH},price,1000") == {"receipt": 1}
        before = int(time.time())
        ran = run(cpi, office, to)
        assert session.ask(f"50,{LOAD_KEY},quote,3,{LOAD_MONTH},price,1000") == {"receipt": 2}
    note = read_note(to)
    assert note and (ran.returncode, ran.stderr) == (0, "")
    assert ran.stdout == (
        f"{to}: {note.size:,} bytes, {TABLES} tables, copied {time_text(note.copied)}, SHA-256 {hash_of(to)}\n"
    )
    assert note == Note("office.db", note.copied, TABLES, to.stat().st_size, hash_of(to))
    assert before <= note.copied <= time.time()
    assert names(to.parent) == ["office-1.db", "office-1.db.sha256"]
    assert {path.stat().st_mode & 0o777 for path in to.parent.iterdir()} == {0o600}
    assert to.parent.stat().st_mode & 0o777 == 0o700
    check = ["sha256sum", "--check", "--strict", note_beside(to).name]
    assert subprocess.run(check, cwd=to.parent, capture_output=True, check=False).returncode == 0
    assert faults_of(to, 1) == []


def test_a_destination_that_is_there_stays_unless_it_is_to_be_replaced(cpi: Cpi, office: Path, tmp_path: Path) -> None:
    to = tmp_path / "office-1.db"
    for path in (to, note_beside(to)):
        path.write_text("old")
        with pytest.raises(BackupFailed, match=rf"{path} is there already \(--replace"):
            back_up(cpi, office, to)
        assert path.read_text() == "old"
        path.unlink()
    to.symlink_to("nowhere")
    with pytest.raises(BackupFailed, match="is there already"):
        back_up(cpi, office, to)
    assert names(tmp_path) == ["office-1.db", "office.db"]
    to.unlink()
    to.write_text("old")
    note_beside(to).write_text("old")
    note = back_up(cpi, office, to, is_replacing=True)
    assert read_note(to) == note and note.sha256 == hash_of(to)


def test_a_backup_that_is_replaced_never_has_the_note_of_another(
    cpi: Cpi, office: Path, tmp_path: Path, monkeypatch: pytest.MonkeyPatch
) -> None:
    """Where it breaks off between the two names there is no note."""
    to, replace = tmp_path / "backup/office.db", Path.replace
    back_up(cpi, office, to)

    def broken_off(path: Path, at: Path) -> Path:
        if path.name == "note":
            raise OSError(5, "Input/output error")
        return replace(path, at)

    monkeypatch.setattr(Path, "replace", broken_off)
    with pytest.raises(BackupFailed, match="Input/output error"):
        back_up(cpi, office, to, is_replacing=True)
    assert names(to.parent) == ["office.db"]


def test_what_has_no_note_is_not_replaced(cpi: Cpi, office: Path, tmp_path: Path) -> None:
    """It may be an office: a backup has its note beside it."""
    other = tmp_path / "other.db"
    other.write_text("an office")
    with pytest.raises(BackupFailed, match="other.db has no note, so it isn't known to be a backup"):
        back_up(cpi, office, other, is_replacing=True)
    assert names(tmp_path) == ["office.db", "other.db"] and other.read_text() == "an office"
    assert back_up(cpi, office, tmp_path / "new.db", is_replacing=True).tables == TABLES


@pytest.mark.parametrize("is_replacing", [False, True])
def test_a_log_that_lies_at_the_destination_is_never_put_into_the_backup(
    is_replacing: bool, cpi: Cpi, office: Path, tmp_path: Path
) -> None:
    """Somebody opened an earlier backup there, and its log has commands that aren't in the file. A log with nothing in
    it goes."""
    to = tmp_path / "backup/office.db"
    back_up(cpi, office, to)
    with pytest.raises(KeyError):
        with cpi.session(to) as session:
            assert session.ask("0,desk,outlet,77,Kiosk") == {"done": True}
            raise KeyError
    log, earlier = log_beside(to), to.read_bytes()
    if not is_replacing:
        to.unlink()
        note_beside(to).unlink()
    before = names(to.parent)
    with pytest.raises(BackupFailed, match=rf"{log} is there, and would be put into the backup"):
        back_up(cpi, office, to, is_replacing)
    assert names(to.parent) == before and log.stat().st_size > 41
    assert not is_replacing or to.read_bytes() == earlier
    log.write_bytes(log.read_bytes()[:41])
    note = back_up(cpi, office, to, is_replacing)
    assert names(to.parent) == ["office.db", "office.db.sha256"] and read_note(to) == note


def test_a_log_that_came_meanwhile_is_not_put_into_the_backup(
    cpi: Cpi, office: Path, tmp_path: Path, monkeypatch: pytest.MonkeyPatch
) -> None:
    to = tmp_path / "backup/office-1.db"
    monkeypatch.setattr(backup, "settle", lambda *_: log_beside(to).write_bytes(bytes(42)))
    with pytest.raises(BackupFailed, match="office-1.db-wal is there"):
        back_up(cpi, office, to)
    assert names(to.parent) == ["office-1.db-wal"]


def test_a_destination_that_came_meanwhile_stays(
    cpi: Cpi, office: Path, tmp_path: Path, monkeypatch: pytest.MonkeyPatch
) -> None:
    to = tmp_path / "backup/office-1.db"
    for late in (to, note_beside(to)):
        monkeypatch.setattr(backup, "settle", lambda *_: late.write_text("late"))
        with pytest.raises(BackupFailed, match=rf"{late} is there already"):
            back_up(cpi, office, to)
        assert names(to.parent) == [late.name] and late.read_text() == "late"
        late.unlink()


def test_a_file_system_without_hard_links_will_do(
    cpi: Cpi, office: Path, tmp_path: Path, monkeypatch: pytest.MonkeyPatch
) -> None:
    def refuse(*_: object) -> None:
        raise PermissionError(1, "Operation not permitted")

    monkeypatch.setattr(os, "link", refuse)
    monkeypatch.setattr(backup, "settle", lambda *_: 3)
    to = tmp_path / "backup/office-1.db"
    assert back_up(cpi, office, to).tables == 3
    assert names(to.parent) == ["office-1.db", "office-1.db.sha256"]


def test_what_is_renamed_is_on_the_disk_before(
    cpi: Cpi, office: Path, tmp_path: Path, monkeypatch: pytest.MonkeyPatch
) -> None:
    """Copy and note are synced before they have their names, and the folder after it."""
    found, link = list[str](), os.link

    def synced(number: int) -> None:
        found.append(f"sync {Path(f'/proc/self/fd/{number}').readlink().name}")

    def linked(path: Path, to: Path) -> None:
        found.append(f"name {to.name}")
        link(path, to)

    monkeypatch.setattr(backup, "settle", lambda *_: 3)
    monkeypatch.setattr(os, "fsync", synced)
    monkeypatch.setattr(os, "link", linked)
    back_up(cpi, office, tmp_path / "backup/x.db")
    assert found == ["sync office.db", "sync note", "name x.db", "name x.db.sha256", "sync backup"]


@pytest.mark.parametrize(
    "what", ["none", "folder", "empty", "text", "itself", "its log", "a pipe", "a folder as destination"]
)
def test_what_can_not_be_backed_up_is_one_line_and_leaves_nothing(what: str, cpi: Cpi, tmp_path: Path) -> None:
    office, to = tmp_path / "office.db", tmp_path / "backup" / "office-1.db"
    to.parent.mkdir()
    wanted = {
        "none": f"{office}: No such file or directory",
        "folder": f"{office} is no file",
        "empty": f"{office} is empty, so it is no office",
        "text": f"{office}: cpi: database failed (the file isn't an office, another program holds it, or the disk failed;",
        "itself": f"{office} is the office itself",
        "its log": f"{log_beside(office)} is the office's log",
        "a pipe": f"{tmp_path}/pipe is no file, so nothing takes its place",
        "a folder as destination": f"{to.parent} is a folder: name the file",
    }
    if what == "folder":
        office.mkdir()
    elif what != "none":
        office.write_text("no database\n" * 1000 if what != "empty" else "")
    others = {"itself": office, "its log": log_beside(office), "a pipe": tmp_path / "pipe"}
    os.mkfifo(tmp_path / "pipe")
    dest = {**others, "a folder as destination": to.parent}.get(what, to)
    ran = run(cpi, office, dest, *(["--replace"] if what in others else []))
    assert (ran.returncode, ran.stdout, ran.stderr.count("\n")) == (1, "", 1)
    assert ran.stderr.startswith(f"cpi-tools backup: {wanted[what]}")
    assert names(to.parent) == []
    assert not log_beside(office).exists()


def test_a_file_of_a_later_schema_is_told_and_stays(cpi: Cpi, office: Path, tmp_path: Path) -> None:
    with contextlib.closing(sqlite3.connect(office)) as link:
        link.execute("UPDATE version SET number = 9")
        link.commit()
    before = office.read_bytes()
    with pytest.raises(CpiFailed, match="cpi: unknown schema"):
        back_up(cpi, office, tmp_path / "backup/office-1.db")
    assert office.read_bytes() == before
    assert names(tmp_path / "backup") == []


def test_a_program_that_is_missing_is_told_before_anything_is_made(office: Path, tmp_path: Path) -> None:
    ran = subprocess.run(
        [TOOL, "backup", office, tmp_path / "backup/x", "--program", tmp_path / "none"], capture_output=True, text=True
    )
    told = f"cpi-tools backup: {tmp_path}/none, named by --program, is no program\n"
    assert (ran.returncode, ran.stdout, ran.stderr) == (1, "", told)
    assert names(tmp_path) == ["office.db"]


@pytest.mark.parametrize(
    ("other", "told"),
    [
        ("true", "{program} doesn't list the tables of {office}"),
        ("echo", "{office}: the program answers otherwise than cpi does: replay --db "),
        ("false", "{office}: cpi ended with status 1"),
    ],
)
def test_a_program_that_is_another_one_is_told(other: str, told: str, office: Path, tmp_path: Path) -> None:
    program = f"/bin/{other}"
    words = [TOOL, "backup", office, tmp_path / "backup/x", "--program", program]
    ran = subprocess.run(words, capture_output=True, text=True, check=False)
    assert (ran.returncode, ran.stdout, ran.stderr.count("\n")) == (1, "", 1)
    assert ran.stderr.startswith(f"cpi-tools backup: {told.format(program=program, office=office)}")
    assert names(tmp_path / "backup") == []


@pytest.mark.parametrize(
    ("dest", "told"),
    [
        (b"folder/", "argument DEST: folder/ names no file"),
        (b"", "argument DEST: an empty word names no file"),
        (b"x\xff.db", r"a word isn't a line of UTF-8: 'x\udcff.db'"),
        (b"x\ny.db", r"a word isn't a line of UTF-8: 'x\ny.db'"),
    ],
)
def test_a_destination_that_is_no_name_is_refused(dest: bytes, told: str, cpi: Cpi, office: Path) -> None:
    words = [TOOL, "backup", office, dest, "--program", cpi.path]
    ran = subprocess.run(words, cwd=office.parent, capture_output=True, text=True, check=False)
    assert (ran.returncode, ran.stdout) == (2, "")
    assert ran.stderr == f"cpi-tools backup: {told} (see cpi-tools backup --help)\n"
    assert names(office.parent) == ["office.db"]


def may_not_grow(most: int) -> None:
    """A disk on which no file can have more bytes."""
    signal.signal(signal.SIGXFSZ, signal.SIG_IGN)
    resource.setrlimit(resource.RLIMIT_FSIZE, (most, most))


def test_a_disk_that_is_full_for_the_copy_is_told_and_leaves_nothing(cpi: Cpi, office: Path, tmp_path: Path) -> None:
    to = tmp_path / "backup/office-1.db"
    ran = run(cpi, office, to, preexec_fn=lambda: may_not_grow(office.stat().st_size - 1))
    assert (ran.returncode, ran.stdout, ran.stderr.count("\n")) == (1, "", 1)
    assert ran.stderr.endswith("/office.db: File too large\n")
    assert names(to.parent) == []


CODES = [f"01.1.1.{digit}-{at:02}" for digit in range(1, 10) for at in range(1, 12)]
NODES = ["00", "01", "01.1", "01.1.1", *(f"01.1.1.{digit}" for digit in range(1, 10)), *CODES]
WEIGHTS = [1_000_000 - len(CODES) + 1, *[1] * (len(CODES) - 1)]
PLAN = "".join([f"T,{code},{'t' * 400}\n" for code in NODES] + [f"W,{it[0]},{it[1]}\n" for it in zip(CODES, WEIGHTS)])
"""A plan of some pages, in one transaction."""


def test_a_disk_that_is_full_for_the_log_is_told_and_leaves_nothing(cpi: Cpi, office: Path, tmp_path: Path) -> None:
    """File and log can be copied, but the pages that are new in the log have no room in the file, and `cpi` is ended by
    the system for it. The file is made longer than the log first."""
    to = tmp_path / "backup/office-1.db"
    with contextlib.closing(sqlite3.connect(office)) as link:
        rows = [(number, "x" * 90) for number in range(1000, 6000)]
        link.executemany("INSERT INTO outlet VALUES (?, ?)", rows)
        link.commit()
    most = office.stat().st_size
    with cpi.session(office) as session:
        assert session.ask(record(0, "desk", "plan", 2027, PLAN)) == {"done": True}
        assert log_beside(office).stat().st_size < most
        ran = run(cpi, office, to, preexec_fn=lambda: may_not_grow(most))
    assert (ran.returncode, ran.stdout, ran.stderr.count("\n")) == (1, "", 1)
    assert ran.stderr == f"cpi-tools backup: {office}: cpi was ended by the signal SIGXFSZ\n"
    assert names(to.parent) == []


@pytest.mark.parametrize(
    ("to", "told"), [("office.db/backup/x", "Not a directory"), ("/proc/backup/x", "No such file or directory")]
)
def test_a_destination_that_can_not_be_written_is_told(
    to: str, told: str, cpi: Cpi, office: Path, tmp_path: Path
) -> None:
    ran = run(cpi, office, tmp_path / to)
    assert (ran.returncode, ran.stdout, ran.stderr.count("\n")) == (1, "", 1)
    assert ran.stderr.endswith(f": {told}\n")
    assert names(tmp_path) == ["office.db"]


def heed_signals() -> None:
    """As a program is started at a terminal, also where these tests are started by `nohup`."""
    for number in (signal.SIGTERM, signal.SIGHUP, signal.SIGINT):
        signal.signal(number, signal.SIG_DFL)


@pytest.mark.parametrize("number", [signal.SIGTERM, signal.SIGHUP, signal.SIGINT])
def test_a_signal_leaves_nothing(number: signal.Signals, office: Path, tmp_path: Path) -> None:
    """It comes while a program that never answers has the copy open."""
    slow, to = tmp_path / "slow", tmp_path / "backup/office-1.db"
    slow.write_text('#!/bin/sh\ntouch "$0.begun"\nexec sleep 300\n')
    slow.chmod(0o755)
    command = [str(TOOL), "backup", str(office), str(to), "--program", str(slow)]
    with subprocess.Popen(command, stderr=subprocess.PIPE, preexec_fn=heed_signals) as process:
        deadline = time.monotonic() + 120
        while not (tmp_path / "slow.begun").exists() and time.monotonic() < deadline:
            time.sleep(0.01)
        assert [name[:12] for name in names(to.parent)] == [".cpi-backup-"]
        process.send_signal(number)
        process.communicate(timeout=120)
    assert process.returncode == 128 + number
    assert names(to.parent) == []


def test_a_log_that_is_not_put_in_is_a_fault(tmp_path: Path) -> None:
    copy = tmp_path / "office.db"
    log_beside(copy).write_bytes(bytes(41))
    remove_log(copy)
    assert not log_beside(copy).exists()
    log_beside(copy).write_bytes(bytes(42))
    with pytest.raises(CpiFailed, match="its log isn't in the file"):
        remove_log(copy)
    assert log_beside(copy).exists()


def test_a_program_that_does_not_put_the_log_in_makes_no_backup(cpi: Cpi, office: Path, tmp_path: Path) -> None:
    """The last quote stands in the log alone, so a copy of the file would lack it."""
    idle = tmp_path / "idle"
    idle.write_text("#!/bin/sh\ncat > /dev/null\necho '{\"tables\":[]}'\n")
    idle.chmod(0o755)
    with cpi.session(office) as session:
        assert session.ask(f"50,{LOAD_KEY},quote,2,{LOAD_MONTH},price,1000") == {"receipt": 1}
        with pytest.raises(CpiFailed, match="its log isn't in the file"):
            back_up(Cpi(idle), office, tmp_path / "backup/office.db")
    assert names(tmp_path / "backup") == []


def test_a_note_is_read_as_it_is_written(tmp_path: Path) -> None:
    path = tmp_path / "office-1.db"
    assert read_note(path) is None
    note = Note("office.db", 1_700_000_000, 3, 4096, "a" * 64)
    note_beside(path).write_text(note_text(note, path.name))
    assert read_note(path) == note
    for text in ("", f"{'a' * 64}  x\n", note_text(note, "x").replace("3", "three"), note_text(note, "x") * 2):
        note_beside(path).write_text(text)
        with pytest.raises(BackupFailed, match="isn't a note that cpi-tools wrote"):
            read_note(path)


@pytest.mark.parametrize("kind", [Quotes, Connections])
def test_backups_under_load_lack_nothing_that_was_answered(
    kind: "type[Load]", cpi: Cpi, office: Path, tmp_path: Path, times: int, monkeypatch: pytest.MonkeyPatch
) -> None:
    """Each passes its drill. Between file and log some time goes by, so that the log is emptied then as often as can
    be: a copy of two moments would show."""
    drawn, copy_log = random.Random(7), copying._copy_log

    def later(path: Path, copy: Path) -> None:
        time.sleep(drawn.random() * 0.03)
        copy_log(path, copy)

    monkeypatch.setattr(copying, "_copy_log", later)
    found = []
    with kind(cpi, office) as load:
        for number in range(times):
            load.wait_for(load.told + 1)
            before = load.told
            to = tmp_path / f"backup/office-{number}.db"
            back_up(cpi, office, to)
            found.append((before, to))
    assert load.told > found[0][0]
    for before, to in found:
        drilled = drill(cpi, to)
        assert (drilled.faults, drilled.tables) == ((), TABLES)
        assert faults_of(to, before) == []

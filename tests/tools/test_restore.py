"""`cpi-tools restore`: a backup takes the place of an office, whose file and log are put aside together; and what stands in
the way is one line, and changes nothing."""

from __future__ import annotations

import fcntl
import io
import os
import re
import resource
import shutil
import signal
import stat
import tempfile
from pathlib import Path
from typing import IO

import pytest

from cpi_tools.guard import restore
from cpi_tools.office.copying import has_frames, log_beside
from cpi_tools.guard.follow import mark_beside, restoring_beside
from cpi_tools.guard.copies.places import LOCK
from cpi_tools.office.program import Cpi, record
from lib.places import ROOT
from .accidents import ANSWERED, WANTED, killed_after, priced, prices_in
from .offices import LOAD_KEY, LOAD_MONTH, TABLES
from .ran import Ran, run
from .test_ops import WRONG, script, start


@pytest.fixture
def place(tmp_path: Path) -> Path:
    """Where an office is, in a folder of its own."""
    (tmp_path / "cpi").mkdir(mode=0o700)
    return tmp_path / "cpi/office.db"


@pytest.fixture
def backup(cpi: Cpi, made: Path, place: Path, tmp_path: Path) -> Path:
    """A backup of an office with one price of 100, whose file is at the place."""
    shutil.copy(made, place)
    priced(cpi, place, 1, 1, 99)
    assert run(cpi, "backup", place, tmp_path / "backup.db").status == 0
    return tmp_path / "backup.db"


def restored(cpi: Cpi, backup: Path, place: Path, *words: object) -> Ran:
    return run(cpi, "restore", backup, "--office", place, "--yes", *words)


def all_in(folder: Path) -> dict[str, bytes]:
    """The bytes of each file of a folder, and of those in its folders."""
    return {str(path.relative_to(folder)): path.read_bytes() for path in folder.rglob("*") if path.is_file()}


def asides(place: Path) -> list[Path]:
    return sorted(path for path in place.parent.iterdir() if path.is_dir())


def is_refused(ran: Ran, told: str) -> bool:
    return (ran.status, ran.err.count("\n")) == (1, 1) and ran.err.startswith("cpi-tools restore: ") and told in ran.err


# ---- its place


def test_a_second_restore_takes_the_log_away_as_the_first_one_does(cpi: Cpi, backup: Path, place: Path) -> None:
    """Between the two the office answers 300 prices, and is killed, so they are only in its log."""
    for turn in (1, 2):
        killed_after(cpi, place, 300)
        assert has_frames(place)
        there = {path.name: path.read_bytes() for path in (place, log_beside(place))}
        ran = restored(cpi, backup, place)
        assert (ran.status, ran.err) == (0, "")
        assert f"{place}: restored from {backup}, with 121 quotes and {TABLES} tables\n" in ran.out
        assert ran.out.endswith("start it: systemctl start cpi.service\n")
        assert len(asides(place)) == turn
        (new,) = [path for path in asides(place) if f"{path}: what was at that place before\n" in ran.out]
        assert all_in(new) == there and re.search(r"office\.db\.before-\d{8}-\d{6}(-\d)?$", str(new))
        assert sorted(path.name for path in place.parent.iterdir() if path.is_file()) == ["office.db"]
        assert place.read_bytes() == backup.read_bytes() and stat.S_IMODE(place.stat().st_mode) == 0o600
        assert prices_in(cpi, place) == {1: 100}
        log_beside(place).unlink(missing_ok=True)


def test_what_was_put_aside_is_a_whole_office(cpi: Cpi, backup: Path, place: Path) -> None:
    killed_after(cpi, place, 10)
    assert restored(cpi, backup, place).status == 0
    (aside,) = asides(place)
    assert len(prices_in(cpi, aside / "office.db")) == 10


def test_a_place_without_a_file_gets_one(cpi: Cpi, backup: Path, place: Path) -> None:
    for path in (place, log_beside(place)):
        path.unlink(missing_ok=True)
    ran = restored(cpi, backup, place)
    assert (ran.status, ran.err, "what was at that place" in ran.out) == (0, "", False)
    assert prices_in(cpi, place) == {1: 100}


def test_a_copy_with_its_log_is_restored_as_one_file(cpi: Cpi, backup: Path, place: Path, tmp_path: Path) -> None:
    (tmp_path / "copy").mkdir()
    killed_after(cpi, place, 20)
    for path in (place, log_beside(place)):
        shutil.copy(path, tmp_path / "copy")
    ran = restored(cpi, tmp_path / "copy/office.db", place)
    assert (ran.status, ran.err) == (0, "")
    assert len(prices_in(cpi, place)) == 20


@pytest.mark.skipif(os.geteuid() != 0, reason="only root gives files away")
def test_the_owner_of_the_folder_owns_it(cpi: Cpi, backup: Path) -> None:
    """It is placed with that owner's rights, so no file of anybody else can be given away."""
    with tempfile.TemporaryDirectory(prefix="cpi-restored-") as name:
        os.chmod(name, 0o711)
        place = Path(name) / "cpi/office.db"
        place.parent.mkdir(mode=0o700)
        os.chown(place.parent, 12345, 12346)
        for _ in range(2):
            assert restored(cpi, backup, place).status == 0
        found = {path.name: (path.stat().st_uid, path.stat().st_gid) for path in [place, *asides(place)]}
        assert {*found.values()} == {(12345, 12346)} and len(found) == 2
        assert stat.S_IMODE(place.stat().st_mode) == 0o600


# ---- what is in the way


def test_the_mark_of_a_promotion_stays_and_nothing_is_restored(cpi: Cpi, backup: Path, place: Path) -> None:
    mark_beside(place).write_text("second was promoted 2026-01-25 with the copy of ..\n")
    before = all_in(place.parent)
    ran = restored(cpi, backup, place)
    assert is_refused(ran, f"{mark_beside(place)}: second was promoted 2026-01-25") and ran.out == ""
    assert all_in(place.parent) == before


def test_an_office_that_runs_stays(cpi: Cpi, backup: Path, place: Path) -> None:
    with cpi.session(place) as session:
        assert "work" in session.ask(record(60, LOAD_KEY, "work", LOAD_MONTH))
        before = all_in(place.parent)
        assert is_refused(restored(cpi, backup, place), f"holds {place}: stop the office of this machine first")
        assert all_in(place.parent) == before


@pytest.mark.parametrize("is_told", [False, True])
def test_a_follower_that_runs_is_in_the_way(is_told: bool, cpi: Cpi, backup: Path, place: Path, tmp_path: Path) -> None:
    """In its room next to the office, or in the folder of the copy that is named."""
    folder = tmp_path / "copy" if is_told else place.with_name("office.db.follow")
    folder.mkdir()
    with (folder / LOCK).open("w") as lock:
        fcntl.flock(lock, fcntl.LOCK_EX)
        before = all_in(place.parent)
        words = ["--copy", folder] if is_told else []
        assert is_refused(restored(cpi, backup, place, *words), f"a cpi-tools follow runs that keeps {folder}")
        assert all_in(place.parent) == before
    assert restored(cpi, backup, place, *words).status == 0


def test_a_unit_that_runs_is_in_the_way(
    cpi: Cpi, backup: Path, place: Path, tmp_path: Path, monkeypatch: pytest.MonkeyPatch
) -> None:
    """Also while it waits for its next start. Only of the office of the package."""
    (tmp_path / "bin").mkdir()
    script(
        tmp_path / "bin/systemctl",
        'for it; do :; done\n[ "$it" != "$UNIT" ] || { echo "$STATE"; exit; }\necho inactive\n',
    )
    monkeypatch.setenv("PATH", f"{tmp_path}/bin:{os.environ['PATH']}")
    monkeypatch.setattr(restore, "SYSTEMD", tmp_path)
    monkeypatch.setattr(restore, "HERE", place)
    for unit, state in (("cpi.service", "activating"), ("cpi-follow.service", "active")):
        monkeypatch.setenv("UNIT", unit)
        monkeypatch.setenv("STATE", state)
        assert is_refused(
            restored(cpi, backup, place), f"{unit} is {state}: systemctl stop cpi.service cpi-follow.service"
        )
    monkeypatch.setenv("STATE", "failed")
    assert restored(cpi, backup, place).status == 0


def test_what_is_no_whole_backup_is_refused(cpi: Cpi, backup: Path, place: Path, tmp_path: Path) -> None:
    before = all_in(place.parent)
    text = tmp_path / "text.db"
    text.write_text("x" * 5000)
    assert is_refused(restored(cpi, tmp_path / "none.db", place), "none.db is no file")
    assert is_refused(restored(cpi, place, place), f"{place} is the office itself")
    assert restored(cpi, text, place).status == 1
    damaged = bytearray(backup.read_bytes())
    damaged[5000] ^= 1
    backup.write_bytes(damaged)
    ran = restored(cpi, backup, place)
    assert (
        ran.status == 1
        and "isn't a whole office, and nothing was changed: its bytes aren't those of its note" in ran.err
    )
    assert all_in(place.parent) == before


def test_the_log_of_another_file_next_to_a_backup_is_refused(cpi: Cpi, backup: Path, place: Path) -> None:
    killed_after(cpi, place, 3000)
    shutil.copy(log_beside(place), log_beside(backup))
    before = all_in(place.parent)
    ran = restored(cpi, backup, place)
    assert is_refused(ran, f"{backup}-wal isn't the log of {backup}, which is whole by itself: ") and ran.out == ""
    assert all_in(place.parent) == before


# ---- which is newer


def test_it_says_which_is_newer_the_backup_or_a_second_copy(
    cpi: Cpi, backup: Path, place: Path, tmp_path: Path
) -> None:
    copy = tmp_path / "copy"
    copy.mkdir()
    assert run(None, "follow", place, copy, "--once").status == 0
    ran = run(cpi, "restore", backup, "--office", place, "--copy", copy)
    assert ran.status == 1 and f"{copy}: backup.db has all that the second copy of " in ran.out
    priced(cpi, place, 1, ANSWERED)
    assert run(None, "follow", place, copy, "--once").status == 0
    ran = run(cpi, "restore", backup, "--office", place, "--copy", copy)
    assert (
        ran.status == 1 and "is newer than backup.db: the backup hasn't what it has: quotes 160 (here 121)" in ran.out
    )
    assert prices_in(cpi, place) == WANTED


class Answering(io.StringIO):
    """A terminal at which somebody answers."""

    def isatty(self) -> bool:
        return True


@pytest.mark.parametrize(("answer", "status"), [("no\n", 1), ("\n", 1), ("", 1), ("yes\n", 0), ("Y\n", 0)])
def test_it_asks(
    answer: str, status: int, cpi: Cpi, backup: Path, place: Path, monkeypatch: pytest.MonkeyPatch
) -> None:
    before = all_in(place.parent)
    monkeypatch.setattr("sys.stdin", Answering(answer))
    ran = run(cpi, "restore", backup, "--office", place)
    assert ran.status == status and f"Put {place} and its log aside, and restore this backup? [yes/no] " in ran.out
    assert (all_in(place.parent) == before) == (status == 1)


def test_a_script_says_that_it_means_it(cpi: Cpi, backup: Path, place: Path, monkeypatch: pytest.MonkeyPatch) -> None:
    monkeypatch.setattr("sys.stdin", io.StringIO("yes\n"))
    assert is_refused(run(cpi, "restore", backup, "--office", place), "nobody can be asked here")


# ---- all of it or nothing


def test_a_full_disk_changes_nothing(cpi: Cpi, backup: Path, place: Path, monkeypatch: pytest.MonkeyPatch) -> None:
    killed_after(cpi, place, 5)
    before, write = all_in(place.parent), restore._write

    def full(source: IO[bytes], to: Path) -> None:
        limits = resource.getrlimit(resource.RLIMIT_FSIZE)
        handler = signal.signal(signal.SIGXFSZ, signal.SIG_IGN)
        try:
            resource.setrlimit(resource.RLIMIT_FSIZE, (50_000, limits[1]))
            write(source, to)
        finally:
            resource.setrlimit(resource.RLIMIT_FSIZE, limits)
            signal.signal(signal.SIGXFSZ, handler)

    monkeypatch.setattr(restore, "_write", full)
    ran = restored(cpi, backup, place)
    assert is_refused(ran, "File too large") and all_in(place.parent) == before


@pytest.mark.parametrize("step", range(4))
@pytest.mark.parametrize("is_killed", [False, True])
def test_what_stops_it_between_two_files_leaves_all_or_a_mark(
    step: int, is_killed: bool, cpi: Cpi, backup: Path, place: Path, tmp_path: Path, monkeypatch: pytest.MonkeyPatch
) -> None:
    """A fault at one of the changes of a name: all is as before. After a kill no office is started until it was run again;
    then the backup is the office, and file and log of before are put aside."""
    killed_after(cpi, place, 5)
    before, rename, done = all_in(place.parent), Path.rename, list[Path]()
    there = {path.name: path.read_bytes() for path in (place, log_beside(place))}

    def stopped(self: Path, target: Path) -> Path:
        done.append(self)
        if len(done) == step + 1:
            raise OSError(5, "Input/output error", str(self))
        return rename(self, target)

    monkeypatch.setattr(Path, "rename", stopped)
    if is_killed:
        monkeypatch.setattr(restore, "_put_back", lambda *_: None)
    ran = restored(cpi, backup, place)
    monkeypatch.undo()
    if step == 3:
        # (there are three)
        assert ran.status == 0 and len(done) == 3
        return
    assert is_refused(ran, "Input/output error")
    if not is_killed:
        assert all_in(place.parent) == before and asides(place) == []
        return
    assert restoring_beside(place).exists()
    status, told = started_at(cpi, place, tmp_path)
    assert status == WRONG and f"{restoring_beside(place)}: the restore of {backup}, begun " in told
    doctored = run(cpi, "doctor", place)
    assert doctored.status == 1 and doctored.out.endswith(", isn't done. Run cpi-tools restore again.\n")
    assert restored(cpi, backup, place).status == 0
    assert not restoring_beside(place).exists() and place.read_bytes() == backup.read_bytes()
    kept: dict[str, bytes] = {}
    for folder in asides(place):
        kept |= all_in(folder)
    assert kept == there


# ---- the log of another file


@pytest.fixture
def other_log(cpi: Cpi, backup: Path, place: Path) -> Path:
    """An office's place where a backup lies next to the log of the file before, as after `cp`."""
    killed_after(cpi, place, 3000)
    shutil.copy(backup, place)
    return log_beside(place)


def test_the_doctor_finds_the_log_of_another_file(cpi: Cpi, other_log: Path, place: Path) -> None:
    before = all_in(place.parent)
    for more in (0, 1):
        ran = run(cpi, "doctor", place, *["--log"][:more])
        assert (ran.status, ran.out.count("\n"), ran.err) == (1, 1, "")
        assert f"{place}: its log office.db-wal is that of another file: " in ran.out
    assert all_in(place.parent) == before


def started_at(cpi: Cpi, place: Path, folder: Path) -> tuple[int, str]:
    """How cpi-serve starts an office, and what it tells."""
    (folder / "serving").mkdir(exist_ok=True)
    script(folder / "serving/cpi-tools", f'exec {ROOT}/cpi-tools "$@"\n')
    started = start(cpi, folder / "serving", CPI_ZONE="UTC0", CPI_OFFICE=str(place))
    return started.status, started.told


def test_no_office_is_started_with_the_log_of_another_file(
    cpi: Cpi, other_log: Path, backup: Path, place: Path, tmp_path: Path
) -> None:
    before = all_in(place.parent)
    status, told = started_at(cpi, place, tmp_path)
    assert status == WRONG and told.startswith(f"cpi-serve: {place}: its log office.db-wal is that of another file: ")
    assert all_in(place.parent) == before
    assert restored(cpi, backup, place).status == 0
    assert started_at(cpi, place, tmp_path) == (0, "")


def test_an_office_is_started_with_its_own_log(cpi: Cpi, backup: Path, place: Path, tmp_path: Path) -> None:
    """Whatever a kill left in it: after no, some and many emptyings."""
    for count in (1, 300, 900, 2500):
        killed_after(cpi, place, count)
        assert has_frames(place)
        assert started_at(cpi, place, tmp_path) == (0, ""), count
        ran = run(cpi, "doctor", place)
        assert (ran.status, ran.out, ran.err) == (0, f"{place}: nothing is wrong\n", ""), count


def test_a_doubt_is_told_and_stops_nothing(cpi: Cpi, backup: Path, place: Path, tmp_path: Path) -> None:
    """A backup that is a whole office together with the log: it is that of before then, and nothing is lost."""
    killed_after(cpi, place, 100)
    shutil.copy(backup, place)
    status, told = started_at(cpi, place, tmp_path)
    assert (
        status == 0 and told.count("\n") == 1 and "after the last write of its log: if a backup was put there" in told
    )
    ran = run(cpi, "doctor", place)
    assert ran.status == 0 and "warning: the file was put there, or written, after the last write of its log" in ran.err


def test_the_log_of_another_office_is_found(cpi: Cpi, made: Path, backup: Path, place: Path, tmp_path: Path) -> None:
    """Of one with other collectors, some of whose pages fit."""
    other = tmp_path / "other.db"
    records = [record(0, "desk", "outlet", number, f"Outlet {number}") for number in range(1, 200)]
    with pytest.raises(KeyboardInterrupt), cpi.session(other) as session:
        for one in [*records, record(0, "desk", "collector", 7, "7" * 32)]:
            assert session.ask(one) == {"done": True}
        raise KeyboardInterrupt
    shutil.copy(log_beside(other), log_beside(place))
    ran = run(cpi, "doctor", place, "--log")
    assert ran.status == 1 and "is that of another file: " in ran.out


@pytest.mark.parametrize("name, told", [("Another sort", "item RICE"), ("An item", "")])
def test_the_log_of_an_office_with_other_texts_is_found(name: str, told: str, cpi: Cpi, tmp_path: Path) -> None:
    """All numbers and keys are those of the file, but the item's name in a page of the log isn't."""
    here, other = tmp_path / "here.db", tmp_path / "other.db"
    for file, text in ((here, "An item"), (other, name)):
        assert cpi.replay([record(0, "desk", "item", "RICE", text, "1 kg", 500, 2000)], db=file) == [{"done": True}]
    with pytest.raises(KeyboardInterrupt), cpi.session(other) as session:
        assert session.ask(record(0, "desk", "item", "TEA", "Tea", "100 g", 500, 2000)) == {"done": True}
        raise KeyboardInterrupt
    shutil.copy(log_beside(other), log_beside(here))
    ran = run(cpi, "doctor", here, "--log")
    assert (ran.status, ran.err) == (int(bool(told)), "")
    assert (f"is that of another file: with it the file's {told} is another one. " in ran.out) == bool(told)

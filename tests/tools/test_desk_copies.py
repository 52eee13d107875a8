"""The desk's folder goes along: in each round of `cpi-tools follow`, in a promotion, in a backup and in a restore."""

from __future__ import annotations

import json
import os
import shutil
import signal
import sqlite3
import stat
import subprocess
import sys
import time
from pathlib import Path
from typing import Any, Optional

import pytest

from cpi_tools.guard import restore
from cpi_tools.guard.copies.carriers import CAME, NotFitting, Rsync
from cpi_tools.desk.records.desk_log import DeskLog
from cpi_tools.guard.copies.desk_changes import CARRIED_DESK, Index, index_of, put_in_desk, write_desk_changes
from cpi_tools.guard.copies.desk_copies import copied_desk
from cpi_tools.guard.follow import Follower
from cpi_tools.guard.copies.places import Elsewhere, Folder, Place
from cpi_tools.office.program import Cpi
from cpi_tools.guard.copies.second_copies import DESK, INDEX, NAMES, promotion_of
from lib.places import ROOT
from lib.sample import Sample
from .desk_rooms import DeskRoom, files_of
from .ran import run
from .second_machines import PATIENCE, receiver

by_rsync = pytest.mark.skipif(
    not (shutil.which("rsync") and shutil.which("rrsync")), reason="rsync carries to the second machine"
)
as_root = pytest.mark.skipif(os.geteuid() != 0, reason="only root gives files away")


@pytest.fixture
def desk(tmp_path: Path) -> DeskRoom:
    """A desk's folder."""
    return DeskRoom(tmp_path / "cpi-desk")


@pytest.fixture
def dest(tmp_path: Path) -> Path:
    """A place of copies."""
    (tmp_path / "dest").mkdir()
    return tmp_path / "dest"


def copy_at(dest: Path) -> Path:
    """The folder of the copy that counts."""
    index = index_of(dest)
    assert index
    return dest / DESK / str(index.number)


# ---- rounds


@by_rsync
@pytest.mark.parametrize("way", ["folder", "receiver"])
def test_each_round_brings_the_copy_up_to_date(
    way: str, office: Path, desk: DeskRoom, dest: Path, tmp_path: Path
) -> None:
    places: dict[str, Place] = {"folder": Folder(dest), "receiver": elsewhere(tmp_path, dest)}
    follower = Follower(office, places[way], desk=desk.path)
    for number in range(6):
        assert follower.round() == "" and follower.desk_round()
        assert files_of(copy_at(dest)) == desk.files and copy_at(dest).name == "1"
        if number == 2:
            (desk.path / "prepared-freeze.json").unlink()
            shutil.rmtree(desk.path / "next-year")
        desk.say()
        desk.note()
        desk.field()
        desk.keep("rows.json", f"{number}")
    modes = {stat.S_IMODE(path.stat().st_mode) for path in (dest / DESK).rglob("*") if path.is_file()}
    assert modes == {0o600}


def elsewhere(folder: Path, dest: Path, more: str = "") -> Elsewhere:
    """The place as the follower of another machine reaches it."""
    return Elsewhere(Rsync("second", ".", receiver(folder / "shell", dest, more)), folder / "room")


def test_only_what_changed_is_carried(
    office: Path, desk: DeskRoom, dest: Path, monkeypatch: pytest.MonkeyPatch
) -> None:
    """A line of the log, and of the notes of the field the pages that changed; nothing if nothing did."""
    desk.say("x" * 100_000)
    desk.field(b"y" * 1_000_000)
    sizes = list[int]()

    def noted(to: Path, *of: Any) -> None:
        write_desk_changes(to, *of)
        sizes.append(to.stat().st_size)

    monkeypatch.setattr("cpi_tools.guard.copies.desk_copies.write_desk_changes", noted)
    follower = Follower(office, Folder(dest), desk=desk.path)
    assert follower.desk_round() and sizes[0] > 1_100_000
    assert follower.desk_round() and len(sizes) == 1
    desk.say()
    assert follower.desk_round() and sizes[1] < 10_000
    desk.field()
    assert follower.desk_round() and sizes[2] < 60_000
    assert files_of(copy_at(dest)) == desk.files
    # (a follower that begins knows nothing of the pages, and carries what isn't there)
    desk.say()
    assert Follower(office, Folder(dest), desk=desk.path).desk_round() and sizes[3] < 10_000
    assert files_of(copy_at(dest)) == desk.files and len(sizes) == 4


ACCIDENTS = {
    "log-lost": "desk.log",
    "log-older": "desk.log",
    "log-changed": "desk.log",
    "looks-lost": "looks.jsonl",
    "notes-lost": "field-notes.db",
    "notes-anew": "field-notes.db",
}
"""What happens to the folder of the first machine, and what doesn't go on then."""


@pytest.mark.parametrize("accident", ACCIDENTS)
def test_the_copy_outlives_the_accidents_of_the_folder(
    accident: str, office: Path, desk: DeskRoom, dest: Path, capsys: pytest.CaptureFixture[str]
) -> None:
    """It stays as it is, and what doesn't go on from it is put next to it, which a line says once."""
    before = (desk.path / "desk.log").read_bytes()
    desk.say()
    follower = Follower(office, Folder(dest), desk=desk.path)
    assert follower.desk_round()
    kept, what = desk.files, ACCIDENTS[accident]
    if accident == "log-older":
        (desk.path / what).write_bytes(before)
    elif accident == "log-changed":
        (desk.path / what).write_bytes(kept[what].replace(b"step 1", b"step 9"))
    else:
        (desk.path / what).unlink()
    if accident == "log-lost":
        assert not follower.desk_round()
        assert "desk.log is gone, so the copy of the desk's folder stays as it is" in capsys.readouterr().err
    if accident in ("log-lost", "notes-anew"):
        desk.say() if what == "desk.log" else desk.field()
    assert follower.desk_round()
    assert files_of(dest / DESK / "1") == kept and files_of(dest / DESK / "2") == desk.files
    line = f"cpi-tools follow: {dest}: {what} doesn't go on from the copy's, which stays: this desk is put next to it\n"
    assert capsys.readouterr().err == line
    if "changed" not in accident:
        desk.say()
        assert follower.desk_round() and capsys.readouterr().err == ""
        assert files_of(dest / DESK / "2") == desk.files and files_of(dest / DESK / "1") == kept


def test_a_desk_that_is_not_there_is_in_no_way(office: Path, dest: Path, tmp_path: Path) -> None:
    for folder in (tmp_path / "nowhere", tmp_path):
        ran = run(None, "follow", office, dest, "--once", "--desk", folder)
        assert (ran.status, ran.err, (dest / DESK).exists()) == (0, "", False)


def test_a_fault_of_the_desk_s_folder_holds_up_nothing(office: Path, desk: DeskRoom, dest: Path) -> None:
    """The notes of the field can't be read: the office is carried, and one line says it."""
    (desk.path / "field-notes.db").write_bytes(b"no database, but long enough to be read as one" * 99)
    ran = run(None, "follow", office, dest, "--once", "--desk", desk.path)
    assert ran.status == 1 and (dest / NAMES[0] / "office.db").read_bytes() == office.read_bytes()
    told = f"the desk's folder: {desk.path}/field-notes.db can't be read now: file is not a database"
    assert ran.err == f"cpi-tools follow: {told}; it goes on to try\n"


@by_rsync
def test_a_second_machine_of_an_earlier_version_is_said(
    office: Path, desk: DeskRoom, dest: Path, tmp_path: Path, capsys: pytest.CaptureFixture[str]
) -> None:
    place = elsewhere(tmp_path, dest)
    follower = Follower(office, place, desk=desk.path)
    assert follower.round() == "" and follower.round() == ""
    # (there the file of changes lies until the next carrying)
    shell = (ROOT / "ops/cpi-receive").read_text().replace('|| [ -e "$came/desk-changes" ]', "")
    (tmp_path / "earlier").write_text(shell)
    text = (tmp_path / "shell").read_text()
    (tmp_path / "shell").write_text(text.replace(f"{ROOT}/ops/cpi-receive", f"sh {tmp_path}/earlier"))
    assert not follower.desk_round() and not follower.desk_round()
    told = f"the desk's folder: {place.name} doesn't take the desk's folder: bring cpi there to this version"
    assert capsys.readouterr().err == f"cpi-tools follow: {told}; it goes on to try\n"
    (tmp_path / "shell").write_text(text)
    assert follower.desk_round() and files_of(copy_at(dest)) == desk.files


@by_rsync
def test_a_key_that_runs_rsync_only_is_said(
    office: Path, desk: DeskRoom, dest: Path, tmp_path: Path, capsys: pytest.CaptureFixture[str]
) -> None:
    (tmp_path / "shell").write_text('#!/bin/sh\nshift\nexec sh -c "$*"\n')
    (tmp_path / "shell").chmod(0o755)
    place = Elsewhere(Rsync("second", str(dest), str(tmp_path / "shell")), tmp_path / "room")
    follower = Follower(office, place, desk=desk.path)
    assert follower.round() == "" and not follower.desk_round()
    assert "has no cpi-receive, so the desk's folder isn't carried there" in capsys.readouterr().err


def test_an_office_that_is_not_carried_is_no_reason_for_its_desk(
    cpi: Cpi, office: Path, desk: DeskRoom, dest: Path, monkeypatch: pytest.MonkeyPatch
) -> None:
    """The file was lost and made anew; the desk goes on."""
    follower = Follower(office, Folder(dest), desk=desk.path)
    assert follower.round() == "" and follower.desk_round()
    office.unlink()
    cpi.replay([], db=office)
    desk.say()

    def stop(_: float) -> None:
        raise KeyboardInterrupt

    monkeypatch.setattr("cpi_tools.guard.follow.time.sleep", stop)
    with pytest.raises(KeyboardInterrupt):
        follower.keep(1)
    assert files_of(copy_at(dest)) == desk.files


ENDLESS = """\
import sys
from pathlib import Path
sys.path.insert(0, sys.argv[1])
from cpi_tools.guard.follow import Follower
from cpi_tools.guard.copies.places import place_of
Follower(Path(sys.argv[2]), place_of(sys.argv[3], Path(sys.argv[4]), sys.argv[5]), desk=Path(sys.argv[6])).keep(0)
"""


@by_rsync
def test_after_a_kill_the_copy_has_each_line_that_is_older_than_its_round(
    office: Path, desk: DeskRoom, dest: Path, tmp_path: Path, sample: Sample
) -> None:
    """The follower is killed at random moments with all that it started, while the desk works."""
    drawn = sample.drawn("when a follower of the desk's folder is killed")
    words = [str(ROOT / "tools"), str(office), "second:.", str(tmp_path / "room"), receiver(tmp_path / "shell", dest)]
    for turn in range(sample.count(3, 8)):
        command = [sys.executable, "-c", ENDLESS, *words, str(desk.path)]
        with subprocess.Popen(command, stdout=subprocess.PIPE, text=True, start_new_session=True) as running:
            assert running.stdout and running.stdout.readline()
            until = time.monotonic() + 1 + drawn.random() * 2
            while time.monotonic() < until or (index_of(dest) is None and time.monotonic() < until + PATIENCE):
                desk.say()
                desk.field()
            os.killpg(running.pid, signal.SIGKILL)
        index = index_of(dest)
        assert index and index.number == 1
        (tmp_path / f"{turn}").mkdir()
        copied_desk(dest, tmp_path / f"{turn}")
        there, here = (DeskLog(folder / "desk.log") for folder in (tmp_path / f"{turn}", desk.path))
        assert there.entries == here.entries[: len(there.entries)]
        assert [entry for entry in here.entries[len(there.entries) :] if entry.at < index.copied] == []
        there.close()
        here.close()


# ---- what the key of the first machine can't do


def forged(dest: Path, index: Index, parts: list[list[object]], data: bytes) -> None:
    """A file of changes as somebody may make it who has the key."""
    before = index_of(dest)
    head = {"before": before.text if before else "", "index": index.text, "parts": parts}
    (dest / CAME / CARRIED_DESK).write_bytes(json.dumps(head).encode() + b"\n" + data)


def test_no_line_of_a_log_is_taken_away(office: Path, desk: DeskRoom, dest: Path) -> None:
    assert Follower(office, Folder(dest), desk=desk.path).desk_round()
    index, before = index_of(dest), files_of(dest)
    assert index
    log = index.files["desk.log"]
    short = index._replace(files={**index.files, "desk.log": log._replace(size=3)})
    longer = index._replace(files={**index.files, "desk.log": log._replace(size=log.size + 3)})
    without = index._replace(files={name: of for name, of in index.files.items() if name != "desk.log"})
    linked = index._replace(files={**index.files, "../x": log})
    for after, parts, data in (
        (short, [["desk.log", "whole", []]], b"abc"),
        (short, [["desk.log", "append", []]], b""),
        (longer, [["desk.log", "whole", []]], b"a" * (log.size + 3)),
        (longer, [], b""),
        (longer, [["desk.log", "pages", [0]]], b"a" * (log.size + 3)),
        (longer, [["desk.log", "append", []]], b"ab"),
        (without, [], b""),
        (linked, [["../x", "whole", []]], b"a" * log.size),
        (index._replace(number=3), [], b""),
    ):
        forged(dest, after, parts, data)  # type: ignore[arg-type]
        with pytest.raises(NotFitting):
            put_in_desk(dest)
        (dest / CAME / CARRIED_DESK).unlink()
        assert files_of(dest) == before
    # what may be done: lines more
    forged(dest, longer, [["desk.log", "append", []]], b"ab\n")
    assert put_in_desk(dest) == longer
    assert (copy_at(dest) / "desk.log").read_bytes() == desk.files["desk.log"] + b"ab\n"


@pytest.mark.parametrize("what", ["1/desk.log", "1/field-notes.db", "1/tables", "1", "."])
def test_a_link_leads_nowhere(what: str, office: Path, desk: DeskRoom, dest: Path, tmp_path: Path) -> None:
    follower = Follower(office, Folder(dest), desk=desk.path)
    assert follower.desk_round()
    at, outside = dest / DESK / what, tmp_path / "outside"
    at.rename(outside)
    at.symlink_to(outside)
    before = files_of(outside) if outside.is_dir() else outside.read_bytes()
    desk.say()
    desk.field()
    desk.keep("tables/2026-01-at-2026-02-02.csv", "1")
    assert not follower.desk_round()
    assert before == (files_of(outside) if outside.is_dir() else outside.read_bytes())


@pytest.mark.parametrize(
    "text", ["", "{}", '{"number": 1, "copied": 1, "notes": [0, 0, ""], "files": {"../x": [1, "a"]}}']
)
def test_a_copy_whose_index_is_lost_is_not_written_over(text: str, office: Path, desk: DeskRoom, dest: Path) -> None:
    follower = Follower(office, Folder(dest), desk=desk.path)
    assert follower.desk_round()
    before = desk.files
    (dest / DESK / INDEX).write_text(text)
    (desk.path / "desk.log").unlink()
    desk.say("of another desk")
    assert follower.desk_round() and files_of(dest / DESK / "1") == desk.files
    assert files_of(dest / DESK / "left-1-1") == before


# ---- a promotion


def promoted(cpi: Cpi, dest: Path, desk: Path) -> list[str]:
    """The lines of a promotion on the desk's folder."""
    place = dest.parent / f"second-{time.monotonic_ns()}"
    place.mkdir()
    ran = run(cpi, "promote", dest, "--office", place / "office.db", "--desk", desk, "--again")
    assert ran.status == 0, ran.err
    return [line for line in (ran.out + ran.err).splitlines() if str(desk) in line or "desk's folder" in line]


def test_the_second_machine_has_the_desk(cpi: Cpi, office: Path, desk: DeskRoom, dest: Path, tmp_path: Path) -> None:
    follower = Follower(office, Folder(dest), desk=desk.path)
    assert follower.round() == "" and follower.desk_round()
    target = tmp_path / "there"
    (line,) = promoted(cpi, dest, target)
    assert line.startswith(f"{target}: the desk's folder is that of 20")
    assert files_of(target) == desk.files and stat.S_IMODE(target.stat().st_mode) == 0o700
    DeskLog(target / "desk.log").close()
    # a desk that goes on there is later, and stays
    there = DeskRoom.__new__(DeskRoom)
    there.path, there.count = target, 50
    there.say()
    kept = there.files
    assert promoted(cpi, dest, target) == [f"{target}: stays as it is, since its logs go on from those of the copy"]
    assert files_of(target) == kept
    # if both went on, the copy takes the place, and what was there is put aside
    desk.say("another")
    assert follower.desk_round()
    (line,) = promoted(cpi, dest, target)
    (aside,) = [path for path in target.iterdir() if path.name.startswith("before-")]
    assert line.endswith(f"; what was there is in {aside}")
    assert files_of(target) == desk.files and files_of(aside) == kept


def test_a_promotion_without_a_desk_says_so(cpi: Cpi, office: Path, dest: Path, tmp_path: Path) -> None:
    assert Follower(office, Folder(dest)).round() == ""
    (line,) = promoted(cpi, dest, tmp_path / "there")
    assert (
        line == f"{dest / DESK}: there is no copy of the desk's folder whose index can be read"
        and not (tmp_path / "there").exists()
    )


def test_what_was_being_received_is_no_loss(cpi: Cpi, office: Path, desk: DeskRoom, dest: Path, tmp_path: Path) -> None:
    """The first machine went while the copy was written: a line is there in part, and pages of the notes."""
    follower = Follower(office, Folder(dest), desk=desk.path)
    assert follower.round() == "" and follower.desk_round()
    with (copy_at(dest) / "desk.log").open("ab") as log:
        log.write(b'{"number"')
    with (copy_at(dest) / "field-notes.db").open("r+b") as notes:
        notes.write(bytes(4096))
    target = tmp_path / "there"
    lines = promoted(cpi, dest, target)
    assert lines[0] == "the desk's folder: field-notes.db is damaged, so it has the name field-notes.db.damaged"
    files = files_of(target)
    assert files.pop("field-notes.db.damaged")[:4096] == bytes(4096)
    assert files == {name: content for name, content in desk.files.items() if name != "field-notes.db"}
    # and the next round goes on from the index
    desk.say()
    assert follower.desk_round() and files_of(copy_at(dest))["desk.log"] == desk.files["desk.log"]


def test_the_pages_of_the_second_machine_are_stopped_first(
    cpi: Cpi, office: Path, desk: DeskRoom, dest: Path, tmp_path: Path
) -> None:
    follower = Follower(office, Folder(dest), desk=desk.path)
    assert follower.round() == "" and follower.desk_round()
    there = DeskRoom(tmp_path / "there")
    kept, log = there.files, DeskLog(there.path / "desk.log")
    ran = run(cpi, "promote", dest, "--office", tmp_path / "second.db", "--desk", there.path)
    log.close()
    told = f"the desk's pages have {there.path}: systemctl stop cpi-desk.service"
    assert (ran.status, ran.err) == (1, f"cpi-tools promote: {told}\n")
    assert there.files == kept and not (tmp_path / "second.db").exists() and promotion_of(dest) is None


@as_root
def test_the_owner_of_the_office_owns_the_desk(cpi: Cpi, office: Path, desk: DeskRoom, dest: Path) -> None:
    follower = Follower(office, Folder(dest), desk=desk.path)
    assert follower.round() == "" and follower.desk_round()
    place = dest.parent / "second"
    place.mkdir()
    os.chown(place, 65534, 65534)
    ran = run(cpi, "promote", dest, "--office", place / "office.db", "--desk", dest.parent / "there")
    assert ran.status == 0
    owners = {path.lstat().st_uid for path in ((dest.parent / "there"), *(dest.parent / "there").rglob("*"))}
    assert owners == {65534}


# ---- a backup


def test_a_backup_is_office_and_desk(cpi: Cpi, office: Path, desk: DeskRoom, tmp_path: Path) -> None:
    backup = tmp_path / "backup/office.db"
    ran = run(cpi, "backup", office, backup, "--desk", desk.path)
    assert (ran.status, ran.err) == (0, "")
    archive = backup.with_name("office.db.desk.tar")
    assert ran.out.splitlines()[1].startswith(f"{archive}: the desk's folder, SHA-256 ")
    assert stat.S_IMODE(archive.stat().st_mode) == 0o600
    checked = subprocess.run(["sha256sum", "--check", "office.db.sha256"], cwd=backup.parent, check=False)
    assert checked.returncode == 0
    assert run(cpi, "drill", backup).status == 0
    assert run(cpi, "backup", office, backup, "--desk", desk.path).status == 1
    desk.say()
    assert run(cpi, "backup", office, backup, "--desk", desk.path, "--replace").status == 0
    content = archive.read_bytes()
    archive.write_bytes(content.replace(b"step 1", b"step 2"))
    ran = run(cpi, "drill", backup)
    assert ran.status == 1 and "the bytes of office.db.desk.tar aren't those of its note" in ran.err
    archive.unlink()
    ran = run(cpi, "drill", backup)
    assert ran.status == 1 and "office.db.desk.tar: No such file or directory" in ran.err
    # one without a desk takes the place of one with it
    assert run(cpi, "backup", office, backup, "--replace").status == 0 and run(cpi, "drill", backup).status == 0


def test_a_desk_that_can_not_be_read_is_said_and_the_office_is_there(
    cpi: Cpi, office: Path, desk: DeskRoom, tmp_path: Path
) -> None:
    (desk.path / "field-notes.db").write_bytes(b"no database" * 400)
    ran = run(cpi, "backup", office, tmp_path / "backup.db", "--desk", desk.path)
    assert ran.status == 4 and run(cpi, "drill", tmp_path / "backup.db").status == 0
    told = f"the desk's folder isn't in it: {desk.path}/field-notes.db can't be read now: file is not a database"
    assert ran.err == f"cpi-tools backup: {told}\n" and not (tmp_path / "backup.db.desk.tar").exists()


def test_notes_that_come_meanwhile_are_in_it_whole_or_not(
    cpi: Cpi, office: Path, desk: DeskRoom, tmp_path: Path
) -> None:
    """Another program has a change at hand that it hasn't committed."""
    with sqlite3.connect(desk.path / "field-notes.db", isolation_level=None) as link:
        link.execute("BEGIN IMMEDIATE")
        link.execute("DELETE FROM note")
        ran = run(cpi, "backup", office, tmp_path / "backup.db", "--desk", desk.path)
        link.execute("ROLLBACK")
    assert ran.status == 0
    there = restored(cpi, tmp_path / "backup.db", tmp_path / "back", tmp_path / "desk-back")
    assert there["field-notes.db"] == desk.files["field-notes.db"]


# ---- a restore


def restored(cpi: Cpi, backup: Path, place: Path, desk: Path, status: int = 0) -> dict[str, bytes]:
    """The desk's folder after a backup was restored to a folder that is made."""
    place.mkdir(exist_ok=True)
    ran = run(cpi, "restore", backup, "--office", place / "office.db", "--desk", desk, "--yes")
    assert ran.status == status, ran.err
    print(ran.out, ran.err)
    return files_of(desk)


def test_a_restore_brings_the_desk_back(
    cpi: Cpi, office: Path, desk: DeskRoom, tmp_path: Path, capsys: pytest.CaptureFixture[str]
) -> None:
    backup, place = tmp_path / "backup/office.db", tmp_path / "machine"
    assert run(cpi, "backup", office, backup, "--desk", desk.path).status == 0
    before = desk.files
    # the folder burned
    shutil.rmtree(desk.path)
    assert restored(cpi, backup, place, desk.path) == before
    assert f"{desk.path} gets the desk's folder of the backup" in capsys.readouterr().out
    # it goes on, and stays in the next restore
    desk.say()
    later = desk.files
    assert restored(cpi, backup, place, desk.path) == later
    assert f"{desk.path} stays as it is: the desk's logs there go on" in capsys.readouterr().out
    # a log that was lost is put aside with what is next to it
    (desk.path / "desk.log").unlink()
    desk.say()
    lost = desk.files
    assert restored(cpi, backup, place, desk.path) == before
    (aside,) = [path for path in desk.path.iterdir() if path.name.startswith("before-")]
    assert files_of(aside) == lost and f"{aside}: the one before" in capsys.readouterr().out


def test_a_restore_refuses_while_the_pages_run_and_changes_nothing(
    cpi: Cpi, office: Path, desk: DeskRoom, tmp_path: Path
) -> None:
    backup, place = tmp_path / "backup/office.db", tmp_path / "machine"
    assert run(cpi, "backup", office, backup, "--desk", desk.path).status == 0
    (desk.path / "desk.log").unlink()
    desk.say("of another desk")
    kept, log = desk.files, DeskLog(desk.path / "desk.log")
    assert restored(cpi, backup, place, desk.path, status=1) == kept and not (place / "office.db").exists()
    log.close()
    assert restored(cpi, backup, place, desk.path) != kept


def test_a_desk_that_can_not_be_placed_is_said_and_the_office_is_there(
    cpi: Cpi, office: Path, desk: DeskRoom, tmp_path: Path, capsys: pytest.CaptureFixture[str]
) -> None:
    """Between the look and the end its pages began to run."""
    backup, place = tmp_path / "backup/office.db", tmp_path / "machine"
    assert run(cpi, "backup", office, backup, "--desk", desk.path).status == 0
    before = desk.files
    (desk.path / "desk.log").unlink()
    desk.say("of another desk")
    kept, logs = desk.files, list[DeskLog]()
    place.mkdir()
    put_in_place = restore.put_in_place

    def and_runs(*of: Any) -> Optional[Path]:
        logs.append(DeskLog(desk.path / "desk.log"))
        return put_in_place(*of)

    with pytest.MonkeyPatch.context() as patch:
        patch.setattr(restore, "put_in_place", and_runs)
        assert restored(cpi, backup, place, desk.path, status=4) == kept
    assert "the desk's folder isn't in its place: the desk's pages have " in capsys.readouterr().out
    logs[0].close()
    assert (place / "office.db").exists()
    assert restored(cpi, backup, place, desk.path) == before


def test_a_backup_of_before_has_no_desk(
    cpi: Cpi, office: Path, desk: DeskRoom, tmp_path: Path, capsys: pytest.CaptureFixture[str]
) -> None:
    backup = tmp_path / "backup/office.db"
    assert run(cpi, "backup", office, backup).status == 0
    assert restored(cpi, backup, tmp_path / "machine", desk.path) == desk.files
    assert "the backup has no desk's folder, so that of this machine stays as it is" in capsys.readouterr().out

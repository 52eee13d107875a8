"""`cpi-tools promote`: a whole copy becomes the office of a machine, and another one is refused in one line."""

from __future__ import annotations

import json
import os
import re
import sqlite3
import time
from pathlib import Path

import pytest

from cpi_tools.guard import promote
from cpi_tools.office.copying import log_beside
from cpi_tools.guard.follow import Follower, mark_beside
from cpi_tools.guard.copies.mirrors import sum_of
from cpi_tools.guard.copies.places import Folder
from cpi_tools.office.program import Cpi
from cpi_tools.guard.copies.second_copies import MARK, NAMES, NOTE, OFFICE, CopyNote, second_text, state_of
from .offices import LOAD_KEY, LOAD_MONTH, TABLES
from .ran import Ran, run


@pytest.fixture
def dest(cpi: Cpi, office: Path, tmp_path: Path) -> Path:
    """A place with two copies of an office that was held open, so the last quote is only in the log."""
    folder = tmp_path / "dest"
    folder.mkdir()
    follower = Follower(office, Folder(folder))
    with cpi.session(office) as session:
        assert follower.round() == ""
        assert session.ask(f"50,{LOAD_KEY},quote,1,{LOAD_MONTH},price,777") == {"receipt": 1}
        assert follower.round() == ""
    return folder


@pytest.fixture
def place(tmp_path: Path) -> Path:
    """Where the office of the second machine is to be."""
    (tmp_path / "second").mkdir()
    return tmp_path / "second/office.db"


def promoted(cpi: Cpi, dest: Path, place: Path, *words: object) -> Ran:
    return run(cpi, "promote", dest, "--office", place, *words)


def left_in(folder: Path) -> list[str]:
    return sorted(path.name for path in folder.iterdir())


def test_the_newest_copy_becomes_the_office(cpi: Cpi, dest: Path, place: Path) -> None:
    note, before = state_of(dest).notes[NAMES[1]], int(time.time())
    ran = promoted(cpi, dest, place)
    assert (ran.status, ran.err) == (0, "")
    lines = ran.out.splitlines()
    assert re.fullmatch(rf"{place}: copy-2 of \S+ is the office now, with [0-9,]+ quotes and {TABLES} tables", lines[0])
    assert lines[1] == "start it: systemctl enable --now cpi.service cpi-backup.timer"
    assert f"answered since {second_text(note.copied)} ({note.copied}) may be missing" in lines[2]
    assert left_in(place.parent) == [OFFICE, f"{OFFICE}-wal"]
    assert {path.stat().st_mode & 0o777 for path in place.parent.iterdir()} == {0o600}
    # (the quote that was only in the log is there, as the program reads it)
    assert cpi.replay([f"60,{LOAD_KEY},quote,1,{LOAD_MONTH},price,777"], db=place) == [{"receipt": 1}]
    told = json.loads((dest / MARK).read_text())
    assert told["copied"] == note.copied and before <= told["promoted"] <= time.time()


def test_a_copy_without_a_log_is_promoted_too(cpi: Cpi, office: Path, place: Path, tmp_path: Path) -> None:
    (tmp_path / "other").mkdir()
    log_beside(office).unlink(missing_ok=True)
    assert Follower(office, Folder(tmp_path / "other")).round() == ""
    assert promoted(cpi, tmp_path / "other", place).status == 0
    assert left_in(place.parent) == [OFFICE] and place.read_bytes() == office.read_bytes()


def damage(path: Path, at: int = 5000) -> None:
    with path.open("r+b") as file:
        file.seek(at)
        byte = file.read(1)
        file.seek(at)
        file.write(bytes([byte[0] ^ 1]))


def test_a_copy_that_is_not_whole_is_refused_and_nothing_is_changed(cpi: Cpi, dest: Path, place: Path) -> None:
    damage(dest / NAMES[1] / OFFICE)
    ran = promoted(cpi, dest, place)
    copied = second_text(state_of(dest).notes[NAMES[0]].copied)
    assert (ran.status, ran.out, ran.err) == (
        1,
        "",
        f"cpi-tools promote: {dest}/copy-2 isn't whole, and nothing was promoted: office.db hasn't the sum of its note"
        f" (--copy copy-1 takes the one of {copied}, which is whole)\n",
    )
    assert left_in(place.parent) == [] and not (dest / MARK).exists()
    assert promoted(cpi, dest, place, "--copy", NAMES[0]).status == 0
    assert cpi.replay([f"60,{LOAD_KEY},quote,2,{LOAD_MONTH},price,5"], db=place) == [{"receipt": 1}]


def test_if_none_is_whole_nothing_is_promoted(cpi: Cpi, dest: Path, place: Path) -> None:
    damage(dest / NAMES[0] / OFFICE)
    damage(log_beside(dest / NAMES[1] / OFFICE), 2000)
    ran = promoted(cpi, dest, place)
    assert (ran.status, ran.out, ran.err.count("\n")) == (1, "", 1)
    assert "office.db-wal hasn't the sum of its note" in ran.err and "--copy" not in ran.err
    for name in NAMES:
        (dest / name / NOTE).unlink()
    assert promoted(cpi, dest, place).err == (
        f"cpi-tools promote: {dest} has no copy with a whole note, so nothing was carried there whole\n"
    )
    assert left_in(place.parent) == [] and not (dest / MARK).exists()


def test_a_copy_that_fails_its_drill_is_refused(cpi: Cpi, dest: Path, place: Path) -> None:
    """Its bytes are those of its note, but a figure isn't what its quotes give."""
    copy = dest / NAMES[1] / OFFICE
    with sqlite3.connect(copy) as link:
        link.execute("UPDATE level_2 SET chained = chained + 1 WHERE code = '00' AND month = 202502")
    link.close()
    note = json.loads((copy.parent / NOTE).read_text())
    log_beside(copy).touch()
    note["file"], note["log"] = (dict(zip(("size", "sum"), sum_of(path))) for path in (copy, log_beside(copy)))
    (copy.parent / NOTE).write_text(json.dumps(note))
    ran = promoted(cpi, dest, place)
    assert (ran.status, ran.out, ran.err.count("\n")) == (1, "", 1)
    assert "isn't a whole office, and nothing was promoted: 2025-02 revision 1: " in ran.err
    assert left_in(place.parent) == [] and not (dest / MARK).exists()


def test_a_file_that_is_there_is_put_aside_only_if_that_is_said(cpi: Cpi, dest: Path, place: Path) -> None:
    place.write_bytes(b"the file of before")
    log_beside(place).write_bytes(b"its log")
    mark_beside(place).write_text("another machine was promoted\n")
    ran = promoted(cpi, dest, place)
    assert (ran.status, ran.err.count("\n")) == (1, 1) and f"{place} is there already" in ran.err
    assert place.read_bytes() == b"the file of before" and not (dest / MARK).exists()
    ran = promoted(cpi, dest, place, "--replace")
    assert (ran.status, ran.err) == (0, "")
    (aside,) = [path for path in place.parent.iterdir() if path.is_dir()]
    assert f"{aside}: what was at that place before\n" in ran.out
    assert {path.name: path.read_bytes()[:7] for path in aside.iterdir()} == {
        OFFICE: b"the fil", f"{OFFICE}-wal": b"its log", f"{OFFICE}.promoted": b"another",
    }  # fmt: skip
    assert not mark_beside(place).exists()


def test_a_file_that_a_program_holds_stays(cpi: Cpi, dest: Path, place: Path) -> None:
    with cpi.session(place) as session:
        assert session.ask("1,public,items") == {"items": []}
        ran = promoted(cpi, dest, place, "--replace")
    assert (ran.status, ran.err) == (
        1,
        f"cpi-tools promote: a program holds {place}: stop the office of this machine first\n",
    )
    assert not (dest / MARK).exists()


def test_a_follower_that_writes_meanwhile_does_no_harm(
    cpi: Cpi, office: Path, dest: Path, place: Path, monkeypatch: pytest.MonkeyPatch
) -> None:
    """Two rounds go by while the copy is read, so that its file is of one moment and its log of another."""
    copy, times = promote._copy, []

    def later(path: Path, to: Path, note: CopyNote) -> None:
        copy(path, to, note)
        times.append(path.parent.name)
        if len(times) == 1:
            for price in (1, 2):
                assert cpi.replay([f"70,{LOAD_KEY},quote,3,{LOAD_MONTH},price,{price}"], db=office)
                assert Follower(office, Folder(dest)).round() == ""
            copy(path, to.with_name("mixed"), note)
            log_beside(to).write_bytes(b"")

    monkeypatch.setattr(promote, "_copy", later)
    assert promoted(cpi, dest, place).status == 0
    assert len(times) == 2 and state_of(dest).promotion
    assert cpi.replay([f"80,{LOAD_KEY},quote,3,{LOAD_MONTH},price,2"], db=place) == [{"receipt": 3}]


def test_systemd_is_asked_to_start_it(
    cpi: Cpi, dest: Path, place: Path, tmp_path: Path, monkeypatch: pytest.MonkeyPatch
) -> None:
    monkeypatch.setattr(promote, "SYSTEMD", tmp_path / "nowhere")
    ran = promoted(cpi, dest, place, "--start")
    assert (ran.status, ran.err.count("\n")) == (1, 1) and "systemd doesn't run this machine" in ran.err
    assert left_in(place.parent) == []
    (tmp_path / "bin").mkdir()
    script = tmp_path / "bin/systemctl"
    script.write_text(f'#!/bin/sh\necho "$@" >> {tmp_path}/asked\necho "no such unit" >&2\nexit "$STATUS"\n')
    script.chmod(0o755)
    monkeypatch.setenv("PATH", f"{tmp_path}/bin:{os.environ['PATH']}")
    monkeypatch.setattr(promote, "SYSTEMD", tmp_path)
    monkeypatch.setenv("STATUS", "1")
    ran = promoted(cpi, dest, place, "--start")
    assert (ran.status, ran.err.count("\n")) == (1, 1)
    assert (
        "the copy is in its place, but systemctl enable --now cpi.service cpi-backup.timer failed: no such" in ran.err
    )
    monkeypatch.setenv("STATUS", "0")
    ran = promoted(cpi, dest, place, "--start", "--replace", "--again")
    assert (ran.status, ran.err) == (0, "") and "start it:" not in ran.out
    assert (tmp_path / "asked").read_text() == "enable --now cpi.service cpi-backup.timer\n" * 2


@pytest.mark.skipif(os.geteuid() != 0, reason="only root gives files away")
def test_the_owner_of_the_folder_owns_the_office(cpi: Cpi, dest: Path, place: Path) -> None:
    os.chown(place.parent, 12345, 12346)
    assert promoted(cpi, dest, place).status == 0
    assert {(path.stat().st_uid, path.stat().st_gid) for path in place.parent.iterdir()} == {(12345, 12346)}

"""`cpi-tools promote` between folders of other users, and a second time: root gives away what was drilled and nothing else,
and no office that took prices goes aside unasked."""

from __future__ import annotations

import contextlib
import json
import os
import re
import socket
import subprocess
import sys
import tempfile
import time
from collections.abc import Iterator
from pathlib import Path

import pytest

from cpi_tools.guard import promote as promoting
from cpi_tools.guard.follow import Follower, mark_beside
from cpi_tools.guard.copies.places import Folder
from cpi_tools.office.program import Cpi
from cpi_tools.guard.copies.second_copies import LOG, MARK, NAMES, NOTE, OFFICE, second_text, state_of
from .desk_rooms import DeskRoom, files_of
from .offices import LOAD_KEY, LOAD_MONTH
from .ran import Ran, run
from .second_machines import led_away

OTHER = 65534
"""The number of a user who isn't root."""

as_root = pytest.mark.skipif(os.geteuid() != 0, reason="only root acts in folders of other users")

ATTACK = """
import os, sys, time
home, victim, told = sys.argv[1:]
os.setgroups([]); os.setgid(65534); os.setuid(65534)
open(told, "w").close()
taken, seen, pause = set(), {}, float(os.environ["PAUSE"])
while True:
    # each name that root makes in this user's folder is taken away a while later, and leads to a file of root's then
    for name in os.listdir(home):
        if name in taken or not name.startswith((".cpi-promote-", ".office.db", "office.db")):
            continue
        if time.monotonic() < seen.setdefault(name, time.monotonic() + pause):
            continue
        try:
            path = os.path.join(home, name)
            is_folder = os.path.isdir(path) and not os.path.islink(path)
            os.rename(path, os.path.join(home, "taken-%d" % len(taken)))
            taken.add(name)
            if is_folder:
                os.mkdir(path)
                os.symlink(victim, os.path.join(path, "office.db"))
            else:
                os.symlink(victim, path)
        except OSError:
            pass
    time.sleep(0.002 if pause else 0)
"""
"""A process of the office's user, as a broken application would run."""


@pytest.fixture
def dest(cpi: Cpi, office: Path, tmp_path: Path) -> Path:
    """A place with two copies."""
    folder = tmp_path / "dest"
    folder.mkdir()
    follower = Follower(office, Folder(folder))
    assert [follower.round(), follower.round()] == ["", ""]
    return folder


@pytest.fixture
def place() -> Iterator[Path]:
    """Where the office is to be, in a folder of another user whose path anybody can go: pytest closes its own."""
    with tempfile.TemporaryDirectory(prefix="cpi-test-") as made:
        os.chmod(made, 0o755)
        home = Path(made) / "second"
        home.mkdir()
        if os.geteuid() == 0:
            os.chown(home, OTHER, OTHER)
        yield home / OFFICE


def promoted(cpi: Cpi, dest: Path, place: Path, *words: object) -> Ran:
    return run(cpi, "promote", dest, "--office", place, *words)


@contextlib.contextmanager
def attacked(home: Path, victim: Path, pause: float) -> Iterator[None]:
    """Meanwhile a process of the folder's owner takes each new name away."""
    told = home / "begun"
    words = [sys.executable, "-c", ATTACK, str(home), str(victim), str(told)]
    with subprocess.Popen(words, env={**os.environ, "PAUSE": str(pause)}) as process:
        try:
            until = time.monotonic() + 60
            while not told.exists():
                assert time.monotonic() < until and process.poll() is None
                time.sleep(0.01)
            yield
            assert process.poll() is None, "the attack ended by itself"
        finally:
            process.kill()


def owners(folder: Path) -> dict[str, int]:
    """Whose each file of a folder is, links themselves."""
    return {path.name: path.lstat().st_uid for path in folder.rglob("*")}


@as_root
@pytest.mark.parametrize("where", ["beside", "another-disk"])
@pytest.mark.parametrize("pause", [0.0, 0.1, 0.5])
def test_no_file_of_roots_is_given_away(
    pause: float, where: str, cpi: Cpi, dest: Path, place: Path, tmp_path: Path, monkeypatch: pytest.MonkeyPatch
) -> None:
    """The owner of the office's folder takes away what root makes there, and puts a link in its place."""
    if where == "another-disk":
        shared = Path("/dev/shm")
        if not shared.is_dir() or shared.stat().st_dev == tmp_path.stat().st_dev:
            pytest.skip("there is no other file system")
        monkeypatch.setattr(promoting, "_place_of_room", lambda _: shared)
    victim = tmp_path / "victim"
    victim.write_text("root's")
    victim.chmod(0o600)
    with attacked(place.parent, victim, pause):
        ran = promoted(cpi, dest, place)
    assert ran.status in (0, 1) and ran.err.count("\n") == ran.status
    known = victim.stat()
    assert (known.st_uid, known.st_mode & 0o777, victim.read_text()) == (0, 0o600, "root's")
    # (what is in the folder belongs to its owner, and nothing is left elsewhere)
    assert set(owners(place.parent).values()) <= {OTHER}
    left = [path.name for folder in (place.parent.parent, Path("/dev/shm")) for path in folder.glob(".cpi-promote-*")]
    assert left == []


@as_root
def test_an_office_that_is_put_aside_goes_nowhere_else(cpi: Cpi, dest: Path, place: Path, tmp_path: Path) -> None:
    """Its owner takes away the folder to which it is put aside, too."""
    elsewhere = tmp_path / "elsewhere"
    elsewhere.mkdir()
    place.write_bytes(b"the file of before")
    mark_beside(place).write_text("another machine was promoted\n")
    for name in (place, mark_beside(place)):
        os.chown(name, OTHER, OTHER)
    with attacked(place.parent, elsewhere, 0.0):
        promoted(cpi, dest, place, "--replace")
    assert owners(elsewhere) == {} and elsewhere.stat().st_uid == 0


@as_root
def test_the_office_belongs_to_the_folders_owner_as_before(cpi: Cpi, dest: Path, place: Path) -> None:
    for _ in range(2):
        ran = promoted(cpi, dest, place, "--replace", "--again")
        assert (ran.status, ran.err) == (0, "")
        known = place.stat()
        assert (known.st_uid, known.st_gid, known.st_mode & 0o777) == (OTHER, OTHER, 0o600)
    # (what was at its place is root's to look after)
    (aside,) = [path for path in place.parent.iterdir() if path.is_dir()]
    assert (aside.stat().st_uid, aside.stat().st_mode & 0o777) == (0, 0o700)
    assert {path.name for path in aside.iterdir()} >= {OFFICE}
    assert (dest / MARK).stat().st_mode & 0o777 == 0o644


@pytest.mark.parametrize("how", ["link", "pipe", "folder", "link-of-log"])
def test_a_copy_of_other_things_than_files_is_not_read(
    how: str, cpi: Cpi, office: Path, dest: Path, tmp_path: Path
) -> None:
    """The machine that carries may have been taken: it leads to a file of this one, or lets root wait for ever."""
    home, copy = tmp_path / "home", dest / NAMES[1]
    home.mkdir()
    secret = tmp_path / "secret"
    secret.write_bytes((copy / OFFICE).read_bytes())
    name = copy / (LOG if how == "link-of-log" else OFFICE)
    name.unlink()
    if how == "pipe":
        os.mkfifo(name)
    elif how == "folder":
        name.mkdir()
    else:
        name.symlink_to(secret)
    ran = promoted(cpi, dest, home / OFFICE)
    assert (ran.status, ran.out, ran.err.count("\n")) == (1, "", 1)
    fault = (
        f"{copy} isn't whole, and nothing was promoted: {name}: it isn't a plain file (--copy copy-1 takes the one of "
    )
    assert ran.err.startswith(f"cpi-tools promote: {fault}")
    assert [*home.iterdir()] == [] and not (dest / MARK).exists()
    # a note like that counts as none, so the other copy is the newest
    (copy / NOTE).unlink()
    os.mkfifo(copy / NOTE)
    assert state_of(dest).newest() == NAMES[0]
    assert promoted(cpi, dest, home / OFFICE).status == 0


# ---- a second time


def test_a_copy_is_promoted_once_unless_it_is_said(cpi: Cpi, dest: Path, tmp_path: Path) -> None:
    """The office that was promoted has prices by then, and the older copy would take its place."""
    home = tmp_path / "home"
    home.mkdir()
    place = home / OFFICE
    assert promoted(cpi, dest, place).status == 0
    promotion = state_of(dest).promotion
    assert promotion and promotion.machine == socket.gethostname()
    assert cpi.replay([f"60,{LOAD_KEY},quote,1,{LOAD_MONTH},price,5"], db=place) == [{"receipt": 1}]
    before = {path.name: path.read_bytes() for path in home.iterdir()}
    for where in (place, tmp_path / "another.db"):
        ran = promoted(cpi, dest, where, "--replace")
        assert (ran.status, ran.out, ran.err) == (
            1,
            "",
            f"cpi-tools promote: {dest}: {promotion.machine} was promoted {second_text(promotion.promoted)} with the copy"
            f" of {second_text(promotion.copied)} (--again promotes a copy once more)\n",
        )
    assert {path.name: path.read_bytes() for path in home.iterdir()} == before
    assert not (tmp_path / "another.db").exists() and state_of(dest).promotion == promotion
    ran = promoted(cpi, dest, place, "--replace", "--again")
    assert (ran.status, ran.err) == (0, "")
    (aside,) = [path for path in home.iterdir() if path.is_dir()]
    assert {path.name: path.read_bytes() for path in aside.iterdir()} == before


def test_a_mark_of_an_earlier_version_counts(cpi: Cpi, dest: Path, tmp_path: Path) -> None:
    (dest / MARK).write_text('{"machine": "second", "promoted": 1800000000, "copied": 1799999990}\n')
    ran = promoted(cpi, dest, tmp_path / "home.db")
    assert (
        ran.status == 1
        and f"{dest}: second was promoted 2027-01-15 08:00:00 UTC with the copy of 2027-01-15" in ran.err
    )


def test_an_office_that_took_prices_since_is_put_aside_only_if_that_is_said(
    cpi: Cpi, office: Path, dest: Path, tmp_path: Path
) -> None:
    """Without the mark of a promotion, too: somebody removed it, or carried the copies here."""
    home = tmp_path / "home"
    home.mkdir()
    place = home / OFFICE
    place.write_bytes(office.read_bytes())
    # the same prices as in the copy: nothing is lost
    assert promoted(cpi, dest, place, "--replace").status == 0
    (dest / MARK).unlink()
    (receipt,) = (it["receipt"] for it in cpi.replay([f"60,{LOAD_KEY},quote,1,{LOAD_MONTH},price,5"], db=place))
    ran = promoted(cpi, dest, place, "--replace")
    copied = second_text(max(note.copied for note in state_of(dest).notes.values()))
    assert (ran.status, ran.out) == (1, "")
    assert re.fullmatch(
        rf"cpi-tools promote: {re.escape(str(place))} took prices since the copy of {copied}: receipt {receipt} of"
        r" collector \d+ isn't in that copy \(--again puts it aside nevertheless\)\n",
        ran.err,
    )
    assert not (dest / MARK).exists()
    # a former office has a mark beside it: its prices were sent again to the one that was promoted
    mark_beside(place).write_text("second was promoted\n")
    assert promoted(cpi, dest, place, "--replace").status == 0
    assert json.loads((dest / MARK).read_text())["machine"] == socket.gethostname()


@pytest.mark.parametrize("how", ["link", "pipe", "folder", "endless"])
def test_a_log_of_the_desk_that_is_no_file_holds_no_promotion_up(
    how: str, cpi: Cpi, office: Path, tmp_path: Path
) -> None:
    """The office's user has put it there, whose folder it is: root waits for no pipe, and reads no other file."""
    dest, there = tmp_path / "with-desk", tmp_path / "there"
    dest.mkdir()
    there.mkdir()
    desk = DeskRoom(tmp_path / "cpi-desk")
    follower = Follower(office, Folder(dest), desk=desk.path)
    assert follower.round() == "" and follower.desk_round()
    (there / "desk.log").write_bytes(desk.files["desk.log"])
    if how == "endless":
        (there / "desk.log").unlink()
        (there / "desk.log").symlink_to("/dev/zero")
    else:
        led_away(there / "desk.log", tmp_path / "outside", how)
    (tmp_path / "second").mkdir()
    ran = run(cpi, "promote", dest, "--office", tmp_path / "second/office.db", "--desk", there)
    assert (ran.status, ran.err) == (0, "") and f"{there}: the desk's folder is that of 20" in ran.out
    assert {name: content for name, content in files_of(there).items() if "before" not in name} == desk.files
    (aside,) = [path for path in there.iterdir() if path.name.startswith("before-")]
    assert os.path.lexists(aside / "desk.log")


def test_a_mark_that_is_a_pipe_holds_no_restore_up(cpi: Cpi, office: Path, tmp_path: Path) -> None:
    backup, to = tmp_path / "backup.db", tmp_path / "to.db"
    assert run(cpi, "backup", office, backup).status == 0
    os.mkfifo(mark_beside(to))
    ran = run(cpi, "restore", backup, "--office", to, "--yes")
    assert ran.status == 1 and f"{mark_beside(to)}: another machine was promoted: " in ran.err

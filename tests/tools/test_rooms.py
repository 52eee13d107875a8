"""`cpi_tools.office.folders`: the folders of tools go, also those that a killed tool left."""

from __future__ import annotations

import os
import signal
import subprocess
import time
from pathlib import Path

from cpi_tools.office.program import Cpi
from cpi_tools.office.folders import MARK, YOUNG, new_room, stays
from lib.places import ROOT


def aged(room: Path) -> Path:
    """A room, as if it had been made some time ago."""
    long_ago = time.time() - YOUNG - 1
    os.utime(room / MARK, (long_ago, long_ago))
    return room


def left(folder: Path, name: str) -> Path:
    """A room that a killed tool left a while ago, with a file in it."""
    room = folder / name
    (room / "within").mkdir(parents=True)
    (room / MARK).touch()
    (room / "within/office.db").touch()
    return aged(room)


def test_a_room_goes_at_the_end(tmp_path: Path) -> None:
    with new_room("cpi-", tmp_path) as room:
        assert room.parent == tmp_path and room.stat().st_mode & 0o777 == 0o700
        (room / "office.db").touch()
    assert list(tmp_path.iterdir()) == []


def test_a_room_that_was_left_goes_when_the_next_one_is_made(tmp_path: Path) -> None:
    gone, other = left(tmp_path, "cpi-1"), left(tmp_path, "other-1")
    with new_room("cpi-", tmp_path) as room:
        assert sorted(tmp_path.iterdir()) == sorted([room, other])
    assert not gone.exists()


def test_what_is_no_room_that_was_left_stays(tmp_path: Path) -> None:
    """A folder of somebody's own, a room that a tool uses, one that is too young to be locked, and one that is to stay."""
    own, young = tmp_path / "cpi-own", left(tmp_path, "cpi-young")
    own.mkdir()
    (young / MARK).touch()
    (tmp_path / "cpi-link").symlink_to(left(tmp_path, "linked"))
    with new_room("cpi-", tmp_path) as used, new_room("cpi-", tmp_path) as kept:
        stays(kept)
        with new_room("cpi-", tmp_path) as room:
            assert aged(used) != room
        with new_room("cpi-", tmp_path):
            assert {own, young, used, kept, tmp_path / "linked"} <= set(tmp_path.iterdir())
            assert (tmp_path / "linked/within/office.db").exists()


def test_the_next_backup_removes_what_a_killed_one_left(cpi: Cpi, office: Path, tmp_path: Path) -> None:
    slow, to = tmp_path / "slow", tmp_path / "backup/office-1.db"
    slow.write_text('#!/bin/sh\ntouch "$0.begun"\nexec sleep 60\n', encoding="utf-8")
    slow.chmod(0o755)
    command = [str(ROOT / "cpi-tools"), "backup", str(office), str(to), "--program"]
    with subprocess.Popen([*command, str(slow)], stderr=subprocess.PIPE, start_new_session=True) as process:
        deadline = time.monotonic() + 120
        while not (tmp_path / "slow.begun").exists() and time.monotonic() < deadline:
            time.sleep(0.01)
        os.killpg(process.pid, signal.SIGKILL)
    (room,) = to.parent.iterdir()
    assert (aged(room) / "office.db").exists()
    subprocess.run([*command, str(cpi.path)], check=True, capture_output=True)
    assert sorted(each.name for each in to.parent.iterdir()) == [to.name, f"{to.name}.sha256"]

"""What `cpi-tools promote` refuses, seldom: nothing is promoted then, and the line says why."""

from __future__ import annotations

import contextlib
import shutil
import sqlite3
from pathlib import Path

from cpi_tools.guard.follow import Follower
from cpi_tools.guard.copies.places import Folder
from cpi_tools.office.program import Cpi
from cpi_tools.guard.copies.second_copies import MARK, NAMES, NOTE, state_of
from .test_promote import dest, left_in, place, promoted

__all__ = ["dest", "place"]


def refused(cpi: Cpi, dest: Path, to: Path, told: str, *words: object) -> str:
    """What else is told of a copy that isn't promoted; the place of copies has no mark."""
    ran = promoted(cpi, dest, to, *words)
    *others, last = ran.err.splitlines()
    assert (ran.status, ran.out, last) == (1, "", f"cpi-tools promote: {told}")
    assert not (dest / MARK).exists() and not to.exists()
    return "\n".join(others)


def test_a_place_that_isn_t_there(cpi: Cpi, dest: Path, tmp_path: Path) -> None:
    to = tmp_path / "none/office.db"
    told = f"{to.parent} is no folder: install the package of cpi first, or name another place (--office)"
    assert refused(cpi, dest, to, told) == "" and not to.parent.exists()


def test_a_place_that_can_t_be_written(cpi: Cpi, dest: Path) -> None:
    ran = promoted(cpi, dest, Path("/proc/office.db"))
    assert (ran.status, ran.out, ran.err.count("\n")) == (1, "", 1) and "/proc/.cpi-promote-" in ran.err
    assert not (dest / MARK).exists()


def test_a_desk_that_is_a_file(cpi: Cpi, dest: Path, place: Path, tmp_path: Path) -> None:
    (tmp_path / "desk").write_text("a file")
    assert refused(cpi, dest, place, f"{tmp_path / 'desk'}: Not a directory", "--desk", tmp_path / "desk") == ""
    assert (tmp_path / "desk").read_text() == "a file"


def test_a_copy_whose_note_is_gone(cpi: Cpi, dest: Path, place: Path) -> None:
    """A round was stopped at it. The other one is whole."""
    (dest / NAMES[1] / NOTE).unlink()
    told = f"{dest / NAMES[1]} has no note that is whole, so it isn't a whole copy"
    assert refused(cpi, dest, place, told, "--copy", NAMES[1]) == ""
    assert promoted(cpi, dest, place).status == 0 and place.exists()


def test_each_fault_of_a_drill_is_told(cpi: Cpi, office: Path, tmp_path: Path, place: Path) -> None:
    """The first one is in the line that says that nothing was promoted."""
    with contextlib.closing(sqlite3.connect(office)) as link:
        months = link.execute("SELECT DISTINCT month FROM level_2 ORDER BY month").fetchall()[-2:]
        for month in months:
            link.execute("UPDATE level_2 SET chained = chained + 1 WHERE month = ?", month)
        link.commit()
        link.execute("PRAGMA wal_checkpoint(TRUNCATE)")
    shutil.rmtree(tmp_path / "dest", ignore_errors=True)
    (tmp_path / "dest").mkdir()
    assert Follower(office, Folder(tmp_path / "dest")).round() == ""
    ran = promoted(cpi, tmp_path / "dest", place)
    *others, last = ran.err.splitlines()
    assert ran.status == 1 and ran.out == "" and left_in(place.parent) == []
    assert f"{tmp_path}/dest/{NAMES[0]} isn't a whole office, and nothing was promoted: " in last
    assert "other than its quotes give" in last and any("other than its quotes give" in each for each in others)
    assert state_of(tmp_path / "dest").promotion is None


def test_replacing_nothing_puts_nothing_aside(cpi: Cpi, dest: Path, place: Path) -> None:
    ran = promoted(cpi, dest, place, "--replace")
    assert ran.status == 0 and "what was at that place before" not in ran.out
    assert [name for name in left_in(place.parent) if "before" in name] == []

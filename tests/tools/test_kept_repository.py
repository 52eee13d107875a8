"""The repository of generations: it is checked as a whole, what a killed run left there holds nobody up, and what another
program has locked is waited for."""

from __future__ import annotations

import fcntl
import json
import os
import shutil
import signal
import subprocess
from collections.abc import Callable
from pathlib import Path
from typing import Any

import pytest

from cpi_tools.guard.copies import borg
from cpi_tools.guard import keep as keeping
from cpi_tools.guard.copies.borg import HOST, LOCKED, ROSTER, Repository, Start, this_start
from cpi_tools.guard.copies.generations import LastDrill, OpenDesk, last_drill_of, repository_of, write_last_drill
from cpi_tools.office.folders import hold_folder
from cpi_tools.office.program import Cpi
from cpi_tools.text.terminal import Fault
from .generations import made_place
from .ran import run

NOW = 1_800_000_000
"""2027-01-15 08:00 UTC."""

DAY = 86_400


@pytest.fixture
def repository(tmp_path: Path) -> Repository:
    """A repository with an archive."""
    (tmp_path / "keep").mkdir()
    (tmp_path / "file").write_bytes(os.urandom(100_000))
    made = repository_of(tmp_path / "keep")
    made.make()
    made.put("drilled-1", NOW, tmp_path, ["file"])
    return made


# ---- its check


class Checked:
    """A repository whose checks have these answers; a fault is raised."""

    def __init__(self, *answers: str):
        self.answers, self.asked = [*answers], list[int]()

    def damage(self, seconds: int) -> str:
        self.asked.append(seconds)
        answer = self.answers.pop(0)
        if answer.startswith("fault"):
            raise Fault(answer)
        return answer


def test_it_is_checked_once_a_week_and_each_day_while_it_is_not_well(tmp_path: Path) -> None:
    checks, last = Checked("", "a segment is bad", "", "fault: it wasn't done", "", ""), LastDrill()

    def checked_at(moment: int, is_made: bool = False) -> tuple[int, int, str, str]:
        """The moments of the last good check and the last one, what it found, and what went wrong."""
        nonlocal last
        faults = list[str]()
        opened = keeping.Opened([], OpenDesk(tmp_path, None, {}), last, moment, True)
        known: dict[str, Any] = keeping._check_repository(checks, opened, faults, is_made)  # type: ignore[arg-type]
        last = last._replace(**known)
        return last.checked, last.tried, last.damaged, "".join(faults)

    # (what was made now was drilled as a whole)
    assert checked_at(NOW, is_made=True) == (NOW, NOW, "", "") and not checks.asked
    assert checked_at(NOW + 7 * DAY - 1) == (NOW, NOW, "", "") and not checks.asked
    well = NOW + 7 * DAY
    assert checked_at(well) == (well, well, "", "") and checks.asked == [keeping.CHECK_SECONDS]
    bad = well + 7 * DAY
    assert checked_at(bad) == (well, bad, "a segment is bad", "")
    assert checked_at(bad + DAY - 1) == (well, bad, "a segment is bad", "") and len(checks.asked) == 2
    mended = bad + DAY
    assert checked_at(mended) == (mended, mended, "", "")
    # one that isn't done is said, and begun once more the day after
    late = mended + 7 * DAY
    assert checked_at(late) == (mended, late, "", "fault: it wasn't done")
    assert checked_at(late + DAY - 1) == (mended, late, "", "") and len(checks.asked) == 4
    assert checked_at(late + DAY) == (late + DAY, late + DAY, "", "")
    # (a clock that was ahead doesn't put it off for years)
    assert checked_at(NOW) == (NOW, NOW, "", "") and checks.answers == []


def test_a_damaged_one_is_said_and_counts_nothing_less(
    cpi: Cpi, office: Path, tmp_path: Path, monkeypatch: pytest.MonkeyPatch
) -> None:
    place = made_place(office, tmp_path)
    assert run(cpi, "keep", *place).status == 0
    last = last_drill_of(place.dest)
    assert last and last.checked == last.tried > 0 and not last.damaged
    write_last_drill(place.dest, last._replace(checked=1, tried=1))
    monkeypatch.setattr(Repository, "damage", lambda *_: "a segment is bad")
    ran = run(cpi, "keep", *place)
    assert (ran.status, ran.err) == (
        1,
        f"cpi-tools keep: {place.folder}: the repository is damaged: a segment is bad\n",
    )
    after = last_drill_of(place.dest)
    assert after and (after.checked, after.damaged, after.generation) == (1, "a segment is bad", last.generation)
    assert after.tried >= last.tried


def changed(segment: Path) -> None:
    """A disk has other bytes."""
    content = bytearray(segment.read_bytes())
    content[10_000:10_100] = bytes(100)
    segment.write_bytes(content)


DAMAGES: dict[str, Callable[[Path], object]] = {"changed": changed, "gone": Path.unlink}


@pytest.mark.parametrize("how", DAMAGES)
def test_what_a_disk_lost_is_found(how: str, repository: Repository) -> None:
    """Its index has it still."""
    assert repository.damage(600) == ""
    segments = [path for path in (repository.path / "data").rglob("*") if path.is_file()]
    DAMAGES[how](max(segments, key=lambda path: path.stat().st_size))
    assert repository.damage(600) != ""


def test_a_check_that_takes_long_is_ended(repository: Repository) -> None:
    """What it had locked is free again."""
    with pytest.raises(Fault, match="its check wasn't done after 0 seconds"):
        repository.damage(0)
    assert repository.names() == ["drilled-1"]


# ---- locks


HERE = this_start()
OF_NOW, OF_BEFORE = HERE.host, HERE._replace(kernel="before").host
"""How this start of the machine is called, and an earlier one."""

OTHERS = {
    "another machine": HERE._replace(machine="another", kernel="before").host,
    "a container on this kernel": HERE._replace(space="1").host,
    "one who can't see the kernel's": HERE._replace(kernel="").host,
    "an earlier version": f"{HOST}before-1",
}
"""Who may have it still, though this can't be known here."""

WHO: dict[str, tuple[list[str], list[list[object]], bool]] = {
    "nobody": ([], [], False),
    "alone": ([f"{OF_BEFORE}.{os.getpid()}-0"], [], True),
    "with others": ([], [[OF_BEFORE, os.getpid(), 0]], True),
    "both": ([f"{OF_BEFORE}.1-0"], [[HERE._replace(kernel="earlier").host, 1, 0]], True),
    "of this start": ([f"{OF_NOW}.{os.getpid()}-0"], [], False),
    "somebody else": ([f"somebody@1.{os.getpid()}-0"], [], False),
    "somebody else too": ([f"{OF_BEFORE}.1-0"], [["somebody@1", 1, 0]], False),
    "no name": (["x"], [], False),
    "no row": ([], [[]], False),
    **{name: ([f"{host}.1-0"], [], False) for name, host in OTHERS.items()},
}
"""Who has a repository alone, who has it with others, and whether these locks go."""


@pytest.mark.parametrize("name", WHO)
@pytest.mark.parametrize("where", ["repository", "borg/.cache/borg/17a"])
def test_only_locks_of_an_earlier_start_go(
    where: str, name: str, tmp_path: Path, monkeypatch: pytest.MonkeyPatch
) -> None:
    """Its processes are gone, though another one may have the number of this."""
    ran = list[str]()

    def run_borg(self: Repository, *words: str, **_: object) -> bytes:
        ran.append(words[0])
        return b""

    monkeypatch.setattr(Repository, "_run", run_borg)
    alone, others, is_gone = WHO[name]
    for folder in (tmp_path / "repository", tmp_path / "borg/.cache/borg"):
        folder.mkdir(parents=True)
    (tmp_path / "borg/.cache/borg/CACHEDIR.TAG").touch()
    (tmp_path / where).mkdir(exist_ok=True)
    if alone:
        (tmp_path / where / LOCKED).mkdir()
    for each in alone:
        (tmp_path / where / LOCKED / each).touch()
    if others:
        (tmp_path / where / ROSTER).write_text(json.dumps({"exclusive": [], "shared": others}))
    repository_of(tmp_path)._free()
    assert ran == (["break-lock"] if is_gone else [])


@pytest.mark.parametrize("text", ["", "[", "[1]", '{"shared": 1}', "[" * 100_000])
def test_a_roster_that_is_none_is_nobody_s_that_is_known(text: str, tmp_path: Path) -> None:
    (tmp_path / "repository").mkdir()
    (tmp_path / "repository" / ROSTER).write_text(text)
    repository_of(tmp_path)._free()
    assert (tmp_path / "repository" / ROSTER).exists()


def test_the_lock_of_a_machine_that_stopped_holds_nobody_up(
    repository: Repository, tmp_path: Path, monkeypatch: pytest.MonkeyPatch
) -> None:
    monkeypatch.setattr(borg, "LOCK_WAIT", 1)
    (repository.path / LOCKED).mkdir()
    (repository.path / LOCKED / f"{OF_BEFORE}.{os.getpid()}-0").touch()
    assert repository_of(tmp_path / "keep").names() == ["drilled-1"]


def test_what_frees_a_lock_whose_owner_nobody_knows_is_said(
    repository: Repository, tmp_path: Path, monkeypatch: pytest.MonkeyPatch
) -> None:
    """An earlier version named each run in another way, and its machine lost its power."""
    monkeypatch.setattr(borg, "LOCK_WAIT", 1)
    (repository.path / LOCKED).mkdir()
    (repository.path / LOCKED / "second.example@190285375488313.812-0").touch()
    with pytest.raises(Fault, match="Is a run of cpi-keep.service not done?") as fault:
        repository_of(tmp_path / "keep").names()
    _, begin, words = str(fault.value).partition(" If none runs: runuser -u ")
    assert begin
    subprocess.run(words.split()[2:], check=True, capture_output=True)
    assert repository_of(tmp_path / "keep").names() == ["drilled-1"]


def test_a_borg_that_was_killed_holds_nobody_up(
    repository: Repository, tmp_path: Path, monkeypatch: pytest.MonkeyPatch
) -> None:
    """Where there is no network, which says who this host is otherwise, as in the unit."""
    monkeypatch.setattr(borg, "LOCK_WAIT", 20)
    words = repository._words("with-lock", str(repository.path), "sh", "-c", "echo locked; sleep 1000")
    alone = ["unshare", "--net"] if os.geteuid() == 0 and shutil.which("unshare") else []
    how: dict[str, Any] = {**repository._how(), "stdout": subprocess.PIPE, "start_new_session": True}
    with subprocess.Popen([*alone, *words], **how) as holder:
        assert holder.stdout and holder.stdout.readline() == b"locked\n"
        os.killpg(holder.pid, signal.SIGKILL)
    assert (repository.path / LOCKED).exists()
    assert repository_of(tmp_path / "keep").names() == ["drilled-1"]


def test_who_can_not_see_its_own_start_takes_no_lock_away() -> None:
    """/proc may be hidden, and two machines can have one disk."""
    assert HERE.is_after(OF_BEFORE)
    for unseen in (HERE._replace(kernel=""), HERE._replace(machine="")):
        assert not unseen.is_after(OF_BEFORE)
        assert not unseen.is_after(unseen._replace(kernel="before").host)


def test_a_lock_that_another_one_takes_away_meanwhile_is_left_to_that_one(
    repository: Repository, tmp_path: Path
) -> None:
    """It is locked anew then, before this one would have broken it."""
    (repository.path / LOCKED).mkdir()
    (repository.path / LOCKED / f"{OF_BEFORE}.1-0").touch()
    with hold_folder(repository.path) as other:
        fcntl.flock(other.number, fcntl.LOCK_EX)
        repository_of(tmp_path / "keep")._free()
        assert (repository.path / LOCKED).exists()
    repository_of(tmp_path / "keep")._free()
    assert not (repository.path / LOCKED).exists()


def test_a_start_of_the_machine_has_a_name_of_its_own() -> None:
    """It is the same for root and for a user from whom processes of others are hidden."""
    assert this_start() == HERE and "" not in HERE and "/" not in HERE.host
    assert Start(*HERE.host.removeprefix(HOST).rsplit("_", 2)) == HERE

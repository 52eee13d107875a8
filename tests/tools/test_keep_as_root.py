"""Generations under a user of their own: the user of the copies doesn't read or remove them, their user doesn't reach the
copies, and root gives up being root before it does anything with what was carried."""

from __future__ import annotations

import json
import os
import signal
import subprocess
import tempfile
from collections.abc import Callable, Iterator
from pathlib import Path
from typing import Any

import pytest

from cpi_tools.office.access import User, done_as, this_user, user_of
from cpi_tools.guard.copies.generations import PASSED, last_drill_of
from cpi_tools.office.program import Cpi
from cpi_tools.guard.copies.second_copies import DRILLED, MARK, NAMES, OFFICE
from cpi_tools.text.terminal import Fault
from lib.places import ROOT
from .accidents import ANSWERED, WANTED, prices_in, priced
from .generations import Place, Users, as_user, given, made_place, owners_below, two_users
from .ran import run

OTHER = 65534
"""The number of a user who isn't root."""

as_root = pytest.mark.skipif(os.geteuid() != 0, reason="only root acts as other users")


@pytest.fixture(scope="module")
def users() -> Iterator[Users]:
    """Two users of this machine."""
    with two_users() as made:
        yield made


@pytest.fixture
def place(cpi: Cpi, office: Path, users: Users) -> Iterator[Place]:
    """A second machine as the guide sets it up, at a path that anybody can go; the copies have 40 prices."""
    with tempfile.TemporaryDirectory(prefix="cpi-test-") as room:
        os.chmod(room, 0o755)
        priced(cpi, office, 1, ANSWERED)
        made = made_place(office, Path(room))
        given(made, users)
        if as_user(users.keeper, f"test -x {cpi.path} && test -r {ROOT}/tools/cpi_tools/guard/keep.py").returncode:
            pytest.skip("another user can't read the repository, or run the program")
        yield made


@as_root
def test_only_its_user_reaches_what_was_kept(
    cpi: Cpi, office: Path, place: Place, users: Users, tmp_path: Path
) -> None:
    ran = run(cpi, "keep", *place)
    assert (ran.status, ran.err) == (0, "")
    last = last_drill_of(place.dest)
    assert last and last.generation
    assert owners_below(place.folder) == {users.keeper.number}
    assert ((place.dest / DRILLED).stat().st_uid, (place.dest / DRILLED).stat().st_mode & 0o777) == (0, 0o644)
    # the user of the copies reads the note, as the follower's key does, and nothing else
    assert as_user(users.copies, f"cat {place.dest}/{DRILLED}").stdout == (place.dest / DRILLED).read_text()
    for command in (f"ls {place.folder}", f"rm -rf {place.folder}", f"echo x > {place.folder}/x",
                    f"cat {place.folder}/repository/config", f"rm -f {place.dest}/{DRILLED}",
                    f"echo x > {place.dest}/{DRILLED}", f"mv {place.folder} {place.folder}-away",
                    f"BORG_BASE_DIR=/tmp borg delete {place.folder}/repository"):  # fmt: skip
        assert as_user(users.copies, command).returncode, command
    # that of the generations doesn't reach the copies, or the note
    for command in (
        f"ls {place.dest}/{NAMES[0]}",
        f"cat {place.dest}/{NAMES[0]}/{OFFICE}",
        f"cat {place.dest}/{DRILLED}",
    ):
        assert as_user(users.keeper, command).returncode, command
    # whoever is the user of the copies removes both: the generation has the prices
    assert as_user(users.copies, f"rm -rf {place.dest}/copy-1/* {place.dest}/copy-2/*").returncode == 0
    to = tmp_path / "second.db"
    ran = run(cpi, "promote", place.dest, "--office", to, "--kept", place.folder, "--generation", last.generation)
    assert (ran.status, ran.err) == (0, "")
    assert f"{to}: generation {last.generation} of " in ran.out and to.stat().st_uid == 0
    assert prices_in(cpi, to) == WANTED
    # root ran borg as the user of the generations, so nothing there is root's
    assert owners_below(place.folder) == {users.keeper.number} and (place.dest / MARK).exists()


@as_root
def test_the_user_of_the_copies_leads_root_nowhere(cpi: Cpi, place: Place, users: Users) -> None:
    """It puts links to what only root reads into the place of the newest copy: the other one is kept."""
    secret = place.folder.parent / "secret"
    secret.write_text("root's")
    secret.chmod(0o600)
    for what in (OFFICE, f"{OFFICE}-wal", f"{OFFICE}.json"):
        assert as_user(users.copies, f"ln -sf {secret} {place.dest}/copy-2/{what}").returncode == 0
    assert run(cpi, "keep", *place).status == 0
    assert as_user(users.copies, f"rm -rf {place.dest}/copy-1/* {place.dest}/copy-2/*").returncode == 0
    assert as_user(users.copies, f"ln -s {secret} {place.dest}/copy-2/{OFFICE}").returncode == 0
    ran = run(cpi, "keep", *place)
    assert (ran.status, ran.out, ran.err.count("\n")) == (1, "", 1)
    assert f"{place.dest}/copy-2/{OFFICE}: it isn't a plain file" in ran.err
    last = last_drill_of(place.dest)
    assert last and last.fault in ran.err and "root's" not in (place.dest / DRILLED).read_text()


@as_root
def test_the_unit_may_do_what_the_tool_does(cpi: Cpi, place: Place, users: Users) -> None:
    """With the capabilities of cpi-keep.service, and no others."""
    unit = (ROOT / "ops/cpi-keep.service").read_text()
    (line,) = [each for each in unit.splitlines() if each.startswith("CapabilityBoundingSet=")]
    kept = ",".join(f"+{name.lower().removeprefix('cap_')}" for name in line.partition("=")[2].split())
    words = ["setpriv", "--no-new-privs", f"--bounding-set=-all,{kept}", "--inh-caps=-all"]
    words += [f"{ROOT}/cpi-tools", "keep", *map(str, place), "--program", str(cpi.path)]
    ran = subprocess.run(words, cwd="/", capture_output=True, text=True, check=False)
    assert (ran.returncode, ran.stderr) == (0, "") and " passed its drill" in ran.stdout
    assert owners_below(place.folder) == {users.keeper.number}


# ---- a process that can't become root again


def may(act: Callable[[], object]) -> bool:
    """Whether this process may do something."""
    try:
        act()
    except PermissionError:
        return False
    return True


@as_root
def test_who_gives_up_being_root_stays_another_user(tmp_path: Path) -> None:
    secret = tmp_path / "secret"
    secret.write_text("root's")
    opened = os.open(secret, os.O_RDONLY)

    def work() -> dict[str, Any]:
        ids = [*os.getresuid(), *os.getresgid(), *os.getgroups()]
        tried = {"root": lambda: os.setuid(0), "group": lambda: os.setgid(0), "file": lambda: os.chdir("/root")}
        return {
            "ids": ids,
            "may": [name for name, act in tried.items() if may(act)],
            "read": os.read(opened, 9).decode(),
        }

    answer = done_as(user_of(OTHER), work)
    os.close(opened)
    assert answer == {"ids": [OTHER] * 3 + [user_of(OTHER).group] * 3, "may": [], "read": "root's"}
    assert os.geteuid() == 0


@as_root
def test_a_fault_of_the_other_user_comes_back_as_it_is(capfd: pytest.CaptureFixture[str]) -> None:
    def refused() -> dict[str, Any]:
        raise Fault("it can't be done")

    def denied() -> dict[str, Any]:
        return {"names": os.listdir("/root")}

    def killed() -> dict[str, Any]:
        os.kill(os.getpid(), signal.SIGKILL)
        return {}

    def wrong() -> dict[str, Any]:
        raise RuntimeError("nobody thought of it")

    nobody = user_of(OTHER)
    for work, fault in ((refused, "^it can't be done$"), (denied, "^/root: Permission denied$"),
                       (killed, "ended with status -9, without an answer$"),
                       (wrong, "ended with status 1, without an answer$")):  # fmt: skip
        with pytest.raises(Fault, match=fault):
            done_as(nobody, work)
    assert "nobody thought of it" in capfd.readouterr().err


def test_only_root_acts_as_another_user(monkeypatch: pytest.MonkeyPatch) -> None:
    assert done_as(this_user(), lambda: {"a": 1}) == {"a": 1}
    monkeypatch.setattr(os, "geteuid", lambda: 1234)
    with pytest.raises(Fault, match="^only root or someone can do this, and this is user 1234$"):
        done_as(User("someone", 4321, 4321), lambda: {})


@as_root
def test_what_the_other_user_answers_is_looked_at(cpi: Cpi, place: Place, monkeypatch: pytest.MonkeyPatch) -> None:
    """That process reads what somebody carried, so it may be somebody else's by then."""
    answer = {
        "again": "",
        "generation": "../x",
        "is_new": True,
        "failed": "",
        "left": "",
        "passed": 1,
        "removed": [],
        "copied": 1,
        "desk": "",
        "checked": 1,
        "tried": 1,
        "damaged": "",
    }
    name = "2026-01-01-000000"
    lines = [{"generation": name, part: "a\nb"} for part in ("failed", "left", "desk", "damaged")]
    for change in ({}, {"generation": f"{PASSED}x"}, *lines):
        monkeypatch.setattr("cpi_tools.guard.keep._answer", lambda *_, change=change: {**answer, **change})
        ran = run(cpi, "keep", *place)
        assert (ran.status, ran.out) == (1, "") and "isn't of a generation" in ran.err
    last = json.loads((place.dest / DRILLED).read_text())
    assert last["generation"] == "" and "isn't of a generation" in last["fault"]
    # (a note with a moment that none has would be read by no later run)
    sums = {"file": [1, "x"], "log": [0, "y"]}
    wrong = {**answer, **sums, "generation": name, "checked": -1, "tried": 1 << 60}
    monkeypatch.setattr("cpi_tools.guard.keep._answer", lambda *_: wrong)
    assert run(cpi, "keep", *place).status == 0
    kept = last_drill_of(place.dest)
    assert kept and (kept.generation, kept.checked, kept.tried) == (name, 0, 0)

"""A copy on another machine that gets only its changed pages: it is whole after each round, whatever stops one."""

from __future__ import annotations

import json
import os
import random
import shutil
from collections.abc import Callable
from pathlib import Path

import pytest

from cpi_tools.guard.copies import places
from cpi_tools.guard.copies.carriers import CHANGES, NotFitting, Rsync, put_in
from cpi_tools.office.copying import log_beside
from cpi_tools.guard.drill import drill
from cpi_tools.guard.follow import Follower
from cpi_tools.guard.copies.mirrors import PAGE, Known
from cpi_tools.guard.copies.places import Elsewhere
from cpi_tools.office.program import Cpi
from cpi_tools.guard.copies.second_copies import NAMES, NOTE, OFFICE, RECEIVED, fault_of, state_of, write_promotion
from cpi_tools.text.terminal import Fault
from .loads import Quotes, faults_of
from .offices import TABLES
from .ran import run
from .second_machines import receiver


@pytest.fixture
def dest(tmp_path: Path) -> Path:
    """The place on the other machine."""
    for name in ("dest", "bin"):
        (tmp_path / name).mkdir()
    return tmp_path / "dest"


@pytest.fixture
def shell(dest: Path, tmp_path: Path) -> Callable[..., str]:
    """Writes what stands for ssh, with more that it does first; the words that run it."""
    if not shutil.which("rsync") or not shutil.which("rrsync"):
        pytest.skip("there is no rsync")

    def written(more: str = "") -> str:
        return receiver(tmp_path / "shell", dest, more, str(tmp_path / "bin"))

    return written


@pytest.fixture
def source(tmp_path: Path, monkeypatch: pytest.MonkeyPatch) -> Path:
    """A file and a log, which needn't be an office's: nobody looks at what they hold."""
    monkeypatch.setattr(places, "known_of", lambda *_: Known(None, None, ()))
    (tmp_path / "office.db").write_bytes(random.Random(3).randbytes(100 * PAGE))
    (tmp_path / "office.db-wal").write_bytes(random.Random(4).randbytes(2 * PAGE + 700))
    return tmp_path / "office.db"


@pytest.fixture
def place(shell: Callable[..., str], tmp_path: Path) -> Elsewhere:
    """The place as the follower has it."""
    return Elsewhere(Rsync("second", ".", shell()), tmp_path / "room")


@pytest.fixture
def carried(monkeypatch: pytest.MonkeyPatch) -> list[str]:
    """What each round carries from now on: `whole`, or the bytes of a file of changes."""
    found, carry, carry_changes = list[str](), Rsync.carry, Rsync.carry_changes

    def whole(self: Rsync, copy: Path, to: str, is_whole: bool) -> None:
        found.append("whole")
        carry(self, copy, to, is_whole)

    def changes(self: Rsync, path: Path) -> str:
        found.append(str(path.stat().st_size))
        return carry_changes(self, path)

    monkeypatch.setattr(Rsync, "carry", whole)
    monkeypatch.setattr(Rsync, "carry_changes", changes)
    return found


def newest(dest: Path) -> Path:
    """The file of the newest copy of a place, which has to be whole."""
    state = state_of(dest)
    name = state.newest()
    assert name and fault_of(dest / name / OFFICE, state.notes[name]) == ""
    return dest / name / OFFICE


def is_same(copy: Path, office: Path) -> bool:
    """Whether a copy has the bytes of an office's file and of its log."""
    return all(
        one.read_bytes() == it.read_bytes() for one, it in zip(*[(path, log_beside(path)) for path in (copy, office)])
    )


def turned(path: Path, page: int) -> None:
    """Another byte in a page of a file."""
    content = bytearray(path.read_bytes())
    content[page * PAGE + 9] ^= 1
    path.write_bytes(content)


# ---- rounds


def test_from_its_second_round_on_a_copy_gets_only_the_pages_that_changed(
    source: Path, dest: Path, place: Elsewhere, carried: list[str]
) -> None:
    follower = Follower(source, place)
    for number in range(6):
        for page in (number, 50 + number):
            turned(source, page)
        assert follower.round() == ""
        assert is_same(newest(dest), source) and not (dest / CHANGES).exists()
    assert carried[:2] == ["whole"] * 2
    # (two rounds of two pages, and the first line)
    assert [4 * PAGE < int(size) < 4 * PAGE + 3000 for size in carried[2:]] == [True] * 4
    modes = {path.stat().st_mode & 0o777 for path in dest.rglob("office.db*")}
    assert modes == {0o600}


def test_what_a_killed_round_left_is_compared_whatever_its_time(
    source: Path, dest: Path, shell: Callable[..., str], tmp_path: Path
) -> None:
    """A part of a log can have the size and the second of the whole one."""

    def begun() -> Follower:
        return Follower(source, Elsewhere(Rsync("second", ".", shell()), tmp_path / "room"))

    first = begun()
    assert [first.round(), first.round()] == ["", ""]
    moment = log_beside(tmp_path / "room/mirror" / OFFICE).stat().st_mtime_ns
    for name in NAMES:
        left = log_beside(dest / name / OFFICE)
        turned(left, 1)
        os.utime(left, ns=(moment, moment))
    second = begun()
    for _ in NAMES:
        assert second.round() == "" and is_same(newest(dest), source)


def test_files_that_grow_and_shrink(source: Path, dest: Path, place: Elsewhere, carried: list[str]) -> None:
    drawn, follower = random.Random(7), Follower(source, place)
    for _ in range(16):
        for path in (source, log_beside(source)):
            content = bytearray(path.read_bytes())
            if drawn.random() < 0.4:
                content = content[: drawn.randrange(1, len(content) + 1)]
            content += drawn.randbytes(drawn.randrange(6 * PAGE))
            at = drawn.randrange(len(content))
            content[at : at + 10] = drawn.randbytes(len(content[at : at + 10]))
            path.write_bytes(content)
        assert follower.round() == ""
        assert is_same(newest(dest), source)
    assert carried.count("whole") == 2
    log_beside(source).unlink()
    assert follower.round() == "" and newest(dest).read_bytes() == source.read_bytes()
    assert log_beside(newest(dest)).read_bytes() == b""


def test_copies_under_load_have_all_that_was_answered(
    cpi: Cpi, office: Path, dest: Path, place: Elsewhere, carried: list[str], tmp_path: Path
) -> None:
    found = []
    with Quotes(cpi, office) as load:
        follower = Follower(office, place)
        for number in range(6):
            load.wait_for(load.told + 1)
            before = load.told
            assert follower.round() == ""
            (tmp_path / f"seen-{number}").mkdir()
            for path in (newest(dest), log_beside(newest(dest))):
                shutil.copy(path, tmp_path / f"seen-{number}")
            found.append((before, tmp_path / f"seen-{number}" / OFFICE))
    assert carried.count("whole") == 2
    for before, seen in found:
        drilled = drill(cpi, seen)
        assert (drilled.faults, drilled.tables) == ((), TABLES) and faults_of(seen, before) == []


def test_another_run_of_the_follower_compares_the_copies_first(
    source: Path, dest: Path, place: Elsewhere, shell: Callable[..., str], carried: list[str], tmp_path: Path
) -> None:
    for each in (place, Elsewhere(Rsync("second", ".", shell()), tmp_path / "room")):
        for _ in range(3):
            turned(source, 5)
            assert Follower(source, each).round() == "" and is_same(newest(dest), source)
    assert [it == "whole" for it in carried] == [True, True, False] * 2


def test_a_page_that_its_disk_lost_is_carried_again_at_the_next_comparison(
    source: Path, dest: Path, place: Elsewhere, monkeypatch: pytest.MonkeyPatch
) -> None:
    follower = Follower(source, place)
    for _ in range(3):
        assert follower.round() == ""
    for name in NAMES:
        path = dest / name / OFFICE
        moment = path.stat().st_mtime_ns
        turned(path, 7)
        os.utime(path, ns=(moment, moment))
    assert follower.round() == ""
    assert not is_same(dest / str(state_of(dest).newest()) / OFFICE, source)
    monkeypatch.setattr(places, "COMPARED_EACH", 0.0)
    for _ in range(2):
        assert follower.round() == "" and is_same(newest(dest), source)


def test_a_key_that_runs_rsync_only_gets_whole_copies(
    source: Path, dest: Path, carried: list[str], tmp_path: Path
) -> None:
    """A place of a former version, and one whose program is gone: then the pages are carried once more, as a whole."""
    shell = tmp_path / "shell"
    shell.write_text(f'#!/bin/sh\nshift\nSSH_ORIGINAL_COMMAND="$*" exec rrsync {dest}\n')
    shell.chmod(0o755)
    follower = Follower(source, Elsewhere(Rsync("second", ".", str(shell)), tmp_path / "room"))
    for number in range(6):
        turned(source, number)
        assert follower.round() == "" and is_same(newest(dest), source)
        if number == 3:
            (dest / RECEIVED).touch()
    assert [it == "whole" for it in carried] == [True] * 4 + [False, True, True]


# ---- what stops a round

KILLED = """\
#!/bin/sh
# A receiver that is killed when half of the pages are written.
rm {dest}/{name}/{note}
printf xxxxxxxx | dd of={dest}/{name}/{office} bs=1 seek=5000 conv=notrunc status=none
kill -9 $$
"""


def test_a_killed_receiver_leaves_the_former_copy_and_the_next_round_goes_on(
    source: Path, dest: Path, place: Elsewhere, carried: list[str], tmp_path: Path
) -> None:
    follower = Follower(source, place)
    for _ in range(2):
        assert follower.round() == ""
    before = newest(dest)
    receiver = tmp_path / "bin/cpi-tools"
    receiver.write_text(KILLED.format(dest=dest, name=NAMES[0], note=NOTE, office=OFFICE))
    receiver.chmod(0o755)
    turned(source, 3)
    with pytest.raises(Fault, match="^second:.: ") as fault:
        follower.round()
    assert "\n" not in str(fault.value) and newest(dest) == before
    receiver.unlink()
    for _ in range(3):
        assert follower.round() == "" and is_same(newest(dest), source)
    assert [it == "whole" for it in carried] == [True, True, False, True, False, False]


@pytest.mark.parametrize("blocks", [100, 260])
def test_a_full_disk_there_is_one_line_and_the_next_round_goes_on(
    blocks: int, source: Path, dest: Path, place: Elsewhere, shell: Callable[..., str]
) -> None:
    """A limit of bytes of a file stands for it: the changes aren't carried, or can't be put in."""
    follower = Follower(source, place)
    for _ in range(2):
        assert follower.round() == ""
    before = newest(dest)
    with source.open("ab") as file:
        file.write(os.urandom(20 * PAGE))
    shell(f"trap '' XFSZ; ulimit -f {blocks}")
    with pytest.raises(Fault, match="^second:.: .*File too large") as fault:
        follower.round()
    assert "\n" not in str(fault.value) and newest(dest) == before
    shell()
    for _ in range(3):
        assert follower.round() == "" and is_same(newest(dest), source)


# ---- changes that don't fit


def held(place: Elsewhere, source: Path, dest: Path, monkeypatch: pytest.MonkeyPatch) -> Path:
    """A file of changes that came to the place, and wasn't put in."""
    follower = Follower(source, place)
    for _ in range(2):
        assert follower.round() == ""
    turned(source, 3)

    def kept(_: Rsync, path: Path) -> str:
        shutil.copy(path, dest / CHANGES)
        raise Fault("held")

    monkeypatch.setattr(Rsync, "carry_changes", kept)
    with pytest.raises(Fault, match="held"):
        follower.round()
    return dest / CHANGES


def test_changes_are_put_in_by_the_tool(
    source: Path, dest: Path, place: Elsewhere, monkeypatch: pytest.MonkeyPatch
) -> None:
    held(place, source, dest, monkeypatch)
    ran = run(None, "receive", dest)
    assert (ran.status, ran.out, ran.err) == (0, "", f"cpi-tools receive: {NAMES[0]} is round 3\n")
    assert is_same(newest(dest), source)
    ran = run(None, "receive", dest)
    assert (ran.status, ran.err) == (1, f"cpi-tools receive: {dest / CHANGES}: No such file or directory\n")


@pytest.mark.parametrize("how", ["promoted", "note", "none", "cut", "more", "line", "page", "name", "empty"])
def test_what_doesnt_fit_is_refused_and_nothing_is_written(
    how: str, source: Path, dest: Path, place: Elsewhere, monkeypatch: pytest.MonkeyPatch
) -> None:
    changes = held(place, source, dest, monkeypatch)
    line, _, pages = changes.read_bytes().partition(b"\n")
    head = json.loads(line)
    if how == "promoted":
        write_promotion(dest, 7)
    elif how == "note":
        shutil.copy(dest / NAMES[1] / NOTE, dest / NAMES[0] / NOTE)
    elif how == "none":
        (dest / NAMES[0] / NOTE).unlink()
    elif how == "page":
        head["file"][1][-1] = 100
    elif how == "name":
        head["name"] = "../dest/copy-1"
    line = {"line": line[:-9], "empty": b""}.get(how, json.dumps(head).encode())
    pages = {"cut": pages[:-1], "more": pages + b"x", "empty": b""}.get(how, pages)
    changes.write_bytes(line + b"\n" + pages)
    before = {path: path.read_bytes() for path in dest.rglob("*") if path.is_file()}
    with pytest.raises(NotFitting) as fault:
        put_in(dest)
    told = {
        "promoted": "a copy was promoted here",
        "note": "copy-1 isn't the copy that it changes",
        "none": "copy-1 isn't the copy that it changes",
        "cut": "it has 4,095 bytes of pages, and 4,096 by its first line",
        "more": "it has 4,097 bytes of pages, and 4,096 by its first line",
        "page": "it has a page past the end of its file",
    }
    assert str(fault.value) == f"{changes}: " + told.get(how, "its first line isn't one that cpi-tools follow wrote")
    assert {path: path.read_bytes() for path in dest.rglob("*") if path.is_file()} == before

"""`cpi-tools keep`: a generation of the second copy counts once it was drilled, what fails pushes nothing out, and no one
but its user reaches what was kept."""

from __future__ import annotations

import fcntl
import json
import os
import re
import shutil
import sqlite3
import subprocess
import time
from collections.abc import Callable, Iterator
from datetime import datetime, timezone
from pathlib import Path
from typing import Optional

import pytest

from cpi_tools.guard.copies import borg, generations, second_copies
from cpi_tools.guard import keep as keeping
from cpi_tools.guard.copies.borg import Repository, cause_in
from cpi_tools.office.copying import log_beside
from cpi_tools.guard.copies.generations import (
    FAILED,
    KEEP,
    KEEP_FAILED,
    NEW,
    PASSED,
    generation_of,
    last_drill_of,
    repository_of,
)
from cpi_tools.guard.keep import FAILED_DRILL, keep
from cpi_tools.office.program import Cpi
from cpi_tools.guard.copies.second_copies import DRILLED, LOG, NAMES, NOTE, OFFICE, state_of
from cpi_tools.text.terminal import Fault
from .accidents import priced
from .generations import HOUR, NOW, Place, carried, forged, made_place
from .ran import Ran, run
from .second_machines import led_away

pytestmark = pytest.mark.usefixtures("quick_borg")


@pytest.fixture
def tmp_path(memory: Path) -> Path:
    """A test's own folder."""
    return memory


@pytest.fixture
def place(office: Path, tmp_path: Path) -> Place:
    """A place with two copies."""
    return made_place(office, tmp_path)


def kept(cpi: Cpi, place: Place) -> Ran:
    return run(cpi, "keep", *place)


def kept_at(cpi: Cpi, place: Place, moment: int) -> keeping.Kept:
    return keep(cpi, *place, clock=lambda: moment)


def damage(path: Path, at: int = 5000) -> None:
    """Changes a byte of a file."""
    content = bytearray(path.read_bytes())
    content[at] ^= 1
    path.write_bytes(content)


def wrong_figure(copy: Path) -> None:
    """A copy whose note has its sums, and of which a figure isn't what its quotes give."""
    with sqlite3.connect(copy / OFFICE) as link:
        link.execute("UPDATE level_2 SET chained = chained + 1 WHERE code = '00' AND month = 202502")
    link.close()
    forged(copy)


def test_a_generation_counts_once_it_was_drilled(cpi: Cpi, office: Path, place: Place) -> None:
    ran = kept(cpi, place)
    assert (ran.status, ran.err) == (0, "")
    (archive,) = place.archives()
    name, last, newest = archive.removeprefix(PASSED), last_drill_of(place.dest), state_of(place.dest).last()
    assert archive == f"{PASSED}{name}" and newest and last
    assert ran.out.startswith(f"{place.folder}: {name} passed its drill, copied 20") and ran.out.endswith(
        "; 1 generation\n"
    )
    assert last[:6] == (name, newest.copied, newest.file, newest.log, "", "")
    # the same bytes are no second generation, though their copy is younger
    carried(office, place)
    ran = kept(cpi, place)
    assert (ran.status, ran.err) == (0, "") and f"{name} has the bytes of the newest copy" in ran.out
    assert place.archives() == [archive]
    priced(cpi, office, 1, 3)
    carried(office, place)
    assert kept_at(cpi, place, NOW).is_new
    assert place.archives() == [archive, f"{PASSED}2027-01-15-080000"]
    assert [path.name for path in place.folder.iterdir() if path.name.startswith(".cpi-")] == []


def test_the_copy_of_a_later_round_makes_the_generation_younger(cpi: Cpi, office: Path, place: Place) -> None:
    """A quiet night isn't a night without a drill; but a copy that is of the future is of now."""
    kept_at(cpi, place, NOW)
    for name in NAMES:
        note = json.loads((place.dest / name / NOTE).read_text())
        (place.dest / name / NOTE).write_text(json.dumps({**note, "copied": NOW + 50}))
    assert not kept_at(cpi, place, NOW + 100).is_new
    last = last_drill_of(place.dest)
    assert last and (last.generation, last.copied) == (generation_of(NOW), NOW + 50)
    kept_at(cpi, place, NOW + 20)
    last = last_drill_of(place.dest)
    assert last and last.copied == NOW + 20


# ---- a drill that fails


def test_one_that_fails_its_drill_is_kept_aside_and_pushes_nothing_out(cpi: Cpi, office: Path, place: Place) -> None:
    kept_at(cpi, place, NOW)
    before = last_drill_of(place.dest)
    priced(cpi, office, 1, 3)
    carried(office, place, 2)
    for name in NAMES:
        wrong_figure(place.dest / name)
    ran = kept(cpi, place)
    assert (ran.status, ran.out, ran.err.count("\n")) == (FAILED_DRILL, "", 1)
    assert ran.err.startswith(f"cpi-tools keep: {place.folder}: 20")
    assert " failed its drill and doesn't count: 2025-02 revision 1: " in ran.err and "; 1 generation stay" in ran.err
    good, bad = sorted(place.archives())
    assert (good, bad[: len(FAILED)]) == (f"{PASSED}{generation_of(NOW)}", FAILED)
    after = last_drill_of(place.dest)
    # (by the clock of now its last check was in the future, so it is checked anew)
    assert before and after
    assert after._replace(failed="", checked=before.checked, tried=before.tried) == before
    assert after.failed.startswith(f"{bad.removeprefix(FAILED)}: 2025-02 revision 1: ")
    # the next good one counts again, and the one that failed stays aside
    carried(office, place, 2)
    assert kept_at(cpi, place, NOW + HOUR).last.failed == ""
    assert sorted(place.archives()) == [good, f"{PASSED}{generation_of(NOW + HOUR)}", bad]


def test_what_comes_out_of_the_repository_in_another_way_counts_as_failed(
    cpi: Cpi, place: Place, monkeypatch: pytest.MonkeyPatch
) -> None:
    take_out = Repository.take_out

    def other(self: Repository, name: str, to: Callable[[str], Optional[Path]]) -> set[str]:
        written, office = take_out(self, name, to), to(OFFICE)
        assert office
        damage(office)
        return written

    monkeypatch.setattr(Repository, "take_out", other)
    ran = kept(cpi, place)
    assert ran.status == FAILED_DRILL and "it isn't whole: office.db hasn't the sum of its note" in ran.err


# ---- which copy


def test_a_copy_in_mid_round_is_passed_over(cpi: Cpi, place: Place) -> None:
    """The newest one that is whole is kept; its note says when it was copied."""
    damage(place.dest / NAMES[1] / OFFICE)
    assert kept(cpi, place).status == 0
    last = last_drill_of(place.dest)
    assert last and last.copied == state_of(place.dest).notes[NAMES[0]].copied


def test_if_both_are_changed_meanwhile_they_are_tried_again(
    cpi: Cpi, place: Place, monkeypatch: pytest.MonkeyPatch
) -> None:
    whole = {name: (place.dest / name / OFFICE).read_bytes() for name in NAMES}
    pauses = list[float]()
    for name in NAMES:
        damage(place.dest / name / OFFICE)

    def pause(seconds: float) -> None:
        pauses.append(seconds)
        if len(pauses) == 2:
            (place.dest / NAMES[0] / OFFICE).write_bytes(whole[NAMES[0]])

    monkeypatch.setattr("cpi_tools.guard.keep.time.sleep", pause)
    assert kept(cpi, place).status == 0 and len(pauses) == 2
    for name in NAMES:
        damage(place.dest / name / OFFICE, 6000)
    ran = kept(cpi, place)
    assert (ran.status, ran.out) == (1, "") and len(pauses) == 2 + keeping.TRIES - 1
    fault = f"{place.dest / NAMES[1]} isn't whole: office.db hasn't the sum of its note"
    assert ran.err == f"cpi-tools keep: {fault}\n"
    last = last_drill_of(place.dest)
    assert last and last.fault == fault and last.generation
    for name in NAMES:
        (place.dest / name / NOTE).unlink()
    assert f"{place.dest} has no copy with a whole note" in kept(cpi, place).err


LED = [(what, how) for what in (OFFICE, LOG, NOTE) for how in ("link", "hard-link", "pipe", "folder")] + [("", "link")]
"""What stands in the place of a file, or of the copy's folder."""


@pytest.mark.parametrize(("what", "how"), LED)
def test_no_link_leads_to_another_file(what: str, how: str, place: Place, tmp_path: Path) -> None:
    """The user of the copies may put there what it likes: root opens plain files of that folder only."""
    at, outside, room = place.dest / NAMES[1] / what, tmp_path / "outside", tmp_path / "room"
    room.mkdir()
    log_beside(place.dest / NAMES[1] / OFFICE).touch()
    led_away(at, outside, how)
    with second_copies.open_copies(place.dest) as copies:
        assert [bool(copy.fault) for copy in copies] == [False, True]
        assert "it isn't a " in copies[1].fault and [copies[1].note, copies[1].office, copies[1].log] == [None] * 3
        assert second_copies.take_newest(copies, room) == state_of(place.dest).notes[NAMES[0]]


def test_a_file_that_is_larger_than_the_disk_is_not_copied(cpi: Cpi, place: Place) -> None:
    """A hole of a file takes no room where it came from."""
    for name in NAMES:
        os.truncate(place.dest / name / OFFICE, 1 << 43)
        note = json.loads((place.dest / name / NOTE).read_text())
        note["file"]["size"] = 1 << 43
        (place.dest / name / NOTE).write_text(json.dumps(note))
    begun = time.monotonic()
    ran = kept(cpi, place)
    assert (ran.status, ran.out, ran.err.count("\n")) == (1, "", 1) and time.monotonic() - begun < 60
    assert "has 8,796,093," in ran.err and "and the disk of the generations has " in ran.err


# ---- a repository that isn't there, is locked, or has no room


def test_a_repository_that_is_gone_is_not_made_anew(cpi: Cpi, place: Place, tmp_path: Path) -> None:
    assert kept(cpi, place).status == 0
    last = last_drill_of(place.dest)
    (place.folder / borg.FOLDER).rename(tmp_path / "gone")
    ran = kept(cpi, place)
    assert last and (ran.status, ran.out, ran.err) == (
        1,
        "",
        f"cpi-tools keep: {place.folder}/repository isn't there any more, and {last.generation} was kept in it: is its disk"
        " mounted?\n",
    )
    assert not (place.folder / borg.FOLDER).exists()
    after = last_drill_of(place.dest)
    assert after and after.fault in ran.err and after._replace(fault="") == last
    (tmp_path / "gone").rename(place.folder / borg.FOLDER)
    assert kept(cpi, place).status == 0
    assert last_drill_of(place.dest) == last


def test_a_folder_that_is_not_there(cpi: Cpi, place: Place, tmp_path: Path) -> None:
    for words in ((place.dest, tmp_path / "none"), (tmp_path / "none", place.folder)):
        ran = run(cpi, "keep", *words)
        assert (ran.status, ran.out, ran.err) == (
            1,
            "",
            f"cpi-tools keep: {tmp_path}/none: No such file or directory\n",
        )


def test_a_repository_that_is_locked_is_waited_for(cpi: Cpi, place: Place, monkeypatch: pytest.MonkeyPatch) -> None:
    monkeypatch.setattr(borg, "LOCK_WAIT", 1)
    repository_of(place.folder).make()
    words = ["borg", "with-lock", str(place.folder / borg.FOLDER), "sh", "-c", "echo locked; cat"]
    kept_words = {**os.environ, "BORG_BASE_DIR": str(place.folder / borg.OWN)}
    kept_words["BORG_UNKNOWN_UNENCRYPTED_REPO_ACCESS_IS_OK"] = "yes"
    with subprocess.Popen(words, env=kept_words, stdin=subprocess.PIPE, stdout=subprocess.PIPE) as holder:
        assert holder.stdout and holder.stdin and holder.stdout.readline() == b"locked\n"
        ran = kept(cpi, place)
        assert (ran.status, ran.out, ran.err.count("\n")) == (1, "", 1)
        assert f"{place.folder}/repository: Failed to create/acquire the lock " in ran.err
        holder.stdin.close()
    assert kept(cpi, place).status == 0


def test_one_keeper_at_a_time_works(cpi: Cpi, place: Place) -> None:
    with (place.folder / keeping.LOCK).open("a") as lock:
        fcntl.flock(lock, fcntl.LOCK_EX)
        ran = kept(cpi, place)
    assert (ran.status, ran.err) == (1, f"cpi-tools keep: another cpi-tools keep works in {place.folder}\n")


@pytest.fixture
def disk(place: Place) -> Iterator[Path]:
    """The folder of the generations on a disk of its own, in memory."""
    if os.geteuid() != 0:
        pytest.skip("only root mounts a disk")
    subprocess.run(["mount", "-t", "tmpfs", "-o", "size=1g", "tmpfs", place.folder], check=True)
    try:
        yield place.folder
    finally:
        subprocess.run(["umount", place.folder], check=True)


def resize(disk: Path, size: int) -> None:
    """Gives a disk another size in bytes; what lies there stays."""
    subprocess.run(["mount", "-o", f"remount,size={size}", disk], check=True)


@pytest.mark.parametrize("left", [30_000, -30_000])
def test_a_full_disk_is_said_and_what_was_kept_stays(
    left: int, cpi: Cpi, office: Path, place: Place, disk: Path
) -> None:
    """With so many bytes more than the copy needs, or fewer."""
    assert kept(cpi, place).status == 0
    (good,) = place.archives()
    priced(cpi, office, 1, 100)
    carried(office, place)
    newest = state_of(place.dest).last()
    assert newest
    resize(disk, shutil.disk_usage(disk).used + newest.file.size + newest.log.size + left)
    ran = kept(cpi, place)
    assert (ran.status, ran.out, ran.err.count("\n")) == (1, "", 1)
    of_borg = "repository: (No space left on device|Insufficient free space to complete transaction .*)"
    assert re.search(of_borg if left > 0 else "bytes, and the disk of the generations has ", ran.err)
    last = last_drill_of(place.dest)
    assert last and last.fault in ran.err and last.generation == good.removeprefix(PASSED)
    resize(disk, 1 << 30)
    assert place.archives() == [good]
    assert kept(cpi, place).status == 0 and len(place.archives()) == 2


def test_one_that_passed_counts_though_older_ones_cant_go(cpi: Cpi, place: Place, disk: Path) -> None:
    """Borg removes something only if there is room for a whole segment, some 550 MB."""
    resize(disk, 100 << 20)
    ran = kept(cpi, place)
    assert ran.status == 1 and " passed its drill, copied " in ran.out
    fault = f"older generations couldn't be removed: {place.folder}/repository: Insufficient free space to complete"
    assert ran.err.startswith(f"cpi-tools keep: {place.folder}: {fault}") and ran.err.count("\n") == 1
    last = last_drill_of(place.dest)
    assert last and place.archives() == [f"{PASSED}{last.generation}"] and last.fault.startswith(fault)
    resize(disk, 1 << 30)
    assert kept(cpi, place).status == 0
    last = last_drill_of(place.dest)
    assert last and last.fault == ""


def test_without_borg_its_package_is_named(cpi: Cpi, place: Place, monkeypatch: pytest.MonkeyPatch) -> None:
    monkeypatch.setattr("cpi_tools.guard.copies.borg.shutil.which", lambda _: None)
    ran = kept(cpi, place)
    assert (ran.status, ran.err) == (
        1,
        "cpi-tools keep: there is no borg, which keeps generations: Debian's package borgbackup has it\n",
    )


@pytest.mark.parametrize(
    ("said", "cause"),
    [
        (
            "Failed to create/acquire the lock /r/lock.exclusive (timeout).\n",
            "Failed to create/acquire the lock /r/lock",
        ),
        (
            "x: [Errno 28] No space left on device: '/a' -> '/b'\nTraceback\nE: [Errno 17] x: '/a'\n",
            "No space left on device",
        ),
        (
            "Local Exception\nTraceback (most\n  File x\nOSError: [Errno 5] Input/output error: '/r/d'\n",
            "Input/output error",
        ),
        ("Local Exception\nTraceback (most\n  File x\nIntegrityError: bad\n", "IntegrityError: bad"),
        ("", "borg failed and gave no reason"),
    ],
)
def test_the_cause_of_borgs_fault_is_its_own_line(said: str, cause: str) -> None:
    assert cause_in(said).startswith(cause)


# ---- a run that was stopped


def test_what_a_stopped_run_left_is_removed_and_said(cpi: Cpi, place: Place, tmp_path: Path) -> None:
    """It wasn't drilled, so it never counted; nobody takes it for a generation."""
    repository = repository_of(place.folder)
    repository.make()
    (tmp_path / OFFICE).write_bytes(b"half")
    repository.put(f"{NEW}2026-01-01-000000", NOW, tmp_path, [OFFICE])
    ran = kept(cpi, place)
    assert ran.status == 0
    assert f"{place.folder}: {NEW}2026-01-01-000000 is removed, since a run was stopped before its drill\n" in ran.out
    assert [name[: len(PASSED)] for name in place.archives()] == [PASSED]


# ---- which generations stay


def at(text: str) -> int:
    return int(datetime.strptime(text, "%Y-%m-%d %H:%M").replace(tzinfo=timezone.utc).timestamp())


def pruned(folder: Path, moments: list[int], keep_words: tuple[str, ...], failed: int = 0) -> list[str]:
    """The generations that stay of some, after so many that failed came."""
    (folder / "file").write_text("x")
    (folder / "keep").mkdir()
    repository = repository_of(folder / "keep")
    repository.make()
    archives = {f"{PASSED}{generation_of(moment)}": moment for moment in moments}
    later = [moments[-1] + turn * HOUR for turn in range(1, failed + 1)]
    for name, moment in (archives | {f"{FAILED}{generation_of(moment)}": moment for moment in later}).items():
        repository.put(name, moment, folder, ["file"])
    repository.prune(PASSED, keep_words)
    repository.prune(FAILED, KEEP_FAILED)
    names = repository.names()
    assert len([name for name in names if name.startswith(FAILED)]) == min(failed, 3)
    return generations.drilled_in(names)


def test_hours_days_and_months_stay(tmp_path: Path) -> None:
    """Two of each here. Of an hour, a day and a month the last one stays; what failed counts for nothing."""
    moments = ["2026-01-31 23:00", "2026-02-27 10:00", "2026-02-28 10:00", "2026-02-28 12:00", "2026-03-01 08:10"]
    moments += ["2026-03-01 09:10", "2026-03-01 10:10", "2026-03-01 10:50"]
    words = ("--keep-hourly", "2", "--keep-daily", "2", "--keep-monthly", "2")
    stay = pruned(tmp_path, [*map(at, moments)], words, failed=4)
    # (of the hours 10:50 and 09:10; of the days before these, 28 and 27 February; and January's last)
    wanted = ["2026-01-31 23:00", "2026-02-27 10:00", "2026-02-28 12:00", "2026-03-01 09:10", "2026-03-01 10:50"]
    assert stay == [generation_of(at(text)) for text in wanted]
    assert KEEP == ("--keep-hourly", "24", "--keep-daily", "31", "--keep-monthly", "12")


@pytest.mark.long
def test_a_year_leaves_24_hours_31_days_and_12_months(tmp_path: Path) -> None:
    """Of 26 hours, 34 days and 16 months before these."""
    hours = [NOW - turn * HOUR for turn in range(26)]
    days = [NOW - 2 * 86_400 - turn * 86_400 for turn in range(34)]
    months = [at(f"{2025 + turn // 12}-{turn % 12 + 1:02}-10 12:00") for turn in range(7, 7 + 16)]
    stay = pruned(tmp_path, sorted({*hours, *days, *months}), KEEP)
    assert len(stay) == 24 + 31 + 12
    assert {generation_of(moment) for moment in hours[:24]} <= set(stay)
    assert generation_of(days[0]) in stay


def test_only_a_drill_that_passes_removes_older_ones(
    cpi: Cpi, office: Path, place: Place, monkeypatch: pytest.MonkeyPatch
) -> None:
    monkeypatch.setattr(keeping, "KEEP", ("--keep-hourly", "1"))
    for turn in range(2):
        priced(cpi, office, 1 + turn, 1)
        carried(office, place)
        kept_at(cpi, place, NOW + turn * HOUR)
    wanted = f"{PASSED}{generation_of(NOW + HOUR)}"
    assert place.archives() == [wanted]
    for name in NAMES:
        wrong_figure(place.dest / name)
    assert kept_at(cpi, place, NOW + 2 * HOUR).last.failed
    assert place.archives() == [wanted, f"{FAILED}{generation_of(NOW + 2 * HOUR)}"]


def test_a_note_of_something_else_is_a_fault(cpi: Cpi, place: Place) -> None:
    for text in (
        "{",
        "[]",
        '{"generation": 1}',
        json.dumps({"generation": "a\nb", "copied": 1, "file": None, "log": None}),
    ):
        (place.dest / DRILLED).write_text(text)
        with pytest.raises(Fault, match="isn't a note that cpi-tools keep wrote"):
            last_drill_of(place.dest)
        assert kept(cpi, place).status == 1

"""`cpi-tools follow`: a place always has a whole copy, whatever stops a round, and a fault is one line."""

from __future__ import annotations

import contextlib
import json
import os
import resource
import shutil
import signal
import sqlite3
import stat
import subprocess
import sys
import time
from pathlib import Path

import pytest

from cpi_tools.guard.copies import mirrors, places
from cpi_tools.guard.copies.carriers import Rclone, Rsync, carrier_of
from cpi_tools.office.copying import log_beside
from cpi_tools.guard.drill import drill
from cpi_tools.guard.follow import NOT_CARRIED, PROMOTED, Follower, mark_beside
from cpi_tools.guard.copies.places import Folder
from cpi_tools.office.program import Cpi
from cpi_tools.guard.copies.second_copies import (
    MARK,
    NAMES,
    NOTE,
    OFFICE,
    fault_of,
    note_in,
    second_text,
    state_of,
    write_promotion,
)
from cpi_tools.office.stored import stored_office
from cpi_tools.text.terminal import Fault
from lib.places import ROOT
from lib.sample import Sample
from .loads import Quotes, faults_of
from .offices import TABLES
from .ran import run
from .second_machines import receiver
from .test_second_machine import SHELL

TOOL = ROOT / "cpi-tools"


@pytest.fixture
def dest(tmp_path: Path) -> Path:
    """A place that is a folder."""
    (tmp_path / "dest").mkdir()
    return tmp_path / "dest"


@pytest.fixture
def ssh(tmp_path: Path) -> Path:
    """What stands for ssh; the tests that need it are left out where there is no rsync."""
    if not shutil.which("rsync"):
        pytest.skip("there is no rsync")
    shell = tmp_path / "shell"
    shell.write_text(SHELL)
    shell.chmod(0o755)
    return shell


def newest(dest: Path) -> Path:
    """The file of the newest copy of a place, which has to be whole."""
    state = state_of(dest)
    name = state.newest()
    assert name and fault_of(dest / name / OFFICE, state.notes[name]) == ""
    return dest / name / OFFICE


def taken_to(folder: Path, copy: Path) -> Path:
    """File and log of a copy, taken elsewhere to be looked at."""
    folder.mkdir()
    for path in (copy, log_beside(copy)):
        shutil.copy(path, folder)
    return folder / copy.name


def filled(office: Path, to: Path, size: int) -> Path:
    """An office's file with so many bytes of no meaning at its end, whatever stands there."""
    shutil.copy(office, to)
    with contextlib.closing(sqlite3.connect(to)) as link:
        link.execute("CREATE TABLE filler (bytes BLOB)")
        link.execute("INSERT INTO filler VALUES (randomblob(?))", (size,))
        link.commit()
    return to


# ---- a round


def test_the_copies_take_turns_and_each_has_its_note(cpi: Cpi, office: Path, dest: Path) -> None:
    before = int(time.time())
    for number, name in enumerate((NAMES[0], NAMES[1], NAMES[0]), 1):
        ran = run(None, "follow", office, dest, "--once")
        assert (ran.status, ran.err) == (0, "")
        state = state_of(dest)
        assert (state.newest(), state.promotion) == (name, None)
        note = state.notes[name]
        assert (note.office, note.round) == (str(office), number) and before <= note.copied <= time.time()
        assert note.file.size == office.stat().st_size
        assert ran.out.startswith(f"{dest}: copied {second_text(note.copied)}, ")
    assert newest(dest).read_bytes() == office.read_bytes()
    modes = {path.name: stat.S_IMODE(path.stat().st_mode) for path in dest.rglob("*") if path.name != places.LOCK}
    assert modes == {**dict.fromkeys(NAMES, 0o700), **dict.fromkeys((OFFICE, f"{OFFICE}-wal", NOTE), 0o600)}


def test_the_note_has_the_last_quotes(cpi: Cpi, office: Path, dest: Path) -> None:
    run(None, "follow", office, dest, "--once")
    told = json.loads((dest / NAMES[0] / NOTE).read_text())["receipts"]
    shutil.copy(office, dest / "seen.db")
    with stored_office(dest / "seen.db") as stored:
        rows = stored.ask("SELECT collector, slot, month, receipt FROM quote_2 ORDER BY rowid")
    wanted = [
        [collector, slot, f"{month // 100}-{month % 100:02}", receipt] for collector, slot, month, receipt in rows
    ]
    assert told == wanted[: -mirrors.LAST_QUOTES - 1 : -1]


def test_a_copy_under_load_is_a_whole_office_with_all_that_was_answered(cpi: Cpi, office: Path, dest: Path) -> None:
    found = []
    with Quotes(cpi, office) as load:
        follower = Follower(office, Folder(dest))
        for number in range(6):
            load.wait_for(load.told + 1)
            before = load.told
            assert follower.round() == ""
            found.append((before, taken_to(dest / f"seen-{number}", newest(dest))))
    for before, seen in found:
        drilled = drill(cpi, seen)
        assert (drilled.faults, drilled.tables) == ((), TABLES)
        assert faults_of(seen, before) == []


ENDLESS = """\
import sys
from pathlib import Path
sys.path.insert(0, sys.argv[1])
from cpi_tools.guard.follow import Follower
from cpi_tools.guard.copies.places import place_of
Follower(Path(sys.argv[2]), place_of(sys.argv[3], Path(sys.argv[4]), sys.argv[5])).keep(0)
"""
"""A follower that begins a round as soon as the one before it is done, so a kill comes within a round."""


@pytest.mark.parametrize("way", ["folder", "rsync", "receiver"])
def test_whatever_stops_a_follower_a_whole_copy_is_there(
    way: str, cpi: Cpi, office: Path, dest: Path, tmp_path: Path, ssh: Path, sample: Sample
) -> None:
    """Killed at random moments of its rounds, with all that it started, while quotes are answered."""
    drawn = sample.drawn(f"when a follower is killed, {way}")
    place = {"folder": str(dest), "rsync": f"second:{dest}", "receiver": "second:."}[way]
    if way == "receiver":
        receiver(ssh, dest)
    words = [str(ROOT / "tools"), str(office), place, str(tmp_path / "room"), str(ssh)]
    rounds = []
    with Quotes(cpi, office):
        for _ in range(sample.count(3, 8)):
            command = [sys.executable, "-c", ENDLESS, *words]
            with subprocess.Popen(command, stdout=subprocess.PIPE, text=True, start_new_session=True) as running:
                assert running.stdout and running.stdout.readline()
                time.sleep(drawn.random() / 2)
                os.killpg(running.pid, signal.SIGKILL)
            assert newest(dest)
            rounds.append(max(note.round for note in state_of(dest).notes.values()))
    assert len(rounds) == len({*rounds}) and rounds == sorted(rounds)
    assert faults_of(taken_to(tmp_path / "seen", newest(dest)), 1) == []


def test_a_copy_that_was_cut_off_shows_and_the_other_one_counts(office: Path, dest: Path) -> None:
    for _ in range(2):
        run(None, "follow", office, dest, "--once")
    (dest / NAMES[1] / NOTE).write_bytes((dest / NAMES[1] / NOTE).read_bytes()[:100])
    assert state_of(dest).newest() == NAMES[0]
    note = state_of(dest).notes[NAMES[0]]
    with (dest / NAMES[0] / OFFICE).open("r+b") as file:
        file.seek(5000)
        file.write(b"X")
    assert fault_of(dest / NAMES[0] / OFFICE, note) == "office.db hasn't the sum of its note"
    os.truncate(dest / NAMES[0] / OFFICE, 8192)
    assert fault_of(dest / NAMES[0] / OFFICE, note).startswith("office.db has 8,192 bytes, and ")


@pytest.mark.parametrize("text", ["", "{}", "[]", '{"round": 1', "null", '{"receipts": [[1]]}'])
def test_a_note_that_is_none(text: str) -> None:
    assert note_in(text) is None


# ---- faults


def test_what_stands_in_the_way_is_one_line(office: Path, dest: Path, tmp_path: Path, ssh: Path) -> None:
    (tmp_path / "file").touch()
    faults: dict[str, list[object]] = {
        "nowhere is no folder: make it first": [office, tmp_path / "nowhere"],
        "file is no folder: make it first": [office, tmp_path / "file"],
        "nothing.db: No such file or directory": [tmp_path / "nothing.db", dest],
        "second:/nowhere: rsync: ": [office, "second:/nowhere", "--ssh", ssh],
        "second:x: ": [office, "second:x", "--ssh", "/bin/false"],
    }
    for told, words in faults.items():
        ran = run(None, "follow", *words, "--once")
        assert (ran.status, ran.out, ran.err.count("\n")) == (1, "", 1)
        assert told in ran.err and ran.err.startswith("cpi-tools follow: ")


def test_a_full_disk_leaves_the_former_copy_and_the_next_round_goes_on(office: Path, dest: Path) -> None:
    follower = Follower(office, Folder(dest))
    assert follower.round() == ""
    limits = resource.getrlimit(resource.RLIMIT_FSIZE)
    handler = signal.signal(signal.SIGXFSZ, signal.SIG_IGN)
    try:
        resource.setrlimit(resource.RLIMIT_FSIZE, (50_000, limits[1]))
        with pytest.raises(Fault, match=f"{NAMES[1]}/office.db: File too large"):
            follower.round()
    finally:
        resource.setrlimit(resource.RLIMIT_FSIZE, limits)
        signal.signal(signal.SIGXFSZ, handler)
    assert state_of(dest).newest() == NAMES[0] and newest(dest)
    assert follower.round() == ""
    assert state_of(dest).newest() == NAMES[1] and newest(dest).read_bytes() == office.read_bytes()


def test_a_fault_is_told_once_and_the_end_of_it_too(
    office: Path, dest: Path, monkeypatch: pytest.MonkeyPatch, capsys: pytest.CaptureFixture[str]
) -> None:
    """The place goes for three rounds, and comes back."""
    away, rounds = dest.with_name("away"), []

    def pause(_: float) -> None:
        rounds.append(1)
        if len(rounds) == 2:
            dest.rename(away)
        elif len(rounds) == 5:
            away.rename(dest)
        elif len(rounds) == 7:
            raise KeyboardInterrupt

    monkeypatch.setattr("cpi_tools.guard.follow.time.sleep", pause)
    with pytest.raises(KeyboardInterrupt):
        Follower(office, Folder(dest)).keep(1)
    told = capsys.readouterr()
    assert told.err == (
        f"cpi-tools follow: {dest} is no folder: make it first, so that nothing is copied to a disk that isn't mounted;"
        " it goes on to try\n"
    )
    assert told.out.count(f"{dest}: copied ") == 2
    assert max(note.round for note in state_of(dest).notes.values()) == 4


def test_one_follower_at_a_time(office: Path, dest: Path) -> None:
    command = [str(TOOL), "follow", str(office), str(dest)]
    with subprocess.Popen(command, stdout=subprocess.PIPE, text=True) as running:
        assert running.stdout and running.stdout.readline()
        ran = run(None, "follow", office, dest, "--once")
        running.terminate()
    assert (ran.status, ran.err) == (1, f"cpi-tools follow: another cpi-tools follow keeps {dest}\n")
    assert run(None, "follow", office, dest, "--once").status == 0


def test_the_copy_of_another_office_is_not_written_over(office: Path, dest: Path, tmp_path: Path) -> None:
    run(None, "follow", office, dest, "--once")
    shutil.copy(office, tmp_path / "other.db")
    ran = run(None, "follow", tmp_path / "other.db", dest, "--once")
    assert (ran.status, ran.out, ran.err.count("\n")) == (NOT_CARRIED, "", 1)
    assert f"{dest} has a copy of {office} of " in ran.err and "empty it first" in ran.err


# ---- a promotion


@pytest.mark.parametrize("word", ["--once", "--ask", "--every=1"])
def test_a_place_that_was_promoted_stops_it_and_marks_the_office(
    word: str, office: Path, dest: Path, tmp_path: Path
) -> None:
    run(None, "follow", office, dest, "--once")
    before = newest(dest).stat().st_mtime_ns
    promotion = write_promotion(dest, 1_800_000_000)
    ran = run(None, "follow", office, dest, word)
    assert (ran.status, ran.out, ran.err.count("\n")) == (PROMOTED, "", 1)
    line = mark_beside(office).read_text()
    assert line.startswith(f"{promotion.machine} was promoted ") and "2027-01-15 08:00:00 UTC (1800000000)" in line
    assert line.strip() in ran.err and newest(dest).stat().st_mtime_ns == before


def test_a_place_that_was_not_promoted_lets_the_office_start(office: Path, dest: Path) -> None:
    ran = run(None, "follow", office, dest, "--ask")
    assert (ran.status, ran.out, ran.err) == (0, "", "")
    assert not mark_beside(office).exists() and [*dest.iterdir()] == []


def test_a_mark_that_cant_be_read_is_none_and_no_promotion_either(office: Path, dest: Path) -> None:
    (dest / MARK).write_text("{")
    ran = run(None, "follow", office, dest, "--ask")
    assert (ran.status, ran.err) == (1, f"cpi-tools follow: {dest / MARK} isn't a mark that cpi-tools wrote\n")


# ---- what carries


def test_by_rsync_the_other_machine_gets_the_same(office: Path, dest: Path, ssh: Path, tmp_path: Path) -> None:
    words = ["follow", office, f"second:{dest}", "--once", "--ssh", ssh, "--room", tmp_path / "room"]
    for number, name in enumerate((NAMES[0], NAMES[1], NAMES[0]), 1):
        ran = run(None, *words)
        assert (ran.status, ran.err) == (0, "")
        assert (state_of(dest).newest(), state_of(dest).notes[name].round) == (name, number)
        assert newest(dest).read_bytes() == office.read_bytes()
    # (a probe of this machine finds the note of the last copy in the room)
    assert [*state_of(tmp_path / "room").notes.values()] == [state_of(dest).notes[NAMES[0]]]
    modes = {stat.S_IMODE(path.stat().st_mode) for path in dest.rglob("*") if path.is_file()}
    assert modes == {0o600}


COUNTING = """\
#!{python}
# Runs a command here as ssh does elsewhere, and writes down how many bytes it was sent.
import os, subprocess, sys, threading
with subprocess.Popen(["sh", "-c", " ".join(sys.argv[2:])], stdin=subprocess.PIPE) as server:
    def pump():
        count = 0
        while block := os.read(0, 65536):
            count += len(block)
            open("{sent}", "w").write(str(count))
            server.stdin.write(block)
            server.stdin.flush()
    threading.Thread(target=pump, daemon=True).start()
    os._exit(server.wait())
"""


def test_by_rsync_only_what_changed_is_carried(office: Path, dest: Path, ssh: Path, tmp_path: Path) -> None:
    """By the bytes that the other side is sent: one page of a file of 2 MB, and sums."""
    counting = tmp_path / "counting"
    counting.write_text(COUNTING.format(python=sys.executable, sent=tmp_path / "sent"))
    counting.chmod(0o755)
    filled(office, tmp_path / "big.db", 2_000_000)
    words = ["follow", tmp_path / "big.db", f"second:{dest}", "--once", "--ssh", counting]
    assert run(None, *words).status == 0
    assert int((tmp_path / "sent").read_text()) > 2_000_000
    for _ in range(2):
        assert run(None, *words).status == 0
    with (tmp_path / "big.db").open("r+b") as file:
        file.seek(1_000_000)
        file.write(b"12345678")
    assert run(None, *words).status == 0
    assert newest(dest).read_bytes() == (tmp_path / "big.db").read_bytes()
    assert int((tmp_path / "sent").read_text()) < 20_000


def test_a_file_that_changed_within_a_second_is_carried(office: Path, dest: Path, ssh: Path, tmp_path: Path) -> None:
    """Of the same size; what is compared is not the time in seconds."""
    file = filled(office, tmp_path / "filled.db", 40_000)
    for number in range(5):
        with file.open("r+b") as changed:
            changed.seek(file.stat().st_size - 2 * 4096 + 96)
            changed.write(bytes([number]) * 4000)
        assert run(None, "follow", file, f"x:{dest}", "--once", "--ssh", ssh).status == 0
        assert newest(dest).read_bytes() == file.read_bytes() and bytes([number]) * 4000 in file.read_bytes()


STAND_IN = """\
#!{python}
# What rclone does as far as it is asked: copyto FILE PLACE, and sync of the files that are included.
import shutil, sys
from pathlib import Path
words = [word for word in sys.argv[1:] if not word.startswith("--")]
how, source, to = words[0], *(word.removeprefix("store:") for word in words[1:])
included = [word.partition("=")[2].lstrip("/") for word in sys.argv if word.startswith("--include=")]
if not Path(source).exists():
    sys.exit("2026/11/27 22:00:00 ERROR : directory not found")
for name in included if how == "sync" else [""]:
    if how == "copyto" or (Path(source) / name).exists():
        (Path(to) / name).parent.mkdir(parents=True, exist_ok=True)
        shutil.copyfile(Path(source) / name, Path(to) / name)
    else:
        (Path(to) / name).unlink(missing_ok=True)
"""


def test_by_rclone_the_store_gets_the_same(
    office: Path, dest: Path, tmp_path: Path, monkeypatch: pytest.MonkeyPatch
) -> None:
    """With a stand-in for rclone; tests/outside has rclone itself."""
    (tmp_path / "bin").mkdir()
    (tmp_path / "bin/rclone").write_text(STAND_IN.format(python=sys.executable))
    (tmp_path / "bin/rclone").chmod(0o755)
    monkeypatch.setenv("PATH", f"{tmp_path}/bin:{os.environ['PATH']}")
    for name in (NAMES[0], NAMES[1], NAMES[0]):
        ran = run(None, "follow", office, f"rclone:store:{dest}", "--once")
        assert (ran.status, ran.err) == (0, "")
        assert state_of(dest).newest() == name and newest(dest).read_bytes() == office.read_bytes()
    write_promotion(dest, 7)
    assert run(None, "follow", office, f"rclone:store:{dest}", "--once").status == PROMOTED
    ran = run(None, "follow", office, "rclone:store:/nowhere", "--once")
    assert (ran.status, ran.err) == (1, "cpi-tools follow: rclone:store:/nowhere: directory not found\n")


def test_a_place_is_read_from_its_word(monkeypatch: pytest.MonkeyPatch, office: Path) -> None:
    assert carrier_of("/a/b") is carrier_of("a") is carrier_of("./a:b") is carrier_of(":a") is None
    rsync, rclone = carrier_of("cpi@second:/a"), carrier_of("rclone:store:a")
    assert isinstance(rsync, Rsync) and isinstance(rclone, Rclone)
    assert (rsync.name, rclone.name) == ("cpi@second:/a", "rclone:store:a")
    monkeypatch.setattr("cpi_tools.guard.copies.carriers.shutil.which", lambda _: None)
    ran = run(None, "follow", office, "second:a", "--once")
    assert (ran.status, ran.err.count("\n")) == (1, 1) and "there is no rsync" in ran.err

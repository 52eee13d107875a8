"""Accidents of the first machine don't reach the second copy: a backup that is restored, a file that is gone and made anew,
and a page that goes bad. The follower says so, a probe is critical, and a promotion still has what was answered."""

from __future__ import annotations

import json
import os
import shutil
import sqlite3
from collections.abc import Callable
from contextlib import AbstractContextManager
from pathlib import Path

import pytest

from cpi_tools.office.copying import log_beside
from cpi_tools.guard.follow import NOT_CARRIED, Follower
from cpi_tools.guard.copies.mirrors import LAST_QUOTES, Marks, NotCarried
from cpi_tools.guard.copies.places import Folder
from cpi_tools.office.program import Cpi, record
from cpi_tools.guard.copies.second_copies import NAMES, NOTE, OFFICE, REFUSED, fault_of, note_in, note_text, state_of
from cpi_tools.office.stored import StoredOffice, stored_office, unchanged_office
from .accidents import ACCIDENTS, ANSWERED, SAID, WANTED, backup_restored, made_anew, page_gone_bad, prices_in, priced
from .offices import LOAD_COLLECTOR, LOAD_KEY, LOAD_MONTH, lived
from .ran import Ran, run
from .second_machines import receiver

Follow = Callable[..., Ran]


@pytest.fixture
def dest(tmp_path: Path) -> Path:
    """A place that is a folder."""
    (tmp_path / "dest").mkdir()
    return tmp_path / "dest"


@pytest.fixture(params=["folder", "receiver"])
def follow(request: pytest.FixtureRequest, office: Path, dest: Path, tmp_path: Path) -> Follow:
    """One round of a follower: to a folder, and to another machine, for which a shell stands."""
    words: list[object] = [dest]
    if request.param == "receiver":
        if not (shutil.which("rsync") and shutil.which("rrsync")):
            pytest.skip("there is no rsync")
        words = ["second:.", "--ssh", receiver(tmp_path / "shell", dest), "--room", tmp_path / "room"]
    return lambda *more: run(None, "follow", office, *words, "--once", *more)


@pytest.fixture
def seen(follow: Follow, dest: Path, tmp_path: Path) -> Path:
    """The folder by which a probe of the first machine sees the copies."""
    return tmp_path / "room" if (tmp_path / "room").exists() else dest


def promoted(cpi: Cpi, dest: Path, tmp_path: Path) -> dict[int, int]:
    """The prices of the office that a promotion makes."""
    (tmp_path / "second").mkdir()
    ran = run(cpi, "promote", dest, "--office", tmp_path / "second/office.db")
    assert (ran.status, ran.err) == (0, "")
    return prices_in(cpi, tmp_path / "second/office.db")


def rows_of_quotes(file: Path) -> int:
    with stored_office(file) as stored:
        return stored.count_of_quotes()


def probed(folder: Path) -> str:
    """What a probe says of the second copy; the office itself isn't asked."""
    ran = run(None, "probe", "--url", "http://127.0.0.1:1", "--copy", folder)
    assert ran.status == 2
    return ran.out


@pytest.fixture
def backup(cpi: Cpi, office: Path, follow: Follow, tmp_path: Path) -> Path:
    """A backup of before 40 prices, which both copies have."""
    made = tmp_path / "backup.db"
    assert run(cpi, "backup", office, made).status == 0
    assert follow().status == 0
    priced(cpi, office, 1, ANSWERED)
    for _ in NAMES:
        assert follow().status == 0
    return made


@pytest.mark.parametrize("accident", ACCIDENTS)
def test_an_accident_of_the_office_stays_out_of_its_copies(
    accident: str, cpi: Cpi, office: Path, backup: Path, follow: Follow, dest: Path, seen: Path, tmp_path: Path
) -> None:
    """In each of three rounds; and a promotion still has the prices that were answered before."""
    ACCIDENTS[accident](cpi, office, backup)
    before = max(note.round for note in state_of(dest).notes.values())
    for _ in range(3):
        ran = follow()
        assert (ran.status, ran.out, ran.err.count("\n")) == (NOT_CARRIED, "", 1)
        assert SAID[accident] in ran.err and f"{office} isn't carried to " in ran.err
        assert ("--anew" in ran.err) == (accident != "page gone bad")
    assert max(note.round for note in state_of(dest).notes.values()) == before
    whole = {name: fault_of(dest / name / OFFICE, note) for name, note in state_of(dest).notes.items()}
    assert whole == dict.fromkeys(NAMES, "")
    told = probed(seen)
    assert SAID[accident] in told and "second_refused=1" in told
    assert promoted(cpi, dest, tmp_path) == WANTED


@pytest.mark.parametrize("part", [0.01, 0.3, 0.7, 0.99])
def test_a_page_that_goes_bad_is_found_wherever_it_is(part: float, cpi: Cpi, office: Path, dest: Path) -> None:
    """Nobody means to carry it, so there is no word for that."""
    assert run(None, "follow", office, dest, "--once").status == 0
    page_gone_bad(cpi, office, office, part)
    ran = run(None, "follow", office, dest, "--once", "--anew")
    assert (ran.status, ran.err.count("\n")) == (NOT_CARRIED, 1)
    assert "it is damaged: " in ran.err or "it can't be read as an office: " in ran.err


def test_who_means_it_carries_it_once(
    cpi: Cpi, office: Path, backup: Path, follow: Follow, dest: Path, seen: Path
) -> None:
    backup_restored(cpi, office, backup)
    assert follow().status == NOT_CARRIED and (seen / REFUSED).exists()
    ran = follow("--anew")
    assert (ran.status, ran.err) == (0, "") and not (seen / REFUSED).exists()
    for _ in NAMES:
        assert follow().status == 0
    assert prices_in(cpi, office) == {}
    assert [note.marks.quotes for note in state_of(dest).notes.values() if note.marks] == [rows_of_quotes(office)] * 2
    assert "second_refused=0" in probed(seen)


def test_a_backup_that_took_as_many_other_prices_stays_out_too(
    cpi: Cpi, office: Path, backup: Path, follow: Follow, dest: Path, tmp_path: Path
) -> None:
    """No mark is lower, but the last quotes of the copy aren't there."""
    backup_restored(cpi, office, backup)
    priced(cpi, office, 100, ANSWERED + 20)
    ran = follow()
    assert (ran.status, ran.err.count("\n")) == (NOT_CARRIED, 1)
    assert f"the quote of slot {LOAD_COLLECTOR}/40 in {LOAD_MONTH}, receipt 40, isn't at its place" in ran.err
    assert promoted(cpi, dest, tmp_path) == WANTED


def test_a_backup_that_took_the_same_prices_again_goes_on(
    cpi: Cpi, office: Path, backup: Path, follow: Follow, dest: Path
) -> None:
    """Nothing of the copy is lost any more."""
    backup_restored(cpi, office, backup)
    assert follow().status == NOT_CARRIED
    priced(cpi, office, 1, ANSWERED)
    priced(cpi, office, 1, 5, 700)
    priced(cpi, office, 60, 7)
    ran = follow()
    assert (ran.status, ran.err) == (0, "")


def test_another_office_of_the_same_name_stays_out(
    cpi: Cpi, office: Path, backup: Path, follow: Follow, dest: Path, tmp_path: Path
) -> None:
    """Of the same machine and the same file, with the same rows: only its keys are others."""
    for path in (office, log_beside(office)):
        path.unlink(missing_ok=True)
    swapped = {"a" * 32: "c" * 32, "b" * 32: "d" * 32, "f" * 32: "e" * 32}
    records = [*lived(), *(record(50, LOAD_KEY, "quote", number, LOAD_MONTH, "price", 900) for number in range(1, 150))]
    for old, new in swapped.items():
        records = [it.replace(old, new) for it in records]
    assert not [reply for reply in cpi.replay(records, db=office) if "refused" in reply]
    ran = follow()
    assert (ran.status, ran.err.count("\n")) == (NOT_CARRIED, 1)
    assert "it is another office than that of the copy: its collector 1 has another key" in ran.err
    assert promoted(cpi, dest, tmp_path) == WANTED


def test_the_office_of_another_place_or_machine_stays_the_same_office(
    cpi: Cpi, office: Path, dest: Path, tmp_path: Path
) -> None:
    """A file that moved goes on with the word for it, and still may take nothing back."""
    run(None, "follow", office, dest, "--once")
    identity = state_of(dest).notes[NAMES[0]].identity
    moved = tmp_path / "moved.db"
    office.rename(moved)
    ran = run(None, "follow", moved, dest, "--once")
    assert (ran.status, ran.err.count("\n")) == (NOT_CARRIED, 1) and f"has a copy of {office} of " in ran.err
    assert run(None, "follow", moved, dest, "--once", "--anew").status == 0
    assert state_of(dest).notes[NAMES[1]].identity == identity is not None
    assert run(None, "follow", moved, dest, "--once").status == 0


def test_a_collector_that_comes_is_no_other_office(cpi: Cpi, office: Path, dest: Path, tmp_path: Path) -> None:
    """The identity is drawn with the first collector, and stays though a smaller number comes."""
    young = tmp_path / "young.db"
    records = [record(0, "desk", "outlet", 1, "Market"), record(0, "desk", "collector", 5, "5" * 32)]
    records += [record(0, "desk", "collector", 3, "3" * 32)]
    numbers = []
    for one in records:
        assert cpi.replay([one], db=young) == [{"done": True}]
        assert run(None, "follow", young, dest, "--once").status == 0
        note = state_of(dest).last()
        numbers.append(note and note.identity and note.identity.collector)
    assert numbers == [None, 5, 5]


def test_a_copy_of_before_is_taken_once_and_has_marks_then(cpi: Cpi, office: Path, dest: Path, tmp_path: Path) -> None:
    for _ in NAMES:
        assert run(None, "follow", office, dest, "--once").status == 0
    for name in NAMES:
        told = json.loads((dest / name / NOTE).read_text())
        del told["identity"], told["marks"]
        (dest / name / NOTE).write_text(json.dumps(told))
        note = note_in(json.dumps(told))
        assert note and (note.identity, note.marks) == (None, None)
    kept = tmp_path / "kept.db"
    shutil.copy(office, kept)
    priced(cpi, office, 1, 3)
    assert run(None, "follow", office, dest, "--once").status == 0
    note = state_of(dest).last()
    assert note and note.marks and note.identity and note_in(note_text(note)) == note
    backup_restored(cpi, office, kept)
    assert run(None, "follow", office, dest, "--once").status == NOT_CARRIED


def test_the_marks_are_counts_that_only_grow(cpi: Cpi, dest: Path, tmp_path: Path) -> None:
    """After each record of a life of fifteen months."""
    file, before, tried = tmp_path / "life.db", Marks(*[0] * len(Marks._fields)), 0
    follower = Follower(file, Folder(dest))
    records = lived()
    with cpi.session(file) as session:
        for turn, one in enumerate(records):
            session.ask(one)
            if turn % 25 == 0 or turn == len(records) - 1:
                assert follower.round() == ""
                note = state_of(dest).last()
                assert note and note.marks and all(was <= now for was, now in zip(before, note.marks)), one
                before, tried = note.marks, tried + 1
    assert tried > 10 and before.tables == 16 and before.collectors == 3 and before.quotes > LAST_QUOTES


def test_a_follower_that_stays_tells_it_once_and_goes_on_by_itself(
    cpi: Cpi,
    office: Path,
    dest: Path,
    tmp_path: Path,
    monkeypatch: pytest.MonkeyPatch,
    capsys: pytest.CaptureFixture[str],
) -> None:
    """The backup of before takes prices, round by round; then the right file is put back."""
    kept, right, rounds = tmp_path / "kept.db", tmp_path / "right.db", list[int]()
    shutil.copy(office, kept)
    priced(cpi, office, 1, ANSWERED)

    def pause(_: float) -> None:
        rounds.append(1)
        if len(rounds) == 2:
            shutil.copy(office, right)
            backup_restored(cpi, office, kept)
        elif 2 < len(rounds) < 5:
            priced(cpi, office, 100 + len(rounds), 1)
        elif len(rounds) == 5:
            backup_restored(cpi, office, right)
        elif len(rounds) == 7:
            raise KeyboardInterrupt

    monkeypatch.setattr("cpi_tools.guard.follow.time.sleep", pause)
    with pytest.raises(KeyboardInterrupt):
        Follower(office, Folder(dest)).keep(1)
    told = capsys.readouterr()
    assert told.err.count("\n") == 1 and "; it goes on to try\n" in told.err
    assert told.out.count(f"{dest}: copied ") == 2 and not (dest / REFUSED).exists()


def test_a_place_at_which_sqlite_reads_nothing_gets_copies_too(
    cpi: Cpi, office: Path, dest: Path, monkeypatch: pytest.MonkeyPatch
) -> None:
    """As on some file systems of a network: another copy is looked at then."""
    refused = list[Path]()

    def unread(path: Path) -> AbstractContextManager[StoredOffice]:
        if dest in path.parents:
            refused.append(path)
            raise sqlite3.OperationalError("locking protocol")
        return unchanged_office(path)

    monkeypatch.setattr("cpi_tools.guard.copies.mirrors.unchanged_office", unread)
    follower = Follower(office, Folder(dest))
    assert follower.round() == "" and len(refused) == 1
    note = state_of(dest).last()
    assert note and note.marks and note.marks.tables == 16
    made_anew(cpi, office, office)
    with pytest.raises(NotCarried, match="it would take back what the copy has"):
        follower.round()


def test_what_is_no_office_is_not_carried(dest: Path, tmp_path: Path) -> None:
    for name, content in (("random", os.urandom(8192)), ("text", b"x" * 5000)):
        (tmp_path / name).write_bytes(content)
        with pytest.raises(NotCarried, match="it can't be read as an office: file is not a database"):
            Follower(tmp_path / name, Folder(dest)).round()
    assert state_of(dest).notes == {} and (dest / NAMES[0] / OFFICE).exists()

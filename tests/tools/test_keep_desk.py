"""`cpi-tools keep` and `promote --generation`: the desk's folder is in a generation, and comes back with it."""

from __future__ import annotations

import errno
import json
import os
import resource
import shutil
from collections.abc import Callable, Iterator
from contextlib import AbstractContextManager
from pathlib import Path
from typing import Optional

import pytest

from cpi_tools.guard import keep as keeping
from cpi_tools.guard.copies.borg import Repository
from cpi_tools.guard.copies.desk_changes import index_of
from cpi_tools.guard.follow import Follower
from cpi_tools.guard.copies.generations import (
    PASSED,
    LastDrill,
    generation_of,
    kept_desk_in,
    last_drill_of,
    open_desk,
    repository_of,
    take_desk,
)
from cpi_tools.guard.keep import FAILED_DRILL, keep
from cpi_tools.guard.copies.places import Folder
from cpi_tools.office.program import Cpi
from cpi_tools.office.folders import new_room
from cpi_tools.guard.copies.second_copies import DESK, INDEX, MARK, second_text
from .desk_rooms import DeskRoom, files_of
from .generations import HOUR, NOW, Place, made_place
from .ran import Ran, run
from .second_machines import led_away

pytestmark = pytest.mark.usefixtures("quick_borg")


@pytest.fixture
def tmp_path(memory: Path) -> Path:
    """A test's own folder."""
    return memory


@pytest.fixture
def desk(tmp_path: Path) -> DeskRoom:
    """A desk's folder."""
    return DeskRoom(tmp_path / "cpi-desk")


@pytest.fixture
def place(office: Path, desk: DeskRoom, tmp_path: Path) -> Place:
    """A place with two copies, and one of the desk's folder."""
    made = made_place(office, tmp_path)
    carried_desk(office, desk, made)
    return made


@pytest.fixture
def quick(monkeypatch: pytest.MonkeyPatch) -> None:
    """Nobody waits for a round."""
    monkeypatch.setattr("cpi_tools.guard.keep.time.sleep", lambda _: None)


def carried_desk(office: Path, desk: DeskRoom, place: Place) -> None:
    """A follower carries the desk's folder."""
    assert Follower(office, Folder(place.dest), desk=desk.path).desk_round()


def kept_at(cpi: Cpi, place: Place, moment: int) -> keeping.Kept:
    return keep(cpi, *place, clock=lambda: moment)


def last_of(place: Place) -> LastDrill:
    drill = last_drill_of(place.dest)
    assert drill
    return drill


def promoted(cpi: Cpi, place: Place, name: str, *words: object) -> tuple[Ran, dict[str, bytes]]:
    """A promotion of a generation, and the desk's folder that came with it."""
    home = place.dest.parent / f"home-{len([*place.dest.parent.iterdir()])}"
    home.mkdir()
    to = ("--office", home / "office.db", "--kept", place.folder, "--desk", home / "desk", "--again")
    ran = run(cpi, "promote", place.dest, *to, "--generation", name, *words)
    return ran, files_of(home / "desk")


def test_the_desk_comes_back_with_its_generation(cpi: Cpi, office: Path, desk: DeskRoom, place: Place) -> None:
    """What the desk did since lies with the copies, which a line names."""
    kept_at(cpi, place, NOW)
    before, index = desk.files, index_of(place.dest)
    desk.say("a later line")
    desk.field()
    (desk.path / "rows.json").unlink()
    carried_desk(office, desk, place)
    ran, files = promoted(cpi, place, generation_of(NOW))
    assert index and (ran.status, ran.err, files) == (0, "", before)
    assert f": the desk's folder is that of {second_text(index.copied)}\n" in ran.out
    last = index_of(place.dest)
    assert (
        last
        and f"{place.dest / DESK}/1: the desk's folder as it was carried last, {second_text(last.copied)}\n" in ran.out
    )
    # whoever empties what is with the copies takes nothing of it away
    shutil.rmtree(place.dest / DESK)
    ran, files = promoted(cpi, place, generation_of(NOW))
    assert (ran.status, ran.err, files) == (0, "", before) and "carried last" not in ran.out


def test_a_desk_that_can_not_be_taken_is_refused_before_anything_is_promoted(
    cpi: Cpi, place: Place, monkeypatch: pytest.MonkeyPatch
) -> None:
    """Its disk is full; or else a line would say that nothing was done, after the office had its place."""
    kept_at(cpi, place, NOW)

    def full(*_: object) -> None:
        raise OSError(errno.ENOSPC, os.strerror(errno.ENOSPC))

    monkeypatch.setattr("cpi_tools.guard.promote.shutil.move", full)
    ran, files = promoted(cpi, place, generation_of(NOW))
    assert (ran.status, ran.out, files) == (1, "", {}) and os.strerror(errno.ENOSPC) in ran.err
    assert not (place.dest / MARK).exists() and not [*place.dest.parent.glob("home-*/*")]


def test_the_desk_waits_on_the_disk_of_the_office(cpi: Cpi, place: Place, monkeypatch: pytest.MonkeyPatch) -> None:
    """The folder for temporary files may have no room for it."""
    kept_at(cpi, place, NOW)
    rooms = list[tuple[str, Optional[Path]]]()

    def made(prefix: str, folder: Optional[Path] = None) -> AbstractContextManager[Path]:
        rooms.append((prefix, folder))
        return new_room(prefix, folder)

    monkeypatch.setattr("cpi_tools.guard.promote.new_room", made)
    assert promoted(cpi, place, generation_of(NOW))[0].status == 0
    home = rooms[0][1]
    assert home and rooms == [(".cpi-promote-desk-", home), (".cpi-promote-", home)]


def test_what_only_the_desk_did_is_a_generation_too(cpi: Cpi, office: Path, desk: DeskRoom, place: Place) -> None:
    """A later round that carried nothing is none."""
    kept_at(cpi, place, NOW)
    index = index_of(place.dest)
    assert index
    (place.dest / DESK / INDEX).write_text(index._replace(copied=index.copied + 60).text)
    assert not kept_at(cpi, place, NOW + HOUR).is_new
    desk.say()
    carried_desk(office, desk, place)
    assert kept_at(cpi, place, NOW + 2 * HOUR).is_new
    _, files = promoted(cpi, place, generation_of(NOW + 2 * HOUR))
    assert files == desk.files


def test_one_of_an_earlier_version_has_the_desk_of_the_copies(cpi: Cpi, desk: DeskRoom, place: Place) -> None:
    """It is known by its files, and its note has none of the later fields."""
    shutil.move(place.dest / DESK, place.dest / "away")
    kept_at(cpi, place, NOW)
    note = json.loads((place.dest / "drilled.json").read_text())
    for name in ("desk", "checked", "tried", "damaged"):
        del note[name]
    (place.dest / "drilled.json").write_text(json.dumps(note))
    assert last_of(place)[6:] == ("", 0, 0, "")
    assert not kept_at(cpi, place, NOW + HOUR).is_new
    shutil.move(place.dest / "away", place.dest / DESK)
    ran, files = promoted(cpi, place, generation_of(NOW))
    assert (ran.status, ran.err, files) == (0, "", desk.files)
    assert f"generation {generation_of(NOW)} has no desk's folder: that of the copies is taken\n" in ran.out


# ---- one that isn't whole


def test_a_round_that_changes_it_meanwhile_is_waited_for(
    cpi: Cpi, desk: DeskRoom, place: Place, monkeypatch: pytest.MonkeyPatch
) -> None:
    whole, pauses = (place.dest / DESK / "1/rows.json").read_bytes(), list[float]()
    (place.dest / DESK / "1/rows.json").write_bytes(b"{ }")

    def pause(seconds: float) -> None:
        pauses.append(seconds)
        (place.dest / DESK / "1/rows.json").write_bytes(whole)

    monkeypatch.setattr("cpi_tools.guard.keep.time.sleep", pause)
    assert kept_at(cpi, place, NOW).last.fault == "" and len(pauses) == 1
    assert promoted(cpi, place, generation_of(NOW))[1] == desk.files


@pytest.mark.usefixtures("quick")
def test_it_keeps_no_generation_of_the_office_away(cpi: Cpi, desk: DeskRoom, place: Place) -> None:
    """A carrying was stopped in the middle; or somebody has put other bytes there."""
    (place.dest / DESK / "1/rows.json").write_bytes(b"other")
    (place.dest / DESK / "1/prepared-freeze.json").unlink()
    with (place.dest / DESK / "1/desk.log").open("ab") as log:
        log.write(b'{"a line that is being received')
    ran = run(cpi, "keep", *place)
    told = "the desk's folder isn't whole: prepared-freeze.json isn't there (and 1 more fault)"
    assert (ran.status, ran.err) == (1, f"cpi-tools keep: {place.folder}: {told}\n") and " passed its drill" in ran.out
    last = last_of(place)
    assert last.fault == told and place.archives() == [f"{PASSED}{last.generation}"]
    # the same once more is no second one, and is said again; all else of the desk comes back
    ran = run(cpi, "keep", *place)
    assert ran.status == 1 and told in ran.err and len(place.archives()) == 1
    ran, files = promoted(cpi, place, last.generation)
    assert ran.status == 0 and "the desk's folder: rows.json isn't as its index says\n" in ran.out
    wanted = {**desk.files, "rows.json": b"other"}
    del wanted["prepared-freeze.json"]
    assert files == wanted


@pytest.mark.usefixtures("quick")
def test_notes_of_the_field_that_sqlite_finds_damaged_are_said(
    cpi: Cpi, office: Path, desk: DeskRoom, place: Place, tmp_path: Path
) -> None:
    """The index has their sum, since the first machine's disk had them so."""
    notes = desk.path / "field-notes.db"
    content = bytearray(notes.read_bytes())
    content[4096 + 100 : 4096 + 4000] = bytes(3900)
    notes.write_bytes(content)
    carried_desk(office, desk, place)
    ran = run(cpi, "keep", *place)
    assert ran.status == 1 and "the desk's folder isn't whole: field-notes.db is damaged: " in ran.err
    assert len(place.archives()) == 1


LED = [("1/desk.log", how) for how in ("link", "hard-link", "pipe", "folder")]
LED += [(what, "link") for what in ("1/tables", "1", INDEX, "")]
"""What stands in the place of a file, or of a folder."""


@pytest.mark.parametrize(("what", "how"), LED)
def test_no_link_leads_to_another_file(what: str, how: str, place: Place, tmp_path: Path) -> None:
    """The user of the copies may put there what it likes: root opens plain files of that folder only."""
    at, outside, to = place.dest / DESK / what, tmp_path / "outside", tmp_path / "to"
    to.mkdir()
    led_away(at, outside, how)
    if how != "folder" and outside.is_file():
        outside.write_text("root's")
    with open_desk(place.dest) as desk:
        taken = take_desk(desk, to)
    assert taken.fault.startswith("the desk's folder isn't whole: ") and taken.faults
    assert not [path for path in to.rglob("*") if path.is_file() and b"root's" in path.read_bytes()]


def test_a_file_that_is_larger_than_the_disk_is_not_copied(cpi: Cpi, place: Place, tmp_path: Path) -> None:
    """A hole of a file takes no room where it came from: neither a generation nor a promotion is filled with it."""
    os.truncate(place.dest / DESK / "1/field-notes.db", 1 << 43)
    with open_desk(place.dest) as desk:
        taken = take_desk(desk, tmp_path)
    assert taken.sum == "" and "/desk/1 needs 17,592,186," in taken.fault and not (tmp_path / DESK).exists()
    home = tmp_path / "home"
    home.mkdir()
    ran = run(cpi, "promote", place.dest, "--office", home / "office.db", "--desk", home / "desk")
    assert (
        ran.status == 0 and "the desk's folder isn't in its place: " in ran.err and "/desk/1 has 8,796,093," in ran.err
    )
    assert not (home / "desk").exists()


def test_names_that_can_not_be_together_keep_nothing_away(place: Place, tmp_path: Path) -> None:
    """Whoever has the copies changed a file to a folder while it was opened."""
    with open_desk(place.dest) as desk:
        assert desk.listed
        both = {**desk.listed.files, "rows.json/x": desk.listed.files["rows.json"]}
        files = {**desk.files, "rows.json/x": desk.files["rows.json"]}
        taken = take_desk(desk._replace(listed=desk.listed._replace(files=both), files=files), tmp_path)
    assert taken.sum == "" and taken.fault and not (tmp_path / DESK).exists()


# ---- the repository


def test_what_comes_out_in_another_way_counts_as_failed(
    cpi: Cpi, place: Place, monkeypatch: pytest.MonkeyPatch
) -> None:
    take_out = Repository.take_out

    def other(self: Repository, name: str, to: Callable[[str], Optional[Path]]) -> set[str]:
        written, log = take_out(self, name, to), to(f"{DESK}/1/desk.log")
        assert log
        log.write_bytes(log.read_bytes()[:-1])
        return written

    monkeypatch.setattr(Repository, "take_out", other)
    ran = run(cpi, "keep", *place)
    assert ran.status == FAILED_DRILL and "its desk's folder isn't the one that was put in" in ran.err


@pytest.fixture
def few_open() -> Iterator[None]:
    """A process may have few files open, but more if it asks."""
    soft, hard = resource.getrlimit(resource.RLIMIT_NOFILE)
    resource.setrlimit(resource.RLIMIT_NOFILE, (128, hard))
    yield
    resource.setrlimit(resource.RLIMIT_NOFILE, (soft, hard))


@pytest.mark.usefixtures("few_open")
def test_a_folder_of_many_files_comes_whole(office: Path, desk: DeskRoom, place: Place, tmp_path: Path) -> None:
    for number in range(300):
        desk.keep(f"tables/{number}.csv", f"{number}")
    carried_desk(office, desk, place)
    with open_desk(place.dest) as opened:
        taken = take_desk(opened, tmp_path)
    assert taken.fault == "" and taken == kept_desk_in(tmp_path)
    assert files_of(tmp_path / DESK / "1") == desk.files


def test_only_what_changed_takes_room(office: Path, desk: DeskRoom, place: Place, tmp_path: Path) -> None:
    """Of a large log and large notes of the field a line and a note more."""
    desk.say("".join(f"{number} " for number in range(300_000)))
    desk.field(os.urandom(4_000_000))
    repository, sizes = repository_of(place.folder), list[int]()
    repository.make()
    for number in range(2):
        carried_desk(office, desk, place)
        (tmp_path / f"{number}").mkdir()
        with open_desk(place.dest) as opened:
            assert take_desk(opened, tmp_path / f"{number}").fault == ""
        repository.put(f"{number}", NOW, tmp_path / f"{number}", [DESK])
        sizes.append(
            sum(path.stat().st_size for path in (place.folder / "repository/data").rglob("*") if path.is_file())
        )
        desk.say()
        desk.field()
    assert sizes[0] > 4_000_000 and sizes[1] - sizes[0] < 400_000

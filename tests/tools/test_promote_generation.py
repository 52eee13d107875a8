"""`cpi-tools promote --generation`: an accident that got into both copies doesn't get into what was kept before, and a
generation is promoted with the marks and refusals of a copy."""

from __future__ import annotations

from collections.abc import Callable
from pathlib import Path
from typing import Optional

import pytest

from cpi_tools.guard.copies.borg import FOLDER, Repository
from cpi_tools.guard.follow import mark_beside
from cpi_tools.guard.copies.generations import FAILED, PASSED, last_drill_of, repository_of
from cpi_tools.guard.keep import FAILED_DRILL
from cpi_tools.office.program import Cpi
from cpi_tools.guard.copies.second_copies import MARK, NAMES, OFFICE, second_text, state_of
from .accidents import ACCIDENTS, ANSWERED, WANTED, page_gone_bad, prices_in, priced
from .generations import Place, carried, forged, made_place
from .offices import LOAD_KEY, LOAD_MONTH
from .ran import Ran, run

pytestmark = pytest.mark.usefixtures("quick_borg")


@pytest.fixture
def tmp_path(memory: Path) -> Path:
    """A test's own folder."""
    return memory


@pytest.fixture
def backup(cpi: Cpi, office: Path, tmp_path: Path) -> Path:
    """A backup of before 40 prices, which the office has."""
    made = tmp_path / "backup.db"
    assert run(cpi, "backup", office, made).status == 0
    priced(cpi, office, 1, ANSWERED)
    return made


@pytest.fixture
def place(cpi: Cpi, office: Path, backup: Path, tmp_path: Path) -> Place:
    """A place whose copies have these prices, and one generation too."""
    made = made_place(office, tmp_path)
    assert run(cpi, "keep", *made).status == 0
    return made


@pytest.fixture
def name(place: Place) -> str:
    """The name of that generation."""
    last = last_drill_of(place.dest)
    assert last and last.generation
    return last.generation


@pytest.fixture
def home(tmp_path: Path) -> Path:
    """The folder of the second machine's office."""
    (tmp_path / "home").mkdir()
    return tmp_path / "home"


def promoted(cpi: Cpi, place: Place, home: Path, name: str, *words: object) -> Ran:
    to = ("--office", home / OFFICE, "--kept", place.folder)
    return run(cpi, "promote", place.dest, *to, "--generation", name, *words)


@pytest.mark.parametrize("accident", ACCIDENTS)
def test_what_got_into_both_copies_is_not_in_what_was_kept(
    accident: str, cpi: Cpi, office: Path, backup: Path, place: Place, name: str, home: Path
) -> None:
    """Somebody said --anew, or the bad page came by a follower that looked at none: the next generation has it, too, or
    fails its drill, and the one before still has the 40 prices."""
    if accident == "page gone bad":
        for each in NAMES:
            page_gone_bad(cpi, place.dest / each / OFFICE, backup)
            forged(place.dest / each)
        assert run(cpi, "keep", *place).status == FAILED_DRILL
        assert run(cpi, "promote", place.dest, "--office", home / OFFICE).status == 1
    else:
        ACCIDENTS[accident](cpi, office, backup)
        carried(office, place, 2, is_anew=True)
        assert run(cpi, "keep", *place).status == 0
    assert len(place.archives()) == 2 and not (place.dest / MARK).exists()
    ran = promoted(cpi, place, home, name)
    assert (ran.status, ran.err) == (0, "")
    assert ran.out.startswith(f"{home / OFFICE}: generation {name} of ") and " is the office now, with " in ran.out
    assert prices_in(cpi, home / OFFICE) == WANTED
    assert (place.dest / MARK).exists()


def test_the_log_of_a_generation_comes_with_it(cpi: Cpi, office: Path, place: Place, home: Path) -> None:
    """A price is only in the log; the last lines say since when answers may be missing."""
    with cpi.session(office) as session:
        (receipt,) = (session.ask(f"60,{LOAD_KEY},quote,90,{LOAD_MONTH},price,777")["receipt"],)
        carried(office, place)
    newest = state_of(place.dest).last()
    assert run(cpi, "keep", *place).status == 0
    last = last_drill_of(place.dest)
    assert newest and last and last.copied == newest.copied and newest.log.size
    ran = promoted(cpi, place, home, last.generation)
    assert f"answered since {second_text(newest.copied)} ({newest.copied}) may be missing" in ran.out
    assert sorted(path.name for path in home.iterdir()) == [OFFICE, f"{OFFICE}-wal"]
    assert {path.stat().st_mode & 0o777 for path in home.iterdir()} == {0o600}
    assert cpi.replay([f"70,{LOAD_KEY},quote,90,{LOAD_MONTH},price,777"], db=home / OFFICE) == [{"receipt": receipt}]


def test_a_name_that_is_not_there_prints_those_that_are(cpi: Cpi, place: Place, name: str, home: Path) -> None:
    """What failed its drill isn't among them, and can't be promoted by its name."""
    repository = repository_of(place.folder)
    failed = "2026-01-01-000000"
    (place.folder / OFFICE).write_bytes(b"bad")
    repository.put(f"{FAILED}{failed}", 1_800_000_000, place.folder, [OFFICE])
    for asked in ("list", failed, f"{PASSED}{name}", f"{FAILED}{failed}", "", "*", "::"):
        ran = promoted(cpi, place, home, asked)
        assert (ran.status, ran.out) == (1, f"{name}\n")
        fault = f"{place.folder} has no generation {asked}: those that passed their drill are listed"
        assert ran.err == f"cpi-tools promote: {fault}\n"
    assert [*home.iterdir()] == [] and not (place.dest / MARK).exists()


def test_a_repository_that_is_not_there_is_named(cpi: Cpi, place: Place, name: str, home: Path, tmp_path: Path) -> None:
    (place.folder / FOLDER).rename(tmp_path / "gone")
    fault = f"{place.folder}/repository isn't there, so no generation was kept in {place.folder}"
    ran = promoted(cpi, place, home, name)
    assert (ran.status, ran.out, ran.err) == (1, "", f"cpi-tools promote: {fault}\n")
    place.folder.rename(tmp_path / "away")
    ran = promoted(cpi, place, home, name)
    assert (ran.status, ran.err) == (1, f"cpi-tools promote: {place.folder}: No such file or directory\n")
    assert [*home.iterdir()] == [] and not (place.dest / MARK).exists()


def test_what_comes_out_in_another_way_is_refused(
    cpi: Cpi, place: Place, name: str, home: Path, monkeypatch: pytest.MonkeyPatch
) -> None:
    take_out = Repository.take_out

    def other(self: Repository, archive: str, to: Callable[[str], Optional[Path]]) -> set[str]:
        written, office = take_out(self, archive, to), to(OFFICE)
        assert office
        office.write_bytes(office.read_bytes()[:-1])
        return written

    monkeypatch.setattr(Repository, "take_out", other)
    ran = promoted(cpi, place, home, name)
    assert (ran.status, ran.out, ran.err.count("\n")) == (1, "", 1)
    assert f"{place.folder}/{name} can't be taken, and nothing was promoted: it isn't whole: office.db has " in ran.err
    assert [*home.iterdir()] == [] and not (place.dest / MARK).exists()


def test_the_repositorys_own_fault_is_said(cpi: Cpi, place: Place, name: str, home: Path) -> None:
    """A disk lost what it had: borg finds that by its sums."""
    for path in (place.folder / FOLDER / "data").rglob("*"):
        if path.is_file() and path.stat().st_size > 20_000:
            content = bytearray(path.read_bytes())
            content[10_000:18_000] = bytes(8000)
            path.write_bytes(content)
    ran = promoted(cpi, place, home, name)
    assert (ran.status, ran.out, ran.err.count("\n")) == (1, "", 1)
    assert f"cpi-tools promote: {place.folder}/repository: " in ran.err
    assert [*home.iterdir()] == [] and not (place.dest / MARK).exists()


def test_the_marks_and_refusals_are_those_of_a_copy(cpi: Cpi, place: Place, name: str, home: Path) -> None:
    assert promoted(cpi, place, home, name).status == 0
    promotion, to = state_of(place.dest).promotion, home / OFFICE
    assert promotion
    (receipt,) = (reply["receipt"] for reply in cpi.replay([f"60,{LOAD_KEY},quote,99,{LOAD_MONTH},price,5"], db=to))
    before = to.read_bytes()
    ran = promoted(cpi, place, home, name, "--replace")
    assert ran.status == 1 and f"{promotion.machine} was promoted {second_text(promotion.promoted)}" in ran.err
    (place.dest / MARK).unlink()
    ran = promoted(cpi, place, home, name)
    assert ran.status == 1 and f"{to} is there already (--replace puts it aside, with its log)" in ran.err
    ran = promoted(cpi, place, home, name, "--replace")
    assert ran.status == 1 and f"took prices since the copy of {second_text(promotion.copied)}: receipt " in ran.err
    assert to.read_bytes() == before and not (place.dest / MARK).exists() and receipt
    mark_beside(to).write_text("another machine was promoted\n")
    ran = promoted(cpi, place, home, name, "--replace", "--again")
    assert (ran.status, ran.err) == (0, "") and not mark_beside(to).exists()
    assert prices_in(cpi, to) == WANTED

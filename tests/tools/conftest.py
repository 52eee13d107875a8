"""What these tests share: an office that the program made."""

from __future__ import annotations

import os
import tempfile
from collections.abc import Iterator
from pathlib import Path

import pytest

from lib.installing import fault_of

FAULT = fault_of("tools/setup")
"""Why there are no tests here: what they need can't be installed."""

if not FAULT:
    from cpi_tools.office.public import Published, from_file
    from cpi_tools.office.program import Cpi
    from lib.places import ROOT
    from lib.sample import Sample

    from . import surveys
    from .borgs import loaded_borg
    from .desk_apps import ADA, Application, Person, applied
    from .offices import lived
    from .packages import made_package
    from .published import Office, made as made_public


def pytest_ignore_collect() -> None:
    """One line says that no test can be read."""
    if FAULT:
        pytest.fail(FAULT, pytrace=False)


@pytest.fixture(scope="session")
def times(request: pytest.FixtureRequest, sample: Sample) -> int:
    """How many backups each test under load makes."""
    most: int = request.config.getoption("--times")
    return sample.count(min(5, most), most)


@pytest.fixture(scope="session")
def made(cpi: Cpi, request: pytest.FixtureRequest, tmp_path_factory: pytest.TempPathFactory) -> Path:
    """The file of an office of fifteen months; tests copy it, and none writes to it."""
    file = tmp_path_factory.mktemp("made") / "office.db"
    if before := request.config.getoption("--office"):
        file.write_bytes(Path(before).read_bytes())
        return file
    refused = [reply for reply in cpi.replay(lived(), db=file) if "refused" in reply]
    assert not refused
    (file.parent / "office.db-wal").unlink(missing_ok=True)
    return file


@pytest.fixture
def office(made: Path, tmp_path: Path) -> Path:
    """A test's own file of that office."""
    file = tmp_path / "office.db"
    file.write_bytes(made.read_bytes())
    return file


@pytest.fixture(scope="session")
def public_office(cpi: Cpi, tmp_path_factory: pytest.TempPathFactory) -> Office:
    """An office with 31 months of tables, some under embargo; no test writes to its file."""
    return made_public(cpi, tmp_path_factory.mktemp("published") / "office.db")


@pytest.fixture(scope="session")
def published(cpi: Cpi, public_office: Office) -> list[Published]:
    """What the public reads of it."""
    return from_file(cpi, public_office.file, public_office.at)


@pytest.fixture
def application(cpi: Cpi, tmp_path: Path) -> Iterator[Application]:
    """The desk's application over the small office, which is served meanwhile; its last frozen month is January 2026, and
    its three series end in December."""
    with applied(cpi, surveys.small(cpi, tmp_path), tmp_path / "room") as it:
        yield it


@pytest.fixture
def ada(application: Application) -> Person:
    """A person who is signed in there."""
    return application.person(ADA)


@pytest.fixture(scope="session")
def package(cpi: Cpi, tmp_path_factory: pytest.TempPathFactory) -> Path:
    """The package of the program that is tried. The files whose tests read it have the mark `xdist_group("package")`, so
    one process makes it."""
    return made_package(ROOT, tmp_path_factory.mktemp("package"), cpi)


@pytest.fixture(scope="session")
def borg_folder() -> Iterator[Path]:
    """The folder of a program `borg` that is loaded once."""
    with tempfile.TemporaryDirectory(prefix="cpi-borg-") as folder, loaded_borg(Path(folder)) as it:
        yield it


@pytest.fixture
def quick_borg(borg_folder: Path, monkeypatch: pytest.MonkeyPatch) -> None:
    """Runs of borg needn't load it. (Those of test_keep_as_root.py and test_kept_repository.py do.)"""
    monkeypatch.setenv("PATH", f"{borg_folder}:{os.environ['PATH']}")


@pytest.fixture
def memory() -> Iterator[Path]:
    """A folder in memory, if there is one: an archive is 25 syncs, which a busy disk takes seconds for."""
    shared = Path("/dev/shm")
    with tempfile.TemporaryDirectory(dir=shared if os.access(shared, os.W_OK) else None) as name:
        yield Path(name)

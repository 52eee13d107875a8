"""What all tests share: the program that is tried, and how many of the exhaustive checks a run takes."""

from __future__ import annotations

import os
import sys
from pathlib import Path
from typing import TYPE_CHECKING

import pytest

if TYPE_CHECKING:
    from cpi_tools.office.program import Cpi

HERE = Path(__file__).resolve().parent

# (until all tests are read: tests/run)
sys.dont_write_bytecode = not sys.pycache_prefix
sys.path[:0] = [str(HERE), str(HERE.parent / "tools")]

from lib.program import Program  # noqa: E402
from lib.sample import Sample, sample_of  # noqa: E402

pytest_plugins = ["lib.session", "lib.untested"]


def pytest_addoption(parser: pytest.Parser) -> None:
    """The options of some folders."""
    parser.addoption("--times", type=int, default=20, help="how many backups each test under load makes (tests/tools)")
    parser.addoption("--office", default=None, help="the office of tests/tools, made before (else it is made)")
    parser.addoption("--leave-out", action="append", default=[], help="what isn't here on purpose (tests/outside)")
    parser.addoption("--kills", type=int, default=100, help="how often the first machine is killed (tests/outside)")
    parser.addoption("--every", type=int, default=1, help="seconds from one round of the second copy to the next there")


def pytest_collection_finish() -> None:
    """What Python makes of modules that tests write isn't kept."""
    sys.dont_write_bytecode = True


@pytest.fixture(scope="session")
def program_file(request: pytest.FixtureRequest) -> str:
    """The file of the program that is tried."""
    file = os.path.abspath(request.config.option.program or HERE.parent / "crates/cpi/out/cpi")
    if not os.access(file, os.X_OK):
        pytest.fail(f"there is no program {file}: --program FILE names it; ./cpi-build builds it", pytrace=False)
    return file


@pytest.fixture(scope="session")
def program(program_file: str) -> Program:
    """The program that is tried."""
    return Program(program_file)


@pytest.fixture(scope="session")
def cpi(program_file: str) -> Cpi:
    """The program that is tried, as cpi-tools runs it."""
    from cpi_tools.office.program import Cpi

    return Cpi(program_file)


@pytest.fixture(scope="session")
def sample(request: pytest.FixtureRequest) -> Sample:
    """How many of the exhaustive checks this run takes."""
    return sample_of(request.config)


@pytest.fixture
def room(tmp_path: Path) -> str:
    """A new folder."""
    return str(tmp_path)

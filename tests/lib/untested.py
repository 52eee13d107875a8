"""Lists the lines of cpi-tools that no test reaches: `tests/run tests --long --coverage`.

It measures each process that reads cpi-tools: those of pytest, and those that tests start, by Debian's python3-coverage.
A process is found by the folder of a user's packages, which the variable PYTHONUSERBASE names; a test that hands on no
variables, or that starts Python with -I or -s, isn't measured there. What was noted lies in a folder of its own until the
end. Without --coverage nothing is measured.
"""

from __future__ import annotations

import os
import shutil
import site
import sysconfig
import tempfile
from collections.abc import Mapping
from pathlib import Path
from typing import Any, NamedTuple

import pytest

from . import measuring
from .places import ROOT

SOURCES = ROOT / "tools" / measuring.PACKAGE
VARIABLE = "PYTHONUSERBASE"

BEGIN = """\
import measuring

measuring.wait({sources!r}, {notes!r})
"""
"""The code that each Python process runs at its start."""


def pytest_addoption(parser: pytest.Parser) -> None:
    """Adds the option."""
    told = "tell which lines of tools/cpi_tools no test reaches"
    parser.getgroup("cpi").addoption("--coverage", action="store_true", help=told)


def pytest_configure(config: pytest.Config) -> None:
    """Measures from now on, with the processes that are started; these find the variable, and so need no option."""
    if config.option.coverage and not hasattr(config, "workerinput"):
        config.pluginmanager.register(Untested(), "untested")


class Reached(NamedTuple):
    """The statements of a file by their lines, the statements that no test reaches, and these as text."""

    file: str
    statements: list[int]
    missing: list[int]
    told: str


def reached(lines: Mapping[str, set[int]]) -> list[Reached]:
    """The statements of each file that tests reach, from the lines that were run."""
    from coverage import Coverage  # type: ignore[import]

    found = Coverage(data_file=None, config_file=False)
    found.exclude("if TYPE_CHECKING:")
    found.get_data().add_lines({str(SOURCES / name): numbers for name, numbers in lines.items() if name})
    files = []
    for path in sorted(SOURCES.rglob("*.py")):
        _, statements, _, missing, told = found.analysis2(str(path))
        files.append(Reached(str(path.relative_to(ROOT)), statements, missing, told))
    return files


def told_of(files: list[Reached]) -> list[str]:
    """The figure, and the lines that no test reaches."""
    statements, missing = (
        sum(len(numbers) for numbers in found) for found in zip(*((file[1], file[2]) for file in files))
    )
    percent = 100 * (statements - missing) / statements
    head = f"coverage: tests reach {percent:.2f} percent of tools/cpi_tools: {statements} statements, {missing} missing"
    return [head, *(f"{file.file}: {file.told}" for file in files if file.missing)]


def prepare(folder: Path) -> Path:
    """Has each process of Python that finds the folder in its variable note its lines; the folder of these notes."""
    notes = folder / "notes"
    notes.mkdir()
    packages = Path(sysconfig.get_path("purelib", "posix_user", vars={"userbase": str(folder)}))
    packages.mkdir(parents=True)
    (packages / "before.pth").write_text(f"{site.getusersitepackages()}\n", encoding="utf-8")
    shutil.copy(measuring.__file__, packages / "measuring.py")
    begin = BEGIN.format(sources=str(SOURCES), notes=str(notes))
    (packages / "usercustomize.py").write_text(begin, encoding="utf-8")
    # (tests run cpi-tools as other users too)
    folder.chmod(0o755)
    notes.chmod(0o777)
    return notes


class Untested:
    """Measures until it prints the result, before the last lines."""

    def __init__(self) -> None:
        self.folder = Path(tempfile.mkdtemp(prefix="cpi-coverage-"))
        self.notes = prepare(self.folder)
        self.before = os.environ.get(VARIABLE)
        os.environ[VARIABLE] = str(self.folder)
        # (this process has read some of it already; what that runs is run by others too)
        self.measuring = measuring.Measuring(str(SOURCES), str(self.notes))
        self.measuring.begin()

    def pytest_terminal_summary(self, terminalreporter: Any) -> None:
        """Prints the result."""
        self.measuring.note()
        for line in told_of(reached(measuring.lines_of(str(self.notes)))):
            terminalreporter.write_line(line)

    def pytest_unconfigure(self) -> None:
        """Removes the folders."""
        if self.before is None:
            del os.environ[VARIABLE]
        else:
            os.environ[VARIABLE] = self.before
        shutil.rmtree(self.folder, ignore_errors=True)

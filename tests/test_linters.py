"""Reads all sources by linters: types, layout, names, spelling, and the faults that shells and browsers don't tell.

- mypy --strict: each file in Python
- black -l 120: each file in Python
- pyflakes: names that are imported and not used, or used and not there
- shellcheck: each shell script, known by its ending or its first line
- codespell: code and documents, but for tests/linters/words.txt: words of the toolchain, and names in proofs
- merges: no file has lines that git leaves where two changes met
- imports: a module of the companions imports what its folder's README allows
- docstrings: each public function of the tools, the companions and the benches has one
- tsc --checkJs: the scripts of web/ and of the pages that the tools write, with tests/linters/*.d.ts

What a file is known to have is in tests/linters/known.txt, a line `LINTER COUNT FILE`; with more findings it fails, and
with fewer too, until the line says so. Before all, tests/linters/setup.sh installs the linters from Debian's packages.
`-k mypy` runs one of them.
"""

from __future__ import annotations

import subprocess

import pytest
from tree import written_in

from lib.fault import Fault
from lib.linting import LINTERS, Linter
from lib.places import ROOT
from lib.tried import fault_in

KNOWN = ROOT / "tests/linters/known.txt"
SHOWN = 5
"""At most so many findings of a file are printed."""

BY_NAME = {linter.name: linter for linter in LINTERS}


@pytest.fixture(scope="session")
def installed() -> None:
    """The linters are there."""
    ran = subprocess.run([ROOT / "tests/linters/setup.sh"], stderr=subprocess.PIPE, text=True, check=False)
    if ran.returncode:
        pytest.fail(ran.stderr, pytrace=False)


def known_counts() -> dict[tuple[str, str], int]:
    """By linter and file, how many findings are known; empty lines and comments (#) aren't read."""
    lines = KNOWN.read_text(encoding="utf-8").splitlines()
    rows = [line.split() for line in lines if line.strip() and not line.startswith("#")]
    return {(linter, file): int(count) for linter, count, file in rows}


def files_of(linter: Linter) -> list[str]:
    """The files that a linter reads."""
    return [file for language in linter.languages for file in written_in(language)]


def fault_of(found: list[str], known: int) -> Fault:
    """What is wrong with a file in which this was found, if so many findings are known."""
    if len(found) < known:
        return f"{len(found)} findings, so tests/linters/known.txt has to say so (now {known})"
    if len(found) > known:
        return f"{len(found)} findings, {known} are known: {'; '.join(found[:SHOWN])}"
    return None


@pytest.mark.timeout(3600)
@pytest.mark.usefixtures("installed")
@pytest.mark.parametrize("name", BY_NAME)
def test_a_linter_finds_what_is_known(name: str) -> None:
    files, known = files_of(BY_NAME[name]), known_counts()
    found = BY_NAME[name].found(files)
    assert fault_in((file, fault_of(found.get(file, []), known.get((name, file), 0))) for file in files) is None


def test_each_known_finding_is_of_a_file_that_is_there() -> None:
    read = {(linter.name, file) for linter in LINTERS for file in files_of(linter)}
    assert sorted(known_counts().keys() - read) == []

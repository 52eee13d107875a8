"""Which Python the starters take: the one that is named, else the system's, else the first of PATH."""

from __future__ import annotations

import os
import subprocess
import sys
from pathlib import Path

import pytest

from lib.places import ROOT
from .ran import Ran

START = ROOT / "tools/cpi_tools/start"
STARTERS = ("cpi-tools", "ops/try")


def stand_in(folder: Path, commands: str) -> Path:
    """A folder whose `python3` is a script of a shell."""
    folder.mkdir()
    python = folder / "python3"
    python.write_text(f"#!/bin/sh\n{commands}\n", encoding="ascii")
    python.chmod(0o755)
    return folder


def ran(words: list[str], before: Path, python: str = "") -> Ran:
    """The end of a command with a folder before all others of PATH, and a Python that is named or none."""
    kept = {name: value for name, value in os.environ.items() if name != "CPI_PYTHON"}
    kept["PATH"] = f"{before}:{kept['PATH']}"
    given = {**kept, **({"CPI_PYTHON": python} if python else {})}
    found = subprocess.run(words, capture_output=True, text=True, env=given, check=False)
    return Ran(found.returncode, found.stdout, found.stderr)


@pytest.mark.skipif(not os.access("/usr/bin/python3", os.X_OK), reason="this system has no /usr/bin/python3")
@pytest.mark.parametrize("starter", STARTERS)
def test_the_systems_python_goes_before_the_first_of_path(starter: str, tmp_path: Path) -> None:
    """Such as that of pyenv, which has none of Debian's packages."""
    other = stand_in(tmp_path / "bin", "echo 'another Python' >&2; exit 9")
    found = ran([str(ROOT / starter), "--help"], other)
    assert (found.status, found.err) == (0, "") and "usage:" in found.out


@pytest.mark.parametrize("starter", STARTERS)
def test_a_python_that_is_named_goes_before_all(starter: str, tmp_path: Path) -> None:
    other = stand_in(tmp_path / "bin", "echo 'another Python' >&2; exit 9")
    assert ran([str(ROOT / starter), "--help"], other, str(other / "python3")) == Ran(9, "", "another Python\n")
    assert ran([str(ROOT / starter), "--help"], other, sys.executable).status == 0


def test_a_system_without_a_python_of_its_own_takes_the_first_of_path(tmp_path: Path) -> None:
    """As where Python is at another place than Debian's."""
    text = START.read_text(encoding="utf-8")
    assert text.count("/usr/bin/python3") == 1
    at = tmp_path / "tools/cpi_tools/start"
    at.parent.mkdir(parents=True)
    at.write_text(text.replace("/usr/bin/python3", f"{tmp_path}/nowhere/python3"), encoding="utf-8")
    at.chmod(0o755)
    first = stand_in(tmp_path / "bin", 'echo "first of PATH, $PYTHONPATH"')
    assert ran([str(at), "-c", "pass"], first).out.startswith(f"first of PATH, {tmp_path}/tools")

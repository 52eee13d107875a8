"""A machine that is killed under load, and a second one that is promoted: nothing that was answered is lost for good."""

from __future__ import annotations

import random
import shutil
from pathlib import Path

import pytest

from cpi_tools.guard.gaps import MISSING
from cpi_tools.office.program import Cpi
from .second_machines import LEAST, Answered, gaps_of, kill_and_promote, machine, receiver, surveyed

SHELL = '#!/bin/sh\nshift\nexec sh -c "$*"\n'
"""A stand-in for ssh, which runs the command on this machine."""


@pytest.fixture(scope="module")
def survey(cpi: Cpi, tmp_path_factory: pytest.TempPathFactory) -> Path:
    """The file of an office to which nothing was sent yet."""
    return surveyed(cpi, tmp_path_factory.mktemp("survey") / "office.db")


@pytest.mark.sampled(1)
@pytest.mark.parametrize("way, seed", [("folder", 1), ("rsync", 2), ("receiver", 3)])
def test_a_killed_machine_is_followed_by_a_second_one(
    way: str, seed: int, cpi: Cpi, survey: Path, tmp_path: Path
) -> None:
    """Twenty collectors send as fast as they are answered; tests/outside does it many times, over a network."""
    if way != "folder" and not (shutil.which("rsync") and shutil.which("rrsync")):
        pytest.skip("there is no rsync")
    first, second, dest = machine(tmp_path / "first"), machine(tmp_path / "second"), tmp_path / "copy"
    dest.mkdir()
    shutil.copy(survey, first.office)
    shell = tmp_path / "shell"
    shell.write_text(SHELL)
    shell.chmod(0o755)
    if way == "folder":
        follow = [str(dest)]
    elif way == "rsync":
        follow = [f"second:{dest}", "--ssh", str(shell)]
    else:
        follow = ["second:.", "--ssh", receiver(shell, dest)]
    kill = kill_and_promote(cpi, first, second, follow, dest, random.Random(seed))
    assert kill.answered > LEAST and kill.missing_after == 0 and kill.age >= 0


def test_a_fault_of_gaps_is_not_taken_for_missing_prices(tmp_path: Path) -> None:
    """A machine without an office: the test ends with the reason, not with a list of no slots."""
    with pytest.raises(AssertionError, match="office.db: No such file or directory"):
        gaps_of(machine(tmp_path / "nobody"), [Answered(1, 1, 5, 1, 0.0)], MISSING)

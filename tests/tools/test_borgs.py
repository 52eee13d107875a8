"""`tests/tools/borgs.py`: a run of the borg that is loaded once is one of borg."""

from __future__ import annotations

import os
import shutil
import subprocess
import time
from pathlib import Path

import pytest

from cpi_tools.guard.copies.borg import LOCKED


@pytest.fixture
def environment(tmp_path: Path) -> dict[str, str]:
    """What borg is told of its place and of its host."""
    yes = dict.fromkeys(("BORG_UNKNOWN_UNENCRYPTED_REPO_ACCESS_IS_OK", "BORG_RELOCATED_REPO_ACCESS_IS_OK"), "yes")
    return {
        "PATH": os.environ["PATH"],
        "LC_ALL": "C.UTF-8",
        "BORG_BASE_DIR": str(tmp_path),
        "BORG_HOST_ID": "h@1",
        **yes,
    }


def test_it_answers_as_borg_itself(borg_folder: Path, tmp_path: Path, environment: dict[str, str]) -> None:
    itself = shutil.which("borg")
    assert itself and Path(itself).parent != borg_folder
    for words, status in ((["--version"], 0), (["list", f"{tmp_path}/none"], 2), (["nonsense"], 2)):
        ran = [
            subprocess.run([each, *words], env=environment, capture_output=True, text=True, check=False)
            for each in (itself, f"{borg_folder}/borg")
        ]
        assert [it.returncode for it in ran] == [status, status]
        assert ran[0].stdout == ran[1].stdout and ran[0].stderr == ran[1].stderr


def test_a_run_ends_with_the_program_that_asked(borg_folder: Path, tmp_path: Path, environment: dict[str, str]) -> None:
    """Until then it has the lock in the name of its host and its own process."""
    borg, repository = f"{borg_folder}/borg", tmp_path / "repository"
    subprocess.run([borg, "init", "--encryption", "none", repository], env=environment, check=True)
    words = [borg, "with-lock", str(repository), "sh", "-c", "echo locked; cat"]
    with subprocess.Popen(words, env=environment, stdin=subprocess.PIPE, stdout=subprocess.PIPE) as asked:
        assert asked.stdout and asked.stdout.readline() == b"locked\n"
        (name,) = os.listdir(repository / LOCKED)
        host, _, process = name.removesuffix("-0").rpartition(".")
        assert host == "h@1" and Path(f"/proc/{process}").exists()
        asked.kill()
        ends = time.monotonic() + 60
        while Path(f"/proc/{process}").exists():
            assert time.monotonic() < ends
            time.sleep(0.01)

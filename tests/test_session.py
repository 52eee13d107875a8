"""Tests what the runs of tests print and count: tests/lib/session.py, over small folders of tests."""

from __future__ import annotations

import os
import re
import subprocess
import sys
from pathlib import Path

import pytest

from lib.places import ROOT

pytestmark = pytest.mark.spread

ONCE = """
from pathlib import Path

def test_passes_once_it_failed():
    mark = Path(__file__).with_name("mark{number}")
    is_second = mark.exists()
    mark.touch()
    assert is_second
"""
FAILS = "def test_fails():\n    assert 1 == 2\n"
PASSES = "def test_passes():\n    assert 1 == 1\n"


def ran(folder: Path, *words: str, **files: str) -> tuple[int, list[str]]:
    """The exit status and the lines of a run over test files with these texts."""
    settings = (ROOT / "tests/pytest.ini").read_text(encoding="utf-8")
    (folder / "pytest.ini").write_text(settings.replace("timeout = 900", "timeout = 2"), encoding="utf-8")
    (folder / "second_tries.txt").write_text("# so many\n2\ntest_0.py::test_passes_once_it_failed a slow machine\n")
    (folder / "conftest.py").write_text('pytest_plugins = ["lib.session"]\n')
    for name, text in files.items():
        (folder / f"test_{name.strip('_')}.py").write_text(text)
    environment = {**os.environ, "PYTHONPATH": str(ROOT / "tests")}
    for name in ("PYTEST_XDIST_WORKER", "PYTEST_ADDOPTS"):
        environment.pop(name, None)
    command = [sys.executable, "-B", "-m", "pytest", "-c", str(folder / "pytest.ini"), str(folder), *words]
    run = subprocess.run(command, cwd=folder, env=environment, capture_output=True, text=True, check=False)
    return run.returncode, (run.stdout + run.stderr).splitlines()


@pytest.mark.parametrize("processes", ["0", "2"])
def test_last_line(tmp_path: Path, processes: str) -> None:
    """It has what passed and what failed."""
    assert ran(tmp_path, "-n", processes, a=PASSES, b=PASSES)[1][-1] == "2 passed, 0 failed"
    status, lines = ran(tmp_path, "-n", processes, c=FAILS)
    assert (status, lines[-1]) == (1, "2 passed, 1 failed")


@pytest.mark.parametrize(
    "text, counts",
    [
        ("import nothing_of_this_name\n", "0 passed, 1 failed"),
        ("", "0 passed, 1 failed"),
        ("import time\n\ndef test_hangs():\n    time.sleep(60)\n", "0 passed, 1 failed"),
        ("import os\n\ndef test_dies():\n    os._exit(0)\n", "0 passed, 1 failed"),
        ("def test_of_no_fixture(nothing):\n    pass\n", "0 passed, 1 failed"),
    ],
    ids=[
        "that can't be read",
        "without a test",
        "with a test that hangs",
        "that ends the process",
        "without a fixture",
    ],
)
def test_file_that_fails(tmp_path: Path, text: str, counts: str) -> None:
    """A file of tests that can't be run to its end is a failure, and the run ends."""
    status, lines = ran(tmp_path, "-n", "1", a=text)
    assert status != 0
    assert lines[-1] == counts


def test_file_that_one_process_can_not_read(tmp_path: Path) -> None:
    """Without further processes pytest breaks such a run off; its last line counts the file."""
    status, lines = ran(tmp_path, "-n", "0", a="import nothing_of_this_name\n", b=PASSES)
    assert status != 0
    assert lines[-1] == "0 passed, 1 failed"


def test_second_tries(tmp_path: Path) -> None:
    """A test that passes then is counted, and printed; one that no line names is new."""
    texts = {f"_{number}": ONCE.format(number=number) for number in (0, 1)}
    status, lines = ran(tmp_path, "-n", "2", a=PASSES, **texts)
    assert (status, lines[-1]) == (0, "3 passed, 0 failed")
    assert lines[-3:-1] == [
        "passed at its second try only: test_0.py::test_passes_once_it_failed",
        "passed at its second try only: test_1.py::test_passes_once_it_failed (new)",
    ]


def test_too_many_second_tries(tmp_path: Path) -> None:
    """If more tests failed than the number in the file, none is tried again."""
    texts = {f"_{number}": ONCE.format(number=number) for number in (0, 1, 2)}
    status, lines = ran(tmp_path, "-n", "2", **texts)
    assert (status, lines[-1]) == (1, "0 passed, 3 failed")


def test_one_that_fails_twice(tmp_path: Path) -> None:
    """It fails, beside one that passes at its second try."""
    status, lines = ran(tmp_path, "-n", "2", a=FAILS, _0=ONCE.format(number=0))
    assert (status, lines[-1]) == (1, "1 passed, 1 failed")


SAMPLED = """
import pytest

@pytest.mark.sampled(5)
@pytest.mark.parametrize("number", range(50))
def test_of_many(number):
    print(f"number {number}.")

@pytest.mark.long
def test_of_a_long_run():
    print("number 100.")

def test_in_each_run(request):
    print("number 101.")
"""


def numbers(folder: Path, *words: str) -> list[int]:
    """The numbers of the tests that such a run takes."""
    status, lines = ran(folder, "-rP", *words, a=SAMPLED)
    assert status == 0
    return sorted(int(element) for line in lines for element in re.findall(r"^number (\d+)\.$", line))


def test_samples(tmp_path: Path) -> None:
    """A short run takes the same part by the same seed, in any number of processes; a long one takes all."""
    first = numbers(tmp_path, "--seed", "7", "-n", "0")
    assert len(first) == 6 and first[-1] == 101
    assert numbers(tmp_path, "--seed", "7", "-n", "3") == first
    assert numbers(tmp_path, "--seed", "8", "-n", "3") != first
    assert numbers(tmp_path, "--long", "-n", "2") == [*range(50), 100, 101]


def test_a_drawn_seed_is_printed(tmp_path: Path) -> None:
    """The first line has it, and it is the same in each process."""
    _, lines = ran(tmp_path, "-rP", "-n", "3", a=SAMPLED)
    (seed,) = re.findall(r"^a short run: --seed (\d+) takes the same sample$", lines[0])
    drawn = sorted(int(element) for line in lines for element in re.findall(r"^number (\d+)\.$", line))
    assert numbers(tmp_path, "--seed", seed) == drawn

"""`tests/run --coverage`: which lines count as run."""

from __future__ import annotations

import os
import shutil
import signal
import subprocess
import sys
from pathlib import Path

import pytest

from lib.measuring import lines_of
from lib.places import ROOT
from lib.untested import SOURCES, VARIABLE, Reached, prepare, reached, told_of


@pytest.fixture
def notes(tmp_path: Path) -> Path:
    """Where processes note their lines."""
    pytest.importorskip("coverage", reason="there is no python3-coverage")
    (tmp_path / "base").mkdir()
    return prepare(tmp_path / "base")


def run(notes: Path, tools: Path, code: str) -> int:
    """The status of a process of Python over some tools."""
    kept = {**os.environ, VARIABLE: str(notes.parent), "PYTHONPATH": str(tools)}
    return subprocess.run([sys.executable, "-B", "-c", code], env=kept, check=False).returncode


KILLED = """\
import os, threading, time
from cpi_tools.office.folders import new_room
from pathlib import Path

def begin():
    with new_room("x", Path({folder!r})):
        time.sleep(3)
        os.kill(os.getpid(), 9)

threading.Thread(target=begin).start()
"""


def line_of(text: str) -> int:
    """The number of the line of rooms.py that begins so."""
    lines = (SOURCES / "office/folders.py").read_text(encoding="utf-8").splitlines()
    (found,) = [at for at, line in enumerate(lines, 1) if line.strip().startswith(text)]
    return found


def test_the_lines_of_a_process_that_is_killed(notes: Path, tmp_path: Path) -> None:
    """Of its threads too; those that it didn't come to aren't there."""
    assert run(notes, ROOT / "tools", KILLED.format(folder=str(tmp_path))) == -signal.SIGKILL
    found = lines_of(str(notes))["office/folders.py"]
    assert {line_of("yield Path(made)"), line_of("_remove_left(place, prefix)")} <= found
    assert line_of("(room / MARK).unlink()") not in found
    assert {it.file for it in reached({"office/folders.py": found}) if len(it.missing) < len(it.statements)} == {
        "tools/cpi_tools/office/folders.py"
    }


def test_a_copy_counts_if_it_has_the_same_bytes(notes: Path, tmp_path: Path) -> None:
    copies = tmp_path / "copies/cpi_tools"
    shutil.copytree(SOURCES, copies, ignore=shutil.ignore_patterns("__pycache__"))
    with (copies / "text/exact.py").open("a", encoding="utf-8") as file:
        file.write("# another one\n")
    assert run(notes, copies.parent, "import cpi_tools.desk.keys.keys_cli, cpi_tools.text.exact") == 0
    lines = lines_of(str(notes))
    assert "desk/keys/keys_cli.py" in lines and "text/exact.py" not in lines


def test_a_process_that_reads_no_tools_notes_nothing(notes: Path) -> None:
    assert run(notes, ROOT / "tools", "import json") == 0
    assert not [*notes.iterdir()]


def test_a_python_without_coverage_runs_its_program_all_the_same(notes: Path) -> None:
    code = "import sys; sys.modules['coverage'] = None; import cpi_tools.office.folders"
    assert run(notes, ROOT / "tools", code) == 0 and not [*notes.iterdir()]


def test_what_is_told() -> None:
    files = [Reached("a.py", [1, 2, 3, 4, 5, 6], [3, 4, 6], "3-4, 6"), Reached("b.py", [1, 2], [], "")]
    assert told_of(files) == [
        "coverage: tests reach 62.50 percent of tools/cpi_tools: 8 statements, 3 missing", "a.py: 3-4, 6"
    ]  # fmt: skip

"""`cpi-tools --version`: the number, what was shipped, and whether that program runs; never a traceback."""

from __future__ import annotations

import hashlib
import os
import re
import shutil
import subprocess
import sys
from pathlib import Path

import pytest

from cpi_tools.office import program
from cpi_tools import version
from lib.places import ROOT
from .ran import Ran

SUM = "a" * 64
PROGRAM, OTHER = "#!/bin/sh\nexit 0\n", "#!/bin/sh\nexit 1\n"


def sha256(text: str) -> str:
    return hashlib.sha256(text.encode()).hexdigest()


def put(path: Path, text: str) -> Path:
    path.parent.mkdir(parents=True, exist_ok=True)
    path.write_text(text)
    path.chmod(0o755)
    return path


@pytest.fixture
def top(tmp_path: Path, monkeypatch: pytest.MonkeyPatch) -> Path:
    """A repository whose sources have the sum SUM, of which dist/ has the program; the companions run its `./cpi`."""
    put(tmp_path / "tools/sources", f"#!/bin/sh\necho {SUM}\n")
    put(tmp_path / "dist/MADE", f"sources: {SUM}\nprogram: {sha256(PROGRAM)}\nkit: kit-1\nmachine: vax\n")
    put(tmp_path / "dist/cpi", PROGRAM)
    monkeypatch.setenv("CPI", str(put(tmp_path / "cpi", "#!/bin/sh\nexit 2\n")))
    return tmp_path


def runs(top: Path) -> str:
    """What is told of the program that runs."""
    last = [*version.lines(top)][-1]
    assert last.startswith("runs: ")
    return last[len("runs: ") :]


def command(*words: object, **variables: str) -> Ran:
    """A call of cpi-tools with `--version`, as a process of its own."""
    kept = {"PATH": os.environ["PATH"], "PYTHONDONTWRITEBYTECODE": "1", **variables}
    ran = subprocess.run([*map(str, words), "--version"], env=kept, capture_output=True, text=True, check=False)
    return Ran(ran.returncode, ran.stdout, ran.stderr)


def test_the_first_line_has_the_number_of_the_changes() -> None:
    heading = r"^## (?:(\d[\d.]*), |Unreleased \((\d[\d.]*)\)$)"
    number, following = re.findall(heading, (ROOT / "CHANGELOG.md").read_text(), re.M)[0]
    ran = command(ROOT / "cpi-tools")
    assert (ran.status, ran.err) == (0, "")
    assert ran.out.splitlines()[0] == f"cpi-tools {number or f'{following}-dev'}"


def test_what_was_shipped_is_told_as_dist_has_it(top: Path) -> None:
    told = [*version.lines(top)]
    assert told[1:4] == [f"sources: {SUM}", "kit: kit-1", f"program: {sha256(PROGRAM)}"]
    put(top / "dist/MADE", f"sources: {SUM}\n")
    assert [*version.lines(top)][2] == "kit: dist/MADE has no such line"
    assert runs(top) == f"{top}/dist/cpi, whose SHA-256 is {sha256(PROGRAM)}"


def test_a_repository_runs_what_was_shipped_or_what_was_built(top: Path) -> None:
    assert runs(top) == f"{top}/dist/cpi, which is that program"
    built = put(top / f"out/{SUM}/cpi", OTHER)
    assert runs(top) == f"{built}, another program: {sha256(OTHER)}"
    put(built, PROGRAM)
    assert runs(top) == f"{built}, which is that program"


def test_a_program_of_other_sources_does_not_run(top: Path) -> None:
    builds = f"{top}/cpi, which has to build a program of the sources at hand first"
    put(top / "tools/sources", f"#!/bin/sh\necho {'b' * 64}\n")
    assert runs(top) == builds
    put(top / "tools/sources", f"#!/bin/sh\necho {SUM}\nexit 1\n")
    assert runs(top) == builds
    put(top / "tools/sources", f"#!/bin/sh\necho {SUM}\n")
    (top / "dist/cpi").unlink()
    assert runs(top) == builds


def test_a_damaged_program_is_another_one(top: Path) -> None:
    put(top / "dist/cpi", OTHER)
    assert runs(top) == f"{top}/dist/cpi, another program: {sha256(OTHER)}"


def test_the_program_of_the_variable_is_looked_at_itself(top: Path, monkeypatch: pytest.MonkeyPatch) -> None:
    other = put(top / "elsewhere/cpi", OTHER)
    monkeypatch.setenv("CPI", str(other))
    assert runs(top) == f"{other}, another program: {sha256(OTHER)}"
    put(other, PROGRAM)
    assert runs(top) == f"{other}, which is that program"


def test_no_dist_and_no_program_are_told_in_words(top: Path, monkeypatch: pytest.MonkeyPatch) -> None:
    shutil.rmtree(top / "dist")
    unknown = "shipped: not known, since there is no dist/MADE with these companions"
    told = [*version.lines(top)]
    assert told[1:] == [unknown, f"runs: {top}/cpi, which has to build a program of the sources at hand first"]
    monkeypatch.delenv("CPI")
    monkeypatch.setenv("PATH", str(top / "nothing"))
    monkeypatch.setattr(program, "__file__", str(top / "far/away/cpi_tools/office/program.py"))
    assert runs(top) == "no program: the program cpi wasn't found: name it by --program FILE or by the variable CPI"
    monkeypatch.setenv("CPI", "/nothing")
    assert runs(top) == "no program: /nothing, named by the variable CPI, is no program"


def test_what_can_not_be_read_is_told_in_words(top: Path, monkeypatch: pytest.MonkeyPatch) -> None:
    (top / "dist/MADE").write_bytes(b"\xff\xfe: \x80\nkit: \xe9\n")
    assert [*version.lines(top)][2] == "kit: \\xe9"
    (top / "dist/MADE").unlink()
    (top / "dist/MADE").mkdir()
    assert [*version.lines(top)][1].startswith("shipped: not known")
    monkeypatch.setattr(version, "find_program", lambda: top / "gone")
    assert runs(top) == f"a program that can't be read: {top}/gone: No such file or directory"


def test_a_name_that_is_no_line_is_escaped(top: Path, monkeypatch: pytest.MonkeyPatch) -> None:
    odd = put(top / "odd\n\udcff/cpi", PROGRAM)
    monkeypatch.setenv("CPI", str(odd))
    assert runs(top) == f"{top}/odd\\n\\udcff/cpi, which is that program"
    monkeypatch.setenv("CPI", f"{odd}-gone")
    assert runs(top) == f"no program: {top}/odd\\n\\udcff/cpi-gone, named by the variable CPI, is no program"


def test_companions_without_a_repository_tell_their_number(tmp_path: Path) -> None:
    """As `pip install` puts them."""
    shutil.copytree(ROOT / "tools/cpi_tools", tmp_path / "site/cpi_tools", ignore=shutil.ignore_patterns("__pycache__"))
    ran = command(sys.executable, "-m", "cpi_tools", PYTHONPATH=str(tmp_path / "site"), CPI="/bin/sh")
    assert (ran.status, ran.err) == (0, "")
    first, shipped, last = ran.out.splitlines()
    assert first.startswith("cpi-tools ") and shipped.startswith("shipped: not known")
    assert last == f"runs: /bin/sh, whose SHA-256 is {hashlib.sha256(Path('/bin/sh').read_bytes()).hexdigest()}"


@pytest.mark.parametrize("output, told", [("> /dev/full", "cpi-tools: standard output: No space left on device\n"),
                                          ("| true", "")])  # fmt: skip
def test_output_that_nobody_takes_is_no_traceback(output: str, told: str) -> None:
    ran = command("bash", "-c", f'set -o pipefail; sleep 0.2 | "$1" "$2" {output}', "bash", ROOT / "cpi-tools")
    assert (ran.out, ran.err) == ("", told)
    assert ran.status == 1 or not told

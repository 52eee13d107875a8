"""`cpi_tools.office.program`: records in, replies out, where the program is found, and what a fault tells."""

from __future__ import annotations

import os
import re
import shutil
import subprocess
import sys
from pathlib import Path

import pytest

from cpi_tools.office import program
from cpi_tools.office.program import Cpi, CpiFailed, find_program, record
from lib.places import ROOT


def test_a_record_is_quoted_where_it_has_to_be() -> None:
    assert record(0, "desk", "outlet", 3, 'Harbour, "east"') == '0,desk,outlet,3,"Harbour, ""east"""'
    assert record(0, "desk", "plan", 2026, "T,00,All\n") == '0,desk,plan,2026,"T,00,All\n"'
    for end in ("\n", "\r", "\r\n"):
        assert record("outlet", 3, f"Harbour{end}freeze") == f'outlet,3,"Harbour{end}freeze"'


def test_a_text_with_the_end_of_a_line_is_no_second_record(cpi: Cpi) -> None:
    given = [record(0, "desk", "outlet", 3, f"Harbour{end}0,desk,outlet,4,East") for end in ("\n", "\r", "\r\n")]
    assert cpi.replay(given) == [{"refused": 10}] * 3


def executable(path: Path) -> Path:
    path.parent.mkdir(parents=True, exist_ok=True)
    path.write_text("#!/bin/sh\n")
    path.chmod(0o755)
    return path


def test_the_program_is_the_named_one_then_that_of_the_variable_the_repository_and_the_path(
    tmp_path: Path, monkeypatch: pytest.MonkeyPatch
) -> None:
    given, by_variable, on_path = (executable(tmp_path / name / "cpi") for name in ("given", "variable", "path"))
    of_repository = executable(tmp_path / "repository/cpi")
    executable(tmp_path / "repository/examples/recompute")
    monkeypatch.setattr(program, "__file__", str(tmp_path / "repository/tools/cpi_tools/office/program.py"))
    monkeypatch.setenv("CPI", str(by_variable))
    monkeypatch.setenv("PATH", str(on_path.parent))
    assert find_program(given) == given
    assert find_program() == by_variable
    monkeypatch.delenv("CPI")
    assert find_program() == of_repository
    of_repository.unlink()
    assert find_program() == on_path


def test_the_package_runs_wherever_it_is_put(cpi: Cpi, made: Path, tmp_path: Path) -> None:
    """As `pip install` puts it: without the repository round it, and with what links lead to in their place."""
    shutil.copytree(ROOT / "tools/cpi_tools", tmp_path / "site/cpi_tools", ignore=shutil.ignore_patterns("__pycache__"))
    assert not [path for path in tmp_path.rglob("*") if path.is_symlink()]
    kept = {"PATH": os.environ["PATH"], "PYTHONPATH": str(tmp_path / "site"), "PYTHONDONTWRITEBYTECODE": "1"}
    for tool in ("backup", "drill"):
        words = [sys.executable, "-m", "cpi_tools", tool, *([str(made)] if tool == "backup" else []), "x.db"]
        words += ["--program", str(cpi.path)]
        ran = subprocess.run(words, cwd=tmp_path, env=kept, capture_output=True, text=True, check=False)
        assert (ran.returncode, ran.stderr) == (0, "")
    assert ran.stdout.startswith("x.db: nothing is wrong; ")


def test_a_program_that_is_none_is_told(tmp_path: Path, monkeypatch: pytest.MonkeyPatch) -> None:
    with pytest.raises(CpiFailed, match="nothing, named by --program, is no program"):
        Cpi(tmp_path / "nothing")
    (tmp_path / "text").write_text("text")
    monkeypatch.setenv("CPI", str(tmp_path / "text"))
    with pytest.raises(CpiFailed, match="text, named by the variable CPI, is no program"):
        find_program()
    monkeypatch.delenv("CPI")
    monkeypatch.setenv("PATH", str(tmp_path))
    monkeypatch.setattr(program, "__file__", str(tmp_path / "far/away/cpi_tools/office/program.py"))
    with pytest.raises(CpiFailed, match="wasn't found: name it by --program"):
        find_program()
    (tmp_path / "text").chmod(0o755)
    with pytest.raises(CpiFailed, match="couldn't be started: Exec format error|couldn't be started: .*text"):
        Cpi(tmp_path / "text").replay([])
    with pytest.raises(CpiFailed, match="couldn't be started"):
        with Cpi(tmp_path / "text").session():
            pass


def test_replies_are_values(cpi: Cpi) -> None:
    asked = ["0,desk,outlet,1,Shop", record(0, "desk", "import", "outlet,1,Shop\noutlet,2,Other\n"), "x"]
    assert cpi.replay(asked) == [{"done": True}, {"rows": [{"done": True}] * 2}, {"refused": 10}]
    assert cpi.replay([]) == []


def test_a_fault_is_the_line_of_the_program_with_what_it_means(cpi: Cpi, tmp_path: Path) -> None:
    with pytest.raises(CpiFailed, match=r"^cpi: bad zone \(the time zone isn't a POSIX rule") as told:
        cpi.replay(["0,public,items"], zone="nowhere")
    assert told.value.status == 1
    with pytest.raises(CpiFailed, match=r"^cpi: no table \("):
        cpi.table(tmp_path / "new.db", "2026-01", "csv", 0)
    (tmp_path / "text").write_text("no database\n" * 1000)
    with pytest.raises(CpiFailed, match=r"^cpi: database failed \("):
        cpi.replay(["0,public,items"], db=tmp_path / "text")


def test_a_copy_that_is_no_office_is_told_by_the_file_that_was_copied(cpi: Cpi, made: Path, tmp_path: Path) -> None:
    (tmp_path / "copy.db").write_text("no database\n" * 1000)
    with pytest.raises(CpiFailed, match=r"^office\.db: cpi: database failed \([^\n]*$") as told:
        cpi.open(tmp_path / "copy.db", Path("office.db"))
    assert told.value.status == 1
    (tmp_path / "copy.db").write_bytes(made.read_bytes())
    assert cpi.open(tmp_path / "copy.db", Path("office.db"), ["x"]) == [{"refused": 10}]


@pytest.mark.parametrize("line", ["text", "5", '["done"]', '{"done":'])
def test_a_line_that_is_no_reply_is_told(line: str, tmp_path: Path) -> None:
    other = executable(tmp_path / "other")
    other.write_text(f"#!/bin/sh\nread -r one\necho '{line}'\n")
    told = f"^the program answers otherwise than cpi does: {re.escape(line)}$"
    with pytest.raises(CpiFailed, match=told):
        Cpi(other).replay(["x"])
    with pytest.raises(CpiFailed, match=told):
        with Cpi(other).session() as session:
            session.ask("x")


def test_a_fault_has_the_replies_before_it(tmp_path: Path) -> None:
    half = executable(tmp_path / "half")
    half.write_text("#!/bin/sh\ncat > /dev/null\necho '{\"done\":true}'\nprintf '{\"receipt\":1'\nkill -9 $$\n")
    with pytest.raises(CpiFailed, match="cpi was ended by the signal SIGKILL") as told:
        Cpi(half).replay(["a", "b"])
    assert (told.value.status, told.value.replies) == (-9, [{"done": True}])


def test_a_table_is_its_bytes(cpi: Cpi, made: Path, tmp_path: Path) -> None:
    file = tmp_path / "office.db"
    file.write_bytes(made.read_bytes())
    text = cpi.table(file, "2025-03", "text", 9_999_999_999)
    assert text.startswith(b"CPI 2025-03 revision 2\n00 ")
    assert cpi.table(file, "2025-03", "text", 9_999_999_999, 1).startswith(b"CPI 2025-03\n00 ")


def test_a_session_asks_one_by_one(cpi: Cpi, tmp_path: Path) -> None:
    with cpi.session(tmp_path / "office.db") as office:
        assert office.ask("0,desk,outlet,1,Shop") == {"done": True}
        with pytest.raises(CpiFailed, match="cpi: database failed"):
            cpi.replay([], db=tmp_path / "office.db")
    assert cpi.replay(["0,desk,outlet,1,Else"], db=tmp_path / "office.db") == [{"refused": 40}]


def test_a_session_that_is_left_by_an_exception_ends(cpi: Cpi, tmp_path: Path) -> None:
    with pytest.raises(KeyError):
        with cpi.session(tmp_path / "office.db") as office:
            office.ask("0,desk,outlet,1,Shop")
            raise KeyError
    assert cpi.replay(["0,desk,outlet,1,Shop"], db=tmp_path / "office.db") == [{"done": True}]


def test_a_session_over_no_office_is_told_at_the_first_record(cpi: Cpi, tmp_path: Path) -> None:
    (tmp_path / "text").write_text("no database\n" * 1000)
    with pytest.raises(CpiFailed, match="cpi: database failed"):
        with cpi.session(tmp_path / "text") as office:
            office.ask("0,public,items")

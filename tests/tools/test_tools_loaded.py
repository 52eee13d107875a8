"""The words of the command line: which modules a tool reads, and that each tool has the name by which it is asked for."""

from __future__ import annotations

import os
import subprocess
import sys

import pytest

from lib.places import ROOT
from cpi_tools.command_line import TOOLS, parser

READ = """
import sys
from cpi_tools.command_line import main
try:
    main(sys.argv[1:])
finally:
    print(*sorted(name for name in sys.modules if name.startswith("cpi_tools")), file=sys.stderr)
"""
"""Runs a tool, and then names the modules of cpi-tools that were read."""


def list_read(*words: str) -> set[str]:
    """The modules that `cpi-tools WORD ..` reads."""
    kept = {**os.environ, "PYTHONPATH": str(ROOT / "tools")}
    done = subprocess.run([sys.executable, "-c", READ, *words], capture_output=True, text=True, env=kept, check=False)
    return {*done.stderr.splitlines()[-1].split()}


def test_a_tool_reads_no_other_tools_modules() -> None:
    read = list_read("probe", "--help")
    assert "cpi_tools.guard.watch.probe" in read
    others = {f"cpi_tools.{module}" for module in TOOLS.values()} - {
        "cpi_tools.guard.watch.probe",
        "cpi_tools.guard.backup",
    }
    # (a probe reads what a backup notes)
    assert not read & others
    assert not {name for name in read if name.startswith(("cpi_tools.publish", "cpi_tools.desk"))}


@pytest.mark.parametrize("words", [["--help"], ["nonsense"], []])
def test_all_tools_are_read_where_none_is_named(words: list[str]) -> None:
    assert {f"cpi_tools.{module}" for module in TOOLS.values()} <= list_read(*words)


@pytest.mark.parametrize("tool", TOOLS)
def test_a_tool_has_the_name_by_which_it_is_asked_for(tool: str, capsys: pytest.CaptureFixture[str]) -> None:
    with pytest.raises(SystemExit) as end:
        parser([tool]).parse_args([tool, "--help"])
    assert end.value.code == 0
    assert capsys.readouterr().out.startswith(f"usage: cpi-tools {tool} ")

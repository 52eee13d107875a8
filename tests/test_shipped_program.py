"""Compares the program of dist/ with the one that was built from the sources at hand, which --program names.

dist/cpi has to be the program that dist/MADE names, and executable. If both programs were made of the same sources by
the same kit they have to be the same, byte for byte, and the cases of tests/cases run over the one of dist/ too. If
they weren't, or if there is no dist/, a line says so.
"""

from __future__ import annotations

import hashlib
import os
import subprocess

import pytest

from lib import cases
from lib.places import ROOT
from lib.program import Program

MADE, SHIPPED = ROOT / "dist/MADE", ROOT / "dist/cpi"
OTHER_SOURCES = (
    "dist/: made of other sources, so it isn't compared (once ./test is green, tools/dist makes it of these)"
)


def printed(*command: str) -> str:
    """What a command of the repository prints, without the end of its line."""
    return subprocess.run(command, cwd=ROOT, stdout=subprocess.PIPE, check=True, text=True).stdout.strip()


@pytest.fixture(scope="module")
def made() -> dict[str, str]:
    """What dist/MADE says, by name."""
    if not MADE.exists():
        pytest.skip("dist/: there is no program to compare")
    return dict(line.split(": ", 1) for line in MADE.read_text(encoding="utf-8").splitlines())


def test_the_shipped_program_is_the_one_that_is_named_and_can_be_run(made: dict[str, str]) -> None:
    assert hashlib.sha256(SHIPPED.read_bytes()).hexdigest() == made["program"]
    assert os.access(SHIPPED, os.X_OK), "chmod +x dist/cpi"


def test_the_shipped_program_is_the_one_that_is_built_of_these_sources(made: dict[str, str], program: Program) -> None:
    if made["sources"] != printed("tools/sources"):
        pytest.skip(OTHER_SOURCES)
    kit = printed("rt", "version")
    if made["kit"] != kit:
        pytest.skip(f"dist/: made by {made['kit']}, so it isn't compared with what {kit} builds")
    is_same = SHIPPED.read_bytes() == cases.content(program.path)
    assert is_same, "the program of dist/ isn't the one that the same kit builds from the same sources"
    faults = {name: cases.fault_of(Program(str(SHIPPED)), name) for name in cases.names()}
    assert faults and {name: fault for name, fault in faults.items() if fault} == {}

"""Runs of cpi-tools in this process, and the files that they write."""

from __future__ import annotations

import contextlib
import csv
import io
from pathlib import Path
from typing import NamedTuple, Optional

from cpi_tools.command_line import main
from cpi_tools.office.program import Cpi


class Ran(NamedTuple):
    """How a tool ended, and what it wrote."""

    status: int
    out: str
    err: str


def run(cpi: Optional[Cpi], *words: object) -> Ran:
    """Runs cpi-tools, with the program that is tested where the tool runs one."""
    out, err = io.StringIO(), io.StringIO()
    program = ["--program", str(cpi.path)] if cpi else []
    with contextlib.redirect_stdout(out), contextlib.redirect_stderr(err):
        status = main([*map(str, words), *program])
    return Ran(status, out.getvalue(), err.getvalue())


def rows_of(path: Path) -> list[dict[str, str]]:
    """The rows of a CSV file by the names of its columns."""
    with path.open(encoding="utf-8", newline="") as file:
        return [*csv.DictReader(file)]

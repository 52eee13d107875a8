"""The example of national size at the desk, all 40 months while `cpi` runs: carry lists and provisional tables."""

from __future__ import annotations

import csv
import subprocess
from collections import Counter
from pathlib import Path

import pytest

from cpi_tools.office.program import Cpi, record
from tools.ran import run

EXAMPLE = Path(__file__).resolve().parents[2] / "examples/national/run"

Id = tuple[str, int]
"""A month and a revision of it."""

Records = list[list[str]]


@pytest.fixture(scope="module")
def records(cpi: Cpi, tmp_path_factory: pytest.TempPathFactory) -> Records:
    """Every record that the example's own run sent."""
    out = tmp_path_factory.mktemp("nation")
    subprocess.run([EXAMPLE, "--program", cpi.path, "--out", out], check=True, capture_output=True)
    csv.field_size_limit(1 << 30)
    with (out / "records.csv").open(encoding="utf-8", newline="") as file:
        return [*csv.reader(file)]


def test_carry_lists_and_tables_of_all_months(cpi: Cpi, records: Records, tmp_path: Path) -> None:
    """Before the first freeze that the example sends for a revision, the desk closes and reports it over the file that
    the program has open; then the example's own refusals and its published table are compared with that."""
    path, out = tmp_path / "office.db", tmp_path / "report"
    wanted: dict[Id, list[str]] = {}
    tables: dict[Id, bytes] = {}
    revision, compared = Counter[str](), []
    with cpi.session(path, "CET-1CEST,M3.5.0,M10.5.0/3") as session:
        for fields in records:
            at, caller, word, *others = fields
            month = others[0] if others else ""
            of = month, revision[month] + 1
            if word == "freeze" and of not in wanted:
                closed = run(cpi, "desk", "close", path, month, "--at", at)
                assert closed.status == 0, closed.err
                wanted[of] = next(csv.reader([closed.out]))[4:]
                months = run(cpi, "desk", "month", path, month, "--at", at, "--out", out, "--left-out", 0)
                assert months.status == 0, months.err
                tables[of] = (out / "provisional.csv").read_bytes()
            reply = session.ask(record(*fields))
            if word == "freeze" and reply == {"done": True}:
                assert wanted[of] == others[1:]
                revision[month] += 1
            if (caller, word) == ("public", "table") and "table" in reply and others[1] == "csv":
                named = month, int(others[2])
                assert reply["table"].encode() == tables[named]
                compared.append(named)
    assert len(wanted) == len(set(compared)) == 40 + 2
    assert sum(bool(codes) for codes in wanted.values()) > 5

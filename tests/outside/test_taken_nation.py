"""The example of national size out and in again: the last table of each of its 40 months byte for byte."""

from __future__ import annotations

import subprocess
from pathlib import Path

import pytest

from cpi_tools.office.program import Cpi, record
from tools.ran import run
from tools.test_take_in import sums
from tools.wide import in_percent, rewrite, wide_prices


EXAMPLE = Path(__file__).resolve().parents[2] / "examples/national/run"

Tables = dict[str, str]
"""By month the table as CSV."""


@pytest.fixture(scope="module")
def nation(cpi: Cpi, tmp_path_factory: pytest.TempPathFactory) -> Path:
    """The file of the example's office, which no test writes to; beside it, in out, what the example wrote."""
    folder = tmp_path_factory.mktemp("nation")
    words = [str(EXAMPLE), "--db", f"{folder}/office.db", "--program", str(cpi.path), "--out", f"{folder}/out"]
    subprocess.run(words, check=True, capture_output=True)
    return folder / "office.db"


@pytest.fixture(scope="module")
def wanted(nation: Path) -> Tables:
    """The last tables that the example's own run wrote of each month: that of a revision is after the first one."""
    paths = sorted((nation.parent / "out/tables").glob("*.csv"), key=lambda path: path.stem)
    texts = {path.stem[:7]: path.read_text(encoding="utf-8") for path in paths}
    assert (len(texts), len(paths)) == (40, 42)
    return texts


def tables_of(cpi: Cpi, records: Path, wanted: Tables) -> Tables:
    """The tables of the office that a folder of records makes, in memory; nothing of them is refused."""
    sent = [path.read_text(encoding="utf-8") for path in sorted(records.glob("records-*.csv"))]
    asked = [record(9_999_999_999, "public", "table", month, "csv") for month in wanted]
    replies = cpi.replay([*sent, *asked])
    assert not [row for reply in replies for row in reply.get("rows", [reply]) if "refused" in row]
    return dict(zip(wanted, (reply["table"] for reply in replies[-len(asked) :])))


def test_as_it_was_taken_out(cpi: Cpi, nation: Path, wanted: Tables, tmp_path: Path) -> None:
    before = sums(nation)
    assert run(cpi, "take-out", nation, tmp_path / "files").status == 0
    assert sums(nation) == before
    assert run(cpi, "take-in", tmp_path / "files", "--write", tmp_path / "records").status == 0
    assert tables_of(cpi, tmp_path / "records", wanted) == wanted


def test_onto_the_office_that_it_is_of(cpi: Cpi, nation: Path, tmp_path: Path) -> None:
    """Hand-overs and 40 freezes among it: nothing is refused, and nothing is to be sent."""
    assert run(cpi, "take-out", nation, tmp_path / "files").status == 0
    ran = run(cpi, "take-in", tmp_path / "files", "--onto", nation, "--write", tmp_path / "records")
    assert (ran.status, ran.err, ran.out.partition(",")[0]) == (0, "", "nothing new")
    assert [*(tmp_path / "records").iterdir()] == []


def test_as_wide_spreadsheets(cpi: Cpi, nation: Path, wanted: Tables, tmp_path: Path) -> None:
    """Decimal prices in a column a month, weights in percent; by a decimal comma and semicolons."""
    assert run(cpi, "take-out", nation, tmp_path / "files").status == 0
    prices, classification = (tmp_path / f"files/{name}.csv" for name in ("prices", "classification"))
    cells = [[cell if "-" in cell else cell.replace(".", ",") if cell != "." else cell for cell in row]
             for row in wide_prices(prices)]  # fmt: skip
    rewrite(prices, cells)
    rewrite(classification, [[*row[:3], row[3].replace(".", ",")] for row in in_percent(classification)])
    words = ("--minor", 100, "--weights", "percent", "--decimal", ",", "--confirm-history")
    ran = run(cpi, "take-in", tmp_path / "files", "--write", tmp_path / "records", *words)
    assert ran.status == 0, ran.err
    assert tables_of(cpi, tmp_path / "records", wanted) == wanted

"""`cpi-tools gaps`: what a sender has a receipt for, and the office doesn't have."""

from __future__ import annotations

import csv
import io
import shutil
import subprocess
from pathlib import Path

import pytest

from cpi_tools.office.program import Cpi
from lib.places import ROOT
from .ran import Ran, run

HEADS = "collector,slot,month,mark,value,receipt\n"


@pytest.fixture
def office(cpi: Cpi, tmp_path: Path) -> Path:
    """The office of the example: collector 7 has six receipts, the last for two prices that were missing; collector 8
    has three."""
    path = tmp_path / "office.db"
    cpi.replay((ROOT / "examples/table.csv").read_text().splitlines(), db=path)
    return path


def gaps(office: Path, text: str, *words: str) -> Ran:
    list_ = office.with_name("list.csv")
    list_.write_text(text, encoding="utf-8")
    return run(None, "gaps", office, "--receipts", list_, *words)


def test_what_is_there_is_not_told(office: Path) -> None:
    """Also a price that was put right later, a row in another order of columns, and one that comes twice."""
    rows = "7,1,2025-12,price,200,1\n7,2,2026-02,missing,closed,6\n7,1,2026-01,price,209,2\n7,1,2025-12,price,200,1\n"
    ran = gaps(office, HEADS + rows)
    assert (ran.status, ran.out, ran.err) == (0, "", f"cpi-tools gaps: nothing of 4 rows is missing in {office}\n")
    turned = "\ufeffReceipt, value ,mark,month,slot,collector,note\n3,252,price,2026-02,1,8,x\n\n"
    assert gaps(office, turned).status == 0


def test_what_is_missing_is_told_with_what_is_there(office: Path) -> None:
    """A price without a quote; one that came after the quote that is there, by its receipt; and one whose receipt was
    given again, for another price."""
    rows = "7,1,2026-03,price,5,9\n7,1,2026-02,other,320,7\n8,1,2026-02,price,260,3\n8,1,2026-02,price,255,2\n"
    ran = gaps(office, HEADS + rows)
    assert (ran.status, ran.err) == (3, f"cpi-tools gaps: 3 of 4 rows are missing in {office}\n")
    assert [*csv.reader(io.StringIO(ran.out))] == [
        [*HEADS.strip().split(","), "because"],
        ["7", "1", "2026-03", "price", "5", "9", "nothing is stored for this slot and month"],
        ["7", "1", "2026-02", "other", "320", "7", "missing stock is stored, with receipt 5"],
        ["8", "1", "2026-02", "price", "260", "3", "price 252 is stored, with receipt 3"],
    ]


@pytest.mark.parametrize(
    "text, told",
    [
        ("", "its first line has no column collector: wanted are collector, slot, month, mark, value, receipt"),
        ("collector,slot,month,mark,value\n", "its first line has no column receipt"),
        (HEADS, "has no row below its heads"),
        (
            HEADS + "7,1,2026-02,price,5,9\n7,1,2026-13,price,5,9\n",
            "line 3: month is '2026-13': wanted is a month like",
        ),
        (HEADS + "0,1,2026-02,price,5,9\n", "line 2: collector is '0': wanted is a number from 1 on"),
        (HEADS + "7,1,2026-02,price,5\n", "line 2: receipt is '': wanted is a number from 1 on"),
        (
            HEADS + "7,1,2026-02,dear,5,9\n",
            "line 2: mark is 'dear': wanted is one of price, comparable, other, missing",
        ),
        (HEADS + "7,1,2026-02,price,2.10,9\n", "line 2: value is '2.10': wanted is a price in minor units, like 210"),
        (
            HEADS + "7,1,2026-02,missing,gone away,9\n",
            "value is 'gone away': wanted is one of stock, closed, gone, refused",
        ),
    ],
)
def test_a_list_that_is_none_is_told_with_its_place(office: Path, text: str, told: str) -> None:
    ran = gaps(office, text)
    assert (ran.status, ran.out, ran.err.count("\n")) == (1, "", 1)
    assert ran.err.startswith(f"cpi-tools gaps: {office.with_name('list.csv')}") and told in ran.err


def test_files_that_cant_be_read_are_told(office: Path, tmp_path: Path) -> None:
    (tmp_path / "latin.csv").write_bytes(HEADS.encode() + b"7,1,2026-02,price,\xe9,9\n")
    for words in (
        [office, "--receipts", tmp_path / "nothing.csv"],
        [office, "--receipts", tmp_path / "latin.csv"],
        [tmp_path / "latin.csv", "--receipts", tmp_path / "latin.csv"],
    ):
        ran = run(None, "gaps", *words)
        assert (ran.status, ran.out, ran.err.count("\n")) == (1, "", 1)


def test_a_module_that_is_missing_is_a_fault_and_not_a_missing_price(office: Path, tmp_path: Path) -> None:
    """So it is for a moment while git, or an upgrade, puts other files in place of the tools."""
    shutil.copytree(ROOT / "tools", tmp_path / "tools")
    (tmp_path / "tools/cpi_tools/office/stored.py").unlink()
    (tmp_path / "list.csv").write_text(HEADS + "7,1,2026-03,price,5,9\n")
    start, list_ = str(tmp_path / "tools/cpi_tools/start"), str(tmp_path / "list.csv")
    words = [start, "-m", "cpi_tools", "gaps", str(office), "--receipts", list_]
    ran = subprocess.run(words, capture_output=True, text=True, check=False)
    assert (ran.returncode, ran.stdout) == (1, "") and "cpi_tools.office.stored" in ran.stderr


def test_the_office_is_only_read(cpi: Cpi, office: Path) -> None:
    """It may be served meanwhile, and what is only in its log counts."""
    with cpi.session(office) as session:
        month = "7,1,2026-02,price,321,7"
        session.ask("5100,desk,calendar,2026-03,5000,9000,9500")
        before = office.read_bytes()
        assert gaps(office, f"{HEADS}{month}\n").status == 3
        assert office.read_bytes() == before

"""`cpi-tools gaps --records`: what the desk sent, and the office doesn't have."""

from __future__ import annotations

import csv
import io
from pathlib import Path

import pytest

from cpi_tools.office.program import Cpi
from lib.places import ROOT
from .ran import Ran, run

KEY = "c" * 32

SENT = f"""\
item,TEA,"Tea, green",100 g,400,2500
outlet,3,"Shop ""Three"", harbour"
collector,9,{KEY}
assign,9,1,3,RICE,2026-02,2026-12
calendar,2026-03,5000,9000,9500
handover,7,1,8,5,2026-03
plan,2027,"T,00,All items
T,01,Food and drink
T,01.1,Food
T,01.1.1,Cereals
T,01.1.1.1,Rice
T,01.1.1.1-01,Rice
W,01.1.1.1-01,1000000
I,RICE,01.1.1.1-01
"
"""
"""Of each word a record that the office of the example lacks."""


@pytest.fixture
def office(cpi: Cpi, tmp_path: Path) -> Path:
    """The office of the example."""
    path = tmp_path / "office.db"
    cpi.replay((ROOT / "examples/table.csv").read_text().splitlines(), db=path)
    return path


def gaps(cpi: Cpi, office: Path, text: str, *words: str) -> Ran:
    list_ = office.with_name("list.csv")
    list_.write_text(text, encoding="utf-8")
    return run(cpi, "gaps", office, "--records", list_, *words)


def test_what_the_office_lacks_is_written_as_it_was_sent(cpi: Cpi, office: Path) -> None:
    """And once the output was sent as one import of the desk, nothing is missing any more."""
    ran = gaps(cpi, office, SENT)
    assert (ran.status, ran.err) == (3, f"cpi-tools gaps: 7 of 7 rows are missing in {office}\n")
    assert ran.out == SENT
    body = ran.out.replace('"', '""')
    assert cpi.replay([f'4500,desk,import,"{body}"'], db=office)[0] == {"rows": [{"done": True}] * 7}
    ran = gaps(cpi, office, SENT)
    assert (ran.status, ran.out, ran.err) == (0, "", f"cpi-tools gaps: nothing of 7 rows is missing in {office}\n")


def test_of_what_the_desk_sent_only_what_was_refused_is_missing(cpi: Cpi, office: Path) -> None:
    """The records of the example: a freeze of February without a carry list was refused, the one with a list wasn't."""
    rows = csv.reader(io.StringIO((ROOT / "examples/table.csv").read_text(), newline=""))
    text = io.StringIO()
    csv.writer(text).writerows(row[2:] for row in rows if row and row[1] == "desk")
    ran = gaps(cpi, office, text.getvalue())
    assert (ran.status, ran.out) == (3, "freeze,2026-02\n")


def test_only_the_last_of_a_record_counts(cpi: Cpi, office: Path) -> None:
    """The first name was the office's once, the second is what it has, and neither is told; turned round, it is."""
    rows = "outlet,10,Kiosk\n", "outlet,10,Corner shop\n"
    assert gaps(cpi, office, "".join(rows)).status == 0
    assert gaps(cpi, office, "".join(reversed(rows))).out == rows[0]


def test_civil_times_are_those_of_the_zone(cpi: Cpi, office: Path) -> None:
    """2026-01-01 at 09:00 is 08:00 UTC in Prague in winter: 1,767,254,400 seconds since 1970."""
    cpi.replay(["4500,desk,calendar,2026-04,1767254400,1767254460,1767254520"], db=office)
    row = "calendar,2026-04,2026-01-01T09:00,2026-01-01T09:01,2026-01-01T09:02\n"
    assert gaps(cpi, office, row, "--zone", "CET-1CEST,M3.5.0,M10.5.0/3").status == 0
    assert gaps(cpi, office, row).out == row


@pytest.mark.parametrize(
    "text, told",
    [
        ("", " has no record"),
        (
            "item,TEA,Tea,100 g,400,2500\nquote,1,2026-01,price,5\n",
            ", line 2: the record is 'quote': wanted is one of item,",
        ),
        ("outlet,3\n", ", line 1: the record outlet has 2 fields, and 3 are wanted"),
        ("freeze\n", ", line 1: the record freeze has 1 fields, and 2 are wanted"),
        ("plan,2027\n", ", line 1: the record plan has 2 fields, and 3 are wanted"),
        ('outlet,3,"Kiosk" "\n', " isn't CSV: "),
    ],
)
def test_a_list_that_is_none_is_one_line(cpi: Cpi, office: Path, text: str, told: str) -> None:
    ran = gaps(cpi, office, text)
    assert (ran.status, ran.out, ran.err.count("\n")) == (1, "", 1)
    assert ran.err.startswith(f"cpi-tools gaps: {office.with_name('list.csv')}{told}")

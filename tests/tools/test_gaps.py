"""`examples/gaps`: the index of a small table of prices, and what it says of a table that is none."""

from __future__ import annotations

import subprocess

import pytest

from cpi_tools.office.program import Cpi
from lib.places import ROOT

HEAD = "aggregate,weight,2025-12,2026-01,2026-02\n"


def gaps(cpi: Cpi, text: str) -> tuple[int, str, str]:
    """The status, and both outputs."""
    words = [ROOT / "examples/gaps", "--program", cpi.path]
    ran = subprocess.run(words, input=text, capture_output=True, text=True, check=False)
    return ran.returncode, ran.stdout, ran.stderr


def test_indices_by_hand(cpi: Cpi) -> None:
    """Tea: 100 and 300 to 110 and 300 * 1.1, then 120 and 330 * 120/110 = 360. Its second price is replaced in February by
    one of 50, which counts as 360. Salt is missing in January, and 3 for 4 in February: 75. All items: a quarter of it.
    """
    told = gaps(cpi, f"{HEAD}tea,75,100,110,120\ntea,,300,,other 50\nsalt,25,4,,3\n")
    assert told == (
        0,
        "             2026-01    2026-02\n"
        "all items    107.5 i    108.8 i\n"
        "tea          110.0 i    120.0 i\n"
        "salt         100.0 c     75.0\n",
        "",
    )


@pytest.mark.parametrize(
    "text, line",
    [
        ("", "there is no row below a heading like aggregate,weight,2025-12,2026-01"),
        (HEAD, "there is no row below a heading like aggregate,weight,2025-12,2026-01"),
        ("a,b\nc,d\n", "there is no row below a heading like aggregate,weight,2025-12,2026-01"),
        (f"{HEAD}tea,100,1,2\n", "a row has more or fewer cells than the heading"),
        (f"{HEAD}tea,100,1,2,3,4\n", "a row has more or fewer cells than the heading"),
        (f"{HEAD}tea,60,1,2,3\n", "the weights 60 aren't whole numbers of percent that add up to 100"),
        (f"{HEAD}tea,1e2,1,2,3\n", "the weights 1e2 aren't whole numbers of percent that add up to 100"),
        (f"{HEAD}tea,100,1,x,3\n", "quote 1 2026-01 price x: refused by 10: the record's form is wrong"),
        (f"{HEAD}tea,100,1,new 2,3\n", "quote 1 2026-01 new 2: refused by 10: the record's form is wrong"),
        (HEAD.replace("2025-12", "2025-11") + "tea,100,1,2,3\n", "a freeze of 2025-11: refused by 46"),
        (HEAD.replace("2026-02", "Feb") + "tea,100,1,2,3\n", "Feb isn't a month like 2026-01"),
    ],
)
def test_a_table_that_is_none_is_one_line(cpi: Cpi, text: str, line: str) -> None:
    status, out, err = gaps(cpi, text)
    assert (status, out, err.count("\n")) == (1, "", 1)
    assert err.startswith(f"examples/gaps: {line}")

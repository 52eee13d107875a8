"""Asks the queries of docs/data/QUERIES.md of an office in a file; each has to give the rows that are written below.

The office has three months frozen, and a series that is handed over.
"""

from __future__ import annotations

import contextlib
import re
import sqlite3
from typing import Any

import pytest

from lib.filed import HAND_OVER, office
from lib.places import ROOT
from lib.program import Program

Rows = list[list[Any]]

SLOTS = [[7, 1, "RICE"], [7, 2, "RICE"], [7, 3, "RICE"], [8, 1, "FLOUR"]]
ROWS: list[Rows] = [
    [[202512, 7, "price", 200, 1], [202601, 7, "price", 210, 5], [202602, 7, "price", 210, 9]],
    [
        [7, 1, "RICE", "price", 210],
        [7, 2, "RICE", "price", 300],
        [7, 3, "RICE", "price", 540],
        [7, 4, "FLOUR", "stock", 0],
    ],
    [[7, 4, "FLOUR", 490.0]],
    [[400000, 1000000]],
    [[collector, slot, "Corner shop", item] for collector, slot, item in SLOTS],
    [
        [202512, 1, "1970-01-01 00:16:40", "1970-01-01 00:16:40", ""],
        [202601, 1, "1970-01-01 00:33:20", "1970-01-01 00:50:00", ""],
        [202602, 1, "1970-01-01 01:06:40", "1970-01-01 01:23:20", "01.1.1.2-01"],
    ],
    [],
    [[202601, 102.2, 2.2, None], [202602, 102.2, 0.0, None]],
    [["01.1.1.1-01", 105.0], ["01.1.1.2-01", 98.0]],
    [[7, 12, 12]],
    [[7, 4, 8, 1, 202603, 490]],
]


def queries() -> list[str]:
    """All of the document."""
    text = (ROOT / "docs/data/QUERIES.md").read_text(encoding="utf-8")
    return re.findall(r"```sql\n(.*?)```", text, re.S)


@pytest.fixture(scope="module")
def path(program: Program, tmp_path_factory: pytest.TempPathFactory) -> str:
    """The file of the office."""
    made = office(program, str(tmp_path_factory.mktemp("office")))
    program.replay(HAND_OVER, made)
    return made


def test_as_many_queries_as_rows_are_known() -> None:
    assert len(queries()) == len(ROWS)


@pytest.mark.parametrize("at", range(len(ROWS)))
def test_a_query(path: str, at: int) -> None:
    with contextlib.closing(sqlite3.connect(path)) as file:
        given = [*map(list, file.execute(queries()[at]).fetchall())]
    assert given == ROWS[at]

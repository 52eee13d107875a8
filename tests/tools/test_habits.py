"""Each habit in the lists of docs/decide/MIGRATING-AN-OFFICE.md: what becomes of its sheet is what the guide says.

habits.txt has the habits as a table, with the line that the tool says.
"""

from __future__ import annotations

import re
from pathlib import Path
from typing import NamedTuple

import pytest

from cpi_tools.sheets import converted
from cpi_tools.sheets.cells import Origin
from cpi_tools.office.program import Cpi
from cpi_tools.office.stored import stored_office
from cpi_tools.sheets.taken_page import place
from lib.places import ROOT
from .habits import HABITS, MINOR, Habit, Quotes, base
from .ran import Ran, rows_of, run
from .spreadsheets import replayed

GUIDE = ROOT / "docs/decide/MIGRATING-AN-OFFICE.md"
TABLE = Path(__file__).with_name("habits.txt")
FATES = {"Read": "read", "Read, with a warning": "read, with a warning", "Refused": "refused"}


class Told(NamedTuple):
    """A row of the table: the habit, what becomes of it, and the line that tells it."""

    habit: str
    becomes: str
    line: str


def table() -> list[Told]:
    """The rows of habits.txt, a row a line."""
    rows = [line.split(" | ") for line in TABLE.read_text(encoding="utf-8").splitlines()]
    tables = [Told(*(cell.strip() for cell in row)) for row in rows]
    return [table._replace(line=re.sub(r"^`+ ?|(?<! ) ?`+$", "", table.line)) for table in tables]


def guide() -> dict[str, list[str]]:
    """The habits of each list of the guide, by what becomes of them."""
    text = GUIDE.read_text(encoding="utf-8").partition("\n## Habits of spreadsheets\n")[2].partition("\n## ")[0]
    parts = [part.partition("\n") for part in text.split("\n### ")[1:]]
    items = {heading: re.findall(r"^- \*\*.*?\*\*: (.*)$", body, re.M) for heading, _, body in parts}
    return {FATES[heading]: [habit for item in found for habit in item.split("; ")] for heading, found in items.items()}


STAND_IN = """\
#!/usr/bin/env python3
import shutil, sys
shutil.copy({made!r}, sys.argv[sys.argv.index("--outdir") + 1] + "/0.xlsx")
"""
"""A program that makes a certain workbook of whatever it gets; tests/outside has LibreOffice itself."""


@pytest.fixture
def libreoffice(tmp_path: Path, monkeypatch: pytest.MonkeyPatch) -> Path:
    """What stands for LibreOffice in these tests."""
    program = tmp_path / "soffice"
    program.write_text(STAND_IN.format(made=str(tmp_path / "made.xlsx")))
    program.chmod(0o755)
    monkeypatch.setattr(converted, "PROGRAM", str(program))
    return program


def checked(cpi: Cpi, folder: Path, *words: str) -> tuple[Ran, set[tuple[str, str]]]:
    """How a check ended, and each line of it with its kind."""
    ran = run(cpi, "take-in", folder, "--check", *MINOR, *words)
    problems = folder / "check/problems.csv"
    rows = rows_of(problems) if problems.exists() else []
    return ran, {
        (row["kind"], f'{place(Origin(row["file"], int(row["row"]), row["column"]))}: {row["because"]}') for row in rows
    }


def quotes(cpi: Cpi, folder: Path, *words: str) -> Quotes:
    """What an office has stored that is made of the records."""
    records = folder.parent / "records"
    assert run(cpi, "take-in", folder, "--write", records, *MINOR, *words).status == 0
    with stored_office(replayed(cpi, records, folder.parent / "office.db")) as stored:
        return {
            (month, *slot): (quote.mark, quote.value)
            for month in stored.months_of_quotes()
            for slot, quote in stored.quotes(month).items()
        }


def test_the_table_has_each_habit_that_is_tried() -> None:
    assert [it.habit for it in table()] == [*HABITS]


def test_the_guide_says_of_each_habit_what_becomes_of_it() -> None:
    every = table()
    assert guide() == {fate: [it.habit for it in every if it.becomes == fate] for fate in FATES.values()}


def named(told: Told) -> str:
    """The habit that a test is of."""
    return told.habit


@pytest.mark.parametrize("told", table(), ids=named)
def test_what_becomes_of_a_habit(cpi: Cpi, tmp_path: Path, libreoffice: Path, told: Told) -> None:
    if told.habit.endswith("without LibreOffice"):
        libreoffice.unlink()
    habit: Habit = HABITS[told.habit]
    folder = base(tmp_path / "office")
    words = habit.make(folder)
    ran, lines = checked(cpi, folder, *words)
    assert "Traceback" not in ran.err
    if told.becomes == "refused":
        assert ran.status == 1
        assert ("problem", told.line) in lines or ran.err == f"cpi-tools take-in: {told.line}\n"
        return
    assert ran.status == 0, lines
    assert quotes(cpi, folder, *words) == habit.quotes
    if told.becomes == "read, with a warning":
        assert lines == {("warning", told.line)}
    else:
        assert (told.becomes, lines) == ("read", set())
        page = re.sub("</?bdi>", "", (folder / "check/report.html").read_text(encoding="utf-8"))
        rows = page.partition("Months as they were read")[2].partition("</table>")[0]
        text, _, month = told.line.partition(" as ")
        assert f"<td>{text}</td><td>{month}</td></tr>" in rows if text else not rows

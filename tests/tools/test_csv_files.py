"""Texts of CSV files that a spreadsheet would compute: a line counts them, and `--safe-csv` writes them as texts."""

from __future__ import annotations

import io
import re
from pathlib import Path

import pytest

from . import surveys
from cpi_tools.text.text_files import Writer, formulas_told, is_formula
from cpi_tools.office.program import Cpi
from .ran import rows_of, run

TITLE, OUTLET = "=1+1", "@SUM(A1)"

INI = "[office]\nagency = NSO\narea = XX\noffice = Office\n"


FULL_WIDTH = ("\uff1d1+1", "\uff0b1+1", "\uff0d1+1", "\uff20SUM(A1)")
"""Signs as Chinese and Japanese keyboards have them, by which some spreadsheets compute too."""


@pytest.mark.parametrize(
    "text", ["=1+1", "+cmd|'/C x'!A0", "-1+1", "@SUM(A1)", "\t=1", "\r=1", "--", "+1.5.2", "-0,3", *FULL_WIDTH]
)
def test_what_a_spreadsheet_computes(text: str) -> None:
    assert is_formula(text)


@pytest.mark.parametrize(
    "cell", ["", "a=1", " =1", "'=1", "-0.3", "+2.18", "-12", "-", "2026-01", 3, -3, None, "01.1.1.1-01"]
)
def test_what_it_doesnt(cell: object) -> None:
    assert not is_formula(cell)


def written(is_safe: bool, *rows: tuple[object, ...]) -> str:
    """Rows as a file has them."""
    file = io.StringIO(newline="")
    with formulas_told("cpi-tools x", is_safe):
        Writer(file).writerows(rows)
    return file.getvalue()


def test_figures_are_never_changed(capsys: pytest.CaptureFixture[str]) -> None:
    rows = (("=1+1", "-0.3", -3, None), ('=HYPERLINK("x")', "a", "", 1.5))
    assert written(True, *rows) == '\'=1+1,-0.3,-3,\n"\'=HYPERLINK(""x"")",a,,1.5\n'
    assert capsys.readouterr().err == ""
    assert written(False, *rows) == '=1+1,-0.3,-3,\n"=HYPERLINK(""x"")",a,,1.5\n'
    told = capsys.readouterr().err
    assert told.startswith("cpi-tools x: in CSV files a spreadsheet would compute 2 texts, such as '=1+1': --safe-csv ")
    assert told.count("\n") == 1


@pytest.fixture(scope="module")
def office(cpi: Cpi, tmp_path_factory: pytest.TempPathFactory) -> Path:
    """The small office with a title and an outlet that begin as a formula does; rice fell in January."""
    path = tmp_path_factory.mktemp("formulas") / "office.db"
    records = surveys.SMALL.replace('""Rice, packed""', TITLE)
    records = records.replace("Corner shop", OUTLET).replace("price,210", "price,190").replace("price,246", "price,230")
    assert TITLE in records
    assert [reply for reply in cpi.replay([records], db=path) if "refused" in reply] == []
    return path


def test_of_a_pack(cpi: Cpi, office: Path, tmp_path: Path) -> None:
    (tmp_path / "office.ini").write_text(INI)
    words = ("publish", "--db", office, "--at", 9000, "--config", tmp_path / "office.ini", "--out")
    plain, safe = run(cpi, *words, tmp_path / "plain"), run(cpi, *words, tmp_path / "safe", "--safe-csv")
    assert (plain.status, safe.status, safe.err) == (0, 0, "")
    assert plain.err.startswith("cpi-tools publish: in CSV files a spreadsheet would compute 1 text, such as '=1+1': ")
    for name in ("data/cpi.csv", "node/01.1.1.1-01.csv"):
        texts = [(tmp_path / folder / name).read_text("utf-8") for folder in ("plain", "safe")]
        assert f",5,{TITLE},600000," in texts[0] and f",5,'{TITLE},600000," in texts[1]
        # (nothing else differs: -4.5 is a figure)
        assert texts[0] == texts[1].replace(f"'{TITLE}", TITLE) and ",-4.5," in texts[1]
    for name in ("data/cpi.sdmx.csv", "data/tables/2026-01-r1.csv", "data/contributions.csv"):
        assert (tmp_path / "plain" / name).read_bytes() == (tmp_path / "safe" / name).read_bytes()
    words = (*words[:-1], "--check", tmp_path / "safe")
    same, other = run(cpi, *words, "--safe-csv"), run(cpi, *words)
    assert (same.status, same.err, other.status) == (0, "", 1)
    # (nothing is left that could be opened)
    assert other.err.endswith("files not as written now\n") and other.err.count("\n") == 1


def test_of_a_report(cpi: Cpi, office: Path, tmp_path: Path) -> None:
    words = ("desk", "month", office, "2026-02", "--at", 4000, "--out")
    plain, safe = run(cpi, *words, tmp_path / "plain"), run(cpi, *words, tmp_path / "safe", "--safe-csv")
    assert (plain.status, safe.status, safe.err) == (0, 0, "")
    assert "a spreadsheet would compute 2 texts, such as '=1+1': --safe-csv writes an apostrophe" in plain.err
    cells = [
        {cell for file in (tmp_path / folder).glob("*.csv") if file.name != "provisional.csv" for row in rows_of(file)
         for cell in row.values()}
        for folder in ("plain", "safe")
    ]  # fmt: skip
    assert {TITLE, OUTLET} <= cells[0] and {f"'{TITLE}", f"'{OUTLET}"} <= cells[1] and not {TITLE, OUTLET} & cells[1]


def test_of_files_that_are_taken_in_again(cpi: Cpi, office: Path, tmp_path: Path) -> None:
    """They have the texts as they are, so that nothing changes on the way."""
    told = run(None, "take-out", office, tmp_path / "out")
    assert told.status == 0
    assert re.search(r"^cpi-tools take-out: in CSV files .* 2 texts, .*: import the files with each column as text$",
                     told.err, re.M)  # fmt: skip
    assert {row["name"] for row in rows_of(tmp_path / "out/outlets.csv")} == {OUTLET, "Market hall"}
    with pytest.raises(SystemExit) as ended:
        run(None, "take-out", office, tmp_path / "other", "--safe-csv")
    assert ended.value.code == 2


def test_of_problems(cpi: Cpi, office: Path, tmp_path: Path) -> None:
    """A heading of a sheet is another's text, and is the cell that a warning names."""
    sheets = tmp_path / "sheets"
    sheets.mkdir()
    (sheets / "outlets.csv").write_text(f"outlet,name,{TITLE}\n99,Shop,2\n")
    words = ("take-in", sheets, "--onto", office, "--check")
    plain, found = run(cpi, *words), (sheets / "check/problems.csv").read_text("utf-8")
    safe, safely = run(cpi, *words, "--safe-csv"), (sheets / "check/problems.csv").read_text("utf-8")
    assert (plain.status, safe.status) == (0, 0)
    assert f",1,{TITLE}," in found and f",1,'{TITLE}," in safely and found == safely.replace(f"'{TITLE}", TITLE)
    assert "a spreadsheet would compute 1 text, such as '=1+1'" in plain.err and "compute" not in safe.err

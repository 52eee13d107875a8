"""`cpi_tools.sheets.sheet_files`: spreadsheets as texts that know their file, row and column; and numbers as offices write them."""

from __future__ import annotations

import os
import re
from collections.abc import Callable, Sequence
from datetime import datetime
from fractions import Fraction
from pathlib import Path
from typing import Optional
from zipfile import ZipFile

import openpyxl
import pytest

from cpi_tools.sheets.cells import BadSheet, Columns, Numeral, Origin, Sheet, SheetFault, quote_text
from cpi_tools.sheets.sheet_numbers import Numbers, decimal
from cpi_tools.sheets.sheet_files import Source
from cpi_tools.text.terminal import Fault
from cpi_tools.sheets.workbooks import currency_of

NAMES = {
    "outlets": Columns(("outlet", "name"), texts=("name",)),
    "prices": Columns(("month", "value")),
}


def read(path: Path, name: str = "outlets") -> Sheet:
    sheet = Source(path, NAMES).sheet(name)
    assert sheet is not None
    return sheet


def unread(source: Source) -> list[str]:
    """The files and sheets that aren't read."""
    assert all(it.because and it.do for it in source.unread)
    return [it.origin.file for it in source.unread]


def fault_of(path: Path, name: str = "outlets") -> SheetFault:
    with pytest.raises(BadSheet) as told:
        Source(path, NAMES).sheet(name)
    return told.value.fault


def as_book(path: Path, **sheets: Sequence[Sequence[object]]) -> Path:
    """A workbook with some sheets."""
    book = openpyxl.Workbook()
    book.remove(book.active)
    for title, rows in sheets.items():
        sheet = book.create_sheet(title)
        for row in rows:
            sheet.append(row)
    book.save(path)
    return path


# ---- CSV


@pytest.mark.parametrize("delimiter", [",", ";", "\t"])
def test_a_csv_file_of_each_separator(tmp_path: Path, delimiter: str) -> None:
    lines = ["\ufeffOutlet , NAME", '10,"Corner shop"', ",", "", '11,"Hall, ""old"""', '12,"two\nlines"', "13,x"]
    cells = [re.sub(',(?=(?:[^"]*"[^"]*")*[^"]*$)', delimiter, line) for line in lines]
    (tmp_path / "outlets.csv").write_text("\r\n".join(cells), encoding="utf-8", newline="")
    sheet = read(tmp_path)
    assert sheet.columns == ("outlet", "name")
    rows = [(row.origin.row, row["outlet"], row["name"]) for row in sheet.rows]
    # (a spreadsheet counts rows, not lines: an empty one counts, and two lines of one cell are one row)
    assert rows == [(2, "10", "Corner shop"), (5, "11", 'Hall, "old"'), (6, "12", "two\nlines"), (7, "13", "x")]
    assert sheet.rows[0].origin == Origin("outlets.csv", 2) and sheet.rows[0]["other"] == ""


@pytest.mark.parametrize(
    ("content", "row", "because"),
    [
        ("outlet,name\n10,Café\n".encode("latin-1"), 2, "isn't UTF-8"),
        (b'outlet,name\n10,x\n11,"x"y\n', 3, "isn't valid CSV"),
        (b'outlet,name\n10,x\n11,"x\n12,y\n', 3, "isn't valid CSV"),
        (b"", 1, "first row is empty"),
        (b",\n1,2\n", 1, "first row is empty"),
        (b"outlet,name,Outlet\n10,x,11\n", 1, "column Outlet appears twice"),
    ],
)
def test_a_csv_file_that_is_no_table(tmp_path: Path, content: bytes, row: int, because: str) -> None:
    (tmp_path / "outlets.csv").write_bytes(content)
    told = fault_of(tmp_path)
    assert told.origin[:2] == ("outlets.csv", row) and because in told.because and told.do


def test_a_cell_in_no_named_column_is_told_and_nothing_is_lost_without_a_word(tmp_path: Path) -> None:
    (tmp_path / "outlets.csv").write_text("outlet,,name\n10,,Shop\n11,,Shop, red\n12,x,Shop\n13,,Shop,,\n")
    told = read(tmp_path).faults
    assert [fault.origin for fault in told] == [Origin("outlets.csv", 3), Origin("outlets.csv", 4)]


# ---- where a sheet is found


def test_a_sheet_is_found_by_its_name_and_only_once(tmp_path: Path) -> None:
    (tmp_path / "Shops-OUTLETS.csv").write_text("outlet,name\n10,x\n")
    as_book(tmp_path / "prices.xlsx", Sheet1=[["month", "value"], ["2025-12", 5]], notes=[["x"]])
    for name in ("~$prices.xlsx", ".#outlets.csv"):
        (tmp_path / name).write_text("x")
    for name in ("price.csv", "read me.txt"):
        (tmp_path / name).write_text("x")
    source = Source(tmp_path, NAMES)
    outlets, prices = source.sheet("outlets"), source.sheet("prices")
    assert outlets and prices and prices.rows[0]["value"] == "5"
    assert (outlets.file, prices.file) == ("Shops-OUTLETS.csv", "prices.xlsx:Sheet1")
    assert unread(source) == ["price.csv", "prices.xlsx:notes", "read me.txt"]
    (tmp_path / "outlets.csv").write_text("outlet,name\n11,x\n")
    assert fault_of(tmp_path).because == "outlets appears twice: Shops-OUTLETS.csv and outlets.csv"


def test_a_workbook_whose_sheets_have_the_names(tmp_path: Path) -> None:
    path = as_book(tmp_path / "office.xlsx", Outlets=[["outlet", "name"], [10, "x"]], prices=[["month", "value"]])
    sheet = read(path)
    assert (sheet.file, sheet.rows[0].origin.row, sheet.rows[0]["outlet"]) == ("office.xlsx:Outlets", 2, "10")
    assert read(tmp_path).rows == sheet.rows


def test_a_workbook_is_found_by_the_names_that_its_csv_has(tmp_path: Path) -> None:
    """A spreadsheet program that saves `shops-outlets.csv` as a workbook gives its sheet that name too."""
    rows = [["outlet", "name"], [10, "x"]]
    as_book(tmp_path / "shops-outlets.xlsx", **{"shops-outlets": rows})
    as_book(tmp_path / "2026-Prices.xlsx", Sheet1=[["month", "value"]], other=rows)
    source = Source(tmp_path, NAMES)
    outlets, prices = source.sheet("outlets"), source.sheet("prices")
    assert outlets and prices
    assert (outlets.file, outlets.rows[0].cells) == ("shops-outlets.xlsx", {"outlet": "10", "name": "x"})
    assert (prices.file, unread(source)) == ("2026-Prices.xlsx:Sheet1", ["2026-Prices.xlsx:other"])


def test_what_is_not_read_is_told(tmp_path: Path) -> None:
    """But for what a system puts beside files, what is ignored by its name, and folders of the tool's own."""
    told = ("Prices.XLS", "outlets.ods", "outlets.docx", "notes.txt", "prices-2025.csv")
    for name in (*told, "desktop.ini", "Thumbs.db", ".DS_Store", "Read me.txt"):
        (tmp_path / name).write_text("x")
    for name in ("older", "check"):
        (tmp_path / name).mkdir()
    source = Source(tmp_path, NAMES, ["read ME.txt"], [tmp_path / "check"])
    assert unread(source) == sorted((*told, "older"))
    dos = {it.origin.file: it.do for it in source.unread}
    assert dos["outlets.ods"].startswith("save it as .xlsx or CSV, install libreoffice-calc-nogui, remove it from ")
    wanted = "give it the name of a sheet (outlets, prices), remove it from the folder, or name it with --ignore"
    assert dos["prices-2025.csv"] == wanted


def test_an_empty_sheet_of_a_workbook_is_none(tmp_path: Path) -> None:
    path = as_book(tmp_path / "office.xlsx", outlets=[["outlet", "name"], [10, "x"]], Sheet2=[], Sheet3=[["", None]])
    assert Source(path, NAMES).unread == []


def test_a_file_whose_name_is_no_line_is_told_as_one(tmp_path: Path) -> None:
    for name in (b"x\xff-outlets.csv", b"y\n.csv"):
        Path(os.fsdecode(os.path.join(os.fsencode(tmp_path), name))).write_bytes(b"outlet,name\n10,x\n")
    source = Source(tmp_path, NAMES)
    outlets = source.sheet("outlets")
    assert outlets and outlets.file == r"x\udcff-outlets.csv" and unread(source) == [r"y\n.csv"]


@pytest.mark.parametrize("name", ["nothing", "words.txt", "broken.xlsx"])
def test_what_is_no_folder_and_no_workbook(tmp_path: Path, name: str) -> None:
    for each in ("words.txt", "broken.xlsx"):
        (tmp_path / each).write_text("x")
    with pytest.raises(Fault, match=name):
        Source(tmp_path / name, NAMES)


WHOLE = [["month", "value"], ["2025-12", 5], ["2026-01", 6]]


def changed(path: Path, part: str, change: Callable[[bytes], bytes]) -> Path:
    """A workbook with another content of one part."""
    with ZipFile(path) as parts:
        kept = {name: parts.read(name) for name in parts.namelist()}
    kept[part] = change(kept[part])
    with ZipFile(path, "w") as parts:
        for name, data in kept.items():
            parts.writestr(name, data)
    return path


SHEET, BOOK = "xl/worksheets/sheet1.xml", "xl/workbook.xml"


@pytest.mark.parametrize(
    ("part", "change"),
    [
        (SHEET, lambda data: data[:-40]),
        (SHEET, lambda data: data.replace(b"<row", b"<<row", 1)),
        (SHEET, lambda data: data.replace(b"<v>5</v>", b"<v>five</v>")),
        (BOOK, lambda data: data[:-40]),
        (BOOK, lambda data: data.replace(b"sheetId", b"sheet")),
        ("xl/styles.xml", lambda data: data[:-40]),
        ("[Content_Types].xml", lambda data: b""),
    ],
)
def test_a_workbook_whose_parts_are_broken_is_one_line(
    part: str, change: Callable[[bytes], bytes], tmp_path: Path
) -> None:
    path = changed(as_book(tmp_path / "prices.xlsx", x=WHOLE), part, change)
    with pytest.raises(Fault, match=r"^prices\.xlsx can't be read as a workbook: [^\n]+$"):
        Source(path, NAMES).sheet("prices")


def test_a_workbook_that_is_cut_anywhere_is_one_line(tmp_path: Path) -> None:
    data = as_book(tmp_path / "prices.xlsx", x=WHOLE).read_bytes()
    for length in range(0, len(data), 211):
        (tmp_path / "prices.xlsx").write_bytes(data[:length])
        with pytest.raises(Fault, match=r"^prices\.xlsx can't be read as a workbook: [^\n]+$"):
            Source(tmp_path, NAMES)


def test_what_openpyxl_warns_of_is_silent(tmp_path: Path, recwarn: pytest.WarningsRecorder) -> None:
    """Such as parts of a workbook that it doesn't know, which a spreadsheet program of today writes."""
    odd = b'<extLst><ext uri="{CCE6A557-97BC-4b89-ADB6-D9C93CAAB3DF}"/></extLst></worksheet>'
    path = changed(as_book(tmp_path / "prices.xlsx", x=WHOLE), SHEET, lambda data: data.replace(b"</worksheet>", odd))
    assert len(read(path.parent, "prices").rows) == 2
    assert [str(each.message) for each in recwarn] == []


# ---- cells of workbooks


def test_cells_are_the_texts_that_csv_has(tmp_path: Path) -> None:
    cells = [5, 2.5, 210.0, "01.1", True, datetime(2025, 12, 1), datetime(2025, 12, 5), datetime(2026, 1, 1), None, 0]
    path = as_book(tmp_path / "outlets.xlsx", x=[[f"c{at}" for at in range(len(cells))], cells])
    book = openpyxl.load_workbook(path)
    book["x"]["F2"].number_format = "yyyy-mm"
    book["x"]["G2"].number_format = '[$-407]d. mmm "hier" yy'
    book["x"]["H2"].number_format = 'yyyy-mm-dd"T"hh:mm'
    book.save(path)
    (row,) = read(path.parent).rows
    texts = ["5", "2.5", "210", "01.1", "TRUE", "2025-12-01", "2025-12-05", "2026-01-01T00:00", "", "0"]
    assert [*row.cells.values()] == texts
    assert [isinstance(cell, Numeral) for cell in row.cells.values()] == [
        number in (0, 1, 2, 9) for number in range(10)
    ]


def test_a_number_has_the_digits_that_a_spreadsheet_keeps(tmp_path: Path) -> None:
    """Those of a formula's value end in what its reckoning in binary digits left: its cell shows 2.52 and 0.3."""
    cells = [2.4 * 1.05, 0.1 + 0.2, 210 * 1.1, 2.515, 1 / 3, 999_999_999_999.25]
    as_book(tmp_path / "outlets.xlsx", x=[[f"c{at}" for at in range(len(cells))], cells])
    (row,) = read(tmp_path).rows
    texts = ["2.52", "0.3", "231", "2.515", "0.333333333333333", "999999999999.25"]
    assert [repr(cell) for cell in cells[:3]] == ["2.52", "0.30000000000000004", "231.00000000000003"]
    assert [*row.cells.values()] == texts


@pytest.mark.parametrize(
    ("number_format", "wanted"),
    [
        ("General", ""),
        ("#,##0.00", ""),
        ('0.00;[Red]-0.00" CR"', ""),
        ('#,##0.00\\ "EUR"', "EUR"),
        ("[$$-409]#,##0.00", "$"),
        ("#,##0.00 [$K\u010d-405]", "K\u010d"),
        ('_-"\u00a3"* #,##0.00_-', "\u00a3"),
        ("\u20ac#,##0.00", "\u20ac"),
        ("[h]:mm", ""),
        # (a sign after `_` is a blank of its width)
        ("_-* #,##0.00\\ _€_-;\\-* #,##0.00\\ _€_-", ""),
    ],
)
def test_the_currency_of_a_format(number_format: str, wanted: str) -> None:
    assert currency_of(number_format) == wanted


def test_seconds_are_not_lost_without_a_word(tmp_path: Path) -> None:
    moments = [datetime(2025, 12, 1, 6, 0, 30), datetime(2025, 12, 1, 0, 0, 1), datetime(2025, 12, 1, 6)]
    as_book(tmp_path / "outlets.xlsx", x=[["a", "b", "c"], moments])
    (row,) = read(tmp_path).rows
    assert [*row.cells.values()] == ["2025-12-01T06:00:30", "2025-12-01T00:00:01", "2025-12-01T06:00"]


def test_a_formula_without_a_value_is_told(tmp_path: Path) -> None:
    as_book(tmp_path / "outlets.xlsx", x=[["outlet", "name"], [10, "x"], ["=A2+1", "y"]])
    (told,) = read(tmp_path).faults
    assert told.origin == Origin("outlets.xlsx", 3, "A") and "no value" in told.because


def test_an_error_in_a_cell_is_told(tmp_path: Path) -> None:
    path = as_book(tmp_path / "outlets.xlsx", x=[["outlet", "name"], [10, "x"]])
    broken = b'<c r="A2" t="e"><v>#REF!</v></c>'
    changed(path, SHEET, lambda data: re.sub(rb'<c r="A2"[^>]*>.*?</c>', broken, data))
    (told,) = read(tmp_path).faults
    assert told.origin == Origin("outlets.xlsx", 2, "A") and "#REF!" in told.because


def test_a_number_of_which_digits_are_lost_is_told(tmp_path: Path) -> None:
    as_book(tmp_path / "outlets.xlsx", x=[["outlet", "name"], [10, 999_999_999_999_999], [11, float("7" * 32)]])
    (told,) = read(tmp_path).faults
    assert told.origin == Origin("outlets.xlsx", 3, "B") and "keeps only 15 digits" in told.because


# ---- numbers


@pytest.mark.parametrize(
    ("sign", "text", "wanted"),
    [
        (".", "2.10", Fraction(21, 10)),
        (".", " 1 234.5 ", Fraction(2469, 2)),
        (".", "1\u202f234", Fraction(1234)),
        (".", "12 345 678", Fraction(12_345_678)),
        (".", "2 40", None),
        (".", "9" * 5000, None),
        (".", Numeral("0." + "9" * 5000), None),
        (".", "1 2 3", None),
        (".", "1234 567", None),
        (".", "1 234'567", None),
        (".", "1 234 56", None),
        (".", "2e3", None),
        (".", Numeral("45.5%"), None),
        (".", "-3", Fraction(-3)),
        (",", "2,10", Fraction(21, 10)),
        (",", "1'234,5", Fraction(2469, 2)),
        # (a point may part thousands there: a price must not become a thousandth)
        (",", "1.234", None),
        (",", Numeral("1.25"), Fraction(5, 4)),
        (".", Numeral("1e-05"), Fraction(1, 100_000)),
        (".", "2,10", None),
        (".", "1,234.5", None),
        (".", "", None),
        (".", "dear", None),
        (".", "NaN", None),
        (".", "1/3", None),
        (".", "\u0663", None),
    ],
)
def test_numbers_with_a_decimal_sign(sign: str, text: str, wanted: Optional[Fraction]) -> None:
    assert Numbers(sign).of(text) == wanted


@pytest.mark.parametrize(
    ("text", "wanted"),
    [
        ("n/a", '"n/a"'),
        ("0.84\u200b", '"0.84\\u200b"'),
        ("2\u00a040", '"2\\xa040"'),
        ("\u0663\u0664", '"\u0663\u0664"'),
        ("x" * 81, '"' + "x" * 80 + '.."'),
    ],
)
def test_a_cell_is_shown_as_it_is(text: str, wanted: str) -> None:
    assert quote_text(text) == wanted


def test_numbers_as_texts() -> None:
    decimals = [decimal(Fraction(n, 10_000)) for n in (4, 5, -4, -5, 12_345_675)]
    assert decimals == ["0.000", "0.001", "0.000", "-0.001", "1,234.568"]
    assert [decimal(Fraction(n), "+") for n in (1, 0, -1)] == ["+1.000", "+0.000", "-1.000"]

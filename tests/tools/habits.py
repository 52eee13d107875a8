"""Habits of offices' spreadsheets, each as a change of the sheets of one office whose prices are known.

Prices are in a column a month, with two decimals; `MINOR` of the words reads them.
"""

from __future__ import annotations

import csv
import io
from collections.abc import Callable, Sequence
from datetime import datetime
from pathlib import Path
from typing import Any, NamedTuple
from zipfile import ZIP_DEFLATED, ZipFile

import openpyxl
from openpyxl.utils import get_column_letter

from .spreadsheets import sheets, written

MINOR = ("--minor", "100")

PRICES = [
    ["outlet", "item", "2025-12", "2026-01", "2026-02"],
    ["10", "RICE", "2.00", "2.10", "stock"],
    ["10", "FLOUR", "0.80", "0.84", "0.90"],
    ["11", "RICE", "2.40", "comparable 2.46", "."],
]

Quotes = dict[tuple[int, int, int], tuple[str, int]]
"""Mark (or the reason) and price in minor units, by month, collector and slot."""

QUOTES: Quotes = {
    (202512, 7, 1): ("price", 200),
    (202512, 7, 2): ("price", 80),
    (202512, 8, 1): ("price", 240),
    (202601, 7, 1): ("price", 210),
    (202601, 7, 2): ("price", 84),
    (202601, 8, 1): ("comparable", 246),
    (202602, 7, 1): ("stock", 0),
    (202602, 8, 2): ("price", 90),
}


def place(row_number: int, column: int) -> str:
    """A cell as a spreadsheet names it; rows and columns from 1 on."""
    return f"{get_column_letter(column)}{row_number}"


FLOUR = place(3, 4)
"""The price of flour in 2026-01."""

NO_FLOUR: Quotes = {key: quote for key, quote in QUOTES.items() if key != (202601, 7, 2)}
"""Without the price of flour in 2026-01."""

NO_FLOUR_IN_FEBRUARY: Quotes = {key: quote for key, quote in QUOTES.items() if key != (202602, 8, 2)}

Make = Callable[[Path], Sequence[str]]
"""Changes the sheets in a folder; the words that it needs beside."""


class Habit(NamedTuple):
    """How the sheets are made, and what is read of them where that isn't all."""

    make: Make
    quotes: Quotes = QUOTES


def base(folder: Path) -> Path:
    """The office, as CSV files in a folder."""
    of = sheets()
    del of["releases"]
    of["prices"] = [[*row] for row in PRICES]
    return written(folder, of)


# ---- changes of CSV files


def text_of(rows: Sequence[Sequence[str]], separator: str = ",") -> str:
    """Rows as CSV."""
    made = io.StringIO()
    csv.writer(made, delimiter=separator, lineterminator="\n").writerows(rows)
    return made.getvalue()


def put_text(content: str, *words: str, name: str = "prices.csv", encoding: str = "utf-8") -> Make:
    """Another content of the file of prices."""
    return put_bytes(content.encode(encoding), *words, name=name)


def put_bytes(content: bytes, *words: str, name: str = "prices.csv") -> Make:
    def make(folder: Path) -> Sequence[str]:
        (folder / "prices.csv").unlink()
        (folder / name).write_bytes(content)
        return words

    return make


def put_rows(rows: Sequence[Sequence[str]]) -> Make:
    """Other rows of prices."""
    return put_text(text_of(rows))


def with_cell(row_number: int, at: int, text: str) -> Make:
    """The prices with another text, in a row as a spreadsheet counts it and a column as Python does."""
    rows = [[*own] for own in PRICES]
    rows[row_number - 1][at] = text
    return put_rows(rows)


def heading(text: str) -> Make:
    """Another name of the column 2026-01."""
    return with_cell(1, 3, text)


def cell(text: str) -> Make:
    """Another price of flour in 2026-01, which is 0.84."""
    return with_cell(3, 3, text)


def row(at: int, *cells: str) -> Make:
    """One more row of prices, at a number as a spreadsheet counts it."""
    return put_rows([*PRICES[: at - 1], cells, *PRICES[at - 1 :]])


def weights(rice: str, flour: str, *more: Sequence[str], unit: str = "percent") -> Make:
    """Weights in percent, or in another unit."""

    def make(folder: Path) -> Sequence[str]:
        rows = sheets()["classification"]
        rows[6][3], rows[8][3] = rice, flour
        written(folder, {"classification": [*rows, *([*each] for each in more)]})
        return ("--weights", unit)

    return make


def beside(name: str, content: str = "x\n") -> Make:
    """One more file in the folder."""

    def make(folder: Path) -> Sequence[str]:
        (folder / name).write_text(content, encoding="utf-8")
        return ()

    return make


# ---- workbooks


def as_number(text: str) -> object:
    """A cell as a spreadsheet has it."""
    try:
        return float(text) if "." in text and text != "." else int(text)
    except ValueError:
        return text


def book(change: Callable[[Any], object], *words: str, name: str = "prices.xlsx") -> Make:
    """The prices in a workbook; the change gets its sheet."""

    def make(folder: Path) -> Sequence[str]:
        (folder / "prices.csv").unlink()
        made = openpyxl.Workbook()
        made.active.title = "prices"
        for own in PRICES:
            made.active.append([as_number(text) for text in own])
        change(made.active)
        made.save(folder / name)
        return words

    return make


def put_cell(at: str, value: object, number_format: str = "") -> Callable[[Any], None]:
    """Another value of a cell, and its format."""

    def change(sheet: Any) -> None:
        sheet[at] = value
        if number_format:
            sheet[at].number_format = number_format

    return change


def computed(folder: Path, value: str, kind: str = "n") -> Sequence[str]:
    """The price of flour in 2026-01 as a formula with its value, as a spreadsheet program saves it."""
    from .test_sheets import SHEET, changed

    book(lambda _: None)(folder)
    plain = f'<c r="{FLOUR}" t="n"><v>0.84</v></c>'.encode()
    with_value = f'<c r="{FLOUR}" t="{kind}"><f>{place(3, 3)}*1.05</f>{value}</c>'.encode()
    changed(folder / "prices.xlsx", SHEET, lambda data: data.replace(plain, with_value))
    return ()


def as_workbook(folder: Path, name: str, *changes: Callable[[Any], None]) -> None:
    """A sheet of the office in a workbook instead of its CSV, with some cells as a spreadsheet may have them."""
    (folder / f"{name}.csv").unlink()
    made = openpyxl.Workbook()
    for own in sheets()[name]:
        made.active.append(own)
    for change in changes:
        change(made.active)
    made.save(folder / f"{name}.xlsx")


def of_classification(at: str, value: object, number_format: str) -> Make:
    """The classification in a workbook, with weights that are numbers, and one cell as a spreadsheet may have it."""

    def make(folder: Path) -> Sequence[str]:
        as_workbook(folder, "classification", weights_as_numbers, put_cell(at, value, number_format))
        return ()

    return make


def weights_as_numbers(sheet: Any) -> None:
    """The fourth column, which has the weights."""
    for (own,) in sheet.iter_rows(min_row=2, min_col=4, max_col=4):
        own.value = as_number(own.value or "")


def of_items(folder: Path) -> Sequence[str]:
    """An item's code that a spreadsheet took for a date."""
    as_workbook(folder, "items", put_cell(place(3, 1), datetime(2026, 9, 1), "d-mmm"))
    return ()


def percents(folder: Path, *, are_all: bool) -> Sequence[str]:
    """Weights as numbers of a percent format, 60 percent and 40: all of them, or one."""
    rice = put_cell(place(7, 4), 0.6, "0.0%")
    flour = put_cell(place(9, 4), 0.4, "0%") if are_all else put_cell(place(9, 4), 40, "General")
    as_workbook(folder, "classification", rice, flour)
    return ("--weights", "percent")


def date_of_window(folder: Path) -> Sequence[str]:
    """A window that opens on a day without a time."""
    as_workbook(folder, "calendar", put_cell(place(4, 2), datetime(2026, 2, 1), "yyyy-mm-dd"))
    return ()


def of_another_kind(folder: Path) -> Sequence[str]:
    """Prices of another kind of spreadsheet; beside the folder is the workbook that a program makes of it."""
    (folder / "prices.csv").rename(folder / "prices.ods")
    made = openpyxl.Workbook()
    for own in PRICES:
        made.active.append([as_number(text) for text in own])
    made.save(folder.parent / "made.xlsx")
    return ()


def unpacks_to_much(folder: Path) -> Sequence[str]:
    """A workbook of less than a megabyte, with a text of 300 million bytes."""
    book(lambda _: None)(folder)
    with ZipFile(folder / "prices.xlsx", "a", ZIP_DEFLATED, compresslevel=1) as parts:
        with parts.open("xl/sharedStrings2.xml", "w", force_zip64=True) as part:
            for _ in range(300):
                part.write(b"x" * 1_000_000)
    return ()


def older(folder: Path) -> Sequence[str]:
    """A folder in the folder."""
    (folder / "2025").mkdir()
    return ()


def hidden(folder: Path) -> Sequence[str]:
    """A sheet that is hidden, behind one that is empty."""
    (folder / "prices.csv").unlink()
    made = openpyxl.Workbook()
    sheet = made.create_sheet("prices")
    for own in PRICES:
        sheet.append(own)
    sheet.sheet_state = "hidden"
    made.save(folder / "survey.xlsx")
    return ()


def hidden_row(sheet: Any) -> None:
    """Row 3 is hidden, and so is a row without a text."""
    sheet.row_dimensions[3].hidden = sheet.row_dimensions[9].hidden = True


def two_currencies(sheet: Any) -> None:
    """Prices in the formats of one currency, and one in that of another."""
    for at in (place(2, 3), place(2, 4), place(3, 3), place(3, 5), place(4, 3)):
        sheet[at].number_format = '#,##0.00\\ "EUR"'
    sheet[FLOUR].number_format = "[$$-409]#,##0.00"


def struck_out(sheet: Any) -> None:
    """A price that is struck out, as one that somebody doubts."""
    sheet[place(4, 3)].font = openpyxl.styles.Font(strike=True)


def merged_months(sheet: Any) -> None:
    """The last two months of flour as one cell; a column for `confirm` is before the months."""
    sheet.insert_cols(3)
    sheet[place(1, 3)] = "confirm"
    sheet.merge_cells(f"{place(3, 5)}:{place(3, 6)}")


def hidden_columns(sheet: Any) -> None:
    """Column C is hidden, and so are all behind the last."""
    sheet.column_dimensions["C"].hidden = True
    sheet.column_dimensions["F"].hidden = True


def other_sheet(sheet: Any) -> None:
    """A sheet of another name beside the prices, and an empty one."""
    sheet.parent.create_sheet("Prices of March").append(["outlet", "item", "2026-03"])
    sheet.parent.create_sheet("Sheet2")


def date_headings(sheet: Any) -> None:
    """Months as dates, the last of a month or the first, shown as Jan-26."""
    for column, day in enumerate((datetime(2025, 12, 31), datetime(2026, 1, 31), datetime(2026, 2, 1)), 3):
        put_cell(place(1, column), day, "mmm-yy")(sheet)


MERGED_YEARS = [["outlet", "item", "2025", "2026", ""], ["", "", "Dec", "Jan", "Feb"], *PRICES[1:]]
"""The year above its months, merged."""

SECOND_TABLE = [*PRICES, ["", "", ""], ["outlet", "item", "2026-03"], ["10", "RICE", "2.20"]]
"""Another table below the first."""

OTHER_SLOT = [
    ["collector", "slot", "outlet", "item", "2025-12", "2026-01"],
    ["7", "1", "10", "RICE", "2.00", "2.10"],
    ["7", "1", "10", "FLOUR", "", "0.84"],
]
"""Prices in which slot 7/1, which prices rice, is next to flour."""

WITH_BLANKS = [*PRICES[:2], ["10", " FLOUR ", "0.80 ", " 0.84\u00a0", "0.90"], PRICES[3]]


def long_prices(month: str) -> Make:
    """A row a price; the month of the last one as it is given."""
    rows = [["month", "outlet", "item", "value"]]
    for own in PRICES[1:]:
        priced = zip(PRICES[0][2:], own[2:])
        rows += [[of_month, own[0], own[1], value] for of_month, value in priced if value != "."]
    rows[-1][0] = month
    return put_text(text_of(rows))


def with_separator(separator: str) -> str:
    """The prices as CSV with decimal commas."""
    return text_of([[text.replace(".", ",") if text != "." else text for text in own] for own in PRICES], separator)


def thousands(text: str) -> Habit:
    """The prices of flour a thousand times as high."""
    quotes = {**QUOTES, (202512, 7, 2): ("price", 80_000), (202602, 8, 2): ("price", 90_000)}
    rows = [*PRICES[:2], ["10", "FLOUR", "800", text, "900"], PRICES[3]]
    return Habit(put_rows(rows), {**quotes, (202601, 7, 2): ("price", 123_450)})


PLAIN = text_of(PRICES)

HABITS: dict[str, Habit] = {
    # ---- months
    "`2026M01`": Habit(heading("2026M01")),
    "`2026-1`": Habit(heading("2026-1")),
    "`Jan-26`": Habit(heading("Jan-26")),
    "`Jan 2026`": Habit(heading("Jan 2026")),
    "`January 2026`": Habit(heading("January 2026")),
    "`01/2026`": Habit(heading("01/2026")),
    "`2026/01`": Habit(heading("2026/01")),
    "`01.2026`": Habit(heading("01.2026")),
    "`202601`": Habit(heading("202601")),
    "`2026-01-15`": Habit(heading("2026-01-15")),
    "`31.01.2026`": Habit(heading("31.01.2026")),
    "dates shown as `Jan-26`": Habit(book(date_headings)),
    "`1 Jan 2026` in the column `month`": Habit(long_prices("1 Jan 2026")),
    "`01-02`": Habit(heading("01-02")),
    "`26-01`": Habit(heading("26-01")),
    "`26-Jan`": Habit(heading("26-Jan")),
    "`1/2/26`": Habit(heading("1/2/26")),
    "`01/02/2026`": Habit(heading("01/02/2026")),
    "`2026.1`, which was 2026.10 or 2026.01": Habit(book(put_cell(place(1, 4), 2026.1))),
    "a footnote mark, `2026-01 1)`": Habit(heading("2026-01 1)")),
    "one month twice": Habit(put_rows([[*PRICES[0], "Jan-26"], *([*own, "."] for own in PRICES[1:])])),
    "a year, `2025`": Habit(heading("2025")),
    "a date as a number, `46023`": Habit(book(put_cell(place(1, 4), 46023))),
    "another language, `janvier 2026`": Habit(heading("janvier 2026")),
    "`Jan-99`": Habit(heading("Jan-99")),
    "a quarter, `2026-Q1`": Habit(heading("2026-Q1")),
    "`1/2/26` in the column `month`": Habit(long_prices("1/2/26")),
    # ---- files and sheets
    "`prices.txt` with tabs": Habit(put_text(text_of(PRICES, "\t"), name="prices.txt")),
    "`prices.tsv`": Habit(put_text(text_of(PRICES, "\t"), name="prices.tsv")),
    "`2026-PRICES.csv`": Habit(put_text(PLAIN, name="2026-PRICES.csv")),
    "`Prices 2026.csv`": Habit(put_text(PLAIN, name="Prices 2026.csv")),
    "`prices.csv` and `2025-prices.csv`": Habit(beside("2025-prices.csv", PLAIN)),
    "`notes.docx`": Habit(beside("notes.docx")),
    "`prices.ods` or `.xls`, with LibreOffice": Habit(of_another_kind),
    "`prices.ods` or `.xls`, without LibreOffice": Habit(of_another_kind),
    "a folder in the folder": Habit(older),
    "`prices.xlsm`": Habit(book(lambda _: None, name="prices.xlsm")),
    "a workbook with a password": Habit(put_bytes(bytes.fromhex("d0cf11e0a1b11ae1") + bytes(504), name="prices.xlsx")),
    "a workbook that unpacks to 300 MB": Habit(unpacks_to_much),
    "a sheet with another name": Habit(book(other_sheet)),
    "a hidden sheet": Habit(hidden),
    "columns without a price": Habit(put_text("outlet,item,2025-12\n")),
    # ---- rows and columns
    "a column with another name": Habit(put_rows([[*own[:2], "x", *own[2:]] for own in PRICES])),
    "a title above the heading": Habit(put_text(f"Consumer prices\n\n{PLAIN}")),
    "a title with a comma above a heading with semicolons": Habit(
        put_text(f"Consumer prices, January 2026\n\n{text_of(PRICES, ';')}")
    ),
    "a month above the heading": Habit(put_text(f"January 2026\n{PLAIN}")),
    "`sep=;` above the heading": Habit(put_text(f"sep=;\n{text_of(PRICES, ';')}")),
    "a row of units below the heading": Habit(row(2, "", "", "EUR", "EUR", "EUR")),
    "a row of totals": Habit(row(5, "Total", "", "5.20", "5.40", "0.90")),
    "notes below the prices": Habit(put_text(f"{PLAIN}\nProvisional prices,,,,\n")),
    "empty rows": Habit(put_text(PLAIN.replace("\n", "\n,,,,\n\n"))),
    "a repeated heading": Habit(row(4, *PRICES[0])),
    "a second table below the first": Habit(put_rows(SECOND_TABLE)),
    "a second table next to the first": Habit(put_rows([[*own, *own[:2]] for own in PRICES])),
    "months below a merged year": Habit(put_rows(MERGED_YEARS)),
    "a month merged over its rows": Habit(put_text("month,outlet,item,value\n2025-12,10,RICE,2.00\n,10,FLOUR,0.80\n")),
    "an outlet merged over its rows": Habit(with_cell(3, 0, "")),
    "a hidden row": Habit(book(hidden_row)),
    "a hidden column": Habit(book(hidden_columns)),
    "a price that is struck out": Habit(book(struck_out)),
    "a price merged over two months": Habit(book(merged_months), NO_FLOUR_IN_FEBRUARY),
    "a cell beyond the heading": Habit(row(5, "11", "RICE", "", "", "", "2.50")),
    "two rows of one series with different prices": Habit(row(5, "10", "FLOUR", "0.80", "0.85", "0.90")),
    "two rows of one series with the same prices": Habit(row(5, "10", "FLOUR", "0.80", "0.84", "0.90")),
    "a slot next to an item that it doesn't price": Habit(put_rows(OTHER_SLOT)),
    "spaces before and after": Habit(put_rows(WITH_BLANKS)),
    # ---- texts
    "a byte order mark": Habit(put_text(PLAIN, encoding="utf-8-sig")),
    'UTF-16 with tabs, as "Unicode text"': Habit(
        put_text(text_of(PRICES, "\t"), name="prices.txt", encoding="utf-16"),
    ),
    "UTF-16 without its mark": Habit(put_text(PLAIN, encoding="utf-16-le")),
    "Windows-1252": Habit(put_bytes(PLAIN.replace("FLOUR", "FLOÜR").encode("cp1252"))),
    "rows that end in CR LF": Habit(put_text(PLAIN.replace("\n", "\r\n"))),
    "rows that end in CR": Habit(put_text(PLAIN.replace("\n", "\r"))),
    "semicolons and decimal commas": Habit(put_text(with_separator(";"), "--decimal", ",")),
    "tabs and decimal commas": Habit(put_text(with_separator("\t"), "--decimal", ",")),
    "commas as separator and decimal sign": Habit(put_text(with_separator(",").replace('"', ""), "--decimal", ",")),
    "a quotation mark that isn't closed": Habit(put_text(PLAIN.replace("FLOUR", '"FLOUR'))),
    # ---- prices
    "`0,84` with a decimal point": Habit(cell("0,84")),
    "`0.84` with a decimal comma": Habit(put_text(with_separator(";").replace("0,84", "0.84"), "--decimal", ",")),
    "`1 234.50`": thousands("1 234.50"),
    "`1'234.50`": thousands("1'234.50"),
    "`1,234.50`": Habit(cell("1,234.50")),
    "`1.234,50`": Habit(put_text(with_separator(";").replace("0,84", "1.234,50"), "--decimal", ",")),
    "`1.240`, which may be 1240": Habit(put_rows([*PRICES[:2], ["10", "FLOUR", "1.240", "1.250", "1.260"], PRICES[3]])),
    "`0.840`": Habit(cell("0.840")),
    "`8 4` for `0.84`": Habit(cell("8 4")),
    "`1 2 3`": Habit(cell("1 2 3")),
    "`€0.84`": Habit(cell("€0.84")),
    "`0.84 EUR`": Habit(cell("0.84 EUR")),
    "`EUR 0.84`": Habit(cell("EUR 0.84")),
    "a number shown with a currency": Habit(book(put_cell(FLOUR, 0.84, '"EUR" #,##0.00'))),
    "a number shown with `$`, among others with `EUR`": Habit(book(two_currencies)),
    "a number shown as a percent": Habit(book(put_cell(FLOUR, 0.84, "0%"))),
    "`n/a`": Habit(cell("n/a")),
    "`-`": Habit(cell("-")),
    "`..`": Habit(cell("..")),
    "`.`, or an empty cell": Habit(cell("."), NO_FLOUR),
    "`Stock` for `stock`": Habit(with_cell(2, 4, "Stock")),
    "`0`": Habit(cell("0")),
    "`0.845`": Habit(cell("0.845")),
    "`84e-2`": Habit(cell("84e-2")),
    "`0.84*`": Habit(cell("0.84*")),
    "a zero-width space after `0.84`": Habit(cell("0.84\u200b")),
    "`-0.84`": Habit(cell("-0.84")),
    "`٠.٨٤`": Habit(cell("٠.٨٤")),
    "`'0.84`": Habit(cell("'0.84")),
    "`(0.84)`": Habit(cell("(0.84)")),
    "a number stored as text": Habit(book(put_cell(FLOUR, "0.84"))),
    "a formula with its value": Habit(lambda folder: computed(folder, "<v>0.84000000000000008</v>")),
    "a formula whose value is empty": Habit(lambda folder: computed(folder, "<v></v>", "str"), NO_FLOUR),
    "a formula without its value": Habit(lambda folder: computed(folder, "")),
    "an error, `#N/A`": Habit(book(put_cell(FLOUR, "#N/A"))),
    "a price read as a date": Habit(book(put_cell(FLOUR, datetime(2026, 10, 2), "d-mmm"))),
    "a number with more than 15 digits": Habit(book(put_cell(FLOUR, 10**16))),
    # ---- weights, codes and times
    "weights that add up to 99.9 percent": Habit(weights("60", "39.9")),
    "weights that add up to 58.9 percent": Habit(weights("4.5", "54.4")),
    "weights in money, `1.250` among `950`": Habit(weights("1.250", "950", unit="money")),
    "a total below the weights": Habit(weights("60", "40", ["2026", "Total", "Total", "100"])),
    "all weights in percent format": Habit(lambda folder: percents(folder, are_all=True)),
    "one weight in percent format": Habit(lambda folder: percents(folder, are_all=False)),
    "a code `1.1`, which was 01.1": Habit(of_classification(place(4, 2), 1.1, "General")),
    "a code read as a date": Habit(of_classification(place(4, 2), datetime(2001, 1, 1), "d.m.yy")),
    "an item `SEP1` read as a date": Habit(of_items),
    "a window with a day but no time": Habit(date_of_window),
}  # fmt: skip
"""By the words of habits.txt, which are those of docs/decide/MIGRATING-AN-OFFICE.md."""

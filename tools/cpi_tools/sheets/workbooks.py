"""Workbooks, `.xlsx` and `.xlsm`, as cells: read by openpyxl, after a look whether their parts are what they say."""

from __future__ import annotations

import contextlib
import functools
import re
import unicodedata
import warnings
import zipfile
from collections.abc import Iterator, Sequence
from dataclasses import dataclass, field
from datetime import date, datetime, time, timedelta
from decimal import Decimal
from pathlib import Path
from typing import Any, NamedTuple
from xml.parsers import expat

from ..text.message import Code, Message, message, message_of, row as row_of
from ..text.others import of_others
from ..text.terminal import Fault, needs
from .cells import MOST_TOLD, Alike, Dated, Numeral, Origin, SheetFault, Texts


# ==== the parts of a workbook, unpacked once before openpyxl sees them: whether they are what they claim to be
#
# A workbook is a ZIP archive of XML, and openpyxl keeps some parts in memory completely. An archive of a few bytes may
# unpack to any size, so an archive that claims more than `MOST_UNPACKED`, or contains more than it claims, is refused
# before it takes memory. The same pass finds what openpyxl doesn't say about a sheet.

MOST_UNPACKED = 256 * 2**20
"""The most bytes of all parts of a workbook, unpacked; a sheet of 400,000 prices, one per row, has some 140 million."""

MOST_TEXT = 1_000_000
"""The most characters of one text in a part; spreadsheet programs allow at most 32,767 in a cell."""

MOST_CELLS = 16_384
"""The most cells of a row in spreadsheet programs; openpyxl keeps a whole row in memory."""

HELD = frozenset(("xf", "font", "fill", "border", "dxf", "numFmt", "cellStyle", "definedName"))
"""Elements of styles and names, each of which openpyxl keeps in some 1.5 KB."""

MOST_HELD = 100_000
"""The most of these elements in a part; spreadsheet programs allow at most 65,490 cell formats."""

MOST_SHEET_ROWS = 1_048_576
"""The most rows of a sheet in spreadsheet programs."""

BLOCK = 1 << 20
"""The number of bytes that are unpacked at once."""


@dataclass
class Part:
    """The facts about a part that openpyxl doesn't give: the numbers of its hidden rows, its hidden columns from the
    first to the last, the first cells with a formula and no value, its merged ranges, and whether a font of it is
    struck out."""

    hidden_rows: set[int] = field(default_factory=set)
    hidden_columns: list[tuple[int, int]] = field(default_factory=list)
    without_value: list[str] = field(default_factory=list)
    merged: list[str] = field(default_factory=list)
    has_strike: bool = False


def looked_through(path: Path, label: str) -> dict[str, Part]:
    """The parts of a workbook that are XML, by their names; nothing else of them is kept.

    Raises Fault, with the label, if the workbook unpacks to too much, or contains something that no spreadsheet program
    writes; a broken part raises the exceptions of its readers.
    """
    found: dict[str, Part] = {}
    with zipfile.ZipFile(path) as parts:
        infos = parts.infolist()
        size = sum(info.file_size for info in infos)
        if size > MOST_UNPACKED:
            raise Fault(f"{label} unpacks to {size:,} bytes, and {MOST_UNPACKED:,} are the most")
        for info in infos:
            with parts.open(info) as part:
                # (what is longer than it says ends in a fault of its sum here)
                if is_xml(info.filename):
                    found[info.filename] = _Look(label).read(part)
                else:
                    while part.read(BLOCK):
                        pass
    return found


def is_xml(part: str) -> bool:
    """Whether a part is XML that openpyxl may read."""
    return part.lower().endswith((".xml", ".rels")) or part.startswith("xl/worksheets/")


class _Look:
    """Reads the XML of a part piece by piece."""

    def __init__(self, label: str):
        self._found, self._label, self._length, self._row = Part(), label, 0, 0
        self._cell, self._kind, self._has_formula, self._has_value = "", "", False, False
        self._held = self._cells = 0

    def read(self, part: Any) -> Part:
        """The facts about a part."""
        parser = expat.ParserCreate()
        parser.buffer_text, parser.buffer_size = True, BLOCK
        parser.StartDoctypeDeclHandler = self._refuse
        parser.StartElementHandler, parser.EndElementHandler = self._start, self._end
        parser.CharacterDataHandler = self._text
        while block := part.read(BLOCK):
            parser.Parse(block)
        return self._found

    def _refuse(self, *_: object) -> None:
        """Refuses a document type: it may declare entities, and no spreadsheet program writes one."""
        raise Fault(f"{self._label} can't be read as a workbook: a part of it declares a document type")

    def _start(self, name: str, given: dict[str, str]) -> None:
        name, self._length = name.rpartition(":")[2], 0
        if name == "c":
            self._cell, self._kind = given.get("r", ""), given.get("t", "")
            self._has_formula = self._has_value = False
            self._cells += 1
            if self._cells > MOST_CELLS:
                raise Fault(f"{self._label} has a row of more than {MOST_CELLS:,} cells, which are the most")
        elif name == "v":
            # (a formula whose value is an empty text has an empty value)
            self._has_value = self._kind == "str"
        elif name == "f":
            self._has_formula = True
        elif name == "row":
            self._start_row(given)
        elif name == "col" and (is_true(given.get("hidden")) or given.get("width") in ("0", "0.0")):
            self._found.hidden_columns.append((int(given["min"]), int(given["max"])))
        elif name == "mergeCell" and len(self._found.merged) < MOST_TOLD:
            self._found.merged.append(given.get("ref", ""))
        elif name == "strike":
            self._found.has_strike = self._found.has_strike or given.get("val") not in ("0", "false")
        elif name in HELD:
            self._held += 1
            if self._held > MOST_HELD:
                raise Fault(f"{self._label} has more styles and names than {MOST_HELD:,}, which are the most")

    def _start_row(self, given: dict[str, str]) -> None:
        self._row, self._cells = int(float(given.get("r", self._row + 1))), 0
        if self._row > MOST_SHEET_ROWS:
            raise Fault(f"{self._label} has more rows than {MOST_SHEET_ROWS:,}, which are the most")
        if is_true(given.get("hidden")):
            self._found.hidden_rows.add(self._row)

    def _text(self, more: str) -> None:
        self._length += len(more)
        if self._length > MOST_TEXT:
            raise Fault(f"{self._label} has a text of more than {MOST_TEXT:,} characters, which are the most")

    def _end(self, name: str) -> None:
        name = name.rpartition(":")[2]
        if name == "v":
            self._has_value = self._has_value or self._length > 0
        elif name == "c" and self._has_formula and not self._has_value and len(self._found.without_value) < MOST_TOLD:
            self._found.without_value.append(self._cell)


def is_true(text: object) -> bool:
    """Whether an attribute means yes."""
    return text in ("1", "true")


# ==== Workbooks, `.xlsx` and `.xlsm`, as cells: openpyxl reads them, after a check that they are what they claim to be

MOST_DIGITS = 10**15
"""The least whole number that a spreadsheet may have changed, such as a key whose characters are all digits."""

OLDER = bytes.fromhex("d0cf11e0a1b11ae1")
"""The first bytes of Microsoft's compound file, from [MS-CFB]."""

MOST_NAMED = 5
"""The most hidden rows and columns that a line names; the others are counted."""


class Title(NamedTuple):
    """A sheet of a workbook: its title, and whether it is hidden."""

    text: str
    is_hidden: bool


@contextlib.contextmanager
def reading(label: str) -> Iterator[None]:
    """Within this context, an exception of openpyxl about a broken workbook becomes a Fault, and its warnings about a
    sound one are silent.

    Its parsers raise exceptions of many kinds.
    """
    needs("openpyxl", "python3-openpyxl")
    with warnings.catch_warnings():
        warnings.simplefilter("ignore")
        try:
            yield
        except Fault:
            raise
        except Exception as fault:
            text = (str(fault) or type(fault).__name__).splitlines()[0]
            raise Fault(f"{label} can't be read as a workbook: {text}") from fault


class Workbook:
    """A workbook that openpyxl has open, with the values of its formulas."""

    def __init__(self, path: Path, label: str):
        """`label` names the file. Raises Fault if it can't be read."""
        self._label = label
        with reading(label):
            from openpyxl import load_workbook

            refuse_container(path, label)
            self._parts = looked_through(path, label)
            self._book: Any = load_workbook(path, read_only=True, data_only=True, keep_links=False)
            self._has_strike = any(part.has_strike for part in self._parts.values())

    def close(self) -> None:
        """Closes its file."""
        self._book.close()

    def titles(self) -> list[Title]:
        """Its sheets, in their order."""
        return [Title(sheet.title, sheet.sheet_state != "visible") for sheet in self._book.worksheets]

    def texts(self, title: str, label: str) -> Texts:
        """The cells of a sheet, which `label` names. The rows raise Fault if it can't be read."""
        texts = Texts(iter(()))
        texts.rows = self._rows(title, label, texts)
        return texts

    def _rows(self, title: str, label: str, found: Texts) -> Iterator[Sequence[str]]:
        """The rows of a sheet, from the first on, even if the file gives a wrong size."""
        with reading(self._label):
            sheet = self._book[title]
            # (the only name that openpyxl has for the part of a sheet; a part that wasn't looked through isn't read)
            part = self._parts[sheet._worksheet_path]
            odd, unlike = Alike(found.faults), _Unlike(part, self._has_strike)
            for place in part.without_value:
                do = message("open the workbook in a spreadsheet program and save it")
                odd.add(SheetFault(Origin(label, *place_of(place)), message("the cell's formula has no value"), do))
            sheet.reset_dimensions()
            for number, row in enumerate(sheet.iter_rows(), 1):
                texts = [text_of_cell(cell, label, odd) for cell in row]
                unlike.see(number, row, texts)
                yield texts
            odd.end()
            found.warnings += unlike.faults(label)


def refuse_container(path: Path, label: str) -> None:
    """Raises Fault for the container of older programs, which also holds workbooks with a password."""
    with path.open("rb") as file:
        if file.read(len(OLDER)) == OLDER:
            do = "save it as .xlsx without a password"
            raise Fault(f"{label} has a password, or is an .xls that is named otherwise: {do}")


class _Unlike:
    """Cells whose texts a reader of the sheet doesn't see, or considers deleted."""

    def __init__(self, part: Part, has_strike: bool):
        self._part, self._has_strike = part, has_strike
        self._rows: list[int] = []
        self._columns: set[int] = set()
        self._struck: list[Any] = []
        self._merged = {it.partition(":")[0]: it for it in part.merged}
        self._filled: list[str] = []

    def see(self, number: int, row: Sequence[Any], texts: Sequence[str]) -> None:
        """Notes a row of the sheet."""
        if number in self._part.hidden_rows and any(texts):
            self._rows.append(number)
        for first, last in self._part.hidden_columns:
            self._columns |= {at for at in range(first, min(last, len(texts)) + 1) if texts[at - 1]}
        if self._merged:
            places = (cell.coordinate for cell, text in zip(row, texts) if text)
            self._filled += [self._merged[place] for place in places if place in self._merged]
        if self._has_strike:
            self._struck += [cell.coordinate for cell, text in zip(row, texts) if text and cell.font.strike]

    def faults(self, label: str) -> Iterator[SheetFault]:
        """A line for the rows, one for the columns, one for cells that are struck out, and one for merged ranges."""
        columns = [*map(letters_of, sorted(self._columns))]
        if self._rows:
            yield SheetFault(Origin(label, self._rows[0]), hidden_rows(self._rows), LOOK)
        if columns:
            yield SheetFault(Origin(label, 1, columns[0]), hidden_columns(columns), LOOK)
        if self._struck:
            yield SheetFault(Origin(label, *place_of(self._struck[0])), struck_out(self._struck), LOOK)
        if self._filled:
            do = message("write the text into each cell that it is meant for; the other cells are empty here")
            yield SheetFault(Origin(label, *place_of(self._filled[0].partition(":")[0])), name_merged(self._filled), do)


LOOK = message("see whether they belong there, and delete them if they don't")
"""The instruction for rows, columns or cells that are read although they look deleted."""


def hidden_rows(rows: Sequence[int]) -> Message:
    """The text about rows that a reader of the sheet doesn't see."""
    return message_of(
        "{count} hidden row is read like any other row: {names}",
        "{count} hidden rows are read like any other row: {names}",
        len(rows),
        names=list_names([*map(str, rows)]),
    )


def hidden_columns(columns: Sequence[str]) -> Message:
    """The text about columns that a reader of the sheet doesn't see."""
    return message_of(
        "{count} hidden column is read like any other column: {names}",
        "{count} hidden columns are read like any other column: {names}",
        len(columns),
        names=list_names(columns),
    )


def struck_out(cells: Sequence[str]) -> Message:
    """The text about cells that a reader of the sheet considers deleted."""
    return message_of(
        "{count} struck-out cell is read like any other cell: {names}",
        "{count} struck-out cells are read like any other cell: {names}",
        len(cells),
        names=list_names(cells),
    )


def name_merged(ranges: Sequence[str]) -> Message:
    """The text about ranges of cells that a reader of the sheet sees as one."""
    return message_of(
        "only the first cell of {count} merged range is read: {names}",
        "only the first cell of each of {count} merged ranges is read: {names}",
        len(ranges),
        names=list_names(ranges),
    )


def list_names(names: Sequence[str]) -> Message:
    """Some names, and `..` if there are more."""
    return row_of([*map(of_others, names[:MOST_NAMED]), *([Code("..")] if len(names) > MOST_NAMED else [])])


def place_of(cell: str) -> tuple[int, str]:
    """The row and the column of `AB12`."""
    match = re.fullmatch(r"([A-Z]+)([0-9]+)", cell)
    return (int(match[2]), match[1]) if match else (0, cell)


def letters_of(column: int) -> str:
    """The letters of a column, `AB` for 28."""
    letters = ""
    while column:
        column, at = divmod(column - 1, 26)
        letters = chr(ord("A") + at) + letters
    return letters


# ---- cells


def text_of_cell(cell: Any, label: str, odd: Alike) -> str:
    """A cell as the text that a CSV file would contain: dates as days or times, and numbers with the 15 digits that a
    spreadsheet keeps, so that 2.4 * 1.05 is 2.52 there and here."""
    value = cell.value
    if value is None:
        return ""
    if isinstance(value, str):
        if cell.data_type == "e":
            origin = Origin(label, cell.row, cell.column_letter)
            odd.add(
                SheetFault(
                    origin,
                    message("the value of the cell is the error {error}", error=of_others(value)),
                    message("correct its formula, or empty the cell"),
                )
            )
            return ""
        return value
    if isinstance(value, bool):
        return "TRUE" if value else "FALSE"
    if isinstance(value, (int, float)):
        return number_of_cell(cell, label, odd)
    if isinstance(value, datetime):
        return time_of_cell(value, "h" in signs_of(cell.number_format).lower())
    if isinstance(value, (date, time, timedelta)):
        return Dated(value)
    return str(value)


def number_of_cell(cell: Any, label: str, odd: Alike) -> str:
    """The text of a number, with a percent sign if its cell shows one."""
    value = cell.value
    if abs(value) >= MOST_DIGITS:
        because = message(
            "the cell contains the number {number}, and a spreadsheet keeps only 15 digits of a number",
            number=Code(repr(value)),
        )
        do = message("format the column as text, and write the cell again")
        odd.add(SheetFault(Origin(label, cell.row, cell.column_letter), because, do))
        return ""
    text, number_format = f"{value:.15g}", cell.number_format
    if number_format == "General":
        return Numeral(text)
    if "%" in signs_of(number_format):
        return Numeral(f"{(Decimal(text) * 100).normalize():f}%")
    numeral = Numeral(text)
    numeral.currency = currency_of(number_format)
    return numeral


@functools.lru_cache(maxsize=1000)
def currency_of(number_format: str) -> str:
    """The text that a cell of a format shows next to a number that isn't negative: `EUR` for `"EUR" 0.00`, `$` for
    `[$$-409]0`."""
    first = number_format.partition(";")[0]
    named = [quoted or of_place for quoted, of_place in re.findall(r'"([^"]*)"|\[\$([^]-]+)[^]]*\]', first)]
    signs = [sign for sign in signs_of(first) if unicodedata.category(sign) == "Sc"]
    return " ".join(each.strip() for each in (*named, *signs) if each.strip())


@functools.lru_cache(maxsize=1000)
def signs_of(number_format: str) -> str:
    """A number format without the texts in it and the parts in brackets, and without blanks as wide as a sign (`_€`)
    and signs that fill a cell (`*-`)."""
    return re.sub(r'"[^"]*"|\\.|_.|[*].|\[[^]]*\]', "", number_format)


def time_of_cell(value: datetime, has_hours: bool) -> Dated:
    """A date as a day, `2026-01-31`, or as a time if its cell shows one."""
    if not has_hours and (value.hour, value.minute, value.second) == (0, 0, 0):
        return Dated(value.strftime("%Y-%m-%d"))
    return Dated(value.strftime("%Y-%m-%dT%H:%M:%S" if value.second else "%Y-%m-%dT%H:%M"))

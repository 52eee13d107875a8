"""Sheets of an office outside the program: files of text, workbooks, and which sheet each of them is."""

from __future__ import annotations

import csv
import functools
import itertools
import re
from collections.abc import Callable, Collection, Iterator, Mapping, Sequence
from pathlib import Path
from typing import Optional, Protocol, TextIO

from ..text.message import Message, both, message, row as row_of
from ..text.others import of_others, own_line
from ..text.terminal import Fault, because_of
from .cells import (
    ROWS_LOOKED_AT,
    Alike,
    BadSheet,
    Columns,
    MonthRead,
    Origin,
    Row,
    Sheet,
    SheetFault,
    Texts,
    cut,
    label_of,
    read_whole,
)
from .converted import KINDS as CONVERTED
from .record_rows import SHEETS
from .workbooks import Title, Workbook


# ==== text files as cells: CSV and similar files, with commas, semicolons or tabs, whichever the heading contains most
# of
#
# The heading is the first row that names two columns of an office's sheets, or else the first row. Rows above a heading
# are refused later, with a line that says which row is the heading.
#
# They are UTF-8, with or without a byte order mark, or UTF-16 with one, as a spreadsheet program saves "Unicode text".
# A first line like `sep=;` names the separator to some spreadsheet programs, which don't show it as a row.

SEPARATORS = ",;\t"

NAMED_SEPARATOR = re.compile("sep=(.)\r?\n?", re.I)

MARKS_OF_UTF_16 = (b"\xff\xfe", b"\xfe\xff")
"""The byte order marks of UTF-16."""

UTF_8 = message("save it as CSV in UTF-8")

NAMES = frozenset(name for columns in SHEETS.values() for name in (*columns.needed, *columns.others))
"""The names of all columns."""

LOOKED_AT = 1 << 16
"""The number of characters after the first row in which the heading is searched."""


def texts_of_csv(path: Path, encoding: str = "", names: Collection[str] = NAMES) -> Texts:
    """The cells of a file whose heading contains two of some names, in small letters. `encoding` is given if it is
    neither UTF-8 nor UTF-16. The rows raise BadSheet if the file can't be read."""
    return Texts(_rows(path, encoding, names), is_plain=True)


def _rows(path: Path, encoding: str, names: Collection[str]) -> Iterator[list[str]]:
    label, number, is_utf_16 = label_of(path), 0, False
    try:
        with path.open("rb") as bytes_of_file:
            is_utf_16 = bytes_of_file.read(2) in MARKS_OF_UTF_16
        with path.open(encoding=encoding or ("utf-16" if is_utf_16 else "utf-8-sig"), newline="") as file:
            separator = _separator(file, label, names)
            for number, row in enumerate(csv.reader(file, delimiter=separator, strict=True), 1):
                yield row
    except OSError as fault:
        raise BadSheet(
            Origin(label, 0), own_line(because_of(fault)), message("find out why the file can't be read")
        ) from fault
    except UnicodeError as fault:
        if encoding:
            because = message("the file isn't encoded in {encoding}", encoding=of_others(encoding))
            do = message("name its encoding in the map")
            raise BadSheet(Origin(label, number + 1), because, do) from fault
        because = message("the file begins like UTF-16, but isn't valid UTF-16")
        raise BadSheet(Origin(label, number + 1), because, UTF_8) if is_utf_16 else _no_utf_8(path) from fault
    except csv.Error as fault:
        because = message("the row isn't valid CSV: {fault}", fault=own_line(str(fault).splitlines()[0]))
        raise BadSheet(Origin(label, number + 1), because, message("check its quotation marks")) from fault


def _separator(file: TextIO, label: str, names: Collection[str]) -> str:
    """The separator of a file, which is then positioned at its first row."""
    first = file.readline()
    if "\0" in first:
        because = message("the file isn't UTF-8: it contains zero bytes, like UTF-16")
        raise BadSheet(Origin(label, 1), because, UTF_8)
    if named := NAMED_SEPARATOR.fullmatch(first):
        return named[1]
    lines = re.split("\r\n|[\r\n]", first + file.read(LOOKED_AT))[:ROWS_LOOKED_AT]
    file.seek(0)
    for line in lines:
        count, separator = max((_names_in(line, each, names), each) for each in SEPARATORS)
        if count > 1:
            return separator
    return max(SEPARATORS, key=lines[0].count)


def _names_in(line: str, separator: str, names: Collection[str]) -> int:
    """The number of cells in a line that are names of columns."""
    return sum(cell.strip().strip('"').lower() in names for cell in line.split(separator))


def _no_utf_8(path: Path) -> BadSheet:
    """The problem of a file that isn't UTF-8: the row, and the cell as far as it can be shown."""
    with path.open("rb") as file:
        for number, line in enumerate(file, 1):
            try:
                line.decode("utf-8")
            except UnicodeDecodeError as fault:
                before = re.split(f"[{SEPARATORS}]", line[: fault.start].decode("utf-8"))[-1]
                behind = line[fault.start :].decode("ascii", "backslashreplace")
                cell = before + re.split(f"[{SEPARATORS}\r\n]", behind)[0]
                because = message("the file isn't UTF-8: a cell contains the bytes {bytes}", bytes=of_others(cell[:60]))
                return BadSheet(Origin(label_of(path), number), because, UTF_8)
    return BadSheet(Origin(label_of(path), 0), message("the file isn't UTF-8"), UTF_8)


# ==== the sheets of an office outside the program: text files and workbooks, and the sheet that each of them is
#
# A sheet is found by its name, in any case of letters: `items.csv`; `items.xlsx`, which means its first sheet; or the
# sheet `items` of any workbook. Another name and a hyphen may precede it, as in `basket-items.csv`, the way spreadsheet
# programs name the sheets of a workbook that they save as CSV.

TEXTS = (".csv", ".tsv", ".txt")
WORKBOOKS = (".xlsx", ".xlsm")
"""The endings of files that are read."""

OF_SYSTEMS = ("desktop.ini", "thumbs.db")
"""Files that a system puts next to others, like files whose names begin with `.` or `~$`."""

IGNORE = of_others("--ignore")

UNNAMED = message("name the column in the first row, or put quotation marks around a text that contains the separator")


class Sheets(Protocol):
    """A source of an office's sheets."""

    unread: list[SheetFault]
    readings: list[MonthRead]

    def sheet(self, name: str) -> Optional[Sheet]:
        """A sheet by its name with all its rows; None if there is none. Raises BadSheet if it can't be read."""

    def stream(self, name: str) -> Optional[Sheet]:
        """A sheet by its name, whose rows are read once, when they are asked for. Raises BadSheet, and so do the
        rows."""

    def close(self) -> None:
        """Closes the files; no sheet is read from then on."""


Place = tuple[Path, str]
"""A text file, or a workbook with the title of a sheet."""


class Source:
    """The sheets of a folder's files, or of one workbook, by the names that are wanted."""

    def __init__(
        self,
        path: Path,
        names: Mapping[str, Columns],
        ignored: Collection[str] = (),
        own: Collection[Path] = (),
        workbooks: Optional[Mapping[Path, Path]] = None,
        others: Collection[Place] = (),
    ):
        """`others` are read elsewhere. `ignored` are names of files and sheets that aren't read on purpose, and `own`
        are folders in the folder that this tool writes; `workbooks` are the workbooks that files of other kinds became.
        Raises Fault if there is no such folder or workbook, or if it can't be read."""
        self.path, self._names = path, names
        self._ignored, self._own = {name.strip().lower() for name in ignored}, {each.resolve() for each in own}
        self._workbooks, self._others = workbooks or {}, {*others}
        self._found: dict[str, list[tuple[str, bool, Callable[[], Texts]]]] = {}
        self._open: list[Workbook] = []
        self.readings: list[MonthRead] = []
        self.unread: list[SheetFault] = []
        """Files and sheets that aren't empty, and whose name or kind isn't read."""
        try:
            for file in files_of(path):
                self._look_at(file)
        except OSError as fault:
            raise Fault(because_of(fault)) from fault

    def close(self) -> None:
        """Closes the workbooks; no sheet is read from then on."""
        for workbook in self._open:
            workbook.close()

    def sheet(self, name: str) -> Optional[Sheet]:
        """A sheet by its name with all its rows; None if there is none. Raises BadSheet if it can't be read."""
        return read_whole(self.stream(name))

    def stream(self, name: str) -> Optional[Sheet]:
        """A sheet by its name, whose rows are read once, when they are asked for. Raises BadSheet, and so do the
        rows."""
        found = self._found.get(name, [])
        if len(found) > 1:
            files = both([of_others(file) for file, _, _ in found])
            # t: {sheet} is the name of a sheet, such as items
            because = message("{sheet} appears twice: {files}", sheet=of_others(name), files=files)
            raise BadSheet(Origin(found[1][0], 0), because, message("keep only one of them"))
        if not found:
            return None
        label, is_hidden, read = found[0]
        sheet = sheet_of(label, read(), self._names[name])
        if is_hidden:
            do = message("show it, and see whether it belongs there")
            sheet.warnings.append(
                SheetFault(Origin(label, 0), message("1 hidden sheet is read like any other sheet"), do)
            )
        return sheet

    # ---- what there is

    def _look_at(self, file: Path) -> None:
        """Notes the sheet or the sheets of a file."""
        kind, name = file.suffix.lower(), file.name.lower()
        if name in self._ignored or file.resolve() in self._own or (file, "") in self._others:
            return
        if file.is_dir():
            self._tell(label_of(file), message("the folder isn't read"), TAKE_OUT_OF_FOLDER)
        elif kind in TEXTS:
            self._note(file.stem, label_of(file), functools.partial(texts_of_csv, file))
        elif kind in WORKBOOKS:
            self._look_into(file, file)
        elif file in self._workbooks:
            self._look_into(file, self._workbooks[file])
        else:
            kinds = row_of([*map(of_others, (*TEXTS, *WORKBOOKS))])
            because = message("the file isn't read: it isn't one of these kinds: {kinds}", kinds=kinds)
            self._tell(label_of(file), because, CONVERT if kind in CONVERTED else SAVE)

    def _look_into(self, file: Path, book: Path) -> None:
        """Notes the sheets of a workbook; if the workbook's own name is the name of a sheet, its first sheet gets that
        name."""
        workbook = Workbook(book, label_of(file))
        self._open.append(workbook)
        own, titles = self._name(file.stem), workbook.titles()
        names = [title.text for title in titles]
        if own in self._names and own not in [self._name(name) for name in names]:
            names[:1] = [own]
        for name, title in zip(names, titles):
            if title.text.strip().lower() not in self._ignored and (file, title.text) not in self._others:
                label = label_of(file) if is_named_so(file, title, titles) else f"{label_of(file)}:{title.text}"
                read = functools.partial(workbook.texts, title.text, label)
                if self._name(name) in self._names or any(any(row) for row in read().rows):
                    self._note(name, label, read, title.is_hidden)

    def _name(self, text: str) -> str:
        """The name for which a file or a sheet is used: all of its text, or the text after the last hyphen."""
        whole = text.strip().lower()
        return whole if whole in self._names else whole.rpartition("-")[2]

    def _note(self, text: str, label: str, read: Callable[[], Texts], is_hidden: bool = False) -> None:
        name = self._name(text)
        if name in self._names:
            self._found.setdefault(name, []).append((label, is_hidden, read))
        else:
            do = message(
                "give it the name of a sheet ({names}), remove it from the folder, or name it with {option}",
                names=row_of([*map(of_others, self._names)]),
                option=IGNORE,
            )
            self._tell(label, message("it isn't read: no sheet has that name"), do)

    def _tell(self, label: str, because: Message, do: Message) -> None:
        self.unread.append(SheetFault(Origin(label, 0), because, do))


TAKE_OUT_OF_FOLDER = message(
    "put its files next to the others, remove it from the folder, or name it with {option}", option=IGNORE
)
SAVE = message(
    "save it as {kind} or CSV, remove it from the folder, or name it with {option}",
    kind=of_others(".xlsx"),
    option=IGNORE,
)
CONVERT = message(
    "save it as {kind} or CSV, install {package}, remove it from the folder, or name it with {option}",
    kind=of_others(".xlsx"),
    package=of_others("libreoffice-calc-nogui"),
    option=IGNORE,
)
"""The instructions for a folder or a file that isn't read."""


def files_of(path: Path) -> Sequence[Path]:
    """The files and folders in a folder, in the order of names, except files of systems; or the workbook at a path."""
    if path.is_dir():
        files = (file for file in path.iterdir() if not file.name.startswith((".", "~$")))
        return sorted(file for file in files if file.name.lower() not in OF_SYSTEMS)
    if path.suffix.lower() in (*WORKBOOKS, *CONVERTED) and path.is_file():
        return [path]
    raise Fault(f"{path} is no folder and no workbook .xlsx")


def is_named_so(file: Path, title: Title, titles: Sequence[Title]) -> bool:
    """Whether the name of a file is enough to name one of its sheets."""
    return len(titles) == 1 or title.text.lower() == file.stem.lower()


# ---- the table of a sheet


def sheet_of(file: str, texts: Texts, columns: Columns) -> Sheet:
    """The table in some texts, whose first row names the columns. Raises BadSheet if it doesn't."""
    first = [[*row] for row in itertools.islice(texts.rows, ROWS_LOOKED_AT)]
    written = tuple(remove_mark(head.strip()) for head in first[0]) if first else ()
    heads = tuple(head.lower() for head in written)
    look_at_heading(file, first, columns)
    twice = [written[at] for at, head in enumerate(heads) if head and head in heads[:at]]
    if twice:
        do = message("rename one of the two; a second table needs a sheet of its own")
        because = message("the column {column} appears twice", column=of_others(twice[0]))
        raise BadSheet(Origin(file, 1, twice[0]), because, do)
    sheet = Sheet(file, heads, written, (), texts.faults, texts.warnings)
    sheet.rows = rows_of(sheet, itertools.chain(first[1:], texts.rows), columns)
    return sheet


def look_at_heading(file: str, first: Sequence[Sequence[str]], columns: Columns) -> None:
    """Raises BadSheet if the first row names no column, or a row below it is the heading."""
    names = {*columns.needed, *columns.others}
    known = [sum(cell.strip().lower() in names for cell in row) for row in first]
    least = min(2, len(columns.needed))
    below = next((at for at, count in enumerate(known, 1) if count >= least), 0)
    if known and known[0] < least and below:
        has = next((cell.strip() for cell in first[0] if cell.strip()), "")
        raise BadSheet(Origin(file, 1), told_above(has, below), take_above(below - 1))
    if not first or not any(cell.strip() for cell in first[0]):
        raise BadSheet(Origin(file, 1), message("the first row is empty"), message("name the columns in the first row"))


def told_above(has: str, below: int) -> Message:
    """The text about the first row if another row is the heading."""
    if has:
        return message('it contains "{text}", but row {row} names the columns', text=cut(has), row=below)
    return message("it is empty, but row {row} names the columns", row=below)


def take_above(last: int) -> Message:
    """The instruction for the rows above the heading."""
    if last == 1:
        return message("delete row 1, so that the first row names the columns")
    return message("delete rows 1 to {last}, so that the first row names the columns", last=last)


def rows_of(sheet: Sheet, lines: Iterator[Sequence[str]], columns: Columns, first: int = 2) -> Iterator[Row]:
    """The rows that aren't empty, except rows that repeat the heading; `first` is the number of the first line."""
    file, heads = sheet.file, sheet.columns
    has_gaps = not all(heads)
    for number, cells in cells_of(sheet, lines, columns, first):
        row = {head: cell for head, cell in zip(heads, cells) if head} if has_gaps else dict(zip(heads, cells))
        yield Row(Origin(file, number), row)


def cells_of(
    sheet: Sheet, lines: Iterator[Sequence[str]], columns: Columns, first: int = 2
) -> Iterator[tuple[int, list[str]]]:
    """The same as the cells of the sheet's columns, as far as the row has them, each row after its number."""
    rows = RowCells(sheet, columns)
    for number, line in enumerate(lines, first):
        cells = rows.cells(number, line)
        if cells is not None:
            yield number, cells
    rows.end()


class RowCells:
    """Makes the cells of rows below a heading, row by row, and reports what is odd about them in the sheet."""

    def __init__(self, sheet: Sheet, columns: Columns, is_plain: bool = False):
        """`is_plain` as `Texts` has it. The heading has at least one name."""
        heads = sheet.columns
        self._sheet, self._width, self._is_plain = sheet, len(heads), is_plain
        self._kept = [at for at, head in enumerate(heads) if head in columns.texts]
        self.named = next(at for at, head in enumerate(heads) if head)
        """The first column with a name."""
        self.gaps = [at for at, head in enumerate(heads) if not head]
        """The columns without one."""
        self._unnamed, self._marked = Alike(sheet.faults), Alike(sheet.warnings)

    def cells(self, number: int, line: Sequence[str]) -> Optional[list[str]]:
        """The cells of a row that has a number, as far as it has some; None if it is empty, or the heading again."""
        sheet, width = self._sheet, self._width
        cells = [*map(str.strip, line)] if self._is_plain else [it.strip() if type(it) is str else it for it in line]
        text = "".join(cells)
        if not text or self.is_like_heading(cells) and is_heading(sheet, Origin(sheet.file, number), line):
            return None
        if self.gaps or len(cells) > width:
            beyond = (*self.gaps, *range(width, len(cells)))
            odd = next((line[at] for at in beyond if at < len(cells) and cells[at]), "")
            if odd:
                because = message('a cell is in no named column: "{text}"', text=cut(odd))
                self._unnamed.add(SheetFault(Origin(sheet.file, number), because, UNNAMED))
            del cells[width:]
        for at in self._kept:
            cells[at : at + 1] = line[at : at + 1]
        if MARK_OF_TEXT in text:
            _unmark(sheet, number, cells, self._marked)
        return cells

    def is_like_heading(self, cells: Sequence[str]) -> bool:
        """Whether the first cell is the name of its column, so that the row may be the heading again."""
        named = self.named
        return len(cells) > named and cells[named].lower() == self._sheet.columns[named]

    def end(self) -> None:
        """Reports how many rows were odd."""
        self._unnamed.end()
        self._marked.end()


def _unmark(sheet: Sheet, number: int, cells: list[str], marked: Alike) -> None:
    """Removes the marks of texts from the cells of a row, with a warning for each."""
    for at, (head, cell) in enumerate(zip(sheet.columns, cells)):
        if head and cell[:1] == MARK_OF_TEXT and (text := remove_mark(cell)) != cell:
            cells[at] = text
            origin = Origin(sheet.file, number, sheet.written[at])
            marked.add(SheetFault(origin, told_marked(cell), message("nothing, if the text is correct without it")))


MARK_OF_TEXT = "'"
"""The mark that a spreadsheet program, and `--safe-csv`, write before a text so that nothing reads it as a number or a
formula."""

MARKED = re.compile(r"'(?=[-+=@.,]?[0-9]|[-+=@])")


def remove_mark(cell: str) -> str:
    """A text without the mark, which isn't part of it; an apostrophe before a letter, as in `'t Hof`, is part of the
    text."""
    return cell[1:] if MARKED.match(cell) else cell


def told_marked(cell: str) -> Message:
    """The text about a mark that was removed."""
    return message(
        '"{text}" is read without its leading \', which marks a cell as text in a spreadsheet', text=cut(cell)
    )


def is_heading(sheet: Sheet, origin: Origin, line: Sequence[str]) -> bool:
    """Whether a row repeats the heading, which is a warning; a heading of another table is a fault."""
    pairs = [(cell.strip().lower(), head) for cell, head in zip(line, sheet.columns) if cell.strip()]
    same = sum(cell == head for cell, head in pairs)
    if same == len(pairs) and same >= min(2, len(sheet.columns)):
        because = message("the row repeats the heading, and is skipped")
        sheet.warnings.append(SheetFault(origin, because, message("delete it")))
        return True
    if same >= 2:
        other = next(cell for cell, head in pairs if cell != head)
        because = message('the row is a heading, but not the same as row 1: it contains "{text}"', text=cut(other))
        sheet.faults.append(SheetFault(origin, because, message("give the second table a sheet of its own")))
    return same >= 2

"""Files of text: CSV for spreadsheets, TOML and rows that an office writes, and files written whole or not at all."""

from __future__ import annotations

import argparse
import contextlib
import csv
import importlib
import importlib.util
import io
import os
import re
import shutil
import sys
import tempfile
from collections.abc import Callable, Iterable, Iterator, Mapping, Sequence
from contextvars import ContextVar
from pathlib import Path
from typing import Any, NamedTuple, Optional, TextIO, TypeVar

from .terminal import Fault, because_of, needs, write_count


# ==== CSV files that people open in a spreadsheet: UTF-8, RFC 4180, lines ended by LF
#
# A spreadsheet runs a text that begins with `=`, `+`, `-`, `@` (also of full width), a tab or a carriage return as a
# formula, and a formula can send nearby cells elsewhere. A program reads the same text as it is. So a text is written
# unchanged, and a line reports how many texts begin like this; with `--safe-csv` an apostrophe is written before each
# of them, so that nothing computes it. A number isn't a formula, and neither is a sign with nothing after it, such as a
# dash in an empty cell. This doesn't apply to files with the bytes of `cpi`, SDMX files and records: programs read
# them.

BEGINS = frozenset("=+-@\t\r\uff1d\uff0b\uff0d\uff20")
"""The first characters of texts that a spreadsheet takes for formulas; some also take the signs of full width."""

END = "\r\n"
"""The characters that end a line for some reader."""

NUMBER = re.compile(r"[+-][0-9]+(\.[0-9]+)?")

MOST_SHOWN = 40
"""The number of characters of a text that a line shows."""


def is_formula(value: object) -> bool:
    """Whether a spreadsheet would take a cell as a formula."""
    return isinstance(value, str) and value[:1] in BEGINS and len(value) > 1 and not NUMBER.fullmatch(value)


class Formulas:
    """The texts in a run's CSV files that begin like a formula; in a safe run they are written as texts."""

    def __init__(self, is_safe: bool):
        self.is_safe = is_safe
        self.texts: set[str] = set()

    def cell(self, value: object) -> object:
        """A cell as it is written."""
        if not is_formula(value):
            return value
        self.texts.add(str(value))
        return f"'{value}" if self.is_safe else value


_of_run: ContextVar[Formulas] = ContextVar("formulas", default=Formulas(False))


def is_safe() -> bool:
    """Whether files of this run are written with an apostrophe before such a text."""
    return _of_run.get().is_safe


def text_of(cell: str) -> str:
    """The text of a cell of a file of this run, without the apostrophe that a safe run wrote before it."""
    return cell[1:] if cell[:1] == "'" and is_safe() and is_formula(cell[1:]) else cell


class Cells(dict[str, str]):
    """Texts of others as they are written into a cell, each checked only once."""

    def __init__(self) -> None:
        super().__init__()
        self._formulas = _of_run.get()

    def __missing__(self, text: str) -> str:
        line = self[text] = line_of([self._formulas.cell(text)])
        return line


def line_of(cells: Iterable[object]) -> str:
    """The line of some cells, without its end. A text that contains the end of a line is between quotes, so it stays
    one cell."""
    text = io.StringIO()
    # (a writer quotes only the ends that it writes itself)
    csv.writer(text, lineterminator=END).writerow(cells)
    return text.getvalue().removesuffix(END)


def quote_cell(text: str) -> str:
    """A cell between quotes, as a line has one whose text has commas or ends of lines."""
    doubled = text.replace('"', '""')
    return f'"{doubled}"'


class Writer:
    """Writes the rows of a CSV file."""

    def __init__(self, file: TextIO):
        self._rows, self._formulas = csv.writer(file, lineterminator="\n"), _of_run.get()

    def writerow(self, row: Iterable[object]) -> None:
        """Writes a row."""
        self._rows.writerow([*map(self._formulas.cell, row)])

    def writerows(self, rows: Iterable[Iterable[object]]) -> None:
        """Writes some rows."""
        for row in rows:
            self.writerow(row)


# ---- the words of a tool


def add_safe_csv(words: argparse.ArgumentParser) -> None:
    """Adds the option of a tool whose CSV files contain texts of others, and are read by people."""
    words.add_argument(
        "--safe-csv",
        action="store_true",
        default=False,
        help="in CSV files, write an apostrophe before a text that begins like a formula: with = + - @ or a tab",
    )


@contextlib.contextmanager
def formulas_told(tool: str, is_safe: Optional[bool]) -> Iterator[None]:
    """Within this context, CSV files are written in this way; at its end a line reports how many texts a spreadsheet
    would run. `is_safe` is None for a tool without the option `--safe-csv`."""
    formulas = Formulas(bool(is_safe))
    before = _of_run.set(formulas)
    try:
        yield
    except Fault:
        _tell(tool, is_safe, formulas.texts)
        raise
    finally:
        _of_run.reset(before)
    _tell(tool, is_safe, formulas.texts)


@contextlib.contextmanager
def compared_only() -> Iterator[None]:
    """Within this context, files are written to be compared and deleted. Nobody opens them, so their texts aren't
    reported."""
    before = _of_run.set(Formulas(_of_run.get().is_safe))
    try:
        yield
    finally:
        _of_run.reset(before)


def _tell(tool: str, is_safe: Optional[bool], texts: set[str]) -> None:
    if not texts or is_safe:
        return
    do = (
        "import the files with each column as text"
        if is_safe is None
        else "--safe-csv writes an apostrophe before each"
    )
    first = min(texts)[:MOST_SHOWN]
    text = f"in CSV files a spreadsheet would compute {write_count(len(texts), 'text')}, such as {first!a}: {do}"
    print(f"{tool}: {text}", file=sys.stderr)


# ==== TOML files: their contents, and the lines of their keys, which the parser doesn't keep

HEAD = re.compile(r"\s*(\[\[?)([^\[\]]+)\]\]?\s*(?:#.*)?")
PART = re.compile(r"\s*(\"[^\"]*\"|'[^']*'|[A-Za-z0-9_-]+)\s*(?:\.|$)")
KEY = re.compile(r"\s*((?:\"[^\"]*\"|'[^']*'|[A-Za-z0-9_-]+)(?:\s*\.\s*(?:\"[^\"]*\"|'[^']*'|[A-Za-z0-9_-]+))*)\s*=")


class BadToml(Exception):
    """A file can't be read; the message is one line."""


class Toml(NamedTuple):
    """The contents of a file, and the line of each key, under the name of its table. The number of a table in an array,
    from 0 on, follows its name."""

    path: Path
    words: Mapping[str, Any]
    lines: Mapping[tuple[str, ...], int]

    def line(self, *key: str) -> int:
        """The line of a key, or of the table that contains it."""
        while key and key not in self.lines:
            key = key[:-1]
        return self.lines.get(key, 1)


def toml_of(path: Path, most: int) -> Toml:
    """The contents of a file of at most so many bytes. Raises BadToml; and Fault if this Python has no parser."""
    try:
        content = path.read_bytes() if path.stat().st_size <= most else None
    except OSError as fault:
        raise BadToml(because_of(fault)) from fault
    if content is None:
        raise BadToml(f"{path}: has {path.stat().st_size:,} bytes: wanted at most {most:,}")
    parser = _parser()
    try:
        text = content.decode("utf-8")
        words = parser.loads(text)
    except UnicodeDecodeError as fault:
        raise BadToml(f"{path}: isn't UTF-8: {fault}") from fault
    except parser.TOMLDecodeError as fault:
        said = re.fullmatch(r"(.*) \(at line ([0-9]+), column ([0-9]+)\)", str(fault))
        says = f"line {said[2]}: {said[1]}, at letter {said[3]}: wanted TOML" if said else f"{fault}: wanted TOML"
        raise BadToml(f"{path}, {says}") from fault
    return Toml(path, words, lines_of(text))


def _parser() -> Any:
    """The parser of Python from 3.11 on, or the package that it was before."""
    if importlib.util.find_spec("tomllib"):
        return importlib.import_module("tomllib")
    needs("tomli", "python3-tomli")
    return importlib.import_module("tomli")


def lines_of(text: str) -> dict[tuple[str, ...], int]:
    """The lines of the tables and the keys of a text."""
    lines: dict[tuple[str, ...], int] = {}
    counts: dict[tuple[str, ...], int] = {}
    table: tuple[str, ...] = ()
    for number, line in enumerate(text.splitlines(), 1):
        head, key = HEAD.fullmatch(line), KEY.match(line)
        if head:
            table = _parts(head[2])
            table = next(
                ((*name, str(at), *table[len(name) :]) for name, at in counts.items() if _is_in(table, name)), table
            )
            if head[1] == "[[":
                name = _parts(head[2])
                counts[name] = counts.get(name, -1) + 1
                table = (*name, str(counts[name]))
            lines.setdefault(table, number)
        elif key:
            lines.setdefault((*table, *_parts(key[1])), number)
    return lines


def _is_in(table: tuple[str, ...], name: tuple[str, ...]) -> bool:
    return len(table) > len(name) and table[: len(name)] == name


def _parts(key: str) -> tuple[str, ...]:
    return tuple(part.strip("\"'") for part in PART.findall(key.strip()))


# ==== writes files completely or not at all


@contextlib.contextmanager
def in_place_of(to: Path, beside: Path) -> Iterator[None]:
    """Within this context, the caller writes a file at `beside`, which then replaces another one; after a fault it is
    removed. An OSError names the other file's place."""
    try:
        yield
        beside.replace(to)
    except BaseException as fault:
        with contextlib.suppress(OSError):
            beside.unlink()
        if isinstance(fault, OSError):
            fault.filename = str(to)
        raise


def write_whole(to: Path, content: bytes, mode: int) -> None:
    """Writes a file of a mode such as 0o600, whatever mode a file at that place has. It is written next to its place
    under another name, so that only its owner can read it until it is complete, and is then renamed. Raises OSError.
    """
    try:
        number, name = tempfile.mkstemp(prefix=f".{to.name}-", dir=to.parent)
    except OSError as fault:
        fault.filename = str(to)
        raise
    with in_place_of(to, Path(name)), os.fdopen(number, "wb") as file:
        file.write(content)
        file.flush()
        os.fchmod(number, mode)
        os.fsync(number)


def rename_to_new(path: Path, to: Path) -> None:
    """Renames a file to a free name. Raises FileExistsError if a file is there, even since a moment ago; OSError."""
    try:
        os.link(path, to)
    except FileExistsError:
        raise
    except OSError:
        _take_name(path, to)
    else:
        path.unlink()


def _take_name(path: Path, to: Path) -> None:
    """The same on a file system without hard links, by an empty file that has the name first."""
    to.open("xb").close()
    try:
        path.replace(to)
    except OSError:
        to.unlink()
        raise


def link_or_copy(path: Path, to: Path) -> None:
    """A second link to a file, at a free place; a copy if the file system or its rules allow no links. Neither file may
    be written in place from then on. Raises OSError."""
    try:
        os.link(path, to)
    except OSError:
        shutil.copyfile(path, to)


# ==== files of rows that an office writes and its configuration names: CSV whose first row has the names of the columns

Found = TypeVar("Found")


def read_rows(path: Path, of: Callable[[Sequence[Sequence[str]]], Found], fault: type[Fault]) -> Found:
    """The result of `of` for the rows of a file. Raises `fault`, as `of` does; its line begins with the name of the
    file."""
    try:
        rows = [*csv.reader(io.StringIO(path.read_text(encoding="utf-8-sig"), newline=""), strict=True)]
    except OSError as because:
        raise fault(because_of(because)) from because
    except (csv.Error, UnicodeDecodeError) as because:
        raise fault(f"{path}: {' '.join(str(because).split())}") from because
    try:
        return of(rows)
    except fault as because:
        raise fault(f"{path}: {because}") from None

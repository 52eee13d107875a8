"""The file of supervisors: a name, a key and the numbers of collectors in each row. The key of a row shows how far these
collectors are.

What is wrong with the file is a line in English, for a terminal or the journal. It shows no text of a cell, since a key
may be in another column.
"""

from __future__ import annotations

import csv
import hmac
import io
import re
import unicodedata
from collections.abc import Iterator, Sequence
from pathlib import Path
from typing import NamedTuple, NoReturn

from ...text.terminal import Fault, because_of
from ..serve.sessions import KEY, MOST_LETTERS, is_same

NAME, SECRET, COLLECTORS = COLUMNS = ("name", "key", "collectors")

SEPARATORS = ",;\t"
"""Whichever of them the heading has most of separates the cells."""

SPAN = re.compile("([1-9][0-9]{0,3})(?:-([1-9][0-9]{0,3}))?", re.ASCII)
"""A collector's number, or the first and the last one of some: `7`, `7-12`."""

ALL, ALL_SPANS = "all", ((1, 9_999),)
"""The word for all collectors, and their numbers."""

HEADING = "name the columns name, key and collectors in the first row, and no others"


class Supervisor(NamedTuple):
    """A row: the supervisor's name, the key, and the first and the last number of each span of collectors."""

    name: str
    key: str
    spans: tuple[tuple[int, int], ...]

    @property
    def has_all(self) -> bool:
        """Whether the team is all collectors."""
        return self.spans == ALL_SPANS

    def has(self, collector: int) -> bool:
        """Whether a collector is in the team."""
        return any(first <= collector <= last for first, last in self.spans)


def read_supervisors(path: Path) -> list[Supervisor]:
    """The supervisors of a CSV file in UTF-8, with commas, semicolons or tabs. Raises Fault."""
    rows = _rows_of(path, _text_of(path))
    _check_heading(path, next(rows, (1, [])))
    supervisors: list[Supervisor] = []
    for row, cells in rows:
        supervisor = _supervisor_of(path, row, cells)
        if any(hmac.compare_digest(supervisor.key, other.key) for other in supervisors):
            _refuse(path, row, "another row has the same key", "draw one for each supervisor")
        if any(is_same(supervisor.name, other.name) for other in supervisors):
            _refuse(path, row, "another row has the same name", "write one row for each supervisor")
        supervisors.append(supervisor)
    if not supervisors:
        raise Fault(f"{path} names no supervisor: write a row for each, below the columns {', '.join(COLUMNS)}")
    return supervisors


def _text_of(path: Path) -> str:
    """The text of a file that nobody else can read."""
    try:
        if path.stat().st_mode & 0o077:
            raise Fault(f"others can read {path}, which contains keys: give it the mode 600")
        data = path.read_bytes()
    except OSError as fault:
        raise Fault(because_of(fault)) from fault
    try:
        return data.decode("utf-8").removeprefix("\ufeff")
    except UnicodeDecodeError as fault:
        _refuse(path, data[: fault.start].count(b"\n") + 1, "it isn't UTF-8", "save the file as CSV in UTF-8")


def _rows_of(path: Path, text: str) -> Iterator[tuple[int, list[str]]]:
    """The rows that aren't empty, with their numbers from 1 on, without the empty cells at their ends."""
    separator = max(SEPARATORS, key=text.partition("\n")[0].count)
    number = 0
    try:
        for number, texts in enumerate(csv.reader(io.StringIO(text, newline=""), delimiter=separator, strict=True), 1):
            cells = [cell.strip() for cell in texts]
            while cells and not cells[-1]:
                cells.pop()
            if cells:
                yield number, cells
    except csv.Error:
        _refuse(path, number + 1, "it isn't a row of CSV", "look at its quotation marks")


def _check_heading(path: Path, heading: tuple[int, Sequence[str]]) -> None:
    """Refuses a heading that isn't the three columns in their order."""
    row, cells = heading
    if tuple(cell.lower() for cell in cells) != COLUMNS:
        _refuse(path, row, "it isn't the heading", HEADING)


def _supervisor_of(path: Path, row: int, cells: Sequence[str]) -> Supervisor:
    """The supervisor of a row."""
    if len(cells) != len(COLUMNS):
        do = "write a name, a key and collectors, and quotation marks around a cell with a comma"
        _refuse(path, row, f"it has {len(cells)} cells in place of {len(COLUMNS)}", do)
    name, key, collectors = cells
    if len(name) > MOST_LETTERS or any(unicodedata.category(letter)[0] == "C" for letter in name) or not name:
        do = f"write a name of at most {MOST_LETTERS} characters"
        _refuse(path, row, "its name is empty, too long, or has an invisible character", do)
    if not KEY.fullmatch(key):
        _refuse(path, row, "its key isn't 32 characters 0-9 and a-f", "draw one with openssl rand -hex 16")
    return Supervisor(name, key, _spans_of(path, row, collectors))


def _spans_of(path: Path, row: int, text: str) -> tuple[tuple[int, int], ...]:
    """The numbers of a cell such as `7 9 12-18`, or all."""
    if text.lower() == ALL:
        return ALL_SPANS
    spans: list[tuple[int, int]] = []
    for part in re.split("[ ,;]+", text):
        span = SPAN.fullmatch(part)
        if not span or int(span[2] or span[1]) < int(span[1]):
            _refuse(path, row, "its collectors aren't numbers", f"write them like 7 9 12-18, or write {ALL}")
        spans.append((int(span[1]), int(span[2] or span[1])))
    return tuple(spans)


def _refuse(path: Path, row: int, because: str, do: str) -> NoReturn:
    """Raises Fault in one line."""
    raise Fault(f"{path}, row {row}: {because}: {do}")

"""Seasonally adjusted series, which an office adjusts by a program of its own: list, files, and tests."""

from __future__ import annotations

import csv
import io
import re
from collections.abc import Iterator, Mapping, Sequence
from decimal import ROUND_HALF_UP, Decimal
from pathlib import Path
from typing import NamedTuple

from ...office.public import MONTH
from ...office.tables import SeasonalRow, SeasonalSeries, Series, before, rounded_change
from ...text.exact import write_fixed
from ...text.terminal import Fault, because_of
from ...text.text_files import read_rows
from .shown_figures import Shown
from .specials import ID


# ==== seasonally adjusted series, which an office adjusts by a program of its own: the list of them in a folder of its
# own
#
# The folder has the file `methods.csv`. A row has the code of an item, or the id of a special aggregate, the file with
# its adjusted figures, the method (`METHODS`), the software that adjusted them, its version and its settings, and the
# window: how many of the last published months the office revises without a word each time that it adjusts the series.

LIST, LEVELS = "methods.csv", "series.csv"
"""The list, and the levels that were adjusted, which `cpi-tools seasonal` writes beside it."""

HEAD = ("code", "file", "method", "software", "version", "settings", "window")

X11, SEATS, STL = "x11", "seats", "stl"
METHODS: Mapping[str, str] = {X11: "X-11", SEATS: "SEATS", STL: "STL"}
"""The methods with their names. The last one is by local regressions only, so its figures are called analytical."""

CODE = re.compile(r"[0-9]{2}((\.[0-9]){1,2}|(\.[0-9]){3}(-[0-9]{2})?)?")
FILE = re.compile(r"[A-Za-z0-9][A-Za-z0-9._-]{0,99}")
MOST_WINDOW = 600
"""Months of the longest window."""

MOST_LETTERS = 200
"""The largest number of characters in a software, a version or settings."""


class BadSeasonal(Fault):
    """A list of adjusted series, or figures of them, with a fault; one line."""


class Method(NamedTuple):
    """The way in which a series is adjusted, as a row of the list; `line` is the number of the row."""

    code: str
    file: str
    method: str
    software: str
    version: str
    settings: str
    window: int
    line: int

    @property
    def texts(self) -> tuple[str, ...]:
        """The published description: the method, and the software that adjusted the series."""
        return METHODS[self.method], self.software, self.version, self.settings, str(self.window)


class Seasonal(NamedTuple):
    """An office's folder of adjusted series, and the list in it."""

    folder: Path
    methods: tuple[Method, ...]


def read_seasonal(folder: Path) -> Seasonal:
    """The list of a folder. Raises BadSeasonal."""
    return Seasonal(folder, read_rows(folder / LIST, methods_of, BadSeasonal))


def methods_of(rows: Sequence[Sequence[str]]) -> tuple[Method, ...]:
    """The series of some rows, the first of which contains the names of the columns. Raises BadSeasonal."""
    if not rows or tuple(rows[0]) != HEAD:
        raise BadSeasonal(f"its first row isn't {','.join(HEAD)}")
    methods = [
        _method(line, [" ".join(cell.split()) for cell in row]) for line, row in enumerate(rows[1:], 2) if any(row)
    ]
    codes = [method.code for method in methods]
    for method in methods:
        if codes.count(method.code) > 1:
            raise BadSeasonal(f"row {method.line}: {method.code} has two rows")
    if not methods:
        raise BadSeasonal("it has no series")
    return tuple(methods)


def _method(line: int, row: Sequence[str]) -> Method:
    """The series of a row."""
    if len(row) != len(HEAD):
        raise BadSeasonal(f"row {line} has {len(row)} cells, and not {len(HEAD)}")
    code, file, method, *words, window = row
    if not CODE.fullmatch(code) and not ID.fullmatch(code):
        raise BadSeasonal(f"row {line}: {code or 'an empty text'} is no code of an item, nor the id of a set")
    if not FILE.fullmatch(file) or file in (LIST, LEVELS):
        raise BadSeasonal(f"row {line}: {file or 'an empty text'} is no name of a file with figures, such as sa.csv")
    if method not in METHODS:
        raise BadSeasonal(f"row {line}: the method of {code} is {method or 'empty'}, and none of {', '.join(METHODS)}")
    for name, word in zip(HEAD[3:6], words):
        if not 0 < len(word) <= MOST_LETTERS:
            raise BadSeasonal(f"row {line}: {name} of {code} has {len(word)} letters, and not 1 to {MOST_LETTERS}")
    if window not in map(str, range(MOST_WINDOW + 1)):
        raise BadSeasonal(
            f"row {line}: the window of {code} is {window or 'empty'}, and no number of months from 0 to {MOST_WINDOW}"
        )
    software, version, settings = words
    return Method(code, file, method, software, version, settings, int(window), line)


# ==== files with figures of series, as programs of seasonal adjustment write them
#
# - A table (JDemetra+, a spreadsheet): the names of the columns, then a row for each month. The first column has the
#   month as `2026-01`, or a day of it as `2026-01-01`; a further one has the name of its series, which is its code.
#   Cells are apart by commas, semicolons or tabs. A decimal comma is read if cells aren't apart by commas.
# - A table that X-13ARIMA-SEATS saved (`00.d11`, `00.s11`): the name of the columns, a line of dashes, and for each
#   month a line such as `202601`, a tab, and `+0.104200000000000E+03`. It has one series.
#
# Figures are read exactly, and rounded to millionths of a point, halves upwards.

SAVED = (".d11", ".s11")
"""The endings of the names of files that X-13ARIMA-SEATS saves."""

DAY = re.compile(r"(2[01][0-9]{2}-(?:0[1-9]|1[0-2]))-(?:0[1-9]|[12][0-9]|3[01])")
SAVED_MONTH = re.compile(r"(2[01][0-9]{2})(0[1-9]|1[0-2])")
NUMBER = re.compile(r"\+?[0-9]{1,20}(\.[0-9]{1,30})?([eE][+-]?[0-9]{1,2})?")
MOST = 10**15
"""Millionths of a point of the greatest figure."""

MOST_BYTES = 10**7
"""The largest number of bytes in a file."""


class Value(NamedTuple):
    """A figure of a month in millionths of a point, and the line that has it."""

    millionths: int
    line: int


Values = Mapping[str, Value]
"""The figures of a series by month."""


class Cell(NamedTuple):
    """A text of a file with the line that has it, the month that is there before it, and whether its decimals follow a
    comma."""

    line: int
    month: str
    text: str
    has_comma: bool = False


def read_values(path: Path, code: str) -> Values:
    """The figures of a series in a file. Raises BadSeasonal, with the file and the line."""
    text = _text_of(path)
    cells = _saved_cells(path, text) if path.suffix.lower() in SAVED else _table_cells(path, text, code)
    values: dict[str, Value] = {}
    for cell in cells:
        at = f"{path}, line {cell.line}"
        month = _month(cell.month)
        if not month:
            raise BadSeasonal(f"{at}: {cell.month or 'an empty text'} is no month such as 2026-01 or 2026-01-01")
        if month in values:
            raise BadSeasonal(f"{at}: {month} is there a second time, after line {values[month].line}")
        values[month] = Value(_millionths(at, cell, code), cell.line)
    return values


def _text_of(path: Path) -> str:
    try:
        data = path.read_bytes()
        if len(data) > MOST_BYTES:
            raise BadSeasonal(f"{path} has {len(data):,} bytes, over {MOST_BYTES:,}")
        return data.decode("utf-8-sig")
    except OSError as fault:
        raise BadSeasonal(because_of(fault)) from fault
    except UnicodeDecodeError as fault:
        raise BadSeasonal(f"{path} isn't UTF-8: {fault.reason} at byte {fault.start}") from fault


def _month(text: str) -> str:
    """The month of a cell; nothing if it is none."""
    day, saved = DAY.fullmatch(text), SAVED_MONTH.fullmatch(text)
    if day or saved:
        return day[1] if day else f"{saved[1]}-{saved[2]}"  # type: ignore[index]
    return text if MONTH.fullmatch(text) else ""


def _saved_cells(path: Path, text: str) -> Iterator[Cell]:
    """The cells of a table that X-13ARIMA-SEATS saved."""
    lines = text.splitlines()
    if len(lines) < 2 or lines[0].split()[:1] != ["date"] or {*lines[1]} - {*"-\t "}:
        raise BadSeasonal(f"{path}, line 1: it isn't a table that X-13ARIMA-SEATS saved, which begins with date")
    for number, line in enumerate(lines[2:], 3):
        cells = line.split()
        if len(cells) not in (0, 2):
            raise BadSeasonal(f"{path}, line {number}: {len(cells)} columns, and not a month and a figure")
        if cells:
            yield Cell(number, cells[0], cells[1])


def _table_cells(path: Path, text: str, code: str) -> Iterator[Cell]:
    """The cells of a series in a table; empty cells are left out."""
    head = text.split("\n", 1)[0]
    apart = next((sign for sign in "\t;" if sign in head), ",")
    rows = csv.reader(io.StringIO(text, newline=""), delimiter=apart, strict=True)
    try:
        names = [cell.strip() for cell in next(rows, [])]
        if names.count(code) != 1 or names[0] == code:
            says = "two columns" if names.count(code) > 1 else "no column"
            raise BadSeasonal(f"{path}, line 1: it has {says} {code} after one of months; it has {', '.join(names)}")
        at = names.index(code)
        for row in rows:
            if any(row):
                if len(row) != len(names):
                    raise BadSeasonal(f"{path}, line {rows.line_num}: {len(row)} cells, and not {len(names)}")
                if row[at].strip():
                    yield Cell(rows.line_num, row[0].strip(), row[at].strip(), apart != ",")
    except csv.Error as fault:
        raise BadSeasonal(f"{path}, line {rows.line_num}: {fault}") from fault


def _millionths(at: str, cell: Cell, code: str) -> int:
    """The figure of a cell, above 0."""
    text = cell.text.replace(",", ".", 1) if cell.has_comma else cell.text
    if NUMBER.fullmatch(text):
        units = Decimal(text).scaleb(6)
        if 0 < units <= MOST and (millionths := int(units.quantize(Decimal(1), ROUND_HALF_UP))):
            return millionths
    raise BadSeasonal(f"{at}: {cell.text} of {code} is no index above 0 such as 104.2")


# ==== adjusted series against what they adjust: each has a figure for each month of a published index, and for no other
# month
#
# The levels that were adjusted are in `series.csv`, which `cpi-tools seasonal` wrote. They have to be the published
# ones, so the check finds a month that has been revised since, or another reference period. The last months may be
# missing as long as nobody adjusted them. An adjusted figure is between half and twice its level, and the mean of the
# twelve figures of a year is within 2 percent of the mean of their levels: adjusting moves a year's figures from month
# to month, and hardly their mean.

MOST_TIMES = 2
"""The largest ratio of an adjusted figure to its level, and of a level to its adjusted figure."""

MOST_PERCENT = 2
"""The largest difference between the mean of a year's adjusted figures and the mean of its levels."""


def series_of_office(seasonal: Seasonal, series: Series, shown: Shown) -> dict[str, SeasonalSeries]:
    """The adjusted series of an office by code, in the order of its list. Raises BadSeasonal."""
    return {method.code: _series_of(seasonal.folder, method, series, shown) for method in seasonal.methods}


def months_of(series: Series, of: Method, folder: Path) -> list[str]:
    """The months of a series: those up to the last table since which it is in the index. Raises BadSeasonal."""
    starts = series.starts(of.code)
    if not starts:
        raise BadSeasonal(f"{folder / LIST}, row {of.line}: {of.code} is no item of the index, nor a special aggregate")
    if series.level(series.every[-1], of.code) is None:
        raise BadSeasonal(f"{folder / LIST}, row {of.line}: {of.code} isn't in the index of {series.every[-1]}")
    return [month for month in series.every if starts[-1] <= month]


def _series_of(folder: Path, of: Method, series: Series, shown: Shown) -> SeasonalSeries:
    """An adjusted series by its row in the list."""
    levels, adjusted = (read_values(folder / name, of.code) for name in (LEVELS, of.file))
    months = months_of(series, of, folder)
    _test_levels(folder / LEVELS, of.code, levels, dict(zip(months, shown.units(months, of.code))))
    _test_months(folder / of.file, of.code, adjusted, levels)
    _test_sizes(folder / of.file, of.code, adjusted, levels)
    rows: dict[str, SeasonalRow] = {}
    for month in sorted(adjusted):
        then, now = adjusted.get(before(month)), adjusted[month].millionths
        change = rounded_change(then.millionths, now) if then else None
        rows[month] = SeasonalRow(levels[month].millionths, now, change)
    return SeasonalSeries(series.title(of.code), of.texts, of.window, rows)


def _test_levels(path: Path, code: str, levels: Values, published: Mapping[str, object]) -> None:
    """Raises BadSeasonal if the levels that were adjusted aren't the published ones of the first months."""
    for month, level in levels.items():
        if month not in published:
            raise BadSeasonal(f"{path}, line {level.line}: {code} has no published index in {month}")
        now = published[month]
        if level.millionths != now:
            assert isinstance(now, int)
            raise BadSeasonal(
                f"{path}, line {level.line}: {code} was {write_fixed(level.millionths, 6)} in {month} when it was adjusted, and"
                f" {write_fixed(now, 6)} is published: cpi-tools seasonal writes the levels, which are to be adjusted again"
            )
    lacking = [month for month in published if month not in levels]
    if not levels or lacking and min(lacking) < max(levels):
        raise BadSeasonal(f"{path}: {code} has nothing in {min(lacking)}, which is published")


def _test_months(path: Path, code: str, adjusted: Values, levels: Values) -> None:
    """Raises BadSeasonal if an adjusted series has other months than its levels."""
    for month, it in adjusted.items():
        if month not in levels:
            raise BadSeasonal(f"{path}, line {it.line}: {code} has {month}, which {LEVELS} hasn't")
    for month in levels:
        if month not in adjusted:
            raise BadSeasonal(f"{path}: {code} has nothing in {month}, which {LEVELS} has")


def _test_sizes(path: Path, code: str, adjusted: Values, levels: Values) -> None:
    """Raises BadSeasonal if an adjusted figure, or the mean of a year, is too far from what it adjusts."""
    for month, it in adjusted.items():
        level = levels[month].millionths
        if it.millionths > MOST_TIMES * level or level > MOST_TIMES * it.millionths:
            raise BadSeasonal(
                f"{path}, line {it.line}: {code} is {write_fixed(it.millionths, 6)} in {month}, and {write_fixed(level, 6)} before it"
                f" was adjusted: wanted is between half of that and twice that"
            )
    for months in _whole_years(adjusted):
        then, now = (sum(values[month].millionths for month in months) for values in (levels, adjusted))
        if 100 * abs(now - then) > MOST_PERCENT * then:
            raise BadSeasonal(
                f"{path}, lines {adjusted[months[0]].line} to {adjusted[months[-1]].line}: the mean of {code} in"
                f" {months[0][:4]} is {write_fixed(now // 12, 6)}, and {write_fixed(then // 12, 6)} before it was adjusted: wanted is"
                f" at most {MOST_PERCENT} percent apart"
            )


def _whole_years(values: Values) -> Iterator[Sequence[str]]:
    """The months of each year that has all twelve."""
    for year in sorted({month[:4] for month in values}):
        months = [f"{year}-{number:02}" for number in range(1, 13)]
        if all(month in values for month in months):
            yield months


def lines_of_lag(series: Series) -> Iterator[str]:
    """A line for each adjusted series that ends before the index."""
    for code, it in series.seasonal.items():
        if max(it.rows) < series.every[-1]:
            yield f"{code} is adjusted up to {max(it.rows)}, and the index is of {series.every[-1]}: cpi-tools seasonal"

"""What each column of the CSV files has, for programs (CSV on the Web), and the same files as one of SQLite."""

from __future__ import annotations

import contextlib
import csv
import io
import json
import sqlite3
import zipfile
from collections.abc import Iterable, Iterator, Mapping, Sequence
from pathlib import Path
from typing import NamedTuple, TextIO, Union

from ...text.languages import Speech, mark_text
from ...text.terminal import Fault
from ...text.text_files import is_safe, text_of
from ..figures.announcements import TRANSLATED
from ..figures.config import SLICES, SQLITE, Config
from ..forms.cubes import CHAINED_NAME, REVISABLE, STATUSES
from ..forms.manifest import NewFiles
from ..forms.pack_before import REASONS
from ..forms.published_core import CORE
from ..forms.published_sets import SEASONAL_FILE, VINTAGES
from ..forms.sdmx import CONCEPTS
from ..forms.site_texts import AVERAGE_PRICES, FILES
from ..forms.structure import FOLDER as PROFILES
from ..forms.years import NEWEST, YEARS
from ..releases.published_before import CSV as QUALITY


# ==== CSV on the Web (W3C, 2015): what each column of the CSV files has, for programs
#
# A folder with CSV files has `csv-metadata.json`, where the standard looks for it. It names each file of the folder;
# the columns that most files have appear once. The office's languages are in it, with the texts of the catalogues.

NAME = "csv-metadata.json"
CONTEXT = "http://www.w3.org/ns/csvw"

Datatype = Union[str, Mapping[str, str]]

STRING, MONTH, WHOLE, DECIMAL, MOMENT = "string", "gYearMonth", "nonNegativeInteger", "decimal", "dateTimeStamp"
YEAR = "gYear"
FLAG: Datatype = {"base": "boolean", "format": "1|0"}
SUM: Datatype = {"base": "string", "format": "[0-9a-f]{64}"}

FOLDERS = ("data", f"data/{NEWEST}", f"data/{SLICES}", f"data/{PROFILES}")
"""The folders whose CSV files have a row of names, each with columns of its own; those of profiles have other names."""

TITLES = "title"
"""The column with titles, which are in the language of the tables."""

TABLES = ("code", "weight", "index", "chained", "month_change", "year_change", "imputed", "title")
"""The columns of the program's own tables, which have no row of names."""


class Column(NamedTuple):
    """A column: its type, and a text of the catalogues. A needed one is never empty."""

    datatype: Datatype
    text: str
    is_needed: bool = False


COLUMNS: Mapping[str, Column] = {
    "month": Column(MONTH, mark_text("Month"), True),
    "revision": Column(WHOLE, CONCEPTS["REVISION"], True),
    "published": Column(MOMENT, CONCEPTS["EMBARGO_TIME"], True),
    "code": Column(STRING, mark_text("The item's COICOP 2018 code, or the special aggregate's id"), True),
    "depth": Column(WHOLE, mark_text("The number of levels from all items down to the item")),
    TITLES: Column(STRING, mark_text("Its title")),
    "weight": Column(WHOLE, mark_text("Weight in use")),
    "index": Column(DECIMAL, mark_text("Index within the year, the previous December = 100")),
    "chained": Column(DECIMAL, CHAINED_NAME),
    "month_change": Column(DECIMAL, mark_text("Monthly change in percent")),
    "year_change": Column(DECIMAL, mark_text("Annual change in percent")),
    "imputed": Column(FLAG, STATUSES["i"]),
    "base": Column(MONTH, mark_text("The month in which the chained level is 100")),
    "break": Column(FLAG, STATUSES["b"]),
    "shown_month_change": Column(DECIMAL, mark_text("Monthly change as the pages show it, in percent")),
    "shown_year_change": Column(DECIMAL, mark_text("Annual change as the pages show it, in percent")),
    "contribution_month": Column(DECIMAL, mark_text("Percentage points that it contributes to the monthly change")),
    "contribution_year": Column(DECIMAL, mark_text("Percentage points that it contributes to the annual change")),
    "notes": Column(STRING, mark_text("The letters of its notes")),
    "of": Column(STRING, mark_text("The item or special aggregate to whose change it contributes"), True),
    "reference": Column(STRING, CONCEPTS["BASE_PER"], True),
    "average": Column(DECIMAL, mark_text("Mean of the twelve levels of the year")),
    "chained_average": Column(DECIMAL, mark_text("Mean of the twelve chained levels of the year")),
    "change": Column(DECIMAL, mark_text("Annual change in percent")),
    "year": Column(YEAR, mark_text("Year"), True),
    "twelve_month_rate": Column(DECIMAL, FILES["twelve-month-rates.csv"]),
    "rereferenced": Column(DECIMAL, FILES["rereferenced.csv"]),
    "share_per_mille": Column(DECIMAL, mark_text("Share of the total weight, per mille")),
    "provisional": Column(FLAG, REVISABLE, True),
    "rows": Column(WHOLE, mark_text("The number of rows of the table"), True),
    "sha256": Column(SUM, mark_text("The SHA-256 of the table"), True),
    "id": Column(STRING, mark_text("The id of the special aggregate"), True),
    "added": Column(MOMENT, mark_text("When the office gave the reason")),
    "reason": Column(STRING, mark_text("The office's reason"), True),
    **{name: Column(STRING, text) for name, text in CONCEPTS.items()},
    "OBS_VALUE": Column(DECIMAL, CONCEPTS["OBS_VALUE"]),
    "REVISION": Column(WHOLE, CONCEPTS["REVISION"]),
    "DECIMALS": Column(WHOLE, CONCEPTS["DECIMALS"]),
    "EMBARGO_TIME": Column(MOMENT, CONCEPTS["EMBARGO_TIME"]),
}
"""The columns by their names; the columns of SDMX by their default ids."""

SEASONAL_COLUMNS: Mapping[str, Column] = {
    "published": Column(MOMENT, mark_text("When the figure was first published"), True),
    "index": Column(DECIMAL, mark_text("The level that was adjusted"), True),
    "adjusted": Column(DECIMAL, mark_text("The seasonally adjusted level"), True),
    "month_change": Column(DECIMAL, mark_text("Its monthly change in percent")),
    "method": Column(STRING, mark_text("The method of seasonal adjustment"), True),
    "software": Column(STRING, mark_text("The software that adjusted the series"), True),
    "version": Column(STRING, mark_text("The version of the software"), True),
    "settings": Column(STRING, mark_text("The settings with which the series was adjusted"), True),
    "window": Column(WHOLE, mark_text("How many of the latest months each new release may revise"), True),
}
"""Columns of files with adjusted series."""

OTHERS: Mapping[str, Mapping[str, Column]] = {
    "printed.csv": {"index": Column(DECIMAL, mark_text("Index"), True)},
    CORE: {
        "id": Column(STRING, mark_text("The id of the measure of core inflation"), True),
        "measure": Column(
            STRING,
            mark_text("The kind of measure: a weighted median, a trimmed mean, or a share of rising prices"),
            True,
        ),
        "monthly": Column(DECIMAL, mark_text("From the monthly changes in aggregates, in percent"), True),
        "annual": Column(DECIMAL, mark_text("From the annual changes in aggregates, in percent")),
        "break": Column(FLAG, mark_text("The measure changes from this month on")),
    },
    SEASONAL_FILE: SEASONAL_COLUMNS,
    VINTAGES: {
        **SEASONAL_COLUMNS,
        "superseded": Column(MOMENT, mark_text("When another figure replaced it"), True),
    },
    # (a figure is of a release, of an item, or of a change)
    QUALITY: {
        "section": Column(STRING, mark_text("The section of SIMS"), True),
        "indicator": Column(STRING, mark_text("The indicator of quality"), True),
        "of": Column(STRING, mark_text("The change that the indicator describes")),
        "month": Column(MONTH, mark_text("Month")),
        "revision": Column(WHOLE, CONCEPTS["REVISION"]),
        "published": Column(MOMENT, CONCEPTS["EMBARGO_TIME"]),
        "code": Column(STRING, CONCEPTS["COICOP18"]),
        "value": Column(DECIMAL, CONCEPTS["OBS_VALUE"]),
        "unit": Column(STRING, mark_text("Unit of measure")),
        "status": Column(STRING, CONCEPTS["OBS_STATUS"]),
    },
    AVERAGE_PRICES: {
        "item": Column(STRING, mark_text("The office's code of the item"), True),
        "unit": Column(STRING, mark_text("Unit of measure"), True),
        "outlets": Column(WHOLE, mark_text("The number of outlets with prices of the item")),
        "prices": Column(WHOLE, mark_text("The number of prices of the item")),
        "average": Column(DECIMAL, mark_text("The average price per unit")),
        "status": Column(STRING, CONCEPTS["OBS_STATUS"]),
        "reason": Column(STRING, mark_text("The office's reason")),
    },
    # (a definition of a special aggregate has its id in the place of a month)
    REASONS: {
        "month": Column(STRING, mark_text("The month, the id of the special aggregate, or the word quality"), True),
        "revision": Column(WHOLE, mark_text("The revision, or the number of the definition or the correction"), True),
    },
}
"""Columns that differ in one file."""

KEYS: Mapping[str, Sequence[str]] = {
    "cpi.csv": ("month", "code"),
    "aggregates.csv": ("month", "code"),
    "vintages.csv": ("month", "revision", "code"),
    "printed.csv": ("month", "code"),
    "rereferenced.csv": ("month", "code"),
    "twelve-month-rates.csv": ("month", "code"),
    "contributions.csv": ("month", "code", "of"),
    "aggregate-contributions.csv": ("month", "code", "of"),
    "averages.csv": ("code", "year"),
    "aggregate-members.csv": ("id", "year", "code"),
    CORE: ("month", "id"),
    SEASONAL_FILE: ("month", "code"),
    "releases.csv": ("month", "revision"),
}
"""The key columns of a file: no two rows have the same values in them."""


class Columns:
    """Describes columns in the languages of an office."""

    def __init__(self, config: Config, speeches: Sequence[Speech]):
        self._config, self._speeches = config, speeches
        self._sdmx = {config.id(name): name for name in CONCEPTS}

    def text(self, text: str) -> list[dict[str, str]]:
        """A text of the catalogues in each language."""
        period = self._config.reference
        return [
            {"@value": speech.t(text, period=speech.year(period)), "@language": speech.language.tag}
            for speech in self._speeches
        ]

    def schema(self, file: str, head: Sequence[str]) -> dict[str, object]:
        """The columns of a file with a row of names, and its key."""
        schemas: dict[str, object] = {"columns": [self._column(file, name) for name in head]}
        key = KEYS.get(file, ())
        return {**schemas, "primaryKey": [*key]} if key else schemas

    def _column(self, file: str, name: str) -> dict[str, object]:
        """A column by its name."""
        its_name = "reason" if name.startswith(TRANSLATED) else self._sdmx.get(name, name)
        column = OTHERS.get(file, {}).get(name) or COLUMNS.get(its_name)
        # (the name of a column has no hyphen there)
        columns: dict[str, object] = {"name": name.replace("-", "_"), "titles": name}
        if column is None:
            return {**columns, "datatype": STRING}
        columns |= {"datatype": column.datatype, "dc:description": self.text(column.text)}
        if column.is_needed and name == its_name:
            columns["required"] = True
        if name.startswith(TRANSLATED):
            columns["lang"] = name.removeprefix(TRANSLATED)
        return {**columns, "lang": self._config.language} if name == TITLES else columns


def write_data(columns: Columns, files: NewFiles) -> None:
    """Describes the existing CSV files of the folders of data and the program's tables."""
    for folder in FOLDERS:
        tables = [_table(columns, folder, path) for path in sorted((files.folder / folder).glob("*.csv"))]
        if tables:
            _write(files, folder, {"tables": tables})
    tables = [{"url": path.name} for path in sorted((files.folder / "data/tables").glob("*.csv"))]
    _write(files, "data/tables", {"tableSchema": columns.schema("", TABLES), "tables": tables}, header=False)


def _table(columns: Columns, folder: str, path: Path) -> dict[str, object]:
    """A file of a folder of data."""
    tables: dict[str, object] = {"url": path.name, "tableSchema": columns.schema(path.name, head_of(path))}
    says = FILES.get(f"{folder}/{path.name}".removeprefix("data/"))
    return {**tables, "dc:description": columns.text(says)} if says else tables


def write_items(columns: Columns, files: NewFiles, heads: Mapping[str, Sequence[str]]) -> None:
    """Describes the existing files of items; `heads` contains their columns by the end of the name, the end of most
    files first."""
    (_, head), *others = heads.items()
    tables, ends = list[dict[str, str]](), set[str]()
    for name in sorted(path.name for path in (files.folder / "node").glob("*.csv")):
        end = next((end for end, _ in others if name.endswith(end)), "")
        tables.append({"url": name, **({"tableSchema": _schema_name(end)} if end else {})})
        ends.add(end)
    for end, its_head in others:
        if end in ends:
            files.write(f"node/{_schema_name(end)}", _text({"@context": CONTEXT, **columns.schema("", its_head)}))
    _write(files, "node", {"tableSchema": columns.schema("", head), "tables": tables})


def head_of(path: Path) -> list[str]:
    """The row of names of a file."""
    with path.open(encoding="utf-8", newline="") as file:
        return next(csv.reader(file), [])


def _schema_name(end: str) -> str:
    """The name of a file of columns, by the end of the names of files that have them."""
    return f"{end.removesuffix('.csv').strip('-')}-schema.json"


def _write(files: NewFiles, folder: str, found: Mapping[str, object], header: bool = True) -> None:
    """Writes the description of a folder's files."""
    dialect = {"encoding": "utf-8", "delimiter": ",", "quoteChar": '"', "doubleQuote": True, "header": header}
    files.write(f"{folder}/{NAME}", _text({"@context": CONTEXT, "dialect": dialect, **found}))


def _text(found: Mapping[str, object]) -> bytes:
    return (json.dumps(found, ensure_ascii=False, separators=(",", ":")) + "\n").encode()


# ==== All published figures as one file of SQLite, for those who query them: a table for each CSV file of the folder
# `data`, with its columns. Earlier years, which archives have, are in the same tables.
#
# It is made of the CSV files of the pack, so it has their figures and no others; of texts it has none of the
# apostrophes that `--safe-csv` writes for spreadsheets. The same files give the same bytes: what SQLite writes of its
# own version is taken out of the file.

SQLITE_NAME = "cpi.sqlite"

SCHEMA = 1
"""The number of the tables' form, which the file has as its `user_version`."""

BEGIN = f"PRAGMA page_size = 4096; PRAGMA journal_mode = OFF; PRAGMA synchronous = OFF; BEGIN; PRAGMA user_version = {SCHEMA};"

VERSION_AT, VERSION = 96, bytes(4)
"""The place of the version of the library that wrote the file, and the bytes that replace it."""

WORDS = {"index": "index_value", "break": "is_break", "of": "of_code"}
"""Names of columns that are words of SQL, or of languages that read it, with those in the file."""


class NoSqlite(Fault):
    """A file that SQLite couldn't write; one line."""


def write_sqlite(config: Config, folder: Path) -> None:
    """Writes the file into the folder `data`, which already contains the other files, if the office wants it. Raises
    NoSqlite."""
    if SQLITE not in config.also:
        return
    path = folder / SQLITE_NAME
    try:
        with contextlib.closing(sqlite3.connect(path, isolation_level=None)) as link:
            link.executescript(BEGIN)
            for name in sorted(file.name for file in folder.glob("*.csv") if not file.name.endswith(".sdmx.csv")):
                _write_table(link, folder, name)
            link.execute("COMMIT")
    except sqlite3.Error as fault:
        raise NoSqlite(f"{path} can't be written: {fault}") from fault
    with path.open("r+b") as file:
        file.seek(VERSION_AT)
        file.write(VERSION)


def _write_table(link: sqlite3.Connection, folder: Path, name: str) -> None:
    """Writes the table of a CSV file, and its key."""
    table = name.removesuffix(".csv").replace("-", "_")
    with (folder / name).open(encoding="utf-8", newline="") as file:
        head = next(csv.reader(file))
    columns = [f"{column_of(column)} {type_of(name, column)}" for column in head]
    link.execute(f"CREATE TABLE {table} ({', '.join(columns)})")
    # (an empty cell is no figure, and no text)
    cells = ", ".join(["nullif(?, '')"] * len(head))
    for rows in _all_rows(folder, name, head):
        link.executemany(f"INSERT INTO {table} VALUES ({cells})", rows)
    if key := KEYS.get(name):
        # (most questions are about some items, and all months of theirs)
        own = sorted(map(column_of, key), key=lambda column: column == "month")
        link.execute(f"CREATE UNIQUE INDEX {table}_key ON {table} ({', '.join(own)})")


def _all_rows(folder: Path, name: str, head: Sequence[str]) -> Iterator[Iterable[list[str]]]:
    """The rows of a file in each archive of a year, and then those of the file itself."""
    for path in sorted((folder / YEARS).glob("*.zip")):
        member = f"{path.stem}/{name}"
        with zipfile.ZipFile(path) as archive:
            if member in archive.namelist():
                with io.TextIOWrapper(archive.open(member), encoding="utf-8", newline="") as file:
                    yield _rows(file, head, f"{path}: {name}")
    with (folder / name).open(encoding="utf-8", newline="") as file:
        yield _rows(file, head, str(folder / name))


def _rows(file: TextIO, head: Sequence[str], of: str) -> Iterator[list[str]]:
    """The rows of a file below its names, put into the order of some others; a name that isn't in the file has none."""
    rows: Iterator[list[str]] = csv.reader(file)
    own = next(rows)
    if is_safe():
        rows = ([*map(text_of, row)] for row in rows)
    if unknown := sorted({*own} - {*head}):
        raise NoSqlite(f"{of} has the column {unknown[0]}, which the file of the last years hasn't")
    if own == [*head]:
        yield from rows
        return
    places = [own.index(column) if column in own else -1 for column in head]
    yield from ([row[place] if place >= 0 else "" for place in places] for row in rows)


def column_of(name: str) -> str:
    """The name of a column in the file."""
    plain = name.replace("-", "_")
    return WORDS.get(plain, plain)


def type_of(file: str, name: str) -> str:
    """The type of a column of a CSV file."""
    column = OTHERS.get(file, {}).get(name) or COLUMNS.get(name)
    datatype: Datatype = column.datatype if column else ""
    if datatype in (WHOLE, YEAR) or datatype == FLAG:
        return "INTEGER"
    return "REAL" if datatype == DECIMAL else "TEXT"

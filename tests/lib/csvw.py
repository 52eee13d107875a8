"""A reader of CSV on the Web (W3C recommendation, 2015) with its own rules: the place of a file's metadata, the
contents of each column, and the cells that differ from the metadata."""

from __future__ import annotations

import csv
import json
import re
from collections.abc import Iterator
from pathlib import Path
from typing import Any, Optional

CONTEXT = "http://www.w3.org/ns/csvw"

NAME = re.compile(r"([A-Za-z0-9]|%[0-9A-Fa-f]{2})([A-Za-z0-9_.]|%[0-9A-Fa-f]{2})*")
"""The name of a column: a variable of a URI template that doesn't begin with an underscore (5.6)."""

FORMS = {
    "string": r"(?s).*",
    "gYear": r"\d{4}",
    "gYearMonth": r"\d{4}-(0[1-9]|1[0-2])",
    "nonNegativeInteger": r"\d+",
    "decimal": r"[+-]?(\d+(\.\d*)?|\.\d+)",
    "dateTimeStamp": r"\d{4}-(0[1-9]|1[0-2])-\d\dT\d\d:\d\d:\d\d(\.\d+)?(Z|[+-]\d\d:\d\d)",
    "boolean": r"true|false|1|0",
}
"""The forms of the built-in datatypes that are used here, as in XML Schema."""


def metadata_of(path: Path) -> Optional[tuple[dict[str, Any], dict[str, Any]]]:
    """The table of a CSV file and the group that it is in, from the first place of the standard (5.3) whose metadata name
    the file."""
    for name in (f"{path.name}-metadata.json", "csv-metadata.json"):
        if (path.parent / name).is_file():
            group = json.loads((path.parent / name).read_text(encoding="utf-8"))
            assert group["@context"] == CONTEXT
            tables = [table for table in group.get("tables", [group]) if table["url"] == path.name]
            if tables:
                (table,) = tables
                return table, group
    return None


def schema_of(path: Path, table: dict[str, Any], group: dict[str, Any]) -> dict[str, Any]:
    """The columns of a table: its own, or the columns of its group; a text is the name of a file that contains them."""
    schema = table.get("tableSchema", group.get("tableSchema"))
    if isinstance(schema, str):
        schema = json.loads((path.parent / schema).read_text(encoding="utf-8"))
        assert schema["@context"] == CONTEXT
    assert isinstance(schema, dict)
    return schema


def faults_of(path: Path) -> Iterator[str]:
    """The differences between a CSV file and its metadata."""
    metadata = metadata_of(path)
    if metadata is None:
        yield f"{path}: no metadata"
        return
    schema, dialect = schema_of(path, *metadata), metadata[1].get("dialect", {})
    columns = schema["columns"]
    with path.open(encoding=dialect.get("encoding", "utf-8"), newline="") as file:
        rows = [*csv.reader(file, delimiter=dialect.get("delimiter", ","), quotechar=dialect.get("quoteChar", '"'))]
    names = [column["name"] for column in columns]
    yield from (f"{path}: {name} is no name of a column" for name in names if not NAME.fullmatch(name))
    if len({*names}) != len(names):
        yield f"{path}: two columns have one name"
    if dialect.get("header", True):
        head = rows.pop(0)
        if head != [column.get("titles", column["name"]) for column in columns]:
            yield f"{path}: its columns are {head}"
    keys = set[tuple[str, ...]]()
    for at, row in enumerate(rows, 1):
        if len(row) != len(columns):
            yield f"{path}: row {at} has {len(row)} cells"
            continue
        yield from (f"{path}: row {at}: {fault}" for fault in cell_faults(columns, row))
        key = tuple(row[names.index(it)] for it in schema.get("primaryKey", ()))
        if key and key in keys:
            yield f"{path}: row {at}: {key} is there twice"
        keys.add(key)


def cell_faults(columns: list[dict[str, Any]], row: list[str]) -> Iterator[str]:
    """The cells of a row that don't fit their columns."""
    for column, cell in zip(columns, row):
        if cell == column.get("null", ""):
            if column.get("required"):
                yield f"{column['name']} is empty"
            continue
        datatype = column.get("datatype", "string")
        base, form = (datatype, None) if isinstance(datatype, str) else (datatype["base"], datatype.get("format"))
        if not re.fullmatch(FORMS[base], cell) or (form and not re.fullmatch(form, cell)):
            yield f"{column['name']}: {cell!r} is no {base} {form or ''}"

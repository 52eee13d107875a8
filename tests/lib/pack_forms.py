"""The forms of a pack of `cpi-tools publish`, each read by the published rules of its format."""

from __future__ import annotations

import csv
import io
import itertools
import json
import re
import zipfile
from collections.abc import Iterator
from decimal import Decimal
from pathlib import Path
from typing import IO, Any, Union
from xml.etree import ElementTree

OFFICE = "http://schemas.openxmlformats.org/officeDocument/2006/relationships"
SHEETS = "{http://schemas.openxmlformats.org/spreadsheetml/2006/main}"


def rows_of_csv(path: Path) -> csv.DictReader[str]:
    """The rows of a file, by the names of its columns."""
    return csv.DictReader(io.StringIO(path.read_text(encoding="utf-8"), newline=""))


def read_json_stat(path: Path) -> tuple[dict[str, Any], dict[tuple[str, ...], int]]:
    """A dataset, and the place of each cell: the last dimension moves first (JSON-stat 2.0, value)."""
    data = json.loads(path.read_text(encoding="utf-8"), parse_float=Decimal, parse_int=Decimal)
    ids = [data["dimension"][name]["category"]["index"] for name in data["id"]]
    assert [len(index) for index in ids] == [int(it) for it in data["size"]]
    return data, {key: at for at, key in enumerate(itertools.product(*ids))}


def read_px(path: Path) -> tuple[dict[str, list[str]], list[str]]:
    """The keywords of a file with their values, and the cells after DATA: a keyword ends with `;` outside of quotation
    marks, strings that follow each other without a comma are one, and a comma separates values."""
    text = path.read_text(encoding="utf-8")
    head, _, data = text.partition("DATA=")
    pxes: dict[str, list[str]] = {}
    for part in re.findall(r'((?:"[^"]*"|[^";])*);', head):
        keyword, _, value = next(
            (part[: match.start()], "=", part[match.end() :])
            for match in re.finditer("=", part)
            if part[: match.start()].count('"') % 2 == 0
        )
        joined = re.sub(r'"\s*\n\s*"', "", value)
        values = re.findall(r'"([^"]*)"|([^\s",]+(?:\([^)]*\))?)', joined)
        name = " ".join(re.sub(r'"\s*\n\s*"', "", keyword).split())
        assert name not in pxes, name
        pxes[name] = [one or other for one, other in values]
    return pxes, data.strip().removesuffix(";").split()


def px_cells(path: Path) -> dict[tuple[str, str, str], str]:
    """The cells of a file by the codes of item, figure and month like `2026-01`; cells without a figure are left
    out."""
    head, cells = read_px(path)
    codes = [head[f'CODES("{name}")'] for name in (*head["STUB"], *head["HEADING"])]
    keys = [*itertools.product(*codes)]
    assert len(keys) == len(cells)
    return {(it, figure, at.replace("M", "-")): cell for (it, figure, at), cell in zip(keys, cells) if cell != '".."'}


Attributes = dict[str, str]


def read_sdmx_ml(path: Union[Path, IO[bytes]]) -> Iterator[Attributes]:
    """The observations of a data message (StructureSpecificData), each with the attributes of its series."""
    series: Attributes = {}
    for event, element in ElementTree.iterparse(path, ("start", "end")):
        if event == "start" and element.tag == "Series":
            series = dict(element.attrib)
        elif event == "end" and element.tag == "Obs":
            yield {**series, **element.attrib}
        if event == "end" and element.tag == "Series":
            element.clear()


def read_sheets(path: Path) -> dict[str, dict[str, tuple[str, int]]]:
    """The sheets of a workbook (ECMA-376) by name: by place like `C2`, the text or number of a cell, and its style."""
    with zipfile.ZipFile(path) as archive:
        relations = ElementTree.fromstring(archive.read("xl/_rels/workbook.xml.rels"))
        targets = {relation.attrib["Id"]: relation.attrib["Target"] for relation in relations}
        sheets = ElementTree.fromstring(archive.read("xl/workbook.xml")).iter(f"{SHEETS}sheet")
        texts = {sheet.attrib["name"]: f"xl/{targets[sheet.attrib[f'{{{OFFICE}}}id']]}" for sheet in sheets}
        return {name: _cells(archive.read(member)) for name, member in texts.items()}


def _cells(sheet: bytes) -> dict[str, tuple[str, int]]:
    cells = ElementTree.fromstring(sheet).iter(f"{SHEETS}c")
    return {cell.attrib["r"]: ("".join(cell.itertext()), int(cell.attrib.get("s", 0))) for cell in cells}

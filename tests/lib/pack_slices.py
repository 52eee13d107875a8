"""The slices of a pack of `cpi-tools publish` and its files at paths, compared with every figure, computed a second
time (`pack_figures`)."""

from __future__ import annotations

import copy
import json
from collections.abc import Callable, Iterator
from decimal import Decimal
from functools import partial
from pathlib import Path

from .nation import year_before
from .pack_faults import (
    SHEETS,
    Cells,
    Observations,
    Row,
    apart,
    cells,
    differing,
    given_rows,
    item_id,
    level_rows,
    member_rows,
    observations,
    observed,
    printed_rows,
    rate_rows,
    sheet_cells,
    table_rows,
)
from .pack_figures import ALL, Figures
from .pack_forms import px_cells, read_json_stat, read_sdmx_ml, read_sheets, rows_of_csv

AREA, FLOW = "XX", "DF_CPI"

DESCRIBED = "csv-metadata.json"
"""The file that describes the CSV files of a folder."""

INDEX = ("M", "CPI", "IX", "N")
"""Frequency, measure, unit and transformation of the series that each item has at a path."""


def slice_faults(site: Path, known: Figures) -> Iterator[str]:
    """All slices, and all files at paths."""
    wanted = observations(known)
    yield from newest_faults(site / "data/newest", known, wanted)
    yield from part_faults(site / "data/slices", known, wanted)
    yield from path_faults(site / "data/sdmx", known, wanted)
    yield from item_faults(site / "data/json-stat", known)
    for name in ("dataflow/EXAMPLE/DF_CPI/latest", "datastructure/EXAMPLE/DSD_CPI/latest"):
        if (site / "data/sdmx" / name).read_bytes() != (site / "data/structure.sdmx.xml").read_bytes():
            yield f"{name} isn't the structure"


# ---- the newest month


def newest_faults(folder: Path, known: Figures, wanted: Observations) -> Iterator[str]:
    """The newest month in each form."""
    only = newest_of(known)
    (month,) = only.months
    for name, rows in csv_rows(known).items():
        yield from differing(name, rows_of_csv(folder / name), (row for row in rows if row["month"] == month))
    members = (row for row in member_rows(known) if row["year"] == month[:4])
    yield from differing("members", rows_of_csv(folder / "aggregate-members.csv"), members)
    of_month = {key: it for key, it in wanted.items() if key[-1] == month}
    yield from apart("newest, CSV", observed(rows_of_csv(folder / "cpi.sdmx.csv")), of_month)
    yield from apart("newest, XML", observed(read_sdmx_ml(folder / "cpi.sdmx.xml")), of_month)
    figures = {key: cell for key, cell in cells(known).items() if key[2] == month}
    px: Cells = {key: Decimal(cell) for key, cell in px_cells(folder / "cpi.px").items()}
    yield from apart("newest, PX", px, figures)
    yield from cube_faults(folder / "cpi.jsonstat.json", figures)
    sheets = read_sheets(folder / "cpi.xlsx")
    for name in SHEETS:
        wrote = {place: value for place, (value, _) in sheets[name].items()}
        yield from apart(f"newest, {name}", wrote, dict(sheet_cells(only, name)))


def newest_of(known: Figures) -> Figures:
    """The figures of which the newest month is written: of items that are in it, or were in it a year before."""
    only, last = copy.copy(known), known.months[-1]
    only.months = [last]
    only.lines = {code: lines for code, lines in known.lines.items() if max(lines) >= year_before(last)}
    return only


def csv_rows(known: Figures) -> dict[str, Iterator[Row]]:
    """The rows of all months of the CSV files."""
    return {
        "cpi.csv": table_rows(known, known.nodes),
        "aggregates.csv": table_rows(known, known.sets),
        "contributions.csv": given_rows(known, lambda _: known.pairs()),
        "aggregate-contributions.csv": given_rows(known, known.pairs_of_sets),
        "twelve-month-rates.csv": rate_rows(known),
        "rereferenced.csv": level_rows(known),
        "printed.csv": printed_rows(known),
    }


# ---- headline figures, and divisions


def part_faults(folder: Path, known: Figures, wanted: Observations) -> Iterator[str]:
    """The slices of SDMX, which together are the whole."""
    divisions = sorted({code[:2] for code in known.nodes} - {ALL})
    parts: dict[str, Callable[[str], bool]] = {
        "headline": lambda code: len(code) == 2,
        "aggregates": known.sets.__contains__,
    }
    parts.update({each: partial(is_in_division, known, each) for each in divisions})
    names = {f"{part}.sdmx.{end}" for part in parts for end in ("csv", "xml")}
    wrote = {path.name for path in folder.iterdir()} - {DESCRIBED}
    if wrote != names:
        yield f"slices: {sorted(wrote ^ names)[:5]} are there, or wanted"
    together: Observations = {}
    for part, is_in in parts.items():
        ids = {item_id(code) for code in known.lines if is_in(code)}
        own = {key: it for key, it in wanted.items() if key[3] in ids}
        together.update(own)
        yield from apart(f"{part}.sdmx.csv", observed(rows_of_csv(folder / f"{part}.sdmx.csv")), own)
        yield from apart(f"{part}.sdmx.xml", observed(read_sdmx_ml(folder / f"{part}.sdmx.xml")), own)
    yield from apart("all slices", together, wanted)


def is_headline(known: Figures, code: str) -> bool:
    """Whether an item is all items, a division or a special aggregate."""
    return code in known.sets or len(code) == 2


def is_in_division(known: Figures, division: str, code: str) -> bool:
    """Whether an item is a division, or below it."""
    return code in known.nodes and code[:2] == division


# ---- paths


def path_faults(folder: Path, known: Figures, wanted: Observations) -> Iterator[str]:
    """The series at their keys: the index of each item, and all series of headline figures."""
    headline = {item_id(code) for code in known.lines if is_headline(known, code)}
    series: dict[str, Observations] = {}
    for key, it in wanted.items():
        frequency, measure, unit, item, transformation, _ = key
        if item in headline or (frequency, measure, unit, transformation) == INDEX:
            path = ".".join((frequency, AREA, measure, unit, item, transformation))
            series.setdefault(path, {})[key] = it
    wrote = {path.name for path in (folder / "data" / FLOW).iterdir()}
    if wrote != series.keys():
        yield f"paths: {sorted(wrote ^ series.keys())[:5]} are there, or wanted"
    for path in sorted(wrote & series.keys()):
        yield from apart(path, observed(read_sdmx_ml(folder / "data" / FLOW / path)), series[path])


def item_faults(folder: Path, known: Figures) -> Iterator[str]:
    """The cube of each item, and their collection."""
    by_item: dict[str, Cells] = {code: {} for code in known.lines}
    for key, cell in cells(known).items():
        by_item[key[0]][key] = cell
    for code, figures in by_item.items():
        yield from cube_faults(folder / f"{code}.json", figures)
    found = json.loads((folder / "index.json").read_bytes())
    named = [(it["class"], it["href"].rpartition("/")[2], it["label"]) for it in found["link"]["item"]]
    if named != [("dataset", f"{code}.json", f"{code} {known.titles[code]}") for code in known.lines]:
        yield f"the collection has {named[:3]} and so on"


def cube_faults(path: Path, figures: Cells) -> Iterator[str]:
    """A cube of JSON-stat."""
    data, places = read_json_stat(path)
    values: Cells = {key: data["value"][at] for key, at in places.items() if data["value"][at] is not None}
    yield from apart(path.name, values, {key: figure for key, figure in figures.items() if key[1] != "imputed"})
    imputed = {key[0::2] for key, figure in figures.items() if key[1] == "imputed" and figure}
    marked = {key[0::2] for key, at in places.items() if key[1] == "index" and "i" in data["status"].get(str(at), "")}
    yield from apart(path.name, dict.fromkeys(marked), dict.fromkeys(imputed))

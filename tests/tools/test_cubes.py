"""JSON-stat 2.0 and PX, each read once more by the rules of its format, and compared with the CSV files."""

from __future__ import annotations

import csv
import itertools
from decimal import Decimal
from pathlib import Path
from typing import Optional

import pytest

from cpi_tools.publish.figures.config import Config
from cpi_tools.publish.figures.own_words import OfficeLanguages, Own
from cpi_tools.publish.figures.announcements import Planned
from cpi_tools.office.public import Listed, Published
from cpi_tools.publish.pack import publish
from lib.pack_forms import read_json_stat, read_px
from lib.px_format import read_strictly
from .test_specials import config

CONFIG_OF_SETS = config
"""The fixture of an office with special aggregates and 2025 = 100."""

Cells = dict[tuple[str, str, str], Optional[Decimal]]
"""By item, measure and month like `2026-01`."""


@pytest.fixture(scope="module")
def pack(published: list[Published], config: Config, tmp_path_factory: pytest.TempPathFactory) -> Path:
    out = tmp_path_factory.mktemp("pack") / "public"
    own = config._replace(title='The "index"', language="cs", licence="CC BY 4.0")
    publish(published, own, out, None, lambda _: None)
    return out


def rows_of(path: Path) -> list[dict[str, str]]:
    with path.open(encoding="utf-8", newline="") as file:
        return list(csv.DictReader(file))


def per_mille(weight: int, of_all: int) -> Decimal:
    """A share of all weight with six decimals, halves upwards."""
    return Decimal((2 * weight * 10**9 + of_all) // (2 * of_all)).scaleb(-6)


@pytest.fixture(scope="module")
def wanted(pack: Path) -> Cells:
    """All figures by the CSV files: items and special aggregates."""
    cells: Cells = {}
    data = pack / "data"
    of_all = {row["month"]: int(row["weight"]) for row in rows_of(data / "cpi.csv") if row["code"] == "00"}
    for row in rows_of(data / "cpi.csv") + rows_of(data / "aggregates.csv"):
        for name in ("chained", "month_change", "year_change", "weight", "imputed"):
            cells[row["code"], name, row["month"]] = Decimal(row[name]) if row[name] else None
        cells[row["code"], "index", row["month"]] = Decimal(row["chained"])
        cells[row["code"], "share", row["month"]] = per_mille(int(row["weight"]), of_all[row["month"]])
    for row in rows_of(data / "rereferenced.csv"):
        cells[row["code"], "index", row["month"]] = Decimal(row["rereferenced"])
    for row in rows_of(data / "contributions.csv") + rows_of(data / "aggregate-contributions.csv"):
        if row["of"] == "00" and row["contribution_year"]:
            cells[row["code"], "contribution", row["month"]] = Decimal(row["contribution_year"])
    return {key: value for key, value in cells.items() if value is not None}


@pytest.fixture(scope="module")
def breaks(pack: Path) -> set[tuple[str, str]]:
    rows = rows_of(pack / "data/cpi.csv") + rows_of(pack / "data/aggregates.csv")
    return {(row["code"], row["month"]) for row in rows if row["break"] == "1"}


# ---- JSON-stat


def test_json_stat_has_each_figure(pack: Path, wanted: Cells, breaks: set[tuple[str, str]]) -> None:
    data, places = read_json_stat(pack / "data/cpi.jsonstat.json")
    assert (data["version"], data["class"], data["id"]) == ("2.0", "dataset", ["item", "measure", "month"])
    assert data["role"] == {"time": ["month"], "metric": ["measure"]}
    assert len(data["value"]) == len(places)
    found = {key: data["value"][at] for key, at in places.items() if data["value"][at] is not None}
    assert found == {key: value for key, value in wanted.items() if key[1] != "imputed"}
    imputed = {(key[0], key[2]) for key, value in wanted.items() if key[1] == "imputed" and value}
    status = {
        str(at): ("b" if (item, month) in breaks else "") + ("i" if (item, month) in imputed else "")
        for (item, measure, month), at in places.items()
        if measure in ("index", "chained") and {(item, month)} & (breaks | imputed)
    }
    assert data["status"] == status and {*status.values()} == {"b", "i"}
    assert {*data["extension"]["status"]["label"]} == {"b", "i", "bi"}


def test_what_json_stat_says_of_its_cells(pack: Path) -> None:
    data, _ = read_json_stat(pack / "data/cpi.jsonstat.json")
    items = data["dimension"]["item"]["category"]
    assert items["label"]["01.1.1.2-01"] == "Flour & <meal>" and items["label"]["CORE"].startswith("Core")
    assert items["child"]["00"] == ["01", "07", "08"] and items["child"]["01.1"] == ["01.1.1", "01.1.6"]
    assert items["note"]["00"] == ["Index: 2025 = 100."]
    assert items["note"]["01.1.6"] == [
        "Index: 2025 = 100.",
        "Break: from January 2027 on, December 2026 = 100; not linked to the earlier levels.",
    ]
    assert items["note"]["NORTH"][1] == "Break: from January 2026 on, it contains different elementary aggregates."
    units = data["dimension"]["measure"]["category"]["unit"]
    assert units["index"] == {"label": "points", "decimals": 6} and units["weight"]["decimals"] == 0
    assert data["label"] == 'The "index"' and data["updated"].endswith("Z")
    assert "Licence: CC BY 4.0" in data["note"]


# ---- PX


def test_px_has_each_figure(pack: Path, wanted: Cells) -> None:
    head, cells = read_px(pack / "data/cpi.px")
    stub, heading = head["STUB"], head["HEADING"]
    assert (stub, heading, head["CONTVARIABLE"]) == (["Item"], ["Figure", "Month"], ["Figure"])
    codes = [head[f'CODES("{name}")'] for name in (*stub, *heading)]
    values = [head[f'VALUES("{name}")'] for name in (*stub, *heading)]
    assert [len(code) for code in codes] == [len({*value}) for value in values] == [len(value) for value in values]
    assert head['TIMEVAL("Month")'] == ["TLIST(M1)", *(code.replace("M", "") for code in codes[2])]
    assert codes[2][0] == "2025M01"
    keys = [*itertools.product(*codes)]
    assert len(keys) == len(cells)
    numbers = {
        (item, measure, month.replace("M", "-")): Decimal(cell)
        for (item, measure, month), cell in zip(keys, cells)
        if cell != '".."'
    }
    assert numbers == wanted
    assert max(map(len, (pack / "data/cpi.px").read_text(encoding="utf-8").splitlines())) <= 256


def test_what_px_says_of_its_cells(pack: Path, breaks: set[tuple[str, str]]) -> None:
    head, _ = read_px(pack / "data/cpi.px")
    assert [*head][:4] == ["CHARSET", "AXIS-VERSION", "CODEPAGE", "LANGUAGE"] and head["LANGUAGE"] == ["cs"]
    needed = {"TITLE", "CONTENTS", "UNITS", "DECIMALS", "MATRIX", "SUBJECT-AREA", "SUBJECT-CODE"}
    assert needed <= head.keys() and head["SUBJECT-AREA"] == ["The 'index'"]
    assert head['VALUENOTE("Item","01.1.6 Fruit")'] == [
        "Index: 2025 = 100. Break: from January 2027 on, December 2026 = 100; not linked to the earlier levels."
    ]
    noted = {key for key in head if key.startswith("CELLNOTE")}
    assert len(noted) == 2 * len(breaks)
    assert 'CELLNOTE("01.1.6 Fruit","Index","January 2027")' in noted
    assert head['PRECISION("Figure","Index")'] == ["1"] and 'PRECISION("Figure","Weight in use")' not in head
    assert head['UNITS("Annual change")'] == ["percent"]


def test_px_says_what_pxweb_must_not_add_up(pack: Path) -> None:
    head, _ = read_px(pack / "data/cpi.px")
    assert head["AGGREGALLOWED"] == ["NO"] and head['ELIMINATION("Item")'] == ["00 All items"]
    assert head["OFFICIAL-STATISTICS"] == ["YES"] and head["COPYRIGHT"] == ["YES"] and "NEXT-UPDATE" not in head
    assert head['BASEPERIOD("Index")'] == ["2025"]
    chained = next(it for it in head['VALUES("Figure")'] if it.startswith("Chained"))
    assert head[f'BASEPERIOD("{chained}")'] == ["2024-12"] and not any(it.startswith("CONTACT") for it in head)
    assert 'BASEPERIOD("Weight in use")' not in head


def test_px_has_its_keywords_in_the_order_of_the_format(published: list[Published], tmp_path: Path) -> None:
    """In each language, with a contact and a release to come."""
    speaks = OfficeLanguages(("en", "fr"), "latn", {"fr": Own({"contact": "Téléphone 1"})})
    own = Config("NSO", "XX", "Office", contact="Telephone 1", licence="CC0 1.0", speaks=speaks)
    own = own._replace(planned=(Planned("2027-06", 1, 1_801_125_000),))
    publish(published, own, tmp_path / "public", None, lambda _: None)
    head, _ = read_px(tmp_path / "public/data/cpi.px")
    read_strictly((tmp_path / "public/data/cpi.px").read_text(encoding="utf-8"))
    assert head["NEXT-UPDATE"] == ["20270128 08:30"] and head["COPYRIGHT"] == ["NO"]
    assert head['CONTACT("Index")'] == ["Telephone 1"] and head['CONTACT[fr]("Indice")'] == ["Téléphone 1"]
    assert head['ELIMINATION[fr]("Poste")'] == ["00 All items"]


def test_texts_that_px_cannot_have(tmp_path: Path) -> None:
    """A quotation mark ends a text, and a long text is several."""
    title = 'Meals; "out" = ' + "very " * 60 + "long"
    row = f'00,1000000,99.750000,99.750000,-0.3,,0,"{title.replace(chr(34), chr(34) * 2)}"\n'
    published = [Published(Listed("2025-12", 1, 1), b""), Published(Listed("2026-01", 1, 2), row.encode())]
    publish(published, Config("NSO", "XX", 'O; \n="x"'), tmp_path / "public", None, lambda _: None)
    head, cells = read_px(tmp_path / "public/data/cpi.px")
    assert head['VALUES("Item")'] == ["00 " + title.replace('"', "'")] and head["SOURCE"] == ["O; ='x'"]
    assert cells[:2] == ["99.750000", "-0.3"] and "chained" not in head['CODES("Figure")']
    data, _ = read_json_stat(tmp_path / "public/data/cpi.jsonstat.json")
    assert data["dimension"]["item"]["category"]["label"] == {"00": title} and data["status"] == {}

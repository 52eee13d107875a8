"""Months that the office may still revise, in each form that programs read."""

from __future__ import annotations

import csv
import json
import re
import zipfile
from pathlib import Path
from xml.etree import ElementTree

import pytest

from cpi_tools.publish.figures.config import Config
from cpi_tools.office.public import Published
from cpi_tools.publish.pack import publish

CONFIG = Config("NSO", "XX", "Office", provisional=3, reference="2025")
LAST = ["2027-03", "2027-04", "2027-05"]
"""The last three published months; fruit is back in January."""


@pytest.fixture(scope="module")
def data(published: list[Published], tmp_path_factory: pytest.TempPathFactory) -> Path:
    out = tmp_path_factory.mktemp("provisional") / "public"
    publish(published, CONFIG, out, None, lambda _: None)
    return out / "data"


def rows_of(path: Path) -> list[dict[str, str]]:
    with path.open(encoding="utf-8", newline="") as file:
        return list(csv.DictReader(file))


def test_sdmx_has_p_in_each_of_the_months_and_no_other(data: Path) -> None:
    rows = rows_of(data / "cpi.sdmx.csv")
    assert {row["OBS_STATUS"] for row in rows if row["TIME_PERIOD"] in LAST} == {"P"}
    assert {row["OBS_STATUS"] for row in rows if row["TIME_PERIOD"] not in LAST} == {"A", "B"}
    found = ElementTree.parse(data / "cpi.sdmx.xml").iter("Obs")
    assert [element.get("OBS_STATUS") for element in found] == [row["OBS_STATUS"] for row in rows]


def test_a_break_is_more_than_provisional(published: list[Published], tmp_path: Path) -> None:
    tables = [publication for publication in published if publication.listed.month <= "2027-01"]
    publish(tables, CONFIG, tmp_path / "public", None, lambda _: None)
    rows = [row for row in rows_of(tmp_path / "public/data/cpi.sdmx.csv") if row["COICOP18"] == "CP01162"]
    statuses = {
        row["MEASURE"]: row["OBS_STATUS"]
        for row in rows
        if row["TIME_PERIOD"] == "2027-01" and row["TRANSFORMATION"] == "N"
    }
    assert statuses == {"CPI": "B", "CPIC": "B", "CPIW": "P", "CPIS": "P"}
    # (a year whose December can still be revised)
    years = {
        (row["TIME_PERIOD"], row["OBS_STATUS"])
        for row in rows_of(tmp_path / "public/data/cpi.sdmx.csv")
        if row["FREQ"] == "A" and row["COICOP18"] == "_T"
    }
    assert years == {("2025", "A"), ("2026", "P")}


def test_json_stat_has_p_at_each_figure(data: Path) -> None:
    cube = json.loads((data / "cpi.jsonstat.json").read_text(encoding="utf-8"))
    months = cube["dimension"]["month"]["category"]["index"]
    statuses = {int(place): status for place, status in cube["status"].items()}
    for place, value in enumerate(cube["value"]):
        is_wanted = value is not None and months[place % len(months)] in LAST
        assert statuses.get(place, "").endswith("p") == is_wanted
    assert {*statuses.values()} <= {*cube["extension"]["status"]["label"]}
    assert "Provisional: the office may still revise the last 3 months." in cube["note"]


def test_px_csv_and_the_workbook_say_which_months(data: Path) -> None:
    px = (data / "cpi.px").read_text(encoding="utf-8")
    notes = re.findall(r'^VALUENOTE\("Month","([^"]*)"\)="Provisional: the office may still revise it";$', px, re.M)
    assert notes == ["March 2027", "April 2027", "May 2027"]
    assert {row["month"] for row in rows_of(data / "printed.csv") if row["provisional"] == "1"} == {*LAST}
    with zipfile.ZipFile(data / "cpi.xlsx") as book:
        told = book.read("xl/worksheets/sheet1.xml").decode()
    assert "2027-03 to 2027-05: the office may still revise these months" in told


def test_a_month_that_becomes_final_is_marked_no_more(published: list[Published], tmp_path: Path) -> None:
    """The pack over the one before has the bytes of one that is made from nothing, archives too."""
    config = CONFIG._replace(reference="", provisional=14, years=1)
    out = tmp_path / "public"
    publish(
        [publication for publication in published if publication.listed.month < "2027-03"],
        config,
        out,
        None,
        lambda _: None,
    )
    publish(published, config, out, None, lambda _: None)
    publish(published, config, tmp_path / "new", None, lambda _: None)
    for name in ("printed.csv", "cpi.sdmx.csv", "cpi.jsonstat.json", "years/2025.zip", "years/2026.zip"):
        assert (out / "data" / name).read_bytes() == (tmp_path / "new/data" / name).read_bytes(), name


def test_an_office_without_such_months_has_none_of_it(published: list[Published], tmp_path: Path) -> None:
    publish(published, CONFIG._replace(provisional=0), tmp_path / "public", None, lambda _: None)
    data = tmp_path / "public/data"
    assert "provisional" not in rows_of(data / "printed.csv")[0]
    assert "rovisional" not in (data / "cpi.jsonstat.json").read_text() + (data / "cpi.px").read_text()

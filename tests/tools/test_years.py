"""Packs of many years: archives of the earlier ones, which the next pack takes, byte for byte as if it were the first."""

from __future__ import annotations

import contextlib
import csv
import hashlib
import io
import json
import os
import re
import shutil
import signal
import subprocess
import sys
import zipfile
from collections.abc import Iterator
from pathlib import Path
from typing import Any, Optional

import pytest

from cpi_tools.text.text_files import formulas_told
from cpi_tools.text.exact import Ratio
from cpi_tools.office.folders import files_of
from cpi_tools.text.languages import PO
from cpi_tools.publish.forms import tidy, years
from cpi_tools.publish.figures.aggregated import series_of
from cpi_tools.publish.figures.own_words import OfficeLanguages, colours_of
from cpi_tools.publish.forms.artefacts import Versions
from cpi_tools.publish.forms.pack_before import Before
from cpi_tools.publish.figures.config import BadConfig, Config, read_config
from cpi_tools.publish.figures.figures import (
    GIVEN_MONTH,
    GIVEN_YEAR,
    LEVEL,
    MONTH_CHANGE,
    PRINTED,
    SHARE,
    YEAR_CHANGE,
    Figure,
    Known,
)
from cpi_tools.publish.forms.manifest import differences
from cpi_tools.publish.figures.measures import average
from cpi_tools.office.public import Listed, Published
from cpi_tools.publish.figures.shown_figures import Shown
from cpi_tools.publish.figures.specials import Special
from cpi_tools.publish.forms.structure import structure_of
from cpi_tools.office.tables import Series, Table
from cpi_tools.publish.forms.tidy import Lines
from cpi_tools.publish.pack import check, publish
from lib.places import ROOT
from .published import REVISED

SETS = (Special("FRUIT", "Fruit", ("01.1.6",)), Special("REST", "Without food", ("00",), ("01",)))
CONFIG = Config("NSO", "XX", "Office of prices", reference="2025", years=1, specials=SETS)
ARCHIVES = ["data/years/2025.zip", "data/years/2026.zip"]


def quiet(_: str) -> None:
    pass


def written(published: list[Published], config: Config, out: Path) -> Path:
    publish(published, config, out, None, quiet)
    return out


def anew(published: list[Published], config: Config, out: Path, manifest: Path) -> Path:
    """The pack of the same tables from nothing, whose manifest and versions follow the same ones."""
    out.parent.mkdir(exist_ok=True)
    publish(published, config, out, manifest if manifest.exists() else None, quiet)
    return out


def keep(pack: Path, to: Path) -> None:
    """Keeps the manifest of a pack, and beside it the versions of its structure and its observations."""
    shutil.rmtree(to.parent / "data", ignore_errors=True)
    shutil.copytree(pack / "data", to.parent / "data")
    for name, path in (("manifest.json", to), ("SHA256SUMS", to.parent / "SHA256SUMS")):
        path.write_bytes((pack / name).read_bytes())


def inodes(pack: Path, names: list[str]) -> list[int]:
    return [(pack / name).stat().st_ino for name in names]


def rows_of(data: bytes) -> list[dict[str, str]]:
    return [*csv.DictReader(io.StringIO(data.decode(), newline=""))]


def revised(one: Published, code: str) -> Published:
    """A second revision of a table, in which the level of a node is a millionth higher."""
    lines = [line.split(",") for line in one.table.decode().splitlines(keepends=True)]
    for line in lines:
        if line[0] == code:
            line[3] = f"{line[3][:-1]}{(int(line[3][-1]) + 1) % 10}"
    listed = Listed(one.listed.month, 2, one.listed.moment + 1)
    return Published(listed, "".join(map(",".join, lines)).encode())


# ---- what is in which file


@pytest.fixture(scope="module")
def pack(published: list[Published], tmp_path_factory: pytest.TempPathFactory) -> Path:
    return written(published, CONFIG, tmp_path_factory.mktemp("years") / "public")


@pytest.fixture(scope="module")
def whole(published: list[Published], tmp_path_factory: pytest.TempPathFactory) -> Path:
    """The pack of the same tables in which all years are in the files of the folder data."""
    return written(published, CONFIG._replace(years=None), tmp_path_factory.mktemp("whole") / "public")


def archived(pack: Path, name: str) -> Iterator[tuple[str, bytes]]:
    """A file of each archive and that of the folder `data`, by year."""
    for path in sorted(pack.glob("data/years/*.zip")):
        with zipfile.ZipFile(path) as archive:
            yield path.stem, archive.read(f"{path.stem}/{name}")
    yield "2027", (pack / "data" / name).read_bytes()


def test_small_packs_have_no_archives(whole: Path) -> None:
    assert not (whole / "data/years").exists()


@pytest.mark.parametrize(
    "name", ["cpi.csv", "contributions.csv", "rereferenced.csv", "aggregates.csv", "aggregate-contributions.csv"]
)
def test_each_row_is_in_the_file_of_its_year(pack: Path, whole: Path, name: str) -> None:
    found = []
    for year, data in archived(pack, name):
        rows = rows_of(data)
        assert {row["month"][:4] for row in rows} == {year}
        found += rows
    assert found == rows_of((whole / "data" / name).read_bytes())
    assert len(found) > 30


def test_observations_of_all_years_are_those_of_one_file(pack: Path, whole: Path) -> None:
    names = ("FREQ", "MEASURE", "COICOP18", "TRANSFORMATION", "TIME_PERIOD", "OBS_VALUE", "OBS_STATUS", "REVISION")

    def keyed(data: bytes) -> list[tuple[str, ...]]:
        return [tuple(row[name] for name in names) for row in rows_of(data)]

    found = [it for _, data in archived(pack, "cpi.sdmx.csv") for it in keyed(data)]
    assert sorted(found) == sorted(keyed((whole / "data/cpi.sdmx.csv").read_bytes()))


def test_an_archive_has_each_form_and_the_structure_that_it_refers_to(pack: Path) -> None:
    with zipfile.ZipFile(pack / ARCHIVES[0]) as archive:
        names = {name.removeprefix("2025/") for name in archive.namelist()}
        rows = rows_of(archive.read("2025/cpi.sdmx.csv"))
        structure = archive.read("2025/structure.sdmx.xml").decode()
        cube = json.loads(archive.read("2025/cpi.jsonstat.json"))
    forms = {"cpi.csv", "cpi.sdmx.csv", "cpi.sdmx.xml", "structure.sdmx.xml", "cpi.jsonstat.json", "cpi.px", "cpi.xlsx"}
    assert names >= forms
    version = rows[0]["STRUCTURE_ID"].partition("(")[2].rstrip(")")
    assert f'id="DF_CPI" agencyID="NSO" version="{version}"' in structure
    # a series lies in one dataflow: the structure is that of today, which has the telephones
    assert rows[0]["STRUCTURE_ID"] == rows_of((pack / "data/cpi.sdmx.csv").read_bytes())[0]["STRUCTURE_ID"]
    assert 'id="CP08"' in structure
    months = cube["dimension"]["month"]["category"]["index"]
    assert (months[0], months[-1], cube["size"][2]) == ("2025-01", "2025-12", 12)
    # telephones come in 2026
    assert "08" not in cube["dimension"]["item"]["category"]["index"]


def test_the_file_of_an_item_has_all_months_and_its_page_those_of_the_latest_files(pack: Path, whole: Path) -> None:
    name = "node/01.1.1.1-01"
    assert (pack / f"{name}.csv").read_bytes() == (whole / f"{name}.csv").read_bytes()
    page = (pack / f"{name}.html").read_text(encoding="utf-8")
    assert "May<" not in page.partition("<tbody>")[2] or page.count('class="month"') == 5
    assert page.count('class="month"') == 5 and "This item's file contains all months" in page
    # flour left after 2025: its page has the last year that it was in
    flour = (pack / "node/01.1.1.2-01.html").read_text(encoding="utf-8")
    assert flour.count('class="month"') == 12 and "its last figure is for December 2025" in flour
    assert (whole / f"{name}.html").read_text(encoding="utf-8").count('class="month"') == 29


def test_the_data_page_lists_the_archives(pack: Path, whole: Path) -> None:
    text = (pack / "data.html").read_text(encoding="utf-8")
    assert all(f'href="{name}"' in text for name in ARCHIVES) and "from January 2027 on" in text
    assert "Earlier years" not in (whole / "data.html").read_text(encoding="utf-8")


def test_as_many_years_are_in_the_files_as_they_have_room_for(
    published: list[Published], monkeypatch: pytest.MonkeyPatch
) -> None:
    series = Series(published)
    counts = {year: sum(len(series.latest[m].rows) for m in series.every if m[:4] == year) for year in ("2026", "2027")}
    assert years.first_of(series) == "2025-01"
    for room, first in ((sum(counts.values()), "2026-01"), (sum(counts.values()) - 1, "2027-01"), (1, "2027-01")):
        monkeypatch.setattr(years, "MOST_ROWS", room)
        assert years.first_of(series) == first
    assert [years.first_of(series, many) for many in (1, 2, 3, 99)] == ["2027-01", "2026-01", "2025-01", "2025-01"]
    assert years.earlier_years(series, "2027-01") == ["2025", "2026"]


def test_how_many_years_is_a_number(tmp_path: Path) -> None:
    for text in ("0", "-1", "100", "two"):
        (tmp_path / "office.ini").write_text(f"[office]\nagency=A\narea=X\noffice=O\nyears={text}\n", encoding="utf-8")
        with pytest.raises(BadConfig, match=f"years: {text} isn't 1 to 99"):
            read_config(tmp_path / "office.ini")


# ---- the next pack


def test_the_next_packs_are_the_packs_from_nothing(published: list[Published], tmp_path: Path) -> None:
    out, kept = tmp_path / "public", tmp_path / "kept.json"
    tables = sorted(published)
    last = [number for number, table in enumerate(tables, 1) if table.listed.month == "2026-12"][0]
    other = CONFIG._replace(reference="2026")
    old = next(table for table in tables if table.listed.month == "2025-05")
    runs = [
        (tables[: last - 1], CONFIG, 0),  # (up to November 2026)
        (tables[:last], CONFIG, 1),
        (tables[: last + 1], CONFIG, 1),  # a new year: pears are back, so 2026 is an archive now
        (tables[: last + 2], CONFIG, 2),
        (sorted([*tables[: last + 2], revised(old, "01.1.1.1-01")]), CONFIG, 0),  # a month of 2025 is revised
        (sorted([*tables[: last + 3], revised(old, "01.1.1.1-01")]), CONFIG, 2),
        (sorted([*tables, revised(old, "01.1.1.1-01")]), other, 0),  # another reference year
        (sorted([*tables, revised(old, "01.1.1.1-01")]), other, 2),
        (sorted([*tables, revised(old, "01.1.1.1-01")]), other._replace(office="Another name"), 0),
        (sorted([*tables, revised(old, "01.1.1.1-01")]), CONFIG._replace(rates="published"), 0),
        (sorted([*tables, revised(old, "01.1.1.1-01")]), CONFIG._replace(rates="published", years=2), 1),
    ]
    for number, (some, config, taken) in enumerate(runs):
        if out.exists():
            keep(out, kept)
        earlier = {name: (out / name).stat().st_ino for name in (files_of(out) if out.exists() else ())}
        written(some, config, out)
        first = anew(some, config, tmp_path / f"first{number}" / "public", kept)
        assert [*differences(out, first)] == []
        archives = [name for name in files_of(out) if name.startswith("data/years/") and name.endswith(".zip")]
        assert sum((out / name).stat().st_ino == earlier.get(name) for name in archives) == taken
        tables_there = [name for name in files_of(out / "data/tables") if name.endswith(".csv")]
        tables_taken = [name for name in tables_there if f"data/tables/{name}" in earlier]
        for name in tables_taken:
            assert (out / "data/tables" / name).stat().st_ino == earlier[f"data/tables/{name}"]


ONLY_PAGES: list[dict[str, Any]] = [
    {"colours": colours_of("#8a1538", "#f0a0b8")},
    {"press": ("FRUIT",), "press_since": "2027-01"},
    {"currency": "crowns", "minor_digits": 3},
    {"speaks": OfficeLanguages(("ar",), "arab")},
]


@pytest.mark.parametrize("words", ONLY_PAGES)
def test_what_only_pages_say_makes_no_archive_anew(
    published: list[Published], tmp_path: Path, words: dict[str, Any]
) -> None:
    out, kept = tmp_path / "public", tmp_path / "kept.json"
    written(published, CONFIG._replace(speaks=OfficeLanguages(("ar",))) if "speaks" in words else CONFIG, out)
    keep(out, kept)
    before = inodes(out, ARCHIVES)
    written(published, CONFIG._replace(**words), out)
    assert inodes(out, ARCHIVES) == before
    assert [*differences(out, anew(published, CONFIG._replace(**words), tmp_path / "first/public", kept))] == []


def lines_written(monkeypatch: pytest.MonkeyPatch) -> dict[str, set[str]]:
    """By code, the months whose lines in the files of items are made from now on."""
    made = dict[str, set[str]]()
    of_node = Lines.of_node

    def kept(self: Lines, tables: list[Table], code: str, ends: list[tuple[str, ...]]) -> str:
        made.setdefault(code, set()).update(table.month for table in tables)
        return of_node(self, tables, code, ends)

    monkeypatch.setattr(Lines, "of_node", kept)
    return made


def test_the_lines_of_earlier_years_are_those_of_the_pack_before(
    published: list[Published], tmp_path: Path, monkeypatch: pytest.MonkeyPatch
) -> None:
    tables = sorted(published)
    out, kept = written(tables[:-1], CONFIG, tmp_path / "public"), tmp_path / "kept.json"
    keep(out, kept)
    damage(out / "node/07.2.2.1-01.csv")
    made = lines_written(monkeypatch)
    written(tables, CONFIG, out)
    # (flour left after 2025)
    assert made["01.1.1.1-01"] | made["01.1.1.2-01"] == {tables[-1].listed.month} == {"2027-05"}
    assert {month[:4] for month in made["07.2.2.1-01"]} == {"2025", "2026", "2027"}
    assert [*differences(out, anew(tables, CONFIG, tmp_path / "first" / "public", kept))] == []


def test_lines_of_months_that_were_provisional_are_written_anew(
    published: list[Published], tmp_path: Path, monkeypatch: pytest.MonkeyPatch
) -> None:
    config, tables = CONFIG._replace(provisional=3), sorted(published)
    first = [number for number, table in enumerate(tables, 1) if table.listed.month == "2027-01"][-1]
    out, kept = written(tables[:first], config, tmp_path / "public"), tmp_path / "kept.json"
    made = lines_written(monkeypatch)
    months_made = []
    for number in range(first + 1, len(tables) + 1):
        keep(out, kept)
        made.clear()
        written(tables[:number], config, out)
        months_made.append({*made["01.1.1.1-01"]})
        assert [*differences(out, anew(tables[:number], config, tmp_path / f"first{number}" / "public", kept))] == []
    # February's provisional months begin in December, so the archive of 2026 is another one, and that of 2025 stays
    assert {month[:4] for month in months_made[0]} == {"2026", "2027"}
    # those that are provisional in May, and February, which was one in April
    assert months_made[-1] == {"2027-02", "2027-03", "2027-04", "2027-05"}


# ---- the lines of the files of data


KINDS = (GIVEN_MONTH, GIVEN_YEAR, PRINTED, MONTH_CHANGE, YEAR_CHANGE, LEVEL, SHARE)
"""The figures that files of `data` have in lines of months."""

OF_MONTHS = ["cpi.csv", "contributions.csv", "printed.csv", "twelve-month-rates.csv", "rereferenced.csv"]


def asked(monkeypatch: pytest.MonkeyPatch) -> dict[str, set[str]]:
    """By what is asked for, the months of which it is computed from now on: the lines of cpi.csv, figures of all nodes, and
    whether changes are those of the published levels."""
    made = dict[str, set[str]]()
    of_table, texts, is_shown = Lines.of_table, Known.texts_of_month, Series.is_shown

    def lines_kept(self: Lines, table: Table) -> str:
        made.setdefault("lines", set()).add(table.month)
        return of_table(self, table)

    def texts_kept(self: Known, figure: Figure, month: str) -> list[str]:
        made.setdefault(figure.name, set()).add(month)
        return texts(self, figure, month)

    def shown_kept(self: Series, month: str, is_annual: bool) -> bool:
        made.setdefault("shown", set()).add(month)
        return is_shown(self, month, is_annual)

    monkeypatch.setattr(Lines, "of_table", lines_kept)
    monkeypatch.setattr(Known, "texts_of_month", texts_kept)
    monkeypatch.setattr(Series, "is_shown", shown_kept)
    return made


def test_the_files_of_data_get_the_lines_of_the_new_month(
    published: list[Published], tmp_path: Path, monkeypatch: pytest.MonkeyPatch
) -> None:
    tables, out, kept = sorted(published), tmp_path / "public", tmp_path / "kept.json"
    first = [number for number, table in enumerate(tables, 1) if table.listed.month == "2027-02"][-1]
    written(tables[:first], CONFIG, out)
    made = asked(monkeypatch)
    for number in range(first + 1, len(tables) + 1):
        keep(out, kept)
        made.clear()
        written(tables[:number], CONFIG, out)
        month = tables[number - 1].listed.month
        # (of the releases' pages only the months with an earlier revision are looked at)
        assert month in made.pop("shown") <= {month, REVISED}
        assert made == {name: {month} for name in ("lines", *(kind.name for kind in KINDS))}
        assert [*differences(out, anew(tables[:number], CONFIG, tmp_path / f"first{number}" / "public", kept))] == []


def test_a_new_full_year_is_added_to_the_averages(
    published: list[Published], tmp_path: Path, monkeypatch: pytest.MonkeyPatch
) -> None:
    """With December a year has an average; the lines of the years before stay."""
    tables = [publication for publication in sorted(published) if publication.listed.month <= "2026-12"]
    out, kept = written(tables[:-1], CONFIG, tmp_path / "public"), tmp_path / "kept.json"
    keep(out, kept)
    computed = set[int]()

    def counted(series: Series, code: str, year: int) -> Optional[Ratio]:
        computed.add(year)
        return average(series, code, year)

    monkeypatch.setattr(tidy, "average", counted)
    written(tables, CONFIG, out)
    assert computed == {2026}
    assert [*differences(out, anew(tables, CONFIG, tmp_path / "first" / "public", kept))] == []


def test_a_file_that_isnt_as_it_was_written_gets_all_its_lines(
    published: list[Published], tmp_path: Path, monkeypatch: pytest.MonkeyPatch
) -> None:
    tables, kept = sorted(published), tmp_path / "kept.json"
    made = asked(monkeypatch)
    for number, name in enumerate([*OF_MONTHS, "averages.csv"]):
        out = written(tables[:-1], CONFIG, tmp_path / f"public{number}")
        keep(out, kept)
        damage(out / "data" / name)
        made.clear()
        written(tables, CONFIG, out)
        assert (len(made["lines"]) > 1) == (name == "cpi.csv"), name
        assert (len(made[PRINTED.name]) > 1) == (name == "printed.csv"), name
        assert [*differences(out, anew(tables, CONFIG, tmp_path / f"first{number}" / "public", kept))] == []


def retitled(one: Published) -> Published:
    """The table with another title of rice."""
    assert b'"Rice, packed"' in one.table
    return Published(one.listed, one.table.replace(b'"Rice, packed"', b'"Rice, in bags"'))


@pytest.mark.parametrize("change", ["a title", "a revision", "the reference period", "safe", "provisional", "the tool"])
def test_what_lines_are_made_of_makes_them_anew(
    published: list[Published], tmp_path: Path, monkeypatch: pytest.MonkeyPatch, change: str
) -> None:
    tables, config = sorted(published), CONFIG
    out, kept = written(tables[:-1], CONFIG, tmp_path / "public"), tmp_path / "kept.json"
    keep(out, kept)
    if change == "a title":
        tables = [*tables[:-1], retitled(tables[-1])]
    elif change == "a revision":
        old = next(table for table in tables if table.listed.month == "2027-02")
        tables = sorted([*tables, revised(old, "01.1.1.1-01")])
    elif change == "the reference period":
        config = config._replace(reference="2026")
    elif change == "provisional":
        config = config._replace(provisional=2)
    elif change == "the tool":
        monkeypatch.setattr(years, "tool", lambda: "another")
    made = asked(monkeypatch)
    with formulas_told("publish", True) if change == "safe" else contextlib.nullcontext():
        written(tables, config, out)
        months = {table.listed.month for table in tables if table.listed.month > "2026-12"}
        assert months <= made["lines"] and months <= made[PRINTED.name]
        assert [*differences(out, anew(tables, config, tmp_path / "first" / "public", kept))] == []


def test_a_formula_in_a_line_that_is_kept_is_told(
    published: list[Published], tmp_path: Path, capsys: pytest.CaptureFixture[str]
) -> None:
    """A title that only tables of earlier months have, in lines that the pack before wrote."""
    tables = sorted(published)
    old = next(number for number, table in enumerate(tables) if table.listed.month == "2027-02")
    tables[old] = Published(tables[old].listed, tables[old].table.replace(b'"Rice, packed"', b"=1+1"))
    out = tmp_path / "public"
    for some in (tables[:-1], tables):
        with formulas_told("publish", False):
            written(some, CONFIG, out)
        assert "would compute 2 texts, such as '=1+1'" in capsys.readouterr().err


def test_odd_notes_of_what_was_made_keep_nothing(published: list[Published], tmp_path: Path) -> None:
    tables = sorted(published)
    out, kept = written(tables[:-1], CONFIG, tmp_path / "public"), tmp_path / "kept.json"
    keep(out, kept)
    made, sums = out / "data/years/made.json", (out / "SHA256SUMS").read_text(encoding="utf-8")
    months = next(name for name in json.loads(made.read_bytes()) if "/" in name)
    assert months == "2027-01/2027-04"
    for odd in (
        [],
        {months: None},
        {months: []},
        {months: ["0"]},
        {months: [0, [1]]},
        {months: ["0", [["2027-04", 1]]]},
    ):
        made.write_text(json.dumps(odd), encoding="utf-8")
        its_sum = hashlib.sha256(made.read_bytes()).hexdigest()
        told = re.sub("[0-9a-f]{64}(?=  data/years/made.json)", its_sum, sums)
        (out / "SHA256SUMS").write_text(told, encoding="utf-8")
        assert next(kept_of(tables, out), None) is None
    written(tables, CONFIG, out)
    assert [*differences(out, anew(tables, CONFIG, tmp_path / "first" / "public", kept))] == []


def kept_of(tables: list[Published], out: Path) -> Iterator[str]:
    """Up to which month the files of a pack are of use for some tables."""
    series = series_of(tables, CONFIG.specials)
    span = years.Span(years.first_of(series, CONFIG.years), series.every[-1])
    structure = structure_of(series, CONFIG, Versions())
    found = years.Archives(series, Shown(series, CONFIG.reference), CONFIG, structure, Before(out), span).kept.to
    yield from [found] if found else []


def test_the_tool_is_another_one_with_other_catalogues(tmp_path: Path, monkeypatch: pytest.MonkeyPatch) -> None:
    """Forms of data have texts of the catalogues, and months by the package of CLDR."""
    found = [years.tool.__wrapped__()]
    shutil.copytree(PO, tmp_path / "po")
    monkeypatch.setattr(years, "PO", tmp_path / "po")
    assert years.tool.__wrapped__() == found[0]
    (tmp_path / "po/fr.po").write_bytes((tmp_path / "po/fr.po").read_bytes() + b"\n")
    found.append(years.tool.__wrapped__())
    monkeypatch.setattr(years, "names_by", lambda: "another")
    assert len({*found, years.tool.__wrapped__()}) == 3


def test_a_title_with_an_end_of_line_hides_no_line(published: list[Published], tmp_path: Path) -> None:
    title = b'"Rice\n2027-01,1,x"'
    tables = sorted(
        Published(publication.listed, publication.table.replace(b'"Rice, packed"', title)) for publication in published
    )
    assert title in tables[-1].table
    out, kept = written(tables[:-1], CONFIG, tmp_path / "public"), tmp_path / "kept.json"
    keep(out, kept)
    written(tables, CONFIG, out)
    assert [*differences(out, anew(tables, CONFIG, tmp_path / "first" / "public", kept))] == []


def test_a_whole_check_makes_the_archives_anew(published: list[Published], tmp_path: Path) -> None:
    out = written(published, CONFIG, tmp_path / "public")
    assert check(published, CONFIG, out, None, quiet) == []
    damage(out / ARCHIVES[0])
    assert check(published, CONFIG, out, None, quiet) == [f"{ARCHIVES[0]} differs"]


def damage(path: Path) -> None:
    """Changes a byte of a file, as a bad disk does."""
    data = bytearray(path.read_bytes())
    data[len(data) // 2] ^= 1
    path.write_bytes(data)


@pytest.mark.parametrize(
    "name",
    [ARCHIVES[0], "data/years/made.json", "SHA256SUMS", "data/tables/2025-03-r1.csv", "node/01.1.1.1-01.csv"],
)
def test_what_isnt_as_it_was_written_is_made_anew(published: list[Published], tmp_path: Path, name: str) -> None:
    out = written(published, CONFIG, tmp_path / "public")
    before = {each: (out / each).read_bytes() for each in files_of(out)}
    damage(out / name)
    written(published, CONFIG, out)
    now = {each: (out / each).read_bytes() for each in files_of(out)}
    apart = {each for each in before.keys() | now.keys() if before.get(each) != now.get(each)}
    # (what changed can't be known without the archive, which a row says)
    assert apart == ({"manifest.json", "SHA256SUMS"} if name in ARCHIVES else set())
    if name in ARCHIVES:
        assert json.loads(now["manifest.json"])["changes"][-1]["replaced"] is None
    assert check(published, CONFIG, out, None, quiet) == []


def test_another_version_of_the_tool_takes_nothing(
    published: list[Published], tmp_path: Path, monkeypatch: pytest.MonkeyPatch
) -> None:
    out = written(published, CONFIG, tmp_path / "public")
    before = inodes(out, ARCHIVES)
    written(published, CONFIG, out)
    assert inodes(out, ARCHIVES) == before
    monkeypatch.setattr(years, "tool", lambda: "another")
    written(published, CONFIG, out)
    assert not {*inodes(out, ARCHIVES)} & {*before}


def test_without_links_files_are_copied(
    published: list[Published], tmp_path: Path, monkeypatch: pytest.MonkeyPatch
) -> None:
    out = written(published, CONFIG, tmp_path / "public")
    before = inodes(out, ARCHIVES)

    def refused(*_: object, **__: object) -> None:
        raise PermissionError(1, "Operation not permitted")

    monkeypatch.setattr(os, "link", refused)
    monkeypatch.setattr(years.Archives, "_write", refused)
    written(published, CONFIG, out)
    assert not {*inodes(out, ARCHIVES)} & {*before}
    monkeypatch.undo()
    assert check(published, CONFIG, out, None, quiet) == []


RUN = """
import pickle, sys
from pathlib import Path
sys.path[:0] = [{tools!r}]
from cpi_tools.publish.figures.config import Config
from cpi_tools.publish.pack import publish
published, config, out = pickle.load(sys.stdin.buffer)
def now(what):
    print(what, flush=True)
publish(published, config, out, None, now)
"""


@pytest.mark.parametrize("step", ["what each month", "CSV files", "JSON-stat", "pages, 1 of", "pages, 20 of", "sums"])
def test_a_pack_stays_whole_when_the_next_one_is_killed(published: list[Published], tmp_path: Path, step: str) -> None:
    import pickle

    out = written(published[:-1], CONFIG, tmp_path / "public")
    words = [sys.executable, "-B", "-c", RUN.format(tools=str(ROOT / "tools"))]
    with subprocess.Popen(words, stdin=subprocess.PIPE, stdout=subprocess.PIPE) as process:
        assert process.stdin and process.stdout
        process.stdin.write(pickle.dumps((published, CONFIG, out)))
        process.stdin.close()
        next(line for line in process.stdout if line.decode().startswith(step))
        process.send_signal(signal.SIGKILL)
    ran = subprocess.run(["sha256sum", "--check", "--quiet", "SHA256SUMS"], cwd=out, capture_output=True, check=False)
    assert ran.returncode == 0, ran.stdout.decode()
    assert check(published[:-1], CONFIG, out, None, quiet) == []
    written(published, CONFIG, out)
    assert check(published, CONFIG, out, None, quiet) == []

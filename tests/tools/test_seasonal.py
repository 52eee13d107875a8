"""Seasonal adjustment as an exchange: the forms that go out, what comes back against what was adjusted, and what stays."""

from __future__ import annotations

import csv
import json
import re
import shutil
import sqlite3
import stat
from collections.abc import Callable, Mapping
from fractions import Fraction
from pathlib import Path

import pytest

from cpi_tools.office.folders import files_of
from cpi_tools.office.program import Cpi
from cpi_tools.office.public import Published
from cpi_tools.publish.figures.aggregated import series_of
from cpi_tools.publish.figures.config import Config, read_config
from cpi_tools.publish.figures.figures import Known
from cpi_tools.publish.figures.measures import Contributions
from cpi_tools.publish.figures.announcements import Reason
from cpi_tools.publish.figures.seasonal_series import (
    BadSeasonal,
    Method,
    Seasonal,
    methods_of,
    read_values,
    series_of_office,
)
from cpi_tools.publish.figures.shown_figures import Shown
from cpi_tools.publish.figures.specials import Special
from cpi_tools.publish.forms.published_sets import OtherSeasonal
from cpi_tools.publish.pack import check, publish
from cpi_tools.publish.seasonal import Levels, NoStl, adjusted_by_stl, exchange_of, levels_of, write_exchange
from cpi_tools.publish.site.site_pages import SeasonalPage
from cpi_tools.text.languages import speech_of
from .published import Office
from .ran import Ran, rows_of, run
from .test_site import words_of

FUEL = Special("FUEL", "Fuels", ("07",))
X13 = Method("00", "sa.csv", "x11", "X-13ARIMA-SEATS", "1.1.60", "airline model, trading days", 12, 2)
DEMETRA = Method("FUEL", "sa.csv", "seats", "JDemetra+", "3.2.4", "RSA4c", 6, 3)
CONFIG = Config(
    "NSO", "XX", "Office of prices", specials=(FUEL,), reference="2025", without=frozenset({"pictures", "slices"})
)
LAST = "2027-05"
"""The last month that is out."""

ADDED = 1_600_000_000
UP, DOWN = Fraction(101, 100), Fraction(99, 100)


def factor_of(month: str) -> Fraction:
    """What a level is divided by: the mean of a year hardly moves."""
    return UP if int(month[5:]) % 2 else DOWN


def text_of(value: Fraction) -> str:
    """With six decimals, halves upwards."""
    units = int(value * 10**6 + Fraction(1, 2))
    return f"{units // 10**6}.{units % 10**6:06}"


def put_adjusted(folder: Path, factor: Callable[[str], Fraction] = factor_of) -> None:
    """Adjusts what is in `series.csv`, as a program would that has these factors, into `sa.csv`."""
    rows = rows_of(folder / "series.csv")
    with (folder / "sa.csv").open("w", encoding="utf-8", newline="") as file:
        out = csv.DictWriter(file, [*rows[0]])
        out.writeheader()
        for row in rows:
            levels = {name: cell for name, cell in row.items() if name != "month" and cell}
            texts = {name: text_of(Fraction(cell) / factor(row["month"][:7])) for name, cell in levels.items()}
            out.writerow({"month": row["month"], **texts})


def exchanged(
    published: list[Published],
    folder: Path,
    config: Config = CONFIG,
    factor: Callable[[str], Fraction] = factor_of,
    methods: tuple[Method, ...] = (X13, DEMETRA),
) -> Config:
    """The configuration with a folder whose series were written by some tables, and adjusted."""
    folder.mkdir(exist_ok=True)
    seasonal = Seasonal(folder, methods)
    series = series_of(published, config.specials)
    write_exchange(seasonal, levels_of(seasonal, series, Shown(series, config.reference)), False, 0o644)
    put_adjusted(folder, factor)
    return config._replace(seasonal=seasonal)


def put(published: list[Published], out: Path, config: Config) -> list[str]:
    told: list[str] = []
    publish(published, config, out, None, lambda _: None, tell=told.append)
    return told


def up_to(published: list[Published], month: str) -> list[Published]:
    return [publication for publication in published if publication.listed.month <= month]


@pytest.fixture(scope="module")
def first(published: list[Published], tmp_path_factory: pytest.TempPathFactory) -> tuple[Path, Config]:
    """A pack up to March 2027, and its configuration."""
    room = tmp_path_factory.mktemp("seasonal")
    tables = up_to(published, "2027-03")
    config = exchanged(tables, room / "seasonal")
    assert put(tables, room / "public", config) == []
    return room / "public", config


@pytest.fixture
def pack(first: tuple[Path, Config], tmp_path: Path) -> Path:
    """A copy of it."""
    shutil.copytree(first[0], tmp_path / "public")
    return tmp_path / "public"


# ---- what goes out


def test_the_forms_are_those_that_the_programs_read() -> None:
    """Written by the reference manual of X-13ARIMA-SEATS (series: format datevalue; metafile) and JDemetra+'s text files."""
    exchange = exchange_of(
        [
            Levels("00", 'All "items" {x}', "x11", {"2026-12": "101.200000", "2027-01": "102.000000"}),
            Levels("FUEL", "Carburants à " + "y" * 90, "seats", {"2027-01": "100.500000"}),
        ]
    )
    assert exchange.anew == {
        "series.csv": b"month,00,FUEL\n2026-12-01,101.200000,\n2027-01-01,102.000000,100.500000\n",
        "series.mta": b"00\nFUEL\n",
        "00.dat": b"2026 12 101.200000\n2027 1 102.000000\n",
        "FUEL.dat": b"2027 1 100.500000\n",
    }
    spec = exchange.once["00.spc"].decode()
    assert 'title = "00 All  items   x"' in spec and 'file = "00.dat"' in spec and "x11{ save = (d11) }" in spec
    other = exchange.once["FUEL.spc"].decode()
    assert "seats{ save = (s11) }" in other and other.isascii()
    assert max(len(element) for element in re.findall('title = "(.*)"', other)) == 79


def test_a_specification_with_the_settings_of_the_office_stays(published: list[Published], tmp_path: Path) -> None:
    config = exchanged(published, tmp_path / "s")
    assert config.seasonal
    (tmp_path / "s/00.spc").write_text("series{ own = settings }\n")
    (tmp_path / "s/00.dat").write_text("old\n")
    series = series_of(published, CONFIG.specials)
    levels = levels_of(config.seasonal, series, Shown(series, "2025"))
    assert write_exchange(config.seasonal, levels, False, 0o644) == ["00.spc", "FUEL.spc"]
    assert (tmp_path / "s/00.spc").read_text() == "series{ own = settings }\n"
    lines = (tmp_path / "s/00.dat").read_text().splitlines()
    assert lines[0].startswith("2025 1 ") and lines[-1].startswith("2027 5 ") and len(lines) == 29


def test_levels_are_the_published_ones_of_the_reference_period(first: tuple[Path, Config]) -> None:
    pack, config = first
    assert config.seasonal
    published = {
        (row["month"], row["code"]): row["rereferenced"] for row in rows_of(pack / "data/rereferenced.csv")
    } | {(row["month"], row["code"]): "" for row in rows_of(pack / "data/aggregates.csv")}
    rows = rows_of(config.seasonal.folder / "series.csv")
    assert [row["month"][:7] for row in rows] == sorted({month for month, code in published if code == "00"})
    assert all(row["00"] == published[row["month"][:7], "00"] for row in rows)


# ---- what comes back


@pytest.mark.parametrize(
    ("name", "text"),
    [
        ("sa.csv", "month,07,00\n2026-12,1,101.25\n2027-01,2,99.1234565\n"),
        ("sa.csv", "\ufeffmonth;00;07\r\n2026-12-01;101,25;1\r\n2027-01-31;99,1234565;2\r\n"),
        ("sa.txt", "\t00\n2026-12-31\t101.25\n2027-01-31\t99.1234565\n"),
        ("sa.csv", "month,00\n2026-11,\n2026-12,+1.0125E+02\n\n2027-01,0.991234565e2\n"),
        ("00.d11", "date\t00.d11\n------\t-----------------------\n202612\t+0.101250000000000E+03\n202701\t+0.991234565000000E+02\n"),
        ("00.s11", "date\t00.s11\n------\t------\n202612\t101.25\n202701\t99.1234565\n"),
    ],
)  # fmt: skip
def test_each_form_is_read_exactly(name: str, text: str, tmp_path: Path) -> None:
    """99.1234565 is rounded upwards to 99.123457."""
    (tmp_path / name).write_text(text, newline="")
    values = read_values(tmp_path / name, "00")
    assert {month: value.millionths for month, value in values.items()} == {
        "2026-12": 101_250_000,
        "2027-01": 99_123_457,
    }


@pytest.mark.parametrize(
    ("name", "text", "says"),
    [
        ("sa.csv", "month,07\n2026-12,1\n", "sa.csv, line 1: it has no column 00 after one of months; it has month, 07"),
        ("sa.csv", "month,00,00\n2026-12,1,1\n", "sa.csv, line 1: it has two columns 00"),
        ("sa.csv", "00,07\n2026-12,1\n", "sa.csv, line 1: it has no column 00 after one of months"),
        ("sa.csv", "month,00\nDec-26,1\n", "sa.csv, line 2: Dec-26 is no month such as 2026-01 or 2026-01-01"),
        ("sa.csv", "month,00\n2026-13-01,1\n", "sa.csv, line 2: 2026-13-01 is no month"),
        ("sa.csv", "month,00\n2026-12,1\n2026-12-31,2\n", "sa.csv, line 3: 2026-12 is there a second time, after line 2"),
        ("sa.csv", "month,00\n2026-12,n/a\n", "sa.csv, line 2: n/a of 00 is no index above 0"),
        ("sa.csv", "month,00\n2026-12,-1.5\n", "sa.csv, line 2: -1.5 of 00 is no index above 0"),
        ("sa.csv", "month,00\n2026-12,0.0000001\n", "sa.csv, line 2: 0.0000001 of 00 is no index above 0"),
        ("sa.csv", "month,00\n2026-12,1e99\n", "sa.csv, line 2: 1e99 of 00 is no index above 0"),
        ("sa.csv", "month,00\n2026-12,1,5\n", "sa.csv, line 2: 3 cells, and not 2"),
        ("00.d11", "month,00\n2026-12,1\n", "00.d11, line 1: it isn't a table that X-13ARIMA-SEATS saved"),
        ("00.d11", "date\t00.d11\n---\t---\n202612\n", "00.d11, line 3: 1 columns, and not a month and a figure"),
        ("00.d11", "date\t00.d11\n---\t---\n202600\t1\n", "00.d11, line 3: 202600 is no month"),
    ],
)  # fmt: skip
def test_a_fault_of_a_file_names_the_line(name: str, text: str, says: str, tmp_path: Path) -> None:
    (tmp_path / name).write_text(text)
    with pytest.raises(BadSeasonal) as told:
        read_values(tmp_path / name, "00")
    assert says in str(told.value) and "\n" not in str(told.value)


def test_a_file_that_isn_t_there_is_a_fault(tmp_path: Path) -> None:
    with pytest.raises(BadSeasonal, match="sa.csv: No such file"):
        read_values(tmp_path / "sa.csv", "00")
    (tmp_path / "sa.csv").write_bytes(b"month,00\n2026-12,\xe9\n")
    with pytest.raises(BadSeasonal, match="sa.csv isn't UTF-8"):
        read_values(tmp_path / "sa.csv", "00")


def changed(folder: Path, name: str, edit: Callable[[list[str]], list[str]]) -> None:
    """Edits the lines of a file."""
    path = folder / name
    path.write_text("\n".join(edit(path.read_text().splitlines())) + "\n")


def with_cell(lines: list[str], month: str, column: int, text: str) -> list[str]:
    """The lines with another text in a row."""
    cell = []
    for line in lines:
        cells = line.split(",")
        if cells[0].startswith(month):
            cells[column] = text
        cell.append(",".join(cells))
    assert cell != lines
    return cell


FAULTS: Mapping[str, tuple[str, Callable[[list[str]], list[str]], str]] = {
    "a month more": (
        "sa.csv", lambda it: [*it, "2027-06-01,100,100"],
        r"sa.csv, line 31: 00 has 2027-06, which series.csv hasn't"),
    "a month less": ("sa.csv", lambda it: it[:-1], r"sa.csv: 00 has nothing in 2027-05, which series.csv has"),
    "a gap": (
        "sa.csv", lambda it: with_cell(it, "2026-02", 2, ""),
        r"sa.csv: FUEL has nothing in 2026-02, which series.csv has"),
    "another level": (
        "series.csv", lambda it: with_cell(it, "2026-03", 1, "99.5"),
        r"series.csv, line 16: 00 was 99.500000 in 2026-03 when it was adjusted, and [0-9.]+ is published"),
    "a level that isn't published": (
        "series.csv", lambda it: [*it, "2027-06-01,100,100"],
        r"series.csv, line 31: 00 has no published index in 2027-06"),
    "a gap of levels": (
        "series.csv", lambda it: with_cell(it, "2026-03", 1, ""),
        r"series.csv: 00 has nothing in 2026-03, which is published"),
    "another base": (
        "sa.csv", lambda it: [it[0], *(",".join([row.split(",")[0], str(float(row.split(",")[1]) * 1.5), row.split(",")[2]]) for row in it[1:])],
        r"sa.csv, lines 2 to 13: the mean of 00 in 2025 is 15[0-9.]+, and 100.0[0-9]+ before it was adjusted: wanted is at most 2"),
    "a figure ten times as large": (
        "sa.csv", lambda it: with_cell(it, "2027-05", 1, "1042.5"),
        r"sa.csv, line 30: 00 is 1042.500000 in 2027-05, and [0-9.]+ before it was adjusted: wanted is between half"),
}  # fmt: skip


@pytest.mark.parametrize("name", FAULTS)
def test_a_series_that_isn_t_of_what_is_published_is_refused(
    name: str, published: list[Published], tmp_path: Path
) -> None:
    """The folder as it came is taken; with one edit it is refused, with its file and line, and nothing is written."""
    file, edit, says = FAULTS[name]
    config = exchanged(published, tmp_path / "s")
    series = series_of(published, CONFIG.specials)
    assert config.seasonal and len(series_of_office(config.seasonal, series, Shown(series, "2025"))) == 2
    changed(tmp_path / "s", file, edit)
    with pytest.raises(BadSeasonal, match=says):
        put(published, tmp_path / "public", config)
    assert not (tmp_path / "public").exists()


def test_another_reference_period_is_found(published: list[Published], tmp_path: Path) -> None:
    config = exchanged(published, tmp_path / "s", CONFIG._replace(reference=""))
    with pytest.raises(BadSeasonal, match=r"series.csv, line 2: 00 was [0-9.]+ in 2025-01 when it was adjusted, and"):
        put(published, tmp_path / "public", config._replace(reference="2025"))


def test_a_series_that_isn_t_in_the_index_is_refused(published: list[Published], tmp_path: Path) -> None:
    """Flour left in 2026; there was never a division 05."""
    for code, says in (("01.1.1.2", "isn't in the index of 2027-05"), ("05", "is no item of the index")):
        with pytest.raises(BadSeasonal, match=f"methods.csv, row 2: {code} {says}"):
            exchanged(published, tmp_path / "s", methods=(X13._replace(code=code),))


# ---- the pack


def test_each_figure_is_the_one_that_came_back(first: tuple[Path, Config]) -> None:
    pack, config = first
    assert config.seasonal
    levels = rows_of(config.seasonal.folder / "series.csv")
    rows = {(row["code"], row["month"]): row for row in rows_of(pack / "data/seasonal.csv")}
    assert len(rows) == 2 * 27
    for code in ("00", "FUEL"):
        then: Fraction | None = None
        for level in levels:
            month = level["month"][:7]
            adjusted = Fraction(text_of(Fraction(level[code]) / factor_of(month)))
            row = rows[code, month]
            assert (row["index"], Fraction(row["adjusted"])) == (level[code], adjusted)
            if then is None:
                assert row["month_change"] == ""
            else:
                assert abs(Fraction(row["month_change"]) - 100 * (adjusted / then - 1)) <= Fraction(1, 20)
            then = adjusted
    row = rows["00", "2027-03"]
    assert [row[name] for name in ("method", "software", "version", "settings", "window")] == [
        "X-11", "X-13ARIMA-SEATS", "1.1.60", "airline model, trading days", "12"]  # fmt: skip
    assert not (pack / "data/seasonal-vintages.csv").exists()


def test_pages_say_what_made_them_and_that_they_are_not_for_contracts(first: tuple[Path, Config]) -> None:
    pack, _ = first
    page, home = words_of(pack / "seasonal.html"), words_of(pack / "index.html")
    row = next(row for row in rows_of(pack / "data/seasonal.csv") if (row["code"], row["month"]) == ("00", "2027-03"))
    change = row["month_change"].replace("-", "\u2212") if row["month_change"][0] == "-" else f"+{row['month_change']}"
    level = f"{Fraction(row['adjusted']).__round__(1):}"
    assert "X-11 with X-13ARIMA-SEATS 1.1.60 and the settings airline model, trading days" in page
    assert "SEATS with JDemetra+ 3.2.4" in page and "may revise the last 6 months" in page
    assert "aren't meant for contracts" in page and "not for contracts" in home and "Seasonally adjusted" in home
    assert Fraction(level).limit_denominator(10) == Fraction(level) and change in page and change in home
    assert "analytical" not in page
    data = (pack / "data.html").read_text()
    assert 'href="data/seasonal.csv"' in data and "seasonal-vintages" not in data
    described = json.loads((pack / "data/csv-metadata.json").read_text())
    (own,) = [table for table in described["tables"] if table["url"] == "seasonal.csv"]
    assert own["tableSchema"]["primaryKey"] == ["month", "code"]
    assert all("dc:description" in column for column in own["tableSchema"]["columns"])


def test_an_office_without_them_has_none_of_it(
    published: list[Published], first: tuple[Path, Config], tmp_path: Path
) -> None:
    pack, config = first
    put(up_to(published, "2027-03"), tmp_path / "public", config._replace(seasonal=None))
    without = tmp_path / "public"
    assert {*files_of(pack)} - {*files_of(without)} == {"data/seasonal.csv", "seasonal.html"}
    others = {name for name in files_of(without) if (without / name).read_bytes() != (pack / name).read_bytes()}
    described = ("csv-metadata.json", "catalog.jsonld", "data.html", "manifest.json", "index.html", "SHA256SUMS")
    assert {name for name in others if not name.endswith(described)} == set()
    assert "seasonal" not in (without / "manifest.json").read_text() + (without / "index.html").read_text()


def test_figures_by_stl_are_called_analytical(published: list[Published], tmp_path: Path) -> None:
    of = X13._replace(method="stl", software="R", version="4.2.2", settings="log periodic")
    config = exchanged(published, tmp_path / "s", methods=(of, DEMETRA))
    put(published, tmp_path / "public", config)
    page = words_of(tmp_path / "public/seasonal.html")
    assert page.count("These are analytical figures") == 1 and "STL with R 4.2.2 and the settings log periodic" in page
    assert "analytical" in words_of(tmp_path / "public/index.html")


def test_what_made_them_stays_in_its_order_in_arabic(published: list[Published], tmp_path: Path) -> None:
    """A version with the name before it would be turned round: each is isolated, from left to right."""
    config = exchanged(published, tmp_path / "s")
    assert config.seasonal
    series = series_of(published, CONFIG.specials)
    shown = Shown(series, "2025")
    series.seasonal = series_of_office(config.seasonal, series, shown)
    known = Known(series, Contributions(series), shown.spoken(speech_of("ar")))
    says = SeasonalPage(known, known, []).lines[0].says
    assert "\u2068X-13ARIMA-SEATS\u2069" in says and "airline" in says and says[0] != "X"


def test_one_file_of_sqlite_has_them(published: list[Published], tmp_path: Path) -> None:
    config = exchanged(published, tmp_path / "s", CONFIG._replace(also=frozenset({"sqlite"})))
    put(published, tmp_path / "public", config)
    link = sqlite3.connect(tmp_path / "public/data/cpi.sqlite")
    found = link.execute("SELECT adjusted, software FROM seasonal WHERE code = '00' AND month = ?", [LAST]).fetchall()
    link.close()
    (row,) = [
        row for row in rows_of(tmp_path / "public/data/seasonal.csv") if (row["code"], row["month"]) == ("00", LAST)
    ]
    assert found == [(float(row["adjusted"]), "X-13ARIMA-SEATS")]


# ---- what was published


def later_factor(since: str) -> Callable[[str], Fraction]:
    """Factors that are others from a month on."""
    return lambda month: factor_of(month) * (Fraction(1002, 1000) if month >= since else 1)


def test_the_last_months_change_with_a_new_table_and_the_old_figures_stay(
    published: list[Published], first: tuple[Path, Config], pack: Path
) -> None:
    """The window of 00 is 12 months up to 2027-03, so 2026-04 is the first that may change, and that of FUEL is 6."""
    then = {(row["code"], row["month"]): row for row in rows_of(pack / "data/seasonal.csv")}
    tables = up_to(published, "2027-04")
    later = exchanged(tables, pack.parent / "later", factor=later_factor("2026-10"))
    put(tables, pack, later)
    now = {(row["code"], row["month"]): row for row in rows_of(pack / "data/seasonal.csv")}
    moved = {key for key in then if then[key]["adjusted"] != now[key]["adjusted"]}
    assert moved == {(code, month) for code, month in then if month >= "2026-10"} and len(moved) == 12
    vintages = rows_of(pack / "data/seasonal-vintages.csv")
    assert {(row["code"], row["month"]) for row in vintages} == moved
    for row in vintages:
        before, after = then[row["code"], row["month"]], now[row["code"], row["month"]]
        assert {name: row[name] for name in before} == before
        assert row["published"] == before["published"] < row["superseded"] == after["published"]
    for key in {*then} - moved:
        assert now[key] == then[key]
    # (once more over itself, and checked, all is the same)
    kept = {name: (pack / name).read_bytes() for name in files_of(pack)}
    put(tables, pack, later)
    assert {name: (pack / name).read_bytes() for name in files_of(pack)} == kept
    assert check(tables, later, pack, None, lambda _: None) == []
    # (a month later those of before are still there)
    last = exchanged(published, pack.parent / "last", factor=later_factor("2027-01"))
    with pytest.raises(OtherSeasonal, match=r"^FUEL, 2026-10: .* it isn't of the last 6 months, which was the window"):
        put(published, pack, last)
    put(published, pack, exchanged(published, pack.parent / "last", factor=later_factor("2026-10")))
    assert rows_of(pack / "data/seasonal-vintages.csv")[: len(vintages)] == vintages
    assert "seasonal-vintages.csv" in (pack / "data.html").read_text()


def test_a_figure_before_the_window_is_refused_with_both_figures(
    published: list[Published], first: tuple[Path, Config], pack: Path
) -> None:
    tables = up_to(published, "2027-04")
    kept = {name: (pack / name).read_bytes() for name in files_of(pack)}
    config = exchanged(tables, pack.parent / "later", factor=later_factor("2026-03"))
    says = r"^00, 2026-03: [0-9.]+ was published as adjusted, and [0-9.]+ is given now: it isn't of the last 12 months"
    with pytest.raises(OtherSeasonal, match=says + r".*\(seasonal,2,\.\.\)$"):
        put(tables, pack, config)
    assert {name: (pack / name).read_bytes() for name in files_of(pack)} == kept
    why = Reason("seasonal", 2, "A model was chosen anew", ADDED)
    put(tables, pack, config._replace(reasons=(why,)))
    assert "A model was chosen anew" in words_of(pack / "seasonal.html")
    months = {row["month"] for row in rows_of(pack / "data/seasonal-vintages.csv")}
    assert min(months) == "2026-03"
    # (one reason is for one change)
    again = exchanged(tables, pack.parent / "later", factor=later_factor("2026-02"))
    with pytest.raises(OtherSeasonal, match=r"^00, 2026-02: .*\(seasonal,3,\.\.\)$"):
        put(tables, pack, again._replace(reasons=(why,)))


def test_over_the_same_tables_nothing_changes_without_a_reason(
    published: list[Published], first: tuple[Path, Config], pack: Path
) -> None:
    tables = up_to(published, "2027-03")
    config = exchanged(tables, pack.parent / "later", factor=later_factor("2027-03"))
    with pytest.raises(OtherSeasonal, match="^00, 2027-03: .*: no later table is out; put it back, or say why"):
        put(tables, pack, config)


def test_what_is_gone_is_refused(published: list[Published], first: tuple[Path, Config], pack: Path) -> None:
    tables = up_to(published, "2027-04")
    for config in (
        exchanged(tables, pack.parent / "later", methods=(X13,)),
        CONFIG,
    ):
        with pytest.raises(OtherSeasonal, match="no figure is given now: a published figure stays"):
            put(tables, pack, config)
    why = Reason("seasonal", 2, "Adjusted by another office from now on", ADDED)
    put(tables, pack, CONFIG._replace(reasons=(why,)))
    assert not (pack / "data/seasonal.csv").exists() and not (pack / "seasonal.html").exists()
    assert len(rows_of(pack / "data/seasonal-vintages.csv")) == 2 * 27
    # (and what was published goes on from pack to pack)
    put(published, pack, CONFIG._replace(reasons=(why,)))
    assert len(rows_of(pack / "data/seasonal-vintages.csv")) == 2 * 27


def test_a_series_that_isn_t_adjusted_yet_is_published_up_to_its_month_and_a_line_says_so(
    published: list[Published], first: tuple[Path, Config], pack: Path
) -> None:
    """A release doesn't wait for the adjustment."""
    told = put(up_to(published, "2027-04"), pack, first[1])
    assert [line for line in told if "adjusted" in line] == [
        f"{code} is adjusted up to 2027-03, and the index is of 2027-04: cpi-tools seasonal" for code in ("00", "FUEL")
    ]
    assert max(row["month"] for row in rows_of(pack / "data/seasonal.csv")) == "2027-03"


def test_files_that_are_none_are_faults(published: list[Published], first: tuple[Path, Config], pack: Path) -> None:
    tables = up_to(published, "2027-03")
    (pack / "data/seasonal.csv").write_text("month,code\n2027-03,00\n")
    with pytest.raises(OtherSeasonal, match="seasonal.csv can't be read: its columns are month, code"):
        put(tables, pack, first[1])
    (pack / "data/seasonal.csv").unlink()
    with pytest.raises(OtherSeasonal, match="seasonal.csv isn't there, and its manifest names adjusted series"):
        put(tables, pack, first[1])


# ---- the list, and the tool

HEAD = ["code", "file", "method", "software", "version", "settings", "window"]
GOOD = ["00", "sa.csv", "x11", "X-13", "1.1", "default", "36"]


@pytest.mark.parametrize(
    ("at", "text", "says"),
    [
        (0, "0", "row 2: 0 is no code of an item, nor the id of a set"),
        (1, "../sa.csv", "row 2: ../sa.csv is no name of a file"),
        (1, "series.csv", "row 2: series.csv is no name of a file"),
        (2, "x12", "row 2: the method of 00 is x12, and none of x11, seats, stl"),
        (3, "", "row 2: software of 00 has 0 letters"),
        (5, "x" * 201, "row 2: settings of 00 has 201 letters"),
        (6, "", "row 2: the window of 00 is empty"),
        (6, "601", "row 2: the window of 00 is 601"),
    ],
)
def test_a_fault_of_the_list_is_one_line(at: int, text: str, says: str) -> None:
    with pytest.raises(BadSeasonal) as told:
        methods_of([HEAD, [*GOOD[:at], text, *GOOD[at + 1 :]]])
    assert says in str(told.value) and "\n" not in str(told.value)


def test_the_list_is_read_and_named_by_the_configuration(tmp_path: Path) -> None:
    (tmp_path / "s").mkdir()
    (tmp_path / "s/methods.csv").write_text(",".join(HEAD) + "\n" + ",".join(GOOD) + "\n")
    (tmp_path / "office.ini").write_text("[office]\nagency = NSO\narea = XX\noffice = O\nseasonal = s\n")
    found = read_config(tmp_path / "office.ini").seasonal
    assert found == Seasonal(tmp_path / "s", (Method("00", "sa.csv", "x11", "X-13", "1.1", "default", 36, 2),))
    for rows, says in (([HEAD], "no series"), ([HEAD, GOOD, GOOD], "row 2: 00 has two rows"), ([GOOD], "first row")):
        with pytest.raises(BadSeasonal, match=says):
            methods_of(rows)


@pytest.fixture
def ini(tmp_path: Path) -> Path:
    """A configuration whose folder has only its list."""
    (tmp_path / "s").mkdir()
    (tmp_path / "s/methods.csv").write_text(",".join(HEAD) + "\n" + ",".join(GOOD) + "\n")
    (tmp_path / "office.ini").write_text("[office]\nagency = NSO\narea = XX\noffice = O\nseasonal = s\n")
    return tmp_path / "office.ini"


def tool(cpi: Cpi, office: Office, ini: Path, *words: object) -> Ran:
    return run(cpi, "seasonal", "--db", office.file, "--at", office.at, "--config", ini, *words)


def test_the_tool_writes_what_programs_read_and_checks_what_they_make(
    cpi: Cpi, public_office: Office, ini: Path
) -> None:
    folder = ini.parent / "s"
    assert tool(cpi, public_office, ini) == (0, f"{folder}: 1 series up to 2027-05\n", "")
    files = ["00.dat", "00.spc", "methods.csv", "series.csv", "series.mta"]
    assert files_of(folder) == files and stat.S_IMODE((folder / "00.dat").stat().st_mode) == 0o644
    says = f"{folder}: 1 series up to 2027-05; 1 specification of X-13 stayed\n"
    assert tool(cpi, public_office, ini) == (0, says, "")
    status, _, err = tool(cpi, public_office, ini, "--check")
    assert status == 1 and "sa.csv: No such file" in err and err.count("\n") == 1
    put_adjusted(folder)
    assert tool(cpi, public_office, ini, "--check") == (0, f"{folder}: 1 adjusted series up to 2027-05\n", "")
    status, _, err = tool(cpi, public_office, ini, "--stl")
    assert (status, err) == (1, "cpi-tools seasonal: --stl: no series of the list has the method stl\n")


def test_the_tool_writes_what_is_under_embargo_for_the_owner_only(cpi: Cpi, public_office: Office, ini: Path) -> None:
    later = public_office._replace(at=9_100_000_000)
    status, _, err = tool(cpi, later, ini)
    assert status == 1 and "which is still to come" in err and files_of(ini.parent / "s") == ["methods.csv"]
    status, out, _ = tool(cpi, later, ini, "--draft")
    assert (status, out) == (0, f"{ini.parent / 's'}: 1 series up to 2027-06\n")
    assert stat.S_IMODE((ini.parent / "s/series.csv").stat().st_mode) == 0o600
    ini.write_text("[office]\nagency = NSO\narea = XX\noffice = O\n")
    status, _, err = tool(cpi, public_office, ini)
    assert status == 1 and "has no folder of adjusted series (seasonal = FOLDER)" in err


# ---- by R

STL = Method("00", "stl.csv", "stl", "R", "4.2.2", "log periodic robust", 12, 2)
LEVELS = {f"{2024 + at // 12}-{at % 12 + 1:02}": f"{100 + at}.000000" for at in range(36)}


@pytest.fixture
def rscript(tmp_path: Path, monkeypatch: pytest.MonkeyPatch) -> Path:
    """A program in the place of R's, which prints what the file beside it has, and keeps its words and its input."""
    (tmp_path / "bin").mkdir()
    file = tmp_path / "bin/Rscript"
    file.write_text(f'#!/bin/sh\ncd {tmp_path}/bin\nprintf "%s\\n" "$@" > words\n/bin/cat > given\n/bin/cat printed\n')
    file.chmod(0o755)
    monkeypatch.setenv("PATH", f"{tmp_path}/bin")
    return tmp_path / "bin"


def test_r_gets_the_series_and_the_settings_that_are_named(rscript: Path, tmp_path: Path) -> None:
    (rscript / "printed").write_text("4.2.2\n" + "101.5\n" * 36)
    found = adjusted_by_stl(STL, LEVELS, tmp_path)
    assert found == {month: "101.5" for month in LEVELS}
    assert (rscript / "words").read_text().splitlines()[-5:] == ["2024", "1", "log", "periodic", "robust"]
    assert (rscript / "given").read_text().splitlines() == [*LEVELS.values()]
    adjusted_by_stl(STL._replace(settings="window=13"), LEVELS, tmp_path)
    assert (rscript / "words").read_text().splitlines()[-3:] == ["plain", "13", "plain"]


@pytest.mark.parametrize(
    ("of", "printed", "says"),
    [
        (STL._replace(settings="periodic log"), "", "and settings such as: log periodic robust"),
        (STL._replace(settings="window=8"), "", "and settings such as"),
        (STL._replace(software="X-13"), "", "has the software X-13"),
        (STL._replace(file="sa.csv"), "", "the file sa.csv"),
        (STL, "4.3.0\n" + "101.5\n" * 36, "row 2: 00 has the version 4.2.2, and R here is 4.3.0"),
        (STL, "4.2.2\n" + "101.5\n" * 35, "R gave 35 figures for 36 months"),
        (STL, "4.2.2\n" + "NaN\n" * 36, "or others than numbers above 0"),
    ],
)
def test_what_r_does_is_what_is_named(of: Method, printed: str, says: str, rscript: Path, tmp_path: Path) -> None:
    (rscript / "printed").write_text(printed)
    with pytest.raises(NoStl, match=re.escape(says)):
        adjusted_by_stl(of, LEVELS, tmp_path)


def test_a_short_series_and_a_fault_of_r_are_lines(rscript: Path, tmp_path: Path) -> None:
    with pytest.raises(NoStl, match="00 has 35 months, and stl needs 36"):
        adjusted_by_stl(STL, dict([*LEVELS.items()][1:]), tmp_path)
    (rscript / "Rscript").write_text("#!/bin/sh\necho Error: all is lost >&2\nexit 3\n")
    with pytest.raises(NoStl, match="^Rscript: Error: all is lost$"):
        adjusted_by_stl(STL, LEVELS, tmp_path)
    (rscript / "Rscript").unlink()
    (rscript / "Rscript").symlink_to("/nowhere")
    with pytest.raises(NoStl, match="isn't installed: Debian's r-base-core"):
        adjusted_by_stl(STL, LEVELS, tmp_path)

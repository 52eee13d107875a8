"""Special aggregates: each figure computed once more from the printed tables, the laws of sets, and their file."""

from __future__ import annotations

import csv
import io
import re
from collections.abc import Mapping
from fractions import Fraction
from pathlib import Path
from typing import Callable, Optional

import openpyxl
import pytest
from xml.etree import ElementTree

from cpi_tools.command_line import main
from cpi_tools.publish.figures.aggregated import series_of
from cpi_tools.publish.figures.config import Config, read_config
from cpi_tools.publish.figures.measures import Contributions
from cpi_tools.office.public import Published
from cpi_tools.publish.figures.specials import BadSpecials, Special, read_specials
from cpi_tools.office.tables import Series
from cpi_tools.office.program import Cpi
from cpi_tools.publish.pack import publish
from lib.sets import Elementary, Figures, figures, given
from .published import HIDDEN_REVISION, Office
from .test_measures import over_another_december
from .test_site import drawn_in, words_of

FILE = """\
id,title,in,out
FOOD,Food of the shops,01,
FRUIT,Fruit,01.1.6,
ENERGY,Energy,07.2.2.1,
CORE,Core: without food and energy,00,FOOD ENERGY
NORTH,The north,01.1.1.1-01 01.1.1.2-01,
SOUTH,The south,00,NORTH
EVERY,"All, once more",NORTH SOUTH,
"""
"""Two regions, sets of sets, and one that leaves and is back; core is telephones alone, which come in 2026."""

SETS: Mapping[str, Callable[[str], bool]] = {
    "FOOD": lambda code: code.startswith("01"),
    "FRUIT": lambda code: code.startswith("01.1.6"),
    "ENERGY": lambda code: code == "07.2.2.1-01",
    "CORE": lambda code: code.startswith("08"),
    "NORTH": lambda code: code.startswith("01.1.1"),
    "SOUTH": lambda code: not code.startswith("01.1.1"),
    "EVERY": lambda code: True,
}
"""The same by hand."""

HIDDEN = "2027-05"
"""The month whose changes rest on a revision under embargo; those of a set are between published levels."""


@pytest.fixture(scope="module")
def config(tmp_path_factory: pytest.TempPathFactory) -> Config:
    folder = tmp_path_factory.mktemp("config")
    (folder / "aggregates.csv").write_text(FILE, encoding="utf-8")
    (folder / "office.ini").write_text(
        "[office]\nagency = NSO\narea = XX\noffice = O\nreference = 2025\naggregates = aggregates.csv\n"
    )
    return read_config(folder / "office.ini")


@pytest.fixture(scope="module")
def pack(published: list[Published], config: Config, tmp_path_factory: pytest.TempPathFactory) -> Path:
    out = tmp_path_factory.mktemp("pack") / "public"
    publish(published, config, out, None, lambda _: None)
    return out


@pytest.fixture(scope="module")
def months(published: list[Published]) -> dict[str, dict[str, Elementary]]:
    """The elementary aggregates of the latest tables, read here."""
    elementaries: dict[str, dict[str, Elementary]] = {}
    for publication in published:
        rows = csv.reader(io.StringIO(publication.table.decode(), newline=""))
        own = {row[0]: Elementary(int(row[1]), Fraction(row[2]), row[6] == "1") for row in rows if len(row[0]) == 11}
        if own:
            elementaries[publication.listed.month] = own
    return elementaries


@pytest.fixture(scope="module")
def wanted(months: dict[str, dict[str, Elementary]]) -> dict[str, dict[str, Figures]]:
    return {name: figures(months, is_in) for name, is_in in SETS.items()}


def rows_of(path: Path) -> list[dict[str, str]]:
    with path.open(encoding="utf-8", newline="") as file:
        return list(csv.DictReader(file))


def number(text: str) -> Optional[Fraction]:
    return Fraction(text) if text else None


# ---- figures


def test_each_figure_of_the_file(pack: Path, wanted: dict[str, dict[str, Figures]]) -> None:
    rows = rows_of(pack / "data/aggregates.csv")
    assert {(row["month"], row["code"]) for row in rows} == {(at, name) for name in wanted for at in wanted[name]}
    names = ("index", "chained", "month_change", "year_change")
    for row in rows:
        it = wanted[row["code"]][row["month"]]
        assert [number(row[name]) for name in names] == [it.within, it.level, it.monthly, it.annual]
        assert (row["weight"], row["imputed"], row["base"]) == (str(it.weight), str(int(it.is_imputed)), it.base)
        assert row["depth"] == ""
    of_its_own = [{name: row[name] for name in rows[0]} for row in rows_of(pack / "node/FRUIT.csv")]
    assert of_its_own == [row for row in rows if row["code"] == "FRUIT"] and len(of_its_own) == 17


def test_each_contribution(pack: Path, months: dict[str, dict[str, Elementary]]) -> None:
    """Of each elementary aggregate to its sets, and of each set to all items: the sum of those of its aggregates."""
    half, found = Fraction(1, 2 * 10**6), rows_of(pack / "data/aggregate-contributions.csv")
    codes = {code for rows in months.values() for code in rows}
    wanted: dict[tuple[str, str, str, bool], Fraction] = {}
    for month in months:
        for name, is_in in SETS.items():
            for code in filter(is_in, codes):
                if any(is_in(each) for each in months[month]):
                    for is_annual, value in enumerate(given(months, month, code, is_in)):
                        if value is not None:
                            wanted[month, code, name, bool(is_annual)] = value
            for is_annual in (False, True):
                own = [given(months, month, code, SETS["EVERY"])[is_annual] for code in filter(is_in, codes)]
                known = [value for value in own if value is not None]
                if known:
                    wanted[month, name, "00", is_annual] = sum(known, Fraction())
    wanted = {key: value for key, value in wanted.items() if (key[0], key[3]) != (HIDDEN, False)}
    told = {
        (row["month"], row["code"], row["of"], is_annual): Fraction(row[column])
        for row in found
        for is_annual, column in ((False, "contribution_month"), (True, "contribution_year"))
        if row[column]
    }
    assert {*told} ^ {*wanted} == set() and len(told) > 800
    # (what a set gives is computed from its index, which is rounded to millionths)
    assert all(abs(told[key] - wanted[key]) <= (4 * half if key[1] in SETS else half) for key in wanted)


def test_averages_rates_and_another_reference_period(pack: Path, wanted: dict[str, dict[str, Figures]]) -> None:
    half = Fraction(1, 2 * 10**6)
    years = {year: [f"{year}-{at:02}" for at in range(1, 13)] for year in ("2025", "2026")}
    means = {
        (name, year): sum((wanted[name][month].level for month in months), Fraction()) / 12
        for name in wanted
        for year, months in years.items()
        if all(month in wanted[name] for month in months)
    }
    averages = {(row["code"], row["year"]): row for row in rows_of(pack / "data/averages.csv") if row["code"] in SETS}
    assert averages.keys() == means.keys()
    assert all(abs(Fraction(averages[key]["chained_average"]) - means[key]) <= half for key in means)
    assert averages["FOOD", "2025"]["average"] == "100.000000"
    food = 100 * (means["FOOD", "2026"] / means["FOOD", "2025"] - 1)
    assert abs(Fraction(averages["FOOD", "2026"]["change"]) - food) <= Fraction(1, 20)
    rates = {row["month"]: row for row in rows_of(pack / "data/twelve-month-rates.csv") if row["code"] == "FOOD"}
    assert Fraction(rates["2026-12"]["twelve_month_rate"]) == Fraction(averages["FOOD", "2026"]["change"])
    moved = [row for row in rows_of(pack / "data/rereferenced.csv") if row["code"] in SETS]
    assert {row["code"] for row in moved} == {name for name, year in means if year == "2025"}
    for row in moved:
        level = 100 * wanted[row["code"]][row["month"]].level / means[row["code"], "2025"]
        assert abs(Fraction(row["rereferenced"]) - level) <= half
    assert {row["month"][:4] for row in moved if row["code"] == "FRUIT"} == {"2025"}


def test_other_forms_have_the_same_figures(pack: Path, wanted: dict[str, dict[str, Figures]]) -> None:
    levels = {(month, name): it.level for name, found in wanted.items() for month, it in found.items()}
    rows = [row for row in rows_of(pack / "data/cpi.sdmx.csv") if row["COICOP18"] in SETS]
    chained = [row for row in rows if row["MEASURE"] == "CPIC"]
    told = {(row["TIME_PERIOD"], row["COICOP18"]): Fraction(row["OBS_VALUE"]) for row in chained}
    assert told == levels
    given_to_all = {(row["month"], row["code"]): row["contribution_year"]
                    for row in rows_of(pack / "data/aggregate-contributions.csv")
                    if row["of"] == "00" and row["contribution_year"]}  # fmt: skip
    of_year = [row for row in rows if (row["MEASURE"], row["TRANSFORMATION"]) == ("CTR", "GY")]
    assert {(row["TIME_PERIOD"], row["COICOP18"]): row["OBS_VALUE"] for row in of_year} == given_to_all
    named = ElementTree.parse(pack / "data/structure.sdmx.xml").iter()
    assert {*SETS} <= {element.get("id") for element in named if element.tag.endswith("}Code")}
    head, *cells = openpyxl.load_workbook(pack / "data/cpi.xlsx")["Chained level"].iter_rows(values_only=True)
    in_book = {(month, row[0]): value for row in cells for month, value in zip(head[2:], row[2:]) if row[0] in SETS}
    assert {key: Fraction(str(value)) for key, value in in_book.items() if value is not None} == levels


# ---- laws


def test_all_aggregates_are_all_items_and_those_of_a_node_are_it(published: list[Published]) -> None:
    """In every month, but for the change on a month whose revision is under embargo."""
    nodes = Series(published).titles
    specials = [Special(f"N{at}", "Of a node", (code,)) for at, code in enumerate(nodes)]
    series = series_of(published, specials)
    for at, code in enumerate(nodes):
        for month in series.months:
            one, other = series.row(month, code), series.row(month, f"N{at}")
            assert (one is None) == (other is None)
            if one and other:
                if (month, False) in Contributions(series).unexplained:
                    one = one._replace(month_change=other.month_change)
                assert other._replace(code=code, title=one.title) == one
        assert series.starts(code) == series.starts(f"N{at}")
    assert {month for month, _ in Contributions(series).unexplained} == {HIDDEN} and HIDDEN_REVISION < HIDDEN


def test_sets_that_part_all_items_have_contributions_that_add_up(published: list[Published], config: Config) -> None:
    series = series_of(published, config.specials)
    contributions, count = Contributions(series), 0
    for month in series.months:
        whole = series.rows("00")[series.months.index(month)]
        assert whole
        for parts in (("NORTH", "SOUTH"), ("FOOD", "ENERGY", "CORE")):
            for is_annual in (False, True):
                own = [contributions.of(month, name, "00") for name in parts]
                terms = [
                    Fraction(*year) for each in own for year in [each.to_year if is_annual else each.to_month] if year
                ]
                base = (series.year_base if is_annual else series.month_base)(month, "00")
                if terms and base:
                    assert abs(sum(terms) - Fraction(100 * (whole.chained - base), base)) < Fraction(4, 10**6)
                    count += 1
    assert count == 2 * (29 - 1) + 2 * 18


def test_a_set_that_leaves_and_is_back_has_a_break(pack: Path, config: Config, published: list[Published]) -> None:
    series = series_of(published, config.specials)
    assert series.starts("FRUIT") == ["2025-01", "2027-01"] and series.starts("CORE") == ["2026-01"]
    assert series.marks("FRUIT") == ["2027-01"] and series.base_of("2027-02", "FRUIT") == "2026-12"
    rows = rows_of(pack / "data/aggregates.csv")
    marked = {(row["month"], row["code"]) for row in rows if row["break"] == "1"}
    # (telephones come in 2026, pears leave then and are back in 2027, and flour leaves in 2026)
    changed = {(month, name) for name in ("FOOD", "SOUTH", "EVERY") for month in ("2026-01", "2027-01")}
    assert marked == {("2027-01", "FRUIT"), ("2026-01", "NORTH"), *changed}
    broken = [
        row for row in rows_of(pack / "data/cpi.sdmx.csv") if row["OBS_STATUS"] == "B" and row["COICOP18"] in SETS
    ]
    broken = [row for row in broken if (row["FREQ"], row["MEASURE"]) == ("M", "CPI")]
    assert {(row["TIME_PERIOD"], row["COICOP18"]) for row in broken} == marked and len(broken) == len(marked)
    told = words_of(pack / "node/FRUIT.html")
    assert "Break: from January 2027 on, December 2026 = 100." in told
    told = words_of(pack / "node/SOUTH.html")
    assert "on, it contains different elementary aggregates (new: 08.1.1.1-01; no longer in it: 01.1.6.2-01)." in told
    assert "Break: from January 2027 on, it contains different elementary aggregates (new: 01.1.6.2-01)." in told
    page = (pack / "node/SOUTH.html").read_text(encoding="utf-8")
    assert page.count('class="break" d="M') == 1 and len(drawn_in(page, "own")) == 1


def test_a_set_goes_on_from_the_published_december() -> None:
    """January 2027 of all items rests on a December at 106 that isn't published; the set goes on from the published
    105: with 104 within the year it is at 109.2. By hand: 0.5 * 102 + 0.5 * 106 = 104, but two divisions have no
    elementary aggregates here, so they get some."""
    tables = [
        Published(it.listed, it.table + b"".join(below(line) for line in it.table.splitlines() if line[:2] != b"00"))
        for it in over_another_december()
    ]
    tables = [table._replace(table=b"".join(sorted(table.table.splitlines(keepends=True)))) for table in tables]
    series = series_of(tables, [Special("EVERY", "All", ("00",))])
    last, whole = series.row("2027-01", "EVERY"), series.row("2027-01", "00")
    assert last and whole and (last.within, last.chained) == (104 * 10**6, 109_200_000)
    assert whole.chained == 110_240_000 and last.month_change == 40


def below(line: bytes) -> bytes:
    """The row of a division as that of an elementary aggregate in it."""
    return line[:2] + b".1.1.1-01" + line[2:] + b"\n"


def test_what_is_in_a_set_is_listed_by_year(pack: Path, months: dict[str, dict[str, Elementary]]) -> None:
    weights = {
        (row["id"], row["year"], row["code"]): row["weight"] for row in rows_of(pack / "data/aggregate-members.csv")
    }
    wanted = {
        (name, month[:4], code): str(row.weight)
        for name, is_in in SETS.items()
        for month, rows in months.items()
        for code, row in rows.items()
        if is_in(code)
    }
    assert weights == wanted


# ---- pages


def test_pages_show_sets_next_to_divisions(pack: Path, wanted: dict[str, dict[str, Figures]]) -> None:
    told = words_of(pack / "index.html")
    assert (
        "Special aggregates" in told
        and "An item can be in several sets, so the contributions don't add up to the change." in told
    )
    page = (pack / "index.html").read_text(encoding="utf-8")
    assert {*re.findall(r'href="node/([A-Z]+)\.html"', page)} == {*SETS}
    told = words_of(pack / "nodes.html")
    assert "CORE Core: without food and energy" in told and "EVERY All, once more" in told
    told = words_of(pack / "node/CORE.html")
    assert "It contains all items , without food of the shops and energy ." in told
    level = wanted["CORE"]["2027-05"].level
    assert f"Index, December 2025 = 100 {float(level):.1f}" in told
    assert 'value="CORE"' in (pack / "contract.html").read_text(encoding="utf-8")
    assert "aggregates.csv Special aggregates, with the columns of cpi.csv" in words_of(pack / "data.html")


def test_what_a_set_is_made_of_are_the_greatest_items_in_it(published: list[Published], config: Config) -> None:
    series = series_of(published, config.specials)
    covers = {name: series.children(name) for name in SETS}
    assert covers["EVERY"] == ["00"] and covers["FOOD"] == ["01"] and covers["NORTH"] == ["01.1.1"]
    assert covers["SOUTH"] == ["01.1.6", "07", "08"] and covers["CORE"] == ["08"]


def test_a_pack_without_sets_has_none_of_it(published: list[Published], tmp_path: Path) -> None:
    publish(published, Config("NSO", "XX", "O"), tmp_path / "public", None, lambda _: None)
    assert not [*(tmp_path / "public/data").glob("aggregate*")]
    assert "Special aggregates" not in words_of(tmp_path / "public/index.html")


# ---- the file


@pytest.mark.parametrize(
    ("text", "because"),
    [
        ("", "its first row isn't id,title,in,out"),
        ("id,title,in\n", "its first row isn't id,title,in,out"),
        ("id,title,in,out\nA,B,01\n", "row 2 has 3 cells, and not 4"),
        ("id,title,in,out\na,B,01,\n", "row 2: a is no id of a set, such as CORE"),
        ("id,title,in,out\n,B,01,\n", "row 2: an empty text is no id"),
        ("id,title,in,out\nCP01,B,01,\n", "row 2: CP01 is no id"),
        ("id,title,in,out\nA/B,B,01,\n", "A/B is no id"),
        ("id,title,in,out\nA,,01,\n", "row 2: A has no title"),
        ("id,title,in,out\nA,B,,01\n", "row 2: A has nothing in it"),
        ("id,title,in,out\nA,B,01,\nA,C,02,\n", "A has two rows"),
        ("id,title,in,out\nA,B,1,\n", "A: 1 is neither a code such as 01.1 nor the id of a set"),
        ("id,title,in,out\nA,B,01,C\n", "A: C is neither a code"),
        ("id,title,in,out\nA,B,01,A\n", "A is made of itself"),
        ("id,title,in,out\nA,B,C,\nC,D,02,E\nE,F,01 A,\n", "A is made of itself"),
        ('id,title,in,out\n"A,B,01,\n', "unexpected end of data"),
        ("\udce9", "can't decode byte"),
    ],
)
def test_a_file_with_a_fault_is_one_line(text: str, because: str, tmp_path: Path) -> None:
    (tmp_path / "aggregates.csv").write_bytes(text.encode(errors="surrogateescape"))
    with pytest.raises(BadSpecials, match=re.escape(because)) as told:
        read_specials(tmp_path / "aggregates.csv")
    assert "\n" not in str(told.value) and str(tmp_path) in str(told.value)


def test_the_command_tells_what_no_table_has(
    cpi: Cpi,
    public_office: Office,
    tmp_path: Path,
    capsys: pytest.CaptureFixture[str],
    monkeypatch: pytest.MonkeyPatch,
) -> None:
    """A code may come with a later table, or be a slip; a set without an aggregate is left out."""
    monkeypatch.setattr("cpi_tools.publish.pack.SHOWN_DIFFERENCES", 10_000)
    (tmp_path / "sets.csv").write_text(
        "\ufeffid,title,in,out\n\nTEA,Tea,01.2.1,\nFOOD,Food,01 01.3,\n", encoding="utf-8"
    )
    (tmp_path / "office.ini").write_text("[office]\nagency = A\narea = X\noffice = O\naggregates = sets.csv\n")
    source = ["publish", "--program", str(cpi.path), "--db", str(public_office.file), "--at", str(public_office.at)]
    words = [*source, "--config", str(tmp_path / "office.ini")]
    out = tmp_path / "public"
    assert main([*words, "--out", str(out)]) == 0
    told = capsys.readouterr().err
    assert "cpi-tools publish: special aggregates name what no table has: 01.2.1, 01.3\n" in told
    assert {row["code"] for row in rows_of(out / "data/aggregates.csv")} == {"FOOD"}
    assert main([*words, "--check", str(out)]) == 0
    (tmp_path / "sets.csv").write_text("id,title,in,out\nFOOD,Food,01,\nTEA,Tea,01.1.6,\n")
    assert main([*words, "--check", str(out)]) == 1
    assert "data/aggregates.csv differs" in capsys.readouterr().out
    (tmp_path / "office.ini").write_text("[office]\nagency = A\narea = X\noffice = O\naggregates = no.csv\n")
    assert main([*words, "--out", str(out)]) == 1
    assert "no.csv: No such file or directory" in capsys.readouterr().err

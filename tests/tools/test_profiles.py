"""Profiles: a pack's series in data structures of other agencies; each figure computed once more from published tables."""

from __future__ import annotations

import csv
import io
import re
from collections.abc import Iterator
from fractions import Fraction
from pathlib import Path
from xml.etree import ElementTree

import pytest

from cpi_tools.publish.figures.config import Config, read_config
from cpi_tools.publish.figures.profiles import BadProfile, Profile, read_profile
from cpi_tools.office.public import Published
from cpi_tools.publish.figures.specials import Special
from cpi_tools.publish.pack import check, publish
from lib.pack_faults import text
from lib.places import ROOT
from lib.quality import rows_of

ECOFIN, HICP = (ROOT / "examples/profiles" / name for name in ("ecofin.toml", "hicp.toml"))
CONFIG = Config("NSO", "XX", "Office of prices", reference="2025")
YEAR = [f"2025-{number:02}" for number in range(1, 13)]
Row = dict[str, str]


def quiet(_: str) -> None:
    """Tells nobody."""


def written(published: list[Published], config: Config, folder: Path) -> Path:
    publish(published, config, folder, None, quiet)
    return folder / "data/profiles"


def of_csv(path: Path) -> list[Row]:
    return [*csv.DictReader(io.StringIO(path.read_text(encoding="utf-8")))]


def of_xml(path: Path) -> list[Row]:
    """Each observation with what its series says."""
    return [{**series.attrib, **it.attrib} for series in ElementTree.parse(path).iter("Series") for it in series]


# ---- computed once more


def tables(published: list[Published]) -> dict[str, dict[str, list[str]]]:
    """The rows of the last revision of each month."""
    last = {each.listed.month: each for each in sorted(published, key=lambda each: each.listed)}
    return {month: rows_of(each.table) for month, each in last.items() if each.table}


def level(found: dict[str, dict[str, list[str]]], code: str, month: str) -> str:
    """The level of an item if the mean of 2025 is 100; empty if it isn't linked to all months of 2025."""
    months = sorted(found)
    if not all(code in found[at] for at in [*YEAR, *months[months.index(YEAR[0]) : months.index(month) + 1]]):
        return ""
    mean = sum((Fraction(found[at][code][3]) for at in YEAR), Fraction(0)) / 12
    return text(100 * Fraction(found[month][code][3]) / mean, 6)


def wanted_hicp(published: list[Published]) -> Iterator[Row]:
    """Down to subclasses, whose codes have at most eight letters."""
    found = tables(published)
    codes = sorted({code for rows in found.values() for code in rows if "-" not in code})
    for unit, place in (("I25", 3), ("RCH_M", 4), ("RCH_A", 5)):
        for code in codes:
            for month in sorted(found):
                row = found[month].get(code)
                value = (level(found, code, month) if place == 3 else row[place]) if row else ""
                item = "CP00" if code == "00" else "CP" + code.replace(".", "")
                if value:
                    key = {"FREQ": "M", "UNIT": unit, "COICOP": item, "GEO": "XX"}
                    yield {**key, "TIME_PERIOD": month, "OBS_VALUE": value}


def test_index_and_changes_have_other_names(published: list[Published], tmp_path: Path) -> None:
    """Pears leave in 2026 and are back: their later levels are 100 in another period, so they aren't there."""
    folder = written(published, CONFIG._replace(profiles=(read_profile(HICP),), provisional=2), tmp_path / "public")
    rows = of_csv(folder / "HICP.sdmx.csv")
    wanted = [*wanted_hicp(published)]
    names = ("FREQ", "UNIT", "COICOP", "GEO", "TIME_PERIOD", "OBS_VALUE")
    assert [{name: row[name] for name in names} for row in rows] == wanted
    assert {row["STRUCTURE_ID"] for row in rows} == {"ESTAT:PRC_HICP(1.0)"} and rows[0]["STRUCTURE"] == "datastructure"
    pears = [row["TIME_PERIOD"] for row in rows if (row["COICOP"], row["UNIT"]) == ("CP01162", "I25")]
    assert pears == YEAR
    flags = {row["TIME_PERIOD"] for row in rows if row["OBS_FLAG"] == "p"}
    assert flags == {"2027-04", "2027-05"} and {row["OBS_FLAG"] for row in rows} <= {"", "p", "b"}
    elements = of_xml(folder / "HICP.sdmx.xml")
    assert elements == [{name: row[name] for name in (*names, "OBS_FLAG") if row[name]} for row in rows]


def test_all_items_are_in_the_structure_of_the_imf(published: list[Published], tmp_path: Path) -> None:
    """Whatever the office calls its own ids, and with its own sender."""
    config = CONFIG._replace(
        profiles=(read_profile(ECOFIN),), ids={"COICOP18": "PRODUCT", "CPI": "MINE", "M": "MONTHS"}
    )
    folder = written(published, config, tmp_path / "public")
    found = tables(published)
    key = {"DATA_DOMAIN": "CPI", "REF_AREA": "XX", "INDICATOR": "PCPI_IX", "COUNTERPART_AREA": "_Z", "FREQ": "M"}
    said = {"UNIT_MULT": "0", "TIME_FORMAT": "P1M", "BASE_PER": "2025", "OBS_STATUS": "A"}
    wanted = [{**key, "TIME_PERIOD": month, "OBS_VALUE": level(found, "00", month), **said} for month in sorted(found)]
    start = {"STRUCTURE": "datastructure", "STRUCTURE_ID": "IMF:ECOFIN_DSD(1.0)", "ACTION": "I"}
    assert of_csv(folder / "ECOFIN.sdmx.csv") == [{**start, **row} for row in wanted]
    assert of_xml(folder / "ECOFIN.sdmx.xml") == wanted
    message = (folder / "ECOFIN.sdmx.xml").read_text(encoding="utf-8")
    assert '<Ref agencyID="IMF" id="ECOFIN_DSD" version="1.0" class="DataStructure"/>' in message
    assert '<message:Sender id="NSO"/>' in message and message.index("DATA_DOMAIN") < message.index("REF_AREA")


def test_the_place_of_a_profile_writes_no_archive_anew(published: list[Published], tmp_path: Path) -> None:
    """A configuration may be named from another folder, and archives have nothing of profiles."""
    sums = []
    for path in (ECOFIN, tmp_path / "ecofin.toml"):
        if path != ECOFIN:
            path.write_bytes(ECOFIN.read_bytes())
        config = CONFIG._replace(profiles=(read_profile(path),), years=1)
        written(published, config, tmp_path / "public")
        sums.append((tmp_path / "public/data/years/made.json").read_bytes())
    assert sums[0] == sums[1]


def profile(tmp_path: Path, *changes: tuple[str, str], of: Path = HICP) -> Profile:
    """One of the ready profiles with other words."""
    own = of.read_text(encoding="utf-8")
    for before, after in changes:
        assert before in own
        own = own.replace(before, after)
    (tmp_path / "own.toml").write_text(own, encoding="utf-8")
    return read_profile(tmp_path / "own.toml")


def line_of(path: Path, words: str) -> int:
    """The number of the first line that begins so."""
    lines = path.read_text(encoding="utf-8").splitlines()
    return next(number for number, line in enumerate(lines, 1) if line.startswith(words))


def test_the_version_is_a_setting_and_a_dataflow_may_be_named(published: list[Published], tmp_path: Path) -> None:
    flow = 'structure = "ESTAT:PRC_HICP(2.3)"\ndataflow = "ESTAT:DF_HICP(1.1)"'
    own = profile(tmp_path, ('structure = "ESTAT:PRC_HICP(1.0)"', flow))
    folder = written(published, CONFIG._replace(profiles=(own,)), tmp_path / "public")
    row = of_csv(folder / "HICP.sdmx.csv")[0]
    assert (row["STRUCTURE"], row["STRUCTURE_ID"]) == ("dataflow", "ESTAT:DF_HICP(1.1)")
    assert 'id="PRC_HICP" version="2.3"' in (folder / "HICP.sdmx.xml").read_text(encoding="utf-8")


def test_a_special_aggregate_is_there_if_codes_name_it(published: list[Published], tmp_path: Path) -> None:
    """Of two that have the same members one is named."""
    specials = tuple(Special(name, name.title(), ("00",), ("01",)) for name in ("CORE", "OTHER"))
    own = profile(tmp_path, ('_T = "CP00"', '_T = "CP00"\nCORE = "TOT_X_FOOD"'))
    folder = written(published, CONFIG._replace(profiles=(own,), specials=specials), tmp_path / "public")
    items = {row["COICOP"] for row in of_csv(folder / "HICP.sdmx.csv")}
    assert "TOT_X_FOOD" in items and not items & {"CORE", "OTHER"} and "CP01111-01" not in items


# ---- what is refused


SYNTAX = ('id = "HICP"', 'id = "HICP')


@pytest.mark.parametrize(
    "change, begins, says",
    [
        (SYNTAX, 'id = "HICP', "wanted TOML"),
        (('id = "HICP"', 'id = "HI CP"'), "id", "wanted letters, digits, _ and -"),
        (('id = "HICP"', ""), "# Index", "id is missing: wanted a line id = .."),
        (("deepest = 4", 'deepest = "4"'), "deepest", "wanted a whole number"),
        (("deepest = 4", "deepest = 6"), "deepest", "wanted 0, all items, to 5"),
        (("deepest = 4", "depth = 4"), "depth", "depth is no word of a profile"),
        (("PRC_HICP(1.0)", "PRC_HICP"), "structure", "wanted agency, id and version like IMF:ECOFIN_DSD(1.0)"),
        (('"COICOP", "GEO"]', '"COICOP", "GEO", "NOTHING"]'), "dimensions", "wanted a table [dimension.NOTHING]"),
        (('"COICOP", "GEO"]', '"COICOP"]'), "[dimension.GEO]", "GEO isn't in dimensions"),
        (('"COICOP", "GEO"]', '"COICOP", "GEO", "GEO"]'), "dimensions", "GEO is no id of a dimension, or is there twice"),
        (('_T = "CP00"', '_T = "CP 00"'), "_T", "'CP 00' is no code"),
        (('others = "same"', 'others = "all"'), "others", "wanted same, or no line"),
        (('others = "same"', 'others = "a\\nb"'), "others", "others is a b: wanted same"),
        (('others = "same"', 'other = "same"'), "other", "other is no word of [dimension.COICOP]"),
        (('at = "observation"', 'at = "group"'), "at", "wanted series or observation"),
        (('[dimension.GEO]\nof = "REF_AREA"', "[dimension.GEO]"), "[dimension.GEO]", "wanted constant, or of"),
        (('[dimension.UNIT.codes]\n"CPI.N" = "I25"\n"CPI.G1" = "RCH_M"\n"CPI.GY" = "RCH_A"', ""), "[dimension.UNIT]",
         "UNIT is of several: wanted codes, ours joined by points"),
    ],
)  # fmt: skip
def test_a_fault_is_one_line_with_its_place(tmp_path: Path, change: tuple[str, str], begins: str, says: str) -> None:
    with pytest.raises(BadProfile) as fault:
        profile(tmp_path, change)
    line = line_of(tmp_path / "own.toml", begins)
    assert str(fault.value).startswith(f"{tmp_path}/own.toml, line {line}: ") and says in str(fault.value)
    assert "\n" not in str(fault.value)


@pytest.mark.parametrize(
    "change, begins, says",
    [
        (('M = "M"', 'W = "W"'), "W", "W is no code of ours: wanted one of FREQ"),
        (('_T = "CP00"', '_T = "CP00"\nCP19 = "CP19"'), "CP19", "CP19 is no code of ours: wanted one of COICOP18"),
        (('"CPI.GY" = "RCH_A"', '"CPI" = "RCH_A"'), '"CPI"', "CPI is no code of ours: wanted one of MEASURE.TRANSFORMATION"),
        (('of = "OBS_STATUS"', 'of = "STATUS"'), 'of = "STATUS"', "STATUS is none of ours"),
        (('"CPI.GY" = "RCH_A"', '"CPI.GY" = "I25"'), "dimensions", "are both M.I25.CP00.XX: wanted a key of its own"),
        (('_T = "CP00"', '_T = "CP01"'), "dimensions", "are both M.I25.CP01.XX: wanted a key of its own"),
        (('reference = "2025"', 'reference = "2015"'), "reference", "reference is 2015, and the office has 2025"),
        (('at = "observation"', 'at = "series"'), "[attribute.OBS_FLAG]", 'wanted at = "observation"'),
        (('"CPI.N" = "I25"\n"CPI.G1" = "RCH_M"\n"CPI.GY" = "RCH_A"', '"CPIC.GY" = "X"'), "dimensions",
         "no series of this office is in it"),
    ],
)  # fmt: skip
def test_what_does_not_fit_this_office_is_refused(
    published: list[Published], tmp_path: Path, change: tuple[str, str], begins: str, says: str
) -> None:
    """And nothing is published: the pack before stays."""
    own = profile(tmp_path, change)
    with pytest.raises(BadProfile) as fault:
        written(published, CONFIG._replace(profiles=(own,), provisional=2), tmp_path / "public")
    line = line_of(tmp_path / "own.toml", begins)
    assert str(fault.value).startswith(f"{tmp_path}/own.toml, line {line}: ") and says in str(fault.value)
    assert "\n" not in str(fault.value) and not (tmp_path / "public").exists()


def test_a_configuration_names_profiles(tmp_path: Path) -> None:
    ini = "[office]\nagency = NSO\narea = XX\noffice = Office\nprofiles = ecofin.toml, hicp.toml\n"
    for path in (ECOFIN, HICP):
        (tmp_path / path.name).write_bytes(path.read_bytes())
    (tmp_path / "office.ini").write_text(ini)
    assert [each.id for each in read_config(tmp_path / "office.ini").profiles] == ["ECOFIN", "HICP"]
    (tmp_path / "office.ini").write_text(ini.replace("hicp", "ecofin"))
    with pytest.raises(BadProfile, match="ecofin.toml, line [0-9]+: another profile has the id ECOFIN too"):
        read_config(tmp_path / "office.ini")
    (tmp_path / "office.ini").write_text(ini.replace("hicp", "none"))
    with pytest.raises(BadProfile, match="none.toml"):
        read_config(tmp_path / "office.ini")


def test_an_office_without_a_profile_publishes_what_it_did(published: list[Published], tmp_path: Path) -> None:
    plain, own = tmp_path / "plain", tmp_path / "own"
    publish(published, CONFIG, plain, None, quiet)
    config = CONFIG._replace(profiles=(read_profile(ECOFIN),))
    publish(published, config, own, None, quiet)
    names = {path.relative_to(plain).as_posix() for path in plain.rglob("*") if path.is_file()}
    more = {path.relative_to(own).as_posix() for path in own.rglob("*") if path.is_file()} - names
    assert more == {f"data/profiles/{name}" for name in ("ECOFIN.sdmx.csv", "ECOFIN.sdmx.xml", "csv-metadata.json")}
    differing = {name for name in names if (plain / name).read_bytes() != (own / name).read_bytes()}
    assert differing == {"SHA256SUMS", "data.html"}
    sums = (own / "SHA256SUMS").read_text()
    assert all(name in sums for name in more) and check(published, config, own, None, quiet) == []
    assert all(
        re.search(f'href="{name}"', (own / "data.html").read_text(encoding="utf-8"))
        for name in more
        if "ECOFIN" in name
    )

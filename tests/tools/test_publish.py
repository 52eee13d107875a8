"""`cpi-tools publish`: each figure of each format is one that the program printed, and the embargo holds.

The figures are read with the standard library and openpyxl, which the tool doesn't use, and compared with what
`cpi table` prints, which is another way than that of the tool.
"""

from __future__ import annotations

import csv
import errno
import hashlib
import io
import json
import os
import re
import shutil
import subprocess
import sys
import zipfile
from collections.abc import Callable, Iterator
from decimal import Decimal
from fractions import Fraction
from pathlib import Path
from typing import NamedTuple, Optional
from xml.etree import ElementTree

import openpyxl
import pytest

from cpi_tools.command_line import main
from cpi_tools.office.folders import NotPlaced, written_folder
from cpi_tools.publish.figures.config import BadConfig, Config, read_config
from cpi_tools.publish.forms.manifest import Change, manifest_text, previous_of, read_manifest
from cpi_tools.office.public import Listed, Published, from_file
from cpi_tools.publish.forms.sdmx import KNOWN_IDS
from cpi_tools.office.tables import Series
from cpi_tools.office.program import Cpi
from cpi_tools.publish.pack import CannotPublish, check, publish
from lib.pack_forms import px_cells, read_json_stat, read_sdmx_ml
from lib.places import ROOT
from lib.served import free_port
from .loads import served
from .published import CODES, HIDDEN_REVISION, LAST, LONG_AFTER, REVISED, Office, lived, shown
from .test_measures import tea_again, two_years

INI = """\
[office]
agency = NSO
area = XX
office = Office <of> prices
country = Exampleland
reference = 2025
currency = crowns
"""
PEARS = "01.1.6"
"""The class of pears, which leave after 2025 and are back in 2027."""

CONFIG = Config("NSO", "XX", "Office <of> prices", country="Exampleland", reference="2025", currency="crowns")

Rows = dict[tuple[str, int], list[list[str]]]
"""The printed rows of each table, by month and revision."""


def quiet(_: str) -> None:
    pass


def again(published: list[Published], out: Path, before: Optional[Path] = None, config: Config = CONFIG) -> list[str]:
    return check(published, config, out, before, quiet)


@pytest.fixture(scope="module")
def pack(published: list[Published], tmp_path_factory: pytest.TempPathFactory) -> Path:
    out = tmp_path_factory.mktemp("pack") / "public"
    publish(published, CONFIG, out, None, quiet)
    return out


@pytest.fixture(scope="module")
def printed(cpi: Cpi, public_office: Office) -> Rows:
    """The rows of each published table, as `cpi table` prints them."""
    found = {}
    for month, revision in shown():
        text = cpi.table(public_office.file, month, "csv", public_office.at, revision).decode()
        found[month, revision] = list(csv.reader(io.StringIO(text, newline="")))
    return found


def latest(printed: Rows) -> dict[tuple[str, str], list[str]]:
    """The printed row of each month and code in the latest revision."""
    return {(month, row[0]): row for (month, _), rows in sorted(printed.items()) for row in rows}


def rows_of(path: Path) -> list[dict[str, str]]:
    with path.open(encoding="utf-8", newline="") as file:
        return list(csv.DictReader(file))


# ---- each figure


FIELDS = ("code", "weight", "index", "chained", "month_change", "year_change", "imputed", "title")


def test_the_tidy_file_has_the_digits_of_the_tables(pack: Path, printed: Rows) -> None:
    wanted = latest(printed)
    rows = rows_of(pack / "data/cpi.csv")
    assert {(row["month"], row["code"]): [row[name] for name in FIELDS] for row in rows} == wanted
    assert len(rows) == len(wanted)
    assert {row["revision"] for row in rows if row["month"] == REVISED} == {"2"}
    assert {(row["code"], row["depth"]) for row in rows} >= {("00", "0"), ("01.1", "2"), ("01.1.1.1-01", "5")}
    # the moments of tests are counted from 1970: the month's number in thousands of seconds, and 900
    assert {row["published"] for row in rows if row["month"] == "2025-01"} == {"1970-01-01T00:31:40Z"}


def test_vintages_have_what_was_revised_once(pack: Path, printed: Rows) -> None:
    rows = rows_of(pack / "data/vintages.csv")
    changed = [pair for pair in zip(printed[REVISED, 1], printed[REVISED, 2]) if pair[0] != pair[1]]
    found = [[row["revision"], *(row[name] for name in FIELDS)] for row in rows]
    assert found == [[revision, *row] for pair in changed for revision, row in zip("12", pair)]
    # (the price of rice was revised, which has a part in four nodes above it and in all items)
    assert [old[0] for old, _ in changed] == ["00", "01", "01.1", "01.1.1", "01.1.1.1", "01.1.1.1-01"]
    assert {row["month"] for row in rows} == {REVISED}


def test_each_table_can_be_made_of_vintages_and_the_latest_figures(pack: Path, printed: Rows) -> None:
    revised: dict[tuple[str, str], dict[int, list[str]]] = {}
    for row in rows_of(pack / "data/vintages.csv"):
        place = revised.setdefault((row["month"], row["code"]), {})
        place[int(row["revision"])] = [row[name] for name in FIELDS]
    latest_rows = [(row["month"], [row[name] for name in FIELDS]) for row in rows_of(pack / "data/cpi.csv")]
    for month, revision in printed:
        found = []
        for row_month, fields in latest_rows:
            if row_month == month:
                known = revised.get((month, fields[0]), {})
                found.append(known[max(it for it in known if it <= revision)] if known else fields)
        assert found == printed[month, revision]


def test_tables_are_the_bytes_of_the_program(cpi: Cpi, public_office: Office, pack: Path) -> None:
    names = {f"{month}-r{revision}.csv": (month, revision) for month, revision in shown()}
    assert {path.name for path in (pack / "data/tables").glob("*.csv")} == {*names}
    for name, (month, revision) in names.items():
        text = cpi.table(public_office.file, month, "csv", public_office.at, revision)
        assert (pack / "data/tables" / name).read_bytes() == text


class Wanted(NamedTuple):
    """An observation: measure, transformation, item, month, figure, whether a price was imputed, and the revision."""

    measure: str
    transformation: str
    item: str
    month: str
    value: str
    imputed: str
    revision: str


PLACES = {("CPIC", "N"): 3, ("CPI", "G1"): 4, ("CPI", "GY"): 5, ("CPIW", "N"): 1}
"""Where the figure of a measure stands in a printed row, by FORMATS."""


def id_of(code: str) -> str:
    """The id of a node, as DATA says it."""
    return "_T" if code == "00" else "CP" + code.replace(".", "")


def wanted_observations(printed: Rows) -> list[Wanted]:
    """All figures of the latest tables."""
    revisions = {month: str(revision) for month, revision in sorted(printed)}
    return sorted(
        Wanted(*name, id_of(code), month, row[place], row[6], revisions[month])
        for (month, code), row in latest(printed).items()
        for name, place in PLACES.items()
        if row[place]
    )


def wanted_shares(printed: Rows) -> dict[tuple[str, str], str]:
    """By month and code the share of all weight, per mille, with six decimals."""
    rows = latest(printed)
    fractions = {of: Fraction(1000 * int(row[1]), int(rows[of[0], "00"][1])) for of, row in rows.items()}
    for month in {month for month, _ in rows}:
        divisions = [share for (its_month, code), share in fractions.items() if its_month == month and len(code) == 2]
        assert sum(divisions) == 2000, "divisions, and all items"
    return {of: f"{Decimal(int(share * 10**6 + Fraction(1, 2))).scaleb(-6):.6f}" for of, share in fractions.items()}


def test_shares_are_in_each_form(pack: Path, printed: Rows) -> None:
    wanted, sheet = wanted_shares(printed), openpyxl.load_workbook(pack / "data/cpi.xlsx")["Shares"]
    rows = rows_of(pack / "data/printed.csv")
    assert {(row["month"], row["code"]): row["share_per_mille"] for row in rows} == wanted
    px = px_cells(pack / "data/cpi.px")
    assert {(month, code): cell for (code, figure, month), cell in px.items() if figure == "share"} == wanted
    data, places = read_json_stat(pack / "data/cpi.jsonstat.json")
    cells = {(month, code): data["value"][at] for (code, figure, month), at in places.items() if figure == "share"}
    assert {of: f"{value:.6f}" for of, value in cells.items() if value is not None} == wanted
    head, *lines = sheet.iter_rows(values_only=True)
    in_sheet = {(month, line[0]): it for line in lines for month, it in zip(head[2:], line[2:]) if it is not None}
    assert {of: f"{Decimal(str(it)):.6f}" for of, it in in_sheet.items()} == wanted


def levels_of(pack: Path) -> list[dict[str, str]]:
    """The rows of cpi.csv with the level that is 100 in the office's own reference period, empty if there is none."""
    moved = {(row["month"], row["code"]): row["rereferenced"] for row in rows_of(pack / "data/rereferenced.csv")}
    return [
        {**row, "rereferenced": moved.get((row["month"], row["code"]), "")} for row in rows_of(pack / "data/cpi.csv")
    ]


def in_csv(path: Path) -> Iterator[Wanted]:
    """The monthly observations."""
    for row in rows_of(path):
        if row["FREQ"] != "M":
            continue
        names = ("MEASURE", "TRANSFORMATION", "COICOP18", "TIME_PERIOD", "OBS_VALUE", "IMPUTED_PRICES", "REVISION")
        yield Wanted(*(row[name] for name in names))


def in_xml(path: Path) -> Iterator[Wanted]:
    for element in ElementTree.parse(path).iter("Series"):
        if element.get("FREQ") != "M":
            continue
        key = [element.get(name, "") for name in ("MEASURE", "TRANSFORMATION", "COICOP18")]
        for obs in element.iter("Obs"):
            names = ("TIME_PERIOD", "OBS_VALUE", "IMPUTED_PRICES", "REVISION")
            yield Wanted(*key, *(obs.get(name, "") for name in names))


@pytest.mark.parametrize(("name", "read"), [("cpi.sdmx.csv", in_csv), ("cpi.sdmx.xml", in_xml)])
def test_sdmx_has_each_figure_once(
    pack: Path, printed: Rows, name: str, read: Callable[[Path], Iterator[Wanted]]
) -> None:
    found = sorted(read(pack / "data" / name))
    own = {(it.month, it.item): it.value for it in found if it[:2] == ("CPI", "N")}
    assert own == {(row["month"], id_of(row["code"])): row["rereferenced"] or row["chained"] for row in levels_of(pack)}
    others = [it for it in found if it.measure not in ("CTR", "CPIS") and it[:2] != ("CPI", "N")]
    assert others == wanted_observations(printed)
    shares = {(it.month, it.item): it.value for it in found if it.measure == "CPIS"}
    assert shares == {(month, id_of(code)): share for (month, code), share in wanted_shares(printed).items()}
    given = {
        (row["month"], id_of(row["code"]), kind): row[column]
        for row in rows_of(pack / "data/contributions.csv")
        for kind, column in (("G1", "contribution_month"), ("GY", "contribution_year"))
        if row["of"] == "00" and row[column]
    }
    assert {(it.month, it.item, it.transformation): it.value for it in found if it.measure == "CTR"} == given


def test_the_head_of_sdmx_csv(pack: Path) -> None:
    first, second = (pack / "data/cpi.sdmx.csv").read_text(encoding="utf-8").splitlines()[:2]
    assert first.startswith("STRUCTURE,STRUCTURE_ID,ACTION,FREQ,REF_AREA,MEASURE,UNIT_MEASURE,COICOP18,TRANSFORMATION,")
    flow = r"dataflow,NSO:DF_CPI\(1\.0\.0\),I,M,XX,CPI,IX,_T,N,2025-01,"
    assert re.match(flow, second)


STRUCTURE = "{http://www.sdmx.org/resources/sdmxml/schemas/v2_1/structure}"
COMMON = "{http://www.sdmx.org/resources/sdmxml/schemas/v2_1/common}"


def test_the_structure_has_each_id_that_the_data_use(pack: Path) -> None:
    root = ElementTree.parse(pack / "data/structure.sdmx.xml").getroot()
    codes = {element.get("id"): {code.get("id") for code in element} for element in root.iter(STRUCTURE + "Codelist")}
    listed = {element.get("id", "") for element in root.iter(STRUCTURE + "Dimension") if element.get("position")}
    attributes = {element.get("id", "") for element in root.iter(STRUCTURE + "Attribute")}
    head, *rows = csv.reader((pack / "data/cpi.sdmx.csv").open(encoding="utf-8", newline=""))
    assert {*head[3:]} == listed | attributes | {"TIME_PERIOD", "OBS_VALUE"}
    coded = {"MEASURE", "UNIT_MEASURE", "COICOP18", "TRANSFORMATION", "IMPUTED_PRICES"}
    assert codes.keys() == {f"CL_{name}" for name in coded}
    shared = {("SDMX", "CL_FREQ", "2.1"), ("SDMX", "CL_AREA", "2.0.1"), ("SDMX", "CL_OBS_STATUS", "2.2")}
    named = [(element.get("class"), element.get("id", "")) for element in root.iter("Ref")]
    lists = {
        (element.get("agencyID"), element.get("id"), element.get("version"))
        for element in root.iter("Ref")
        if element.get("class") == "Codelist"
    }
    own = {
        (element.get("agencyID"), element.get("id"), element.get("version"))
        for element in root.iter(STRUCTURE + "Codelist")
    }
    assert lists == shared | own and len(own) == 5
    concepts = [element.get("id", "") for element in root.iter(STRUCTURE + "Concept")]
    assert sorted(concepts) == ["COICOP18", "IMPUTED_PRICES", "MEASURE", "REVISION", "TRANSFORMATION"]
    assert sorted(name for kind, name in named if kind == "Concept") == sorted(head[3:])
    schemes = {name: scheme_of(root, name) for name in head[3:]}
    own_scheme = ("NSO", "CS_CPI", "1.0.0")
    assert {name for name, scheme in schemes.items() if scheme == own_scheme} == {*concepts}
    assert {*schemes.values()} == {own_scheme, ("SDMX", "CROSS_DOMAIN_CONCEPTS", "2.0")}
    for at, name in enumerate(head):
        used = {row[at] for row in rows} - {""}
        assert used <= codes.get(f"CL_{name}", used) and used, name
    titles = {element.get("id"): element.findtext(COMMON + "Name") for element in root.iter(STRUCTURE + "Code")}
    assert titles["CP01112-01"] == "Flour & <meal>"


def scheme_of(root: ElementTree.Element, concept: str) -> tuple[str, ...]:
    """The list of concepts in which a structure looks for a concept: its agency, id and version."""
    names = ("agencyID", "maintainableParentID", "maintainableParentVersion")
    (scheme,) = {
        tuple(element.get(name, "") for name in names)
        for element in root.iter("Ref")
        if (element.get("class"), element.get("id")) == ("Concept", concept)
    }
    return scheme


def test_a_renamed_dimension_keeps_the_concept_that_sdmx_has(published: list[Published], tmp_path: Path) -> None:
    words = "[sdmx]\nFREQ = FREQUENCY\nMEASURE = WHAT\nCROSS_DOMAIN_CONCEPTS = SDMX:CROSS_DOMAIN_CONCEPTS(2.1)\n"
    (tmp_path / "office.ini").write_text(INI + words)
    publish(published[:2], read_config(tmp_path / "office.ini", KNOWN_IDS), tmp_path / "public", None, quiet)
    root = ElementTree.parse(tmp_path / "public/data/structure.sdmx.xml").getroot()
    dimensions = [
        (element.get("id"), next(element.iter("Ref")).get("id")) for element in root.iter(STRUCTURE + "Dimension")
    ]
    assert ("FREQUENCY", "FREQ") in dimensions and ("WHAT", "WHAT") in dimensions
    assert scheme_of(root, "FREQ") == ("SDMX", "CROSS_DOMAIN_CONCEPTS", "2.1")
    assert scheme_of(root, "WHAT") == ("NSO", "CS_CPI", "1.0.0")


KINDS = ("Dataflow", "Codelist", "ConceptScheme", "DataStructure")


def artefacts(folder: Path) -> dict[str, tuple[str, bytes]]:
    """By id, the version of each artefact and its content, without any version in it."""
    root = ElementTree.parse(folder / "data/structure.sdmx.xml")
    artefacts = {}
    for it in [element for kind in KINDS for element in root.iter(STRUCTURE + kind)]:
        assert it.get("isFinal") == "false"
        artefacts[it.get("id", "")] = (it.get("version", ""), ElementTree.tostring(it))
    return artefacts


def test_a_version_follows_the_content(published: list[Published], pack: Path, tmp_path: Path) -> None:
    """A registry keeps what it has in a version, and takes other content only in a later one. Telephones come in
    January 2026; a month between changes nothing, and neither do pears that are back in 2027."""
    found = {}
    for name, until in (("2025-02", 3), ("2025-12", 13), ("2026-03", 16), ("2027-02", 29)):
        publish(published[:until], CONFIG, tmp_path / "public", None, quiet)
        found[name] = artefacts(tmp_path / "public")
        assert len(found[name]) == 8
    assert found["2025-02"] == found["2025-12"] and {it for it, _ in found["2025-02"].values()} == {"1.0.0"}
    assert found["2026-03"] == found["2027-02"] and artefacts(pack)["DF_CPI"][0] == "1.0.0"
    changed = {name for name in found["2026-03"] if found["2026-03"][name] != found["2025-12"][name]}
    assert changed == {"CL_COICOP18", "DSD_CPI", "DF_CPI"}
    assert {found["2026-03"][name][0] for name in changed} == {"1.0.1"}
    # what the configuration changes has another version as well
    publish(published[:29], CONFIG._replace(ids={"CPI": "IDX"}), tmp_path / "public", None, quiet)
    own = artefacts(tmp_path / "public")
    last = {name: it for name, (it, _) in own.items() if it != found["2027-02"][name][0]}
    assert last == {"CL_MEASURE": "1.0.1", "DSD_CPI": "1.0.2", "DF_CPI": "1.0.2"}


def test_a_code_has_the_one_above_it(pack: Path, printed: Rows) -> None:
    root = ElementTree.parse(pack / "data/structure.sdmx.xml")
    (items,) = [element for element in root.iter(STRUCTURE + "Codelist") if element.get("id") == "CL_COICOP18"]
    above = {
        element.get("id", ""): [ref.get("id", "") for ref in element.iter("Ref")]
        for element in items.iter(STRUCTURE + "Code")
    }
    assert above.pop("_T") == []
    for code in {code for _, code in latest(printed)} - {"00"}:
        parent = {2: "00", 11: code[:8]}.get(len(code), code[:-2])
        assert above.pop(id_of(code)) == [id_of(parent)]
    assert above == {}


def test_the_sender_and_the_language_of_titles(published: list[Published], tmp_path: Path) -> None:
    """An id of a sender has no dot, an agency may have one; the names of our own lists are English."""
    (tmp_path / "office.ini").write_text(
        INI.replace("agency = NSO", "agency = NSO.PRICES\nlanguage = cs")
        + "[sdmx]\nCL_FREQ = SDMX:CL_FREQ(2.2)\nCL_REF_AREA = NSO:CL_REGIONS(1.4)\n"
    )
    config = read_config(tmp_path / "office.ini", KNOWN_IDS)
    publish(published[:3], config, tmp_path / "public", None, quiet)
    root = ElementTree.parse(tmp_path / "public/data/structure.sdmx.xml")
    for name in ("structure.sdmx.xml", "cpi.sdmx.xml"):
        text = (tmp_path / "public/data" / name).read_text(encoding="utf-8")
        assert '<message:Sender id="NSO_PRICES"/>' in text
    language = "{http://www.w3.org/XML/1998/namespace}lang"
    for element in root.iter(STRUCTURE + "Codelist"):
        names = {name.get(language) for code in element.iter(STRUCTURE + "Code") for name in code.iter(COMMON + "Name")}
        assert names == ({"cs"} if element.get("id") == "CL_COICOP18" else {"en"})
    lists = {
        (element.get("agencyID"), element.get("id"), element.get("version"))
        for element in root.iter("Ref")
        if element.get("class") == "Codelist"
    }
    assert lists >= {("SDMX", "CL_FREQ", "2.2"), ("NSO", "CL_REGIONS", "1.4"), ("SDMX", "CL_OBS_STATUS", "2.2")}


def test_sdmx_has_annual_averages(pack: Path) -> None:
    rows = [row for row in rows_of(pack / "data/cpi.sdmx.csv") if row["FREQ"] == "A"]
    values = {(row["TRANSFORMATION"], row["COICOP18"], row["TIME_PERIOD"]): row["OBS_VALUE"] for row in rows}
    wanted = {}
    for row in rows_of(pack / "data/averages.csv"):
        for kind, column in (("N", "average"), ("G1", "change")):
            if row[column]:
                wanted[kind, id_of(row["code"]), row["year"]] = row[column]
    assert values == wanted and len(rows) == len(values) and len(values) > 40
    assert {(row["MEASURE"], row["OBS_STATUS"], row["REVISION"]) for row in rows} == {("CPI", "A", "")}
    # the table of December 2025 came out 900 seconds after the beginning of its month
    assert {row["EMBARGO_TIME"] for row in rows if row["TIME_PERIOD"] == "2025"} == {"1970-01-01T03:35:00Z"}
    in_file = [
        element
        for element in ElementTree.parse(pack / "data/cpi.sdmx.xml").iter("Series")
        if element.get("FREQ") == "A"
    ]
    told = {(element.get("TRANSFORMATION"), element.get("COICOP18"), obs.get("TIME_PERIOD")): obs.get("OBS_VALUE")
            for element in in_file for obs in element.iter("Obs")}  # fmt: skip
    assert told == values


def test_a_level_has_one_base_period(pack: Path, tmp_path: Path) -> None:
    """The reference period of the office, or December before the item came; levels of one that is back have another."""
    publish([*two_years(), tea_again()], CONFIG._replace(reference="2026"), tmp_path / "again", None, quiet)
    for folder, wanted, later in (
        (
            pack,
            {"_T": "2025", "CP07": "2025", "CP08": "2025-12", "CP01112": "2025", "CP0116": "2025"},
            {"CP0116": "2026-12"},
        ),
        (tmp_path / "again", {"_T": "2026", "CP01": "2026", "CP02": "2026", "CP03": "2026-12"}, {"CP02": "2027-12"}),
    ):
        rows = rows_of(folder / "data/cpi.sdmx.csv")
        levels = [row for row in rows if (row["MEASURE"], row["TRANSFORMATION"], row["FREQ"]) == ("CPI", "N", "M")]
        first = {level["COICOP18"]: level["BASE_PER"] for level in reversed(levels)}
        last = {level["COICOP18"]: level["BASE_PER"] for level in levels}
        assert wanted.items() <= first.items()
        assert {code: last[code] for code in last if last[code] != first[code] and len(code) < 7} == later
        assert {row["BASE_PER"] for row in rows if row["UNIT_MEASURE"] != "IX"} == {""}
        names = ("FREQ", "MEASURE", "COICOP18", "TIME_PERIOD", "BASE_PER")
        in_xml = {tuple(it[name] for name in names) for it in read_sdmx_ml(folder / "data/cpi.sdmx.xml")
                  if "BASE_PER" in it}  # fmt: skip
        assert in_xml == {tuple(row[name] for name in names) for row in rows if row["BASE_PER"]}
        assert all(re.fullmatch("[0-9]{4}(-[0-9]{2})?", names[-1]) for names in in_xml)
        chained = {names[2]: names[-1] for names in sorted(in_xml) if names[1] == "CPIC"}
        assert chained.keys() == first.keys() and chained["_T"] in ("2024-12", "2025-12")
    rows = rows_of(tmp_path / "again/data/rereferenced.csv")
    # tea is 108 / 105.25 of its mean of 2026 in its December, and not linked to it when it comes again
    assert {row["month"]: row["rereferenced"] for row in rows if row["code"] == "02"}["2026-12"] == "102.612827"
    assert [row["code"] for row in rows if row["month"] == "2028-01"] == ["00", "01"]


def decembers(printed: Rows) -> dict[tuple[str, str], tuple[str, bool]]:
    """By month and code, the December in which the level is 100, and whether it is the first level after a gap."""
    decembers: dict[tuple[str, str], tuple[str, bool]] = {}
    for month, code in sorted(latest(printed)):
        earlier = [december for december in decembers if december[1] == code]
        is_next = bool(earlier) and months_between(max(earlier)[0], month) == 1
        december = decembers[max(earlier)][0] if is_next else f"{int(month[:4]) - 1}-12"
        decembers[month, code] = (december, bool(earlier) and not is_next)
    return decembers


def months_between(one: str, other: str) -> int:
    return 12 * (int(other[:4]) - int(one[:4])) + int(other[5:]) - int(one[5:])


def test_each_level_says_where_it_is_100(pack: Path, printed: Rows) -> None:
    """In CSV each row, in SDMX the first level after a gap, in the workbook a sheet and a line before that level."""
    wanted = decembers(printed)
    assert {code for (_, code), (_, is_break) in wanted.items() if is_break} == {PEARS, PEARS + ".2", PEARS + ".2-01"}
    for name in ("cpi.csv", "vintages.csv"):
        for row in rows_of(pack / "data" / name):
            december, is_break = wanted[row["month"], row["code"]]
            assert (row["base"], row["break"]) == (december, str(int(is_break)))
    of_pears = rows_of(pack / f"node/{PEARS}.csv")
    assert {(row["month"][:4], row["base"]) for row in of_pears} == {("2025", "2024-12"), ("2027", "2026-12")}
    breaks = {(month, id_of(code)) for (month, code), (_, is_break) in wanted.items() if is_break}
    broken = [row for row in rows_of(pack / "data/cpi.sdmx.csv") if row["OBS_STATUS"] != "A"]
    kinds = {("CPI", "N", "B"), ("CPIC", "N", "B")}
    assert {(row["MEASURE"], row["TRANSFORMATION"], row["OBS_STATUS"]) for row in broken} == kinds
    assert {(row["TIME_PERIOD"], row["COICOP18"]) for row in broken} == breaks and len(broken) == 2 * len(breaks)
    in_file = ElementTree.parse(pack / "data/cpi.sdmx.xml").iter("Series")
    in_file_broken = [(obs.get("TIME_PERIOD"), element.get("COICOP18")) for element in in_file for obs in element
                      if obs.get("OBS_STATUS") == "B"]  # fmt: skip
    assert sorted(in_file_broken) == sorted([*breaks, *breaks])
    book = openpyxl.load_workbook(pack / "data/cpi.xlsx")
    runs: dict[tuple[str, str], list[str]] = {}
    for (month, code), (december, _) in sorted(wanted.items()):
        runs.setdefault((code, december), []).append(month)
    _, *rows = book["Reference periods"].iter_rows(values_only=True)
    # (the reference period of the office is 2025, and a run that is linked to it has 100 there)
    listed = [
        (code, runs[code, it][0], runs[code, it][-1], "2025" if it == "2024-12" else it) for code, it in sorted(runs)
    ]
    assert [(row[0], row[2], row[3], row[4]) for row in rows] == listed
    assert {row[0] for row in rows if row[5]} == {PEARS, PEARS + ".2", PEARS + ".2-01"}
    head = [cell.value for cell in book["Index"][1]]
    lined = {(head[cell.column - 1], row[0].value) for row in book["Index"].iter_rows(min_row=2) for cell in row
             if cell.border.left.style}  # fmt: skip
    assert lined == {key for key, (_, is_break) in wanted.items() if is_break}


SHEETS = {"Chained level": 3, "Monthly change": 4, "Annual change": 5, "Weights": 1}


def test_the_workbook_has_each_figure_as_a_number(pack: Path, printed: Rows) -> None:
    book = openpyxl.load_workbook(pack / "data/cpi.xlsx")
    figures = ["Index", "Monthly change", "Annual change", "Weights", "Shares", "Contributions", "Chained level"]
    assert book.sheetnames == ["Read me", *figures, "Reference periods"]
    wanted_levels = {
        (level["month"], level["code"]): level["rereferenced"] or level["chained"] for level in levels_of(pack)
    }
    assert figures_of(book["Index"]) == {key: Decimal(level) for key, level in wanted_levels.items()}
    for name, place in SHEETS.items():
        numbers = figures_of(book[name])
        assert numbers == {key: Decimal(row[place]) for key, row in latest(printed).items() if row[place]}
        assert book[name].freeze_panes == "C2" and book[name]["A1"].font.b and not book[name]["A2"].font.b
    given = rows_of(pack / "data/contributions.csv")
    wanted = {(row["month"], row["code"]): row["contribution_year"] for row in given if row["of"] == "00"}
    assert figures_of(book["Contributions"]) == {key: Decimal(it) for key, it in wanted.items() if it}
    assert book["Index"]["A2"].value == "00" and book["Index"]["A2"].data_type == "s"
    assert "=Mobile" in [cell.value for cell in book["Index"]["B"] if cell.data_type == "s"]
    assert (book["Index"]["C2"].number_format, book["Weights"]["C2"].number_format) == ("0.0", "#,##0")


def figures_of(sheet: openpyxl.worksheet.worksheet.Worksheet) -> dict[tuple[str, str], Decimal]:
    """The numbers of a sheet by month and code."""
    head, *rows = sheet.iter_rows(values_only=True)
    return {
        (month, row[0]): Decimal(str(value))
        for row in rows
        for month, value in zip(head[2:], row[2:])
        if value is not None
    }


def test_members_of_the_workbook_have_no_time(pack: Path) -> None:
    with zipfile.ZipFile(pack / "data/cpi.xlsx") as book:
        assert {member.date_time for member in book.infolist()} == {(1980, 1, 1, 0, 0, 0)}


def test_averages_and_other_reference_periods(pack: Path, printed: Rows) -> None:
    level = {key: Fraction(row[3]) for key, row in latest(printed).items()}
    codes = {code for month, code in level if month[:4] == "2025"}
    means = {code: sum(level[f"2025-{number:02}", code] for number in range(1, 13)) / 12 for code in codes}
    half = Fraction(1, 2 * 10**6)
    first = [row for row in rows_of(pack / "data/averages.csv") if row["year"] == "2025"]
    assert {row["code"] for row in first} == codes and {row["change"] for row in first} == {""}
    assert all(abs(Fraction(row["chained_average"]) - means[row["code"]]) <= half for row in first)
    assert {(row["average"], row["reference"]) for row in first} == {("100.000000", "2025")}
    rows = rows_of(pack / "data/rereferenced.csv")
    # (pears are back in 2027, and not linked to their mean of 2025)
    linked = {key for key in level if key[1] in codes and not (key[0] > "2026" and key[1].startswith(PEARS))}
    assert {(row["month"], row["code"]) for row in rows} == linked
    for row in rows:
        wanted = 100 * level[row["month"], row["code"]] / means[row["code"]]
        assert abs(Fraction(row["rereferenced"]) - wanted) <= half


# ---- the embargo


def texts(folder: Path) -> Iterator[tuple[str, bytes]]:
    """Each file's bytes, and those of a workbook's members."""
    for path in sorted(folder.rglob("*")):
        if path.suffix == ".xlsx":
            with zipfile.ZipFile(path) as book:
                yield from ((f"{path.name}/{name}", book.read(name)) for name in book.namelist())
        elif path.is_file():
            yield path.name, path.read_bytes()


def test_no_embargoed_figure_is_anywhere(cpi: Cpi, public_office: Office, pack: Path, printed: Rows) -> None:
    known = {row[at] for rows in printed.values() for row in rows for at in (2, 3)}
    hidden = set()
    for month, revision in public_office.hidden:
        text = cpi.table(public_office.file, month, "csv", LONG_AFTER + 1, revision).decode()
        hidden |= {row[at] for row in csv.reader(io.StringIO(text)) for at in (2, 3)}
    hidden -= known
    assert len(hidden) > 15
    forms = [form.encode() for it in hidden for form in (it, it.replace(".", ""))]
    for name, data in texts(pack):
        assert not [form for form in forms if form in data], name
        assert LAST.encode() not in data and f"{HIDDEN_REVISION}-r2".encode() not in data, name


def test_the_pack_of_a_moment_is_the_same_before_and_after_what_comes_later(
    cpi: Cpi, public_office: Office, pack: Path, tmp_path: Path
) -> None:
    early = tmp_path / "early.db"
    until = next(at for at, line in enumerate(lived()) if f"freeze,{LAST}" in line)
    cpi.replay(lived()[:until], db=early)
    assert again(from_file(cpi, early, public_office.at), pack) == []


# ---- one pack after the other


def test_the_command_writes_checks_and_tells(
    cpi: Cpi, public_office: Office, pack: Path, tmp_path: Path, capsys: pytest.CaptureFixture[str]
) -> None:
    (tmp_path / "office.ini").write_text(INI)
    source = ["publish", "--program", str(cpi.path), "--db", str(public_office.file), "--at", str(public_office.at)]
    words = [*source, "--config", str(tmp_path / "office.ini")]
    out = tmp_path / "new" / "public"
    assert main([*words, "--out", str(out)]) == 0
    assert capsys.readouterr().out == f"{out}: 31 tables up to 2027-05, {CODES} items\n"
    assert {name for name, _ in texts(out)} == {name for name, _ in texts(pack)}
    assert [(name, data) for name, data in texts(out)] == [(name, data) for name, data in texts(pack)]
    assert main([*words, "--check", str(out)]) == 0
    assert capsys.readouterr().out == f"{out}: every file is as it is written now\n"
    (out / "data/cpi.csv").write_text("changed")
    (out / "data/averages.csv").unlink()
    (out / "more").write_text("")
    assert main([*words, "--check", str(out)]) == 1
    told = capsys.readouterr()
    lines = ["data/averages.csv is missing", "more is too much", "data/cpi.csv differs"]
    assert told.out == "".join(f"{out}: {line}\n" for line in lines)
    assert told.err == f"cpi-tools publish: {out}: 3 files not as written now\n"


def test_a_moment_that_is_still_to_come_is_a_draft(
    cpi: Cpi, public_office: Office, tmp_path: Path, capsys: pytest.CaptureFixture[str]
) -> None:
    (tmp_path / "office.ini").write_text(INI)
    source = ["publish", "--program", str(cpi.path), "--db", str(public_office.file), "--at", str(LONG_AFTER)]
    words = [*source, "--config", str(tmp_path / "office.ini"), "--out", str(tmp_path / "draft")]
    assert main(words) == 1
    told = capsys.readouterr()
    assert "--at 9000000000 is 2255-03-14 16:00 UTC, which is still to come" in told.err and told.err.count("\n") == 1
    assert not (tmp_path / "draft").exists()
    assert main([*words, "--draft"]) == 0
    assert (tmp_path / "draft").stat().st_mode & 0o777 == 0o700
    assert (tmp_path / f"draft/data/tables/{LAST}-r1.csv").is_file()
    capsys.readouterr()
    (tmp_path / "draft").chmod(0o755)
    assert main([*words, "--draft"]) == 1
    assert "draft can be read by others, and a draft may not: give it a folder of its own" in capsys.readouterr().err


def test_a_chain_of_manifests(published: list[Published], tmp_path: Path) -> None:
    """Each has the sum of the one before; over the same tables it stays as it is."""
    out, first = tmp_path / "public", [publication for publication in published if publication.listed.month < "2026-01"]
    publish(first, CONFIG, out, None, quiet)
    one = (out / "manifest.json").read_bytes()
    assert json.loads(one)["previous"] is None
    publish(first, CONFIG._replace(title="Prices"), out, None, quiet)
    assert (out / "manifest.json").read_bytes() == one
    shutil.copytree(out, tmp_path / "kept")
    publish(published, CONFIG, out, None, quiet)
    two = (out / "manifest.json").read_bytes()
    assert json.loads(two)["previous"] == hashlib.sha256(one).hexdigest()
    assert again(published, out) == []
    (tmp_path / "kept.json").write_bytes(one)
    publish(published, CONFIG, tmp_path / "elsewhere", tmp_path / "kept/manifest.json", quiet)
    assert (tmp_path / "elsewhere/manifest.json").read_bytes() == two
    assert again(published, out, tmp_path / "kept.json") == []
    assert again(published, out, out / "manifest.json") == []
    (tmp_path / "kept.json").write_bytes(one.replace(b"null", b'"x"'))
    assert again(published, out, tmp_path / "kept.json") == ["SHA256SUMS differs", "manifest.json differs"]


def test_a_published_table_does_not_change_silently(published: list[Published], tmp_path: Path) -> None:
    out = tmp_path / "public"
    publish(published[:3], CONFIG, out, None, quiet)
    before = {name: data for name, data in texts(out)}
    other = [*published[:2], Published(published[2].listed, published[2].table.replace(b"Petrol", b"Diesel"))]
    later = [*published[:2], published[2]._replace(listed=Listed(published[2].listed.month, 1, 5))]
    for changed in (other, later):
        with pytest.raises(CannotPublish, match="2025-02, revision 1, isn't the one that was published"):
            publish(changed, CONFIG, out, None, quiet)
    with pytest.raises(CannotPublish, match="2025-02, revision 1, was published and isn't there any more"):
        publish(published[:2], CONFIG, out, None, quiet)
    with pytest.raises(CannotPublish, match="isn't the one that was published"):
        publish(other, CONFIG, tmp_path / "elsewhere", out / "manifest.json", quiet)
    assert {name: data for name, data in texts(out)} == before
    assert sorted(path.name for path in tmp_path.iterdir()) == ["public"]


def test_a_folder_that_is_no_pack_is_left_alone(published: list[Published], tmp_path: Path) -> None:
    (tmp_path / "mine").mkdir()
    (tmp_path / "mine/letter").write_text("")
    with pytest.raises(NotPlaced, match="is there already, and isn't a folder that this tool wrote"):
        publish(published[:2], CONFIG, tmp_path / "mine", None, quiet)
    assert [path.name for path in (tmp_path / "mine").iterdir()] == ["letter"]


def test_a_fault_of_the_disk_names_the_folder(tmp_path: Path) -> None:
    """A write doesn't say which file it was of."""
    with pytest.raises(NotPlaced, match=f"^{tmp_path}/public: No space left on device$"):
        with written_folder(tmp_path / "public", "manifest.json"):
            raise OSError(errno.ENOSPC, os.strerror(errno.ENOSPC))
    assert os.listdir(tmp_path) == []


def test_a_link_is_followed_and_stays(published: list[Published], tmp_path: Path) -> None:
    """A web server hands out the folder that the link leads to: it is replaced there, at once and as a whole."""
    real, link = tmp_path / "disk/pack", tmp_path / "www/public"
    publish(published[:5], CONFIG, real, None, quiet)
    before = (real / "manifest.json").read_bytes()
    link.parent.mkdir()
    link.symlink_to("../disk/pack")
    publish(published, CONFIG, link, None, quiet)
    assert link.is_symlink() and os.readlink(link) == "../disk/pack"
    assert (real / "manifest.json").read_bytes() != before
    # (the manifest before was found behind the link)
    assert json.loads((real / "manifest.json").read_text())["previous"] == hashlib.sha256(before).hexdigest()
    assert sorted(os.listdir(link.parent)) == ["public"] and sorted(os.listdir(real.parent)) == ["pack"]


def test_a_link_that_leads_to_no_pack_is_left_alone(published: list[Published], tmp_path: Path) -> None:
    (tmp_path / "other").mkdir()
    (tmp_path / "other/index.html").write_text("mine")
    for name, to, because in (
        ("gone", "nowhere/pack", "gone is a symbolic link to nowhere/pack, which isn't there"),
        ("round", "round", "round is a symbolic link to round, which isn't there"),
        ("kept", "other", "other is there already, and isn't a folder that this tool wrote"),
    ):
        (tmp_path / name).symlink_to(to)
        with pytest.raises(NotPlaced, match=because):
            publish(published[:2], CONFIG, tmp_path / name, None, quiet)
        assert os.readlink(tmp_path / name) == to
    assert sorted(os.listdir(tmp_path)) == ["gone", "kept", "other", "round"]
    assert os.listdir(tmp_path / "other") == ["index.html"]


def test_the_sums_are_those_of_the_files(pack: Path) -> None:
    told = subprocess.run(["sha256sum", "--check", "--quiet", "SHA256SUMS"], cwd=pack, capture_output=True, check=False)
    assert (told.returncode, told.stdout, told.stderr) == (0, b"", b"")
    listed = {line.split("  ")[1] for line in (pack / "SHA256SUMS").read_text().splitlines()}
    assert listed == {path.relative_to(pack).as_posix() for path in pack.rglob("*") if path.is_file()} - {"SHA256SUMS"}
    tables = json.loads((pack / "manifest.json").read_text())["tables"]
    assert [(table["month"], table["revision"]) for table in tables] == shown()
    for table in tables:
        data = (pack / f"data/tables/{table['month']}-r{table['revision']}.csv").read_bytes()
        assert table["sha256"] == hashlib.sha256(data).hexdigest()


# ---- words


@pytest.mark.parametrize(
    ("text", "because"),
    [
        ("", "has no section"),
        ("[office]\narea = XX\noffice = O\n", "agency is missing"),
        ("[office]\nagency = 1\narea = XX\noffice = O\n", "agency: 1 is no id"),
        ("[office]\nagency = A\narea = X X\noffice = O\n", "area: X X is no code"),
        ("[office]\nagency = A\narea = X\noffice = O\nreference = 25\n", "reference: 25 is neither"),
        ("[office]\nagency = A\narea = X\noffice = O\nminor_digits = 5\n", "minor_digits: 5 isn't 0 to 4"),
        ("[office]\nagency = A\narea = X\noffice = O\nwithout = csv\n", "without: csv is none of sdmx-csv, sdmx-ml"),
        ("[office]\nagency = A\narea = X\noffice = O\nlanguage = Czech\n", "language: Czech is no language"),
        ("[office]\nagency = A\narea = X\noffice = O\nrates = x\n", "rates: x is neither exact nor published"),
        ("[office]\nagency = A\narea = X\noffice = O\n[sdmx]\nCL_FREQ = CL_FREQ\n", "CL_FREQ = CL_FREQ: no id of"),
        ("[office]\nagency = A\narea = X\noffice = O\ntint = red\n", "tint is no word of"),
        ("[office]\nagency = A\narea = X\noffice = O\ncolour = red\n", "colour: red is no colour such as #0a5c7d"),
        ("[office]\nagency = A\narea = X\noffice = O\n[sdmx]\nX = Y\n", "X is no id that"),
        ("[office]\nagency = A\narea = X\noffice = O\n[sdmx]\nCPI = a.b\n", "CPI = a.b: no id of SDMX"),
        ("[office]\nagency = A\narea = X\noffice = O\n[sdmx]\nCOICOP18 = 18X\n", "COICOP18 = 18X: no id of SDMX"),
        ("[office]\nagency = A\narea = X\noffice = O\n[sdmx]\nTIME_PERIOD = T\n", "TIME_PERIOD is no id that"),
        ("[office]\nagency = A\narea = X\noffice = O\n[sdmx]\nCPI = CTR\n", "CTR would be the id of two"),
        ("[office]\nagency = A\narea = X\noffice = O\n[sdmx]\nREVISION = DECIMALS\n", "DECIMALS would be the id"),
        ("[office]\nagency = A\narea = X\noffice = O\n[site]\n", "there is no section .site"),
        ("agency = A\n", "File contains no section headers"),
        ("\udce9", "can't decode byte"),
    ],
)
def test_a_configuration_with_a_fault_is_one_line(text: str, because: str, tmp_path: Path) -> None:
    path = tmp_path / "office.ini"
    path.write_bytes(text.encode(errors="surrogateescape"))
    with pytest.raises(BadConfig, match=because) as told:
        read_config(path, KNOWN_IDS)
    assert "\n" not in str(told.value)


def test_a_word_without_a_value_is_as_none(tmp_path: Path) -> None:
    words = "[office]\nagency = A\narea = X\noffice = Office\n  of prices\ntitle =\nreference =\n"
    (tmp_path / "office.ini").write_text(words)
    assert read_config(tmp_path / "office.ini") == Config("A", "X", "Office of prices", title="Consumer price index")


def test_ids_of_an_office_take_the_place_of_ours(published: list[Published], tmp_path: Path) -> None:
    (tmp_path / "office.ini").write_text(INI + "[sdmx]\nCOICOP18 = PRODUCT\nCPI = IDX\nDF_CPI = PRICES\n")
    config = read_config(tmp_path / "office.ini", KNOWN_IDS)
    publish(published[:2], config, tmp_path / "public", None, quiet)
    for name in ("cpi.sdmx.csv", "cpi.sdmx.xml", "structure.sdmx.xml"):
        text = (tmp_path / "public/data" / name).read_text(encoding="utf-8")
        assert all(own in text for own in ("PRODUCT", "IDX", "PRICES"))
        assert not [name for name in ("COICOP18", '"CPI"', ",CPI,", "DF_CPI") if name in text]


@pytest.mark.parametrize(
    ("without", "left_out"),
    [
        ("sdmx-ml", ["data/cpi.sdmx.xml"]),
        ("sdmx-csv", ["data/cpi.sdmx.csv"]),
        ("sdmx-csv, sdmx-ml", ["data/cpi.sdmx.csv", "data/cpi.sdmx.xml", "data/structure.sdmx.xml"]),
    ],
)
def test_a_pack_may_be_without_a_form(
    without: str, left_out: list[str], pack: Path, published: list[Published], tmp_path: Path
) -> None:
    """All else is as it is in a whole pack, and no page speaks of it."""
    (tmp_path / "office.ini").write_text(f"{INI}without = {without}\n")
    config = read_config(tmp_path / "office.ini", KNOWN_IDS)
    out = tmp_path / "public"
    publish(published, config, out, None, quiet)
    assert again(published, out, config=config) == []
    whole = {path.relative_to(pack).as_posix() for path in pack.rglob("*") if path.is_file()}
    posixes = {path.relative_to(out).as_posix() for path in out.rglob("*") if path.is_file()}
    assert sorted(name for name in whole - posixes if name.count("/") == 1) == left_out and posixes <= whole
    ends = tuple(name.removeprefix("data/cpi") for name in left_out if "/cpi." in name)
    gone = (name for name in whole if name.count("/") > 1)
    is_xml_out = ".sdmx.xml" in ends
    is_csv_out = ".sdmx.csv" in ends
    described = {"data/slices/csv-metadata.json"} if is_csv_out else set()
    assert {name for name in whole - posixes if name.count("/") > 1} == described | {
        name for name in gone if name.endswith(ends) or is_xml_out and name.startswith("data/sdmx/")
    }
    differing = {name for name in posixes if (out / name).read_bytes() != (pack / name).read_bytes()}
    describing = {"data/csv-metadata.json", "data/newest/csv-metadata.json"} if is_csv_out else set()
    assert differing == {"index.html", "data.html", "SHA256SUMS"} | describing
    for name in left_out:
        assert not [page.name for page in out.rglob("*.html") if name in page.read_text(encoding="utf-8")]


def test_texts_that_xml_cannot_have_do_no_harm(tmp_path: Path) -> None:
    """A title with a character that XML forbids, with what ends its sections, and with what formulas begin with."""
    title = "=1+1 \uffff ]]> <b> & \u2028"
    row = f"00,1000000,99.750000,99.750000,-0.3,,0,{title}\n"
    published = [Published(Listed("2025-12", 1, 1), b""), Published(Listed("2026-01", 1, 2), row.encode())]
    publish(published, CONFIG._replace(title="Prices \x07", reference=""), tmp_path / "public", None, quiet)
    data = tmp_path / "public/data"
    told = title.replace("\uffff", "\ufffd")
    names = [element.text for element in ElementTree.parse(data / "structure.sdmx.xml").iter(COMMON + "Name")]
    assert told in names and "Prices \ufffd" in names
    assert openpyxl.load_workbook(data / "cpi.xlsx")["Index"]["B2"].value == told
    assert [row["title"] for row in rows_of(data / "cpi.csv")] == [title]


def test_a_served_office_gives_the_same_pack(cpi: Cpi, public_office: Office, pack: Path, tmp_path: Path) -> None:
    (tmp_path / "office.ini").write_text(INI)
    (tmp_path / "served.db").write_bytes(public_office.file.read_bytes())
    port = free_port()
    with served(cpi, tmp_path / "served.db", port):
        words = ["publish", "--url", f"http://127.0.0.1:{port}", "--config", str(tmp_path / "office.ini")]
        assert main([*words, "--check", str(pack)]) == 0


def test_without_its_package_one_line_says_so_and_other_tools_go_on(tmp_path: Path) -> None:
    """Python leaves Debian's packages away by -S."""
    (tmp_path / "office.ini").write_text(INI)
    named = {"env": {"PYTHONPATH": str(ROOT / "tools"), "PYTHONDONTWRITEBYTECODE": "1"}, "capture_output": True}
    words = [sys.executable, "-S", "-m", "cpi_tools"]
    source = ["publish", "--url", "http://127.0.0.1:1", "--config", str(tmp_path / "office.ini"), "--out", "public"]
    told = subprocess.run([*words, *source], **named, text=True, check=False)
    assert (told.returncode, told.stdout, told.stderr.count("\n")) == (1, "", 1)
    assert "has no jinja2: Debian's python3-jinja2 has it" in told.stderr
    told = subprocess.run([*words, "backup", str(tmp_path / "no.db"), str(tmp_path / "to.db")], **named, check=False)
    assert told.returncode == 1 and b"no.db: No such file" in told.stderr


def test_words_that_do_not_go_together_are_refused(capsys: pytest.CaptureFixture[str], tmp_path: Path) -> None:
    for words in (
        ["--db", "office.db", "--config", "office.ini", "--out", "public"],
        ["--url", "http://h", "--at", "5", "--config", "office.ini", "--out", "public"],
        ["--url", "http://h", "--config", "office.ini"],
        ["--url", "http://h", "--config", "office.ini", "--out", "public", "--check", "public"],
        ["--db", "office.db", "--url", "http://h", "--config", "office.ini", "--out", "public"],
    ):
        with pytest.raises(SystemExit) as ended:
            main(["publish", *words])
        assert ended.value.code == 2
        assert capsys.readouterr().err.count("\n") == 1


def test_what_is_not_there_is_one_line(cpi: Cpi, capsys: pytest.CaptureFixture[str], tmp_path: Path) -> None:
    (tmp_path / "office.ini").write_text(INI)
    (tmp_path / "no.json").write_text("[]")
    config = ["--config", str(tmp_path / "office.ini")]
    served = ["--url", "http://127.0.0.1:1"]
    filed = ["--program", str(cpi.path), "--db", str(tmp_path / "no.db"), "--at", "5"]
    for words, because in (
        ([*served, *config, "--out", str(tmp_path / "public")], "127.0.0.1:1/tables can't be read: Connection refused"),
        ([*served, "--config", str(tmp_path / "x.ini"), "--out", "public"], "x.ini: No such file"),
        ([*filed, *config, "--out", str(tmp_path / "public")], "no.db: No such file"),
    ):
        assert main(["publish", *words]) == 1
        told = capsys.readouterr()
        assert because in told.err and told.err.count("\n") == 1 and told.out == ""
    assert sorted(path.name for path in tmp_path.iterdir()) == ["no.json", "office.ini"]


def test_what_is_no_manifest_is_one_line(published: list[Published], tmp_path: Path) -> None:
    change = Change("2025-01-r1", (), "a" * 64, 1, 0, {"data/../../office.db": "b" * 64})
    for text in ("[]", manifest_text(Series(published), None, [change])):
        (tmp_path / "no.json").write_text(text)
        with pytest.raises(Exception, match="no.json is no manifest that cpi-tools publish wrote"):
            read_manifest(tmp_path / "no.json")
    with pytest.raises(Exception, match="manifest.json: No such file"):
        again(published, tmp_path / "nowhere")
    series = Series(published)
    (tmp_path / "m.json").write_text(manifest_text(series, "a" * 64))
    assert previous_of(read_manifest(tmp_path / "m.json"), series) == "a" * 64

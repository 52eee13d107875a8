"""Versions of the artefacts of SDMX: the next pack's are those of the pack before, or follow them, and none ever falls."""

from __future__ import annotations

import json
import re
import shutil
from pathlib import Path
from xml.etree import ElementTree

import pytest

from cpi_tools.publish.forms.artefacts import Artefact, BadArtefacts, Versions, versions_after
from cpi_tools.publish.figures.config import Config
from cpi_tools.office.public import Published
from cpi_tools.publish.figures.specials import Special
from cpi_tools.publish.pack import check, publish

CONFIG = Config("NSO", "XX", "Office of prices")
STRUCTURE = "{http://www.sdmx.org/resources/sdmxml/schemas/v2_1/structure}"
KINDS = ("Dataflow", "Codelist", "ConceptScheme", "DataStructure")


def quiet(_: str) -> None:
    pass


def written(published: list[Published], config: Config, out: Path) -> Path:
    publish(published, config, out, None, quiet)
    return out


def versions_of(pack: Path) -> dict[tuple[str, str], tuple[int, ...]]:
    """The versions of a structure message by class and id, as numbers."""
    root = ElementTree.parse(pack / "data/structure.sdmx.xml")
    each = [(kind, element) for kind in KINDS for element in root.iter(STRUCTURE + kind)]
    return {(kind, element.get("id", "")): numbers(element.get("version", "")) for kind, element in each}


def numbers(version: str) -> tuple[int, ...]:
    return tuple(map(int, version.split(".")))


def rows_of(pack: Path) -> dict[tuple[str, str], str]:
    artefacts = json.loads((pack / "data/artefacts.json").read_bytes())["artefacts"]
    return {(artefact["class"], artefact["id"]): artefact["version"] for artefact in artefacts}


ITEMS, FLOW = ("Codelist", "CL_COICOP18"), ("Dataflow", "DF_CPI")


def test_ten_sets_one_after_the_other_are_ten_versions_that_rise(published: list[Published], tmp_path: Path) -> None:
    sets, found = list[Special](), []
    for number in range(11):
        out = written(published[:3], CONFIG._replace(specials=tuple(sets)), tmp_path / "public")
        found.append(versions_of(out))
        assert rows_of(out) == {key: ".".join(map(str, it)) for key, it in found[-1].items()}
        sets.append(Special(f"SET{number}", f"Set {number}", ("00",)))
    for name in (ITEMS, FLOW, ("DataStructure", "DSD_CPI")):
        assert [it[name] for it in found] == [(1, 0, number) for number in range(11)]
    assert {it["Codelist", "CL_MEASURE"] for it in found} == {(1, 0, 0)}


def test_the_same_again_has_the_same_versions_and_bytes(published: list[Published], tmp_path: Path) -> None:
    out = written(published[:13], CONFIG, tmp_path / "public")
    written(published[:15], CONFIG, out)
    sums = (out / "SHA256SUMS").read_bytes()
    written(published[:15], CONFIG, out)
    assert (out / "SHA256SUMS").read_bytes() == sums and versions_of(out)[ITEMS] == (1, 0, 1)
    assert check(published[:15], CONFIG, out, None, quiet) == []


def test_what_is_taken_out_and_back_goes_on(published: list[Published], tmp_path: Path) -> None:
    """An id that the office renames, and takes back, has versions that a registry took already."""
    out = written(published[:3], CONFIG, tmp_path / "public")
    written(published[:3], CONFIG._replace(title="Prices"), out)
    written(published[:3], CONFIG._replace(ids={"DF_CPI": "PRICES"}), out)
    assert FLOW not in versions_of(out) and versions_of(out)["Dataflow", "PRICES"] == (1, 0, 0)
    written(published[:3], CONFIG, out)
    assert versions_of(out)[FLOW] == (1, 0, 2)


def test_artefacts_of_two_classes_share_an_id(published: list[Published], tmp_path: Path) -> None:
    one = CONFIG._replace(ids={"DF_CPI": "CPI", "DSD_CPI": "CPI", "CS_CPI": "CPI"})
    out = written(published[:3], one, tmp_path / "public")
    written(published[:3], one._replace(title="Prices"), out)
    versions = versions_of(out)
    assert [versions[kind, "CPI"] for kind in KINDS if kind != "Codelist"] == [(1, 0, 1), (1, 0, 0), (1, 0, 1)]


def test_a_version_is_compared_by_its_numbers() -> None:
    rows = [Artefact("Codelist", "CL", version, "0" * 64) for version in ("1.0.9", "1.0.10", "1.0.2")]
    assert Versions(rows).give("Codelist", "CL", "other") == "1.0.11"
    assert Versions([], "2026.1.999").give("Codelist", "CL", "other") == "2026.1.1000"


def test_rows_below_a_pack_without_rows_rise_above_it_and_stay() -> None:
    """A new folder began at 1.0.0 before the office named its earlier pack, which shows greater versions."""
    rows = Versions([Artefact("Codelist", "CL", "1.0.3", "0" * 64)])
    rows.give("Codelist", "SAME", "one")
    versions = Versions(rows.rows, "2026.1.996664")
    assert versions.give("Codelist", "CL", "other") == versions.give("Codelist", "SAME", "one") == "2026.1.996665"
    for above in ("", "2026.1.996664"):
        later = Versions(versions.rows, above)
        assert later.give("Codelist", "SAME", "one") == "2026.1.996665"
        assert later.give("Codelist", "CL", "third") == "2026.1.996666"


def test_two_contents_never_share_a_version(tmp_path: Path) -> None:
    """Two packs before have one version with different contents: whichever comes now, and whenever, counts on."""
    packs = []
    for name in ("one", "other"):
        versions, data = Versions(), tmp_path / name / "data"
        versions.give("Codelist", "CL", name)
        data.mkdir(parents=True)
        versions.write(data)
        packs.append(tmp_path / name)
    for content in ("one", "other", "third"):
        assert versions_after(packs).give("Codelist", "CL", content) == "1.0.1"
    # (a pack that doesn't write the artefact has its row for the next one)
    versions_after(packs).write(packs[0] / "data")
    assert versions_after(packs[:1]).give("Codelist", "CL", "one") == "1.0.1"


# ---- packs without rows, and with rows that are damaged


def test_versions_that_begin_anew_begin_above_those_of_the_structure(
    published: list[Published], tmp_path: Path
) -> None:
    """A pack of an earlier version of the tool, whose versions had checksums."""
    old, out = written(published[:3], CONFIG, tmp_path / "old"), tmp_path / "public"
    (old / "data/artefacts.json").unlink()
    path = old / "data/structure.sdmx.xml"
    text = path.read_text(encoding="utf-8")
    path.write_text(re.sub(r'agencyID="NSO" version="1\.0\.0"', 'agencyID="NSO" version="2026.1.915085"', text))
    publish(published[:3], CONFIG, out, old / "manifest.json", quiet)
    assert {*versions_of(out).values()} == {(2026, 1, 915086)}
    # a pack that is replaced says the same
    shutil.rmtree(out)
    assert {*versions_of(written(published[:3], CONFIG, old)).values()} == {(2026, 1, 915086)}


def test_of_two_packs_before_the_greater_version_counts(published: list[Published], tmp_path: Path) -> None:
    one, other = (written(published[:3], CONFIG, tmp_path / name) for name in ("one", "other"))
    for title in ("Prices", "Index", "Prices"):
        written(published[:3], CONFIG._replace(title=title), one)
    publish(published[:3], CONFIG, other, one / "manifest.json", quiet)
    assert versions_of(other)[FLOW] == (1, 0, 4)


ROW = {"class": "Codelist", "id": "CL", "version": "1.0.1", "sum": "0" * 64}


@pytest.mark.parametrize(
    "text",
    [
        "", "[]", "{}", "nothing", "[" * 100_000, '{"artefacts": []}', '{"artefacts": [[]]}',
        *(json.dumps({"artefacts": [{**ROW, name: value}]})
          for name, value in [("version", "1.x"), ("version", 1), ("version", ""), ("sum", "0"), ("id", ""), ("class", 3)]),
    ],
)  # fmt: skip
def test_a_damaged_file_is_refused_with_its_remedy(tmp_path: Path, text: str) -> None:
    out = tmp_path / "public"
    (out / "data").mkdir(parents=True)
    (out / "data/artefacts.json").write_text(text, encoding="utf-8")
    with pytest.raises(BadArtefacts) as caught:
        versions_after([out])
    line = str(caught.value)
    assert line.startswith(f"{out}/data/artefacts.json isn't what cpi-tools publish wrote") and "\n" not in line
    assert "take it from a copy of the pack; or remove it" in line


def test_a_pack_with_a_damaged_file_stays_as_it_is(published: list[Published], tmp_path: Path) -> None:
    out = written(published[:3], CONFIG, tmp_path / "public")
    (out / "data/artefacts.json").write_text("{", encoding="utf-8")
    before = {path: path.read_bytes() for path in out.rglob("*") if path.is_file()}
    with pytest.raises(BadArtefacts):
        written(published[:4], CONFIG, out)
    assert {path: path.read_bytes() for path in out.rglob("*") if path.is_file()} == before
    (out / "data/artefacts.json").unlink()
    assert {*versions_of(written(published[:4], CONFIG, out)).values()} == {(1, 0, 1)}


# ---- what an observation has


def test_the_structure_says_what_each_value_is(published: list[Published], tmp_path: Path) -> None:
    out = written(published[:3], CONFIG, tmp_path / "public")
    root, found = ElementTree.parse(out / "data/structure.sdmx.xml"), {}
    for it in [
        element for kind in ("Attribute", "PrimaryMeasure", "TimeDimension") for element in root.iter(STRUCTURE + kind)
    ]:
        form = it.find(f"{STRUCTURE}LocalRepresentation/{STRUCTURE}TextFormat")
        if form is not None:
            found[it.get("id")] = form.get("textType")
    assert found == {
        "OBS_VALUE": "Decimal", "DECIMALS": "Integer", "REVISION": "Integer", "EMBARGO_TIME": "DateTime",
        "BASE_PER": "ObservationalTimePeriod", "TIME_PERIOD": "ObservationalTimePeriod",
    }  # fmt: skip
    hangs = {
        element.get("id"): [ref.get("id") for ref in element.iter("Ref")][-1]
        for element in root.iter(STRUCTURE + "Attribute")
    }
    assert hangs["BASE_PER"] == "OBS_VALUE" and hangs["DECIMALS"] == "TRANSFORMATION"


# ---- whom to ask


@pytest.mark.parametrize(
    ("licence", "element"),
    [("CC BY 4.0 & more", "AnnotationText"), ("https://example.org/by?a=1&b=2", "AnnotationURL")],
)
def test_the_dataflow_has_the_licence_before_its_name(
    published: list[Published], tmp_path: Path, licence: str, element: str
) -> None:
    """As an annotation, which SDMX-ML 2.1 has first in what an agency maintains."""
    out = written(published[:2], CONFIG._replace(licence=licence), tmp_path / "public")
    (flow,) = ElementTree.parse(out / "data/structure.sdmx.xml").iter(f"{STRUCTURE}Dataflow")
    assert [it.tag.rpartition("}")[2] for it in flow] == ["Annotations", "Name", "Structure"]
    (annotation,) = flow[0]
    found = [(it.tag.rpartition("}")[2], it.text) for it in annotation]
    assert found == [("AnnotationType", "LICENSE"), (element, licence)]
    out = written(published[:2], CONFIG, tmp_path / "other")
    assert "Annotation" not in (out / "data/structure.sdmx.xml").read_text(encoding="utf-8")


@pytest.mark.parametrize(
    ("contact", "element"),
    [("cpi@example.org", "message:Email"), ("https://example.org/cpi", "message:URI"), ("+1 234 5678", "message:Telephone"),
     ("Room 7 & 8", "common:Name")],
)  # fmt: skip
def test_each_form_says_whom_to_ask(published: list[Published], tmp_path: Path, contact: str, element: str) -> None:
    config = CONFIG._replace(contact=contact, licence="CC BY 4.0", address="https://prices.example/")
    out = written(published[:2], config._replace(without=frozenset({"pictures"})), tmp_path / "public")
    spaces = {prefix: f"http://www.sdmx.org/resources/sdmxml/schemas/v2_1/{prefix}" for prefix in ("message", "common")}
    for name in ("structure.sdmx.xml", "cpi.sdmx.xml"):
        root = ElementTree.parse(out / "data" / name)
        found = root.find(f"message:Header/message:Sender/message:Contact/{element}", spaces)
        assert found is not None and found.text == contact
    terms = json.loads((out / "data/cpi.jsonstat.json").read_bytes())["extension"]
    assert (terms["contact"], terms["licence"]) == (contact, "CC BY 4.0")
    page = (out / "data.html").read_text(encoding="utf-8")
    told = json.loads(re.findall('<script type="application/ld.json">(.*?)</script>', page, re.S)[0])
    assert told["creator"]["contactPoint"] == {"@type": "ContactPoint", "description": contact}

"""What describes the CSV files of a pack to programs (CSVW), compared with each cell of them by the rules of the standard."""

from __future__ import annotations

import json
import shutil
from pathlib import Path

import pytest

from cpi_tools.publish.figures.config import Config
from cpi_tools.publish.site.csvw import COLUMNS
from cpi_tools.publish.figures.own_words import OfficeLanguages
from cpi_tools.office.public import Published
from cpi_tools.publish.figures.announcements import Reason
from cpi_tools.publish.figures.specials import Special
from cpi_tools.publish.pack import publish
from lib.csvw import faults_of, metadata_of, schema_of
from .published import CODES, REVISED

CONFIG = Config(
    "NSO", "XX", "Office", reference="2025", provisional=2, specials=(Special("CORE", "All but food", ("00",), ("01",)),),
    speaks=OfficeLanguages(("en", "fr")), reasons=(Reason(REVISED, 2, "A \"slip\",\nmended.", texts={"fr": "Une erreur."}),),
    ids={"COICOP18": "PRODUCT"}, language="cs", has_quality=True,
)  # fmt: skip


@pytest.fixture(scope="module")
def pack(published: list[Published], tmp_path_factory: pytest.TempPathFactory) -> Path:
    """The pack of an office with all kinds of CSV files."""
    out = tmp_path_factory.mktemp("csvw") / "public"
    publish(published, CONFIG, out, None, lambda _: None)
    return out


def test_each_file_is_as_its_metadata_say(pack: Path) -> None:
    files = sorted(pack.rglob("*.csv"))
    # (an item's file and that of its earlier revisions, and of the set)
    assert len([file for file in files if file.parent.name == "node"]) > CODES + 1 and len(files) > 80
    assert {
        "quality.csv",
        "headline.sdmx.csv",
        "revision-reasons.csv",
        "aggregate-members.csv",
        "rereferenced.csv",
        "cpi.sdmx.csv",
    } <= {file.name for file in files}
    assert [fault for path in files for fault in faults_of(path)] == []


def test_each_column_has_a_description_in_each_language(pack: Path) -> None:
    for path in pack.rglob("*.csv"):
        metadata = metadata_of(path)
        assert metadata
        for column in schema_of(path, *metadata)["columns"]:
            if column["name"] in ("STRUCTURE", "STRUCTURE_ID", "ACTION"):
                assert "dc:description" not in column
                continue
            texts = {it["@language"]: it["@value"] for it in column["dc:description"]}
            assert texts.keys() == {"en", "fr"}
            assert texts["en"] != texts["fr"] or texts["en"] in ("Observation", "Transformation"), column
            assert "{" not in texts["fr"]


def test_types_say_what_a_column_is(pack: Path) -> None:
    def columns(name: str) -> dict[str, dict[str, object]]:
        metadata = metadata_of(pack / name)
        assert metadata
        return {column["name"]: column for column in schema_of(pack / name, *metadata)["columns"]}

    found = columns("data/cpi.csv")
    kinds = {name: it["datatype"] for name, it in found.items()}
    assert (kinds["month"], kinds["chained"], kinds["published"]) == ("gYearMonth", "decimal", "dateTimeStamp")
    assert kinds["break"] == {"base": "boolean", "format": "1|0"}
    # titles are in the language of the tables, and reasons in their own
    assert found["title"]["lang"] == "cs" and "lang" not in found["code"]
    reasons = columns("data/revision-reasons.csv")
    assert reasons["reason_fr"]["lang"] == "fr" and reasons["reason_fr"]["titles"] == "reason-fr"
    assert reasons["month"]["datatype"] == "string"
    # an id that is the office's own has the meaning of ours
    assert columns("data/cpi.sdmx.csv")["PRODUCT"]["dc:description"] == [
        {"@value": "Item, by COICOP 2018", "@language": "en"}, {"@value": "Poste, selon la COICOP 2018", "@language": "fr"},
    ]  # fmt: skip
    assert [*columns("data/tables/2026-03-r1.csv")] == [
        "code", "weight", "index", "chained", "month_change", "year_change", "imputed", "title",
    ]  # fmt: skip


@pytest.mark.parametrize(
    ("old", "new", "said"),
    [
        ("month,revision", "months,revision", "its columns are"),
        (",base,break\n", ",base\n", "its columns are"),
        ("\n2026-01,", "\n2026-13,", "'2026-13' is no gYearMonth"),
        ("\n2026-01,", "\n,", "month is empty"),
        ("Z,00,0,", "Z,00,-1,", "'-1' is no nonNegativeInteger"),
        (",0\n2026", ",no\n2026", "'no' is no boolean 1|0"),
        (",1,0\n", ",1,0,0\n", "cells"),
        ("\n2026-02,1,", "\n2026-01,1,", "is there twice"),
    ],
)
def test_the_reader_sees_what_is_otherwise(pack: Path, tmp_path: Path, old: str, new: str, said: str) -> None:
    shutil.copyfile(pack / "data/csv-metadata.json", tmp_path / "csv-metadata.json")
    text = (pack / "data/cpi.csv").read_text(encoding="utf-8")
    if said == "cells":
        old, new = "\n2026-01", "\n,2026-01"
    assert old in text
    (tmp_path / "cpi.csv").write_text(text.replace(old, new), encoding="utf-8")
    assert [fault for fault in faults_of(tmp_path / "cpi.csv") if said in fault]


def test_the_files_of_items_have_their_columns_once(pack: Path) -> None:
    """An office has thousands of items: for each of them there is a line, and no more."""
    found = json.loads((pack / "node/csv-metadata.json").read_text(encoding="utf-8"))
    assert {tuple(sorted(table)) for table in found["tables"]} == {("url",), ("tableSchema", "url")}
    assert {table["url"] for table in found["tables"]} == {path.name for path in (pack / "node").glob("*.csv")}
    assert {table.get("tableSchema") for table in found["tables"]} == {None, "earlier-schema.json"}


def test_a_pack_without_revisions_has_no_columns_of_them(published: list[Published], tmp_path: Path) -> None:
    publish(published[:3], Config("NSO", "XX", "Office"), tmp_path / "public", None, lambda _: None)
    assert [path.name for path in (tmp_path / "public/node").glob("*.json")] == ["csv-metadata.json"]
    assert [fault for path in (tmp_path / "public").rglob("*.csv") for fault in faults_of(path)] == []


def test_each_known_column_is_of_some_file(pack: Path) -> None:
    """So a column that was renamed is seen."""
    heads = {
        name for path in pack.rglob("*.csv") for name in path.read_text(encoding="utf-8").split("\n")[0].split(",")
    }
    assert COLUMNS.keys() - heads == {"COICOP18"}

"""An office goes on from the pack that an earlier version of the tools wrote, without a refused run.

`tests/data/a-pack-of-an-earlier-version.tar.xz` was written by the tools of commit 5af7fa60: a configuration with two
special aggregates, an archive of a year and provisional months, the pack, which had been published twice, and the tables that
came next. Nobody writes it anew.
"""

from __future__ import annotations

import csv
import hashlib
import json
import re
import tarfile
from datetime import datetime, timezone
from pathlib import Path
from typing import Any

import pytest

from cpi_tools.publish.figures.config import Config, read_config
from cpi_tools.office.public import Listed, Published
from cpi_tools.publish.forms.sdmx import KNOWN_IDS
from cpi_tools.publish.pack import check, publish
from lib.places import ROOT

PACK = ROOT / "tests/data/a-pack-of-an-earlier-version.tar.xz"
VERSIONS = re.compile(
    r'<str:(?:Dataflow|Codelist|ConceptScheme|DataStructure) [^>]*\bid="(\w+)"[^>]*\bversion="([0-9.]+)"'
)


@pytest.fixture
def room(tmp_path: Path) -> Path:
    """The office's folder, as it was left."""
    with tarfile.open(PACK) as archive:
        archive.extractall(tmp_path)
    return tmp_path


def read_manifest(pack: Path) -> Any:
    return json.loads((pack / "manifest.json").read_bytes())


def tables_of(room: Path) -> list[Published]:
    """The tables of the pack."""
    tables = []
    for row in read_manifest(room / "public")["tables"]:
        listed = Listed(row["month"], row["revision"], seconds(row["published"]))
        tables.append(Published(listed, (room / "public/data/tables" / listed.file_name).read_bytes()))
    return tables


def seconds(text: str) -> int:
    """Seconds since 1970 of a moment in UTC."""
    return int(datetime.strptime(text, "%Y-%m-%dT%H:%M:%SZ").replace(tzinfo=timezone.utc).timestamp())


def next_tables(room: Path) -> list[Published]:
    """A revision, and the next month."""
    moments = {"2026-03-r2.csv": 15990, "2026-05-r1.csv": 17900}
    assert {path.name for path in (room / "next").iterdir()} == {*moments}
    return [
        Published(Listed(name[:7], int(name[9]), moment), (room / "next" / name).read_bytes())
        for name, moment in moments.items()
    ]


def published_by(room: Path, tables: list[Published]) -> list[str]:
    """Publishes over the pack; the lines that are told."""
    told: list[str] = []
    publish(tables, config_of(room), room / "public", None, lambda _: None, tell=told.append)
    return told


def config_of(room: Path) -> Config:
    return read_config(room / "office.ini", KNOWN_IDS)


def files(pack: Path) -> dict[str, bytes]:
    return {path.relative_to(pack).as_posix(): path.read_bytes() for path in pack.rglob("*") if path.is_file()}


def rows_of(data: bytes) -> list[dict[str, str]]:
    return [*csv.DictReader(data.decode().splitlines())]


def test_the_pack_is_the_one_that_was_kept(room: Path) -> None:
    for line in (room / "public/SHA256SUMS").read_text(encoding="utf-8").splitlines():
        its_sum, name = line.split("  ")
        assert hashlib.sha256((room / "public" / name).read_bytes()).hexdigest() == its_sum
    assert not (room / "public/data/artefacts.json").exists() and "changes" not in read_manifest(room / "public")


def test_the_same_tables_are_published_again(room: Path) -> None:
    """Each address and each published figure stays; what the new version has is there besides."""
    before, manifest = files(room / "public"), read_manifest(room / "public")
    told = published_by(room, tables_of(room))
    assert len(told) <= 1 and all("of earlier releases" in line for line in told)
    now, new = files(room / "public"), read_manifest(room / "public")
    assert before.keys() <= now.keys()
    assert (new["tables"], new["sets"]) == (manifest["tables"], manifest.get("sets", new["sets"]))
    for name in before:
        if name.startswith(("data/tables/", "node/")) and name.endswith(".csv") or name == "data/cpi.csv":
            assert now[name] == before[name], name
    for name in ("data/averages.csv", "data/contributions.csv", "data/rereferenced.csv", "data/aggregates.csv"):
        assert now[name] == before[name], name
    printed = [{key: row[key] for key in then} for row, then in zip(
        rows_of(now["data/printed.csv"]), rows_of(before["data/printed.csv"]))]  # fmt: skip
    assert printed == rows_of(before["data/printed.csv"])
    assert check(tables_of(room), config_of(room), room / "public", None, lambda _: None) == []


def test_versions_of_sdmx_rise_and_a_registry_takes_the_whole(room: Path) -> None:
    old = (room / "public/data/structure.sdmx.xml").read_text(encoding="utf-8")
    its_sum = hashlib.sha256((room / "public/manifest.json").read_bytes()).hexdigest()
    published_by(room, tables_of(room))
    new = (room / "public/data/structure.sdmx.xml").read_text(encoding="utf-8")
    then, now = dict(VERSIONS.findall(old)), dict(VERSIONS.findall(new))
    assert then.keys() <= now.keys() and len(then) == 8
    greatest = max(numbers(it) for it in then.values())
    assert all(numbers(it) > greatest for it in now.values())
    # (the columns of SDMX-CSV are others, so observations can't be compared)
    (row,) = read_manifest(room / "public")["changes"]
    assert (row["since"], row["replaced"], row["files"]) == (its_sum, None, {})


def numbers(version: str) -> tuple[int, ...]:
    return tuple(map(int, version.split(".")))


def test_the_next_release_comes_over_it_and_the_one_after_has_changes(room: Path) -> None:
    revision, month = next_tables(room)
    before = read_manifest(room / "public")
    published_by(room, tables_of(room) + [revision])
    published_by(room, tables_of(room) + [month])
    manifest = read_manifest(room / "public")
    assert manifest["tables"][: len(before["tables"])] != manifest["tables"]
    assert {(table["month"], table["revision"]) for table in manifest["tables"]} > {
        (table["month"], table["revision"]) for table in before["tables"]
    }
    first, second = manifest["changes"]
    assert (first["name"], first["replaced"]) == ("2026-03-r2", None)
    assert second["name"] == "2026-05-r1" and second["replaced"] > 0 and len(second["files"]) == 2
    vintages = rows_of((room / "public/data/vintages.csv").read_bytes())
    assert {row["month"] for row in vintages} == {"2026-03"}


def test_a_changed_table_is_refused_as_ever(room: Path) -> None:
    """What the earlier version published stays, and a figure of a set too."""
    before = files(room / "public")
    tables = tables_of(room)
    other = tables[-1]._replace(table=tables[-1].table.replace(b"1", b"2", 1))
    with pytest.raises(Exception, match="isn't the one that was published"):
        published_by(room, [*tables[:-1], other])
    (room / "aggregates.csv").write_text("id,title,in,out\nFOOD,Food,01,\nREST,Without food,00,FOOD\n")
    with pytest.raises(Exception, match="was published, and"):
        published_by(room, tables)
    assert files(room / "public") == before

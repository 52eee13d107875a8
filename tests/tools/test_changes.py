"""What each pack changed of the one before: the observations of that one with these changes are those of the pack."""

from __future__ import annotations

import csv
import hashlib
import io
import json
import zipfile
from pathlib import Path
from typing import Any

import pytest

from cpi_tools.publish.forms.pack_changes import LostChanges
from cpi_tools.publish.figures.config import Config
from cpi_tools.office.public import Published
from cpi_tools.publish.figures.announcements import Reason
from cpi_tools.publish.figures.specials import Special
from cpi_tools.publish.pack import check, publish
from lib.pack_forms import Attributes, read_sdmx_ml
from .published import REVISED

CONFIG = Config("NSO", "XX", "Office of prices", without=frozenset({"pictures", "slices", "px"}))
KEY = ("FREQ", "REF_AREA", "MEASURE", "UNIT_MEASURE", "COICOP18", "TRANSFORMATION", "TIME_PERIOD")
NOT_OF_IT = ("STRUCTURE", "STRUCTURE_ID", "ACTION")

Key = tuple[str, ...]
Observations = dict[Key, dict[str, str]]


def quiet(_: str) -> None:
    pass


def written(published: list[Published], config: Config, out: Path) -> Path:
    publish(published, config, out, None, quiet)
    return out


def rows_of(data: bytes) -> list[Attributes]:
    return [*csv.DictReader(io.StringIO(data.decode(), newline=""))]


def keyed(rows: list[Attributes]) -> Observations:
    """Observations, each once, with what is said of them."""
    found = {
        tuple(row[name] for name in KEY): {
            name: it for name, it in row.items() if it and name not in (*KEY, *NOT_OF_IT)
        }
        for row in rows
    }
    assert len(found) == len(rows)
    return found


def whole(pack: Path) -> Observations:
    """The observations of all years."""
    rows = rows_of((pack / "data/cpi.sdmx.csv").read_bytes())
    for path in pack.glob("data/years/*.zip"):
        with zipfile.ZipFile(path) as archive:
            rows += rows_of(archive.read(f"{path.stem}/cpi.sdmx.csv"))
    return keyed(rows)


def changes(pack: Path) -> list[dict[str, Any]]:
    changes: list[dict[str, Any]] = json.loads((pack / "manifest.json").read_bytes()).get("changes", [])
    return changes


def read(pack: Path, name: str, end: str) -> bytes:
    """A file of changes, the only one in its archive."""
    with zipfile.ZipFile(pack / f"data/changes/{name}.sdmx.{end}.zip") as archive:
        assert archive.namelist() == [f"{name}.sdmx.{end}"]
        return archive.read(f"{name}.sdmx.{end}")


def applied(before: Observations, rows: list[Attributes]) -> Observations:
    """What a registry has that replaces and deletes observations."""
    found, actions = dict(before), [row["ACTION"] for row in rows]
    assert actions == sorted(actions, reverse=True) and {*actions} <= {"R", "D"}
    for action, (key, said) in zip(actions, keyed(rows).items()):
        if action == "R":
            assert found.get(key) != said, f"{key} is the same"
            found[key] = said
        else:
            assert not said
            del found[key]
    return found


def in_xml(data: bytes) -> tuple[Observations, set[Key]]:
    """What a message of SDMX-ML replaces and deletes."""
    begin, _, rest = data.partition(b"<message:DataSet")
    replaced, deleted = Observations(), set[Key]()
    for part in rest.split(b"<message:DataSet"):
        text = begin + b"<message:DataSet" + part.partition(b"</message:DataSet>")[0]
        text += b"</message:DataSet></message:StructureSpecificData>"
        rows = [*read_sdmx_ml(io.BytesIO(text))]
        if b'action="Replace"' in part:
            replaced = keyed(rows)
        else:
            assert b'action="Delete"' in part and {*map(len, rows)} == {len(KEY)}
            deleted = {*keyed(rows)}
    return replaced, deleted


def follow(out: Path, published: list[Published], config: Config, before: Observations) -> tuple[Observations, Any]:
    """The observations of the next pack, and its row of changes, which leads from those before to it."""
    rows, manifest = changes(out), (out / "manifest.json").read_bytes()
    kept = {name: (out / name).read_bytes() for row in rows for name in row["files"]}
    written(published, config, out)
    now, (*earlier, row) = whole(out), changes(out)
    assert earlier == rows and all((out / name).read_bytes() == data for name, data in kept.items())
    assert row["since"] == hashlib.sha256(manifest).hexdigest()
    data = read(out, row["name"], "csv")
    attributes = rows_of(data)
    assert (row["replaced"], row["deleted"]) == tuple(
        sum(attribute["ACTION"] == action for attribute in attributes) for action in ("R", "D")
    )
    assert applied(before, attributes) == now
    replaced, deleted = in_xml(read(out, row["name"], "xml"))
    assert replaced == keyed([attribute for attribute in attributes if attribute["ACTION"] == "R"])
    assert deleted == {*keyed([attribute for attribute in attributes if attribute["ACTION"] == "D"])}
    assert {*row["files"]} == {f"data/changes/{row['name']}.sdmx.{end}.zip" for end in ("csv", "xml")}
    for name, its_sum in row["files"].items():
        assert hashlib.sha256((out / name).read_bytes()).hexdigest() == its_sum
        assert f"{its_sum}  {name}\n" in (out / "SHA256SUMS").read_text(encoding="utf-8")
    return now, row


def until(published: list[Published], month: str) -> list[Published]:
    return [publication for publication in published if publication.listed.month <= month]


def first(published: list[Published]) -> list[Published]:
    """The tables without their further revisions."""
    return [publication for publication in published if publication.listed.revision == 1]


@pytest.fixture(scope="module")
def made(published: list[Published], tmp_path_factory: pytest.TempPathFactory) -> tuple[Path, dict[str, Any]]:
    """An office with archives of earlier years that publishes month by month, and the rows of its changes."""
    out, config = tmp_path_factory.mktemp("changes") / "public", CONFIG._replace(years=1, provisional=2)
    written(until(first(published), "2025-11"), config, out)
    assert not (out / "data/changes").exists() and changes(out) == []
    before, rows = whole(out), {}
    for month in ("2025-12", "2026-01", "2026-03", "2026-05", "2027-01"):
        before, rows[month] = follow(out, until(first(published), month), config, before)
    before, rows["revision"] = follow(out, until(published, "2027-01"), config, before)
    return out, rows


def test_each_pack_has_its_changes(made: tuple[Path, dict[str, Any]]) -> None:
    _, rows = made
    names = {"2025-12": "2025-12-r1", "2026-01": "2026-01-r1", "2026-03": "2026-03-r1", "2026-05": "2026-05-r1",
             "2027-01": "2027-01-r1"}  # fmt: skip
    assert {month: rows[month]["name"] for month in names} == names
    assert rows["2025-12"]["releases"] == ["2025-12-r1"]
    assert rows["2026-03"]["releases"] == ["2026-02-r1", "2026-03-r1"]
    # (a month of 17 items is new, and one is final)
    assert rows["2025-12"]["deleted"] == 0 < rows["2025-12"]["replaced"]


def test_a_revision_of_an_archived_year_is_among_them(made: tuple[Path, dict[str, Any]]) -> None:
    out, rows = made
    row = rows["revision"]
    assert row["releases"] == [f"{REVISED}-r2"] and row["name"] == f"{REVISED}-r2"
    attributes = rows_of(read(out, row["name"], "csv"))
    assert {attribute["TIME_PERIOD"] for attribute in attributes if attribute["REVISION"] == "2"} == {REVISED}
    assert f"data/years/{REVISED[:4]}.zip" in {path.relative_to(out).as_posix() for path in out.rglob("*.zip")}


def test_the_same_again_changes_nothing(made: tuple[Path, dict[str, Any]], published: list[Published]) -> None:
    out, _ = made
    config, sums = CONFIG._replace(years=1, provisional=2), (out / "SHA256SUMS").read_bytes()
    written(until(published, "2027-01"), config, out)
    assert (out / "SHA256SUMS").read_bytes() == sums
    assert check(until(published, "2027-01"), config, out, None, quiet) == []


def test_what_the_office_changes_without_a_table_is_a_change(published: list[Published], tmp_path: Path) -> None:
    """A set comes; it gets another definition for all months, with a reason; months become final."""
    out, tables = written(published[:14], CONFIG._replace(provisional=3), tmp_path / "public"), published[:14]
    before = whole(out)
    sets = (Special("FRUIT", "Fruit", ("01.1.6",)),)
    before, row = follow(out, tables, CONFIG._replace(provisional=3, specials=sets), before)
    assert (row["name"], row["releases"], row["deleted"]) == ("2026-01-r1", [], 0)
    final = {**CONFIG._replace(specials=sets)._asdict()}
    before, row = follow(out, tables, Config(**final), before)
    assert row["name"] == "2026-01-r1-2"
    rows = rows_of(read(out, row["name"], "csv"))
    assert {attributes["OBS_STATUS"] for attributes in rows} == {"A"} and {
        attributes["TIME_PERIOD"] for attributes in rows
    } >= {"2026-01", "2025"}


def test_an_observation_that_is_gone_is_deleted(published: list[Published], tmp_path: Path) -> None:
    """A reason lets a set have other members in all months, so that it begins later."""
    fruit, phone = (Special("SET", "A set", (code,)) for code in ("01.1.6", "08"))
    out = written(published[:15], CONFIG._replace(specials=(fruit,)), tmp_path / "public")
    reason = Reason("SET", 2, "It is another one.", published[14].listed.moment)
    now, row = follow(out, published[:15], CONFIG._replace(specials=(phone,), reasons=(reason,)), whole(out))
    gone = [attributes for attributes in rows_of(read(out, row["name"], "csv")) if attributes["ACTION"] == "D"]
    assert row["deleted"] == len(gone) > 0 and {attributes["COICOP18"] for attributes in gone} == {"SET"}
    assert {attributes["TIME_PERIOD"][:4] for attributes in gone} == {"2025"}


@pytest.mark.parametrize("years", [(1, 3), (3, 1), (1, 2), (2, 1)])
def test_other_years_in_the_files_change_no_observation(
    published: list[Published], tmp_path: Path, years: tuple[int, int]
) -> None:
    """A year moves from its archive into the files of all, or back: nothing of it is another one."""
    then, now = (CONFIG._replace(years=year) for year in years)
    out = written(until(first(published), "2027-02"), then, tmp_path / "public")
    before, manifest = whole(out), (out / "manifest.json").read_bytes()
    written(until(first(published), "2027-02"), now, out)
    assert (changes(out), (out / "manifest.json").read_bytes()) == ([], manifest) and whole(out) == before
    written(until(first(published), "2027-02"), then, out)
    before, row = follow(out, until(first(published), "2027-03"), now, before)
    assert {attributes["TIME_PERIOD"] for attributes in rows_of(read(out, row["name"], "csv"))} == {"2027-03"}


# ---- what stays, and what is refused


def test_changes_that_are_lost_are_refused(
    made: tuple[Path, dict[str, Any]], published: list[Published], tmp_path: Path
) -> None:
    out, _ = made
    config = CONFIG._replace(years=1, provisional=2)
    path = out / "data/changes/2026-01-r1.sdmx.csv.zip"
    data = path.read_bytes()
    for other in (None, data + b"x"):
        path.unlink()
        if other:
            path.write_bytes(other)
        before = {path: path.read_bytes() for path in out.rglob("*") if path.is_file()}
        with pytest.raises(
            LostChanges, match=r"changes/2026-01-r1\.sdmx\.csv\.zip isn't there as it was published: put"
        ):
            written(published, config, out)
        assert {path: path.read_bytes() for path in out.rglob("*") if path.is_file()} == before
        path.write_bytes(data)
    assert check(until(published, "2027-01"), config, out, None, quiet) == []


@pytest.mark.parametrize("way", ["columns", "form", "damage"])
def test_packs_that_cannot_be_compared_say_so(published: list[Published], tmp_path: Path, way: str) -> None:
    """The columns have other names, the pack before had no SDMX-CSV, or its file isn't as its sum says."""
    config = CONFIG._replace(ids={"COICOP18": "PRODUCT"}) if way == "columns" else CONFIG
    without = CONFIG.without | ({"sdmx-csv"} if way == "form" else set())
    out = written(published[:13], config._replace(without=frozenset(without)), tmp_path / "public")
    if way == "damage":
        with (out / "data/cpi.sdmx.csv").open("a") as file:
            file.write("\n")
    manifest = (out / "manifest.json").read_bytes()
    written(published[:14], CONFIG, out)
    wanted: dict[str, object] = {
        "name": "2026-01-r1", "releases": ["2026-01-r1"], "since": hashlib.sha256(manifest).hexdigest(),
        "replaced": None, "deleted": None, "files": {},
    }  # fmt: skip
    assert changes(out) == [wanted]
    follow(out, published[:15], CONFIG, whole(out))


def test_a_pack_elsewhere_is_followed(published: list[Published], tmp_path: Path) -> None:
    """--previous names the manifest of another folder: its changes are taken over, and those since are added."""
    one = written(published[:13], CONFIG, tmp_path / "one")
    written(published[:14], CONFIG, one)
    publish(published[:15], CONFIG, tmp_path / "other", one / "manifest.json", quiet)
    written(published[:15], CONFIG, one)
    assert changes(tmp_path / "other") == changes(one) and len(changes(one)) == 2
    for row in changes(one):
        for name in row["files"]:
            assert (tmp_path / "other" / name).read_bytes() == (one / name).read_bytes()


def test_an_archive_of_a_pack_elsewhere_is_compared(published: list[Published], tmp_path: Path) -> None:
    """The pack that is replaced has the archive that the new one takes, and the pack that is followed has another one."""
    config, tables = CONFIG._replace(years=1), until(first(published), "2027-02")
    out, elsewhere = tmp_path / "public", tmp_path / "elsewhere"
    written(tables, config, out)
    written(tables, config._replace(reference="2025"), elsewhere)
    before = whole(elsewhere)
    publish(until(first(published), "2027-03"), config, out, elsewhere / "manifest.json", quiet)
    (row,) = changes(out)
    rows = rows_of(read(out, row["name"], "csv"))
    assert applied(before, rows) == whole(out)
    assert {attributes["TIME_PERIOD"][:4] for attributes in rows} == {"2025", "2026", "2027"}


def test_an_office_without_sdmx_has_none(published: list[Published], tmp_path: Path) -> None:
    config = CONFIG._replace(without=CONFIG.without | {"sdmx-csv"})
    out = written(published[:13], config, tmp_path / "public")
    written(published[:14], config, out)
    assert changes(out) == [] and not (out / "data/changes").exists()

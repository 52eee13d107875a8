"""Special aggregates are publications: their figures stay, another definition is dated or has a reason, and earlier figures
are kept in `vintages.csv`."""

from __future__ import annotations

import csv
import hashlib
import json
import shutil
from pathlib import Path

import pytest

from cpi_tools.office.folders import files_of
from cpi_tools.publish.figures.aggregated import series_of, vintages_of
from cpi_tools.publish.figures.config import FORMS, Config
from cpi_tools.office.public import Listed, Published
from cpi_tools.publish.forms.published_sets import OtherSets
from cpi_tools.publish.figures.announcements import BadReasons, Reason
from cpi_tools.publish.figures.specials import BadSpecials, Special, specials_of
from cpi_tools.publish.pack import check, publish
from cpi_tools.text.terminal import Fault
from .published import REVISED
from .test_measures import over_another_december
from .test_site import words_of
from .test_specials import below

CORE = Special("CORE", "Core", ("00",), ("07",))
OTHER = Special("CORE", "Core", ("00",), ("01",))
FUELS = Special("FUELS", "Fuels", ("07",))
CONFIG = Config("NSO", "XX", "Office of prices", specials=(CORE, FUELS), without=frozenset(FORMS))
ADDED = 1_600_000_000
WHY = Reason("CORE", 2, "Fuels were left out by a slip", ADDED)


def put(published: list[Published], out: Path, config: Config = CONFIG, before: Path | None = None) -> None:
    publish(published, config, out, before, lambda _: None)


def up_to(published: list[Published], last: str) -> list[Published]:
    """The tables of the months up to one."""
    return [publication for publication in published if publication.listed.month <= last]


def with_sets(*specials: Special, reasons: tuple[Reason, ...] = ()) -> Config:
    return CONFIG._replace(specials=specials, reasons=reasons)


@pytest.fixture(scope="module")
def first(published: list[Published], tmp_path_factory: pytest.TempPathFactory) -> Path:
    """The pack of two sets."""
    out = tmp_path_factory.mktemp("sets") / "public"
    put(published, out)
    return out


@pytest.fixture
def pack(first: Path, tmp_path: Path) -> Path:
    """A copy of it."""
    shutil.copytree(first, tmp_path / "public")
    return tmp_path / "public"


def content(pack: Path) -> dict[str, bytes]:
    return {name: (pack / name).read_bytes() for name in files_of(pack)}


def rows_of(path: Path) -> list[dict[str, str]]:
    with path.open(encoding="utf-8", newline="") as file:
        return list(csv.DictReader(file))


def level(pack: Path, name: str, month: str) -> str:
    return next(row["chained"] for row in rows_of(pack / f"node/{name}.csv") if row["month"] == month)


# ---- refused


def test_another_definition_is_refused_with_set_month_and_both_figures(
    published: list[Published], pack: Path, tmp_path: Path
) -> None:
    before = content(pack)
    put(published, tmp_path / "other", with_sets(OTHER, FUELS))
    then, now = (level(each, "CORE", "2025-01") for each in (pack, tmp_path / "other"))
    assert then != now
    with pytest.raises(OtherSets) as told:
        put(published, pack, with_sets(OTHER, FUELS))
    text = str(told.value)
    assert text.startswith(f"CORE, 2025-01: {then} was published, and {now} is computed now: ") and "\n" not in text
    assert "(CORE,2,..)" in text and content(pack) == before


@pytest.mark.parametrize("left", [(CORE,), ()])
def test_a_set_that_is_left_out_is_refused(published: list[Published], pack: Path, left: tuple[Special, ...]) -> None:
    before = content(pack)
    with pytest.raises(OtherSets, match=r"^[A-Z]+, 2025-01: [0-9.]+ was published, and no figure is computed now"):
        put(published, pack, with_sets(*left))
    assert content(pack) == before


def test_a_pack_whose_manifest_has_no_sets_is_guarded_too_and_goes_on(published: list[Published], pack: Path) -> None:
    """As version 1.0 wrote it."""
    manifest = json.loads((pack / "manifest.json").read_text())
    assert [it["id"] for it in manifest.pop("sets")] == ["CORE", "FUELS"]
    (pack / "manifest.json").write_text(json.dumps(manifest))
    old = hashlib.sha256((pack / "manifest.json").read_bytes()).hexdigest()
    with pytest.raises(OtherSets, match="^CORE, 2025-01"):
        put(published, pack, with_sets(OTHER, FUELS))
    put(published, pack)
    manifest = json.loads((pack / "manifest.json").read_text())
    assert manifest["previous"] == old and len(manifest["sets"]) == 2


def test_a_manifest_from_elsewhere_guards_sets_by_their_sums(
    published: list[Published], pack: Path, tmp_path: Path
) -> None:
    """Its pack isn't beside it. If it is, the figure is named."""
    alone = tmp_path / "kept/manifest.json"
    alone.parent.mkdir()
    shutil.copy(pack / "manifest.json", alone)
    for path, says in (
        (alone, "^CORE, 2025-01 to 2027-05: its figures aren't those that were published"),
        (pack / "manifest.json", "^CORE, 2025-01: [0-9.]+ was published, and [0-9.]+ is computed now"),
    ):
        with pytest.raises(OtherSets, match=says):
            put(published, tmp_path / "other", with_sets(OTHER, FUELS), path)
    put(published, tmp_path / "other", CONFIG, alone)


def test_the_earlier_figures_of_a_definition_come_from_the_pack_that_is_followed(
    published: list[Published], pack: Path, tmp_path: Path
) -> None:
    """A pack that --previous names has them, though none is replaced."""
    put(published, pack, with_sets(OTHER, FUELS, reasons=(WHY,)))
    put(published, tmp_path / "other", with_sets(OTHER, FUELS, reasons=(WHY,)), pack / "manifest.json")
    wanted, found = (rows_of(path / "data/vintages.csv") for path in (pack, tmp_path / "other"))
    assert found == wanted and any(row["code"] == "CORE" for row in found)


def test_the_manifest_has_the_sum_of_each_set(pack: Path) -> None:
    """Computed once more from its file."""
    for it in json.loads((pack / "manifest.json").read_text())["sets"]:
        rows = rows_of(pack / f"node/{it['id']}.csv")
        names = ("month", "revision", "weight", "index", "chained", "month_change", "year_change", "imputed")
        text = "".join(",".join(row[name] for name in names) + "\n" for row in rows)
        assert it["sha256"] == hashlib.sha256(text.encode()).hexdigest()
        assert (it["first"], it["last"]) == (rows[0]["month"], rows[-1]["month"])


def test_a_changed_title_a_new_set_a_next_month_and_a_revision_are_taken(
    published: list[Published], tmp_path: Path
) -> None:
    """Table by table, each over the pack before, as the office published them; nothing is refused, and the last pack has
    the bytes of one that is made from nothing, but for what names the manifest before and the versions before."""
    out = tmp_path / "public"
    order = sorted(published, key=lambda publication: (publication.listed.moment, publication.listed.month))
    for count in (16, 17, len(order)):
        put(order[:count], out)
    config = with_sets(CORE._replace(title="Core, once more"), FUELS, Special("FOOD", "Food", ("01",)))
    put(published, out, config)
    put(published, tmp_path / "new", config)
    one, other = content(out), content(tmp_path / "new")
    chained = {"manifest.json", "SHA256SUMS", "data/artefacts.json"}
    assert {name for name in one if one[name] != other.get(name)} <= chained


# ---- a definition with its month


DATED = (CORE, Special("CORE", "Core", ("00",), ("01",), "2027-01"), FUELS)


def test_a_dated_definition_leaves_what_was_published(published: list[Published], pack: Path) -> None:
    then = rows_of(pack / "node/CORE.csv")
    put(up_to(published, "2026-12"), pack.parent / "earlier")
    put(published, pack.parent / "earlier", with_sets(*DATED))
    now = rows_of(pack.parent / "earlier/node/CORE.csv")
    names = [name for name in now[0] if not name.startswith("contribution")]
    assert [row for row in now if row["month"] < "2027"] == [row for row in then if row["month"] < "2027"]
    assert [row["break"] for row in now if row["month"] >= "2027"] == ["1", "0", "0", "0", "0"] and names
    assert next(row for row in now if row["month"] == "2027-01")["base"] == then[0]["base"]
    assert "from January 2027 on, it contains different elementary aggregates" in words_of(
        pack.parent / "earlier/node/CORE.html"
    )


def test_a_date_before_the_last_published_month_is_refused(published: list[Published], pack: Path) -> None:
    with pytest.raises(OtherSets, match="^CORE, 2027-01: "):
        put(published, pack, with_sets(*DATED))


def test_a_set_that_ends_keeps_its_page(published: list[Published], tmp_path: Path) -> None:
    out = tmp_path / "public"
    put(up_to(published, "2026-12"), out)
    then = rows_of(out / "node/CORE.csv")
    put(published, out, with_sets(CORE, Special("CORE", "Core", (), (), "2027-01"), FUELS))
    now = rows_of(out / "node/CORE.csv")
    assert now == then and now[-1]["month"] == "2026-12"
    told = words_of(out / "node/CORE.html")
    assert "It contains all items , without transport ." in told and "December 2026" in told
    assert {row["code"] for row in rows_of(out / "data/aggregates.csv") if row["month"] > "2026-12"} == {"FUELS"}
    put(published, out, with_sets(CORE, Special("CORE", "Core", (), (), "2027-01"), FUELS))


@pytest.mark.parametrize(
    ("text", "because"),
    [
        ("A,B,01,,\nA,C,02,,\n", "A has two rows: the further one needs in the column from"),
        ("A,B,01,,2027-01\nA,C,02,,2026-01\n", "A has two rows"),
        ("A,B,01,,2027-03\n", "row 2: A is from 2027-03, which is no January such as 2027-01"),
        ("A,B,,,\n", "row 2: A has nothing in it"),
        ("A,B,,,2027-01\n", "A ends before it has anything in it"),
        ("A,B,01,,\nA,B,,02,2027-01\n", "row 3: A has nothing in it"),
        ("A,B,01 C,,\nC,D,02,,\nC,D,A,,2027-01\n", "A is made of itself"),
    ],
)
def test_a_file_with_dates_and_a_fault_is_one_line(text: str, because: str) -> None:
    with pytest.raises(BadSpecials) as told:
        specials_of([*csv.reader(f"id,title,in,out,from\n{text}".splitlines())])
    assert because in str(told.value)


def test_sets_of_sets_follow_the_definition_of_the_year(published: list[Published]) -> None:
    rows = [["id", "title", "in", "out", "from"], ["F", "F", "01", "", ""], ["F", "F", "07", "", "2027-01"],
            ["G", "G", "F 08", "", "2026-01"]]  # fmt: skip
    series = series_of(published, specials_of(rows))
    members = series.specials["G"].members
    assert members["2025"] == () and members["2026"] == ("01.1.1.1-01", "08.1.1.1-01")
    assert members["2027"] == ("07.2.2.1-01", "08.1.1.1-01") and series.marks("G") == ["2027-01"]


# ---- a definition for all months, with its reason


def test_with_a_reason_the_earlier_figures_stay_beside_the_new_ones(
    published: list[Published], pack: Path, tmp_path: Path
) -> None:
    then, config = rows_of(pack / "node/CORE.csv"), with_sets(OTHER, FUELS, reasons=(WHY,))
    put(published, pack, config)
    now = {row["month"]: row for row in rows_of(pack / "node/CORE.csv")}
    rows = [row for row in rows_of(pack / "data/vintages.csv") if row["code"] == "CORE"]
    for row in then:
        lines = [it for it in rows if it["month"] == row["month"]]
        assert lines[-2]["chained"] == row["chained"] and lines[-1]["chained"] == now[row["month"]]["chained"]
        assert (lines[-2]["published"], lines[-1]["published"]) == (row["published"], "2020-09-13T12:26:40Z")
        assert len(lines) == (3 if row["month"] == REVISED else 2)
    assert rows_of(pack / "data/revision-reasons.csv")[-1]["reason"] == WHY.text
    assert WHY.text in words_of(pack / "node/CORE.html") and WHY.text in words_of(pack / "revisions.html")
    assert check(published, config, pack, None, lambda _: None) == []
    # (once more, and the reason doesn't excuse a third definition)
    vintages = (pack / "data/vintages.csv").read_bytes()
    put(published, pack, config)
    assert (pack / "data/vintages.csv").read_bytes() == vintages
    with pytest.raises(OtherSets, match=r"^CORE, 202[56]-01.*\(CORE,3,\.\.\)$"):
        put(published, pack, with_sets(FUELS._replace(id="CORE"), FUELS, reasons=(WHY,)))
    third = (WHY, Reason("CORE", 3, "Once more", ADDED + 1))
    put(published, pack, with_sets(FUELS._replace(id="CORE"), FUELS, reasons=third))
    rows = [row for row in rows_of(pack / "data/vintages.csv") if (row["code"], row["month"]) == ("CORE", "2026-02")]
    assert len(rows) == 3 and len({row["chained"] for row in rows}) == 3


def test_a_reason_of_a_set_needs_the_set_the_time_and_the_one_before(published: list[Published], pack: Path) -> None:
    for reason, because in (
        (WHY._replace(month="NONE"), "a reason names NONE, which is no special aggregate"),
        (WHY._replace(revision=3), "CORE, definition 3, has a reason, and the one before has none"),
    ):
        with pytest.raises(BadReasons, match=because):
            put(published, pack, with_sets(CORE, FUELS, reasons=(reason,)))
    put(published, pack, with_sets(OTHER, FUELS, reasons=(WHY,)))
    with pytest.raises(BadReasons, match="the reason of CORE, revision 2, was published"):
        put(published, pack, with_sets(OTHER, FUELS))


# ---- what revisions changed


def test_a_revised_month_has_its_first_figure(published: list[Published], pack: Path, tmp_path: Path) -> None:
    """As it was in a pack of the tables that were out then."""
    out = [
        publication
        for publication in published
        if publication.listed.month < REVISED or publication.listed[:2] == (REVISED, 1)
    ]
    put(out, tmp_path / "then")
    rows = [row for row in rows_of(pack / "data/vintages.csv") if row["code"] == "CORE"]
    assert [row["month"] for row in rows] == [REVISED, REVISED] and [row["revision"] for row in rows] == ["1", "2"]
    assert rows[0]["chained"] == level(tmp_path / "then", "CORE", REVISED) != rows[1]["chained"]
    assert rows[1]["chained"] == level(pack, "CORE", REVISED)


def test_a_december_that_comes_out_late_changes_the_sets_of_january() -> None:
    """The set of all items goes on from the published December, and from the revised one once that is out."""
    tables = [
        Published(it.listed, b"".join(sorted((it.table + b"".join(map(below, parts(it)))).splitlines(keepends=True))))
        for it in over_another_december()
    ]
    late = next(publication for publication in tables if publication.listed.month == "2026-12")
    table = late.table.replace(b",104.000000,104.000000,", b",106.000000,106.000000,")
    last = max(publication.listed.moment for publication in tables) + 1
    series = series_of([*tables, Published(Listed("2026-12", 2, last), table)], [Special("EVERY", "All", ("00",))])
    january = vintages_of(series)["EVERY"]["2027-01"]
    assert [it.row.chained for it in january] == [109_200_000, series.specials["EVERY"].rows["2027-01"].chained]
    assert january[0].row.chained != january[1].row.chained and january[1].moment == last


def parts(publication: Published) -> list[bytes]:
    """The rows of divisions."""
    return [line for line in publication.table.splitlines() if line[:2] != b"00"]


def test_a_file_of_a_set_that_cant_be_read_is_one_line(published: list[Published], pack: Path) -> None:
    (pack / "node/CORE.csv").write_text("no\nfile\n")
    # (its sum in the manifest is enough as long as nothing changed)
    with pytest.raises(Fault, match=r"node/CORE\.csv can't be read"):
        put(published, pack)

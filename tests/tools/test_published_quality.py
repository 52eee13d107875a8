"""Published figures of quality stay: other counts, another calendar or another configuration are refused, or have the office's
reason, with which the earlier figures stay as superseded ones."""

from __future__ import annotations

import csv
import io
import json
import shutil
from collections.abc import Sequence
from pathlib import Path

import pytest

from cpi_tools.office.folders import files_of
from cpi_tools.text.clocks import UTC, clock_of
from cpi_tools.publish.figures.config import FORMS, Config
from cpi_tools.publish.figures.announcements import BadReasons, Planned, Reason, reasons_of
from cpi_tools.office.public import Published
from cpi_tools.publish.releases.published_before import OtherQuality
from cpi_tools.publish.figures.survey_rows import Cell, Figures
from cpi_tools.publish.pack import CannotPublish, check, publish
from lib.page_texts import Texts

CONFIG = Config("NSO", "XX", "Office of prices", has_quality=True, without=frozenset(FORMS))
ADDED = 1_600_000_000
WHY = Reason("quality", 2, "Outlet 7 had been left out.", ADDED)
FULL = Figures(9, 40, 30, 2, 6, 4, 40, 10)


def counts(tables: Sequence[Published], **others: Figures | None) -> tuple[Cell, ...]:
    """Those of all tables with rows, but for others of the release 2025-02 by division, such as `d01`."""
    cells = list[Cell]()
    for month, revision, _ in (table.listed for table in tables if table.table):
        for division in ("00", "01", "07"):
            is_other = month == "2025-02" and f"d{division}" in others
            cells.append(Cell(month, revision, division, others[f"d{division}"] if is_other else FULL))
    return tuple(cells)


def put(tables: Sequence[Published], config: Config, out: Path, before: Path | None = None) -> None:
    publish(tables, config, out, before, lambda _: None)


@pytest.fixture(scope="module")
def tables(published: list[Published]) -> list[Published]:
    """The first December, and four months."""
    return published[:5]


@pytest.fixture(scope="module")
def first(tables: list[Published], tmp_path_factory: pytest.TempPathFactory) -> Path:
    out = tmp_path_factory.mktemp("quality") / "public"
    put(tables, CONFIG._replace(counts=counts(tables)), out)
    return out


@pytest.fixture
def pack(first: Path, tmp_path: Path) -> Path:
    """A copy of the pack."""
    shutil.copytree(first, tmp_path / "public")
    return tmp_path / "public"


def content(pack: Path) -> dict[str, bytes]:
    return {name: (pack / name).read_bytes() for name in files_of(pack)}


def rows_of(pack: Path) -> list[dict[str, str]]:
    return [*csv.DictReader(io.StringIO((pack / "data/quality.csv").read_text(encoding="utf-8")))]


def figures(pack: Path, indicator: str, code: str, month: str = "2025-02") -> list[tuple[str, str]]:
    """The values and statuses of an indicator of a division in a month."""
    named = (month, indicator, code)
    return [
        (row["value"], row["status"]) for row in rows_of(pack) if (row["month"], row["indicator"], row["code"]) == named
    ]


# ---- refused


@pytest.mark.parametrize(
    "others, says",
    [
        ({"d01": FULL._replace(priced=31, silent=3)},
         "priced of 2025-02, revision 1, 01: 30 was published, and 31 is made now"),
        ({"d07": FULL._replace(imputed=11)}, "imputed of 2025-02, revision 1, 07: 10 was published, and 11 is made now"),
        ({"d01": None, "d07": None}, "outlets of 2025-02, revision 1, 01: 9 was published, and a hidden figure is made now"),
    ],
)  # fmt: skip
def test_counts_that_were_edited_are_refused(
    tables: list[Published], pack: Path, others: dict[str, Figures | None], says: str
) -> None:
    before = content(pack)
    with pytest.raises(OtherQuality) as told:
        put(tables, CONFIG._replace(counts=counts(tables, **others)), pack)
    assert str(told.value).startswith(says) and "(quality,2,..)" in str(told.value) and "\n" not in str(told.value)
    assert content(pack) == before


def test_counts_that_are_left_out_are_refused(tables: list[Published], pack: Path) -> None:
    """Those of a release, all of them (`quality = tables`), and quality as a whole, for which no reason is enough."""
    before, all_counts = content(pack), counts(tables)
    less = tuple(cell for cell in all_counts if cell.month != "2025-02")
    for own in (less, ()):
        with pytest.raises(OtherQuality, match="outlets of 2025-0[12], revision 1, 00: 9 was published, and no figure"):
            put(tables, CONFIG._replace(counts=own), pack)
    for reasons in ((), (WHY,)):
        with pytest.raises(OtherQuality, match="has quality in figures: `quality` has to stay in the configuration"):
            put(tables, CONFIG._replace(has_quality=False, reasons=reasons), pack)
    assert content(pack) == before


def test_a_hidden_division_isnt_shown_later(tables: list[Published], tmp_path: Path) -> None:
    hidden = CONFIG._replace(counts=counts(tables, d01=None, d07=None))
    put(tables, hidden, tmp_path / "public")
    with pytest.raises(OtherQuality, match="2025-02, revision 1, 01: a hidden figure was published, and 9 is made now"):
        put(tables, CONFIG._replace(counts=counts(tables)), tmp_path / "public")


def test_time_lags_stay_though_the_clock_is_another(tables: list[Published], pack: Path) -> None:
    """By the clock of Honolulu a table that came at 01:00 UTC came on the day before."""
    config = CONFIG._replace(counts=counts(tables), clock=clock_of("Pacific/Honolulu"))
    with pytest.raises(
        OtherQuality, match="^time_lag of 2025-0[1-4], revision 1, 00: -[0-9]+ was published, and -[0-9]+"
    ):
        put(tables, config, pack)


def test_the_next_month_and_the_same_again_are_taken(published: list[Published], pack: Path) -> None:
    for number in (5, 6, 7):
        put(published[:number], CONFIG._replace(counts=counts(published[:number])), pack)
    assert {row["status"] for row in rows_of(pack)} == {""}
    assert [row["month"] for row in rows_of(pack) if row["indicator"] == "imputed_weight"][0] == "2025-06"


def test_a_row_that_leaves_the_calendar_leaves_the_delay(tables: list[Published], tmp_path: Path) -> None:
    """An office takes what is out from its calendar. Of a release that no pack had announced the delay is by that row."""
    out, listed = tmp_path / "public", tables[2].listed
    plan = Planned(listed.month, listed.revision, listed.moment - 60)
    put(tables, CONFIG._replace(planned=(plan,)), out)
    assert figures(out, "delay", "00", listed.month) == [("60", "")]
    put(tables, CONFIG, out)
    assert figures(out, "delay", "00", listed.month) == [("60", "")]
    with pytest.raises(
        OtherQuality, match=f"^delay of {listed.month}, revision 1, 00: 0 was published, and 30 is made"
    ):
        put(tables, CONFIG._replace(planned=()), tmp_path / "on-time")
        on_time = Planned(listed.month, listed.revision, listed.moment)
        put(tables, CONFIG._replace(planned=(on_time,)), tmp_path / "on-time")
        put(tables, CONFIG._replace(planned=(on_time._replace(moment=listed.moment - 30),)), tmp_path / "on-time")


# ---- with a reason


def test_with_a_reason_the_earlier_figures_stay_as_superseded(tables: list[Published], pack: Path) -> None:
    other = FULL._replace(priced=31, silent=3)
    config = CONFIG._replace(counts=counts(tables, d01=other), reasons=(WHY,))
    before = rows_of(pack)
    put(tables, config, pack)
    assert figures(pack, "priced", "01") == [("30", "superseded"), ("31", "")]
    assert figures(pack, "response_rate", "01") == [("75.0", "superseded"), ("77.5", "")]
    assert figures(pack, "asked", "01") == [("40", "")] and figures(pack, "priced", "07") == [("30", "")]
    superseded = [{**row, "status": ""} for row in rows_of(pack) if row["status"] == "superseded"]
    assert len(superseded) == 3 and all(row in before for row in superseded)
    said = " ".join(Texts.of_page(pack / "quality.html").of("p"))
    assert "corrected on" in said and "Outlet 7 had been left out." in said
    assert "quality,2,2020-09-13T12:26:40Z,Outlet 7" in (pack / "data/revision-reasons.csv").read_text(encoding="utf-8")
    book = json.loads((pack / "data/quality.json").read_text(encoding="utf-8"))
    assert sum(row.get("status") == "superseded" for part in book["sections"] for row in part["figures"]) == 3
    # it stays so, `--check` finds nothing, and a further correction needs a further reason
    sums = (pack / "SHA256SUMS").read_bytes()
    put(tables, config, pack)
    assert (pack / "SHA256SUMS").read_bytes() == sums and check(tables, config, pack, None, lambda _: None) == []
    third = config._replace(counts=counts(tables, d01=other._replace(imputed=9)))
    with pytest.raises(OtherQuality, match=r"^imputed of 2025-02, .*\(quality,3,\.\.\)"):
        put(tables, third, pack)
    put(tables, third._replace(reasons=(WHY, Reason("quality", 3, "Again.", ADDED + 1))), pack)
    assert figures(pack, "priced", "01") == [("30", "superseded"), ("31", "")]
    assert figures(pack, "imputed", "01") == [("10", "superseded"), ("9", "")]


def test_what_is_hidden_by_a_correction_is_in_no_file(tables: list[Published], pack: Path) -> None:
    config = CONFIG._replace(counts=counts(tables, d01=None, d07=None), reasons=(WHY,))
    put(tables, config, pack)
    assert figures(pack, "priced", "07") == [("", "hidden")]
    assert {row["status"] for row in rows_of(pack)} == {"", "hidden"}


def test_counts_that_end_stay_as_superseded(tables: list[Published], pack: Path) -> None:
    put(tables, CONFIG._replace(reasons=(WHY,)), pack)
    assert figures(pack, "priced", "07") == [("30", "superseded")]


def test_check_names_the_file_that_was_changed_in_the_pack(tables: list[Published], pack: Path) -> None:
    path = pack / "data/quality.csv"
    path.write_text(path.read_text().replace(",01,30,", ",01,31,", 1))
    found = check(tables, CONFIG._replace(counts=counts(tables)), pack, None, lambda _: None)
    assert [line for line in found if "quality.csv" in line] == ["data/quality.csv differs"]
    path.write_text("month\n")
    with pytest.raises(OtherQuality, match="quality.csv can't be read: its first row is month"):
        put(tables, CONFIG._replace(counts=counts(tables)), pack)


def test_a_reason_of_quality_has_its_form() -> None:
    head = ["month", "revision", "reason", "added"]
    (found,) = reasons_of([head, ["quality", "2", "Why.", str(ADDED)]], UTC)
    assert found == Reason("quality", 2, "Why.", ADDED)
    with pytest.raises(BadReasons, match="row 2: the reason of quality needs in the column added when it was given"):
        reasons_of([head, ["quality", "2", "Why.", ""]], UTC)
    with pytest.raises(BadReasons, match="row 2: Quality is no month like 2026-01, nor the id .*, nor quality"):
        reasons_of([head, ["Quality", "2", "Why.", "1"]], UTC)


def test_the_second_correction_isnt_the_first(tables: list[Published], pack: Path) -> None:
    config = CONFIG._replace(counts=counts(tables), reasons=(WHY._replace(revision=3),))
    with pytest.raises(BadReasons, match="quality, correction 3, has a reason, and the one before has none"):
        put(tables, config, pack)


# ---- a manifest from elsewhere


def test_a_pack_that_is_followed_elsewhere_is_guarded_too(tables: list[Published], pack: Path, tmp_path: Path) -> None:
    other = CONFIG._replace(counts=counts(tables, d01=FULL._replace(imputed=11)))
    with pytest.raises(OtherQuality, match="imputed of 2025-02, revision 1, 01: 10 was published, and 11"):
        put(tables, other, tmp_path / "other", pack / "manifest.json")
    put(tables, other._replace(reasons=(WHY,)), tmp_path / "other", pack / "manifest.json")
    assert figures(tmp_path / "other", "imputed", "01") == [("10", "superseded"), ("11", "")]


def test_a_manifest_that_is_older_than_the_pack_is_refused(published: list[Published], tmp_path: Path) -> None:
    """The new manifest would leave out one that readers have."""
    one, other = tmp_path / "one", tmp_path / "other"
    config = CONFIG._replace(has_quality=False)
    put(published[:3], config, one)
    put(published[:4], config, other)
    before = content(other)
    with pytest.raises(CannotPublish, match="one has no table of 2025-03, revision 1, and the pack in .*other has"):
        put(published[:5], config, other, one / "manifest.json")
    assert content(other) == before
    # (the other way round is what the word is for: the pack that is replaced is an older copy)
    put(published[:5], config, one, other / "manifest.json")

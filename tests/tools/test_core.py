"""Analytical core inflation: figures worked by hand, and each cell of each form computed once more; what was published stays."""

from __future__ import annotations

import csv
import hashlib
import json
import random
import re
import shutil
from fractions import Fraction
from pathlib import Path

import pytest

from cpi_tools.office.folders import files_of
from cpi_tools.office.public import Published
from cpi_tools.publish.figures.config import BadConfig, Config, read_config
from cpi_tools.publish.figures.specials import BadCore, CoreDefinition, Special, definitions_of
from cpi_tools.publish.figures.aggregated import Changes
from cpi_tools.publish.figures.announcements import Reason
from cpi_tools.publish.forms.published_core import NoCoreFile, OtherCore
from cpi_tools.publish.pack import check, publish
from lib.core_again import Measure, core_again, figure_of
from lib.pack_forms import read_json_stat, read_px, read_sdmx_ml, read_sheets, rows_of_csv
from .published import HIDDEN_REVISION, LAST, REVISED
from .test_site import words_of

MEDIAN = CoreDefinition("MEDIAN", "Weighted median", "median")
TRIM = CoreDefinition("TRIM", "Trimmed mean", "trimmed-mean", 1500, 1500)
LEFT = CoreDefinition("LEFT", "Trimmed mean, 24 and 31", "trimmed-mean", 2400, 3125)
ITEMS = CoreDefinition("ITEMS", "Items that rise", "items-rising")
WEIGHT = CoreDefinition("WEIGHT", "Weight that rises", "weight-rising")
ALL = (MEDIAN, TRIM, LEFT, ITEMS, WEIGHT)
CONFIG = Config(
    "NSO", "XX", "Office of prices", core=ALL, reference="2025", provisional=2, without=frozenset({"pictures"})
)
ADDED = 1_600_000_000


def measure(of: CoreDefinition) -> Measure:
    return Measure(of.measure, Fraction(of.lower, 100), Fraction(of.upper, 100))


def put(published: list[Published], out: Path, config: Config = CONFIG) -> None:
    publish(published, config, out, None, lambda _: None)


def rows_of(path: Path) -> list[dict[str, str]]:
    with path.open(encoding="utf-8", newline="") as file:
        return list(csv.DictReader(file))


@pytest.fixture(scope="module")
def first(published: list[Published], tmp_path_factory: pytest.TempPathFactory) -> Path:
    out = tmp_path_factory.mktemp("core") / "public"
    put(published, out)
    return out


@pytest.fixture
def pack(first: Path, tmp_path: Path) -> Path:
    """A copy of it."""
    shutil.copytree(first, tmp_path / "public")
    return tmp_path / "public"


def latest(published: list[Published]) -> dict[str, bytes]:
    """The bytes of the latest table of each month."""
    return {
        publication.listed.month: publication.table
        for publication in sorted(published, key=lambda publication: publication.listed[:2])
    }


@pytest.fixture(scope="module")
def again(published: list[Published]) -> dict[tuple[str, str, str], str]:
    """The figures by the second computation, by id, change and month."""
    tables = latest(published)
    found = {}
    for of in ALL:
        for month, texts in core_again(tables, measure(of)).items():
            found.update({(of.id, name, month): text for name, text in zip(("monthly", "annual"), texts) if text})
    return found


# ---- worked by hand


def changes(*found: tuple[int, int]) -> Changes:
    """Changes in percent with their weights, of aggregates that were at 100."""
    return Changes(
        [(100 + percent) * 10**6 for percent, _ in found], [10**8] * len(found), [weight for _, weight in found]
    )


def test_a_median_at_exactly_half_is_that_of_the_lower_aggregate() -> None:
    """Weights 25, 25 and 50 with 1, 2 and 9 percent: the first two have half of all weight, so it is 2 percent. With 24 of
    the second one it takes the third."""
    assert changes((9, 50), (1, 25), (2, 25)).median() == 20
    assert changes((9, 51), (1, 25), (2, 24)).median() == 90
    assert changes((-3, 7)).median() == -30


def test_an_aggregate_at_a_cut_counts_with_the_part_that_is_left() -> None:
    """Of weights 10, 30, 40 and 20 with -5, 1, 2 and 20 percent, 15 percent at each end leave 25, 40 and 5:
    (25 + 80 + 100) / 70 = 2.93. All between 45 and 50 percent is of the third one."""
    found = changes((20, 20), (2, 40), (1, 30), (-5, 10))
    assert found.trimmed_mean(1500, 1500) == 29
    assert found.trimmed_mean(4500, 5000) == 20
    # (without 10 and 20 percent: (30 + 80) / 70 = 1.571)
    assert found.trimmed_mean(1000, 2000) == 16


def test_shares_that_rise() -> None:
    """Two of three rise, with 70 of 90: 66.7 and 77.8 percent. One that stays doesn't."""
    found = changes((0, 20), (3, 30), (1, 40))
    assert (found.items_rising(), found.weight_rising()) == (667, 778)
    assert (changes((0, 1), (-1, 1)).items_rising(), changes((5, 1)).weight_rising()) == (0, 1000)


@pytest.mark.parametrize(
    ("percent", "wanted"), [("0.05", 1), ("-0.05", -1), ("0.049999", 0), ("2.25", 23), ("-2.25", -23)]
)
def test_a_mean_that_is_exactly_at_a_half_is_rounded_away_from_zero(percent: str, wanted: int) -> None:
    """All have the same change, over bases by which it is no finite binary number."""
    bases = [3 * 10**8, 7 * 10**8, 9 * 10**8]
    levels = [int(base * (1 + Fraction(percent) / 100)) for base in bases]
    assert Changes(levels, bases, [1, 2, 4]).trimmed_mean(1000, 1000) == wanted


def test_they_are_those_of_fractions_whatever_the_changes() -> None:
    drawn = random.Random(88)
    for _ in range(300):
        count = drawn.choice([1, 2, 3, 7, 40])
        bases = [drawn.choice([10**8, drawn.randint(1, 10**10)]) for _ in range(count)]
        levels = [max(1, base * drawn.choice([100, 101, drawn.randint(50, 200)]) // 100) for base in bases]
        weights = [drawn.randint(1, 10 ** drawn.randint(1, 6)) for _ in range(count)]
        lower, upper = drawn.choice([(0, 1), (1500, 1500), (drawn.randint(1, 4999), drawn.randint(1, 5000))])
        changes = Changes(levels, bases, weights)
        plain = [(Fraction(level, base) - 1, Fraction(weight)) for level, base, weight in zip(levels, bases, weights)]
        for of in (MEDIAN, ITEMS, WEIGHT, TRIM._replace(lower=lower, upper=upper)):
            units = changes.figure(of)
            text = figure_of(measure(of), plain)
            assert text is not None and units == int(Fraction(text) * 10), (of, levels, bases, weights)


# ---- each cell of each form


def by_csv(path: Path) -> dict[tuple[str, str, str], str]:
    rows = rows_of(path)
    return {(row["id"], name, row["month"]): row[name] for row in rows for name in ("monthly", "annual") if row[name]}


def test_each_figure_is_computed_once_more(first: Path, again: dict[tuple[str, str, str], str]) -> None:
    assert by_csv(first / "data/core.csv") == again and len(again) > 200
    assert len({text for (name, *_), text in again.items() if name == "TRIM"}) > 15


def observed(rows: object) -> dict[tuple[str, str, str], str]:
    """The figures of observations of SDMX, by id, change and month."""
    found = {}
    for row in rows:  # type: ignore[attr-defined]
        if row["COICOP18"] in {it.id for it in ALL}:
            change = {"G1": "monthly", "GY": "annual"}[row["TRANSFORMATION"]]
            is_share = row["COICOP18"] in ("ITEMS", "WEIGHT")
            assert (row["MEASURE"], row["UNIT_MEASURE"]) == ("CPIR" if is_share else "CPI", "PC")
            assert row["DECIMALS"] == "1" and row["OBS_STATUS"] == ("P" if row["TIME_PERIOD"] >= "2027-04" else "A")
            found[row["COICOP18"], change, row["TIME_PERIOD"]] = row["OBS_VALUE"]
    return found


def test_sdmx_has_them_in_all_of_its_files(first: Path, again: dict[tuple[str, str, str], str]) -> None:
    data = first / "data"
    last = {key: text for key, text in again.items() if key[2] == max(month for *_, month in again)}
    for name, wanted in (("", again), ("newest/", last)):
        assert observed(rows_of_csv(data / f"{name}cpi.sdmx.csv")) == wanted
        assert observed(read_sdmx_ml(data / f"{name}cpi.sdmx.xml")) == wanted
    assert observed(rows_of_csv(data / "slices/aggregates.sdmx.csv")) == again
    assert observed(rows_of_csv(data / "slices/01.sdmx.csv")) == {}
    paths = [path for path in (data / "sdmx/data/DF_CPI").iterdir() if path.name.split(".")[4] in {it.id for it in ALL}]
    assert {key: it for path in paths for key, it in observed(read_sdmx_ml(path)).items()} == again
    structure = (data / "structure.sdmx.xml").read_text()
    assert all(f'id="{code}"' in structure for code in ("CPIR", *(it.id for it in ALL)))


def test_json_stat_px_and_the_workbook_have_them(first: Path, again: dict[tuple[str, str, str], str]) -> None:
    for folder in ("data", "data/newest"):
        data, places = read_json_stat(first / folder / "core.jsonstat.json")
        months = data["dimension"]["month"]["category"]["index"]
        wanted = {key: text for key, text in again.items() if key[2] in months}
        assert {key: f"{data['value'][at]}" for key, at in places.items() if data["value"][at] is not None} == wanted
        statuses = {key: data["status"].get(str(at), "") for key, at in places.items() if key in wanted}
        assert statuses == {key: "p" if key[2] >= "2027-04" else "" for key in wanted}
        head, cells = read_px(first / folder / "core.px")
        codes = [head[f'CODES("{name}")'] for name in (*head["STUB"], *head["HEADING"])]
        keys = [
            (name, change, month.replace("M", "-")) for name in codes[0] for change in codes[1] for month in codes[2]
        ]
        assert {key: cell for key, cell in zip(keys, cells, strict=True) if cell != '".."'} == wanted
    sheet = read_sheets(first / "data/cpi.xlsx")["Core inflation"]
    heads = {
        place[:-1]: text
        for place, (text, _) in sheet.items()
        if place[-1] == "1" and place[-2:].lstrip("ABCDEFGHIJKLMNOPQRSTUVWXYZ") == "1"
    }
    found = {}
    for place, (text, _) in sheet.items():
        column, row = place.rstrip("0123456789"), place.lstrip("ABCDEFGHIJKLMNOPQRSTUVWXYZ")
        if row != "1" and column not in ("A", "B", "C"):
            found[sheet[f"A{row}"][0], sheet[f"C{row}"][0], heads[column]] = text
    assert found == again


def test_pages_have_them(first: Path, again: dict[tuple[str, str, str], str]) -> None:
    page, home = ((first / name).read_text() for name in ("core.html", "index.html"))
    last = max(month for *_, month in again)
    median, share = again["MEDIAN", "annual", last], again["ITEMS", "monthly", last]
    signed = f"\u2212{median[1:]}" if median.startswith("-") else f"+{median}"
    for text in (page, home):
        assert "Analytical core inflation" in text and f"{signed}\u202f%" in text and f">{share}\u202f%" in text
    captions, headings = (re.findall(f"<{text}[^>]*>(.*?)</{text}>", page) for text in ("caption", "h2"))
    assert len(captions) == len(headings) == 2 and not {*captions} & {*headings}
    words = words_of(first / "core.html")
    assert "without 24 percent of the total weight at the lower end and 31.25 percent at the upper end" in words
    assert 'href="core.html"' in home


def test_an_office_without_measures_has_none_of_it(published: list[Published], tmp_path: Path, first: Path) -> None:
    put(published, tmp_path / "public", CONFIG._replace(core=()))
    without, with_core = ({*files_of(pack)} for pack in (tmp_path / "public", first))
    own = {name for name in with_core - without}
    assert without < with_core and all(
        "core" in name or name.startswith("data/sdmx/data/") or "aggregates.sdmx" in name for name in own
    )
    manifest = json.loads((tmp_path / "public/manifest.json").read_text())
    assert "core" not in manifest and "CPIR" not in (tmp_path / "public/data/structure.sdmx.xml").read_text()
    for name in (
        "data/cpi.csv",
        "data/cpi.px",
        "data/cpi.jsonstat.json",
        "data/printed.csv",
        "data/vintages.csv",
        "nodes.html",
    ):
        if name != "data/vintages.csv":
            assert (tmp_path / "public" / name).read_bytes() == (first / name).read_bytes(), name


# ---- what was published stays


def test_another_definition_is_refused_with_month_and_both_figures(published: list[Published], pack: Path) -> None:
    before = {name: (pack / name).read_bytes() for name in files_of(pack)}
    config = CONFIG._replace(core=(MEDIAN, TRIM._replace(lower=4000, upper=4000), LEFT, ITEMS, WEIGHT))
    with pytest.raises(
        OtherCore, match=r"^TRIM, 20[0-9-]+: monthly \S+ was published, and monthly \S+ is computed now: "
    ):
        put(published, pack, config)
    with pytest.raises(
        OtherCore, match=r"^MEDIAN, 2025-01: monthly \S+ was published, and no monthly figure is computed now"
    ):
        put(published, pack, CONFIG._replace(core=()))
    assert {name: (pack / name).read_bytes() for name in files_of(pack)} == before


def test_sums_of_a_manifest_guard_them_without_their_file(published: list[Published], pack: Path) -> None:
    manifest = json.loads((pack / "manifest.json").read_text())
    lines = [
        f"{row['month']},{row['monthly']},{row['annual']}\n"
        for row in rows_of(pack / "data/core.csv")
        if row["id"] == "TRIM"
    ]
    (own,) = [it for it in manifest["core"] if it["id"] == "TRIM"]
    assert own == {
        "id": "TRIM",
        "first": "2025-01",
        "last": lines[-1][:7],
        "sha256": hashlib.sha256("".join(lines).encode()).hexdigest(),
    }
    (pack / "data/core.csv").unlink()
    with pytest.raises(OtherCore, match="^TRIM, 2025-01 to 20"):
        put(published, pack, CONFIG._replace(core=(MEDIAN, LEFT, ITEMS, WEIGHT)))


def test_a_dated_definition_leaves_earlier_figures_as_they_are(published: list[Published], tmp_path: Path) -> None:
    pack = tmp_path / "public"
    put([publication for publication in published if publication.listed.month < "2027"], pack)
    then = by_csv(pack / "data/core.csv")
    later = TRIM._replace(lower=4000, upper=4000, since="2027-01")
    gone = MEDIAN._replace(measure="", since="2027-01")
    put(published, pack, CONFIG._replace(core=(MEDIAN, gone, TRIM, later, LEFT, ITEMS, WEIGHT)))
    now = by_csv(pack / "data/core.csv")
    assert {key: it for key, it in now.items() if key[2] < "2027"} == then
    assert not any(name == "MEDIAN" and month >= "2027" for name, _, month in now)
    rows = [row for row in rows_of(pack / "data/core.csv") if row["id"] == "TRIM"]
    assert [row["month"] for row in rows if row["break"] == "1"] == ["2027-01"]
    assert observed_status(pack, "TRIM", "2027-01") == "B"


def observed_status(pack: Path, name: str, month: str) -> str:
    rows = rows_of_csv(pack / "data/cpi.sdmx.csv")
    return next(row["OBS_STATUS"] for row in rows if (row["COICOP18"], row["TIME_PERIOD"]) == (name, month))


def test_a_definition_for_all_months_needs_a_reason_and_keeps_the_old_figures(
    published: list[Published], pack: Path
) -> None:
    then = by_csv(pack / "data/core.csv")
    config = CONFIG._replace(core=(MEDIAN, TRIM._replace(lower=4000, upper=4000), LEFT, ITEMS, WEIGHT))
    why = Reason("TRIM", 2, "A slip in the share", ADDED)
    put(published, pack, config._replace(reasons=(why,)))
    now = by_csv(pack / "data/core.csv")
    changed = {
        month
        for name, _, month in then
        if name == "TRIM"
        and any(then.get((name, text, month)) != now.get((name, text, month)) for text in ("monthly", "annual"))
    }
    lines = [row for row in rows_of(pack / "data/vintages.csv") if row["code"] == "TRIM"]
    assert {row["month"] for row in lines} == changed and changed
    for month in changed:
        *_, old, new = [row for row in lines if row["month"] == month]
        assert (old["month_change"], old["year_change"]) == (
            then["TRIM", "monthly", month],
            then.get(("TRIM", "annual", month), ""),
        )
        assert (new["month_change"], new["year_change"]) == (
            now["TRIM", "monthly", month],
            now.get(("TRIM", "annual", month), ""),
        )
    assert "A slip in the share" in words_of(pack / "core.html")
    # (published once more over itself, nothing is another one)
    put(published, pack, config._replace(reasons=(why,)))
    assert [row for row in rows_of(pack / "data/vintages.csv") if row["code"] == "TRIM"] == lines
    assert check(published, config._replace(reasons=(why,)), pack, None, lambda _: None) == []


def test_a_revision_keeps_the_earlier_figures(published: list[Published], first: Path) -> None:
    """The revision of a month that was out changes its figures; a later month hadn't any then."""
    tables = {
        publication.listed.month: publication.table
        for publication in published
        if publication.listed.month <= REVISED and publication.listed.revision == 1
    }
    lines = [row for row in rows_of(first / "data/vintages.csv") if row["code"] == "TRIM" and row["month"] == REVISED]
    earlier, later = core_again(tables, measure(TRIM))[REVISED], core_again(latest(published), measure(TRIM))[REVISED]
    assert earlier != later
    assert [(row["month_change"], row["year_change"]) for row in lines] == [earlier, later]
    assert LAST > HIDDEN_REVISION > REVISED


def test_a_pack_goes_on_month_by_month_as_from_nothing(published: list[Published], first: Path, tmp_path: Path) -> None:
    for last in ("2026-02", "2026-12", "2027-06"):
        put([publication for publication in published if publication.listed.month <= last], tmp_path / "public")
    ours = ("data/core.csv", "data/vintages.csv", "data/core.px", "core.html")
    assert all((tmp_path / "public" / name).read_bytes() == (first / name).read_bytes() for name in ours)


def test_a_file_that_is_none_is_a_fault(published: list[Published], pack: Path) -> None:
    (pack / "data/core.csv").write_text("month,id\n2025-01,TRIM\n")
    with pytest.raises(NoCoreFile, match="core.csv can't be read"):
        put(published, pack)


# ---- the file of the office

HEAD = ["id", "title", "measure", "trim"]


@pytest.mark.parametrize(
    ("row", "says"),
    [
        (["median", "T", "median", ""], "row 2: median is no id of a measure"),
        (["M", "", "median", ""], "row 2: M has no title"),
        (["M", "T", "mean", ""], "row 2: M is mean, and none of median, trimmed-mean"),
        (["M", "T", "", ""], "row 2: M is nothing, and none of"),
        (["M", "T", "median", "15"], "row 2: M isn't trimmed, and has in trim 15"),
        (["M", "T", "trimmed-mean", ""], "row 2: M needs in trim how many percent"),
        (["M", "T", "trimmed-mean", "50"], "row 2: M trims 50: wanted"),
        (["M", "T", "trimmed-mean", "60 40"], "row 2: M trims 60 40: wanted"),
        (["M", "T", "trimmed-mean", "0"], "row 2: M trims 0: wanted"),
        (["M", "T", "trimmed-mean", "7.555"], "row 2: M trims 7.555: wanted"),
        (["M", "T", "trimmed-mean", "1 2 3"], "row 2: M trims 1 2 3: wanted"),
        (["M", "T", "median"], "row 2 has 3 cells, and not 4"),
    ],
)
def test_a_fault_of_the_file_is_one_line(row: list[str], says: str) -> None:
    with pytest.raises(BadCore) as told:
        definitions_of([HEAD, row])
    assert says in str(told.value) and "\n" not in str(told.value)


def test_rows_of_the_file_are_read() -> None:
    wide = [*HEAD, "from"]
    rows = [
        ["M", "Trimmed", "trimmed-mean", "7.5", ""],
        ["M", "Trimmed", "trimmed-mean", "24 31.25", "2027-01"],
        ["M", "Trimmed", "", "", "2028-01"],
    ]
    definitions = definitions_of([wide, *rows])
    assert [definition[3:] for definition in definitions] == [
        (750, 750, ""),
        (2400, 3125, "2027-01"),
        (0, 0, "2028-01"),
    ]
    for bad, says in (
        ([rows[0], rows[0]], "M has two rows"),
        ([rows[2]], "M ends before it is anything"),
        ([rows[0], ["M", "T", "items-rising", "", "2027-01"]], "is a share in one row and a change in another"),
    ):
        with pytest.raises(BadCore, match=says):
            definitions_of([wide, *bad])
    with pytest.raises(BadCore, match="its first row isn't id,title,measure,trim"):
        definitions_of([["id", "title"]])


def test_the_configuration_names_the_file(tmp_path: Path) -> None:
    (tmp_path / "core.csv").write_text("id,title,measure,trim\nCORE,Median,median,\n")
    (tmp_path / "sets.csv").write_text("id,title,in,out\nCORE,Core,00,01\n")
    words = "[office]\nagency = NSO\narea = XX\noffice = O\ncore = core.csv\n"
    (tmp_path / "office.ini").write_text(words)
    assert read_config(tmp_path / "office.ini").core == (CoreDefinition("CORE", "Median", "median"),)
    (tmp_path / "office.ini").write_text(f"{words}aggregates = sets.csv\n")
    with pytest.raises(BadConfig, match="core: CORE is the id of a special aggregate"):
        read_config(tmp_path / "office.ini")
    assert Special("CORE", "Core", ("00",)).id == "CORE"


def test_changes_that_binary_fractions_don_t_tell_apart_are_in_order() -> None:
    """Two levels of 16 digits over bases of 16 digits: the quotients are the same as binary fractions, and the second is the
    lesser one by cross multiplication."""
    base, other = 10**16 + 1, 10**16 + 3
    level, lesser = 2 * base + 1, 2 * other
    assert level / base == lesser / other and Fraction(lesser, other) < Fraction(level, base)
    changes = Changes([level, lesser], [base, other], [1, 1])
    assert (changes._levels, changes._bases) == ([lesser, level], [other, base])

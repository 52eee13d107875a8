"""The office's own reference period and its rule for changes, in every form: computed once more from printed tables."""

from __future__ import annotations

import csv
import io
import json
from fractions import Fraction
from pathlib import Path
from typing import Optional

import openpyxl
import pytest

from cpi_tools.command_line import main
from cpi_tools.text.exact import decimal
from cpi_tools.publish.figures.config import Config
from cpi_tools.office.public import Published
from cpi_tools.publish.figures.shown_figures import NotCovered, Shown
from cpi_tools.publish.figures.specials import Special
from cpi_tools.office.tables import Series
from cpi_tools.office.program import Cpi
from cpi_tools.publish.pack import publish
from .published import Office
from .test_measures import tea_again, two_years
from .test_site import are_near, drawn_in, words_of

CONFIG = Config("NSO", "XX", "Office of prices", reference="2025", rates="published")
Levels = dict[tuple[str, str], Fraction]


def rows_of(path: Path) -> list[dict[str, str]]:
    with path.open(encoding="utf-8", newline="") as file:
        return list(csv.DictReader(file))


@pytest.fixture(scope="module")
def pack(published: list[Published], tmp_path_factory: pytest.TempPathFactory) -> Path:
    """A pack with 2025 = 100, whose changes come from the printed index."""
    out = tmp_path_factory.mktemp("pack") / "public"
    publish(published, CONFIG, out, None, lambda _: None)
    return out


@pytest.fixture(scope="module")
def levels(published: list[Published]) -> Levels:
    """By month and code, the levels of the latest tables with 2025 = 100 if they are linked to it, else as printed."""
    levels: Levels = {}
    for publication in published:
        for row in csv.reader(io.StringIO(publication.table.decode(), newline="")):
            levels[publication.listed.month, row[0]] = Fraction(row[3])
    moved: Levels = {}
    for code in {code for _, code in levels}:
        first = [levels.get((f"2025-{at:02}", code)) for at in range(1, 13)]
        mean = sum((level for level in first if level), Fraction()) / 12
        for month, level in ((month, level) for (month, each), level in levels.items() if each == code):
            # (what isn't in 2026 has no link from 2025 to 2027)
            is_linked = bool(first[0]) and (month < "2026" or ("2026-01", code) in levels)
            moved[month, code] = 100 * level / mean if is_linked else level
            if is_linked:
                moved["2024-12", code] = 100 * Fraction(100) / mean
    return moved


def printed(level: Fraction) -> Fraction:
    """With one decimal, halves up."""
    return Fraction((20 * level.numerator + level.denominator) // (2 * level.denominator), 10)


def changed(then: Optional[Fraction], now: Fraction) -> Optional[Fraction]:
    """Percent with one decimal, of two printed levels; halves away from zero."""
    if then is None:
        return None
    size = printed(100 * abs(now - then) / then)
    return size if now >= then else -size


def before(month: str, by: int) -> str:
    at = int(month[:4]) * 12 + int(month[5:]) - 1 - by
    return f"{at // 12:04}-{at % 12 + 1:02}"


def base_of(levels: Levels, month: str, by: int, code: str) -> Optional[Fraction]:
    """The printed level so many months before; December before an item came has 100."""
    earlier = before(month, by)
    if (earlier, code) in levels:
        return printed(levels[earlier, code])
    return Fraction(100) if earlier == f"{int(month[:4]) - 1}-12" else None


def test_the_printed_file_is_what_readers_can_compute(pack: Path, levels: Levels) -> None:
    rows = rows_of(pack / "data/printed.csv")
    assert {(row["month"], row["code"]) for row in rows} == {key for key in levels if key[0] > "2025"}
    for row in rows:
        month, code = row["month"], row["code"]
        now = printed(levels[month, code])
        assert Fraction(row["index"]) == now
        for name, by in (("month_change", 1), ("year_change", 12)):
            wanted = changed(base_of(levels, month, by, code), now)
            assert (Fraction(row[name]) if row[name] else None) == wanted, (month, code, name)
    assert {row["reference"] for row in rows if row["code"] == "00"} == {"2025"}
    pears = {(row["month"][:4], row["reference"]) for row in rows if row["code"] == "01.1.6.2"}
    assert pears == {("2025", "2025"), ("2027", "2026-12")}
    assert {row["reference"] for row in rows if row["code"] == "08"} == {"2025-12"}


def test_the_rule_changes_some_figures(published: list[Published], pack: Path, tmp_path: Path) -> None:
    publish(published, CONFIG._replace(rates="exact"), tmp_path / "exact", None, lambda _: None)
    own, exact = (
        {(row["month"], row["code"]): row["year_change"] for row in rows_of(folder / "data/printed.csv")}
        for folder in (pack, tmp_path / "exact")
    )
    table = {(row["month"], row["code"]): row["year_change"] for row in rows_of(tmp_path / "exact/data/cpi.csv")}
    assert exact == table and own.keys() == exact.keys() and sum(own[key] != exact[key] for key in own) > 20
    rule = "Changes are computed from the printed index with one decimal place."
    for page in ("index.html", "node/07.html", "method.html"):
        assert rule in words_of(pack / page)
        assert "Changes are computed from levels before rounding." in words_of(tmp_path / "exact" / page)
    # cpi.csv has the digits of the program by either rule
    assert (pack / "data/cpi.csv").read_bytes() == (tmp_path / "exact/data/cpi.csv").read_bytes()


def test_each_form_has_the_same_reference_period(pack: Path, levels: Levels) -> None:
    half, all_items = Fraction(1, 2 * 10**6), {
        month: level for (month, code), level in levels.items() if code == "00"
    }
    of_sdmx = [row for row in rows_of(pack / "data/cpi.sdmx.csv") if (row["FREQ"], row["COICOP18"]) == ("M", "_T")]
    fractions = {row["TIME_PERIOD"]: Fraction(row["OBS_VALUE"]) for row in of_sdmx if row["MEASURE"] == "CPI"
             and row["TRANSFORMATION"] == "N"}  # fmt: skip
    assert len(fractions) == 29 and all(abs(fractions[month] - all_items[month]) <= half for month in fractions)
    rates = {row["TIME_PERIOD"]: Fraction(row["OBS_VALUE"]) for row in of_sdmx if row["TRANSFORMATION"] == "GY"
             and row["MEASURE"] == "CPI"}  # fmt: skip
    for month, rate in rates.items():
        assert rate == changed(base_of(levels, month, 12, "00"), printed(all_items[month]))
    head, whole, *_ = openpyxl.load_workbook(pack / "data/cpi.xlsx")["Index"].iter_rows(values_only=True)
    assert all(abs(Fraction(str(value)) - all_items[month]) <= half for month, value in zip(head[2:], whole[2:]))
    text = (pack / "assets/levels.js").read_text(encoding="utf-8")
    data = json.loads(text[len("window.LEVELS = ") : -2])
    for code, item in data["items"].items():
        for month, level, tenths in zip(data["months"], item["levels"], item["tenths"]):
            assert (level is None) == ((month, code) not in levels) == (tenths is None)
            if level is not None:
                assert abs(Fraction(level, 10**6) - levels[month, code]) <= half
                assert Fraction(tenths, 10) == printed(levels[month, code])
    last = printed(all_items["2027-05"])
    told = words_of(pack / "index.html")
    assert f"Index, 2025 = 100 {float(last):.1f}" in told and "Index 2025 = 100" in told
    assert are_near(
        drawn_in((pack / "index.html").read_text(encoding="utf-8").partition("</svg>")[0], "own"),
        [[float(all_items[month]) for month in sorted(all_items) if month > "2025"]],
    )


def test_a_month_that_is_not_out_yet_leaves_a_gap(published: list[Published], tmp_path: Path) -> None:
    """May 2026 comes out after June. June's change stays that of the table, and a set has no figure in June: its change
    is against May. From July on the set goes on."""
    tables = [publication for publication in published if publication.listed.month != "2026-05"]
    config = CONFIG._replace(specials=(Special("FUELS", "Fuels", ("07.2.2",)),))
    publish(tables, config, tmp_path / "public", None, lambda _: None)
    table = {row["code"]: row for row in rows_of(tmp_path / "public/data/cpi.csv") if row["month"] == "2026-06"}
    for row in rows_of(tmp_path / "public/data/printed.csv"):
        if row["month"] == "2026-06":
            assert row["month_change"] == table[row["code"]]["month_change"]
    sets = {row["month"]: row for row in rows_of(tmp_path / "public/data/aggregates.csv")}
    node = {row["month"]: row for row in rows_of(tmp_path / "public/data/cpi.csv") if row["code"] == "07.2.2"}
    assert node.keys() - sets.keys() == {"2026-06"} and {row["break"] for row in sets.values()} == {"0"}
    assert all(sets[month]["chained"] == node[month]["chained"] for month in sets)


def test_averages_have_the_reference_period_too(pack: Path, levels: Levels) -> None:
    half = Fraction(1, 2 * 10**6)
    rows = {(row["code"], row["year"]): row for row in rows_of(pack / "data/averages.csv")}
    for (code, year), row in rows.items():
        mean = sum((levels[f"{year}-{at:02}", code] for at in range(1, 13)), Fraction()) / 12
        assert abs(Fraction(row["average"]) - mean) <= half
    assert rows["00", "2025"]["average"] == "100.000000" and rows["00", "2025"]["reference"] == "2025"
    assert (
        rows["08", "2026"]["reference"] == "2025-12"
        and rows["08", "2026"]["average"] == rows["08", "2026"]["chained_average"]
    )


def test_by_hand(tmp_path: Path) -> None:
    """All items are 102.6875 in the mean of 2026, 99.75 in its January, and 109.2 a year later. With 2026 = 100 that is
    97.1393 and 106.3421; printed, 106.3 / 97.1 is 9.5 percent more. With December 2025 = 100 it is 109.2 / 99.8, which
    is 9.4."""
    for reference, index, annual in (("2026", "106.3", "+9.5 %"), ("", "109.2", "+9.4 %")):
        config = CONFIG._replace(reference=reference)
        publish(two_years()[:14], config, tmp_path / f"of {reference}", None, lambda _: None)
        told = words_of(tmp_path / f"of {reference}/index.html")
        assert f"Index, {reference or 'December 2025'} = 100 {index}" in told
        assert f"Annual change {annual}" in told
        assert f"consumer prices were {annual[1:4]} percent higher" in told


def test_a_level_is_rounded_once() -> None:
    """100 * 100.171656 / 102.6875 is 97.54999976.., which is 97.550000 with six decimals and 97.5 with one."""
    level = Shown(Series(two_years()), "2026").of_level(100_171_656, "2027-01", "00")
    assert (decimal(*level, 6), decimal(*level, 1)) == ("97.550000", "97.5")


def test_an_item_that_is_not_linked_keeps_its_december(tmp_path: Path) -> None:
    """Tea is back in 2028; milk came in 2027. Neither has a level in 2026 that its later months are linked to."""
    publish([*two_years(), tea_again()], CONFIG._replace(reference="2026"), tmp_path / "public", None, lambda _: None)
    told = words_of(tmp_path / "public/node/02.html")
    assert "Index 2026 = 100; since January 2028, December 2027 = 100" in told
    assert "Index, December 2027 = 100 110.0" in told
    assert "Break: from January 2028 on, December 2027 = 100." in told
    assert "Index December 2026 = 100; the axis doesn't begin at zero" in words_of(tmp_path / "public/node/03.html")
    lacking = words_of(tmp_path / "public/data.html")
    assert "These items don't have levels for the whole reference period" in lacking and ": 03 ." in lacking


def test_a_period_without_a_table_is_refused(
    cpi: Cpi, public_office: Office, published: list[Published], tmp_path: Path, capsys: pytest.CaptureFixture[str]
) -> None:
    for reference in ("2031", "2024", "2024-11", "2028-01"):
        with pytest.raises(
            NotCovered, match=f"^reference: no table covers {reference}; they are of 2025-01 to 2027-05$"
        ):
            Shown(Series(published), reference)
    # the first December has no rows, and is 100 in each item that begins there; of a year that goes on there are tables
    assert Shown(Series(published), "2024-12").find_reference("2026-01", "00") == "2024-12"
    assert Shown(Series(published), "2027").find_reference("2027-01", "00") == "2024-12"
    (tmp_path / "office.ini").write_text("[office]\nagency = A\narea = X\noffice = O\nreference = 2031\n")
    source = ["publish", "--program", str(cpi.path), "--db", str(public_office.file), "--at", str(public_office.at)]
    assert main([*source, "--config", str(tmp_path / "office.ini"), "--out", str(tmp_path / "public")]) == 1
    told = capsys.readouterr().err
    assert told == "cpi-tools publish: reference: no table covers 2031; they are of 2025-01 to 2027-05\n"
    assert not (tmp_path / "public").exists()

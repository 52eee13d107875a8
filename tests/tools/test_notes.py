"""Notes at the figures of the website, and the page on how to read the index, whose example is computed here once more."""

from __future__ import annotations

import csv
import html
import re
from fractions import Fraction
from pathlib import Path

import pytest

from cpi_tools.publish.figures.config import BadConfig, Config, read_config
from cpi_tools.publish.site.site_pages import change
from cpi_tools.publish.figures.figures import Notes
from cpi_tools.office.public import Published
from cpi_tools.publish.figures.shown_figures import Shown
from cpi_tools.office.tables import Series
from cpi_tools.publish.pack import publish
from .published import REVISED
from .test_measures import over_another_december, tea_again, two_years
from .test_site import words_of

CONFIG = Config("NSO", "XX", "Office", currency="crowns")


def site_of(published: list[Published], out: Path, config: Config = CONFIG) -> Path:
    publish(published, config, out, None, lambda _: None)
    return out


@pytest.fixture(scope="module")
def site(published: list[Published], tmp_path_factory: pytest.TempPathFactory) -> Path:
    """The site of an office with a revision, imputed prices and an item that is back; two months are provisional."""
    return site_of(published, tmp_path_factory.mktemp("notes") / "public", CONFIG._replace(provisional=2))


def letters_on(page: Path) -> dict[str, str]:
    """By month, the letters in the table of all months of an item."""
    rows = re.findall(r'<th scope="row" class="month">(.*?)</th>(.*?)</tr>', page.read_text(encoding="utf-8"))
    return {re.sub("<[^>]*>", "", name): re.findall("<td[^>]*>([^<]*)</td>", cells)[4] for name, cells in rows}


# ---- notes


def rows_of(published: list[Published], code: str) -> dict[tuple[str, int], list[str]]:
    """The printed rows of an item by month and revision."""
    rows = {}
    for publication in published:
        for row in csv.reader(publication.table.decode().splitlines()):
            if row[0] == code:
                rows[publication.listed.month, publication.listed.revision] = row
    return rows


@pytest.mark.parametrize("code", ["00", "01", "01.1.1.1-01", "01.1.6.2-01", "07", "08"])
def test_each_month_has_its_letters(site: Path, published: list[Published], code: str) -> None:
    """By the printed tables: imputed, another row than at first, back after a year, and the last two months."""
    rows = rows_of(published, code)
    months = sorted({month for month, _ in rows})
    every = sorted({publication.listed.month for publication in published})
    wanted = {}
    for month in months:
        latest = rows[month, max(revision for name, revision in rows if name == month)]
        is_back = every[every.index(month) - 1] not in months and month != months[0]
        said = ["i" * (latest[6] == "1"), "r" * (latest[1:6] != rows[month, 1][1:6]), "b" * is_back]
        wanted[month] = "".join([*said, "p" * (month in every[-2:])])
    letters = letters_on(site / f"node/{code}.html")
    assert [*letters.values()] == [wanted[month] for month in reversed(months)]
    assert {"01": "r", "07": "", "01.1.6.2-01": "b", "00": "r"}.get(code, "") in "".join(wanted.values())


def test_a_letter_is_next_to_the_figure_and_says_what_it_is(site: Path) -> None:
    """May 2027 has an imputed price of rice and is provisional; petrol has no imputed one."""
    page = site / "node/01.1.1.1-01.html"
    assert page.read_text(encoding="utf-8").count('aria-label="Notes: imputed, provisional">ip</a></sup>') == 3
    told = words_of(page)
    assert "i At least one price of this item, or of an item below it, was imputed in that month" in told
    assert "p Provisional: the office may still revise the last 2 months." in told
    assert "and notes: i imputed, r revised, p provisional." in told
    fuel = (site / "node/07.html").read_text(encoding="utf-8")
    assert 'aria-label="Notes: provisional">p</a></sup>' in fuel and "imputed in that month" not in fuel
    whole = words_of(site / "index.html")
    assert "i Some prices were imputed: see how much ." in whole and "p Provisional: the office" in whole


def test_a_picture_that_is_taken_away_is_provisional_too(site: Path) -> None:
    for name in ("picture/01-level.svg", "embed/01.html"):
        assert "Provisional: the office may still revise" in re.sub(
            r"</text>\s*<text[^>]*>", " ", (site / name).read_text("utf-8")
        )


def test_a_revised_month_says_what_was_published_first(published: list[Published], tmp_path: Path) -> None:
    until = [publication for publication in published if publication.listed.month <= REVISED]
    rows = rows_of(until, "01")
    first, latest = (Fraction(rows[REVISED, revision][3]) for revision in (1, 2))
    assert f"{float(first):.1f}" != f"{float(latest):.1f}"
    site = site_of(until, tmp_path / "public")
    told = words_of(site / "node/01.html")
    assert f"r Revised: the index for March 2026 was first published as {float(first):.1f}." in told
    assert f"100 {float(latest):.1f} r " in told
    # (fuels have the same row in both)
    assert "Revised" not in words_of(site / "node/07.html").replace("Revisions", "")


def test_an_item_that_is_back_has_its_break_next_to_the_figure(tmp_path: Path) -> None:
    site = site_of([*two_years(), tea_again()], tmp_path / "public")
    page = (site / "node/02.html").read_text(encoding="utf-8")
    assert 'aria-label="Notes: break">b</a></sup>' in page
    assert "b Break: from January 2028 on, December 2027 = 100." in words_of(site / "node/02.html")
    assert letters_on(site / "node/02.html")["January 2028"] == "b"


def test_without_a_word_no_month_is_provisional() -> None:
    shown = Shown(Series(two_years()))
    assert Notes(shown).by_month("01") == {}
    assert Notes(shown, 1).by_month("01") == {"2027-12": "p"}


@pytest.mark.parametrize(
    ("text", "is_right"), [("0", True), ("24", True), ("25", False), ("-1", False), ("two", False)]
)
def test_the_number_of_provisional_months(tmp_path: Path, text: str, is_right: bool) -> None:
    path = tmp_path / "office.ini"
    path.write_text(f"[office]\nagency = NSO\narea = XX\noffice = O\nprovisional = {text}\n", encoding="utf-8")
    if is_right:
        assert read_config(path).provisional == int(text)
        return
    with pytest.raises(BadConfig, match=f"provisional: {text} isn't a number of months from 0 to 24"):
        read_config(path)


# ---- how to read the index


FORMULA = re.compile(r'<p class="formula">(.*?)</p>')


def formulas(site: Path) -> list[str]:
    return [
        html.unescape(element) for element in FORMULA.findall((site / "how-to-read.html").read_text(encoding="utf-8"))
    ]


def rows_by_month(site: Path, name: str) -> dict[tuple[str, str], dict[str, str]]:
    with (site / "data" / name).open(encoding="utf-8", newline="") as file:
        return {(row["month"], row["code"]): row for row in csv.DictReader(file)}


def half_away(value: Fraction, digits: int) -> str:
    """A value with some decimals, rounded once, halves away from zero."""
    size = int(abs(value) * 10**digits + Fraction(1, 2))
    sign = "\u2212" if value < 0 and size else "+" if value > 0 and size else ""
    return f"{sign}{size // 10**digits}.{size % 10**digits:0{digits}}"


def computed_again(formula: str) -> tuple[Fraction, str]:
    """What a formula comes to, in fractions, and what the page says that it comes to."""
    sum_of, told = formula.split(" = ")
    plain = sum_of.replace("\u00d7", "*").replace("\u2212", "-")
    exact = re.sub(r"\d+(\.\d+)?", lambda it: f"Fraction('{it[0]}')", plain)
    return eval(exact, {"Fraction": Fraction}), told


@pytest.mark.parametrize("last", ["2025-01", "2025-12", "2026-01", "2026-03", "2027-03"])
def test_the_example_is_right(published: list[Published], tmp_path: Path, last: str) -> None:
    """Both changes and a contribution, computed again from the numbers that the page shows, which are those of the data
    files; the first month has no year before, and a January begins at 100."""
    site = site_of([publication for publication in published if publication.listed.month <= last], tmp_path / "public")
    *changes, part = formulas(site)
    rows = rows_by_month(site, "cpi.csv")
    whole = rows[last, "00"]
    names = [name for name in ("year_change", "month_change") if whole[name]]
    assert len(changes) == len(names)
    told = words_of(site / "how-to-read.html")
    for name, formula in zip(names, changes):
        value, says = computed_again(formula)
        assert half_away(value, 3).lstrip("+") == says
        assert half_away(value, 1).replace("\u2212", "-").lstrip("+") == whole[name]
        assert f"Rounded once to one decimal place, this is {half_away(value, 1)} %" in told
        assert whole["chained"] in formula
    value, says = computed_again(part)
    assert says == half_away(value, 3)
    with (site / "data/contributions.csv").open(encoding="utf-8", newline="") as file:
        given = [row for row in csv.DictReader(file) if (row["month"], row["of"]) == (last, "00")]
    divisions = {row["code"]: Fraction(row["contribution_month"]) for row in given if len(row["code"]) == 2}
    greatest = max(divisions, key=lambda code: abs(divisions[code]))
    assert abs(divisions[greatest] - value) < Fraction(1, 10**6)
    assert f"The weight of {rows[last, greatest]['title']} is" in told


def test_the_example_follows_the_rule_for_changes(published: list[Published], tmp_path: Path) -> None:
    """With changes from the printed index it has one decimal, and the office's own reference period."""
    until = [publication for publication in published if publication.listed.month <= "2027-03"]
    site = site_of(until, tmp_path / "public", CONFIG._replace(rates="published", reference="2025"))
    annual = formulas(site)[0]
    printed = rows_by_month(site, "printed.csv")
    levels = [printed[month, "00"]["index"] for month in ("2027-03", "2026-03")]
    assert annual.startswith(f"100 \u00d7 ({levels[0]} / {levels[1]} \u2212 1) = ")
    value, _ = computed_again(annual)
    assert half_away(value, 1).replace("\u2212", "-").lstrip("+") == printed["2027-03", "00"]["year_change"]


def test_what_rests_on_a_hidden_revision_is_no_example(tmp_path: Path) -> None:
    """The change on the month before is over a December that isn't published; the one on the year before is there."""
    shown = Shown(Series(over_another_december()))
    assert change(shown, "2027-01", False) is None
    found = change(shown, "2027-01", True)
    assert found and (found.level_then, found.level_now, found.tenths) == ("99.750000", "110.240000", 105)
    site = site_of(over_another_december(), tmp_path / "public")
    (only,) = formulas(site)
    assert only == "100 \u00d7 (110.240000 / 99.750000 \u2212 1) = 10.516"

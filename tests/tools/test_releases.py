"""The pages of releases: what each says, and that it stays when later tables come."""

from __future__ import annotations

import csv
import re
from collections.abc import Iterable
from decimal import ROUND_HALF_UP, Decimal
from pathlib import Path

import pytest

from cpi_tools.publish.figures.aggregated import series_of
from cpi_tools.publish.figures.config import Config
from cpi_tools.publish.figures.config import Dated, dated_of, value_in
from cpi_tools.office.public import Listed, Published
from cpi_tools.publish.figures.announcements import Reason
from cpi_tools.publish.releases.releases import releases_of
from cpi_tools.publish.pack import publish
from cpi_tools.text.languages import SPEAKS_ENGLISH
from .published import REVISED, TITLES
from .test_measures import tea_again, two_years
from .test_site import words_of

ADDRESS = "https://prices.example/index/"
CONFIG = Config("NSO", "XX", "Office <of> prices", country="Exampleland", reference="2025", address=ADDRESS)


def made(published: Iterable[Published], out: Path, config: Config = CONFIG) -> Path:
    """The pack of some tables."""
    publish([*published], config, out, None, lambda _: None)
    return out


@pytest.fixture(scope="module")
def by_hand(tmp_path_factory: pytest.TempPathFactory) -> Path:
    """The site of the two years that were worked by hand, and of January 2028, in which tea is back."""
    out = tmp_path_factory.mktemp("by-hand") / "public"
    return made([*two_years(), tea_again()], out, CONFIG._replace(reference=""))


@pytest.fixture(scope="module")
def site(published: list[Published], tmp_path_factory: pytest.TempPathFactory) -> Path:
    """The pack of all tables; no test writes to it."""
    return made(published, tmp_path_factory.mktemp("site") / "public")


def main_of(page: Path) -> str:
    """What is on a page between its head and its foot."""
    match = re.search(r"<main.*</main>", page.read_text(encoding="utf-8"), flags=re.S)
    assert match
    return match[0]


# ---- what a page says


def test_a_release_is_told_in_the_figures_of_its_month(by_hand: Path) -> None:
    """December 2026: coffee gave 0.75 * 4 points and tea 0.25 * 8, 5 together; all items went from 102.75 to 105."""
    told = words_of(by_hand / "release/2026-12-r1.html")
    assert "In December 2026, consumer prices were 5.0 percent higher than a year earlier" in told
    assert (
        "The largest contribution came from title of 01 , +3.00 of +5.0 percentage points. Compared with the previous month, prices rose by 2.2"
        in told
    )
    assert "Index, December 2025 = 100 105.0" in told
    assert "Title of 01 75.00 % +4.0 % +3.00 Title of 02 25.00 % +8.0 % +2.00 Title of 00 100.00 % +5.0 % +5.00" in told
    assert "00 Title of 00 100.00 % 105.0 +2.2 % +5.0 % 01 Title of 01 75.00 % 104.0 +2.0 % +4.0 %" in told
    assert "Nothing was revised between the release of November 2026 and this one." in told
    assert "(1970): Consumer price index , December 2026. Published 1 January 1970, 00:00 UTC." in told
    assert f"{ADDRESS}release/2026-12-r1.html" in told


def test_a_january_says_what_came_and_left(by_hand: Path) -> None:
    """Milk came in 2027 and tea left; tea is back in 2028, with December before as 100, and milk left."""
    told = words_of(by_hand / "release/2027-01-r1.html")
    assert "From this month on, the weights of 2027 apply. The index is linked in December 2026" in told
    assert "New this month: Title of 03 03 . No longer in the index from this month on: Title of 02 02 ." in told
    assert "03 Title of 03 (December 2026 = 100)" in told
    again = words_of(by_hand / "release/2028-01-r1.html")
    assert "New this month: Title of 02 02 . No longer in the index from this month on: Title of 03 03 ." in again
    assert "02 Title of 02 (December 2027 = 100)" in again
    assert "weights of" not in words_of(by_hand / "release/2027-02-r1.html")
    assert "This is the first release." in words_of(by_hand / "release/2026-01-r1.html")


def told_then(page: Path) -> dict[str, object]:
    """What the first page and the page of a release both say: headline, lead, figures with the letters of their notes, and
    the table of contributions. Both are in folders of their own, lead to items by another way, and have files of pictures
    of their own."""
    text = page.read_text(encoding="utf-8").replace('href="../', 'href="')
    text = re.sub(r'<p class="take">.*?</p>', "", text, flags=re.S)
    patterns = {"h1": r"<h1>.*?</h1>", "lead": r'<p class="lead">.*?</p>', "cards": r'<dl class="cards">.*?</dl>'}
    elements: dict[str, object] = {name: re.findall(form, text, flags=re.S)[0] for name, form in patterns.items()}
    elements["given"] = re.findall(r"<h2>Contributions</h2>(.*?)<h2", text, flags=re.S)[0].strip()
    elements["notes"] = re.findall(r'<p class="note">[^<]* was revised.*?</p>', text)
    return elements


@pytest.mark.sampled(3)
@pytest.mark.parametrize("month", ["2025-01", "2025-12", REVISED, "2026-04", "2027-01", "2027-05"])
def test_a_page_says_what_the_first_page_said_on_its_day(
    published: list[Published], site: Path, tmp_path: Path, month: str
) -> None:
    """The first page of the pack that was made on the day of the release is the other way to the same figures."""
    (of,) = (publication for publication in published if publication.listed[:2] == (month, 1))
    then = made(
        [publication for publication in published if publication.listed.moment <= of.listed.moment],
        tmp_path / "then",
        reference(month),
    )
    assert told_then(site / f"release/{month}-r1.html") == told_then(then / "index.html")


def reference(month: str) -> Config:
    """The configuration as it could be in a month: no table of all of 2025 is there before its December."""
    return CONFIG._replace(reference="2025" if month >= "2025-12" else "")


def levels_in(published: list[Published], month: str, revision: int) -> dict[str, Decimal]:
    """The chained levels of a table as they are printed, by code."""
    (table,) = (publication.table for publication in published if publication.listed[:2] == (month, revision))
    return {row[0]: Decimal(row[3]) for row in csv.reader(table.decode().splitlines())}


def rounded(number: Decimal, unit: str) -> str:
    return str(number.quantize(Decimal(unit), ROUND_HALF_UP))


def thousandths(number: Decimal) -> str:
    return rounded(number, "0.001")


def test_a_revision_says_what_it_changed(published: list[Published], site: Path) -> None:
    told = words_of(site / f"release/{REVISED}-r2.html")
    assert "March 2026, revision 2, published" in told and "This is a further revision of March 2026." in told
    old, new = (levels_in(published, REVISED, it) for it in (1, 2))
    apart = sorted((it for it in new if old[it] != new[it]), key=lambda it: (-abs(new[it] - old[it]), it))
    assert f"{len(apart)} of {len(new)} levels differ." in told and 0 < len(apart) < len(new)
    rows = " ".join(f"{TITLES[it]} {it} {thousandths(old[it])} {thousandths(new[it])}" for it in apart[:10])
    assert f"Item Revision 1 Revision 2 {rows}" in told
    listed = words_of(site / "revisions.html")
    assert f"{len(apart)} of {len(new)} levels differ." in listed and f"Item Before Now {rows}" in listed
    after = words_of(site / "release/2026-04-r1.html")
    assert "Between the release of March 2026 and this one, the office revised: March 2026, revision 2" in after
    year = (levels_in(published, f"2025-{number:02}", 1)["00"] for number in range(1, 13))
    mean = sum(year, Decimal()) / 12
    index, before = (rounded(100 * it["00"] / mean, "0.1") for it in (new, old))
    assert f"The index of all items is {index}, and was {before} before." in after and index != before
    assert "Nothing was revised between the release of April 2026" in words_of(site / "release/2026-05-r1.html")


# ---- notes at the headline


def test_a_headline_has_the_letters_of_its_day(site: Path) -> None:
    """Only a further revision is marked as revised, and it says what was published first."""
    marks: dict[int, list[str]] = {}
    said: dict[int, list[str]] = {}
    for revision in (1, 2):
        page = site / f"release/{REVISED}-r{revision}.html"
        marks[revision] = re.findall(r'<sup class="marks">.*?>([a-z]*)</a></sup>', page.read_text(encoding="utf-8"))
        said[revision] = re.findall(
            r"Revised: the index for \w+ \d+ was first published as ([0-9]+\.[0-9]+)", words_of(page)
        )
    first = re.search(r"Index, 2025 = 100 ([0-9.]+)", words_of(site / f"release/{REVISED}-r1.html"))
    assert marks == {1: [], 2: ["r"] * len(marks[2])} and len(marks[2]) >= 2
    assert first and said == {1: [], 2: [first[1]]}


# ---- provisional months


def test_a_release_says_whether_its_month_was_provisional_on_its_day(
    published: list[Published], tmp_path: Path
) -> None:
    """Two months are provisional, and three from April 2026 on; the earlier releases keep what they said. The revision
    of a month came out before the next one did, so its month was the last one."""
    config = CONFIG._replace(provisional=3, all_provisional=(Dated("0"), Dated("2", REVISED), Dated("3", "2026-04")))
    site = made(published, tmp_path / "public", config)
    then = "Provisional: on that day the office could still revise the last"
    pages = {path.name: path.read_text(encoding="utf-8") for path in (site / "release").glob("*.html")}
    for name, page in pages.items():
        months = 0 if name < REVISED else 2 if name.startswith(REVISED) else 3
        assert (
            (f"{then} {months} months." in page)
            == (len(re.findall('aria-label="Notes: [a-z, ]*provisional"', page)) >= 2)
            == (months > 0)
        )
    entries = (site / "feed.xml").read_text(encoding="utf-8")
    assert entries.count(f"{then} 3 months.") + entries.count(f"{then} 2 months.") == sum(
        page >= REVISED for page in pages
    )
    # (the list says what may change now: the last three months)
    listed = words_of(site / "releases.html")
    assert re.findall(r"(\w+ \d+) \(provisional\)", listed) == ["May 2027", "April 2027", "March 2027"]


def test_a_late_revision_is_of_a_month_that_is_final() -> None:
    """February 2026 is revised after April is out: of two provisional months it is none."""
    tables = [year for year in two_years() if year.listed.month <= "2026-04"]
    february = next(table for table in tables if table.listed.month == "2026-02")
    late = february._replace(listed=Listed("2026-02", 2, tables[-1].listed.moment + 1))
    for months, wanted in ((2, 0), (3, 3)):
        config = CONFIG._replace(reference="", provisional=months)
        releases = releases_of(series_of([*tables, late], ()), config, SPEAKS_ENGLISH)
        assert {release.name: release.provisional for release in releases}["2026-02-r2"] == wanted
        assert {release.provisional for release in releases if release.table.revision == 1} == {months}


# ---- that it stays


def told_by(published: Iterable[Published], out: Path, config: Config) -> list[str]:
    """The lines that a pack gives rise to that takes the place of another."""
    told: list[str] = []
    publish([*published], config, out, None, lambda _: None, tell=told.append)
    return told


def test_a_page_that_changes_is_told(published: list[Published], tmp_path: Path) -> None:
    """A month more, a revision and its reason are no change; another name of the office, and a rule without the month
    from which on it holds, change the pages of all releases, and that is told."""
    config = CONFIG._replace(address="")
    before = [publication for publication in published if publication.listed[:2] < (REVISED, 2)]
    assert told_by(before, tmp_path / "public", config) == []
    now = [publication for publication in published if publication.listed.month <= "2026-04"]
    config = config._replace(reasons=(Reason(REVISED, 2, "A slip."),))
    assert told_by(now, tmp_path / "public", config) == []
    config = config._replace(reasons=(*config.reasons, Reason(REVISED, 2, "Another one.", 80_000)))
    assert told_by(now, tmp_path / "public", config) == []
    (line,) = told_by(now, tmp_path / "public", config._replace(provisional=3))
    assert line == (
        "17 pages of earlier releases, such as release/2025-01-r1.html, no longer say the same:"
        " the configuration or the tool is another one"
    )
    dated = config._replace(provisional=3, all_provisional=(Dated("3"), Dated("2", "2026-04")))
    (line,) = told_by(now, tmp_path / "public", dated._replace(provisional=2))
    assert line.startswith("1 page of earlier releases, such as release/2026-04-r1.html, no longer says the same")


def test_another_reference_period_leaves_earlier_releases_as_they_are(tmp_path: Path) -> None:
    """From January 2027 on 2026 = 100. Its mean is 102.6875, so January 2027 is 10920 / 102.6875 = 106.3."""
    tables = two_years()[:14]
    config = CONFIG._replace(reference="")
    old = made(tables[:-1], tmp_path / "old", config)
    values = (Dated("2025-12"), Dated("2026", "2027-01"))
    new = made(tables, tmp_path / "new", config._replace(reference="2026", references=values))
    for page in sorted(path.name for path in (old / "release").glob("*.html")):
        assert main_of(new / "release" / page) == main_of(old / "release" / page)
    told = words_of(new / "release/2027-01-r1.html")
    assert "Index, 2026 = 100 106.3" in told
    listed = words_of(new / "releases.html")
    assert (
        "January 2027 (since this month, 2026 = 100) 106.3 +4.0 % +9.5 %" in listed
        and "December 2026 105.0 +2.2 % +5.0 %" in listed
    )


def test_values_that_change_with_a_release_are_read(tmp_path: Path) -> None:
    found = dated_of("2015, 2025 from 2026-01,2030-12 from 2031-06")
    assert found == (Dated("2015"), Dated("2025", "2026-01"), Dated("2030-12", "2031-06"))
    shown = [value_in(found, month) for month in ("2001-01", "2025-12", "2026-01", "2031-05", "2031-06")]
    assert shown == ["2015", "2015", "2025", "2025", "2030-12"]
    for text in ("2015, 2025", "2015 from 2020-01", "2015 from 2020-01, 2025", "2015 2025", "", "2015, 2025 from 2026",
                 "2015, 2025 from 2026-01, 2030 from 2026-01"):  # fmt: skip
        with pytest.raises(ValueError):
            dated_of(text)


def test_a_month_of_the_base_has_no_page(by_hand: Path) -> None:
    """The first December has no rows, so there is nothing to say."""
    names = sorted(path.stem for path in (by_hand / "release").glob("*.html"))
    assert names[0] == "2026-01-r1" and len(names) == 25
    assert Listed("2025-12", 1, 0) in [year.listed for year in two_years()]

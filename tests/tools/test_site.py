"""The website of `cpi-tools publish`: what its pages say, where they lead, and the calculator's sums."""

from __future__ import annotations

import html
import json
import re
import shutil
import subprocess
from fractions import Fraction
from html.parser import HTMLParser
from pathlib import Path
from typing import Optional

import pytest

from . import surveys
from cpi_tools.publish.figures.config import Config
from cpi_tools.publish.releases.pictures import of_imputed, of_node
from cpi_tools.office.public import Listed, Published, from_file
from cpi_tools.publish.figures.shown_figures import Shown
from cpi_tools.office.tables import Series
from cpi_tools.office.program import Cpi
from cpi_tools.publish.pack import publish
from cpi_tools.publish.site.chooser import OF_PAGES
from .published import CODES, LONG_AFTER, REVISED, shown
from .test_measures import over_another_december, tea_again, two_years

CONFIG = Config("NSO", "XX", "Office <of> prices", country="Exampleland", reference="2025", currency="crowns")


@pytest.fixture(scope="module")
def site(published: list[Published], tmp_path_factory: pytest.TempPathFactory) -> Path:
    """The site of an office with a revision, a node that left, one that came, and embargoed tables."""
    out = tmp_path_factory.mktemp("site") / "public"
    publish(published, CONFIG, out, None, lambda _: None)
    return out


@pytest.fixture(scope="module")
def by_hand(tmp_path_factory: pytest.TempPathFactory) -> Path:
    """The site of the two years of coffee, tea and milk that were worked by hand, up to January 2027."""
    out = tmp_path_factory.mktemp("by-hand") / "public"
    publish(two_years()[:14], CONFIG._replace(reference=""), out, None, lambda _: None)
    return out


@pytest.fixture(scope="module")
def again(tmp_path_factory: pytest.TempPathFactory) -> Path:
    """The site of two years by hand and a January, in which tea comes again."""
    out = tmp_path_factory.mktemp("again") / "public"
    publish([*two_years(), tea_again()], CONFIG._replace(reference=""), out, None, lambda _: None)
    return out


def words_of(path: Path) -> str:
    """The words of a page without its elements, each space once."""
    return words(path.read_text(encoding="utf-8"))


def words(page: str) -> str:
    """The words of a page's text."""
    text = re.sub(r"<(style|script).*?</\1>", "", page, flags=re.S)
    return " ".join(html.unescape(re.sub(r"<[^>]*>", " ", text)).split())


# ---- what pages say


def test_the_first_page_says_what_happened(by_hand: Path) -> None:
    """Coffee gave 740/133 of 1260/133 percentage points, milk 420/133, and tea, which left, 100/133."""
    told = words_of(by_hand / "index.html")
    assert "In January 2027, consumer prices were 9.5 percent higher than a year earlier" in told
    assert (
        "The largest contribution came from title of 01 , +5.56 of +9.5 percentage points. Compared with the previous month, prices rose by 4.0"
        in told
    )
    assert "Annual change +9.5 % Monthly change +4.0 %" in told
    assert "Index, December 2025 = 100 109.2" in told
    assert "In January 2027, no price was imputed." in told
    page = (by_hand / "index.html").read_text(encoding="utf-8")
    assert re.findall(r'<th scope="row"><a href="node/(\d\d)\.html">', page) == ["01", "03", "02"]
    assert "Title of 01 50.00 % +8.2 % +5.56 Title of 03 50.00 % \u2013 +3.16" in told
    assert "Title of 02 \u2013 \u2013 +0.75" in told
    assert "Title of 00 100.00 % +9.5 % +9.47" in told


def test_a_fall_is_told_as_one(tmp_path: Path) -> None:
    """January 2026: coffee 0.75 * -2 points, tea 0.25 * 5; there is no year before."""
    publish(two_years()[:2], CONFIG._replace(reference=""), tmp_path / "public", None, lambda _: None)
    told = words_of(tmp_path / "public/index.html")
    assert "In January 2026, consumer prices fell by 0.3 percent from the previous month" in told
    assert (
        "The largest contribution came from title of 01 , \u22121.50 of \u22120.3 percentage points; the largest in the other direction came from title of 02 (+1.25)"
        in told
    )


def test_what_left_and_came_again_has_two_bases(again: Path) -> None:
    told = words_of(again / "node/02.html")
    assert "Index December 2025 = 100; since January 2028, December 2027 = 100" in told
    assert "Index, December 2027\u00a0=\u00a0100 110.0".replace("\u00a0", " ") in told
    assert "Index December 2025 = 100; the axis doesn't begin at zero " in words_of(again / "node/01.html")
    # of the items of 2026 the calculator offers December 2025, and tea has nothing in 2027
    data = json.loads((again / "assets/levels.js").read_text(encoding="utf-8")[len("window.LEVELS = ") : -2])
    tea = dict(zip(data["months"], data["items"]["02"]["levels"]))
    assert (tea["2025-12"], tea["2026-12"], tea["2027-06"], tea["2028-01"]) == (
        10**8,
        108 * 10**6,
        None,
        11 * 10**7,
    )


def drawn_in(picture: str, kind: str) -> list[list[float]]:
    """The values of a line of a picture, a list for each of its parts, read off by the marks of its axis."""
    marks = re.findall(r'class="end" x="[^"]+" y="([\d.]+)">(\u2212?[\d.]+)</text>', picture)
    (low_y, low), (high_y, high) = [
        (float(y) - 4, float(text.replace("\u2212", "-"))) for y, text in (marks[0], marks[-1])
    ]
    (path,) = re.findall(rf'class="line {kind}" d="([^"]*)"', picture)
    parts = [re.findall(r"[\d.]+ ([\d.]+)", part) for part in path.split("M")[1:]]
    return [[low + (high - low) * (low_y - float(y)) / (low_y - high_y) for y in part] for part in parts]


def are_near(found: list[list[float]], wanted: list[list[float]]) -> bool:
    """Whether two lines are the same, but for a tenth of a pixel."""
    both = [*zip((it for part in found for it in part), (it for part in wanted for it in part))]
    return [len(it) for it in found] == [len(it) for it in wanted] and all(abs(one - it) < 0.05 for one, it in both)


def test_all_items_are_drawn_with_the_month_of_the_item_as_100() -> None:
    """Milk came in 2027: 106 from January on, and all items are 99.75 / 105 = 95 in January 2026 and 104 in 2027."""
    level = of_node(Shown(Series(two_years())), "03")[0]
    assert level.unit == "December 2026 = 100" and "Title of 00 , also with December 2026 = 100." in words(
        str(level.key)
    )
    assert are_near(drawn_in(level.picture, "own"), [[106] * 12])
    assert are_near(drawn_in(level.picture, "other"), [[95, *[102.75 / 1.05] * 10, 100, *[104] * 12]])
    whole = of_node(Shown(Series(two_years())), "01")[0]
    assert are_near(drawn_in(whole.picture, "other"), [[99.75, *[102.75] * 10, 105, *[109.2] * 12]])
    assert "=" not in words(str(whole.key))


def test_an_item_that_is_back_is_drawn_after_a_mark(again: Path) -> None:
    """Tea is 110 in January 2028, with December 2027 = 100; all items are 105 there."""
    level = of_node(Shown(Series([*two_years(), tea_again()])), "02")[0]
    assert are_near(drawn_in(level.picture, "own"), [[*[105] * 11, 108], [110]])
    before = [99.75, *[102.75] * 10, 105, *[109.2] * 12]
    assert are_near(drawn_in(level.picture, "other"), [before, [105]])
    assert level.picture.count('class="break"') == 1
    assert "From 105.0 in January 2026 to 108.0 in December 2026. 110.0 in January 2028." in level.picture
    assert "A mark shows a break: since January 2028, December 2027 = 100." in words(str(level.key))
    told = words_of(again / "node/02.html")
    assert "Index (December 2025 = 100; since January 2028, December 2027 = 100)" in told
    note = "Break: from January 2028 on, December 2027 = 100. These levels aren't linked to the earlier ones below. Dec"
    assert note in told and "Break:" not in words_of(again / "node/01.html")


def test_annual_contributions_over_a_december_under_embargo_are_not_told(tmp_path: Path) -> None:
    """The headline is the published change, 110.24 / 99.75; what gave it rests on a December that isn't public."""
    publish(over_another_december(), CONFIG._replace(reference=""), tmp_path / "public", None, lambda _: None)
    told = words_of(tmp_path / "public/index.html")
    assert "In January 2027, consumer prices were 10.5 percent higher than a year earlier" in told
    assert "The largest contribution" not in told
    untold = "Some changes of this month depend on a revision that isn't published yet, so no contributions to the"
    untold += " annual changes are given."
    assert untold in told and untold in words_of(tmp_path / "public/node/00.html")
    assert untold not in words_of(tmp_path / "public/node/01.html")
    revised = words_of(tmp_path / "public/revisions.html")
    assert "January 2027: the monthly change January 2027: the annual change" in revised


# ---- revised months that figures are computed from


def site_of(published: list[Published], out: Path) -> Path:
    """The site of some tables."""
    publish(published, CONFIG._replace(reference=""), out, None, lambda _: None)
    return out


def test_a_december_that_was_revised_is_told_beside_the_figures(tmp_path: Path) -> None:
    """All items were at 105 in December 2026, and at 106 by its revision of second 150; January is 106 * 1.04, and was
    published before it. The revision didn't change coffee (01)."""
    hidden = over_another_december()
    (december,) = [it for it in hidden if it.listed.month == "2026-12"]
    table = december.table.replace(b"105.000000,105.000000,2.2,5.0", b"106.000000,106.000000,3.2,6.0")
    assert table != december.table
    shown = [*hidden, Published(Listed("2026-12", 2, 150), table)]
    february = hidden[-1].table.replace(b"110.240000,4.0,10.5", b"110.240000,0.0,7.3")
    later = [*shown, Published(Listed("2027-02", 1, 160), february.replace(b",4.0,", b",0.0,"))]

    untold = "December 2026 was revised, and that revision isn't published yet. It is already used in"
    site = site_of(hidden, tmp_path / "hidden")
    for page in ("index.html", "node/00.html"):
        told = words_of(site / page)
        # (105 * 1.04 is 109.2 and 110.24 / 105 is 1.05, in place of 110.24 and 1.04; 110.24 / 99.75 is the 1.105 told)
        assert f"{untold} the index and the monthly change, so the published levels don't give the" in told
        assert "was revised on" not in told
    for page in ("node/01.html", "node/03.html"):
        assert "was revised" not in words_of(site / page)

    begun = (
        "December 2026 was revised on 1 January 1970, 00:02 UTC: its index is 106.0, and was 105.0 before. The revised"
    )
    site = site_of(shown, tmp_path / "shown")
    for page in ("index.html", "node/00.html"):
        told = words_of(site / page)
        assert f"{begun} index is used in the index and the monthly change ( revisions )." in told
        assert untold not in told
    assert "was revised" not in words_of(site / "node/01.html")
    assert f"{begun} index is used in the index ( revisions )." in words_of(
        site_of(later, tmp_path / "later") / "index.html"
    )


def test_a_hidden_revision_of_flour_is_told_on_no_page_of_rice(cpi: Cpi, tmp_path: Path) -> None:
    """January's flour was revised under embargo from 0.84 to 0.88, and February's is 0.90: 2.3 percent more, where the
    published levels give 7.1. Rice went from 4.56 to 4.78, which is the published 4.8 percent."""
    path = tmp_path / "office.db"
    sent = [
        surveys.SMALL.partition("3500,")[0],
        f"2100,desk,calendar,2026-01,2000,2500,{LONG_AFTER}",
        f"2200,{surveys.key_of(7)},quote,2,2026-01,price,88",
        "2500,desk,freeze,2026-01",
        *(f"3500,{surveys.key_of(7)},quote,{slot},2026-02,price,{price}" for slot, price in ((1, 218), (2, 90))),
        f"3500,{surveys.key_of(8)},quote,1,2026-02,price,260",
        "4000,desk,freeze,2026-02",
    ]
    assert [reply for reply in cpi.replay(sent, db=path) if "refused" in reply] == []
    site = site_of(from_file(cpi, path, 6000), tmp_path / "public")
    counted = (
        "January 2026 was revised, and that revision isn't published yet. It is already used in the monthly change"
    )
    untold = "Some changes of this month depend on a revision that isn't published yet, so no contributions to the"
    for code in ("00", "01", "01.1", "01.1.1", "01.1.1.2", "01.1.1.2-01"):
        assert f"{counted}, so the published levels don't give the same" in words_of(site / f"node/{code}.html")
    assert counted in words_of(site / "index.html")
    for code in ("01.1.1.1", "01.1.1.1-01"):
        told = words_of(site / f"node/{code}.html")
        assert "was revised" not in told and "Monthly change +4.8 %" in told
    assert f"{untold} monthly changes are given." in words_of(site / "node/01.1.1.1.html")


def test_a_hidden_revision_is_told_beside_what_the_published_levels_do_not_give(tmp_path: Path) -> None:
    """A hidden revision of January 2026 changed one node: all items before January 2027, or tea (02) before February
    2026. Only the page of that node says so."""
    tables = two_years()[:14]
    by_month = {table.listed.month: table for table in tables}
    annual, monthly = "the annual change", "the monthly change"

    def told(last: str, was: bytes, now: bytes, page: str) -> str:
        changed = by_month[last].table.replace(was, now)
        assert changed != by_month[last].table
        kept = [table for table in tables if table.listed.month < last]
        out = tmp_path / f"{last}-{page}-{now.decode()}"
        return words_of(site_of([*kept, by_month[last]._replace(table=changed)], out) / f"node/{page}.html")

    # all items were at 99.75 a year before, and at 100.00 by a hidden revision: 109.2 / 100 is 9.2 percent
    for page, is_told in (("00", True), ("01", False), ("03", False)):
        page_told = told("2027-01", b"109.200000,4.0,9.5", b"109.200000,4.0,9.2", page)
        assert (f"January 2026 was revised, and that revision isn't published yet. It is already used in {annual}, so"
                in page_told) == is_told  # fmt: skip
        assert ("was revised" in page_told) == is_told
    # tea was at 105 in January, and at 100 by a hidden revision: 105 / 100 is 5.0 percent
    for page, is_told in (("00", False), ("01", False), ("02", True)):
        page_told = told("2026-02", b"105.000000,105.000000,0.0", b"105.000000,105.000000,5.0", page)
        assert (f"January 2026 was revised, and that revision isn't published yet. It is already used in {monthly}, so"
                in page_told) == is_told  # fmt: skip
        assert ("was revised" in page_told) == is_told


def test_a_month_before_that_was_revised_is_told_beside_the_change(published: list[Published], tmp_path: Path) -> None:
    """Of the month after a revision that is published, and of the last month, whose month before has a hidden one."""
    until = [publication for publication in published if publication.listed.month <= "2026-04"]
    levels = [
        Fraction(publication.table.decode().split(",", 4)[3])
        for publication in until
        if publication.listed.month == REVISED and publication.table[:2] == b"00"
    ]
    assert len(levels) == 2 and REVISED == "2026-03"
    site = site_of(until, tmp_path / "told")
    told, old, new = words_of(site / "index.html"), *(f"{float(level):.1f}" for level in levels)
    assert f"its index is {new}, and was {old} before. The revised index is used in the monthly change" in told
    assert "was revised" in words_of(site / "node/01.html") and "was revised" not in words_of(site / "node/07.html")
    last = words_of(site_of(published, tmp_path / "last") / "index.html")
    assert (
        "April 2027 was revised, and that revision isn't published yet. It is already used in the monthly change"
        in last
    )
    after = [publication for publication in published if publication.listed.month <= "2026-05"]
    assert "was revised" not in words_of(site_of(after, tmp_path / "after") / "index.html")


def test_a_year_before_that_was_revised_is_told_beside_the_change(published: list[Published], tmp_path: Path) -> None:
    until = [publication for publication in published if publication.listed.month <= "2027-03"]
    told = words_of(site_of(until, tmp_path / "told") / "index.html")
    assert "March 2026 was revised" in told and "The revised index is used in the annual change (" in told


def test_what_left_long_ago_has_its_pictures() -> None:
    """Pictures show 61 months at most: of tea, which is in the first of seven years alone, up to its last month."""
    shown = Shown(Series(seven_years()))
    level, _, month = of_node(shown, "02")
    assert "From 100.0 in January 2020 to 100.0 in December 2020." in level.picture
    assert month.name == "Monthly change"
    assert "0.0 percent from January 2020 to December 2020." in month.picture
    whole = of_node(shown, "00")[0].picture
    assert "From 100.0 in December 2021 to 100.0 in December 2026." in whole


def seven_years() -> list[Published]:
    """Tables in which nothing moves; tea is in the first year alone."""
    publications = [Published(Listed("2019-12", 1, 0), b"")]
    for year in range(2020, 2027):
        for month in range(1, 13):
            codes = ("00", "01", "02") if year == 2020 else ("00", "01")
            annual = "0.0" if year > 2020 or month == 12 else ""
            rows = (f"{code},1000000,100.000000,100.000000,0.0,{annual},0,Title of {code}\n" for code in codes)
            publications.append(Published(Listed(f"{year}-{month:02}", 1, len(publications)), "".join(rows).encode()))
    return publications


def test_the_imputed_share_says_what_it_is_of(site: Path, published: list[Published]) -> None:
    rows = [line.split(",") for line in published[-1].table.decode().splitlines()]
    aggregates = {row[0]: (int(row[1]), row[6]) for row in rows if "-" in row[0]}
    assert {code for code, (_, imputed) in aggregates.items() if imputed == "1"} == {"01.1.1.1-01"}
    # rice has 390,000 of 1,000,000
    told = words_of(site / "index.html")
    assert (
        "at least one price was imputed in elementary aggregates that account for 39 percent of the total weight"
        in told
    )
    assert "The weight of such aggregates isn't the share of imputed prices" in told


def test_the_imputed_share_is_by_the_weight_of_elementary_aggregates() -> None:
    """Of two aggregates of a subclass one has an imputed price, and 0.3 of the weight; so have all nodes above it."""
    publications = [Published(Listed("2025-12", 1, 0), b"")]
    for at, imputed in enumerate((("1", "0"), ("0", "0"), ("1", "1")), 1):
        above = [(code, 1_000_000, max(imputed)) for code in ("00", "01", "01.1", "01.1.1", "01.1.1.1")]
        rows = [*above, ("01.1.1.1-01", 300_000, imputed[0]), ("01.1.1.1-02", 700_000, imputed[1])]
        text = "".join(f"{code},{weight},100.000000,100.000000,0.0,,{row},Title\n" for code, weight, row in rows)
        publications.append(Published(Listed(f"2026-{at:02}", 1, at), text.encode()))
    told = of_imputed(Series(publications))
    assert told.last == "100"
    assert told.figures == [("March 2026", "100"), ("February 2026", "0"), ("January 2026", "30")]
    assert "Between 0 and 100 percent of the weight." in told.picture


def test_a_node_has_its_page_and_its_file(site: Path) -> None:
    told = words_of(site / "node/01.html")
    assert told.count("All items") >= 2 and "What it contains" in told and 'Food, "proper"' in told
    head, *rows = (site / "node/01.csv").read_text(encoding="utf-8").splitlines()
    assert head.startswith("month,revision,published,code,depth,title,weight,index,chained,")
    whole = (site / "data/cpi.csv").read_text(encoding="utf-8").splitlines()
    plain = [line for line in whole if line.split(",")[3] == "01"]
    assert [line.rsplit(",", 5)[0] for line in rows] == plain and len(rows) == 29


def test_a_node_has_its_months_by_hand(by_hand: Path) -> None:
    """Coffee in January 2027: 106.08 is 104 * 1.02; its first month is January 2026, of which there is no year before."""
    page = (by_hand / "node/01.html").read_text(encoding="utf-8")
    rows = [line for line in page.splitlines() if 'class="month"' in line]
    names = [re.sub("<[^>]*>", "", row.partition("</th>")[0]) for row in rows]
    cells = [re.findall("<td[^>]*>([^<]*)</td>", row) for row in rows]
    assert (names[0], names[-1], len(names)) == ("January 2027", "January 2026", 13)
    assert cells[0] == ["106.1", "102.0", "+2.0\u202f%", "+8.2\u202f%", "", "1"]
    assert cells[-1] == ["98.0", "98.0", "\u22122.0\u202f%", "\u2013", "", "1"]


def test_a_node_that_left_says_so(site: Path) -> None:
    told = words_of(site / "node/01.1.1.2-01.html")
    assert "This item isn't in the index in 2027; its last figure is for December 2025." in told
    assert "Items that left the index" in words_of(site / "nodes.html")


def test_titles_are_escaped(site: Path) -> None:
    for page in site.rglob("*.html"):
        text = page.read_text(encoding="utf-8")
        assert "<meal>" not in text and "<of>" not in text, page
    assert "Flour &amp; &lt;meal&gt;" in (site / "node/01.1.1.2-01.html").read_text(encoding="utf-8")


def test_revisions_and_what_is_against_an_embargoed_one_are_told(site: Path) -> None:
    told = words_of(site / "revisions.html")
    # 15 months of 1,000 seconds after 1970 began, and 990 or 900 seconds
    moments = "Published on 1 January 1970, 04:26 UTC; revision 1 had been published on 1 January 1970, 04:25 UTC"
    assert f"March 2026, revision 2 {moments}. 6 of 16 levels differ." in told
    assert "May 2027: the monthly change" in told and "the annual change" not in told
    assert "data/tables/2026-03-r1.csv" in (site / "revisions.html").read_text(encoding="utf-8")


def test_nodes_without_the_reference_period_are_listed(site: Path) -> None:
    told = words_of(site / "data.html")
    assert "Items without a level in 2025" in told and "08 , 08.1 , 08.1.1 , 08.1.1.1 , 08.1.1.1-01 ." in told


# ---- where they lead


class Links(HTMLParser):
    """What a page points at, its ids, what has no name, and whether each field has a label."""

    def __init__(self) -> None:
        super().__init__()
        self.links: list[str] = []
        self.ids: list[str] = []
        self.named: list[str] = []
        self.fields: list[str] = []
        self.unnamed = 0

    def handle_starttag(self, tag: str, attrs: list[tuple[str, Optional[str]]]) -> None:
        values = {name: value or "" for name, value in attrs}
        self.links += [values[name] for name in ("href", "src") if name in values]
        self.ids += [values["id"]] if "id" in values else []
        self.named += [values["for"]] if tag == "label" and "for" in values else []
        if tag in ("input", "select") and values.get("type") != "radio":
            self.fields.append(values.get("id", ""))
        self.unnamed += tag == "svg" and "aria-labelledby" not in values
        self.unnamed += values.get("role") == "region" and not values.get("aria-label")


def test_pages_lead_to_what_is_there_and_to_nothing_else(site: Path) -> None:
    pages = sorted(site.rglob("*.html"))
    # (each item and each release that has rows has a page, and one that other sites embed; besides these there are the
    # list of releases, the calendar, the page that is shown if there is none, and the one that shows a reader's choice in
    # other sites)
    assert len(pages) == 10 + 2 * CODES + 2 * (len(shown()) - 1) + 4
    for page in pages:
        links = Links()
        links.feed(page.read_text(encoding="utf-8"))
        for link in links.links:
            if not link.startswith(("#", "data:,")):
                assert "//" not in link
                path, _, anchor = link.partition("#")
                name, _, choice = path.partition("?")
                assert not choice or name.endswith(("choose.html", "then-and-now.html"))
                assert (page.parent / name).resolve().is_file(), (page.name, link)
                assert not anchor or f'id="{anchor}"' in (page.parent / name).read_text(encoding="utf-8"), link
        assert len(links.ids) == len(set(links.ids)) and links.unnamed == 0, page
        assert {*links.fields} <= {*links.named}, page


def test_a_page_asks_nothing_of_another_machine(site: Path) -> None:
    for path in [*site.rglob("*.html"), *site.glob("assets/*")]:
        text = path.read_text(encoding="utf-8")
        if path.suffix == ".js" and path.stem in ("choose", *OF_PAGES):
            # (they ask for files of the site, by their names from their page on)
            assert [*re.findall(r"fetch\((.*?)[,)]", text)] == ["name"]
            assert not re.search(r"(?:textOf|itemOf)\([`\"](?:/|\.|[a-z]+:)", text)
            text = text.replace("fetch(name", "")
        reaching = r"@import|url\(|fetch\(|XMLHttpRequest|WebSocket|document\.cookie|localStorage"
        assert not re.findall(reaching, text), path


# ---- the calculator, by the file that the page loads


@pytest.mark.skipif(shutil.which("node") is None, reason="node isn't there")
def test_the_calculator_by_hand(site: Path) -> None:
    """Amount, levels in millionths, decimals of the levels, and the new amount; halves go up."""
    sums = [
        # 1000 * 103.7 / 101.3 = 1023.6920..
        ("1000.00", 101_300_000, 103_700_000, 1, "1 023.69"),
        # 1234.56 * 106.491446 / 100.721902 = 1305.2784..
        ("1 234.56", 100_721_902, 106_491_446, 6, "1 305.28"),
        # half a minor unit goes up
        ("0.01", 200_000_000, 100_000_000, 6, "0.01"),
        # more digits than a float has
        ("999999999999999.99", 100_000_000, 100_000_001, 6, "1 000 000 009 999 999.99"),
        # 100.04 is 100.0 with one decimal, 100.05 is 100.1
        ("1000", 100_040_000, 100_050_000, 1, "1 001.00"),
        # a comma could be a point or none, and there are two decimals
        ("1,234", 1, 1, 6, None),
        ("1.234", 1, 1, 6, None),
        ("-5", 1, 1, 6, None),
        ("", 1, 1, 6, None),
    ]
    program = """const c = require(process.argv[1]);
    const told = JSON.parse(process.argv[2]).map(([text, then, now, decimals]) => {
      const amount = c.amountOf(text, 2);
      const item = { levels: [then, now], tenths: [then, now].map((it) => Number(c.clause(1n, 100000n, BigInt(it)))) };
      const [first, second] = [0, 1].map((month) => c.levelUsed(item, month, decimals));
      return amount === null ? null : c.moneyText(c.clause(amount, first, second), 2).replaceAll("\\u202f", " ");
    });
    console.log(JSON.stringify(told));"""
    words = ["node", "-e", program, str(site / "assets/contract.js"), json.dumps([it[:4] for it in sums])]
    told = subprocess.run(words, capture_output=True, text=True, check=True).stdout
    assert json.loads(told) == [it[4] for it in sums]


@pytest.mark.skipif(shutil.which("node") is None, reason="node isn't there")
def test_the_calculator_refuses_months_that_are_not_linked(site: Path) -> None:
    """The levels of all months from the one to the other, and what is said of them."""
    levels = [[100, 101, 102], [100, None, 102], [None, 101], [101, None], [100]]
    program = """const c = require(process.argv[1]);
    const said = (levels) => c.faultOf(1n, { title: "Tea" }, levels, 2);
    console.log(JSON.stringify(JSON.parse(process.argv[2]).map(said)));"""
    words = ["node", "-e", program, str(site / "assets/contract.js"), json.dumps(levels)]
    lacks = "Tea has no index for one of these months."
    left = "Tea left the index between these months and came back, so its indices can't be compared."
    told = subprocess.run(words, capture_output=True, text=True, check=True).stdout
    assert json.loads(told) == ["", left, lacks, lacks, ""]


def test_the_calculator_has_the_published_levels(published: list[Published], tmp_path: Path) -> None:
    site = site_of(published, tmp_path / "public")
    text = (site / "assets/levels.js").read_text(encoding="utf-8")
    data = json.loads(text[len("window.LEVELS = ") : -2])
    assert data["items"].keys() == {"00", "01", "01.1", "07", "07.2", "08", "08.1"}
    last = {row.split(",")[0]: row.split(",")[3] for row in published[-1].table.decode().splitlines()}
    for code, item in data["items"].items():
        assert item["levels"][-1] == int(last[code].replace(".", ""))
    # the month before all others, in which what begins there is 100, and then the months of the tables
    assert data["months"][:2] == ["2024-12", "2025-01"]
    assert [data["items"][code]["levels"][0] for code in ("00", "07", "08")] == [100_000_000, 100_000_000, None]
    assert data["items"]["08"]["levels"][:13] == [None] * 13 and data["items"]["08"]["levels"][13]
    assert data["revisions"][data["months"].index("2026-03")] == 2 and data["sums"][-1] == published[-1].sha256

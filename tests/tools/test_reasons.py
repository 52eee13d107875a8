"""Why an office revised a month: its file, what pages and the feed say of it, and that what was said stays."""

from __future__ import annotations

import calendar
import csv
import html
import re
from pathlib import Path

import feedparser  # type: ignore[import]
import pytest

from cpi_tools.text.text_files import formulas_told
from cpi_tools.text.clocks import UTC, clock_of
from cpi_tools.publish.figures.config import Config, read_config
from cpi_tools.publish.figures.own_words import OfficeLanguages
from cpi_tools.publish.figures.announcements import BadReasons, GivenReason, Planned, Reason, reasons_of
from cpi_tools.office.public import Published
from cpi_tools.publish.forms.pack_before import REASONS
from cpi_tools.office.table_rows import NO_ROWS
from cpi_tools.office.tables import Table
from cpi_tools.publish.pack import check, publish
from .published import HIDDEN_REVISION, REVISED
from .test_site import words_of

CONFIG = Config("NSO", "XX", "Office of prices")
ADDRESS = "https://prices.example/"
HEAD = ["month", "revision", "reason", "added"]
WHY = 'Rice: 1 kg was entered as 100 g; <b>"=sorry"</b>'
ADDED = 86_400 * 40 + 9 * 3600
"""10 February 1970, 09:00 UTC."""


def quiet(_: str) -> None:
    """Tells nobody."""


def with_reasons(*reasons: Reason) -> Config:
    """The configuration with some."""
    return CONFIG._replace(reasons=reasons)


# ---- the file


def test_a_file_is_read(tmp_path: Path) -> None:
    """A time is that of the office's clock: 09:00 in Prague in February is 08:00 UTC."""
    rows = f'month,revision,reason,added\n{REVISED},2,"One\n cause",\n{REVISED},2,"Two, in fact",2026-02-10T09:00\n'
    (tmp_path / "revisions.csv").write_text(rows, encoding="utf-8")
    ini = "[office]\nagency = NSO\narea = XX\noffice = Office\nzone = Europe/Prague\nrevisions = revisions.csv\n"
    (tmp_path / "office.ini").write_text(ini, encoding="utf-8")
    moment = calendar.timegm((2026, 2, 10, 8, 0, 0))
    wanted = (Reason(REVISED, 2, "One cause"), Reason(REVISED, 2, "Two, in fact", moment))
    assert read_config(tmp_path / "office.ini").reasons == wanted
    assert reasons_of([["reason", "month", "revision"], ["Why", "2026-01", "3"], []], UTC) == (
        Reason("2026-01", 3, "Why"),
    )


@pytest.mark.parametrize(
    ("rows", "line"),
    [
        ([], "its first row is , and not month,revision,reason, with or without added"),
        ([["month", "reason"]], "its first row is month,reason, and not"),
        ([HEAD, ["2026-01", "2", "Why"]], "row 2 has 3 cells, and not 4"),
        ([HEAD, ["2026-1", "2", "Why", ""]], "row 2: 2026-1 is no month like 2026-01"),
        ([HEAD, ["2026-01", "1", "Why", ""]], "row 2: revision 1 isn't 2 to 9"),
        ([HEAD, ["2026-01", "", "Why", ""]], "row 2: revision without a number isn't 2 to 9"),
        ([HEAD, ["2026-01", "2", " ", ""]], "row 2: its reason has 0 letters, and not 1 to 1000"),
        ([HEAD, ["2026-01", "2", "W" * 1001, ""]], "row 2: its reason has 1001 letters"),
        ([HEAD, ["2026-01", "2", "Why", "today"]], "row 2: today is no time like 2026-01-28T09:30, and no seconds"),
        ([HEAD, ["2026-01", "2", "Why", ""], ["2026-01", "2", "More", ""]], "row 3: 2026-01, revision 2, has a reason"),
        ([HEAD, ["2026-01", "2", "A", "9"], ["2026-01", "2", "B", "9"]], "row 3: 2026-01, revision 2, has a reason"),
        (
            [[*HEAD, "reason-xx"]],
            "its column reason-xx is of a language without a catalogue; it is one of en, ar, es, fr",
        ),
        ([[*HEAD, "reason-fr", "reason-fr"]], "its column reason-fr is there twice"),
        ([[*HEAD, "motif"]], "its first row is month,revision,reason,added,motif, and not month,revision,reason"),
        (
            [[*HEAD, "reason-fr"], ["2026-01", "2", "A", "", "W" * 1001]],
            "row 2: its reason-fr has 1001 letters, and not",
        ),
    ],
)
def test_a_slip_in_the_file_is_refused(rows: list[list[str]], line: str) -> None:
    with pytest.raises(BadReasons) as told:
        reasons_of(rows, clock_of(""))
    assert line in str(told.value) and "\n" not in str(told.value)


# ---- what is said of it


def test_a_reason_is_on_the_pages_and_in_the_feed(published: list[Published], tmp_path: Path) -> None:
    site = tmp_path / "public"
    reasons = Reason(REVISED, 2, WHY), Reason(REVISED, 2, "Wheat too.", ADDED)
    config = with_reasons(*reasons)._replace(address=ADDRESS)
    publish(published, config, site, None, quiet)
    for page in (site / f"release/{REVISED}-r2.html", site / "revisions.html"):
        assert f"Why the office revised this month: {WHY}" in words_of(page)
        assert "The office added this on 10 February 1970, 09:00 UTC : Wheat too." in words_of(page)
        assert "<b>&#34;" not in page.read_text(encoding="utf-8") and "&lt;b&gt;" in page.read_text(encoding="utf-8")
    assert WHY not in words_of(site / f"release/{REVISED}-r1.html")
    (entry,) = (
        entry for entry in feedparser.parse((site / "feed.xml").read_bytes()).entries if entry.id.endswith("-r2.html")
    )
    assert entry.summary.endswith("Why the office revised this month: Wheat too.") and "Rice: 1 kg" in entry.summary
    (of,) = (publication.listed for publication in published if publication.listed[:2] == (REVISED, 2))
    assert calendar.timegm(entry.published_parsed) == of.moment
    assert calendar.timegm(entry.updated_parsed) == ADDED > of.moment
    row = f"<loc>{ADDRESS}release/{REVISED}-r2.html</loc><lastmod>1970-02-10T09:00:00Z</lastmod>"
    assert row in (site / "sitemap.xml").read_text(encoding="utf-8")
    lines = (site / "data" / REASONS).read_text(encoding="utf-8").splitlines()
    assert lines[0] == "month,revision,added,reason" and lines[2] == f"{REVISED},2,1970-02-10T09:00:00Z,Wheat too."
    assert REASONS in words_of(site / "data.html")
    assert check(published, config, site, None, quiet) == []


def test_without_reasons_there_is_no_file_of_them(published: list[Published], tmp_path: Path) -> None:
    publish(published, CONFIG, tmp_path / "public", None, quiet)
    assert not (tmp_path / "public/data" / REASONS).exists()
    assert "why" not in words_of(tmp_path / f"public/release/{REVISED}-r2.html").lower().split("why figures differ")[0]


def test_a_reason_of_no_release_is_refused(published: list[Published], tmp_path: Path) -> None:
    for month, revision in ((REVISED, 3), ("2026-02", 2)):
        with pytest.raises(BadReasons, match=f"names {month}, revision {revision}, which is neither out nor announced"):
            publish(published, with_reasons(Reason(month, revision, "Why")), tmp_path / "public", None, quiet)
    with pytest.raises(BadReasons, match=f"of {REVISED}, revision 2, was added before the revision was out"):
        publish(published, with_reasons(Reason(REVISED, 2, "Why", 5)), tmp_path / "public", None, quiet)
    assert not (tmp_path / "public").exists()


def test_a_reason_waits_for_its_revision(published: list[Published], tmp_path: Path) -> None:
    """One of an announced revision that is under embargo is in no file."""
    config = with_reasons(Reason(HIDDEN_REVISION, 2, "Under-embargo"))
    publish(
        published, config._replace(planned=(Planned(HIDDEN_REVISION, 2, 9_000_000_001),)), tmp_path / "p", None, quiet
    )
    files = [path for path in (tmp_path / "p").rglob("*") if path.is_file()]
    assert files and not [file for file in files if b"Under-embargo" in file.read_bytes()]


def test_a_reason_whose_time_is_to_come_waits_for_its_revision(published: list[Published], tmp_path: Path) -> None:
    """Nothing that is out says which revision comes next, so the time alone does."""
    latest = max(publication.listed.moment for publication in published)
    with pytest.raises(BadReasons, match="which is neither out nor announced"):
        publish(published, with_reasons(Reason(REVISED, 3, "Later", latest)), tmp_path / "p", None, quiet)
    publish(published, with_reasons(Reason(REVISED, 3, "Later-on", latest + 1)), tmp_path / "p", None, quiet)
    files = [path for path in (tmp_path / "p").rglob("*") if path.is_file()]
    assert files and not [file for file in files if b"Later-on" in file.read_bytes()]


# ---- in the languages of the pages

BILINGUAL = OfficeLanguages(("en", "fr"))
POURQUOI = "Riz : 1 kg avait \u00e9t\u00e9 saisi comme 100 g."


def test_a_reason_has_a_language_for_each_of_the_pages() -> None:
    """A cell without a text, and a language without a column, have the reason as the office wrote it first."""
    rows = [[*HEAD, "reason-fr", "reason-ar"], ["2026-01", "2", "Rice", "", " Du\nriz ", ""]]
    (found,) = reasons_of(rows, UTC)
    assert found == Reason("2026-01", 2, "Rice", None, {"fr": "Du riz"})
    given = GivenReason(Table("2026-01", 2, 0, "", NO_ROWS), found.text, 0, found.texts)
    assert [given.say(tag) for tag in ("fr", "ar", "en")] == ["Du riz", "Rice", "Rice"]


def test_each_page_says_it_in_its_own_language(published: list[Published], tmp_path: Path) -> None:
    """Pages, the list of revisions and the feed; the file has a column for each language."""
    site = tmp_path / "public"
    reasons = Reason(REVISED, 2, WHY, None, {"fr": POURQUOI}), Reason(REVISED, 2, "Wheat too.", ADDED)
    publish(published, with_reasons(*reasons)._replace(address=ADDRESS, speaks=BILINGUAL), site, None, quiet)
    for folder, said, other in (("", WHY, POURQUOI), ("fr/", POURQUOI, WHY)):
        for name in (f"{folder}release/{REVISED}-r2.html", f"{folder}revisions.html"):
            assert said in words_of(site / name) and other not in words_of(site / name)
            assert "Wheat too." in words_of(site / name)
        feed = feedparser.parse((site / f"{folder}feed.xml").read_bytes())
        (entry,) = (entry for entry in feed.entries if entry.id.endswith("-r2.html"))
        assert said in html.unescape(entry.summary) and other not in html.unescape(entry.summary)
    head, first, second = csv.reader((site / "data" / REASONS).read_text(encoding="utf-8").splitlines())
    assert head == ["month", "revision", "added", "reason", "reason-fr"]
    assert (first[3:], second[3:]) == ([WHY, POURQUOI], ["Wheat too.", ""])


def test_a_reason_may_be_translated_later_and_stays_then(published: list[Published], tmp_path: Path) -> None:
    """The first time no page but those of that language changes, and no line says that one did."""
    site, plain = tmp_path / "public", Reason(REVISED, 2, WHY)
    french = plain._replace(texts={"fr": POURQUOI})
    lines = list[str]()
    for reasons in ((plain,), (french,)):
        publish(published, with_reasons(*reasons)._replace(speaks=BILINGUAL), site, None, lines.append)
        then = (site / f"release/{REVISED}-r2.html").read_bytes()
        assert (POURQUOI in words_of(site / f"fr/release/{REVISED}-r2.html")) == (reasons == (french,))
    for other in (plain, plain._replace(texts={"fr": "Autre"})):
        with pytest.raises(
            BadReasons, match=f"of {REVISED}, revision 2, was published as 'Riz : 1 kg avait .*put it back"
        ):
            publish(published, with_reasons(other)._replace(speaks=BILINGUAL), site, None, quiet)
    assert (site / f"release/{REVISED}-r2.html").read_bytes() == then
    assert not [line for line in lines if "no longer say" in line]


# ---- that it stays


def test_what_was_said_stays(published: list[Published], tmp_path: Path) -> None:
    """A reason that was published is neither changed nor taken back; a further row adds to it, and changes the page of
    its revision only, by a paragraph."""
    site, first = tmp_path / "public", Reason(REVISED, 2, WHY)
    publish(published, with_reasons(first), site, None, quiet)
    page = site / f"release/{REVISED}-r2.html"
    then = {path.name: path.read_bytes() for path in (site / "release").iterdir()}
    for reasons in ((), (first._replace(text="Another"),), (first._replace(added=ADDED),)):
        with pytest.raises(BadReasons, match=f"the reason of {REVISED}, revision 2, was published as 'Rice: 1 kg"):
            publish(published, with_reasons(*reasons), site, None, quiet)
        assert page.read_bytes() == then[page.name]
    publish(published, with_reasons(first, Reason(REVISED, 2, "Wheat too.", ADDED)), site, None, quiet)
    now = {path.name: path.read_bytes() for path in (site / "release").iterdir()}
    assert {name for name in now if now[name] != then[name]} == {page.name}
    added = [line for line in now[page.name].decode().splitlines() if line not in then[page.name].decode().splitlines()]
    assert [re.sub("<[^>]*>", "", line) for line in added] == [
        "The office added this on 10 February 1970, 09:00 UTC: Wheat too."
    ]


def test_a_reason_that_comes_later_says_so(published: list[Published], tmp_path: Path) -> None:
    site = tmp_path / "public"
    publish(published, CONFIG, site, None, quiet)
    with pytest.raises(BadReasons, match=f"{REVISED}, revision 2, was published without its reason"):
        publish(published, with_reasons(Reason(REVISED, 2, WHY)), site, None, quiet)
    publish(published, with_reasons(Reason(REVISED, 2, WHY, ADDED)), site, None, quiet)
    assert f"The office added this on 10 February 1970, 09:00 UTC : {WHY}" in words_of(
        site / f"release/{REVISED}-r2.html"
    )


def test_an_apostrophe_of_a_safe_file_is_no_change(published: list[Published], tmp_path: Path) -> None:
    config = with_reasons(Reason(REVISED, 2, "=SUM(A1) was in a cell"))
    for is_safe in (True, False, True):
        with formulas_told("test", is_safe):
            publish(published, config, tmp_path / "public", None, quiet)
        told = (tmp_path / "public/data" / REASONS).read_text(encoding="utf-8")
        assert ("'=SUM" in told) == is_safe

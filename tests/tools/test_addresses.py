"""What the site says to other programs if it is known where it is: canonical addresses, the map of its pages, the feed,
schema.org; and that its pages are HTML."""

from __future__ import annotations

import calendar
import hashlib
import json
import re
import subprocess
from html.parser import HTMLParser
from pathlib import Path
from typing import Any, Optional
from xml.etree import ElementTree

import feedparser  # type: ignore[import]
import html5lib
import pytest
import rdflib

from cpi_tools.publish.figures.config import Config
from cpi_tools.publish.figures.announcements import Planned
from cpi_tools.office.public import Published
from cpi_tools.publish.pack import publish
from .published import LONG_AFTER, REVISED
from .test_site import words_of

ADDRESS = "https://prices.example/index/"
OFFICE = 'Office </script><b> & "prices"'
CONFIG = Config(
    "NSO", "XX", OFFICE, country="Exampleland", contact="prices@example", licence="CC BY 4.0", address=ADDRESS,
    planned=(Planned("2027-06", 1, LONG_AFTER),),
)  # fmt: skip


@pytest.fixture(scope="module")
def site(published: list[Published], tmp_path_factory: pytest.TempPathFactory) -> Path:
    """The site of an office with a revision, which says where it is."""
    out = tmp_path_factory.mktemp("addressed") / "public"
    publish(published, CONFIG, out, None, lambda _: None)
    return out


class Head(HTMLParser):
    """What a page says of itself: its links and their kinds, its `meta` elements, and its blocks of data."""

    def __init__(self, page: Path) -> None:
        super().__init__()
        self.links: dict[str, str] = {}
        self.said: dict[str, str] = {}
        self.data: list[str] = []
        self.is_data = False
        self.feed(page.read_text(encoding="utf-8"))

    def handle_starttag(self, tag: str, attrs: list[tuple[str, Optional[str]]]) -> None:
        values = {name: value or "" for name, value in attrs}
        if tag == "link":
            self.links[values["rel"]] = values["href"]
        if tag == "meta" and "content" in values:
            self.said[values.get("property") or values["name"]] = values["content"]
        self.is_data = tag == "script" and values.get("type") == "application/ld+json"

    def handle_endtag(self, tag: str) -> None:
        self.is_data = False

    def handle_data(self, data: str) -> None:
        if self.is_data:
            self.data.append(data)


def pages_of(site: Path) -> list[Path]:
    """All pages but those that say that they aren't for those who search: in a frame, or if there is none."""
    return [path for path in sorted(site.rglob("*.html")) if Head(path).said.get("robots") != "noindex"]


def test_each_page_says_its_address(site: Path) -> None:
    for page in pages_of(site):
        head, name = Head(page), page.relative_to(site).as_posix()
        own = ADDRESS if name == "index.html" else ADDRESS + name
        assert head.links["canonical"] == head.said["og:url"] == own
        assert head.links["alternate"] == f"{ADDRESS}feed.xml" and head.said["og:title"]


def test_without_an_address_nothing_says_one(published: list[Published], tmp_path: Path) -> None:
    publish(published[:4], CONFIG._replace(address=""), tmp_path / "public", None, lambda _: None)
    names = {path.name for path in (tmp_path / "public").rglob("*")}
    assert not names & {"feed.xml", "sitemap.xml"} and {"calendar.ics", "404.html"} <= names
    assert not [name for name in names if name.endswith(".png")]
    for page in (tmp_path / "public").rglob("*.html"):
        head = Head(page)
        assert "canonical" not in head.links and not head.data and not {it for it in head.said if it.startswith("og:")}


# ---- the map and the feed


def test_the_map_has_each_page_once_with_its_last_change(site: Path, published: list[Published]) -> None:
    space = "{http://www.sitemaps.org/schemas/sitemap/0.9}"
    rows = ElementTree.parse(site / "sitemap.xml").getroot().findall(f"{space}url")
    found = [(row.findtext(f"{space}loc"), row.findtext(f"{space}lastmod")) for row in rows]
    names = {page.relative_to(site).as_posix() for page in pages_of(site)} - {"index.html"}
    assert len(found) == len({it[0] for it in found}) and {it[0] for it in found} == {
        ADDRESS,
        *(ADDRESS + name for name in names),
    }
    by_address = dict(found)
    moments = {
        (publication.listed.month, publication.listed.revision): publication.listed.moment for publication in published
    }
    assert by_address[f"{ADDRESS}release/2026-02-r1.html"] == stamp(moments["2026-02", 1])
    assert by_address[f"{ADDRESS}release/{REVISED}-r1.html"] == stamp(moments[REVISED, 2]) != stamp(moments[REVISED, 1])
    assert by_address[ADDRESS] == stamp(max(moments.values()))


def stamp(moment: int) -> str:
    """A moment of the first years after 1970, counted by hand: days of 86,400 seconds, all of January 1970."""
    days, rest = divmod(moment, 86_400)
    assert days < 31
    return f"1970-01-{days + 1:02}T{rest // 3600:02}:{rest // 60 % 60:02}:{rest % 60:02}Z"


def test_a_reader_of_feeds_learns_of_each_release(site: Path, published: list[Published]) -> None:
    found = feedparser.parse((site / "feed.xml").read_bytes())
    assert not found.bozo and found.version == "atom10" and found.feed.author == OFFICE
    assert found.feed.links[0].href == f"{ADDRESS}feed.xml" and found.feed.id == ADDRESS
    last = sorted(
        (publication for publication in published if publication.table),
        key=lambda publication: publication.listed.moment,
        reverse=True,
    )[:24]
    wanted = [f"{ADDRESS}release/{publication.name[:-4]}.html" for publication in last]
    assert [entry.id for entry in found.entries] == [entry.link for entry in found.entries] == wanted
    assert [calendar.timegm(entry.updated_parsed) for entry in found.entries] == [
        publication.listed.moment for publication in last
    ]
    (revision,) = (entry for entry in found.entries if entry.id.endswith("-r2.html"))
    page = words_of(site / f"release/{REVISED}-r2.html")
    assert revision.title.startswith("March 2026, revision 2: In March 2026") and revision.summary[:-1] in page
    assert len(found.entries) == len({entry.id for entry in found.entries}) == 24


def test_entries_stay_as_they_are(site: Path, published: list[Published], tmp_path: Path) -> None:
    """A reader that has an entry isn't told of it again."""
    publish(published[:-2], CONFIG, tmp_path / "public", None, lambda _: None)
    form = r"<entry>.*?</entry>"
    before, now = (
        re.findall(form, (path / "feed.xml").read_text(), flags=re.S) for path in (tmp_path / "public", site)
    )
    assert len({*before} & {*now}) == 22


# ---- schema.org


def data_of(page: Path) -> Any:
    """The block of data of a page that has one."""
    (text,) = Head(page).data
    return json.loads(text)


def test_the_page_of_the_data_is_a_data_set_with_its_files(site: Path) -> None:
    found = data_of(site / "data.html")
    assert (found["@type"], found["creator"]["name"], found["url"]) == ("Dataset", OFFICE, f"{ADDRESS}data.html")
    assert found["temporalCoverage"] == "2025-01/2027-05" and found["spatialCoverage"] == "Exampleland"
    assert found["identifier"] == "NSO:DF_CPI" and found["inLanguage"] == "en" and "Index" in found["variableMeasured"]
    assert "Consumer price index" in found["keywords"] and "Laspeyres" in found["measurementTechnique"]
    files = {it["contentUrl"]: it for it in found["distribution"]}
    there = {path.name for path in (site / "data").iterdir() if path.is_file()}
    assert {name for file in files if "/" not in (name := file.removeprefix(f"{ADDRESS}data/"))} == there
    for address, file in files.items():
        data = (site / address.removeprefix(ADDRESS)).read_bytes()
        assert file["contentSize"] == f"{len(data)} B" and file["sha256"] == hashlib.sha256(data).hexdigest()
        assert re.fullmatch(r"[a-z]+/[a-z.+-]+(;version=[0-9.]+)?", file["encodingFormat"])


def test_a_release_is_a_data_set_with_its_table(site: Path, published: list[Published]) -> None:
    for publication in published:
        if publication.table:
            data = data_of(site / f"release/{publication.name[:-4]}.html")
            (file,) = data["distribution"]
            assert (site / file["contentUrl"].removeprefix(ADDRESS)).read_bytes() == publication.table
            assert file["contentSize"] == f"{len(publication.table)} B" and file["sha256"] == publication.sha256
            assert (data["temporalCoverage"], data["version"]) == (
                publication.listed.month,
                str(publication.listed.revision),
            )
            assert data["datePublished"] == stamp(publication.listed.moment)


@pytest.mark.parametrize("page", ["data.html", f"release/{REVISED}-r2.html"])
def test_it_is_read_as_json_ld(site: Path, page: str) -> None:
    """The context of schema.org is on another machine: here all its words have its address."""
    found = {**data_of(site / page), "@context": {"@vocab": "https://schema.org/"}}
    graph = rdflib.Graph().parse(data=json.dumps(found), format="json-ld")
    url, kind, distribution, content = (
        rdflib.URIRef(f"https://schema.org/{text}") for text in ("url", "Dataset", "distribution", "contentUrl")
    )
    (subject,) = graph.subjects(url, rdflib.Literal(ADDRESS + page))
    assert (subject, rdflib.RDF.type, kind) in graph
    files = [*graph.objects(subject, distribution)]
    assert len(files) == len(found["distribution"]) and all(graph.value(file, content) for file in files)


# ---- pages


def test_pages_are_html(site: Path) -> None:
    """By the parser of the standard, which raises at the first fault: a page of each kind, those of all releases, and of
    the titles that look like markup."""
    pages = [path for path in sorted(site.rglob("*.html")) if path.parent.name not in ("node", "embed")]
    pages += [site / f"node/{code}.html" for code in ("00", "01.1", "01.1.1.2-01", "08.1.1.1-01")]
    for page in pages:
        parser = html5lib.HTMLParser(strict=True, namespaceHTMLElements=False)
        tree = parser.parse(page.read_bytes())
        assert tree.find(".//main//h1") is not None, page


def test_the_page_for_a_wrong_address_works_at_any_depth(site: Path) -> None:
    """It has its style in it, and leads by whole addresses to pages that are there."""
    text = (site / "404.html").read_text(encoding="utf-8")
    assert "<style>" in text and 'rel="stylesheet"' not in text and "Page not found" in text
    links = [element for element in re.findall(r'(?:href|src)="([^"]*)"', text) if element not in ("#main", "data:,")]
    assert links and all(link.startswith(ADDRESS) for link in links)
    assert all((site / (link.removeprefix(ADDRESS) or "index.html")).is_file() for link in links)
    assert Head(site / "404.html").said["robots"] == "noindex" and "prices@example" in words_of(site / "404.html")


def test_new_pages_need_no_script(site: Path) -> None:
    """All have one that leads from the search in the head; those of releases have one that adds a button, by which a browser
    makes a PNG of a picture, and one by which pictures tell their months."""
    for page in [
        *(site / "release").glob("*.html"),
        *(site / f"{text}.html" for text in ("releases", "calendar", "404")),
    ]:
        tags = re.findall(r"<script[^>]*>", page.read_text(encoding="utf-8"))
        names = {re.sub(r'^<script (?:src|type)="(?:[^"]*/)?([^"/]*)"[^>]*>$', r"\1", tag) for tag in tags}
        is_release = page.parent.name == "release"
        assert names <= {"ld+json", "head.js", *(("take.js", "point.js") if is_release else ())}, page


def test_the_first_page_is_small(site: Path) -> None:
    """As it is sent by the front, which packs it, with the style that all pages have."""
    packed = [subprocess.run(["gzip", "-5"], input=path.read_bytes(), capture_output=True, check=True).stdout
              for path in (site / "index.html", site / "assets/style.css")]  # fmt: skip
    assert sum(map(len, packed)) < 15_000

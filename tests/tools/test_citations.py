"""The files by which a release is cited, read by BibTeX's, RIS's and XML's own rules."""

from __future__ import annotations

import re
from datetime import date
from pathlib import Path
from xml.etree import ElementTree

import bibtexparser  # type: ignore[import]
import pytest
from bibtexparser.bparser import BibTexParser  # type: ignore[import]

from cpi_tools.publish.releases.cards import NO_CARDS
from cpi_tools.publish.releases.release_feeds import Citation, bibtex, datacite, ris
from cpi_tools.text.clocks import clock_of
from cpi_tools.publish.figures.config import BadConfig, Config, read_config
from cpi_tools.publish.figures.own_words import OfficeLanguages, Own
from cpi_tools.office.public import Published
from cpi_tools.publish.pack import publish
from lib.ris import read_ris
from .published import REVISED
from .test_site import words_of

ADDRESS = "https://prices.example/index/"
CONFIG = Config(
    "NSO.PRICES", "XX", "Office & <of> prices", licence="https://licence.example/by", address=ADDRESS, doi="10.5072/cpi",
    speaks=OfficeLanguages(("en", "fr"), own={"fr": Own({"office": "Office des prix", "title": "Indice des prix"})}),
)  # fmt: skip
KERNEL = "{http://datacite.org/schema/kernel-4}"
LANG = "{http://www.w3.org/XML/1998/namespace}lang"


@pytest.fixture(scope="module")
def site(published: list[Published], tmp_path_factory: pytest.TempPathFactory) -> Path:
    """The site of an office with a revision and a DOI, in two languages."""
    with pytest.MonkeyPatch.context() as patch:
        patch.setattr("cpi_tools.publish.pack.cards_after", lambda _: NO_CARDS)
        out = tmp_path_factory.mktemp("cited") / "public"
        upto = [publication for publication in published if publication.name <= f"{REVISED}-r2.csv"]
        publish(upto, CONFIG, out, None, lambda _: None)
    return out


SIGNS = {
    r"\textbackslash{}": "\\", r"\textbraceleft{}": "{", r"\textbraceright{}": "}", r"\textasciitilde{}": "~",
    r"\textasciicircum{}": "^", **{f"\\{sign}": sign for sign in "&%$#_"},
}  # fmt: skip
"""What LaTeX prints for some of its commands."""


def entry_of(data: str) -> dict[str, str]:
    """The one record of a file of BibTeX, its fields as LaTeX prints them."""
    (entry,) = bibtexparser.loads(data, BibTexParser(common_strings=True)).entries
    form = re.compile("|".join(map(re.escape, SIGNS)))
    return {name: form.sub(lambda sign: SIGNS[sign[0]], value).strip("{}") for name, value in entry.items()}


def test_each_release_is_there_in_each_form_and_language(site: Path) -> None:
    releases = {path.stem for path in (site / "release").glob("*.html")}
    assert f"{REVISED}-r2" in releases and len(releases) == 16
    for folder, ends in (("", (".bib", ".ris", ".datacite.xml")), ("fr/", (".bib", ".ris"))):
        names = {path.name for path in (site / folder / "release").iterdir() if path.suffix not in (".html", ".txt")}
        assert names == {f"{release}{end}" for release in releases for end in ends}


def test_bibtex(site: Path) -> None:
    entries = entry_of((site / f"release/{REVISED}-r2.bib").read_text(encoding="utf-8"))
    headline = re.search("<h1>(.*?)</h1>", (site / f"release/{REVISED}-r2.html").read_text(encoding="utf-8"))
    assert headline and entries.pop("abstract") == f"{headline[1]}."
    assert entries == {
        "ENTRYTYPE": "misc", "ID": "NSO.PRICES-2026-03-r2", "author": "Office & <of> prices",
        "publisher": "Office & <of> prices", "title": "Consumer price index, March 2026, revision 2", "year": "1970",
        "month": "January", "version": "2", "language": "en", "copyright": "https://licence.example/by",
        "doi": "10.5072/cpi.2026-03-r2", "url": f"{ADDRESS}release/2026-03-r2.html",
    }  # fmt: skip


def test_ris(site: Path) -> None:
    (found,) = read_ris((site / f"fr/release/{REVISED}-r1.ris").read_bytes())
    (says,) = found.pop("AB")
    assert "mars 2026" in says and " ".join(says[:-1].split()) in words_of(site / f"fr/release/{REVISED}-r1.html")
    assert re.search("[0-9]\u202f%|[0-9]\u00a0%", says)
    assert {tag: value for tag, (value,) in found.items()} == {
        "TY": "DATA", "AU": "Office des prix", "PB": "Office des prix", "TI": "Indice des prix, mars 2026", "PY": "1970",
        "DA": "1970/01/01/", "ET": "1", "LA": "fr", "C1": "https://licence.example/by", "DO": "10.5072/cpi.2026-03-r1",
        "UR": f"{ADDRESS}fr/release/2026-03-r1.html", "ID": "NSO.PRICES-2026-03-r1",
    }  # fmt: skip


def test_datacite_has_what_its_schema_asks_for(site: Path, published: list[Published]) -> None:
    """The six properties that are mandatory, and what is known besides."""
    root = ElementTree.parse(site / f"release/{REVISED}-r2.datacite.xml").getroot()
    (table,) = (publication.table for publication in published if publication.name == f"{REVISED}-r2.csv")

    def text(path: str) -> str:
        matches = root.findall("/".join(KERNEL + word for word in path.split("/")))
        assert len(matches) == 1 and matches[0].text
        return matches[0].text

    assert root.tag == f"{KERNEL}resource"
    assert text("identifier") == "10.5072/cpi.2026-03-r2" and root[0].attrib == {"identifierType": "DOI"}
    assert text("creators/creator/creatorName") == text("publisher") == "Office & <of> prices"
    assert text("titles/title") == "Consumer price index, March 2026, revision 2"
    assert (text("publicationYear"), text("dates/date"), text("version")) == ("1970", "1970-01-01", "2")
    (kind,) = root.findall(f"{KERNEL}resourceType")
    assert kind.attrib == {"resourceTypeGeneral": "Dataset"}
    assert text("sizes/size") == f"{len(table)} B" and text("relatedIdentifiers/relatedIdentifier") == "10.5072/cpi"
    (rights,) = root.findall(f"{KERNEL}rightsList/{KERNEL}rights")
    assert rights.attrib == {"rightsURI": "https://licence.example/by"}
    assert {element.get(LANG) for element in root.iter() if element.get(LANG)} == {"en"}


def test_the_page_leads_to_them(site: Path) -> None:
    for folder, way in (("", "../"), ("fr/", "../../")):
        page = (site / folder / f"release/{REVISED}-r1.html").read_text(encoding="utf-8")
        assert re.findall(r'<a href="([^"]+)" download>', page) == [
            f"{REVISED}-r1.bib", f"{REVISED}-r1.ris", f"{way}release/{REVISED}-r1.datacite.xml",
        ]  # fmt: skip
        assert "https://doi.org/10.5072/cpi.2026-03-r1" in page


def test_without_address_and_doi(published: list[Published], tmp_path: Path) -> None:
    out = tmp_path / "public"
    publish(published[:3], Config("NSO", "XX", "Office"), out, None, lambda _: None)
    assert not [*out.rglob("*.datacite.xml")] and "DataCite" not in words_of(out / "release/2025-01-r1.html")
    entries = entry_of((out / "release/2025-01-r1.bib").read_text(encoding="utf-8"))
    (record,) = read_ris((out / "release/2025-01-r1.ris").read_bytes())
    assert not {"doi", "url", "copyright"} & {*entries} and not {"DO", "UR", "C1"} & {*record}


def test_texts_of_others_stay_in_their_fields() -> None:
    """Signs of LaTeX, brackets that aren't pairs, ends of lines, and what looks like another field or record."""
    bad = 'O} , x = {y \\ & % $ # _ ~ ^ "q" }}\r\nER  - \r\nTY  - BOOK\x00\u2028<b>'
    citation = Citation(
        "K", bad, bad, date(2026, 3, 5), 1, "en", bad, "https://a.example/x_y", "10.5072/a_b", bad, "10.5072/a", 9
    )
    entry = entry_of(bibtex(citation))
    assert {*entry} == {
        "ENTRYTYPE", "ID", "author", "title", "year", "publisher", "version", "language", "copyright", "abstract", "doi", "url", "month",
    }  # fmt: skip
    plain = 'O} , x = {y \\ & % $ # _ ~ ^ "q" }} ER - TY - BOOK <b>'
    assert entry["title"] == entry["author"] == plain
    assert (entry["url"], entry["doi"]) == ("https://a.example/x_y", "10.5072/a_b")
    (record,) = read_ris(ris(citation).encode())
    assert record["AU"] == record["TI"] == [plain] and record["TY"] == ["DATA"]
    root = ElementTree.fromstring(datacite(citation))
    assert root.findtext(f"{KERNEL}publisher") and "<b>" in (root.findtext(f"{KERNEL}publisher") or "")


def test_the_day_is_that_of_the_office() -> None:
    """At 23:30 in London it is the next day in Prague."""
    moment = 31 * 86_400 - 1_800
    assert clock_of("").date_at(moment) == date(1970, 1, 31)
    assert clock_of("CET-1CEST,M3.5.0,M10.5.0/3").date_at(moment) == date(1970, 2, 1)


@pytest.mark.parametrize(
    "doi", ["cpi", "10.1/x", "https://doi.org/10.5072/cpi", "10.5072/", "10.5072/a b", "10.5072/<b>"]
)
def test_another_doi_is_refused(tmp_path: Path, doi: str) -> None:
    path = tmp_path / "office.ini"
    path.write_text(f"[office]\nagency = NSO\narea = XX\noffice = Office\ndoi = {doi}\n", encoding="utf-8")
    with pytest.raises(BadConfig, match="is no DOI such as 10.1234/cpi"):
        read_config(path)

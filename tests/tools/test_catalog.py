"""The site as a catalogue of data portals (DCAT), read by a reader of RDF and compared with the files of the pack."""

from __future__ import annotations

import hashlib
from pathlib import Path

import pytest
import rdflib
from rdflib import RDF, Literal, URIRef
from rdflib.namespace import DCAT, DCTERMS, FOAF, XSD  # type: ignore[attr-defined]

from cpi_tools.publish.releases.cards import NO_CARDS
from cpi_tools.publish.site.addresses import MAILBOX
from cpi_tools.publish.figures.config import Config
from cpi_tools.publish.figures.own_words import OfficeLanguages, Own
from cpi_tools.office.public import Published
from cpi_tools.publish.pack import publish

ADDRESS = "https://prices.example/index/"
OFFICE = 'Office "of" <prices>\\'
CONFIG = Config(
    "NSO", "XX", OFFICE, country="Exampleland", contact="Prices desk, prices@prices.example", licence="CC BY 4.0",
    address=ADDRESS, years=1, doi="10.5072/cpi",
    speaks=OfficeLanguages(("en", "fr"), own={"fr": Own({"title": "Indice des prix"})}),
)  # fmt: skip
SPDX = rdflib.Namespace("http://spdx.org/rdf/terms#")  # type: ignore[no-untyped-call]
VCARD = rdflib.Namespace("http://www.w3.org/2006/vcard/ns#")  # type: ignore[no-untyped-call]
MEDIA = "https://www.iana.org/assignments/media-types/"


@pytest.fixture(scope="module")
def pack(published: list[Published], tmp_path_factory: pytest.TempPathFactory) -> Path:
    """The pack of an office in two languages, with archives."""
    with pytest.MonkeyPatch.context() as patch:
        patch.setattr("cpi_tools.publish.pack.cards_after", lambda _: NO_CARDS)
        out = tmp_path_factory.mktemp("catalog") / "public"
        publish(published, CONFIG, out, None, lambda _: None)
    return out


@pytest.fixture(scope="module")
def graph(pack: Path) -> rdflib.Graph:
    """What a reader takes from it, without a network."""
    read: rdflib.Graph = rdflib.Graph().parse(pack / "data/catalog.jsonld", format="json-ld")
    return read


def value(graph: rdflib.Graph, subject: object, predicate: object) -> object:
    """The one value of a subject's predicate."""
    return graph.value(subject, predicate)  # type: ignore[no-untyped-call]


def test_a_catalogue_has_the_data_set_and_its_publisher(graph: rdflib.Graph) -> None:
    (catalog,) = graph.subjects(RDF.type, DCAT.Catalog)
    (dataset,) = graph.objects(catalog, DCAT.dataset)
    assert catalog == URIRef(f"{ADDRESS}data/catalog.jsonld") and (dataset, RDF.type, DCAT.Dataset) in graph
    for it in (catalog, dataset):
        assert {*graph.objects(it, DCTERMS.title)} == {
            Literal("Consumer price index", lang="en"), Literal("Indice des prix", lang="fr"),
        }  # fmt: skip
        assert {text.language for text in graph.objects(it, DCTERMS.description)} == {"en", "fr"}  # type: ignore[attr-defined]
        (publisher,) = graph.objects(it, DCTERMS.publisher)
        assert (publisher, FOAF.name, Literal(OFFICE, lang="fr")) in graph
    (contact,) = graph.objects(dataset, DCAT.contactPoint)
    assert value(graph, contact, VCARD.hasEmail) == URIRef("mailto:prices@prices.example")
    assert value(graph, dataset, DCTERMS.identifier) == Literal("NSO:DF_CPI")
    assert {*graph.objects(dataset, DCAT.landingPage)} == {URIRef(f"{ADDRESS}{text}data.html") for text in ("", "fr/")}
    (period,) = graph.objects(dataset, DCTERMS.temporal)
    # (the archives have the earlier years)
    assert value(graph, period, DCAT.startDate) == Literal("2025-01", datatype=XSD.gYearMonth)
    assert value(graph, period, DCAT.endDate) == Literal("2027-05", datatype=XSD.gYearMonth)


def test_each_file_is_a_distribution_with_its_size_and_sum(pack: Path, graph: rdflib.Graph) -> None:
    (dataset,) = graph.subjects(RDF.type, DCAT.Dataset)
    objects = {*graph.objects(dataset, DCAT.distribution)}
    data = {path for path in (pack / "data").iterdir() if path.is_file() and path.name != "catalog.jsonld"}
    wanted = {*data, *(pack / "data/years").glob("*.zip")}
    assert {URIRef(ADDRESS + path.relative_to(pack).as_posix()) for path in wanted} <= objects and len(wanted) > 12
    for it in objects:
        path = pack / str(it).removeprefix(ADDRESS)
        checksum = value(graph, it, SPDX.checksum)
        assert value(graph, checksum, SPDX.algorithm) == SPDX.checksumAlgorithm_sha256
        assert str(value(graph, checksum, SPDX.checksumValue)) == hashlib.sha256(path.read_bytes()).hexdigest()
        assert str(value(graph, it, DCAT.byteSize)) == str(path.stat().st_size)
        assert value(graph, it, DCAT.downloadURL) == value(graph, it, DCAT.accessURL) == it
        assert {text.language for text in graph.objects(it, DCTERMS.description)} == {"en", "fr"}  # type: ignore[attr-defined]


def test_media_types_are_of_the_register(pack: Path, graph: rdflib.Graph) -> None:
    wanted = {
        "cpi.csv": "text/csv", "cpi.sdmx.csv": "text/csv", "cpi.sdmx.xml": "application/xml", "cpi.px": "text/plain",
        "structure.sdmx.xml": "application/xml", "cpi.jsonstat.json": "application/json", "years/2025.zip": "application/zip",
        "csv-metadata.json": "application/csvm+json",
        "cpi.xlsx": "application/vnd.openxmlformats-officedocument.spreadsheetml.sheet",
    }  # fmt: skip
    for name, media in wanted.items():
        assert value(graph, URIRef(f"{ADDRESS}data/{name}"), DCAT.mediaType) == URIRef(MEDIA + media), name


def test_a_licence_is_an_address_or_a_name(published: list[Published], graph: rdflib.Graph, tmp_path: Path) -> None:
    (dataset,) = graph.subjects(RDF.type, DCAT.Dataset)
    (named,) = graph.objects(dataset, DCTERMS.license)
    assert value(graph, named, rdflib.RDFS.label) == Literal("CC BY 4.0")
    licence = "https://creativecommons.org/licenses/by/4.0/"
    config = Config("NSO", "XX", "Office", address=ADDRESS, licence=licence)
    publish(published[:2], config, tmp_path / "public", None, lambda _: None)
    other = rdflib.Graph().parse(tmp_path / "public/data/catalog.jsonld", format="json-ld")
    (dataset,) = other.subjects(RDF.type, DCAT.Dataset)
    assert {*other.objects(None, DCTERMS.license)} == {URIRef(licence)}
    assert not [*other.objects(dataset, DCAT.contactPoint)]


def test_without_an_address_there_is_none(published: list[Published], tmp_path: Path) -> None:
    publish(published[:2], Config("NSO", "XX", "Office"), tmp_path / "public", None, lambda _: None)
    assert not (tmp_path / "public/data/catalog.jsonld").exists()


@pytest.mark.parametrize(
    "text, mailbox",
    [
        ("Write to prices@prices.example, or call.", "prices@prices.example"),
        ("prices.desk+cpi@prices.example.", "prices.desk+cpi@prices.example"),
        ("Desk (prices@prices.example); telephone 5", "prices@prices.example"),
        ("Room 5 @ the office, o'neil@prices.example", ""),
    ],
)
def test_a_mailbox_ends_before_the_signs_of_a_sentence(text: str, mailbox: str) -> None:
    match = MAILBOX.search(text)
    assert (match[0] if match else "") == mailbox

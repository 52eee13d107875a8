"""Where the site of a pack is: its address, the map of its pages, and the site as a catalogue (DCAT 3)."""

from __future__ import annotations

import json
import re
from collections.abc import Callable, Iterable, Iterator, Mapping, Sequence
from pathlib import Path
from typing import NamedTuple

from markupsafe import Markup

from ...office.tables import Series, iso
from ...text.languages import SPEAKS_ENGLISH, Speech
from ...text.others import is_address
from ..figures.announcements import name_of
from ..figures.config import Config
from ..forms.cubes import measures_of
from ..forms.manifest import NewFiles
from ..forms.site_texts import FILES, file_says
from ..releases.release_feeds import doi_of
from ..releases.releases import Release
from ..releases.site_languages import ALONE, Version


# ==== the addresses of a pack's site: the address that an office names, the map of its pages, and the pages'
# descriptions for other programs (schema.org)
#
# Without an address all links are relative, and nothing of this is written but the links.

SITEMAP = "sitemap.xml"
LOST = "404.html"
"""The page that a front shows if there is none at an address; no other page leads to it."""

EMBEDDED = "embed/"
"""The folder of the pages that are shown in a frame of other sites: search engines leave them out."""

SITEMAP_HEAD = '<?xml version="1.0" encoding="UTF-8"?>\n<urlset xmlns="http://www.sitemaps.org/schemas/sitemap/0.9">\n'

TYPES = {
    "csv": "text/csv",
    "xlsx": "application/vnd.openxmlformats-officedocument.spreadsheetml.sheet",
    "sdmx.csv": "application/vnd.sdmx.data+csv;version=2.0.0",
    "sdmx.xml": "application/vnd.sdmx.structurespecificdata+xml;version=2.1",
    "json": "application/json",
    "jsonstat.json": "application/json",
    "px": "text/plain",
    "jsonld": "application/ld+json",
    "sqlite": "application/vnd.sqlite3",
}
"""The media types of the data files, by the endings of their names."""

OTHER_TYPES = {
    "structure.sdmx.xml": "application/vnd.sdmx.structure+xml;version=2.1",
    "csv-metadata.json": "application/csvm+json",
}
"""The media types of single files."""


# ---- the map of the pages (sitemaps.org)


def write_sitemap(
    folder: Path, config: Config, series: Series, releases: Iterable[Release], versions: Sequence[Version] = (ALONE,)
) -> None:
    """Writes the map of all pages of a pack in all languages, each with the moment at which it last changed: the page of a
    release is changed by a revision, or by a reason that the office gives later, and all others by each table."""
    changed = {
        release.page: max(release.last_said, *(table.moment for table in release.later), 0) for release in releases
    }
    folders = tuple(version.folder for version in versions if version.folder)
    rows = list[str]()
    for version in versions:
        own = folder / version.folder
        pages = sorted(path.relative_to(own).as_posix() for path in own.rglob("*.html"))
        others = (LOST, EMBEDDED, *(() if version.folder else folders))
        for page in pages:
            if not page.startswith(others):
                last = iso(changed.get(page, series.moment))
                rows.append(f"<url><loc>{address_of(config, page, version)}</loc><lastmod>{last}</lastmod></url>\n")
    (folder / SITEMAP).write_text(f"{SITEMAP_HEAD}{''.join(rows)}</urlset>\n", encoding="utf-8")


def address_of(config: Config, page: str, version: Version = ALONE) -> str:
    """The only address of a page in a version of the site; the first page has the address of its folder."""
    return config.address + version.folder + ("" if page == "index.html" else page)


# ---- schema.org


def type_of(name: str) -> str:
    """The media type of a data file by its name."""
    return OTHER_TYPES.get(name) or TYPES[name.split(".", 1)[1]]


def identifier_of(config: Config) -> str:
    """The name of an office's data, from its names in SDMX."""
    return f"{config.agency}:{config.id('DF_CPI')}"


def description_of(config: Config, series: Series, speech: Speech) -> str:
    """The description of the data."""
    return speech.t(
        "{title} of {office}: indices, changes, weights and contributions of {count} items by COICOP 2018, for each"
        " month from {first} to {last}.",
        title=config.title,
        office=config.office,
        count=len(series.titles),
        first=series.months[0],
        last=series.months[-1],
    )


def dataset(
    config: Config,
    series: Series,
    files: Sequence[tuple[str, int, str]],
    speech: Speech = SPEAKS_ENGLISH,
    version: Version = ALONE,
) -> Markup:
    """The description of the index on the page of the data: its months, its publisher, and each file with its bytes
    and its SHA-256."""
    return _script(
        {
            **_published_by(config),
            "name": speech.row([config.title, config.country or config.area]),
            "description": description_of(config, series, speech),
            "inLanguage": version.tag or speech.language.tag,
            "identifier": _identifiers(identifier_of(config), config.doi),
            "keywords": [speech.t("Consumer price index"), "CPI", "COICOP 2018"],
            "measurementTechnique": speech.t(
                "Items follow the classification COICOP 2018. Dutot indices of elementary aggregates are combined into"
                " a Laspeyres-type index, which is chained each December. The Consumer Price Index Manual:"
                " Concepts and Methods (2020) describes both."
            ),
            "variableMeasured": [speech.t(measure.name) for measure in measures_of(config)],
            "url": address_of(config, "data.html", version),
            "dateModified": iso(series.moment),
            "temporalCoverage": f"{series.months[0]}/{series.months[-1]}",
            "distribution": [_file(config, f"data/{name}", size, its_sum) for name, size, its_sum in files],
        }
    )


def release_dataset(config: Config, release: Release, size: int, version: Version = ALONE) -> Markup:
    """The description of a release's table on its page; the table has so many bytes."""
    table = release.table
    return _script(
        {
            **_published_by(config),
            "name": release.shown.speech.t(
                "{title}, {month}, revision {number}", title=config.title, month=table.month, number=table.revision
            ),
            "description": f"{release.headline}.",
            "inLanguage": version.tag or release.shown.speech.language.tag,
            "identifier": _identifiers(f"{identifier_of(config)}:{release.name}", doi_of(config, release)),
            "url": address_of(config, release.page, version),
            "datePublished": iso(table.moment),
            "version": str(table.revision),
            "temporalCoverage": table.month,
            "isPartOf": {"@type": "Dataset", "name": config.title, "url": address_of(config, "data.html", version)},
            "distribution": [_file(config, f"data/tables/{release.name}.csv", size, table.sha256)],
        }
    )


def _identifiers(own: str, doi: str) -> object:
    """The identifiers of a data set: by its office, and its DOI if it has one."""
    return [f"https://doi.org/{doi}", own] if doi else own


def _published_by(config: Config) -> dict[str, object]:
    """The properties that both descriptions have."""
    office: dict[str, object] = {"@type": "GovernmentOrganization", "name": config.office}
    if config.contact:
        office["contactPoint"] = {"@type": "ContactPoint", "description": config.contact}
    found: dict[str, object] = {"@context": "https://schema.org/", "@type": "Dataset", "creator": office}
    found["isAccessibleForFree"] = True
    found["spatialCoverage"] = config.country or config.area
    if config.licence:
        found["license"] = (
            config.licence if is_address(config.licence) else {"@type": "CreativeWork", "name": config.licence}
        )
    return found


def _file(config: Config, path: str, size: int, its_sum: str) -> dict[str, object]:
    """A file for download."""
    name = path.rpartition("/")[2]
    words = {"name": name, "encodingFormat": type_of(name) if "/tables/" not in path else TYPES["csv"]}
    whole = {"contentSize": f"{size} B", "sha256": its_sum}
    return {"@type": "DataDownload", **words, "contentUrl": config.address + path, **whole}


def _script(found: dict[str, object]) -> Markup:
    """An object as a block of data in a page: a browser runs none of it, and nothing in it ends the block."""
    text = json.dumps(found, ensure_ascii=False, separators=(",", ":"))
    for sign in "<>&\u2028\u2029":
        text = text.replace(sign, f"\\u{ord(sign):04x}")
    return Markup(f'<script type="application/ld+json">{text}</script>')


# ==== the site as a catalogue of data portals: DCAT 3 (W3C, 2024) as JSON-LD, with the words of DCAT-AP
#
# One data set with all files of the folder `data` and the archives of earlier years. The context is in the file, so a
# program reads it without a network.

NAME = "catalog.jsonld"

PREFIXES: Mapping[str, str] = {
    "adms": "http://www.w3.org/ns/adms#",
    "dcat": "http://www.w3.org/ns/dcat#",
    "dct": "http://purl.org/dc/terms/",
    "foaf": "http://xmlns.com/foaf/0.1/",
    "rdfs": "http://www.w3.org/2000/01/rdf-schema#",
    "skos": "http://www.w3.org/2004/02/skos/core#",
    "spdx": "http://spdx.org/rdf/terms#",
    "vcard": "http://www.w3.org/2006/vcard/ns#",
    "xsd": "http://www.w3.org/2001/XMLSchema#",
}

EU = "http://publications.europa.eu/resource/authority/"
MONTHLY, PUBLIC, ECONOMY = f"{EU}frequency/MONTHLY", f"{EU}access-right/PUBLIC", f"{EU}data-theme/ECON"
LANGUAGES = "http://id.loc.gov/vocabulary/iso639-{}/{}"
MEDIA_TYPES = "https://www.iana.org/assignments/media-types/"

OF_SDMX: Mapping[str, str] = {"csv": "text/csv", "xml": "application/xml"}
"""The registered media types of SDMX, by the endings of names."""

MAILBOX = re.compile(r"(?<![^\s(<:,;])[\w.+-]+@\w[\w-]*(\.\w[\w-]*)+")
"""A mailbox in a text, without the comma or the point that ends a sentence."""

Node = dict[str, object]


class Spoken(NamedTuple):
    """A language of the pages: its speech, the office's texts in it, and the place of its pages."""

    speech: Speech
    config: Config
    version: Version = ALONE

    @property
    def tag(self) -> str:
        """Its tag."""
        return self.speech.language.tag


def write_catalog(series: Series, languages: Sequence[Spoken], files: NewFiles) -> None:
    """Writes the catalogue into the folder `data`, which already contains the other files; the site has an address."""
    config = languages[0].config
    publisher: Node = {
        "@id": f"{config.address}#office",
        "@type": "foaf:Agent",
        "foaf:name": _say(languages, lambda language: language.config.office),
        "foaf:homepage": _is(config.address),
    }
    own: Node = {"dct:publisher": publisher, **_licence(config)}
    node: Node = {
        "@context": PREFIXES,
        "@id": f"{config.address}data/{NAME}",
        "@type": "dcat:Catalog",
        "dct:title": _say(languages, lambda language: language.config.title),
        "dct:description": _say(languages, _describes(series)),
        **own,
        "dct:language": [_language(language.tag) for language in languages],
        "dct:modified": _moment(series.moment),
        "foaf:homepage": _is(config.address),
        "dcat:dataset": _dataset(series, languages, files, own),
    }
    files.write(f"data/{NAME}", (json.dumps(node, ensure_ascii=False, indent=1) + "\n").encode())


def _dataset(series: Series, languages: Sequence[Spoken], files: NewFiles, own: Node) -> Node:
    """The data of the index."""
    config = languages[0].config
    first = min(vintage.moment for vintage in series.vintages)
    node: Node = {
        "@id": f"{config.address}data.html#index",
        "@type": "dcat:Dataset",
        "dct:identifier": identifier_of(config),
        "dct:title": _say(languages, lambda language: language.config.title),
        "dct:description": _say(languages, _describes(series)),
        **own,
        "dct:issued": _moment(first),
        "dct:modified": _moment(series.moment),
        "dct:accrualPeriodicity": _is(MONTHLY),
        "dct:accessRights": _is(PUBLIC),
        "dcat:theme": _is(ECONOMY),
        "dcat:keyword": [*_say(languages, lambda language: language.speech.t("Consumer price index")), "COICOP 2018"],
        "dct:language": [_language(language.tag) for language in languages],
        "dct:spatial": {"@type": "dct:Location", "rdfs:label": config.country or config.area},
        "dct:temporal": {
            "@type": "dct:PeriodOfTime",
            "dcat:startDate": {"@type": "xsd:gYearMonth", "@value": series.every[0]},
            "dcat:endDate": {"@type": "xsd:gYearMonth", "@value": series.every[-1]},
        },
        "dcat:version": name_of(series.last.month, series.last.revision),
        "dcat:landingPage": [_is(address_of(language.config, "data.html", language.version)) for language in languages],
        "foaf:page": [_is(address_of(language.config, "method.html", language.version)) for language in languages],
        "dcat:distribution": [*_distributions(languages, files)],
    }
    if config.doi:
        node["adms:identifier"] = {"@type": "adms:Identifier", "skos:notation": f"https://doi.org/{config.doi}"}
    if config.contact:
        node["dcat:contactPoint"] = _contact(config)
    return node


def _distributions(languages: Sequence[Spoken], files: NewFiles) -> Iterator[Node]:
    """Each file with its size and its sum."""
    config, folder = languages[0].config, files.folder / "data"
    for name in FILES:
        if (folder / name).is_file() and name != NAME:
            says = [
                _text(language.tag, text)
                for language in languages
                if (text := file_says(language.speech, language.config)[name])
            ]
            yield _distribution(config, f"data/{name}", says, files)
    for path in sorted((folder / "years").glob("*.zip"), reverse=True):
        says = [_text(language.tag, language.speech.t("Earlier years")) for language in languages]
        yield _distribution(config, f"data/years/{path.name}", says, files)


def _distribution(config: Config, path: str, says: object, files: NewFiles) -> Node:
    """A file by its name in the pack."""
    name = path.rpartition("/")[2]
    address = config.address + path
    return {
        "@id": address,
        "@type": "dcat:Distribution",
        "dct:title": path.removeprefix("data/"),
        "dct:description": says,
        "dcat:accessURL": _is(address),
        "dcat:downloadURL": _is(address),
        "dcat:mediaType": _is(MEDIA_TYPES + _media_of(name)),
        "dcat:byteSize": {"@type": "xsd:nonNegativeInteger", "@value": str((files.folder / path).stat().st_size)},
        "spdx:checksum": {
            "@type": "spdx:Checksum",
            "spdx:algorithm": _is(f"{PREFIXES['spdx']}checksumAlgorithm_sha256"),
            "spdx:checksumValue": {"@type": "xsd:hexBinary", "@value": files.sum_of(path)},
        },
        **_licence(config),
    }


# ---- parts


def _is(address: str) -> Node:
    """A reference to the resource at an address."""
    return {"@id": address}


def _text(tag: str, text: str) -> Node:
    """A text in a language."""
    return {"@value": text, "@language": tag}


def _say(languages: Sequence[Spoken], text: Callable[[Spoken], str]) -> list[object]:
    """A text in each language."""
    return [_text(language.tag, text(language)) for language in languages]


def _describes(series: Series) -> Callable[[Spoken], str]:
    """A function that describes the data in a language."""
    return lambda it: description_of(it.config, series, it.speech)


def _moment(moment: int) -> Node:
    return {"@type": "xsd:dateTime", "@value": iso(moment)}


def _language(tag: str) -> Node:
    """A language by the list of the Library of Congress, with two letters or three."""
    code = tag.partition("-")[0]
    return _is(LANGUAGES.format(len(code) - 1, code))


def _media_of(name: str) -> str:
    """The media type of a file, by the register of them."""
    if name.endswith(".zip"):
        return "application/zip"
    media = type_of(name)
    return OF_SDMX[name.rpartition(".")[2]] if media.startswith("application/vnd.sdmx.") else media


def _licence(config: Config) -> Node:
    """The licence, by its address or by its name."""
    if not config.licence:
        return {}
    if is_address(config.licence):
        return {"dct:license": _is(config.licence)}
    return {"dct:license": {"@type": "dct:LicenseDocument", "rdfs:label": config.licence}}


def _contact(config: Config) -> Node:
    """The contact for questions; for a text with a mailbox also the mailbox."""
    node: Node = {"@type": "vcard:Organization", "vcard:fn": config.office, "vcard:note": config.contact}
    mailbox = MAILBOX.search(config.contact)
    return {**node, "vcard:hasEmail": _is(f"mailto:{mailbox[0]}")} if mailbox else node

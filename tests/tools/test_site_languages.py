"""The website of a pack in several languages: its addresses, its titles, and figures that are the same in each."""

from __future__ import annotations

import csv
import html
import re
import shutil
from collections.abc import Iterator
from pathlib import Path
from xml.etree import ElementTree

import pytest

from cpi_tools.text import languages
from cpi_tools.publish import pack as publish_module
from cpi_tools.publish.releases.cards import NO_CARDS
from cpi_tools.publish.figures.config import BadConfig, Config, read_config
from cpi_tools.publish.figures.own_words import OfficeLanguages, Own
from cpi_tools.office.public import Published
from cpi_tools.publish.figures.specials import Special
from cpi_tools.publish.pack import check, publish
from lib.places import ROOT
from lib.pack_forms import read_json_stat, read_px
from lib.pseudo import write_catalogue
from .test_measures import two_years

OFFICE = "[office]\nagency = NSO\narea = XX\noffice = Office\n"

CONFIG = Config(
    "NSO", "XX", "Office <of> prices", country="Exampleland", currency="crowns", provisional=2,
    specials=(Special("CORE", "All but food", ("00",), ("01",)),), address="https://prices.example/",
    speaks=OfficeLanguages(("en", "fr", "ar"), "arab", {
        "fr": Own({"title": "Indice des prix à la consommation"}, {"00": "Ensemble", "CORE": "Hors alimentation"}),
    }),
)  # fmt: skip


@pytest.fixture(scope="module", autouse=True)
def no_cards() -> Iterator[None]:
    """Nothing draws cards meanwhile, which takes a second for a few releases."""
    with pytest.MonkeyPatch.context() as patch:
        patch.setattr(publish_module, "cards_after", lambda _: NO_CARDS)
        patch.setattr(publish_module, "cards_like", lambda _: NO_CARDS)
        yield


@pytest.fixture(scope="module")
def site(published: list[Published], tmp_path_factory: pytest.TempPathFactory) -> Path:
    """The pages of an office with a revision in three languages, the last one with Arabic digits."""
    out = tmp_path_factory.mktemp("languages") / "public"
    publish(published, CONFIG, out, None, lambda _: None)
    return out


def names(folder: Path) -> set[str]:
    """The pages of a folder."""
    return {path.relative_to(folder).as_posix() for path in folder.rglob("*.html")}


def test_each_language_has_the_same_pages_and_data_are_there_once(site: Path) -> None:
    french = names(site / "fr")
    first = {name for name in names(site) if not name.startswith(("fr/", "ar/"))}
    assert french == names(site / "ar") == first - {"404.html"}
    assert not [*(site / "fr").rglob("*.csv")] and not (site / "fr/data").exists()


def test_the_first_language_is_as_without_others(site: Path, published: list[Published], tmp_path: Path) -> None:
    """But for the switch, the addresses of the other languages, the map of all pages, and forms of data that have their titles
    in all languages, or a version by these, with the sums of them."""
    publish(published, CONFIG._replace(speaks=OfficeLanguages()), tmp_path / "alone", None, lambda _: None)
    alone = {path.relative_to(tmp_path / "alone") for path in (tmp_path / "alone").rglob("*") if path.is_file()}
    of_others = re.compile(
        r'<link rel="alternate" hreflang=[^\n]*\n|<nav class="languages"[^>]*>\n<ul>\n(?:<li>[^\n]*\n)*</ul>\n</nav>\n|"inLanguage":"en",'
    )
    named = re.compile(r"(\.sdmx\.(csv|xml)|structure\.xml|artefacts\.json|\.px|\.jsonstat\.json)$")
    slices = re.compile("data/(newest|slices|sdmx|json-stat)/")
    described = re.compile(r"(csv-metadata|-schema)\.json$|catalog\.jsonld$")
    forms = {relative for relative in alone if named.search(relative.name) and not slices.match(relative.as_posix())}
    assert len(forms) == 6
    forms |= {relative for relative in alone if slices.match(relative.as_posix()) or described.search(relative.name)}
    for name in sorted(alone - forms - {Path("SHA256SUMS"), Path("sitemap.xml")}):
        here, there = (site / name).read_bytes(), (tmp_path / "alone" / name).read_bytes()
        if name.suffix == ".html":
            sizes = re.compile(r"[0-9.]+.?k?B\b|[0-9a-f]{64}" if name.name == "data.html" else "^$")
            texts = (of_others.sub("", it.decode()) for it in (here, there))
            assert len({sizes.sub("", text) for text in texts}) == 1, name
        else:
            assert here == there, name


def figures(page: str, decimal: str = ".") -> list[str]:
    """The figures in the cells of a page's tables, in ASCII."""
    cells = re.findall(r'<t[dh][^>]*class="[^"]*\bn\b[^"]*"[^>]*>(.*?)</t[dh]>', page, re.S)
    texts = (html.unescape(re.sub(r"<[^>]*>", "", cell)) for cell in cells)
    digits = {ord("\u0660") + at: str(at) for at in range(10)}
    plain = (text.translate(digits).replace("\u066b", ".").replace(decimal, ".") for text in texts)
    return [matches[0] for text in plain if (matches := re.findall(r"[+\u2212]?\d+(?:\.\d+)?", text))]


@pytest.mark.parametrize(("tag", "decimal"), [("fr", ","), ("ar", ".")])
def test_a_language_has_the_same_figures(site: Path, tag: str, decimal: str) -> None:
    count = 0
    for name in sorted(names(site / tag)):
        found = figures((site / tag / name).read_text(encoding="utf-8"), decimal)
        assert found == figures((site / name).read_text(encoding="utf-8")), name
        count += len(found)
    assert count > 3000


def test_a_page_says_its_language_its_address_and_the_others(site: Path) -> None:
    page = (site / "ar/node/01.html").read_text(encoding="utf-8")
    assert '<html lang="ar" dir="rtl">' in page
    assert '<link rel="canonical" href="https://prices.example/ar/node/01.html">' in page
    others = re.findall(r'<link rel="alternate" hreflang="(\w+)" href="([^"]+)">', page)
    assert '<link rel="alternate" hreflang="x-default" href="https://prices.example/node/01.html">' in page
    assert others == [
        (tag, f"https://prices.example/{way}node/01.html") for tag, way in (("en", ""), ("fr", "fr/"), ("ar", "ar/"))
    ]
    assert re.findall(r'<li><a href="([^"]+)" hreflang="(\w+)"', page) == [
        ("../../node/01.html", "en"), ("../../fr/node/01.html", "fr"), ("../../ar/node/01.html", "ar")
    ]  # fmt: skip
    for name in names(site):
        folder = site / Path(name).parent
        text = (site / name).read_text(encoding="utf-8")
        for way in re.findall(r'(?:href|src)="([^"#?:]+)', text):
            assert way in ("data", "https") or (folder / html.unescape(way)).exists(), (name, way)
    places = re.findall(r"<loc>(.*?)</loc>", (site / "sitemap.xml").read_text(encoding="utf-8"))
    assert (
        len(places) == len({*places}) == 3 * len([name for name in names(site / "fr") if not name.startswith("embed/")])
    )


def test_titles_are_those_of_the_language_and_else_the_offices_own(site: Path) -> None:
    page = (site / "fr/nodes.html").read_text(encoding="utf-8")
    assert '<a href="node/00.html"><bdi>Ensemble</bdi></a>' in page and "<bdi>Hors alimentation</bdi>" in page
    assert '<a href="node/01.html"><bdi>Food</bdi></a>' in page
    assert "<bdi>Indice des prix à la consommation</bdi>" in page and "<bdi>Consumer price index</bdi>" not in page
    release = (site / "fr/release/2026-03-r2.html").read_text(encoding="utf-8")
    assert "<bdi>Ensemble</bdi>" in release and "All items" not in release
    with (site / "node/00.csv").open(encoding="utf-8", newline="") as file:
        assert {row["title"] for row in csv.DictReader(file)} == {"All items"}


def test_px_has_titles_and_notes_in_each_language(site: Path) -> None:
    """By the file format of PX: a keyword of another language has its tag, and names variables in that language."""
    head, _ = read_px(site / "data/cpi.px")
    assert head["LANGUAGE"] == ["en"] and head["LANGUAGES"] == ["en", "fr", "ar"]
    assert head["STUB"] == ["Item"] and head["STUB[fr]"] == ["Poste"] and head["HEADING[fr]"] == ["Chiffre", "Mois"]
    assert head['VALUES("Item")'][0] == "00 All items" and head['VALUES[fr]("Poste")'][0] == "00 Ensemble"
    assert head['VALUES[fr]("Poste")'][-1] == "CORE Hors alimentation"
    assert head['VALUES[ar]("\u0627\u0644\u0628\u0646\u062f")'][0] == "00 All items"  # (no titles-ar.csv)
    assert head['VALUES[fr]("Mois")'][:2] == ["janvier 2025", "f\u00e9vrier 2025"]
    assert head["TITLE[fr]"] == ["Indice des prix \u00e0 la consommation par poste, chiffre et mois"]
    assert head['VALUENOTE[fr]("Poste","00 Ensemble")'] == ["Indice : d\u00e9cembre 2024 = 100."]
    texts = {re.sub(r"\[[a-z]+\]|\(.*", "", name) for name in head if "[fr]" in name}
    plain = {name for name in head if "[" not in name}
    assert texts == {re.sub(r"\(.*", "", name) for name in plain} - {
        *("CHARSET", "AXIS-VERSION", "CODEPAGE", "LANGUAGE", "LANGUAGES", "CREATION-DATE", "DECIMALS", "SHOWDECIMALS"),
        *("MATRIX", "AGGREGALLOWED", "SUBJECT-CODE", "OFFICIAL-STATISTICS"),
    }
    assert len([name for name in head if "[fr]" in name]) == len([name for name in head if "[ar]" in name])


def test_json_stat_has_titles_and_notes_in_each_language(site: Path) -> None:
    data, _ = read_json_stat(site / "data/cpi.jsonstat.json")
    french, arabic = (data["extension"]["languages"][tag] for tag in ("fr", "ar"))
    assert data["dimension"]["item"]["category"]["label"]["00"] == "All items"
    assert french["dimension"]["item"]["category"]["label"]["00"] == "Ensemble"
    assert french["label"] == "Indice des prix \u00e0 la consommation" and arabic["label"] == data["label"]
    for name, own in data["dimension"].items():
        for part in ("label", "note"):
            wanted = own["category"].get(part, {})
            assert [*french["dimension"][name]["category"].get(part, {})] == [*wanted]
    units = {it["label"] for it in arabic["dimension"]["measure"]["category"]["unit"].values()}
    assert not re.search("[a-z]", " ".join(units)) and len(french["note"]) == len(data["note"])


def test_sdmx_has_titles_in_each_language(site: Path) -> None:
    """An element has a name for each language in which it is called something, as SDMX-ML has it."""
    (path,) = (site / "data").glob("structure*.xml")
    root = ElementTree.fromstring(path.read_text(encoding="utf-8"))
    kind = "{http://www.sdmx.org/resources/sdmxml/schemas/v2_1/structure}"
    language = "{http://www.w3.org/XML/1998/namespace}lang"

    def names_of(element: ElementTree.Element) -> dict[str, str]:
        names = [it for it in element if it.tag.endswith("}Name")]
        assert len({name.attrib[language] for name in names}) == len(names)
        return {name.attrib[language]: name.text or "" for name in names}

    codes = {element.attrib["id"]: names_of(element) for element in root.iter(f"{kind}Code")}
    assert codes["_T"] == {"en": "All items", "fr": "Ensemble"} and [*codes["CP01"]] == ["en"]
    assert codes["PC"]["fr"] == "Pourcentage" and {*codes["PC"]} == {"en", "fr", "ar"}
    assert all({*names_of(element)} == {"en", "fr", "ar"} for element in root.iter(f"{kind}Concept"))
    assert [names_of(element)["fr"] for element in root.iter(f"{kind}Dataflow")] == [
        "Indice des prix \u00e0 la consommation"
    ]


def test_what_is_written_again_is_the_same(site: Path, published: list[Published]) -> None:
    assert check(published, CONFIG, site, None, lambda _: None) == []


# ---- a language that nobody speaks


OURS = re.compile(r"<(bdi|code|pre|script|style)\b.*?</\1>|\u2068.*?\u2069|&[a-z]+;", re.S)
OF_ALL = re.compile(
    r"[\w./-]*\.(?:csv|xlsx|xml|json|px|ics|html|zip|png)\b|[0-9a-f]{16,}"
    r"|\b(?:SDMX|CSV|ML|SVG|SHA|UTC|StructureSpecificData|BibTeX|RIS)\b"
)
HEADS = re.compile(
    r"<(title|desc|text)\b[^>]*>.*?</\1>|<meta [^>]*>|<option.*?</option>|(?:aria-label|title|alt)=\"[^\"]*\"", re.S
)
COLUMNS = re.compile(r'<th scope="row">[a-z_, ]+</th>')


def test_no_word_is_left_in_english(tmp_path: Path, monkeypatch: pytest.MonkeyPatch) -> None:
    """The words of a pseudo-language have no Latin letter."""
    shutil.copytree(ROOT / "po", tmp_path / "po")
    write_catalogue("el", tmp_path / "po")
    monkeypatch.setattr(languages, "PO", tmp_path / "po")
    config = CONFIG._replace(address="", speaks=OfficeLanguages(("el",)), specials=())
    tables = two_years()[:14]
    publish(tables, config, tmp_path / "public", None, lambda _: None)
    titles = {row[7] for table in tables for row in csv.reader(table.table.decode().splitlines())}
    named = "|".join(
        re.escape(html.escape(title)) for title in sorted({config.title, config.office, *titles}, key=len)[::-1]
    )
    left = dict[str, str]()
    for path in sorted((tmp_path / "public").rglob("*.html")):
        text = HEADS.sub(lambda it: re.sub(named, " ", it[0], flags=re.I), path.read_text(encoding="utf-8"))
        text = COLUMNS.sub("", OURS.sub(" ", text))
        said = re.findall(r'(?:aria-label|title|alt|data-fault)="([^"]*)"', text)
        words = OF_ALL.sub(" ", " ".join([re.sub(r"<[^>]*>", " ", text), *said]))
        left.update({word: path.name for word in re.findall(r"[A-Za-z]{2,}", words)})
    # (letters of notes, and hexadecimal digits of sums that are broken in two)
    assert {word: name for word, name in left.items() if not re.fullmatch(r"[ipbr]+|[a-f]+", word)} == {}


# ---- the settings


def config_of(folder: Path, text: str, titles: str = "") -> Config:
    (folder / "office.ini").write_text(text, encoding="utf-8")
    if titles:
        (folder / "titles-fr.csv").write_text(titles, encoding="utf-8")
    return read_config(folder / "office.ini")


def test_an_office_sets_its_languages(tmp_path: Path) -> None:
    text = f"{OFFICE}languages = fr, ar\ndigits = arab\n[fr]\ntitle = Indice  des prix\n"
    config = config_of(tmp_path, text, "code,title\n00,Ensemble\nCORE,Inflation\n")
    assert config.speaks.languages == ("fr", "ar") and config.speaks.digits == "arab"
    assert config.speaks.own["fr"] == ({"title": "Indice des prix"}, {"00": "Ensemble", "CORE": "Inflation"})
    assert config.spoken("fr").title == "Indice des prix" and config.spoken("ar").title == "Consumer price index"
    assert config_of(tmp_path, OFFICE).speaks == OfficeLanguages()


@pytest.mark.parametrize(
    ("more", "titles", "said"),
    [
        ("languages = pt\n", "", "languages: pt has no catalogue; it is one of en, ar, es, fr"),
        ("languages = fr fr\n", "", "languages: fr is there twice"),
        ("digits = roman\n", "", "digits: roman is none of latn, arab, deva"),
        ("[fr]\ntitle = Indice\n", "", "there is no section [fr], but [office] and [sdmx]"),
        ("languages = fr\n[fr]\nzone = UTC\n", "", "zone is no word of [fr]; its words are office, title"),
        ("languages = fr\n", "code;title\n", "titles-fr.csv: its first row isn't code,title"),
        ("languages = fr\n", "code,title\n00\n", "titles-fr.csv: row 2 has 1 cells, and not 2"),
        ("languages = fr\n", "code,title\nx,y\n", "titles-fr.csv: row 2: x is no code such as 01.1, and no id of a set"),
        ("languages = fr\n", "code,title\n00,\n", "titles-fr.csv: row 2: 00 has no title"),
        ("languages = fr\n", "code,title\n00,a\n00,b\n", "titles-fr.csv: row 3: 00 has a row already"),
    ],
)  # fmt: skip
def test_a_setting_that_is_wrong_is_one_line(tmp_path: Path, more: str, titles: str, said: str) -> None:
    with pytest.raises(BadConfig, match=re.escape(said)) as raised:
        config_of(tmp_path, OFFICE + more, titles)
    assert "\n" not in str(raised.value)


def test_figures_of_a_page_are_found() -> None:
    assert figures('<td class="n">\u061c\u2212\u0660\u066b\u0663</td><td class="n wide">1</td><td>2</td>') == [
        "\u22120.3",
        "1",
    ]

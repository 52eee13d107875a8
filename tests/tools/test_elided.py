"""French joins "de" to a month that begins with a vowel: "d'octobre 2025", and "de mars 2025". Where French and Spanish texts
begin with a month, it has a capital letter."""

from __future__ import annotations

import json
import re
import shutil
import subprocess
import sys
from collections.abc import Iterator

import jinja2
import pytest
from babel.messages.catalog import Message
from markupsafe import Markup

from cpi_tools.text.others import Places, of, of_others, word_text
from cpi_tools.text.languages import ENGLISH, language_of, speech_of
from cpi_tools.text.message import message as report_text
from cpi_tools.text.page_templates import environment
from cpi_tools.text.report_language import Teller
from lib.places import ROOT

sys.path.insert(0, str(ROOT / "tools"))

import catalogues  # noqa: E402

FRENCH = speech_of("fr")
MONTHS = [FRENCH.month(f"2026-{month:02}") for month in range(1, 13)]
PLACE = re.compile(r"\{(\w+)\}|%\((\w+)\)s")
OF_MONTHS = frozenset(
    {"month", "first", "last", "period", "base", "table", "before", "span", "since", "from", "to", "release"}
)
"""The places that can hold a month."""

UNJOINED = re.compile(r"\b(de|que|jusque|du mois de) [aeiouh]", re.IGNORECASE)


def forms() -> Iterator[tuple[Message, str]]:
    """Each French text with a place of a month, every other place of which holds an X."""
    for message in catalogues.read(ROOT / "po", "fr"):
        for form in catalogues.forms_of(message) if message.id else ():
            if {name.removeprefix("of_") for name in catalogues.places(form)} & OF_MONTHS:
                yield message, form


def rendered(form: str, month: str) -> Iterator[str]:
    """What stands before each month of a text, which has that month in all of its places of months."""
    names = catalogues.places(form)
    others = {name: "X" for name in names if name.removeprefix("of_") not in OF_MONTHS}
    places = Places({**others, **{name: month for name in OF_MONTHS}})
    text = PLACE.sub(lambda it: str(places[it[1] or it[2]]), form.replace("%%", "%"))
    yield from (text[max(0, match.start() - 12) : match.start()] for match in re.finditer(re.escape(month), text))


def test_no_french_text_has_de_before_a_vowel_of_a_month() -> None:
    found = [*forms()]
    assert len(found) > 100
    for message, form in found:
        for month in MONTHS:
            for before in rendered(form, month):
                assert not UNJOINED.search(before + month[:1]), (message.id, before + month)


def test_the_word_before_a_month() -> None:
    assert [of(month) for month in MONTHS[:4]] == ["de janvier 2026", "de février 2026", "de mars 2026", "d’avril 2026"]
    assert of(MONTHS[7]) == "d’août 2026" and of(MONTHS[9]) == "d’octobre 2026" and of("2026") == "de 2026"


@pytest.mark.parametrize(("month", "wanted"), [("2026-10", "d’octobre 2026"), ("2026-12", "de décembre 2026")])
def test_texts_of_all_kinds_join_it(month: str, wanted: str) -> None:
    """Those of Python, of reports, and of templates."""
    name = FRENCH.month(month)
    text = FRENCH.t("This item isn't in the index in {year}; its last figure is for {month}.", year="2027", month=name)
    assert text.endswith(f"celui {wanted}.")
    assert word_text("niveau chaîné {of_month}", month=name) == f"niveau chaîné {wanted}"
    pages = environment(language=language_of("fr"))
    template = "{% trans month=it %}Table of {{ month }}{% endtrans %}"
    assert pages.from_string(template).render(it=name) == f"Tableau {wanted}"
    assert environment(language=ENGLISH).from_string(template).render(it="May 2026") == "Table of May 2026"
    # (what is in a place is escaped once)
    assert pages.from_string(template).render(it="<i>") == "Tableau de &lt;i&gt;"


@pytest.mark.parametrize(
    ("name", "wanted"),
    [
        ("Œufs, 12", "d’Œufs, 12"),
        ("Huile, 1 l", "d’Huile, 1 l"),
        ("Riz, 1 kg", "de Riz, 1 kg"),
        ("Yaourt, 4", "de Yaourt, 4"),
        ("Haricots, 1 kg", "de Haricots, 1 kg"),
        ("Homard", "de Homard"),
        ("Herbes", "d’Herbes"),
        ("Hôtel", "d’Hôtel"),
    ],
)
def test_the_word_before_the_name_of_an_item(name: str, wanted: str) -> None:
    """On a page the name stays an element of its own."""
    told = word_text("celui {of_item}", item=of_others(name))
    assert told == f"celui {wanted}"
    assert told.__html__() == f"celui {wanted.removesuffix(name)}<bdi>{name}</bdi>"


def test_sentences_that_explain_join_it() -> None:
    """The names in them are put together of a text and its unit."""
    item = report_text("{text}, {unit}", text=of_others("Œufs"), unit=of_others("12"))
    form = "Nothing could be compared ({reasons}), so the desk decided to carry the price of {item} at {outlet}: it counts as"
    source = f"{form} {{now}}, as it did in {{before}}."
    places = {"reasons": "X", "item": item, "outlet": of_others("Halle"), "now": "1", "before": "X"}
    told = str(Teller(FRENCH).render(report_text(source, **places)))
    assert "le prix d’Œufs, 12 (Halle)" in told


def test_a_place_that_isnt_there_is_a_fault() -> None:
    with pytest.raises(KeyError):
        Places({"month": "mars"})["of_year"]
    with pytest.raises((KeyError, jinja2.TemplateError)):
        Places({"month": "mars"})["year"]


@pytest.mark.parametrize("month", ["2026-04", "2026-10", "2026-12"])
def test_scripts_join_it(month: str) -> None:
    node = shutil.which("node") or pytest.skip("no node")
    text = "The address asks for revision {asked} of {month}."
    words = {
        "tag": "fr",
        "digits": "latn",
        "signs": {},
        "plural": {"other": 0},
        "texts": {text: "la révision {asked} {of_month}"},
    }
    script = ROOT / "tools/cpi_tools/publish/site/assets/spoken.js"
    code = (
        f"globalThis.WORDS = {json.dumps(words)}; const {{ t, monthText }} = require({json.dumps(str(script))});"
        f"process.stdout.write(t({json.dumps(text)}, {{ asked: 2, month: monthText({json.dumps(month)}) }}))"
    )
    said = subprocess.run([node, "-e", code], capture_output=True, text=True, check=True).stdout
    assert said == f"la révision 2 {of(FRENCH.month(month))}"


def test_pages_of_collectors_have_no_such_place() -> None:
    """Their scripts have a rule of their own, without it."""
    for message in catalogues.read(ROOT / "po", "fr"):
        if any(place.startswith("web/") for place, _ in message.locations):
            assert "of_" not in str(message.string), message.id
            assert not re.search("[{(][A-Z]", str(message.string)), message.id


# ---- a month at the beginning

BEGINS = re.compile(r"(?:\{|%\()([a-z]+)(?:\}|\)s)")
CAPITAL = re.compile(r"(?:\{|%\()([A-Z][a-z_]*)(?:\}|\)s)")

WITHIN = (
    "cpi_tools/explain/aggregate.py",
    "explain/explanation_lines.py",
    "explain/release_sources.py",
    "cpi_tools/sheets/",
)
"""Where texts go on behind a colon, or stand in a list."""


def is_within(message: Message) -> bool:
    """Whether a text is a part of others."""
    places = [place for place, _ in message.locations]
    return message.id == "{month}, revision {number}" or all(any(text in place for text in WITHIN) for place in places)


@pytest.mark.parametrize("code", ["fr", "es"])
def test_a_text_that_begins_with_a_month_begins_with_a_capital(code: str) -> None:
    begun = 0
    for message in catalogues.read(ROOT / "po", code):
        for form in catalogues.forms_of(message) if message.id else ():
            first = BEGINS.match(form)
            assert not first or first[1] not in {"month", "release"} or is_within(message), form
            for place in CAPITAL.finditer(form):
                assert place[1].lower() in OF_MONTHS and (
                    not place.start() or form[: place.start()].endswith(". ")
                ), form
                begun += 1
    assert begun > 20


def test_texts_of_all_kinds_begin_with_it() -> None:
    october = FRENCH.month("2026-10")
    assert FRENCH.t("{month}: {headline}", month=october, headline="X") == "Octobre 2026\u00a0: X"
    assert word_text("{Month}, révision {number}", month=october, number=2) == "Octobre 2026, révision 2"
    assert Places({"month": october})["Of_month"] == "D’octobre 2026"
    pages = environment(language=language_of("fr"))
    template = "{% trans month=it, moment='X' %}{{ month }}, published {{ moment }}{% endtrans %}"
    assert pages.from_string(template).render(it=october) == "Octobre 2026, publié le X"
    # (what is in a place is escaped once)
    assert pages.from_string(template).render(it="a<i>") == "A&lt;i&gt;, publié le X"
    assert pages.from_string("{{ it|begun }}").render(it=Markup("<i>")) == "<i>"


@pytest.mark.parametrize(
    ("form", "wanted"), [("{Month} a {asked}", "Octobre 2026 a 2"), ("{Year} {month}", "{Year} octobre 2026")]
)
def test_scripts_begin_with_it(form: str, wanted: str) -> None:
    """A place that isn't filled stays."""
    node = shutil.which("node") or pytest.skip("no node")
    words = {"tag": "fr", "digits": "latn", "signs": {}, "plural": {"other": 0}, "texts": {"text": form}}
    script = ROOT / "tools/cpi_tools/publish/site/assets/spoken.js"
    code = (
        f"globalThis.WORDS = {json.dumps(words)}; const {{ t, monthText }} = require({json.dumps(str(script))});"
        "process.stdout.write(t('text', { asked: 2, month: monthText('2026-10') }))"
    )
    assert subprocess.run([node, "-e", code], capture_output=True, text=True, check=True).stdout == wanted

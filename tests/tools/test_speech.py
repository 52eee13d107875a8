"""How pages of the tools say figures, months and moments in a language, and their texts."""

from __future__ import annotations

from datetime import datetime

import jinja2
import pytest

from cpi_tools.text.languages import ENGLISH, SPEAKS_ENGLISH, Language, Speech, speech_of
from cpi_tools.text.clocks import clock_of
from cpi_tools.publish.figures.shown_figures import headline
from cpi_tools.publish.figures.figures import note_names
from cpi_tools.office.tables import Row
from cpi_tools.text.page_templates import environment

AT = datetime(2026, 1, 28, 9, 5)

NARROW, BREAKLESS, ARABIC_MARK, LEFT_MARK = "\u202f", "\xa0", "\u061c", "\u200e"
"""Spaces that don't break, and the marks by which CLDR keeps a sign beside its figure."""

SAID = {
    ("en", "latn"): ["105.7", "+0.3\u202f%", "−0.3\u202f%", "12.50 %", "1,234,567", "January 2026", "2026", "Jan",
                     "28 January 2026, 09:05 CET", "a, b and c"],
    ("fr", "latn"): ["105,7", "+0,3\u202f%", "−0,3\u202f%", "12,50\u202f%", "1\u202f234\u202f567", "janvier 2026",
                     "2026", "janv.", "28 janvier 2026 à 09:05 CET", "a, b et c"],
    ("es", "latn"): ["105,7", "+0,3\xa0%", "−0,3\xa0%", "12,50\xa0%", "1.234.567", "enero de 2026", "2026", "ene",
                     "28 de enero de 2026, 9:05 CET", "a, b y c"],
    ("ar", "arab"): ["١٠٥٫٧", "\u061c+٠٫٣٪\u061c", "\u061c−٠٫٣٪\u061c", "١٢٫٥٠٪\u061c", "١٬٢٣٤٬٥٦٧", "يناير ٢٠٢٦",
                     "٢٠٢٦", "يناير", "٢٨ يناير ٢٠٢٦، الساعة \u2066٠٩:٠٥ CET\u2069", "a وb وc"],
}  # fmt: skip
"""By CLDR's tables: number symbols, percent patterns, dates and lists; French has a narrow space before a percent."""


@pytest.mark.parametrize(("code", "digits"), SAID)
def test_figures_months_and_moments_are_those_of_a_language(code: str, digits: str) -> None:
    speech = speech_of(code, digits)
    found = [speech.figure("105.7"), speech.percent("+0.3"), speech.percent("−0.3"), speech.share("12.50")]
    found += [speech.whole(1_234_567), speech.month("2026-01"), speech.year("2026"), speech.month_mark("2026-01")]
    assert [*found, speech.moment(AT, "CET"), speech.list_texts(["a", "b", "c"])] == SAID[code, digits]


def test_the_clock_of_the_office_says_moments_in_its_language() -> None:
    """28 January 2026, 08:30 UTC is 11:30 in Nairobi, and 21:30 of 27 January in Honolulu is 07:30 of the next day."""
    moment = 1_769_589_000
    clock, french = clock_of("Africa/Nairobi"), speech_of("fr")
    assert clock.day(moment) == "28 January 2026, 11:30 EAT (08:30 UTC)"
    assert clock.day(moment, french) == "28 janvier 2026 à 11:30 EAT (08:30 UTC)"
    early = clock_of("Pacific/Honolulu").day(moment - 3600, french)
    assert early == "27 janvier 2026 à 21:30 HST (28 janvier 2026 à 07:30 UTC)"


def row(month_change: int, year_change: int) -> Row:
    return Row("00", 1_000_000, 10**8, 10**8, month_change, year_change, False, "All items")


def test_a_sentence_is_one_of_the_language() -> None:
    french, arabic = speech_of("fr"), speech_of("ar", "arab")
    assert headline("2026-01", row(3, 21), french) == (
        "En janvier 2026, les prix à la consommation augmentent de 2,1\u202f% sur un an"
    )
    assert headline("2026-01", row(3, -21), arabic) == (
        "في يناير ٢٠٢٦ انخفضت أسعار المستهلك بنسبة ٢٫١ في المائة عما كانت عليه قبل سنة"
    )


def upper(one: str, many: str, count: int) -> str:
    return (one if count == 1 else many).upper().replace("(COUNT)S", "(count)s")


LOUD = Language(
    "xx", "ltr", lambda text: f"{text.upper().replace('(NAME)S', '(name)s')}!", upper, lambda within, text: within
)


def rendered(template: str, language: Language, **named: object) -> str:
    pages = environment((), language)
    pages.loader = jinja2.DictLoader({"page": template})
    return pages.get_template("page").render(**named)


@pytest.mark.parametrize(
    ("template", "english", "loud"),
    [
        ("<p>{% trans %}all <b>of</b> it{% endtrans %}</p>", "<p>all <b>of</b> it</p>", "<p>ALL <B>OF</B> IT!</p>"),
        ("{% trans name=it %}of {{ name }}, {{ name }}{% endtrans %}", "of &lt;x&gt;, &lt;x&gt;", "OF &lt;x&gt;, &lt;x&gt;!"),
        ("{% trans %}100 %{% endtrans %}", "100 %", "100 %!"),
        ("{% trans name=it %}{{ name }} %{% endtrans %}", "&lt;x&gt; %", "&lt;x&gt; %!"),
        ("{% trans count=n %}{{ count }} item{% pluralize %}{{ count }} items{% endtrans %}", "2 items", "2 ITEMS"),
        ('{% trans "within" %}item{% endtrans %}', "item", "within"),
    ],
)  # fmt: skip
def test_a_text_of_a_template_is_put_in_when_it_is_compiled(template: str, english: str, loud: str) -> None:
    assert rendered(template, ENGLISH, it="<x>", n=2) == english
    assert rendered(template, LOUD, it="<x>", n=2) == loud


@pytest.mark.parametrize(
    ("tag", "heading", "note"),
    [("en", "imputed", "imputed"), ("fr", "imputés", "imputé"), ("es", "imputados", "imputado")],
)
def test_a_note_is_translated_apart_from_the_heading_of_the_same_word(tag: str, heading: str, note: str) -> None:
    """The heading counts prices of an aggregate; the note is of one figure."""
    speech = speech_of(tag)
    assert speech.t("imputed") == heading and note_names(speech)["i"] == note


def test_english_pays_nothing_for_other_languages() -> None:
    """The compiled template of a text has no call in it."""
    pages = environment((), ENGLISH)
    pages.loader = jinja2.DictLoader({"page": "{% trans name=it %}of {{ name }}{% endtrans %}"})
    made = pages.compile("{% trans %}all of it{% endtrans %}", raw=True)
    assert "yield 'all of it'" in made and "gettext" not in made
    assert speech_of("en") is SPEAKS_ENGLISH and isinstance(SPEAKS_ENGLISH, Speech)

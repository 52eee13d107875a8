"""The page of collectors in other languages, at 360 pixels: nothing is cut, covered or left in English."""

from __future__ import annotations

import gettext

import pytest
from babel.messages.pofile import read_po

from lib.places import ROOT

from .languages import ARABIC, FRENCH, Speech, spoken
from .offices import ANNA, NOW
from .phone import Phone
from .phone_walks import walk_over
from .stage import Stage
from .walks import Walk


@pytest.mark.sampled(1)
def test_nothing_is_cut_covered_or_left_in_english(phone: Phone, stage: Stage, language: str) -> None:
    walk = Walk(phone.browser, language)
    walk_over(phone, stage, walk)
    assert walk.faults == [] and walk.count > 10


# ---- the choice


def choose(phone: Phone, code: str) -> None:
    """Chooses a language in the head of the page."""
    phone.browser.click("#language")
    phone.browser.wait_shown("#languages")
    phone.browser.click(f'[data-language="{code}"]')
    phone.browser.wait(lambda: phone.browser.run("return document.documentElement.lang") == code, code)


KEPT = "return (await caches.match(new URL('languages/' + arguments[0] + '.json', document.baseURI))) !== undefined"


def wait_kept(phone: Phone, code: str) -> None:
    """Waits until the phone has kept the catalogue of a language."""
    phone.browser.wait(lambda: phone.browser.run_until(KEPT, code), f"{code} is kept")


def test_a_collector_chooses_a_language_and_it_stays_without_a_line(phone: Phone, stage: Stage) -> None:
    browser = phone.browser
    phone.open()
    browser.wait_shown("#sign-in")
    browser.type("#key", ANNA)
    choose(phone, "fr")
    phone.speaks(FRENCH)
    assert browser.text("#sign-in h2") == phone.said("Sign in")
    assert browser.run("return document.title") == "Relevé des prix"
    assert browser.run("return document.getElementById('key').value") == ANNA
    browser.click("#sign-in-form button.main")
    browser.wait_text("#line", "Tout est envoyé")
    browser.wait(lambda: browser.all("[data-slot]"), "a work list")
    wait_kept(phone, "fr")
    browser.offline(True)
    browser.driver.refresh()
    browser.wait_text("#line", "Hors ligne")
    browser.wait_text("#month", browser.run("return new Intl.DateTimeFormat('fr', { month: 'long' }).format()"))
    phone.enter(1, "3.21")
    browser.wait_text("#line", "Hors ligne\u00a0: 1 saisie gardée sur ce téléphone")
    assert browser.faults() == []
    browser.offline(False)
    assert stage.wait_for_quotes(ANNA) == [[1, NOW, "price", 321, 10]]


def test_a_language_that_is_not_on_the_phone_needs_a_line(phone: Phone, stage: Stage) -> None:
    phone.sign_in()
    stage.front.stop()
    phone.browser.click("#language")
    phone.browser.click('[data-language="es"]')
    phone.browser.wait_text("#languages-fault", "aren’t on this phone yet")
    assert phone.browser.run("return document.documentElement.lang") == "en-GB"
    stage.front.start()
    phone.browser.click('[data-language="es"]')
    phone.browser.wait_text("#show-todo", "Pendientes")


def test_what_is_shown_changes_with_the_language_and_nothing_is_lost(phone: Phone, stage: Stage) -> None:
    """A draft, what is refused, and a notice that stays until it is read."""
    browser = phone.browser
    phone.sign_in()
    phone.refuse_correction()
    phone.edit(2)
    browser.type("#price", "5.01")
    phone.close()
    phone.wait_told(2, "Typed, not saved")
    browser.run("location.hash = 'key=none'")
    browser.wait_text("#notice", "The link you opened doesn’t contain a key.")
    choose(phone, "ar")
    words = phone.words = type(phone.words)(ARABIC)
    phone.wait_told(1, words.said("Refused"))
    phone.wait_told(2, words.said("Typed, not saved"))
    assert browser.text("#alarm") == words.counted("{count} refused", "{count} refused", 1)
    assert browser.text("#notice").startswith("الرمز الذي فتحته ليس مفتاحًا.")
    assert browser.run("return [document.documentElement.dir, document.getElementById('manifest').getAttribute('href')]") == [
        "rtl", "manifest.ar.webmanifest"
    ]  # fmt: skip
    phone.edit(2)
    assert browser.run("return document.getElementById('price').value") == "5.01"
    assert browser.faults() == []


def test_signing_out_leaves_the_language(phone: Phone) -> None:
    phone.sign_in()
    choose(phone, "es")
    phone.browser.click("#leave")
    phone.browser.click("#leaving-go")
    phone.browser.wait_shown("#sign-in")
    assert phone.browser.text("#sign-in h2") == "Iniciar sesión"
    phone.browser.driver.refresh()
    phone.browser.wait_text("#sign-in h2", "Iniciar sesión")


@pytest.mark.sampled(2)
@pytest.mark.parametrize(
    ("setting", "spoken_code", "direction"),
    [("fr-CA", "fr", "ltr"), ("ar-EG", "ar", "rtl"), ("en-US", "en", "ltr"), ("tlh", "en", "ltr"), ("es", "es", "ltr")],
)
def test_the_office_sets_the_language(
    phone: Phone, stage: Stage, setting: str, spoken_code: str, direction: str
) -> None:
    with spoken(stage, Speech(setting)):
        phone.open()
        phone.browser.wait_shown("#sign-in")
        code = phone.browser.run_until("return (await import('/shared/texts.js')).spoken()")
        assert (code, phone.browser.run("return document.documentElement.dir || 'ltr'")) == (spoken_code, direction)
        loaded = "return performance.getEntriesByType('resource').map((it) => it.name).filter((it) => it.includes('languages/'))"
        names = [name.rpartition("/")[2] for name in phone.browser.run(loaded)]
        assert names == ([] if spoken_code == "en" else [f"{spoken_code}.json"])


@pytest.mark.sampled(1)
@pytest.mark.parametrize("code", ["ar", "fr", "es"])
def test_a_browser_takes_the_plural_form_that_gettext_takes(phone: Phone, stage: Stage, code: str) -> None:
    counts = [0, 1, 2, 3, 10, 11, 99, 100, 101, 102, 103, 111, 1000, 1_000_000]
    with (ROOT / f"po/{code}.po").open("rb") as file:
        catalog = read_po(file, locale=code)
    message = catalog.get("{count} to do")
    form = gettext.c2py(catalog.plural_expr)  # type: ignore[attr-defined]
    wanted = [message.string[form(count)].replace("{count}", str(count)) for count in counts]
    with spoken(stage, Speech(code)):
        phone.open()
        phone.browser.wait_shown("#sign-in")
        told = phone.browser.run_until(
            "const { tn } = await import('/shared/texts.js');"
            " return arguments[0].map((count) => tn('{count} to do', '{count} to do', count));",
            counts,
        )
    assert told == wanted


@pytest.mark.sampled(1)
@pytest.mark.parametrize("digits", ["arab", "deva", "latn"])
def test_a_price_that_is_shown_is_read_as_the_same(phone: Phone, stage: Stage, digits: str) -> None:
    """In the office's digits and with its decimal mark."""
    speech = Speech("ar", digits, "\u066b" if digits == "arab" else ",")
    with spoken(stage, speech):
        phone.open()
        phone.browser.wait_shown("#sign-in")
        prices = [1, 9, 10, 99, 100, 321, 123_456, 100_000_000]
        shown, read = phone.browser.run_until(
            "const { figures, typed } = await import('/shared/money.js');"
            " const shown = arguments[0].map(figures); return [shown, shown.map((text) => typed(text)?.price)];",
            prices,
        )
    assert shown == [speech.figure(f"{price // 100}.{price % 100:02}") for price in prices]
    assert read == prices


def test_the_manifest_of_each_language_is_the_same_app(phone: Phone) -> None:
    phone.open()
    read = "return (await fetch(arguments[0])).json()"
    source = phone.browser.run_until(read, "manifest.webmanifest")
    for code, direction in (("ar", "rtl"), ("fr", "ltr"), ("es", "ltr")):
        found = phone.browser.run_until(read, f"manifest.{code}.webmanifest")
        assert (found.pop("lang"), found.pop("dir")) == (code, direction)
        assert found["name"] != source["name"] and len(found["short_name"]) <= 12
        assert {**found, "name": source["name"], "short_name": source["short_name"]} == source

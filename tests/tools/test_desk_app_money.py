"""The desk's pages show prices in the currency of the website's configuration, and take them so in *What if*."""

from __future__ import annotations

import re
from collections.abc import Iterator
from fractions import Fraction
from pathlib import Path

import pytest

from cpi_tools.text.exact import numbers_in
from cpi_tools.desk.looks.table_views import example, tried_of
from cpi_tools.text.message import Money, Price, Ticks
from cpi_tools.office.program import Cpi
from cpi_tools.text.terminal import Fault

from . import surveys
from .desk_apps import ADA, Application, Person, applied, words_of

MONTH = "2026-02"
OFFICE = "[office]\nagency = EX\narea = XX\noffice = Office of the example\ncurrency = crowns\n"
MINOR = re.compile(r"(?<![0-9.,/])(200|210|240|246|252)(?![0-9.,/])")
"""Prices of the small office in minor units."""

CROWNS = Money(100, "crowns")


@pytest.fixture
def application(cpi: Cpi, tmp_path: Path) -> Iterator[Application]:
    with applied(cpi, surveys.small(cpi, tmp_path), tmp_path / "room") as it:
        it.desk.site_config.path = tmp_path / "office.ini"
        it.desk.site_config.path.write_text(OFFICE, encoding="utf-8")
        it.tried(it.person(ADA), MONTH)
        yield it


@pytest.fixture
def ada(application: Application) -> Person:
    return application.person(ADA)


def test_each_page_with_prices_has_amounts_and_says_in_what(ada: Person) -> None:
    for page in ("looks", "table", "freeze"):
        words = ada.words(f"/month/{MONTH}/{page}")
        assert "Prices are in crowns ." in words, page
        assert not MINOR.search(words), page
    assert "last price 2.46 , now 2.52 (+2.4" in ada.words(f"/month/{MONTH}/looks")
    assert "last price 2.46, now 2.52, 2.4 percent" in ada.get(f"/month/{MONTH}/looks/8.txt").text
    assert 'aria-label="3 prices in 13 months, from 2.40 to 2.52"' in ada.get(f"/month/{MONTH}/looks").text


def test_an_explanation_has_amounts_beside_its_whole_numbers(ada: Person) -> None:
    words = ada.words(f"/month/{MONTH}/explain/01.1.1.1-01")
    assert "2.46 crowns to 2.52 crowns" in words and "price 2.52" in words
    assert "= 2520000 2.52" in words and "= 252 2.52" in words
    assert "Prices are in crowns ." in words and "ticks" in words


def test_a_file_has_minor_units_and_the_page_says_so(ada: Person) -> None:
    assert "In the CSV files, prices are in minor units." in ada.words(f"/month/{MONTH}/table")
    moved = ada.get(f"/month/{MONTH}/table/influence.csv").text
    assert "last price,price" in moved and ",246,252," in moved


def test_the_page_says_so_while_no_configuration_names_a_currency(application: Application, ada: Person) -> None:
    assert application.desk.site_config.path
    application.desk.site_config.path.write_text(OFFICE.replace("currency", "contact"), encoding="utf-8")
    for page in ("looks", "table", "what-if", "explain/01.1.1.1-01"):
        words = ada.words(f"/month/{MONTH}/{page}")
        assert "rices are in minor units of money" in words or "Prices are in minor units of money" in words, page
    assert "last price 246 , now 252" in ada.words(f"/month/{MONTH}/looks")


def test_a_configuration_that_is_half_written_changes_no_price(application: Application, ada: Person) -> None:
    config = application.desk.site_config
    assert config.path and "last price 2.46 , now 2.52" in ada.words(f"/month/{MONTH}/looks")
    config.path.write_text(OFFICE + "minor_digits = ", encoding="utf-8")
    assert "last price 2.46 , now 2.52" in ada.words(f"/month/{MONTH}/looks")
    config.path.write_text(OFFICE + "minor_digits = 3\n", encoding="utf-8")
    assert "last price 0.246 , now 0.252" in ada.words(f"/month/{MONTH}/looks")


def test_a_page_finds_its_currency_once(application: Application, ada: Person, monkeypatch: pytest.MonkeyPatch) -> None:
    """However many prices it has."""
    config = application.desk.site_config
    finds, found = config.now, list[object]()

    def counted() -> object:
        found.append(finds())
        return found[-1]

    monkeypatch.setattr(config, "now", counted)
    for page in ("looks", "table"):
        found.clear()
        assert "2.52" in ada.words(f"/month/{MONTH}/{page}")
        assert len(found) == 1, page


# ---- what if


def test_a_price_is_tried_as_the_page_shows_it(ada: Person) -> None:
    page = f"/month/{MONTH}/what-if"
    assert 'placeholder="7/2=2.10\n8/1=missing' in ada.get(page).text
    words = words_of(ada.follow(ada.fill(page, "what-if", text="7/1=2.20\n")).text)
    assert "00 105.698455 +1.5 106.363636 +2.1" in words


def test_what_isn_t_a_price_stays_as_it_was_typed(ada: Person) -> None:
    page = f"/month/{MONTH}/what-if"
    for text, says in (
        ("7/1=220.5.5", "Line 1: 7/1=220.5.5 can't be tried. Write a price like 7/2=2.10"),
        ("7/1=2.2051", "Line 1: 7/1=2.2051 can't be tried. A price must be from 0.01 to 1000000.00 ."),
        ("7/1=1000000.01", "Line 1: 7/1=1000000.01 can't be tried. A price must be from 0.01 to 1000000.00 ."),
        ("7/1=0", "Line 1: 7/1=0 can't be tried. Write a"),
        ("7/1=2 20", "Line 1: 7/1=2 20 can't be tried. Write a"),
        ("\n7/1=2.20\n7/1=missing", "Lines 2 and 3 are both for slot 7/1: keep only one of them."),
    ):
        answer = ada.fill(page, "what-if", text=text)
        assert answer.status_code == 400 and says in words_of(answer.text), text
        assert f">{text.lstrip()}</textarea>" in answer.text.replace("\r", "") or f">{text}</textarea>" in answer.text


def test_a_form_of_before_the_currency_s_digits_changed_isn_t_read(application: Application, ada: Person) -> None:
    form = ada.form(f"/month/{MONTH}/what-if", "what-if")
    assert application.desk.site_config.path
    application.desk.site_config.path.write_text(OFFICE + "minor_digits = 3\n", encoding="utf-8")
    answer = ada.give(form, text="7/1=2.20")
    assert (
        answer.status_code == 409
        and "decimal places was changed" in words_of(answer.text)
        and "7/1=2.20" in answer.text
    )


def test_texts_to_try_are_read_by_the_digits_of_the_currency() -> None:
    text = "7/1=1,000,000.00\n7/2=٣٫٢٠\n7/3=31 116,5\n8/1=missing\n01.1.1.2-01"
    found = tried_of(text, CROWNS)
    assert found.prices == [((7, 1), 100_000_000), ((7, 2), 320), ((7, 3), 3_111_650)]
    assert found.missing == [(8, 1)] and found.carry == ["01.1.1.2-01"]
    assert tried_of("7/1=1,459", Money(1, "yen")).prices == [((7, 1), 1459)]
    assert tried_of("7/1=210", None).prices == [((7, 1), 210)]
    dinars = Money(1000, "dinars")
    assert tried_of("7/1=1.250\n7/2=1.000", dinars).prices == [((7, 1), 1250), ((7, 2), 1000)]
    assert tried_of("7/1=1,250", dinars, "\u202f").prices == [((7, 1), 1250)]
    with pytest.raises(Fault, match="can mean 1.25 or 1250"):
        tried_of("7/1=1,250", dinars)
    for price in ("1,459", "1.459"):
        with pytest.raises(Fault, match=f"7/1={price} can mean 1.459 or 1459. Write"):
            tried_of(f"7/1={price}", CROWNS)
    with pytest.raises(Fault, match="can mean 1.459 or 1459"):
        tried_of("7/1=1.459", Money(1, "yen"))
    with pytest.raises(Fault, match="2.10 can't be tried"):
        tried_of("7/1=2.10", None)
    with pytest.raises(Fault, match="Write what to try"):
        tried_of(" \n", CROWNS)
    assert len(tried_of(example(CROWNS), CROWNS).prices) == 1


@pytest.mark.parametrize(
    "text, numbers",
    [
        ("3.20", {Fraction(16, 5)}),
        ("3,2", {Fraction(16, 5)}),
        ("१२", {Fraction(12)}),
        ("1'234.50", {Fraction(2469, 2)}),
        ("12,34.5", set()),
        ("1,2,3", set()),
        ("1.234,567", {Fraction(1_234_567, 1000)}),
        ("1,234", {Fraction(1234), Fraction(1234, 1000)}),
        ("+3", set()),
        ("", set()),
        ("9" * 61, set()),
    ],
)
def test_numbers_are_read_in_one_way_or_not(text: str, numbers: set[Fraction]) -> None:
    assert numbers_in(text) == numbers


def test_an_amount_has_the_currency_s_digits_and_groups_of_three() -> None:
    assert [CROWNS.amount(it) for it in (31_116_000_000, 2_151_220, 50, 0)] == ["31,116.00", "2.15", "0.00", "0.00"]
    assert Money(1).amount(12_345_678_000) == "1,234,568" and Money(1000).amount(10_000) == "0.001"
    assert str(Price(210)) == "210" and f"{Ticks(210)}" == "210"

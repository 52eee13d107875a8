"""Prices as a collector types them: with the digits and marks of any keyboard, read rightly, asked, or refused."""

from __future__ import annotations

import json
import random
import sys
import unicodedata
from collections.abc import Iterator
from fractions import Fraction
from typing import Any, Optional, Union

import pytest

from .browser import Browser

MOST = 100_000_000

Wanted = Union[int, list[int], None]
"""A price that is read, readings of which one is asked for, or None if the text is no price."""


@pytest.fixture
def page(browser: Browser) -> Browser:
    """A page that can load the module."""
    browser.open("/")
    return browser


def reads(page: Browser, texts: list[str], minor_digits: int, currency: str = "") -> list[Wanted]:
    """What the page reads of each text."""
    found: list[Optional[dict[str, Any]]] = page.run_until(
        "const { read } = await import('/shared/money.js');"
        "const [texts, ...office] = arguments; return texts.map((text) => read(text, ...office));",
        texts,
        minor_digits,
        currency,
    )
    assert all(it is None or set(it) in ({"price"}, {"readings", "isRounded"}) for it in found)
    return [None if it is None else it["price"] if "price" in it else it["readings"] for it in found]


def check(page: Browser, table: dict[str, tuple[Wanted, Wanted, Wanted]], currency: str = "") -> None:
    """Whether each text is read as the table says for an office with 0, 2 and 3 minor digits."""
    for column, minor_digits in enumerate((0, 2, 3)):
        found = dict(zip(table, reads(page, list(table), minor_digits, currency)))
        assert found == {text: wanted[column] for text, wanted in table.items()}, minor_digits


PLAIN: dict[str, tuple[Wanted, Wanted, Wanted]] = {
    "3": (3, 300, 3000),
    " 3 ": (3, 300, 3000),
    "007": (7, 700, 7000),
    "3.5": (None, 350, 3500),
    "3,5": (None, 350, 3500),
    "3.50": (None, 350, 3500),
    "3,21": (None, 321, 3210),
    "0.01": (None, 1, 10),
    "0.001": (None, None, 1),
    "0,459": (None, None, 459),
    "012.345": (None, None, 12_345),
    ".99": (None, 99, 990),
    ",99": (None, 99, 990),
    ".9": (None, 90, 900),
    ".999": (None, None, 999),
    "1234.5": (None, 123_450, 1_234_500),
    "1234.567": (None, None, 1_234_567),
    "100000000": (100_000_000, None, None),
    "100000001": (None, None, None),
    "1000000": (1_000_000, 100_000_000, None),
    "1000000.01": (None, None, None),
    "100000": (100_000, 10_000_000, 100_000_000),
    "0000000321": (None, None, None),  # (more than nine digits are a bar code)
}
"""Without groups: a price of 3.50 is 350 with two minor digits and 3500 with three."""

GROUPED: dict[str, tuple[Wanted, Wanted, Wanted]] = {
    "1,459": (1459, [146, 145_900], [1459, 1_459_000]),
    "1.459": (1459, [146, 145_900], [1459, 1_459_000]),
    "12.500": (12_500, [1250, 1_250_000], [12_500, 12_500_000]),
    "999,999": (999_999, [100_000, 99_999_900], [999_999]),
    "1 459": (1459, 145_900, 1_459_000),
    "1\u00a0459": (1459, 145_900, 1_459_000),
    "1\u2009459": (1459, 145_900, 1_459_000),
    "1\u202f459": (1459, 145_900, 1_459_000),
    "1'459": (1459, 145_900, 1_459_000),
    "1\u2019459": (1459, 145_900, 1_459_000),
    "1,459.5": (None, 145_950, 1_459_500),
    "1.459,50": (None, 145_950, 1_459_500),
    "1 459,50": (None, 145_950, 1_459_500),
    "1\u2019459.50": (None, 145_950, 1_459_500),
    "1.459,500": (None, None, 1_459_500),
    "12,345.6": (None, 1_234_560, 12_345_600),
    "1,234,567": (1_234_567, None, None),
    "1,000,000": (1_000_000, 100_000_000, None),
    "1.000.000": (1_000_000, 100_000_000, None),
    "100,000,000": (100_000_000, None, None),
    "1,000\uff0c000": (1_000_000, 100_000_000, None),
    "999 999.99": (None, 99_999_999, None),
    "1,23,456": (123_456, 12_345_600, None),
    "1,23,456.50": (None, 12_345_650, None),
    "12,34,567": (1_234_567, None, None),
    "9 99 999,99": (None, 99_999_999, None),
    "10,00,00,000": (100_000_000, None, None),
}
"""With groups of three digits or India's. One point or comma before three digits is asked if there are minor digits; as a
decimal mark it may leave more digits than an office with two writes: the nearest price is 1.46, halves up."""

REFUSED = (
    "", " ", ".", "3.", "3,", "0", "0.00", "-3", "+3", "3 50", "3 5", "3-50", "1e3", "0x10", "three", "3.50.", "..5",
    "1,,234", "1, 234", "1,23", "12,34", "1234,567.5", "1,2345", "1,2345.50", "12,34.50", "1,23,45", "1,234,56",
    "123,45,678", "1,234 567", "1 234,567.8", "1.234.5", "1.234,567.8", "1,234.567,8", "0,459.50", "0,123,456", "0 459",
    "01,234.50", "1.234 567", "1/2", "5 %", "3.50 EUR", "\u20ac3", "\u00bd", "\u00b2", "\u4e09", "\u2460", "\u216b",
    "1\u3002459", "1\u00b7459", "3\n4", "1\u3000459", "1_459",
)  # fmt: skip
"""Texts that are no price with 0, 2 or 3 minor digits; two of them are one with decimals (`FEW`)."""

FEW = {"1,23": (None, 123, 1230), "12,34": (None, 1234, 12_340)}


def test_figures_without_groups(page: Browser) -> None:
    check(page, PLAIN)


def test_figures_with_groups(page: Browser) -> None:
    check(page, GROUPED)


def test_what_is_no_price(page: Browser) -> None:
    check(page, {text: FEW.get(text, (None, None, None)) for text in REFUSED})


ARABIC: dict[str, tuple[Wanted, Wanted, Wanted]] = {
    "\u0663": (3, 300, 3000),
    "\u0663\u066b\u0662\u0661": (None, 321, 3210),
    "\u066b\u0669\u0669": (None, 99, 990),
    "\u0663.\u0662\u0661": (None, 321, 3210),
    "\u0663\u060c\u0662\u0661": (None, 321, 3210),
    "\u0661\u066b\u0664\u0665\u0669": (None, None, 1459),
    "\u0661\u066c\u0664\u0665\u0669": (1459, 145_900, 1_459_000),
    "\u0661\u060c\u0664\u0665\u0669": (1459, [146, 145_900], [1459, 1_459_000]),
    "\u0661\u066c\u0664\u0665\u0669\u066b\u0665": (None, 145_950, 1_459_500),
    "\u0661\u060c\u0664\u0665\u0669.\u0665\u0660": (None, 145_950, 1_459_500),
    "\u06f1\u06f2\u06f3\u066b\u06f4\u06f5": (None, 12_345, 123_450),
    "\u200f\u0663\u066b\u0662\u0661\u200e": (None, 321, 3210),
    "\u202b\u0663\u202c\u066b\u2067\u0662\u2069\u061c\u0661": (None, 321, 3210),
    "\u0661\u066b\u0662\u066b\u0663": (None, None, None),
    "\u0661\u066b\u0662\u0663\u0664\u066b\u0665": (None, None, None),
    "\u0661\u066c\u0662": (None, None, None),
    "\u066c\u0661\u0662\u0663": (None, None, None),
    "\u0663\u066b": (None, None, None),
}
"""Arabic-Indic and Extended Arabic-Indic digits, the Arabic marks, and invisible marks of direction."""

OTHERS: dict[str, tuple[Wanted, Wanted, Wanted]] = {
    "\u0967,\u0968\u0969,\u096a\u096b\u096c.\u096d\u0966": (None, 12_345_670, None),  # Devanagari
    "\u09ef\u09ef.\u09ef\u09ef": (None, 9999, 99_990),  # Bengali
    "\u0e53\u0e52.\u0e51": (None, 3210, 32_100),  # Thai
    "\u1049,\u1040\u1041\u1042.\u1045\u1040": (None, 901_250, 9_012_500),  # Myanmar
    "\uff13\uff0e\uff12\uff11": (None, 321, 3210),  # full-width
    "\uff13\uff0c\uff12\uff11": (None, 321, 3210),
    "\uff11\uff0c\uff14\uff15\uff19": (1459, [146, 145_900], [1459, 1_459_000]),
    "\U0001d7cf\U0001d7d8\U0001d7ff": (109, 10_900, 109_000),  # three styles of mathematical digits side by side
    "1\u0662\u0e53.4\uff15": (None, 12_345, 123_450),
}
"""Digits of other scripts, and of several scripts in one figure."""


def test_figures_of_other_scripts(page: Browser) -> None:
    check(page, {**ARABIC, **OTHERS})


def test_each_decimal_digit_has_its_value(page: Browser) -> None:
    """Python's database of characters has each value as data; the page works it out."""
    digits = [one for one in map(chr, range(sys.maxunicode + 1)) if unicodedata.category(one) == "Nd"]
    assert len(digits) > 600
    assert reads(page, [f"1{one}" for one in digits], 0) == [10 + unicodedata.decimal(one) for one in digits]


CURRENCIES: dict[str, dict[str, tuple[Wanted, Wanted, Wanted]]] = {
    "EUR": {
        "EUR 3.50": (None, 350, 3500), "3.50EUR": (None, 350, 3500), "\u200e3\u00a0EUR\u200e": (3, 300, 3000),
        "1,459 EUR": (1459, [146, 145_900], [1459, 1_459_000]), "EUR .99": (None, 99, 990),
        "3.50 USD": (None, None, None), "EUR 3 EUR": (None, None, None), "3 EUR 50": (None, None, None),
        "EUR": (None, None, None), "3 EURO": (None, None, None), "-3 EUR": (None, None, None),
    },
    "kr.": {"12,50 kr.": (None, 1250, 12_500), "kr. 12": (12, 1200, 12_000), "12 kr": (None, None, None)},
    "$": {"$3.21": (None, 321, 3210), "$$3": (None, None, None)},
    "\u062f.\u0625.\u200f": {"\u0663\u066b\u0662\u0661\u00a0\u062f.\u0625.": (None, 321, 3210)},
}  # fmt: skip
"""Prices with the office's currency, by its text."""


@pytest.mark.parametrize("currency", CURRENCIES)
def test_the_currency_of_the_office_is_passed_over(page: Browser, currency: str) -> None:
    check(page, CURRENCIES[currency], currency)


def test_what_is_typed_is_read_for_the_office(page: Browser) -> None:
    """`typed` reads with the minor digits of web/config.js, which are two."""
    module = "const { typed } = await import('/shared/money.js'); return arguments[0].map(typed);"
    found = page.run_until(module, ["3.21", "1,459", "3.210", "1.005", "1.004"])
    assert found == [
        {"price": 321},
        {"readings": [146, 145_900], "isRounded": True},
        {"readings": [321, 321_000], "isRounded": False},
        {"readings": [101, 100_500], "isRounded": True},
        {"readings": [100, 100_400], "isRounded": True},
    ]


# ---- what others write

LOCALES = (
    "en", "de", "fr", "de-CH", "ar-EG", "fa-IR", "hi-IN-u-nu-deva", "bn-BD", "th-TH-u-nu-thai", "my-MM",
    "ja-JP-u-nu-fullwide",
)  # fmt: skip

PROPERTY = """
const { read } = await import('/shared/money.js');
const [prices, locales, minorDigits] = arguments;
const found = { silent: 0, asked: 0, bad: [] };
for (const locale of locales) {
  for (const useGrouping of [true, false]) {
    for (const minimumFractionDigits of new Set([0, minorDigits])) {
      const words = { useGrouping, minimumFractionDigits, maximumFractionDigits: minorDigits };
      const form = new Intl.NumberFormat(locale, words);
      for (const price of prices) {
        const text = form.format(`${price}e-${minorDigits}`);
        const answer = read(text, minorDigits);
        if (answer?.price === price) found.silent += 1;
        else if (answer?.readings?.includes(price)) found.asked += 1;
        else found.bad.push([locale, text, price, JSON.stringify(answer)]);
      }
    }
  }
}
return found;
"""


@pytest.mark.parametrize("minor_digits", [0, 2, 3])
def test_a_price_is_read_as_others_write_it(page: Browser, minor_digits: int) -> None:
    """Each price, as Chromium writes it in eleven languages, is read, or asked with that price among the readings."""
    chance = random.Random(20261127 + minor_digits)
    prices = [*range(1, 3001), *(MOST - count for count in range(100))]
    prices += [int(10 ** chance.uniform(0, 8)) for _ in range(900)]
    found = page.run_until(PROPERTY, prices, LOCALES, minor_digits)
    assert found["bad"] == []
    assert found["silent"] + found["asked"] == len(prices) * len(LOCALES) * 2 * (2 if minor_digits else 1)
    assert found["silent"] > found["asked"] and (found["asked"] > 0) == (minor_digits > 0)


# ---- the change from a last price


def rounded(price: int, last: int) -> int:
    """The change in tenths of a percent, by fractions, halves away from zero."""
    change = Fraction(1000 * (price - last), last)
    whole = (abs(change) + Fraction(1, 2)).__floor__()
    return whole if change > 0 else -whole


def pairs() -> Iterator[tuple[int, int]]:
    """Prices with last prices: limits, changes just below, at and above half a tenth, and any."""
    chance = random.Random(20261127)
    for last in (1, 3, 2000, 99_999_999, MOST):
        yield from ((price, last) for price in (1, 2, last, MOST - 1, MOST))
    for last in (2000, 4000, 66_666_000, MOST):
        for tenths in (0, 1, -1, 7, -999, 123):
            middle = last + (2 * tenths + 1) * last // 2000
            yield from ((price, last) for price in (middle - 1, middle, middle + 1) if 1 <= price <= MOST)
    for _ in range(2000):
        yield int(10 ** chance.uniform(0, 8)), int(10 ** chance.uniform(0, 8))


def test_the_change_is_a_whole_number_of_tenths(page: Browser) -> None:
    given = list(pairs())
    module = "const { changeOf } = await import('/shared/money.js'); return JSON.stringify(arguments[0].map("
    module += "([price, last]) => Object.is(changeOf(price, last), -0) ? '-0' : changeOf(price, last)));"
    found = json.loads(page.run_until(module, given))
    assert found == [rounded(price, last) for price, last in given]
    by_hand = {(2001, 2000): 1, (1999, 2000): -1, (3, 2): 500, (2, 3): -333, (MOST, 1): 99_999_999_000, (7, 7): 0}
    by_hand |= {(MOST - 49_999, MOST): 0, (MOST - 50_000, MOST): -1, (1, MOST): -1000, (2003, 2000): 2}
    assert page.run_until(module, list(by_hand)) == json.dumps(list(by_hand.values()), separators=(",", ":"))

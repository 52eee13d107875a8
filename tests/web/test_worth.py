"""Then and now: what an amount of one month comes to in another, over the office of three years, worked by hand."""

from __future__ import annotations

import pytest

from .browser import Browser
from .readable import faults_at_sizes
from .years import BREAD, FLOUR

PAGE = "/published/then-and-now.html"


def opened(browser: Browser, search: str = "") -> None:
    browser.open(f"{PAGE}{search}")
    browser.wait(lambda: browser.text("#value") or browser.text("#fault"), "a result")


def said(browser: Browser, selector: str) -> str:
    return browser.text(selector).replace("\u202f", " ")


def typed(browser: Browser, text: str) -> None:
    browser.run(
        "const field = document.getElementById('amount'); field.value = arguments[0];"
        "field.dispatchEvent(new Event('input', { bubbles: true }));",
        text,
    )


def test_an_amount_of_then_is_one_of_now_in_one_sentence(years: Browser) -> None:
    """1000 * 121.847 / 116.6 = 1045; bread: 1000.50 * 126 / 120 = 1050.525, halves upwards 1050.53."""
    opened(years, "?from=2012-01&to=2013-02")
    assert said(years, "#sentence") == (
        "What cost 1 000.00 in January 2012 costs 1 045.00 in February 2013, according to the index of All items (+4.5"
        " %)."
    )
    opened(years, f"?item={BREAD}&amount=1000.50&from=2012-01&to=2013-02")
    assert said(years, "#value") == "1 050.53" and "according to the index of Bread (+5.0 %)" in said(
        years, "#sentence"
    )
    assert not years.run("return document.querySelector('#result details').open")
    years.click("#result summary")
    assert said(years, "#formula") == "1 000.50 × 126.000000 / 120.000000 = 1 050.53"
    assert [*faults_at_sizes(years, ())] == []


def test_the_address_holds_the_choice(years: Browser) -> None:
    opened(years, "?from=2012-01&to=2013-02")
    typed(years, "2\u2019000,50")
    years.wait_text("#value", "2\u202f090.52")  # (2000.50 * 1.045 = 2090.5225)
    assert years.run("return location.search") == "?amount=2000.50&item=00&from=2012-01&to=2013-02"
    address = years.driver.current_url
    years.driver.get("about:blank")
    years.driver.get(address)
    years.wait_text("#value", "2\u202f090.52")


@pytest.mark.parametrize(
    ("search", "fault"),
    [
        ("?amount=x", "Write the amount in digits, such as 1000.00."),
        (f"?item={BREAD}&from=2011-01&to=2013-02", "Bread has no index for one of these months."),
        (
            f"?item={FLOUR}&from=2011-01&to=2013-02",
            "Flour left the index between these months and came back, so its indices can't be compared.",
        ),
    ],
)
def test_what_cant_be_computed_is_said(years: Browser, search: str, fault: str) -> None:
    opened(years, search)
    plain = years.text("#fault").replace("\u2068", "").replace("\u2069", "")
    assert plain == fault and not years.find("#result").is_displayed()


def test_a_month_that_isnt_there_is_said(years: Browser) -> None:
    opened(years, "?from=1999-01&to=2013-02")
    plain = years.text("#address-faults").replace("\u2068", "").replace("\u2069", "")
    assert plain.startswith("The address contains from=1999-01. The value has to be a month such as ")


def test_each_item_leads_to_it(years: Browser) -> None:
    years.open(f"/published/node/{BREAD}.html")
    years.click("a[href^='../then-and-now.html']")
    years.wait_text("#sentence", "Bread")
    assert years.faults() == []

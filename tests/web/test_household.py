"""My own inflation: what a household buys now by the index of each item, over the office of three years, worked by hand."""

from __future__ import annotations

from selenium.webdriver.common.action_chains import ActionChains
from selenium.webdriver.common.keys import Keys

from .browser import Browser
from .readable import faults_at_sizes, faults_for_keys
from .years import BREAD, FLOUR, RICE

PAGE = "/published/my-inflation.html"


def opened(browser: Browser, address: str = "") -> None:
    browser.driver.get("about:blank")
    browser.open(f"{PAGE}{address}")
    browser.wait_shown("#household")


def said(browser: Browser, selector: str) -> str:
    return browser.text(selector).replace("\u202f", " ")


def test_a_household_has_an_index_of_its_own(years: Browser) -> None:
    """Rice stands still, and bread is 126 after 120: 600 and 420 now were 600 and 420 * 120 / 126 = 400, a change of
    1020 / 1000. All items are 121.847 after 116.6."""
    opened(years, f"#spent={RICE}:600+{BREAD}:420&from=2012-12")
    years.wait_text("#value", "+2.0")
    assert said(years, "#sentence") == (
        "What you buy for 1 020.00 a month in February 2013 cost 1 000.00 in December 2012: a change of +2.0 %. "
        "The official index of all items changed by +4.5 %."
    )
    assert years.text("#meaning").startswith("Compared with what all households buy, your purchases became cheaper")
    years.run("document.querySelector('#picture svg').focus()")
    ActionChains(years.driver).send_keys(Keys.END).perform()  # type: ignore[no-untyped-call]
    years.wait_text("#readout", "February 2013: My household 102.0, All items 104.5")
    assert years.text("#unit") == "December 2012 = 100; the axis doesn't begin at zero"
    assert [*faults_at_sizes(years, ()), *faults_for_keys(years)] == []


def test_what_is_typed_is_in_the_address_and_sent_nowhere(years: Browser) -> None:
    opened(years, "#from=2012-12")
    years.type("#spent-01", "1\u2019000,50")
    years.wait_text("#value", "+4.5")
    assert years.text("#meaning") == "Your household’s prices changed as much as the index."
    address = years.run("return location.href")
    assert address.endswith("#spent=01%3A1000.50&from=2012-12")
    asked = years.run("return performance.getEntriesByType('resource').map(({ name }) => name)")
    assert asked and not [name for name in asked if "1000" in name or not name.startswith(years.url)]
    opened(years, address.partition(PAGE)[2])
    years.wait_text("#value", "+4.5")


def test_an_item_is_added_beside_its_division(years: Browser) -> None:
    opened(years, "#from=2012-12")
    years.choose("add", "01.1")
    years.wait_shown("#spent-01\\.1")
    years.type("#spent-01\\.1", "100")
    years.wait_text("#sentence", "What you buy for 100.00 a month")
    assert years.find("#spent-01\\.1").get_attribute("aria-invalid") == "false"


def test_what_cant_be_computed_is_said(years: Browser) -> None:
    opened(years, f"#spent={FLOUR}:10&from=2012-01")
    years.wait_text("#fault", "has no index for one of these months.")
    assert not years.find("#result").is_displayed()
    years.type("#spent-01", "many")
    years.wait_text("#fault", "Write the amount in digits, such as 250.")
    assert years.find("#spent-01").get_attribute("aria-invalid") == "true"

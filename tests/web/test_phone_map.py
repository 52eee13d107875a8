"""The link from a shop to the phone's map: only if the office has set one, and nothing is sent before it is touched."""

from __future__ import annotations

from collections.abc import Iterator

import pytest

from .languages import CONFIG, ENGLISH
from .offices import IMAGE
from .phone import Phone
from .readable import faults_of_page
from .stage import Stage

LINK = "#entry-map a"


@pytest.fixture(params=["geo:0,0?q={shop}", "https://maps.example/?q={shop}&z=17"])
def map_of_office(request: pytest.FixtureRequest, stage: Stage) -> Iterator[str]:
    """An office that has set a map."""
    yield from speaking(stage, request.param)


@pytest.fixture(params=["", "javascript:alert('{shop}')", "http://maps.example/{shop}", "maps.example/{shop}"])
def no_map(request: pytest.FixtureRequest, stage: Stage) -> Iterator[str]:
    """An office that has set none, or no address of a map."""
    yield from speaking(stage, request.param)


def speaking(stage: Stage, address: str) -> Iterator[str]:
    """The pages of an office that has set an address meanwhile."""
    config = CONFIG.format(**ENGLISH._asdict())
    stage.speaks(config.replace("\n});", f'\n  map: "{address}",\n}});') if address else config)
    yield address
    stage.front.stop()
    stage.front.start()


def test_the_form_leads_to_the_office_s_map(map_of_office: str, stage: Stage, phone: Phone) -> None:
    """The name of the shop is in the address, whatever is in it; the page asks nobody for it, and stays."""
    phone.sign_in()
    phone.edit(1)
    link = phone.browser.find(LINK)
    assert link.get_attribute("href") == map_of_office.replace("{shop}", "Corner%20shop")
    assert link.text == "Show this shop on a map" and link.get_attribute("rel") == "noreferrer"
    assert link.get_attribute("target") == ("" if map_of_office.startswith("geo:") else "_blank")
    assert [*faults_of_page(phone.browser)] == [] and "maps.example" not in stage.logs()
    asked = phone.browser.run("return performance.getEntriesByType('resource').map(({ name }) => name)")
    assert not [each for each in asked if not each.startswith(stage.url)]
    phone.close()
    phone.edit(3)
    shown = phone.browser.find(LINK).get_attribute("href")
    assert shown.startswith(map_of_office.partition("{")[0] + "%3Cimg%20src%3Dx") and "<" not in shown
    assert phone.browser.text("#entry-outlet") == IMAGE


def test_without_an_address_of_a_map_there_is_no_link(no_map: str, phone: Phone) -> None:
    phone.sign_in()
    phone.edit(1)
    assert not phone.browser.all(LINK) and not phone.browser.find("#entry-map").is_displayed()

"""The search in the head of each page of the website: it leads to the items, by words, by codes and past slips."""

from __future__ import annotations

import pytest

from .browser import Browser
from .years import BREAD

FOUND = {"braed": "Bread", "01.1.8": "Sugar", " flour ": "Flour"}
"""What is typed, and the title of an item that is found."""


@pytest.mark.parametrize("path", ["index.html", f"node/{BREAD}.html", "release/2012-01-r1.html", "nodes.html"])
def test_the_search_in_the_head_leads_to_what_is_found(years: Browser, path: str) -> None:
    for text, title in FOUND.items():
        years.open(f"/published/{path}")
        years.wait_shown("header form")
        years.type("#head-seek", f"{text}\ue007")
        years.wait(
            lambda: title in years.run("return document.querySelector('.tree li:not([hidden])')?.innerText ?? ''")
        )
        assert years.run("return location.pathname") == "/published/nodes.html"
        assert years.text("#found") != "" and years.faults() == []


def test_without_a_script_there_is_no_search_that_does_nothing(years: Browser) -> None:
    years.cdp("Emulation.setScriptExecutionDisabled", value=True)
    try:
        years.open("/published/index.html")
        source = years.driver.page_source
    finally:
        years.cdp("Emulation.setScriptExecutionDisabled", value=False)
    assert '<form role="search" data-to="nodes.html" hidden' in source

"""The sample, the year that comes and the website in a browser: by the keyboard, and on pages that can be read."""

from __future__ import annotations

from collections.abc import Sequence
from pathlib import Path

from cpi_tools.text.text_files import line_of
from lib import hostile
from lib.sample import Sample

from .browser import Browser
from .desk_pages import DeskPages, Person
from .offices import ANNA, ARABIC, LEAVING, NOW
from .readable import faults_at_sizes, faults_of_page
from .stage import Stage
from .websites import CONFIG

KINDS = ("items", "outlets", "collectors", "assignments", "handovers", "calendar")

HOSTILE = (*(text.replace("\u2029", "") for text in (*hostile.HOSTILE, LEAVING)), ARABIC)
"""Names of outlets, each of which is a line of its own where it is pasted."""


def pasted(ada: Person, kind: str, *rows: str) -> None:
    """Pastes rows, and has them judged."""
    ada.open(f"/sample/{kind}")
    ada.reach("#pasted")
    ada.browser.type("#pasted", "\n".join(rows))
    ada.press("#paste button")


def test_rows_are_pasted_mended_and_sent_with_a_keyboard(
    stage: Stage, ada: Person, pages: DeskPages, browser: Browser
) -> None:
    """The slot of one assignment is taken by other content; the application is killed before that is mended."""
    pasted(ada, "outlets", "outlet;name", "70;Harbour, east", "71;Station")
    browser.wait_text("#waiting-rows", "Harbour, east")
    ada.press("form[action$='/outlets/send'] button")
    browser.wait_text(".told.good", "2 rows sent and accepted.")
    assert not browser.all("#waiting-rows")
    pasted(ada, "assignments", f"7,70,RICE,{NOW},2199-12", f"7,1,70,FLOUR,{NOW},2199-12")
    browser.wait_text("#waiting-rows tr.refused", "refused by 40")
    ada.press("form[action$='/assignments/send'] button")
    browser.wait_text(".told.good", "1 row sent and accepted.")
    pages.kill()
    pages.start()
    ada.sign_in("Ada")
    ada.open("/sample/assignments")
    ada.press("#waiting-rows .acts a")
    ada.reach("#slot")
    browser.run("arguments[0].value = ''", browser.all("#slot")[0])
    ada.press("#mend button")
    ada.press("form[action$='/assignments/send'] button")
    browser.wait_text(".told.good", "1 row sent and accepted.")
    work = stage.ask("GET", f"/api/work/{NOW}", ANNA).reply["work"]
    assert [row[2] for row in work].count("Harbour, east") == 2
    assert browser.faults() == []


def test_pages_can_be_read_and_no_text_is_more_than_text(ada: Person, browser: Browser, sample: Sample) -> None:
    pasted(ada, "outlets", *(line_of([number, text]) for number, text in enumerate(HOSTILE, 70)))
    ada.press("form[action$='/outlets/send'] button")
    pasted(ada, "outlets", *(line_of([10, text]) for text in HOSTILE))
    browser.wait_text("#waiting-rows", "refused by 40")
    pasted(ada, "assignments", "7,70,TEA,2011-03,2012-12", "7,999,TEA,2011-03,2012-12")
    kinds = sample.of([*KINDS], 2, "kinds of rows")
    assert faults_of([f"/sample/{kind}" for kind in kinds], ada, browser) == []


def faults_of(paths: Sequence[str], ada: Person, browser: Browser) -> list[str]:
    """What is wrong with some pages, wide and narrow, light and dark."""
    faults = list[str]()
    for path in paths:
        ada.open(path)
        faults += [f"{path}: {fault}" for fault in faults_at_sizes(browser, HOSTILE)]
        assert browser.driver.title != "owned"
    return faults


def test_a_draft_of_the_year_is_changed_judged_and_sent(stage: Stage, ada: Person, browser: Browser) -> None:
    """The titles of the plan have markup, and letters that run from the right."""
    ada.open("/year")
    ada.press("form[action$='/make'] button")
    browser.wait(lambda: "/year/2012/" in browser.driver.current_url, "the draft")
    browser.wait_text("#sum", "1,000,000, as they should.")
    ada.reach("input[name=weight]")
    asks = "const it = new Event('beforeunload', { cancelable: true }); dispatchEvent(it); return it.defaultPrevented;"
    assert not browser.run(asks)
    browser.run("document.querySelector('input[name=weight]').value = '590000'")
    assert browser.run(asks)
    ada.press("#weights button.main")
    browser.wait_text("#sum", "990,000, but should add up to 1,000,000.")
    ada.reach("#pasted")
    browser.type("#pasted", "01.1.1.1-01;590000\n01.1.1.2-01;410000")
    ada.press("#paste button")
    ada.press("form[action$='/check'] button")
    browser.wait_text("#checked", "These changes would be accepted")
    sheets = [f"/year/2012/?sheet={text}" for text in ("weights", "classification", "series", "few-series")]
    assert faults_of(["/year", *sheets], ada, browser) == []
    ada.open("/year/2012/")
    ada.press("form[action$='/send'] button")
    browser.wait_text(".told.good", "sent and accepted.")
    assert faults_of(["/calendar/2012", "/calendar"], ada, browser) == []


def test_the_website_is_published_and_a_sheet_printed(
    ada: Person, pages: DeskPages, browser: Browser, tmp_path: Path
) -> None:
    (tmp_path / "office.ini").write_text(CONFIG, encoding="utf-8")
    pages.kill()
    pages.more = ("--site", str(tmp_path / "public"), "--site-config", str(tmp_path / "office.ini"))
    pages.more += ("--phones", "https://prices.example")
    pages.start()
    ada.sign_in("Ada")
    ada.open("/publish")
    ada.press("form[action$='/publish/now'] button")
    browser.wait_text("#published", "February 2011, revision 2")
    assert (tmp_path / "public/release/2011-02-r2.html").is_file()
    assert faults_of(["/publish", "/sample/collectors"], ada, browser) == []
    ada.open("/sample/collectors")
    browser.type("#of", "7")
    browser.run("document.querySelector('form[action$=\"/sheet\"]').target = ''")
    ada.press("#sheet button")
    browser.wait_text(".key-typed", "aaaa")
    assert browser.all(".code svg") and faults_of_page(browser) == []

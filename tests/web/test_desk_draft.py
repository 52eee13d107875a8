"""The draft of a release at the desk: it can be read at the widths of a phone and of a desk, from the left and from the right,
and is marked above and below."""

from __future__ import annotations

from pathlib import Path

from .browser import Browser
from .desk_pages import Person, desk_pages
from .offices import ANNA, BENO
from .readable import faults_of_page
from .stage import Stage
from .test_desk_app import MONTH, priced

FAR = 9_999_999_000
CONFIG = "[office]\nagency = NSO\narea = XX\noffice = Office of prices\nlanguages = en, ar\n"

MARKED = "return [...document.querySelectorAll('main > .mark')].map((it) => it.textContent)"


def test_a_draft_is_readable_and_marked(stage: Stage, browser: Browser, tmp_path: Path) -> None:
    config = tmp_path / "office.ini"
    config.write_text(CONFIG, encoding="utf-8")
    words = ("--site", str(tmp_path / "public"), "--site-config", str(config))
    with desk_pages(stage, tmp_path, "", *words) as pages:
        ada = Person(browser, pages)
        ada.sign_in("Ada")
        ada.send(f"calendar,{MONTH},4000,{FAR},{FAR}")
        priced(stage, (ANNA, 1, 216), (ANNA, 2, 730), (BENO, 1, 272))
        ada.send(f"calendar,{MONTH},4000,5000,{FAR}")
        ada.open(f"/month/{MONTH}/release")
        ada.tried(MONTH)
        found = list[str]()
        for tag, mark in (("en", "Draft, under embargo until"), ("ar", "مسودة، محظور نشرها حتى")):
            ada.open(f"/month/{MONTH}/release?language={tag}")
            browser.wait_text("main", mark)
            marks = browser.run(MARKED)
            assert len(marks) == 2 and all(it.startswith(mark) for it in marks)
            for width in (360, 1280):
                browser.size(width, 900)
                found += [f"{tag} at {width}: {fault}" for fault in faults_of_page(browser)]
        assert found == []

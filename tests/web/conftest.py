"""What these tests share: one nginx and one Chromium, each fresh for each test."""

from __future__ import annotations

from collections.abc import Iterator
from pathlib import Path

import pytest

from lib.installing import fault_of

FAULT = fault_of("tests/web/setup.sh")
"""Why there are no tests here: what they need can't be installed."""

if not FAULT:
    from cpi_tools.office.program import Cpi

    from .browser import Browser
    from .desk_pages import DeskPages, Person, desk_pages
    from .languages import ARABIC, ENGLISH, Speech, spoken
    from .offices import lived
    from .phone import Phone
    from .pseudo import pages_with
    from .stage import Stage
    from .websites import published
    from .years import lived as lived_three_years


def pytest_ignore_collect() -> None:
    """One line says that no test can be read."""
    if FAULT:
        pytest.fail(FAULT, pytrace=False)


@pytest.fixture(scope="session")
def made(cpi: Cpi, tmp_path_factory: pytest.TempPathFactory) -> Path:
    """The file of the office; tests copy it, and none writes to it."""
    file = tmp_path_factory.mktemp("made") / "office.db"
    assert [reply for reply in cpi.replay(lived(), db=file) if "refused" in reply] == []
    return file


@pytest.fixture(scope="session")
def standing(cpi: Cpi, made: Path, tmp_path_factory: pytest.TempPathFactory) -> Iterator[Stage]:
    """The one nginx with what stands behind it."""
    stage = Stage(cpi, made, tmp_path_factory.mktemp("stage"))
    yield stage
    stage.close()


@pytest.fixture(scope="session")
def website(standing: Stage, tmp_path_factory: pytest.TempPathFactory) -> Path:
    """The website of the office; no test writes to it."""
    return published(standing.cpi, standing.made, tmp_path_factory.mktemp("website"))


@pytest.fixture
def stage(standing: Stage) -> Stage:
    """A fresh office behind the front."""
    standing.fresh()
    return standing


@pytest.fixture(scope="session")
def running(standing: Stage, tmp_path_factory: pytest.TempPathFactory) -> Iterator[Browser]:
    """The one Chromium."""
    browser = Browser(standing.url, standing.folder / "ca.crt", tmp_path_factory.mktemp("home"))
    yield browser
    browser.close()


@pytest.fixture
def browser(stage: Stage, running: Browser) -> Iterator[Browser]:
    """A Chromium that has kept nothing, before a fresh office. Its pages are closed before the next test's office is there,
    so that test counts no message of theirs."""
    if not running.is_fresh:
        running.fresh()
    running.is_fresh = False
    yield running
    running.fresh()


@pytest.fixture(params=["english", "arabic"])
def speech(request: pytest.FixtureRequest, stage: Stage) -> Iterator[Speech]:
    """An office whose pages are in English, and one whose pages are in Arabic, with Arabic digits."""
    if request.param == "english":
        yield ENGLISH
    else:
        with spoken(stage, ARABIC):
            yield ARABIC


@pytest.fixture(scope="session")
def of_years(cpi: Cpi, tmp_path_factory: pytest.TempPathFactory) -> Path:
    """The website of the office of three years."""
    folder = tmp_path_factory.mktemp("years")
    assert [reply for reply in cpi.replay([*lived_three_years()], db=folder / "years.db") if "refused" in reply] == []
    return published(cpi, folder / "years.db", folder)


@pytest.fixture
def years(browser: Browser, stage: Stage, of_years: Path) -> Browser:
    """A browser before the website of the office of three years."""
    stage.published.symlink_to(of_years)
    browser.size(1280, 800)
    return browser


@pytest.fixture
def pages(stage: Stage, tmp_path: Path) -> Iterator[DeskPages]:
    """The desk's application over a fresh office."""
    with desk_pages(stage, tmp_path) as pages:
        yield pages


@pytest.fixture
def ada(browser: Browser, pages: DeskPages) -> Person:
    """A person at the desk."""
    person = Person(browser, pages)
    person.sign_in("Ada")
    return person


@pytest.fixture
def phone(browser: Browser) -> Phone:
    """The page of a collector, at 360 pixels."""
    return Phone(browser)


@pytest.fixture(params=["ar", "el", "he"], ids=["arabic", "longer", "longer-from-the-right"])
def language(request: pytest.FixtureRequest, stage: Stage, tmp_path: Path) -> Iterator[str]:
    """Arabic, or a language that nobody speaks, which the office's pages speak meanwhile."""
    if request.param == "ar":
        with spoken(stage, ARABIC):
            yield "ar"
    else:
        with spoken(stage, Speech(request.param), pages_with(request.param, tmp_path)):
            yield str(request.param)


@pytest.fixture(params=["el", "he"], ids=["longer", "longer-from-the-right"])
def pseudo(request: pytest.FixtureRequest, stage: Stage, tmp_path: Path) -> Iterator[str]:
    """A language that nobody speaks, which the office's pages speak meanwhile."""
    web = pages_with(request.param, tmp_path)
    with spoken(stage, Speech(request.param), web):
        yield request.param

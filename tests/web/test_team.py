"""The page of supervisors in Chromium, at the widths of a phone and of a desk, and behind the front."""

from __future__ import annotations

import os
import re
from collections.abc import Iterator
from pathlib import Path

import pytest
from PIL import Image
from selenium.webdriver.common.keys import Keys

from .browser import Browser
from .desk_pages import PREFIX, DeskPages, Person, desk_pages
from .offices import ANNA, DESK
from .readable import CUT, faults_at_sizes, faults_enlarged, faults_of_page
from .stage import Answer, Stage
from .test_desk_app import FAR, MONTH, priced

ZOE, XENA = "1" * 32, "2" * 32
FORM = {"Content_Type": "application/x-www-form-urlencoded"}
PICTURES = os.environ.get("CPI_PICTURES")
"""A folder for pictures, if somebody wants to look."""


@pytest.fixture
def supervisors(tmp_path: Path) -> Path:
    """One of collector 7, and one of all, whose name runs from right to left."""
    file = tmp_path / "supervisors.csv"
    file.write_text(f"name,key,collectors\nZoë,{ZOE},7\nشيماء,{XENA},all\n", encoding="utf-8")
    file.chmod(0o600)
    return file


@pytest.fixture(params=["en", "ar"])
def pages(request: pytest.FixtureRequest, stage: Stage, supervisors: Path, tmp_path: Path) -> Iterator[DeskPages]:
    """The application over an office of two collectors, of whom one has sent two prices of four."""
    assert stage.ask("POST", "/api/import", DESK, f"calendar,{MONTH},4000,{FAR},{FAR}\n").status == 200
    priced(stage, (ANNA, 1, 216), (ANNA, 2, 730))
    words = ("--supervisors", str(supervisors), "--language", request.param, "--digits", "arab")
    with desk_pages(stage, tmp_path, "", *words) as application:
        yield application


def sign_in(person: Person, key: str) -> None:
    """Signs in with a supervisor's key, by the keyboard."""
    person.open("/team/")
    person.reach("#key")
    person.type(key, Keys.TAB)
    person.press("main form button")
    person.browser.wait(lambda: bool(person.browser.all("#collectors progress")), "the team")


def test_the_page_of_a_team_can_be_read(browser: Browser, pages: DeskPages) -> None:
    """Wide and narrow, light and dark, from right to left, by the keyboard, and with letters of twice the size."""
    person = Person(browser, pages)
    browser.size(360, 740)
    person.open("/team/sign-in")
    assert [*faults_of_page(browser), *browser.run(CUT)] == []
    sign_in(person, XENA)
    person.open(f"/team/{MONTH}/")
    order = browser.run("return [...document.querySelectorAll('#collectors progress')].map((one) => one.position)")
    assert order == [0, 0.5]
    for width in (360, 1280):
        browser.size(width, 900)
        if PICTURES:
            browser.picture(Path(PICTURES) / f"team-{browser.run('return document.documentElement.lang')}-{width}.png")
        assert [*faults_of_page(browser), *browser.run(CUT), *faults_enlarged(browser)] == []
    if browser.run("return document.dir") != "rtl":
        assert faults_at_sizes(browser, ["Zoë", "شيماء"]) == []


def test_a_meter_is_seen_without_colours(browser: Browser, pages: DeskPages, tmp_path: Path) -> None:
    """In the system's own two colours a meter keeps its edge, and the mark at the end of what is done: half of it,
    which has the other side free."""
    person = Person(browser, pages)
    sign_in(person, ZOE)
    person.open(f"/team/{MONTH}/")
    browser.cdp("Emulation.setEmulatedMedia", features=[{"name": "forced-colors", "value": "active"}])
    try:
        assert browser.run("return matchMedia('(forced-colors: active)').matches")
        browser.picture(tmp_path / "team.png")
    finally:
        browser.shown_as("light")
    inks = inks_of(browser, tmp_path / "team.png", "#collectors progress")
    assert inks[0] and inks[-1] and any(inks[len(inks) * 2 // 5 : len(inks) * 3 // 5])
    free = (
        inks[len(inks) * 3 // 5 : -3] if browser.run("return document.dir") != "rtl" else inks[3 : len(inks) * 2 // 5]
    )
    assert not any(free)


def inks_of(browser: Browser, picture: Path, selector: str) -> list[bool]:
    """Which pixels of a picture of the whole page are dark, along the middle of an element, from the left."""
    script = "const { left, top, width, height } = document.querySelector(arguments[0]).getBoundingClientRect();"
    left, top, width, height = browser.run(f"{script} return [left, top + scrollY, width, height]", selector)
    with Image.open(picture) as image:
        grey = image.convert("L")
        row = int(top + height / 2)
        return [grey.getpixel((x, row)) < 128 for x in range(round(left), round(left + width))]


# ---- behind the front


@pytest.fixture
def fronted(stage: Stage, supervisors: Path, tmp_path: Path) -> Iterator[DeskPages]:
    """The application behind the front, as CPI_DESK_FRONT sets it."""
    with desk_pages(stage, tmp_path, f"{stage.url}{PREFIX}/", "--supervisors", str(supervisors)) as application:
        yield application


def signed_in(stage: Stage, key: str) -> Answer:
    """The answer to a supervisor's key."""
    return stage.ask("POST", f"{PREFIX}/team/sign-in", body=f"key={key}", **FORM, Origin=stage.url)


def test_a_supervisor_comes_through_the_front(fronted: DeskPages, stage: Stage) -> None:
    assert stage.ask("GET", f"{PREFIX}/team").fields["Location"] == f"{PREFIX}/team/"
    assert stage.ask("GET", f"{PREFIX}/team/").fields["Location"] == f"{PREFIX}/team/sign-in"
    answer = signed_in(stage, ZOE)
    assert answer.status == 303 and answer.fields["Location"] == f"{PREFIX}/team/"
    cookie = answer.fields["Set-Cookie"]
    assert all(word in cookie for word in ("Secure", "HttpOnly", "SameSite=Strict", f"Path={PREFIX}/team/"))
    page = stage.ask("GET", f"{PREFIX}/team/", Cookie=cookie.partition(";")[0])
    assert page.status == 200 and b"Collector 7" in page.body and b"Collector 8" not in page.body
    assert f'href="{PREFIX}/team/style.css"'.encode() in page.body
    assert stage.ask("GET", f"{PREFIX}/team/style.css").status == 200
    assert stage.ask("GET", f"{PREFIX}/records", Cookie=cookie.partition(";")[0]).status == 302
    long = stage.ask("POST", f"{PREFIX}/team/sign-in", body="key=" + "x" * 5000, **FORM, Origin=stage.url)
    assert long.status == 413 and ZOE not in stage.logs()


def test_a_desk_for_the_office_s_network_may_let_supervisors_in(fronted: DeskPages, stage: Stage) -> None:
    for lets_in, status in ((False, 403), (True, 200)):
        stage.front.stop()
        stage.front.start(lambda text: limited(text, lets_in))  # (called at once)
        try:
            assert stage.ask("GET", f"{PREFIX}/sign-in").status == 403
            assert stage.ask("GET", f"{PREFIX}/team/sign-in").status == status
            for path in ("/team/../sign-in", "/team/%2e%2e/sign-in", "/team/..%2fsign-in", "//team/sign-in"):
                assert stage.ask("GET", PREFIX + path).status in (400, 403, 404), path
        finally:
            stage.front.stop()
    stage.front.start()


def limited(text: str, lets_in: bool) -> str:
    """The front's file for a network of others, with the line that lets supervisors in or without it."""
    changed, count = re.subn(r"# (allow 192\.0\.2\.0/24;|deny  all;)", r"\1", text)
    assert count == 2 and changed.count("# allow all;") == 1
    return changed.replace("# allow all;", "allow all;") if lets_in else changed

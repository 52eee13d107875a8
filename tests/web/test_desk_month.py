"""A month at the desk from an empty office, with a keyboard, while office and application are killed at each step."""

from __future__ import annotations

import contextlib
import datetime
import json
import threading
from collections.abc import Callable, Iterator
from pathlib import Path

import pytest
from selenium.common.exceptions import WebDriverException
from selenium.webdriver.common.keys import Keys

from cpi_tools.desk.records.desk_log import SENT, DeskLog
from lib.offices import RICE_AND_FLOUR

from .browser import Browser
from .desk_pages import PREFIX, DeskPages, Person, desk_pages
from .offices import ANNA, BENO
from .phone import Phone
from .stage import Stage

YEAR = datetime.date.today().year
DECEMBER, JANUARY = f"{YEAR - 1}-12", f"{YEAR}-01"
FAR = 9_999_999_000

SAMPLE = {
    "items": ("item;text;unit;low;high", "RICE;Rice, white;1 kg;-50 %;+100 %", "FLOUR;Flour, wheat;1 kg;-50 %;+100 %"),
    "outlets": ("outlet;name", "10;Corner shop", "11;Market hall"),
    "collectors": ("collector;key", f"7;{ANNA}", f"8;{BENO}"),
    "assignments": (
        "collector;slot;outlet;item;first;last",
        *(f"{who};{slot};{shop};{item};{DECEMBER};2199-12" for who, slot, shop, item in
          ((7, 1, 10, "RICE"), (7, 2, 10, "FLOUR"), (8, 1, 11, "RICE"), (8, 2, 11, "FLOUR"))),
    ),
}  # fmt: skip
"""What is pasted from a spreadsheet."""


@pytest.fixture
def pages(stage: Stage, tmp_path: Path) -> Iterator[DeskPages]:
    """The application behind the front over an empty office; its replies come through the relay, which can lose them."""
    stage.restore({})
    stage.stop_office()
    stage.db.unlink(missing_ok=True)
    stage.start_office()
    relay = f"http://127.0.0.1:{stage.front.place.office_port}"
    with desk_pages(stage, tmp_path, f"{stage.url}{PREFIX}/", "--office", relay) as pages:
        yield pages


class Desk:
    """Ada and Ben at the desk, whose office and application are killed while they send."""

    def __init__(self, stage: Stage, pages: DeskPages, browser: Browser):
        self.stage, self.pages, self.browser = stage, pages, browser
        self.at = Person(browser, pages)
        self.log = pages.folder / "room/desk.log"

    def sent(self) -> int:
        """How often something was sent, by the log."""
        return self.log.read_bytes().count(f'"{SENT}"'.encode()) if self.log.exists() else 0

    def cut_off(self, press: Callable[[], None], is_done: bool, name: str) -> None:
        """Sends something, and kills office and application before the reply: it is done by then or not. Whoever signs in
        next has it looked up."""
        before, thread = self.sent(), threading.Thread(target=pressed, args=(press,))
        if is_done:
            self.stage.relay.lose = 1
            self.stage.relay.paused.set()
            thread.start()
            assert self.stage.relay.lost.wait(60)
            self.pages.kill()
        else:
            with self.stage.standing_still():
                thread.start()
                self.browser.wait(lambda: self.sent() > before)
                self.pages.kill()
                self.stage.stop_office()
        self.stage.stop_office()
        self.stage.relay.paused.clear()
        thread.join()
        self.stage.relay.lost.clear()
        self.stage.start_office()
        self.pages.start()
        self.at.sign_in(name)
        self.at.open("/log")
        self.at.press("#waiting button")
        assert not self.browser.all("#waiting")
        told = "done: its reply was lost" if is_done else "not carried out: its reply was lost"
        self.browser.wait_text("main td:last-child", told)

    def paste(self, kind: str) -> None:
        """Pastes rows of the sample, and has them judged."""
        self.at.open(f"/sample/{kind}")
        self.at.reach("#pasted")
        self.browser.type("#pasted", "\n".join(SAMPLE[kind]))
        self.at.press("#paste button")
        assert not self.browser.all("tr.refused"), self.browser.text("main")

    def again(self, kind: str) -> None:
        """Has the rows judged again that weren't carried out. Those with keys are pasted again: a key is in the memory of
        the application only."""
        if kind != "collectors":
            self.at.press(f"form[action$='/{kind}/judge'] button")
            return
        self.browser.wait_text("#waiting-rows", "key")
        self.at.press("form[action$='/drop'] button")
        self.paste(kind)

    def send_pasted(self, kind: str) -> None:
        self.at.press(f"form[action$='/{kind}/send'] button")

    def plan(self) -> None:
        """Types the plan of the year, and has it judged."""
        self.at.open("/records")
        self.at.reach("#year")
        self.at.type(str(YEAR))
        self.browser.type("#plan-text", RICE_AND_FLOUR)
        self.at.press("#plan button")

    def window(self, month: str, opens: int, closes: int, publishes: int) -> None:
        """Sets the window of a month."""
        self.at.send(f"calendar,{month},{opens},{closes},{publishes}")

    def prepare(self, month: str) -> None:
        """Has the month tried, and prepares its freeze."""
        self.at.open(f"/month/{month}/freeze")
        self.at.tried(month)
        self.at.press("form[action$='/prepare'] button")
        self.browser.wait_text("#prepared", "The record itself")
        assert not self.browser.all("form[action$='/confirm']")

    def to_confirm(self, month: str, name: str) -> None:
        """Another person is before the freeze that is prepared."""
        self.at.sign_in(name)
        self.at.open(f"/month/{month}/freeze")
        self.at.tried(month)
        self.browser.wait_text("#prepared", "Confirm, and freeze the month")

    def confirm(self) -> None:
        self.at.press("form[action$='/confirm'] button")


def pressed(press: Callable[[], None]) -> None:
    """Presses a button whose answer may be that of the front, or none."""
    with contextlib.suppress(WebDriverException):
        press()


@pytest.fixture
def desk(stage: Stage, pages: DeskPages, browser: Browser) -> Desk:
    browser.size(1280, 900)
    desk = Desk(stage, pages, browser)
    desk.at.sign_in("Ada")
    return desk


def priced(desk: Desk, key: str, *prices: tuple[int, str], asks: int = 0) -> None:
    """A collector's phone, which has nothing of another's, sends prices; `asks` is the slot that the page asks about."""
    cookie = f"cpi_desk={desk.browser.driver.get_cookie('cpi_desk')['value']}"
    windows = desk.stage.ask("GET", f"{PREFIX}/calendar/calendar.json", Cookie=cookie).body.decode()
    desk.stage.calendar.write_text(windows, encoding="utf-8")
    assert json.loads(windows)["months"][-1]["closes"] == FAR
    desk.browser.fresh()
    phone = Phone(desk.browser)
    phone.open()
    desk.browser.wait_shown("#sign-in")
    phone.give_key(key)
    desk.browser.wait_text("#line", "All sent")
    phone.show("all")
    desk.browser.wait(lambda: desk.browser.all("[data-slot]"), "a work list")
    for slot, price in prices:
        phone.enter(slot, price)
        if slot == asks:
            phone.confirm()
        phone.wait_told(slot, "Stored")
    desk.browser.fresh()
    desk.browser.size(1280, 900)


def table(stage: Stage, month: str, revision: str = "") -> list[str]:
    """The rows of a published table, as everybody reads it."""
    answer = stage.ask("GET", f"/api/table/{month}/csv{revision}")
    assert answer.status == 200, answer
    return answer.body.decode().splitlines()


def registered(desk: Desk) -> None:
    """Sample and plan by hand, cut off at each step; nothing is there twice."""
    desk.at.open("/")
    desk.browser.wait_text("main", "no calendar yet")
    for number, kind in enumerate(SAMPLE):
        desk.paste(kind)
        is_done = bool(number % 2)
        desk.cut_off(lambda kind=kind: desk.send_pasted(kind), is_done, "Ada")  # type: ignore[misc]
        desk.at.open(f"/sample/{kind}")
        if not is_done:
            desk.again(kind)
            desk.send_pasted(kind)
        desk.at.open(f"/sample/{kind}")
        assert not desk.browser.all("#waiting-rows"), desk.browser.text("main")
        rows = len(SAMPLE[kind]) - 1
        desk.browser.wait_text("#registered .count", str(rows))
    desk.plan()
    desk.cut_off(lambda: desk.at.press("form[action$='/records/send'] button"), True, "Ada")


def test_a_month_from_an_empty_office_to_its_revision(desk: Desk, stage: Stage, browser: Browser) -> None:
    """Rice: (210 + 252) / (200 + 240) = 1.05. Flour: 100, where 490 was meant, and 505, of 500 and 510: 605 / 1010 =
    0.5990099, in the revision 995 / 1010 = 0.98514851. All items, 0.6 of the one and 0.4 of the other: 86.960396, and
    102.405940 in the revision."""
    registered(desk)
    december_is_frozen(desk, browser)
    january_is_published(desk, stage, browser)
    january_is_revised(desk, stage, browser)


def december_is_frozen(desk: Desk, browser: Browser) -> None:
    """The month with which the year is compared."""
    desk.at.judge(f"calendar,{DECEMBER},1000,{FAR},{FAR}")
    desk.cut_off(lambda: desk.at.press("form[action$='/records/send'] button"), False, "Ada")
    desk.window(DECEMBER, 1000, FAR, FAR)
    priced(desk, ANNA, (1, "2.00"), (2, "5.00"))
    desk.at.sign_in("Ada")
    priced(desk, BENO, (1, "2.40"), (2, "5.10"))
    desk.at.sign_in("Ada")
    desk.window(DECEMBER, 1000, 2000, 2000)
    desk.prepare(DECEMBER)
    desk.to_confirm(DECEMBER, "Ben")
    desk.cut_off(desk.confirm, False, "Ben")
    desk.to_confirm(DECEMBER, "Ben")
    desk.confirm()
    browser.wait_text("h1", "is frozen, revision 1.")


def january_is_published(desk: Desk, stage: Stage, browser: Browser) -> None:
    """Its window, prices of two phones, and a price to look at; its moment has come, so it is out."""
    desk.window(JANUARY, 3000, FAR, FAR)
    priced(desk, ANNA, (1, "2.10"), (2, "1.00"), asks=2)
    desk.at.sign_in("Ada")
    priced(desk, BENO, (1, "2.52"), (2, "5.05"))
    desk.at.sign_in("Ada")
    desk.at.open("/")
    browser.wait_text("main", "The window closes")
    desk.window(JANUARY, 3000, 4000, 5000)
    looked_at(desk)
    desk.prepare(JANUARY)
    desk.to_confirm(JANUARY, "Ben")
    desk.cut_off(desk.confirm, True, "Ben")
    assert table(stage, JANUARY)[0].startswith("00,1000000,86.960396,")


def january_is_revised(desk: Desk, stage: Stage, browser: Browser) -> None:
    desk.window(JANUARY, 5000, FAR, FAR)
    priced(desk, ANNA, (2, "4.90"))
    desk.at.sign_in("Ben")
    desk.at.judge(f"calendar,{JANUARY},5000,6000,7000")
    desk.cut_off(lambda: desk.at.press("form[action$='/records/send'] button"), True, "Ben")
    desk.prepare(JANUARY)
    desk.to_confirm(JANUARY, "Ada")
    desk.confirm()
    browser.wait_text("h1", "is frozen, revision 2.")
    assert table(stage, JANUARY)[0].startswith("00,1000000,102.405940,")
    assert table(stage, JANUARY, "/1")[0].startswith("00,1000000,86.960396,")
    assert browser.faults() == []
    nothing_is_there_twice(desk, stage)


def looked_at(desk: Desk) -> None:
    """Ada sees the price that was confirmed against its tolerance, and writes a note at it."""
    desk.at.open(f"/month/{JANUARY}/looks")
    desk.at.tried(JANUARY)
    desk.browser.wait_text("main", "Flour, wheat")
    desk.at.reach("input[name=text]")
    desk.at.type("ask Anna: 4.90?", Keys.ENTER)
    desk.browser.wait_text(".desk-note", "ask Anna: 4.90?")
    desk.at.type(Keys.ESCAPE)
    for _ in desk.browser.all("tr.look"):
        desk.at.type("s")
    desk.browser.wait_text("main", "No prices are left to look at.")


def nothing_is_there_twice(desk: Desk, stage: Stage) -> None:
    """What the office was sent, of which it carried out each record once: the others never reached it, or were sent to an
    office that was killed before it read them."""
    desk.pages.kill()
    log = DeskLog(desk.log)
    try:
        assert log.open_entries() == []
    finally:
        log.close()
    tables = [[DECEMBER, 1, 2000], [JANUARY, 1, 5000], [JANUARY, 2, 7000]]
    assert stage.ask("GET", "/api/tables").reply["tables"] == tables
    assert stage.relay.rows(f"freeze,{JANUARY}") == 2

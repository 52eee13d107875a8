"""A collector's day: 350 prices in fourteen shops, by taps and keys, part of it without a line.

The collector of this test reads the form on the screen, shop and item, and answers for what is read there. So a price
that got into a wrong row would be another one than was found on that shelf.
"""

from __future__ import annotations

import random
import re
from collections.abc import Iterator
from typing import NamedTuple, Optional

import pytest

from .browser import Browser
from .languages import ENGLISH, Speech, Words
from .offices import BEFORE, DESK, NOBODY, NOW
from .phone import Phone
from .stage import Stage
from .test_wire import MOST
from .wire import Wire, through

SHOPS = (
    "Corner shop", "Market hall", "Market hall, upper floor", "سوق المدينة", "Bäckerei Müller", "Baker, 12 High Street",
    "Supermarket North", "Supermarket South", "किराना स्टोर", "Kiosk", "Petrol station", "Butcher", "Greengrocer", "Hardware",
)  # fmt: skip
ITEMS = (
    "Rice, long grain", "Rice, long grain, own brand", "Rice, round grain", "Flour, wheat", "Flour, rye", "Bread, white",
    "Bread, brown", "Milk, whole", "Milk, skimmed", "Butter", "Cheese, hard", "Cheese, soft", "Eggs", "Apples", "Pears",
    "Potatoes", "Onions", "Sugar", "Salt", "Tea", "Coffee, ground", "Water, still", "Juice, apple", "Beer", "شاي أخضر",
)  # fmt: skip
UNITS = ("1 kg", "500 g", "1 l", "6 pieces")

Shelf = tuple[str, str]
"""Shop and item, as the form has them."""


class Found(NamedTuple):
    """What is on a shelf: what is typed first, what becomes of it, and the mark and value that the office is to have."""

    typed: str
    mark: str
    value: int | str
    then: str = "saved"  # or "mended", "confirmed", "chosen"


def money(price: int) -> str:
    return f"{price // 100}.{price % 100:02}"


def in_digits(text: str, zero: int) -> str:
    """A figure in the digits of another script."""
    return "".join(chr(zero + int(each)) if each.isdigit() else each for each in text)


def in_arabic(text: str) -> str:
    """The same price as an Arabic keyboard writes it: digits, decimal mark, and comma."""
    return in_digits(text, 0x660).replace(".", "\u066b").replace("\uff0e", "\u066b").replace(",", "\u060c")


STYLES = (
    money,
    lambda price: money(price).replace(".", ","),
    lambda price: in_digits(money(price).replace(".", "\u066b"), 0x660),
    lambda price: in_digits(money(price), 0x966),
    lambda price: in_digits(money(price).replace(".", "\uff0e"), 0xFF10),
    lambda price: f"{price // 100:,}".replace(",", " ") + f",{price % 100:02}",
)
"""How keyboards write a price: with a point or a comma, in Arabic, Devanagari and full-width digits, in groups of three."""


def shelves() -> list[tuple[Shelf, int, int, Found]]:
    """Each shelf with its slot, last month's price, and what is found on it."""
    draw, shelves = random.Random(20261127), []
    for number in range(350):
        shelf = (SHOPS[number // 25], f"{ITEMS[number % 25]}, {UNITS[number % 4]}")
        last = draw.randrange(80, 1500) if number % 25 != 20 else draw.randrange(120_000, 180_000)
        shelves.append((shelf, number + 1, last, on_shelf(draw, last)))
    return shelves


def on_shelf(draw: random.Random, last: int) -> Found:
    """What is found where this was the last price; the tolerance is from 0.7 to 1.5 of it."""
    kind, near = draw.random(), round(last * draw.uniform(0.8, 1.4))
    if kind < 0.06:
        return Found("", "missing", draw.choice(("stock", "closed", "gone", "refused")))
    if kind < 0.10:
        return Found(money(near * 10), "price", near, "mended")
    if kind < 0.13:
        return Found(money(last * 2), "price", last * 2, "confirmed")
    if kind < 0.16:
        return Found(money(near), "comparable", near)
    if kind < 0.18:
        return Found(money(last * 3), "other", last * 3)
    if last > 100_000:
        whole = near // 100 * 100
        return Found(f"{whole // 100:,}", "price", whole, "chosen")
    return Found(draw.choice(STYLES)(near), "price", near)


DAY = shelves()


@pytest.fixture
def wire(stage: Stage) -> Iterator[Wire]:
    """The line of the phone."""
    with Wire(stage.port) as wire:
        yield wire


@pytest.fixture
def hand(browser: Browser, wire: Wire, stage: Stage, speech: Speech) -> Iterator[Hand]:
    """A collector with a phone, before the office with all of these shelves; in English, and in Arabic."""
    register(stage)
    with through(wire, browser):
        browser.size(360, 640)
        browser.cdp("Emulation.setTouchEmulationEnabled", enabled=True)
        try:
            yield Hand(browser, speech)
        finally:
            browser.cdp("Emulation.setTouchEmulationEnabled", enabled=False)


def register(stage: Stage) -> None:
    """A collector with a slot for each shelf, whose prices of last month are stored."""
    rows = [f"collector,9,{NOBODY}", f"calendar,{BEFORE},4000,9999999990,9999999999"]
    rows += [f'outlet,{90 + number},"{shop}"' for number, shop in enumerate(SHOPS)]
    named = {shelf[1]: f"I{at % 25}U{at % 4}" for at, (shelf, _, _, _) in enumerate(DAY)}
    rows += [
        f'item,{code},"{text.rpartition(", ")[0]}",{text.rpartition(", ")[2]},700,1500' for text, code in named.items()
    ]
    rows += [
        f"assign,9,{slot},{90 + SHOPS.index(shelf[0])},{named[shelf[1]]},2010-12,2199-12" for shelf, slot, _, _ in DAY
    ]
    assert stage.ask("POST", "/api/import", DESK, "\n".join(rows)).reply == {"rows": [{"done": True}] * len(rows)}
    lasts = "".join(f"quote,{slot},{BEFORE},price,{last}\n" for _, slot, last, _ in DAY)
    assert all("receipt" in row for row in stage.ask("POST", "/api/import", NOBODY, lasts).reply["rows"])


FORM = """
const it = document.getElementById("entry");
if (!it.open || !it.checkVisibility()) return null;
return [it.dataset.entry, document.querySelector("#entry-outlet bdi").innerText,
  [...document.querySelectorAll("#entry-item bdi")].map((it) => it.innerText).join(", "), document.getElementById("entry-saved").innerText,
  document.activeElement.id];
"""
"""What a collector sees of the form: whose it is, shop, item, what was saved last, and where the keyboard writes."""

PLACE = """
const element = typeof arguments[0] === "string" ? document.querySelector(arguments[0]) : arguments[0];
const box = element.getBoundingClientRect(), [x, y] = [box.x + box.width / 2, box.y + box.height / 2];
const top = document.elementFromPoint(x, y);
return top && (element === top || element.contains(top)) ? [x, y] : null;
"""
"""Where a finger touches an element, or none if something lies over it, or it is out of sight."""


class Hand:
    """A finger and a keyboard. Nothing is touched but what is seen, at the place where it is."""

    def __init__(self, browser: Browser, speech: Speech):
        self.browser, self.phone, self.speech = browser, Phone(browser), speech
        self.phone.speaks(speech)
        self.answers = {shelf: found for shelf, _, _, found in DAY}
        self.before: Optional[tuple[str, str]] = None  # item and value of the last save
        self.count = 0

    def tap(self, what: object) -> None:
        """Touches an element, scrolled to if it is out of sight."""
        place = self.browser.run(PLACE, what)
        if place is None:
            self.browser.run(
                "(typeof arguments[0] === 'string' ? document.querySelector(arguments[0]) : arguments[0])"
                ".scrollIntoView({ block: 'center' })",
                what,
            )
            place = self.browser.run(PLACE, what)
        assert place, what
        point = [{"x": place[0], "y": place[1]}]
        self.browser.cdp("Input.dispatchTouchEvent", type="touchStart", touchPoints=point)
        self.browser.cdp("Input.dispatchTouchEvent", type="touchEnd", touchPoints=[])

    def write(self, text: str) -> None:
        """Types, over what is chosen in the price."""
        assert self.browser.run("return document.activeElement.id") == "price"
        self.browser.run("document.activeElement.select()")
        for each in text if self.speech == ENGLISH else in_arabic(text):
            self.browser.cdp("Input.insertText", text=each)

    def form(self) -> Optional[list[str]]:
        form: Optional[list[str]] = self.browser.run(FORM)
        return form

    def open_next(self) -> None:
        """Goes to the next row that is to do, and opens it."""
        self.tap("#jump")
        self.tap(self.browser.driver.switch_to.active_element)
        self.browser.wait(self.form, "a form")

    def work(self, rows: int) -> None:
        """Answers for so many rows, each as the form on the screen asks; there is one more, or the form closes."""
        for _ in range(rows):
            seen = self.form()
            assert seen, f"no form after {self.count} rows"
            key, shop, item, saved, at = seen
            assert at == "price", f"the keyboard isn't at the price of {item}"
            if self.before and saved:
                begin, end = (
                    self.phone.said("{entered} saved: {item}").replace("{item}", self.before[0]).split("{entered}")
                )
                assert saved.startswith(begin) and saved.endswith(end), (saved, self.before)
                assert self.before[1] in saved, (saved, self.before)
            found = self.answers.pop((shop, item))
            self.answer(found)
            self.browser.wait(lambda before=key: (self.form() or [None])[0] != before, f"{item} is saved")
            name = item.rpartition(", ")[0]
            self.before = (name, self.speech.figure(money(found.value)) if isinstance(found.value, int) else "")
            self.count += 1

    def answer(self, found: Found) -> None:
        """Fills in the form and saves it."""
        if found.mark != "price":
            self.tap(f'#entry input[value="{found.mark}"][name="mark"]')
        if found.mark == "missing":
            self.tap(f'#entry input[value="{found.value}"][name="reason"]')
        else:
            if found.mark != "price":
                self.tap("#price")
            self.write(found.typed)
        self.tap("#entry-save")
        if found.then == "saved":
            return
        self.browser.wait(lambda: self.browser.text("#entry-refusal"), "a question")
        if found.then == "mended":
            self.write(money(found.value))
            self.tap("#entry-save")
        else:
            reading = f"#entry-refusal [data-reading='{found.value}']"
            self.tap("#entry-confirm" if found.then == "confirmed" else reading)


def progress(words: Words, stored: int) -> str:
    """What the list says of so many rows that are stored, up to its moment."""
    told = words.said("{stored} of {all} stored, as of {time}", stored=str(stored), all=str(len(DAY)))
    return told.partition("{time}")[0]


def messages(stage: Stage) -> list[str]:
    """What the front was asked by the phone: methods and paths, by its log."""
    return re.findall(r'"((?:GET|POST|PUT) [^"]+)"', stage.logs())


def work_without_line(hand: Hand) -> None:
    """There is no line for 60 prices, and in the midst of them the page is loaded anew."""
    browser = hand.browser
    browser.offline(True)
    hand.work(40)
    kept = int(re.findall(r"\d+", browser.text("#line"))[0])
    one, many = "Offline: {count} entry kept on this phone", "Offline: {count} entries kept on this phone"
    told = hand.phone.words.counted(one, many, kept)
    assert browser.text("#line") == told
    assert 40 <= kept <= 65  # (some were under way when the line began to hang)
    browser.driver.refresh()
    browser.wait_text("#line", told)
    hand.before = None
    hand.open_next()
    hand.work(20)
    browser.offline(False)


def test_a_day_of_350_prices(hand: Hand, wire: Wire, stage: Stage) -> None:
    browser, words = hand.browser, hand.phone.words
    before = len(messages(stage))
    browser.open(f"/collect/#key={NOBODY}&name=Noor%20B.")
    browser.wait_text("#progress", progress(words, 0))
    assert browser.text("#who") == "Noor B."
    browser.run_until("await navigator.serviceWorker.ready")
    browser.wait_text("#line", words.said("All sent"))
    hand.open_next()
    hand.work(120)
    # the line hangs in the cellar of a shop, and is cut
    wire.hang()
    hand.work(20)
    waiting = int(re.findall(r"\d+", browser.text("#line"))[0])
    assert browser.text("#line") == words.counted("{count} to be sent", "{count} to be sent", waiting)
    wire.cut()
    wire.go_on()
    work_without_line(hand)
    hand.work(150)
    assert hand.form() is None and not hand.answers
    browser.wait_text("#line", words.said("All sent"))
    browser.wait_text("#progress", progress(words, 350))
    assert not browser.find("#alarm").is_displayed()
    wanted = [[slot, NOW, shelf.mark, shelf.value] for _, slot, _, shelf in DAY]
    stored = stage.quotes(NOBODY)
    assert [row[:4] for row in stored] == wanted
    # (350 of last month, and one for each of these; none was given for a price that was stored twice)
    assert sorted(row[4] for row in stored) == list(range(351, 701))
    assert browser.faults() == []
    catalogue = 0 if hand.speech == ENGLISH else CATALOGUE
    costs_little(messages(stage)[before:], wire.counted().both - catalogue)


CATALOGUE = 8_000
"""The bytes of the catalogue of a language, as the front sends it, which come on top of the page's."""


def costs_little(asked: list[str], size: int) -> None:
    """The day's messages, and its bytes with those of the page, if each save had gone by itself, as it does when nobody is
    as fast as this test."""
    lists = [it for it in asked if "/api/" in it or "calendar.json" in it]
    together = len(DAY) - lists.count("POST /api/import")
    assert 0 <= together and len(lists) + together < 400, lists
    print(f"a day's bytes, with those of the page: {size + together * MOST}")
    assert size + together * MOST < 400_000, (size, together)

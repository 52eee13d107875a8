"""A walk over all that the page of collectors shows in another language, one step after the other."""

from __future__ import annotations

from pathlib import Path

from .noted import choose, unfold
from .offices import ANNA, BEFORE
from .phone import Phone
from .stage import Stage
from .unsent import CLOSED, act, desk
from .walks import Walk


def walk_over(phone: Phone, stage: Stage, walk: Walk) -> None:
    """From signing in to signing out."""
    sign_in(phone, walk)
    enter(phone, walk)
    find(phone, walk)
    not_stored(phone, stage, walk)
    take_out(phone, walk)


def save(phone: Phone, price: str) -> None:
    """Types a price into the form that is open, and saves it."""
    phone.browser.type("#price", price)
    phone.browser.click("#entry-save")


def is_line(phone: Phone, line: str) -> None:
    """Waits until the line to the office is `up` or `down`."""
    phone.browser.wait(lambda: phone.browser.run("return document.getElementById('line').dataset.line") == line, line)


def sign_in(phone: Phone, walk: Walk) -> None:
    """Signing in, a wrong key, the languages, and the list."""
    browser = phone.browser
    phone.open()
    browser.wait_shown("#sign-in")
    assert browser.run("return document.documentElement.dir") == ("ltr" if walk.language == "el" else "rtl")
    walk.look_at_form("sign-in")
    phone.give_key("x" * 32)
    walk.look("a key that is none")
    browser.click("#language")
    walk.look_at_form("languages")
    browser.click("#languages form > button")
    phone.give_key(ANNA)
    browser.wait(lambda: browser.all("[data-slot]"), "a work list")
    is_line(phone, "up")
    walk.look_at_form("list")
    browser.run("location.hash = 'key=none'")
    browser.wait_shown("#notice button")
    walk.look_at_form("a notice that stays")
    browser.click("#notice button")


def enter(phone: Phone, walk: Walk) -> None:
    """The form, with all that it says and asks, and the notice of a browser that may clear what it keeps."""
    browser = phone.browser
    phone.edit(3)
    walk.look("a form without a last price")
    save(phone, "1,459")
    browser.wait_shown("#entry-refusal")
    walk.look("a price that can be read in two ways")
    phone.close()
    phone.edit(2)
    walk.look_at_form("form")
    save(phone, "none")
    browser.wait(lambda: browser.text("#price-fault"), "a fault")
    walk.look("no price")
    save(phone, "99")
    browser.wait_shown("#entry-confirm")
    walk.look_at_form("second look")
    browser.click('#entry input[value="missing"]')
    walk.look_at_form("a reason")
    browser.click('#entry input[value="stock"]')
    browser.click("#entry-save")
    phone.wait_edited(3)
    walk.look("the next form, of another shop")
    phone.close()
    browser.wait_shown("#storage p")
    walk.look_at_form("a browser that may clear what it keeps")
    browser.click("#storage-read")
    browser.wait(lambda: not browser.find("#storage").is_displayed(), "a notice that was read")


def find(phone: Phone, walk: Walk) -> None:
    """What is stored, and what is found in the list."""
    browser = phone.browser
    phone.show("all")
    is_line(phone, "up")
    phone.edit(2)
    walk.look("a stored entry")
    phone.close()
    phone.search("Rice")
    walk.look("what is found")
    phone.search("\u03b6\u05d6")
    walk.look("what isn't found")
    browser.choose("search", "")


def not_stored(phone: Phone, stage: Stage, walk: Walk) -> None:
    """What was refused, without a line and with one."""
    browser = phone.browser
    phone.show("all")
    is_line(phone, "up")
    desk(stage, CLOSED)
    phone.edit(1)
    save(phone, "3.10")
    browser.wait_shown("#alarm")
    if phone.edited():
        phone.close()
    walk.look_at_form("refused")
    browser.click("#alarm")
    walk.look_at_form("unsent")
    act(phone, "open", 1)
    walk.look("a refused form")
    phone.close()
    act(phone, "drop", 1)
    walk.look_at_form("dropping")
    browser.click('#dropping [value="keep"]')
    without_line(phone, walk)


def without_line(phone: Phone, walk: Walk) -> None:
    """What waits, what is stored, and a month that the phone doesn't have."""
    browser = phone.browser
    browser.offline(True)
    phone.edit(4)
    save(phone, "1.05")
    is_line(phone, "down")
    if phone.edited():
        phone.close()
    walk.look("without a line")
    phone.show("quotes")
    walk.look("stored")
    browser.click("#month-before")
    browser.wait(lambda: phone.month() == BEFORE, "the month before")
    walk.look("a month that isn't on the phone")
    browser.click("#month-after")


EXPORTED = """
const made = [], create = URL.createObjectURL;
URL.createObjectURL = (blob) => { made.push(blob); return create.call(URL, blob); };
let name = "";
const click = HTMLAnchorElement.prototype.click;
HTMLAnchorElement.prototype.click = function () { name = this.download; };
document.querySelector("#leaving [data-do=save]").click();
Object.assign(URL, { createObjectURL: create });
HTMLAnchorElement.prototype.click = click;
return [name, await made[0].text()];
"""


def take_out(phone: Phone, walk: Walk) -> None:
    """The question of Sign out, and the file of what isn't stored."""
    browser = phone.browser
    browser.click("#leave")
    browser.wait_shown("#leaving")
    walk.look_at_form("leaving")
    name, text = browser.run_until(EXPORTED)
    assert name.endswith(".csv") and not name.startswith("not-stored")
    head, *rows = text.split("\r\n")
    assert head == "month,slot,outlet,item,unit,mark,value,confirmed,written,state" and len(rows) == 3
    for row in rows[:-1]:
        state = row.rpartition(",")[2]
        assert state and not any(each.isascii() and each.isalpha() for each in state), row


def walk_over_notes(phone: Phone, walk: Walk, photo: Path) -> None:
    """The note of a price, with a photograph, and what is said of one that isn't sent."""
    browser = phone.browser
    phone.open()
    browser.wait_shown("#sign-in")
    phone.give_key(ANNA)
    browser.wait(lambda: browser.all("[data-slot]"), "a work list")
    phone.edit(2)
    unfold(phone)
    browser.click('#entry input[value="comparable"]')
    walk.look_at_form("a note")
    browser.type("#note-brand", "\u0391")
    choose(phone, photo)
    walk.look_at_form("a note with a photograph")
    browser.offline(True)
    save(phone, "4.85")
    phone.wait_edited(3)
    phone.close()
    browser.wait_shown("#notes-left")
    walk.look_at_form("a note that isn't sent")
    browser.click("#notes-left [data-do=drop]")
    browser.wait_shown("#note-dropping")
    walk.look_at_form("dropping a note")
    browser.click("#note-keep")
    browser.offline(False)

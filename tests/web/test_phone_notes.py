"""Notes of the field on a collector's phone: they follow their prices to the desk, and none is lost on the way."""

from __future__ import annotations

from collections.abc import Iterator
from pathlib import Path

import pytest
from selenium.webdriver.common.keys import Keys

from .desk_pages import DeskPages, Person, desk_pages
from .languages import ARABIC
from lib.hostile import HOSTILE
from .noted import AGES, PLACE, at_the_desk, camera_file, choose, kept, sizes_of, takes_notes, unfold
from .offices import ANNA, BENO, DESK, NOBODY, NOW
from .phone import Phone
from .readable import faults_for_keys, faults_of_page, faults_of_texts
from .stage import Stage

NEXT = 10
"""The next receipt of Anna's."""

FILES_ARE_KEPT = """
const found = [];
for (const name of await caches.keys()) {
  for (const { url } of await (await caches.open(name)).keys()) if (/\\/notes?[a-z-]*\\.(js|css)$/.test(url)) found.push(url);
}
return found.length;
"""


@pytest.fixture
def pages(stage: Stage, tmp_path: Path) -> Iterator[DeskPages]:
    """The application of the desk, which takes notes, and a front that hands them to it."""
    with desk_pages(stage, tmp_path, "", "--field-notes", AGES) as pages, takes_notes(stage, pages):
        yield pages


@pytest.fixture
def noting(pages: DeskPages, phone: Phone) -> Phone:
    """A collector who is signed in on a phone of such an office, which has kept the page's files."""
    phone.sign_in()
    phone.browser.wait(lambda: phone.browser.run_until(FILES_ARE_KEPT) == 10, "the files of notes are kept")
    return phone


def note(phone: Phone, slot: int, price: str, text: str) -> None:
    """Saves a price with a note."""
    phone.edit(slot)
    unfold(phone)
    phone.browser.type("#note-text", text)
    phone.browser.type("#price", price)
    phone.save()


def is_seen(phone: Phone, selector: str) -> bool:
    """Whether an element is drawn: what a closed fold has isn't."""
    return bool(phone.browser.run("return document.querySelector(arguments[0]).checkVisibility()", selector))


def wait_sent(phone: Phone, stage: Stage, *texts: str) -> None:
    """Waits until the phone has sent all that it had, and the desk has these texts of Anna's."""
    phone.browser.wait_text("#line", "All sent")
    assert sorted(row[5] for row in at_the_desk(stage, ANNA)) == sorted(texts) and kept(phone) == []


# ---- off


def test_where_the_office_takes_none_the_page_has_no_trace_of_them(phone: Phone, stage: Stage) -> None:
    phone.sign_in()
    phone.edit(1)
    page = phone.browser.run("return document.documentElement.outerHTML")
    assert "note-" not in page and "notes" not in page
    names = phone.browser.run_until("return (await indexedDB.databases()).map(({ name }) => name).join()")
    assert names == "cpi-collect"
    assert "/note" not in stage.logs() and stage.ask("GET", f"/notes/{NOW}", ANNA).status == 502
    assert phone.browser.run_until(FILES_ARE_KEPT) == 0


# ---- with a line


def test_a_note_goes_to_the_desk_with_its_price(noting: Phone, stage: Stage, pages: DeskPages, tmp_path: Path) -> None:
    browser = noting.browser
    noting.edit(1)
    assert not is_seen(noting, "#note-text")
    unfold(noting)
    assert is_seen(noting, "#note-text") and not is_seen(noting, "#note-brand")
    browser.click('#entry input[value="other"][name="mark"]')
    for field, text in (("brand", "Sun"), ("quantity", "750 g"), ("text", "Behind the till\nlower shelf")):
        browser.type(f"#note-{field}", text)
    browser.click("#note-sale")
    choose(noting, camera_file(tmp_path))
    browser.type("#price", "3.21")
    noting.save()
    browser.wait_text("#line", "All sent")
    assert stage.quotes(ANNA) == [[1, NOW, "other", 321, NEXT]]
    assert at_the_desk(stage, ANNA) == [[1, NEXT, True, "Sun", "750 g", "Behind the till\nlower shelf", True]]
    photo = stage.ask("GET", f"/notes/{NOW}/photo/1", ANNA).body
    assert sizes_of(photo) == ("JPEG", (960, 1280), {}) and kept(noting) == []
    noting.edit(1)
    unfold(noting)
    browser.wait_text("#note-sent", "Sent: On sale · Sun · 750 g · Behind the till lower shelf · with a photograph")
    assert browser.find("#note-text").get_attribute("value") == "" and browser.faults() == []


def test_others_are_handed_nothing_of_it_through_the_front(noting: Phone, stage: Stage) -> None:
    note(noting, 1, "3.21", "Behind the till")
    wait_sent(noting, stage, "Behind the till")
    for path in (f"/notes/{NOW}", f"/notes/{NOW}/photo/1"):
        answers = [stage.ask("GET", path, key) for key in (BENO, NOBODY, DESK, None)]
        assert b"till" not in b"".join(answer.body for answer in answers)
        assert [answer.status for answer in answers[1:]] == [401, 403, 401]
    assert at_the_desk(stage, BENO) == [] and ANNA not in stage.logs()
    assert stage.ask("GET", f"/notes/{NOW}?a", ANNA).status == 404
    assert stage.ask("GET", "/notes/month/2026-01/field-notes", ANNA).status == 404


# ---- without one


def test_without_a_line_it_is_kept_with_its_price_and_sent_once(noting: Phone, stage: Stage, tmp_path: Path) -> None:
    browser = noting.browser
    browser.offline(True)
    noting.edit(1)
    unfold(noting)
    browser.type("#note-text", "Behind the till")
    choose(noting, camera_file(tmp_path))
    browser.type("#price", "3.21")
    noting.save()
    browser.wait_text(
        "#notes-left", "The note will be sent once the office has stored the price that the note is about."
    )
    browser.driver.refresh()
    browser.wait_text("#line", "Offline: 1 entry kept on this phone · 1 note to be sent")
    browser.wait_text("#notes-left", "Rice, white, 1 kg: 3.21")
    (found,) = kept(noting)
    photo = bytes(found["photo"])
    assert sizes_of(photo) == ("JPEG", (960, 1280), {}) and PLACE.encode() not in photo
    noting.edit(1)
    assert browser.find("#note-text").get_attribute("value") == "Behind the till"
    browser.wait_shown("#note-picture")
    noting.close()
    browser.offline(False)
    wait_sent(noting, stage, "Behind the till")
    assert not browser.find("#notes-left").is_displayed() and browser.faults() == []


def test_while_the_desk_s_machine_is_away_the_price_is_stored_and_the_note_waits(
    noting: Phone, stage: Stage, pages: DeskPages
) -> None:
    pages.kill()
    note(noting, 1, "3.21", "Behind the till")
    noting.browser.wait_text("#notes-left", "The desk’s machine is busy. The note will be sent automatically.")
    noting.browser.wait_text("#line", "1 note to be sent")
    assert stage.quotes(ANNA) == [[1, NOW, "price", 321, NEXT]]
    assert "All sent" not in noting.browser.text("#line")
    pages.start()
    noting.send()
    wait_sent(noting, stage, "Behind the till")


LOST = """
const own = window.fetch;
window.lost = 0;
window.fetch = async (address, words = {}) => {
  const answer = await own(address, words);
  if (String(address).startsWith("/notes/") && words.method === "POST" && window.lost++ < 1) throw new TypeError("lost");
  return answer;
};
"""


def test_a_note_whose_answer_was_lost_is_sent_again_and_kept_once(noting: Phone, stage: Stage) -> None:
    noting.browser.run(LOST)
    note(noting, 1, "3.21", "Behind the till")
    noting.browser.wait_text("#line", "All sent")
    wait_sent(noting, stage, "Behind the till")
    assert noting.browser.run("return window.lost") == 2


# ---- its price has changed


def test_a_note_of_a_price_that_is_another_by_now_asks_its_collector(
    noting: Phone, stage: Stage, pages: DeskPages
) -> None:
    browser = noting.browser
    pages.kill()
    note(noting, 1, "3.21", "Behind the till")
    browser.wait_text("#line", "1 note to be sent")
    assert "receipt" in stage.ask("PUT", f"/api/quote/1/{NOW}", ANNA, "price,322").reply
    noting.update()
    browser.click("#send")
    browser.wait_text("#notes-left", "The office’s price has changed since you wrote this note.")
    browser.wait_text("#alarm", "1 note to check")
    pages.start()
    browser.click("#alarm")
    assert browser.run("return document.activeElement.id") == "notes-left-title"
    browser.click("#notes-left [data-do=open]")
    assert browser.find("#note-text").get_attribute("value") == "Behind the till"
    browser.click("#entry-save")
    browser.wait(lambda: noting.edited() is None, "the form is closed")
    wait_sent(noting, stage, "Behind the till")
    assert at_the_desk(stage, ANNA)[0][:2] == [1, NEXT + 1]


REFUSING = """
const own = window.fetch;
window.fetch = async (address, words = {}) => (String(address).startsWith("/notes/")
  ? new Response('{"fault":"picture"}', { status: 400, headers: { "Content-Type": "application/json" } })
  : own(address, words));
"""


def test_a_note_that_is_refused_stays_until_its_collector_drops_it(noting: Phone, stage: Stage) -> None:
    browser = noting.browser
    browser.run(REFUSING)
    note(noting, 1, "3.21", "Behind the till")
    browser.wait_text("#alarm", "1 note to check")
    browser.wait_text("#notes-left", "The photograph can’t be read. Open the note and take another photograph.")
    browser.driver.refresh()
    browser.wait_text("#alarm", "1 note to check")
    noting.send()
    browser.click("#notes-left [data-do=drop]")
    browser.wait_text("#note-dropping-text", "Behind the till. The desk doesn’t have it")
    browser.click("#note-keep")
    assert len(kept(noting)) == 1
    browser.click("#notes-left [data-do=drop]")
    browser.click("#note-gone")
    browser.wait_text("#line", "All sent")
    assert kept(noting) == [] and at_the_desk(stage, ANNA) == []


# ---- the form


def test_what_was_written_and_not_saved_is_there_again(noting: Phone, stage: Stage, tmp_path: Path) -> None:
    browser = noting.browser
    noting.edit(1)
    unfold(noting)
    browser.type("#note-text", "Behind the till")
    choose(noting, camera_file(tmp_path))
    noting.close()
    noting.wait_told(1, "Typed, not saved")
    noting.edit(2)
    assert not browser.run("return document.getElementById('note').open") and kept(noting) == []
    unfold(noting)
    assert browser.find("#note-text").get_attribute("value") == ""
    assert not browser.find("#note-picture").is_displayed()
    noting.close()
    noting.edit(1)
    assert browser.find("#note-text").get_attribute("value") == "Behind the till"
    browser.wait_shown("#note-picture")
    browser.click("#note-drop")
    assert not browser.find("#note-picture").is_displayed()
    browser.type("#price", "3.21")
    noting.save()
    wait_sent(noting, stage, "Behind the till")
    assert not at_the_desk(stage, ANNA)[0][6]


def test_a_file_that_is_no_picture_is_told_and_the_rest_goes_on(noting: Phone, stage: Stage, tmp_path: Path) -> None:
    wrong = tmp_path / "letter.jpg"
    wrong.write_bytes(b"%PDF-1.4 no picture")
    noting.edit(1)
    unfold(noting)
    noting.browser.find("#note-photo").send_keys(str(wrong))
    noting.browser.wait_text("#note-fault", "This file can’t be read as a picture. Choose a photograph.")
    noting.browser.type("#note-text", "Behind the till")
    noting.browser.type("#price", "3.21")
    noting.save()
    wait_sent(noting, stage, "Behind the till")


SLOW = """
const own = window.createImageBitmap;
window.createImageBitmap = async (...words) => {
  await new Promise((end) => setTimeout(end, 1500));
  return own(...words);
};
"""


def test_a_save_waits_until_the_photograph_is_drawn(noting: Phone, stage: Stage, tmp_path: Path) -> None:
    browser = noting.browser
    browser.run(SLOW)
    wrong = tmp_path / "letter.jpg"
    wrong.write_bytes(b"%PDF-1.4 no picture")
    noting.edit(1)
    unfold(noting)
    browser.find("#note-photo").send_keys(str(wrong))
    browser.type("#price", "3.21")
    browser.click("#entry-save")
    browser.wait_text("#note-fault", "This file can’t be read as a picture. Choose a photograph.")
    assert noting.edited() == f"{NOW}/1" and browser.find("#price").get_attribute("value") == "3.21"
    assert stage.quotes(ANNA) == []
    browser.find("#note-photo").send_keys(str(camera_file(tmp_path)))
    noting.save()
    browser.wait_text("#line", "All sent")
    assert at_the_desk(stage, ANNA) == [[1, NEXT, False, "", "", "", True]]


def test_a_price_without_a_note_sends_none_and_a_note_that_is_emptied_is_gone(
    noting: Phone, stage: Stage, pages: DeskPages
) -> None:
    noting.enter(2, "4.90")
    noting.browser.wait_text("#line", "All sent")
    assert "POST /notes" not in stage.logs()
    pages.kill()
    note(noting, 1, "3.21", "Behind the till")
    noting.browser.wait_text("#line", "1 note to be sent")
    noting.show("all")
    noting.edit(1)
    noting.browser.type("#note-text", " ")
    noting.save()
    noting.browser.wait_text("#line", "All sent")
    assert kept(noting) == []


# ---- whose they are


def test_signing_out_asks_and_leaves_nothing_to_the_next_collector(noting: Phone, pages: DeskPages) -> None:
    browser = noting.browser
    pages.kill()
    note(noting, 1, "3.21", "Behind the till")
    browser.wait_text("#line", "1 note to be sent")
    browser.click("#leave")
    browser.wait_text("#leaving-text", "1 note on this phone hasn’t been sent to the desk. Signing out deletes it.")
    browser.click("#leaving button[value=stay]")
    assert len(kept(noting)) == 1
    browser.click("#leave")
    assert browser.text("#leaving-go") == "Delete and sign out"
    browser.click("#leaving-go")
    browser.wait_shown("#sign-in")
    assert kept(noting) == [] and "till" not in browser.run("return document.documentElement.outerHTML")
    noting.give_key(BENO)
    browser.wait(lambda: browser.all("[data-slot]"), "a work list")
    noting.edit(1)
    unfold(noting)
    assert browser.find("#note-text").get_attribute("value") == ""


# ---- texts of others


def test_hostile_texts_run_no_script_on_the_phone_and_at_the_desk(
    noting: Phone, stage: Stage, pages: DeskPages
) -> None:
    browser = noting.browser
    browser.offline(True)
    noting.edit(1)
    unfold(noting)
    browser.click('#entry input[value="comparable"][name="mark"]')
    for field, text in (("brand", HOSTILE[0]), ("quantity", HOSTILE[2]), ("text", "\n".join(HOSTILE))):
        browser.run("document.getElementById(arguments[0]).value = arguments[1]", f"note-{field}", text[:500])
    browser.type("#price", "3.21")
    noting.save()
    browser.wait_text("#notes-left", "document.title=")
    assert faults_of_texts(browser, [HOSTILE[0], HOSTILE[2]]) == [] and "owned" not in browser.driver.title
    browser.offline(False)
    browser.wait_text("#line", "All sent")
    with_all = [
        stage.ask("POST", f"/notes/{NOW}/1", ANNA, f"receipt={NEXT}&text={quoted(it)}", **FORM) for it in HOSTILE
    ]
    assert [it.status for it in with_all] == [200] * len(HOSTILE)
    noting.edit(1)
    unfold(noting)
    browser.wait_text("#note-sent", "javascript:document.title")
    assert faults_of_texts(browser, HOSTILE) == [] and "owned" not in browser.driver.title
    ada = Person(browser, pages)
    ada.sign_in("Ada")
    ada.open(f"/month/{NOW}/field-notes")
    browser.wait_text("main", f"{len(HOSTILE) + 1} notes.")
    assert faults_of_texts(browser, HOSTILE) == [] and browser.driver.title.endswith(": field notes")
    assert not browser.all("main script, main img[src=x], main svg[onload]") and browser.faults() == []


FORM = {"Content_Type": "application/x-www-form-urlencoded"}


def quoted(text: str) -> str:
    return "".join(f"%{byte:02X}" for byte in text.encode())


# ---- how it looks


def test_it_can_be_read_and_reached_by_keys(noting: Phone, pages: DeskPages, tmp_path: Path) -> None:
    browser = noting.browser
    pages.kill()
    note(noting, 1, "3.21", "Behind the till")
    browser.wait_text("#line", "1 note to be sent")
    found = list[str]()
    for width in (360, 1280):
        browser.size(width, 740)
        for scheme in ("light", "dark"):
            browser.shown_as(scheme)
            found += [f"list at {width}, {scheme}: {fault}" for fault in faults_of_page(browser)]
    browser.size(360, 740)
    found += faults_for_keys(browser)
    noting.edit(2)
    unfold(noting)
    browser.click('#entry input[value="other"][name="mark"]')
    for scheme in ("light", "dark"):
        browser.shown_as(scheme)
        found += [f"form, {scheme}: {fault}" for fault in faults_of_page(browser)]
    found += faults_for_keys(browser)
    choose(noting, camera_file(tmp_path))
    found += [*faults_of_page(browser), *faults_for_keys(browser)]
    assert found == []


def test_it_speaks_the_office_s_language(stage: Stage, phone: Phone, tmp_path: Path) -> None:
    with desk_pages(stage, tmp_path, "", "--field-notes", AGES) as pages, takes_notes(stage, pages, ARABIC):
        phone.speaks(ARABIC)
        phone.sign_in()
        phone.edit(1)
        unfold(phone)
        for place, text in (("#note-title", "Note for the desk"), ("#note-photo-label", "Photograph")):
            assert phone.browser.text(place) == phone.said(text) != text
        assert faults_of_page(phone.browser) == []
        pages.kill()
        phone.browser.type("#note-text", "خلف الصندوق")
        phone.browser.type("#price", "3.21")
        phone.save()
        one, many = "{count} note to be sent", "{count} notes to be sent"
        phone.browser.wait_text("#line", phone.words.counted(one, many, 1))
        phone.browser.wait_text(
            "#notes-left", phone.said("The desk’s machine is busy. The note will be sent automatically.")
        )
        assert faults_of_page(phone.browser) == []


# ---- the desk


def test_the_desk_sees_a_note_with_its_photograph(
    noting: Phone, stage: Stage, pages: DeskPages, tmp_path: Path
) -> None:
    browser = noting.browser
    noting.edit(1)
    unfold(noting)
    browser.type("#note-text", "Behind the till")
    choose(noting, camera_file(tmp_path))
    browser.type("#price", "3.21")
    noting.save()
    wait_sent(noting, stage, "Behind the till")
    ada = Person(browser, pages)
    ada.sign_in("Ada")
    ada.open(f"/month/{NOW}/field-notes")
    browser.wait_text("main", "now stored: price 321")
    drawn = "const it = document.querySelector('.field-note img'); return it.complete && it.naturalWidth"
    browser.run("document.querySelector('.field-note img').loading = 'eager'")
    browser.wait(lambda: browser.run(drawn) == 960, "the photograph")
    found = list[str]()
    for width in (360, 1280):
        browser.size(width, 900)
        found += faults_of_page(browser)
    assert found + faults_for_keys(browser) == []
    browser.picture(tmp_path / "desk.png")
    ada.reach("details summary")
    ada.type(Keys.ENTER)
    ada.press("details button")
    browser.wait_text("main", "No notes for this month.")
    assert at_the_desk(stage, ANNA) == [] and browser.faults() == []

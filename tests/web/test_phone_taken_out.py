"""What the office hasn't stored can be taken out of a phone as a copy and as a file, also if the phone can't send it."""

from __future__ import annotations

import time
from pathlib import Path

from .offices import ANNA, NOW
from .phone import Phone
from .stage import Stage
from .unsent import CLOSED_TEXT, NEXT, desk, file_of, press_alarm, refused, rows_of, stored, wait_alarm

HEAD = ["month", "slot", "outlet", "item", "unit", "mark", "value", "confirmed", "written", "state"]


def test_what_isnt_stored_is_taken_out_as_a_copy_and_as_a_file(phone: Phone, stage: Stage, tmp_path: Path) -> None:
    """Texts with commas and quotes come out as they are."""
    outlet, item = 'The "Blue", by the river', 'Oil, "extra virgin"'
    twice = [text.replace('"', '""') for text in (outlet, item)]
    desk(stage, f'outlet,20,"{twice[0]}"', f'item,OIL,"{twice[1]}","1 l, glass",700,1500')
    desk(stage, "assign,7,5,20,OIL,2010-12,2199-12")
    refused(phone, stage, (5, "12.34"))
    phone.enter(2, mark="missing", reason="stock")
    wait_alarm(phone, "2 refused")
    press_alarm(phone)
    head, oil, flour = file_of(phone.browser, '#unsent [data-do="save"]', tmp_path)
    assert head == HEAD
    assert oil[:8] == [NOW, "5", outlet, item, "1 l, glass", "price", "1234", ""]
    assert flour[:8] == [NOW, "2", "Corner shop", "Flour, wheat", "1 kg", "missing", "stock", ""]
    assert oil[9] == flour[9] == CLOSED_TEXT
    assert abs(time.mktime(time.strptime(oil[8][:19], "%Y-%m-%dT%H:%M:%S")) - time.mktime(time.gmtime())) < 60
    assert copied(phone, "#unsent") == [head, oil, flour]


def copied(phone: Phone, where: str) -> list[list[str]]:
    """The rows that the button of a part of the page copies."""
    button = f'{where} [data-do="copy"]'
    phone.browser.cdp("Browser.grantPermissions", permissions=["clipboardReadWrite", "clipboardSanitizedWrite"])
    phone.browser.click(button)
    phone.browser.wait_text(button, "Copied")
    return rows_of(phone.browser.run_until("return navigator.clipboard.readText()"))


def waits(phone: Phone, why: str, tmp_path: Path) -> None:
    """The head and the list name what isn't taken; it stays on "Stay", and can be taken out as a file."""
    phone.browser.wait_text("#line", "Not accepted: 1 entry kept on this phone")
    assert phone.browser.text("#alarm") == "1 not accepted"
    assert "To be sent" in phone.told(1)
    press_alarm(phone)
    assert why in phone.browser.text("#unsent-list")
    phone.browser.click("#leave")
    assert "1 entry on this phone hasn’t been stored by the office" in phone.browser.text("#leaving")
    _, rice = file_of(phone.browser, '#leaving [data-do="save"]', tmp_path)
    assert rice[:7] == [NOW, "1", "Corner shop", "Rice, white", "1 kg", "price", "310"]
    assert rice[9].startswith(why)
    assert copied(phone, "#leaving")[1] == rice
    phone.browser.click('#leaving [value="stay"]')
    assert "To be sent" in phone.told(1)


def test_what_waits_behind_a_key_that_is_denied_can_be_taken_out(phone: Phone, stage: Stage, tmp_path: Path) -> None:
    phone.sign_in()
    stage.front.stop()
    stage.front.start(lambda text: text.replace("default 0;\n", f'default 0;\n"~*{ANNA}" 1;\n', 1))
    phone.enter(1, "3.10")
    phone.browser.wait_text("#notice", "This key isn’t registered")
    waits(phone, "This key isn’t registered. Check the key; if it is right, ask the desk.", tmp_path)
    stage.front.stop()
    stage.front.start()
    phone.send()
    phone.browser.wait_text("#line", "All sent")
    assert stored(stage) == [[1, 310, NEXT]]


def test_what_waits_for_an_office_without_room_can_be_taken_out(phone: Phone, stage: Stage, tmp_path: Path) -> None:
    """It refuses the whole of an import, and then the row."""
    phone.sign_in()
    for status, reply in (("503 Service Unavailable", '{"refused":90}'), ("200 OK", '{"rows":[{"refused":90}]}')):
        head = f"HTTP/1.1 {status}\r\nContent-Type: application/json\r\nContent-Length: {len(reply)}\r\n\r\n"
        stage.relay.answers_instead((head + reply).encode(), is_stored=False)
        if "To do" in phone.told(1):
            phone.enter(1, "3.10")
        phone.browser.wait_text("#notice", "Memory ran out, or the disk failed. Nothing was stored")
        waits(phone, "Memory ran out, or the disk failed. Nothing was stored; send it again.", tmp_path)
    stage.relay.answers()
    phone.browser.wait_text("#line", "All sent")
    assert stored(stage) == [[1, 310, NEXT]]

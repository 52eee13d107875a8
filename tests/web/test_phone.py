"""The page of a collector in Chromium, at 360 pixels, before the program behind the front: signing in, and entries."""

from __future__ import annotations

from .languages import ENGLISH, Speech
from .offices import ANNA, BENO, DESK, IMAGE, NOBODY, NOW, SCRIPT
from .phone import Phone
from .receipts import NEXT, stored
from .stage import Stage


# ---- signing in


def test_a_key_that_opens_nothing_is_told_in_words(phone: Phone) -> None:
    phone.open()
    phone.browser.wait_shown("#sign-in")
    for key, words in (
        ("abc", "32 characters"),
        (NOBODY, "This key isn’t registered"),
        (DESK, "doesn’t belong to a collector"),
    ):
        phone.give_key(key)
        phone.browser.wait_text("#key-fault", words)
    assert phone.browser.faults() == []


def test_a_key_may_be_typed_as_it_is_printed(phone: Phone) -> None:
    phone.open()
    phone.browser.wait_shown("#sign-in")
    phone.give_key("AAAA-AAAA " * 4)
    phone.browser.wait_text("#list", "Rice, white")


def test_a_key_that_the_front_denies_is_told_and_what_waits_stays(phone: Phone, stage: Stage) -> None:
    phone.sign_in()
    stage.front.stop()
    phone.enter(1, "3.10")
    phone.browser.wait_text("#line", "Offline: 1 entry kept on this phone")
    denied = f'"~*{ANNA}" 1;'
    stage.front.start(lambda text: text.replace("default 0;\n", f"default 0;\n{denied}\n", 1))
    for field in (f"CPI-Key {ANNA}", f"cpi-key  {ANNA}", f"\tCPI-Key {ANNA}", f"CPI-Key {ANNA}\t"):
        assert stage.ask("GET", f"/api/work/{NOW}", Authorization=field).status == 401, field
    assert stage.ask("GET", f"/api/work/{NOW}", BENO).status == 200
    phone.send()
    phone.browser.wait_text("#notice", "This key isn’t registered")
    assert "To be sent" in phone.told(1)
    assert stage.relay.rows("quote,") == 0
    stage.front.stop()
    stage.front.start()
    phone.send()
    phone.browser.wait_text("#line", "All sent")
    phone.browser.wait(lambda: phone.browser.text("#notice") == "", "the notice is gone")
    assert stored(stage, 1) == [("price", 310, NEXT)]


# ---- texts of others


def test_texts_of_the_office_are_shown_as_texts(phone: Phone) -> None:
    phone.sign_in()
    listed = phone.browser.run("return document.getElementById('list').textContent")
    assert SCRIPT in listed and IMAGE in listed
    phone.edit(3)
    assert SCRIPT in phone.browser.text("#entry")
    assert IMAGE in phone.browser.text("#entry")
    assert phone.browser.run("return document.title") == "Price collection"
    assert phone.browser.run("return document.querySelectorAll('img, body script').length") == 0
    assert phone.browser.faults() == []


SCRIPTS = (
    "const made = document.createElement('script'); made.textContent = 'window.owned = 1'; document.body.append(made)",
    "document.body.setAttribute('onclick', 'window.owned = 1'); document.body.click()",
    "const made = document.createElement('script'); made.src = 'https://example.org/x.js'; document.body.append(made)",
    "document.body.innerHTML = '<img src=x onerror=\"window.owned = 1\">'",
    "location = 'javascript:window.owned = 1'",
    "window.setTimeout('window.owned = 1')",
)


def test_the_policy_refuses_scripts_of_others(phone: Phone) -> None:
    phone.open()
    for script in SCRIPTS:
        tried = f"try {{ {script}; }} catch {{}} await new Promise((end) => setTimeout(end, 50));"
        assert phone.browser.run_until(f"{tried} return window.owned ?? 'refused'") == "refused", script
    assert phone.browser.run("return document.getElementById('sign-in') !== null")


def test_the_policy_lets_nothing_go_elsewhere(phone: Phone) -> None:
    phone.open()
    asked = "return fetch('https://example.org/').then(() => 'sent', () => 'refused');"
    assert phone.browser.run_until(asked) == "refused"
    assert any("Content Security Policy" in line for line in phone.browser.faults())


# ---- entries


def test_a_price_gets_its_receipt(phone: Phone, stage: Stage, speech: Speech) -> None:
    phone.speaks(speech)
    figure = speech.figure
    phone.sign_in()
    phone.enter(1, "3,21" if speech == ENGLISH else figure("3.21"))
    phone.show("all")
    phone.wait_receipt(1, NEXT)
    assert figure("3.21") in phone.told(1)
    assert stored(stage, 1) == [("price", 321, NEXT)]
    phone.show("quotes")
    assert phone.browser.text('[data-quote="1"]').split("\n")[0] == "Rice, white"
    assert f"{figure('3.21')}\t{figure(str(NEXT))}" in phone.browser.text('[data-quote="1"]')
    assert phone.browser.faults() == []


def test_what_is_no_price_is_told_and_not_sent(phone: Phone, stage: Stage) -> None:
    phone.sign_in()
    before = len(stage.relay.seen)
    phone.edit(1)
    for text in ("", "0", "3.2115", "1e3", "-3", "3.2.1", "1000000.01"):
        phone.browser.run("document.getElementById('price-fault').textContent = ''")
        phone.browser.type("#price", text)
        phone.browser.click("#entry-save")
        phone.browser.wait_text("#price-fault", "Type the price in digits, such as 2.10.")
    assert len(stage.relay.seen) == before


def test_last_price_and_bounds_are_shown_before_anything_is_sent(phone: Phone) -> None:
    phone.sign_in()
    phone.edit(2)
    assert phone.browser.text("#entry-last") == "Last price 4.80. Usual range: 3.36 to 7.20."
    phone.browser.click("#entry-cancel")
    phone.edit(3)
    assert phone.browser.text("#entry-last") == "There is no last price."


LASTS = ((1001, 700, 1500), (999, 333, 1001), (1, 1, 10_000), (100_000_000, 999, 1001), (7, 500, 1499))
"""Last prices whose bounds are rounded or at their limits, with tolerances."""


def test_the_bounds_that_are_shown_are_the_offices(phone: Phone, stage: Stage) -> None:
    """What refusal 26 tells is what the phone has shown."""
    far = "0,9999999998,9999999999"
    rows = ["outlet,90,X", f"collector,9,{NOBODY}", f"calendar,2030-01,{far}", f"calendar,2030-02,{far}"]
    for slot, (_, low, high) in enumerate(LASTS, 1):
        rows += [f"item,X{slot},X,1,{low},{high}", f"assign,9,{slot},90,X{slot},2010-12,2199-12"]
    assert stage.ask("POST", "/api/import", DESK, "\n".join(rows)).reply == {"rows": [{"done": True}] * len(rows)}
    phone.open()
    for slot, (last, low, high) in enumerate(LASTS, 1):
        stage.ask("PUT", f"/api/quote/{slot}/2030-01", NOBODY, f"price,{last}")
        told = stage.ask("PUT", f"/api/quote/{slot}/2030-02", NOBODY, f"price,{1 if last > 50 else 90_000_000}").reply
        module = "const { bounds } = await import('/shared/money.js'); return bounds(...arguments);"
        assert {**phone.browser.run_until(module, last, low, high), "refused": 26} == told


def test_a_price_far_from_the_last_is_confirmed(phone: Phone, stage: Stage, speech: Speech) -> None:
    phone.speaks(speech)
    phone.sign_in()
    phone.enter(2, speech.figure("9.99"))
    phone.browser.wait_text("#entry-refusal", phone.said("This price is far from the last one. Check it again."))
    bounds = "Last price {last}. Usual range: {low} to {high}."
    assert phone.said(bounds, last="4.80", low="3.36", high="7.20") in phone.browser.text("#entry-refusal")
    assert stored(stage, 2) == []
    phone.confirm()
    phone.show("all")
    phone.wait_receipt(2, NEXT)
    assert stored(stage, 2) == [("price", 999, NEXT)]


def test_a_slip_is_mended(phone: Phone, stage: Stage) -> None:
    phone.sign_in()
    phone.enter(2, "48")
    phone.browser.wait_text("#entry-refusal", "far from the last one")
    phone.browser.type("#price", "4.85")
    assert phone.browser.text("#entry-refusal") == ""
    phone.save()
    phone.show("all")
    phone.wait_receipt(2, NEXT)
    assert stored(stage, 2) == [("price", 485, NEXT)]


def test_missing_and_replacements(phone: Phone, stage: Stage) -> None:
    phone.sign_in()
    phone.show("all")
    phone.enter(1, mark="missing", reason="stock")
    phone.wait_receipt(1, 10)
    assert "Sold out" in phone.told(1)
    phone.enter(2, "4.90", mark="comparable")
    phone.wait_receipt(2, 11)
    phone.enter(4, "9", mark="other")
    phone.wait_receipt(4, 12)
    phone.edit(3)
    assert not phone.browser.find('#entry input[value="other"]').is_enabled()  # (there is no last price)
    phone.browser.click("#entry-cancel")
    phone.enter(1, "3.00")
    phone.wait_receipt(1, 13)
    assert stage.quotes(ANNA) == [
        [1, NOW, "price", 300, 13],
        [2, NOW, "comparable", 490, 11],
        [4, NOW, "other", 900, 12],
    ]
    assert phone.browser.text("#progress").split(",")[0] == "3 of 4 stored"


def test_each_other_reason(phone: Phone, stage: Stage) -> None:
    phone.sign_in()
    phone.show("all")
    for at, (reason, words) in enumerate(
        (("closed", "Shop closed"), ("gone", "No longer sold"), ("refused", "refused"))
    ):
        phone.enter(2, mark="missing", reason=reason)
        phone.wait_receipt(2, NEXT + at)
        assert words in phone.told(2)
        assert stored(stage, 2) == [("missing", reason, NEXT + at)]


def test_a_missing_price_needs_a_reason(phone: Phone) -> None:
    phone.sign_in()
    phone.enter(1, mark="missing")
    assert phone.browser.text("#price-fault") == "Choose a reason."


def test_a_refusal_is_told_in_words(phone: Phone) -> None:
    phone.sign_in()
    phone.refuse_correction()
    phone.edit(1)
    assert "Refused (24). The window has closed. Tell the desk" in phone.browser.text("#entry-refusal")
    phone.browser.click("#entry-drop")
    phone.wait_receipt(1, 7)
    phone.browser.click("#month-before")
    phone.browser.click("#month-before")
    phone.browser.wait_text("#notice", "The month has no window yet")


def test_the_month_that_is_shown_is_asked_for_however_fast_one_turns(phone: Phone, stage: Stage) -> None:
    phone.sign_in()
    stage.ask("PUT", f"/api/quote/1/{NOW}", ANNA, "price,322")
    with stage.standing_still():
        # (the first of these is asked for, and the answer comes when the last is shown)
        phone.browser.click("#month-after")
        phone.browser.click("#month-before")
        phone.browser.click("#month-before")
    phone.show("all")
    phone.wait_receipt(1, 7)
    phone.browser.click("#month-after")
    phone.send()  # (its list is new, so it is asked for only by hand)
    phone.wait_receipt(1, NEXT)

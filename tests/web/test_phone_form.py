"""The collectors' form: save and next, a small screen, and digits of any keyboard."""

from __future__ import annotations

from typing import Any

import pytest
from selenium.webdriver.common.keys import Keys

from .browser import Browser
from .languages import ARABIC, ENGLISH, FRENCH, SPANISH, Speech, spoken
from .long_list import LONG_ITEM, LONG_OUTLET, LONG_UNIT, give_list
from .offices import ANNA, NOBODY, NOW
from .phone import Phone
from .readable import BROKEN, faults_enlarged, faults_for_keys, faults_of_page
from .stage import Stage


WATCH = """
window.blurs = 0;
document.getElementById("price").addEventListener("blur", () => { window.blurs += 1; });
"""
"""Counts how often the price loses the focus: then the keyboard of a phone goes."""


# ---- save and next


def test_the_next_form_comes_and_the_keyboard_stays(phone: Phone, stage: Stage) -> None:
    give_list(stage, 3)
    phone.sign_in(NOBODY)
    phone.edit(1)
    phone.browser.run(WATCH)
    for slot in (2, 3):
        phone.tap_save("2.10")
        phone.wait_edited(slot)
        assert (phone.focused(), phone.browser.run("return window.blurs")) == ("price", 0)
        assert phone.browser.find("#price").get_attribute("value") == ""
        assert phone.browser.text("#entry-saved") == "2.10 saved: Rice, long grain"
    phone.tap_save("2.10")
    phone.wait_edited(None)
    assert phone.focused() == "3"


def test_a_correction_closes_the_form(phone: Phone) -> None:
    phone.sign_in()
    phone.show("all")
    phone.enter(1, "3.21")
    phone.wait_told(1, "Stored")
    phone.edit(1)
    phone.fill("3.22")
    phone.wait_edited(None)
    assert phone.focused() == "1"


SLOW_DISK = """
Object.defineProperty(IDBTransaction.prototype, "oncomplete", {
  set(handler) { this.addEventListener("complete", () => setTimeout(handler, 1500)); },
});
"""
"""Each write takes a second and a half."""

FULL_DISK = """
Object.defineProperty(IDBTransaction.prototype, "oncomplete", { set() {
  setTimeout(() => this.onabort(), 1500);
} });
Object.defineProperty(IDBTransaction.prototype, "error", { get: () => new DOMException("full", "QuotaExceededError") });
"""
"""Each write fails as late."""


@pytest.mark.parametrize("ahead", ["2", "2.10"])
def test_a_figure_that_is_typed_ahead_is_the_next_rows(phone: Phone, stage: Stage, ahead: str) -> None:
    give_list(stage, 2)
    phone.sign_in(NOBODY)
    phone.tap_row(1)
    phone.browser.run(SLOW_DISK)
    phone.tap_save("2.10")
    phone.press(ahead)
    assert phone.edited() == f"{NOW}/1"
    phone.wait_edited(2)
    assert phone.browser.find("#price").get_attribute("value") == ahead
    phone.press("0")  # (the rest of it comes behind)
    assert phone.browser.find("#price").get_attribute("value") == f"{ahead}0"
    assert [row[:1] + row[3:4] for row in stage.wait_for_quotes(NOBODY)] == [[1, 210]]


def test_a_figure_that_is_typed_ahead_of_a_full_disk_costs_no_price(phone: Phone) -> None:
    phone.sign_in()
    phone.tap_row(1)
    phone.browser.run(FULL_DISK)
    phone.tap_save("3.21")
    phone.press("4")
    phone.browser.wait_text("#price-fault", "This entry couldn’t be saved: the phone is full.")
    assert phone.browser.find("#price").get_attribute("value") == "3.21"


def test_a_full_disk_isnt_told_in_the_form_of_another_row(phone: Phone) -> None:
    phone.sign_in()
    phone.edit(1)
    phone.browser.run(FULL_DISK)
    phone.press("3.21", Keys.ENTER, Keys.ESCAPE)
    phone.edit(2)
    phone.browser.wait_text("#notice", "An entry couldn’t be saved: the phone is full.")
    assert (phone.edited(), phone.browser.text("#price-fault")) == (f"{NOW}/2", "")
    assert "Typed, not saved" in phone.told(1)
    phone.close()
    phone.edit(1)
    assert phone.browser.find("#price").get_attribute("value") == "3.21"


# ---- what is seen on a small screen

UNSEEN = """
return arguments[0].filter((selector) => {
  const element = document.querySelector(selector), { left, top, right, bottom } = element.getBoundingClientRect();
  const x = (left + right) / 2, y = (top + bottom) / 2;
  const places = [[left + 2, y], [right - 2, y], [x, top + 2], [x, bottom - 2]];
  return !places.every((place) => element.contains(document.elementFromPoint(...place)));
});
"""
"""Which elements are cut, or covered by another one, at one of their sides."""


def test_price_and_save_are_seen_above_the_keyboard(phone: Phone, stage: Stage) -> None:
    """At 360 x 400, whatever the texts; so is what the form asks, and that the next row is in another shop."""
    give_list(stage, 21, LONG_ITEM, LONG_OUTLET, LONG_UNIT)
    assert min(len(LONG_ITEM), len(LONG_OUTLET)) >= 150
    phone.sign_in(NOBODY)
    phone.edit(20)
    phone.browser.size(360, 400)
    found = {"form": phone.browser.run(UNSEEN, ["#price", "#entry-save", "#entry-item", "#entry-last"])}
    phone.tap_save("9.99")
    phone.browser.wait_text("#entry-refusal", "Check it again.")
    found["second look"] = phone.browser.run(UNSEEN, ["#price", "#entry-confirm"])
    phone.retype("2,100")
    phone.browser.tap("#entry-save")
    phone.browser.wait_text("#entry-refusal", "Which one is it?")
    found["readings"] = phone.browser.run(UNSEEN, ["#price", "[data-reading]"])
    phone.retype("2.10")
    phone.browser.tap("#entry-save")
    phone.wait_edited(21)
    found["next"] = phone.browser.run(UNSEEN, ["#price", "#entry-save", "#entry-saved", "#entry-outlet"])
    assert found == {name: [] for name in found}
    assert phone.browser.text("#entry-outlet").startswith("Next shop: The supermarket")
    assert phone.browser.text("#entry-saved").startswith("2.10 saved: Rice")


COVERED = """
const all = [...document.querySelectorAll("#entry :is(input, button)")].filter((it) => it.checkVisibility() && !it.disabled);
document.activeElement.blur();
return [...all, ...all.toReversed()]
  .filter((it) => {
    it.focus();
    const { left, top, width, height } = it.getBoundingClientRect();
    return !(it.closest("label") ?? it).contains(document.elementFromPoint(left + width / 2, top + height / 2));
  }).map((it) => it.outerHTML);
"""
"""Fields and buttons that something covers as they have the focus, from the first to the last and back."""


def test_what_has_the_focus_isnt_covered(phone: Phone, stage: Stage) -> None:
    give_list(stage, 1, LONG_ITEM, LONG_OUTLET)
    phone.sign_in(NOBODY)
    phone.browser.size(360, 400)
    phone.edit(1)
    assert phone.browser.run(COVERED) == []
    phone.browser.size(360, 640)
    phone.browser.run("document.documentElement.style.fontSize = '200%'")
    assert phone.browser.run(COVERED) == []


def test_a_question_comes_into_sight_wherever_one_has_scrolled(phone: Phone, stage: Stage) -> None:
    give_list(stage, 2, LONG_ITEM, LONG_OUTLET)
    phone.sign_in(NOBODY)
    phone.browser.size(360, 400)
    phone.edit(1)
    phone.press("9.99")
    for text, asked in (("9.99", "#entry-confirm"), ("2,100", "[data-reading]"), ("x", "#price-fault")):
        phone.retype(text)
        phone.browser.run("document.getElementById('entry').scrollTop = 9999")
        phone.browser.tap("#entry-save")
        phone.browser.wait_shown(asked)
        assert phone.browser.run(UNSEEN, ["#price", asked]) == [], asked


def test_the_same_shop_isnt_named_as_another_one(phone: Phone) -> None:
    phone.sign_in()
    phone.edit(1)
    phone.fill("3.21")
    phone.wait_edited(2)
    assert phone.browser.text("#entry-outlet") == "Corner shop"
    phone.fill("4.80")
    phone.wait_edited(3)
    assert phone.browser.text("#entry-outlet").startswith("Next shop: <img")
    phone.close()
    phone.edit(4)
    assert not phone.browser.text("#entry-outlet").startswith("Next shop")


CHANGES = {
    "2": ("±0.0 %", False), "2.1": ("+5.0 %", False), "1.40": ("−30.0 %", False), "1.39": ("−30.5 %", True),
    "3.00": ("+50.0 %", False), "3.01": ("+50.5 %", True), "2.001": ("", False), "x": ("", False), "": ("", False),
}  # fmt: skip
"""Texts over a last price of 2.00, the change in percent, and whether it is outside the tolerances."""


def test_the_change_in_percent_is_told_at_once(phone: Phone, stage: Stage) -> None:
    give_list(stage, 1)
    phone.sign_in(NOBODY)
    phone.edit(1)
    for text, (told, is_far) in CHANGES.items():
        phone.retype(text)
        found = phone.browser.run(
            "const it = document.getElementById('entry-change'); return [it.textContent, it.className]"
        )
        assert (found[0], "far" in found[1]) == (told, is_far), text
    phone.retype("2.10")
    phone.browser.click('#entry input[value="other"]')
    assert phone.browser.text("#entry-change") == ""  # (another article isn't compared)


# ---- digits

TYPED = {
    "\u0662\u066b\u0662\u0660": 220, "\u06f2\u066b\u06f2\u06f1": 221, "\u0968.\u0968\u0968": 222,
    "\uff12\uff0e\uff12\uff13": 223, "2,24": 224, " 2.25 ": 225, "\u200f\u0662.\u0662\u0666": 226,
}  # fmt: skip
"""2.20 to 2.26 as Arabic, Persian, Hindi, Japanese and European keyboards write them."""


def test_digits_of_any_keyboard_are_taken(phone: Phone, stage: Stage) -> None:
    give_list(stage, len(TYPED))
    phone.sign_in(NOBODY)
    phone.edit(1)
    for slot, text in enumerate(TYPED, 1):
        phone.press(text, Keys.ENTER)
        phone.wait_edited(slot + 1 if slot < len(TYPED) else None)
    phone.browser.wait_text("#line", "All sent")
    assert [row[3] for row in stage.quotes(NOBODY)] == [*TYPED.values()]


def test_what_can_be_two_prices_is_asked(phone: Phone, stage: Stage) -> None:
    """An office with two decimals reads 1,459 as 1459.00, or as 1.459 rounded, only if its collector says so."""
    phone.sign_in()
    phone.edit(3)
    phone.press("1,459", Keys.ENTER)
    phone.browser.wait_text("#entry-refusal", "Which one is it?")
    assert [one.text for one in phone.browser.all("[data-reading]")] == ["1.46, rounded", "1459.00"]
    assert stage.relay.quotes(NOW) == []
    phone.press(Keys.ENTER)
    assert (phone.edited(), stage.relay.quotes(NOW)) == (f"{NOW}/3", [])
    phone.browser.tap("[data-reading='145900']")
    phone.wait_edited(4)
    assert [row[:1] + row[3:4] for row in stage.wait_for_quotes(ANNA)] == [[3, 145_900]]


# ---- a stored price


def test_a_stored_price_is_withdrawn_by_no_price_and_its_reason(phone: Phone, stage: Stage) -> None:
    phone.sign_in()
    phone.show("all")
    phone.enter(1, "3.21")
    phone.wait_told(1, "Stored")
    phone.edit(1)
    assert phone.browser.text("#withdraw-text").startswith("A stored price can’t be deleted.")
    phone.browser.click("#entry-withdraw")
    phone.browser.click("#entry-save")
    phone.browser.wait_text("#price-fault", "Choose a reason.")
    phone.browser.click('#entry input[value="gone"]')
    phone.browser.click("#entry-save")
    phone.wait_edited(None)
    phone.wait_told(1, "No longer sold")
    phone.wait_told(1, "Stored")
    assert [row[:4] for row in stage.quotes(ANNA)] == [[1, NOW, "missing", "gone"]]
    phone.edit(1)
    assert not phone.browser.find("#entry-withdraw").is_displayed()


# ---- eyes, fingers and keys


@pytest.mark.parametrize("width, scheme", [(360, "dark"), (1280, "light")])
def test_the_form_can_be_read_touched_and_enlarged(phone: Phone, stage: Stage, width: int, scheme: str) -> None:
    def looked_at(browser: Browser) -> list[str]:
        faults = faults_of_page(browser)
        return faults if width > 600 else [*faults, *faults_for_keys(browser), *faults_enlarged(browser)]

    browser, found = phone.browser, dict[str, Any]()
    browser.size(width, 740)
    browser.shown_as(scheme)
    give_list(stage, 21, LONG_ITEM, LONG_OUTLET, LONG_UNIT)
    phone.sign_in(NOBODY)
    phone.edit(20)
    browser.type("#price", "9.99")
    found["far"] = looked_at(browser)
    browser.click("#entry-save")
    found["second look"] = looked_at(browser)
    browser.type("#price", "2,100")
    browser.click("#entry-save")
    found["readings"] = looked_at(browser)
    browser.type("#price", "2.10")
    browser.click("#entry-save")
    phone.wait_edited(21)
    found["next shop"] = looked_at(browser)
    phone.fill(mark="missing")
    found["reason"] = looked_at(browser)
    phone.close()
    browser.wait_text("#line", "All sent")
    phone.show("all")
    phone.edit(20)
    found["stored"] = looked_at(browser)
    assert found == {name: [] for name in found}


def test_a_kind_of_mark_is_chosen_by_a_tap_on_its_words(phone: Phone, stage: Stage) -> None:
    phone.sign_in()
    phone.edit(1)
    phone.browser.tap('label:has([value="missing"]) span')
    phone.browser.wait_shown("#entry-reason")
    phone.browser.tap('label:has([value="stock"]) span')
    phone.browser.tap("#entry-save")
    phone.wait_edited(2)
    assert [row[:4] for row in stage.wait_for_quotes(ANNA)] == [[1, NOW, "missing", "stock"]]
    assert phone.focused() == "price"


# ---- a form that is closed before it is saved


def test_what_was_written_is_there_again_when_the_form_is_opened(phone: Phone, stage: Stage) -> None:
    phone.sign_in()
    phone.show("all")
    phone.edit(1)
    phone.browser.type("#price", "3.1")
    phone.press(Keys.ESCAPE)
    phone.browser.wait(lambda: phone.edited() is None, "the form is closed")
    assert "Typed, not saved" in phone.told(1)
    phone.edit(1)
    assert phone.browser.find("#price").get_attribute("value") == "3.1"
    assert phone.browser.text("#price-fault") == "You typed this earlier, but didn’t save it."
    phone.save()
    phone.wait_told(1, "Stored")
    assert "not saved" not in phone.told(1)
    phone.edit(1)
    assert phone.browser.text("#price-fault") == ""
    assert [row[3] for row in stage.quotes(ANNA)] == [310]


TWICE = """
const entry = document.getElementById("entry"), before = entry.dataset.entry, form = document.getElementById("entry-form");
form.requestSubmit();
while (entry.dataset.entry === before) await new Promise((end) => setTimeout(end, 5));
form.requestSubmit();
"""
"""Saves, and once more as soon as the next form is there, as Enter does that is pressed twice."""


def test_what_was_written_isnt_saved_by_a_second_enter_of_the_row_before(phone: Phone, stage: Stage) -> None:
    phone.sign_in()
    phone.edit(2)
    phone.retype("4.8")
    phone.close()
    phone.edit(1)
    phone.retype("3.21")
    phone.browser.run_until(TWICE)
    phone.wait_told(1, "Stored")
    assert (phone.edited(), phone.browser.find("#price").get_attribute("value")) == (f"{NOW}/2", "4.8")
    phone.retype("4.80")
    phone.save()
    phone.wait_told(2, "Stored")
    assert [row[:1] + row[3:4] for row in stage.quotes(ANNA)] == [[1, 321], [2, 480]]


def test_sign_out_says_that_what_was_written_and_not_saved_is_lost(phone: Phone) -> None:
    phone.sign_in()
    phone.edit(1)
    phone.retype("3.1")
    phone.close()
    phone.browser.click("#leave")
    told = phone.browser.text("#leaving-text")
    assert told.startswith("Everything you saved has been sent.")
    assert told.endswith(" You will lose what you typed but didn’t save in 1 form.")


def test_a_form_that_is_closed_as_it_was_leaves_nothing(phone: Phone) -> None:
    phone.sign_in()
    phone.show("all")
    phone.edit(1)
    phone.close()
    assert "not saved" not in phone.told(1)


# ---- whole words


@pytest.mark.parametrize("speech", [ENGLISH, FRENCH, SPANISH, ARABIC], ids=["en", "fr", "es", "ar"])
def test_no_word_of_a_choice_is_broken(phone: Phone, stage: Stage, speech: Speech) -> None:
    """At 360 pixels, in what was found and in why there is no price, whichever is chosen."""
    with spoken(stage, speech):
        phone.speaks(speech)
        phone.sign_in()
        phone.show("all")
        phone.edit(1)
        for found in ("price", "comparable", "other", "missing"):
            phone.browser.click(f'[name="mark"][value="{found}"]')
            assert phone.browser.run(BROKEN, ".choice label") == [], found
        assert len(phone.browser.run("return [...document.querySelectorAll('#entry-reason label')]")) > 3

"""The page of a collector as a collector uses it."""

from __future__ import annotations

from typing import Any, Optional

from selenium.webdriver.common.action_chains import ActionChains
from selenium.webdriver.common.keys import Keys

from .browser import Browser
from .languages import Speech, Words
from .offices import ANNA


EDITED = "const it = document.getElementById('entry'); return it.open ? it.dataset.entry : null;"

ASKS = """
return !document.getElementById("entry-refusal").hidden || document.getElementById("price-fault").textContent !== "";
"""
"""Whether the form asks something, or says what is wrong."""

PLACES = """
const frame = () => new Promise((end) => requestAnimationFrame(end));
for (let n = 0; n < 3; n += 1) await frame(); // (rows that came into sight have their heights by then)
const rows = [...document.querySelectorAll("[data-slot]")];
return Object.fromEntries(rows.map((row) => [row.dataset.slot, row.getBoundingClientRect().top]));
"""


TOLD = """
const parts = document.querySelector(`[data-slot="${arguments[0]}"] .told`)?.children ?? [];
return [...parts].map((part) => part.textContent.trim()).filter(Boolean).join("\\n");
"""


RECEIPT = "return (await import('/collect/state.js')).storedOf(arguments[0])?.[4] ?? null"


class Phone:
    """A browser with the page of a collector."""

    def __init__(self, browser: Browser):
        self.browser = browser
        self.words = Words()
        self.said = self.words.said

    def speaks(self, speech: Speech) -> None:
        """The page speaks so from now on."""
        self.words = Words(speech)
        self.said = self.words.said

    def open(self) -> None:
        self.browser.open("/collect/")

    def give_key(self, key: str) -> None:
        """Types a key and sends it."""
        self.browser.type("#key", key)
        self.browser.click("#sign-in-form button.main")

    def sign_in(self, key: str = ANNA) -> None:
        """Opens the page and signs in, until the work list is there and the page's files are kept."""
        self.open()
        self.browser.wait_shown("#sign-in")
        self.give_key(key)
        self.browser.wait_text("#line", self.said("All sent"))
        self.browser.wait(lambda: self.browser.all("[data-slot]"), "a work list")
        self.browser.run_until("await navigator.serviceWorker.ready")

    def show(self, view: str) -> None:
        """Shows what is to do (`todo`), all of the list, or what is stored (`quotes`)."""
        self.browser.click(f"#show-{view}")

    def told(self, slot: int) -> str:
        """What the list says of a slot, in or out of sight, a line each; nothing if it isn't shown."""
        found: str = self.browser.run(TOLD, slot)
        return found

    def wait_told(self, slot: int, text: str) -> None:
        self.browser.wait(lambda: text in self.told(slot), f"{text!r} of slot {slot}")

    def receipt(self, slot: int) -> Optional[int]:
        """The receipt of a slot of the month that is shown, if the list says that it is stored: the form has its number."""
        if self.said("Stored", context="state of a row") not in self.told(slot).split("\n"):
            return None
        receipt: Optional[int] = self.browser.run_until(RECEIPT, slot)
        return receipt

    def wait_receipt(self, slot: int, number: int) -> None:
        """Waits until the list says that a slot is stored, by this receipt."""
        self.browser.wait(lambda: self.receipt(slot) == number, f"receipt {number} of slot {slot}")

    def notice_is_read(self) -> None:
        """The collector has read before that the browser may clear its storage."""
        self.browser.run_until("await (await import('/collect/store.js')).keepNoticeRead()")

    def search(self, text: str) -> None:
        """Types a text into the field of the search, which is behind its icon."""
        if self.browser.run("return document.getElementById('search').hidden"):
            self.browser.click("#seek")
        self.browser.type("#search", text)

    def edit(self, slot: int) -> None:
        """Opens the form of a slot."""
        self.browser.click(f'[data-slot="{slot}"]')
        self.browser.wait(lambda: self.browser.run("return document.getElementById('entry').open"), "the form")

    def edited(self) -> Optional[str]:
        """The month and the slot of the form, as `2026-11/3`, or none if it is closed."""
        found: Optional[str] = self.browser.run(EDITED)
        return found

    def enter(self, slot: int, price: Optional[str] = None, mark: str = "price", reason: Optional[str] = None) -> None:
        """Fills in the form of a slot and saves it; the form of the next row, which comes then, is closed."""
        self.edit(slot)
        self.fill(price, mark, reason)
        self.browser.wait(
            lambda: self.edited() != f"{self.month()}/{slot}" or self.browser.run(ASKS), "saved, or asked"
        )
        self.leave(slot)

    def month(self) -> str:
        """The month that is shown, as `2026-11`."""
        month: str = self.browser.run_until("return (await import('/collect/state.js')).state.month")
        return month

    def refuse_correction(self) -> None:
        """Corrects slot 1 of last month, whose window has closed: the office has 3.20, and refuses 3.10 by 24."""
        self.browser.click("#month-before")
        self.show("all")
        self.wait_receipt(1, 7)
        self.enter(1, "3.10")
        self.wait_told(1, self.said("Refused"))

    def leave(self, slot: int) -> None:
        """Closes the form if it is another slot's by now."""
        if self.edited() not in (None, f"{self.month()}/{slot}"):
            self.close()

    def save(self) -> None:
        """Saves the form; that of the next row, which comes then, is closed."""
        before = self.edited()
        self.browser.click("#entry-save")
        self.browser.wait(lambda: self.edited() != before, "it is saved")
        if self.edited():
            self.close()

    def close(self) -> None:
        """Closes the form."""
        self.browser.click("#entry-cancel")
        self.browser.wait(lambda: self.edited() is None, "the form is closed")

    def fill(self, price: Optional[str] = None, mark: str = "price", reason: Optional[str] = None) -> None:
        """Fills in the form that is open, and saves it."""
        self.browser.click(f'#entry input[value="{mark}"][name="mark"]')
        if reason:
            self.browser.click(f'#entry input[value="{reason}"][name="reason"]')
        if price is not None:
            self.browser.type("#price", price)
        self.browser.click("#entry-save")

    def enter_fast(self, slot: int, price: str) -> None:
        """The same of a price, by the page's own events in place of a driver's clicks, which take their time."""
        self.browser.run(
            "document.querySelector(`[data-slot='${arguments[0]}']`).click();"
            "document.getElementById('price').value = arguments[1];"
            "document.getElementById('entry-form').requestSubmit();",
            slot,
            price,
        )
        self.wait_told(slot, self.said("To be sent"))
        self.browser.run("document.getElementById('entry').close();")

    def confirm(self) -> None:
        """Confirms the price that the form asks about; the form of the next row, which comes then, is closed."""
        before = self.edited()
        self.browser.click("#entry-confirm")
        self.browser.wait(lambda: self.edited() != before, "it is saved")
        if self.edited():
            self.close()

    def press(self, *keys: str) -> None:
        """Presses keys, wherever the focus is."""
        chain: Any = ActionChains
        chain(self.browser.driver).send_keys(*keys).perform()

    def send(self) -> None:
        self.browser.click("#send")

    # ---- by touch

    def tap_row(self, slot: int) -> tuple[float, float]:
        """Opens the form of a row that is in sight by a tap; the place of the row."""
        place = self.browser.tap(f'[data-slot="{slot}"]')
        self.wait_edited(slot)
        return place

    def tap_save(self, price: str) -> None:
        """Types a price where the focus is, and taps Save."""
        self.press(price)
        self.browser.tap("#entry-save")

    def wait_edited(self, slot: Optional[int]) -> None:
        """Waits for the form of a slot, or until none is open."""
        wanted = None if slot is None else f"{self.month()}/{slot}"
        self.browser.wait(lambda: self.edited() == wanted, f"the form of {wanted}")

    def places(self) -> dict[str, float]:
        """Where each row begins, in pixels from the top of the window."""
        places: dict[str, float] = self.browser.run_until(PLACES)
        return places

    def focused(self) -> str:
        """What has the focus: the id of an element, or the slot of a row."""
        return str(self.browser.run("const it = document.activeElement; return it.dataset.slot ?? it.id"))

    def retype(self, text: str, *keys: str) -> None:
        """Types a text in the place of the price that is there, and presses keys."""
        self.browser.run("document.getElementById('price').select()")
        self.press(text or Keys.DELETE, *keys)

    def update(self) -> None:
        """Taps Update, and waits until the list came again."""
        came = "return (await import('/collect/state.js')).state.list.at"
        before = self.browser.run_until(came)
        self.browser.tap("#send")
        self.browser.wait(lambda: self.browser.run_until(came) > before, "the list came again")

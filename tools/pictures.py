#!/usr/bin/python3
"""Makes pictures of each page, at 360 and at 1280 pixels, as one looks at them after a change.

    tools/pictures.py URL FOLDER --authority FILE --key KEY --desk-key KEY

The office is the one that ops/try has started: it prints URL, both keys and FILE, its ca.crt. The collector enters two
prices, and one of last month, which is refused. The pictures are FOLDER/PAGE-WIDTH.png.

example: tools/pictures.py https://localhost:8443 out/pictures --authority out/try/ca.crt --key KEY --desk-key KEY
"""

from __future__ import annotations

import argparse
import re
import sys
import tempfile
from pathlib import Path

sys.dont_write_bytecode = True

HERE = Path(__file__).resolve().parent
sys.path[:0] = [str(HERE), str(HERE.parent / "tests")]

from web.browser import Browser  # noqa: E402
from web.phone import Phone  # noqa: E402

WIDTHS = {360: 740, 1280: 900}


def of_phone(browser: Browser, width: int, key: str, folder: Path) -> None:
    """Signing in, the list, an entry, a second look, what is stored, what isn't."""
    phone = Phone(browser)

    def taken(name: str, is_whole: bool = False) -> None:
        browser.picture(folder / f"collect-{name}-{width}.png", is_whole)

    phone.open()
    browser.wait_shown("#sign-in")
    taken("key")
    browser.open(f"/collect/#key={key}&name=Noor%20B.")
    browser.wait_text("#line", "All sent")
    browser.wait(lambda: browser.all("[data-slot]"), "a work list")
    phone.notice_is_read()
    phone.show("all")
    first, second, third = (int(str(slot.get_attribute("data-slot"))) for slot in browser.all("[data-slot]")[:3])
    phone.enter(first, mark="missing", reason="stock")
    phone.edit(second)
    last, _, high = re.findall(r"[0-9.]+[0-9]", browser.text("#entry-last"))[:3]
    browser.type("#price", f"{float(last) * 1.04:.2f}")
    taken("entry")
    phone.save()
    phone.wait_told(second, "Stored")
    browser.run("scrollTo(0, 0)")
    taken("list")
    phone.edit(third)
    browser.type("#price", "999.99")
    browser.click("#entry-save")
    browser.wait_shown("#entry-refusal")
    taken("again")
    phone.close()
    phone.show("quotes")
    taken("stored")
    of_refused(phone, high)
    taken("not-stored")
    browser.click('#unsent [data-do="drop"]')
    browser.click('#dropping [value="drop"]')


def of_refused(phone: Phone, price: str) -> None:
    """A price of last month, whose window has closed, and the list of what isn't stored."""
    phone.browser.click("#month-before")
    phone.show("all")
    phone.browser.wait(lambda: phone.browser.all("[data-slot]"), "the work list of last month")
    slot = int(str(phone.browser.all("[data-slot]")[0].get_attribute("data-slot")))
    phone.enter(slot, price)
    if phone.edited():
        phone.confirm()
    phone.wait_told(slot, "Refused")
    phone.browser.click("#alarm")


def of_others(browser: Browser, width: int, desk_key: str, folder: Path) -> None:
    """The website's first page, its page for choosing, and the desk's pages: the month, and something refused."""
    browser.open("/")
    browser.picture(folder / f"first-{width}.png")
    browser.open("/published/choose.html?items=00+01+04&show=index+year")
    browser.wait_text("#parts", "Food")
    browser.picture(folder / f"choose-{width}.png", is_whole=True)
    browser.open("/desk/")
    browser.type("#name", "Ada")
    browser.type("#key", desk_key)
    browser.click("main button.main")
    browser.wait_text(".who", "Ada")
    browser.picture(folder / f"desk-{width}.png", is_whole=True)
    browser.open("/desk/records")
    browser.type("#text", "outlet,101,Other shop\noutlet,9001,New shop\nhandover,7,999,8,999,2030-11\n")
    browser.click("form[action$='/records/judge'] button")
    browser.wait_text("main", "would be carried out")
    browser.picture(folder / f"records-{width}.png", is_whole=True)


def main() -> int:
    words = argparse.ArgumentParser(description=__doc__, formatter_class=argparse.RawDescriptionHelpFormatter)
    words.add_argument("url", metavar="URL")
    words.add_argument("folder", metavar="FOLDER", type=Path)
    for word in ("--authority", "--key", "--desk-key"):
        words.add_argument(word, required=True)
    chosen = words.parse_args()
    chosen.folder.mkdir(parents=True, exist_ok=True)
    with tempfile.TemporaryDirectory() as home:
        browser = Browser(chosen.url, Path(chosen.authority), Path(home) / "home")
        try:
            for width, height in WIDTHS.items():
                browser.fresh()
                browser.size(width, height)
                of_phone(browser, width, chosen.key, chosen.folder)
                of_others(browser, width, chosen.desk_key, chosen.folder)
        finally:
            browser.close()
    return 0


if __name__ == "__main__":
    sys.exit(main())

"""Chromium for tests, by python3-selenium: it trusts the tests' own authority, and no check of certificates is off."""

from __future__ import annotations

import base64
import contextlib
import os
import signal
import subprocess
import time
from collections.abc import Callable, Iterator
from pathlib import Path
from typing import Any, Optional

from selenium import webdriver
from selenium.common.exceptions import (
    ElementClickInterceptedException,
    InvalidSessionIdException,
    StaleElementReferenceException,
    WebDriverException,
)
from selenium.webdriver.chrome.options import Options
from selenium.webdriver.chrome.service import Service
from selenium.webdriver.common.by import By
from selenium.webdriver.remote.webelement import WebElement
from selenium.webdriver.support.wait import WebDriverWait

from cpi_tools.tryout.trial_services import system_program
from lib.served import free_port

SECONDS = 60.0
"""Within which a page shows what it is waited for: so much as a busy machine may need, nothing is promised by it."""

WORDS = (
    "--headless=new", "--no-sandbox", "--disable-dev-shm-usage", "--disable-gpu", "--no-first-run",
    "--disable-background-networking", "--disable-component-update", "--lang=en-GB",
)  # fmt: skip


MIDDLE = """
const frame = () => new Promise((end) => requestAnimationFrame(end));
const middle = () => {
  const { left, top, width, height } = document.querySelector(arguments[0]).getBoundingClientRect();
  return [left + width / 2, top + height / 2];
};
let before = null, now = middle();
for (let n = 0; n < 60 && String(before) !== String(now); n += 1) {
  [before] = [now, await frame(), await frame()];
  now = middle();
}
return now;
"""


class Browser:
    """A Chromium of its own, with a home of its own; `text` is the size of text that its user has set, in pixels."""

    def __init__(self, url: str, authority: Path, home: Path, text: int = 16):
        self.url, self.home, self._text = url, home, text
        self.is_fresh = False
        """Whether nobody has used it since it was emptied; who uses it says so."""
        trust(authority, home)
        self.driver: Any = self._started("profile")

    def _started(self, profile: str) -> Any:
        options: Any = Options()  # (selenium has no types)
        for word in (*WORDS, f"--user-data-dir={self.home}/{profile}"):
            options.add_argument(word)
        options.set_capability("goog:loggingPrefs", {"browser": "ALL"})
        options.add_experimental_option("prefs", {"webkit.webprefs.default_font_size": self._text})
        kept = {**os.environ, "HOME": str(self.home), "XDG_DATA_HOME": f"{self.home}/.local/share"}
        service = Service(system_program("chromedriver"), port=free_port(), env=kept)
        driver = webdriver.Chrome(service=service, options=options)
        driver.set_script_timeout(SECONDS)
        return driver

    def fresh(self) -> None:
        """One empty tab that is online, and nothing that a page has kept; in another Chromium, where this one is lost: it
        was seen to end on a busy machine, as its storage was emptied between two tests."""
        try:
            self._empty()
        except InvalidSessionIdException:
            self.close()
            self.driver = self._started(f"profile-{time.monotonic_ns()}")
            self._empty()
        self.is_fresh = True

    def _empty(self) -> None:
        first, *others = self.driver.window_handles
        for other in others:
            self.driver.switch_to.window(other)
            self.driver.close()
        self.driver.switch_to.window(first)
        self.in_front()
        self.offline(False)
        self.cdp("Emulation.setTouchEmulationEnabled", enabled=False)
        self.shown_as("light")
        self.driver.get("about:blank")
        self.cdp("Storage.clearDataForOrigin", origin=self.url, storageTypes="all")
        self.cdp("Network.clearBrowserCache")
        self.driver.get_log("browser")
        self.size(360, 740)

    def killed(self) -> None:
        """Chromium is killed, and another one begins over the same profile."""
        os.kill(self.driver.capabilities["goog:processID"], signal.SIGKILL)
        self.close()
        self.driver = self._started("profile")
        self.size(360, 740)

    def cdp(self, command: str, **words: Any) -> Any:
        return self.driver.execute_cdp_cmd(command, words)

    def size(self, width: int, height: int) -> None:
        """The size of the page; a narrow one is a phone's."""
        self.cdp(
            "Emulation.setDeviceMetricsOverride", width=width, height=height, deviceScaleFactor=1, mobile=width < 600
        )

    def shown_as(self, scheme: str, media: str = "") -> None:
        """Shows pages as one sees them whose screen is `light` or `dark`; `media` may be `print`."""
        features = [{"name": "prefers-color-scheme", "value": scheme}]
        self.cdp("Emulation.setEmulatedMedia", media=media, features=features)

    def offline(self, is_offline: bool) -> None:
        self.cdp("Network.enable")
        self.cdp(
            "Network.emulateNetworkConditions",
            offline=is_offline,
            latency=0,
            downloadThroughput=-1,
            uploadThroughput=-1,
        )

    @contextlib.contextmanager
    def slowed(self, times: int) -> Iterator[None]:
        """The processor is so many times as slow meanwhile."""
        self.cdp("Emulation.setCPUThrottlingRate", rate=times)
        try:
            yield
        finally:
            self.cdp("Emulation.setCPUThrottlingRate", rate=1)

    def in_front(self) -> None:
        """From here on the page in this tab has the focus, whatever the system gives it to."""
        self.cdp("Emulation.setFocusEmulationEnabled", enabled=True)

    @contextlib.contextmanager
    def on_each_page(self, script: str) -> Iterator[None]:
        """Each page that is opened meanwhile runs a script before its own."""
        made = self.cdp("Page.addScriptToEvaluateOnNewDocument", source=script)["identifier"]
        try:
            yield
        finally:
            self.cdp("Page.removeScriptToEvaluateOnNewDocument", identifier=made)

    # ---- a touch screen

    def touch(self, x: float, y: float) -> None:
        """A tap at a place of the window, in pixels."""
        self.cdp("Emulation.setTouchEmulationEnabled", enabled=True)
        self.cdp("Input.dispatchTouchEvent", type="touchStart", touchPoints=[{"x": x, "y": y}])
        self.cdp("Input.dispatchTouchEvent", type="touchEnd", touchPoints=[])

    def tap(self, selector: str) -> tuple[float, float]:
        """A tap in the middle of an element, which is in sight, once it has come to rest; the place."""
        x, y = self.middle(selector)
        self.touch(x, y)
        return x, y

    def middle(self, selector: str) -> tuple[float, float]:
        """The middle of an element, in pixels of the window, once it is where it was two frames before."""
        x, y = self.run_until(MIDDLE, selector)
        return x, y

    # ---- the page

    def open(self, path: str) -> None:
        self.driver.get(self.url + path)

    def find(self, selector: str) -> WebElement:
        element: WebElement = self.driver.find_element(By.CSS_SELECTOR, selector)
        return element

    def all(self, selector: str) -> list[WebElement]:
        elements: list[WebElement] = self.driver.find_elements(By.CSS_SELECTOR, selector)
        return elements

    def click(self, selector: str) -> None:
        """A click, with what is clicked in the middle of the window, where what sticks to its edges doesn't hide it. If
        the page was still scrolling, or draws it anew, it is tried once more."""
        try:
            self._click(selector)
        except (ElementClickInterceptedException, StaleElementReferenceException):
            self.middle(selector)
            self._click(selector)

    def _click(self, selector: str) -> None:
        found = self.find(selector)
        # (pages scroll smoothly, and what still moves can't be clicked)
        self.run("arguments[0].scrollIntoView({ block: 'center', behavior: 'instant' })", found)
        found.click()

    def type(self, selector: str, text: str) -> None:
        """Puts a text in the place of what stands in a field."""
        field = self.find(selector)
        field.clear()
        field.send_keys(text)

    def choose(self, name: str, value: str) -> None:
        """Sets a field that has a list, or a date, as its user does."""
        self.run(
            "const field = document.getElementById(arguments[0]); field.value = arguments[1];"
            "field.dispatchEvent(new Event('input')); field.dispatchEvent(new Event('change'));",
            name,
            value,
        )

    def run(self, script: str, *words: Any) -> Any:
        return self.driver.execute_script(script, *words)

    def run_until(self, script: str, *words: Any) -> Any:
        """Runs the body of a function whose promise tells the value."""
        whole = f"(async function () {{ {script} }}).apply(null, arguments).then(end, (fault) => end(String(fault)));"
        return self.driver.execute_async_script(f"const end = arguments[arguments.length - 1]; {whole}", *words)

    def text(self, selector: str) -> str:
        """The text that a user sees, or none."""
        text: str = self.run("return document.querySelector(arguments[0])?.innerText ?? ''", selector)
        return text

    # ---- waiting

    def wait(self, condition: Callable[[], Any], told: str = "") -> Any:
        return WebDriverWait(self.driver, SECONDS, 0.05).until(lambda _: condition(), told)

    def wait_text(self, selector: str, text: str) -> None:
        self.wait(lambda: text in self.text(selector), f"{text!r} in {selector}")

    def wait_shown(self, selector: str) -> None:
        script = "const it = document.querySelector(arguments[0]); return !!it && (!!it.offsetParent || !!it.open);"
        self.wait(lambda: self.run(script, selector), f"{selector} is shown")

    # ---- what it tells

    def faults(self) -> list[str]:
        """What the page said against itself: scripts that failed, contents that the policy refused."""
        return [
            entry["message"]
            for entry in self.driver.get_log("browser")
            if entry["level"] == "SEVERE" and "Failed to load resource" not in entry["message"]
        ]

    def picture(self, name: Path, is_whole: bool = True) -> None:
        """A picture of the window, or of the whole page."""
        clip: Optional[dict[str, int]] = None
        if is_whole:
            width, height = self.run("return [innerWidth, Math.max(document.documentElement.scrollHeight, 500)]")
            clip = {"x": 0, "y": 0, "width": width, "height": height, "scale": 1}
        words: dict[str, Any] = {"format": "png", **({"captureBeyondViewport": True, "clip": clip} if clip else {})}
        name.write_bytes(base64.b64decode(self.cdp("Page.captureScreenshot", **words)["data"]))

    def close(self) -> None:
        with contextlib.suppress(WebDriverException):
            self.driver.quit()


def trust(authority: Path, home: Path) -> None:
    """A home whose Chromium trusts an authority."""
    for folder in (".pki/nssdb", ".local/share/pki/nssdb"):
        place = home / folder
        place.mkdir(parents=True)
        for words in (["-N", "--empty-password"], ["-A", "-n", "cpi", "-t", "C,,", "-i", str(authority)]):
            subprocess.run([system_program("certutil"), *words, "-d", f"sql:{place}"], check=True, capture_output=True)

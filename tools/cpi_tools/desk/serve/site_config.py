"""The website as the desk sees it: its currency, and the file by which phones show when a window closes."""

from __future__ import annotations

import contextlib
import threading
import time
from collections.abc import Callable, Sequence
from pathlib import Path
from typing import Optional

import flask

from ...office.calendar_file import put_windows, windows_since
from ...office.stored import read_copy
from ...publish.figures.config import Config, read_config
from ...publish.forms.sdmx import KNOWN_IDS
from ...text.clocks import Clock
from ...text.message import Message, Money, message as _
from ...text.others import Worded, of_others
from ...text.terminal import Fault
from .faults import says
from .watched_office import Copies


# ==== the file by which phones show when a window closes: it is in the website's folder, and follows the office's
# windows

NAME = "calendar.json"

MAY_SET_WINDOWS = ("calendar", "import")
"""The first fields of records that may set a window."""


def may_set_windows(records: Sequence[Sequence[str]]) -> bool:
    """Whether a window may be another one once these records were sent."""
    return any(fields and fields[0] in MAY_SET_WINDOWS for fields in records)


class Deadlines:
    """The file of the windows, and `fault`: why it isn't as the office's calendar, or nothing. Nothing here raises
    Fault: records sent to the office stay sent."""

    def __init__(self, file: Path, copies: Copies, clock: Clock):
        self.file, self.fault = file, Worded("")
        self._copies, self._clock = copies, clock
        self._lock = threading.Lock()

    def renew(self) -> None:
        """Takes a copy of the office now, and writes the file from it."""
        self._follow(is_renewed=True)

    def follow(self) -> None:
        """Writes the windows of the latest copy, whole or not at all, unless the file has them."""
        self._follow(is_renewed=False)

    def _follow(self, is_renewed: bool) -> None:
        # (whoever waits here takes a copy that is no older, so no earlier window comes back)
        with self._lock:
            try:
                if is_renewed:
                    self._copies.renew()
                with self._copies.latest() as copy, read_copy(copy.path) as office:
                    windows = windows_since(office.calendar(), None, int(time.time()))
                put_windows(self.file, windows, self._clock)
                self.fault = Worded("")
            except Fault as fault:
                self.fault = says(fault)


# ==== The website's settings for the desk's figures: the currency of prices. The file is read again when it changes, so
# that the pages use the same settings as the website.

State = tuple[int, int]
"""When a file was changed last, in nanoseconds since 1970 UTC, and how many bytes it has."""


class SiteConfig:
    """The configuration of the website, if the application has one; `tag` is the language of the pages."""

    def __init__(self, path: Optional[Path], tag: str):
        self.path, self._tag = path, tag
        self._state: Optional[State] = None
        self._config: Optional[Config] = None

    def now(self) -> Optional[Config]:
        """The configuration as it is now, or as it was last while it can't be read, which *Publish* says; None if there
        is none yet."""
        if self.path is None:
            return None
        with contextlib.suppress(Fault, OSError):
            found = self.path.stat()
            state = found.st_mtime_ns, found.st_size
            if self._state != state:
                try:
                    self._config = read_config(self.path, KNOWN_IDS).spoken(self._tag)
                finally:
                    # (one that can't be read isn't read again for each price)
                    self._state = state
        return self._config

    def reference_in(self, month: str) -> str:
        """The period in which the website's levels of a month's release are 100; nothing if the configuration has none."""
        config = self.now()
        return config.reference_in(month) if config else ""

    def money(self) -> Optional[Money]:
        """The office's currency; None if the configuration names none."""
        config = self.now()
        return Money(10**config.minor_digits, config.currency) if config and config.currency else None


class OnceARequest:
    """Finds the currency once for all prices of a page, so that they have the same one even if the file changes
    meanwhile."""

    def __init__(self, find: Callable[[], Optional[Money]]):
        self._find = find

    def __call__(self) -> Optional[Money]:
        """The currency; within a request always the first one found."""
        if not flask.has_request_context():
            return self._find()
        if "money" not in flask.g:
            flask.g.money = self._find()
        money: Optional[Money] = flask.g.money
        return money


def prices_are(money: Optional[Money]) -> Message:
    """In what the prices of a page are."""
    if money is None:
        return _("Prices are in minor units of money: no website's configuration names the currency (--site-config).")
    return _("Prices are in {currency}.", currency=of_others(money.currency))

"""A browser that is as slow as a phone, whatever machine it runs on."""

from __future__ import annotations

import contextlib
import statistics
from collections.abc import Iterator

from .browser import Browser

PHONE = 24.0
"""Milliseconds that the phone of the tests needs for YARD, of which a server or a desk computer needs some four."""

MOST = 6
"""How many times the browser is slowed at most."""

YARD = """
const once = () => {
  const begun = performance.now(), words = new Map();
  for (let n = 0; n < 20000; n += 1) {
    const name = `row ${n % 500}`;
    words.set(name, (words.get(name) ?? "") + String.fromCharCode(97 + (n % 26)));
  }
  return [...words.values()].sort().join(" ").length && performance.now() - begun;
};
return Array.from({ length: 15 }, once);
"""
"""The yardstick, fifteen times: a work on strings and maps that doesn't change as the pages do."""


@contextlib.contextmanager
def as_a_phone(browser: Browser) -> Iterator[int]:
    """Slows the browser down until YARD takes about as long as on a phone; by how many times it is slowed.

    A machine that is slow itself, or at other work, is slowed less. The page must be open.
    """
    for times in range(MOST, 0, -1):
        with browser.slowed(times):
            if times == 1 or statistics.median(browser.run(YARD)) <= PHONE:
                yield times
                return

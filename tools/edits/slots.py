"""How many runs go on at once, if that may change while they do."""

from __future__ import annotations

import threading
from collections.abc import Callable, Iterator
from contextlib import contextmanager


class Slots:
    """Lets runs begin. `may_begin` says whether one more may, beside so many."""

    def __init__(self, may_begin: Callable[[int], bool]) -> None:
        self.may_begin, self.running = may_begin, 0
        self.changed = threading.Condition()

    @contextmanager
    def take(self) -> Iterator[None]:
        """Waits until one more run may begin, and counts it until the `with` ends."""
        with self.changed:
            while not self.may_begin(self.running):
                self.changed.wait(1)
            self.running += 1
        try:
            yield
        finally:
            with self.changed:
                self.running -= 1
                self.changed.notify_all()

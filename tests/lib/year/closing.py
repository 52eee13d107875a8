"""The desk's program for a freeze, `cpi-tools desk close`: it works on a copy, and prints the one record to send."""

from __future__ import annotations

import time
from collections.abc import Callable
from typing import Optional

from .judge import Broken
from .machine import Machine


class Closing:
    """Prepares freezes at a machine; `met` is called at each kill of the program."""

    def __init__(self, machine: Machine, met: Callable[[str], None]) -> None:
        self.machine, self.met = machine, met
        self.kills = 0
        """The number of times that the program is killed while it works."""

    def row(self, month: str) -> Optional[str]:
        """The row that freezes a month; None while the machine is lost."""
        if self.machine.is_lost:
            return None
        words = ["desk", "close", self.machine.file, month, "--carry", "all", "--by", "Ada"]
        words += ["--at", str(self.machine.clock.office)]
        while self.kills:
            self._killed(words)
        ended = self.machine.tools.run(*words)
        if ended.status:
            raise Broken(f"desk close ends with {ended.status}: {ended.told}")
        # (a record begins with its moment and its caller)
        _, _, row = ended.out.strip().split(",", 2)
        return row

    def _killed(self, words: list[str]) -> None:
        self.kills -= 1
        going = self.machine.tools.begin(*words)
        time.sleep(0.02 + 0.02 * self.kills)
        going.kill()
        going.end()
        self.met("desk")

"""The months of a simulated country, and the moments of each, in seconds since 1970 UTC."""

from __future__ import annotations

import calendar
from typing import NamedTuple

MINUTE, HOUR, DAY = 60, 3600, 86_400

FIRST_YEAR = 2025
"""The first month of all is the December of this year."""


class Month(NamedTuple):
    """A month by its name, such as 2026-01, and its moments."""

    at: int
    name: str
    begins: int

    @property
    def opens(self) -> int:
        return self.begins + 8 * HOUR

    @property
    def closes(self) -> int:
        return self.begins + 19 * DAY + 18 * HOUR

    @property
    def freezes(self) -> int:
        """The time at which the desk means to freeze the month."""
        return self.closes + 15 * HOUR

    @property
    def publishes(self) -> int:
        return self.begins + 24 * DAY + 9 * HOUR

    @property
    def year(self) -> int:
        return int(self.name[:4])


def month_at(at: int) -> Month:
    """The month that is so many months after the first."""
    year, number = FIRST_YEAR + (11 + at) // 12, (11 + at) % 12 + 1
    return Month(at, f"{year}-{number:02}", calendar.timegm((year, number, 1, 0, 0, 0)))


def months(count: int) -> list[Month]:
    """So many months from the first on."""
    return [month_at(at) for at in range(count)]

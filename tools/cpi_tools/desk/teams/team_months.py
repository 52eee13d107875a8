"""A team in a month: its collectors, from the one who is furthest behind on."""

from __future__ import annotations

from collections.abc import Iterable, Sequence
from typing import NamedTuple, Optional

from ...office.stored import StoredOffice
from ..looks.glance import CollectorShare, Glance
from .supervisor_rows import Supervisor

MOST_MONTHS = 6
"""Months to which a page leads, the latest ones."""


class Team(NamedTuple):
    """A supervisor's name, and the collectors of the team who have slots in the month."""

    name: str
    collectors: Sequence[CollectorShare]

    @property
    def slots(self) -> int:
        """The slots of all of them."""
        return sum(share.slots for share in self.collectors)

    @property
    def answers(self) -> int:
        """The slots with an entry: a price, or a reason why there is none."""
        return sum(share.answers for share in self.collectors)

    @property
    def missing(self) -> int:
        """The slots that were sent as missing, with a reason."""
        return sum(share.missing for share in self.collectors)

    @property
    def silent(self) -> int:
        """The slots for which nothing was sent."""
        return self.slots - self.answers


class Absent(NamedTuple):
    """Collectors of a team whom its rows don't show: those without slots in the month, and numbers that the office
    doesn't know."""

    without_slots: Sequence[int]
    unknown: Sequence[int]


def team_of(glance: Glance, supervisor: Supervisor) -> Team:
    """The team of a supervisor, those who are furthest behind first."""
    shares = [share for share in glance.collectors if supervisor.has(share.number)]
    return Team(supervisor.name, sorted(shares, key=rank_of))


def rank_of(share: CollectorShare) -> tuple[int, int, int]:
    """The place of a collector in the order: the least share of answered slots first, then the most slots that wait."""
    return share.answers * 1_000_000 // share.slots, -share.silent, share.number


def teams_of(glance: Glance, supervisors: Iterable[Supervisor]) -> list[Team]:
    """The teams of supervisors who don't have all collectors, those that are furthest behind first."""
    teams = [team_of(glance, supervisor) for supervisor in supervisors if not supervisor.has_all]
    return sorted(teams, key=lambda team: team.answers * 1_000_000 // team.slots if team.slots else 1_000_000)


def absent_of(glance: Glance, supervisor: Supervisor, known: Iterable[int]) -> Absent:
    """Whom the rows of a team don't show; `known` are the numbers of the office's collectors."""
    shown, numbers = {share.number for share in glance.collectors}, set(known)
    named = {first for first, last in supervisor.spans if first == last}
    without = sorted(number for number in numbers - shown if supervisor.has(number))
    return Absent(without, sorted(named - numbers))


def months_of_field(office: StoredOffice, at: int) -> list[int]:
    """The months whose windows have opened by a moment, in seconds since 1970 UTC; the first one of the calendar if
    none has."""
    calendar = office.calendar()
    return [window.month for window in calendar if window.opens <= at] or [window.month for window in calendar[:1]]


def month_in_field(office: StoredOffice, at: int) -> Optional[int]:
    """The month whose prices are collected: the last one whose window is open, else the last one whose window was; None
    if the calendar is empty."""
    is_open = [window.month for window in office.calendar() if window.opens <= at < window.closes]
    months = is_open or months_of_field(office, at)
    return months[-1] if months else None

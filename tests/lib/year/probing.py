"""The status with which a probe must end, from the replies that the judge has heard."""

from __future__ import annotations

from typing import Optional

from second_office.office import Office

from .moments import HOUR

WELL, WARNING, CRITICAL = 0, 1, 2
WARNED = 24 * HOUR
"""Seconds for which a probe warns of a refused request although a later write succeeded."""

JUMP = 2 * HOUR
"""Seconds by which times before and after a jump of the clock differ at most."""


class Writes:
    """The facts about an office's writes since one was refused."""

    def __init__(self) -> None:
        self.refused: Optional[int] = None
        """The time of the last refused request, by the office's clock."""
        self.is_stored = False
        """Whether something has been stored since."""
        self.is_clear = True
        """Whether everything since has been answered, so that this is known."""
        self.unheard: Optional[int] = None
        """The time of a command without an answer, which the disk may have refused."""
        self.is_over = True
        """Whether something has been stored since that command."""

    @property
    def is_troubled(self) -> bool:
        """Whether the disk has refused something, or may have."""
        return self.refused is not None or self.unheard is not None

    def answered(self, now: int, is_refused: bool, has_stored: bool) -> None:
        """Notes an answer."""
        if is_refused:
            # (rows of an import may be stored before and after the one that is refused)
            self.refused, self.is_stored, self.is_clear = now, False, not has_stored
        elif has_stored:
            self.is_stored = self.is_over = True

    def unanswered(self, now: int, is_command: bool, may_refuse: bool) -> None:
        """Notes a command that may have stored something, or that the disk may have refused."""
        self.is_clear = self.is_clear and not is_command
        if is_command and may_refuse:
            self.unheard, self.is_over = now, False

    def told(self, now: int, has_jumped: bool) -> tuple[int, int]:
        """The least and the greatest status that a probe may end with."""
        if has_jumped or not self.is_over:
            return WELL, CRITICAL
        least, most = self._heard(now)
        is_warned = self.unheard is not None and now - self.unheard <= WARNED
        return least, max(most, WARNING if is_warned else most)

    def _heard(self, now: int) -> tuple[int, int]:
        """The statuses from the refusals that were heard."""
        if self.refused is None:
            return WELL, WELL
        if not self.is_stored:
            return (CRITICAL if self.is_clear else WELL), CRITICAL
        age = now - self.refused
        if abs(age - WARNED) <= 1:
            return WELL, WARNING
        return (WARNING, WARNING) if age < WARNED else (WELL, WELL)


def is_late(offices: list[Office], now: int) -> bool:
    """Whether a month's publication time has come, but its table is missing."""
    for office in offices:
        for month, (_, _, publishes) in office.calendar.items():
            revisions = office.tables.get(month, [])
            if publishes <= now and not any(moment == publishes for moment, _ in revisions):
                return True
    return False

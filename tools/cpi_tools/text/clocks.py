"""The clock of an office: it converts civil times of the calendar to moments, and writes moments as texts.

A zone is a place such as `Europe/Prague`, or a POSIX rule such as `CET-1CEST,M3.5.0,M10.5.0/3`, like CPI_ZONE in the
office's settings. Moments are in seconds since 1970 UTC.
"""

from __future__ import annotations

import contextlib
import io
import re
import struct
import zoneinfo
from datetime import date, datetime, timezone, tzinfo
from typing import NamedTuple, Optional

from .languages import SPEAKS_ENGLISH, Speech
from .terminal import Fault

CIVIL = "%Y-%m-%dT%H:%M"
PLACE = re.compile(r"[A-Za-z][A-Za-z0-9_+-]*(/[A-Za-z0-9_+-]+)*")
RULE = re.compile(r"([A-Za-z]{3,}|<[A-Za-z0-9+-]{3,}>)[+-]?[0-9].*")
LETTERS = re.compile(r"[A-Z][A-Za-z]+")

WINTER, SUMMER = 1_893_456_000, 1_909_094_400
"""January and July 2030, at which a clock may show winter time and summer time."""


class NoZone(Fault):
    """A text is neither a place nor a rule; the message is one line."""


class Clock(NamedTuple):
    """The clock of a zone, given by its name; without a name it is UTC."""

    name: str = ""
    zone: Optional[tzinfo] = None

    @property
    def spoken_name(self) -> str:
        """The name that people use for the clock: the name of a place, or the names of a rule's times, such as
        `CET/CEST`."""
        if not RULE.fullmatch(self.name):
            return self.name or "UTC"
        return "/".join(dict.fromkeys(self.zone_at(at)[0] for at in (WINTER, SUMMER)))

    def moment(self, civil: str) -> int:
        """The moment at which the clock shows a time like `2026-01-28T09:30`: the earlier one of two such moments; for
        a time that the clock skips, the moment that is later by as much as the clock moves forward. Raises
        ValueError."""
        return int(datetime.strptime(civil, CIVIL).replace(tzinfo=self.zone or timezone.utc).timestamp())

    def local(self, moment: int, speech: Speech = SPEAKS_ENGLISH) -> str:
        """`28 January 2026, 09:30 CET`, or `.., 08:30 UTC` without a zone."""
        at = datetime.fromtimestamp(moment, self.zone or timezone.utc)
        return speech.moment(at, self._zone_name(at))

    def day(self, moment: int, speech: Speech = SPEAKS_ENGLISH) -> str:
        """`28 January 2026, 09:30 CET (08:30 UTC)`; without a zone only the time in UTC."""
        local, (zone, _) = self.local(moment, speech), self.zone_at(moment)
        return local if zone == "UTC" else f"{local} ({self._utc(moment, speech)})"

    def _utc(self, moment: int, speech: Speech) -> str:
        """`08:30 UTC`, with the day if it is another one there."""
        own = datetime.fromtimestamp(moment, self.zone or timezone.utc)
        there = datetime.fromtimestamp(moment, timezone.utc)
        return speech.time(there, "UTC") if own.date() == there.date() else UTC.local(moment, speech)

    def date_at(self, moment: int) -> date:
        """The day of a moment."""
        return datetime.fromtimestamp(moment, self.zone or timezone.utc).date()

    def zone_at(self, moment: int) -> tuple[str, int]:
        """The zone's name for its time at a moment, such as CET, and the number of seconds by which it is ahead of
        UTC."""
        at = datetime.fromtimestamp(moment, self.zone or timezone.utc)
        ahead = at.utcoffset()
        return self._zone_name(at), int(ahead.total_seconds()) if ahead else 0

    @staticmethod
    def _zone_name(at: datetime) -> str:
        """The zone's name for its time, such as CET, or its distance from UTC."""
        name = at.tzname() or "UTC"
        if LETTERS.fullmatch(name):
            return name
        offset = at.strftime("%z")
        return f"UTC{offset[:3]}" + (f":{offset[3:]}" if offset[3:] != "00" else "")


UTC = Clock()


def clock_of(name: str) -> Clock:
    """The clock of a place or of a rule; UTC for an empty text. Raises NoZone."""
    if not name:
        return UTC
    for form, read in ((PLACE, zoneinfo.ZoneInfo), (RULE, _of_rule)):
        with contextlib.suppress(zoneinfo.ZoneInfoNotFoundError, ValueError, OSError):
            if form.fullmatch(name):
                return Clock(name, read(name))
    raise NoZone(f"{name} is neither a place such as Europe/Prague nor a rule such as CET-1CEST,M3.5.0,M10.5.0/3")


def _of_rule(rule: str) -> tzinfo:
    """The zone of a rule, from a table (TZif, RFC 8536) that contains only the rule: UTC up to 1970, and then the
    rule."""
    head = struct.pack(">4sc15x6l", b"TZif", b"2", 0, 0, 0, 0, 1, 4)
    body = struct.pack(">lbb", 0, 0, 0) + b"UTC\0"
    table = io.BytesIO(2 * (head + body) + b"\n" + rule.encode() + b"\n")
    return zoneinfo.ZoneInfo.from_file(table, key=rule)

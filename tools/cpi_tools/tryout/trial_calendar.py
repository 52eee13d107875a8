"""The releases that a trial's website announces (`ops/try`): the tables that are out, those of the office's calendar,
and the months that follow. So website, phones and desk name the same moments, whatever day it is."""

from __future__ import annotations

import csv
from collections.abc import Iterable, Iterator, Sequence
from pathlib import Path

from ..office.public import Listed
from ..office.stored import Window
from ..text.clocks import Clock
from ..text.terminal import month_text

ANNOUNCED = "announced.csv"
"""The file, in the trial's folder."""

HEADING = ("month", "publishes")

MONTHS_AHEAD = 12
"""So many months are announced after the last one of the calendar."""

RELEASED = "{month}-28T09:30"
"""The moment of a release of these, by the office's clock, in the month after the one in which its prices are
collected: a trial's window is open for that long too."""


def later_month(month: int, by: int) -> int:
    """The month that comes so many months later: 202701 of 202612 and 1."""
    count = month // 100 * 12 + month % 100 - 1 + by
    return count // 12 * 100 + count % 12 + 1


def rows_announced(published: Iterable[Listed], windows: Sequence[Window]) -> Iterator[tuple[str, str]]:
    """A month and its moment for each release, as a file of announced releases has them: in seconds since 1970 UTC, and
    in civil time after the calendar's end. `published` are the tables that are out."""
    out: dict[str, int] = {}
    for listed in sorted(published):
        out[listed.month] = listed.moment
        yield listed.month, str(listed.moment)
    for window in windows:
        if window.publishes > out.get(month_text(window.month), -1):
            yield month_text(window.month), str(window.publishes)
    last = max((window.month for window in windows), default=0)
    for by in range(1, MONTHS_AHEAD + 1) if last else ():
        yield month_text(later_month(last, by)), RELEASED.format(month=month_text(later_month(last, by + 1)))


def write_announced(folder: Path, published: Iterable[Listed], windows: Sequence[Window]) -> Path:
    """Writes the file of announced releases into a trial's folder; its path."""
    file = folder / ANNOUNCED
    with file.open("w", encoding="utf-8", newline="") as out:
        csv.writer(out, lineterminator="\n").writerows([HEADING, *rows_announced(published, windows)])
    return file


def month_now(clock: Clock, at: float) -> str:
    """The month that a clock shows at a moment in seconds since 1970 UTC, `2026-12`."""
    return f"{clock.date_at(int(at)):%Y-%m}"

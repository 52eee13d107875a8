"""`cpi-tools calendar FILE --out CALENDAR`: the windows of the months as JSON, by which the phone's page shows a deadline.

`{"months": [{"month": "2026-11", "opens": 1793487600, "closes": 1796079599}]}`, in the order of the months, in seconds
since 1970 UTC. With the office's clock, a month also contains `"opens_zone": ["CET", 3600]` and `"closes_zone"`: that
clock's name for its time then, and by how many seconds it is ahead of UTC. Everybody can read it at the front's
`/calendar.json`, so it has neither publishing moments nor anything of collectors.
"""

from __future__ import annotations

import argparse
import json
import os
import time
from collections.abc import Iterable
from pathlib import Path
from typing import Optional

from ..text.clocks import UTC, Clock, clock_of
from ..text.report_language import ZONE_VARIABLE
from ..text.terminal import Fault, Progress, ToolWords, a_file, a_month, because_of, month_text, write_count
from ..text.text_files import write_whole
from .copying import private_copy
from .stored import Window, read_copy

DAYS_KEPT = 400
"""A month whose window closed longer ago isn't written, unless --since names an earlier beginning."""

DAY_SECONDS = 86_400

COLUMNS = ("month", "opens", "closes")
"""The fields of a window that are written."""

ZONES = ("opens_zone", "closes_zone")
"""The name of the office's clock for the time at both moments, and by how many seconds that is ahead of UTC."""


def windows_since(windows: Iterable[Window], since: Optional[int], now: int) -> list[Window]:
    """The windows from a month on; without one, those that close in the last 400 days before `now` or later."""
    if since is not None:
        return [window for window in windows if window.month >= since]
    return [window for window in windows if window.closes >= now - DAYS_KEPT * DAY_SECONDS]


def row_of(window: Window, clock: Clock) -> dict[str, object]:
    """A month of the calendar; a clock that is UTC isn't named."""
    row: dict[str, object] = dict(zip(COLUMNS, (month_text(window.month), window.opens, window.closes)))
    if clock.zone:
        row.update(zip(ZONES, map(clock.zone_at, (window.opens, window.closes))))
    return row


def text_of(windows: Iterable[Window], clock: Clock = UTC) -> str:
    """The calendar of some windows, a month a line."""
    rows = (row_of(window, clock) for window in windows)
    return '{"months": [' + ",".join(f"\n{json.dumps(row)}" for row in rows) + "\n]}\n"


def is_calendar(content: bytes) -> bool:
    """Whether a file's content is a calendar of this tool."""
    try:
        found = json.loads(content)
    except (ValueError, RecursionError):
        return False
    months = found.get("months") if isinstance(found, dict) and [*found] == ["months"] else None
    return isinstance(months, list) and all(
        isinstance(month, dict) and tuple(month) in (COLUMNS, (*COLUMNS, *ZONES)) for month in months
    )


def refuse_other_files(to: Path) -> None:
    """Raises Fault if the file at a place isn't a calendar, so that a slip in a name doesn't cost it."""
    try:
        content = to.read_bytes()
    except FileNotFoundError:
        return
    except OSError as fault:
        raise Fault(because_of(fault)) from fault
    if not is_calendar(content):
        raise Fault(f"{to} is there already, and is no calendar: give the calendar a name of its own")


def write_calendar(file: Path, to: Path, since: Optional[int] = None, clock: Clock = UTC) -> list[Window]:
    """Writes the calendar of an office's file, whole or not at all, with mode 0644; the windows in it.

    FILE is copied, and not a byte of it changes. Raises Fault if no right copy can be made, if it isn't an office, or
    if the calendar can't be put in its place.
    """
    refuse_other_files(to)
    with private_copy(file) as copy, read_copy(copy) as office:
        windows = windows_since(office.calendar(), since, int(time.time()))
    put_windows(to, windows, clock)
    return windows


def put_windows(to: Path, windows: Iterable[Window], clock: Clock = UTC) -> None:
    """Writes some windows as a calendar, whole or not at all, with mode 0644, unless the file has them already. Raises
    Fault, also if a file that isn't a calendar is at that place."""
    refuse_other_files(to)
    content = text_of(windows, clock).encode()
    try:
        if not to.exists() or to.read_bytes() != content:
            write_whole(to, content, 0o644)
    except OSError as fault:
        raise Fault(because_of(fault)) from fault


# ---- words

DESCRIPTION = """\
Writes the windows of an office's calendar as JSON, in the order of the months: when each month's
window opens and closes, in seconds since 1970 UTC, and the office's time zone at those times. The
front serves the file as /calendar.json, from which the collectors' page shows the deadline of a
month. The file contains the months whose window closed in the last 400 days or closes later. It
contains no release times, and nothing about collectors.

The tool copies FILE, whether cpi is running or not, and doesn't change it. It writes the calendar
whole or not at all, with mode 0644, and never replaces a file that isn't a calendar. Run it again
each time the desk has set a window.
"""

EPILOG = """\
example: cpi-tools calendar office.db --out calendar.json
         cpi-tools calendar /var/lib/cpi/office.db --out /var/lib/cpi-site/calendar.json

exit status: 0 if the calendar was written; 1 if it wasn't (one line says why); 2 if the arguments
are refused
"""


def add_words(tools: argparse._SubParsersAction[ToolWords]) -> None:
    """The tool `calendar`."""
    says = "Write the windows of the months for the collectors' page"
    words = tools.add_parser("calendar", help=says, description=DESCRIPTION, epilog=EPILOG)
    words.add_argument("file", type=Path, metavar="FILE", help="the office's file, which is only read")
    words.add_argument("--out", type=a_file, required=True, metavar="CALENDAR", help="where to write the calendar")
    words.add_argument(
        "--since", type=a_month, metavar="MONTH", help="the first month, like 2026-01 (else from the last 400 days)"
    )
    says = f"the office's clock: a place, or a POSIX rule (else from {ZONE_VARIABLE}, or UTC)"
    words.add_argument("--zone", metavar="ZONE", help=says)
    words.set_defaults(run=run, tool="calendar", words=words)


def run(chosen: argparse.Namespace) -> int:
    """Runs the tool by its words; its exit status."""
    clock = clock_of(chosen.zone or os.environ.get(ZONE_VARIABLE) or "")
    with Progress("cpi-tools calendar") as progress:
        progress.now("copying the office")
        windows = write_calendar(chosen.file, chosen.out, chosen.since, clock)
    span = f", {month_text(windows[0].month)} to {month_text(windows[-1].month)}" if windows else ""
    print(f"{chosen.out}: {write_count(len(windows), 'month')}{span}")
    return 0

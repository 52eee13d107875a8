"""The month at a glance.

The response of a month by day, as a small picture and as rows: the application's observations while the window was
open.
"""

from __future__ import annotations

import time
from collections.abc import Sequence
from typing import NamedTuple

import flask
from werkzeug.wrappers import Response

from ...office.stored import read_copy
from ...text.message import Message, message as _, message_of, sentences
from ...text.terminal import month_text
from ..serve.watched_office import Seen
from ..serve.request_context import desk, month_of, page, section_file
from .glance import Glance, months_of

views = flask.Blueprint("month", __name__)

REFRESH = 45
"""The seconds after which the page loads itself again."""


@views.get("/")
def first() -> Response:
    """To the month that the desk works at."""
    return flask.redirect(flask.url_for("month.glance", month=desk().watch.glance().month))


@views.get("/month/<month>/")
def glance(month: str) -> Response:
    """A month at a glance; with `still` the page doesn't load itself again."""
    glance = desk().watch.glance(month_of(month))
    with desk().copies.latest() as copy, read_copy(copy.path) as office:
        months = [month_text(month) for month in months_of(office)]
    is_still = "still" in flask.request.args
    now = int(time.time())
    expected = desk().watch.expect(glance)
    named = {
        "found": glance,
        "months": months,
        "is_still": is_still,
        "refresh": REFRESH,
        "now": now,
        "chart": chart_of(desk().watch.list_seen(), glance.state.month),
    }
    return page("glance.html", month=glance.month, left=time_left(glance, now), expected=expected, **named)


@views.get("/month/<month>/glance/<key>.csv")
def glance_file(month: str, key: str) -> Response:
    """A table of the glance as a file."""
    file = desk().watch.glance(month_of(month))
    for section in file.sections:
        if section.key == key:
            return section_file(file.month, section)
    flask.abort(404)


def time_left(glance: Glance, now: int) -> Message:
    """The time until the window closes, or until it opens, in days and hours: `3 days and 4 hours`."""
    window = glance.state.window
    seconds = (window.opens if now < window.opens else window.closes) - now
    if seconds <= 0:
        return sentences()
    days, hours, minutes = seconds // 86_400, seconds % 86_400 // 3_600, seconds % 3_600 // 60
    in_hours = message_of("{count} hour", "{count} hours", hours)
    if days:
        # t: a time that is left: 3 days and 4 hours
        return _("{days} and {hours}", days=message_of("{count} day", "{count} days", days), hours=in_hours)
    # t: a time that is left: 4 hours and 5 minutes
    return _("{hours} and {minutes}", hours=in_hours, minutes=message_of("{count} minute", "{count} minutes", minutes))


DAY = 86_400
WIDE, HIGH = 12, 60
"""Of a day, in the units of the picture: its width, and the height of 100 percent."""

GAP = 2

DAYS = 31
"""So many days have room at least."""


class Bar(NamedTuple):
    """A day, counted from 1 when the window opens: how many percent of the slots had a price at its end, with one
    decimal, and its bar: its left and top edges, and its height."""

    day: int
    percent: str
    x: int
    y: float
    height: float


class Chart(NamedTuple):
    """The bars, and the width and height of the picture."""

    bars: Sequence[Bar]
    wide: int
    high: int = HIGH
    bar: int = WIDE - GAP


def chart_of(rows: Sequence[Seen], month: int) -> Chart:
    """The picture of a month, with a bar for each day on which the application saw something; rows are in the order of
    their moments."""
    last = {row.after // DAY: row for row in rows if row.month == month and row.slots}
    bars = [_bar(day, it) for day, it in sorted(last.items())]
    return Chart(bars, max(DAYS, max(last, default=0) + 1) * WIDE)


def _bar(day: int, sighting: Seen) -> Bar:
    """The bar of a day."""
    height = round(HIGH * sighting.priced / sighting.slots, 1)
    return Bar(day + 1, f"{100 * sighting.priced / sighting.slots:.1f}", day * WIDE, round(HIGH - height, 1), height)

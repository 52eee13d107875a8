"""The windows of the months by the office's clock, those of a year as a form shows them, and the form that sets one."""

from __future__ import annotations

import calendar
import time
from collections.abc import Sequence
from datetime import datetime, timezone
from typing import NamedTuple, Optional

import flask
from werkzeug.wrappers import Response

from ...office.calendar_file import text_of, windows_since
from ...office.stored import StoredOffice, Window, read_copy
from ...text.clocks import CIVIL, Clock
from ...text.message import Message, Month, message as _, moment_of, sentences, whole
from ...text.others import Worded, of_others
from ...text.terminal import Fault, month_text
from ..freeze.reason_views import still_asked
from ..records.sample_kinds import KINDS
from ..records.sample_rows import judge
from ..records.sending import CALENDAR, what_stands
from ..serve.faults import says
from ..serve.request_context import NOTHING_DONE, desk, last_sent, page, session


# ==== the windows of a year by the office's clock, as a form shows them: the existing ones, and for the other months
# the windows of the previous year or month, moved forward


class FormRow(NamedTuple):
    """A month: its three civil times (empty if nothing is known), whether it has a window, whether it is frozen, and
    the times that a person filled in, if the page shows them."""

    month: str
    times: tuple[str, str, str]
    is_set: bool
    is_frozen: bool
    typed: Optional[tuple[str, str, str]] = None

    @property
    def was(self) -> str:
        """The text with which a form says which window it showed for the month."""
        return " ".join([SET if self.is_set else FREE, *self.times])


SET, FREE = "set", "free"
"""The part of a form that says whether a month has a window."""


class Given(NamedTuple):
    """A month of a form that came back: what the form showed of it, and the times that it has."""

    month: str
    was: str
    times: tuple[str, str, str]

    @property
    def is_changed(self) -> bool:
        """Whether a person changed what the form showed; times of a month that had no window are a proposal."""
        return any(self.times) and self.was != " ".join([SET, *self.times])

    @property
    def is_touched(self) -> bool:
        """Whether the times are others than the form showed."""
        return self.was.partition(" ")[2] != " ".join(self.times)


def civil(moment: int, clock: Clock) -> str:
    """A moment as the clock shows it, `2026-01-28T09:30`."""
    return datetime.fromtimestamp(moment, clock.zone or timezone.utc).strftime(CIVIL)


def move_time(text: str, months: int) -> str:
    """A civil time so many months later; a day that the month hasn't is its last one."""
    at = datetime.strptime(text, CIVIL)
    count = at.year * 12 + at.month - 1 + months
    year, month = count // 12, count % 12 + 1
    return at.replace(year=year, month=month, day=min(at.day, calendar.monthrange(year, month)[1])).strftime(CIVIL)


def rows_of(office: StoredOffice, year: int, clock: Clock) -> list[FormRow]:
    """The months of a year."""
    windows = {it.month: it for it in office.calendar()}
    frozen = {release.month for release in office.releases()}
    known = {month: times_of(window, clock) for month, window in windows.items()}
    rows = list[FormRow]()
    for month in (year * 100 + number for number in range(1, 13)):
        times = known.get(month) or suggest_times(month, known)
        if times:
            known[month] = times
        rows.append(FormRow(month_text(month), times or ("", "", ""), month in windows, month in frozen))
    return rows


def times_of(window: Window, clock: Clock) -> tuple[str, str, str]:
    """The civil times of a window."""
    return civil(window.opens, clock), civil(window.closes, clock), civil(window.publishes, clock)


def suggest_times(month: int, known: dict[int, tuple[str, str, str]]) -> Optional[tuple[str, str, str]]:
    """The times of a month, from the times a year earlier, or from the previous month's."""
    before = month - 1 if month % 100 > 1 else month - 89
    for earlier, months in ((month - 100, 12), (before, 1)):
        if earlier in known:
            opens, closes, publishes = (move_time(it, months) for it in known[earlier])
            return opens, closes, publishes
    return None


def find_changes(given: Sequence[Given]) -> list[list[str]]:
    """The rows that a person changed: month and three times."""
    return [[given_value.month, *given_value.times] for given_value in given if given_value.is_changed]


def quicker(rows: Sequence[FormRow], given: Sequence[Given]) -> list[str]:
    """The months that a person changed and whose window is another one now than the form showed."""
    now = {row.month: row.was for row in rows}
    return [
        given_value.month
        for given_value in given
        if given_value.is_changed and now.get(given_value.month) != given_value.was
    ]


def as_filled_in(rows: Sequence[FormRow], given: Sequence[Given]) -> list[FormRow]:
    """The months as they are now, with the times that a person filled in."""
    typed = {given_value.month: given_value.times for given_value in given if given_value.is_touched}
    return [row._replace(typed=typed.get(row.month)) for row in rows]


# ==== the windows of the months by the office's clock, and the form that sets one

views = flask.Blueprint("calendar", __name__)


class Row(NamedTuple):
    """A month as the page shows it: its moments in seconds since 1970 UTC, and its state."""

    month: str
    opens: int
    closes: int
    publishes: int
    state: Message


@views.get("/calendar")
def show() -> Response:
    """The windows, the latest month first."""
    with desk().copies_now() as copy, read_copy(copy.path) as office:
        calendar, releases, moments = office.calendar(), office.releases(), office.frozen_moments()
    latest = {release.month: release.revision for release in releases}
    now, rows = time.time(), list[Row]()
    for it in reversed(calendar):
        revision = latest.get(it.month, 0)
        if revision and it.publishes <= moments[it.month, revision][1]:
            state = _("frozen, revision {revision}", revision=whole(revision))
        elif now < it.opens:
            state = _("not open yet")
        else:
            state = _("open") if now < it.closes else _("closed, not frozen")
        rows.append(Row(month_text(it.month), *it[1:], state))
    year = time.gmtime(now).tm_year
    years = sorted({*(int(row.month[:4]) for row in rows), year, year + 1})
    return page("calendar.html", rows=rows, years=years, zone=desk().given.clock.spoken_name, asked=still_asked())


# ---- a year


@views.get("/calendar/<int:year>")
def show_year(year: int) -> Response:
    """The windows of a year in one form, with those that are likely for months that have none."""
    return shown_year(year)


def shown_year(year: int, status: int = 200, fault: Worded = Worded(""), given: Sequence[Given] = ()) -> Response:
    """The form of a year, with the reason why it wasn't taken, and with the typed fields."""
    named = {"year": year, "rows": as_filled_in(year_rows(year), given), "zone": desk().given.clock.spoken_name}
    return page("year-calendar.html", status, fault=fault, **named)


def year_rows(year: int) -> list[FormRow]:
    """The months of a year as they are now; a year that an office can't have has no page."""
    if not 2000 <= year <= 2199:
        flask.abort(404)
    with desk().copies_now() as copy, read_copy(copy.path) as office:
        return rows_of(office, year, desk().given.clock)


@views.post("/calendar/<int:year>")
def judge_year(year: int) -> Response:
    """Takes the windows that differ from those which the form showed, and judges them. The form contains the fields
    `month`, `was`, `opens`, `closes` and `publishes` once for each month."""
    kind, now, given = KINDS["calendar"], year_rows(year), given_year(year)
    rows = find_changes(given)
    if others := quicker(now, given):
        return shown_year(year, 409, sentences(*map(window_by, others), NOTHING_DONE), given)
    if not rows:
        return shown_year(year, 400, _("No window differs from the office's, so there is nothing to send."), given)
    try:
        desk().tray.take(session().person, kind.name, rows)
        judge(desk(), session().person, kind)
    except Fault as fault:
        return shown_year(year, 503, says(fault), given)
    return flask.redirect(flask.url_for("sample.show", kind=kind.name), 303)


def given_year(year: int) -> list[Given]:
    """The months of the form; one that lacks a field of a month, or has other months, is no form of this page (400)."""
    columns = [flask.request.form.getlist(name) for name in ("month", "was", "opens", "closes", "publishes")]
    months = {f"{year}-{number:02}" for number in range(1, 13)}
    if not columns[0] or len({*map(len, columns)}) > 1 or not months.issuperset(columns[0]):
        flask.abort(400)
    return [Given(month, was, (opens, closes, publishes)) for month, was, opens, closes, publishes in zip(*columns)]


def window_by(month: str) -> Message:
    """The message that somebody set the window of a month."""
    begins = [CALENDAR, month]
    with desk().copies.latest() as copy, read_copy(copy.path) as office:
        (stands,) = what_stands(office, [begins])
    entry = last_sent(desk().log, begins, stands)
    if entry is None:
        return _("The window of {month} has changed.", month=Month(month))
    places = {"name": of_others(entry.by), "month": Month(month), "moment": moment_of(entry.at)}
    return _("{name} sent another window of {month}, {moment}.", **places)


# ---- the phones


@views.get("/calendar/calendar.json")
def phones() -> Response:
    """The file by which phones show a deadline, as `cpi-tools calendar` writes it."""
    with desk().copies_now() as copy, read_copy(copy.path) as office:
        windows = windows_since(office.calendar(), None, int(time.time()))
    return flask.Response(text_of(windows, desk().given.clock), mimetype="application/json")

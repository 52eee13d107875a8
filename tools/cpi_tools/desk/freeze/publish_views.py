"""Publishing: which tables are in the website, which are due, and which come when; it is written now, or at a table's
moment.

The form `/publish/now` takes `shown`, the sum of what the page showed to be due, and `written`, when it was written last;
`/publish/plan` takes `month` and `revision`
of a frozen month, `what`, which is `plan` or `drop`, and `shown`, the sum of what the page showed of the table.
"""

from __future__ import annotations

import time

import flask
from werkzeug.wrappers import Response

from ...office.stored import read_copy
from ...text.message import message as _
from ...text.others import Worded, of_others
from ...text.terminal import Fault
from ..records.desk_log import NOT_PLANNED, PLANNED, WRITTEN
from ..serve.faults import says
from ..serve.request_context import changed_by, changed_by_step, desk, field, page, session
from .freezes import sum_of
from .publication import Planned, Publisher, Release
from .reason_views import not_written

views = flask.Blueprint("publish", __name__)

NOTHING = Worded("")


@views.get("/publish")
def show() -> Response:
    """The state of the website."""
    return show_result()


def show_result(status: int = 200, fault: Worded = NOTHING) -> Response:
    """The page, with the result of a step."""
    publisher = desk().publisher
    if publisher is None:
        return page("publish.html", publisher=None, fault=fault)
    try:
        releases, address = releases_of(publisher), publisher.address()
    except Fault as cause:
        fault, releases, address = fault or says(cause), [], ""
    now = int(time.time())
    named = {
        "publisher": publisher,
        "due": due_at(releases, now),
        "shown_due": shown_due(releases),
        "to_come": [release for release in releases[::-1] if release.at > now],
        "published": [release for release in releases if release.is_published],
        "address": address,
        "written_at": publisher.written_at(),
        "not_written": not_written(),
    }
    return page("publish.html", status, fault=fault, **named)


def due_at(releases: list[Release], now: int) -> list[Release]:
    """The tables that are out, and not in the website."""
    return [release for release in releases if release.at <= now and not release.is_published]


def shown_due(releases: list[Release]) -> str:
    """A sum of the tables that the page shows as due."""
    return sum_of([release.sum_of_page for release in due_at(releases, int(time.time()))])


def releases_of(publisher: Publisher) -> list[Release]:
    """The frozen months as they are now. Raises Fault."""
    with desk().copies_now() as copy, read_copy(copy.path) as office:
        return publisher.releases(office)


@views.post("/publish/now")
def now() -> Response:
    """Writes the website with all released tables, if the page showed these."""
    publisher, was, written = publisher_here(), field("shown"), field("written")
    try:
        releases = releases_of(publisher)
    except Fault:
        # (the page said why; `publish` meets it too, and says it again)
        releases = []
    if written != str(publisher.written_at() or 0):
        return show_result(409, changed_by_step(WRITTEN))
    if shown_due(releases) != was:
        return show_result(409, changed_by("", 0))
    publisher.begin(session().person)
    return flask.redirect(flask.url_for("publish.show"), 303)


@views.post("/publish/plan")
def plan() -> Response:
    """Plans to publish a table at its moment, or takes that back, if the page showed how it is."""
    publisher, month, revision, what = publisher_here(), field("month"), field("revision"), field("what")
    try:
        releases = [
            release for release in releases_of(publisher) if (release.month, str(release.revision)) == (month, revision)
        ]
        if not releases or what not in ("plan", "drop"):
            places = {"month": of_others(month), "revision": of_others(revision)}
            raise Fault(_("There is nothing to publish: {month} has no revision {revision}.", **places))
        if field("shown") != releases[0].sum_of_page:
            says_who = changed_by_step(PLANNED, NOT_PLANNED, has=f"{month}, revision {revision}")
            return show_result(409, says_who)
        if what == "drop":
            publisher.drop(session().person, month, releases[0].revision)
        else:
            publisher.plan(Planned(session().person, month, releases[0].revision, releases[0].at))
    except Fault as fault:
        return show_result(400, says(fault))
    return flask.redirect(flask.url_for("publish.show"), 303)


def publisher_here() -> Publisher:
    """The writer of the website; the page doesn't exist if the application has no folder for the website."""
    publisher = desk().publisher
    if publisher is None:
        flask.abort(404)
    return publisher

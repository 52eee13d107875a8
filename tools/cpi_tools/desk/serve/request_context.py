"""The context of a view: the desk, the session, how a template becomes a page, and changes by others meanwhile."""

from __future__ import annotations

import argparse
import io
import urllib.parse
from collections.abc import Mapping, Sequence
from typing import Any, Optional

import flask
from markupsafe import Markup
from werkzeug.wrappers import Response

from ...office.stored import read_copy
from ...text.message import Message, Section, message as _, moment_of, sentences
from ...text.others import of_others
from ...text.terminal import a_month
from ...text.text_files import Writer, formulas_told
from ..records.desk_log import ANSWERED, LOOKED_UP, SAID, SENT, DeskLog, Entry
from ..records.sending import CALENDAR, REPLACED, record_reply, what_stands
from .desk import Desk
from .sessions import Session


# ==== pages that reload themselves: only a page that was requested by its address, never one that answers a form

BY_ITSELF = "itself"
"""The part of an address that says that a page loaded itself, and that nobody did."""


def is_answer() -> bool:
    """Whether the page answers a form, so that loading it would send the form again."""
    return flask.request.method == "POST"


def is_by_itself() -> bool:
    """Whether a page loaded itself."""
    return BY_ITSELF in flask.request.args


def loads_itself(seconds: int) -> Markup:
    """The element in the head of a page that loads it again after so many seconds; nothing if the page answers a
    form."""
    if is_answer():
        return Markup("")
    asked = [(name, text) for name, text in flask.request.args.items(multi=True) if name != BY_ITSELF]
    path = flask.request.script_root + urllib.parse.quote(flask.request.path)
    address = f"{path}?{urllib.parse.urlencode([*asked, (BY_ITSELF, '1')])}"
    return Markup('<meta http-equiv="refresh" content="{}; url={}">').format(seconds, address)


def without_itself(place: str) -> str:
    """The address of a page without the word that it loaded itself."""
    path, _, query = place.partition("?")
    if BY_ITSELF not in query:
        return place
    asked = [it for it in urllib.parse.parse_qsl(query, keep_blank_values=True) if it[0] != BY_ITSELF]
    return f"{path}?{urllib.parse.urlencode(asked)}" if asked else path


# ==== the context of a view: the desk, the person's session, and how a template becomes a page

AFTER = "after"
"""The part of an address that names the result of the form before."""


def desk() -> Desk:
    """The desk of the application."""
    desk: Desk = flask.current_app.extensions["desk"]
    return desk


def session() -> Session:
    """The session of the request, which was admitted."""
    session: Session = flask.g.session
    return session


def page(template: str, status: int = 200, /, **named: object) -> Response:
    """A page of a template."""
    made: Any = flask.current_app.extensions["page"]
    response: Response = made(template, status, **named)
    return response


def after(view: str, came: Mapping[str, object], /, **of_address: Any) -> Response:
    """Leads from a form to a page that shows its result, which is named as the page's template names it. No page
    answers a form that was carried out, so loading it again does nothing twice."""
    to: dict[str, Any] = {AFTER: desk().answers.keep(session().person, (view, came))}
    return flask.redirect(flask.url_for(view, **of_address, **to), 303)


def what_came() -> Mapping[str, Any]:
    """The result of the form that led to this page; nothing if none did, or if it is no longer kept."""
    view, came = desk().answers.of(flask.request.args.get(AFTER, ""), session().person) or ("", {})
    return came if view == flask.request.endpoint else {}


def field(name: str) -> str:
    """A field that the form has to have: a form without it isn't a form of these pages (400)."""
    return flask.request.form[name]


def month_of(text: str) -> int:
    """202601 of `2026-01` in an address; any other text has no page."""
    try:
        return a_month(text)
    except argparse.ArgumentTypeError:
        flask.abort(404)


def file_name(month: str, key: str) -> str:
    """The name of the CSV file of a table: `2026-01-silent.csv`."""
    return f"{month}-{key}.csv"


def section_file(month: str, section: Section) -> Response:
    """All rows of a section as a CSV file; a text that begins as a formula has an apostrophe before it."""
    text = io.StringIO()
    with formulas_told("", True):
        out = Writer(text)
        out.writerow([column.name for column in section.columns])
        out.writerows(["" if cell is None else cell for cell in row] for row in section.rows)
    return csv_file(file_name(month, section.key), text.getvalue())


def csv_file(name: str, text: str) -> Response:
    """A CSV file to keep."""
    answer = flask.Response(text, mimetype="text/csv")
    answer.headers["Content-Disposition"] = f'attachment; filename="{name}"'
    return answer


# ==== changes by others to the content of a page before its form came back: such a form does nothing, and the page
# names the other person

NOTHING_DONE = _("Nothing was done: this page shows the current state, with what you filled in.")


def changed_by(name: str, at: int) -> Message:
    """The message that somebody changed a page's content, at a moment in seconds since 1970 UTC; without a name if it
    isn't known who."""
    if not name:
        return sentences(_("This was changed after your page was loaded."), NOTHING_DONE)
    places = {"name": of_others(name), "moment": moment_of(at)}
    return sentences(_("{name} changed this after your page was loaded, {moment}.", **places), NOTHING_DONE)


def changed_by_step(*begins: str, has: str = "") -> Message:
    """The message about the last step in the log that begins with one of these texts and contains another one."""
    for entry in reversed(desk().log.entries):
        if entry.what == SAID and entry.text.startswith(begins) and has in entry.text:
            return changed_by(entry.by, entry.at)
    return changed_by("", 0)


# ---- records that take the place of others


def replaced_since(records: Sequence[Sequence[str]], stood: Sequence[str]) -> Optional[Message]:
    """The message that the office now contains another record in the place of one of these than when it was judged;
    None if it doesn't. Raises Fault."""
    if not any(fields[0] in REPLACED for fields in records):
        return None
    with desk().copies_now() as copy, read_copy(copy.path) as office:
        now = what_stands(office, records)
    others = [(fields[:2], other) for fields, one, other in zip(records, stood, now) if one != other]
    if not others:
        return None
    begins, stands = others[0]
    says = [_("{record} changed after yours was checked.", record=of_others(",".join(begins)))]
    if entry := last_sent(desk().log, begins, stands):
        places = {"name": of_others(entry.by), "moment": moment_of(entry.at)}
        says.append(_("{name} sent it, {moment}.", **places))
    return sentences(*says, _("Nothing was sent: check yours again."))


def last_sent(log: DeskLog, begins: Sequence[str], stands: str) -> Optional[Entry]:
    """The line of the last record that begins with these fields and was carried out, if the office still contains it,
    as `what_stands` gives it: others than this desk may have sent another one."""
    ends = {entry.of: entry for entry in log.entries if entry.what in (ANSWERED, LOOKED_UP)}
    for entry in reversed(log.entries):
        replies = ends[entry.number].replies if entry.what == SENT and entry.number in ends else []
        for fields, reply in zip(entry.records, replies):
            if fields[: len(begins)] == [*begins] and record_reply(fields, reply).is_done:
                return entry if fields[0] != CALENDAR or ",".join(fields[2:]) == stands else None
    return None

"""Records of the desk, judged by `cpi` on a copy row by row, and then sent."""

from __future__ import annotations

from collections.abc import Sequence
from typing import NamedTuple, Optional

import flask
from werkzeug.wrappers import Response

from ...office.program import Reply
from ...office.stored import StoredOffice, read_copy
from ...text.text_files import line_of
from ...text.message import Message as Sentence, message as _
from ...text.terminal import Fault
from ..freeze.reason_views import still_asked
from ..serve.faults import says
from ..serve.sent_forms import Offer
from ..serve.request_context import after, desk, field, page, replaced_since, session, what_came
from .sending import NOT_SENT, RecordReply, record_reply, what_stands
from .record_judge import PLAN, clock_warnings, judge as judge_on_copy, lines_of, read_given, records_of
from .record_sentences import names_in, names_of, sentence_of

views = flask.Blueprint("records", __name__)


SHOWN = 200
"""Rows of a kind that a page lists."""

MOST_SHOWN_BYTES = 500_000
"""Bytes of a text that is put into a field again, if it couldn't be read as records."""


class Row(NamedTuple):
    """A record with its line, the message about it, and its sentence if there is one."""

    line: int
    reply: RecordReply
    fields: Sequence[str]
    says: Optional[Sentence] = None


@views.get("/records")
def show() -> Response:
    """The form, with what `cpi` answered to the records of the form before."""
    return records_page(200, **what_came())


def records_page(status: int = 200, /, **named: object) -> Response:
    """The page of records: the judged ones, and a form for more."""
    empty = {
        "text": "",
        "fault": "",
        "rows": [],
        "offer": "",
        "good": 0,
        "bad": 0,
        "warnings": [],
        "plan": None,
        "file": "",
    }
    return page("records.html", status, **{**empty, **named})


@views.post("/records/judge")
def judge() -> Response:
    """The answer that the office would give to each record. The form contains records in `text`, or in `file`, or a
    record's `word` with each argument in a `field`, or the `year` and rows of a plan."""
    try:
        given_value = read_given()
    except Fault as fault:
        form = flask.request.form
        plan = (form.get("year", ""), form.get("text", "")) if form.get("word") == PLAN else None
        return records_page(400, text="" if plan else form.get("text", ""), plan=plan, fault=says(fault))
    try:
        records = records_of(given_value.text, desk().given.clock)
        with desk().copies_now() as copy:
            replies, warnings = judge_on_copy(desk().cpi, copy.path, records)
            with read_copy(copy.path) as office:
                stood = what_stands(office, records)
                rows = [
                    Row(*it) for it in zip(lines_of(given_value.text), map(record_reply, records, replies), records)
                ]
                listed = explain_rows(office, choose_rows(rows), records)
    except Fault as fault:
        kept = "" if given_value.plan or len(given_value.text) > MOST_SHOWN_BYTES else given_value.text
        return records_page(400, text=kept, plan=given_value.plan, fault=says(fault), file=given_value.file)
    good = [each for each, row in zip(zip(records, stood), rows) if row.reply.is_done]
    bad = [row for row in rows if not row.reply.is_done]
    offer = Offer([fields for fields, _stood in good], [each for _fields, each in good])
    came = {
        "text": "" if given_value.plan else "".join(f"{row.reply.record}\n" for row in bad),
        "plan": given_value.plan if bad else None,
        "rows": listed,
        "good": len(good),
        "bad": len(bad),
        "warnings": [*clock_warnings(given_value.text, desk().given.clock), *warnings],
        "offer": desk().offers.keep(session().person, offer) if good else "",
    }
    return after("records.show", came)


def choose_rows(rows: Sequence[Row]) -> list[Row]:
    """The rows that a page lists: all of them, or the first ones of each kind, those that are refused first."""
    if len(rows) <= SHOWN:
        return [*rows]
    kinds = [[row for row in rows if row.reply.is_done == is_done] for is_done in (False, True)]
    return [row for kind in kinds for row in kind[:SHOWN]]


def explain_rows(office: StoredOffice, rows: Sequence[Row], records: Sequence[Sequence[str]]) -> list[Row]:
    """The rows that a page lists with their sentences; `records` are all that were judged, which may name each other."""
    names = names_of(office, records, [row.fields for row in rows])
    return [row._replace(says=sentence_of(row.fields, names)) for row in rows]


@views.post("/records/send")
def send() -> Response:
    """Sends records that were judged, once."""
    offer, left = desk().offers.take(field("offer"), session().person), field("left")
    if offer is None:
        fault = _("These records were already sent, or the session has changed: the log says what happened to them.")
        return records_page(409, text=left, fault=fault)
    records = offer.records
    text = left + "".join(f"{line_of(fields)}\n" for fields in records)
    try:
        if others := replaced_since(records, offer.stood):
            return records_page(409, text=text, fault=others)
        replies = desk().send(session(), records)
    except Fault as fault:
        return records_page(503, text=text, fault=_("Nothing was sent: {fault}", fault=says(fault)))
    rows = pair_replies(records, replies)
    text = left + "".join(
        f"{row.record}\n" for row in rows if row.answer == NOT_SENT or row.answer.startswith("refused")
    )
    names = names_in(records)
    pairs = [(row, sentence_of(fields, names)) for row, fields in zip(rows, records)]
    listed = pairs if len(rows) <= SHOWN else [pair for pair in pairs if not pair[0].is_done][:SHOWN]
    came = {"rows": listed, "count": len(rows), "text": text, "done": sum(row.is_done for row in rows)}
    return after("records.show_sent", came)


@views.get("/records/sent")
def show_sent() -> Response:
    """The results of sent records; the log contains those that are no longer kept."""
    came = what_came()
    if not came:
        return flask.redirect(flask.url_for("log.show"))
    try:
        asked = still_asked()
    except Fault:
        # (what became of the records is said whatever else can't be read now)
        asked = None
    return page("records-sent.html", asked=asked, **came)


def pair_replies(records: Sequence[Sequence[str]], replies: Sequence[Optional[Reply]]) -> list[RecordReply]:
    """The messages about records and their replies: after a message without a reply, nothing more was sent."""
    waiting = {tuple(record) for entry in desk().log.open_entries() for record in entry.records}
    record_replies = list[RecordReply]()
    for fields, reply in zip(records, replies):
        is_open = reply is None and tuple(fields) in waiting
        record_replies.append(
            record_reply(fields, reply) if is_open or reply is not None else record_reply(fields, reply, NOT_SENT)
        )
    return record_replies

"""Phones' requests about field notes and questions, behind a front: with a collector's key, without a session."""

from __future__ import annotations

import re
from collections.abc import Mapping
from typing import NamedTuple, Optional

import flask
from werkzeug.exceptions import HTTPException
from werkzeug.wrappers import Response

from ...office.stored import read_copy
from ...text.message import Message, message as _, whole
from ...text.terminal import Fault, month_text
from ..records.desk_log import ANSWERED_QUESTION, SAID
from ..serve.desk import Desk
from ..serve.request_context import desk, month_of
from ..serve.sent_forms import has_too_many
from .field_limits import MOST_ANSWERS, MOST_MESSAGE_BYTES, MOST_NOTES
from .field_notes import MOST_RECEIPT, FieldNotes, Of, Refused, Said, TooMany, sent_of, text_of
from .field_questions import (
    CONFIRMED,
    CORRECTED,
    TEXT,
    FieldQuestions,
    NoQuestion,
    Question,
    Said as Answered,
    TooManyAnswers,
)
from .one_photograph import NO_PICTURE
from .photographs import MESSAGES, Busy, NotAPicture, without_traces


# ==== the collector of a key: the office says whether it accepts the key, and a copy of its file contains the number

FIELD = re.compile("[ \t]*CPI-Key +([0-9a-f]{32})[ \t]*", re.ASCII | re.IGNORECASE)

MISSING = "missing"
"""The mark of a quote without a price, which contains the reason in place of the price."""

NOBODY, DESK = 11, 12
"""The refusals of a key that nobody has, and of a key that isn't a collector's."""

STATUS = {NOBODY: 401, DESK: 403}


class NoCollector(Exception):
    """A request without a collector's key: a status, and the office's number of the refusal."""

    def __init__(self, number: int):
        super().__init__(number)
        self.number, self.status = number, STATUS.get(number, 409)


class KnownQuote(NamedTuple):
    """A quote in the office: its mark, or the reason why there is no price; the price in minor units, or 0; its
    receipt."""

    mark: str
    value: int
    receipt: int


class KnownCollector(NamedTuple):
    """A collector, and by slot the quotes that the office has of a month."""

    collector: int
    quotes: dict[int, KnownQuote]


def collector_of_field(desk: Desk, field: str, month: int) -> KnownCollector:
    """The collector of a field Authorization. Raises NoCollector, or Fault if the office can't be asked."""
    match = FIELD.fullmatch(field)
    if not match or match[1] != match[1].lower():
        raise NoCollector(NOBODY)
    reply = desk.office.quotes(match[1], month_text(month))
    if "refused" in reply:
        raise NoCollector(int(reply["refused"]))
    quotes = {int(row[0]): _quote(row[2], row[3], int(row[4])) for row in reply.get("quotes", [])}
    return KnownCollector(_number_of(desk, match[1]), quotes)


def _quote(mark: str, value: object, receipt: int) -> KnownQuote:
    return KnownQuote(str(value), 0, receipt) if mark == MISSING else KnownQuote(mark, int(str(value)), receipt)


def _number_of(desk: Desk, key: str) -> int:
    """The number of a collector whom the office knows. Raises Fault."""
    with desk.copies.latest() as copy:
        number = _in_copy(copy.path, key)
    if number is None:
        with desk.copies_now() as copy:
            number = _in_copy(copy.path, key)
    if number is None:
        raise Fault(
            _(
                "The office accepts a key that the copy of its file doesn't contain: does the file"
                " belong to another office?"
            )
        )
    return number


def _in_copy(path: object, key: str) -> Optional[int]:
    with read_copy(path) as office:  # type: ignore[arg-type]
        return office.collector_of(key)


# ==== Phones' requests about field notes, at /notes/ behind a front: with a collector's key, without a session
#
# A key is checked by asking the office for that collector's own quotes, so only collectors that the office knows get
# in, and a note is accepted only for a price that the office has. The number of the collector is read from a copy of
# the office's file. No key is kept or written. Answers are JSON: `note` with a number, `refused` with the office's
# number of a refusal, or `fault` with a word.

views = flask.Blueprint("field", __name__, url_prefix="/notes")


def find_notes() -> FieldNotes:
    """The notes; if notes are off, the page doesn't exist."""
    field = desk().field
    if field is None:
        flask.abort(404)
    return field


def caller(month: int) -> KnownCollector:
    """The collector whose key the request has, with the quotes of a month. Raises Refused, or Fault."""
    try:
        return collector_of_field(desk(), flask.request.headers.get("Authorization", ""), month)
    except NoCollector as fault:
        raise Refused(fault.status, refused=fault.number) from fault


@views.post("/<month>/<int:slot>")
def send(month: str, slot: int) -> Response:
    """Takes a note of a price. Cheap checks come first, and a photograph is opened last."""
    notes, number = find_notes(), month_of(month)
    photo = bounded_photo()
    if photo and desk().turns.is_full():
        raise Busy
    who = caller(number)
    sent = sent_of(flask.request.form, photo)
    if number < notes.first_month():
        raise Refused(
            409, fault="past", wanted=_("A month no earlier than {month}.", month=month_text(notes.first_month()))
        )
    stored = who.quotes.get(slot)
    if stored is None or sent.receipt > stored.receipt:
        raise Refused(
            409, fault="price", wanted=_("The receipt of a price that the office has for this slot and month.")
        )
    return flask.jsonify(note=number_of(notes, Of(who.collector, slot, number, sent.receipt), sent.said))


def check_bounds(most: int, named: str) -> None:
    """Refuses a message of more bytes, by the name of its longest field, or of too many fields. Raises Refused."""
    length = flask.request.content_length
    if length is None or length > most:
        raise Refused(413, fault="long", field=named, wanted=_("At most {most} bytes.", most=whole(most)))
    if has_too_many():
        flask.abort(413)


def bounded_photo() -> bytes:
    """The photograph of a message, empty for none. Raises Refused if the message is too long, or NotAPicture if it has
    one without a byte."""
    check_bounds(MOST_MESSAGE_BYTES, "photo")
    sent = flask.request.files.get("photo")
    photo: bytes = sent.read() if sent else b""
    if sent and not photo:
        raise NotAPicture(MESSAGES[NO_PICTURE])
    return photo


def number_of(notes: FieldNotes, of: Of, said: Said) -> int:
    """The number of a note that is kept, now or before. Raises Refused, NotAPicture, Busy or Fault."""
    try:
        had = notes.number_of(of, said)
        if had is not None:
            return had
        if not said.photo:
            return notes.add(of, said, None)
        with desk().turns.turn(of.collector):
            return notes.add(of, said, without_traces(said.photo))
    except TooMany as fault:
        raise Refused(409, fault="many", wanted=_("At most {most} notes per month.", most=whole(MOST_NOTES))) from fault


@views.get("/<month>")
def own(month: str) -> Response:
    """The notes of a month that this collector has sent: number, slot, receipt, moment, whether it is a sale, brand,
    quantity, text, whether there is a photograph."""
    notes, number = find_notes(), month_of(month)
    found = notes.of_month(number, caller(number).collector)
    return flask.jsonify(notes=[[it.number, it.slot, *it[4:]] for it in found])


@views.get("/<month>/photo/<int:number>")
def own_photo(month: str, number: int) -> Response:
    """The photograph of a note of this collector's; of anybody else's it is as if there were none."""
    notes = find_notes()
    photo = notes.photo(number, caller(month_of(month)).collector)
    if photo is None:
        flask.abort(404)
    return flask.Response(photo, mimetype="image/jpeg")


@views.errorhandler(Refused)
def _answer_refusal(refused: Refused) -> Response:
    render = desk().teller.render
    answer = flask.jsonify(
        {name: str(render(it)) if isinstance(it, Message) else it for name, it in refused.answer.items()}
    )
    answer.status_code = refused.status
    return answer


@views.errorhandler(NotAPicture)
def _no_picture(fault: NotAPicture) -> Response:
    return _answer_refusal(Refused(400, fault="picture", wanted=fault.args[0]))


@views.errorhandler(Fault)
def _fault(fault: Fault) -> Response:
    """(Why is the desk's: a collector learns only to come again.)"""
    flask.current_app.logger.warning("field: %s", fault)
    answer = _answer_refusal(Refused(503, fault="office"))
    answer.headers["Retry-After"] = "10"
    return answer


@views.errorhandler(Busy)
def _busy(busy: Busy) -> Response:
    """(The phone keeps the note, and sends it again.)"""
    if busy.args:
        flask.current_app.logger.warning("field: a photograph can't be opened now: %s", busy)
    answer = _answer_refusal(Refused(503, fault="busy"))
    answer.headers["Retry-After"] = "2"
    return answer


@views.errorhandler(HTTPException)
def _none(fault: HTTPException) -> Response:
    status = fault.code or 500
    return _answer_refusal(Refused(status, fault="long" if status == 413 else "none"))


# ==== Phones' requests about the desk's questions, next to the field notes and under the same key: a collector's own
# open questions, and the answer to one
#
# An answer that a price is right contains the receipt of that price; an answer that it was corrected contains the
# receipt of a later price: both are judged by what the office itself answers of that collector's quotes. No price comes
# by here.

ANY_MONTH = 200001
"""A month for which the office answers any collector, so that the key is judged."""


def find_questions() -> FieldQuestions:
    """The questions; if notes are off, the page doesn't exist."""
    questions = desk().questions
    if questions is None:
        flask.abort(404)
    return questions


@views.get("/questions")
def list_questions() -> Response:
    """This collector's open questions, of whatever month: number, month, slot, the receipt and the price in question,
    moment, text."""
    questions = find_questions()
    rows = questions.open_of(caller(ANY_MONTH).collector)
    return flask.jsonify(
        questions=[
            [row.number, month_text(row.of.month), row.of.slot, row.of.receipt, row.of.price, row.at, row.text]
            for row in rows
        ]
    )


@views.post("/<month>/questions/<int(max=999999999):number>")
def answer(month: str, number: int) -> Response:
    """Takes the answer to a question of this collector's; of anybody else's it is as if there were none."""
    questions, of = find_questions(), month_of(month)
    check_bounds(MOST_MESSAGE_BYTES, "text")
    who = caller(of)
    try:
        question = questions.of_collector(who.collector, of, number)
        said = said_of(flask.request.form, who, question)
        text = ANSWERED_QUESTION.format(number=number, collector=who.collector, month=month)
        by = f"collector {who.collector}"
        return flask.jsonify(answer=questions.answer(question, said, lambda _: desk().log.append(by, SAID, text=text)))
    except NoQuestion as fault:
        raise Refused(404, fault="question", wanted=_("A question that the desk has asked you.")) from fault
    except TooManyAnswers as fault:
        wanted = _("At most {most} answers to a question.", most=whole(MOST_ANSWERS))
        raise Refused(409, fault="many", wanted=wanted) from fault


def said_of(form: Mapping[str, str], who: KnownCollector, question: Question) -> Answered:
    """The answer of a form. Raises Refused if it has another form, or if the office has another price than it says."""
    what, text = form.get("what", ""), text_of(form, "text")
    if what not in (CONFIRMED, CORRECTED, TEXT):
        wanted = _("The word confirmed, corrected or text.")
        raise Refused(400, fault="form", field="what", wanted=wanted)
    if what == TEXT:
        if not text:
            raise Refused(400, fault="form", field="text", wanted=_("Some text: the answer is empty."))
        return Answered(TEXT, 0, "", 0, text)
    receipt = form.get("receipt", "")
    if not re.fullmatch("[1-9][0-9]{0,9}", receipt, re.ASCII) or int(receipt) > MOST_RECEIPT:
        raise Refused(400, fault="form", field="receipt", wanted=_("The receipt of the price: a number of at least 1."))
    stored = who.quotes.get(question.of.slot)
    if stored is None or stored.receipt != int(receipt) or (what == CORRECTED and int(receipt) <= question.of.receipt):
        raise Refused(409, fault="price", wanted=_("The receipt of the price that the office now has for this slot."))
    return Answered(what, stored.receipt, stored.mark, stored.value, text)

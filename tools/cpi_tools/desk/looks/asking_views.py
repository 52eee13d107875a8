"""The desk's questions to collectors about single prices: asked from a row of the prices to check, and listed for the
month with the answers."""

from __future__ import annotations

from typing import Any, NamedTuple, Optional

import flask
from werkzeug.wrappers import Response

from ...office.stored import StoredOffice, read_copy
from ...text.message import Message, Price as Amount, message as _, moment_of, month_of as month_words, sentences, whole
from ...text.others import of_others
from ...text.terminal import Fault, slot_text
from ..field.field_limits import MOST_LETTERS
from ..field.field_questions import OPEN, Changed, FieldQuestions, Logged, Of, Question, TooManyOpen
from ..records.desk_log import ASKED, REMOVED_QUESTION, SAID, WITHDREW
from ..serve.faults import says
from ..serve.request_context import NOTHING_DONE, changed_by, changed_by_step, desk, field, month_of, page, session
from .looks import Price, chosen_of
from .looks_views import back, changed_since, show_result, shown_price

views = flask.Blueprint("asking", __name__)

SHOWN = 50
"""Questions of a page."""


def find_questions() -> FieldQuestions:
    """The questions: these views exist only if field notes are on."""
    questions = desk().questions
    assert questions is not None
    return questions


def log_step(text: str, **places: object) -> Logged:
    """Writes a step with a question into the log, as this session's person."""
    person = session().person
    return lambda number: desk().log.append(person, SAID, text=text.format(number=number, **places))


# ---- from the prices to look at


@views.post("/month/<month>/looks/ask")
def ask(month: str) -> Response:
    """Asks the collector of a price that the page showed, in the place of a question that is open there."""
    form, number = flask.request.form, month_of(month)
    price = shown_price(number, [field(name) for name in ("collector", "slot", "price")])
    before = number_in(field("question"))
    text = " ".join(field("text").split())
    typed: dict[str, Any] = {"of": price[1:3], "question": text}
    if changed := changed_since(number, [price]):
        return show_result(month, form, 409, refused=changed, **typed)
    if wrong := fault_of(text):
        return show_result(month, form, 400, refused=wrong, **typed)
    if number < (first := find_questions().first_month()):
        # (it would go by itself within the hour, before anybody has read it)
        past = _(
            "Questions about prices before {month} are no longer kept, so nothing was asked.", month=month_words(first)
        )
        return show_result(month, form, 409, refused=past, **typed)
    try:
        places = {"collector": price.collector, "slot": price.slot, "month": month}
        find_questions().ask(of_price(price), session().person, text, before, log_step(ASKED, **places))
    except Changed as fault:
        return show_result(month, form, 409, refused=changed_question(fault.now), **typed)
    except TooManyOpen as fault:
        return show_result(month, form, 409, refused=too_many(fault), **typed)
    except Fault as fault:
        return show_result(month, form, 503, refused=says(fault), **typed)
    return back(month, chosen_of(form), f"{price.collector}-{price.slot}")


def number_in(text: str) -> int:
    """The number of a question that a page showed, 0 for none; a form with another text isn't a form of these pages
    (400)."""
    if not (text.isascii() and text.isdigit() and len(text) < 10):
        flask.abort(400)
    return int(text)


def of_price(price: Price) -> Of:
    """The subject of a question: the price with its receipt, by the trial whose page showed it."""
    found = desk().trials.latest(price.month)
    assert found is not None
    slot = price.collector, price.slot
    with read_copy(found.copy) as office:
        receipt = office.receipts(price.month).get(slot, 0)
    return Of(*slot, price.month, price.price, receipt)


def fault_of(text: str) -> Optional[Message]:
    """The fault of a question, if it has one."""
    if not text:
        return _("The question is empty, so nothing was asked: write what the collector should check.")
    if len(text) <= MOST_LETTERS:
        return None
    places = {"most": whole(MOST_LETTERS), "count": whole(len(text))}
    return _("A question can have at most {most} characters, and this one has {count}. Nothing was asked.", **places)


def changed_question(now: Optional[Question]) -> Message:
    """The message that somebody asked, or withdrew a question, after a page was loaded: who, when and what."""
    if now is None:
        return changed_by("", 0)
    if now.gone_at:
        return changed_by(now.gone_by, now.gone_at)
    places = {"name": of_others(now.by), "moment": moment_of(now.at), "text": of_others(now.text)}
    return sentences(_("{name} asked this in the meantime ({moment}): {text}", **places), NOTHING_DONE)


def too_many(fault: TooManyOpen) -> Message:
    """The message that so many questions wait for an answer."""
    most = whole(fault.most)
    if fault.is_of_all:
        wait = _("{most} questions to collectors are waiting for an answer, so you can't ask any more.", most=most)
    else:
        wait = _("{most} questions to this collector are waiting for an answer, so you can't ask any more.", most=most)
    return sentences(wait, _("Nothing was asked: withdraw a question that you no longer need."))


@views.post("/month/<month>/questions/<int(max=999999999):number>/withdraw")
def withdraw(month: str, number: int) -> Response:
    """Takes back a question that waits for an answer; from a row of the prices to check, it leads back there."""
    form, row = flask.request.form, flask.request.form.get("row", "")
    collector = row.partition("-")[0] if row else ""
    try:
        question = next((it for it in find_questions().of_month(month_of(month)) if it.number == number), None)
        collector = str(question.of.collector) if question else collector
        find_questions().withdraw(
            month_of(month), number, session().person, log_step(WITHDREW, collector=collector, month=month)
        )
    except Changed as fault:
        text = answered_meanwhile(fault.now) or changed_question(fault.now)
        return show_result(month, form, 409, refused=text) if row else show_list(month, 409, text)
    except Fault as fault:
        return show_result(month, form, 503, refused=says(fault)) if row else show_list(month, 503, says(fault))
    return back(month, chosen_of(form), row) if row else _to_list(month)


def answered_meanwhile(now: Optional[Question]) -> Optional[Message]:
    """The message that the collector has answered a question that a page showed as open; None if not."""
    if now is None or not now.answers:
        return None
    places = {"number": now.of.collector, "moment": moment_of(now.answers[-1].at)}
    return sentences(_("Collector {number} answered this in the meantime ({moment}).", **places), NOTHING_DONE)


# ---- the list of a month


class Row(NamedTuple):
    """A question with the outlet and the item of its slot."""

    question: Question
    outlet: str
    item: str

    @property
    def slot_name(self) -> str:
        """`7/2`."""
        return slot_text((self.question.of.collector, self.question.of.slot))


def rows_of(office: StoredOffice, questions: list[Question]) -> list[Row]:
    """Questions with what the office has of their slots."""
    slots = {(assignment.collector, assignment.slot): assignment for assignment in office.assignments()}
    outlets, items = office.outlets(), {it.code: it.text for it in office.items()}
    rows = list[Row]()
    for question in questions:
        place = slots.get((question.of.collector, question.of.slot))
        names = (outlets.get(place.outlet, ""), items.get(place.item, "")) if place else ("", "")
        rows.append(Row(question, *names))
    return rows


@views.get("/month/<month>/questions")
def show(month: str) -> Response:
    """The questions of a month: first those that wait for an answer, of the others the latest ones first."""
    return show_list(month)


def show_list(month: str, status: int = 200, fault: object = "") -> Response:
    """The page of questions, with the result of a step."""
    questions = sorted(find_questions().of_month(month_of(month)), key=lambda it: (it.state != OPEN, -it.number))
    start = flask.request.args.get("from", "0")
    first = int(start) if start.isdecimal() and len(start) < 9 else 0
    with desk().copies.latest() as copy, read_copy(copy.path) as office:
        rows = rows_of(office, questions[first : first + SHOWN])
    counts = {"count": len(questions), "waiting": sum(question.state == OPEN for question in questions)}
    named = {**counts, "first": first, "step": SHOWN, "months": find_questions().months, "amount": Amount}
    return page("questions.html", status, month=month, rows=rows, fault=fault, **named)


def _to_list(month: str) -> Response:
    return flask.redirect(flask.url_for("asking.show", month=month), 303)


@views.post("/month/<month>/questions/<int(max=999999999):number>/remove")
def remove(month: str, number: int) -> Response:
    """Removes a question with its answers for good."""
    try:
        find_questions().remove(month_of(month), number, log_step(REMOVED_QUESTION, month=month))
    except Changed:
        return show_list(month, 409, changed_by_step(REMOVED_QUESTION.format(number=number, month=month)))
    except Fault as fault:
        return show_list(month, 503, says(fault))
    return _to_list(month)

"""The freeze of a month, as a checklist: one person prepares it, another one reads and confirms it, then it is sent,
and a receipt shows the result.

The forms of `/month/MONTH/freeze/` are `prepare` (`trial`, the sum of the trial that the page showed, `why-CODE` of each
aggregate on the carry list, and `reason`, that of the reason of a revision), `drop` (`prepared`, the sum of the freeze that the page showed) and `confirm` (both sums; `seen`,
that of the prices that nobody had seen; `because` if it asks for a reason; `reasons-file`, that of the website's file, of
a revision with a reason; `second-key` if there is one).
"""

from __future__ import annotations

import time
from collections.abc import Mapping
from typing import Optional, Union

import flask
from werkzeug.wrappers import Response

from ...text.languages import in_themselves
from ...text.message import Message, message as _, moment_of, month_of as month_words, whole
from ...text.others import Worded, of_others
from ...text.terminal import Fault
from ..looks.looks import Look
from ..looks.looks_views import price_of
from ..looks.month_trials import Tried
from ..month.what_if import rows_of
from ..records.desk_log import CONFIRMED, DONE_ALREADY, DROPPED, PREPARED, SAID
from ..records.record_sentences import Names, sentence_of
from ..records.sending import record_reply
from ..serve.faults import says
from ..serve.request_context import after, changed_by, desk, field, month_of, page, session, what_came
from ..serve.sessions import is_same
from . import freeze_steps
from .freeze_steps import (
    NOTHING,
    Signed,
    describe_freeze,
    finish,
    not_prepared,
    other_prepared,
    other_trial,
    signed_of,
    steps_of,
    what_differs,
)
from .freezes import Prepared, prepared_of
from .reason_views import asked_of, not_written, reason_refused, reasons_read
from .reason_file import EMPTY

views = flask.Blueprint("freeze", __name__)

NO_TRIAL = _("There is no trial of this month that can be frozen: run one first.")
MOST_LETTERS = 300
"""Letters of a reason."""


@views.get("/month/<month>/freeze")
def show(month: str) -> Response:
    """The checklist."""
    return show_result(month, **what_came())


def show_result(
    month: str, status: int = 200, fault: Worded = NOTHING, typed: Optional[Mapping[str, str]] = None
) -> Response:
    """The checklist, with the result of a step; `typed` are the fields of a form that wasn't taken."""
    number = month_of(month)
    trial = desk().trials.latest(number)
    prepared = still_prepared(trial)
    waits = prepared if prepared and prepared.month == number else None
    named: dict[str, object] = {
        "month": month,
        "found": trial,
        "steps": steps_of(number, trial) if trial else [],
        "prepared": waits,
        "prepared_says": sentence_of(waits.record, Names(titles=titles_of(waits))) if waits else None,
        "is_own": is_own(waits),
        "signed": write_confirmation(waits, trial),
        "asked": asked_of(trial.state) if trial else None,
        "reasons": reasons_read(waits),
        "not_written": not_written(),
        "has_second_key": bool(desk().second_key),
        "running": desk().trials.running,
        "trial_fault": desk().trials.fault(number),
        "receipt": freeze_steps.find_receipt(desk().log, number, trial.state.revision) if trial else None,
        "now": int(time.time()),
        "most": MOST_LETTERS,
        "typed": typed or {},
    }
    return page("freeze.html", status, fault=fault, **named)


def titles_of(prepared: Prepared) -> dict[str, str]:
    """The titles of the nodes in the table that was prepared."""
    return {code: row[-1] for code, row in rows_of(prepared.text.encode()).items()}


def write_confirmation(prepared: Optional[Prepared], trial: Optional[Tried]) -> Optional[Signed]:
    """The text for the person who confirms; None without a trial that shows it."""
    if prepared is None or trial is None:
        return None
    return signed_of(prepared, trial, open_looks(trial), desk().given.reason_above)


def open_looks(trial: Tried) -> list[Look]:
    """The prices to check that nobody has seen; those that move all items most come first."""
    month = trial.state.month
    seen = desk().marks.seen_by_anybody(month)
    return [look for look in trial.looks if price_of(month, look) not in seen]


def still_prepared(trial: Optional[Tried]) -> Optional[Prepared]:
    """The freeze that waits for a second person. One that the office carried out, while its reply was lost and the
    application ended, waits no longer."""
    prepared = desk().prepared.read()
    if not prepared or not trial or trial.state.month != prepared.month or trial.state.revision < prepared.revision:
        return prepared
    # (whoever is at it just now finishes it)
    if not desk().freezing.acquire(blocking=False):
        return prepared
    try:
        if prepared.confirmed_by:
            finish(prepared)
        else:
            desk().log.append(session().person, SAID, text=f"{DONE_ALREADY}{describe_freeze(prepared)}")
            desk().prepared.drop()
    finally:
        desk().freezing.release()
    return None


def is_own(prepared: Optional[Prepared]) -> bool:
    """Whether a freeze was prepared by the person of this session, who then can't confirm it."""
    return prepared is not None and is_same(prepared.by, session().person)


# ---- prepared


@views.post("/month/<month>/freeze/prepare")
def prepare(month: str) -> Response:
    """One person prepares the freeze that the page showed."""
    with desk().freezing:
        return prepared_now(month)


def prepared_now(month: str) -> Response:
    """Prepares it, if nobody was quicker."""
    trial, form, shown_sum = desk().trials.latest(month_of(month)), flask.request.form, field("trial")
    if trial is None or trial.closed is None:
        return show_result(month, 409, NO_TRIAL, form)
    if trial.sum != shown_sum:
        return show_result(month, 409, other_trial(trial), form)
    if other := desk().prepared.read():
        return show_result(month, 409, other_prepared(other), form)
    window = trial.state.window
    if time.time() < window.closes:
        text = _("The window is open until {moment}: prepare the freeze then.", moment=moment_of(window.closes))
        return show_result(month, 409, text, form)
    try:
        revised = reason_shown(trial)
        if isinstance(revised, Message):
            return show_result(month, 409, revised, form)
        made = prepared_of(session().person, trial.closed, window.publishes, reasons(trial))
        made = made._replace(reasons=revised)
        desk().log.append(session().person, SAID, text=f"{PREPARED}{describe_freeze(made)}")
        desk().prepared.keep(made)
    except Fault as fault:
        return show_result(month, 400, says(fault), form)
    return flask.redirect(flask.url_for("freeze.show", month=month), 303)


def reasons(trial: Tried) -> list[str]:
    """Why each aggregate on the carry list is carried, by the form; a form that lacks a field isn't a form of this
    page."""
    names = [f"why-{named.code}" for named in trial.closed.named] if trial.closed else []
    return [field(name)[:MOST_LETTERS] for name in names]


def reason_shown(trial: Tried) -> Union[Message, Mapping[str, str]]:
    """Why the month is revised, by the languages, if the form showed what waits; else who changed it. Nothing if no
    reason can go to the website's file: that stops no freeze. Raises Fault if a person has to give the reason first."""
    asked = asked_of(trial.state)
    if asked is None:
        return {}
    if field("reason") != asked.was:
        return changed_by(asked.reason.by, asked.reason.at) if asked.reason else changed_by("", 0)
    if asked.fault:
        return {}
    if asked.reason:
        return asked.reason.texts
    raise Fault(EMPTY)


@views.post("/month/<month>/freeze/drop")
def drop(month: str) -> Response:
    """Forgets the freeze that the page showed; anybody may, and the log says who."""
    with desk().freezing:
        return dropped_now(month)


def dropped_now(month: str) -> Response:
    """Forgets it, if nobody was quicker."""
    prepared, shown_sum = desk().prepared.read(), field("prepared")
    if prepared is None:
        return show_result(month, 409, not_prepared())
    if prepared.sum != shown_sum:
        return show_result(month, 409, other_prepared(prepared))
    desk().log.append(session().person, SAID, text=f"{DROPPED}{describe_freeze(prepared)}")
    desk().prepared.drop()
    return flask.redirect(flask.url_for("freeze.show", month=month), 303)


# ---- confirmed


@views.post("/month/<month>/freeze/confirm")
def confirm(month: str) -> Response:
    """Another person confirms what the page showed, and it is sent."""
    with desk().freezing:
        return confirmed_now(month)


def confirmed_now(month: str) -> Response:
    """Sends it, if the page showed the freeze that is prepared now, and if everything that it asks for was given."""
    form, number, prepared = flask.request.form, month_of(month), desk().prepared.read()
    shown_sum, shown_trial, seen = field("prepared"), field("trial"), field("seen")
    if prepared is None or prepared.month != number:
        return show_result(month, 409, not_prepared(), form)
    if is_own(prepared):
        by = of_others(prepared.by)
        # t: name is the person who prepared the freeze
        text = _("{name} prepared the freeze, so another person has to confirm it, under a different name.", name=by)
        return show_result(month, 403, text, form)
    if prepared.sum != shown_sum:
        return show_result(month, 409, other_prepared(prepared), form)
    trial = desk().trials.latest(number)
    read = write_confirmation(prepared, trial)
    if trial is None or read is None:
        return show_result(month, 409, NO_TRIAL, form)
    if trial.sum != shown_trial:
        return show_result(month, 409, other_trial(trial), form)
    if read.seen != seen:
        return show_result(month, 409, changed_by(*desk().marks.last_of(number)), form)
    because = form.get("because", "").strip()[:MOST_LETTERS]
    if read.weighty and not because:
        return show_result(
            month, 400, _("Give the reason for freezing the month with prices that nobody has seen."), form
        )
    if refused := refused_key(form):
        return show_result(month, 403, refused, form)
    if differs := what_differs(prepared):
        return show_result(month, 409, differs, form)
    try:
        if prepared.reasons and (other := reason_refused(prepared, field("reasons-file"))):
            return show_result(month, 409, other, form)
    except Fault as fault:
        return show_result(month, 503, _("Nothing was sent: {fault}", fault=says(fault)), form)
    return send_freeze(month, prepared._replace(because=because))


def refused_key(form: Mapping[str, str]) -> Worded:
    """The reason why the second key of a form isn't accepted, or nothing."""
    second, typed = desk().second_key, form.get("second-key", "")
    return second.find_refusal(typed, session().key, flask.request.remote_addr or "") if second else NOTHING


def send_freeze(month: str, prepared: Prepared) -> Response:
    """Sends a freeze that was confirmed, and leads to its receipt."""
    confirmed = prepared._replace(confirmed_by=session().person, confirmed_at=int(time.time()))
    try:
        desk().log.append(session().person, SAID, text=f"{CONFIRMED}{describe_freeze(confirmed)}")
        desk().prepared.keep(confirmed)
        (reply,) = desk().send(session(), [confirmed.record])
    except Fault as fault:
        desk().prepared.keep(prepared)
        return show_result(month, 503, _("Nothing was sent: {fault}", fault=says(fault)), flask.request.form)
    answer = record_reply(confirmed.record, reply)
    if not answer.is_done:
        if reply is not None:
            desk().prepared.drop()
            desk().trials.begin(confirmed.month, session().person)
        return show_result(month, 409, answer.answer)
    return to_receipt(month, confirmed)


def to_receipt(month: str, confirmed: Prepared) -> Response:
    """Leads to the receipt of a freeze that was carried out, or says that it was while the receipt can't be written."""
    try:
        finish(confirmed)
    except Fault as fault:
        if freeze_steps.find_receipt(desk().log, confirmed.month, confirmed.revision):
            # (what failed is the reason of the revision, which the next page of the month tries again)
            came = {"fault": says(fault)}
            return after("freeze.receipt", came, month=month, revision=confirmed.revision)
        places = {"month": month_words(confirmed.month), "revision": whole(confirmed.revision), "fault": says(fault)}
        text = _("{month} is frozen, revision {revision}. The receipt can't be written yet: {fault}", **places)
        return after("freeze.show", {"fault": text}, month=month)
    desk().trials.begin(confirmed.month, session().person)
    return flask.redirect(flask.url_for("freeze.receipt", month=month, revision=confirmed.revision), 303)


# ---- the receipt


@views.get("/month/<month>/freeze/receipt/<int:revision>")
def receipt(month: str, revision: int) -> Response:
    """The freeze's result, its persons, and the next step: the page stays at its address."""
    kept = freeze_steps.find_receipt(desk().log, month_of(month), revision)
    if kept is None:
        flask.abort(404)
    named = {"publisher": desk().publisher, "languages": in_themselves(), "not_written": not_written()}
    came = {"fault": NOTHING, **what_came()}
    return page("receipt.html", month=month, kept=kept, receipt=kept.receipt, **named, **came)

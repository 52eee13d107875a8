"""Why a month is revised: the desk is asked once it is reopened, and the second person reads it in the freeze."""

from __future__ import annotations

import time
from collections.abc import Mapping, Sequence
from typing import NamedTuple, Optional

import flask
from werkzeug.wrappers import Response

from ...office.stored import read_copy
from ...office.trial import State, state_of
from ...publish.figures.announcements import MOST_LETTERS
from ...text.languages import in_themselves
from ...text.message import Message, Month, message as _, sentences
from ...text.others import Worded, of_others
from ...text.terminal import Fault, month_text
from ..serve.faults import says
from ..serve.request_context import NOTHING_DONE, changed_by, desk, field, month_of, page, session
from .freezes import Prepared
from .reason_file import NO_SITE, Reason, ReasonFile, Row, in_one_line, try_room, writable_file


# ==== why a month is revised: the desk is asked once the month is reopened, and the second person of the freeze reads
# it
#
# The form of `/month/MONTH/reason` has `revision`, `was` (the sum of the reason that the page showed, or nothing) and a
# field `reason-TAG` for each language of the website.

views = flask.Blueprint("reason", __name__)

NOTHING = Worded("")


class Asked(NamedTuple):
    """The fields of a form: the month like `2026-01`, its next revision, the languages by their tags with their own
    names, the reason that waits, and why none can be kept, or nothing."""

    month: str
    revision: int
    languages: Mapping[str, str]
    reason: Optional[Reason]
    fault: Worded = NOTHING
    most: int = MOST_LETTERS

    @property
    def was(self) -> str:
        """The content that the form says it showed."""
        return self.reason.sum if self.reason else ""

    @property
    def named_texts(self) -> Mapping[str, str]:
        """The reason that waits, by the languages' own names."""
        texts = self.reason.texts if self.reason else {}
        return {self.languages.get(tag, tag): text for tag, text in texts.items()}


def file_here() -> ReasonFile:
    """The file of reasons of the website, which can be replaced. Raises Fault, which says why there is none and what to
    do."""
    publisher = desk().publisher
    if publisher is None:
        raise Fault(NO_SITE)
    return writable_file(publisher.site)


def asked_of(state: State) -> Optional[Asked]:
    """The questions about a month; none if it isn't reopened."""
    if not state.is_reopened:
        return None
    revision, month = state.revision + 1, month_text(state.month)
    waits = None
    try:
        waits = desk().reasons.of(state.month, revision)
        names = in_themselves()
        tags = file_here().tags
        return Asked(month, revision, {tag: names.get(tag.replace("-", "_"), tag) for tag in tags}, waits)
    except Fault as fault:
        return Asked(month, revision, {}, waits, says(fault))


def still_asked() -> Optional[Asked]:
    """The questions about the reopened month, which is the last frozen one, until the reason is given. Raises Fault."""
    with desk().copies_now() as copy, read_copy(copy.path) as office:
        frozen = max((release.month for release in office.releases()), default=0)
        asked = asked_of(state_of(office, frozen)) if frozen else None
    return asked if asked and not asked.reason else None


def not_written() -> Sequence[tuple[Optional[Reason], Worded]]:
    """The reasons of frozen revisions that aren't in the website's file yet, each with why: it was tried again. Only why,
    if the application's own file can't be read."""
    try:
        return desk().reasons.settle(desk().publisher)
    except Fault as fault:
        return [(None, says(fault))]


def state_now(month: int) -> State:
    """The month's state now. Raises Fault."""
    with desk().copies_now() as copy, read_copy(copy.path) as office:
        return state_of(office, month)


@views.get("/month/<month>/reason")
def show(month: str) -> Response:
    """The form."""
    return show_result(month)


def show_result(
    month: str, status: int = 200, fault: Worded = NOTHING, typed: Optional[Mapping[str, str]] = None
) -> Response:
    """The form, with the reason why it wasn't taken, and with the typed fields."""
    asked = asked_of(state_now(month_of(month)))
    return page("reason.html", status, month=month, asked=asked, fault=fault, typed=typed or {})


@views.post("/month/<month>/reason")
def keep(month: str) -> Response:
    """Keeps the reason of the revision that the page showed."""
    number, form, revision, was = month_of(month), flask.request.form, field("revision"), field("was")
    try:
        with desk().freezing:
            asked = asked_of(state_now(number))
            if refused := not_asked(asked, number, revision):
                return show_result(month, 409, refused, form)
            assert asked
            if asked.fault:
                return show_result(month, 503, asked.fault, form)
            texts = {tag: field(f"reason-{tag}") for tag in asked.languages}
            texts = in_one_line(texts, next(iter(asked.languages)))
            reason = Reason(number, asked.revision, texts, session().person, int(time.time()))
            if other := desk().reasons.keep(reason, was):
                return show_result(month, 409, changed_by(other.by, other.at), form)
    except Fault as fault:
        return show_result(month, 503 if fault.__cause__ else 400, says(fault), form)
    return flask.redirect(flask.url_for("reason.show", month=month), 303)


def not_asked(asked: Optional[Asked], month: int, revision: str) -> Optional[Message]:
    """The reason why a form about a revision isn't accepted, or None."""
    if asked is None or str(asked.revision) != revision:
        # t: month is a month such as November 2026
        return sentences(
            _("{month} is no longer reopened for that revision.", month=Month(month_text(month))), NOTHING_DONE
        )
    prepared = desk().prepared.read()
    if prepared and (prepared.month, prepared.revision) == (month, asked.revision):
        return sentences(_("A freeze with this reason is already prepared: discard it first."), NOTHING_DONE)
    return None


# ==== the reason of a revision in its freeze: the second person reads it, and whether it could still be kept


class Read(NamedTuple):
    """The second person's text: the reason by the names of the languages; the file that gets it, with a sum of its
    content; or why that file can't be read."""

    texts: Mapping[str, str]
    path: str = ""
    sum: str = ""
    fault: Worded = NOTHING


def reasons_read(prepared: Optional[Prepared]) -> Optional[Read]:
    """The text for a prepared freeze; nothing for a freeze without a reason."""
    if prepared is None or not prepared.reasons:
        return None
    names = in_themselves()
    texts = {names.get(tag.replace("-", "_"), tag): text for tag, text in prepared.reasons.items()}
    try:
        file = file_here()
        return Read(texts, str(file.path), file.sum)
    except Fault as fault:
        return Read(texts, fault=says(fault))


def reason_refused(prepared: Prepared, shown_sum: str) -> Optional[Message]:
    """Why a revision isn't frozen with its reason now, or None: the website's file isn't the file that the page showed,
    or contains a reason for the revision. Raises Fault if the file can't be read or written."""
    file, month = file_here(), month_text(prepared.month)
    path = of_others(str(file.path))
    if file.has(month, prepared.revision):
        return sentences(
            _("{file} already contains a reason for this revision: discard the freeze.", file=path), NOTHING_DONE
        )
    if file.sum != shown_sum:
        return sentences(_("{file} was changed after your page was loaded.", file=path), NOTHING_DONE)
    try_room(file, Row(month, prepared.revision, prepared.reasons, int(time.time())))
    return None

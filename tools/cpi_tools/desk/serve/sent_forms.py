"""Forms that are sent: their bounds, those that come late or twice, and what the next page has of one."""

from __future__ import annotations

import hashlib
import secrets
import threading
import time
from collections.abc import Callable, Iterator
from typing import Generic, NamedTuple, Optional, TypeVar

import flask
from werkzeug.wrappers import Response

from ...text.message import Message, message as _, whole
from ...text.terminal import Fault
from ..records.record_judge import text_of_file
from .sessions import LONGEST_SESSION, Session, is_same
from .watched_office import Durations


# ==== a form that is sent twice is carried out once: the second one gets the answer to the first one
#
# Each page gives its forms a name in the field `once`. Two forms of a session are one form if that name, their address
# and all that was filled in are the same. A form that was carried out is known for some seconds after its answer, for
# as long as a browser may still send it a second time. One that was refused may be sent again at once.
#
# What a page has for the forms in it: a name by which a form that is sent twice is known, and how long those took that
# take long.

ONCE = "once"
"""The field."""

WAITS = 60.0
"""Seconds for which a second form waits for the answer to the first one."""

MOST_WAITING = 3
"""So many wait at once: other requests need threads too."""

KNOWN_FOR = 3.0
"""Seconds for which a form that was carried out is known after its answer."""

NO_ANSWER = _("This form was sent twice, and the first copy has no answer yet: the log will say what happened to it.")


class Answer(NamedTuple):
    """An answer: its status, its fields, and its page."""

    status: int
    fields: list[tuple[str, str]]
    body: bytes

    @property
    def is_done(self) -> bool:
        """Whether the form was carried out: it leads to another page."""
        return self.status == 303

    def response(self) -> Response:
        """The answer, once more."""
        return flask.Response(self.body, self.status, self.fields)


class NoAnswerYet(Exception):
    """The first form has no answer yet."""


class _Form:
    """A form that is being carried out, or was."""

    def __init__(self) -> None:
        self.is_over, self.ended = threading.Event(), 0.0
        self.answer: Optional[Answer] = None


class Once:
    """The forms that are being carried out, and those that were some seconds ago. `waits`, `known_for` and `clock` are in
    seconds."""

    def __init__(self, waits: float = WAITS, clock: Callable[[], float] = time.monotonic, known_for: float = KNOWN_FOR):
        self._waits, self._clock, self._known_for, self._lock = waits, clock, known_for, threading.Lock()
        self._forms: dict[str, _Form] = {}
        self._waiting = 0

    def begin(self, name: str) -> Optional[Answer]:
        """Begins to carry out a form, unless it is the second one: then the answer to the first one. Raises
        NoAnswerYet."""
        with self._lock:
            self._forget()
            form = self._forms.get(name)
            if form is None:
                self._forms[name] = _Form()
                return None
            if self._waiting >= MOST_WAITING and not form.is_over.is_set():
                raise NoAnswerYet
            self._waiting += 1
        try:
            form.is_over.wait(self._waits)
        finally:
            with self._lock:
                self._waiting -= 1
        if form.answer is None:
            raise NoAnswerYet
        return form.answer

    def end(self, name: str, answer: Optional[Answer]) -> None:
        """A form has its answer; None if it has none."""
        with self._lock:
            form = self._forms.get(name)
            if form is None or form.is_over.is_set():
                return
            form.answer, form.ended = answer, self._clock()
            form.is_over.set()
            if answer is None or not answer.is_done:
                del self._forms[name]

    def _forget(self) -> None:
        now = self._clock()
        old = [
            name for name, form in self._forms.items() if form.is_over.is_set() and now - form.ended >= self._known_for
        ]
        for name in old:
            del self._forms[name]


def new_name() -> str:
    """A name for the forms of a page."""
    return secrets.token_urlsafe(9)


def name_of_form(session: str) -> Optional[str]:
    """The name of the form of this request in a session, by all that is in it; None of one without the field."""
    request = flask.request
    if not request.form.get(ONCE):
        return None
    whole = hashlib.sha256()
    for part in (session, request.path, *_parts()):
        text = part.encode("utf-8", "surrogatepass")
        whole.update(b"%d:" % len(text) + text)
    for _name, file in request.files.items(multi=True):
        whole.update(file.stream.read())
        file.stream.seek(0)
    return whole.hexdigest()


def _parts() -> Iterator[str]:
    """The fields of the form in their order, and the names of its files."""
    for name, text in flask.request.form.items(multi=True):
        yield from (name, text)
    for name, file in flask.request.files.items(multi=True):
        yield from (name, file.filename or "")


class LongForm(NamedTuple):
    """The address of a form of a page, and how long it took the last time, in a sentence."""

    address: str
    says: Message


def long_forms(durations: Durations) -> list[LongForm]:
    """The forms that this page may have and that took long."""
    return [LongForm(address, durations.about(view)) for view in durations.kinds() for address in addresses_of(view)]


def addresses_of(view: str) -> Iterator[str]:
    """The address of a form by its view, if this page's own address contains all its parts."""
    given = flask.request.view_args or {}
    for rule in flask.current_app.url_map.iter_rules():
        if rule.endpoint == view and "POST" in (rule.methods or ()) and rule.arguments <= given.keys():
            yield flask.url_for(view, **{name: given[name] for name in rule.arguments})


def with_names(text: str, session: Session) -> str:
    """A page in which each form of the session has a name next to the session's token."""
    token = f'<input type="hidden" name="token" value="{session.token}">'
    return text.replace(token, f'{token}<input type="hidden" name="{ONCE}" value="{new_name()}">')


# ==== The limits of a form that is accepted. It is counted before it is parsed: each field of a form costs the
# application far more than its bytes do, so a form full of fields would keep it busy for a minute.
#
# Whoever has no session sends the form to sign in, and nothing else that is read. That form is short.

MOST_BYTES = 16_000_000
"""Bytes of a form at most; the front takes as many."""

MOST_BYTES_BEFORE = 4_096
"""The most bytes of a request without a session; the front takes as many at the form to sign in."""

MOST_FIELDS = 10_000
"""Fields of a form at most: to freeze a month, a person may give a reason for each aggregate of the largest plan."""

IN_PARTS = "multipart/form-data"
"""Forms of this kind have few fields by themselves, and are long by their file."""

TOO_LONG = _(
    "A form can have at most {most} bytes: send a longer file in parts, or with cpi replay. Nothing was sent.",
    most=whole(MOST_BYTES),
)
TOO_LONG_BEFORE = _(
    "Before you sign in, a form can have at most {most} bytes. Nothing was done.", most=whole(MOST_BYTES_BEFORE)
)


def too_many(most: int) -> Message:
    """The message to a form with too many fields."""
    return _("A form can have at most {most} fields, and this one has more. Nothing was done.", most=whole(most))


def fault_of_form(is_signed_in: bool) -> Optional[Message]:
    """The message to the request's form if it is longer than it may be or has too many fields; None if it is taken."""
    request = flask.request
    length = request.content_length or 0
    if not is_signed_in and length > MOST_BYTES_BEFORE:
        return TOO_LONG_BEFORE
    if length > MOST_BYTES:
        return TOO_LONG
    return too_many(MOST_FIELDS) if has_too_many() else None


def has_too_many() -> bool:
    """Whether the request has more fields than a form may have, in its address or in its body, which is kept for the
    code that parses it."""
    request = flask.request
    if request.query_string.count(b"&") >= MOST_FIELDS:
        return True
    if request.method != "POST" or request.mimetype == IN_PARTS:
        return False
    return request.get_data(cache=True).count(b"&") >= MOST_FIELDS


def told_of_too_large() -> Message:
    """The message if the libraries refuse a form as too large: by its bytes, or by the number of its parts."""
    request = flask.request
    if (request.content_length or 0) > MOST_BYTES:
        return TOO_LONG
    return too_many(request.max_form_parts)


# ==== forms that were sent after their session had ended: nothing was done, and each is kept in memory until somebody
# signs in at that browser and sends it again, drops it, or half a day has passed

MOST, MOST_BYTES_OF_ALL = 50, 2 * MOST_BYTES
"""So many forms are kept at once, and so many bytes."""

NOT_KEPT = ("token", "second-key", "held", "once")
"""Fields that are a session's own, or secret."""

NOT_LISTED = frozenset(
    (
        *("after", "all", "before", "cell", "digits", "division", "from", "instead", "number", "offer", "only"),
        *("prepared", "reason", "reasons-file", "revision", "seen", "sheet", "show", "shown", "sort", "to", "trial"),
        *("was", "what", "whole", "word", "written"),
    )
)
"""Fields that a person didn't fill in."""


class HeldForm(NamedTuple):
    """A form: the moment at which it came in seconds since 1970 UTC, its address, its fields in their order, and the names
    of files that have to be chosen again."""

    at: int
    path: str
    fields: list[tuple[str, str]]
    files: list[str]

    @property
    def filled_fields(self) -> list[tuple[str, str]]:
        """The fields that a person filled in."""
        return [(name, text) for name, text in self.fields if name not in NOT_LISTED and text.strip()]

    @property
    def has_text(self) -> bool:
        """Whether it may be long."""
        return any(name in ("text", "left", "pasted") for name, _ in self.fields)

    @property
    def size(self) -> int:
        """The number of its letters."""
        return sum(len(name) + len(text) for name, text in self.fields)


def form_of_request() -> HeldForm:
    """The form of this request. A file of text is in its field of text, if that is empty."""
    request = flask.request
    fields = [(name, text) for name, text in request.form.items(multi=True) if name not in NOT_KEPT]
    files, chosen = list[str](), request.files.get("file")
    if chosen and chosen.filename:
        try:
            text = text_of_file(chosen.filename, chosen.read())
            if request.form.get("text", "").strip():
                raise Fault(chosen.filename)
            fields = [*(field for field in fields if field[0] != "text"), ("text", text)]
        except Fault:
            files.append(chosen.filename)
    return HeldForm(int(time.time()), flask.request.path, fields, files)


class HeldForms:
    """Those that are kept, by names that nobody can guess. `clock` is in seconds."""

    def __init__(self, clock: Callable[[], float] = time.monotonic):
        self._clock, self._lock = clock, threading.Lock()
        self._by_name: dict[str, tuple[float, HeldForm]] = {}

    def keep(self, form: HeldForm) -> Optional[str]:
        """Keeps a form; its name, or None if no more forms can be held: then the person has it in the browser only."""
        with self._lock:
            now = self._clock()
            self._by_name = {name: each for name, each in self._by_name.items() if now - each[0] < LONGEST_SESSION}
            size = form.size + sum(each.size for _, each in self._by_name.values())
            if len(self._by_name) >= MOST or size > MOST_BYTES_OF_ALL:
                return None
            name = secrets.token_urlsafe(18)
            self._by_name[name] = (now, form)
            return name

    def of(self, name: str) -> Optional[HeldForm]:
        """The form with a name, if it is still held."""
        held = self._by_name.get(name)
        return held[1] if held else None

    def drop(self, name: str) -> None:
        """Forgets a form: it was sent again, or isn't wanted."""
        with self._lock:
            self._by_name.pop(name, None)


# ==== The application's memory for a person's next page: the results of a form, and judged records. It is there for
# that person only, also after another sign-in, until it is taken, is half a day old, or newer ones are too many.
#
# Records that were judged on a copy and not sent yet.

T = TypeVar("T")

MOST_OF_A_PERSON = 20
"""So many are kept for a person: the oldest one is removed first."""


class Kept(Generic[T]):
    """The kept values, by names that nobody can guess. `clock` is in seconds."""

    def __init__(self, clock: Callable[[], float] = time.monotonic):
        self._clock, self._lock = clock, threading.Lock()
        self._by_name: dict[str, tuple[str, float, T]] = {}
        """For whom, since when, and what."""

    def keep(self, person: str, what: T) -> str:
        """Keeps something for a person; its name."""
        name = secrets.token_urlsafe(12)
        with self._lock:
            now = self._clock()
            old = [each for each, (_, since, _) in self._by_name.items() if now - since > LONGEST_SESSION]
            own = [each for each, (whose, _, _) in self._by_name.items() if is_same(whose, person)]
            for each in {*old, *own[: max(0, len(own) + 1 - MOST_OF_A_PERSON)]}:
                del self._by_name[each]
            self._by_name[name] = (person, now, what)
        return name

    def of(self, name: str, person: str) -> Optional[T]:
        """The value kept under a name for a person, if it is still kept."""
        held = self._by_name.get(name)
        return held[2] if held and is_same(held[0], person) else None

    def take(self, name: str, person: str) -> Optional[T]:
        """Returns it once: afterwards it is gone."""
        with self._lock:
            what = self.of(name, person)
            if what is not None:
                del self._by_name[name]
            return what


class Offer(NamedTuple):
    """The records that would be carried out, and the office's content in the place of each when it was judged."""

    records: list[list[str]]
    stood: list[str]

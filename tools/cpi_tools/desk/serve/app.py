"""The application: how people reach it, which requests are let in, which views answer, and what keeps a page safe."""

from __future__ import annotations

import ipaddress
import time
import urllib.parse
from pathlib import Path
from typing import NamedTuple, Optional

import flask
from werkzeug.exceptions import HTTPException
from werkzeug.wrappers import Response

from ...text import page_templates, section_pages
from ...text.message import Message, message as _, sentences
from ...text.others import of_others, own_line
from ...text.terminal import Fault
from ..field.field_questions import answer_in_words, gone_in_words
from ..freeze import draft_views, freeze_views, publish_views, reason_views
from ..looks import looks_views, month_views, table_views
from ..records import key_views, log_views, records_views, sample_views
from ..teams import team_views
from ..year import calendar_views, year_views
from . import held_views, sign_in_views
from .desk import Desk
from .faults import says
from .request_context import file_name, is_answer, is_by_itself, loads_itself, without_itself
from .sent_forms import (
    MOST_BYTES,
    NO_ANSWER,
    Answer,
    NoAnswerYet,
    fault_of_form,
    form_of_request,
    long_forms,
    name_of_form,
    told_of_too_large,
    with_names,
)
from .sessions import Session
from .sign_in_views import COOKIE
from .site_config import prices_are


# ==== the ways to the application: a port of this machine, or a front that speaks TLS and says who sent each request
#
# Anyone who can open the application's address can say who sent a request, as the front does. A port is open to each
# process of the machine; a socket is for the front only, by its owner and mode.

SOCKET_PEER = "localhost"
"""The address that waitress names for whoever comes by a socket."""

DEFAULT_PORTS = {"http": ":80", "https": ":443"}


class Reached(NamedTuple):
    """The application's listener, a host with a port or the path of a socket, and its address behind a front, if there
    is one."""

    listen: str
    front: Optional[str]

    @property
    def socket(self) -> Optional[Path]:
        """The socket at which it listens; None if that is a port."""
        return Path(self.listen) if self.listen.startswith("/") else None

    @property
    def own_hosts(self) -> set[str]:
        """The values of the field Host of those who come without the front: by a socket nobody does."""
        if self.socket:
            return set()
        return {self.listen, f"localhost:{self.listen.rpartition(':')[2]}"}

    @property
    def front_host(self) -> str:
        """The host of those who come through the front; empty without a front."""
        at = urllib.parse.urlsplit(self.front or "")
        return at.netloc.lower().removesuffix(DEFAULT_PORTS.get(at.scheme, "")) if self.front else ""

    @property
    def hosts(self) -> set[str]:
        """The values of the field Host that are taken: a request for another name could come from another site's
        page."""
        return {*self.own_hosts, *([self.front_host] if self.front else [])}

    @property
    def origins(self) -> set[str]:
        """The origins whose forms are taken."""
        own = {f"http://{host}" for host in self.own_hosts}
        scheme = urllib.parse.urlsplit(self.front or "").scheme
        return {*own, *([f"{scheme}://{self.front_host}"] if self.front else [])}

    @property
    def prefix(self) -> str:
        """The path before each of the application's own, as /desk; none without a front."""
        return urllib.parse.urlsplit(self.front or "").path.rstrip("/")

    @property
    def trusted_proxy(self) -> Optional[str]:
        """The address from which the front calls, who says whose request it is; None without one."""
        if not self.front:
            return None
        if self.socket:
            return SOCKET_PEER
        host = ipaddress.ip_address(self.listen.rpartition(":")[0].strip("[]"))
        return "::1" if host.version == 6 else "127.0.0.1"

    def is_secure(self, host: str) -> bool:
        """Whether a browser that asks for a host does so by TLS."""
        return bool(self.front and self.front.startswith("https:")) and host.lower() == self.front_host

    @property
    def address(self) -> str:
        """The address for a person."""
        return self.front or f"http://{self.listen}/"


# ==== the application: it admits requests, the views answer them, and each answer gets the fields that keep a page safe
#
# A page's scripts are files of the application, and the policy lets no other run: whatever a person or a collector
# wrote is text. Each page can be used without them.

DESK = Path(__file__).resolve().parents[1]
TEMPLATES = DESK / "serve/templates"
FOLDERS = [DESK / name / "templates" for name in ("serve", "records", "looks", "field", "freeze", "year", "teams")]
"""The templates of all pages, and those next to the views that have pages of their own."""


VIEWS = (
    sign_in_views,
    month_views,
    looks_views,
    table_views,
    freeze_views,
    reason_views,
    draft_views,
    calendar_views,
    sample_views,
    key_views,
    year_views,
    publish_views,
    records_views,
    log_views,
    held_views,
)
"""The modules of the pages."""

FREE = ("sign_in.show", "sign_in.enter", "style", "script")
"""The pages that need no session, by the names of the views."""

LOADED = ("style", "script", "looks.script", "year.script", "field_notes.photo")
"""The views that a page loads by itself, by name: no person opens them."""

SETTINGS = "CPI_DESK_FRONT, --front"

FIELD, FIELD_PATHS = "field", "/notes/"
"""The views for collectors' phones, each request with a collector's key, and their folder."""

TEAM, TEAM_PATHS = "team", "/team/"
"""The views for supervisors, who sign in there with keys that open nothing else, and their folder."""
ENDED = _(
    "Your session has ended, so nothing was done. Sign in in another tab, come back here, and send the form again."
)
NO_PAGE = _("There is no such page.")
ONLY_A_FORM = _("This address only receives forms, and shows no page. The log says what was done.")
OWN_ERROR = _("The application had an internal error. The log says what was done: read it before you continue.")
BY_STATUS = {404: NO_PAGE, 405: NO_PAGE, 500: OWN_ERROR}
"""The message to a request that isn't carried out."""

NOT_DONE, NOT_SHOWN = _("Not done"), _("This page can't be shown")
NO_ANSWER_YET = _("No answer yet")
HEADINGS = {404: _("Page not found"), 405: _("Nothing to show here"), 500: _("Application error")}
"""The heading of a page that answers a form which wasn't carried out, and the headings of pages that a browser only
asked for."""

POLICY = (
    "default-src 'none'; style-src 'self'; script-src 'self'; img-src 'self' data:; form-action 'self'; base-uri 'none';"
    " frame-ancestors 'none'"
)
FIELDS = {
    "Content-Security-Policy": POLICY,
    "Cache-Control": "no-store",
    "X-Content-Type-Options": "nosniff",
    "Cross-Origin-Resource-Policy": "same-origin",
    "Cross-Origin-Opener-Policy": "same-origin",
    # (with `no-referrer` a browser would send no origin with a form)
    "Referrer-Policy": "same-origin",
}


AGAIN = (400, 503)
"""The statuses of a form that a person may send again: with these, the page contains the typed fields."""


def make_app(desk: Desk, reached: Reached) -> flask.Flask:
    """The application over a desk."""
    app = flask.Flask(__name__, static_folder=None, template_folder=None)
    # (later versions of Flask know a second limit, of what isn't a file)
    app.config.update(MAX_CONTENT_LENGTH=MOST_BYTES, MAX_FORM_MEMORY_SIZE=MOST_BYTES)
    templates = section_pages.environment(FOLDERS, desk.teller)
    templates.globals.update(url_for=flask.url_for, file_name=file_name, day=desk.teller.day)
    templates.globals.update(
        prices_are=lambda: prices_are(desk.teller.money()), has_money=lambda: bool(desk.teller.money())
    )
    templates.globals.update(loads_itself=loads_itself, is_answer=is_answer)
    templates.globals.update(answer_in_words=answer_in_words, gone_in_words=gone_in_words)

    def page(template: str, status: int = 200, /, **named: object) -> Response:
        session: Optional[Session] = flask.g.get("session")
        given: dict[str, object] = {
            "here": "",
            "session": session,
            "style_at": flask.url_for("style"),
            "script_root": flask.request.script_root,
            "desk": desk,
            "waiting": desk.log.open_entries(),
            "long_forms": long_forms(desk.durations) if session else [],
        }
        text = templates.get_template(template).render({**given, **named})
        return flask.Response(with_names(text, session) if session else text, status)

    app.extensions["desk"], app.extensions["page"], app.extensions["reached"] = desk, page, reached
    app.before_request(_let_in)
    app.after_request(_with_fields)
    app.after_request(_keep_answer)
    app.teardown_request(_over)
    app.register_error_handler(Fault, _fault)
    app.register_error_handler(HTTPException, _http_fault)
    app.add_url_rule("/style.css", "style", _style)
    app.add_url_rule("/forms.js", "script", _script)
    for views in VIEWS:
        app.register_blueprint(views.views)
    if desk.field:
        # (they need python3-pil, which an office without notes hasn't)
        from ..looks import asking_views
        from ..field import field_pages, field_views

        for views in (field_views, field_pages, asking_views):
            app.register_blueprint(views.views)
    if desk.supervisors:
        app.register_blueprint(team_views.views)
    return app


def _let_in() -> Optional[Response]:
    """Lets a request in: from a known address, with a session, and with that session's token if it changes
    something."""
    desk: Desk = flask.current_app.extensions["desk"]
    reached: Reached = flask.current_app.extensions["reached"]
    request = flask.request
    if request.path.startswith(FIELD_PATHS):
        # (each of these has a key in a field of its own, which no page of elsewhere knows)
        return None if request.blueprint == FIELD else _refuse(404, NO_PAGE)
    if request.host.lower() not in reached.hosts:
        return _refuse(400, _not_here(request.host, reached))
    origin = request.headers.get("Origin")
    if request.method == "POST" and origin and origin not in reached.origins:
        return _refuse(403, _("The form came from another site, so nothing was done."))
    if desk.supervisors and f"{request.path}/".startswith(TEAM_PATHS):
        return _let_to_team()
    cookie = request.cookies.get(COOKIE)
    session = flask.g.session = desk.sessions.of(cookie, request.endpoint not in LOADED and not is_by_itself())
    # (without a session nothing is read but the form to sign in)
    is_free = request.endpoint in FREE
    if session is None and not is_free:
        if request.method == "POST":
            return _hold_form(desk) if desk.sessions.was_one(cookie) else _refuse(403, ENDED)
        return flask.redirect(flask.url_for("sign_in.show", to=without_itself(request.full_path.rstrip("?"))))
    if fault := fault_of_form(session is not None):
        return _refuse(413, fault)
    if is_free or session is None:
        return None
    if request.method == "POST" and not session.has_token(request.form.get("token", "")):
        return held_views.show_form(form_of_request(), 403)
    desk.held.drop(request.form.get("held", ""))
    return _again(desk, cookie or "") if request.method == "POST" else None


def _let_to_team() -> Optional[Response]:
    """Lets a request to a supervisor's page go on, where a key is asked for. No session of the desk is looked up."""
    if f"{flask.request.path}/" == TEAM_PATHS:
        return flask.redirect(flask.url_for("team.show"))
    if flask.request.blueprint != TEAM:
        return team_views.refuse(404, NO_PAGE)
    fault = fault_of_form(False)
    return team_views.refuse(413, fault) if fault else None


def _again(desk: Desk, cookie: str) -> Optional[Response]:
    """The answer to a form that was sent twice; None if it is the first one, which is carried out."""
    name = name_of_form(cookie)
    try:
        answer = desk.once.begin(name) if name else None
    except NoAnswerYet:
        return _refuse(409, NO_ANSWER, NO_ANSWER_YET)
    if answer is None:
        flask.g.form, flask.g.begun = name, time.monotonic()
    return answer.response() if answer else None


def _keep_answer(answer: Response) -> Response:
    """Keeps the answer to a form for a second one, and how long it took."""
    desk: Desk = flask.current_app.extensions["desk"]
    if begun := flask.g.get("begun"):
        desk.durations.keep(flask.request.endpoint or "", time.monotonic() - begun)
    if name := flask.g.pop("form", None):
        desk.once.end(name, Answer(answer.status_code, [*answer.headers.items()], answer.get_data()))
    return answer


def _over(_fault: Optional[BaseException]) -> None:
    """A form that ended without an answer is being carried out no more."""
    if name := flask.g.pop("form", None):
        flask.current_app.extensions["desk"].once.end(name, None)


def _hold_form(desk: Desk) -> Response:
    """Keeps a form whose session has ended, and leads to signing in: after that it can be sent again."""
    if fault := fault_of_form(True):
        return _refuse(413, fault)
    if flask.request.endpoint == "sign_in.leave":
        return flask.redirect(flask.url_for("sign_in.show"), 303)
    name = desk.held.keep(form_of_request())
    if name is None:
        return _refuse(403, ENDED)
    return flask.redirect(flask.url_for("sign_in.show", to=f"{held_views.PATH}{name}"), 303)


def _not_here(host: str, reached: Reached) -> Message:
    """The reason why a host isn't accepted, and what to do."""
    places = {"host": of_others(host), "address": of_others(reached.address)}
    first = _("This application can't be reached as {host}: its address is {address}.", **places)
    if reached.front:
        return first
    return sentences(first, _("Behind a web server, it needs its address there ({names}).", names=of_others(SETTINGS)))


def _refuse(status: int, text: object, heading: Optional[Message] = None) -> Response:
    is_form = flask.request.method == "POST" and flask.g.get("session") is not None and status in AGAIN
    form = form_of_request() if is_form else None
    page = flask.current_app.extensions["page"]
    answer: Response = page("refused.html", status, text=text, heading=heading or _heading(status), form=form)
    return answer


def _heading(status: int) -> Message:
    """The heading of a page other than the requested one: an address by itself was to change nothing."""
    if flask.request.method == "POST" and status != 500:
        return NOT_DONE
    return HEADINGS.get(status, NOT_SHOWN)


def _fault(fault: Fault) -> Response:
    return _refuse(503, says(fault))


def _http_fault(fault: HTTPException) -> Response:
    if fault.code is None or fault.code < 400:
        return fault.get_response()  # type: ignore[return-value]
    if fault.code == 413:
        return _refuse(fault.code, told_of_too_large())
    if fault.code == 405 and flask.request.method != "POST":
        return _refuse(405, ONLY_A_FORM)
    return _refuse(fault.code, BY_STATUS.get(fault.code) or _not_so(fault))


def _not_so(fault: HTTPException) -> Message:
    """The message for another status."""
    return _(
        "The application can't carry out this request: go back, reload the page, and try again. Details: {line}",
        line=own_line(f"{fault.code} {fault.name}"),
    )


def _with_fields(answer: Response) -> Response:
    for name, value in FIELDS.items():
        answer.headers.setdefault(name, value)
    return answer


def _script() -> Response:
    answer = flask.Response((TEMPLATES / "forms.js").read_text(encoding="utf-8"), mimetype="text/javascript")
    answer.headers["Cache-Control"] = "private, max-age=600"
    return answer


def _style() -> Response:
    texts = [(page_templates.TEMPLATES / name).read_text(encoding="utf-8") for name in ("style.css", "sections.css")]
    texts.append((TEMPLATES / "desk.css").read_text(encoding="utf-8"))
    answer = flask.Response("".join(texts), mimetype="text/css")
    answer.headers["Cache-Control"] = "private, max-age=600"
    return answer

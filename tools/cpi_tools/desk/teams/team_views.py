"""The pages of supervisors, below /team/: the form for a supervisor's key, and how far the collectors of a team are.

A session here opens these pages only, and neither the desk's key nor a session of the desk opens them. Nothing is sent
to the office but the question if it knows a key.
"""

from __future__ import annotations

import time
from typing import Optional

import flask
from werkzeug.exceptions import HTTPException
from werkzeug.wrappers import Response

from ...office.stored import read_copy
from ...text.message import Message, message as _
from ...text.terminal import Fault, month_text
from ..looks.glance import Glance
from ..looks.month_views import time_left
from ..serve.request_context import desk, month_of, page
from ..serve.sessions import NotSignedIn, Session, WrongKey
from ..serve.sign_in_views import show_address
from ...text.exact import key_of
from .supervisor_rows import Supervisor
from .supervisors import Supervisors
from .team_months import MOST_MONTHS, absent_of, month_in_field, months_of_field, team_of, teams_of

views = flask.Blueprint("team", __name__, url_prefix="/team")

COOKIE = "cpi_team"

FREE = ("team.ask_key", "team.enter", "team.style")
"""The addresses that need no session, by the names of the views."""

SUPERVISOR = "supervisor"
"""The person of each session here: the file has the name of whoever has the key."""

NOT_NOW = _("This page can't be shown now. Try again later. If that doesn't help, tell the desk.")
NO_PAGE = _("There is no such page.")
ENDED = _("Your session has ended. Sign in again.")


def find_supervisors() -> Supervisors:
    """The supervisors: these views are there only if there are some."""
    supervisors = desk().supervisors
    assert supervisors
    return supervisors


@views.before_request
def _let_in() -> Optional[Response]:
    """Lets a supervisor in whose key is in the file now; anybody else gets the form for the key."""
    if flask.request.endpoint in FREE:
        return None
    cookie = flask.request.cookies.get(COOKIE)
    supervisors = find_supervisors()
    session = supervisors.sessions.of(cookie)
    supervisor = supervisors.find_bearer(session.key) if session else None
    if session is None or supervisor is None:
        supervisors.sessions.end(cookie)
        return flask.redirect(flask.url_for("team.ask_key"), 303)
    flask.g.supervisor, flask.g.team_session = supervisor, session
    return None


def team_page(template: str, status: int = 200, /, **named: object) -> Response:
    """A page of a template, with the supervisor who is let in."""
    session: Optional[Session] = flask.g.get("team_session")
    given: dict[str, object] = {
        "style_at": flask.url_for("team.style"),
        "supervisor": flask.g.get("supervisor"),
        "token": session.token if session else "",
    }
    return page(template, status, **{**given, **named})


@views.get("/style.css")
def style() -> Response:
    """The style of these pages."""
    answer: Response = flask.current_app.view_functions["style"]()
    return answer


@views.get("/sign-in")
def ask_key() -> Response:
    """The form for the key."""
    return team_page("team-sign-in.html", text="")


@views.post("/sign-in")
def enter() -> Response:
    """Signs a supervisor in."""
    address = flask.request.remote_addr or ""
    try:
        key = key_of(flask.request.form.get("key", ""))
        secret = find_supervisors().sessions.sign_in(SUPERVISOR, key, address)
    except NotSignedIn as fault:
        if isinstance(fault, WrongKey):
            flask.current_app.logger.warning("desk: a wrong supervisor's key from %s", show_address(address))
        return team_page("team-sign-in.html", 403, text=fault.args[0])
    desk().watch.person_came()
    answer = flask.redirect(flask.url_for("team.show"), 303)
    is_secure = flask.current_app.extensions["reached"].is_secure(flask.request.host)
    path = flask.url_for("team.show")
    answer.set_cookie(COOKIE, secret, httponly=True, samesite="Strict", secure=is_secure, path=path)
    return answer


@views.post("/sign-out")
def leave() -> Response:
    """Ends the session."""
    session: Session = flask.g.team_session
    if not session.has_token(flask.request.form.get("token", "")):
        return refuse(403, ENDED)
    find_supervisors().sessions.end(flask.request.cookies.get(COOKIE))
    answer = flask.redirect(flask.url_for("team.ask_key"), 303)
    answer.delete_cookie(COOKIE, path=flask.url_for("team.show"))
    return answer


@views.get("/")
def show() -> Response:
    """The team in the month whose prices are collected."""
    return page_of(desk().watch.glance(choose=month_in_field))


@views.get("/<month>/")
def show_month(month: str) -> Response:
    """The team in a month whose window has opened."""
    number, current = month_of(month), desk().watch.glance(choose=month_in_field)
    with desk().copies.latest() as copy, read_copy(copy.path) as office:
        if number not in months_of_field(office, int(time.time())):
            flask.abort(404)
    return page_of(current if current.state.month == number else desk().watch.glance(number))


def page_of(glance: Glance) -> Response:
    """The page of a supervisor's team in a month; with the other teams, if it is of all collectors."""
    supervisor: Supervisor = flask.g.supervisor
    now = int(time.time())
    with desk().copies.latest() as copy, read_copy(copy.path) as office:
        months = [month_text(month) for month in reversed(months_of_field(office, now)[-MOST_MONTHS:])]
        absent = absent_of(glance, supervisor, office.collectors())
    teams = teams_of(glance, find_supervisors().list_all()) if supervisor.has_all else []
    named = {"team": team_of(glance, supervisor), "teams": teams, "absent": absent, "months": months}
    return team_page("team.html", glance=glance, month=glance.month, now=now, left=time_left(glance, now), **named)


def refuse(status: int, text: Message) -> Response:
    """The page in the place of one that isn't shown."""
    return team_page("team-refused.html", status, text=text)


@views.errorhandler(Fault)
def _fault(fault: Fault) -> Response:
    """(The line names files and rows of the office's machine: it is for whoever maintains that.)"""
    flask.current_app.logger.warning("desk: a supervisor's page: %s", fault)
    return refuse(503, NOT_NOW)


@views.errorhandler(HTTPException)
def _no_page(fault: HTTPException) -> Response:
    if fault.code is None or fault.code < 400:
        return fault.get_response()  # type: ignore[return-value]
    return refuse(fault.code, NO_PAGE if fault.code == 404 else NOT_NOW)

"""The page on which a person signs in, and the end of a session."""

from __future__ import annotations

import ipaddress
import urllib.parse

import flask
from werkzeug.wrappers import Response

from ...text.message import message as _
from .faults import says
from .held_views import PATH
from .request_context import desk, page
from .watched_office import NoReply, NotSent
from .sessions import NotSignedIn, WrongKey
from ...text.exact import key_of

views = flask.Blueprint("sign_in", __name__)

KEPT = _("Your session had ended, so nothing was done. What you filled in is kept: sign in, and you can send it again.")

COOKIE = "cpi_desk"

MOST_OF_ADDRESS = 60
"""The letters of a wrong address that a line shows."""

MOST_OF_PLACE = 2_000
"""Letters, as an address has them, of the page to which a person continues: the form is sent without a session, so it
is short."""


def place_after(to: str) -> str:
    """The next page of a person after signing in: a page of this application, or by default its first one."""
    is_own = to.startswith("/") and not to.startswith("//") and "\\" not in to and to.isprintable()
    return flask.request.script_root + (to if is_own else "/")


def show_address(address: str) -> str:
    """An address as a line has it, whatever a front wrote."""
    try:
        return str(ipaddress.ip_address(address))
    except ValueError:
        return ascii(address[:MOST_OF_ADDRESS])


@views.get("/sign-in")
def show() -> Response:
    """The form. After it a person continues to the requested page, unless its address is too long for the form."""
    to = flask.request.args.get("to", "/")
    is_short = len(urllib.parse.quote(to, safe="")) <= MOST_OF_PLACE
    text = KEPT if to.startswith(PATH) else ""
    return page("sign-in.html", to=to if is_short else "/", name="", text=text)


@views.post("/sign-in")
def enter() -> Response:
    """Signs a person in."""
    form = flask.request.form
    name, to = form.get("name", ""), form.get("to", "/")
    address = flask.request.remote_addr or ""
    try:
        secret = desk().sessions.sign_in(name, key_of(form.get("key", "")), address)
    except (NotSignedIn, NotSent, NoReply) as fault:
        if isinstance(fault, WrongKey):
            # (neither key nor name: a person may have typed one in the place of the other)
            flask.current_app.logger.warning("desk: a wrong key from %s", show_address(address))
        status = 403 if isinstance(fault, NotSignedIn) else 503
        return page("sign-in.html", status, to=to, name=name, text=says(fault))
    desk().watch.person_came()
    answer = flask.redirect(place_after(to), 303)
    is_secure = flask.current_app.extensions["reached"].is_secure(flask.request.host)
    path = flask.request.script_root or "/"
    answer.set_cookie(COOKIE, secret, httponly=True, samesite="Strict", secure=is_secure, path=path)
    return answer


@views.post("/sign-out")
def leave() -> Response:
    """Ends the session."""
    desk().sessions.end(flask.request.cookies.get(COOKIE))
    answer = flask.redirect(flask.url_for("sign_in.show"), 303)
    answer.delete_cookie(COOKIE, path=flask.request.script_root or "/")
    return answer

"""A form that was sent after its session had ended: with its typed fields, and a button that sends it again."""

from __future__ import annotations

from typing import Optional

import flask
from werkzeug.wrappers import Response

from .sent_forms import HeldForm
from .request_context import desk, page

views = flask.Blueprint("held", __name__)

PATH = "/held/"
"""Their place, as an address has it without a front's prefix."""


@views.get(f"{PATH}<name>")
def show(name: str) -> Response:
    """A form that is kept; or that it isn't kept any more."""
    form = desk().held.of(name)
    return show_form(form, 200 if form else 404, name)


def show_form(form: Optional[HeldForm], status: int, name: str = "") -> Response:
    """A form with its typed fields; `name` is the name under which it is kept."""
    return page("held.html", status, form=form, name=name)


@views.post(f"{PATH}<name>")
def drop(name: str) -> Response:
    """Drops a form that is kept."""
    desk().held.drop(name)
    return flask.redirect(flask.url_for("month.first"), 303)

"""The sheet of paper that signs a collector in on a phone, as `cpi-tools keys` prints it: it contains the collector's
key, so the browser is asked to keep nothing of it, and the log says who printed whose.

The form `/sample/collectors/sheet` takes `collector`, a number; `name`, or nothing, since the office stores no names; and
`language`, a code such as `fr`.
"""

from __future__ import annotations

import argparse
from collections.abc import Mapping
from typing import NamedTuple, Optional

import flask
from werkzeug.wrappers import Response

from ...office.stored import read_copy
from ...office.stored_pages import collectors_in, key_of
from ...sheets.cells import Origin, Row
from ...text.languages import Language, a_language, language_of
from ...text.message import message as _
from ...text.others import of_others
from ...text.terminal import Fault
from ..keys.keys_cli import NAME, NUMBER, name_of, number_of
from ..serve.faults import says
from ..serve.request_context import after, desk, session, what_came
from .desk_log import SAID
from .sample_kinds import KINDS
from .sample_views import show_result

views = flask.Blueprint("keys", __name__)

POLICY = "default-src 'none'; style-src 'unsafe-inline'; img-src data:; base-uri 'none'; frame-ancestors 'none'"
"""The page contains its style, like the file that is printed elsewhere; it has no script, and none would run."""


class Asked(NamedTuple):
    """The sheet that is asked for: of which collector, with which name on it (None: none), in which language."""

    collector: int
    name: Optional[str]
    language: Language


@views.post("/sample/collectors/sheet")
def ask_sheet() -> Response:
    """Asks for the sheet of one collector: the log says so before it is shown."""
    try:
        asked = asked_in(flask.request.form)
        desk().log.append(session().person, SAID, text=f"printed the sheet with the key of collector {asked.collector}")
    except Fault as fault:
        return show_result(KINDS["collectors"], 400, _("No sheet was made: {fault}", fault=says(fault)))
    return after("keys.sheet", {"asked": asked})


@views.get("/sample/collectors/sheet")
def sheet() -> Response:
    """The sheet that was asked for; none is made for an address only."""
    asked = what_came().get("asked")
    if not isinstance(asked, Asked):
        return flask.redirect(flask.url_for("sample.show", kind="collectors"))
    answer = flask.Response(page_with_key(asked))
    answer.headers["Content-Security-Policy"] = POLICY
    return answer


def asked_in(form: Mapping[str, str]) -> Asked:
    """The sheet that a form asks for. Raises Fault."""
    if not desk().given.phones:
        raise Fault(_("The application was started without the address of the front that collectors use (--phones)."))
    named = Row(Origin("", 0), {NUMBER: form["collector"], NAME: form.get("name", "")})
    with desk().copies_now() as copy, read_copy(copy.path) as office:
        number = number_of(named, collectors_in(office))
    name = name_of(named) if named[NAME].strip() else None
    return Asked(number, name, language_in(form.get("language", "en")))


def page_with_key(asked: Asked) -> str:
    """The page of a sheet. Raises Fault."""
    # (its package draws codes, and nothing else here needs it)
    from ..keys.key_sheets import page_of, sheets_of

    phones, number = desk().given.phones, asked.collector
    with desk().copies.latest() as copy, read_copy(copy.path) as office:
        key = key_of(office, number)
    names = {number: asked.name} if asked.name else {}
    return page_of(phones, sheets_of(phones, {number: key}, names), asked.language)


def language_in(text: str) -> Language:
    """The language of a code. Raises Fault if the language has no catalogue."""
    try:
        return language_of(a_language(text))
    except argparse.ArgumentTypeError as fault:
        raise Fault(_("There is no catalogue for the language {language}.", language=of_others(text))) from fault

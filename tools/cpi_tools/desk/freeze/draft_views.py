"""The draft of a month's release, under embargo: its sentences, its divisions, and its PDF in each language of the website.

The log says who opened which. `language` of an address is one of the website's; without it, the page is in its first one.
"""

from __future__ import annotations

import time
from typing import NamedTuple, Optional

import flask
from werkzeug.wrappers import Response

from ...publish.figures.config import Config, read_config
from ...publish.figures.announcements import Reason
from ...publish.forms.sdmx import KNOWN_IDS
from ...publish.typeset.release_pdf import DraftRelease
from ...publish.typeset.paper import OnPaper, draft_on_paper, language_in
from ...text.languages import SOURCE, in_themselves
from ...text.terminal import Fault
from ..looks.month_trials import Tried
from ..records.desk_log import OPENED_DRAFT, SAID
from ..serve.request_context import desk, month_of, page, session
from .reason_file import main_language

views = flask.Blueprint("draft", __name__)


class Opened(NamedTuple):
    """A draft as it is shown: itself, on paper in a language, and the moment of the trial."""

    draft: DraftRelease
    paper: OnPaper
    tag: str
    at: int


@views.get("/month/<month>/release")
def show(month: str) -> Response:
    """The draft of the release."""
    number, config = month_of(month), config_here()
    found, trials = desk().trials.latest(number), desk().trials
    opened = opened_of(found, config) if found and config else None
    if opened:
        log_opened(opened, "page")
    named = {
        "month": month,
        "found": found,
        "running": trials.running,
        "fault": trials.fault(number),
        "config": config,
        "opened": opened,
        "languages": languages_of(config) if config else {},
    }
    return page("draft.html", **named)


@views.get("/month/<month>/release/<tag>.pdf")
def pdf(month: str, tag: str) -> Response:
    """Its PDF in a language."""
    found, config = desk().trials.latest(month_of(month)), config_here()
    if found is None or config is None or tag not in languages_of(config):
        flask.abort(404)
    opened = opened_of(found, config, tag)
    if opened is None:
        flask.abort(404)
    content = opened.paper.paper.pdf(opened.paper.release)
    log_opened(opened, "PDF")
    answer = flask.Response(content, mimetype="application/pdf")
    name = f"draft-{opened.draft.month}-r{opened.draft.revision}-{tag}.pdf"
    answer.headers["Content-Disposition"] = f'attachment; filename="{name}"'
    return answer


def config_here() -> Optional[Config]:
    """The website's configuration as it is now; None if the application has none. Raises Fault."""
    path = desk().site_config.path
    return read_config(path, KNOWN_IDS) if path else None


def languages_of(config: Config) -> dict[str, str]:
    """The languages of the website by their tags, with their own names."""
    names = in_themselves()
    return {tag: names.get(tag.replace("-", "_"), tag) for tag in config.speaks.languages or (SOURCE,)}


def opened_of(trial: Tried, config: Config, tag: str = "") -> Optional[Opened]:
    """The draft for a month with a trial, in the given language, or that of the address, or the first one; None if
    there is no table, or if the release is already published. Raises Fault."""
    if not trial.report.table:
        return None
    draft, now = desk().release_drafts.of(trial), int(time.time())
    if trial.state.is_frozen and draft.moment <= now:
        return None
    try:
        tag = language_in(config, tag or flask.request.args.get("language") or None)
    except Fault:
        flask.abort(404)
    spoken = with_waiting_reason(config, draft, trial.state.month)
    return Opened(draft, draft_on_paper(draft, spoken, tag, now), tag, trial.at)


def with_waiting_reason(config: Config, draft: DraftRelease, month: int) -> Config:
    """The configuration with the reason of the draft's revision that waits at the desk, unless the office's file has one.
    The month is a number like 202601. Raises Fault if the reasons that wait can't be read."""
    waits = desk().reasons.of(month, draft.revision)
    if waits is None or any(
        (reason.month, reason.revision) == (draft.month, draft.revision) for reason in config.reasons
    ):
        return config
    main = main_language(waits.texts, (config.speaks.languages or (SOURCE,))[0])
    others = {tag: text for tag, text in waits.texts.items() if tag != main}
    reason = Reason(draft.month, draft.revision, waits.texts[main], None, others)
    return config._replace(reasons=(*config.reasons, reason))


def log_opened(opened: Opened, what: str) -> None:
    """Writes into the log who opened a draft. Raises Fault if the log can't be written: then nothing is shown."""
    draft = opened.draft
    text = OPENED_DRAFT.format(month=draft.month, revision=draft.revision, what=what, language=opened.tag)
    desk().log.append(session().person, SAID, text=text)

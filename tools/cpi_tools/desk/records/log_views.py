"""The desk's log: searched, saved as CSV, and its records without a reply."""

from __future__ import annotations

import io
from collections.abc import Sequence
from typing import NamedTuple, Optional

import flask
from werkzeug.wrappers import Response

from ...text.text_files import Writer, formulas_told, line_of
from ...text.message import Message, message as _, moment_of
from ...text.others import OwnLine, Worded, of_others, own_line
from ...text.report_language import ENGLISH, Teller
from ..serve.request_context import csv_file, desk, page, session
from .desk_log import ANSWERED, CUT_OFF, FROZEN, LOOKED_UP, NOT_SENT, SAID, SENT, Entry
from .record_sentences import NO_NAMES, Names, names_in, sentence_of
from .sending import record_reply

views = flask.Blueprint("log", __name__)

# t: a line of the log: what a person did here
STEP = _("a step at the desk")
STEPS = {SAID: STEP, FROZEN: STEP, CUT_OFF: _("an incomplete line")}
"""The page's texts for lines that contain no record."""

SHOWN = 100
"""Lines of a page."""


class Line(NamedTuple):
    """A line of the log as a reader sees it: its number and moment, its person, the record or the step, its result, and
    the fields of a record with the names that the records sent with it give."""

    number: int
    at: int
    by: str
    said: Worded
    answer: str
    fields: Sequence[str] = ()
    names: Names = NO_NAMES

    @property
    def says(self) -> Optional[Message]:
        """The record as a sentence, if it is one."""
        return sentence_of(self.fields, self.names)

    @property
    def is_step(self) -> bool:
        """Whether it is a step of a person, and no record."""
        return isinstance(self.said, OwnLine)

    @property
    def cells(self) -> list[object]:
        """The line of a file."""
        return [self.number, moment_of(self.at), self.by, self.said, self.answer]


def lines_of(entries: list[Entry]) -> list[Line]:
    """A line for each record and each step, in their order."""
    settled = {entry.of: entry for entry in entries if entry.what in (ANSWERED, LOOKED_UP, NOT_SENT)}
    lines = list[Line]()
    for entry in entries:
        if entry.what == SENT:
            end = settled.get(entry.number)
            names = names_in(entry.records)
            for place, fields in enumerate(entry.records):
                if end is not None and end.what == NOT_SENT:
                    answer = _("not sent: {line}", line=own_line(end.text))
                else:
                    answer = record_reply(fields, end.replies[place] if end else None).answer
                lines.append(Line(entry.number, entry.at, entry.by, of_others(line_of(fields)), answer, fields, names))
        elif entry.what not in (ANSWERED, LOOKED_UP, NOT_SENT):
            # (the file has it in English)
            lines.append(
                Line(entry.number, entry.at, entry.by, own_line(entry.text), STEPS.get(entry.what, entry.what))
            )
    return lines


def search(lines: list[Line], query: str, teller: Teller = ENGLISH) -> list[Line]:
    """The lines that have each word of a query somewhere, in English or as the page says it."""
    words = query.casefold().split()

    def text_of(line: Line) -> str:
        return " ".join(
            map(str, [*line.cells, *map(teller.render, (moment_of(line.at), line.answer, line.says or ""))])
        ).casefold()

    return [line for line in lines if all(word in text_of(line) for word in words)]


@views.get("/log")
def show() -> Response:
    """The log, the latest lines first."""
    query = flask.request.args.get("query", "")
    start = flask.request.args.get("from", "0")
    lines = search(lines_of([*desk().log.entries]), query, desk().teller)[::-1]
    first = int(start) if start.isdecimal() and len(start) < 9 else 0
    named: dict[str, object] = {"query": query, "count": len(lines), "first": first, "step": SHOWN}
    named["record_says"] = sentence_of
    return page("log.html", lines=lines[first : first + SHOWN], **named)


@views.get("/log.csv")
def file() -> Response:
    """The lines of a query, all of them, the first ones first."""
    text = io.StringIO()
    with formulas_told("", True):
        out = Writer(text)
        out.writerow(["number", "moment", "who", "record or step", "answer"])
        query = flask.request.args.get("query", "")
        lines = search(lines_of([*desk().log.entries]), query, desk().teller)
        out.writerows(line.cells for line in lines)
    return csv_file("desk-log.csv", text.getvalue())


@views.post("/log/settle")
def settle() -> Response:
    """Looks up the records that have no reply."""
    desk().sender.settle(session().person)
    return flask.redirect(flask.url_for("log.show"), 303)

"""The sample as tables: items, outlets, collectors, assignments and hand-overs, searched page by page; and rows that a
person writes or pastes, judged on a copy row by row, and then sent.

Each kind (`items`, `outlets`, `collectors`, `assignments`, `handovers`, `calendar`) has the page `/sample/KIND` and three
forms, which need the session's `token`:

- `/sample/KIND/judge` takes `pasted`, rows from a spreadsheet; or fields with the names of the kind's
  columns (item, text, unit, low, high; outlet, name; collector, key; collector, slot, outlet, item, first, last;
  collector, slot, to, to_slot, month; month, opens, closes, publishes), each of them once a row; or neither, and what
  waits is judged anew. `instead` has numbers of waiting rows that go, apart by blanks, and `shown` the sum of those.
- `/sample/KIND/send` takes `seen`, the sum of the rows that the page showed, and sends those.
- `/sample/KIND/drop` takes `number`, of one row, or `all`, and `shown`, the sum of the rows that go.
"""

from __future__ import annotations

import io
import time
from collections.abc import Mapping, Sequence
from typing import Any, NamedTuple, Optional

import flask
from werkzeug.wrappers import Response

from ...office.stored import StoredOffice, read_copy
from ...office.stored_pages import LISTINGS, Found, found_in
from ...text.text_files import Writer, formulas_told, line_of
from ...text.languages import in_themselves
from ...text.message import Message, message as _, message_of, whole
from ...text.others import Worded, of_others
from ...text.terminal import Fault, month_text
from ..freeze.reason_views import still_asked
from ..serve.faults import says
from ..serve.request_context import after, csv_file, desk, field, page, session, what_came
from ..year.clock_faults import window_faults
from .sending import CALENDAR, COLLECTORS, GOING, GOOD, NEW, REFUSED, Waiting
from .sample_kinds import KINDS, NOT_READ, Kind, bounds_in_file, bounds_shown, has_bounds, read_pasted
from .record_sentences import names_of, sentence_of
from .sample_rows import NotAsSeen, Sent, answer_of, judge, send, settle, state_of, sum_of_rows

views = flask.Blueprint("sample", __name__)

SHOWN = 100
"""Rows of a page."""

ORDER = (REFUSED, NEW, GOING, GOOD)
"""Waiting rows as a page shows them: first those that want somebody's hand."""

MONTHS = ("first", "last", "month")

NOT_THOSE_ROWS = _(
    "These rows were sent, corrected or discarded after your page was loaded, perhaps in another of your "
    "windows. Nothing was done: see the current state."
)


class Shown(NamedTuple):
    """A page of rows: their columns, how many there are in all, the first one's number from 0 on, and the cells."""

    columns: Sequence[str]
    total: int
    first: int
    rows: list[list[str]]


def kind_of(name: str) -> Kind:
    """The kind of an address; any other name has no page."""
    if name not in KINDS:
        flask.abort(404)
    return KINDS[name]


def number_in(name: str) -> int:
    """A number of the address, 0 if it is none."""
    text = flask.request.args.get(name, "0")
    return int(text) if text.isdecimal() and len(text) < 9 else 0


# ---- pages


@views.get("/sample")
def first() -> Response:
    """To the items."""
    return flask.redirect(flask.url_for("sample.show", kind="items"))


@views.get("/sample/<kind>")
def show(kind: str) -> Response:
    """The registered rows of a kind, and the rows that wait."""
    it = kind_of(kind)
    settle(desk(), session().person, it)
    return show_result(it, **what_came())


NOTHING = Worded("")


def show_result(
    kind: Kind,
    status: int = 200,
    fault: Worded = NOTHING,
    answer: Worded = NOTHING,
    text: str = "",
    unread: Worded = NOTHING,
    typed: Optional[Mapping[str, str]] = None,
) -> Response:
    """The page of a kind, with the result of a step; `text` couldn't be read, `typed` are the fields of a row that
    wasn't taken."""
    waiting = desk().tray.rows(session().person, kind.name)
    page_rows = shown_waiting(waiting)
    chosen = flask.request.args.get("mend", "") or flask.request.form.get("instead", "").replace(" ", ",")
    mended = [row for row in waiting if str(row.number) in chosen.split(",")]
    named: dict[str, Any] = {
        "kind": kind,
        "kinds": KINDS,
        "listed": list_rows(kind),
        "query": flask.request.args.get("query", ""),
        "cut": cut_of(kind),
        "step": SHOWN,
        "waiting_rows": page_rows,
        "waiting_first": number_in("waiting"),
        "waiting_count": len(waiting),
        "good": sum(row.state == GOOD for row in waiting),
        "refused_numbers": ",".join(str(row.number) for row in waiting if row.state == REFUSED),
        "seen": state_of(waiting),
        "answer_of": answer_of,
        "cells_shown": cells_shown,
        "sentences": sentences_of(kind, page_rows),
        "clock_faults": [[*window_faults([kind.word, *row.cells], desk().given.clock)] for row in page_rows],
        "mended": mended[0] if len(mended) == 1 else None,
        "cells": cells_of(kind, typed, mended),
        "instead": " ".join(str(row.number) for row in mended),
        "mended_rows": mended,
        "sum_of_rows": sum_of_rows,
        "all_shown": sum_of_rows([row for row in waiting if row.state != GOING]),
        "text": text or (text_of(kind, mended) if len(mended) > 1 else ""),
        "zone": desk().given.clock.spoken_name,
        "asked": still_asked() if kind.name == CALENDAR else None,
        "phones": desk().given.phones,
        "languages": in_themselves() if kind.name == COLLECTORS else {},
    }
    return page("sample.html", status, fault=fault, answer=answer, unread=unread, **named)


def cells_of(kind: Kind, typed: Optional[Mapping[str, str]], mended: Sequence[Waiting]) -> list[str]:
    """The cells of the form's row: those that a person filled in and that weren't accepted, or those of the one row
    that is being corrected."""
    if typed and any(column in typed for column in kind.columns):
        return [typed.get(column, "") for column in kind.columns]
    return mended[0].cells if len(mended) == 1 else [""] * len(kind.columns)


def list_rows(kind: Kind) -> Shown:
    """The rows of the page that is asked for."""
    with desk().copies_now() as copy, read_copy(copy.path) as office:
        if kind.name not in LISTINGS:
            return windows(office)
        query = flask.request.args.get("query", "")
        found = found_in(office, kind.name, query, cut_of(kind), number_in("from"), SHOWN)
    columns, rows = LISTINGS[kind.name].columns, rows_of(kind, found)
    if has_bounds(kind):
        rows = [bounds_shown(columns, row, desk().teller.in_percent) for row in rows]
    return Shown(columns, found.total, found.first, rows)


def rows_of(kind: Kind, found: Found) -> list[list[str]]:
    """Rows as texts."""
    columns = LISTINGS[kind.name].columns
    return [[month_text(cell) if of in MONTHS else str(cell) for of, cell in zip(columns, row)] for row in found.rows]


def windows(office: StoredOffice) -> Shown:
    """The windows by the office's clock, the latest month first."""
    moment = desk().teller.moment
    rows = [[month_text(it.month), *map(moment, it[1:])] for it in reversed(office.calendar())]
    return Shown(KINDS["calendar"].columns, len(rows), 0, rows)


def cut_of(kind: Kind) -> dict[str, str]:
    """The values to which the address cuts a list down, by their columns."""
    columns = LISTINGS[kind.name].cut_by if kind.name in LISTINGS else ()
    return {column: flask.request.args[column] for column in columns if flask.request.args.get(column)}


def cells_shown(kind: Kind, row: Waiting) -> list[str]:
    """The cells of a waiting row: those of its record, and as they were given if it has none or they weren't read."""
    if not row.record or kind.name == "calendar" or row.why == NOT_READ:
        return row.cells
    if has_bounds(kind):
        return bounds_shown(kind.columns, row.record[1:], desk().teller.in_percent)
    return row.record[1:]


def sentences_of(kind: Kind, rows: Sequence[Waiting]) -> list[Optional[Message]]:
    """The sentences of waiting rows that were judged."""
    if not rows:
        return []
    records = [row.record if row.why != NOT_READ else [] for row in rows]
    with desk().copies_now() as copy, read_copy(copy.path) as office:
        names = names_of(office, records, records)
    return [sentence_of(each, names) if each else None for each in records]


def shown_waiting(rows: Sequence[Waiting]) -> list[Waiting]:
    """The waiting rows of a page, those first that want somebody's hand."""
    start = number_in("waiting")
    return sorted(rows, key=lambda row: ORDER.index(row.state))[start : start + SHOWN]


def text_of(kind: Kind, rows: Sequence[Waiting]) -> str:
    """Waiting rows as a text to correct, with a heading."""
    return "".join(f"{line_of(cells)}\n" for cells in [kind.columns, *(row.cells for row in rows)])


@views.get("/sample/<kind>.csv")
def file(kind: str) -> Response:
    """All rows that a search finds, as a file that can be pasted back; keys of collectors aren't in it."""
    file = kind_of(kind)
    if file.name not in LISTINGS:
        flask.abort(404)
    with desk().copies_now() as copy, read_copy(copy.path) as office:
        found = found_in(office, file.name, flask.request.args.get("query", ""), cut_of(file))
    columns, rows, text = LISTINGS[file.name].columns, rows_of(file, found), io.StringIO()
    if has_bounds(file):
        rows = [bounds_in_file(columns, row) for row in rows]
    with formulas_told("", True):
        out = Writer(text)
        out.writerow(columns)
        out.writerows(rows)
    return csv_file(f"{file.name}-{time.strftime('%Y-%m-%d', time.gmtime())}.csv", text.getvalue())


# ---- forms


@views.post("/sample/<kind>/judge")
def judge_rows(kind: str) -> Response:
    """Takes rows, and judges all that wait."""
    it, form, unread = kind_of(kind), flask.request.form, list[str]()
    text, typed = form.get("pasted", ""), form.to_dict()
    rows = rows_in_fields(it)
    gone = [
        row for row in desk().tray.rows(session().person, it.name) if str(row.number) in form.get("instead", "").split()
    ]
    if form.get("instead") and sum_of_rows(gone) != field("shown"):
        return show_result(it, 409, NOT_THOSE_ROWS, text=text, typed=typed)
    instead = [row.number for row in gone]
    try:
        if text.strip():
            rows, unread = read_pasted(text, it)
        if rows:
            desk().tray.take(session().person, it.name, rows, instead)
            # (they are in the tray now, and so aren't in the form any more)
            text, typed = "", {}
        judge(desk(), session().person, it)
    except Fault as fault:
        return show_result(it, 400, says(fault), text=text, typed=typed)
    came = {"unread": of_others(", ".join(unread))} if unread else {}
    return after("sample.show", came, kind=it.name)


def rows_in_fields(kind: Kind) -> list[list[str]]:
    """The rows of a form that has a field for each column; a row in which only the month was given isn't a row."""
    columns = [[each.strip() for each in flask.request.form.getlist(column)] for column in kind.columns]
    if len({*map(len, columns)}) > 1:
        # (a row without one of its cells is no row of this form)
        flask.abort(400)
    rows = [[*row] for row in zip(*columns)]
    return [row for row in rows if any(cell for column, cell in zip(kind.columns, row) if column != "month")]


@views.post("/sample/<kind>/send")
def send_rows(kind: str) -> Response:
    """Sends the rows that the page showed as good."""
    rows = kind_of(kind)
    try:
        sent = send(desk(), session(), rows, field("seen"))
    except NotAsSeen as fault:
        return show_result(rows, 409, says(fault))
    except Fault as fault:
        return show_result(rows, 503, _("Nothing was sent: {fault}", fault=says(fault)))
    return after("sample.show", {"answer": told_sent(sent)}, kind=rows.name)


def told_sent(sent: Sent) -> Message:
    """The sentence with the number of rows that were carried out."""
    if sent.done == sent.total:
        return message_of("{count} row sent and accepted.", "{count} rows sent and accepted.", sent.total)
    return message_of(
        "{done} of {count} row accepted. The answer to the other is below.",
        "{done} of {count} rows accepted. The answers to the others are below.",
        sent.total,
        done=whole(sent.done),
    )


@views.post("/sample/<kind>/drop")
def drop_rows(kind: str) -> Response:
    """Drops waiting rows that the page showed: one, or all that aren't on their way."""
    it, form, was = kind_of(kind), flask.request.form, field("shown")
    rows = [row for row in desk().tray.rows(session().person, it.name) if row.state != GOING]
    gone = rows if form.get("all") else [row for row in rows if str(row.number) == field("number")]
    if sum_of_rows(gone) != was:
        return show_result(it, 409, NOT_THOSE_ROWS)
    desk().tray.change(session().person, it.name, {row.number: None for row in gone})
    return flask.redirect(flask.url_for("sample.show", kind=it.name), 303)

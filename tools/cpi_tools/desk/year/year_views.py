"""The coming year: who leaves the sample, and a draft of its plan with weights, places and new series, which is changed
here, judged on a copy, and sent.

`/year/make` takes `year`. The forms of `/year/YEAR/` are `put` (`sheet`: classification, weights, places or series; the
columns of a row by their names, of weights once a row and with `was`, what the page showed of it; or `pasted`, with
`source` for weights without one; `whole` if these rows are all), `out` (`sheet`, and `cell`, the code, the item, or all
cells of a series), `set` (`unit`: ppm, permille, percent or money; `decimal`), `reference` (`reference`), `check`, `send`
(`seen`) and `drop`. `put` has `shown`, the version of the draft that the page showed, and refuses rows that somebody
changed since; the others that change it have the sum of a row, of a setting or of all.
"""

from __future__ import annotations

import time
from collections.abc import Mapping, Sequence
from fractions import Fraction
from pathlib import Path
from typing import Any, NamedTuple, Optional

import flask
from werkzeug.wrappers import Response

from ...office.stored import read_copy
from ...sheets.sheet_numbers import decimal
from ...text.text_files import line_of
from ...text.message import Figure, Message, message as _, message_of, sentences, whole
from ...text.others import Worded, of_others
from ...text.terminal import Fault
from ..freeze.freezes import sum_of
from ..records.desk_log import DROPPED_DRAFT, SAID, hide_key as hidden
from ..records.sample_kinds import read_pasted
from ..records.record_sentences import names_in, names_of, sentence_of
from ..records.records_views import pair_replies
from ..records.sample_views import SHOWN
from ..serve.faults import says
from ..serve.request_context import (
    after,
    changed_by,
    changed_by_step,
    csv_file,
    desk,
    field,
    page,
    replaced_since,
    session,
    what_came,
)
from ..serve.watched_office import MOST_BYTES, body_of
from .draft_sheets import (
    ALL,
    CLASSIFICATION,
    KEYS,
    LISTS,
    REFERENCE,
    SETTINGS,
    SHEETS,
    UNITS,
    WEIGHTS,
    Change,
    Draft,
    Pair,
    Settings,
)
from .drafts import Checked, Left
from .draft_weights import PRICES, Given, absent, columns_of_file, differs, given_rows, of_weights, quicker

views = flask.Blueprint("year", __name__)

NOTHING = Worded("")

SCRIPT = Path(__file__).with_name("templates") / "weights.js"

NEWEST, FEW_ROWS = 20, 5
"""So many changes are on the page, each with so many rows; the file has all."""


@views.get("/weights.js")
def script() -> Response:
    """The script of the table of weights: keys, and columns that are pasted."""
    return flask.Response(SCRIPT.read_text(encoding="utf-8"), mimetype="text/javascript")


@views.get("/year")
def first() -> Response:
    """To the latest draft, or to the form that makes one."""
    years = desk().drafts.years()
    if years and not desk().drafts.running:
        return flask.redirect(flask.url_for("year.show", year=years[0]))
    return shown_form()


def shown_form(status: int = 200, fault: Worded = NOTHING) -> Response:
    """The form that makes a draft."""
    with desk().copies_now() as copy, read_copy(copy.path) as office:
        releases = office.releases()
    year = releases[-1].month // 100 + 1 if releases else time.gmtime().tm_year + 1
    drafts = desk().drafts
    named = {"years": drafts.years(), "running": drafts.running}
    return page("year-begin.html", status, fault=fault or drafts.fault, next=year, **named)


@views.post("/year/make")
def make() -> Response:
    """Begins to make a draft."""
    text = flask.request.form.get("year", "").strip()
    if not (text.isdecimal() and len(text) == 4):
        return shown_form(400, _("{text} isn't a year like {year}.", text=of_others(text), year=2027))
    if desk().drafts.draft(int(text)):
        told_so = _("There is already a draft of {year}: discard it first if you want to begin again.", year=int(text))
        return shown_form(409, told_so)
    desk().drafts.make(int(text), session().person)
    return flask.redirect(flask.url_for("year.first"), 303)


# ---- a draft


class NoDraft(Fault):
    """The draft of a year no longer exists; one line."""


def draft_of(year: int) -> Draft:
    """The draft of an address; without a draft the page doesn't exist. Raises NoDraft for a form of one that was
    dropped."""
    draft = desk().drafts.draft(year) if 2000 <= year <= 2199 else None
    if draft is not None:
        return draft
    if flask.request.method == "POST":
        raise NoDraft(changed_by_step(DROPPED_DRAFT.format(year=year)))
    flask.abort(404)


@views.errorhandler(NoDraft)
def no_draft(fault: NoDraft) -> Response:
    """The form that makes a draft, since there is none any more."""
    return shown_form(409, says(fault))


@views.get("/year/<int:year>/")
def show(year: int) -> Response:
    """A draft: its sheets, the sum of its weights, and the messages about it."""
    return show_result(draft_of(year), **what_came())


def show_result(
    draft: Draft,
    status: int = 200,
    fault: Worded = NOTHING,
    answer: Worded = NOTHING,
    unread: Worded = NOTHING,
    typed: Optional[Mapping[str, str]] = None,
    given: Sequence[Given] = (),
) -> Response:
    """The page of a draft, with the result of a step; `typed` are the fields of a form that wasn't taken, `given` the
    weights of one."""
    name = flask.request.values.get("sheet", WEIGHTS)
    name = name if name in SHEETS or name in LISTS else WEIGHTS
    drafts, filled = desk().drafts, typed or {}
    total, checked = draft.sum(), drafts.find_checked(draft.year)
    changes = draft.changes.all()
    named: dict[str, Any] = {
        "draft": draft,
        "years": drafts.years(),
        "sum": total,
        "sum_text": number_text(total.found),
        "wanted_text": number_text(total.wanted) if total.wanted else "",
        "settings": draft.settings(),
        "reference": draft.reference(),
        "running": drafts.running,
        "checked": checked,
        "too_long": too_long(checked) if checked else NOTHING,
        "lines": lines_said(checked.records) if checked else [],
        "sent": drafts.sent.get(draft.year, []),
        "typed": filled,
        "is_row": bool(filled) and "pasted" not in filled and not given,
        "changes": newest(changes),
        "lines_of_changes": len(changes),
        "shown_settings": draft.sum_page(SETTINGS),
        "shown_all": draft.sum_page(ALL),
        **of_sheet(draft, name),
        **(of_weights(draft, query_of(), start_of(), given) if name == WEIGHTS else {}),
    }
    return page("year.html", status, fault=fault or drafts.fault, answer=answer, unread=unread, **named)


def query_of() -> str:
    """The text to search for, from the address, or from the form that came from such a page."""
    return flask.request.values.get("query", "")


def start_of() -> int:
    """From which row on a sheet is shown, by the address or such a form; 0 if that isn't a number."""
    text = flask.request.values.get("from", "")
    return int(text) if text.isascii() and text.isdigit() and len(text) < 9 else 0


class Noted(NamedTuple):
    """A change, for the page: some of its rows as they were and as they are, and how many more there are."""

    change: Change
    rows: list[tuple[str, str]]
    more: int


def newest(changes: Sequence[Change]) -> list[Noted]:
    """The last changes, the latest first."""
    found = [*changes][-NEWEST:][::-1]
    return [
        Noted(change, rows_of_change(change)[:FEW_ROWS], max(0, len(change.pairs or ()) - FEW_ROWS)) for change in found
    ]


def rows_of_change(change: Change) -> list[tuple[str, str]]:
    """The rows of a change as lines, as they were and as they are."""
    return [(line_of(was or []), line_of(now or [])) for was, now in change.pairs or ()]


def of_sheet(draft: Draft, name: str) -> dict[str, Any]:
    """The values that the page needs for a sheet: the rows that a search finds."""
    query = query_of()
    rows = search_rows(draft.rows(name), query) if name != WEIGHTS else []
    start = min(start_of(), max(0, (len(rows) - 1) // SHOWN * SHOWN))
    return {
        "sheet": name,
        "kind": SHEETS.get(name),
        "columns": SHEETS[name].columns if name in SHEETS else LISTS[name],
        "counts": {sheet: len(draft.rows(sheet)) for sheet in (*SHEETS, *LISTS)},
        "rows": rows[start : start + SHOWN],
        "total": len(rows),
        "first": start,
        "step": SHOWN,
        "query": query,
        "sum_of": sum_of,
        "shown": draft.changes.version(),
    }


def number_text(number: Fraction) -> Figure:
    """A number, with three decimals if it isn't whole."""
    return whole(number.numerator) if number.denominator == 1 else Figure(decimal(number))


def search_rows(rows: list[list[str]], query: str) -> list[list[str]]:
    """The rows that have each word of a query somewhere."""
    words = query.casefold().split()
    return [row for row in rows if all(word in " ".join(row).casefold() for word in words)]


def line(record: list[str]) -> Worded:
    """A record as it is shown: a plan by its rows, a collector without the key."""
    if record[0] == "plan":
        count = record[2].count("\n")
        year = of_others(record[1])
        return message_of("the plan of {year}, {count} row", "the plan of {year}, {count} rows", count, year=year)
    return of_others(line_of(hidden(record)))


def lines_said(records: Sequence[list[str]]) -> list[tuple[Optional[Message], Worded]]:
    """The first records of a draft, each as a sentence, if it is one, and as a line."""
    listed = records[:SHOWN]
    try:
        with desk().copies.latest() as copy, read_copy(copy.path) as office:
            names = names_of(office, records, listed)
    except Fault:
        # (the office is away: what it calls things isn't known then)
        names = names_in(records)
    return [(sentence_of(record, names), line(record)) for record in listed]


def too_long(checked: Checked) -> Worded:
    """Why the office can't take a record over its interface, or nothing."""
    for record in checked.records:
        if (size := len(body_of([record]))) > MOST_BYTES:
            places = {"record": line(record), "size": whole(size), "most": whole(MOST_BYTES)}
            return _(
                "This record is too long for a message to the office: {record}. It has {size} bytes; at most {most}"
                " are allowed.",
                **places,
            )
    return NOTHING


@views.get("/year/<int:year>/<name>.csv")
def file(year: int, name: str) -> Response:
    """A sheet or a list, as it is taken in; for weights, with more columns next to them."""
    if name not in SHEETS and name not in LISTS:
        flask.abort(404)
    draft = draft_of(year)
    columns = SHEETS[name].columns if name in SHEETS else LISTS[name]
    heads, rows = columns_of_file(draft) if name == WEIGHTS else (columns, draft.rows(name))
    return csv_file(f"{year}-{name}.csv", "".join(f"{line_of(cells)}\n" for cells in [heads, *rows]))


@views.get("/year/<int:year>/who-changed-what.csv")
def changes_file(year: int) -> Response:
    """All changes of a draft, the first one first."""
    rows = [
        [time.strftime("%Y-%m-%dT%H:%M:%SZ", time.gmtime(it.at)), it.by, it.name, *lines]
        for it in draft_of(year).changes.all()
        for lines in rows_of_change(it) or [("", "")]
    ]
    heads = ["at", "person", "sheet", "before", "after"]
    return csv_file(f"{year}-changes.csv", "".join(f"{line_of(cells)}\n" for cells in [heads, *rows]))


# ---- changes


def to_sheet(draft: Draft, name: str, unread: Sequence[str] = ()) -> Response:
    """Back to a sheet that was changed, as it was searched."""
    desk().drafts.drop_checked(draft.year)
    to: dict[str, Any] = {"year": draft.year, "sheet": name, "_anchor": "sheet"}
    to.update({it: flask.request.form[it] for it in ("query", "from", PRICES) if flask.request.form.get(it)})
    if unread:
        return after("year.show", {"unread": of_others(", ".join(unread))}, **to)
    return flask.redirect(flask.url_for("year.show", **to), 303)


def show_refusal(draft: Draft, status: int, fault: Worded, given: Sequence[Given] = ()) -> Response:
    """The page again, with the typed fields."""
    return show_result(draft, status, fault, typed=flask.request.form.to_dict(), given=given)


def changed_since(draft: Draft, name: str, now: str) -> Optional[Message]:
    """The message that a row, a setting or ALL has changed since the form showed it; None if it hasn't. `now` is their
    sum."""
    return None if field("shown") == now else changed_by(*draft.changed_last(name))


@views.post("/year/<int:year>/put")
def put(year: int) -> Response:
    """Puts rows into a sheet."""
    with desk().drafts.changing:
        draft, name, form = draft_of(year), field("sheet"), flask.request.form
        if name not in SHEETS:
            flask.abort(400)
        if name == WEIGHTS and "pasted" not in form:
            return put_weights(draft)
        return put_rows(draft, name, form)


def put_rows(draft: Draft, name: str, form: Mapping[str, str]) -> Response:
    """Puts a row, or those that were pasted, if nobody changed them since the page was shown."""
    kind, is_pasted, is_whole, version = SHEETS[name], "pasted" in form, bool(form.get("whole")), field("shown")
    row = [] if is_pasted else [field(column).strip() for column in kind.columns]
    try:
        rows, unread = read_pasted(form["pasted"], kind) if is_pasted else ([row], [])
        if lacks := [
            column
            for column, cell in zip(kind.columns, rows[0])
            if not cell and column not in (kind.optional, "weight")
        ]:
            raise Fault(_("The row has no cell {column}.", column=of_others(lacks[0])))
        if name == WEIGHTS:
            rows = with_sources(draft, rows, form.get("source", "").strip())
        if name == CLASSIFICATION:
            rows = with_weights(draft, rows)
        if others := draft.touched_since(version, name, None if is_whole else rows):
            return show_refusal(draft, 409, told_others(*others))
        draft.put(name, rows, is_whole, session().person)
    except Fault as fault:
        return show_refusal(draft, 400, says(fault))
    return to_sheet(draft, name, unread)


def told_others(by: str, at: int, pairs: Sequence[Pair]) -> Message:
    """The message about a change to the same rows since the page was shown: the person, the time, and the changes."""
    how = differs(pairs)
    return sentences(changed_by(by, at), how) if how else changed_by(by, at)


def with_sources(draft: Draft, rows: Sequence[Sequence[str]], source: str) -> list[list[str]]:
    """Pasted weights, those without a source get the form's source, or keep the present one."""
    known = draft.sources()
    return [[code, weight, own or source or known.get(code, "")] for code, weight, own in rows]


def with_weights(draft: Draft, rows: Sequence[Sequence[str]]) -> list[list[str]]:
    """Titles, those without a weight keep the present one: the table of weights empties one."""
    known = {code: weight for code, _, weight in draft.rows(CLASSIFICATION)}
    return [[code, title, weight or known.get(code, "")] for code, title, weight in rows]


def put_weights(draft: Draft) -> Response:
    """Puts the weights and sources of the table that a person changed, if nobody else has changed them in the
    meantime."""
    version, given = field("shown"), given_rows()
    now = {code: [weight, source] for code, weight, source in draft.rows(WEIGHTS)}
    rows = [[it.code, *it.now] for it in given if it.is_changed and now.get(it.code) != it.now]
    try:
        if others := quicker(given, now):
            changed = [[it.code] for it in others]
            by, at, pairs = draft.touched_since(version, WEIGHTS, changed) or (*draft.changed_last(WEIGHTS), [])
            parts = [told_others(by, at, pairs), absent(given, now)]
            return show_refusal(draft, 409, sentences(*(part for part in parts if part)), given)
        draft.put(WEIGHTS, rows, by=session().person)
    except Fault as fault:
        return show_refusal(draft, 400, says(fault), given)
    return to_sheet(draft, WEIGHTS)


@views.post("/year/<int:year>/out")
def out(year: int) -> Response:
    """Takes a row out of a sheet."""
    with desk().drafts.changing:
        draft, name = draft_of(year), field("sheet")
        cells = flask.request.form.getlist("cell")
        if name not in KEYS or name == WEIGHTS or len(cells) < KEYS[name]:
            flask.abort(400)
        if others := changed_since(draft, name, draft.sum_page(name, cells)):
            return show_refusal(draft, 409, others)
        draft.take_out(name, cells, session().person)
        return to_sheet(draft, name)


@views.post("/year/<int:year>/set")
def set_all(year: int) -> Response:
    """Sets what the weights are in."""
    with desk().drafts.changing:
        draft, unit, sign = draft_of(year), field("unit"), field("decimal")
        if unit not in UNITS or sign not in (".", ","):
            flask.abort(400)
        if others := changed_since(draft, SETTINGS, draft.sum_page(SETTINGS)):
            return show_refusal(draft, 409, others)
        draft.change_settings(Settings(unit, sign), session().person)
        return to_sheet(draft, WEIGHTS)


@views.post("/year/<int:year>/reference")
def set_reference(year: int) -> Response:
    """Sets the month at whose prices the weights are."""
    with desk().drafts.changing:
        draft, reference = draft_of(year), field("reference").strip()
        if others := changed_since(draft, REFERENCE, draft.sum_page(REFERENCE)):
            return show_refusal(draft, 409, others)
        draft.set_reference(reference, session().person)
        return to_sheet(draft, WEIGHTS)


@views.post("/year/<int:year>/drop")
def drop(year: int) -> Response:
    """Removes the draft."""
    with desk().drafts.changing:
        draft = draft_of(year)
        if others := changed_since(draft, ALL, draft.sum_page(ALL)):
            return show_refusal(draft, 409, others)
        desk().log.append(session().person, SAID, text=DROPPED_DRAFT.format(year=year))
        desk().drafts.drop(year)
        return flask.redirect(flask.url_for("year.first"), 303)


# ---- judged, and sent


@views.post("/year/<int:year>/check")
def check(year: int) -> Response:
    """Begins to judge the draft."""
    desk().drafts.check(draft_of(year).year)
    return flask.redirect(flask.url_for("year.show", year=year), 303)


@views.post("/year/<int:year>/send")
def send(year: int) -> Response:
    """Sends the judged records, once."""
    draft, checked, seen = draft_of(year), desk().drafts.find_checked(year), field("seen")
    if checked is None or not checked.records or checked.sum_of_records != seen:
        return show_result(
            draft, 409, _("The draft was already sent, or has changed since this was shown: check it again.")
        )
    if others := replaced_since(checked.records, checked.stood):
        return show_result(draft, 409, others)
    desk().drafts.drop_checked(year)
    try:
        replies = desk().send(session(), checked.records)
    except Fault as fault:
        return show_result(draft, 503, _("Nothing was sent: {fault}", fault=says(fault)))
    rows = pair_replies([hidden(record) for record in checked.records], replies)
    names, pairs = names_in(checked.records), zip(rows, checked.records)
    left = [Left(line(of), pair.answer, sentence_of(of, names)) for pair, of in pairs if not pair.is_done]
    desk().drafts.sent[year] = left
    done = len(rows) - len(left)
    if left:
        return after("year.show", {"fault": told_left(done, len(rows))}, year=year)
    answer = message_of("{count} record sent and accepted.", "{count} records sent and accepted.", done)
    return after("year.show", {"answer": answer}, year=year)


def told_left(done: int, count: int) -> Message:
    """The message with the number of records that were carried out, if not all were."""
    return message_of(
        "{done} of {count} record accepted. The answer to the other is below.",
        "{done} of {count} records accepted. The answers to the others are below.",
        count,
        done=whole(done),
    )

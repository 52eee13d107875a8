"""The field notes for the desk: a month's notes with their slots, their photographs, and a CSV file."""

from __future__ import annotations

import io
from typing import NamedTuple, Optional

import flask
from werkzeug.wrappers import Response

from ...office.quote_marks import mark_text
from ...office.stored import Frozen, Quote, StoredOffice, read_copy
from ...text.text_files import Writer, formulas_told
from ...text.message import Message
from ...text.others import Worded
from ...text.terminal import slot_text, time_text
from ..records.desk_log import REMOVED_NOTE, SAID
from ..serve.request_context import changed_by_step, csv_file, desk, file_name, month_of, page, session
from .field_notes import FieldNote, FieldNotes

views = flask.Blueprint("field_notes", __name__)

SHOWN = 50
"""Notes of a page."""

HEADING = ("number", "collector", "slot", "outlet", "item", "receipt", "moment", "sale", "brand", "quantity", "text")


class Row(NamedTuple):
    """A note with the outlet and the item of its slot, the quote stored there now, and that quote's receipt."""

    note: FieldNote
    outlet: str
    item: str
    stored: Optional[Quote]
    receipt: int

    @property
    def slot_name(self) -> str:
        """`7/2`."""
        return slot_text((self.note.collector, self.note.slot))

    @property
    def stored_now(self) -> Optional[Message]:
        """`price 2.52`, or the reason why there is none."""
        return mark_text(Frozen("", 0, self.stored.mark, self.stored.value)) if self.stored else None

    @property
    def is_of_earlier(self) -> bool:
        """Whether another price was stored since."""
        return self.receipt > self.note.receipt


def find_notes() -> FieldNotes:
    """The notes: these views exist only if notes are on."""
    field = desk().field
    assert field is not None
    return field


def rows_now(month: int, notes: list[FieldNote]) -> list[Row]:
    """Notes with what the office has of their prices, by a new copy if the latest one is older than one of them."""
    with desk().copies.latest() as copy, read_copy(copy.path) as office:
        rows = rows_of(office, month, notes)
    if not any(row.receipt < row.note.receipt for row in rows):
        return rows
    with desk().copies_now() as copy, read_copy(copy.path) as office:
        return rows_of(office, month, notes)


def rows_of(office: StoredOffice, month: int, notes: list[FieldNote]) -> list[Row]:
    """Notes with what the office has of their prices."""
    slots = {(assignment.collector, assignment.slot): assignment for assignment in office.assignments()}
    outlets, items = office.outlets(), {it.code: it.text for it in office.items()}
    quotes, receipts = office.quotes(month), office.receipts(month)
    rows = list[Row]()
    for note in notes:
        at = (note.collector, note.slot)
        place = slots.get(at)
        names = (outlets.get(place.outlet, ""), items.get(place.item, "")) if place else ("", "")
        rows.append(Row(note, *names, quotes.get(at), receipts.get(at, 0)))
    return rows


@views.get("/month/<month>/field-notes")
def show(month: str) -> Response:
    """The notes of a month, the latest first."""
    return show_result(month)


def show_result(month: str, status: int = 200, fault: Worded = Worded("")) -> Response:
    """The page of notes, with the result of a step."""
    number = month_of(month)
    notes = find_notes().of_month(number)[::-1]
    start = flask.request.args.get("from", "0")
    first = int(start) if start.isdecimal() and len(start) < 9 else 0
    rows = rows_now(number, notes[first : first + SHOWN])
    named = {"count": len(notes), "first": first, "step": SHOWN, "months": find_notes().months}
    return page("field-notes.html", status, month=month, rows=rows, fault=fault, **named)


@views.get("/month/<month>/field-notes.csv")
def file(month: str) -> Response:
    """The notes of a month as a file, without photographs: the last column is the name of each."""
    number = month_of(month)
    rows = rows_now(number, find_notes().of_month(number))
    text = io.StringIO()
    with formulas_told("", True):
        out = Writer(text)
        out.writerow([*HEADING, "photograph"])
        out.writerows(cells_of(month, row) for row in rows)
    return csv_file(file_name(month, "field-notes"), text.getvalue())


def cells_of(month: str, row: Row) -> list[object]:
    """A note as the cells of its row."""
    note = row.note
    place = [note.number, note.collector, note.slot, row.outlet, row.item, note.receipt, time_text(note.at)]
    photo = f"{month}-{note.number}.jpg" if note.has_photo else ""
    return [*place, "yes" if note.is_sale else "", note.brand, note.quantity, note.text, photo]


@views.get("/month/<month>/field-notes/<int:number>.jpg")
def photo(month: str, number: int) -> Response:
    """The photograph of a note."""
    photo = (
        find_notes().photo(number)
        if any(it.number == number for it in find_notes().of_month(month_of(month)))
        else None
    )
    if photo is None:
        flask.abort(404)
    answer = flask.Response(photo, mimetype="image/jpeg")
    answer.headers["Content-Disposition"] = f'inline; filename="{month}-{number}.jpg"'
    return answer


@views.post("/month/<month>/field-notes/<int:number>/remove")
def remove(month: str, number: int) -> Response:
    """Removes a note with its photograph for good."""
    of, text = month_of(month), REMOVED_NOTE.format(number=number, month=month)
    if number not in {it.number for it in find_notes().of_month(of)}:
        return show_result(month, 409, changed_by_step(text))
    desk().log.append(session().person, SAID, text=text)
    find_notes().remove(of, number)
    return flask.redirect(flask.url_for("field_notes.show", month=month), 303)

"""The prices to check as a table, each with its history as a line: filtered, sorted, seen by a person, noted."""

from __future__ import annotations

from collections.abc import Callable, Mapping, Sequence
from pathlib import Path
from typing import Any, NamedTuple, Optional

import flask
from markupsafe import Markup, escape
from werkzeug.wrappers import Response

from ...office.stored import read_copy
from ...text.message import (
    Figure,
    Message,
    Price as Amount,
    message as _,
    message_of,
    month_of as month_words,
    sentences,
    whole,
)
from ...text.others import Worded, isolate, of_others
from ...text.terminal import Fault, month_before
from ..field.field_notes import FieldNote
from ..field.field_questions import ANSWERED, OPEN, Question
from ..serve.faults import says
from ..serve.request_context import changed_by, desk, field, month_of, page, session
from .looks import (
    ASKED,
    NOTE,
    ORDERS,
    REASONS,
    SEEN,
    SHOWS,
    UNSEEN,
    Chosen,
    Look,
    Mark,
    Price,
    chosen_of,
    key_of,
    part_of,
)
from .month_trials import Tried


# ==== the history of a price as a line: a small picture in a month's row, next to the figures, which it doesn't repeat

MONTHS, WIDE, HIGH, EDGE = 13, 120, 32, 3


def months_to(month: int) -> list[int]:
    """A month and those before it, the first ones first."""
    months = [month]
    while len(months) < MONTHS:
        months.insert(0, month_before(months[0]))
    return months


def history(quotes: Mapping[int, tuple[str, int]], month: int) -> list[tuple[int, int]]:
    """The months of the last year in which a series had a price, with it."""
    return [(month, quotes[month][1]) for month in months_to(month) if month in quotes and quotes[month][1]]


def line_of(quotes: Mapping[int, tuple[str, int]], month: int, render: Callable[[Message], object]) -> Markup:
    """The prices of a series in a month and the year before it as a picture, with a name in the page's language; a
    month without one is a gap."""
    months = months_to(month)
    known = dict(history(quotes, month))
    if not known:
        return Markup("")
    low, high = min(known.values()), max(known.values())
    step = (WIDE - 2 * EDGE) / (MONTHS - 1)
    places: list[str] = []
    parts = [""]
    for at, each in enumerate(months):
        if each not in known:
            parts.append("")
            continue
        share = (known[each] - low) / (high - low) if high > low else 0.5
        x, y = EDGE + at * step, HIGH - EDGE - share * (HIGH - 2 * EDGE)
        parts[-1] += f"{'L' if parts[-1] else 'M'}{x:.1f} {y:.1f}"
        places.append(f'<circle class="dot" cx="{x:.1f}" cy="{y:.1f}" r="{2.6 if each == month else 1.4}"/>')
    path = "".join(parts)
    spans = {"months": whole(MONTHS), "low": Amount(low), "high": Amount(high)}
    name = message_of(
        "One price in {months} months, {low}",
        "{count} prices in {months} months, from {low} to {high}",
        len(known),
        **spans,
    )
    return Markup(
        f'<svg class="history" viewBox="0 0 {WIDE} {HIGH}" role="img" aria-label="{escape(render(name))}">'
        f'<path class="line" d="{path}"/>'
        f'{"".join(places)}</svg>'
    )


# ==== the rows of the prices to check: each with its history as a picture, with the notes of the desk and the field,
# and with the questions to its collector
#
# The notes of the field, and the questions to collectors, at the prices that they are of.


class Row(NamedTuple):
    """A price to check as a page shows it: with its history as a picture, the desk's notes, whether the reader has seen
    it, the field notes, and the questions to its collector, the first ones first."""

    look: Look
    picture: Markup
    notes: list[Mark]
    is_seen: bool
    field: list[FieldNote]
    questions: list[Question]

    @property
    def latest(self) -> int:
        """The number of the latest question, 0 for none."""
        return self.questions[-1].number if self.questions else 0

    @property
    def key(self) -> str:
        """The row's name in an address: `8-1`."""
        return key_of(self.look)

    @property
    def name_in_form(self) -> str:
        """The row's name in a form: `8-1-252`."""
        return f"{self.key}-{self.look.price}"


def price_of(month: int, look: Look) -> Price:
    """The price to which a person's mark belongs."""
    return Price(month, *look.slot, look.price)


def amount(price: int) -> Amount:
    """A price in minor units, as these pages and lists show it."""
    return Amount(price)


def percent_of(text: str) -> Figure:
    """A change in percent, as lists show it."""
    return Figure(text)


def rows_of(month: int, trial: Tried, looks: list[Look], asked: Mapping[tuple[int, int], list[Question]]) -> list[Row]:
    """Some prices with their histories, which are one query; `asked` contains the month's questions by slot."""
    seen, notes = desk().marks.seen_by(session().person, month), desk().marks.notes_of(month)
    rows, notes_of_field = list[Row](), by_slot(month)
    with read_copy(trial.copy) as office:
        quotes = office.quotes_of_series(look.series for look in looks)
    for look in looks:
        price = price_of(month, look)
        picture = line_of(quotes.get(look.series, {}), month, desk().teller.render)
        of_field = notes_of_field.get(look.slot, []), asked.get(look.slot, [])
        rows.append(Row(look, picture, notes.get(price, []), price in seen, *of_field))
    return rows


def by_slot(month: int) -> dict[tuple[int, int], list[FieldNote]]:
    """The notes of a month by collector and slot, the first ones first; none if they are off."""
    notes = desk().field
    field_notes: dict[tuple[int, int], list[FieldNote]] = {}
    for it in notes.of_month(month) if notes else []:
        field_notes.setdefault((it.collector, it.slot), []).append(it)
    return field_notes


def questions_by_slot(month: int) -> dict[tuple[int, int], list[Question]]:
    """The questions of a month by collector and slot, the first ones first; none if they are off."""
    questions = desk().questions
    found: dict[tuple[int, int], list[Question]] = {}
    for it in questions.of_month(month) if questions else []:
        found.setdefault((it.of.collector, it.of.slot), []).append(it)
    return found


def state_of(questions: list[Question]) -> str:
    """The state of a slot's questions: OPEN if one is open, or ANSWERED if one was answered; empty if all of them were
    withdrawn."""
    states = {question.state for question in questions}
    return next((it for it in (OPEN, ANSWERED) if it in states), "")


# ==== the prices to check as a table: filtered and sorted, seen by a person, noted by the desk, and as a list for a
# collector

views = flask.Blueprint("looks", __name__)

SCRIPT = Path(__file__).with_name("templates") / "looks.js"

POLICY = (
    "default-src 'none'; style-src 'self'; script-src 'self'; connect-src 'self'; img-src 'self' data:;"
    " form-action 'self'; base-uri 'none'; frame-ancestors 'none'"
)
"""The policy of this page only, because it has its own script; without it the page is whole."""

NOTHING = Worded("")


@views.get("/looks.js")
def script() -> Response:
    """The script of the page: keys, and marks that don't load the page again."""
    return flask.Response(SCRIPT.read_text(encoding="utf-8"), mimetype="text/javascript")


@views.get("/month/<month>/looks")
def show(month: str) -> Response:
    """The prices that the address asks for: without more those that this person hasn't seen."""
    return show_result(month, flask.request.args)


def show_result(month: str, asked: Mapping[str, str], status: int = 200, /, **typed: object) -> Response:
    """The page of prices, with the result of a form; `asked` says which prices, and from which one on."""
    number = month_of(month)
    found, chosen = desk().trials.latest(number), chosen_of(asked)
    named: dict[str, object] = {"refused": NOTHING, "of": None, "text": "", "question": "", "checked": frozenset[str]()}
    named.update(typed)
    named.update(month=month, found=found, running=desk().trials.running, fault=desk().trials.fault(number))
    named.update(chosen=chosen, rows=[], part=None, amount=amount, **choices())
    if found:
        seen = desk().marks.seen_by(session().person, number)
        slots = {look.slot for look in found.looks if price_of(number, look) in seen}
        asked_about = questions_by_slot(number)
        part = part_of(
            found.looks, slots, chosen, {slot: state_of(questions) for slot, questions in asked_about.items()}
        )
        rows = rows_of(number, found, part.looks, asked_about)
        named.update(rows=rows, part=part, seen=len(slots), **filters_of(found))
    answer = page("looks.html", status, **named)
    answer.headers["Content-Security-Policy"] = POLICY
    return answer


def choices() -> dict[str, object]:
    """A person's choices: each list by its words in an address, with its label."""
    render = desk().teller.render
    reasons = [("", render(_("Any reason"))), *((name, render(text)) for name, text in REASONS.items())]
    shows, orders, asked = ([(name, render(text)) for name, text in each.items()] for each in (SHOWS, ORDERS, ASKED))
    asked.insert(0, ("", render(_("All of them"))))
    return {"reasons_told": reasons, "shows_told": shows, "orders_told": orders, "asked_told": asked}


def filters_of(trial: Tried) -> dict[str, object]:
    """The filters for the prices of a month: the divisions with their titles, and the collectors."""
    titles = {division.code: division.title for division in trial.report.divisions}
    codes = sorted({look.code[:2] for look in trial.looks})
    divisions = [(code, titles.get(code, "")) for code in codes]
    return {"divisions": divisions, "collectors": sorted({look.slot[0] for look in trial.looks})}


# ---- marks


@views.post("/month/<month>/looks")
def mark(month: str) -> Response:
    """Notes that a person has seen a price that the page showed, or hasn't, or what the desk notes of it."""
    form, what, number = flask.request.form, field("what"), month_of(month)
    price = shown_price(number, [field(name) for name in ("collector", "slot", "price")])
    if what not in (SEEN, UNSEEN, NOTE):
        flask.abort(400)
    text = " ".join(field("text").split()) if what == NOTE else ""
    typed = {"of": price[1:3], "text": text}
    if changed := changed_since(number, [price]):
        return show_result(month, form, 409, refused=changed, **typed)
    if what == NOTE and not text:
        refused = _("The note is empty, so nothing was noted: write what is known about the price.")
        return show_result(month, form, 400, refused=refused, **typed)
    beside = place_after(number, price, what, chosen_of(form))
    try:
        desk().marks.add(session().person, price, what, text)
    except Fault as fault:
        return show_result(month, form, 503, refused=says(fault), **typed)
    return back(month, chosen_of(form), beside)


@views.post("/month/<month>/looks/many")
def mark_many(month: str) -> Response:
    """Notes that a person has seen the prices that were checked, or hasn't: all of them, or none."""
    form, what, number = flask.request.form, field("what"), month_of(month)
    if what not in (SEEN, UNSEEN):
        flask.abort(400)
    checked = form.getlist("checked")
    prices = [shown_price(number, text.split("-")) for text in checked]
    typed = {"checked": frozenset(checked)}
    if not prices:
        return show_result(
            month, form, 400, refused=_("No price is selected, so nothing was marked: select some first.")
        )
    if changed := changed_since(number, prices):
        return show_result(month, form, 409, refused=changed, **typed)
    try:
        desk().marks.add_all(session().person, prices, what)
    except Fault as fault:
        return show_result(month, form, 503, refused=says(fault), **typed)
    return back(month, chosen_of(form), "")


def shown_price(month: int, numbers: Sequence[str]) -> Price:
    """The price of a row from the collector, slot and price in the form; a form with other texts isn't a form of this
    page (400)."""
    if len(numbers) != 3 or not all(number.isascii() and number.isdigit() and len(number) < 19 for number in numbers):
        flask.abort(400)
    return Price(month, *map(int, numbers))


def changed_since(month: int, prices: Sequence[Price]) -> Optional[Message]:
    """The message that some of the prices no longer belong to the month, and who had it tried since; None if they all
    do."""
    found = desk().trials.latest(month)
    known = {price_of(month, look) for look in found.looks} if found else set()
    gone = [price for price in prices if price not in known]
    if not gone:
        return None
    by = (found.by, found.at) if found else ("", 0)
    slots = ", ".join(f"{price.collector}/{price.slot}" for price in gone)
    named = _("These prices have changed since your page was loaded: {slots}.", slots=of_others(slots))
    return sentences(changed_by(*by), named) if len(prices) > 1 else changed_by(*by)


def place_after(month: int, price: Price, what: str, chosen: Chosen) -> str:
    """The row at which a person continues: the next one if this one is seen now, otherwise this one."""
    found = desk().trials.latest(month)
    if what != SEEN or not found or chosen.only:
        return f"{price.collector}-{price.slot}"
    seen = desk().marks.seen_by(session().person, month)
    slots = {look.slot for look in found.looks if price_of(month, look) in seen}
    asked_about = {slot: state_of(questions) for slot, questions in questions_by_slot(month).items()}
    keys = [key_of(look) for look in part_of(found.looks, slots, chosen, asked_about).looks]
    own = f"{price.collector}-{price.slot}"
    at = keys.index(own) if own in keys else -1
    return next(iter([*keys[at + 1 : at + 2], *keys[max(at - 1, 0) : max(at, 0)], own]))


def back(month: str, chosen: Chosen, place: str) -> Response:
    """Leads back to the same prices, at a row."""
    to: dict[str, Any] = {**chosen.query, **({"_anchor": f"look-{place}"} if place else {})}
    return flask.redirect(flask.url_for("looks.show", month=month, **to), 303)


# ---- a list for a collector


@views.get("/month/<month>/looks/<int:collector>.txt")
def to_send(month: str, collector: int) -> Response:
    """The question to a collector, as a text to send. Prices are that collector's own."""
    found = desk().trials.latest(month_of(month))
    looks = [look for look in (found.looks if found else []) if look.slot[0] == collector]
    if not looks:
        flask.abort(404)
    notes = desk().marks.notes_of(month_of(month))
    text = [f"{render_text(head_of(month_of(month), collector, len(looks)))}\n"]
    for look in looks:
        places = {"item": of_others(look.item), "outlet": of_others(look.outlet)}
        text.append(f"\n{render_text(_('Slot {slot}: {item}; {outlet}', slot=look.slot[1], **places))}\n")
        text.append(f"  {render_text(prices_of(look))}\n")
        text += [f"  {render_text(each)}\n" for each in look.ask]
        text += [f"  {isolate(each.text)}\n" for each in notes.get(price_of(month_of(month), look), [])]
    answer = flask.Response("".join(text), mimetype="text/plain")
    answer.headers["Content-Disposition"] = f'attachment; filename="{month}-collector-{collector}.txt"'
    return answer


def render_text(text: Message) -> str:
    """A text in the office's language, for a file: texts of others are isolated in it."""
    return isolate(desk().teller.render(text))


def head_of(month: int, collector: int, count: int) -> Message:
    """The first line of a list to send."""
    return message_of(
        "{month}, collector {collector}: one price to look at again",
        "{month}, collector {collector}: {count} prices to look at again",
        count,
        month=month_words(month),
        collector=collector,
    )


def prices_of(look: Look) -> Message:
    """The last price and this one."""
    if look.last is None:
        return _("no last price, now {price}", price=amount(look.price))
    places = {"last": amount(look.last), "price": amount(look.price)}
    if not look.percent:
        return _("last price {last}, now {price}", **places)
    return _("last price {last}, now {price}, {change} percent", change=percent_of(look.percent), **places)

"""The provisional table of a month, the source of each figure, changes since yesterday, and what-if trials."""

from __future__ import annotations

import argparse
import re
import time
from collections.abc import Iterator
from pathlib import Path
from typing import NamedTuple, NoReturn, Optional

import flask
from werkzeug.wrappers import Response

from ...explain.explanation import explain_node
from ...explain.explanation_lines import Explanation, Figure
from ...explain.release_sources import Sources
from ...office.stored import REASONS, read_copy
from ...text import charts
from ...text.exact import number_text, numbers_in, plain
from ...text.message import TICKS, Code, Figure as FigureText, Money, Section, message as _, place_text, whole
from ...text.others import Worded, of_others
from ...text.terminal import Fault, a_slot, month_text, slot_text
from ..desk_cli import a_code
from ..month.facts import Levels, levels_now
from ..month.what_if import Beside, Place, Tried as TriedQuotes, what_if
from ..serve.faults import says
from ..serve.request_context import (
    after,
    csv_file,
    desk,
    field,
    file_name,
    month_of,
    page,
    section_file,
    session,
    what_came,
)
from .month_trials import Earlier, Tried, beside, known_levels


# ==== The trials that a text asks for in *What if*: `7/2=2.10`, `7/2=missing`, a reason for which it is missing, or a
# code to carry, one on each line. A price is an amount with the currency's digits, or in minor units of money if the
# currency isn't known.

MOST_PRICE = 100_000_000
"""Minor units of a price at most, as docs/reference/OFFICE.md has it."""

SLOT, OTHER_SLOT, CODE = "7/2", "8/1", "01.1.1.2-01"
"""The slots and the code in examples."""

MISSING = "missing"


class Line(NamedTuple):
    """A line of the text: its number from 1 on, what it has before and after its equals sign, and all of it."""

    number: int
    left: str
    right: str
    text: str


def price_text(minor: int, money: Optional[Money]) -> str:
    """A price as it can be typed: `2.10` of 210."""
    return money.amount(minor * TICKS).replace(",", "") if money else str(minor)


def example_price(money: Optional[Money]) -> str:
    """`7/2=2.10`."""
    return f"{SLOT}={price_text(210, money)}"


def example(money: Optional[Money]) -> str:
    """The field's content while it is empty."""
    return f"{example_price(money)}\n{OTHER_SLOT}={MISSING}\n{CODE}"


def tried_of(text: str, money: Optional[Money], group_sign: str = ",") -> TriedQuotes:
    """The trials that a text asks for; `group_sign` is the pages' character between groups of three digits. Raises
    Fault."""
    missing, prices, carry, lines = list[Place](), list[tuple[Place, int]](), list[str](), dict[Place, int]()
    for line in lines_in(text):
        if not line.right:
            carry.append(code_of(line, money))
            continue
        place = slot_of(line, money)
        if place in lines:
            raise Fault(twice(line, place, lines[place]))
        lines[place] = line.number
        if line.right in (MISSING, *REASONS):
            missing.append(place)
        else:
            prices.append((place, minor_of(line, money, group_sign)))
    if not (missing or prices or carry):
        places = {"price": of_others(example_price(money)), "missing": of_others(f"{SLOT}={MISSING}")}
        raise Fault(_("Write what to try, one per line: a price like {price}, or {missing}.", **places))
    return TriedQuotes(missing, REASONS[0], prices, carry)


def lines_in(text: str) -> Iterator[Line]:
    """The lines that aren't empty."""
    for number, line in enumerate(text.split("\n"), 1):
        if line.strip():
            left, _equals, right = line.partition("=")
            yield Line(number, re.sub(r"\s", "", plain(left)), right.strip(), line.strip())


def code_of(line: Line, money: Optional[Money]) -> str:
    """The code to carry that a line has. Raises Fault."""
    try:
        return a_code(line.left)
    except argparse.ArgumentTypeError:
        not_tried(line, money)


def slot_of(line: Line, money: Optional[Money]) -> Place:
    """The slot that a line has. Raises Fault."""
    try:
        return a_slot(line.left)
    except argparse.ArgumentTypeError:
        not_tried(line, money)


def minor_of(line: Line, money: Optional[Money], group_sign: str) -> int:
    """The price that a line has, in minor units. Raises Fault."""
    minor = money.minor if money else 1
    amounts = numbers_in(line.right, "" if minor > 1 else group_sign)
    if money and money.digits == 3 and amounts and group_sign not in line.right:
        # (as the pages write an amount of three decimals)
        amounts = {min(amounts)}
    if len(amounts) > 1:
        one, other = sorted(amounts)
        places = {"one": of_others(number_text(one)), "other": of_others(number_text(other))}
        raise Fault(
            _(
                "Line {line}: {text} can mean {one} or {other}. Write the price without separators between its digits.",
                line=whole(line.number),
                text=of_others(line.text[:40]),
                **places,
            )
        )
    if not amounts or amounts == {0}:
        not_tried(line, money)
    price = amounts.pop() * minor
    if price.denominator != 1 or not 1 <= price <= MOST_PRICE:
        places = {"least": of_others(price_text(1, money)), "most": of_others(price_text(MOST_PRICE, money))}
        raise Fault(
            _(
                "Line {line}: {text} can't be tried. A price must be from {least} to {most}.",
                line=whole(line.number),
                text=of_others(line.text[:40]),
                **places,
            )
        )
    return int(price)


def twice(line: Line, place: Place, before: int) -> str:
    """The message that two lines name the same slot."""
    return _(
        "Lines {before} and {line} are both for slot {slot}: keep only one of them.",
        before=whole(before),
        line=whole(line.number),
        slot=Code(slot_text(place)),
    )


def not_tried(line: Line, money: Optional[Money]) -> NoReturn:
    """Raises Fault: the content of the line, and the wanted form."""
    raise Fault(
        _(
            "Line {line}: {text} can't be tried. Write a price like {price}, or {missing}, or a code like {code} to"
            " carry.",
            line=whole(line.number),
            text=of_others(line.text[:40]),
            price=of_others(example_price(money)),
            missing=of_others(f"{SLOT}={MISSING}"),
            code=of_others("01.1.1.1-01"),
        )
    )


# ==== the provisional table of a month, the source of each figure, the changes since yesterday, and the effect of
# changing a few prices

views = flask.Blueprint("table", __name__)

LEVEL_DIGITS = 6
"""Decimals of a level on the page that explains it."""

LINES_SHOWN = 12
"""A part of an explanation with more lines is folded."""


@views.post("/month/<month>/try")
def begin(month: str) -> Response:
    """Freezes the month on a copy that is taken now, in the background."""
    desk().trials.begin(month_of(month), session().person)
    to = flask.request.form.get("to", "")
    view = to if to in ("looks.show", "freeze.show", "draft.show") else "table.show"
    return flask.redirect(flask.url_for(view, month=month), 303)


@views.get("/month/<month>/table")
def show(month: str) -> Response:
    """The report on a month, with its provisional table."""
    number = month_of(month)
    found = desk().trials.latest(number)
    named = {"month": month, "running": desk().trials.running, "fault": desk().trials.fault(number)}
    if found is None:
        return page("table.html", found=None, since=None, track=None, codes=[], **named)
    track = charts.track([division.points for division in found.report.divisions])
    codes = {str(row[0]) for section in found.report.sections if section.key == "table" for row in section.rows}
    links = {code: flask.url_for("table.explain", month=month, code=code) for code in codes}
    return page("table.html", found=found, since=since_before(number, found), track=track, links=links, **named)


def since_before(month: int, trial: Tried) -> Optional[Section]:
    """The nodes that differ from the table of an earlier day; None if none was kept."""
    earlier = desk().tables.before(month, trial.at)
    if earlier is None or not trial.report.table:
        return None
    kept = desk().since.get(month)
    if kept is None or kept[0] is not trial or kept[1] != earlier:
        desk().since[month] = kept = (trial, earlier, differences(earlier, trial))
    return kept[2]


def differences(earlier: Earlier, trial: Tried) -> Section:
    """The nodes of the table of an earlier day and of one that was tried now that differ."""
    day, tables = of_others(earlier.day), (earlier.table, trial.report.table)
    # t: the heading of a column: a figure of an earlier day, such as 2026-02-17
    heads = (lambda name: _("{day}: {head}", day=day, head=name)), (lambda name: _("now: {head}", head=name))
    title, empty = _("What changed since {day}", day=day), _("Nothing: the tables are the same.")
    return beside("since", title, tables, heads, trial.report.levels, empty)


@views.get("/month/<month>/table/<key>.csv")
def file(month: str, key: str) -> Response:
    """A section of the report, or the bytes that will be published if no quote changes."""
    file = desk().trials.latest(month_of(month))
    if file is None:
        flask.abort(404)
    if key == "provisional" and file.report.table:
        return csv_file(file_name(month, key), file.report.table.decode())
    for section in file.report.sections:
        if section.key == key:
            return section_file(month, section)
    flask.abort(404)


@views.get("/month/<month>/explain/<code>")
def explain(month: str, code: str) -> Response:
    """A figure of the table down to its receipts."""
    found = desk().trials.latest(month_of(month))
    if found is None or not found.report.table:
        return flask.redirect(flask.url_for("table.show", month=month))
    with read_copy(found.copy) as office:
        node = explain_node(Sources(office, month_of(month), None, desk().teller.money() or Money(1)), code)
    node = with_levels(node, found.report.levels)
    return page("explained.html", month=month, it=node, found=found, shown=LINES_SHOWN)


def with_levels(explanation: Explanation, levels: Optional[Levels]) -> Explanation:
    """An explanation that names levels by their periods, the website's period first."""
    if levels is None:
        return explanation
    chained = [Figure(levels.chained_name, figure.text) for figure in explanation.figures[:1]]
    level = levels.of(explanation.code, digits=LEVEL_DIGITS)
    if not level:
        sentence = _("The level in these sentences is the {name}.", name=levels.chained_name)
        return explanation._replace(
            figures=[*chained, *explanation.figures[1:]], sentences=[*explanation.sentences, sentence]
        )
    sentence = _(
        "The level in these sentences is the {name}; it is a {level}.",
        name=levels.chained_name,
        level=_("{name}: {level}", name=levels.name, level=FigureText(levels.of(explanation.code))),
    )
    own = Figure(levels.name, FigureText(level))
    return explanation._replace(
        figures=[own, *chained, *explanation.figures[1:]], sentences=[*explanation.sentences, sentence]
    )


@views.get("/month/<month>/what-if")
def what_if_page(month: str) -> Response:
    """A form for a handful of prices, with the changes that the prices of the previous form would make."""
    return shown_what_if(month, **what_came())


def shown_what_if(month: str, status: int = 200, /, **came: object) -> Response:
    """The form, with its result."""
    month_of(month)
    money = desk().teller.money()
    empty: dict[str, object] = {"text": "", "fault": Worded(""), "result": None}
    named = {"example": example(money), "digits": digits_of(money)}
    return page("what-if.html", status, month=month, **named, **{**empty, **came})


def digits_of(money: Optional[Money]) -> str:
    """The decimals of an amount in the form's prices, or nothing for minor units."""
    return str(money.digits) if money else ""


@views.post("/month/<month>/what-if")
def try_prices(month: str) -> Response:
    """The effect of changing a few prices."""
    number, text, money = month_of(month), field("text"), desk().teller.money()
    if flask.request.form.get("digits", digits_of(money)) != digits_of(money):
        fault = _(
            "The currency's number of decimal places was changed after your page was loaded: check the prices, and try"
            " them again."
        )
        return shown_what_if(month, 409, text=text, fault=fault)
    try:
        tried = tried_of(text, money, desk().teller.speech.signs.get(",", ","))
        with desk().copies_now() as copy:
            result = what_differs(copy.path, number, what_if(desk().cpi, copy.path, number, int(time.time()), tried))
    except Fault as fault:
        return shown_what_if(month, 400, text=text, fault=says(fault))
    return after("table.what_if_page", {"text": text, "result": result}, month=month)


def what_differs(office_copy: Path, month: int, found: Beside) -> Section:
    """The nodes of both tables that differ, each by its own levels."""
    tables, reference = (found.as_is.table, found.tried.table), desk().site_config.reference_in(month_text(month))
    known = known_levels(desk().trials.latest(month))
    levels = levels_now(desk().cpi, office_copy, month, tables[1], reference, known)
    # t: the heading of a column: a figure as it would be
    heads = place_text, (lambda name: _("what if: {head}", head=name))
    return beside("what-if", _("Items that change"), tables, heads, levels)

"""The weights of a draft: compared with those of the year before, moved by prices, and changed in a form."""

from __future__ import annotations

import json
import re
from collections.abc import Collection, Iterable, Mapping, Sequence
from fractions import Fraction
from typing import Any, NamedTuple, Optional

import flask

from ...office.stored import StoredOffice, read_copy
from ...text.exact import decimal, with_sign
from ...text.message import Message, message as _, sentences
from ...text.others import Worded, of_others
from ...text.terminal import month_text
from ..serve.request_context import desk
from .draft_sheets import CLASSIFICATION, ONE_FILE, REFERENCE, UNITS, Cells, Change, Draft, Pair


# ==== the table of weights as a form: its earlier content of each row and a person's text there, so that only that
# person's changes are put, and nobody else's go with them

FIELDS = ("code", "was", "weight", "source")
"""The fields of a row."""

MOST_NAMED = 8
"""So many rows are named in a sentence."""


class Given(NamedTuple):
    """A row of the form: its code, its weight and source as the page showed them, and as they came back."""

    code: str
    was: Cells
    now: Cells

    @property
    def is_changed(self) -> bool:
        """Whether a person changed it."""
        return self.was != self.now


def shown_of(weight: str, source: str) -> str:
    """The text with which a form says which row it showed."""
    return json.dumps([weight, source])


def given_rows() -> list[Given]:
    """The rows of the form that came; a form that isn't of this page is refused by 400."""
    columns = [flask.request.form.getlist(name) for name in FIELDS]
    if not columns[0] or len({*map(len, columns)}) > 1:
        flask.abort(400)
    return [Given(code, _was(was), [weight.strip(), source.strip()]) for code, was, weight, source in zip(*columns)]


def _was(text: str) -> Cells:
    try:
        found = json.loads(text)
    except ValueError:
        found = None
    if not (isinstance(found, list) and len(found) == 2 and all(isinstance(it, str) for it in found)):
        flask.abort(400)
    return [str(it) for it in found]


def quicker(given: Iterable[Given], now: Mapping[str, Cells]) -> list[Given]:
    """The rows that a person changed, and that now are neither as the form showed them nor as the person wrote them.
    `now` are the weights and sources by their codes."""
    return [
        given_value
        for given_value in given
        if given_value.is_changed and now.get(given_value.code) not in (given_value.was, given_value.now)
    ]


def absent(given: Iterable[Given], now: Mapping[str, Cells]) -> Optional[Message]:
    """The message with a person's texts for rows that no longer exist; None if all exist."""
    rows = [
        f"{given_value.code}: {', '.join(given_value.now)}"
        for given_value in given
        if given_value.is_changed and given_value.code not in now
    ]
    if not rows:
        return None
    return _("The draft no longer contains these rows; you wrote {rows}.", rows=of_others("; ".join(rows)))


def differs(pairs: Sequence[Pair]) -> Optional[Message]:
    """The message about other people's changes of rows, for the first of them; None if no rows are known."""
    messages = [_of_pair(pair) for pair in [*pairs][-MOST_NAMED:]]
    return sentences(*messages) if messages else None


def _of_pair(pair: Pair) -> Message:
    before, after = pair
    name = of_others((after or before or [""])[0])
    places = {"row": name, "before": _cells(before), "after": _cells(after)}
    if before is None:
        return _("{row} is new: {after}.", **places)
    if after is None:
        return _("{row} was removed: it was {before}.", **places)
    return _("{row} was {before}, and is {after} now.", **places)


def _cells(cells: Optional[Cells]) -> Worded:
    """The cells of a row after its name."""
    return of_others(", ".join(cell for cell in (cells or [])[1:] if cell) or "\u2013")


# ==== the weights of a draft, compared with the previous year's: the share of each in the total, its difference, and
# the weight that prices make of it, by the levels of the office's tables

DIGITS = 3
"""Decimals of a share in percent, and of the difference of two shares."""

MILLION = 1_000_000

Shares = Mapping[str, Fraction]
"""Parts of 1, by code."""


class Before(NamedTuple):
    """The weights of the year before as they are in use there, as parts of all of them, and the titles of that year's
    nodes."""

    year: int
    shares: Shares
    titles: Mapping[str, str]


class Moved(NamedTuple):
    """Weights price-updated from one month to another: by code its price in the second month, if it is 1 in the first;
    the shares at prices of the second; and the codes of weights without a level in one of the two, which have no shares
    then."""

    then: int
    now: int
    prices: Shares
    shares: Shares
    lacking: Sequence[str]


class Row(NamedTuple):
    """A weight, or the sum of a division: its share in the year before and in the draft, the price of the month to
    which the weights are moved (1 at first), and the share at that month's prices; None if there is none. `code` is
    shown with its title; a weight has its text, its source, and the person who changed it last. One that `is_gone`
    isn't in the draft."""

    code: str
    title: str
    before: Optional[Fraction]
    share: Optional[Fraction]
    price: Optional[Fraction] = None
    moved: Optional[Fraction] = None
    weight: str = ""
    source: str = ""
    changed: Optional[Change] = None
    is_gone: bool = False

    @property
    def difference(self) -> str:
        """The difference between the share and the previous year's share, in percentage points; nothing if one isn't
        known."""
        if self.share is None:
            return ""
        return points_text(self.share - (self.before or 0))


def shares_of(numbers: Mapping[str, Optional[Fraction]]) -> dict[str, Fraction]:
    """Numbers as parts of their sum; None for a text that isn't a number."""
    total = sum(filter(None, numbers.values()), Fraction(0))
    return {code: number / total for code, number in numbers.items() if number is not None} if total else {}


def percent_text(share: Optional[Fraction]) -> str:
    """`13.600` of a share; nothing if there is none."""
    return "" if share is None else decimal(100 * share.numerator, share.denominator, DIGITS)


def points_text(difference: Fraction) -> str:
    """`+0.250` of a difference between two shares."""
    return with_sign(decimal(100 * difference.numerator, difference.denominator, DIGITS))


def in_unit(share: Optional[Fraction], unit: str) -> str:
    """A share as a weight in the unit of a draft; nothing if there is none, or the unit is money."""
    whole = UNITS[unit]
    if share is None or whole is None:
        return ""
    number = share * whole
    return decimal(number.numerator, number.denominator, len(str(MILLION // int(whole))) - 1)


# ---- the year before


def before(office: StoredOffice, year: int) -> Before:
    """The weights of a year from its tables, or from its plan if there are none."""
    of_year = [release for release in office.releases() if release.month // 100 == year]
    levels = office.levels(of_year[-1]) if of_year else {}
    weights = {code: Fraction(level.weight) for code, level in levels.items() if "-" in code}
    titles = office.planned_titles(year)
    if not weights:
        plan = next((plan for plan in office.plans() if plan.year == year), None)
        weights = {code: Fraction(aggregate) for code, aggregate in plan.aggregates().items()} if plan else {}
    return Before(year, shares_of(weights), titles)


# ---- moved by prices


def months_to_move(office: StoredOffice, year: int) -> list[int]:
    """The months at whose prices the weights of a year can be, the latest first: those with a table that has rows, but for
    the one to which they are moved."""
    months = sorted({release.month for release in office.releases() if release.month < year * 100})
    return months[1:-1][::-1]


def move_weights(
    office: StoredOffice, numbers: Mapping[str, Optional[Fraction]], month: int, year: int
) -> Optional[Moved]:
    """Price-updates the weights of a month to December before a year, or to the last frozen month before it; None if
    nothing can be updated from that month."""
    if month not in months_to_move(office, year):
        return None
    latest = {release.month: release for release in office.releases() if release.month < year * 100}
    now = max(latest)
    levels = [{code: level.chained for code, level in office.levels(latest[it]).items()} for it in (month, now)]
    prices = {
        code: Fraction(levels[1][code], levels[0][code]) for code in numbers if all(code in level for level in levels)
    }
    lacking = [code for code, number in numbers.items() if number and code not in prices]
    worth = {code: (number or 0) * prices[code] for code, number in numbers.items() if code in prices}
    return Moved(month, now, prices, {} if lacking else shares_of(worth), lacking)


# ---- the table


def table(draft: Draft, was: Before, of: Optional[Moved]) -> list[Row]:
    """The weights of a draft, and the previous year's weights that it doesn't contain. Raises Fault."""
    shares, last = shares_of(draft.numbers()), last_changes(draft)
    rows = [
        Row(
            code,
            title,
            was.shares.get(code),
            shares.get(code),
            of.prices.get(code) if of else None,
            of.shares.get(code) if of else None,
            weight,
            source,
            last.get(code),
        )
        for code, title, weight, source in draft.titled_weights()
    ]
    there = {row.code for row in rows}
    gone = [code for code in was.shares if code not in there]
    return rows + [Row(code, was.titles.get(code, ""), was.shares[code], None, is_gone=True) for code in gone]


def last_changes(draft: Draft) -> dict[str, Change]:
    """The last change of each weight, by its code. Raises Fault."""
    changes = dict[str, Change]()
    for change in draft.changes.all():
        if change.name in ONE_FILE:
            changes.update((cells[0], change) for pair in change.pairs or () for cells in pair if cells)
    return changes


def divisions(rows: Iterable[Row], titles: Mapping[str, str]) -> list[Row]:
    """The sums of the divisions, and of all items."""
    by_code = dict[str, list[Row]]()
    for row in rows:
        for code in ("00", row.code[:2]):
            by_code.setdefault(code, []).append(row)
    return [sum_rows(code, titles.get(code, ""), by_code[code]) for code in sorted(by_code)]


def sum_rows(code: str, title: str, rows: Sequence[Row]) -> Row:
    """The sum of some rows."""
    before_all = add_shares(row.before for row in rows)
    share, moved_share = add_shares(row.share for row in rows), add_shares(row.moved for row in rows)
    return Row(code, title, before_all, share if share is not None else Fraction(0), None, moved_share)


def add_shares(shares: Iterable[Optional[Fraction]]) -> Optional[Fraction]:
    """The sum of the existing shares; None if there are none."""
    fractions = [share for share in shares if share is not None]
    return sum(fractions, Fraction(0)) if fractions else None


# ==== the weights on the page of a draft: the table with the year before, by division too, and moved by prices

MONTH = re.compile("2[01][0-9]{2}-(0[1-9]|1[0-2])")

ROWS = 500
"""Weights on one page: those of most offices."""

PRICES = "prices"
"""The field of an address with the month from which prices move the weights."""


class Now(NamedTuple):
    """The office's weights of the previous year, its months, and the price-updated weights."""

    before: Before
    months: list[int]
    moved: Optional[Moved]


def now(draft: Draft, month: int) -> Now:
    """These values, from a copy that is taken now; `month` is 0 if nothing is moved. Raises Fault."""
    with desk().copies_now() as copy, read_copy(copy.path) as office:
        of = move_weights(office, draft.numbers(), month, draft.year) if month else None
        return Now(before(office, draft.year - 1), months_to_move(office, draft.year), of)


def month_asked(draft: Draft) -> int:
    """The month whose prices a page shows: the month of its address, or the draft's reference month, or 0."""
    text = flask.request.values.get(PRICES, draft.reference())
    return int(text[:4]) * 100 + int(text[5:]) if MONTH.fullmatch(text) else 0


def of_weights(draft: Draft, query: str, start: int, typed: Sequence[Given]) -> dict[str, Any]:
    """The values that the page needs for the weights: those that a search finds, from one of them on. Raises Fault."""
    asked = month_asked(draft)
    office = now(draft, asked)
    rows = table(draft, office.before, office.moved)
    weights = search_weights(rows, query)
    first = min(start, max(0, (len(weights) - 1) // ROWS * ROWS))
    titles = {code: title for code, title, _ in draft.rows(CLASSIFICATION)}
    typed_rows = {given_value.code: given_value for given_value in typed if given_value.is_changed}
    return {
        "weights": with_typed(rows, weights[first : first + ROWS], typed_rows),
        "divisions": divisions(rows, {**office.before.titles, **titles}),
        "year_before": office.before.year,
        "typed_rows": typed_rows,
        "moved": office.moved,
        "months": [month_text(month) for month in office.months],
        "asked": month_text(asked) if asked else "",
        "total": len(weights),
        "first": first,
        "step": ROWS,
        "shown_reference": draft.sum_page(REFERENCE),
        "shown_of": shown_of,
        "month_text": month_text,
        "month_said": month_said,
        "percent_text": percent_text,
        "in_unit": in_unit,
        "price_text": price_text,
    }


def month_said(text: str) -> str:
    """A month in words; a text that is none as it is."""
    return desk().teller.month(text) if MONTH.fullmatch(text) else of_others(text)


def search_weights(rows: Sequence[Row], query: str) -> list[Row]:
    """The rows that have each word of a query in their code, title, weight or source."""
    words = query.casefold().split()
    texts = (" ".join((row.code, row.title, row.weight, row.source)).casefold() for row in rows)
    return [row for row, text in zip(rows, texts) if all(word in text for word in words)]


def with_typed(rows: Sequence[Row], shown: Sequence[Row], typed: Collection[str]) -> list[Row]:
    """The rows of a page, and those that a person typed in, but that others have removed from the draft in the
    meantime."""
    codes = {row.code for row in shown}
    return [row for row in rows if row.code in codes or (row.code in typed and not row.is_gone)]


def price_text(row: Row) -> str:
    """By how many percent a price changed, with its sign; nothing if that isn't known."""
    if row.price is None:
        return ""
    change = 100 * (row.price - 1)
    return with_sign(decimal(change.numerator, change.denominator, 1))


def columns_of_file(draft: Draft) -> tuple[Sequence[str], list[list[str]]]:
    """The columns and rows of the file of weights, which can be pasted back. Raises Fault."""
    office, unit, year = now(draft, 0).before, draft.settings().unit, draft.year - 1
    is_money = not in_unit(Fraction(1), unit)
    heads = ("code", "title", f"percent_{year}" if is_money else f"weight_{year}", "weight", "source")
    rows = [row for row in table(draft, office, None) if not row.is_gone]
    cells = [[row.code, row.title, in_unit(row.before, unit) or percent_text(row.before)] for row in rows]
    return heads, [[*first, row.weight, row.source] for first, row in zip(cells, rows)]

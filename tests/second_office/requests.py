"""From the fields of a record to what it asks. A request is a tuple that begins with its word."""

from __future__ import annotations

import csv
import io
from collections.abc import Callable
from typing import Any

from . import limits, values
from .limits import Range
from .values import Month

Record = list[str]
"""The fields of a record: a moment, who asks, a word and its arguments; or of a row, from the word on."""

Request = tuple[Any, ...]

Body = tuple[list[tuple[str, str]], list[tuple[str, int]], list[tuple[str, str]], list[Month]]
"""Titles, weights, places and reference months."""


def rows_of(body: str) -> list[Record]:
    return [row for row in csv.reader(io.StringIO(body.removeprefix("\ufeff"), newline="")) if row]


def plan_body(body: str) -> Body | None:
    """Titles, weights, places and reference months; None where a row is of no form, or where there are too many."""
    rows = rows_of(body)
    titles: list[tuple[str, str]] = []
    weights: list[tuple[str, int]] = []
    places: list[tuple[str, str]] = []
    references: list[Month] = []
    for row in rows:
        kind, first, second = {2: [*row, ""], 3: row}.get(len(row), ("", "", ""))
        weight = values.number(second, limits.ROW_OF_WEIGHT)
        if kind == "T" and values.code(first) and values.name(second):
            titles.append((first, second))
        elif kind == "W" and values.code(first) and weight is not None:
            weights.append((first, weight))
        elif kind == "I" and values.item_code(first) and values.code(second):
            places.append((first, second))
        elif kind == "R" and len(row) == 2 and (month := values.month(first)):
            references.append(month)
        else:
            return None
    return (titles, weights, places, references) if len(rows) in limits.ROWS_OF_PLAN else None


def number(within: Range) -> Callable[[str], int | None]:
    return lambda text: values.number(text, within)


COLLECTOR = number(limits.COLLECTOR)
SLOT = number(limits.SLOT)
OUTLET = number(limits.OUTLET)
REVISION = number(limits.REVISION)

# the readers of each word's arguments
ARGUMENTS: dict[str, list[Callable[[str], Any]]] = {
    "items": [],
    "tables": [],
    "work": [values.month],
    "quotes": [values.month, values.month],
    "item": [values.item_code, values.name, values.name, number(limits.LOW), number(limits.HIGH)],
    "plan": [number(limits.YEAR_OF_PLAN), plan_body],
    "calendar": [values.month, values.moment, values.moment, values.moment],
    "collector": [COLLECTOR, values.key],
    "outlet": [OUTLET, values.name],
    "assign": [COLLECTOR, SLOT, OUTLET, values.item_code, values.month, values.month],
    "handover": [COLLECTOR, SLOT, COLLECTOR, SLOT, values.month],
}


def quote_of(arguments: Record) -> Request | None:
    confirm = arguments[4:] == ["confirm"]
    if len(arguments) != (5 if confirm else 4):
        return None
    slot, month, mark = SLOT(arguments[0]), values.month(arguments[1]), values.mark(*arguments[2:4])
    return None if None in (slot, month, mark) else ("quote", slot, month, mark, confirm)


def table_of(arguments: Record) -> Request | None:
    """The month, the form, and the revision where one is named."""
    month = values.month(arguments[0]) if arguments else None
    revisions = [REVISION(text) for text in arguments[2:]]
    if arguments[1:2] not in (["text"], ["csv"]) or len(revisions) > 1 or None in (month, *revisions):
        return None
    return ("table", month, arguments[1], *revisions)


def freeze_of(arguments: Record) -> Request | None:
    month = values.month(arguments[0]) if arguments else None
    carry = [values.code(text) for text in arguments[1:]]
    if month is None or not all(code and values.is_elementary(code) for code in carry):
        return None
    return ("freeze", month, carry)


OF_SEVERAL_LENGTHS = {"quote": quote_of, "table": table_of, "freeze": freeze_of}


def is_in_form(request: Request) -> bool:
    word, *parts = request
    if word == "assign":
        return bool(parts[4] <= parts[5])
    if word == "calendar":
        return bool(parts[1] < parts[2] <= parts[3])
    return True


def request_of(word: str, arguments: Record) -> Request | None:
    """The request, or None where the fields are of no form."""
    if word in OF_SEVERAL_LENGTHS:
        return OF_SEVERAL_LENGTHS[word](arguments)
    readers = ARGUMENTS.get(word)
    if readers is None or len(readers) != len(arguments):
        return None
    parts = [reader(text) for reader, text in zip(readers, arguments)]
    if None in parts:
        return None
    return (word, *parts) if is_in_form((word, *parts)) else None


def caller_of(text: str) -> str | None:
    return text if text in ("public", "desk") else values.key(text)

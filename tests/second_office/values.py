"""The value of one field, or None where the field has no such value."""

from __future__ import annotations

import calendar
import re
from collections.abc import Iterator
from typing import Any

from . import limits
from .limits import Range

Month = tuple[int, int]
"""Year and number."""

Mark = tuple[str, Any]
"""A kind of quote with its price, or `missing` with its reason or None."""

REASONS = ("stock", "closed", "gone", "refused")


def matched(pattern: str, text: str) -> re.Match[str] | None:
    return re.fullmatch(pattern, text, re.ASCII)


def number(text: str, within: Range) -> int | None:
    # (more than 30 digits are past every limit)
    if not matched("0|[1-9][0-9]{0,29}", text):
        return None
    return int(text) if int(text) in within else None


def month(text: str) -> Month | None:
    """A pair of year and month."""
    match = matched("([0-9]{4})-([0-9]{2})", text)
    if not match:
        return None
    year, number_in_year = int(match[1]), int(match[2])
    return (year, number_in_year) if year in limits.YEAR and number_in_year in limits.MONTH_OF_YEAR else None


def moment(text: str) -> int | None:
    """Seconds since 1970 UTC, from a number or from a civil text that is read in UTC."""
    seconds = number(text, limits.MOMENT)
    if seconds is not None:
        return seconds
    match = matched("([0-9]{4})-([0-9]{2})-([0-9]{2})T([0-9]{2}):([0-9]{2})", text)
    if not match:
        return None
    year, in_year, day, hour, minute = (int(part) for part in match.groups())
    if not (year in limits.CIVIL_YEAR and hour in limits.HOUR and minute in limits.MINUTE):
        return None
    if not (1 <= in_year <= 12 and 1 <= day <= calendar.monthrange(year, in_year)[1]):
        return None
    return calendar.timegm((year, in_year, day, hour, minute, 0))


def name(text: str) -> str | None:
    data = text.encode(errors="surrogateescape")
    try:
        data.decode()
    except UnicodeDecodeError:
        return None
    is_in_form = len(data) in limits.BYTES_OF_NAME and all(byte >= 0x80 or byte in limits.BYTE_OF_NAME for byte in data)
    return text if is_in_form else None


def item_code(text: str) -> str | None:
    return text if matched("[A-Z0-9]*", text) and len(text) in limits.CHARACTERS_OF_ITEM else None


def key(text: str) -> str | None:
    return text if matched("[0-9a-f]*", text) and len(text) in limits.CHARACTERS_OF_KEY else None


def code(text: str) -> str | None:
    """A code of the classification, in its one spelling."""
    if text == "00":
        return text
    match = matched(r"([0-9]{2})(\.[0-9]){0,3}", text) or matched(r"([0-9]{2})(\.[0-9]){3}-([0-9]{2})", text)
    if not match or int(match[1]) not in limits.DIVISION:
        return None
    return None if is_elementary(text) and int(text[-2:]) not in limits.AGGREGATE else text


def is_elementary(node: str) -> bool:
    return "-" in node


def path(node: str) -> Iterator[str]:
    """The code and all codes above it."""
    yield node
    while node != "00":
        if "-" in node:
            node = node.partition("-")[0]
        elif "." in node:
            node = node.rpartition(".")[0]
        else:
            node = "00"
        yield node


def mark(kind: str, value: str) -> Mark | None:
    """A mark with its price, or with the reason why there is none."""
    if kind == "missing":
        return (kind, value) if value in REASONS else None
    price = number(value, limits.PRICE)
    return (kind, price) if kind in ("price", "comparable", "other") and price is not None else None

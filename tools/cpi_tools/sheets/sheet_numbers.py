"""Months and numbers of sheets as offices write them; one price of several, and weights as parts per million."""

from __future__ import annotations

import contextlib
import json
import re
from collections import defaultdict
from collections.abc import Iterator, Sequence
from datetime import date
from fractions import Fraction
from typing import NamedTuple, Optional, Union

from ..text.message import Message, either, message
from ..text.others import of_others
from .cells import Dated, Numeral, cut


# ==== months in the spellings that offices use: `2026-01`, `2026M01`, `Jan-26`, `01/2026`, a day of the month, and more
#
# A text is read only if it can be one month; a text that may be several is refused. In a text with a year of four
# digits the other number is the month. A year of two digits counts only after the name of a month.

NAMES: dict[str, tuple[str, ...]] = {
    "English": (
        "january jan",
        "february feb",
        "march mar",
        "april apr",
        "may",
        "june jun",
        "july jul",
        "august aug",
        "september sept sep",
        "october oct",
        "november nov",
        "december dec",
    ),
}
"""The names of the twelve months by language, in small letters. Another language is another row."""

FIRST_YEAR, LAST_YEAR = 2000, 2199
"""The years of an office's months."""

LAST_SHORT_YEAR = 49
"""A year of two digits is one from 2000 to 2049; `99` is 1999 to most readers, not a year of an office."""

MOST_OF_A_MONTH = 40
"""The most characters of a month."""

CLOCK = "(?:[t ][0-9]{1,2}:[0-9]{2}(?::[0-9]{2})?)?"
NAME = r"([^\W\d_]+)\.?"
BETWEEN = r"[ \-/_.,']*"

YEAR_AND_MONTH = re.compile("([0-9]{4})(?:-?m|[-/_ ])([0-9]{1,2})")
SIX_DIGITS = re.compile(r"([0-9]{4})\.?([0-9]{2})")
"""`202601` and `2026.01`; a spreadsheet makes 2026.1 from the number 2026.10, so a month of one digit isn't accepted
here."""
MONTH_AND_YEAR = re.compile("([0-9]{1,2})[-/._ ]([0-9]{4})")
YEAR_TO_DAY = re.compile(r"([0-9]{4})([-/.])([0-9]{1,2})\2([0-9]{1,2})" + CLOCK)
DAY_TO_YEAR = re.compile(r"([0-9]{1,2})([-/.])([0-9]{1,2})\2([0-9]{4})" + CLOCK)
NAME_AND_YEAR = re.compile(NAME + BETWEEN + "([0-9]{4}|[0-9]{2})")
YEAR_AND_NAME = re.compile("([0-9]{4})" + BETWEEN + NAME)
DAY_AND_NAME = re.compile(r"([0-9]{1,2})\.?" + BETWEEN + NAME + BETWEEN + "([0-9]{4})")
NAME_AND_DAY = re.compile(NAME + " *([0-9]{1,2}), *([0-9]{4})")
NO_LONG_YEAR = re.compile(
    r"[0-9]{1,2}[-/. ][0-9]{1,2}([-/. ][0-9]{2})?|[0-9]{2}[-/ ]?[^\W\d_]+|[0-9]{1,2}[-/ ][^\W\d_]+[-/ ][0-9]{2}"
)
"""Texts whose numbers may be days, months or years: `26-01`, `1/2/26`, `26-Jan`."""


def _number_names() -> dict[str, set[int]]:
    """The numbers of the months that a name may mean: in two languages one name may mean two months."""
    found: dict[str, set[int]] = defaultdict(set)
    for months in NAMES.values():
        for number, names in enumerate(months, 1):
            for name in names.split():
                found[name].add(number)
    return found


NAMED = _number_names()


def months_of(text: str) -> list[str]:
    """The months that a text may be, such as `["2026-01"]`, in their order; none if it isn't a month."""
    plain = text.strip().lower()
    meant = _read_forms(plain) if len(plain) <= MOST_OF_A_MONTH else ()
    is_month = (
        f"{year:04}-{month:02}" for year, month in meant if FIRST_YEAR <= year <= LAST_YEAR and 1 <= month <= 12
    )
    return sorted({*is_month})


def month_of(text: str) -> str:
    """The month of a text, `2026-01`; empty if it isn't a month, or may be several."""
    months = months_of(text)
    return months[0] if len(months) == 1 else ""


def told_no_month(text: str) -> Message:
    """The reason why a text isn't read as a month."""
    if not text:
        return message("the cell is empty, but should contain a month")
    if months := months_of(text):
        return message('"{text}" may be {months}', text=cut(text), months=either([*map(of_others, months)]))
    if NO_LONG_YEAR.fullmatch(text.strip()):
        return message('"{text}" may be a day or several months: it contains no year with four digits', text=cut(text))
    return message('"{text}" isn\'t a month', text=cut(text))


def _read_forms(plain: str) -> Iterator[tuple[int, int]]:
    """Year and month of each form that a text in small letters has; they may still not be a month."""
    if match := YEAR_AND_MONTH.fullmatch(plain) or SIX_DIGITS.fullmatch(plain):
        yield int(match[1]), int(match[2])
    if match := MONTH_AND_YEAR.fullmatch(plain):
        yield int(match[2]), int(match[1])
    if match := YEAR_TO_DAY.fullmatch(plain):
        yield from _of_day(int(match[1]), int(match[3]), int(match[4]))
    if match := DAY_TO_YEAR.fullmatch(plain):
        one, other, year = int(match[1]), int(match[3]), int(match[4])
        yield from _of_day(year, one, other)
        yield from _of_day(year, other, one)
    if match := NAME_AND_YEAR.fullmatch(plain):
        year = int(match[2])
        if len(match[2]) == 4 or year <= LAST_SHORT_YEAR:
            yield from ((year + 2000 * (year <= LAST_SHORT_YEAR), month) for month in NAMED.get(match[1], ()))
    if match := YEAR_AND_NAME.fullmatch(plain):
        yield from ((int(match[1]), month) for month in NAMED.get(match[2], ()))
    if match := DAY_AND_NAME.fullmatch(plain):
        for month in NAMED.get(match[2], ()):
            yield from _of_day(int(match[3]), month, int(match[1]))
    if match := NAME_AND_DAY.fullmatch(plain):
        for month in NAMED.get(match[1], ()):
            yield from _of_day(int(match[3]), month, int(match[2]))


def _of_day(year: int, month: int, day: int) -> Iterator[tuple[int, int]]:
    """The year and month of an existing day."""
    with contextlib.suppress(ValueError):
        date(year, month, day)
        yield year, month


# ==== Numbers as offices write them: with their own decimal sign, and a separator between groups of three digits.
# Numbers are always exact.

OF_CELL = re.compile(r"[+-]?[0-9]+(\.[0-9]+)?(e[+-]?[0-9]{1,3})?", re.I)
"""A number of a workbook."""

PLAIN = re.compile(r"[+-]?[0-9]+(\.[0-9]+)?")
GROUPED = re.compile(r"([+-]?[0-9]{1,3}(?:([ \u00a0\u202f\u2009'\u2019])[0-9]{3})(?:\2[0-9]{3})*)(\.[0-9]+)?")
"""Blanks of several widths, and the mark of Switzerland, are accepted only between groups of three digits, one kind in
a number."""


MOST_OF_A_NUMBER = 100
"""The most characters of an office's number; Python reads at most 4,300 digits."""


class Numbers:
    """Reads numbers with a decimal sign, `.` or `,`."""

    def __init__(self, decimal: str):
        self.decimal = decimal

    def of(self, text: str) -> Optional[Fraction]:
        """The number of a text; None if it isn't a number. A number of a workbook has a point, whatever the sign is."""
        if len(text) > MOST_OF_A_NUMBER:
            return None
        if text.isascii() and text.isdigit():
            return Fraction(int(text))
        if isinstance(text, Numeral):
            return Fraction(text) if OF_CELL.fullmatch(text) else None
        plain = text.strip()
        if self.decimal != ".":
            if "." in plain:
                return None
            plain = plain.replace(self.decimal, ".")
        if match := GROUPED.fullmatch(plain):
            plain = match[1].replace(match[2], "") + (match[3] or "")
        return Fraction(plain) if PLAIN.fullmatch(plain) else None

    def told_none(self, text: str) -> Message:
        """The reason why a text isn't a number."""
        if isinstance(text, Dated):
            return message("the cell contains the date {date}, not a number", date=of_others(text))
        if text.endswith("%"):
            return message('"{text}" is a percentage', text=cut(text))
        sign = of_others(self.decimal)
        return message('"{text}" isn\'t a number with the decimal sign "{sign}"', text=cut(text), sign=sign)

    def told_thousands(self, text: str) -> Union[Message, str]:
        """The doubt about a text whose decimal sign may be a thousands separator, as in `1.250`; otherwise empty."""
        if isinstance(text, Numeral) or not re.fullmatch(f"[1-9][0-9]{{0,2}}[{self.decimal}][0-9]{{3}}", text):
            return ""
        number = of_others(text.replace(self.decimal, ""))
        return message('"{text}" may be {number} with a thousands separator', text=cut(text), number=number)


def decimal(number: Fraction, sign: str = "") -> str:
    """A number with three digits after the point, halves away from zero; with `sign` `+`, a number that isn't below
    zero has a plus sign."""
    thousandths = (2000 * abs(number.numerator) + number.denominator) // (2 * number.denominator)
    minus = "-" if number < 0 and thousandths else sign
    return f"{minus}{thousandths // 1000:,}.{thousandths % 1000:03}"


# ==== hints about a text that the program can't read, in the form in which the store of prices keeps it: a text of the
# catalogues, and the texts of others in its places
#
# A hint becomes a text of ours again only if it is reported: a sheet may have many hints, and few are reported.


def pack_hint(hint: str) -> str:
    """A hint for the store, whose places hold only texts of others; an empty text if there is none."""
    if not isinstance(hint, Message):
        return hint
    return json.dumps([hint.source[0], {name: str(text) for name, text in hint.places.items()}])


def unpack_hint(hint: str) -> str:
    """A hint as a text of ours, even if it wasn't packed."""
    if not hint or isinstance(hint, Message):
        return hint
    source, places = json.loads(hint)
    return message(source, **{name: of_others(text) for name, text in places.items()})


# ==== makes one price of a month from several, with the rule that an office names: the mean, the first or the last of
# them
#
# Everything is exact: a mean is a fraction of minor units, and becomes a price only if it is whole, or if the office
# names rounding to the nearest minor unit (halves away from zero). A reason counts only in a month that has no price.

MEAN, FIRST, LAST = "mean", "first", "last"
RULES = (MEAN, FIRST, LAST)

MISSING = "missing"

MINOR_UNITS = re.compile("[0-9]+(/[0-9]+)?")
"""An exact price in minor units, such as `240` or `500/3`."""


class Rule(NamedTuple):
    """The rule for several prices in a month, empty if several are a problem; and whether a price that isn't whole in
    minor units is rounded."""

    several: str = ""
    is_rounded: bool = False

    @property
    def is_any(self) -> bool:
        """Whether the rule changes anything."""
        return bool(self.several) or self.is_rounded


class Given(NamedTuple):
    """A price or a reason for a month: its number in the store, its mark, value and `confirm`, and a hint if it isn't a
    valid price."""

    number: int
    mark: str
    value: str
    confirm: str
    hint: str


class Differ(NamedTuple):
    """Two different marks among the prices of a mean, and the number of the price with the second one."""

    number: int
    one: str
    other: str


def one_of(given: Sequence[Given], rule: Rule) -> Union[Given, Differ]:
    """The one price of a month; `given` contains at least one, in the order of days, and of rows within a day."""
    odd = [price for price in given if price.mark != MISSING and not MINOR_UNITS.fullmatch(price.value)]
    if odd:
        # (the program refuses it, at its cell)
        return odd[0]
    prices = [price for price in given if price.mark != MISSING]
    if not prices:
        return given[0] if rule.several == FIRST else given[-1]
    if rule.several in (FIRST, LAST):
        return settle_value(prices[0] if rule.several == FIRST else prices[-1], rule)
    other = next((price for price in prices if price.mark != prices[0].mark), None)
    if other:
        return Differ(other.number, prices[0].mark, other.mark)
    mean = sum(map(minor_units, prices), Fraction(0)) / len(prices)
    confirm = next((price.confirm for price in prices if price.confirm), "")
    hint = prices[0].hint if len(prices) == 1 else told_mean(mean)
    return settle_value(prices[0]._replace(value=str(mean), confirm=confirm, hint=hint), rule)


def minor_units(given: Given) -> Fraction:
    """An exact price in minor units."""
    return Fraction(given.value)


def settle_value(given: Given, rule: Rule) -> Given:
    """The price with a whole value, if it is whole or the rule rounds it; otherwise the price unchanged, with its
    hint."""
    value = minor_units(given)
    whole = nearest(value) if rule.is_rounded else value.numerator if value.denominator == 1 else None
    return given if whole is None else given._replace(value=str(whole), hint="")


def nearest(value: Fraction) -> int:
    """The nearest whole number, halves away from zero, of a number that isn't below zero."""
    return (2 * value.numerator + value.denominator) // (2 * value.denominator)


def told_mean(mean: Fraction) -> Message:
    """A hint about a mean that isn't whole."""
    option = of_others("--minor")
    return message(
        "the mean, {number}, isn't a whole number of minor units ({option})", number=of_others(str(mean)), option=option
    )


# ==== converts weights in any unit to parts per million that add up: whole parts, and one more for the greatest
# remainders

MILLION = 1_000_000
"""The sum of a plan's weights."""


def scale_weights(given: Sequence[Fraction]) -> list[int]:
    """Weights (not below 0, of any unit) as parts per million of their sum, in the same order.

    They add up to 1,000,000. A weight whose share is less than 1 becomes 1, and the others share the rest: each gets
    its exact share without the fraction, or one more if its fraction is among the greatest (among equal ones, the
    first). A weight of 0 stays 0. If all are 0, or more than 1,000,000 are above 0, they can't add up.
    """
    whole = [0 for _ in given]
    sharing, left = [at for at, weight in enumerate(given) if weight > 0], MILLION
    while sharing:
        total = sum((given[at] for at in sharing), Fraction(0))
        tiny = {at for at in sharing if given[at] * left < total}
        for at in tiny:
            whole[at] = 1
        if not tiny:
            share_out(whole, {at: given[at] * left / total for at in sharing}, left)
            break
        sharing, left = [at for at in sharing if at not in tiny], left - len(tiny)
    return whole


def share_out(whole: list[int], exact: dict[int, Fraction], left: int) -> None:
    """Rounds exact shares that add up to `left` to whole numbers with the same sum."""
    for at, share in exact.items():
        whole[at] = int(share)
    by_remainder = sorted(exact, key=lambda at: (whole[at] - exact[at], at))
    for at in by_remainder[: left - sum(whole[at] for at in exact)]:
        whole[at] += 1

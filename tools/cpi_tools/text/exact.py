"""Whole numbers and codes, as the office counts them and as people type them: no float is made here."""

from __future__ import annotations

import re
import unicodedata
from collections.abc import Iterator
from fractions import Fraction
from typing import NamedTuple, Optional


# ==== whole numbers and codes, as the office counts them; this module makes no floats
#
# Units: an index or a level is in millionths of a point, a change in tenths of a percent. A code is a code of the
# classification: `00` for all items, `01` for a division, down to `01.1.1.1-01` for an elementary aggregate.

HUNDRED = 10**8
"""An index of 100, in millionths of a point."""

ALL_ITEMS = "00"

DEPTHS = {2: 1, 4: 2, 6: 3, 8: 4, 11: 5}
"""The depth of a code by its length: 1 for a division, .. 5 for an elementary aggregate."""


class Ratio(NamedTuple):
    """An exact number, `over / under` with `under` above 0; it isn't reduced, so that sums of many numbers are
    quick."""

    over: int
    under: int

    def plus(self, other: Ratio) -> Ratio:
        """The sum of this number and another."""
        return Ratio(self.over * other.under + other.over * self.under, self.under * other.under)


# ---- numbers as texts


def round_ratio(over: int, under: int) -> int:
    """over / under to the nearest whole number, halves up (under > 0)."""
    return (2 * over + under) // (2 * under)


def scale_ratio(over: int, under: int, digits: int) -> int:
    """over / under in units of the last of some decimals, rounded to the nearest, halves away from zero (under > 0)."""
    size = round_ratio(abs(over) * 10**digits, under)
    return -size if over < 0 else size


def decimal(over: int, under: int, digits: int) -> str:
    """over / under with some decimals, rounded to the nearest, halves away from zero (under > 0)."""
    units = (2 * abs(over) * 10**digits + under) // (2 * under)
    return write_fixed(-units if over < 0 else units, digits)


def write_fixed(units: int, digits: int) -> str:
    """A whole number of units of the last of some decimals as it is printed: `-0.3` for -3 and one decimal."""
    if not digits:
        return str(units)
    text = f"{abs(units):0{digits + 1}}"
    return f"{'-' if units < 0 else ''}{text[:-digits]}.{text[-digits:]}"


def points(millionths: int, digits: int = 6) -> str:
    """Millionths of a point (not below 0) as points with 1 to 6 decimals: `105.7` for 105,714,286."""
    if digits == 6:
        return f"{millionths // 1_000_000}.{millionths % 1_000_000:06}"
    return decimal(millionths, 10**6, digits)


def tenths(value: Optional[int]) -> str:
    """Tenths of a percent as a table prints them, `-0.3`; empty if there is no change."""
    if value is None:
        return ""
    return write_fixed(value, 1)


def with_sign(text: str) -> str:
    """A written number as people read it: `+0.3`, `0.0`, or `−0.3` with the minus sign of mathematics."""
    if text.startswith("-"):
        return f"\u2212{text[1:]}"
    return f"+{text}" if text.strip("0.") else text


# ---- codes


def parent_of(code: str) -> Optional[str]:
    """The next node above; None for all items."""
    if code == ALL_ITEMS:
        return None
    if len(code) == 2:
        return ALL_ITEMS
    return code[:8] if len(code) == 11 else code[:-2]


def at_and_above(code: str) -> Iterator[str]:
    """A code and all nodes above it, up to `00`."""
    at: Optional[str] = code
    while at is not None:
        yield at
        at = parent_of(at)


def depth_of(code: str) -> int:
    """The depth of a code: 0 for all items, 1 for a division, .. 5 for an elementary aggregate."""
    return 0 if code == ALL_ITEMS else DEPTHS[len(code)]


# ==== Numbers as people type them at the desk: in digits of any script, with a point or a comma, with or without marks
# between groups of three digits. A text that can be read in two ways isn't read.
#
# A key as a person types it on any keyboard, in its plain form.

DECIMAL_SIGNS = ".,\u066b"
"""A point, a comma, and the decimal sign of Arabic."""

GROUP_SIGNS = (".", ",", "\u066c", "'", "\u2019", " ", "\u00a0", "\u2009", "\u202f")
"""The characters that may separate groups of three digits; the third is the Arabic one."""

MOST_LETTERS = 60


def plain(text: str) -> str:
    """A text whose decimal digits, of any script, are replaced with ASCII digits; invisible marks of direction are
    removed."""
    shown = re.sub("[\u061c\u200e\u200f\u2066-\u2069]", "", text.strip())
    return "".join(str(unicodedata.decimal(sign)) if sign.isdecimal() else sign for sign in shown)


def numbers_in(text: str, group_sign: str = "") -> set[Fraction]:
    """The numbers, not below zero, that a text can mean: none, one, or two of them, as `1,459` does. `group_sign` is
    given if the numbers that are wanted have no decimals: then it isn't a decimal sign between groups of three
    digits."""
    typed, numbers = plain(text), set[Fraction]()
    if len(typed) > MOST_LETTERS:
        return numbers
    if group_sign and re.fullmatch(f"[1-9][0-9]{{0,2}}(?:{re.escape(group_sign)}[0-9]{{3}})+", typed):
        return {Fraction(int(typed.replace(group_sign, "")))}
    if re.fullmatch("[0-9]+", typed):
        numbers.add(Fraction(int(typed)))
    for group in GROUP_SIGNS:
        grouped = f"[1-9][0-9]{{0,2}}(?:{re.escape(group)}[0-9]{{3}})+"
        if re.fullmatch(grouped, typed):
            numbers.add(Fraction(int(typed.replace(group, ""))))
        for point in DECIMAL_SIGNS.replace(group, ""):
            if both := re.fullmatch(f"([0-9]+|{grouped}){re.escape(point)}([0-9]+)", typed):
                numbers.add(Fraction(int(both[1].replace(group, "") + both[2]), 10 ** len(both[2])))
    return numbers


def number_text(number: Fraction) -> str:
    """A number that was read, with as many decimals as it has."""
    digits = 0
    while (number * 10**digits).denominator > 1:
        digits += 1
    return decimal(number.numerator, number.denominator, digits)


def plain_digits(typed: str) -> str:
    """A text with the digits 0 to 9, whatever the keyboard writes, and without blanks around it."""
    return "".join(str(unicodedata.decimal(letter, letter)) for letter in typed.strip())


def key_of(typed: str) -> str:
    """A key as it was typed or pasted: with blanks, hyphens or capitals, perhaps, and with the digits of any keyboard."""
    return "".join(plain_digits(typed).replace("-", "").split()).lower()

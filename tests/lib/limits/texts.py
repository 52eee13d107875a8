"""Limits of texts in records: their length, their characters, and the parts of a code."""

from __future__ import annotations

from collections.abc import Iterator
from string import ascii_uppercase

from .limit import DONE, Limit, Told, refused
from .places import ONE, Records, each, two_digits

ITEM_CODE = "| item code | 1 to 12 characters of A-Z and 0-9 |"
NAME = "| name, text, unit | 1 to 400 bytes of UTF-8, no byte below 0x20, no 0x7F |"
KEY = "| key | 32 characters of 0-9 and a-f |"

OF_ITEM_CODES: dict[str, Told] = {
    "0,desk,item,?,Tea,1 kg,1,1000": DONE,
    "0,desk,assign,7,3,10,?,2025-12,2026-12": refused(41),
    f"0,desk,plan,2026|I,?,{ONE}": refused(44, fault=6),
}
OF_NAMES: dict[str, Told] = {
    "0,desk,item,TEA,?,1 kg,1,1000": DONE,
    "0,desk,item,TEA,Tea,?,1,1000": DONE,
    "0,desk,outlet,11,?": DONE,
    "0,desk,plan,2026|T,02,?": DONE,
}
OF_KEYS: dict[str, Told] = {"0,desk,collector,9,?": DONE, "0,?,items": refused(11)}


def of_two_bytes(count: int) -> str:
    """So many bytes, in characters of two bytes and perhaps one of one."""
    return "é" * (count // 2) + "x" * (count % 2)


def lengths() -> Iterator[Limit[Records]]:
    """The lengths of a code, a name and a key: a name is counted in bytes, whatever its characters are."""
    yield from each(OF_ITEM_CODES, 1, 12, ITEM_CODE, lambda count: ascii_uppercase[:count],
                    rule="CHARACTERS_OF_ITEM", floor=0)  # fmt: skip
    yield from each(OF_NAMES, 1, 400, NAME, lambda count: "x" * count, rule="BYTES_OF_NAME", floor=0)
    yield from each(OF_NAMES, None, 400, NAME, of_two_bytes, rule="BYTES_OF_NAME")
    yield from each(OF_KEYS, 32, 32, KEY, lambda count: "c" * count, rule="CHARACTERS_OF_KEY")


def in_a_key(code: int) -> str:
    """A key with that character at its end."""
    return "c" * 31 + chr(code)


def characters() -> Iterator[Limit[Records]]:
    """The characters around the first and the last that a code, a name or a key may contain."""
    for least, most in (("A", "Z"), ("0", "9")):
        yield from each(OF_ITEM_CODES, ord(least), ord(most), ITEM_CODE, chr)
    for least, most in (("a", "f"), ("0", "9")):
        yield from each(OF_KEYS, ord(least), ord(most), KEY, in_a_key)
    # (0x7F alone is shut out above 0x20)
    yield from each(OF_NAMES, 0x20, 0x7E, NAME, chr, rule="BYTE_OF_NAME", is_said=False)
    yield from each(OF_NAMES, 0x80, None, NAME, chr, is_said=False)


DIVISION = "| division | `01` to `13` |"
DIGIT = "| group, class, subclass | one digit more, 0 to 9, behind a dot |"
AGGREGATE = "| elementary aggregate | its subclass, a hyphen, and `01` to `99` |"
UNWEIGHED = refused(44, fault=8)
"""The answer to a code on the carry list of the first freeze, which has no plan."""

OF_DIVISIONS: dict[str, Told] = {
    "1000,desk,freeze,2025-12,?.1.1.1-01": UNWEIGHED,
    "0,desk,plan,2026|T,?.9.9,x": DONE,
}
OF_DIGITS: dict[str, Told] = {
    "0,desk,plan,2026|T,02.?,x": DONE,
    "0,desk,plan,2026|T,02.1.?,x": DONE,
    "0,desk,plan,2026|T,02.1.1.?,x": DONE,
}
OF_AGGREGATES: dict[str, Told] = {
    "1000,desk,freeze,2025-12,01.1.1.1-?": UNWEIGHED,
    "0,desk,plan,2026|T,02.1.1.1-?,x": DONE,
}


def codes() -> Iterator[Limit[Records]]:
    """Each part of a code of the classification."""
    yield from each(OF_DIVISIONS, 1, 13, DIVISION, two_digits, rule="DIVISION")
    yield from each(OF_DIGITS, ord("0"), ord("9"), DIGIT, chr)
    yield from each(OF_AGGREGATES, 1, 99, AGGREGATE, two_digits, rule="AGGREGATE")


LIMITS = [*lengths(), *characters(), *codes()]

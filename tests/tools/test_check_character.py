"""The check character of a typed key: published numbers, another program, and the errors that it has to find."""

from __future__ import annotations

import random
from collections.abc import Iterator

import pytest

from cpi_tools.desk.keys.keys_cli import CHARACTERS, check_character

HEXADECIMAL = CHARACTERS[:16]

PUBLISHED = [
    # ISAN 0000-0001-8947-0000-8-0000-0000-D and ISAN 0000-0000-D07A-0090-Q: characters over 16 and over 24 digits
    ("0000000189470000", "8"),
    ("000000018947000000000000", "D"),
    ("00000000D07A0090", "Q"),
    # GRid A1-2425G-ABC1234002-M
    ("A12425GABC1234002", "M"),
]


def drawn_keys(count: int) -> list[str]:
    drawn = random.Random(7064)
    return ["".join(drawn.choices(HEXADECIMAL, k=32)) for _ in range(count)]


def is_right(text: str) -> bool:
    """Whether the last character of a text is the check of the others."""
    return check_character(text[:-1]) == text[-1]


def exchanged(text: str) -> Iterator[tuple[int, str]]:
    """A text with each two neighbours that differ in each other's place, and by how much their values differ."""
    for at, (one, other) in enumerate(zip(text, text[1:])):
        if one != other:
            yield abs(int(one, 36) - int(other, 36)), text[:at] + other + one + text[at + 2 :]


@pytest.mark.parametrize(("text", "wanted"), PUBLISHED)
def test_published_numbers(text: str, wanted: str) -> None:
    assert check_character(text) == wanted


def test_another_program_has_the_same() -> None:
    other = pytest.importorskip("stdnum.iso7064.mod_37_36")
    for key in [*drawn_keys(500), "", *CHARACTERS, CHARACTERS]:
        assert check_character(key) == other.calc_check_digit(key)


def test_each_single_wrong_character_is_found() -> None:
    for key in drawn_keys(20):
        text = key + check_character(key)
        assert is_right(text)
        for at, right in enumerate(text):
            for wrong in CHARACTERS.replace(right, ""):
                assert not is_right(text[:at] + wrong + text[at + 1 :])


def test_nearly_each_exchange_of_neighbours_is_found() -> None:
    """Each one whose two values differ by more than 1; the others that aren't found are less than 1 in 200."""
    keys = [
        (by, not is_right(wrong)) for key in drawn_keys(1000) for by, wrong in exchanged(key + check_character(key))
    ]
    assert all(is_found for by, is_found in keys if by > 1)
    lost = sum(not is_found for _, is_found in keys)
    assert 0 < lost < len(keys) / 200 and len(keys) > 25_000


@pytest.mark.parametrize("text", ["a", "0-1", " ", "\u0661"])
def test_another_character_has_no_value(text: str) -> None:
    with pytest.raises(ValueError):
        check_character(text)

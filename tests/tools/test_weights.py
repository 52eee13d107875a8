"""`cpi_tools.sheets.sheet_numbers`: parts per million by greatest remainders. Each result here was worked by hand."""

from __future__ import annotations

import random
from fractions import Fraction

import pytest

from cpi_tools.sheets.sheet_numbers import scale_weights


@pytest.mark.parametrize(
    ("given", "wanted"),
    [
        # a third each: 333,333 and a third; one is left, and the first of equal remainders takes it
        ([1, 1, 1], [333_334, 333_333, 333_333]),
        # 166,666 2/3, 333,333 1/3, 500,000: the greatest remainder is the first's
        ([1, 2, 3], [166_667, 333_333, 500_000]),
        # 333,333 1/3 and 666,666 2/3
        ([Fraction("1000.5"), 2001], [333_333, 666_667]),
        # percent that add up are sent as they are
        ([Fraction("60.1"), Fraction("39.9")], [601_000, 399_000]),
        # percent that add up to 99: 60 / 99 = 606,060 60/99, 39 / 99 = 393,939 39/99
        ([60, 39], [606_061, 393_939]),
        # 999,999.9 and 0.1: what is above 0 is at least 1
        ([10_000_000, 1], [999_999, 1]),
        # 999,999.8 and twice 0.1: twice 1, and 999,998 are left
        ([1, 10_000_000, 1], [1, 999_998, 1]),
        # twice 499,999.985 and three times 0.01: 999,997 are left for two, 499,998.5 each
        ([1, 50_000_000, 1, 50_000_000, 1], [1, 499_999, 1, 499_998, 1]),
        # 0.5 becomes 1, and of the 999,999 that are left 1.0000004 x 999,999 / 999,999.5 is below 1 too
        ([Fraction("0.5"), Fraction("1.0000004"), Fraction("999998.4999996")], [1, 1, 999_998]),
        ([0, 5], [0, 1_000_000]),
        ([0, 0], [0, 0]),
        ([], []),
    ],
)
def test_weights_worked_by_hand(given: list[Fraction], wanted: list[int]) -> None:
    assert scale_weights([Fraction(each) for each in given]) == wanted


def test_whatever_is_given_they_add_up_and_are_near_their_share() -> None:
    drawn = random.Random(45)
    for _ in range(200):
        given = [Fraction(drawn.randint(1, 10**6), drawn.choice((1, 7, 100))) for _ in range(drawn.randint(1, 60))]
        found, total = scale_weights(given), sum(given)
        assert sum(found) == 1_000_000 and min(found) >= 1
        for weight, each in zip(found, given):
            share = each * 1_000_000 / total
            assert abs(weight - share) < 1 or share < 1


def test_a_plan_of_the_greatest_size_with_tiny_weights() -> None:
    # the share of a small one is 0.33, so it is 1, and the great one has what 19,999 of them leave
    assert scale_weights([Fraction(1)] * 19_999 + [Fraction(60_000_000)]) == [1] * 19_999 + [980_001]

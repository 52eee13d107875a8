"""`cpi_tools.publish.figures.measures`: contributions, averages and other reference periods, by hand in fractions."""

from __future__ import annotations

from fractions import Fraction
from typing import Optional

import pytest

from cpi_tools.text.exact import Ratio, decimal
from cpi_tools.publish.figures.measures import (
    Contributions,
    average,
    average_change,
    full_years,
    months_linked_to,
    reference_level,
    rereference,
    twelve_month_rate,
)
from cpi_tools.office.public import Listed, Published
from cpi_tools.office.tables import Series
from .published import HIDDEN_REVISION

# ---- two years by hand
#
# In 2026 coffee has 0.75 of the weight and tea 0.25; in 2027 coffee and milk have a half each. Indices within the year:
#
#            January   February to November   December        January to December 2027
#   coffee      98             102              104            102, chained 104 * 1.02 = 106.08
#   tea        105             105              108
#   milk                                                       106
#   all      99.75          102.75              105            104, chained 105 * 1.04 = 109.2


def row(code: str, weight: int, within: str, chained: str, monthly: str, annual: str) -> str:
    """A printed row; indices and levels are given with two decimals."""
    return f"{code},{weight},{within}0000,{chained}0000,{monthly},{annual},0,Title of {code}\n"


def first_year(month: int, monthly: tuple[str, str, str], annual: tuple[str, str, str] = ("", "", "")) -> Published:
    """A table of 2026: all, coffee (01), tea (02)."""
    levels = {1: ("99.75", "98.00", "105.00"), 12: ("105.00", "104.00", "108.00")}
    shown = levels.get(month, ("102.75", "102.00", "105.00"))
    weights = zip(("00", "01", "02"), (1_000_000, 750_000, 250_000), shown, monthly, annual)
    text = "".join(row(code, weight, level, level, *changes) for code, weight, level, *changes in weights)
    return Published(Listed(f"2026-{month:02}", 1, month), text.encode())


def second_year(month: int, monthly: tuple[str, str, str], annual: tuple[str, str, str]) -> Published:
    """A table of 2027: all, coffee (01), milk (03)."""
    text = row("00", 1_000_000, "104.00", "109.20", monthly[0], annual[0])
    text += row("01", 500_000, "102.00", "106.08", monthly[1], annual[1])
    text += row("03", 500_000, "106.00", "106.00", monthly[2], annual[2])
    return Published(Listed(f"2027-{month:02}", 1, 100 + month), text.encode())


STILL = ("0.0", "0.0", "0.0")


def two_years() -> list[Published]:
    """All tables; each change is the level over the level before, by hand."""
    first = [Published(Listed("2025-12", 1, 0), b"")]
    first += [first_year(1, ("-0.3", "-2.0", "5.0")), first_year(2, ("3.0", "4.1", "0.0"))]
    first += [first_year(month, STILL) for month in range(3, 12)]
    first.append(first_year(12, ("2.2", "2.0", "2.9"), ("5.0", "4.0", "8.0")))
    second = [second_year(1, ("4.0", "2.0", "6.0"), ("9.5", "8.2", ""))]
    second += [second_year(month, STILL, ("6.3", "4.0", "")) for month in range(2, 12)]
    return first + second + [second_year(12, STILL, ("4.0", "2.0", "6.0"))]


def tea_again() -> Published:
    """January 2028: coffee stands still, and tea comes again, a half each; its level begins at 100 anew."""
    text = row("00", 1_000_000, "105.00", "114.66", "5.0", "5.0")
    text += row("01", 500_000, "100.00", "106.08", "0.0", "0.0")
    text += row("02", 500_000, "110.00", "110.00", "10.0", "")
    return Published(Listed("2028-01", 1, 201), text.encode())


def over_another_december() -> list[Published]:
    """Up to January 2027, which was computed over a December of all items at 106 that isn't published: 106 * 1.04."""
    *december, last = two_years()[:14]
    table = last.table.replace(b"104.000000,109.200000,4.0,9.5", b"104.000000,110.240000,4.0,10.5")
    assert table != last.table
    return [*december, last._replace(table=table)]


@pytest.fixture(scope="module")
def by_hand() -> Series:
    return Series(two_years())


def fraction(value: Optional[Ratio]) -> Optional[Fraction]:
    return None if value is None else Fraction(*value)


def given(series: Series, month: str) -> dict[str, tuple[Optional[Fraction], Optional[Fraction]]]:
    """What each node next below gives to all items, on the month and on the year before."""
    found = Contributions(series).below(month, "00")
    return {it.code: (fraction(it.to_month), fraction(it.to_year)) for it in found}


def test_contributions_within_a_year_by_hand(by_hand: Series) -> None:
    # January: 0.75 * (98 - 100) and 0.25 * (105 - 100)
    assert given(by_hand, "2026-01") == {"01": (Fraction(-3, 2), None), "02": (Fraction(5, 4), None)}
    # February: 100 * 0.75 * (102 - 98) / 99.75; tea stood still
    assert given(by_hand, "2026-02") == {"01": (Fraction(400, 133), None), "02": (Fraction(0), None)}
    # December: on the month 100 * 0.75 * 2 / 102.75 and 100 * 0.25 * 3 / 102.75; on the year 0.75 * 4 and 0.25 * 8
    assert given(by_hand, "2026-12") == {
        "01": (Fraction(200, 137), Fraction(3)),
        "02": (Fraction(100, 137), Fraction(2)),
    }


def test_contributions_across_the_link_by_hand(by_hand: Series) -> None:
    """Up to December 2026 by the old weights, and from there by the new ones, moved by 105 / 99.75 = 20/19."""
    coffee = 100 * Fraction(3, 4) * (104 - 98) / Fraction("99.75") + Fraction(20, 19) * Fraction(1, 2) * 2
    tea = 100 * Fraction(1, 4) * (108 - 105) / Fraction("99.75")
    milk = Fraction(20, 19) * Fraction(1, 2) * 6
    assert given(by_hand, "2027-01") == {"01": (Fraction(1), coffee), "02": (None, tea), "03": (Fraction(3), milk)}
    assert (coffee, tea, milk) == (Fraction(740, 133), Fraction(100, 133), Fraction(420, 133))
    assert coffee + tea + milk == 100 * (Fraction("109.2") - Fraction("99.75")) / Fraction("99.75")
    # in December the old year is gone
    assert given(by_hand, "2027-12") == {"01": (Fraction(0), Fraction(1)), "03": (Fraction(0), Fraction(3))}


def test_averages_by_hand(by_hand: Series) -> None:
    assert full_years(by_hand) == [2026, 2027]
    # (99.75 + 10 * 102.75 + 105) / 12, (98 + 10 * 102 + 104) / 12, (11 * 105 + 108) / 12
    wanted = {"00": Fraction("102.6875"), "01": Fraction(611, 6), "02": Fraction("105.25"), "03": None}
    assert {code: fraction(average(by_hand, code, 2026)) for code in wanted} == wanted
    assert fraction(average(by_hand, "00", 2027)) == Fraction("109.2")
    change = 100 * (Fraction("109.2") - Fraction("102.6875")) / Fraction("102.6875")
    assert fraction(average_change(by_hand, "00", 2027)) == change
    assert average_change(by_hand, "00", 2026) is None and average_change(by_hand, "03", 2027) is None
    assert fraction(twelve_month_rate(by_hand, "2027-12", "00")) == change
    # twelve months to January 2027: (10 * 102.75 + 105 + 109.2) / 12, and there aren't twelve before
    assert twelve_month_rate(by_hand, "2027-11", "00") is None and twelve_month_rate(by_hand, "2027-12", "03") is None


def test_another_reference_period_by_hand(by_hand: Series) -> None:
    base = reference_level(by_hand, "00", "2026")
    last = by_hand.row("2027-12", "00")
    assert base and last
    # 10,920 / 102.6875 = 106.3420572..
    assert decimal(*rereference(last.chained, base), 6) == "106.342057"
    month = reference_level(by_hand, "01", "2026-12")
    coffee = by_hand.row("2027-12", "01")
    assert month and coffee and decimal(*rereference(coffee.chained, month), 6) == "102.000000"
    assert reference_level(by_hand, "03", "2026") is None and reference_level(by_hand, "00", "2028") is None


def test_what_left_and_came_again_is_not_linked_to_its_first_months() -> None:
    series = Series([*two_years(), tea_again()])
    year = [f"2026-{month:02}" for month in range(1, 13)]
    assert series.runs("02") == [year, ["2028-01"]] and series.runs("01") == [series.months]
    assert series.runs("03") == [[f"2027-{month:02}" for month in range(1, 13)]]
    assert months_linked_to(series, "02", "2026") == months_linked_to(series, "02", "2026-07") == year
    assert months_linked_to(series, "02", "2028-01") == ["2028-01"] and months_linked_to(series, "03", "2026") == []
    # in the month before all others, what begins there has 100
    bases = {code: fraction(reference_level(series, code, "2025-12")) for code in series.titles}
    assert bases == {"00": 100, "01": 100, "02": 100, "03": None}
    assert months_linked_to(series, "02", "2025-12") == year


def test_annual_contributions_rest_on_the_published_december() -> None:
    series = Series(over_another_december())
    assert not series.is_linked("2027-01") and series.is_linked("2026-12")
    assert Contributions(series).unexplained == {("2027-01", False), ("2027-01", True)}
    assert given(series, "2027-01") == {}


# ---- sums, over an office


def test_contributions_add_up_at_every_node_and_month(published: list[Published]) -> None:
    """To the change of the published levels, but for their rounding to millionths."""
    series, count = Series(published), 0
    contributions = Contributions(series)
    for month in series.months:
        for node, row in series.latest[month].rows.items():
            parts = contributions.below(month, node)
            bases = series.month_base(month, node), series.year_base(month, node)
            for base, own in zip(bases, ([part.to_month for part in parts], [part.to_year for part in parts])):
                terms = [Fraction(*it) for it in own if it is not None]
                if base and terms:
                    off = abs(sum(terms) - Fraction(100 * (row.chained - base), base))
                    assert off < Fraction(2 if node == "00" else 6, 10**6)
                    count += 1
    # 29 months but one have monthly contributions, 18 annual ones, at 8 to 10 nodes that have others below them
    assert count > 28 * 8 + 18 * 8


def test_a_month_against_a_revision_under_embargo_has_no_contributions(published: list[Published]) -> None:
    """The month after the one whose second revision isn't published was computed from that revision."""
    series = Series(published)
    contributions = Contributions(series)
    after = "2027-05"
    assert HIDDEN_REVISION == "2027-04" and contributions.unexplained == {(after, False)}
    given = [contributions.of(after, code, "00") for code in series.titles]
    assert {it.to_month for it in given} == {None} and any(it.to_year is not None for it in given)


def test_each_change_of_another_month_is_that_of_the_published_levels(published: list[Published]) -> None:
    series = Series(published)
    for month in series.months:
        for code, row in series.latest[month].rows.items():
            bases = series.month_base(month, code), series.year_base(month, code)
            for base, told in zip(bases, (row.month_change, row.year_change)):
                if told is not None and month != "2027-05":
                    assert base and abs(Fraction(1000 * (row.chained - base), base) - told) <= Fraction(1, 2)

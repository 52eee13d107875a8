"""What the report on a month says of aggregates without a match, and of series that are priced every third month."""

from __future__ import annotations

from pathlib import Path

import pytest

from cpi_tools.desk.month.response import is_quarterly, months_until
from cpi_tools.office.program import Cpi, record
from lib.offices import key_of, plan_with
from .ran import rows_of, run

MONTHS = ["2025-12", *(f"2026-{number:02}" for number in range(1, 13)), "2027-01", "2027-02"]
RICE, RENT, FRUIT, BREAD = "01.1.1.1-01", "04.1.1.1-01", "01.1.6.1-01", "01.1.1.3-01"
ITEMS = {"RICE": RICE, "RENT": RENT, "FRUIT": FRUIT, "BREAD": BREAD}
TITLES = {code[:end]: f"Node {code[:end]}" for code in ITEMS.values() for end in (2, 4, 6, 8, 11)}
WEIGHTS = {
    2026: {RICE: 400_000, RENT: 350_000, FRUIT: 250_000},
    2027: {RICE: 400_000, RENT: 350_000, FRUIT: 150_000, BREAD: 100_000},
}

SLOTS = {
    1: ("RICE", MONTHS),
    2: ("RICE", ["2025-12", "2026-03", "2026-04"]),
    3: ("RENT", MONTHS[::3]),
    4: ("RENT", [*MONTHS[:6:3], *MONTHS[9::3]]),
    5: ("FRUIT", [*MONTHS[:3], *MONTHS[6:]]),
    6: ("BREAD", ["2026-12"]),
}
"""By slot its item, and the months in which it is priced; it is missing in all others. Rice is there each month. Rents
are priced in December, March, June and so on, but one in June 2026 isn't. Fruit is missing from March to May 2026. Bread
is in the second plan only, and has no price after its December."""


def lived(cpi: Cpi, path: Path, until: str) -> None:
    """The office with the prices of a month and all before it, this one not frozen; slot 3 goes to another collector's
    slot 1 in August 2026. Month n is open from second 100n on, and published at 100n + 60."""
    rows = [record(0, "desk", "outlet", 1, "Shop"), record(0, "desk", "calendar", "2025-12", 0, 50, 60)]
    rows += [record(0, "desk", "item", item, item.title(), "1", 1, 10_000) for item in ITEMS]
    rows += [record(0, "desk", "collector", number, key_of(number)) for number in (1, 2)]
    for slot, (item, _) in SLOTS.items():
        rows.append(
            record(0, "desk", "assign", 1, slot, 1, item, "2026-12" if item == "BREAD" else "2025-12", "2027-12")
        )
    for year, weights in WEIGHTS.items():
        rows.append(record(0, "desk", "plan", year, plan_with({"00": "All", **TITLES}, weights, ITEMS)))
    for at, month in enumerate(MONTHS[: MONTHS.index(until) + 1]):
        rows.append(record(0, "desk", "calendar", month, 100 * at, 100 * at + 50, 100 * at + 60))
        rows += [record(100 * at, "desk", "handover", 1, 3, 2, 1, month)] if month == "2026-08" else []
        for slot, (_, priced) in SLOTS.items():
            key, own = (key_of(2), 1) if slot == 3 and month >= "2026-08" else (key_of(1), slot)
            rows += [record(100 * at, key, "quote", own, month, "price", 1000 + at)] if month in priced else []
        # (to list what has a match has no effect)
        codes = [] if at == 0 else WEIGHTS[int(month[:4])]
        rows += [record(100 * at + 50, "desk", "freeze", month, *codes)] if month != until else []
    refused = [reply for reply in cpi.replay(rows, db=path) if "refused" in reply]
    assert not refused


def reported(cpi: Cpi, tmp_path: Path, month: str) -> tuple[list[list[str]], list[list[str]]]:
    """The cells of both sections in the report on a month."""
    path, out = tmp_path / "office.db", tmp_path / "out"
    lived(cpi, path, month)
    at = 100 * MONTHS.index(month) + 50
    ran = run(cpi, "desk", "month", path, month, "--at", at, "--left-out", 0, "--out", out)
    assert (ran.status, ran.err) == (0, "")
    assert "\nNothing compared for three months\n" in ran.out and "\nPriced only every third month\n" in ran.out
    page = (out / "month.html").read_text(encoding="utf-8")
    assert 'href="#unmatched"' in page and 'id="quarterly"' in page
    unmatched, quarterly = (
        [[*row.values()] for row in rows_of(out / f"{name}.csv")] for name in ("unmatched", "quarterly")
    )
    return unmatched, quarterly


RENTS = [RENT, f"Node {RENT}", "350000", "2"]
FRUITS = [FRUIT, f"Node {FRUIT}", "250000", "1"]
FIRST = ["1/3", RENT, "Rent, 1", "Shop"]
SECOND = ["1/4", *FIRST[1:]]
HANDED = ["2/1", *FIRST[1:]]


def test_two_months_are_too_few(cpi: Cpi, tmp_path: Path) -> None:
    assert reported(cpi, tmp_path, "2026-02") == ([], [])


def test_rents_of_a_first_quarter(cpi: Cpi, tmp_path: Path) -> None:
    unmatched, quarterly = reported(cpi, tmp_path, "2026-03")
    assert unmatched == [[*RENTS, "2 silent", "2 silent", "2 price"]]
    # (rice of slot 2 was priced in December and in March, and goes on in April)
    rice = ["1/2", RICE, "Rice, 1", "Shop", "2025-12 2026-03", "2026-06"]
    assert quarterly == [rice, [*FIRST, "2025-12 2026-03", "2026-06"], [*SECOND, "2025-12 2026-03", "2026-06"]]


def test_an_aggregate_that_is_missing_for_three_months(cpi: Cpi, tmp_path: Path) -> None:
    """Fruit was matched in February last; in April that is two months ago, and in May three."""
    (tmp_path / "april").mkdir()
    assert [row[0] for row in reported(cpi, tmp_path / "april", "2026-04")[0]] == [RENT]
    unmatched, quarterly = reported(cpi, tmp_path, "2026-05")
    assert unmatched == [
        [*FRUITS, "1 silent", "1 silent", "1 silent"],
        [*RENTS, "2 price", "2 silent", "2 silent"],
    ]
    assert [row[0] for row in quarterly] == ["1/3", "1/4"]


def test_a_price_that_is_back_is_compared_a_month_later(cpi: Cpi, tmp_path: Path) -> None:
    """Fruit is back in June, and matched in July. One rent isn't priced in June, when it was due."""
    (tmp_path / "june").mkdir()
    unmatched, quarterly = reported(cpi, tmp_path / "june", "2026-06")
    assert unmatched[0] == [*FRUITS, "1 silent", "1 silent", "1 price"]
    assert quarterly == [[*FIRST, "2025-12 2026-03 2026-06", "2026-09"], [*SECOND, "2025-12 2026-03", "2026-06"]]
    assert [row[0] for row in reported(cpi, tmp_path, "2026-07")[0]] == [RENT]


def test_a_year_begins(cpi: Cpi, tmp_path: Path) -> None:
    """A series goes on with whoever has it; bread, which is new in the plan, can't have been without a match before."""
    unmatched, quarterly = reported(cpi, tmp_path, "2027-01")
    assert unmatched == [[*RENTS, "2 silent", "2 price", "2 silent"]]
    assert quarterly == [[*SECOND, "2026-09 2026-12", "2027-03"], [*HANDED, "2026-09 2026-12", "2027-03"]]


@pytest.mark.parametrize(
    "months, is_so",
    [
        ([], False),
        ([202603], False),
        ([202512, 202603], True),
        ([202511, 202602, 202605], True),
        ([202512, 202602], False),
        ([202511, 202602, 202603], False),
        ([202512, 202604], False),
    ],
)
def test_what_is_every_third_month(months: list[int], is_so: bool) -> None:
    assert is_quarterly(months) == is_so


def test_months_go_back_over_a_year() -> None:
    assert months_until(202602, 4) == [202602, 202601, 202512, 202511]

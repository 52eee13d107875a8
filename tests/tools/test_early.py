"""A table that comes out before a revision that it is computed from: the desk is warned, and what the warning says can
be computed from the table is computed here from its printed bytes."""

from __future__ import annotations

import csv
import io
from collections.abc import Callable
from datetime import datetime, timezone
from fractions import Fraction
from pathlib import Path
from typing import NamedTuple

import pytest

from . import surveys
from cpi_tools.desk.month.what_if import LINK, MONTH, WEIGHTS, YEAR, ways
from cpi_tools.office.program import LAST_MOMENT, Cpi, record
from .ran import run
from .surveys import DAY, MONTHS, bytes_of, closes, opens, publishes

Rows = dict[str, list[str]]
"""The rows of a table by their codes: code, weight in use, index, level, both changes, a flag, the title."""


class Case(NamedTuple):
    """A month with a revision under embargo, a later month whose table comes out a day before it, words of the warning,
    and for each node what the table says that the revision's level is, and by how much it may be off."""

    revised: str
    month: str
    words: str
    found: Callable[[list[str], Rows], tuple[Fraction, Fraction]]


def by_link(row: list[str], _: Rows) -> tuple[Fraction, Fraction]:
    return 100 * Fraction(row[3]) / Fraction(row[2]), Fraction(2, 10**6)


def by_change(at: int) -> Callable[[list[str], Rows], tuple[Fraction, Fraction]]:
    def found(row: list[str], _: Rows) -> tuple[Fraction, Fraction]:
        level = Fraction(row[3]) / (1 + Fraction(row[at]) / 100)
        return level, level * Fraction(51, 100_000)

    return found


def by_weights(row: list[str], december: Rows) -> tuple[Fraction, Fraction]:
    """The level of December over what prices did since, of which the weight in use is rounded to a millionth of all."""
    _, _, planned = surveys.AGGREGATES[row[0]]
    planned += 150_000 if row[0] == "01.1.6.1-01" else 0
    level = Fraction(december[row[0]][3]) * planned / Fraction(row[1])
    return level, level * Fraction(6, 10) / planned


CASES = {
    "December, January": Case("2026-12", "2027-01", "to within a millionth or two: 100 times the row's chained level", by_link),
    "December, February": Case("2026-12", "2027-02", "to within a millionth or two: 100 times the row's chained level", by_link),
    "a month": Case("2026-09", "2026-10", "to within about 0.05 percent: the row's chained level, divided by 1 plus its monthly",
                    by_change(4)),
    "a year": Case("2026-02", "2027-02", "to within about 0.05 percent: the row's chained level, divided by 1 plus its annual",
                   by_change(5)),
    "weights": Case("2026-06", "2027-01", "how the prices of each aggregate moved from that revision", by_weights),
}  # fmt: skip


def lived(cpi: Cpi, path: Path, case: Case) -> None:
    """The long office up to the later month's window, with the revision published a day after the later table."""
    with cpi.session(db=path) as session:
        life = surveys.Life(session, is_moved=True)
        life.begin()
        for month in MONTHS[: MONTHS.index(case.month) + 1]:
            life.live(month, month != case.month)
            if month == case.revised:
                revision = (opens(month), closes(month), publishes(case.month) + DAY)
                life.must(0, "desk", "calendar", month, *revision)
                place = next(it for it, code in life.slots.items() if code == "07.2.2.2-01")
                life.price(opens(month), surveys.key_of(place[0]), place, month, "price", life.last[place] * 3 // 2)
                life.freeze(month)


def table_of(cpi: Cpi, path: Path, month: str, at: int = LAST_MOMENT) -> Rows:
    """A month's latest table that is published at a moment."""
    text = cpi.table(path, month, "csv", at).decode()
    return {row[0]: row for row in csv.reader(io.StringIO(text, newline=""))}


def minute(moment: int) -> str:
    """`2026-01-25 09:00 UTC`."""
    return datetime.fromtimestamp(moment, timezone.utc).strftime("%Y-%m-%d %H:%M UTC")


@pytest.mark.parametrize("case", CASES.values(), ids=CASES)
def test_what_the_warning_says_can_be_computed(cpi: Cpi, tmp_path: Path, case: Case) -> None:
    path, month = tmp_path / "office.db", case.month
    lived(cpi, path, case)
    before = bytes_of(path)
    ran = run(cpi, "desk", "close", path, month, "--at", closes(month))
    revision = 3 if case.revised == surveys.REVISED else 2
    told = [line for line in ran.err.splitlines() if line.startswith("Warning: ")]
    begun = (
        f"Warning: The table of {month} is published at {minute(publishes(month))}, but revision {revision} of"
        f" {case.revised}, from which it is computed, only at {minute(publishes(month) + DAY)}. Until then, anyone"
    )
    (line,) = [line for line in told if line.startswith(begun)]
    assert case.words in line and line.endswith(f"Before {month} is frozen, set a later release time for it.")
    assert (ran.status, bytes_of(path)) == (0, before)
    assert cpi.replay([ran.out], db=path) == [{"done": True}]

    public, at_its_moment = table_of(cpi, path, month, publishes(month)), publishes(month)
    shown, hidden = (table_of(cpi, path, case.revised, at) for at in (at_its_moment, LAST_MOMENT))
    december = table_of(cpi, path, "2026-12") if case.found is by_weights else {}
    compared = 0
    for code, row in public.items():
        if code in hidden and row[5 if case.words.endswith("annual") else 4] and (not december or "-" in code):
            level, error = case.found(row, december)
            assert abs(level - Fraction(hidden[code][3])) <= error, code
            compared += 1
    assert compared >= 4
    fuel = case.found(public["07.2.2.2-01"], december)
    assert abs(fuel[0] - Fraction(shown["07.2.2.2-01"][3])) > 10 * fuel[1]


def test_of_two_ways_the_one_with_levels_is_told() -> None:
    """January 2027 by a plan whose reference month is a year before, and one whose reference month is December."""
    assert [*ways(202701, 202601).items()] == [(202601, YEAR), (202612, LINK)]
    assert [*ways(202701, 202612).items()] == [(202612, LINK), (202601, YEAR)]
    assert ways(202706, 202607) == {202607: WEIGHTS, 202606: YEAR, 202705: MONTH, 202612: LINK}
    assert ways(202712, None) == {202711: MONTH, 202612: LINK}


def test_a_revision_that_would_come_out_too_late_is_told_before_it_is_frozen(cpi: Cpi, tmp_path: Path) -> None:
    """January is to come out at its moment; December, reopened, a day later, at that moment, and a second before it."""
    path, out, january = tmp_path / "office.db", tmp_path / "out", publishes("2027-01")
    surveys.long(cpi, path, "2027-01")
    words = ("desk", "month", path, "2026-12", "--at", closes("2027-01"), "--left-out", 0, "--out", out)
    for moment, is_late in ((january + DAY, True), (january, False), (january - 1, False)):
        sent = record(0, "desk", "calendar", "2026-12", opens("2026-12"), closes("2026-12"), moment)
        assert cpi.replay([sent], db=path) == [{"done": True}]
        ran, closed = run(cpi, *words), run(cpi, "desk", "close", path, "2026-12", "--at", closes("2027-01"))
        warning = (
            f"Warning: The table of 2027-01 is published at {minute(january)}, but revision 2 of 2026-12, from which"
            f" it is computed, only at {minute(moment)}. Until then, anyone can compute each level of that"
        )
        remedy = "Before 2027-01 is frozen, set a later release time for it, or an earlier one for 2026-12."
        for text in (ran.out, closed.err):
            assert (warning in text and remedy in text) == is_late
        page = (out / "month.html").read_text(encoding="utf-8")
        assert (ran.status, closed.status, "<b>Warning:</b> The table of January 2027" in page) == (0, 0, is_late)


def test_a_frozen_month_says_what_has_come_out_too_early(cpi: Cpi, tmp_path: Path) -> None:
    path, case = tmp_path / "office.db", CASES["December, January"]
    lived(cpi, path, case)

    def text(month: str, at: int) -> str:
        words = ("desk", "month", path, month, "--at", at, "--left-out", 0, "--out", tmp_path / "out")
        ran = run(cpi, *words)
        assert ran.status == 0
        return ran.out

    late = publishes("2027-01") + DAY
    # (of two frozen months the later one can be moved as long as it isn't frozen)
    assert "Before 2027-01 is frozen, set a later release time for it.\n" in text("2026-12", closes("2027-01"))
    assert "Warning" not in text("2026-12", late)
    closed = run(cpi, "desk", "close", path, "2027-01", "--at", closes("2027-01"))
    assert cpi.replay([closed.out], db=path) == [{"done": True}]
    assert "Warning" not in text("2026-12", closes("2027-01"))
    told = text("2027-01", late - 1)
    assert "Warning: The table of 2027-01 is published" in told and "This can no longer be changed.\n" in told
    assert "Warning" not in text("2027-01", late)


def test_a_table_that_is_frozen_after_the_revision_is_out_tells_nothing(cpi: Cpi, tmp_path: Path) -> None:
    path, case = tmp_path / "office.db", CASES["December, January"]
    lived(cpi, path, case)
    for at, is_early in ((publishes("2027-01") + DAY - 1, True), (publishes("2027-01") + DAY, False)):
        assert ("Warning" in run(cpi, "desk", "close", path, "2027-01", "--at", at).err) == is_early


def test_what_if_says_by_when_a_revision_has_to_come_out(cpi: Cpi, tmp_path: Path) -> None:
    path = tmp_path / "office.db"
    surveys.long(cpi, path, "2026-10")
    words = ("desk", "what-if", path, "2026-09", "--at", closes("2026-10"), "--missing", "1/1")
    told = (
        f"A further revision of 2026-09 has to come out by {minute(publishes('2026-10'))}: from then on everybody can"
    )
    assert f"{told} compute from the table of 2026-10 each level of that revision, to about" in run(cpi, *words).out
    assert "A further revision" not in run(cpi, "desk", "what-if", path, "2026-10", *words[4:]).out


def test_the_first_month_has_no_levels_to_be_computed(cpi: Cpi, tmp_path: Path) -> None:
    """The first December again, to be published after January: neither has a row, so there is nothing to warn of."""
    path = tmp_path / "office.db"
    surveys.long(cpi, path, "2026-01")
    again = (opens("2025-12"), closes("2025-12"), publishes("2026-01") + DAY)
    sent = [record(0, "desk", "calendar", "2025-12", *again), record(closes("2026-01"), "desk", "freeze", "2025-12")]
    assert cpi.replay(sent, db=path) == [{"done": True}] * 2
    closed = run(cpi, "desk", "close", path, "2026-01", "--at", closes("2026-01"))
    assert closed.status == 0 and "Warning" not in closed.err

"""`cpi-tools desk`: what it says would happen is what happens, and the office's file stays as it was to the byte."""

from __future__ import annotations

import contextlib
import csv
import functools
import io
import math
import os
import random
import re
import sqlite3
import subprocess
from collections.abc import Iterator
from fractions import Fraction
from pathlib import Path

import pytest

from . import surveys
from cpi_tools.command_line import main
from cpi_tools.desk.month import unusual
from cpi_tools.office.price_rules import jevons
from cpi_tools.office.program import Cpi, record
from lib.places import ROOT
from lib.served import free_port
from .loads import served
from .ran import Ran, rows_of, run
from .surveys import bytes_of, closes, key_of, number_of, opens, publishes


@pytest.fixture
def small(cpi: Cpi, tmp_path: Path) -> Path:
    return surveys.small(cpi, tmp_path)


MONTHS = ["2026-01", "2026-03", "2026-12", "2027-01", "2027-02"]
"""A January, a month with a carry list, a December, the January with both, and a month that follows a link."""


Reported = tuple[str, Path, Path]


@pytest.fixture(scope="module", params=MONTHS)
def reported(request: pytest.FixtureRequest, cpi: Cpi, tmp_path_factory: pytest.TempPathFactory) -> Reported:
    """A month of the long office before its freeze, and the folder of the report on it."""
    folder, month = tmp_path_factory.mktemp("month"), str(request.param)
    path = folder / "office.db"
    surveys.long(cpi, path, month)
    ran = run(cpi, "desk", "month", path, month, "--at", closes(month), "--out", folder / "report")
    assert (ran.status, ran.err) == (0, "")
    return month, path, folder / "report"


def copied(path: Path, name: str = "again.db") -> Path:
    """The office once more, for a test to freeze; its log was put into the file."""
    again = path.with_name(name)
    again.write_bytes(path.read_bytes())
    again.with_name(f"{name}-wal").unlink(missing_ok=True)
    return again


@contextlib.contextmanager
def asked(path: Path) -> Iterator[sqlite3.Connection]:
    with contextlib.closing(sqlite3.connect(path)) as link:
        yield link


# ---- the provisional table


def test_the_provisional_table_is_the_one_that_is_published(cpi: Cpi, reported: Reported) -> None:
    month, path, report = reported
    before = bytes_of(path)
    closed = run(cpi, "desk", "close", path, month, "--at", closes(month))
    assert closed.status == 0 and closed.out.count("\n") == 1
    assert bytes_of(path) == before
    asks = record(publishes(month), "public", "table", month, "csv")
    done, table = cpi.replay([closed.out, asks], db=copied(path))
    assert done == {"done": True}
    assert table["table"].encode() == (report / "provisional.csv").read_bytes()


def test_contributions_add_up_to_the_change(reported: Reported) -> None:
    """What the divisions add, those that left too, is the change of the chained level of all items."""
    month, path, report = reported
    divisions = [row for row in rows_of(report / "table.csv") if len(row["code"]) == 2 and row["code"] != "00"]
    with (report / "provisional.csv").open(encoding="utf-8", newline="") as file:
        (now,) = [Fraction(row[3]) for row in csv.reader(file) if row[0] == "00"]
    number = number_of(month)
    before = {"adds, month": number - (89 if month.endswith("-01") else 1), "adds, year": number - 100}
    compared = 0
    for name, then in before.items():
        level = level_of(path, then)
        if level is not None:
            added = sum(Fraction(row[name] or 0) for row in divisions)
            assert abs(added - 100 * (now / level - 1)) <= Fraction(len(divisions), 2000) + Fraction(1, 1000), name
            compared += 1
    assert compared == (2 if month >= "2026-12" else 1)


def level_of(path: Path, month: int) -> Fraction | None:
    """The chained level of all items in a month: 100 in the first, None before it."""
    with asked(path) as link:
        text = "SELECT chained FROM level_2 WHERE month = ? AND code = '00' ORDER BY revision DESC"
        level = link.execute(text, (month,)).fetchone()
    if level:
        return Fraction(level[0], 10**6)
    return Fraction(100) if month == 202512 else None


def test_quotes_left_out_move_the_index_as_a_freeze_without_them(cpi: Cpi, reported: Reported) -> None:
    """Ten in all, two of each month, drawn from those that were left out: each alone in a copy of its own."""
    month, path, report = reported
    rows = rows_of(report / "influence.csv")
    assert len(rows) >= 5
    moved = [abs(Fraction(row["moves all items"])) for row in rows]
    assert moved == sorted(moved, reverse=True)
    for row in random.Random(number_of(month)).sample(rows, 2):
        indices = dict(surveys.levels_of(without(cpi, path, month, row["slot"])))
        assert indices["00"] == row["all items without"]


def without(cpi: Cpi, path: Path, month: str, place: str) -> str:
    """The table of a month with the quote of one slot missing, by the program."""
    collector, slot = map(int, place.split("/"))
    carry: list[str] = []
    with cpi.session(db=copied(path)) as session:
        sent = record(opens(month), key_of(collector), "quote", slot, month, "missing", "stock")
        assert "receipt" in session.ask(sent)
        while (reply := session.ask(record(closes(month), "desk", "freeze", month, *carry))) != {"done": True}:
            carry.append(reply["code"])
        table: str = session.ask(record(publishes(month), "public", "table", month, "csv"))["table"]
        return table


def test_the_quotes_that_are_left_out_are_those_of_the_greatest_effects(cpi: Cpi, tmp_path: Path) -> None:
    """All quotes of a month are left out, each alone: the six that are told are the six that move all items most."""
    path, month, out = tmp_path / "office.db", "2026-04", tmp_path / "report"
    surveys.long(cpi, path, month)
    assert run(cpi, "desk", "month", path, month, "--at", closes(month), "--out", out, "--left-out", 6).status == 0
    told = {row["slot"]: Fraction(row["moves all items"]) for row in rows_of(out / "influence.csv")}
    with asked(path) as link:
        text = "SELECT collector, slot FROM quote_2 WHERE month = 202604 AND mark IN ('price', 'comparable')"
        places = [f"{collector}/{slot}" for collector, slot in link.execute(text)]
    now = Fraction(dict(surveys.levels_of((out / "provisional.csv").read_text()))["00"])
    effects = {at: now - Fraction(dict(surveys.levels_of(without(cpi, path, month, at)))["00"]) for at in places}
    greatest = sorted(effects, key=lambda at: -abs(effects[at]))[:6]
    assert len(places) > 12 and [*told] == greatest
    assert told == {at: round(effects[at], 4) for at in greatest}


def test_a_month_with_few_revisions_left_takes_more_copies(
    cpi: Cpi, tmp_path: Path, monkeypatch: pytest.MonkeyPatch
) -> None:
    """Where a copy takes one freeze alone, each round of quotes has a copy of its own, and says the same."""
    path, month = tmp_path / "office.db", "2026-04"
    surveys.long(cpi, path, month)
    words = ("desk", "month", path, month, "--at", closes(month), "--left-out", 9, "--out")
    assert run(cpi, *words, tmp_path / "many").status == 0
    monkeypatch.setattr(unusual, "MOST_REVISIONS", 1)
    assert run(cpi, *words, tmp_path / "one").status == 0
    told, again = ((tmp_path / name / "influence.csv").read_bytes() for name in ("many", "one"))
    assert told == again and told.count(b"\n") == 10


def test_dutot_of_the_year_is_the_index(reported: Reported) -> None:
    """Beside the geometric mean stands the ratio of sums that the program published: the index within the year."""
    _, _, report = reported
    indices = dict(surveys.levels_of((report / "provisional.csv").read_text(encoding="utf-8")))
    rows = rows_of(report / "homogeneity.csv")
    assert len(rows) >= 5
    for row in rows:
        index = Fraction(indices[row["aggregate"]]) - 100
        assert abs(Fraction(row["Dutot, year"]) - index) <= Fraction(51, 10_000), row["aggregate"]
        assert abs(Fraction(row["gap, year"]) - Fraction(row["Dutot, year"]) + Fraction(row["Jevons, year"])) <= 0.02


# ---- the small office, by hand


def cells_of(out: Path, name: str) -> list[tuple[str, ...]]:
    """The cells of a section, row by row."""
    return [tuple(row.values()) for row in rows_of(out / f"{name}.csv")]


def test_the_small_office_by_hand(cpi: Cpi, small: Path, tmp_path: Path) -> None:
    """Rice of one shop and flour are missing. All items: 0.6 * 106.164091 + 0.4 * 105 = 105.698455, 1.5 percent more
    than 0.6 * 103.636364 + 0.4 * 105 = 104.181818.

    Rice: the missing 210 moves by 252 / 246, so it counts as 2,151,220 of 4,671,220 ticks; flour is imputed whole: by
    weight 0.6 * 2151220 / 4671220 + 0.4 = 67.6 percent. Of rice one of two slots is priced, of flour none: by the
    plan's weights 0.6 / 2 = 30 percent. Without the price of slot 8/1 nothing moves: 104.181818.
    """
    out = tmp_path / "out"
    ran = run(cpi, "desk", "month", small, "2026-02", "--at", 4000, "--out", out)
    assert (ran.status, ran.err) == (0, "")
    assert "As things stand, all items would be at 105.7: the monthly change would be 1.5 percent." in ran.out
    assert "comes from Food and drink: +1.456" in ran.out
    assert (out.stat().st_mode & 0o777, (out / "month.html").is_file()) == (0o700, True)
    cells = functools.partial(cells_of, out)
    assert cells("collectors") == [
        ("7", "2", "0", "0.0", "0", "0", "2", "0"),
        ("8", "1", "1", "100.0", "0", "0", "0", "0"),
    ]
    assert cells("outlets") == [
        ("10", "Corner shop", "2", "0", "0.0", "0", "0", "2", "0"),
        ("11", "Market hall", "1", "1", "100.0", "0", "0", "0", "0"),
    ]
    assert cells("divisions") == [("01", "Food and drink", "3", "1", "33.3", "0", "0", "2", "0", "30.0")]
    assert cells("missing") == [("01", "Food and drink", "1", "1", "0", "0", "2")]
    assert cells("imputed") == [("01", "Food and drink", "3", "2", "66.7", "1000000", "67.6")]
    assert cells("carry") == [("01.1.1.2-01", "Flour, wheat", "400000", "1", "1", "1 price", "1 closed")]
    assert cells("carry-series") == [
        ("7/2", "01.1.1.2-01", "Flour, <b>wheat</b>, 1 kg", "Corner shop", "price 84", "closed")
    ]
    place = ("8/1", "01.1.1.1-01", "Rice, 1 kg", "Market hall")
    assert cells("influence") == [(*place, "246", "252", "104.181818", "1.5166", "2.53", "carried")]
    assert cells("small") == [
        ("01.1.1.1-01", "Rice, packed", "600000", "2", "1", "1"),
        ("01.1.1.2-01", "Flour, wheat", "400000", "1", "0", "0"),
    ]
    jevons = 100 * (math.sqrt((2_151_220 / 2_000_000) * (2_520_000 / 2_400_000)) - 1)
    year = ("6.16", f"{jevons:.2f}", f"{100 * (4_671_220 / 4_400_000 - 1) - jevons:.2f}")
    month = ("2.44", "2.44", "0.00")
    assert cells("homogeneity")[0] == ("01.1.1.1-01", "Rice, packed", "2", "1", "1.2", *month, *year)


def test_few_outlets_are_as_few_series(cpi: Cpi, small: Path, tmp_path: Path) -> None:
    """Three shops' rice at two outlets: fewer than three of the one, and three of the other."""
    records = surveys.SMALL.partition("1000,desk,freeze,2025-12")
    begun = f"0,desk,assign,7,3,10,RICE,2025-12,2026-12\n10,{key_of(7)},quote,3,2025-12,price,220\n"
    sent = [records[0], begun, "".join(records[1:]), f"3500,{key_of(7)},quote,3,2026-02,price,231\n"]
    again = tmp_path / "again.db"
    assert not [reply for reply in cpi.replay(sent, db=again) if "refused" in reply]
    put = [record(3600, key_of(7), "quote", 1, "2026-02", "price", 210)]
    assert "receipt" in cpi.replay(put, db=again)[0]
    found = {}
    for least in (2, 3, 4):
        out = tmp_path / str(least)
        words = ("desk", "month", again, "2026-02", "--at", 4000, "--left-out", 0, "--small", least, "--out", out)
        assert run(cpi, *words).status == 0
        found[least] = [row for row in cells_of(out, "small") if row[0] == "01.1.1.1-01"]
    row = ("01.1.1.1-01", "Rice, packed", "600000", "3", "3", "2")
    assert found == {2: [], 3: [row], 4: [row]}


def test_prices_to_look_at_again(cpi: Cpi, small: Path, tmp_path: Path) -> None:
    sent = [record(3500, key_of(8), "quote", 1, "2026-02", "price", 2520, *more) for more in ([], ["confirm"])]
    assert cpi.replay(sent, db=small) == [{"high": 492, "last": 246, "low": 123, "refused": 26}, {"receipt": 4}]
    assert run(cpi, "desk", "month", small, "2026-02", "--at", 3600, "--out", tmp_path / "out").status == 0
    (row,) = rows_of(tmp_path / "out" / "outliers.csv")
    why = "confirmed, the only compared price in its aggregate"
    assert [*row.values()][4:] == ["246", "2520", "924.4", why]


def test_tukeys_fences_by_hand() -> None:
    """Of 0.90, 1.00 aside, 1.02, 1.04, 1.08: the middle is 1.01, the half middles 0.90 and 1.0466.., so the fences are
    1.01 - 2.5 * 0.11 = 0.735 and 1.01 + 2.5 * 0.03666.. = 1.101666... Of 40 ratios two fall away at each end."""
    fences = unusual.fences_of([10_400, 9_000, 10_800, 10_200])
    assert fences == (Fraction(7350), Fraction(10_100) + Fraction(5, 2) * Fraction(1100, 3))
    assert [fences.hold(it) for it in (7_349, 7_350, 11_016, 11_017)] == [False, True, True, False]
    assert unusual.fences_of([10_400, 9_000, 10_800]) is None
    many = [10_100] * 18 + [10_300] * 18
    assert unusual.fences_of([*many, 1, 2, 90_000, 90_001]) == (Fraction(9_950), Fraction(10_450))
    assert unusual.fences_of([*many, 1, 2, 90_001]) != (Fraction(9_950), Fraction(10_450))


def test_a_change_outside_the_fences_is_told(cpi: Cpi, tmp_path: Path) -> None:
    """Nineteen prices rise by 1.1 to 2.9 percent, one by 40, which its tolerance allows, and one doesn't change.

    Of the twenty ratios the least and the greatest fall away: the middle of 1.012 .. 1.029 is 1.0205, the half middles
    are 1.016 and 1.025, and the fences 1.0205 - 2.5 * 0.0045 = 1.00925 and 1.03175.
    """
    path, out, slots = tmp_path / "office.db", tmp_path / "out", range(1, 22)
    rows = [record(0, "desk", "item", "I", "Thing", "1", 500, 2000), record(0, "desk", "outlet", 1, "Shop")]
    rows += [record(0, "desk", "collector", 1, key_of(1))]
    rows += [record(0, "desk", "assign", 1, slot, 1, "I", "2025-12", "2026-12") for slot in slots]
    rows += [record(0, "desk", "calendar", "2025-12", 0, 10, 10), record(0, "desk", "calendar", "2026-01", 20, 30, 40)]
    titles = "".join(f"T,{code},N\n" for code in ("00", "01", "01.1", "01.1.1", "01.1.1.1", "01.1.1.1-01"))
    rows += [record(0, "desk", "plan", 2026, f"{titles}W,01.1.1.1-01,1000000\nI,I,01.1.1.1-01\n")]
    rows += [record(5, key_of(1), "quote", slot, "2025-12", "price", 1000) for slot in slots]
    rows += ["10,desk,freeze,2025-12"]
    prices = [*range(1011, 1030), 1400, 1000]
    rows += [record(25, key_of(1), "quote", slot, "2026-01", "price", price) for slot, price in zip(slots, prices)]
    assert not [reply for reply in cpi.replay(rows, db=path) if "refused" in reply]
    words = ("desk", "month", path, "2026-01", "--at", 30, "--out", out)
    assert run(cpi, *words).status == 0
    (row,) = rows_of(out / "outliers.csv")
    assert [row["slot"], row["percent"], row["why"]] == ["1/20", "40.0", "outside the fences of its aggregate"]
    # (half a distance away, 1.01825 and 1.02275: eight lie below, and seven and the one above)
    assert run(cpi, *words, "--width", 50).status == 0
    assert len(rows_of(out / "outliers.csv")) == 8 + 7 + 1


def test_geometric_means_are_those_of_logarithms() -> None:
    drawn = random.Random(7)
    for count in (1, 2, 3, 40):
        pairs = [(drawn.randrange(1, 10**9), drawn.randrange(1, 10**9)) for _ in range(count)]
        wanted = math.exp(math.fsum(math.log(now / then) for now, then in pairs) / count)
        assert jevons(pairs) / 10**8 == pytest.approx(wanted, rel=1e-7)
    assert jevons([(4, 1), (1, 1)]) == 2 * 10**8


def test_who_is_silent_missing_for_long_and_gone(cpi: Cpi, small: Path, tmp_path: Path) -> None:
    sent = [
        record(3600, key_of(7), "quote", 1, "2026-02", "missing", "closed"),
        record(3600, key_of(7), "quote", 2, "2026-02", "missing", "gone"),
        "4000,desk,freeze,2026-02,01.1.1.2-01",
        "0,desk,calendar,2026-03,4000,6000,7000",
        # (who begins in the month can't have been missing before it)
        "0,desk,assign,8,2,11,RICE,2026-03,2026-12",
    ]
    assert not [reply for reply in cpi.replay(sent, db=small) if "refused" in reply]
    ran = run(cpi, "desk", "month", small, "2026-03", "--at", 5000, "--out", tmp_path / "out")
    assert "2026-03 at 1970-01-01 01:23 UTC: the window is open until 1970-01-01 01:40 UTC" in ran.out
    assert [row["slot"] for row in rows_of(tmp_path / "out" / "silent.csv")] == ["7/1", "7/2", "8/1", "8/2"]
    long = rows_of(tmp_path / "out" / "long-missing.csv")
    assert [(row["slot"], row["now"], row["last priced"]) for row in long] == [
        ("7/1", "silent", "2026-01"),
        ("7/2", "silent", "2026-01"),
    ]
    assert [(row["slot"], row["sent for"]) for row in rows_of(tmp_path / "out" / "gone.csv")] == [("7/2", "2026-02")]


def test_replacements_with_their_scale(cpi: Cpi, small: Path, tmp_path: Path) -> None:
    """Flour of 84 goes, another of 168 comes: it counts as 840,000 ticks, so a minor unit as 5,000, half a price."""
    sent = [record(3600, key_of(7), "quote", 2, "2026-02", "other", 168)]
    assert cpi.replay(sent, db=small) == [{"receipt": 7}]
    assert run(cpi, "desk", "month", small, "2026-02", "--at", 4000, "--out", tmp_path / "out").status == 0
    (row,) = rows_of(tmp_path / "out" / "replacements.csv")
    assert [*row.values()][4:] == ["84", "other", "168", "0.5000"]
    # what replaces flour doesn't move it, so it counts as imputed: two of three series, by weight as without a price
    assert cells_of(tmp_path / "out", "imputed") == [("01", "Food and drink", "3", "2", "66.7", "1000000", "67.6")]


# ---- closing


def test_the_carry_list_is_the_one_that_refusals_name(cpi: Cpi, tmp_path: Path) -> None:
    for month in ("2026-03", "2027-01"):
        path = tmp_path / f"{month}.db"
        surveys.long(cpi, path, month)
        closed = run(cpi, "desk", "close", path, month, "--at", closes(month) + 5)
        life = surveys.long(cpi, tmp_path / f"{month}-frozen.db", surveys.MONTHS[surveys.MONTHS.index(month) + 1])
        assert closed.out == f"{closes(month) + 5},desk,freeze,{month},{','.join(life.carried[month])}\n"
        assert life.carried[month]


def test_what_is_decided_is_noted(cpi: Cpi, small: Path, monkeypatch: pytest.MonkeyPatch) -> None:
    words = ("desk", "close", small, "2026-02", "--at", 4000, "--by", "Ada")
    ran = run(cpi, *words)
    assert ran.out == "4000,desk,freeze,2026-02,01.1.1.2-01\n"
    assert "carried: 01.1.1.2-01 Flour, wheat; nothing to compare: 1 closed; decided by Ada\n" in ran.err
    assert "2026-02, revision 1: 8 rows, 1 of 3 slots priced, 1 aggregate carried\n" in ran.err
    assert "7/2   01.1.1.2-01  Flour, <b>wheat</b>, 1 kg  Corner shop  price 84      closed\n" in ran.err

    def answers(text: str) -> Ran:
        monkeypatch.setattr("sys.stdin", io.StringIO(text))
        return run(cpi, *words, "--carry", "ask")

    ran = answers("y the mill is shut\n")
    assert ran.out == "4000,desk,freeze,2026-02,01.1.1.2-01\n"
    assert "carried: 01.1.1.2-01 Flour, wheat; the mill is shut; decided by Ada\n" in ran.err
    for text, told in (("n\n", "01.1.1.2-01 isn't carried"), ("", "no answer: the input ended")):
        ran = answers(text)
        assert (ran.status, ran.out, told in ran.err) == (1, "", True)


def test_a_carry_list_that_is_given_is_all_of_it(cpi: Cpi, small: Path) -> None:
    words = ("desk", "close", small, "2026-02", "--at", 4000, "--carry")
    assert run(cpi, *words, "01.1.1.2-01").out == "4000,desk,freeze,2026-02,01.1.1.2-01\n"
    more = run(cpi, *words, "01.1.1.1-01,01.1.1.2-01")
    assert more.out == "4000,desk,freeze,2026-02,01.1.1.2-01\n"
    assert "not carried: 01.1.1.1-01; the freeze isn't refused for it\n" in more.err
    other = run(cpi, *words, "01.1.1.1-01")
    assert (other.status, other.out) == (1, "")
    assert "nothing can be compared in 01.1.1.2-01 either: name it too, or wait for a price" in other.err


def test_a_reopened_month_is_closed_as_its_next_revision(cpi: Cpi, tmp_path: Path) -> None:
    path, month = tmp_path / "office.db", surveys.REVISED
    surveys.long(cpi, path, "2026-10")
    window = (opens(month), closes(month), publishes(month) + 10 * surveys.DAY)
    assert cpi.replay([record(0, "desk", "calendar", month, *window)], db=path) == [{"done": True}]
    ran = run(cpi, "desk", "close", path, month, "--at", closes(month))
    assert ran.status == 0 and "2026-09, revision 3: " in ran.err
    ran = run(cpi, "desk", "month", path, month, "--at", closes(month), "--out", tmp_path / "out", "--left-out", 3)
    assert ran.status == 0 and "reopened after revision 2; the window closed" in ran.out
    assert len(rows_of(tmp_path / "out" / "influence.csv")) == 3


# ---- what if


RICE = "01.1.1.1-01  106.164091      2.4              111.219523               7.3                   Rice, packed"
"""264 for 252: the missing 210 moves by 264 / 246 to 2,253,659, so (2,253,659 + 2,640,000) / 4,400,000 = 111.219523."""


def test_what_if_shows_the_nodes_that_differ(cpi: Cpi, small: Path) -> None:
    words = ("desk", "what-if", small, "2026-02", "--at", 4000)
    ran = run(cpi, *words, "--price", "8/1=264")
    assert ran.status == 0 and RICE in ran.out and "01.1.1.2" not in ran.out.partition("carry list")[0]
    assert "None: the tables are the same." in run(cpi, *words, "--price", "8/1=252").out
    ran = run(cpi, *words, "--missing", "8/1")
    assert "carry list what if: 01.1.1.1-01 01.1.1.2-01\n" in ran.out
    assert "  00           105.698455      1.5              104.181818               0.0 " in ran.out
    spared = run(cpi, *words, "--price", "7/2=84")
    assert "carry list as it stands: 01.1.1.2-01\ncarry list what if: empty\n" in spared.out
    listed = run(cpi, *words, "--carry", "01.1.1.1-01")
    assert "carry list as it stands: 01.1.1.2-01\ncarry list what if: 01.1.1.1-01 01.1.1.2-01\n" in listed.out


def test_what_a_revision_would_change_is_tried_beforehand(cpi: Cpi, small: Path) -> None:
    assert cpi.replay(["4000,desk,freeze,2026-02,01.1.1.2-01"], db=small) == [{"done": True}]
    before = bytes_of(small)
    ran = run(cpi, "desk", "what-if", small, "2026-02", "--at", 6000, "--price", "8/1=264")
    assert ran.status == 0 and RICE in ran.out and bytes_of(small) == before
    older = run(cpi, "desk", "what-if", small, "2026-01", "--at", 6000, "--price", "8/1=264")
    assert (
        "calendar 2026-01 1000 2000 3001: refused by 50: this row can't reopen the frozen month: a later month is frozen too"
        in older.err
    )


def test_a_quote_that_cannot_be_is_told_without_its_key(cpi: Cpi, small: Path) -> None:
    words = ("desk", "what-if", small, "2026-02", "--at", 4000)
    unknown = run(cpi, *words, "--missing", "8/2")
    assert (unknown.status, unknown.out) == (1, "") and "nobody has slot 8/2: give COLLECTOR/SLOT" in unknown.err
    greatest = run(cpi, *words, "--price", "8/1=100000001")
    assert greatest.status == 1 and key_of(8) not in greatest.err
    assert "quote 1 2026-02 price 100000001 confirm: refused by 10: the record's form is wrong" in greatest.err


# ---- what can't be, and what is left alone


def test_what_cannot_be_frozen_is_told_in_words(cpi: Cpi, small: Path, tmp_path: Path) -> None:
    out = tmp_path / "out"
    unknown = run(cpi, "desk", "month", small, "2026-03", "--at", 1, "--out", out)
    assert unknown.err == (
        "cpi-tools desk month: 2026-03, by the calendar, which ends with 2026-02: refused by 21: the month has no"
        " calendar row; send that row, then this record again\n"
    )
    assert not out.exists()
    stands = run(cpi, "desk", "close", small, "2026-01", "--at", 4000)
    assert stands.err == "cpi-tools desk close: 2026-01 is frozen, revision 1: reopen it to freeze it again\n"
    early = run(cpi, "desk", "close", small, "2026-02", "--at", 3999)
    assert (early.status, early.out) == (1, "")
    assert "the window is open until 1970-01-01 01:06 UTC: ask for the record from then on" in early.err
    assert cpi.replay(["0,desk,calendar,2026-03,4000,6000,7000"], db=small) == [{"done": True}]
    ahead = run(cpi, "desk", "month", small, "2026-03", "--at", 7000, "--out", out)
    assert ahead.status == 1
    assert (
        "desk month: no provisional table: a freeze of 2026-03: refused by 46: the month is neither the last"
        in ahead.err
    )
    assert "Response by collector" in ahead.out and (out / "month.html").is_file()
    assert not (out / "provisional.csv").exists()


def test_a_folder_that_holds_other_files_is_left_alone(cpi: Cpi, small: Path, tmp_path: Path) -> None:
    out = tmp_path / "out"
    out.mkdir()
    (out / "mine.txt").write_text("mine")
    ran = run(cpi, "desk", "month", small, "2026-02", "--at", 4000, "--out", out)
    assert ran.status == 1 and "is there already, and isn't a folder that this tool wrote" in ran.err
    assert [path.name for path in out.iterdir()] == ["mine.txt"]


def test_a_file_that_is_no_office_is_one_line(cpi: Cpi, tmp_path: Path) -> None:
    none = run(cpi, "desk", "close", tmp_path / "none.db", "2026-02")
    assert none.err == f"cpi-tools desk close: {tmp_path}/none.db: No such file or directory\n"
    text = tmp_path / "text.db"
    text.write_text("no office, but a text that is longer than the head of a file of SQLite" * 20)
    ran = run(cpi, "desk", "close", text, "2026-02")
    assert ran.err == "cpi-tools desk close: text.db can't be read as an office: file is not a database\n"


def test_words_that_are_none_are_refused_by_status_2(cpi: Cpi, small: Path, capfd: pytest.CaptureFixture[str]) -> None:
    for words in (
        ("desk", "month", small, "2026-13", "--out", "x"),
        ("desk", "month", small, "2026-02"),
        ("desk", "close", small, "2026-02", "--carry", "some"),
        ("desk", "close", small, "2026-02", "--at", "yesterday"),
        ("desk", "what-if", small, "2026-02"),
        ("desk", "what-if", small, "2026-02", "--price", "8/1=0"),
        ("desk", "what-if", small, "2026-02", "--missing", "8"),
        ("desk",),
    ):
        with pytest.raises(SystemExit) as ended:
            run(cpi, *words)
        assert ended.value.code == 2


def test_a_frozen_month_is_reported_as_it_stands(cpi: Cpi, small: Path, tmp_path: Path) -> None:
    out = tmp_path / "out"
    ran = run(cpi, "desk", "month", small, "2026-01", "--at", 4000, "--out", out)
    assert ran.status == 0 and "All items are at 104.2: the monthly change is 4.2 percent." in ran.out
    assert "2026-01 at 1970-01-01 01:06 UTC: frozen, revision 1; release time 1970-01-01 00:50 UTC" in ran.out
    table = cpi.table(small, "2026-01", "csv", 3000)
    assert (out / "provisional.csv").read_bytes() == table


def test_the_first_december_has_no_table_and_no_plan(cpi: Cpi, tmp_path: Path) -> None:
    path, out = tmp_path / "office.db", tmp_path / "out"
    rows = [*surveys.SMALL.splitlines()[:10], record(10, key_of(7), "quote", 1, "2025-12", "price", 200)]
    assert cpi.replay(rows, db=path)[-1] == {"receipt": 1}
    ran = run(cpi, "desk", "month", path, "2025-12", "--at", 1000, "--out", out)
    assert ran.status == 0
    (row,) = rows_of(out / "divisions.csv")
    assert tuple(row.values()) == ("-", "no plan", "3", "1", "33.3", "0", "0", "0", "2", "")
    assert (out / "provisional.csv").read_bytes() == b""
    assert run(cpi, "desk", "close", path, "2025-12", "--at", 1000).out == "1000,desk,freeze,2025-12\n"


def test_the_file_is_left_alone_while_cpi_serves_it(cpi: Cpi, small: Path, tmp_path: Path) -> None:
    with served(cpi, small, free_port()):
        before = bytes_of(small)
        for words in (
            ("month", small, "2026-02", "--at", 4000, "--out", tmp_path / "out"),
            ("close", small, "2026-02", "--at", 4000),
            ("what-if", small, "2026-02", "--at", 4000, "--missing", "8/1"),
        ):
            assert run(cpi, "desk", *words).status == 0
        assert bytes_of(small) == before


def test_the_page_is_escaped_and_stands_alone(cpi: Cpi, small: Path, tmp_path: Path) -> None:
    assert run(cpi, "desk", "month", small, "2026-02", "--at", 4000, "--out", tmp_path / "out").status == 0
    text = (tmp_path / "out" / "month.html").read_text(encoding="utf-8")
    assert "Flour, &lt;b&gt;wheat&lt;/b&gt;" in text and "<b>wheat" not in text
    assert "http" not in text and "<script" not in text and "src=" not in text
    assert key_of(7) not in text and key_of(8) not in text
    same = (tmp_path / "out" / "month.html").read_bytes()
    assert run(cpi, "desk", "month", small, "2026-02", "--at", 4000, "--out", tmp_path / "out").status == 0
    assert (tmp_path / "out" / "month.html").read_bytes() == same


def test_each_help_has_an_example_and_narrow_lines(capsys: pytest.CaptureFixture[str]) -> None:
    for words in (["desk"], ["desk", "month"], ["desk", "close"], ["desk", "what-if"]):
        with pytest.raises(SystemExit):
            main([*words, "--help"])
        told = capsys.readouterr().out
        assert re.search(rf"^example: cpi-tools {' '.join(words)} .*\boffice\.db\b", told, re.M), told
        assert "exit status: 0" in told and not [line for line in told.splitlines() if len(line) > 100]


def test_who_reads_no_further_ends_the_tool_without_a_traceback(cpi: Cpi, small: Path) -> None:
    words = [str(ROOT / "cpi-tools"), "explain", str(small), "2026-01", "01.1.1.1-01"]
    reads, writes = os.pipe()
    os.close(reads)
    ran = subprocess.run(words, stdout=writes, stderr=subprocess.PIPE, text=True, check=False)
    os.close(writes)
    assert (ran.returncode, ran.stderr) == (1, "")

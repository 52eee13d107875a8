"""`cpi-tools next-year`: who leaves the sample, what is gone, which aggregates have few series, and a draft."""

from __future__ import annotations

import re
import sqlite3
from collections.abc import Iterator
from pathlib import Path

import pytest

from cpi_tools.office.program import Cpi, Session, record
from cpi_tools.office.stored import Release, stored_office
from .ran import Ran, rows_of, run
from .spreadsheets import replayed
from .test_take_in import sums

MONTHS = ["2025-12", *(f"2026-{month:02}" for month in range(1, 13))]
KEYS = {number: f"{number}" * 32 for number in (7, 8, 9)}
ITEMS = {"RICE": "01.1.1.1-01", "FLOUR": "01.1.1.2-01", "SALT": "01.1.1.3-01", "TEA": "01.2.1.1-01"}
UNPLACED = "OIL"
"""An item that is priced for no aggregate."""

WEIGHTS = {"RICE": 500_000, "FLOUR": 250_000, "SALT": 50_000, "TEA": 200_000}
TITLES = ["00", "01", "01.1", "01.1.1", "01.1.1.1", "01.1.1.1-01", "01.1.1.2", "01.1.1.2-01", "01.1.1.3", "01.1.1.3-01",
          "01.2", "01.2.1", "01.2.1.1", "01.2.1.1-01"]  # fmt: skip
SERIES = [
    (7, 1, 10, "RICE", "2025-12", "2027-12"),
    (7, 2, 11, "RICE", "2025-12", "2026-12"),
    (7, 3, 10, "FLOUR", "2025-12", "2026-12"),
    (7, 4, 10, "TEA", "2025-12", "2026-06"),
    (8, 1, 11, "FLOUR", "2025-12", "2027-12"),
    (8, 2, 10, "RICE", "2026-12", "2027-12"),
    (8, 3, 12, "RICE", "2026-12", "2027-12"),
    (8, 4, 12, "TEA", "2025-12", "2026-12"),
    (8, 5, 11, "SALT", "2025-12", "2026-06"),
    (8, 6, 11, "SALT", "2026-12", "2027-12"),
    (8, 7, 11, UNPLACED, "2026-12", "2027-12"),
    (8, 8, 12, "TEA", "2025-12", "2027-12"),
    (8, 9, 12, "FLOUR", "2025-12", "2027-12"),
    (7, 5, 12, "RICE", "2025-12", "2026-12"),
    (7, 6, 11, "FLOUR", "2025-12", "2027-12"),
]
"""One that stays, two that end in December, one that ended in June, one that is handed over, two new ones; one that is
handed over and ends in December, one that ended in June and its successor, and one of no aggregate; one that is gone
while it is handed over, and one whose shop is closed as long; a further one that ends, and one that stays."""

HANDED = {(8, 1): (9, 1), (8, 4): (9, 2), (8, 8): (9, 3)}
"""Slots that another has from November on."""


def plan() -> str:
    rows = [*(f"T,{code},Title of {code}" for code in TITLES), *(f"I,{item},{code}" for item, code in ITEMS.items())]
    return "\n".join([*rows, *(f"W,{ITEMS[item]},{weight}" for item, weight in WEIGHTS.items())])


def begun() -> Iterator[str]:
    """What is registered."""
    yield from (record(0, "desk", "item", item, f"Text of {item}", "1 kg", 500, 2000) for item in (*ITEMS, UNPLACED))
    yield from (record(0, "desk", "outlet", number, f"Shop {number}") for number in (10, 11, 12))
    yield from (record(0, "desk", "collector", *own) for own in KEYS.items())
    yield from (record(0, "desk", "assign", *own) for own in SERIES)
    yield record(0, "desk", "plan", 2026, plan())


def entry(slot: tuple[int, int], month: str) -> tuple[object, ...]:
    """The flour of one shop is gone from October on, and so is the tea of another, which is handed over meanwhile; the
    flour of a further one was gone twice; one was closed as long, and two new ones aren't priced."""
    if month >= "2026-10" and (slot in ((7, 3), (8, 8), (9, 3)) or (slot in ((8, 1), (9, 1)) and month < "2026-12")):
        return "missing", "gone"
    is_closed = slot in ((8, 3), (8, 6)) or (slot == (8, 9) and month >= "2026-10")
    return ("missing", "closed") if is_closed else ("price", 100)


def live(session: Session, month: str, is_frozen: bool) -> None:
    at = 1000 * (MONTHS.index(month) + 1)
    sent = [record(at, "desk", "calendar", month, at, at + 500, at + 900)]
    if month == "2026-11":
        sent += [record(at, "desk", "handover", *own, *to, month) for own, to in HANDED.items()]
    for collector, slot, _, _, first, last in SERIES:
        if first <= month <= last:
            own = HANDED.get((collector, slot), (collector, slot)) if month >= "2026-11" else (collector, slot)
            sent.append(record(at, KEYS[own[0]], "quote", own[1], month, *entry(own, month)))
    assert not [reply for reply in map(session.ask, sent) if "refused" in reply]
    carry: list[str] = []
    while is_frozen and (reply := session.ask(record(at + 500, "desk", "freeze", month, *carry))) != {"done": True}:
        carry.append(reply["code"])


@pytest.fixture(scope="module")
def december(cpi: Cpi, tmp_path_factory: pytest.TempPathFactory) -> Path:
    """An office whose December has its prices and isn't frozen yet."""
    file = tmp_path_factory.mktemp("december") / "office.db"
    with cpi.session(db=file) as session:
        assert not [reply for reply in map(session.ask, begun()) if "refused" in reply]
        for month in MONTHS:
            live(session, month, month != MONTHS[-1])
    return file


def slots(path: Path) -> list[tuple[str, str, str]]:
    return [(row["collector"], row["slot"], row["code"]) for row in rows_of(path)]


def test_the_lists(cpi: Cpi, december: Path, tmp_path: Path) -> None:
    before = sums(december)
    ran = run(cpi, "next-year", december, 2027, tmp_path / "next")
    assert sums(december) == before
    told = [
        "leave the sample of 2026: 6 of 11 series",
        "gone in 2026-10, 2026-11, 2026-12: 2 series",
        "fewer than 3 series in 2027 so far: 3 aggregates",
        f"go on in {tmp_path / 'next/draft'}: 3 series",
    ]
    assert ran == Ran(0, "".join(f"{line}\n" for line in told), "")
    rice, flour, salt, tea = ITEMS.values()
    of_seven = [("7", "2", rice), ("7", "3", flour), ("7", "4", tea), ("7", "5", rice)]
    assert slots(tmp_path / "next/leaving.csv") == [*of_seven, ("9", "2", tea), ("8", "5", salt)]
    december_too, another = "price it in December in the slot of the draft too", "look for another in its place"
    assert [[row[text] for text in ("last", "because", "do")] for row in rows_of(tmp_path / "next/leaving.csv")] == [
        ["2026-12", "its last month is 2026-12", december_too],
        ["2026-12", "its last month is 2026-12", another],
        ["2026-06", "its last month is 2026-06", another],
        ["2026-12", "its last month is 2026-12", december_too],
        ["2026-12", "its last month is 2026-12", december_too],
        ["2026-06", "its last month is 2026-06", another],
    ]
    because = "gone in 2026-10, 2026-11, 2026-12"
    again = "look for another in its place: the draft doesn't have it again"
    assert [[*row.values()] for row in rows_of(tmp_path / "next/gone.csv")] == [
        ["7", "3", "10", "Shop 10", "FLOUR", "Text of FLOUR", flour, "2026-12", because, again],
        ["9", "3", "12", "Shop 12", "TEA", "Text of TEA", tea, "2027-12", because, again],
    ]
    for path in [tmp_path / "next", *(tmp_path / "next").rglob("*")]:
        assert path.stat().st_mode & 0o077 == 0


def test_aggregates_with_few_series(cpi: Cpi, december: Path, tmp_path: Path) -> None:
    """Rice: that which stays and the new one that has a price, in one outlet; flour has three; salt: its new series has
    no price that it could begin with; tea: that which is gone."""
    assert run(cpi, "next-year", december, 2027, tmp_path / "next").status == 0
    rice, _, salt, tea = ITEMS.values()
    few = [
        [row[text] for text in ("code", "title", "series", "outlets", "drafted", "do")]
        for row in rows_of(tmp_path / "next/few-series.csv")
    ]
    price, assign = "price the draft's in December", "assign more, and price them in December"
    assert few == [
        [rice, f"Title of {rice}", "2", "1", "2", price],
        [salt, f"Title of {salt}", "0", "0", "0", assign],
        [tea, f"Title of {tea}", "1", "1", "1", assign],
    ]


def test_the_draft(cpi: Cpi, december: Path, tmp_path: Path) -> None:
    assert run(cpi, "next-year", december, 2027, tmp_path / "next").status == 0
    rice, flour, salt, tea = ITEMS.values()
    draft = tmp_path / "next/draft"
    assert [[*row.values()] for row in rows_of(draft / "series.csv")] == [
        ["7", "7", "11", "RICE", "2026-12", "2027-12"],
        ["7", "8", "12", "RICE", "2026-12", "2027-12"],
        ["9", "4", "12", "TEA", "2026-12", "2027-12"],
    ]
    weights = {row["code"]: row["weight"] for row in rows_of(draft / "classification.csv") if row["weight"]}
    assert weights == {rice: "500000", flour: "250000", salt: "50000", tea: "200000"}
    assert {row["year"] for row in rows_of(draft / "classification.csv")} == {"2027"}
    assert [[*row.values()] for row in rows_of(draft / "plans.csv")] == [["2027", ""]]
    assert [[*row.values()] for row in rows_of(draft / "places.csv")] == [
        ["2027", *place] for place in sorted(ITEMS.items())
    ]


def test_the_draft_is_taken_in_and_the_sample_is_what_was_told(cpi: Cpi, december: Path, tmp_path: Path) -> None:
    """The draft without salt and tea, whose weights rice has; January is then frozen by the office itself."""
    office = tmp_path / "office.db"
    office.write_bytes(december.read_bytes())
    assert run(cpi, "next-year", office, 2027, tmp_path / "next").status == 0
    draft = tmp_path / "next/draft"
    assert run(cpi, "take-in", draft, "--onto", office, "--check").status == 0
    for name in ("classification", "places"):
        text = (draft / f"{name}.csv").read_text(encoding="utf-8").replace("500000", "750000")
        kept = [line for line in text.splitlines() if "01.2" not in line and "01.1.1.3" not in line]
        (draft / f"{name}.csv").write_text("\n".join(kept), encoding="utf-8")
    assert run(cpi, "take-in", draft, "--onto", office, "--write", tmp_path / "records").status == 0
    replayed(cpi, tmp_path / "records", office)
    sent = [
        record(13_001, KEYS[7], "quote", 7, "2026-12", "price", 100),
        record(20_000, "desk", "freeze", "2026-12", ITEMS["SALT"], ITEMS["TEA"]),
        record(0, "desk", "calendar", "2027-01", 20_000, 20_001, 20_002),
        record(30_000, "desk", "freeze", "2027-01", ITEMS["RICE"], ITEMS["FLOUR"]),
    ]
    assert [reply for reply in cpi.replay(sent, db=office) if "refused" in reply] == []
    with stored_office(office) as stored:
        sample = {series for series in stored.read_carried(Release(202701, 1, ()))}
    assert sample == {(7, 1), (7, 6), (7, 7), (8, 1), (8, 2), (8, 9)}
    ran = run(cpi, "next-year", office, 2027, tmp_path / "late")
    assert ran == Ran(1, "", "cpi-tools next-year: 2027-01 is frozen, so 2027 has begun: name a later year\n")


def test_a_collector_whose_slots_are_used_up_has_a_new_number(cpi: Cpi, december: Path, tmp_path: Path) -> None:
    office = tmp_path / "office.db"
    office.write_bytes(december.read_bytes())
    sent = [record(0, "desk", "assign", 7, slot, 12, "TEA", "2026-12", "2026-12") for slot in (399, 400)]
    # (who has a number has it also without any slot)
    sent.append(record(0, "desk", "collector", 12, "c" * 32))
    assert not [reply for reply in cpi.replay(sent, db=office) if "refused" in reply]
    ran = run(cpi, "next-year", office, 2027, tmp_path / "next")
    assert ran.out.splitlines()[4:] == [
        "collector 7 has no slot left, and is 13 in the draft, with a key that take-in draws"
    ]
    draft = tmp_path / "next/draft"
    assert [[*row.values()] for row in rows_of(draft / "series.csv")] == [
        ["13", "1", "11", "RICE", "2026-12", "2027-12"],
        ["13", "2", "12", "RICE", "2026-12", "2027-12"],
        ["9", "4", "12", "TEA", "2026-12", "2027-12"],
    ]
    assert run(cpi, "take-in", draft, "--onto", office, "--write", tmp_path / "records").status == 0
    assert [row["collector"] for row in rows_of(tmp_path / "records/keys.csv")] == ["13"]


def test_a_plan_that_stands_for_the_year(cpi: Cpi, december: Path, tmp_path: Path) -> None:
    """It is drafted on: without tea, which isn't priced on, and with a new series of salt where flour was. Of the year
    that runs the plan of that year tells."""
    office = tmp_path / "office.db"
    office.write_bytes(december.read_bytes())
    rice, flour, salt, tea = ITEMS.values()
    rows = [line for line in plan().splitlines() if "TEA" not in line and tea[:4] not in line]
    moved = "\n".join(rows).replace(f"I,SALT,{salt}", f"I,SALT,{flour}").replace(f"W,{rice},500000", f"W,{rice},750000")
    kept = "\n".join(line for line in moved.splitlines() if salt[:8] not in line)
    sent = [
        record(12_500, "desk", "plan", 2027, kept),
        record(0, "desk", "calendar", "2027-01", 13_000, 13_500, 13_900),
        record(13_001, KEYS[7], "quote", 1, "2027-01", "price", 100),
        record(13_001, KEYS[8], "quote", 9, "2027-01", "price", 100),
    ]
    assert [reply for reply in cpi.replay(sent, db=office) if "refused" in reply] == []
    assert run(cpi, "next-year", office, 2027, tmp_path / "next").status == 0
    draft = tmp_path / "next/draft"
    # (salt, which was its own aggregate in the year that runs, stands among those that leave by its code of then)
    assert ("8", "5", salt) in slots(tmp_path / "next/leaving.csv")
    assert [row["item"] for row in rows_of(draft / "series.csv")] == ["RICE", "RICE"]
    tea_row = next(row for row in rows_of(tmp_path / "next/leaving.csv") if row["slot"] == "2" and row["code"] == tea)
    assert tea_row["do"] == "look for another in its place"
    assert {row["code"] for row in rows_of(tmp_path / "next/few-series.csv")} <= {rice, flour}
    weights = {row["code"]: row["weight"] for row in rows_of(draft / "classification.csv") if row["weight"]}
    assert weights == {rice: "750000", flour: "250000"}
    # (what was quoted for January already is none of the last months)
    assert slots(tmp_path / "next/gone.csv") == [("7", "3", flour), ("9", "3", "")]
    # (two years on the sample is still that of the year that runs)
    assert run(cpi, "next-year", office, 2028, tmp_path / "later").status == 0
    assert ("8", "5", salt) in slots(tmp_path / "later/leaving.csv")


@pytest.mark.parametrize(
    ("year", "told"),
    [
        (2026, "2026-11 is frozen, so 2026 has begun: name a later year"),
        (2029, "there is no plan of 2028 that one of 2029 could be drafted from"),
    ],
)
def test_a_year_that_is_not_the_next(cpi: Cpi, december: Path, tmp_path: Path, year: int, told: str) -> None:
    ran = run(cpi, "next-year", december, year, tmp_path / "next")
    assert ran == Ran(1, "", f"cpi-tools next-year: {told}\n")
    assert [*tmp_path.iterdir()] == []


def test_an_office_without_a_frozen_month(cpi: Cpi, tmp_path: Path) -> None:
    file = tmp_path / "office.db"
    cpi.replay(begun(), db=file)
    ran = run(cpi, "next-year", file, 2027, tmp_path / "next")
    assert ran == Ran(1, "", "cpi-tools next-year: no month is frozen yet\n")


def test_a_folder_that_is_there_stays(cpi: Cpi, december: Path, tmp_path: Path) -> None:
    (tmp_path / "next").mkdir()
    ran = run(cpi, "next-year", december, 2027, tmp_path / "next")
    told = f"cpi-tools next-year: {tmp_path / 'next'} is there already: name a folder that isn't\n"
    assert ran == Ran(1, "", told)
    assert [*tmp_path.rglob("*")] == [tmp_path / "next"]


def test_a_file_that_is_no_office(cpi: Cpi, tmp_path: Path) -> None:
    """It is told by the program, which opens a copy first."""
    file = tmp_path / "other.db"
    with sqlite3.connect(file) as other:
        other.execute("CREATE TABLE plan (year INTEGER)")
    ran = run(cpi, "next-year", file, 2027, tmp_path / "next")
    assert (ran.status, ran.out) == (1, "")
    assert re.fullmatch(f"cpi-tools next-year: {file}: cpi: database failed.*\n", ran.err), ran.err


def test_a_year_between_that_can_not_begin(cpi: Cpi, december: Path, tmp_path: Path) -> None:
    """The plan of 2027 has salt, whose one series has no price that it could begin with."""
    office = tmp_path / "office.db"
    office.write_bytes(december.read_bytes())
    assert cpi.replay([record(0, "desk", "plan", 2027, plan())], db=office) == [{"done": True}]
    ran = run(cpi, "next-year", office, 2028, tmp_path / "next")
    told = f"2027-01 can't be frozen on a copy: {ITEMS['SALT']} has no series in its sample"
    assert ran == Ran(1, "", f"cpi-tools next-year: {told}\n")

"""`cpi-tools gaps NEW --office OLD`: what only the old file of an office has comes out as rows to send, and once they are
sent nothing is missing any more."""

from __future__ import annotations

import csv
import io
import shutil
import stat
from collections.abc import Iterable, Sequence
from pathlib import Path

import pytest

from cpi_tools.office.copying import log_beside
from cpi_tools.guard.gaps_of_offices import Entry, last_common
from cpi_tools.office.program import Cpi, Reply, record
from .offices import KEY, LOAD_COLLECTOR, LOAD_KEY, LOAD_MONTH, OTHER_KEY
from .ran import Ran, rows_of, run

NEW_KEY = "e" * 32
MONTH, OPENS, CLOSES = "2026-03", 20_000, 20_500
"""The month after the last one of the office, and when its window opens and closes."""

RECORDS = [
    ["item", "TEA", "Tea, green", "100 g", "400", "2500"],
    ["outlet", "3", 'Shop "Three", harbour'],
    ["collector", "10", NEW_KEY],
    ["assign", "10", "1", "3", "TEA", "2026-03", "2026-12"],
    ["plan", "2027", 'T,00,All items\nT,01,"Food, drink"\nW,01.1.1.1-01,1000000\nI,RICE,01.1.1.1-01\n'],
    ["handover", "1", "5", "2", "9", MONTH],
    ["calendar", MONTH, str(OPENS), str(CLOSES), "20900"],
]
"""What the desk sends after the copy was made, in the order in which it comes out."""

PLAN = "T,00,All items\nT,01,Food\nT,01.1,Food\nT,01.1.1,Cereals\nT,01.1.1.1,Rice\nT,01.1.1.1-01,Rice\n"
RECORDS[4][2] = f"{PLAN}W,01.1.1.1-01,1000000\nI,RICE,01.1.1.1-01\n"

FREEZE = ["freeze", MONTH]


@pytest.fixture
def two(cpi: Cpi, office: Path, tmp_path: Path) -> tuple[Path, Path]:
    """The file of a first machine, and that of a second one, which was a copy of it."""
    done(cpi, office, 60, LOAD_KEY, [["quote", str(slot), LOAD_MONTH, "price", "500"] for slot in (1, 2, 3)])
    old, new = tmp_path / "first/office.db", tmp_path / "second/office.db"
    for path in (old, new):
        path.parent.mkdir()
        shutil.copy(office, path)
    return old, new


def done(cpi: Cpi, office: Path, at: int, by: str, rows: Iterable[Sequence[str]]) -> list[Reply]:
    """The replies to records of a caller; none is refused."""
    replies = cpi.replay([record(at, by, *row) for row in rows], db=office)
    assert [reply for reply in replies if "refused" in reply] == []
    return replies


def prices() -> dict[str, list[list[str]]]:
    """Forty prices by their keys: of each series in the month after, and of the other collector, of which one was put
    right."""
    month = {
        KEY: [["quote", str(slot), MONTH, "price", str(3000 + slot)] for slot in (1, 2, 4, 6, 7)],
        OTHER_KEY: [["quote", "1", MONTH, "missing", "stock"], ["quote", "9", MONTH, "other", "812"]],
        NEW_KEY: [["quote", "1", MONTH, "price", "77"]],
    }
    return {**month, LOAD_KEY: [["quote", str(slot), LOAD_MONTH, "price", str(600 + slot)] for slot in range(3, 35)]}


NUMBERS = {KEY: "1", OTHER_KEY: "2", LOAD_KEY: str(LOAD_COLLECTOR), NEW_KEY: "10"}


def split(cpi: Cpi, old: Path) -> None:
    """The first machine goes on by itself."""
    done(cpi, old, OPENS, "desk", RECORDS)
    for key, rows in prices().items():
        assert len(done(cpi, old, OPENS + 1, key, ([*row, "confirm"] for row in rows))) == len(rows)
    done(cpi, old, CLOSES, "desk", [FREEZE])


def gaps(cpi: Cpi, new: Path, old: Path, *words: object) -> Ran:
    return run(cpi, "gaps", new, "--office", old, *words)


def rows_in(text: str) -> list[list[str]]:
    return [*csv.reader(io.StringIO(text, newline=""))]


def as_sent(row: list[str]) -> list[str]:
    """A price as it is to be sent: what was accepted once is confirmed."""
    return [*row, "confirm"] if row[3] == "price" else row


def imported(cpi: Cpi, office: Path, at: int, by: str, file: Path) -> None:
    """A file is sent as one import, and each of its rows is taken."""
    (reply,) = cpi.replay([record(at, by, "import", file.read_text())], db=office)
    assert reply["rows"] and [row for row in reply["rows"] if "refused" in row] == []


def test_what_only_the_old_file_has_comes_out_and_can_be_sent(cpi: Cpi, two: tuple[Path, Path]) -> None:
    old, new = two
    split(cpi, old)
    before = [path.read_bytes() for path in two]
    ran = gaps(cpi, new, old)
    sent = [[NUMBERS[key], *as_sent(row)] for key, rows in prices().items() for row in rows]
    assert sum(map(len, prices().values())) == 40
    wanted = [["desk", *row] for row in RECORDS] + sorted(sent, key=lambda row: (int(row[0]), int(row[2])))
    assert rows_in(ran.out) == [*wanted, ["desk", *FREEZE]]
    assert ran.status == 3 and ran.err.splitlines() == [
        f"cpi-tools gaps: quote 9/3 {LOAD_MONTH} is later in the old file: old price 603, receipt 4; new price 500,"
        " receipt 3",
        "cpi-tools gaps: the rows of new collectors have their keys",
        f"cpi-tools gaps: {new} lacks 7 records, 40 prices of 4 collectors, 1 freeze of {old}",
    ]
    assert [path.read_bytes() for path in two] == before

    folder = new.parent / "missing"
    assert gaps(cpi, new, old, "--to", folder).out == ""
    names = ["1-desk.csv", *(f"2-collector-{number}.csv" for number in (1, 10, 2, 9)), "3-freezes.csv", "prices.csv"]
    assert sorted(path.name for path in folder.iterdir()) == names
    assert {stat.S_IMODE(path.stat().st_mode) for path in folder.iterdir()} == {0o600}
    listed = rows_of(folder / "prices.csv")
    assert len(listed) == 40 and [*listed[0]] == "collector slot month mark value receipt because".split()
    imported(cpi, new, OPENS, "desk", folder / "1-desk.csv")
    for key, number in NUMBERS.items():
        imported(cpi, new, OPENS + 1, key, folder / f"2-collector-{number}.csv")
    imported(cpi, new, CLOSES, "desk", folder / "3-freezes.csv")
    assert gaps(cpi, new, old) == (0, "", f"cpi-tools gaps: {new} lacks nothing of {old}\n")


def test_the_lists_are_those_of_the_other_ways(cpi: Cpi, two: tuple[Path, Path]) -> None:
    """`--receipts` and `--records` find the same rows missing, and afterwards none."""
    old, new = two
    split(cpi, old)
    folder = new.parent / "missing"
    gaps(cpi, new, old, "--to", folder)
    assert len(rows_in(run(cpi, "gaps", new, "--receipts", folder / "prices.csv").out)) == 41
    for name in ("1-desk.csv", "3-freezes.csv"):
        assert run(cpi, "gaps", new, "--records", folder / name).out == (folder / name).read_text()
        assert run(cpi, "gaps", old, "--records", folder / name).status == 0
    assert run(cpi, "gaps", old, "--receipts", folder / "prices.csv").status == 0


def quote(slot: int, price: int) -> list[str]:
    return ["quote", str(slot), LOAD_MONTH, "price", str(price), "confirm"]


def test_both_took_prices_and_what_differs_is_named(cpi: Cpi, two: tuple[Path, Path]) -> None:
    """Slot 1 was put right by the new file only, slot 2 by the old one only, slot 3 by both; slot 4 is new in both, and
    slot 5 was sent again to the new one; 6 and 7 are each one's own."""
    old, new = two
    done(cpi, old, 70, LOAD_KEY, [quote(2, 520), quote(3, 530), quote(4, 540), quote(5, 550), quote(6, 560)])
    done(cpi, new, 70, LOAD_KEY, [quote(5, 550), quote(7, 570), quote(1, 511), quote(3, 533), quote(4, 544)])
    ran = gaps(cpi, new, old, "--to", new.parent / "missing")
    assert ran.status == 3 and ran.err.splitlines() == [
        f"cpi-tools gaps: quote 9/3 {LOAD_MONTH} differs, so a person decides: old price 530, receipt 5; new price 533,"
        " receipt 7",
        f"cpi-tools gaps: quote 9/4 {LOAD_MONTH} differs, so a person decides: old price 540, receipt 6; new price 544,"
        " receipt 8",
        f"cpi-tools gaps: quote 9/2 {LOAD_MONTH} is later in the old file: old price 520, receipt 4; new price 500,"
        " receipt 2",
        f"cpi-tools gaps: {new} lacks 2 prices of 1 collector of {old}; 2 differ; 1 price put right since",
    ]
    files = sorted(path.name for path in (new.parent / "missing").iterdir())
    assert files == ["2-collector-9.csv", "different.csv", "prices.csv"]
    assert rows_in((new.parent / "missing/2-collector-9.csv").read_text()) == [quote(2, 520), quote(6, 560)]
    rows = rows_of(new.parent / "missing/different.csv")
    assert [row["record"] for row in rows] == [f"quote 9/{slot} {LOAD_MONTH}" for slot in (3, 4)]


def test_the_last_common_receipt_is_the_greatest_that_all_differences_leave() -> None:
    one = {(1, slot, 202601): Entry("price", "5", slot) for slot in (1, 2, 3)}
    assert last_common(one, one) == {}
    assert last_common({**one, (1, 9, 202601): Entry("price", "5", 4)}, one) == {1: 3}
    assert last_common({**one, (1, 1, 202601): Entry("price", "6", 7)}, one) == {1: 6}
    other = {**one, (1, 1, 202601): Entry("price", "6", 5), (2, 1, 202601): Entry("price", "6", 9)}
    assert last_common({**one, (1, 2, 202601): Entry("price", "7", 4)}, other) == {1: 3, 2: 8}


def test_records_that_both_have_and_that_differ_are_named_and_not_sent(cpi: Cpi, two: tuple[Path, Path]) -> None:
    """A window that the new file opened again would be closed by the old row."""
    old, new = two
    plan = [*RECORDS[4][:2], RECORDS[4][2].replace("Food", "Bread")]
    mine = [*RECORDS[:3], RECORDS[3], RECORDS[4], RECORDS[5], RECORDS[6]]
    theirs = [
        ["item", "TEA", "Tea", "1 kg", "400", "2500"],
        ["outlet", "3", "Kiosk"],
        ["collector", "10", "d" * 32],
        ["assign", "1", "10", "1", "RICE", MONTH, "2026-12"],
        ["handover", "1", "5", "2", "8", MONTH],
        plan,
        ["calendar", MONTH, str(OPENS), str(CLOSES + 9), "20900"],
    ]
    done(cpi, old, OPENS, "desk", [*mine, ["assign", "1", "10", "1", "TEA", MONTH, "2026-12"]])
    done(cpi, new, OPENS, "desk", theirs)
    # (a number that is another person's, and a slot that is another series')
    done(cpi, old, OPENS + 1, NEW_KEY, [["quote", "1", MONTH, "price", "77", "confirm"]])
    done(
        cpi,
        old,
        OPENS + 1,
        KEY,
        [["quote", "10", MONTH, "price", "88"], ["quote", "1", MONTH, "price", "1300", "confirm"]],
    )
    ran = gaps(cpi, new, old)
    assert rows_in(ran.out) == [["1", "quote", "1", MONTH, "price", "1300", "confirm"]]
    told = [
        line.removeprefix("cpi-tools gaps: ").partition(" differs, so a person decides: ")
        for line in ran.err.splitlines()
    ]
    assert {what: rest for what, between, rest in told if between} == {
        "item TEA": "old Tea, green,100 g,400,2500; new Tea,1 kg,400,2500",
        "outlet 3": 'old Shop "Three", harbour; new Kiosk',
        "collector 10": "old its key; new this number is another collector",
        "assign 10/1": f"old 3,TEA,{MONTH},2026-12; new this number is another collector",
        "assign 1/10": f"old 1,TEA,{MONTH},2026-12; new 1,RICE,{MONTH},2026-12",
        "plan 2027": "old 8 rows; new 8 rows",
        "handover 1/5": f"old 2,9,{MONTH}; new 2,8,{MONTH}",
        f"calendar {MONTH}": f"old {OPENS},{CLOSES},20900; new {OPENS},{CLOSES + 9},20900",
        f"quote 10/1 {MONTH}": "old price 77, receipt 1; new this number is another collector",
        f"quote 1/10 {MONTH}": "old price 88, receipt 114; new this slot prices another item or outlet",
    }
    assert NEW_KEY not in ran.err + ran.out and "d" * 32 not in ran.err + ran.out


def test_a_month_that_both_froze_is_named_if_its_table_differs(cpi: Cpi, two: tuple[Path, Path]) -> None:
    old, new = two
    for path, price in ((old, 3000), (new, 3300)):
        done(cpi, path, OPENS, "desk", [["calendar", MONTH, str(OPENS), str(CLOSES), "20900"]])
        rows = [["quote", str(slot), MONTH, "price", str(price), "confirm"] for slot in (1, 2, 4, 5, 6, 7, 8)]
        done(cpi, path, OPENS + 1, KEY, rows)
        done(cpi, path, CLOSES, "desk", [FREEZE])
    assert (
        f"freeze {MONTH} revision 1 differs, so a person decides: old its table; new another table"
        in gaps(cpi, new, old).err
    )
    assert gaps(cpi, old, old) == (0, "", f"cpi-tools gaps: {old} lacks nothing of {old}\n")


def test_an_old_file_that_was_put_aside_is_read_with_its_log(cpi: Cpi, two: tuple[Path, Path], tmp_path: Path) -> None:
    """The office was killed: the last prices are only in its log."""
    old, new = two
    aside = tmp_path / "aside"
    aside.mkdir()
    with cpi.session(old) as session:
        assert session.ask(record(70, LOAD_KEY, *quote(7, 570)).rstrip()) == {"receipt": 4}
        for path in (old, log_beside(old)):
            shutil.copy(path, aside)
    before = {path.name: path.read_bytes() for path in aside.iterdir()}
    ran = gaps(cpi, new, aside / "office.db")
    assert rows_in(ran.out) == [[str(LOAD_COLLECTOR), *quote(7, 570)]]
    assert {path.name: path.read_bytes() for path in aside.iterdir()} == before
    # without the log nothing would be missing; with that of another file nobody may read it
    log_beside(aside / "office.db").unlink()
    assert gaps(cpi, new, aside / "office.db").status == 0


def test_what_can_not_be_compared_is_one_line(cpi: Cpi, two: tuple[Path, Path], tmp_path: Path) -> None:
    old, new = two
    other = tmp_path / "other.db"
    done(cpi, other, 0, "desk", [["collector", "1", "9" * 32]])
    (tmp_path / "text.db").write_text("no office")
    (tmp_path / "there").mkdir()
    done(cpi, old, 70, LOAD_KEY, [quote(7, 570)])
    for words, told in (
        ((new, other), "they are of two offices: no collector has the same key in both"),
        ((new, tmp_path / "nothing.db"), f"{tmp_path / 'nothing.db'}: No such file or directory"),
        ((new, tmp_path / "text.db"), f"{tmp_path / 'text.db'}: "),
        ((new, old, "--to", tmp_path / "there"), f"{tmp_path / 'there'} is there already: name a folder that isn't"),
    ):
        ran = gaps(cpi, *words)  # type: ignore[arg-type]
        assert (ran.status, ran.out, ran.err.count("\n")) == (1, "", 1)
        assert ran.err.startswith(f"cpi-tools gaps: {told}")
    with pytest.raises(SystemExit):
        run(cpi, "gaps", new, "--records", other, "--to", tmp_path / "x")


def test_an_empty_office_lacks_all(cpi: Cpi, two: tuple[Path, Path]) -> None:
    """The file was lost, and made anew."""
    old, new = two
    new.unlink()
    assert cpi.replay([], db=new) == []
    ran = gaps(cpi, new, old)
    words = [row[1] for row in rows_in(ran.out)]
    assert {word: words.count(word) for word in dict.fromkeys(words)} == {
        **{"item": 4, "outlet": 1, "collector": 3, "assign": 208, "plan": 2, "handover": 1, "calendar": 16},
        **{"quote": 123, "freeze": 16},
    }

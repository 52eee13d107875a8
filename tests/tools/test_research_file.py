"""`cpi-tools research-file`: rows worked out by hand and once more, what is left out, random numbers, and the record."""

from __future__ import annotations

import csv
import hashlib
import io
import os
from collections import Counter
from pathlib import Path
from typing import Optional

import pytest

from cpi_tools.command_line import main
from cpi_tools.office.program import Cpi
from cpi_tools.research.research_file import (
    HEAD,
    BadRecord,
    BadRules,
    Entry,
    LeftOut,
    ResearchRows,
    add_entry,
    find_whole_months,
    name_period,
    read_rows,
    read_rules,
    round_to_leading,
    write_file,
)
from cpi_tools.text.terminal import Fault
from lib.offices import key_of
from lib.places import ROOT
from lib.single_prices import is_shown

from .priced_offices import ITEMS, NOW, PricedOffice, Sent, draw_office, make_worked_office

RULES = """\
period = "month"
items = "subclass"
price_digits = 2
least_outlets = 4
least_prices = 5

[regions]
all = ["1-999999"]
"""


@pytest.fixture(scope="module")
def office(cpi: Cpi, tmp_path_factory: pytest.TempPathFactory) -> PricedOffice:
    return make_worked_office(cpi, tmp_path_factory.mktemp("worked") / "office.db")


@pytest.fixture(scope="module")
def random_office(cpi: Cpi, tmp_path_factory: pytest.TempPathFactory) -> PricedOffice:
    return draw_office(cpi, tmp_path_factory.mktemp("drawn") / "office.db", 5)


def run_tool(
    cpi: Cpi, office: PricedOffice, folder: Path, name: str = "prices.csv", rules: str = RULES, at: int = NOW
) -> int:
    """Runs the tool in a folder, whose record is `record.csv`."""
    (folder / "rules.toml").write_text(rules)
    words = [
        "research-file",
        "--db",
        office.file,
        "--at",
        at,
        "--rules",
        folder / "rules.toml",
        "--for",
        "A university",
    ]
    return main([*map(str, [*words, "--record", folder / "record.csv", "--out", folder / name, "--program", cpi.path])])


def rows_in(path: Path) -> list[list[str]]:
    return [*csv.reader(io.StringIO(path.read_text()))]


# ---- by hand


def test_the_rows_are_those_worked_out_by_hand(
    cpi: Cpi, office: PricedOffice, tmp_path: Path, capsys: pytest.CaptureFixture[str]
) -> None:
    """Rice has five prices of five outlets. An outlet has 4 of the 7 prices of flour in January, and 3 of 6 in February, in
    which the fourth is missing. Pears are in no plan, March is under embargo, and December has no table. Prices have two
    digits: 2.05 is 2.10, 2.31 is 2.30, 2.52 of the second revision is 2.50."""
    assert run_tool(cpi, office, tmp_path) == 0
    head, *rows = rows_in(tmp_path / "prices.csv")
    assert head == [*HEAD]
    rice = {
        "2026-01": ["200 price", "210 price", "220 price", "230 price", "240 price"],
        "2026-02": ["210 price", "210 price", "220 price", "230 price", "250 other"],
    }
    for month, wanted in rice.items():
        assert sorted(f"{row[5]} {row[4]}" for row in rows if row[:3] == [month, "all", "01.1.1.1"]) == wanted
    flour = [row for row in rows if row[:3] == ["2026-02", "all", "01.1.1.2"]]
    wanted = ["", "100", "100", "100", "100", "110", "90"]
    assert sorted(row[5] for row in flour) == wanted and Counter(row[4] for row in flour) == {"price": 6, "missing": 1}
    first = Counter(row[3] for row in flour).most_common(1)[0][0]
    assert sorted(row[5] for row in flour if row[3] == first) == ["", "100", "100", "100"]
    assert len(rows) == 17 and {row[3] for row in rows} == set("12345")
    out = capsys.readouterr().out
    assert "prices.csv: 17 rows of 5 outlets, 2026-01 to 2026-02\n" in out
    assert "7 quotes in 1 small cell, 0 of periods that aren't whole and 4 of items outside the index left out" in out


def test_an_outlet_keeps_its_number_within_a_file(cpi: Cpi, office: PricedOffice, tmp_path: Path) -> None:
    """By hand: the third outlet, which has the dearest flour in February, has rice for 2.20 and then 2.21, so 2.20 twice."""
    assert run_tool(cpi, office, tmp_path) == 0
    rows = rows_in(tmp_path / "prices.csv")
    (third,) = [row[3] for row in rows if row[2] == "01.1.1.2" and row[5] == "110"]
    assert [row[5] for row in rows if row[2] == "01.1.1.1" and row[3] == third] == ["220", "220"]


def test_numbers_of_outlets_are_drawn_anew(cpi: Cpi, office: PricedOffice, tmp_path: Path) -> None:
    """Of eight files not all have the same numbers: by chance they would once in 120 to the seventh."""
    rules = read_rules(write_rules(tmp_path, RULES))
    rows = {tuple(read_rows(cpi, office.file, NOW, rules).rows) for _ in range(8)}
    assert len(rows) > 1


def test_no_name_and_no_key_is_in_the_file(cpi: Cpi, office: PricedOffice, tmp_path: Path) -> None:
    before = office.file.read_bytes()
    assert run_tool(cpi, office, tmp_path) == 0
    for name in ("prices.csv", "record.csv"):
        text = (tmp_path / name).read_text()
        assert not any(word in text for word in ("Shop", "Text of", key_of(7), "RICE", "FLOUR"))
        assert (tmp_path / name).stat().st_mode & 0o777 == 0o600
    assert office.file.read_bytes() == before


# ---- once more


def cell_of(sent: Sent, period: str, deep: str) -> tuple[str, str, str]:
    """The cell of a quote by another way: regions are the odd and the even outlets."""
    code = ITEMS[sent.item]
    parts = {
        "division": code.split(".")[0],
        "aggregate": code,
        "class": ".".join(code.split(".")[:3]),
        "item": sent.item,
    }
    return period, "odd" if sent.outlet % 2 else "even", parts[deep]


def digits_of(price: int, digits: int) -> int:
    """The nearest number with so many digits before its zeros: the greater of two."""
    step = int("1" + "0" * max(0, len(str(price)) - digits))
    below = price - price % step
    return below + step if 2 * (price - below) >= step else below


@pytest.mark.parametrize(
    "period, deep, digits, months",
    [
        ("month", "item", 7, {"2026-01": "2026-01", "2026-02": "2026-02", "2026-03": "2026-03", "2026-04": "2026-04"}),
        ("quarter", "class", 2, {"2026-01": "2026-Q1", "2026-02": "2026-Q1", "2026-03": "2026-Q1"}),
        ("quarter", "division", 1, {"2026-01": "2026-Q1", "2026-02": "2026-Q1", "2026-03": "2026-Q1"}),
        ("month", "aggregate", 3, {f"2026-0{number}": f"2026-0{number}" for number in (1, 2, 3, 4)}),
    ],
)
def test_the_rows_are_computed_again(
    cpi: Cpi, random_office: PricedOffice, tmp_path: Path, period: str, deep: str, digits: int, months: dict[str, str]
) -> None:
    """From what was sent, but for the numbers of outlets: how many rows each has by cell is compared."""
    rules = f'period = "{period}"\nitems = "{deep}"\nprice_digits = {digits}\nleast_outlets = 3\nleast_prices = 4\n[regions]\n'
    rows = read_rows(
        cpi,
        random_office.file,
        NOW,
        read_rules(write_rules(tmp_path, rules + "odd = [1, 3, 5, 7, 9]\neven = [2, 4, 6, 8]\n")),
    )
    last = {month: revision for month, revision in random_office.frozen}
    cells: dict[tuple[str, str, str], list[Sent]] = {}
    for month, period_in in months.items():
        for sent in random_office.frozen[month, last[month]]:
            cells.setdefault(cell_of(sent, period_in, deep), []).append(sent)
    priced = {cell: [sending.outlet for sending in own if sending.price is not None] for cell, own in cells.items()}
    large = {cell for cell, outlets in priced.items() if len(outlets) >= 4 and is_shown(outlets, 3)}
    wanted = Counter((*cell, mark_of(sending), price_of(sending, digits)) for cell in large for sending in cells[cell])
    assert Counter((*row[:3], *row[4:]) for row in rows.rows) == wanted and large and len(large) < len(cells)
    sizes = {cell: sorted(Counter(sending.outlet for sending in cells[cell]).values()) for cell in large}
    own = {cell: sorted(Counter(row[3] for row in rows.rows if row[:3] == cell).values()) for cell in large}
    assert own == sizes and rows.outlets == len({sending.outlet for cell in large for sending in cells[cell]})
    assert {row[3] for row in rows.rows} == {*range(1, rows.outlets + 1)}
    left = sum(len(own) for cell, own in cells.items() if cell not in large)
    others = [month for month in ("2026-01", "2026-02", "2026-03", "2026-04") if month not in months]
    of_periods = sum(len(random_office.frozen[month, last[month]]) for month in others)
    assert rows.left_out == LeftOut(left, len(cells) - len(large), of_periods, 0) and rows.months == [*months]
    assert rows.rows == sorted(rows.rows, key=lambda row: (*row[:5], row[5] or 0))


def mark_of(sent: Sent) -> str:
    return "missing" if sent.price is None else sent.mark


def price_of(sent: Sent, digits: int) -> object:
    return "" if sent.price is None else digits_of(sent.price, digits)


@pytest.mark.parametrize(
    "price, digits, wanted",
    [(246, 2, 250), (244, 2, 240), (245, 2, 250), (9_999_999, 3, 10_000_000), (5, 2, 5), (99, 1, 100), (1234, 7, 1234)],
)
def test_a_price_keeps_its_leading_digits(price: int, digits: int, wanted: int) -> None:
    assert round_to_leading(price, digits) == wanted


def test_a_period_is_whole_or_isnt_there() -> None:
    months = ["2026-01", "2026-02", "2026-03", "2026-04", "2026-05", "2026-07", "2026-08", "2026-09"]
    assert find_whole_months(months, 1) == months
    assert find_whole_months(months, 3) == [*months[:3], *months[5:]]
    assert find_whole_months(months, 12) == []
    assert [name_period("2026-12", size) for size in (1, 3, 12)] == ["2026-12", "2026-Q4", "2026"]


# ---- the record


def test_the_record_has_a_row_for_each_file(cpi: Cpi, office: PricedOffice, tmp_path: Path) -> None:
    for name in ("one.csv", "two.csv"):
        assert run_tool(cpi, office, tmp_path, name) == 0
    head, *rows = rows_in(tmp_path / "record.csv")
    assert head == [*Entry._fields] and [row[2] for row in rows] == ["one.csv", "two.csv"]
    for row in rows:
        said = dict(zip(head, row))
        assert said["sha256"] == hashlib.sha256((tmp_path / said["file"]).read_bytes()).hexdigest()
        assert said["rules_sha256"] == hashlib.sha256(RULES.encode()).hexdigest()
        assert said["given_to"] == "A university" and said["made"].endswith("Z") and len(said["made"]) == 20
        assert row[5:] == ["2026-01", "2026-02", "17", "5", "11"]


def test_a_file_that_cannot_be_recorded_is_not_written(
    cpi: Cpi, office: PricedOffice, tmp_path: Path, capsys: pytest.CaptureFixture[str]
) -> None:
    for content, says in (
        ("a,b\n", "record.csv: its first row is a,b: wanted made,given_to"),
        (",".join(Entry._fields) + "\n2026-01-01T", "its last row is 2026-01-01T, without an end of the line"),
    ):
        (tmp_path / "record.csv").write_text(content)
        assert run_tool(cpi, office, tmp_path) == 1
        told = capsys.readouterr().err
        assert says in told and told.count("\n") == 1
        assert not (tmp_path / "prices.csv").exists() and (tmp_path / "record.csv").read_text() == content
    (tmp_path / "record.csv").write_bytes(b"\xff\n")
    with pytest.raises(BadRecord, match="isn't UTF-8"):
        add_entry(tmp_path / "record.csv", Entry("", "", "", "", "", "", "", 0, 0, 0))


def test_a_file_is_never_replaced_and_never_empty(
    cpi: Cpi, office: PricedOffice, tmp_path: Path, capsys: pytest.CaptureFixture[str]
) -> None:
    (tmp_path / "prices.csv").write_text("mine")
    assert run_tool(cpi, office, tmp_path) == 1
    assert "prices.csv is there already: wanted the name of a new file" in capsys.readouterr().err
    assert run_tool(cpi, office, tmp_path, "new.csv", RULES.replace("least_outlets = 4", "least_outlets = 6")) == 1
    assert "no row is left by the rules of" in capsys.readouterr().err
    assert (tmp_path / "prices.csv").read_text() == "mine"
    assert {path.name for path in tmp_path.iterdir()} == {"prices.csv", "rules.toml"}
    assert run_tool(cpi, office, tmp_path, at=9_100_000_000) == 1
    assert "still to come: its tables may be under embargo now" in capsys.readouterr().err


@pytest.mark.parametrize("has_links", [True, False])
def test_a_file_that_appears_in_the_last_moment_stays(
    has_links: bool,
    cpi: Cpi,
    office: PricedOffice,
    tmp_path: Path,
    monkeypatch: pytest.MonkeyPatch,
    capsys: pytest.CaptureFixture[str],
) -> None:
    """It comes once the row of the record is on the disk, just before the new file gets its name, on file systems with
    hard links and without them; the row goes again."""
    assert run_tool(cpi, office, tmp_path, "first.csv") == 0
    before, link = (tmp_path / "record.csv").read_bytes(), os.link
    rows = list[int]()

    def link_late(path: Path, to: Path) -> None:
        rows.append(len(rows_in(tmp_path / "record.csv")))
        to.write_text("mine")
        if not has_links:
            raise PermissionError(1, "Operation not permitted")
        link(path, to)

    monkeypatch.setattr(os, "link", link_late)
    capsys.readouterr()
    assert run_tool(cpi, office, tmp_path) == 1 and rows == [3]
    said = capsys.readouterr()
    assert "prices.csv is there already: wanted the name of a new file" in said.err and said.err.count("\n") == 1
    assert said.out == "" and (tmp_path / "prices.csv").read_text() == "mine"
    assert (tmp_path / "record.csv").read_bytes() == before
    assert {path.name for path in tmp_path.iterdir()} == {"first.csv", "prices.csv", "record.csv", "rules.toml"}


def test_a_file_system_without_hard_links_will_do(
    cpi: Cpi, office: PricedOffice, tmp_path: Path, monkeypatch: pytest.MonkeyPatch
) -> None:
    def refuse(*_: object) -> None:
        raise PermissionError(1, "Operation not permitted")

    monkeypatch.setattr(os, "link", refuse)
    assert run_tool(cpi, office, tmp_path) == 0
    assert len(rows_in(tmp_path / "prices.csv")) == 18 and len(rows_in(tmp_path / "record.csv")) == 2


@pytest.mark.parametrize("text", ["", "two\nlines", "=1+1", " x"])
def test_for_whom_a_file_is_is_one_line(text: str, tmp_path: Path, capsys: pytest.CaptureFixture[str]) -> None:
    words = ["--db", "x", "--at", "1", "--rules", "x", "--record", "x", "--out", "x"]
    with pytest.raises(SystemExit) as ended:
        main(["research-file", *words, "--for", text])
    assert ended.value.code == 2 and "wanted a text of one line" in capsys.readouterr().err


# ---- the rules


def write_rules(folder: Path, rules: str) -> Path:
    (folder / "rules.toml").write_text(rules)
    return folder / "rules.toml"


def change_rules(before: str, after: Optional[str]) -> str:
    assert before in RULES
    return RULES.replace(before, after or "")


@pytest.mark.parametrize(
    "rules, says",
    [
        ("", "line 1: period is missing: wanted each of period, items, price_digits"),
        (change_rules("least_prices = 5\n", None), "line 1: least_prices is missing"),
        (change_rules("least_prices", "most_prices"), "line 5: most_prices is no rule: wanted period, items"),
        (change_rules('"month"', '"week"'), "line 1: period is 'week': wanted one of month, quarter, year"),
        (
            change_rules('"subclass"', "4"),
            "line 2: items is 4: wanted one of item, aggregate, subclass, class, group, division",
        ),
        (
            change_rules("price_digits = 2", "price_digits = 0"),
            "line 3: price_digits is 0: wanted a whole number from 1 to 7",
        ),
        (
            change_rules("least_outlets = 4", "least_outlets = 2"),
            "line 4: least_outlets is 2: wanted a whole number from 3 to 99",
        ),
        (
            change_rules("least_prices = 5", "least_prices = true"),
            "line 5: least_prices is True: wanted a whole number from 3",
        ),
        (change_rules('all = ["1-999999"]\n', None), 'line 7: regions is {}: wanted lines like north = ["1-199", 250]'),
        (change_rules('["1-999999"]', '"1-99"'), "line 8: all is '1-99': wanted outlets, such as"),
        (change_rules('["1-999999"]', '["9-1"]'), "line 8: all has '9-1': wanted an outlet, or some as in \"1-199\""),
        (change_rules('["1-999999"]', "[0]"), "line 8: all has 0: wanted an outlet"),
        (change_rules('["1-999999"]', "[true]"), "line 8: all has True: wanted an outlet"),
        (RULES + 'more = ["7-9"]\n', "line 9: outlet 7 is in all and in more: wanted each outlet once"),
        (RULES + '"a,b" = ["7-9"]\n', "line 9: 'a,b' is no name of a region: wanted a text without commas and quotes"),
        (RULES + '"=1" = ["7-9"]\n', "line 9: '=1' is no name of a region"),
        (RULES + "x\n", "wanted TOML"),
    ],
)
def test_rules_are_refused_with_their_line(rules: str, says: str, tmp_path: Path) -> None:
    path = write_rules(tmp_path, rules)
    with pytest.raises(BadRules) as fault:
        read_rules(path)
    assert str(fault.value).startswith(f"{path}, ") and says in str(fault.value) and "\n" not in str(fault.value)


def test_the_example_has_a_region_for_each_outlet() -> None:
    """Of the made-up country, the one that `outlets.csv` says, or the country."""
    rules = read_rules(ROOT / "examples/prices/research.toml")
    with (ROOT / "examples/national/outlets.csv").open(encoding="utf-8", newline="") as file:
        for row in csv.DictReader(file):
            assert rules.region_of(int(row["outlet"])) == (row["region"] or "country")


def test_an_outlet_without_a_region_is_refused(
    cpi: Cpi, office: PricedOffice, tmp_path: Path, capsys: pytest.CaptureFixture[str]
) -> None:
    """Outlet 5 has prices, and the rules leave it out; an outlet that isn't there may be in one."""
    assert run_tool(cpi, office, tmp_path, rules=change_rules('"1-999999"', '"1-4", "6-9"')) == 1
    assert (
        "rules.toml, line 7: outlet 5 has prices and is in no region: wanted each outlet in one"
        in capsys.readouterr().err
    )
    assert not (tmp_path / "prices.csv").exists() and not (tmp_path / "record.csv").exists()


def test_a_fault_of_the_disk_is_one_line(tmp_path: Path) -> None:
    rules = read_rules(write_rules(tmp_path, RULES))
    research_rows = ResearchRows([("2026-01", "all", "01", 1, "price", 5)], ["2026-01"], 1, LeftOut(0, 0, 0, 0))
    with pytest.raises((Fault, OSError), match="nowhere"):
        write_file(research_rows, rules, "A university", tmp_path / "prices.csv", tmp_path / "nowhere/record.csv", NOW)
    assert {path.name for path in tmp_path.iterdir()} == {"rules.toml"}

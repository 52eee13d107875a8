"""`cpi-tools weights`: weights of a year at December's prices, by hand and from printed tables."""

from __future__ import annotations

import csv
import io
import random
from fractions import Fraction
from pathlib import Path

import pytest

from cpi_tools.command_line import main
from cpi_tools.sheets.year.moved_weights import CannotMove, move_weights, read_spent
from cpi_tools.office.public import Listed, Published
from cpi_tools.office.tables import Series
from cpi_tools.office.program import Cpi, record
from lib.offices import plan_with
from .published import ITEMS, KEY, TITLES, Office, lived, registered

RICE, FLOUR, FUEL, PHONE, PEAR = ITEMS.values()


def rows_of(path: Path) -> list[list[str]]:
    with path.open(encoding="utf-8", newline="") as file:
        return [*csv.reader(file)]


def sheet(path: Path, text: str) -> str:
    path.write_text(text, encoding="utf-8")
    return str(path)


def two_aggregates() -> Series:
    """A year by hand: rice is 100 for six months and 110 from July on, which is 105 in the mean, and 126 in December;
    flour is 100 in all months but December, when it is 88: 99 in the mean."""
    levels = {RICE: [100] * 6 + [110] * 5 + [120], FLOUR: [100] * 11 + [88]}
    levels[RICE][11] = 110
    publications = [Published(Listed("2025-12", 1, 0), b"")]
    for month in range(1, 13):
        rows = [("00", 100), *((code, own[month - 1]) for code, own in levels.items())]
        text = "".join(f"{code},1000000,{level}.000000,{level}.000000,0.0,,0,Title\n" for code, level in rows)
        text = text.replace(",0.0,,", ",0.0,0.0,") if month == 12 else text
        publications.append(Published(Listed(f"2026-{month:02}", 1, month), text.encode()))
    return Series(publications)


def test_by_hand(tmp_path: Path) -> None:
    """Rice is worth 630 * 110 / 105 = 660 and flour 396 * 88 / 99 = 352, together 1,012: 652,173.9 and 347,826.1."""
    spent = read_spent(Path(sheet(tmp_path / "s.csv", f"code,weight\n{RICE},630\n{FLOUR},396\n")), "2026")
    weights = move_weights(two_aggregates(), spent, "2026-12")
    assert [(weight.then, weight.now, weight.worth, weight.parts) for weight in weights] == [
        (105, 110, 660, 652_174),
        (99, 88, 352, 347_826),
    ]
    # by the prices of June rice is worth 693: the month isn't the year
    june = read_spent(Path(sheet(tmp_path / "j.csv", f"code,weight,of\n{RICE},630,2026-06\n{FLOUR},396,\n")), "2026")
    assert [weight.worth for weight in move_weights(two_aggregates(), june, "2026-12")] == [693, 352]


def test_from_printed_tables(
    cpi: Cpi, public_office: Office, tmp_path: Path, capsys: pytest.CaptureFixture[str]
) -> None:
    """Weights of 2025 for 2027: flour and pears aren't in December 2026, so theirs are at its prices already."""
    level: dict[tuple[str, str], Fraction] = {}
    for month in (*(f"2025-{at:02}" for at in range(1, 13)), "2026-12"):
        text = cpi.table(public_office.file, month, "csv", public_office.at).decode()
        level.update({(month, row[0]): Fraction(row[3]) for row in csv.reader(io.StringIO(text))})
    given = {RICE: Fraction("412.25"), FUEL: Fraction(300), PEAR: Fraction(90), PHONE: Fraction(0)}
    text = f"code,weight,of\n{RICE},412.25,\n{FUEL},300,\n{PEAR},90,2026-12\n\n{PHONE},0,2026-12\n"
    words = [
        "weights",
        sheet(tmp_path / "spent.csv", text),
        "--of",
        "2025",
        "--for",
        "2027",
        "--program",
        str(cpi.path),
    ]
    words += ["--db", str(public_office.file), "--at", str(public_office.at)]
    out, steps = tmp_path / "rows.csv", tmp_path / "steps.csv"
    assert main([*words, "--out", str(out), "--steps", str(steps)]) == 0
    assert capsys.readouterr().out == f"{out}: 3 weights of 2025 at prices of 2026-12, parts per million\n"
    worth = {
        code: weight * level["2026-12", code] / (sum(level[f"2025-{at:02}", code] for at in range(1, 13)) / 12)
        for code, weight in given.items()
        if code in (RICE, FUEL)
    }
    worth[PEAR] = given[PEAR]
    exact = {code: it * 10**6 / sum(worth.values()) for code, it in worth.items()}
    whole = {code: it.numerator // it.denominator for code, it in exact.items()}
    for code in sorted(exact, key=lambda it: whole[it] - exact[it])[: 10**6 - sum(whole.values())]:
        whole[code] += 1
    assert rows_of(out) == [["W", code, str(parts)] for code, parts in whole.items()]
    head, *rows = rows_of(steps)
    assert head[4:7] == ["level_then", "level_december", "worth_in_december"]
    assert [row[1] for row in rows] == ["Rice, packed", "Petrol", "Pears", "=Mobile"]
    half = Fraction(1, 2 * 10**6)
    assert all(abs(Fraction(row[6]) - worth[row[0]]) <= half for row in rows if row[0] in worth)


def test_a_plan_takes_the_rows(cpi: Cpi, public_office: Office, tmp_path: Path) -> None:
    """The program computes January 2026 with the weights as they are: the sum of all is 1,000,000."""
    text = f"code,weight,of\n{RICE},500,\n{FUEL},400,\n{PHONE},100,2025-12\n"
    words = [
        "weights",
        sheet(tmp_path / "spent.csv", text),
        "--of",
        "2025",
        "--for",
        "2026",
        "--program",
        str(cpi.path),
    ]
    words += ["--db", str(public_office.file), "--at", str(public_office.at), "--out", str(tmp_path / "rows.csv")]
    assert main(words) == 0
    weights = {row[1]: int(row[2]) for row in rows_of(tmp_path / "rows.csv")}
    assert sum(weights.values()) == 1_000_000
    until = next(at for at, line in enumerate(lived()) if "freeze,2025-12" in line) + 1
    sent = [*lived()[:until], record(90_000, "desk", "plan", 2026, plan_with(TITLES, weights, ITEMS))]
    sent += [record(90_000, "desk", "calendar", "2026-01", 90_000, 90_500, 90_900)]
    sent += [record(90_001, KEY, "quote", slot, "2026-01", "price", 1000) for slot in range(1, 11)]
    sent += [record(90_500, "desk", "freeze", "2026-01"), record(90_900, "public", "table", "2026-01", "csv")]
    *replies, table = cpi.replay(sent)
    assert not [reply for reply in replies if "refused" in reply] and len([*registered()]) < until
    ints = {row[0]: int(row[1]) for row in csv.reader(io.StringIO(table["table"]))}
    assert {code: ints[code] for code in weights} == weights and ints["00"] == 1_000_000


def test_shares_are_near_whatever_is_given(tmp_path: Path) -> None:
    drawn = random.Random(7)
    for _ in range(20):
        rice, flour = drawn.randint(1, 10**9), drawn.randint(1, 10**9)
        spent = read_spent(Path(sheet(tmp_path / "s.csv", f"code,weight\n{RICE},{rice}\n{FLOUR},{flour}\n")), "2026")
        weights = move_weights(two_aggregates(), spent, "2026-12")
        worth = [Fraction(rice * 110, 105), Fraction(flour * 88, 99)]
        assert sum(weight.parts for weight in weights) == 10**6
        assert all(
            abs(weight.parts - own * 10**6 / sum(worth)) < 1 or weight.parts == 1
            for weight, own in zip(weights, worth)
        )


@pytest.mark.parametrize(
    ("text", "because"),
    [
        ("", "its first row is neither code,weight nor code,weight,of"),
        ("weight,code\n", "its first row is neither"),
        (f"code,weight\n{RICE},1\n{RICE},1\n", f"{RICE} has two rows"),
        (f"code,weight\n{RICE},0\n", "there is no weight above 0"),
        ("code,weight\n01.1,5\n", "row 2: '01.1' is no code of an elementary aggregate"),
        (f"code,weight\n{RICE},-5\n", "row 2: '-5' is no weight"),
        (f"code,weight\n{RICE},1e3\n", "row 2: '1e3' is no weight"),
        (f"code,weight\n{RICE},\n", "row 2: '' is no weight"),
        (f"code,weight,of\n{RICE},1,25\n", "row 2: '25' is neither a year like 2025 nor a month"),
        ('code,weight\n"x,1\n', "unexpected end of data"),
    ],
)
def test_a_sheet_with_a_fault_is_one_line(text: str, because: str, tmp_path: Path) -> None:
    with pytest.raises(CannotMove, match=because) as told:
        read_spent(Path(sheet(tmp_path / "s.csv", text)), "2026")
    assert "\n" not in str(told.value)


def test_what_has_no_levels_is_told(
    cpi: Cpi, public_office: Office, tmp_path: Path, capsys: pytest.CaptureFixture[str]
) -> None:
    """Pears are in 2025 and in 2027, without a link between; flour left; telephones came in 2026."""
    text = f"code,weight\n{RICE},1\n{FLOUR},1\n{PEAR},1\n{PHONE},1\n"
    words = [
        "weights",
        sheet(tmp_path / "s.csv", text),
        "--program",
        str(cpi.path),
        "--out",
        str(tmp_path / "rows.csv"),
    ]
    words += ["--db", str(public_office.file), "--at"]
    assert main([*words, str(public_office.at), "--of", "2025", "--for", "2027"]) == 1
    told = capsys.readouterr().err
    lacking = f"{FLOUR} (2025), {PEAR} (2025), {PHONE} (2025)"
    assert f"no published levels lead from its period to 2026-12: {lacking}; give the weight at" in told
    assert told.count("\n") == 1
    assert main([*words, str(public_office.at), "--of", "2025", "--for", "2031"]) == 1
    assert "the table of 2030-12 isn't published" in capsys.readouterr().err
    assert main([*words, "8000000000", "--of", "2025", "--for", "2027"]) == 1
    assert "--at 8000000000 is still to come" in capsys.readouterr().err
    with pytest.raises(SystemExit):
        main([*words, "5", "--of", "25", "--for", "2027"])
    assert "25 isn't a year like 2025" in capsys.readouterr().err
    assert not (tmp_path / "rows.csv").exists()

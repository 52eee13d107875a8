"""`cpi-tools take-in`: a code for a missing price isn't taken as a price, and what is taken is what a person named."""

from __future__ import annotations

import re
from collections import Counter
from pathlib import Path

import pytest

from cpi_tools.command_line import main
from cpi_tools.sheets.doubts import Counted, is_far, is_nines
from cpi_tools.office.program import Cpi
from cpi_tools.sheets.sheet_files import remove_mark
from .ran import Ran, rows_of, run
from .spreadsheets import Sheets, sheets, written

Prices = dict[tuple[str, str], list[str]]
"""By outlet and item, the prices of December and of January."""

ITEMS = {
    "RICE": "01.1.1.1-01",
    "BREAD": "01.1.1.1-01",
    "FLOUR": "01.1.1.2-01",
    "MEAL": "01.1.1.2-01",
    "SPELT": "01.1.1.2-01",
}
PRICES: Prices = {
    ("10", "RICE"): ["2.40", "2.52"],
    ("11", "RICE"): ["2.45", "2.50"],
    ("12", "RICE"): ["2.50", "2.55"],
    ("10", "BREAD"): ["3.10", "3.15"],
    ("10", "FLOUR"): ["1.10", "1.12"],
    ("11", "FLOUR"): ["1.20", "1.20"],
    ("10", "MEAL"): ["1.40", "1.41"],
    ("11", "SPELT"): ["1.90", "1.95"],
}


def office(prices: Prices) -> Sheets:
    """The sheets of an office of two months whose prices are in a column a month."""
    of = sheets()
    for name in ("handovers", "releases", "places"):
        del of[name]
    of["items"] = [["item", "text", "unit", "low", "high", "code"]]
    of["items"] += [[item, item.title(), "1 kg", "500", "2000", code] for item, code in ITEMS.items()]
    of["outlets"] = [["outlet", "name"], *([number, f"Shop {number}"] for number in ("10", "11", "12"))]
    of["collectors"] = [["collector"], ["7"]]
    of["series"] = [["collector", "outlet", "item", "first", "last"]]
    of["series"] += [["7", outlet, item, "2025-12", "2026-12"] for outlet, item in prices]
    of["calendar"] = of["calendar"][:3]
    of["prices"] = [["outlet", "item", "2025-12", "2026-01"], *([*of_whom, *both] for of_whom, both in prices.items())]
    return of


def taken(cpi: Cpi, folder: Path, prices: Prices, *words: str) -> Ran:
    return run(cpi, "take-in", written(folder / "sheets", office(prices)), "--minor", 100, *words)


def checked(cpi: Cpi, folder: Path, prices: Prices, *words: str) -> tuple[int, list[tuple[str, str, str]]]:
    """The status of a check, and the cells in doubt with why."""
    ran = taken(cpi, folder, prices, "--check", *words)
    path = folder / "sheets" / "check" / "problems.csv"
    rows = [row for row in rows_of(path) if row["kind"] == "doubt"] if path.is_file() else []
    return ran.status, [(row["row"], row["column"], row["because"].partition(": ")[2]) for row in rows]


def with_prices(*changes: tuple[tuple[str, str], list[str]]) -> Prices:
    return {**PRICES, **dict(changes)}


NINES = "it consists only of nines"


@pytest.mark.parametrize("code", ["9999.99", "99999.00", "9999"])
def test_nines_in_each_month_are_named_with_their_cells(cpi: Cpi, tmp_path: Path, code: str) -> None:
    prices = with_prices((("11", "RICE"), [code, code]))
    assert checked(cpi, tmp_path, prices) == (3, [("3", "2025-12", NINES), ("3", "2026-01", NINES)])


@pytest.mark.parametrize("price", ["240", "0.01", "777777.77"])
def test_a_first_price_far_from_the_others_of_its_item(cpi: Cpi, tmp_path: Path, price: str) -> None:
    because = "it is a first price that differs from the median of RICE by a factor of more than ten"
    assert checked(cpi, tmp_path, with_prices((("11", "RICE"), [price, price]))) == (3, [("3", "2025-12", because)])


def test_the_only_series_of_an_item_is_compared_with_its_aggregate(cpi: Cpi, tmp_path: Path) -> None:
    because = "it is a first price that differs from the median of 01.1.1.2-01 by a factor of more than ten"
    assert checked(cpi, tmp_path, with_prices((("10", "MEAL"), ["140", "141"]))) == (3, [("8", "2025-12", because)])


def test_one_value_in_series_of_many_items(cpi: Cpi, tmp_path: Path) -> None:
    """Also if it comes after the first price, and `--confirm-history` confirms none of it."""
    of = [("11", "RICE"), ("10", "BREAD"), ("11", "FLOUR"), ("10", "MEAL"), ("11", "SPELT")]
    prices = with_prices(*((texts, [PRICES[texts][0], "777777.77"]) for texts in of))
    status, found = checked(cpi, tmp_path, prices, "--confirm-history")
    assert status == 3 and found == [
        (row, "2026-01", "it occurs in series of 5 items") for row in ("3", "5", "7", "8", "9")
    ]


def test_a_usual_price_of_many_items_is_none(cpi: Cpi, tmp_path: Path) -> None:
    of = [("11", "RICE"), ("10", "BREAD"), ("11", "FLOUR"), ("10", "MEAL"), ("11", "SPELT")]
    assert checked(cpi, tmp_path, with_prices(*((texts, ["1.99", "1.99"]) for texts in of))) == (0, [])
    assert checked(cpi, tmp_path, PRICES) == (0, [])


def test_nothing_is_written_until_a_person_says_what_it_is(cpi: Cpi, tmp_path: Path) -> None:
    prices = with_prices((("11", "RICE"), ["9999.99", "9999.99"]))
    words = ["--write", str(tmp_path / "out"), "--out", str(tmp_path / "check")]
    ran = taken(cpi, tmp_path, prices, *words, "--confirm-history")
    assert ran.status == 3 and not (tmp_path / "out").exists() and (tmp_path / "check/problems.csv").is_file()
    assert 'prices.csv, row 3, 2025-12: "9999.99" might not be a price' in ran.err
    assert '--missing "9999.99=stock"' in ran.err and '--price "9999.99"' in ran.err
    assert "2 prices in doubt, and nothing is taken in" in ran.err
    assert taken(cpi, tmp_path, prices, *words, "--missing", "9999.99=closed").status == 0
    matching_quotes = [quote for quote in quotes(tmp_path / "out") if "missing" in quote]
    assert matching_quotes == ["quote,2,2025-12,missing,closed", "quote,2,2026-01,missing,closed"]
    words[1] = str(tmp_path / "priced")
    assert taken(cpi, tmp_path, prices, *words, "--price", "9999.99").status == 0
    matching_quotes = [quote for quote in quotes(tmp_path / "priced") if "999999" in quote]
    assert matching_quotes == ["quote,2,2025-12,price,999999", "quote,2,2026-01,price,999999"]


def quotes(folder: Path) -> list[str]:
    """The quotes of the records of a folder, each `quote,slot,month,mark,value`."""
    return re.findall(r"quote,[0-9]+,[0-9-]+,[a-z]+,[a-z0-9]+", (folder / "records-01.csv").read_text(encoding="utf-8"))


def test_several_codes_in_other_spellings_and_after_a_mark(cpi: Cpi, tmp_path: Path) -> None:
    prices = with_prices(
        (("11", "RICE"), ["9'999.990", "2.50"]), (("10", "BREAD"), ["3.10", "-1"]), (("10", "MEAL"), ["n.a.", "price 9999.99"])
    )  # fmt: skip
    words = ["--missing", "9999.99=stock", "--missing=-1=refused", "--missing", "N.A.=gone"]
    assert checked(cpi, tmp_path, prices, *words) == (0, [])
    assert "4" in (tmp_path / "sheets/check/report.html").read_text(encoding="utf-8")


def test_a_code_that_no_price_has_is_named(cpi: Cpi, tmp_path: Path) -> None:
    """With a decimal comma, `9999.99` is no number, so the code is that of no cell."""
    prices = with_prices((("11", "RICE"), ["9999,99", "2,50"]))
    commas = {whose: [it.replace(".", ",") for it in both] for whose, both in prices.items()}
    codes = [word for code in ("9999.99", "N.A.", "9999,990") for word in ("--missing", f"{code}=stock")]
    ran = taken(cpi, tmp_path, commas, "--check", "--decimal", ",", *codes)
    assert ran.status == 0
    assert re.findall('prices.csv, row 1: no price is "(.*)", which --missing names', ran.err) == ["9999.99", "N.A."]
    rows = rows_of(tmp_path / "sheets/check/problems.csv")
    assert [row["kind"] for row in rows] == ["warning", "warning"]
    assert rows[0]["do"] == 'write it as it is in a cell of the sheet, whose numbers have the decimal sign ","'


@pytest.mark.parametrize(
    ("word", "text", "because"),
    [
        ("--missing", "9999.99", "write a value and a reason (stock, closed, gone, refused)"),
        ("--missing", "9999.99=lost", "write a value and a reason"),
        ("--missing", "=stock", "write a value and a reason"),
        ("--price", "much", "it is no number with the decimal sign ."),
    ],
)
def test_a_word_that_says_nothing_is_refused(
    cpi: Cpi, tmp_path: Path, word: str, text: str, because: str, capsys: pytest.CaptureFixture[str]
) -> None:
    folder = written(tmp_path / "sheets", office(PRICES))
    with pytest.raises(SystemExit, match="^2$"):
        main(["take-in", str(folder), "--check", word, text, "--program", str(cpi.path)])
    assert because in capsys.readouterr().err


def test_series_of_the_office_are_judged_by_their_last_price(cpi: Cpi, tmp_path: Path) -> None:
    """The first price in a sheet isn't the first price of a series that the office has."""
    assert (
        taken(
            cpi,
            tmp_path,
            with_prices((("11", "RICE"), ["240", ""])),
            "--write",
            str(tmp_path / "out"),
            "--price",
            "240",
        ).status
        == 0
    )
    text = (tmp_path / "out/records-01.csv").read_text(encoding="utf-8")
    assert not [it for it in cpi.replay(text.splitlines(), db=tmp_path / "office.db") if "refused" in it]
    later = with_prices((("11", "RICE"), ["240", "245"]))
    ran = taken(cpi, tmp_path, later, "--check", "--onto", str(tmp_path / "office.db"))
    assert ran.status == 0, ran.err


# ---- the mark of a text


def test_the_mark_of_a_text_is_taken_away_and_said(cpi: Cpi, tmp_path: Path) -> None:
    ran = taken(cpi, tmp_path, with_prices((("11", "RICE"), ["'2.45", "'2.50"])), "--check")
    assert ran.status == 0
    assert "prices.csv, row 3, 2025-12: \"'2.45\" is read without its leading '" in ran.err


def test_a_column_is_named_as_the_sheet_has_it(cpi: Cpi, tmp_path: Path) -> None:
    of = office(with_prices((("11", "RICE"), ["'2.45", "2.50"])))
    of["prices"][0] = ["outlet", "item", "2025M12", "2026M01"]
    ran = run(cpi, "take-in", written(tmp_path / "sheets", of), "--minor", 100, "--check")
    assert ran.status == 0 and "prices.csv, row 3, 2025M12: \"'2.45\" is read without its leading '" in ran.err


@pytest.mark.parametrize(
    ("text", "without"),
    [("'2.40", "2.40"), ("'-1", "-1"), ("',5", ",5"), ("'=A1", "=A1"), ("'@x", "@x"), ("'2026-01", "2026-01")],
)
def test_what_a_mark_is_before(text: str, without: str) -> None:
    assert remove_mark(text) == without


@pytest.mark.parametrize("text", ["'t Hof", "'s Avonds", "'", "2.40", "''2", ""])
def test_an_apostrophe_of_a_name_stays(text: str) -> None:
    assert remove_mark(text) == text


def test_how_months_were_read_is_said_when_they_are_written(cpi: Cpi, tmp_path: Path) -> None:
    of = office(PRICES)
    of["prices"][0][2] = "2025M12"
    folder = written(tmp_path / "sheets", of)
    ran = run(cpi, "take-in", folder, "--minor", 100, "--write", tmp_path / "out")
    assert ran.status == 0 and 'cpi-tools take-in: prices.csv: "2025M12" is read as 2025-12' in ran.err


# ---- its parts


def test_nines_by_the_minor_units() -> None:
    assert (
        is_nines(999_999, 100)
        and is_nines(9_999_900, 100)
        and is_nines(9999, 1)
        and is_nines(99_999_990, 1000) is False
    )
    assert not is_nines(99_999, 100) and not is_nines(999_998, 100) and not is_nines(999_909, 100)


def test_far_is_more_than_ten_times() -> None:
    assert not is_far(100, 10) and not is_far(10, 100) and is_far(101, 10) and is_far(10, 101)


def counted(*values: int) -> Counted:
    """These values, each with how often it is there."""
    return Counted(sorted(Counter(values).items()))


def test_a_median_is_the_lower_one_of_two() -> None:
    assert counted(1, 2, 9).median() == 2 and counted(1, 7, 7, 8).median() == 7 and counted(3, 5).median() == 3
    assert [*counted(7, 1, 7)] == [1, 7]


def test_a_median_without_one() -> None:
    assert counted(1, 2, 9).median_without(9) == 1 and counted(1, 2, 9).median_without(2) == 1
    assert counted(1, 1, 1, 7).median_without(1) == 7 and counted(1, 7, 7, 8).median_without(7) == 1
    assert counted(4, 4).median_without(4) is None

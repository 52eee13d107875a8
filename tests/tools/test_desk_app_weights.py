"""Weights moved by prices on the page of a draft: as the freeze of January moves them, which the examples of METHOD show."""

from __future__ import annotations

import csv
import io
import subprocess
import sys
from collections.abc import Iterator, Sequence
from fractions import Fraction
from pathlib import Path

import pytest

from cpi_tools.office.copying import private_copy
from cpi_tools.text.text_files import line_of
from cpi_tools.desk.year import draft_sheets
from cpi_tools.desk.year.draft_sheets import read_rows
from cpi_tools.desk.year.draft_weights import before, in_unit, months_to_move, move_weights, percent_text, shares_of
from cpi_tools.office.program import Cpi
from cpi_tools.office.stored import read_copy
from lib.places import ROOT
from .desk_apps import ADA, Application, Person, applied
from .test_desk_app_year import PAGE, made

RICE, FLOUR = "01.1.1.1-01", "01.1.1.2-01"


def worked(cpi: Cpi, folder: Path, is_january_frozen: bool) -> Path:
    """The office of the example, whose weights of 2027 are of June 2026; with its January, or up to December and without
    the plan of 2027."""
    made_by = subprocess.run(
        [sys.executable, ROOT / "examples/worked/make", "--records"], stdout=subprocess.PIPE, text=True, check=True
    )
    rows = [*csv.reader(io.StringIO(made_by.stdout))]
    if not is_january_frozen:
        rows = [row for row in rows[: rows.index(next(filter(is_of_january, rows)))] if row[2:4] != ["plan", "2027"]]
    file = folder / "worked.db"
    cpi.replay(map(line_of, rows), file)
    return file


def is_of_january(fields: list[str]) -> bool:
    """Whether a record freezes January 2027."""
    return fields[2:4] == ["freeze", "2027-01"]


@pytest.fixture
def application(cpi: Cpi, tmp_path: Path) -> Iterator[Application]:
    with applied(cpi, worked(cpi, tmp_path, False), tmp_path / "room") as it:
        yield it


def test_weights_are_moved_as_the_freeze_moves_them(cpi: Cpi, tmp_path: Path) -> None:
    """By METHOD rice rose from 108.04 to 112.68 since June 2026, and flour from 104 to 107.8492: 573,621 and 466,655 of
    weights of 550,000 and 450,000."""
    file = worked(cpi, tmp_path, True)
    with private_copy(file) as copy, read_copy(copy) as office:
        numbers: dict[str, Fraction | None] = {RICE: Fraction(550_000), FLOUR: Fraction(450_000)}
        weights = move_weights(office, numbers, 202606, 2027)
        (january,) = [release for release in office.releases() if release.month == 202701]
        in_use = {code: level.weight for code, level in office.levels(january).items() if "-" in code}
        assert months_to_move(office, 2027)[0] == 202611 and 202512 not in months_to_move(office, 2027)
        assert (
            move_weights(office, numbers, 202512, 2027) is None and move_weights(office, numbers, 202612, 2027) is None
        )
        lacking = move_weights(office, {**numbers, "01.1.1.3-01": Fraction(1)}, 202606, 2027)
        was = before(office, 2027)
    assert weights and not weights.lacking and (weights.then, weights.now) == (202606, 202612)
    assert in_use == {RICE: 573_621, FLOUR: 466_655}
    # (573,621 of 1,040,276 are 55.141 percent)
    assert [percent_text(weights.shares[it]) for it in (RICE, FLOUR)] == ["55.141", "44.859"]
    assert {code: round(number * weights.prices[code]) for code, number in numbers.items() if number} == in_use
    assert lacking and lacking.lacking == ["01.1.1.3-01"] and not lacking.shares
    # (the weights of a year before are those in use, which prices moved)
    assert was.shares == {RICE: Fraction(573_621, 1_040_276), FLOUR: Fraction(466_655, 1_040_276)}


def test_a_share_in_the_unit_of_a_draft() -> None:
    share = Fraction(1, 3)
    assert [in_unit(share, text) for text in ("ppm", "permille", "percent", "money")] == [
        "333333",
        "333.333",
        "33.3333",
        "",
    ]
    assert in_unit(None, "ppm") == "" and shares_of({RICE: Fraction(0)}) == {} and percent_text(None) == ""


def test_what_prices_make_of_weights_is_shown_before_it_is_chosen(application: Application) -> None:
    ada: Person = application.person(ADA)
    made(application, ada)
    assert ada.fill(PAGE, "/2027/put", 1, pasted=f"{RICE};550000\n{FLOUR};450000").status_code == 303
    shown = ada.words(f"{PAGE}?prices=2026-06")
    assert "at prices of June 2026, as in this draft, and at prices of December 2026." in shown
    assert f"{RICE} Rice in packets 600000 60.000 % 55.000 % \u22125.000 55.141 % +4.3 %" in shown, shown
    assert "so nothing is price-updated" in shown
    # (only now it is chosen, and the page goes on to show it)
    assert ada.give(ada.form(f"{PAGE}?prices=2026-06", "/reference")).status_code == 303
    assert "In this draft, the weights are at prices of June 2026." in ada.words(PAGE) and "55.141 %" in ada.words(PAGE)
    assert ada.give(ada.form(f"{PAGE}?prices=", "/reference")).status_code == 303
    assert "55.141 %" not in ada.words(PAGE)
    assert "Use prices of June 2026" in shown
    for month, name in (("2025-12", "December 2025"), ("2026-12", "December 2026"), ("2031-01", "January 2031")):
        assert f"Weights can't be price-updated from {name}: " in ada.words(f"{PAGE}?prices={month}")
    assert ada.get(f"{PAGE}?prices=x").status_code == 200


TITLES = "?sheet=classification"


def test_titles_that_are_put_without_weights_keep_those_that_are_there(application: Application) -> None:
    ada: Person = application.person(ADA)
    made(application, ada)
    titles = f"{RICE};Rice, packed\n{FLOUR};Flour, wheat;410000\n01.1.1.3-01;Oats"
    assert ada.fill(PAGE + TITLES, "/2027/put", 1, pasted=titles).status_code == 303
    assert ada.fill(PAGE + TITLES, "/2027/put", 0, code=FLOUR, title="Flour", weight="").status_code == 303
    draft = application.desk.drafts.draft(2027)
    assert draft and [row for row in draft.rows("classification") if "-" in row[0]] == [
        [RICE, "Rice, packed", "600000"],
        [FLOUR, "Flour", "410000"],
        ["01.1.1.3-01", "Oats", ""],
    ]
    assert "A row that you save without a weight keeps its present one." in ada.words(PAGE + TITLES)


def test_a_row_that_comes_while_the_page_is_made_is_no_fault(
    application: Application, monkeypatch: pytest.MonkeyPatch
) -> None:
    """Somebody puts a title between any two readings of the sheet."""
    ada: Person = application.person(ADA)
    made(application, ada)
    count = iter(range(100))

    def reads(path: Path, columns: Sequence[str]) -> list[list[str]]:
        rows = read_rows(path, columns)
        return [*rows, [f"01.1.1.9-{next(count):02}", "Oats", "1"]] if path.stem == "classification" else rows

    monkeypatch.setattr(draft_sheets, "read_rows", reads)
    assert "Rice in packets" in ada.words(PAGE)

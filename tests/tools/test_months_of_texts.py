"""Months as offices write them: each text that can be one month only, and no other."""

from __future__ import annotations

import pytest

from cpi_tools.sheets import sheet_numbers
from cpi_tools.sheets.sheet_numbers import NAMES, month_of, months_of, told_no_month


@pytest.mark.parametrize(
    "text",
    [
        *("2026-01", "2026-1", "2026M01", "2026m1", "2026-M01", "2026/01", "2026/1", "2026.01", "202601", "2026 01"),
        *("01/2026", "1/2026", "01-2026", "01.2026", "1.2026", "01 2026"),
        *("Jan-26", "jan 26", "JAN26", "Jan '26", "Jan.-26", "Jan 2026", "Jan-2026", "January 2026", "january, 2026"),
        *("2026 Jan", "2026-January", "2026Jan"),
        *("2026-01-01", "2026-01-31", "2026/1/9", "2026.01.15", "2026-01-15T06:00", "2026-01-31 00:00:00"),
        *("31.01.2026", "13/01/2026", "01/13/2026", "1/1/2026", "31-01-2026 10:00"),
        *("5 Jan 2026", "31-Jan-2026", "5. January 2026", "Jan 5, 2026", " 2026-01 "),
    ],
)
def test_a_text_that_is_january(text: str) -> None:
    assert month_of(text) == "2026-01"


@pytest.mark.parametrize(
    "text",
    [
        *("", "name", "2026", "01", "46023", "2026-13", "2026-00", "2026-1-", "2026Q1", "2026-Q1", "2026-W01"),
        *("1999-12", "2200-01", "Jan-99", "Jan-50", "Jan 126", "Jann 2026", "janvier 2026", "2026.1", "012026"),
        *(
            "2026-01 1)",
            "2026-01*",
            "2026-01 (p)",
            "2026-02-30",
            "31.02.2026",
            "32/01/2026",
            "2026-01-15T6",
            "1-1-2026x",
        ),
        *("2026--01", "2026-01/15", "٢٠٢٦-٠١", "2026\u200b-01", "x" * 10_000, "9" * 10_000),
    ],
)
def test_a_text_that_is_no_month(text: str) -> None:
    assert months_of(text) == [] and month_of(text) == ""
    assert told_no_month(text)


@pytest.mark.parametrize(
    ("text", "told"),
    [
        ("01/02/2026", '"01/02/2026" may be 2026-01 or 2026-02'),
        ("2.1.2026", '"2.1.2026" may be 2026-01 or 2026-02'),
        ("01-02", '"01-02" may be a day or several months: it contains no year with four digits'),
        ("26-01", '"26-01" may be a day or several months: it contains no year with four digits'),
        ("1/2/26", '"1/2/26" may be a day or several months: it contains no year with four digits'),
        ("26-Jan", '"26-Jan" may be a day or several months: it contains no year with four digits'),
        ("15-Jan-26", '"15-Jan-26" may be a day or several months: it contains no year with four digits'),
        ("2026\u200b-01", '"2026\\u200b-01" isn\'t a month'),
        ("", "the cell is empty, but should contain a month"),
    ],
)
def test_a_text_that_may_be_several_is_none_and_says_so(text: str, told: str) -> None:
    assert month_of(text) == "" and told_no_month(text) == told


def test_each_month_has_its_names() -> None:
    for language, months in NAMES.items():
        assert len(months) == 12, language
        for number, names in enumerate(months, 1):
            for name in names.split():
                assert month_of(f"{name.title()} 2031") == f"2031-{number:02}"


def test_a_name_that_is_two_months_in_two_languages_is_none(monkeypatch: pytest.MonkeyPatch) -> None:
    """`listopad` is November in Czech, and October in Croatian."""
    other = {"Czech": ("",) * 10 + ("listopad", ""), "Croatian": ("",) * 9 + ("listopad", "", "")}
    monkeypatch.setattr(sheet_numbers, "NAMES", {**NAMES, **other})
    monkeypatch.setattr(sheet_numbers, "NAMED", sheet_numbers._number_names())
    assert months_of("listopad 2026") == ["2026-10", "2026-11"] and month_of("listopad 2026") == ""
    assert month_of("May 2026") == "2026-05"

"""Bounds of items on the desk's pages: shown and typed in percent, and never read as anything else."""

from __future__ import annotations

from collections.abc import Iterator
from pathlib import Path
from typing import Optional

import pytest

from cpi_tools.office.copying import private_copy
from cpi_tools.desk.records.sample_kinds import bound_of, percent_of
from cpi_tools.office.program import Cpi
from cpi_tools.office.stored import read_copy

from . import surveys
from .desk_apps import ADA, Application, Person, applied, words_of

TEA = {"item": "TEA", "text": "Tea, black", "unit": "100 g"}


@pytest.fixture
def application(cpi: Cpi, tmp_path: Path) -> Iterator[Application]:
    with applied(cpi, surveys.small(cpi, tmp_path), tmp_path / "room") as it:
        yield it


@pytest.fixture
def ada(application: Application) -> Person:
    return application.person(ADA)


def items(application: Application) -> dict[str, tuple[int, int]]:
    with private_copy(application.file) as copy, read_copy(copy) as office:
        return {it.code: (it.low, it.high) for it in office.items()}


@pytest.mark.parametrize(
    "text, column, thousandths",
    [
        ("-45 %", "low", 550),
        ("\u221245\u202f%", "low", 550),
        ("\u061c\u2212\u0664\u0665\u066b\u0665\u066a", "low", 545),
        ("+90", "high", 1900),
        ("90 %", "high", None),
        ("190 %", "high", None),
        ("+190 %", "high", 2900),
        ("+2,5%", "high", 1025),
        ("0", "low", 1000),
        ("0", "high", 1000),
        ("-99.9 %", "low", 1),
        ("+900 %", "high", 10_000),
        ("550", "low", None),
        ("45", "low", None),
        ("45 %", "low", None),
        ("1900", "high", None),
        ("1.9", "high", None),
        ("90", "high", None),
        ("+1,500 %", "high", None),
        ("+1 500 %", "high", None),
        ("-100 %", "low", None),
        ("+900.1 %", "high", None),
        ("-0.25 %", "low", None),
        ("+-5 %", "high", None),
        ("", "low", None),
        ("5%%", "high", None),
        ("9" * 5000, "high", None),
    ],
)
def test_a_text_is_a_bound_or_none(text: str, column: str, thousandths: Optional[int]) -> None:
    bound = bound_of(text, column)
    assert bound.thousandths == thousandths and (bound.why is None) == (thousandths is not None)


def test_each_bound_is_written_as_it_is_read() -> None:
    for least, most, column in ((1, 1000, "low"), (1000, 10_000, "high")):
        for bound in range(least, most + 1):
            assert bound_of(f"{percent_of(bound)}\u202f%", column).thousandths == bound


def test_a_bound_that_is_typed_in_percent_goes_to_the_office(application: Application, ada: Person) -> None:
    ada.fill("/sample/items", "/items/judge", **TEA, low="\u221245 %", high="+90 %")
    assert "TEA Tea, black 100 g \u221245 % +90 %" in ada.words("/sample/items")
    ada.fill("/sample/items", "/items/send")
    assert items(application)["TEA"] == (550, 1900)
    assert "TEA Tea, black 100 g \u221245 % +90 % 0" in ada.words("/sample/items")
    assert "TEA,\"Tea, black\",100 g,'-45 %,'+90 %,0\n" in ada.get("/sample/items.csv").text


def test_what_was_downloaded_can_be_pasted_back(application: Application, ada: Person) -> None:
    """Also as a spreadsheet gives it back, which takes our marks of a text away, or reads the percent as a number."""
    ada.fill("/sample/items", "/items/judge", **TEA, low="-45.5 %", high="0")
    ada.fill("/sample/items", "/items/send")
    ada.fill("/sample/outlets", "/outlets/judge", outlet="70", name="=Shop")
    ada.fill("/sample/outlets", "/outlets/send")
    for kind, count in (("items", 3), ("outlets", 3), ("assignments", 3)):
        text = ada.get(f"/sample/{kind}.csv").text
        for given in (text, text.replace("'", ""), text.replace(" %", "%").replace("'", "")):
            page = ada.follow(ada.fill(f"/sample/{kind}", f"/{kind}/judge", 1, pasted=given)).text
            assert f"Send {count} rows" in words_of(page), words_of(page)
            assert ada.fill(f"/sample/{kind}", f"/{kind}/send").status_code == 303
            assert f"/sample/{kind}/send" not in ada.get(f"/sample/{kind}").text
    assert items(application)["TEA"] == (545, 1000)


def test_a_file_of_before_is_refused_with_what_it_means(application: Application, ada: Person) -> None:
    """It has thousandths, which nobody can tell from percents without a sign."""
    text = "item,text,unit,low,high,slots\nTEA,Tea,100 g,550,1900,0\n"
    words = words_of(ada.follow(ada.fill("/sample/items", "/items/judge", 1, pasted=text)).text)
    assert "550 ” isn't a lower bound. Write a change in percent with its sign, from" in words
    assert "If 550 is in thousandths of the last price, as in earlier files, write \u221245 % ." in words, words
    assert "TEA" not in items(application)


def test_a_text_that_is_no_bound_stays_as_it_was_typed_with_why(application: Application, ada: Person) -> None:
    ada.fill("/sample/items", "/items/judge", **TEA, low="-45 %", high="1.9")
    page = ada.get("/sample/items")
    words = words_of(page.text)
    assert "TEA Tea, black 100 g -45 % 1.9" in words and "1019" not in page.text and "Send 1 row" not in words
    assert "1.9 ” isn't an upper bound. Write a change in percent with its sign, from 0 % to" in words
    number = application.desk.tray.rows(ADA, "items")[0].number
    mended = ada.get(f"/sample/items?mend={number}").text
    assert 'name="high" value="1.9"' in mended and 'name="low" value="-45 %"' in mended
    ada.fill(f"/sample/items?mend={number}", "/items/judge", 1, **TEA, low="-45 %", high="+90 %")
    assert "Send 1 row" in ada.words("/sample/items") and len(application.desk.tray.rows(ADA, "items")) == 1


def test_pasted_rows_are_read_so_too_and_the_others_are_sent(application: Application, ada: Person) -> None:
    ada.fill("/sample/items", "/items/judge", 1, pasted="TEA\tTea\t100 g\t-50 %\t+100 %\nSALT\tSalt\t1 kg\t500\t2000\n")
    words = ada.words("/sample/items")
    assert "Send 1 row" in words and "SALT Salt 1 kg 500 2000" in words and "500 ” isn't a lower bound" in words
    ada.fill("/sample/items", "/items/send")
    assert items(application)["TEA"] == (500, 2000) and "SALT" not in items(application)
    assert "SALT Salt 1 kg 500 2000" in ada.words("/sample/items")

"""Records as sentences before they are sent, and the warnings of times that a clock leaves out or has twice."""

from __future__ import annotations

import re
from collections.abc import Iterator
from pathlib import Path

import pytest

from cpi_tools.desk.year.clock_faults import clock_fault
from cpi_tools.desk.records.record_sentences import NO_NAMES, SENTENCES, Names, names_in, sentence_of
from cpi_tools.text.languages import list_known, speech_of
from cpi_tools.text.message import Money
from cpi_tools.text.clocks import UTC, clock_of
from cpi_tools.office.program import Cpi
from cpi_tools.text.report_language import Teller
from lib.places import ROOT

from . import surveys
from .desk_apps import ADA, CLOCK, Application, Person, applied

PLAN = "T,00,All items\nT,01,Food\nW,01.1.1.1-01,600000\nW,01.1.1.2-01,400000\nI,RICE,01.1.1.1-01\nR,2026-06\n"

EXAMPLES = [
    ["items"],
    ["tables"],
    ["table", "2026-01", "text"],
    ["table", "2026-01", "csv", "2"],
    ["quotes", "2025-12", "2026-01"],
    ["work", "2026-01"],
    ["quote", "1", "2026-01", "price", "210"],
    ["quote", "1", "2026-01", "other", "210", "confirm"],
    ["quote", "1", "2026-01", "missing", "stock"],
    ["item", "RICE", "Rice", "1 kg", "550", "1900"],
    ["calendar", "2027-03", "1803877200", "1806197400", "1806400000"],
    ["collector", "7", "0123456789abcdef0123456789abcdef"],
    ["outlet", "10", "Corner shop"],
    ["plan", "2027", PLAN],
    ["assign", "7", "1", "10", "RICE", "2025-12", "2026-12"],
    ["handover", "7", "1", "8", "2", "2026-03"],
    ["freeze", "2026-01"],
    ["freeze", "2026-01", "01.1.1.2-01"],
    ["freeze", "2026-01", "01.1.1.1-01", "01.1.1.2-01"],
    ["import", "outlet,10,Corner shop\nitem,X\n"],
]
"""Each record of FORMATS, in each of its forms."""

NAMES = Names({"RICE": ("Rice", "1 kg")}, {"10": "Corner shop"}, {("7", "1"): ("RICE", "10")}, {"01.1.1.2-01": "Flour"})


@pytest.fixture
def application(cpi: Cpi, tmp_path: Path) -> Iterator[Application]:
    with applied(cpi, surveys.small(cpi, tmp_path), tmp_path / "room") as it:
        yield it


@pytest.fixture
def ada(application: Application) -> Person:
    return application.person(ADA)


def words_of_formats() -> list[str]:
    """The words of the table of records."""
    text = (ROOT / "docs/reference/FORMATS.md").read_text(encoding="utf-8")
    return re.findall(r"^\| `([a-z]+)` \|", text.partition("| word | arguments |")[2].partition("\n\n")[0], re.M)


def test_each_record_of_the_formats_has_a_sentence_in_each_language() -> None:
    assert set(words_of_formats()) == set(SENTENCES) == {fields[0] for fields in EXAMPLES}
    for code in list_known():
        teller = Teller(speech_of(code), CLOCK, lambda: Money(100, "crowns"))
        for fields in EXAMPLES:
            for names in (NO_NAMES, NAMES):
                says = sentence_of(fields, names)
                assert says is not None, fields
                text = str(teller.render(says))
                assert text and "{" not in text, fields
                assert code == "en" or text != str(says), (code, fields)


@pytest.mark.parametrize(
    "fields, says",
    [
        (
            ["calendar", "2027-03", "1803877200", "1806197400", "1806400000"],
            "March 2027: the window opens on 1 March 2027, 05:00 UTC (2027-03-01T05:00:00Z) and closes on",
        ),
        (
            ["assign", "7", "1", "10", "RICE", "2025-12", "2026-12"],
            "Collector 7, slot 1: Rice, 1 kg (RICE) at Corner shop (outlet 10), from December 2025 to December 2026.",
        ),
        (
            ["handover", "7", "1", "8", "2", "2026-03"],
            "From March 2026 on, slot 1 of collector 7, Rice, 1 kg (RICE) at Corner shop (outlet 10), is slot 2 of collector 8.",
        ),
        (
            ["freeze", "2026-01", "01.1.1.2-01"],
            "January 2026 is frozen, with one aggregate carried: 01.1.1.2-01 Flour.",
        ),
        (["item", "RICE", "Rice", "1 kg", "550", "1900"], "from \u221245\u202f% to +90\u202f% of the last one"),
        (["quote", "1", "2026-01", "price", "210"], "Slot 1 in January 2026: price 2.10."),
        (
            ["plan", "2027", PLAN],
            "Titles: 2; placed items: 1; weights: 2, which add up to 1,000,000 parts per million.",
        ),
    ],
)
def test_a_sentence_has_what_the_record_has(fields: list[str], says: str) -> None:
    text = str(Teller(money=lambda: Money(100, "crowns")).render(sentence_of(fields, NAMES)))
    assert says in text


@pytest.mark.parametrize(
    "fields",
    [
        [],
        [""],
        ["nothing", "1"],
        ["outlet", "10"],
        ["outlet", "ten", "Shop"],
        ["outlet", "\u0661", "Shop"],
        ["item", "RICE", "Rice", "1 kg", "x", "1900"],
        ["calendar", "2027-03", "2027-03-28T02:30", "1", "2"],
        ["calendar", "2027-13", "1", "2", "3"],
        ["calendar", "2027-03", "1", "2", "9" * 40],
        ["quote", "1", "2026-01", "price", ""],
        ["quote", "1", "2026-01", "price", "210", "yes"],
        ["quote", "1", "2026-01", "missing", "rain"],
        ["plan", "2027", "X,1\n"],
        ["plan", "2027", 'T,00,"open'],
        ["plan", "2027", "W,01\n"],
        ["freeze"],
        ["freeze", "soon"],
        ["table", "2026-01", "pdf"],
    ],
)
def test_a_record_of_another_form_is_none(fields: list[str]) -> None:
    assert sentence_of(fields) is None


def test_records_name_each_other() -> None:
    records = [["outlet", "10", "Corner shop"], ["item", "RICE", "Rice", "1 kg", "500", "2000"]]
    says = sentence_of(["assign", "7", "1", "10", "RICE", "2025-12", "2026-12"], names_in(records))
    assert "Rice, 1 kg (RICE) at Corner shop (outlet 10)" in str(says)


def test_texts_of_others_are_texts_in_a_sentence() -> None:
    says = sentence_of(["outlet", "10", "<b>{month}</b>"])
    assert says is not None and "&lt;b&gt;{month}" in says.__html__() and "<b>" not in says.__html__()


# ---- clocks


def test_a_time_that_the_clock_leaves_out_or_has_twice_is_said() -> None:
    prague = Teller(clock=CLOCK)
    left_out, twice = clock_fault("2027-03-28T02:30", CLOCK), clock_fault("2027-10-31T02:30", CLOCK)
    assert "becomes 28 March 2027, 03:30 CEST (2027-03-28T01:30:00Z)." in str(prague.render(left_out))
    said = str(prague.render(twice))
    assert "used, 31 October 2027, 02:30 CEST (2027-10-31T00:30:00Z), not 31 October 2027, 02:30 CET" in said
    assert "(2027-10-31T01:30:00Z)" in said
    for text in ("2027-03-28T01:59", "2027-03-28T03:00", "2027-10-31T03:00", "1803877200", "soon", ""):
        assert clock_fault(text, CLOCK) is None, text
    assert clock_fault("2027-03-28T02:30", UTC) is None
    rule = clock_of("CET-1CEST,M3.5.0,M10.5.0/3")
    assert clock_fault("2027-03-28T02:00", rule) and clock_fault("2027-10-31T02:59", rule)


def test_each_page_that_takes_a_window_says_so_before_it_is_sent(application: Application, ada: Person) -> None:
    leaves, shows = "skips 2027-03-28T02:30", "becomes 28 March 2027, 03:30 CEST (2027-03-28T01:30:00Z)"
    window = ["2027-03-01T08:00", "2027-03-28T02:30", "2027-03-30T09:00"]
    says = (
        "March 2027: the window opens on 1 March 2027, 08:00 CET (2027-03-01T07:00:00Z) and closes on 28 March 2027,"
        " 03:30"
    )
    words = ada.words(
        ada.post("/records/judge", text=f"calendar,2027-03,{','.join(window)}\n").headers["Location"],
    )
    assert leaves in words and shows in words and says in words and "calendar,2027-03,1803884400," in words
    ada.fill(
        "/sample/calendar",
        "/calendar/judge",
        **dict(zip(("month", "opens", "closes", "publishes"), ["2027-03", *window])),
    )
    words = ada.words("/sample/calendar")
    assert leaves in words and shows in words and says in words
    assert application.desk.log.entries == [] or "calendar" not in ada.words("/log")


def test_a_record_is_in_a_fold_beside_its_sentence(application: Application, ada: Person) -> None:
    ada.fill("/sample/assignments", "/assignments/judge", 1, pasted="7,10,RICE,2026-03,2026-12")
    words = ada.words("/sample/assignments").replace(" ", "")
    assert "slot3:Rice,1kg(RICE)atCornershop(outlet10),fromMarch2026" in words
    answer = ada.sent("/records/judge", text="outlet,12,<i>Harbour</i>\n")
    row = re.findall("<details><summary>The record itself</summary><code><bdi>([^<]*)</bdi>", answer.text)
    assert row == ["outlet,12,&lt;i&gt;Harbour&lt;/i&gt;"] and "Outlet 12 is" in answer.text
    sent = ada.follow(ada.fill(answer.request.path + "?" + answer.request.query_string.decode(), "/records/send"))
    assert "Outlet 12 is" in sent.text and "Outlet 12 is" in ada.get("/log").text

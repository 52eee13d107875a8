"""`cpi_tools.office.refusals`: the words of refusals and faults are those of the guides."""

from __future__ import annotations

import re
from collections.abc import Iterator
from pathlib import Path

import pytest

from cpi_tools.office.refusals import COLLECTOR, DESK, FAULTS, PLAN_FAULTS, REFUSALS, Refusal, refusal_words, told_fault

DOCS = Path(__file__).resolve().parents[2] / "docs"

WHICH = {
    None: "",
    "handover": ", of a hand-over",
    "freeze": ", of a freeze",
    "calendar": ", of a calendar row",
}


def table_of(guide: str, heading: str) -> list[tuple[str, ...]]:
    """The rows of the first table behind a heading, without its head; a link is its text."""
    text = (DOCS / guide).read_text(encoding="utf-8").partition(heading)[2]
    match = re.search(r"^\|.*?\n\n", f"{text}\n\n", re.M | re.S)
    assert match, f"{guide} has no table behind {heading}"
    rows = re.sub(r"\[([^]]*)\]\([^)]*\)", r"\1", match[0]).strip().splitlines()[2:]
    return [tuple(cell.strip() for cell in row.strip("|").split("|")) for row in rows]


def number_of(row: Refusal) -> str:
    """The first cell of a row of a guide."""
    numbers = ", ".join(map(str, row.numbers))
    if row.fault is None:
        return numbers + WHICH[row.word]
    return f"{numbers}, fault {row.fault}" + (", at a freeze" if row.word == "freeze" else "")


def rows_for(to: str) -> Iterator[tuple[str, ...]]:
    return ((number_of(row), *row.words) for row in REFUSALS if row.to == to)


@pytest.mark.parametrize(("guide", "to"), [("desk/DESK.md", DESK), ("desk/COLLECTING.md", COLLECTOR)])
def test_the_guides_say_the_same(guide: str, to: str) -> None:
    assert [*rows_for(to)] == table_of(guide, "## What a refusal means, and what to do")


def test_each_number_that_the_rules_name_has_words() -> None:
    rows = table_of("reference/OFFICE.md", "with a carry list |")
    numbers = {int(number) for cells in rows for number in re.findall(r"\d+", cells[0])}
    assert {number for row in REFUSALS for number in row.numbers} == numbers


def test_the_faults_of_a_plan_are_those_of_the_rules() -> None:
    rules = {
        int(number): told.partition(";")[0] for number, told in table_of("reference/OFFICE.md", "## The plan of a year")
    }
    assert {fault: words.because for fault, words in PLAN_FAULTS.items()} == {
        fault: told for fault, told in rules.items()
    }


def test_the_faults_of_an_index_are_those_of_the_rules() -> None:
    text = (DOCS / "reference/OFFICE.md").read_text(encoding="utf-8").partition("### Faults")[2]
    numbers = {int(number) for number in re.findall(r"^\| (\d+) \|", text, re.M)}
    assert {row.fault for row in REFUSALS if 49 in row.numbers} == numbers


def test_each_line_of_the_program_has_words() -> None:
    text = (DOCS / "reference/FORMATS.md").read_text(encoding="utf-8")
    told = re.search(r"^\| status \| when \|\n.*?\n\n", text.partition("## The program")[2], re.M | re.S)
    assert told
    lines = set(re.findall(r"`cpi: ([^`]+)`", told[0]))
    assert set(FAULTS) == lines
    for line in lines:
        assert told_fault(f"cpi: {line}") == f"cpi: {line} ({FAULTS[line].because}; {FAULTS[line].do})"
    assert told_fault("another line") == "another line"
    assert told_fault("cpi: another line") == "cpi: another line"


@pytest.mark.parametrize(
    ("reply", "to", "word", "because"),
    [
        ({"refused": 24}, COLLECTOR, "quote", "the window has closed"),
        ({"refused": 24}, DESK, None, "the window has closed"),
        ({"refused": 20}, COLLECTOR, "quote", "you have no such slot"),
        ({"refused": 21}, COLLECTOR, "quote", "the month has no window yet"),
        ({"refused": 21}, DESK, "freeze", "the month has no calendar row"),
        ({"refused": 20}, DESK, "handover", "the former collector has no such slot"),
        ({"refused": 50}, DESK, "freeze", "the month is frozen"),
        ({"refused": 50}, DESK, "handover", "that month or a later one is frozen"),
        ({"refused": 49, "fault": 1, "code": "01.1.1.1-01"}, DESK, "freeze", "an aggregate has no series with a base price"),
        ({"refused": 49, "fault": 2, "code": "01.1.1.1-01"}, DESK, "freeze", "an aggregate has nothing to compare"),
        ({"refused": 44, "fault": 4, "found": 9}, DESK, "plan", "the weights don't add up to 1,000,000"),
        ({"refused": 44, "fault": 8}, DESK, "plan", "the plan places an item at an elementary aggregate without a weight"),
        ({"refused": 44, "fault": 8}, DESK, "freeze", "a code on the carry list has no weight this year"),
        ({"refused": 41}, DESK, "assign", "the item, outlet or collector (in a hand-over, either collector) isn't"
         " registered"),
        ({"refused": 99}, DESK, None, "refusal 99"),
    ],
)  # fmt: skip
def test_a_refusal_has_the_words_of_who_was_refused(reply: dict[str, object], to: str, word: str, because: str) -> None:
    assert refusal_words(reply, to, word).because == because

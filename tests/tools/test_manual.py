"""`tools/manual.py`: cpi(1) has each refusal that the program can answer, in the words of the guides."""

from __future__ import annotations

import os
import re
import subprocess

import pytest

from lib.places import ROOT
from cpi_tools.command_line import parser
from cpi_tools.office.refusals import PLAN_FAULTS, REFUSALS, Words
from manual import manual
from .needs import needed


@pytest.fixture(scope="module")
def page(tmp_path_factory: pytest.TempPathFactory) -> str:
    """The section of the page as it is read, without what parts its words; a warning of the page fails."""
    file = tmp_path_factory.mktemp("manual") / "cpi.1"
    file.write_text(manual(ROOT / "docs/man", parser(), "1.0", "2026-01-02")["cpi.1"])
    words = [needed("man"), "--warnings", "--no-hyphenation", "--no-justification", "-l", str(file)]
    kept = {**os.environ, "MANWIDTH": "100", "LC_ALL": "C.UTF-8", "MAN_KEEP_FORMATTING": ""}
    ran = subprocess.run(words, capture_output=True, text=True, check=False, env=kept)
    assert (ran.returncode, ran.stderr) == (0, "")
    section = re.search(r"^REFUSALS\n(.*?)^DIAGNOSTICS\n", ran.stdout, re.M | re.S)
    assert section
    return section[1]


def numbers_in(source: str, pattern: str) -> set[int]:
    """The numbers that a pattern finds in a source of the program."""
    text = (ROOT / "crates" / source).read_text(encoding="utf-8")
    return {int(number) for number in re.findall(pattern, text)}


def entries(page: str) -> dict[int, str]:
    """The text of each number, in one line."""
    parts = re.split(r"^ {7}(\d+(?:, \d+)*)(?: {2,}|\n)", page, flags=re.M)[1:]
    texts = {label: " ".join(text.split()) for label, text in zip(parts[::2], parts[1::2])}
    return {int(number): text for label, text in texts.items() for number in label.split(", ")}


def test_each_number_of_the_program_is_there(page: str) -> None:
    numbers = numbers_in("cpi_office/src/refusal.rt", r"Refusal::\w+(?:\(_\)| \{ \.\. \})? => (\d+),")
    assert {10, 26, 49, 90} <= numbers
    assert {*entries(page)} == numbers


def told_faults(text: str) -> set[int]:
    return {int(number) for number in re.findall(r"\bFault (\d+)[:,]", text)}


def test_each_fault_is_there(page: str) -> None:
    """Of a plan and of an index; want of memory is refused by 90."""
    found, source = entries(page), "cpi_wire/src/refusals.rt"
    of_plans = numbers_in(source, r"PlanFault::(?!NoMemory)\w+(?:\(_\))? => (\d+),")
    of_plans |= numbers_in(source, r"PlanFault::TitleMissing\(code\) => located_value\(alloc, code, (\d+), 44\)")
    assert told_faults(found[44]) == of_plans == {*PLAN_FAULTS}
    assert told_faults(found[49]) == numbers_in(source, r"located_value\(alloc, code, (\d+), 49\)")


def is_said(words: Words, text: str) -> bool:
    """Whether a text has the words, of which the first letters may be greater."""
    plain = [said.replace("`", "").rstrip(".") for said in words]
    return all(re.search(rf"(?i:{re.escape(said[0])}){re.escape(said[1:])}", text) for said in plain)


def test_the_words_are_those_of_the_guides(page: str) -> None:
    found = entries(page)
    missing = [(row.numbers, row.words) for row in REFUSALS for at in row.numbers if not is_said(row.words, found[at])]
    assert missing == []
    assert [words for words in PLAN_FAULTS.values() if not is_said(words, found[44])] == []

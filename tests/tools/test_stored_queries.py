"""How SQLite answers what is asked of an office's file: a question about some slots never reads the quotes of all."""

from __future__ import annotations

import inspect
import re
import sqlite3
import typing
from collections.abc import Iterable
from pathlib import Path
from typing import Any

from cpi_tools.office.program import Cpi
from cpi_tools.office.stored import Series, StoredOffice
from . import surveys

SLOT, SLOTS = (7, 1), [(7, 1), (8, 1), (9, 9)]

OF_SLOTS = {"quotes_of_slot": (SLOT,), "quotes_of_series": (SLOTS,), "frozen_of": (SLOT,), "carried_of": (SLOT,)}
"""By name the methods that take slots or series, with what they are called with here."""


class Watched(StoredOffice):
    """An office that keeps each question which it was asked, with the steps by which SQLite answers."""

    def __init__(self, link: sqlite3.Connection):
        super().__init__(link)
        self.asked: list[tuple[str, list[str]]] = []

    def ask(self, text: str, *of: object) -> list[tuple[Any, ...]]:
        self.asked.append((text, [row[3] for row in self._link.execute(f"EXPLAIN QUERY PLAN {text}", of)]))
        return super().ask(text, *of)


def scans_of(text: str, steps: list[str]) -> list[str]:
    """The steps that read all quotes."""
    names = "|".join({"quote_2", *re.findall(r"quote_2 AS (\w+)", text)})
    return [step for step in steps if re.match(rf"SCAN (TABLE )?({names})\b", step)]


def takes_slots(method: Any) -> bool:
    """Whether a method takes a slot, a series, or some of them."""
    hints = typing.get_type_hints(method)
    return any(hint in (Series, Iterable[Series]) for name, hint in hints.items() if name != "return")


def test_the_methods_that_take_slots_are_known() -> None:
    methods = {name for name, method in inspect.getmembers(StoredOffice, inspect.isfunction) if takes_slots(method)}
    assert methods == set(OF_SLOTS)


def test_no_question_about_slots_reads_all_quotes(cpi: Cpi, tmp_path: Path) -> None:
    office = Watched(sqlite3.connect(surveys.small(cpi, tmp_path)))
    for name, words in OF_SLOTS.items():
        getattr(office, name)(*words)
    assert len(office.asked) == len(OF_SLOTS)
    assert [found for text, steps in office.asked if (found := scans_of(text, steps))] == []
    # (a question that does read all of them is seen as one)
    office.last_receipts()
    assert scans_of(*office.asked[-1])


def test_the_quotes_of_several_series_are_those_of_each(cpi: Cpi, tmp_path: Path) -> None:
    office = StoredOffice(sqlite3.connect(surveys.small(cpi, tmp_path)))
    quotes = office.quotes_of_series(SLOTS)
    assert set(quotes) == {(7, 1), (8, 1)}
    for slot in quotes:
        assert quotes[slot] == {month: quote[:2] for month, quote in office.quotes_of_slot(slot).items()}
    assert list(quotes[7, 1]) == sorted(quotes[7, 1]) and office.quotes_of_series([]) == {}

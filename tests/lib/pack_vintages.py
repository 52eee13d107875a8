"""The texts of a pack about the nation's revisions: the tables that later ones replaced, and the rows that these
changed."""

from __future__ import annotations

from collections.abc import Iterator, Mapping
from typing import NamedTuple

from .by_the_manual import Id, Month, Row, printed
from .nation import data, published_at

GREATEST = 10
"""The most items with changed levels that a page shows for a revision."""


class Revised(NamedTuple):
    """A revision with the one before: the number of levels that differ, and the greatest differences, each as the row
    before and now."""

    month: str
    revision: int
    old: Mapping[str, Row]
    new: Mapping[str, Row]

    @property
    def differing(self) -> list[tuple[Row, Row]]:
        """The rows whose levels differ, the greatest difference first."""
        found = [(self.old[code], row) for code, row in self.new.items() if self.old[code].level != row.level]
        return sorted(found, key=lambda it: (-abs(it[1].level - it[0].level), it[1].code))

    @property
    def counted(self) -> str:
        """The number of levels that differ, as text on pages."""
        return f"{len(self.differing)} of {len(self.new)} levels differ."


def rows_by_code(table: Month) -> dict[str, Row]:
    return {row.code: row for row in table.rows}


def revised(tables: Mapping[Id, Month]) -> list[Revised]:
    """Each revision with the one before, in the order of their months."""
    return [
        Revised(month, revision, rows_by_code(tables[month, revision - 1]), rows_by_code(table))
        for (month, revision), table in sorted(tables.items())
        if revision > 1
    ]


def changed(tables: Mapping[Id, Month]) -> dict[tuple[str, str], Row]:
    """The rows that were published first, by month and code, if the month's last row differs."""
    found = {}
    for month, last in {it.month: it.new for it in revised(tables)}.items():
        first = rows_by_code(tables[month, 1])
        found.update({(month, code): row for code, row in first.items() if printed(row) != printed(last[code])})
    return found


def reasons() -> dict[Id, list[dict[str, str]]]:
    """The office's reasons for revising months, in its own words: the columns of its file whose names begin with
    `reason`, one per language."""
    reasons: dict[Id, list[dict[str, str]]] = {}
    for row in data("revisions"):
        said = {name: text for name, text in row.items() if name.startswith("reason")}
        reasons.setdefault((row["month"], int(row["revision"])), []).append(said)
    return reasons


def by_moment(tables: Mapping[Id, Month]) -> Iterator[tuple[Id, Month]]:
    """The tables in the order in which they were published."""
    yield from sorted(tables.items(), key=lambda table: published_at(*table[0]))

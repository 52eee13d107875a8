"""Computes the quality figures a second time, from the records of an office, its published tables, and moments, without
`cpi_tools`.

The rule of few outlets is written in another way than there: it finds the shown figures that can be added and
subtracted to get the figures of a group of divisions, and the number of outlets in that group.
"""

from __future__ import annotations

import csv
import datetime
import io
from collections.abc import Iterable, Iterator, Mapping, Sequence
from fractions import Fraction
from itertools import combinations
from typing import NamedTuple, Optional

from .pack_faults import text

PRICED, REPLACED = {"price", "comparable", "other"}, {"comparable", "other"}
COUNTS = ("outlets", "asked", "priced", "replaced", "missing", "silent")


class Slot(NamedTuple):
    """A slot that a collector should price: the division of its item, its outlet, and the quote, if one came."""

    division: str
    outlet: int
    mark: Optional[str]


def response(slots: Sequence[Slot], division: str) -> tuple[int, ...]:
    """The figures of COUNTS of a division, or of all of them."""
    own = [slot for slot in slots if division in ("00", slot.division)]
    marks = [slot.mark for slot in own]
    silent = marks.count(None)
    priced = sum(mark in PRICED for mark in marks)
    replaced = sum(mark in REPLACED for mark in marks)
    return len({slot.outlet for slot in own}), len(own), priced, replaced, len(own) - priced - silent, silent


def percent(part: int, whole: int) -> str:
    """A percentage with one decimal; empty for a share of nothing."""
    return text(Fraction(100 * part, whole), 1) if whole else ""


# ---- what can be computed of what isn't shown


def derivable(shown: Iterable[str], divisions: Iterable[str]) -> Iterator[frozenset[str]]:
    """The groups of divisions whose figures follow from all items minus some shown divisions, and each shown
    division."""
    every, own = frozenset(divisions), [division for division in shown if division != "00"]
    yield from (frozenset({division}) for division in own)
    if "00" in shown:
        for count in range(len(own) + 1):
            yield from (every - frozenset(less) for less in combinations(own, count) if every - frozenset(less))


def exposed(shown: Iterable[str], outlets: Mapping[str, frozenset[int]], least: int) -> list[frozenset[str]]:
    """The groups that can be computed and have fewer outlets than the rule requires, or are a single hidden
    division."""
    shown = [*shown]
    return [
        group
        for group in derivable(shown, outlets)
        if len(frozenset[int]().union(*(outlets[division] for division in group))) < least
        or (len(group) == 1 and not group <= {*shown})
    ]


class Shown(NamedTuple):
    """A release: the outlets of each division, and the codes with figures; `00` is all items."""

    outlets: Mapping[str, frozenset[int]]
    names: frozenset[str]

    @property
    def hidden(self) -> frozenset[str]:
        """The divisions without figures."""
        return frozenset(self.outlets) - self.names

    @property
    def sums(self) -> list[frozenset[str]]:
        """The divisions whose sum each of its figures is."""
        return [frozenset(self.outlets) if name == "00" else frozenset({name}) for name in sorted(self.names)]


def are_spanned(sums: Iterable[frozenset[str]], wanted: frozenset[str]) -> bool:
    """Whether the figure of some divisions follows from sums by addition and subtraction, if figures stay from release
    to release (elimination by Gauss, exactly)."""
    rest, rows = {name: Fraction(1) for name in wanted}, list[tuple[str, dict[str, Fraction]]]()
    for each in [*({name: Fraction(1) for name in it} for it in sums), rest]:
        row = each
        for pivot, known in rows:
            factor = row.get(pivot, Fraction(0))
            moved = {name: row.get(name, Fraction(0)) - factor * known.get(name, 0) for name in {*row, *known}}
            row = {name: value for name, value in moved.items() if value}
        if each is rest:
            return not row
        if row:
            pivot = min(row)
            rows.append((pivot, {name: value / row[pivot] for name, value in row.items()}))
    raise AssertionError


def exposed_between(one: Shown, other: Shown, least: int) -> list[frozenset[str]]:
    """The groups of hidden divisions of a release, single ones or of too few outlets, that its figures and those of
    another release give by subtraction, except those that the other release shows itself."""
    groups = (
        frozenset(combination)
        for size in range(1, len(one.hidden) + 1)
        for combination in combinations(sorted(one.hidden), size)
    )
    return [
        group
        for group in groups
        if (len(group) == 1 or len(frozenset[int]().union(*(one.outlets[it] for it in group))) < least)
        and are_spanned([*one.sums, *other.sums], group)
        and not are_spanned(other.sums, group)
    ]


# ---- of published tables

Table = tuple[str, int, int, bytes]
"""Month, revision, moment and the bytes of the program."""


def rows_of(table: bytes) -> dict[str, list[str]]:
    """The rows of a table by code."""
    return {row[0]: row for row in csv.reader(io.StringIO(table.decode()))}


def change(table: bytes, code: str, is_annual: bool) -> Optional[Fraction]:
    """A printed change; None if there is none."""
    printed = rows_of(table).get(code, [""] * 8)[5 if is_annual else 4]
    return Fraction(printed) if printed else None


def revision_sizes(tables: Iterable[Table], code: str, is_annual: bool) -> Optional[tuple[str, str, str, str]]:
    """Months, revised months, mean and mean absolute revision of a change."""
    known: dict[str, list[tuple[int, Fraction]]] = {}
    for month, revision, _, table in tables:
        value = change(table, code, is_annual)
        if value is not None:
            known.setdefault(month, []).append((revision, value))
    moved = [max(own)[1] - min(own)[1] for own in known.values()]
    if not moved:
        return None
    mean, absolute = Fraction(sum(moved)) / len(moved), Fraction(sum(abs(it) for it in moved)) / len(moved)
    return str(len(moved)), str(sum(it != 0 for it in moved)), text(mean, 6), text(absolute, 6)


def triangle(
    tables: Sequence[Table], is_annual: bool, columns: int, rows: int
) -> tuple[list[list[str]], dict[str, list[str]]]:
    """The heads of the last columns, by month and revision, and of the last months the change after each publication,
    with an `r` if it differs from the publication before."""
    own = [table for table in tables if table[3]]
    moments = sorted({moment for _, _, moment, _ in own})[-columns:]
    heads = [[f"{month} {revision}" for month, revision, at, _ in own if at == moment] for moment in moments]
    months = sorted({head.split(" ")[0] for column in heads for head in column})[-rows:]
    wanted = {}
    for month in months:
        cells, last = list[str](), None
        for moment in moments:
            known = [(revision, table) for of, revision, at, table in own if of == month and at <= moment]
            value = change(max(known)[1], "00", is_annual) if known else None
            is_other = None not in (last, value) and last != value
            cells.append("" if value is None else text(value, 1) + " r" * is_other)
            last = value
        wanted[month] = cells
    return heads, wanted


def imputed_weight(table: bytes, code: str) -> str:
    """The part of the weight of an item's aggregates that have an imputed price, in percent."""
    own = [row for name, row in rows_of(table).items() if "-" in name and code in ("00", name[:2])]
    weights = [(int(row[1]), row[6] == "1") for row in own]
    imputed = sum(weight for weight, is_imputed in weights if is_imputed)
    return text(Fraction(100 * imputed, sum(weight for weight, _ in weights)), 2)


def days_after(month: str, moment: int, zone: datetime.tzinfo) -> int:
    """The days from the first of the month after to that of the moment, and the days from the last day to it."""
    first = datetime.date(int(month[:4]) + (month[5:] == "12"), int(month[5:]) % 12 + 1, 1)
    return (datetime.datetime.fromtimestamp(moment, zone).date() - first).days + 1

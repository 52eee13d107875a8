"""The draft of a coming year as a folder of sheets, which `take-in` reads, and who changed which row and when."""

from __future__ import annotations

import csv
import io
import json
import time
from collections.abc import Callable, Sequence
from fractions import Fraction
from pathlib import Path
from typing import NamedTuple, Optional

from ...sheets.plan_rows import WHOLE
from ...sheets.record_rows import FIELDS
from ...sheets.sheet_numbers import Numbers
from ...sheets.year.next_year import HEADS
from ...text.message import message as _
from ...text.others import of_others
from ...text.terminal import Fault, because_of
from ...text.text_files import Writer, write_whole
from ..freeze.freezes import sum_of
from ..records.sample_kinds import Kind
from ..serve.faults import not_as_written


# ==== The changes of a draft of a coming year: who changed which row and when, with each row before and after. They
# show a page the changes by others since it was shown.

CHANGES = "changes.jsonl"
"""The file of them: a line for each change."""

Pair = tuple[Optional[list[str]], Optional[list[str]]]
"""A row as it was (None if it is new) and as it is (None if it went)."""


class Change(NamedTuple):
    """A change: the moment in seconds since 1970 UTC, the person, the sheet or setting, and the rows; None if the line
    is of a version that noted no rows."""

    at: int
    by: str
    name: str
    pairs: Optional[list[Pair]] = None


class Changes:
    """The changes in a file."""

    def __init__(self, path: Path):
        self._path = path

    def all(self) -> list[Change]:
        """All of them, the first one first. Raises Fault."""
        try:
            lines = self._path.read_text(encoding="utf-8").splitlines() if self._path.exists() else []
            return [_change_of(*json.loads(line)) for line in lines]
        except OSError as fault:
            raise Fault(because_of(fault)) from fault
        except (ValueError, TypeError) as fault:
            raise Fault(not_as_written(self._path, fault)) from fault

    def add(self, by: str, name: str, pairs: Sequence[Pair]) -> None:
        """Adds one of now. Raises Fault."""
        changes = [*self.all(), Change(int(time.time()), by, name, [*pairs])]
        try:
            write_whole(self._path, "".join(f"{json.dumps(change)}\n" for change in changes).encode(), 0o600)
        except OSError as fault:
            raise Fault(because_of(fault)) from fault

    def version(self) -> str:
        """The version of the draft, which a form sends with it: the number of changes, and a sum of them. Raises
        Fault."""
        return version_of(self.all())

    def since(self, version: str) -> Optional[list[Change]]:
        """The changes after a version; None if it isn't a version of this draft, such as after a new start. Raises
        Fault."""
        found, count = self.all(), version.partition(".")[0]
        if not (count.isascii() and count.isdigit() and len(count) < 9 and int(count) <= len(found)):
            return None
        return found[int(count) :] if version_of(found[: int(count)]) == version else None


def version_of(changes: Sequence[Change]) -> str:
    """The version after some changes."""
    return f"{len(changes)}.{sum_of(changes)}"


def _change_of(at: int, by: str, name: str, pairs: Optional[list[list[Optional[list[str]]]]] = None) -> Change:
    """A change of a line. Raises ValueError or TypeError if it is none."""
    rows = None if pairs is None else [(before, after) for before, after in pairs]
    return Change(int(at), str(by), str(name), rows)


# ==== The draft of a coming year, as `cpi-tools next-year` makes it and `take-in` reads it: a folder with the sheets of
# the plan and of the new series, which people change row by row or by pasting, and the lists of rows that leave the
# sample. Beside the sheets are the sources of the weights, and the changes of the draft.

CLASSIFICATION, WEIGHTS, PLACES, SERIES = "classification", "weights", "places", "series"

SHEETS: dict[str, Kind] = {
    CLASSIFICATION: Kind(CLASSIFICATION, "T", ("code", "title", "weight"), optional="weight"),
    WEIGHTS: Kind(WEIGHTS, "W", ("code", "weight", "source"), optional="source"),
    PLACES: Kind(PLACES, "I", ("item", "code")),
    SERIES: Kind(SERIES, "assign", FIELDS["assign"], ("first", "last"), "slot"),
}
"""The sheets that a person edits, by name; the weights are the classification's, each with its source."""

KEYS = {CLASSIFICATION: 1, WEIGHTS: 1, PLACES: 1, SERIES: 2}
"""The number of columns that identify a row of a sheet; all columns identify a series without a slot."""

LISTS: dict[str, tuple[str, ...]] = {name: tuple(heads) for name, heads in HEADS.items()}
"""The lists that are only shown, by name."""

UNITS = {"ppm": Fraction(1_000_000), **WHOLE, "money": None}
"""The units of weights, with the sum that they add up to; money has no such sum."""

SETTINGS_FILE, SOURCES_FILE = "settings.json", "sources.csv"


class Settings(NamedTuple):
    """The unit of the weights, and their decimal sign."""

    unit: str = "ppm"
    decimal: str = "."


class Sum(NamedTuple):
    """The sum of the weights, the wanted sum (None for money), and the codes whose weights aren't numbers."""

    found: Fraction
    wanted: Optional[Fraction]
    unread: list[str]

    @property
    def is_whole(self) -> bool:
        """Whether nothing is left to put right."""
        return not self.unread and self.wanted in (None, self.found)


Cells = list[str]

SETTINGS, REFERENCE, ALL, MADE = "settings", "reference", "all", "made"
"""Stand for what the weights are given in, for the month at whose prices they are, for all of a draft, and for its
making."""

ONE_FILE = (WEIGHTS, CLASSIFICATION)
"""Two sheets of the same rows."""


class Draft:
    """The draft of a year in its folder."""

    def __init__(self, folder: Path):
        self.folder, self.year = folder, int(folder.name)
        self.changes = Changes(folder / CHANGES)

    @property
    def sheets(self) -> Path:
        """The folder that `take-in` reads."""
        return self.folder / "draft"

    # ---- rows

    def rows(self, name: str) -> list[Cells]:
        """The rows of a sheet, without the year, or of a list. Raises Fault."""
        if name in LISTS:
            return read_rows(self.folder / f"{name}.csv", LISTS[name])
        if name == WEIGHTS:
            return [[code, weight, source] for code, _, weight, source in self.titled_weights()]
        return read_rows(self.sheets / f"{name}.csv", SHEETS[name].columns)

    def titled_weights(self) -> list[Cells]:
        """Code, title, weight and source of each weight, by one reading of the titles: others change them meanwhile. Raises
        Fault."""
        sources, rows = self.sources(), self.rows(CLASSIFICATION)
        return [[code, title, weight, sources.get(code, "")] for code, title, weight in rows if weight or "-" in code]

    def sources(self) -> dict[str, str]:
        """The sources of codes' weights, if they are known. Raises Fault."""
        return {code: source for code, source in read_rows(self.folder / SOURCES_FILE, ("code", "source"))}

    def put(self, name: str, rows: Sequence[Sequence[str]], is_whole: bool = False, by: str = "") -> None:
        """Puts rows into a sheet, in the place of those that they name; `is_whole` says that these are all. Raises
        Fault."""
        if name == WEIGHTS:
            self._put_weights(rows, is_whole, by)
            return
        key = key_of(name)
        found = {} if is_whole else {key(row): row for row in self.rows(name)}
        found.update((key(row), [*row]) for row in rows)
        self._write(name, [*found.values()], by)

    def _put_weights(self, rows: Sequence[Sequence[str]], is_whole: bool, by: str) -> None:
        given = {code: weight for code, weight, _ in rows}
        before, shown = self.rows(CLASSIFICATION), self.rows(WEIGHTS)
        if unknown := sorted({*given} - {row[0] for row in before}):
            code = of_others(unknown[0])
            raise Fault(_("The draft has no code {code}: give it a title first, or omit its weight.", code=code))
        sources = {**self.sources(), **{code: source for code, _, source in rows}}
        weights = {code: given.get(code, "" if is_whole else weight) for code, _, weight in before}
        after = [[code, weights[code], sources.get(code, "")] for code in weights if weights[code] or "-" in code]
        if self._note_changes(WEIGHTS, shown, after, by):
            write_rows(
                self.folder / SOURCES_FILE, ("code", "source"), [[*source] for source in sources.items() if source[1]]
            )
            self._write_rows(CLASSIFICATION, [[code, title, weights[code]] for code, title, _ in before])

    def take_out(self, name: str, cells: Sequence[str], by: str = "") -> None:
        """Takes the row out that some cells name. Raises Fault."""
        key = key_of(name)
        self._write(name, [row for row in self.rows(name) if key(row) != key(cells)], by)

    def _write(self, name: str, rows: Sequence[Cells], by: str) -> None:
        if self._note_changes(name, self.rows(name), rows, by):
            self._write_rows(name, rows)

    def _write_rows(self, name: str, rows: Sequence[Sequence[str]]) -> None:
        kind = SHEETS[name]
        year = [] if name == SERIES else [str(self.year)]
        heads = [*(["year"] if year else []), *kind.columns]
        write_rows(self.sheets / f"{name}.csv", heads, [[*year, *row] for row in rows])

    # ---- what a page showed, and who changed it since

    def sum_page(self, name: str, cells: Optional[Sequence[str]] = None) -> str:
        """A sum of what a page shows of the draft: of a sheet, of the settings, of the reference month or of ALL; of a
        sheet only the row that some cells name, if there are any. Raises Fault."""
        if name in (SETTINGS, REFERENCE):
            return sum_of(self.reference() if name == REFERENCE else self.settings())
        if name == ALL:
            return sum_of([*(self.rows(sheet) for sheet in SHEETS), self.settings(), self.reference()])
        if cells is None:
            return sum_of(self.rows(name))
        key = key_of(name)
        return sum_of(next((row for row in self.rows(name) if key(row) == key(cells)), None))

    def note(self, by: str, name: str, pairs: Sequence[Pair] = ()) -> None:
        """Notes who changes a sheet, a setting, or makes the draft, which rows, and that it is now. Raises Fault."""
        self.changes.add(by, name, pairs)

    def _note_changes(self, name: str, before: Sequence[Cells], after: Sequence[Cells], by: str) -> bool:
        """Notes how rows of a sheet become others, before they are written: so no change is unknown. Whether they do."""
        pairs = pairs_of(before, after, key_of(name))
        if pairs:
            self.note(by, name, pairs)
        return bool(pairs)

    def changed_last(self, name: str) -> tuple[str, int]:
        """The person who changed a sheet, a setting or ALL last, and the time; an empty name if nobody did. Raises
        Fault."""
        of = [it for it in self.changes.all() if name == ALL or it.name in names_with(name)]
        return (of[-1].by, of[-1].at) if of else ("", 0)

    def touched_since(
        self, version: str, name: str, rows: Optional[Sequence[Sequence[str]]]
    ) -> Optional[tuple[str, int, list[Pair]]]:
        """The last change to some rows of a sheet (None: to any row) since a version of the draft: the person, the
        time, and the changes of these rows; None if nobody changed them. Raises Fault."""
        since = self.changes.since(version)
        if since is None:
            return (*self.changed_last(ALL), list[Pair]())
        key = key_of(name)
        keys = None if rows is None else {key(row) for row in rows}
        found = [it for it in since if it.name in names_with(name) and touches(it, keys, key)]
        pairs = [pair for it in found for pair in it.pairs or () if keys is None or keys & keys_of(pair, key)]
        return (found[-1].by, found[-1].at, pairs) if found else None

    # ---- the reference month, and what the weights are in

    def reference(self) -> str:
        """The month at whose prices the weights are, or nothing if that is December before the year. Raises Fault."""
        rows = read_rows(self.sheets / "plans.csv", ("reference",))
        return rows[0][0] if rows else ""

    def settings(self) -> Settings:
        """The unit of the weights, and their decimal sign. Raises Fault."""
        try:
            return Settings(*json.loads((self.folder / SETTINGS_FILE).read_text(encoding="utf-8")))
        except FileNotFoundError:
            return Settings()
        except (OSError, ValueError, TypeError) as fault:
            raise Fault(not_as_written(self.folder / SETTINGS_FILE, fault)) from fault

    def change_settings(self, settings: Settings, by: str = "") -> None:
        """Sets what the weights are in. Raises Fault."""
        if settings != self.settings():
            self.note(by, SETTINGS, [([*self.settings()], [*settings])])
            write(self.folder / SETTINGS_FILE, json.dumps([*settings]))

    def set_reference(self, reference: str, by: str = "") -> None:
        """Sets the month at whose prices the weights are. Raises Fault."""
        if reference != self.reference():
            self.note(by, REFERENCE, [([self.reference()], [reference])])
            write_rows(self.sheets / "plans.csv", ["year", "reference"], [[str(self.year), reference]])

    def numbers(self) -> dict[str, Optional[Fraction]]:
        """The weights by their codes; None for a text that isn't a number. Raises Fault."""
        unit, decimal = self.settings()
        reads, fractions = Numbers(decimal), dict[str, Optional[Fraction]]()
        for code, weight, _source in self.rows(WEIGHTS):
            plain = weight[:-1] if unit == "percent" and weight.endswith("%") else weight
            fractions[code] = reads.of(plain) if weight else Fraction(0)
        return fractions

    def sum(self) -> Sum:
        """The sum of the weights. Raises Fault."""
        numbers = self.numbers()
        unread = [code for code, number in numbers.items() if number is None]
        return Sum(sum(filter(None, numbers.values()), Fraction(0)), UNITS[self.settings().unit], unread)


Key = tuple[str, ...]


def key_of(name: str) -> Callable[[Sequence[str]], Key]:
    """The function that returns the key of a row of a sheet."""
    count = KEYS[name]
    return lambda cells: tuple(cells[:count]) if all(cells[:count]) else tuple(cells)


def names_with(name: str) -> Sequence[str]:
    """The names of changes that are of a sheet too."""
    return ONE_FILE if name in ONE_FILE else (name,)


def pairs_of(before: Sequence[Cells], after: Sequence[Cells], key: Callable[[Sequence[str]], Key]) -> list[Pair]:
    """The rows that become others, are new or go, each as it was and as it is."""
    was, now = ({key(row): [*row] for row in rows} for rows in (before, after))
    return [(was.get(it), now.get(it)) for it in {**was, **now} if was.get(it) != now.get(it)]


def keys_of(pair: Pair, key: Callable[[Sequence[str]], Key]) -> set[Key]:
    """The keys of a row as it was and as it is."""
    return {key(cells) for cells in pair if cells}


def touches(change: Change, keys: Optional[set[Key]], key: Callable[[Sequence[str]], Key]) -> bool:
    """Whether a change is of one of some rows; of one whose rows aren't known it may be."""
    return keys is None or change.pairs is None or any(keys & keys_of(pair, key) for pair in change.pairs)


# ---- files


def read_rows(path: Path, columns: Sequence[str]) -> list[Cells]:
    """These columns of a file of the draft; none if it isn't there. Raises Fault."""
    try:
        with path.open(encoding="utf-8", newline="") as file:
            rows = csv.DictReader(file, strict=True)
            return [[row.get(column) or "" for column in columns] for row in rows]
    except FileNotFoundError:
        return []
    except OSError as fault:
        raise Fault(because_of(fault)) from fault
    except (csv.Error, UnicodeError) as fault:
        raise Fault(not_as_written(path, fault)) from fault


def write_rows(path: Path, heads: Sequence[str], rows: Sequence[Sequence[str]]) -> None:
    """Writes a file of the draft whole. Raises Fault."""
    text = io.StringIO()
    out = Writer(text)
    out.writerow(heads)
    out.writerows(rows)
    write(path, text.getvalue())


def write(path: Path, text: str) -> None:
    """Writes a file that only its owner reads. Raises Fault."""
    try:
        write_whole(path, text.encode(), 0o600)
    except OSError as fault:
        raise Fault(because_of(fault)) from fault

"""A map's file, as TOML: read whole, or refused in one line with the file, its line, the text that was read and the
form that is wanted.

`examples/maps/README.md` lists the words.
"""

from __future__ import annotations

import csv
import io
from collections.abc import Mapping, Sequence
from fractions import Fraction
from pathlib import Path
from typing import Any, NoReturn, Optional

from ...text.terminal import Fault, because_of
from ...text.text_files import BadToml, Toml, toml_of
from ..sheet_numbers import PLAIN, RULES, Rule
from ..record_rows import SHEETS
from ..price_cells import MARKS, MISSING, REASONS
from .office_map import CODED, NAMES, NONE, UNKNOWN, Files, Join, OfficeMap, Pattern, Table

MOST_BYTES = 1 << 24
"""The most bytes of a map."""

MEANINGS = (*(mark for mark in MARKS if mark != MISSING), *REASONS, NONE)
"""The possible meanings of a mark, or of a text in place of a price."""

PRICE_IN_TEXT = "{price}"

WORDS: Mapping[str, type] = {
    "decimal": str, "minor": int, "weights": str, "languages": list, "several": str, "round": str, "codes": dict,
    "ignore": list,
}  # fmt: skip
"""The words of a map besides its tables."""

OF_FILES: Mapping[str, type] = {"files": str, "sheets": str, "heading": int, "encoding": str, "columns": dict}
OF_JOIN: Mapping[str, type] = {**OF_FILES, "on": dict}
OF_TABLE: Mapping[str, type] = {
    **OF_FILES, "values": dict, "unread": list, "heads": str, "month": str, "flag": str, "marks": dict, "cells": dict,
    "units": dict, "only": dict, "sums": str, "join": dict,
}  # fmt: skip
ONLY_OF_PRICES = ("month", "flag", "marks", "cells", "units")
"""Words that only tables of prices have."""

NAMED = {str: "a text", int: "a whole number", list: "a list", dict: "a table"}

UNITS_OF_WEIGHTS = ("ppm", "permille", "percent", "money")

NEAREST = "nearest"
MEASURES = ("quantity", "unit")
"""The columns of prices that only a map gives: the quantity that was priced, and its unit."""


def columns_of(sheet: str) -> tuple[str, ...]:
    """The columns that a map may give to a sheet."""
    own = (*SHEETS[sheet].needed, *SHEETS[sheet].others)
    return (*own, *MEASURES) if sheet == "prices" else own


def read_map(path: Path) -> OfficeMap:
    """The map of a file. Raises Fault with one line."""
    try:
        return _Reader(toml_of(path, MOST_BYTES)).office_map()
    except BadToml as fault:
        raise Fault(str(fault)) from fault


class _Reader:
    """Reads the words of a map, or refuses them."""

    def __init__(self, toml: Toml):
        self._toml = toml
        self._parts: list[Path] = []
        self._languages: tuple[str, ...] = ()

    def _refuse(self, key: Sequence[str], says: str) -> NoReturn:
        """Raises Fault with the line of a key; a value of several lines is shown on one line."""
        raise Fault(f"{self._toml.path}, line {self._toml.line(*key)}: {' '.join(says.split())}")

    # ---- words

    def office_map(self) -> OfficeMap:
        """The map of all words."""
        words = self._toml.words
        of_sheets = [word for word in words if word in SHEETS]
        self._look_at(
            (), {word: value for word, value in words.items() if word not in SHEETS}, WORDS, [*WORDS, *SHEETS]
        )
        self._languages = tuple(
            self._one_of((), words, "languages", each, NAMES) for each in words.get("languages", [])
        )
        codes = {column: self._codes(column, table) for column, table in words.get("codes", {}).items()}
        tables = [table for word in of_sheets for table in self._tables(word, words[word])]
        if not tables:
            self._refuse((), f"it has no table of a sheet: wanted one of {', '.join(f'[{name}]' for name in SHEETS)}")
        several = self._choice(words, "several", RULES)
        rule = Rule(several, self._choice(words, "round", (NEAREST,)) == NEAREST)
        minor = words.get("minor", 0)
        if "minor" in words and minor < 1:
            self._refuse(("minor",), f"minor is {minor}: wanted the minor units in a unit of the prices, from 1 on")
        decimal, weights = self._choice(words, "decimal", (".", ",")), self._choice(words, "weights", UNITS_OF_WEIGHTS)
        parts = (self._toml.path, *self._parts)
        ignored = tuple(words.get("ignore", []))
        made = (self._toml.path, parts, minor, decimal, weights, self._languages, rule, codes, tuple(tables), ignored)
        return OfficeMap(*made)

    def _look_at(self, key: Sequence[str], words: Any, known: Mapping[str, type], wanted: Sequence[str] = ()) -> None:
        """Refuses a word that isn't known, or whose value is of another kind."""
        for word, value in words.items():
            if word not in known:
                self._refuse((*key, word), f"{word} is no word here: wanted one of {', '.join(wanted or known)}")
            kind = known[word]
            if not isinstance(value, kind) or isinstance(value, bool):
                self._refuse((*key, word), f"{word} is {value!r}: wanted {NAMED[kind]}")
            if value == [UNKNOWN]:
                self._refuse((*key, word), f'{word} is still "{UNKNOWN}": wanted the names of columns, or none: []')
            if isinstance(value, list) and not all(isinstance(each, str) for each in value):
                self._refuse((*key, word), f"{word} has a value that is no text: wanted texts")

    def _one_of(self, key: Sequence[str], _: Any, word: str, value: str, known: Any) -> str:
        if value not in known:
            self._refuse((*key, word), f'{word} is "{value}": wanted one of {", ".join(known)}')
        return value

    def _choice(self, words: Mapping[str, Any], word: str, known: Sequence[str], key: Sequence[str] = ()) -> str:
        """One of some texts; empty if the word is missing."""
        return self._one_of(key, words, word, words[word], known) if word in words else ""

    def _texts(self, key: Sequence[str], table: Any, known: Sequence[str] = ()) -> dict[str, str]:
        """A table of texts, each of which must be a known text, if there are known texts."""
        if not isinstance(table, dict):
            self._refuse(key, f"{key[-1]} is {table!r}: wanted a table")
        for name, value in table.items():
            if not isinstance(value, str):
                self._refuse((*key, name), f'"{name}" is {value!r}: wanted a text')
            if value == UNKNOWN:
                wanted = f"one of {', '.join(known)}" if known else "an answer"
                self._refuse((*key, name), f'"{name}" is still "{UNKNOWN}": wanted {wanted}')
            if known and value not in known:
                self._refuse((*key, name), f'"{name}" is "{value}": wanted one of {", ".join(known)}')
        return dict(table)

    def _pattern(self, key: Sequence[str], text: str, columns: Sequence[str]) -> Pattern:
        try:
            return Pattern(text, columns, self._languages)
        except ValueError as fault:
            self._refuse(key, f'{key[-1]} is "{text}": {fault}')

    # ---- codes

    def _codes(self, column: str, table: Any) -> dict[str, str]:
        """Our codes by those of the office: a table, or the name of a CSV file next to the map."""
        key = ("codes", column)
        if column not in CODED:
            self._refuse(key, f"{column} has no codes: wanted one of {', '.join(CODED)}")
        codes = self._codes_of_file(key, table) if isinstance(table, str) else self._texts(key, table)
        for theirs, ours in codes.items():
            if not ours.strip():
                self._refuse((*key, theirs), f'"{theirs}" has no code of ours: wanted one, or "{NONE}"')
        return codes

    def _codes_of_file(self, key: Sequence[str], name: str) -> dict[str, str]:
        """The codes of a file with the columns `theirs` and `ours`."""
        path = self._toml.path.parent / name
        if Path(name).name != name:
            self._refuse(key, f'{key[-1]} is "{name}": wanted the name of a file next to the map')
        codes: dict[str, str] = {}
        try:
            with path.open(encoding="utf-8-sig", newline="") as file:
                rows = csv.reader(file, strict=True)
                if next(rows, None) != ["theirs", "ours"]:
                    self._refuse(key, f"{path}, row 1: wanted the columns theirs,ours")
                for number, row in enumerate(rows, 2):
                    if len(row) != 2:
                        self._refuse(key, f"{path}, row {number}: it has {len(row)} cells: wanted theirs,ours")
                    if row[0] in codes:
                        self._refuse(key, f'{path}, row {number}: "{row[0]}" is there twice: wanted one code of ours')
                    codes[row[0]] = row[1]
        except OSError as fault:
            self._refuse(key, because_of(fault))
        except (UnicodeDecodeError, csv.Error) as fault:
            self._refuse(key, f"{path} isn't read: {fault}: wanted CSV in UTF-8")
        self._parts.append(path)
        return codes

    # ---- tables

    def _tables(self, sheet: str, value: Any) -> list[Table]:
        """The tables of a sheet: one, or several in an array."""
        if isinstance(value, dict):
            return [self._table(sheet, (sheet,), value)]
        if not isinstance(value, list) or not all(isinstance(each, dict) for each in value):
            self._refuse((sheet,), f"{sheet} is {value!r}: wanted a table [{sheet}], or several [[{sheet}]]")
        return [self._table(sheet, (sheet, str(at)), each) for at, each in enumerate(value)]

    def _table(self, sheet: str, key: tuple[str, ...], words: Mapping[str, Any]) -> Table:
        self._look_at(key, words, OF_TABLE)
        for word in ONLY_OF_PRICES if sheet != "prices" else ():
            if word in words and (sheet, word) != ("classification", "cells"):
                self._refuse((*key, word), f"{word} is a word of prices, and not of {sheet}")
        if "sums" in words and sheet != "classification":
            self._refuse((*key, "sums"), f"sums is a word of classification, and not of {sheet}")
        self._choice(words, "sums", ("unread",), key)
        form, join = self._files(sheet, key, words), self._join(sheet, key, words)
        heads = self._choice(words, "heads", ("month", "year"), key)
        if heads and heads != ("month" if sheet == "prices" else "year" if sheet == "classification" else ""):
            self._refuse((*key, "heads"), f'heads is "{heads}": wanted month for prices, year for classification')
        month = self._pattern((*key, "month"), words["month"], ()) if "month" in words else None
        if month and not month.has_month:
            self._refuse(
                (*key, "month"), f'month is "{month.text}": wanted the places of a month, as {{year}}-{{month}}'
            )
        table = Table(
            sheet, key, form, self._values(sheet, key, words), frozenset(column.lower() for column in words.get("unread", [])),
            heads, month, words.get("flag", "").lower(), self._marks(key, words),
            self._texts((*key, "cells"), words.get("cells", {}), MEANINGS), self._units(key, words),
            self._only(key, words), "sums" in words, join,
        )  # fmt: skip
        self._look_at_names(table)
        self._look_at_columns(table)
        return table

    def _files(self, sheet: str, key: tuple[str, ...], words: Mapping[str, Any]) -> Files:
        """The files of a table, or of a table that is joined to it."""
        if "files" not in words:
            self._refuse(key, 'files is missing: wanted the names of files, as files = "quotes-{year}{month}.csv"')
        columns = columns_of(sheet)
        files = self._pattern((*key, "files"), words["files"], columns)
        sheets = self._pattern((*key, "sheets"), words["sheets"], columns) if "sheets" in words else None
        heading, encoding = words.get("heading", 1), words.get("encoding", "")
        if not 1 <= heading <= 1000:
            self._refuse((*key, "heading"), f"heading is {heading}: wanted the row of the columns' names, 1 to 1000")
        try:
            io.TextIOWrapper(io.BytesIO(), encoding or "utf-8")
        except LookupError:
            self._refuse((*key, "encoding"), f'encoding is "{encoding}": wanted a code page, as windows-1252')
        return Files(files, sheets, heading, encoding, self._columns(sheet, key, words.get("columns", {})))

    def _columns(self, sheet: str, key: tuple[str, ...], words: Mapping[str, Any]) -> dict[str, tuple[str, ...]]:
        """The office's columns by ours, in small letters; no column of the office is named twice."""
        columns: dict[str, tuple[str, ...]] = {}
        named: dict[str, str] = {}
        for ours, value in words.items():
            at, several = (*key, "columns", ours), [value] if isinstance(value, str) else value
            if ours not in columns_of(sheet):
                self._refuse(at, f"{ours} is no column of {sheet}: wanted one of {', '.join(columns_of(sheet))}")
            if (
                not isinstance(several, list)
                or not several
                or not all(isinstance(name, str) and name for name in several)
            ):
                self._refuse(at, f"{ours} is {value!r}: wanted the name of a column, or a list of names")
            if len(several) > 1 and ours not in CODED:
                self._refuse(at, f"{ours} has {len(several)} columns: wanted one")
            for theirs in several:
                if theirs == UNKNOWN:
                    self._refuse(at, f'{ours} is still "{UNKNOWN}": wanted the name of a column')
                if theirs.lower() in named:
                    self._refuse(at, f'the column "{theirs}" is named twice, as {named[theirs.lower()]} and {ours}')
                named[theirs.lower()] = ours
            columns[ours] = tuple(name.strip().lower() for name in several)
        return columns

    def _join(self, sheet: str, key: tuple[str, ...], words: Mapping[str, Any]) -> Optional[Join]:
        if "join" not in words:
            return None
        at, join = (*key, "join"), words["join"]
        self._look_at(at, join, OF_JOIN)
        on = self._texts((*at, "on"), join.get("on", {}))
        if not on:
            self._refuse(at, 'on is missing: wanted columns here and there, as on = { parent = "id" }')
        lower = {here.strip().lower(): there.strip().lower() for here, there in on.items()}
        return Join(self._files(sheet, at, join), lower)

    def _values(self, sheet: str, key: tuple[str, ...], words: Mapping[str, Any]) -> dict[str, str]:
        values = self._texts((*key, "values"), words.get("values", {}))
        for ours in values:
            if ours not in columns_of(sheet):
                says = f"{ours} is no column of {sheet}: wanted one of {', '.join(columns_of(sheet))}"
                self._refuse((*key, "values", ours), says)
        return values

    def _marks(self, key: tuple[str, ...], words: Mapping[str, Any]) -> dict[str, dict[str, str]]:
        tables = words.get("marks", {}).items()
        return {name.lower(): self._texts((*key, "marks", name), each, MEANINGS) for name, each in tables}

    def _units(self, key: tuple[str, ...], words: Mapping[str, Any]) -> dict[str, Fraction]:
        """The size of each unit in the smallest one, `kg = "1000"`."""
        units: dict[str, Fraction] = {}
        for name, text in self._texts((*key, "units"), words.get("units", {})).items():
            if not PLAIN.fullmatch(text) or Fraction(text) <= 0:
                self._refuse((*key, "units", name), f'"{name}" is "{text}": wanted a number above 0, as "1000"')
            units[name.lower()] = Fraction(text)
        return units

    def _only(self, key: tuple[str, ...], words: Mapping[str, Any]) -> dict[str, frozenset[str]]:
        only: dict[str, frozenset[str]] = {}
        for name, texts in words.get("only", {}).items():
            if not isinstance(texts, list) or not texts or not all(isinstance(text, str) for text in texts):
                self._refuse((*key, "only", name), f'"{name}" is {texts!r}: wanted a list of the texts that count')
            only[name.lower()] = frozenset(texts)
        return only

    def _look_at_names(self, table: Table) -> None:
        """Refuses a table that names a column of the office by nothing: a column without a name is read for nothing."""
        named: dict[tuple[str, ...], tuple[str, ...]] = {(*table.key, "marks", name): (name,) for name in table.marks}
        named[(*table.key, "only")] = (*table.only,)
        forms = [(table.form, table.key)]
        if table.join:
            forms.append((table.join.form, (*table.key, "join")))
            named[(*table.key, "join", "on")] = (*table.join.on, *table.join.on.values())
        for form, key in forms:
            named.update({(*key, "columns", ours): theirs for ours, theirs in form.columns.items()})
        for key, names in named.items():
            if not all(name.strip() for name in names):
                word = key[-1] or key[-2]
                self._refuse(key, f"{word} has a column without a name: wanted the name of a column")

    def _look_at_columns(self, table: Table) -> None:
        """Refuses a table in which a column is given twice, or one of our columns by nothing."""
        of_form = [*table.form.columns, *table.values, *self._in_names(table.form)]
        joined = [*table.join.form.columns, *self._in_names(table.join.form)] if table.join else []
        of_heads = {"month": ["month", "value"], "year": ["year", "weight"]}.get(table.heads, [])
        given = [*of_form, *joined, *of_heads]
        for ours in given:
            if given.count(ours) > 1:
                self._refuse(table.key, f"{ours} is given twice: wanted it from one column, name or value")
        if ("quantity" in given) != bool(table.units):
            self._refuse(table.key, "quantity and units belong together: wanted both, or none")
        if "unit" in given and "quantity" not in given:
            self._refuse(table.key, "unit is of a quantity: wanted a column quantity")
        if table.flag and not (table.heads == "month" and table.flag in table.marks):
            says = f'flag names the columns after months: wanted heads = "month" and a table marks.{table.flag}'
            self._refuse((*table.key, "flag"), says)

    def _in_names(self, form: Files) -> list[str]:
        """Our columns whose values come from the names of files and sheets."""
        patterns = [form.files, *([form.sheets] if form.sheets else [])]
        places = [
            place
            for pattern in patterns
            for place in pattern.places
            if place not in ("year", "year2", "month", "name", "day")
        ]
        return [*places, *("month" for pattern in patterns if pattern.has_month)]

"""Profiles: how a pack's series are named in a data structure of another agency, such as the IMF's.

A profile is a file of TOML. `structure` names the data structure and its version, `dimensions` its dimensions in their
order, and for each of these a table `[dimension.NAME]` says what it has: `constant`, one code; or `of`, the dimension of
ours that it is taken from, or several, and in `codes` what each of our codes, joined by points, is called there. A series
whose code isn't in `codes` isn't written, unless `others = "same"` says that it is as ours. `[attribute.NAME]` says the same of an attribute, and in `at` whether it is
of a `series` or of an `observation`. Our ids are those of `sdmx`, whatever the office calls them.

What can't be known of a foreign structure isn't tested: which dimensions and codes it has in the version that is named.

How an artefact of SDMX is named: by its agency, its id and its version, as in `IMF:ECOFIN_DSD(1.0)`.
"""

from __future__ import annotations

import re
from collections.abc import Mapping, Sequence
from pathlib import Path
from typing import Any, NamedTuple, NoReturn, Optional

from ...text.terminal import Fault
from ...text.text_files import BadToml, toml_of

WORDS = {"id": str, "structure": str, "dataflow": str, "reference": str, "deepest": int, "dimensions": list,
         "dimension": dict, "attribute": dict}  # fmt: skip
"""The words of a profile, and what each is."""

NEEDED = ("id", "structure", "dimensions")
DIMENSION_WORDS, ATTRIBUTE_WORDS = ("constant", "of", "codes", "others"), ("constant", "of", "codes", "others", "at")
SAME = "same"
AT_SERIES, AT_OBSERVATION = "series", "observation"

NAME, CODE = re.compile("[A-Za-z][A-Za-z0-9_-]{0,59}"), re.compile("[A-Za-z0-9_@$-]{1,60}")
DEEPEST = 5

MOST_BYTES = 1 << 24
"""No profile takes more."""


class BadProfile(Fault):
    """A profile with a fault; one line."""


class Source(NamedTuple):
    """Where a dimension or an attribute comes from: one value, or what ours have, by `codes` if there are some; with
    `has_others`, codes that aren't in the table stay as ours. `at` says what an attribute belongs to, and `line` is
    where the table begins."""

    name: str
    constant: Optional[str]
    of: tuple[str, ...]
    codes: Optional[Mapping[str, str]]
    has_others: bool
    at: str
    line: int

    def value(self, ours: Mapping[str, str]) -> Optional[str]:
        """Its value by ours; None if there is none."""
        if self.constant is not None:
            return self.constant
        code = ".".join(ours[name] for name in self.of)
        if self.codes is None or (self.has_others and code not in self.codes):
            return code
        return self.codes.get(code)


class Profile(NamedTuple):
    """A profile with its file: `deepest` is how deep the items are that are written (0 all items, 5 elementary
    aggregates), and `reference` the period in which its index is 100, if it says so."""

    path: Path
    lines: Mapping[tuple[str, ...], int]
    id: str
    structure: Reference
    flow: Optional[Reference]
    reference: str
    deepest: int
    dimensions: tuple[Source, ...]
    attributes: tuple[Source, ...]

    def line(self, *key: str) -> int:
        """The line of a key, or of the table that it is in."""
        while key and key not in self.lines:
            key = key[:-1]
        return self.lines.get(key, 1)

    def refuse(self, line: int, says: str) -> NoReturn:
        """Raises BadProfile with a line of the file; a value of several lines is given in one."""
        raise BadProfile(f"{self.path}, line {line}: {' '.join(says.split())}")


# ---- reading


def read_profile(path: Path) -> Profile:
    """The profile of a file. Raises BadProfile."""
    try:
        toml = toml_of(path, MOST_BYTES)
    except BadToml as fault:
        raise BadProfile(str(fault)) from fault
    return _Reader(path, toml.lines).profile(toml.words)


class _Reader:
    """Reads the words of a profile."""

    def __init__(self, path: Path, lines: Mapping[tuple[str, ...], int]):
        nothing = Reference("", "", "")
        self._empty = Profile(path, lines, "", nothing, None, "", DEEPEST, (), ())

    def _refuse(self, key: Sequence[str], says: str) -> NoReturn:
        self._empty.refuse(self._empty.line(*key), says)

    def profile(self, words: Mapping[str, Any]) -> Profile:
        """The profile of all words."""
        for word, value in words.items():
            if word not in WORDS:
                self._refuse((word,), f"{word} is no word of a profile: wanted one of {', '.join(WORDS)}")
            if not isinstance(value, WORDS[word]) or isinstance(value, bool):
                self._refuse((word,), f"{word} isn't as it has to be: wanted {_say_wanted(WORDS[word])}")
        for word in NEEDED:
            if word not in words:
                self._refuse((), f"{word} is missing: wanted a line {word} = .. above the tables")
        if not NAME.fullmatch(words["id"]):
            self._refuse(("id",), f"id is {words['id']}: wanted letters, digits, _ and -, as for a file")
        if words.get("deepest", 0) not in range(DEEPEST + 1):
            self._refuse(("deepest",), f"deepest is {words['deepest']}: wanted 0, all items, to {DEEPEST}")
        flow = self._reference("dataflow", words["dataflow"]) if "dataflow" in words else None
        return self._empty._replace(
            id=words["id"],
            structure=self._reference("structure", words["structure"]),
            flow=flow,
            reference=words.get("reference", ""),
            deepest=words.get("deepest", DEEPEST),
            dimensions=self._dimensions(words["dimensions"], words.get("dimension", {})),
            attributes=tuple(self._source("attribute", name, it) for name, it in words.get("attribute", {}).items()),
        )

    def _reference(self, word: str, text: str) -> Reference:
        """The structure or the dataflow that a word names."""
        parts = REFERENCE.fullmatch(text)
        if not parts:
            self._refuse((word,), f"{word} is {text}: wanted agency, id and version like IMF:ECOFIN_DSD(1.0)")
        return Reference(*parts.groups())

    def _dimensions(self, names: Sequence[object], tables: Mapping[str, Any]) -> tuple[Source, ...]:
        """The dimensions in their order."""
        for name in names:
            if not isinstance(name, str) or not NAME.fullmatch(name) or names.count(name) > 1:
                self._refuse(("dimensions",), f"{name} is no id of a dimension, or is there twice")
            if name not in tables:
                says = f"dimension {name} has no value: wanted a table [dimension.{name}] with constant or of"
                self._refuse(("dimensions",), says)
        for name in tables:
            if name not in names:
                self._refuse(("dimension", name), f"{name} isn't in dimensions: wanted its place there")
        return tuple(self._source("dimension", str(name), tables[str(name)]) for name in names)

    def _source(self, kind: str, name: str, table: Any) -> Source:
        """The contents of a table."""
        key, known = (kind, name), DIMENSION_WORDS if kind == "dimension" else ATTRIBUTE_WORDS
        if not isinstance(table, dict) or not NAME.fullmatch(name):
            self._refuse(key, f"{kind} {name}: wanted an id, and a table with constant or of")
        for word in table:
            if word not in known:
                self._refuse((*key, word), f"{word} is no word of [{kind}.{name}]: wanted one of {', '.join(known)}")
        if ("constant" in table) == ("of" in table):
            self._refuse(key, f"{kind} {name}: wanted constant, or of, and not both")
        of, constant = table.get("of", []), table.get("constant")
        of = [of] if isinstance(of, str) else of
        if not isinstance(of, list) or not all(isinstance(each, str) for each in of) or constant is None and not of:
            self._refuse((*key, "of"), "of isn't as it has to be: wanted one of our ids, or a list of them")
        if constant is not None:
            self._test_code((*key, "constant"), constant, kind)
        at = table.get("at", AT_SERIES)
        if at not in (AT_SERIES, AT_OBSERVATION):
            self._refuse((*key, "at"), f"at is {at}: wanted {AT_SERIES} or {AT_OBSERVATION}")
        if table.get("others", SAME) != SAME:
            self._refuse((*key, "others"), f"others is {table['others']}: wanted {SAME}, or no line")
        codes = self._codes(key, table.get("codes"), kind)
        if codes is not None and constant is not None:
            self._refuse((*key, "codes"), "codes go with of, and not with constant")
        if len(of) > 1 and codes is None:
            self._refuse(key, f"{kind} {name} is of several: wanted codes, ours joined by points")
        return Source(name, constant, tuple(of), codes, "others" in table, at, self._empty.line(*key))

    def _codes(self, key: tuple[str, ...], table: Any, kind: str) -> Optional[dict[str, str]]:
        """Our codes with theirs."""
        if table is None:
            return None
        if not isinstance(table, dict) or not table:
            self._refuse((*key, "codes"), "codes is empty: wanted a table with our codes and theirs")
        for ours, theirs in table.items():
            self._test_code((*key, "codes", ours), theirs, kind)
        return dict(table)

    def _test_code(self, key: tuple[str, ...], code: Any, kind: str) -> None:
        """Refuses what is no code of a dimension; an attribute may have any text."""
        is_right = isinstance(code, str) and (CODE.fullmatch(code) if kind == "dimension" else code)
        if not is_right:
            self._refuse(key, f"{code!r} is no code: wanted a text of letters, digits, _, @, $ and -")


def _say_wanted(kind: type) -> str:
    """The values that a word can have."""
    return {str: "a text", int: "a whole number", list: "a list of ids", dict: "a table"}[kind]


REFERENCE = re.compile(r"([A-Za-z][A-Za-z0-9_.-]*):([A-Za-z0-9_@$-]+)\(([0-9]+(?:\.[0-9]+)*)\)")


class Reference(NamedTuple):
    """An artefact of an agency in a version."""

    agency: str
    id: str
    version: str

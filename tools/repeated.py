"""What is written twice: lemmas by their statements, and runs of lines.

A statement is compared without white space and with its variables by their order, so `(x : A) → P x` and `(y : A) → P y`
are one. Runs are compared line by line, without indentation; comments, imports, blank lines and lines without a letter
or digit are passed over.
"""

from __future__ import annotations

import itertools
import re
from collections import defaultdict
from collections.abc import Iterable, Iterator
from pathlib import Path
from typing import NamedTuple

LEAST = 8
"""So many equal lines in a row are a run."""

MOST_PLACES = 8
"""Lines that are in more places than this are a form that a language wants, and no run begins with them."""

COMMENTS = {".rt": "//", ".js": "//", ".antt": "--", ".py": "#", "": "#"}
IMPORTS = re.compile(r"(ghost use|pub use|use|import|from \S+ import) ")

NAME = r"[^\s(){}\[\],:.;λ]+"
DECLARED = re.compile(rf"( *)(pub )?({NAME}) : (.*)")
BINDERS = re.compile(rf"[({{]({NAME}(?: {NAME})*) : |λ ({NAME}(?: {NAME})*)\.")


class Lemma(NamedTuple):
    """A lemma: its name, where it is, and its statement with numbered variables, after the parameters of its module."""

    name: str
    file: str
    line: int
    statement: str


class Line(NamedTuple):
    """A line that counts: its number in the file, from 1, and its text without indentation."""

    number: int
    text: str


class Run(NamedTuple):
    """Equal lines of two files: how many they are, and the first and the last line in each."""

    size: int
    one: str
    other: str
    in_one: tuple[int, int]
    in_other: tuple[int, int]


def with_numbers(statement: str) -> str:
    """A statement whose bound variables have numbers, by the order in which they are bound, and no white space."""
    text = " ".join(statement.split())
    bound = [name for match in BINDERS.finditer(text) for name in (match[1] or match[2]).split()]
    numbers = {name: f"${n}" for n, name in enumerate(dict.fromkeys(bound))}
    words = re.split(rf"({NAME})", text)
    return "".join(numbers.get(word, word) for word in words).replace(" ", "")


def indent_of(line: str) -> int:
    """How many blanks a line begins with."""
    return len(line) - len(line.lstrip(" "))


def lemmas(file: str, text: str) -> Iterator[Lemma]:
    """The lemmas of a proof file: its declarations at the margin, and those at the margin of a module."""
    lines = text.splitlines()
    modules: list[tuple[int, str]] = []
    for n, line in enumerate(lines):
        if not line.strip() or line.lstrip().startswith("--"):
            continue
        at = indent_of(line)
        while modules and modules[-1][0] >= at:
            modules.pop()
        if line.lstrip().startswith("module "):
            modules.append((at, line.strip()))
        match = DECLARED.fullmatch(line)
        if match and at == 2 * len(modules):
            rest = itertools.takewhile(lambda line: line.strip() and indent_of(line) > at, lines[n + 1 :])
            stated = " ".join([*(text for _, text in modules), match[4], *rest])
            yield Lemma(match[3], file, n + 1, with_numbers(stated))


def in_several_files(lemmas: Iterable[Lemma]) -> list[list[Lemma]]:
    """Lemmas that are stated in more than one file, those of one statement together, in the order of their files."""
    by_statement: dict[str, dict[str, Lemma]] = defaultdict(dict)
    for lemma in lemmas:
        by_statement[lemma.statement].setdefault(lemma.file, lemma)
    return sorted(sorted(lemmas.values()) for lemmas in by_statement.values() if len(lemmas) > 1)


def lines_of(path: Path) -> list[Line]:
    """The lines of a file that count."""
    comment, lines, is_in_import = COMMENTS[path.suffix], [], False
    for number, line in enumerate(path.read_text(encoding="utf-8").splitlines(), 1):
        text = line.strip()
        begins = bool(IMPORTS.match(text))
        is_import = begins or is_in_import
        if begins and path.suffix in ("", ".py"):
            is_in_import = "(" in text and ")" not in text
        elif ")" in text:
            is_in_import = False
        if not is_import and not text.startswith(comment) and re.search(r"\w", text):
            lines.append(Line(number, text))
    return lines


Place = tuple[str, int]
"""A file, and a place among its lines that count."""


def starts(files: dict[str, list[Line]]) -> dict[tuple[str, ...], list[Place]]:
    """Where each sequence of LEAST lines begins."""
    lists: dict[tuple[str, ...], list[Place]] = defaultdict(list)
    for file, lines in files.items():
        for at in range(len(lines) - LEAST + 1):
            lists[tuple(line.text for line in lines[at : at + LEAST])].append((file, at))
    return lists


def runs(files: dict[str, list[Line]]) -> list[Run]:
    """The equal runs, each as long as it can be, the longest first."""
    runs: list[Run] = []
    seen: set[tuple[Place, Place]] = set()
    for places in starts(files).values():
        for one, other in itertools.combinations(places[: MOST_PLACES + 1], 2) if len(places) <= MOST_PLACES else ():
            if (one, other) in seen or (one[0] == other[0] and other[1] - one[1] < LEAST):
                continue
            count = length(files, one, other)
            seen.update(((one[0], one[1] + n), (other[0], other[1] + n)) for n in range(count))
            runs.append(run_of(files, one, other, count))
    return sorted(runs, key=lambda run: (-run.size, run[1:]))


def length(files: dict[str, list[Line]], one: Place, other: Place) -> int:
    """How many lines are equal from two places on; within a file, before the first run reaches the second."""
    ours, theirs = files[one[0]][one[1] :], files[other[0]][other[1] :]
    if one[0] == other[0]:
        ours = ours[: other[1] - one[1]]
    return sum(1 for _ in itertools.takewhile(lambda it: it[0].text == it[1].text, zip(ours, theirs)))


def run_of(files: dict[str, list[Line]], one: Place, other: Place, count: int) -> Run:
    """The run of so many lines from two places on."""
    first, second = (files[file][at : at + count] for file, at in (one, other))
    return Run(count, one[0], other[0], (first[0].number, first[-1].number), (second[0].number, second[-1].number))

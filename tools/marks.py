"""What readers marked of the sentences that tools/sample drew: a file a page in tests/data/english."""

from __future__ import annotations

import csv
import hashlib
import random
from collections.abc import Sequence
from pathlib import Path
from typing import NamedTuple

from sentences import sentences_of
from tree import TOP

FOLDER = TOP / "tests/data/english"

COLUMNS = ("page", "seed", "date", "sum", "sentence", "rewrite")
"""The columns of a file of marks. The first four are the same in each row; `rewrite` is empty if the sentence stays."""

DRAWN = 30
"""How many sentences a seed draws."""

MOST, MOST_FOR_READERS = 10, 5
"""Percent of the drawn sentences that may be marked, and of pages whose readers are no programmers."""

FOR_READERS = {
    "README.md",
    "docs/decide/PROMISE.md",
    "docs/decide/TRY.md",
    "docs/desk/COLLECTING.md",
    "docs/desk/PHONE.md",
    "po/cpi.pot:web/",
    "po/cpi.pot:publish/",
}


class Marks(NamedTuple):
    """What a reader marked of a page: the seed, the day, the sum of the page's sentences as it was read, and each drawn
    sentence with the text in its place, empty if it stays."""

    page: str
    seed: int
    date: str
    sum: str
    rows: tuple[tuple[str, str], ...]

    @property
    def marked(self) -> int:
        """How many sentences the reader would change."""
        return sum(bool(rewrite) for _, rewrite in self.rows)

    @property
    def bound(self) -> int:
        """The percentage that may be marked."""
        return MOST_FOR_READERS if self.page in FOR_READERS else MOST

    def fault(self, top: Path = TOP) -> str:
        """Why these marks don't count, in a few words; empty if they do.

        A page that is as it was read has to have given these sentences. One that was edited since has to have two thirds
        of them still.
        """
        every = sentences_of(self.page, top)
        sentences = [sentence for sentence, _ in self.rows]
        if sum_of(every) == self.sum:
            if sentences != draw(every, self.seed):
                return "these aren't the sentences that the seed draws"
        elif 3 * len(set(sentences) & set(every)) < 2 * len(sentences):
            return "the page isn't the one that was read"
        if 100 * self.marked > self.bound * len(self.rows):
            return "too many sentences are marked"
        return ""


def draw(every: Sequence[str], seed: int) -> list[str]:
    """The sentences that a seed draws, in the order of the page."""
    chosen = random.Random(seed).sample(range(len(every)), min(DRAWN, len(every)))
    return [every[number] for number in sorted(chosen)]


def sum_of(every: Sequence[str]) -> str:
    """A sum of all sentences of a page, by which it is known again."""
    return hashlib.sha256("\n".join(every).encode()).hexdigest()[:16]


def read_marks(path: Path) -> Marks:
    """A file of marks. Raises ValueError, with the line, if it isn't one."""
    with path.open(encoding="utf-8", newline="") as file:
        rows = [*csv.reader(file)]
    if not rows or tuple(rows[0]) != COLUMNS or len(rows) < 2:
        raise ValueError(f"{path.name}: its first line isn't {','.join(COLUMNS)}, or it has no other")
    for number, row in enumerate(rows[1:], 2):
        if len(row) != len(COLUMNS) or row[:4] != rows[1][:4]:
            raise ValueError(f"{path.name}, row {number}: it isn't a row of the same page, seed, day and sum")
    page, seed, date, of_page = rows[1][:4]
    return Marks(page, int(seed), date, of_page, tuple((row[4], row[5].strip()) for row in rows[1:]))


def all_marks(folder: Path = FOLDER) -> list[Marks]:
    """The marks of all pages, in the order of their files' names."""
    return [read_marks(path) for path in sorted(folder.glob("*.csv"))]

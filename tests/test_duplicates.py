"""Compares what is written twice in the sources with tests/duplicates.txt, a list that may only shrink.

What a change adds twice fails by its line; what is no longer there twice fails too, until the list says so
(`tools/duplicates --known > tests/duplicates.txt`). Small files made here show what the tool finds: lemmas with other
names of variables, and runs of lines that are as long as they can be.
"""

from __future__ import annotations

import subprocess
from pathlib import Path

import pytest
from repeated import Run, in_several_files, lemmas, lines_of, runs

from lib.places import ROOT
from lib.tried import fault_in

ONE = """module _ {X : Type 0} where
  -- what is first
  pub first : (x : X) → P x
      → Q x
  first x p = by x
    where
      within : (x : X) → R x
      within x = p

pub second : (n : ℕ) → n ≤ n
second n = refl
"""
OTHER = """module _ {Y : Type 0} where
  leads : (a : Y) → P a → Q a
  leads a p = p

third : (n m : ℕ) → n ≤ m
third n m = refl

within : (x : X) → R x
within x = p
"""


def test_lemmas_are_compared_by_their_statements() -> None:
    """Only `first` and `leads` are one; `within` is a step of a proof in one of the files, and so no lemma there."""
    files = in_several_files([*lemmas("one", ONE), *lemmas("other", OTHER)])
    assert [[(it.file, it.name, it.line) for it in lemma] for lemma in files] == [
        [("one", "first", 3), ("other", "leads", 2)]
    ]


def test_runs_are_as_long_as_they_can_be(tmp_path: Path) -> None:
    """Nine lines are equal, two comments and an import between them don't count, and seven equal lines are no run."""
    same = [f"step_{n}(x)" for n in range(9)]
    one = ["begin(1)", *same[:4], "# one", "import this", *same[4:], "end(1)", *(f"more({n})" for n in range(7))]
    other = ["begin(2)", *(f"    {text}" for text in same), "", "end(2)", *(f"more({n})" for n in range(7)), "last()"]
    paths = {name: tmp_path / f"{name}.py" for name in ("one", "other")}
    for name, lines in (("one", one), ("other", other)):
        paths[name].write_text("\n".join(lines), encoding="utf-8")
    assert runs({name: lines_of(path) for name, path in paths.items()}) == [Run(9, "one", "other", (2, 12), (2, 10))]


@pytest.fixture(scope="module")
def found() -> list[str]:
    """The lines that the tool prints."""
    tool = ROOT / "tools/duplicates"
    ran = subprocess.run([tool, "--known"], stdout=subprocess.PIPE, text=True, check=True)
    assert ran.stdout
    return ran.stdout.splitlines()


@pytest.fixture(scope="module")
def known() -> list[str]:
    """The lines of the list."""
    return (ROOT / "tests/duplicates.txt").read_text(encoding="utf-8").splitlines()


def test_nothing_new_is_written_twice(found: list[str], known: list[str]) -> None:
    assert fault_in((line, None if line in known else "it is written twice") for line in found) is None


def test_the_list_has_only_what_is_still_written_twice(found: list[str], known: list[str]) -> None:
    assert fault_in((line, None if line in found else "take it off tests/duplicates.txt") for line in known) is None

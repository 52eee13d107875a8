"""tools/counts: the names of the companions and the benches are the field's words, and modules stay few; and what it
counts."""

from __future__ import annotations

from pathlib import Path

import counted
import pytest

MOST_MODULES, MOST_WIDE = 235, 0
"""The companions have at most so many modules, and so many folders with over 30 files."""

MOST_VAGUE = {"tools/": 1588, "tests/": 2119, "bench/": 0, "examples/": 20, "ops/": 0}
"""The Python of each folder has at most so many places with a variable named it or found. A bound may only fall."""

NAMES = """\
class Change:
    def moved(self) -> int: ...
    @property
    def _said(self) -> str: ...

def made() -> None: ...
def put(told: str) -> None: ...
def need(exceed: int) -> None: ...
def find_made(found: int) -> None:
    it = 1
    row = [it for it in ()]
"""


def test_the_names_of_the_companions_and_the_benches_are_verbs() -> None:
    assert counted.python_participles() == []
    assert counted.told() == []


@pytest.mark.parametrize(("folder", "most"), MOST_VAGUE.items())
def test_variables_say_what_they_are(folder: str, most: int) -> None:
    assert len(counted.vague_names(folder)) <= most


def test_the_variables_of_every_folder_are_counted() -> None:
    assert set(MOST_VAGUE) == set(counted.PROGRAMS)
    assert {"bench/run", "tests/conftest.py", "tools/counts"} <= set(counted.programs())


def test_modules_and_wide_folders_stay_within_their_bounds() -> None:
    assert len(counted.modules()) <= MOST_MODULES
    assert counted.module_names_twice() == []
    assert len(counted.wide_folders()) <= MOST_WIDE


def test_a_participle_is_found_and_a_verb_is_not(tmp_path: Path, monkeypatch: pytest.MonkeyPatch) -> None:
    (tmp_path / "names.py").write_text(NAMES, encoding="utf-8")
    monkeypatch.setattr(counted, "TOP", tmp_path)
    monkeypatch.setattr(counted, "modules", list)
    monkeypatch.setattr(counted, "benches", lambda: ["names.py"])
    monkeypatch.setattr(counted, "programs", lambda: ["names.py"])
    assert counted.python_participles() == ["names.py:6: made", "names.py:2: moved", "names.py:4: _said"]
    assert counted.told() == ["names.py:7: told"]
    assert sorted(counted.vague_names()) == [
        "names.py:10: it",
        "names.py:11: it",
        "names.py:11: it",
        "names.py:9: found",
    ]
    assert counted.vague_names("bench/") == []

"""Explanations as pages in other languages: nothing is left in English, and each figure and each step is the same."""

from __future__ import annotations

import contextlib
import re
import sqlite3
from pathlib import Path

import pytest

from . import surveys
from cpi_tools.office.program import Cpi
from .nobodys import NAMES, left_in_english, nobodys_in, seen
from .ran import run

SAME = re.compile(rf"{NAMES.pattern}|round|(?:carried|level|release)_2|RICE|FLOUR")
"""What each language has: the word of an expression, the tables of the file, and codes of items."""


@pytest.fixture(scope="module")
def long(cpi: Cpi, tmp_path_factory: pytest.TempPathFactory) -> Path:
    """The long office, all of its months frozen: with hand-overs, replacements, and carried aggregates."""
    path = tmp_path_factory.mktemp("long") / "office.db"
    surveys.long(cpi, path)
    return path


@pytest.fixture(scope="module")
def small(cpi: Cpi, tmp_path_factory: pytest.TempPathFactory) -> Path:
    """The small office with 2026-02 frozen, and reopened for a second revision."""
    path = surveys.small(cpi, tmp_path_factory.mktemp("small"))
    sent = [
        "4000,desk,freeze,2026-02,01.1.1.2-01",
        "4100,desk,calendar,2026-02,3000,5000,6000",
        "5000,desk,freeze,2026-02,01.1.1.2-01",
    ]
    assert not [reply for reply in cpi.replay(sent, db=path) if "refused" in reply]
    return path


def explained(path: Path, month: str, to: Path, *words: str) -> None:
    assert run(None, "explain", path, month, *words, "--html", to).status == 0


def test_no_word_of_an_explanation_is_left_in_english(
    long: Path, small: Path, tmp_path: Path, monkeypatch: pytest.MonkeyPatch
) -> None:
    code = nobodys_in(tmp_path, monkeypatch)
    explained(long, "2026-07", tmp_path / "all", "all", "--language", code)
    explained(long, "2026-07", tmp_path / "life.html", "--series", "9/1", "--language", code)
    explained(small, "2026-02", tmp_path / "small", "all", "--language", code)
    pages = [tmp_path / "life.html", *sorted(tmp_path.glob("*/*.html"))]
    assert len(pages) > 10
    assert {path.name: left for path in pages if (left := left_in_english(seen(path), SAME))} == {}


def test_a_line_that_isnt_true_is_told_in_the_language(
    long: Path, tmp_path: Path, monkeypatch: pytest.MonkeyPatch
) -> None:
    code, path = nobodys_in(tmp_path, monkeypatch), tmp_path / "office.db"
    path.write_bytes(long.read_bytes())
    with contextlib.closing(sqlite3.connect(path)) as link, link:
        change = "UPDATE level_2 SET chained = chained + 1 WHERE month = 202607 AND code = '00'"
        assert link.execute(change).rowcount == 1
    ran = run(None, "explain", path, "2026-07", "00", "--html", tmp_path / "00.html", "--language", code)
    assert ran.status == 1 and "not true: chained level: level_2" in ran.err
    assert left_in_english(seen(tmp_path / "00.html"), SAME) == []


STEPS = re.compile(r'<span class="step" dir="ltr">([^<]*)</span>|<td class="value">(?:\u2066)?([^<\u2069]*)')


@pytest.mark.parametrize("language", ["ar", "es", "fr"])
def test_each_step_is_the_same(long: Path, tmp_path: Path, language: str) -> None:
    explained(long, "2026-07", tmp_path / "en.html", "01.1.1.1-01")
    explained(long, "2026-07", tmp_path / "other.html", "01.1.1.1-01", "--language", language, "--zone", "CET-1")
    english, other = ((tmp_path / f"{name}.html").read_text(encoding="utf-8") for name in ("en", "other"))
    assert STEPS.findall(english) == STEPS.findall(other) and len(STEPS.findall(other)) > 20
    assert " UTC" in english and " CET" in other and "every line is true" not in other


def test_a_zone_that_there_isnt_is_one_line(long: Path, tmp_path: Path) -> None:
    ran = run(None, "explain", long, "2026-07", "00", "--html", tmp_path / "00.html", "--zone", "Europe/Nowhere")
    assert (ran.status, ran.out, ran.err.count("\n")) == (1, "", 1)
    assert "Europe/Nowhere is neither a place such as Europe/Prague nor a rule" in ran.err
    assert not (tmp_path / "00.html").exists()

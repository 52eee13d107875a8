"""Standard output: one line if it can't be written, and a sign in the place of what can't be seen and turns a line."""

from __future__ import annotations

import os
import subprocess
import sys
from collections.abc import Sequence
from pathlib import Path

import pytest

from . import surveys
from lib.places import ROOT
from cpi_tools.text.terminal import show_unseen
from cpi_tools.office.program import Cpi
from .ran import Ran, run

FULL = Path("/dev/full")


@pytest.fixture(scope="module")
def small(cpi: Cpi, tmp_path_factory: pytest.TempPathFactory) -> Path:
    """The small office, which no test writes to."""
    return surveys.small(cpi, tmp_path_factory.mktemp("small"))


TOOLS = {
    "cpi-tools": ("--version",),
    "cpi-tools backup": ("backup", "OFFICE", "FOLDER/copy.db"),
    "cpi-tools drill": ("drill", "OFFICE"),
    "cpi-tools probe": ("probe", "--url", "http://127.0.0.1:1"),
    "cpi-tools doctor": ("doctor", "OFFICE"),
    "cpi-tools keys": ("keys", "OFFICE", "--url", "https://prices.example", "--out", "FOLDER/keys.html"),
    "cpi-tools calendar": ("calendar", "OFFICE", "--out", "FOLDER/calendar.json"),
    "cpi-tools desk month": ("desk", "month", "OFFICE", "2026-02", "--out", "FOLDER/month", "PROGRAM"),
    "cpi-tools desk close": ("desk", "close", "OFFICE", "2026-02", "--at", "4000", "PROGRAM"),
    "cpi-tools explain": ("explain", "OFFICE", "2026-01", "00"),
    "cpi-tools publish": ("publish", "--db", "OFFICE", "--at", "9000", "--config", "CONFIG", "--out", "FOLDER/public",
                          "PROGRAM"),
    "cpi-tools take-in": ("take-in", "FOLDER/sheets", "--onto", "OFFICE", "--check", "PROGRAM"),
    "cpi-tools take-out": ("take-out", "OFFICE", "FOLDER/taken"),
    "cpi-tools next-year": ("next-year", "OFFICE", "2027", "FOLDER/next", "PROGRAM"),
}  # fmt: skip


def into_full(words: Sequence[str]) -> subprocess.CompletedProcess[str]:
    """A call of cpi-tools, by this Python, whose standard output is a full device."""
    call, kept = [ROOT / "cpi-tools", *words], {**os.environ, "CPI_PYTHON": sys.executable}
    with FULL.open("w") as full:
        return subprocess.run(call, stdout=full, stderr=subprocess.PIPE, text=True, check=False, env=kept)


@pytest.mark.parametrize("name", TOOLS)
def test_a_full_output_is_one_line(cpi: Cpi, small: Path, tmp_path: Path, name: str) -> None:
    if not FULL.exists():
        pytest.skip("this machine has no /dev/full")
    (tmp_path / "sheets").mkdir()
    (tmp_path / "sheets/items.csv").write_text("item,text,unit,low,high\nTEA,Tea,1 kg,500,2000\n")
    (tmp_path / "office.ini").write_text("[office]\nagency = NSO\narea = XX\noffice = Office\n")
    named = {"OFFICE": [str(small)], "PROGRAM": ["--program", str(cpi.path)], "CONFIG": [str(tmp_path / "office.ini")]}
    words = [it.replace("FOLDER", str(tmp_path)) for word in TOOLS[name] for it in named.get(word, [word])]
    told = into_full(words)
    assert told.returncode == 1
    # (what a tool has to note comes before)
    assert told.stderr.endswith(f"{name}: standard output: No space left on device\n")
    assert "Traceback" not in told.stderr and "Exception ignored" not in told.stderr


@pytest.mark.parametrize("words", [("--help",), ("explain", "--help")])
def test_a_help_that_cant_be_written_is_one_line(words: tuple[str, ...]) -> None:
    if not FULL.exists():
        pytest.skip("this machine has no /dev/full")
    told = into_full(words)
    assert (told.returncode, told.stderr) == (1, "cpi-tools: standard output: No space left on device\n")


def test_a_closed_output_is_one_line(small: Path) -> None:
    command = f'"{ROOT}/cpi-tools" explain "{small}" 2026-01 00 >&-'
    told = subprocess.run(["bash", "-c", command], capture_output=True, text=True, check=False)
    assert (told.returncode, told.stderr) == (1, "cpi-tools explain: standard output is closed\n")


def test_a_reader_that_has_gone_is_no_line(small: Path) -> None:
    reading, writing = os.pipe()
    os.close(reading)
    words = [ROOT / "cpi-tools", "explain", small, "2026-01", "00"]
    told = subprocess.run(words, stdout=writing, stderr=subprocess.PIPE, text=True, check=False)
    os.close(writing)
    assert (told.returncode, told.stderr) == (1, "")


# ---- what can't be seen


@pytest.mark.parametrize(
    ("text", "wanted"),
    [
        ("1 l\u202e 2.06", "1 l<U+202E> 2.06"),
        ("\u2066a\u2069\u200f", "<U+2066>a<U+2069><U+200F>"),
        ("\u061c\x9b31m\x1b[31m", "<U+061C><U+009B>31m<U+001B>[31m"),
        ("a\tb\nc", "a\tb\nc"),
        ("\u0633\u0639\u0631 10, na\u00efve", "\u0633\u0639\u0631 10, na\u00efve"),
    ],
    ids=["override", "isolates", "controls", "lines", "letters"],
)
def test_what_cant_be_seen_is_a_sign(text: str, wanted: str) -> None:
    assert show_unseen(text) == wanted


def turned(cpi: Cpi, folder: Path) -> Path:
    """The small office with a turning outlet, and turning titles."""
    path = folder / "turned.db"
    records = surveys.SMALL.replace("Corner shop", "Corner\u202e shop\u2066").replace("All items", "All\u202e items")
    records = records.replace("Rice, packed", "Rice\u202e, packed").replace("Flour, wheat", "Flour\u202e, wheat")
    assert [reply for reply in cpi.replay([records], db=path) if "refused" in reply] == []
    return path


def test_the_texts_of_a_report_are_shown(cpi: Cpi, tmp_path: Path) -> None:
    """Of tools that print names of outlets or titles; the CSV files have them as they are."""
    path = turned(cpi, tmp_path)
    said: list[Ran] = [
        run(None, "explain", path, "2026-01", "01.1.1.1-01"),
        run(None, "explain", path, "2026-01", "--series", "7/1"),
        run(cpi, "desk", "month", path, "2026-02", "--at", 4000, "--out", tmp_path / "month"),
        run(cpi, "desk", "close", path, "2026-02", "--at", 4000),
    ]
    for told in said:
        text = told.out + told.err
        assert "<U+202E>" in text
        assert not {*text} & {"\u202e", "\u2066"}
    assert any("Corner\u202e shop\u2066" in path.read_text("utf-8") for path in (tmp_path / "month").glob("*.csv"))


def test_a_message_is_shown_too(tmp_path: Path) -> None:
    told = run(None, "explain", tmp_path / "none\u202e.db", "2026-01", "00")
    assert told.status == 1 and told.err.count("\n") == 1 and "none<U+202E>.db: No such file" in told.err

"""`cpi-tools doctor --opening`: until when an open that begins now is expected to last, for the front."""

from __future__ import annotations

import json
import sqlite3
import stat
import time
from pathlib import Path

import pytest

from cpi_tools.command_line import main
from cpi_tools.guard.next_open import announce_opening
from cpi_tools.text.terminal import Fault

TABLES = "CREATE TABLE {}(id INTEGER PRIMARY KEY, month INTEGER, revision INTEGER)"


def office_of(path: Path, quotes: int) -> Path:
    """A file with so many rows of quotes as far as the number of a table's last row says."""
    office = sqlite3.connect(path)
    for name in ("quote_2", "frozen_2", "carried_2", "release_2"):
        office.execute(TABLES.format(name))
    office.execute("INSERT INTO quote_2 VALUES (?, 0, 0)", (quotes,))
    office.commit()
    office.close()
    return path


def test_an_open_of_minutes_is_announced(tmp_path: Path) -> None:
    """Ten million rows of twelve microseconds each are two minutes."""
    office, to = office_of(tmp_path / "office.db", 10_000_000), tmp_path / "opening.json"
    announce_opening(office, to, 1790000000.9)
    assert json.loads(to.read_text(encoding="ascii")) == {"began": 1790000000, "until": 1790000120}
    assert stat.S_IMODE(to.stat().st_mode) == 0o644


def test_a_short_open_is_not(tmp_path: Path) -> None:
    office, to = office_of(tmp_path / "office.db", 400_000), tmp_path / "opening.json"
    announce_opening(office, to, 1790000000)
    assert not to.exists()


def test_the_words_of_the_doctor_write_it_and_judge_nothing(tmp_path: Path, capsys: pytest.CaptureFixture[str]) -> None:
    office, to = office_of(tmp_path / "office.db", 10_000_000), tmp_path / "opening.json"
    before = int(time.time())
    assert main(["doctor", "--opening", str(to), str(office)]) == 0
    assert capsys.readouterr() == ("", "")
    times = json.loads(to.read_text(encoding="ascii"))
    assert times["until"] - times["began"] == 120 and before <= times["began"] <= time.time()


def test_what_cant_be_counted_or_written_is_named(tmp_path: Path) -> None:
    nothing = tmp_path / "nothing.db"
    nothing.write_bytes(b"no database")
    with pytest.raises(Fault, match=f"how many rows {nothing} has can't be read"):
        announce_opening(nothing, tmp_path / "opening.json", 0)
    office = office_of(tmp_path / "office.db", 10_000_000)
    with pytest.raises(Fault, match="missing/opening.json can't be written"):
        announce_opening(office, tmp_path / "missing/opening.json", 0)

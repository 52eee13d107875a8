"""`cpi-tools calendar`: the windows of an office's months, and nothing else of it, as the collectors' page reads them."""

from __future__ import annotations

import errno
import json
import os
import stat
import time
from pathlib import Path

import pytest

from cpi_tools.office.calendar_file import windows_since
from cpi_tools.office.program import Cpi, record
from cpi_tools.office.stored import Window
from .offices import KEY, MONTHS
from .ran import run
from .test_take_in import sums

BEFORE = '{"months": [{"month": "2026-11", "opens": 1793487600, "closes": 1796079599}]}'
"""A calendar as somebody else may write it, in one line."""


def windows_in(path: Path) -> list[tuple[str, int, int]]:
    """Month, opening and closing of each window in a calendar, which has nothing else."""
    windows = json.loads(path.read_text(encoding="utf-8"))
    assert [*windows] == ["months"] and {tuple(month) for month in windows["months"]} <= {("month", "opens", "closes")}
    return [(month["month"], month["opens"], month["closes"]) for month in windows["months"]]


def test_the_months_that_matter_now(office: Path, tmp_path: Path) -> None:
    """All but one of this office's windows closed in 1970. The mask of the caller doesn't count."""
    before, out = sums(office), tmp_path / "calendar.json"
    mask = os.umask(0o077)
    try:
        ran = run(None, "calendar", office, "--out", out)
    finally:
        os.umask(mask)
    assert ran == (0, f"{out}: 1 month, 2030-01 to 2030-01\n", "")
    assert out.read_bytes() == b'{"months": [\n{"month": "2030-01", "opens": 1, "closes": 9999999998}\n]}\n'
    assert stat.S_IMODE(out.stat().st_mode) == 0o644
    assert sums(office) == before and {path.name for path in tmp_path.iterdir()} == {"office.db", "calendar.json"}


def test_all_months_from_one_on(office: Path, tmp_path: Path) -> None:
    """In their order, each as it is now: 2025-03 was opened again until 3600."""
    out = tmp_path / "calendar.json"
    assert run(None, "calendar", office, "--out", out, "--since", "2024-12").status == 0
    lived = [(month, 1000 * at, 1000 * at + 500) for at, month in enumerate(MONTHS)]
    lived[3] = ("2025-03", 3000, 3600)
    assert windows_in(out) == [*lived, ("2030-01", 1, 9_999_999_998)]
    text = out.read_text()
    assert text.count("\n") == len(lived) + 3 and text.endswith("\n]}\n")
    assert KEY not in text and "9999999999" not in text and "publishes" not in text
    assert run(None, "calendar", office, "--out", out, "--since", "2026-02").status == 0
    assert [month for month, *_ in windows_in(out)] == ["2026-02", "2030-01"]


@pytest.mark.parametrize("zone", ["Europe/Prague", "CET-1CEST,M3.5.0,M10.5.0/3"])
def test_what_the_office_s_clock_calls_its_time(
    office: Path, tmp_path: Path, zone: str, monkeypatch: pytest.MonkeyPatch
) -> None:
    """Prague is an hour ahead of UTC in January 1970, and in November 2286. Such a calendar is replaced as any other."""
    out, words = tmp_path / "calendar.json", ("--since", "2030-01")
    assert run(None, "calendar", office, "--out", out, *words, "--zone", zone).status == 0
    (month,) = json.loads(out.read_text(encoding="utf-8"))["months"]
    assert month["closes_zone"] == ["CET", 3600] and month["opens_zone"][1] in (0, 3600)
    monkeypatch.setenv("CPI_ZONE", zone)
    before = out.read_bytes()
    assert run(None, "calendar", office, "--out", out, *words).status == 0 and out.read_bytes() == before
    assert run(None, "calendar", office, "--out", out, *words, "--zone", "UTC").status == 0
    ran = run(None, "calendar", office, "--out", out, "--zone", "Europe/Nowhere")
    assert (ran.status, ran.err.count("\n")) == (1, 1) and "Europe/Nowhere is neither a place" in ran.err


def test_a_month_is_kept_for_400_days_after_its_window() -> None:
    now = 2_000_000_000
    closes = now - 400 * 86_400
    windows = [Window(202_511, 0, closes - 1, 0), Window(202_512, 0, closes, 0), Window(202_601, now, now + 1, 0)]
    assert [window.month for window in windows_since(windows, None, now)] == [202_512, 202_601]
    assert [window.month for window in windows_since(windows, 202_511, now)] == [202_511, 202_512, 202_601]
    assert windows_since(windows, 202_602, now) == []


def test_a_calendar_without_a_month(office: Path, tmp_path: Path) -> None:
    out = tmp_path / "calendar.json"
    assert run(None, "calendar", office, "--out", out, "--since", "2199-12") == (0, f"{out}: 0 months\n", "")
    assert windows_in(out) == []


def test_an_office_that_runs_is_neither_locked_nor_waited_for(cpi: Cpi, office: Path, tmp_path: Path) -> None:
    """A window that was answered before is in it, though it is in the log only."""
    closes = int(time.time()) + 86_400
    with cpi.session(office) as session:
        assert session.ask(record(0, "desk", "calendar", "2031-01", 5, closes, closes)) == {"done": True}
        assert run(None, "calendar", office, "--out", tmp_path / "calendar.json").status == 0
        assert session.ask(record(0, "desk", "calendar", "2031-01", 6, closes, closes)) == {"done": True}
    assert windows_in(tmp_path / "calendar.json")[-1] == ("2031-01", 5, closes)


# ---- where it goes


@pytest.mark.parametrize(
    "content",
    ["", "a text", "<!DOCTYPE html>", "[]", "null", "[" * 100_000, '{"months": 1}', '{"months": [], "more": 1}',
     '{"months": [1]}', BEFORE.replace("closes", "publishes"), BEFORE.replace("}", ', "key": "x"}', 1)],
    ids=range(11),
)  # fmt: skip
def test_a_file_that_is_no_calendar_stays(office: Path, tmp_path: Path, content: str) -> None:
    out = tmp_path / "out.json"
    out.write_text(content)
    ran = run(None, "calendar", office, "--out", out)
    told = f"cpi-tools calendar: {out} is there already, and is no calendar: give the calendar a name of its own\n"
    assert ran == (1, "", told)
    assert out.read_text() == content


def test_a_calendar_is_replaced_whatever_its_mode(office: Path, tmp_path: Path) -> None:
    out = tmp_path / "calendar.json"
    out.write_text(BEFORE)
    out.chmod(0o600)
    assert run(None, "calendar", office, "--out", out).status == 0
    assert [month for month, *_ in windows_in(out)] == ["2030-01"]
    assert stat.S_IMODE(out.stat().st_mode) == 0o644


def test_it_is_written_whole_or_not_at_all(office: Path, tmp_path: Path, monkeypatch: pytest.MonkeyPatch) -> None:
    """A disk without room: the one before stays, and no part of the new one is left."""
    out = tmp_path / "site/calendar.json"
    out.parent.mkdir()
    out.write_text(BEFORE)

    def full(_: int) -> None:
        assert out.read_text() == BEFORE and len([*out.parent.iterdir()]) == 2
        raise OSError(errno.ENOSPC, os.strerror(errno.ENOSPC))

    monkeypatch.setattr(os, "fsync", full)
    ran = run(None, "calendar", office, "--out", out)
    assert ran == (1, "", f"cpi-tools calendar: {out}: No space left on device\n")
    assert out.read_text() == BEFORE and [*out.parent.iterdir()] == [out]


def test_what_is_wrong_is_one_line(office: Path, tmp_path: Path) -> None:
    (tmp_path / "text.db").write_text("no office")
    (tmp_path / "folder").mkdir()
    for file, out, told in (
        ("nothing.db", "new.json", f"{tmp_path}/nothing.db: No such file or directory"),
        ("text.db", "new.json", "text.db can't be read as an office: file is not a database"),
        ("office.db", "nowhere/new.json", f"{tmp_path}/nowhere/new.json: No such file or directory"),
        ("office.db", "folder", f"{tmp_path}/folder: Is a directory"),
    ):
        ran = run(None, "calendar", tmp_path / file, "--out", tmp_path / out)
        assert ran == (1, "", f"cpi-tools calendar: {told}\n")
    assert not (tmp_path / "new.json").exists()


@pytest.mark.parametrize("words", [[], ["--out", ""], ["--out", "a/"], ["--out", "a", "--since", "2026-13"]])
def test_words_that_are_refused(office: Path, words: list[str], capsys: pytest.CaptureFixture[str]) -> None:
    with pytest.raises(SystemExit) as ended:
        run(None, "calendar", office, *words)
    assert ended.value.code == 2

"""The desk's log: a chain that shows each change, and a line that a crash cut off."""

from __future__ import annotations

import json
import os
from pathlib import Path

import pytest

from cpi_tools.desk.records.desk_log import (
    ANSWERED,
    CUT_OFF,
    HIDDEN,
    LOOKED_UP,
    NOT_SENT,
    SAID,
    SENT,
    BrokenLog,
    DeskLog,
    hide_key,
)
from cpi_tools.desk.records.log_views import lines_of, search
from cpi_tools.text.terminal import Fault

DONE = [{"done": True}]


def filled(path: Path) -> DeskLog:
    """A log with a record that was answered, one that wasn't, and a step."""
    log = DeskLog(path)
    log.append("Ada", SENT, [["outlet", "1", "Zoë's \u2028 shop"]])
    log.append("Ada", ANSWERED, of=1, replies=DONE)
    log.append("Ben", SENT, [["freeze", "2026-02"]])
    log.append("Ben", SAID, text="prepared")
    return log


def test_what_is_written_is_read_again(tmp_path: Path) -> None:
    log = filled(tmp_path / "log")
    entries = log.entries
    log.close()
    again = DeskLog(tmp_path / "log")
    assert again.entries == entries and [entry.number for entry in again.open_entries()] == [3]
    again.append("Ben", NOT_SENT, of=3)
    assert not again.open_entries() and (tmp_path / "log").stat().st_mode & 0o777 == 0o600
    again.close()


@pytest.mark.parametrize("place", range(4))
@pytest.mark.parametrize("how", ["changed", "gone", "twice", "swapped"])
def test_a_line_that_isn_t_as_it_was_written_is_told(tmp_path: Path, how: str, place: int) -> None:
    path = tmp_path / "log"
    filled(path).close()
    lines = path.read_bytes().splitlines(keepends=True)
    if how == "changed":
        lines[place] = json.dumps({**json.loads(lines[place]), "by": "Eve"}, sort_keys=True).encode() + b"\n"
    elif how == "gone":
        del lines[place]
    elif how == "twice":
        lines.insert(place, lines[place])
    else:
        other = (place + 1) % 4
        lines[place], lines[other] = lines[other], lines[place]
    path.write_bytes(b"".join(lines))
    if (how, place) in (("changed", 3), ("gone", 3)):
        # (nothing follows the last line: whoever has a copy, or the sum of it, sees that)
        return
    with pytest.raises(BrokenLog, match="so the log was changed by something else"):
        DeskLog(path)


def test_a_line_that_was_cut_off_stays_and_is_told(tmp_path: Path) -> None:
    path = tmp_path / "log"
    filled(path).close()
    whole = path.read_bytes()
    cut = whole + whole.splitlines(keepends=True)[0][:40]
    path.write_bytes(cut)
    log = DeskLog(path)
    assert log.entries[-1].what == CUT_OFF and path.read_bytes().startswith(cut + b"\n")
    log.append("Ada", SAID, text="further")
    log.close()
    again = DeskLog(path)
    assert [entry.what for entry in again.entries][-2:] == [CUT_OFF, SAID]
    again.close()
    path.write_bytes(path.read_bytes().replace(b'"what":"cut off"', b'"what":"said"'))
    with pytest.raises(BrokenLog):
        DeskLog(path)


def test_a_crash_right_behind_the_cut_is_told_too(tmp_path: Path) -> None:
    path = tmp_path / "log"
    filled(path).close()
    path.write_bytes(path.read_bytes() + b'{"at"\n')
    log = DeskLog(path)
    assert log.entries[-1].what == CUT_OFF
    log.close()


def test_one_application_has_it(tmp_path: Path) -> None:
    log = filled(tmp_path / "log")
    with pytest.raises(Fault, match="another process's"):
        DeskLog(tmp_path / "log")
    log.close()


def test_a_collector_s_key_isn_t_in_it() -> None:
    assert hide_key(["collector", "7", "a" * 32]) == ["collector", "7", HIDDEN]
    assert hide_key(["outlet", "7", "a"]) == ["outlet", "7", "a"]


def test_lines_are_searched_by_words(tmp_path: Path) -> None:
    log = filled(tmp_path / "log")
    log.append("Ben", LOOKED_UP, of=3, replies=[{"absent": True, "refused": 47}])
    lines = lines_of(log.entries)
    assert [line.by for line in lines] == ["Ada", "Ben", "Ben"]
    assert "would be refused by 47: the window hasn't closed" in lines[1].answer
    assert [it.number for it in search(lines, "BEN freeze")] == [3]
    assert not search(lines, "nothing of it")
    log.close()


def test_a_line_that_has_no_room_isn_t_there_at_all(tmp_path: Path, monkeypatch: pytest.MonkeyPatch) -> None:
    log, write = filled(tmp_path / "log"), os.write
    monkeypatch.setattr(os, "write", lambda file, line: write(file, line[:20]))
    with pytest.raises(Fault, match="No space left on device, so nothing was done"):
        log.append("Ada", SAID, text="no room")
    monkeypatch.undo()
    log.append("Ada", SAID, text="room again")
    log.close()
    again = DeskLog(tmp_path / "log")
    assert [entry.text for entry in again.entries][-2:] == ["prepared", "room again"]
    again.close()

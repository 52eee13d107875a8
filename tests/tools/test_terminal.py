"""`cpi_tools.text.terminal`: progress, signals, and how values are written."""

from __future__ import annotations

import argparse
import io
import os
import signal
import time

import pytest

from cpi_tools.text import terminal
from cpi_tools.text.terminal import (
    Progress,
    at_least,
    because_of,
    ends_by_signals,
    is_line,
    month_text,
    naming,
    time_text,
    write_count,
)


class Terminal(io.StringIO):
    """What is written to a terminal."""

    def isatty(self) -> bool:
        return True


def test_progress_is_told_at_a_terminal_and_gone_at_the_end(monkeypatch: pytest.MonkeyPatch) -> None:
    monkeypatch.setattr(terminal, "QUIET_SECONDS", 0.05)
    written = Terminal()
    with Progress("cpi-tools drill", written) as progress:
        progress.now("cpi opens a copy")
        deadline = time.monotonic() + 60
        while "opens" not in written.getvalue() and time.monotonic() < deadline:
            time.sleep(0.01)
    assert written.getvalue().startswith("\r\x1b[Kcpi-tools drill: cpi opens a copy, 0 s")
    assert written.getvalue().endswith("\r\x1b[K")


def test_short_work_and_work_without_a_terminal_are_done_without_a_word() -> None:
    for written, seconds in ((Terminal(), 0.0), (io.StringIO(), 1.2)):
        with Progress("cpi-tools drill", written) as progress:
            progress.now("cpi opens a copy")
            time.sleep(seconds)
        assert written.getvalue() == ""


@pytest.mark.parametrize("number", [signal.SIGTERM, signal.SIGHUP])
def test_a_signal_ends_the_program_as_an_exception(number: signal.Signals) -> None:
    before = signal.signal(number, signal.SIG_DFL)
    try:
        with pytest.raises(SystemExit) as told, ends_by_signals():
            os.kill(os.getpid(), number)
            time.sleep(10)
        assert told.value.code == 128 + number
        assert signal.getsignal(number) is signal.SIG_DFL
    finally:
        signal.signal(number, before)


def test_a_signal_that_is_ignored_still_is() -> None:
    before = signal.signal(signal.SIGHUP, signal.SIG_IGN)
    try:
        with ends_by_signals():
            os.kill(os.getpid(), signal.SIGHUP)
            time.sleep(0.05)
    finally:
        signal.signal(signal.SIGHUP, before)


def test_how_values_are_written() -> None:
    assert time_text(0) == "1970-01-01 00:00 UTC"
    assert month_text(202601) == "2026-01"
    assert [write_count(count, "table") for count in (0, 1, 2500)] == ["0 tables", "1 table", "2,500 tables"]
    assert because_of(OSError(28, "No space left on device", "x.db")) == "x.db: No space left on device"
    assert because_of(OSError(28, "No space left on device")) == "No space left on device"
    assert because_of(OSError("another fault")) == "another fault"


def test_a_fault_names_its_file() -> None:
    for given, told in ((OSError(28, "No space left on device"), "y"), (OSError(2, "No such file", "x"), "x")):
        with pytest.raises(OSError) as fault:
            with naming("y"):
                raise given
        assert because_of(fault.value).startswith(f"{told}: No s")


def test_words_that_are_lines() -> None:
    assert is_line("a b\u2028é\ufeff") and is_line("")
    assert not any(map(is_line, ("a\nb", "\r", "x\udcff")))


def test_whole_numbers_of_the_command_line() -> None:
    assert at_least(2)("2") == 2
    for text in ("1", "-3", "2.5", "", "٣", "+4"):
        with pytest.raises(argparse.ArgumentTypeError, match="isn't a whole number from 2 on"):
            at_least(2)(text)
    with pytest.raises(argparse.ArgumentTypeError, match="12345678901 has more than ten digits"):
        at_least(2)("12345678901")

"""Ctrl-C ends the tools and `ops/try` without a word, from their first moment on."""

from __future__ import annotations

import signal
import subprocess
import time
from collections.abc import Sequence
from pathlib import Path
from typing import Optional

import pytest

from cpi_tools.office.program import Cpi
from lib.places import ROOT
from .ran import Ran

START = str(ROOT / "tools/cpi_tools/start")
SECONDS = 60

AT_ONCE = Ran(-signal.SIGINT, "", "")
"""Its end by Ctrl-C, without a word."""


def ran(words: Sequence[str], after: Optional[float] = None) -> Ran:
    """The end of a command; Ctrl-C may come after so many seconds."""
    # (a signal that this process ignores would be ignored there too)
    given = ["env", "--default-signal=INT", *words]
    running = subprocess.Popen(given, stdout=subprocess.PIPE, stderr=subprocess.PIPE, text=True)
    if after is not None:
        time.sleep(after)
        running.send_signal(signal.SIGINT)
    out, err = running.communicate(timeout=SECONDS)
    return Ran(running.returncode, out, err)


@pytest.mark.parametrize("words", [("cpi-tools", "drill", "/nowhere"), ("ops/try", "--db", "/nowhere")])
def test_the_first_moments(cpi: Cpi, words: Sequence[str], tmp_path: Path) -> None:
    """A command that would end with one line in its first second, and is told to end before, ever later."""
    given = [str(ROOT / words[0]), *words[1:], "--program", str(cpi.path)]
    given += ["--folder", str(tmp_path)] if words[0] == "ops/try" else []
    for hundredths in range(0, 40, 4):
        found = ran(given, hundredths / 100)
        assert found.err.count("\n") <= 1 and "Traceback" not in found.err, found.err
        assert found.status in (*((0,) if words[0] == "ops/try" else (130,)), 1, -signal.SIGINT)


def kill(more: str) -> list[str]:
    """A program in Python that sends itself a Ctrl-C as its first step."""
    return [START, "-c", f"import os, signal\nos.kill(os.getpid(), signal.SIGINT)\n{more}"]


def test_a_ctrl_c_is_held_back_until_it_is_heeded() -> None:
    assert ran(kill("print('held back')")) == Ran(0, "held back\n", "")
    assert ran(kill("from cpi_tools import ctrl_c\nctrl_c.ends_silently()\nprint('not reached')")) == AT_ONCE


def test_it_raises_while_a_program_works() -> None:
    begin = "from cpi_tools import ctrl_c\nimport os, signal\nctrl_c.ends_silently()\nctrl_c.raises()\n"
    caught = "try:\n    os.kill(os.getpid(), signal.SIGINT)\nexcept KeyboardInterrupt:\n    print('raised')\n"
    last = "ctrl_c.ends_silently()\nos.kill(os.getpid(), signal.SIGINT)\n"
    assert ran([START, "-u", "-c", f"{begin}{caught}"]) == Ran(0, "raised\n", "")
    assert ran([START, "-u", "-c", f"{begin}{caught}{last}"]) == Ran(-signal.SIGINT, "raised\n", "")


def test_it_stays_ignored_where_it_is() -> None:
    begin = "from cpi_tools import ctrl_c\nimport os, signal\nctrl_c.ends_silently()\nctrl_c.raises()\n"
    words = [START, "-c", f"{begin}os.kill(os.getpid(), signal.SIGINT)\nprint('goes on')"]
    assert ran(["env", "--ignore-signal=INT", *words]) == Ran(0, "goes on\n", "")


def test_an_env_that_can_not_hold_it_back_starts_all_the_same(tmp_path: Path) -> None:
    """Such as one that isn't GNU's."""
    (tmp_path / "env").write_text('#!/bin/sh\ncase "$1" in --*) exit 125;; esac\nexec /usr/bin/env "$@"\n')
    (tmp_path / "env").chmod(0o755)
    commands = f'PATH="{tmp_path}:$PATH" exec "{START}" -c "print(1)"'
    assert ran(["bash", "-c", commands]) == Ran(0, "1\n", "")

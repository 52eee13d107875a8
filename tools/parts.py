"""The parts of ./test: commands that close with a line 'N passed, M failed', some of them side by side.

What a part prints passes through, with its name before each line. tools/minutes.py counts its processor minutes.
"""

from __future__ import annotations

import os
import re
import signal
import subprocess
import threading
from collections.abc import Sequence
from contextlib import suppress
from pathlib import Path
from types import TracebackType
from typing import Any, NamedTuple

HERE = Path(__file__).resolve().parent

LAST = re.compile(r"(\d+) passed, (\d+) failed")
"""The last line of a part."""

SECOND_TRY = "passed at its second try only: "
"""How a line begins that names a test which failed at first."""

FAILED = "failed: "
"""How a line begins that names a test which failed."""


class Result(NamedTuple):
    """What a part came to: how many of its tests passed and failed, and the names of those that it told.

    They are the tests that passed only at their second try, and those that failed.
    """

    passed: int
    failed: int
    second_tries: tuple[str, ...] = ()
    failures: tuple[str, ...] = ()


def result_of(lines: Sequence[str], status: int) -> tuple[Result, str]:
    """What these lines and this exit status come to, and a line that says what is wrong with them, or ''.

    A part that fails without saying so in its last line, or that has no such line, counts as one failure.
    """
    second, failures = names_after(SECOND_TRY, lines), names_after(FAILED, lines)
    last = LAST.fullmatch(lines[-1]) if lines else None
    if not last:
        return Result(0, 1, second, failures), f"status {status}, and no last line 'N passed, M failed'"
    passed, failed = int(last[1]), int(last[2])
    if status != 0 and failed == 0:
        return Result(passed, 1, second, failures), f"status {status}"
    return Result(passed, failed, second, failures), ""


def names_after(start: str, lines: Sequence[str]) -> tuple[str, ...]:
    """The names in the lines that begin so, in their order."""
    return tuple(line[len(start) :] for line in lines if line.startswith(start))


class Parts:
    """Runs parts, and adds up what they come to. When a `with` ends, no process of a part goes on."""

    def __init__(self, minutes: Path) -> None:
        self.minutes = minutes
        self.results: dict[str, Result] = {}
        self._running: dict[str, subprocess.Popen[str]] = {}
        self._printing = threading.Lock()

    def __enter__(self) -> Parts:
        return self

    def __exit__(
        self, kind: type[BaseException] | None, raised: BaseException | None, at: TracebackType | None
    ) -> None:
        for running in [*self._running.values()]:
            end(running)

    def run(self, name: str, *words: str, hours: float = 24, niceness: int = 0) -> Result:
        """Runs a command as a part of this name, with so much niceness. One that goes on for longer than so many hours is
        ended, and fails."""
        command = [str(HERE / "minutes.py"), str(self.minutes), name, *words]
        how: dict[str, Any] = {
            "stdin": subprocess.DEVNULL,
            "stdout": subprocess.PIPE,
            "stderr": subprocess.STDOUT,
            "errors": "replace",
        }
        how["env"] = {**os.environ, "PART_NICENESS": str(niceness)}
        running = subprocess.Popen(command, start_new_session=True, **how)
        self._running[name] = running
        timer = threading.Timer(hours * 3600, self._give_up, (name, hours, running))
        timer.daemon = True
        timer.start()
        lines = []
        for line in running.stdout or ():
            lines.append(line.rstrip("\n"))
            self.say(f"{name} | {lines[-1]}")
        status = running.wait()
        timer.cancel()
        del self._running[name]
        said = [line for line in lines if not line.startswith("minutes: ")]
        result, fault = result_of(said, status)
        if fault:
            self.say(f"{name}: {' '.join(words)}: {fault}")
        self.results[name] = result
        return result

    def fail(self, name: str, why: str) -> None:
        """Counts a part that can't be run as one failure."""
        self.say(f"{name}: {why}")
        self.results[name] = Result(0, 1)

    def say(self, line: str) -> None:
        """Prints a line, whole."""
        with self._printing:
            print(line, flush=True)

    def total(self) -> Result:
        """What all parts come to."""
        results = self.results.values()
        second = tuple(name for result in results for name in result.second_tries)
        failures = tuple(f"{part}: {name}" for part, result in self.results.items() for name in result.failures)
        passed, failed = sum(result.passed for result in results), sum(result.failed for result in results)
        return Result(passed, failed, second, failures)

    def _give_up(self, name: str, hours: float, running: subprocess.Popen[str]) -> None:
        self.say(f"{name}: it goes on after {hours * 60:.0f} minutes, and is ended")
        end(running)


def end(running: subprocess.Popen[str]) -> None:
    """Ends a part with all processes of its group."""
    for number in (signal.SIGTERM, signal.SIGKILL):
        with suppress(ProcessLookupError):
            os.killpg(running.pid, number)
        with suppress(subprocess.TimeoutExpired):
            running.wait(5)


def processors() -> int:
    """How many processors this process may use."""
    return len(os.sched_getaffinity(0))

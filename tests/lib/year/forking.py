"""Runs cpi-tools again and again, each time in a child of one process that has already imported them, which saves their
start.

A line of standard input is a list in JSON: the files for the output and for the lines of faults, and the arguments of
the tool. For each line, two lines are written: the number of the child's process, and once it has ended its status.
"""

from __future__ import annotations

import json
import os
import select
import sys
import time
from typing import NoReturn

from cpi_tools.command_line import main

WRITTEN = os.O_WRONLY | os.O_CREAT | os.O_TRUNC


def wait(secs: float) -> None:
    """Waits as `time.sleep` does, which fails under Debian's faketime (0.9.10) with `Invalid argument` if that leaves the
    monotonic clock alone."""
    select.select([], [], [], secs)


time.sleep = wait


def child(out: str, err: str, words: list[str]) -> NoReturn:
    """Ends with the status of a tool, as its own process would."""
    status = 1
    try:
        os.dup2(os.open(os.devnull, os.O_RDONLY), 0)
        os.dup2(os.open(out, WRITTEN, 0o600), 1)
        os.dup2(os.open(err, WRITTEN, 0o600), 2)
        status = main(words)
    except SystemExit as end:
        status = end.code if isinstance(end.code, int) else 1
    finally:
        sys.stdout.flush()
        sys.stderr.flush()
        os._exit(status)


def serve() -> None:
    """Serves until standard input ends."""
    for line in sys.stdin:
        out, err, *words = json.loads(line)
        process = os.fork()
        if not process:
            child(out, err, words)
        print(process, flush=True)
        print(os.waitstatus_to_exitcode(os.waitpid(process, 0)[1]), flush=True)


if __name__ == "__main__":
    serve()

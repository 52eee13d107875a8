"""The cases of tests/cases: the input, and the output that must be written."""

from __future__ import annotations

import os
import tempfile

from .fault import Fault
from .places import TOP
from .program import Program

FOLDER = os.path.join(TOP, "tests/cases")
SECONDS = 120
NAMES = ("args", "stdin", "stdout", "status")


def content(*path: str) -> bytes:
    """The content of a file."""
    with open(os.path.join(*path), "rb") as file:
        return file.read()


class Case:
    """A folder with the files args (the program's arguments, one per line), stdin, stdout, status and perhaps
    stderr."""

    def __init__(self, name: str) -> None:
        self.name = name
        args, self.given, self.wanted, status = (content(FOLDER, name, each) for each in NAMES)
        *self.words, rest = args.decode().split("\n")
        if rest:
            raise ValueError(f"the file args of {name} has no end of its last line")
        self.status = int(status)
        path = os.path.join(FOLDER, name, "stderr")
        self.told = content(path) if os.path.exists(path) else None

    @property
    def lines(self) -> list[bytes]:
        """The lines that must be written, with their ends."""
        return self.wanted.splitlines(keepends=True)


def names() -> list[str]:
    """All cases."""
    return sorted(os.listdir(FOLDER))


def fault_of(program: Program, name: str) -> Fault:
    """The difference between the case and what a program writes, or the status with which it ends, in a new folder."""
    case = Case(name)
    with tempfile.TemporaryDirectory() as room:
        ran = program.run(*case.words, given=case.given, cwd=room, seconds=SECONDS)
    faults = [] if ran.status == case.status else [f"status {ran.status}, wanted {case.status}"]
    faults += difference("stdout", ran.out, case.wanted)
    faults += difference("stderr", ran.err, ran.err if case.told is None else case.told)
    return "; ".join(faults) or None


def difference(name: str, wrote: bytes, wanted: bytes) -> list[str]:
    """The place at which two texts first differ, if they do."""
    if wrote == wanted:
        return []
    lines, others = wrote.split(b"\n"), wanted.split(b"\n")
    most = max(len(lines), len(others))
    lines, others = (each + [b""] * (most - len(each)) for each in (lines, others))
    at = next(at for at in range(most) if lines[at] != others[at])
    return [f"{name} differs in line {at + 1}: wrote {lines[at][:200]!r}, wanted {others[at][:200]!r}"]

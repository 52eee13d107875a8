"""The keys of a trial (`ops/try`): drawn by its first start, and kept in its folder for the next ones, so that whoever
has one comes in again."""

from __future__ import annotations

import re
import secrets
from pathlib import Path

from ..text.terminal import Fault, because_of
from ..text.text_files import write_whole

DESK_KEY, SUPERVISORS = "desk-key", "supervisors.csv"
"""The files of the desk's key and of the supervisors, which only their owner reads."""

KEY = re.compile("[0-9a-f]{32}")

TEAMS = (("Supervisor of all", "all"), ("Supervisor of 1 to 20", "1-20"), ("Supervisor of 21 to 40", "21-40"))
"""Names of supervisors, and the collectors of their teams."""


def kept_desk_key(folder: Path) -> str:
    """The desk's key of a trial. Raises Fault."""
    file = folder / DESK_KEY
    try:
        if not file.exists():
            write_whole(file, f"{secrets.token_hex(16)}\n".encode(), 0o600)
        key = file.read_text(encoding="ascii", errors="replace").strip()
    except OSError as fault:
        raise Fault(because_of(fault)) from fault
    if not KEY.fullmatch(key):
        raise Fault(f"{file} contains no key of 32 characters 0-9 and a-f: remove it, and another one is drawn")
    return key


def kept_supervisors(folder: Path) -> Path:
    """The file of a trial's supervisors. Raises Fault."""
    file = folder / SUPERVISORS
    rows = "".join(f"{name},{secrets.token_hex(16)},{team}\n" for name, team in TEAMS)
    try:
        if not file.exists():
            write_whole(file, f"name,key,collectors\n{rows}".encode(), 0o600)
    except OSError as fault:
        raise Fault(because_of(fault)) from fault
    return file


def first_key(supervisors: Path) -> str:
    """The key of the first row of such a file."""
    return supervisors.read_text(encoding="utf-8").splitlines()[1].split(",")[1]

"""The crates that a gate has proved so far, for what runs beside it: a file of out/proved for each, and one at its end."""

from __future__ import annotations

import shutil
import time
from collections.abc import Iterable
from pathlib import Path

FOLDER, END = "out/proved", ".ended"


def begin(top: Path) -> None:
    """Forgets what an earlier gate has proved in a repository."""
    shutil.rmtree(top / FOLDER, ignore_errors=True)
    (top / FOLDER).mkdir(parents=True)


def note(top: Path, crate: str) -> None:
    """Notes that a crate is proved, and that its library is in crates/CRATE/out/rlib."""
    (top / FOLDER / crate).touch()


def end(top: Path) -> None:
    """Notes that the gate has ended."""
    note(top, END)


def is_proved(top: Path, crate: str) -> bool:
    """Whether the gate has proved a crate."""
    return (top / FOLDER / crate).exists()


def has_ended(top: Path) -> bool:
    """Whether the gate has ended."""
    return is_proved(top, END)


def wait_for(top: Path, crates: Iterable[str]) -> bool:
    """Waits until crates are proved. False says that the gate ended without one of them."""
    for crate in crates:
        while not is_proved(top, crate):
            # (what is proved is noted before the end)
            if has_ended(top) and not is_proved(top, crate):
                return False
            time.sleep(1)
    return True

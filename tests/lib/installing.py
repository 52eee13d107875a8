"""The Debian packages that tests need, which the repository's own scripts install."""

from __future__ import annotations

import fcntl
import subprocess
from typing import Optional

import pytest

from .places import ROOT


def fault_of(script: str) -> Optional[str]:
    """Runs a script that installs missing packages, in one process at a time; returns its fault, in one line."""
    with (ROOT / script).open("rb") as file:
        fcntl.flock(file, fcntl.LOCK_EX)
        ran = subprocess.run([ROOT / script], stdin=subprocess.DEVNULL, capture_output=True, text=True, check=False)
    told = ran.stderr.strip() or f"{script}: status {ran.returncode}"
    return told.splitlines()[-1] if ran.returncode else None


def need(script: str) -> None:
    """Fails if the packages that a script installs can't be installed."""
    fault = fault_of(script)
    if fault:
        pytest.fail(fault, pytrace=False)

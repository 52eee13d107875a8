"""What a test needs of the machine."""

from __future__ import annotations


import os
import shutil

import pytest


def needed(program: str) -> str:
    """A program of this machine; the test is left out where it isn't there."""
    found = shutil.which(program, path=f"{os.environ['PATH']}:/usr/sbin:/sbin")
    if not found:
        pytest.skip(f"there is no {program}")
    return found

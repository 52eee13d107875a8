"""Disks of a test: something that is mounted, and one without room."""

from __future__ import annotations

import contextlib
import subprocess
from collections.abc import Iterator
from pathlib import Path

import pytest

from .needs import needed


@contextlib.contextmanager
def mounted(folder: Path, *words: str) -> Iterator[None]:
    """Something is mounted at a folder meanwhile; the test is left out if it can't be."""
    ran = subprocess.run([needed("mount"), *words, str(folder)], capture_output=True, text=True, check=False)
    if ran.returncode:
        pytest.skip(f"nothing can be mounted: {ran.stderr.strip()}")
    try:
        yield
    finally:
        subprocess.run([needed("umount"), str(folder)], check=True)


def fill(folder: Path, name: str = "other") -> Path:
    """A file that takes the last byte of a folder's disk."""
    with contextlib.suppress(OSError), (folder / name).open("wb", buffering=0) as other:
        while other.write(bytes(4096)) == 4096:
            pass
    return folder / name

"""The website of an office, as `cpi-tools publish` writes it."""

from __future__ import annotations

from pathlib import Path

from cpi_tools.command_line import main
from cpi_tools.office.program import Cpi

CONFIG = "[office]\nagency = NSO\narea = XX\noffice = Office of prices\n"
LONG_AFTER = 1_000_000
"""A moment at which the tables of these tests' offices are out, in seconds since 1970."""


def published(cpi: Cpi, office: Path, folder: Path) -> Path:
    """Writes the website of an office's file into a folder; its folder there."""
    (folder / "office.ini").write_text(CONFIG, encoding="utf-8")
    words = ["publish", "--db", str(office), "--at", str(LONG_AFTER), "--config", str(folder / "office.ini")]
    assert main([*words, "--program", str(cpi.path), "--out", str(folder / "site")]) == 0
    return folder / "site"

"""The files that people write in this repository, by language: nothing that is built, that a run leaves, or data.

The scripts that read the whole tree (linters, duplicates, counts) take their files from here. Git isn't asked, so the
files are the same in a copy without git.
"""

from __future__ import annotations

import os
import re
from collections.abc import Iterator
from pathlib import Path

from versions import LEFT, LEFT_BY_PIP

TOP = Path(__file__).resolve().parents[1]
"""The folder of the repository."""

FOLDERS = (".ci", "bench", "crates", "docs", "examples", "ops", "tests", "tools", "web")
"""The folders of sources. The files at the top belong to them too."""

DATA = ("tests/cases", "tests/data")
"""Folders whose files are what tests send and compare, byte for byte."""

LANGUAGES = {
    ".py": "python",
    ".sh": "shell",
    ".js": "javascript",
    ".rt": "rattle",
    ".antt": "rattle",
    ".md": "prose",
    ".html": "page",
    ".css": "page",
    ".c": "c",
    ".cpp": "c",
}

FIRST_LINE = re.compile(rb"#!.*\b(?:(?P<python>python3)|(?P<shell>bash|sh))\s*\n")


def files(top: Path = TOP) -> Iterator[str]:
    """Every file that people write, by its path below `top`, in their order."""
    yield from sorted(path.name for path in top.iterdir() if path.is_file() and not path.name.startswith("."))
    for folder in FOLDERS:
        for at, folders, names in os.walk(top / folder):
            within = os.path.relpath(at, top)
            folders[:] = sorted(folder for folder in folders if not LEFT.fullmatch(folder))
            folders[:] = [folder for folder in folders if f"{within}/{folder}" not in (*DATA, LEFT_BY_PIP)]
            yield from (f"{within}/{name}" for name in sorted(names) if not LEFT.fullmatch(name))


def language_of(path: Path) -> str:
    """The language of a file, by its ending or by its first line; "" if it has none of those that are known."""
    if path.suffix in LANGUAGES:
        return LANGUAGES[path.suffix]
    if path.suffix:
        return ""
    with path.open("rb") as file:
        match = FIRST_LINE.match(file.readline(100))
    return (match.lastgroup or "") if match else ""


def written_in(language: str, top: Path = TOP) -> list[str]:
    """The files of a language, by their paths below `top`."""
    return [file for file in files(top) if language_of(top / file) == language]

"""The pages of web/ as the package has them: without comments, which are a quarter of what a phone would load.

`lighten` gives the text of one file without the comments of scripts, those of styles, and the notes to translators of
pages; every other byte stays. A comment behind a statement stays if a quote is in it. `lighten_all` does that to a folder.
"""

from __future__ import annotations

import re
from collections.abc import Mapping
from pathlib import Path

BLOCK = r"/\*(?:[^*]|\*(?!/))*\*/"

PATTERNS: Mapping[str, re.Pattern[str]] = {
    ".js": re.compile(rf"^[ \t]*(?://.*|{BLOCK}[ \t]*)\n|[ \t]+// [^\"'`\n]*$", re.MULTILINE),
    ".css": re.compile(rf"^[ \t]*{BLOCK}[ \t]*\n|[ \t]*{BLOCK}", re.MULTILINE),
    ".html": re.compile(r"<!-- t: (?:[^-]|-(?!->))*-->"),
}
"""What is taken out of a file, by its ending."""


def lighten(name: str, text: str) -> str:
    """The text of a file without its comments, if it is a script, a style or a page; else the text itself. A line in a
    text of several lines that looks like a comment would go too: web/ has none (tests/tools/test_lighter.py)."""
    pattern = PATTERNS.get(Path(name).suffix)
    return pattern.sub("", text) if pattern else text


def lighten_all(folder: Path) -> None:
    """Writes each script, style and page below a folder anew, without its comments."""
    for path in sorted(folder.rglob("*")):
        if path.suffix in PATTERNS and path.is_file() and not path.is_symlink():
            path.write_text(lighten(path.name, path.read_text(encoding="utf-8")), encoding="utf-8")

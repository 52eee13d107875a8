"""The pages of `web/` in a language that nobody speaks (`lib.pseudo`)."""

from __future__ import annotations

import shutil
import subprocess
from pathlib import Path

from lib.places import ROOT
from lib.pseudo import write_catalogue


def pages_with(language: str, folder: Path) -> Path:
    """A copy of the pages that has one more language; the folder."""
    for name in ("web", "po", "tools"):
        shutil.copytree(ROOT / name, folder / name, ignore=shutil.ignore_patterns("__pycache__"))
    write_catalogue(language, folder / "po")
    ran = subprocess.run([folder / "tools/pages"], capture_output=True, text=True, check=False)
    assert (ran.returncode, ran.stderr) == (0, "")
    return folder / "web"

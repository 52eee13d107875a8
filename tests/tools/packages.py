"""The package that `tools/package` makes, for tests."""

from __future__ import annotations

import os
import re
import subprocess
from pathlib import Path

from cpi_tools.office.program import Cpi
from lib.places import ROOT
from .needs import needed


def epoch_of(top: Path) -> int:
    """The beginning of the day of a package, in seconds since 1970: that of its release, or of the last commit."""
    day = re.search(r"^## (?:[\d.]+, (\S+)|Unreleased .*)$", (top / "CHANGELOG.md").read_text(), re.M)
    words = ["git", "log", "-1", "--date=format-local:%Y-%m-%d", "--format=%cd"]
    ran = subprocess.run(words, cwd=top, env={**os.environ, "TZ": "UTC"}, capture_output=True, text=True, check=False)
    named = (day and day[1]) or ran.stdout.strip() or "2026-11-28"
    told = subprocess.run(["date", "-u", "-d", named, "+%s"], capture_output=True, text=True, check=True)
    return int(told.stdout)


def made_package(top: Path, to: Path, cpi: Cpi, **variables: str) -> Path:
    """The package that `tools/package` of a repository makes of the program under test."""
    needed("dpkg-deb")
    kept = {name: value for name, value in os.environ.items() if name != "SOURCE_DATE_EPOCH"}
    if not (top / ".git").exists():
        # (without git nothing else tells the day of what isn't released)
        variables.setdefault("SOURCE_DATE_EPOCH", str(epoch_of(ROOT)))
    words = [str(top / "tools/package"), "--to", str(to), "--program", str(cpi.path)]
    ran = subprocess.run(words, capture_output=True, text=True, check=False, env={**kept, **variables})
    assert (ran.returncode, ran.stderr) == (0, "")
    (package,) = to.glob("*.deb")
    assert sorted(os.listdir(to)) == ["SHA256SUMS", f"{package.stem}.cdx.json", package.name]
    assert ran.stdout.startswith(f"{package}: ")
    return package

#!/usr/bin/env python3
"""The version of the sources at hand, as CHANGELOG.md has it, and whether what changed since the last release is said.

    tools/versions.py

prints the version and the line of the sum. A part of CHANGELOG.md is headed `## 1.0, 2026-11-25` if it is of a release,
and ends with a line `Sources: SUM`. SUM is that of all files in crates/, tools/, web/ and ops/ as they were released,
by their names and what they hold, but for what is built or left there by a run. The first part may be headed
`## Unreleased (1.1)`: it says what changed since, and has to if the sum is another. If it doesn't, one line on standard
error says so, and the status is 1. Git isn't asked for this, so it is the same in a shallow clone and without git.

`cpi --version` says `cpi 1.0` of a release, and else `cpi 1.1-dev`. A package that isn't of a release has the day of
the last commit in its version, `1.1~20261128`, which Debian sorts before 1.1; without git, that of SOURCE_DATE_EPOCH.
"""

from __future__ import annotations

import argparse
import hashlib
import os
import re
import subprocess
import sys
from collections.abc import Iterator
from datetime import datetime, timezone
from pathlib import Path
from typing import NamedTuple, Optional

PAGE = "CHANGELOG.md"
SUMMED = ("crates", "tools", "web", "ops")
LEFT = re.compile(r"out|__pycache__|\..*|.*\.(pyc|egg-info|db|db-wal|db\.sha256)")
"""Names of files and folders that a build or a run leaves there."""

LEFT_BY_PIP = "tools/build"
"""And the one that it leaves below a name that sources have too."""


class Version(NamedTuple):
    """A part of CHANGELOG.md: its number, its day like 2026-11-25 or nothing if it isn't released yet, the points that
    are said of it, and the sum of its sources."""

    number: str
    day: str
    said: str
    sum: str

    def name(self) -> str:
        """What the programs say of themselves."""
        return self.number if self.day else f"{self.number}-dev"


class Release(NamedTuple):
    """What is packed: its version, its day like 2026-11-25, what is said of it in CHANGELOG.md, and the time that each
    file gets, in seconds since 1970 UTC."""

    version: str
    day: str
    said: str
    epoch: int


def versions(top: Path) -> list[Version]:
    """All versions of CHANGELOG.md, the latest first. A ValueError says why there are none."""
    text = (top / PAGE).read_text(encoding="utf-8")
    head = r"^## (?:(?P<number>\d[\d.]*), (?P<day>\d{4}-\d\d-\d\d)|Unreleased \((?P<next>\d[\d.]*)\))\n"
    versions = []
    for part in re.finditer(head + r"(?P<said>.*?)(?=^## |\Z)", text, re.S | re.M):
        said, _, of = part["said"].partition("\nSources: ")
        versions.append(Version(part["number"] or part["next"], part["day"] or "", said.strip(), of.strip()))
    if not versions or len(versions) != len(re.findall("^## ", text, re.M)):
        raise ValueError(f"{PAGE} has a heading other than '## 1.0, 2026-11-25' and '## Unreleased (1.1)', or none")
    return versions


# ---- the sum of the sources


def files_below(top: Path, name: str) -> Iterator[str]:
    """The names of the files in a folder, but for what is built or left there."""
    for path in (top / name).iterdir() if (top / name).is_dir() else ():
        below = f"{name}/{path.name}"
        if not LEFT.fullmatch(path.name) and below != LEFT_BY_PIP:
            yield from files_below(top, below) if path.is_dir() else [below]


def sum_of_sources(top: Path) -> str:
    """The SHA-256 of the names and sums of all files of the sources."""
    names = sorted(below for name in SUMMED for below in files_below(top, name))
    lines = (f"{hashlib.sha256((top / name).read_bytes()).hexdigest()}  {name}\0" for name in names)
    return hashlib.sha256("".join(lines).encode(errors="surrogateescape")).hexdigest()


def parts_of(number: str) -> tuple[int, ...]:
    """(1, 10) of 1.10."""
    return tuple(int(part) for part in number.split(".") if part)


def fault(top: Path) -> Optional[str]:
    """What CHANGELOG.md lacks, in one line; None if it lacks nothing."""
    listed = versions(top)
    first, released = listed[0], [version for version in listed if version.day]
    if any(not version.day for version in listed[1:]) or not released:
        return f"{PAGE}: only the first part may be Unreleased, and a release is below it"
    last, found = released[0], sum_of_sources(top)
    where = f"{', '.join(f'{name}/' for name in SUMMED[:-1])} or {SUMMED[-1]}/ changed since {last.number}"
    if first.day and found != last.sum:
        own = f"the release {last.number} itself ends with the line 'Sources: {found}'"
        return f"{where}, and {PAGE} has no part '## Unreleased (N)' for it (or else {own})"
    if not first.day and parts_of(first.number) <= parts_of(last.number):
        return f"{PAGE}: the next release, {first.number}, isn't after {last.number}"
    if found != last.sum and not re.search(r"^- \S", first.said, re.M):
        return f"{where}, and the part Unreleased of {PAGE} has no point '- ..' that says what"
    return None


# ---- the version of a package


def committed(top: Path) -> Optional[int]:
    """When the last commit was made, in seconds since 1970 UTC; None if the folder isn't a repository of git."""
    if not (top / ".git").exists():
        return None
    words = ["git", "-C", str(top), "-c", f"safe.directory={top}", "log", "-1", "--no-show-signature", "--format=%ct"]
    kept = {name: value for name, value in os.environ.items() if not name.startswith("GIT_")}
    try:
        ran = subprocess.run(words, env=kept, capture_output=True, text=True, check=False)
    except FileNotFoundError:
        return None
    return int(ran.stdout) if ran.returncode == 0 and ran.stdout.strip().isdigit() else None


def day_of(moment: int) -> str:
    """2026-11-28 of a moment in seconds since 1970 UTC."""
    return datetime.fromtimestamp(moment, timezone.utc).strftime("%Y-%m-%d")


def release(top: Path) -> Release:
    """What a package of the sources at hand is called. A ValueError says why that isn't known."""
    first, given = versions(top)[0], os.environ.get("SOURCE_DATE_EPOCH")
    if given is not None and not re.fullmatch("[0-9]{1,10}", given):
        raise ValueError(f"SOURCE_DATE_EPOCH is {given!r}, which is no number of seconds")
    day, number = first.day, first.number
    if not day:
        moment = committed(top)
        if moment is None and given is None:
            raise ValueError(
                f"{number} isn't released, and without git SOURCE_DATE_EPOCH has to say of which day it is"
            )
        day = day_of(int(given or 0) if moment is None else moment)
        number = f"{number}~{day.replace('-', '')}"
    of_day = int(datetime.fromisoformat(day).replace(tzinfo=timezone.utc).timestamp())
    return Release(number, day, first.said, of_day if given is None else int(given))


def main() -> int:
    argparse.ArgumentParser(description=__doc__, formatter_class=argparse.RawDescriptionHelpFormatter).parse_args()
    top = Path(__file__).resolve().parent.parent
    try:
        print(f"{versions(top)[0].name()}\nSources: {sum_of_sources(top)}")
        lacks = fault(top)
    except ValueError as raised:
        lacks = str(raised)
    if lacks:
        print(f"tools/versions.py: {lacks}", file=sys.stderr)
    return 1 if lacks else 0


if __name__ == "__main__":
    sys.exit(main())

"""Which companions these are, and whether the program that they run is the one that was shipped: `--version`.

`dist/MADE` describes the shipped program: the sum of the sources, the kit that proved them, and the SHA-256 of the
program. It is in the repository and in the package, at the same place from here. If it or the program is missing, as
`dist/MADE` is after `pip install`, a line says so.
"""

from __future__ import annotations

import argparse
import hashlib
import subprocess
from collections.abc import Iterator, Sequence
from pathlib import Path
from typing import Any, Optional, Union

from . import VERSION
from .office.program import CpiFailed, find_program
from .text.terminal import because_of, is_line, naming

TOP = Path(__file__).resolve().parents[2]
"""The repository, or the folder of the package that has its form."""

NAMES = ("sources", "kit", "program")
"""The lines of `dist/MADE` that are printed."""


def read_made(top: Path) -> dict[str, str]:
    """The lines of `dist/MADE`; none if it isn't there or can't be read."""
    try:
        text = (top / "dist/MADE").read_text(encoding="utf-8", errors="backslashreplace")
    except OSError:
        return {}
    return dict(line.split(": ", 1) for line in text.splitlines() if ": " in line)


def sum_of(path: Path) -> str:
    """The SHA-256 of a file."""
    with naming(path):
        return hashlib.sha256(path.read_bytes()).hexdigest()


def sources_of(top: Path) -> str:
    """The sum of the sources of a repository, by its script; nothing if it can't be told."""
    try:
        ran = subprocess.run([top / "tools/sources"], capture_output=True, text=True, check=False)
    except (OSError, UnicodeDecodeError):
        return ""
    return ran.stdout.strip() if ran.returncode == 0 else ""


def run_by(program: Path, top: Path, shipped: dict[str, str]) -> Optional[Path]:
    """The file that runs if a program is called. `./cpi` of a repository runs the program that was built of the sources
    at hand, or else that of `dist/` if it was made of these; if there is neither it has one built first, so None."""
    is_script = (top / "tools/sources").is_file() and program.resolve() == (top / "cpi").resolve()
    if not is_script:
        return program
    sources = sources_of(top)
    built, of_dist = top / "out" / sources / "cpi", top / "dist/cpi"
    if sources and built.is_file():
        return built
    return of_dist if sources and shipped.get("sources") == sources and of_dist.is_file() else None


def told_of_program(top: Path, shipped: dict[str, str]) -> str:
    """Which program runs, and whether it is the shipped one."""
    try:
        named = find_program()
        path = run_by(named, top, shipped)
        if path is None:
            return f"{named}, which has to build a program of the sources at hand first"
        found = sum_of(path)
    except CpiFailed as fault:
        return f"no program: {fault}"
    except OSError as fault:
        return f"a program that can't be read: {because_of(fault)}"
    if "program" not in shipped:
        return f"{path}, whose SHA-256 is {found}"
    return f"{path}, which is that program" if found == shipped["program"] else f"{path}, another program: {found}"


def lines(top: Path = TOP) -> Iterator[str]:
    """The whole text, line by line; a line that isn't UTF-8 is escaped."""
    shipped = read_made(top)
    text = [f"cpi-tools {VERSION}"]
    if shipped:
        text += [f"{name}: {shipped.get(name, 'dist/MADE has no such line')}" for name in NAMES]
    else:
        text.append("shipped: not known, since there is no dist/MADE with these companions")
    text.append(f"runs: {told_of_program(top, shipped)}")
    yield from (line if is_line(line) else ascii(line)[1:-1] for line in text)


class ShowVersion(argparse.Action):
    """The word `--version`: prints it, and ends with status 0."""

    def __init__(self, option_strings: Sequence[str], dest: str, **named: Any):
        super().__init__(option_strings, dest=argparse.SUPPRESS, nargs=0, **named)

    def __call__(
        self,
        parser: argparse.ArgumentParser,
        namespace: argparse.Namespace,
        values: Union[str, Sequence[Any], None],
        option_string: Optional[str] = None,
    ) -> None:
        print("\n".join(lines()))
        parser.exit()

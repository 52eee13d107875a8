"""The crates of a repository, as its crates.txt lists them, and which of them each one is over."""

from __future__ import annotations

from pathlib import Path


def listed(top: Path) -> dict[str, list[str]]:
    """Each crate with the libraries that its line names: crates of the repository, and libraries of the toolchain."""
    found = {}
    for line in (top / "crates.txt").read_text(encoding="utf-8").splitlines():
        name, colon, libraries = line.partition("#")[0].partition(":")
        if colon and name.split():
            # (words after a crate's name are options of rt)
            found[name.split()[0]] = libraries.split()
    return found


def below(crates: dict[str, list[str]], name: str) -> list[str]:
    """The crates that a crate is built over, each after those that it is built over itself."""
    found: list[str] = []
    for library in crates[name]:
        if library in crates:
            found += [each for each in [*below(crates, library), library] if each not in found]
    return found

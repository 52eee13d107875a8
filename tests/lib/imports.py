"""The rule for the imports of the companions' modules: a module may import from its folder, and from the folders that
the folder's README names.

The last paragraph of each README of tools/cpi_tools begins with "May import:" and names folders below tools/cpi_tools.
"""

from __future__ import annotations

import ast
import re
from collections.abc import Iterator, Sequence
from functools import lru_cache
from pathlib import Path

from .places import ROOT

PACKAGE = ROOT / "tools/cpi_tools"
RULE = re.compile(r"^May import: (.*)$", re.M)
TOOLS_BY_NAME = "command_line.py"
"""The only module that imports others by their names."""


@lru_cache(maxsize=None)
def allowed(folder: Path) -> frozenset[Path]:
    """The folders that the modules of a folder may import from: its own, and the folders in its README."""
    rule = RULE.search((folder / "README.md").read_text(encoding="utf-8"))
    if not rule:
        raise ValueError(f"{folder / 'README.md'} has no line that begins with May import")
    names = re.findall(r"`([a-z_/]+)`", rule[1])
    if absent := [name for name in names if not (PACKAGE / name).is_dir()]:
        raise ValueError(f"{folder / 'README.md'} names folders that aren't there: {absent}")
    return frozenset({folder, PACKAGE, *(PACKAGE / name for name in names)})


def imported(path: Path) -> Iterator[tuple[int, Path]]:
    """The folder of each module of the companions that a module imports, with the line."""
    for node in ast.walk(ast.parse(path.read_text(encoding="utf-8"))):
        if not isinstance(node, ast.ImportFrom) or not node.level:
            continue
        base = path.parents[node.level - 1].joinpath(*(node.module or "").split(".") if node.module else ())
        for name in node.names:
            yield node.lineno, base if (
                base / f"{name.name}.py"
            ).is_file() else base.parent if not base.is_dir() else base


def import_findings(files: Sequence[str]) -> dict[str, list[str]]:
    """By file, the imports that the README of its folder doesn't allow."""
    findings: dict[str, list[str]] = {}
    for name in files:
        path = ROOT / name
        if path.suffix != ".py" or not path.is_relative_to(PACKAGE):
            continue
        for line, folder in imported(path):
            if folder not in allowed(path.parent):
                at = f":{line}: from {folder.relative_to(PACKAGE)}, which the README of its folder doesn't name"
                findings.setdefault(name, []).append(at)
    return findings

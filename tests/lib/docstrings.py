"""The public functions of the tools and the benches without a docstring: what a function says isn't guessed from its
body.

Public is what isn't within a function, and has no name with an underscore before it, as its class has none. `main` says
what its module says; a method of a class that another class is below says what that one says.
"""

from __future__ import annotations

import ast
from collections.abc import Iterator, Sequence

from .places import ROOT

SAID = ("bench/", "tools/", "ops/", "cpi-build")
"""The files and folders whose functions have docstrings."""

PLAIN = {"ABC", "Enum", "Exception", "Generic", "IntEnum", "NamedTuple", "Protocol"}
"""Base classes that don't describe the methods of other classes."""


def functions_unsaid(tree: ast.AST) -> Iterator[tuple[int, str]]:
    """The public functions without a docstring, below a module or a class: line and name."""
    for node in ast.iter_child_nodes(tree):
        if isinstance(node, (ast.ClassDef, ast.FunctionDef, ast.AsyncFunctionDef)) and node.name.startswith("_"):
            continue
        if isinstance(node, ast.ClassDef):
            if all(name_of(base) in PLAIN for base in node.bases):
                yield from functions_unsaid(node)
        elif isinstance(node, (ast.FunctionDef, ast.AsyncFunctionDef)):
            if node.name != "main" and not ast.get_docstring(node):
                yield node.lineno, node.name
        elif isinstance(node, (ast.If, ast.Try, ast.With)):
            yield from functions_unsaid(node)


def name_of(base: ast.expr) -> str:
    """The name of a class above another, without its parameters and its module."""
    plain = base.value if isinstance(base, ast.Subscript) else base
    return plain.attr if isinstance(plain, ast.Attribute) else plain.id if isinstance(plain, ast.Name) else ""


def docstring_findings(files: Sequence[str]) -> dict[str, list[str]]:
    """By file, its public functions without a docstring."""
    findings: dict[str, list[str]] = {}
    for name in files:
        if name.startswith(SAID):
            tree = ast.parse((ROOT / name).read_text(encoding="utf-8"))
            if unsaid := [f":{line}: {function} has no docstring" for line, function in functions_unsaid(tree)]:
                findings[name] = unsaid
    return findings

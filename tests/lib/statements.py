"""Finds the functions of the crates that run an SQL statement outside of a transaction; ARCHITECTURE names them.

A statement is run by a call of `execute` or `query`. It is in a transaction if the called object is a `Transaction`
among the function's parameters, or came from a call of `transaction` in it.
"""

from __future__ import annotations

import re
from collections.abc import Iterator
from pathlib import Path

CALL = re.compile(r"\b(\w+)\.(?:execute|query)\(")
FUNCTION = re.compile(r"^ *(?:pub(?:\(crate\))? )?fn (\w+)", re.M)
SENTENCE = re.compile(r"^Only (.+?) run a statement outside of a transaction\.", re.M)
NAMED = re.compile(r"`(\w+)` in `([\w/]+\.rt)`")


def functions_outside(source: str) -> Iterator[str]:
    """The names of a source's functions that run a statement outside of a transaction."""
    begins = [*FUNCTION.finditer(source)]
    ends = [*(match.start() for match in begins[1:]), len(source)]
    for function, end in zip(begins, ends):
        text = source[function.start() : end]
        if any(not is_transaction(text, match[1]) for match in CALL.finditer(text)):
            yield function[1]


def is_transaction(function: str, name: str) -> bool:
    """Whether a name in a function's text names a transaction."""
    return re.search(rf"\b{name}: &mut Transaction<|\blet mut {name} = \w+\.transaction\(\)", function) is not None


def statements_outside(crates: Path) -> set[tuple[str, str]]:
    """Name and file of each function that runs a statement outside of a transaction; except in cpi_tests."""
    return {
        (name, path.relative_to(crates).as_posix())
        for path in sorted(crates.glob("*/src/**/*.rt"))
        if path.relative_to(crates).parts[0] != "cpi_tests"
        for name in functions_outside(path.read_text(encoding="utf-8"))
    }


def statements_named(text: str) -> set[tuple[str, str]]:
    """The functions that a document names in its sentence about them."""
    match = SENTENCE.search(text)
    return {(element[0], element[1]) for element in NAMED.findall(match[1] if match else "")}

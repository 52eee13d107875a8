"""The rules for the README of a crate: it is short, its example is code that is built, and it names each wrong program.

`crate_readme_faults`  at most 60 lines; each example is in the file that the line before it names; each edit that must be
refused; its choices have names and no numbers.
"""

from __future__ import annotations

import re
from collections.abc import Iterator
from pathlib import Path

ROOT = Path(__file__).resolve().parents[2]

MOST_LINES = 60

DECISION = re.compile(r"^(?:- )?\*\*(\d+)\. ", re.M)
EXAMPLE = re.compile(r"\(`(?P<file>[^`]+\.rt)`\):\n\n```rust\n(?P<code>.*?)```", re.S)
CRATE = re.compile(r"crates/(\w+)/README\.md")


def numbers_in(text: str) -> list[int]:
    return [int(element) for element in DECISION.findall(text)]


def unindented(text: str) -> str:
    return "\n".join(line.strip() for line in text.splitlines())


def crate_readme_faults(name: str, text: str) -> Iterator[str]:
    """The faults of a README, given by its name from the top of the repository; none if it doesn't belong to a
    crate."""
    crate = CRATE.fullmatch(name)
    if not crate:
        return
    lines = text.count("\n")
    if lines > MOST_LINES:
        yield f"{lines} lines, over {MOST_LINES}"
    yield from (f"a choice has the number {number} in place of a name" for number in numbers_in(text))
    examples = list(EXAMPLE.finditer(text))
    if len(examples) != text.count("```rust"):
        yield "an example without its file"
    for example in examples:
        source = ROOT / "crates" / example["file"]
        if not source.is_file() or unindented(example["code"]) not in unindented(source.read_text(encoding="utf-8")):
            yield f"its example isn't in {example['file']}"
    edits = (ROOT / "crates" / crate[1]).glob("must-*/*.edit")
    yield from (f"no word of the wrong program {edit.stem}" for edit in sorted(edits) if f"`{edit.stem}`" not in text)

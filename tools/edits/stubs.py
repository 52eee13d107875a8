"""Functions that no edit of a run changes, as stubs, because the gate has proved them.

A run over edits asks for the functions that the edits change, and the prover also checks all functions that these call:
it works out what their bodies do and checks their proofs, which takes most of its time. So in the copy of the crate each
function that no edit changes has a loop without an end as its body, and a hole as its proof. The option --allow-holes
passes holes. What the prover says of a changed function stays the same: its proof cites only the contracts of the functions
that it calls, and no contract changes.
"""

from __future__ import annotations

import re
from collections.abc import Collection, Iterable, Sequence

from .sources import BLOCK, Crate, Item

OF_A_FUNCTION = ("Answers.antt", "Invariants.antt", "Proof.antt")
"""The files of a function's proof."""

BODY = "    loop {}"

HOLE = """\
use Rattle.{crate}.proofs.{path}.Statement as stated

pub {word}_spec : {{M : Type 1}} → stated.statement M
{word}_spec = ?
"""


def stub_others(crate: Crate, changed: Collection[str], texts: dict[str, str]) -> dict[str, Item]:
    """Makes each function a stub, but for those that are `changed`. Each line of a source keeps its number. Returns the
    stubs by their names."""
    stubs = {item.name: item for item in crate.items if item.name not in changed and can_be_stub(crate, item)}
    for item in stubs.values():
        stub(crate, item, texts)
    return stubs


def stub(crate: Crate, item: Item, texts: dict[str, str]) -> None:
    """Makes a function a stub."""
    lines = texts[item.file].split("\n")
    left, begin = find_left(item), item.first - 1 + len(item.header())
    blank = [""] * (item.last - begin - 2)
    lines[begin : item.last - 1] = [left + BODY, *blank]
    texts[item.file] = "\n".join(lines)
    folder = find_folder(item)
    for name in OF_A_FUNCTION:
        texts.pop(f"{folder}/{name}", None)
    path = item.name.replace("::", ".")
    texts[f"{folder}/Proof.antt"] = HOLE.format(crate=crate.name, path=path, word=item.word())


def find_left(item: Item) -> str:
    """The spaces to the left of an item."""
    return item.text[: len(item.text) - len(item.text.lstrip())]


def find_folder(item: Item) -> str:
    """The folder of a function's proof, below the crate."""
    return f"proofs/{item.name.replace('::', '/')}"


OF_A_KIND = re.compile(r"\w<.*> for ")
"""What the first line of a block has for a trait with arguments, such as `From<Fault>`: the prover has names for these
that sources don't show."""


def is_of_a_kind_of_trait(item: Item, above: Sequence[str]) -> bool:
    """Whether an item is a method of a trait with arguments. `above` are the lines of its file before it."""
    block = next((line for line in reversed(above) if BLOCK.match(line)), "")
    return item.text.startswith(" ") and bool(OF_A_KIND.search(block))


def can_be_stub(crate: Crate, item: Item) -> bool:
    """Whether an item is a function with a body of lines and a proof of its own, and is not computed when the crate is
    compiled. (Functions of a cycle of calls have one proof together.)"""
    lines = item.text.split("\n")
    if item.kind != "fn" or len(item.header()) > len(lines) - 2 or re.search(r"\bconst fn\b", lines[0]):
        return False
    above = crate.texts[item.file].split("\n")[: item.first - 1]
    if is_of_a_kind_of_trait(item, above):
        return False
    while above and above[-1].lstrip().startswith("#["):
        if above.pop().lstrip().startswith(("#[cycle", "#[test", "#[cfg")):
            return False
    return lines[-1] == find_left(item) + "}"


def find_faulty(stubs: Iterable[Item], places: Collection[tuple[str, int]]) -> set[str]:
    """The names of stubs at which an error is, by the file and the line of each: these can't be stubs."""
    return {
        item.name
        for item in stubs
        for file, line in places
        if file == item.file and item.first <= line <= item.last or file.startswith(find_folder(item) + "/")
    }

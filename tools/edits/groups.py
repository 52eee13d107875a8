"""Which edits of a crate share a run of the prover."""

from __future__ import annotations

from collections.abc import Mapping, Sequence

from .edits import Edit, apply
from .sources import Crate

Calls = Mapping[str, set[str]]
"""By the name of a function, those of the functions that it calls, as far as that is known."""


def group_edits(crate: Crate, edits: Sequence[Edit], calls: Calls) -> list[list[Edit]]:
    """Puts edits into few groups. All edits of a group can be applied together. No two of them change the same function,
    and none changes a function that another's is known to call: the prover says little of a caller of a refused one."""
    groups: list[tuple[list[Edit], dict[str, str]]] = []
    for edit in edits:
        for group, texts in groups:
            if not any(has_clash(edit, other, calls) for other in group) and not apply(edit.pairs, texts):
                group.append(edit)
                break
        else:
            texts = dict(crate.texts)
            apply(edit.pairs, texts)
            groups.append(([edit], texts))
    return [group for group, _ in groups]


def has_clash(one: Edit, other: Edit, calls: Calls) -> bool:
    """Whether two edits change one function, or one of them a function that the other's calls."""
    first, second = one.names(), other.names()
    return bool(first & second or find_callees(first, calls) & second or find_callees(second, calls) & first)


def find_callees(names: set[str], calls: Calls) -> set[str]:
    """The functions that these call, themselves or by others."""
    callees: set[str] = set()
    left = list(names)
    while left:
        more = calls.get(left.pop(), set()) - callees
        callees |= more
        left += more
    return callees

"""Many similar checks, one after the other, whose faults are reported as one."""

from __future__ import annotations

from collections.abc import Iterable

from .fault import Fault

SHOWN, LONGEST = 3, 1000
"""The most faults that are shown, and the most characters of each."""


def fault_in(tried: Iterable[tuple[object, Fault]]) -> Fault:
    """The number of checks that found a fault, with the first few faults; or the fault that there was nothing to
    check."""
    count, faults = 0, list[str]()
    for name, fault in tried:
        count += 1
        faults += [] if fault is None else [f"{name}: {fault}"[:LONGEST]]
    if not count:
        return "nothing was tried"
    return "\n".join([f"{len(faults)} of {count} are wrong", *faults[:SHOWN]]) if faults else None

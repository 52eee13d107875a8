"""Records and their lines: their ends, their fields, and the first difference."""

from __future__ import annotations

import csv
import io
from collections.abc import Iterable, Sequence

from .fault import Fault


def record_ends(text: bytes) -> list[int]:
    """The ends of the records of a CSV text: the ends of lines outside quotation marks."""
    ends, place, begins, quoted = [], 0, True, False
    while place < len(text):
        byte = text[place : place + 1]
        if quoted:
            if byte == b'"' and text[place + 1 : place + 2] == b'"':
                place += 1
            elif byte == b'"':
                quoted = False
        elif byte == b'"' and begins:
            quoted = True
        elif byte == b"\n" or (byte == b"\r" and text[place + 1 : place + 2] != b"\n"):
            ends.append(place + 1)
        begins = not quoted and byte in b",\n\r"
        place += 1
    return ends


def records_of(text: bytes) -> list[bytes]:
    """The records of a CSV text, each with its end."""
    ends = record_ends(text)
    return [text[begin:end] for begin, end in zip([0, *ends], ends)]


def rows_of(text: str) -> list[list[str]]:
    """The fields of each row that isn't empty."""
    return [row for row in csv.reader(io.StringIO(text, newline="")) if row]


def first_difference(records: Iterable[object], lines: Sequence[object], wanted: Sequence[object]) -> Fault:
    """The first record whose line differs; or the fault that there are more lines, or fewer."""
    for record, line, other in zip(records, lines, wanted):
        if line != other:
            return f"{str(record)[:300]}: wrote {str(line)[:200]}, wanted {str(other)[:200]}"
    return None if len(lines) == len(wanted) else f"{len(lines)} lines, wanted {len(wanted)}"

"""A reader of RIS with the format's own rules: a record begins with `TY` and ends with `ER`, and each line is a tag of
two characters, two spaces, a hyphen, a space, and the value."""

from __future__ import annotations

import re

LINE = re.compile(r"([A-Z][A-Z0-9])  - ?(.*)")


def read_ris(data: bytes) -> list[dict[str, list[str]]]:
    """The records of a file, each with the values of its tags. Raises ValueError if a line doesn't follow the rules."""
    text = data.decode("utf-8")
    if "\n" in text.replace("\r\n", "") or not text.endswith("\r\n"):
        raise ValueError("a line doesn't end with CR and LF")
    records, now = list[dict[str, list[str]]](), dict[str, list[str]]()
    for line in text.split("\r\n")[:-1]:
        match = LINE.fullmatch(line)
        if not match:
            raise ValueError(f"{line!r} is no line")
        tag, value = match.groups()
        if (tag == "TY") is bool(now):
            raise ValueError(f"{line!r} isn't where it has to be")
        if tag == "ER":
            records.append(now)
            now = {}
        else:
            now.setdefault(tag, []).append(value)
    if now:
        raise ValueError("a record has no end")
    return records

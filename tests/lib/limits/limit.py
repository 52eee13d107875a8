"""A number with its limits: the values around them, and the answer to each from the documents."""

from __future__ import annotations

import dataclasses
from collections.abc import Callable, Iterable
from typing import Generic, Optional, TypeVar, Union

Asked = TypeVar("Asked")

Told = Union[str, Callable[[int], str]]
"""An answer, which may depend on the value."""

DONE = '{"done":true}'
BAD = '{"refused":10}'


def refused(number: int, **found: object) -> str:
    """The line of a refusal, with its number and its other fields."""
    parts = sorted([("refused", str(number)), *((key, _json(value)) for key, value in found.items())])
    return "{" + ",".join(f'"{key}":{value}' for key, value in parts) + "}"


def _json(value: object) -> str:
    return f'"{value}"' if isinstance(value, str) else str(value)


def month_of(count: int) -> str:
    """The month that comes so many months after January of the year 0."""
    return f"{count // 12:04}-{count % 12 + 1:02}"


def count_of(month: str) -> int:
    """The number of months from January of the year 0 to a month."""
    return 12 * int(month[:4]) + int(month[5:]) - 1


@dataclasses.dataclass(frozen=True)
class Limit(Generic[Asked]):
    """A number that goes from the least to the most. If one of them is None, there is no end to test."""

    name: str
    least: Optional[int]
    most: Optional[int]
    asked: Callable[[int], Asked]
    """Makes the request with a value, and everything else in order."""
    within: Told
    below: Told
    above: Told
    said: str
    """The words of the documents that contain the limit."""
    rule: Optional[str] = None
    """The name of the range in the second office, if it has one."""
    more: Iterable[int] = ()
    """Further values, such as values that a number with few bits would confuse with another one."""
    floor: int = -1
    """The least value that a request can contain."""
    is_said: bool = True
    """Whether the words contain the numbers; otherwise the office's content decides them."""

    def values(self) -> list[int]:
        """One below, at and one above each end."""
        ends = [end for end in (self.least, self.most) if end is not None]
        return sorted({value for end in ends for value in (end - 1, end, end + 1, *self.more) if value >= self.floor})

    def told(self, value: int) -> str:
        """The answer to a value according to the documents."""
        if self.least is not None and value < self.least:
            told = self.below
        elif self.most is not None and value > self.most:
            told = self.above
        else:
            told = self.within
        return told if isinstance(told, str) else told(value)


def spellings(number: int) -> list[str]:
    """The ways in which the documents may write a number at an end."""
    power = len(str(number)) - 1
    others = [f"10^{power}"] if number == 10 ** power else []
    others += [month_of(number)] if 12 * 2000 <= number < 12 * 2200 else []
    others += [f"0x{number:02X}", chr(number)] if number < 0x80 else []
    return [f"{number}", f"{number:,}", f"{number:02}", *others]


def unsaid(limit: Limit[Asked], text: str) -> Optional[str]:
    """The reason why the documents don't state a limit: its words are missing, or its number is."""
    if limit.said not in text:
        return f"the documents don't say {limit.said!r}"
    for end in (limit.least, limit.most) if limit.is_said else ():
        if end is not None and not any(one in limit.said for one in spellings(end)):
            return f"{limit.said!r} doesn't have {end:,}"
    return None

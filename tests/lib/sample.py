"""The part of the exhaustive checks that a run takes: all of them in a long run, otherwise a part drawn with a seed."""

from __future__ import annotations

import random
from collections.abc import Sequence
from typing import TypeVar

import pytest

T = TypeVar("T")


class Sample:
    """The part that a run takes. The same seed draws the same part, whatever else was drawn before."""

    def __init__(self, seed: int, is_long: bool) -> None:
        self.seed, self.is_long = seed, is_long

    def drawn(self, name: str) -> random.Random:
        """The random generator for a purpose with this name."""
        return random.Random(f"{self.seed} {name}")

    def count(self, short: int, whole: int) -> int:
        """The number of checks in a run of this kind."""
        return whole if self.is_long else short

    def of(self, values: Sequence[T], most: int, name: str) -> list[T]:
        """All values in a long run; otherwise at most so many, in their order."""
        if self.is_long or len(values) <= most:
            return [*values]
        places = sorted(self.drawn(name).sample(range(len(values)), most))
        return [values[at] for at in places]


def sample_of(config: pytest.Config) -> Sample:
    """The part that a run of pytest takes."""
    return Sample(config.option.seed, config.option.long)

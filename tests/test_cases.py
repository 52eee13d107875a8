"""Runs the program on each case of tests/cases, and compares what it writes, and its exit status.

A case is a folder with four files: args (the program's arguments, one a line), stdin, stdout (the bytes that it must
write) and status (its exit status). If there is a file stderr it is compared too. Each case runs in a fresh folder of
its own, for at most 120 seconds.
"""

import pytest

from lib import cases
from lib.program import Program

pytestmark = pytest.mark.spread


@pytest.mark.parametrize("name", cases.names())
def test_case(program: Program, name: str) -> None:
    assert cases.fault_of(program, name) is None

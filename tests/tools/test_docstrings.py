"""The linter of docstrings: which functions owe one."""

from __future__ import annotations

import ast

from lib.docstrings import functions_unsaid

MODULE = '''
class Row(NamedTuple):
    def cells(self): ...
    def _own(self): ...

class _Own:
    def cells(self): ...

class Wide(Row):
    def cells(self): ...

def read():
    def within(): ...
    return within

def main(): ...

def write():
    """Writes."""

if True:
    def put(): ...
'''


def test_public_functions_without_a_docstring_are_found() -> None:
    assert [*functions_unsaid(ast.parse(MODULE))] == [(3, "cells"), (12, "read"), (22, "put")]

"""The arguments that the scripts next to the tests share."""

from __future__ import annotations

import argparse
import os

from .places import ROOT
from .program import Program

DEFAULT = "crates/cpi/out/cpi"


def words_of(text: str | None) -> argparse.ArgumentParser:
    """The arguments of a script with this head, with the program that it tests."""
    form = argparse.RawDescriptionHelpFormatter
    words = argparse.ArgumentParser(description=text, formatter_class=form)
    words.add_argument("--program", default=ROOT / DEFAULT, metavar="FILE", help=f"the program cpi (else {DEFAULT})")
    return words


def program_of(words: argparse.ArgumentParser, chosen: argparse.Namespace) -> Program:
    """The program that was chosen. If there is none, the script ends with status 1."""
    if not os.access(chosen.program, os.X_OK):
        words.exit(1, f"{words.prog}: there is no program {chosen.program}: ./cpi-build builds it\n")
    return Program(os.path.abspath(chosen.program))

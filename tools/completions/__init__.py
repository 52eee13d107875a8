"""Completion of the words of cpi and of cpi-tools, for bash, zsh and fish.

Each file is made of the programs' own words: of what `cpi --help` prints, and of the parsers of cpi-tools. So a new
option is completed without anything being written twice, and a shell runs neither of them to complete a word.
"""

from __future__ import annotations

import argparse
from pathlib import Path

from . import bash, fish, zsh
from .words import Command, of_help, of_parser

SHELLS = {
    "bash": ("usr/share/bash-completion/completions/{}", bash.text),
    "zsh": ("usr/share/zsh/vendor-completions/_{}", zsh.text),
    "fish": ("usr/share/fish/vendor_completions.d/{}.fish", fish.text),
}
"""By shell the place of a program's file below /, and its maker."""


def commands(program: Path, tools: argparse.ArgumentParser) -> list[Command]:
    """The words of the program `cpi`, and those of cpi-tools by its parser."""
    return [of_help("cpi", program), of_parser("cpi-tools", "", tools)]


def completions(program: Path, tools: argparse.ArgumentParser) -> dict[str, str]:
    """The text of each file by its path below /."""
    both = commands(program, tools)
    return {place.format(one.name): text(one) for place, text in SHELLS.values() for one in both}

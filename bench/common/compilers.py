"""The yardsticks in C++ and C, compiled into bench/out/."""

from __future__ import annotations

import shutil
import subprocess
from pathlib import Path

from cpi_tools.text.terminal import Fault

from . import TOP

BENCH = TOP / "bench"
OUT = BENCH / "out"

COMPILERS = {".cpp": ("g++", "clang++"), ".c": ("cc",)}
"""The compilers of a language, of which the first that is there is taken."""

STANDARDS: dict[str, list[str]] = {".cpp": ["-std=c++17"], ".c": []}


def compile_yardstick(name: str) -> str:
    """The path of the program that a file of this folder makes, such as `month.cpp`. Fault: there is no compiler, or it
    refuses the file."""
    source = BENCH / name
    compiler = next(filter(shutil.which, COMPILERS[source.suffix]), None)
    if not compiler:
        raise Fault(f"there is no {' or '.join(COMPILERS[source.suffix])}, which compiles {source}")
    OUT.mkdir(exist_ok=True)
    made = OUT / source.stem
    words = [compiler, "-O2", *STANDARDS[source.suffix], str(source), "-o", str(made)]
    if subprocess.run(words, check=False).returncode:
        raise Fault(f"{compiler} couldn't compile {source}")
    return str(made)


def yardstick_in_python() -> Path:
    """The file of the yardstick in Python."""
    return BENCH / "yardstick.py"

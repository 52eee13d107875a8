"""The parts of a bench, their sizes as options of its command line, and how it ends.

A part is a dataclass. Its docstring says what it measures, in which units, and how long that takes; its fields are its
sizes. A small run takes seconds and shows that the bench works: its times say nothing, and no aim is held against them.
"""

from __future__ import annotations

import argparse
import contextlib
import dataclasses
import inspect
import os
import sys
import tempfile
import textwrap
from abc import ABC, abstractmethod
from collections.abc import Iterator, Mapping, Sequence
from pathlib import Path
from typing import ClassVar, TypeVar, Union

from cpi_tools.text.terminal import Fault, because_of

from . import TOP

T = TypeVar("T")

Value = Union[bool, int, str, "tuple[int, ...]", None]
"""A size as the command line gives it; None if it doesn't."""

MOST = 1_000_000_000
"""The bound of a number that has none of its own."""

WIDTH = 100
"""Columns of a help."""


def size(full: T, small: T, about: str, least: int = 1, most: int = MOST) -> T:
    """A field of a part: its value in a full run and in a small one, what it is, and its bounds if it is a number."""
    return dataclasses.field(default=full, metadata={"small": small, "about": about, "bounds": (least, most)})


@dataclasses.dataclass(frozen=True)
class Setting:
    """What a part gets: the path of `cpi`, the folder whose disk is measured, and whether the run is a small one."""

    path: str
    room: Path
    is_small: bool

    @property
    def program(self) -> str:
        """The path of the program. Fault: nobody has built it."""
        if not os.access(self.path, os.X_OK):
            raise Fault(f"there is no program {self.path}: ./cpi-build builds it")
        return self.path

    @contextlib.contextmanager
    def open_folder(self) -> Iterator[Path]:
        """A new folder on that disk until the context ends; the programs that start meanwhile have it for their
        temporary files too."""
        self.room.mkdir(parents=True, exist_ok=True)
        # (this process keeps the folder that it has for its own ones, also once this one is gone)
        tempfile.gettempdir()
        with tempfile.TemporaryDirectory(dir=self.room) as folder:
            before = {name: os.environ[name] for name in ("TMPDIR",) if name in os.environ}
            os.environ["TMPDIR"] = folder
            try:
                yield Path(folder)
            finally:
                del os.environ["TMPDIR"]
                os.environ.update(before)


@dataclasses.dataclass(frozen=True)
class Part(ABC):
    """A part of a bench."""

    name: ClassVar[str]

    @abstractmethod
    def measure(self, setting: Setting) -> bool:
        """Measures, prints the figures, and says whether the aims are met. Fault: something isn't as it has to be."""


# ---- sizes as options


def option_of(name: str) -> str:
    """The option of a size: `--no-python` of `no_python`."""
    return f"--{name.replace('_', '-')}"


def read_numbers(text: str) -> tuple[int, ...]:
    """A type of argparse: whole numbers that rise, such as `1,2,5,10`."""
    numbers = tuple(int(each) for each in text.split(","))
    if list(numbers) != sorted(set(numbers)):
        raise argparse.ArgumentTypeError(f"{text} isn't a list of numbers that rise, such as 1,2,5,10")
    return numbers


def show_size(value: object) -> str:
    """The text of a size."""
    if isinstance(value, tuple):
        return ",".join(map(str, value))
    return f"{value:,}" if isinstance(value, int) else str(value)


def owners_of_sizes(parts: Sequence[type[Part]]) -> dict[str, list[type[Part]]]:
    """By the name of a size, the parts that have it."""
    owners: dict[str, list[type[Part]]] = {}
    for part in parts:
        for field in dataclasses.fields(part):
            owners.setdefault(field.name, []).append(part)
    return owners


def help_of_size(name: str, owners: Sequence[type[Part]]) -> str:
    """What a size is, and its full value in each part."""
    fields = [(part, field) for part in owners for field in dataclasses.fields(part) if field.name == name]
    values = [f"{part.name}: {show_size(field.default)}" for part, field in fields if field.default not in (False, "")]
    about: str = fields[0][1].metadata["about"]
    return f"{about} ({'; '.join(values)})" if values else f"{about} ({', '.join(part.name for part in owners)})"


def add_sizes(words: argparse.ArgumentParser, parts: Sequence[type[Part]]) -> None:
    """Adds an option for each size of the parts; one that several parts have is for each of them."""
    for name, owners in owners_of_sizes(parts).items():
        option, about, value = option_of(name), help_of_size(name, owners), getattr(owners[0], name)
        if isinstance(value, bool):
            words.add_argument(option, action="store_true", default=None, help=about)
        elif isinstance(value, tuple):
            words.add_argument(option, type=read_numbers, metavar="N,N..", help=about)
        elif isinstance(value, int):
            words.add_argument(option, type=int, metavar="N", help=about)
        else:
            words.add_argument(option, metavar="PATH", help=about)


def check_bounds(part: type[Part], name: str, bounds: tuple[int, int], value: Value) -> None:
    """Raises Fault if a number of the command line is out of the bounds of its size."""
    if value is None or isinstance(value, (bool, str)):
        return
    least, most = bounds
    if not all(least <= number <= most for number in (value if isinstance(value, tuple) else (value,))):
        wanted = f"{least:,} to {most:,}" if most < MOST else f"{least:,} or more"
        raise Fault(f"{option_of(name)} {show_size(value)}: the part {part.name} takes {wanted}")


def choose_sizes(part: type[Part], given: Mapping[str, Value], is_small: bool) -> Part:
    """The part with the sizes of the command line, and with its own ones in place of those that are None. Fault: one is
    out of its bounds."""
    sizes: dict[str, object] = {}
    for field in dataclasses.fields(part):
        check_bounds(part, field.name, field.metadata["bounds"], given[field.name])
        if given[field.name] is not None:
            sizes[field.name] = given[field.name]
        elif is_small:
            sizes[field.name] = field.metadata["small"]
    return dataclasses.replace(part(), **sizes)


# ---- a bench


def help_of_bench(about: str, parts: Sequence[type[Part]]) -> str:
    """What a bench is, and what each of its parts says of itself."""
    texts = [inspect.cleandoc(about)]
    for part in parts:
        paragraphs = (inspect.getdoc(part) or "").split("\n\n")
        filled = (textwrap.fill(text, WIDTH, initial_indent="  ", subsequent_indent="  ") for text in paragraphs)
        texts.append(f"{part.name}:\n" + "\n\n".join(filled))
    return "\n\n".join(texts)


def read_words(about: str, parts: Sequence[type[Part]]) -> tuple[Setting, list[Part]]:
    """What the command line chooses: the setting, and the parts with their sizes. Fault: a size is out of its bounds,
    or is none of the part's."""
    words = argparse.ArgumentParser(
        description=help_of_bench(about, parts), formatter_class=argparse.RawDescriptionHelpFormatter
    )
    built, out = TOP / "crates/cpi/out/cpi", TOP / "bench/out"
    words.add_argument("--part", choices=[part.name for part in parts], help="only this part")
    words.add_argument("--program", default=str(built), metavar="FILE", help="the program cpi (what ./cpi-build built)")
    words.add_argument("--room", default=str(out), metavar="FOLDER", help="on the disk that is measured (bench/out)")
    words.add_argument("--small", action="store_true", help="a run of seconds, whose times say nothing")
    add_sizes(words, parts)
    chosen = words.parse_args()
    given: dict[str, Value] = {name: getattr(chosen, name) for name in owners_of_sizes(parts)}
    run = [part for part in parts if chosen.part in (None, part.name)]
    if strange := [name for name, value in given.items() if value is not None and name not in owners_of_sizes(run)]:
        raise Fault(f"{option_of(strange[0])} is no size of the part {chosen.part}")
    setting = Setting(os.path.abspath(chosen.program), Path(chosen.room).absolute(), chosen.small)
    return setting, [choose_sizes(part, given, setting.is_small) for part in run]


def run_bench(name: str, about: str, parts: Sequence[type[Part]]) -> int:
    """Runs the parts that the command line chooses, by default all: the exit status, 0 if their aims are met. A fault
    is one line on standard error."""
    try:
        setting, chosen = read_words(about, parts)
        are_met = []
        for part in chosen:
            if len(chosen) > 1:
                print(f"# {part.name}", flush=True)
            are_met.append(part.measure(setting))
    except (Fault, OSError) as fault:
        print(f"bench/{name}: {because_of(fault) if isinstance(fault, OSError) else fault}", file=sys.stderr)
        return 1
    return 0 if setting.is_small or all(are_met) else 1

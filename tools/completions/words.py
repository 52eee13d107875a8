"""The words of a program: its commands, their options, and the kinds of values that these take."""

from __future__ import annotations

import argparse
import re
import subprocess
from collections.abc import Iterator
from pathlib import Path
from typing import NamedTuple, Optional

from cpi_tools.text.terminal import a_file
from manual import actions_of, tools_of


class Value(NamedTuple):
    """What an option takes: a file, one of some words, or a text that no shell can complete."""

    name: str
    is_file: bool = False
    choices: tuple[str, ...] = ()


class Option(NamedTuple):
    """An option with its spellings, what the help says of it, and its value if it takes one."""

    names: tuple[str, ...]
    said: str
    value: Optional[Value] = None


class Command(NamedTuple):
    """A program, or a command of it."""

    name: str
    said: str
    options: list[Option]
    takes_files: bool
    below: list["Command"]

    def spelled(self) -> list[str]:
        """All spellings of its options."""
        return [name for option in self.options for name in option.names]


def with_paths(command: Command, above: str = "") -> Iterator[tuple[str, Command]]:
    """A command and all below it, each with the words that lead to it."""
    path = f"{above} {command.name}".strip()
    yield path, command
    for one in command.below:
        yield from with_paths(one, path)


# ---- of a help as the library clap prints it

OPTION = re.compile(r" +(?:(-\w), )? *(--[a-z][a-z-]*)(?: <([^>]+)>)?(?:  +(.*))?")
COMMAND = re.compile(r"  ([a-z][a-z-]*)  +(.*)")


def section(text: str, head: str) -> list[str]:
    """The lines of a section of a help."""
    match = re.search(rf"^{head}:\n((?: .*\n)+)", text, re.M)
    return match[1].splitlines() if match else []


def value_of_help(name: str, said: str) -> Value:
    """The value of an option by what is said of it first."""
    first = re.split("[,;.]", said)[0]
    words = re.fullmatch(r"([a-z]+) or ([a-z]+)", first)
    is_file = name.endswith("file") or re.search(r"(?<!-)\bfile\b", first) is not None
    return Value(name, is_file, (words[1], words[2]) if words else ())


def options_of_help(text: str) -> Iterator[Option]:
    """The options of a help; a line that has none goes on with what is said of the one before."""
    told: list[tuple[tuple[str, ...], Optional[str], str]] = []
    for line in section(text, "Options"):
        match = OPTION.fullmatch(line)
        if match:
            names = tuple(name for name in match.group(1, 2) if name)
            told.append((names, match[3], match[4] or ""))
        elif told:
            names, value, said = told.pop()
            told.append((names, value, f"{said} {line.strip()}".strip()))
    for names, value, said in told:
        yield Option(names, said, value_of_help(value, said) if value else None)


def help_of(program: Path, *words: str) -> str:
    """What the program prints of its words."""
    ran = subprocess.run(
        [program.absolute(), *words, "--help"], stdout=subprocess.PIPE, text=True, check=True, timeout=60
    )
    return ran.stdout


def of_help(name: str, program: Path) -> Command:
    """The words of a program by its help, and by that of each of its commands."""
    text = help_of(program)
    named = [match.groups() for line in section(text, "Commands") if (match := COMMAND.fullmatch(line))]
    below = []
    for one, said in named:
        if one == "help":
            # (it takes the name of another command)
            others = [Command(other, told, [], False, []) for other, told in named if other != "help"]
            below.append(Command(one, said, [], False, others))
        else:
            below.append(Command(one, said, [*options_of_help(help_of(program, one))], False, []))
    return Command(name, "", [*options_of_help(text)], False, below)


# ---- of a parser


def is_file(action: argparse.Action) -> bool:
    """Whether a word of a parser names a file or a folder."""
    return action.type in (Path, a_file) or action.metavar == "FILE"


def choices_of(action: argparse.Action) -> tuple[str, ...]:
    """The words that one can be: all of them, or those in lower case of a name like `ask|all|CODE`."""
    if action.choices is not None:
        return tuple(map(str, action.choices))
    parts = str(action.metavar or "").split("|")
    return tuple(part for part in parts if len(parts) > 1 and part.islower())


def option_of(action: argparse.Action, parser: argparse.ArgumentParser) -> Option:
    """An option of a parser."""
    said = " ".join(parser._get_formatter()._expand_help(action).split()) if action.help else ""
    name = action.metavar if isinstance(action.metavar, str) else action.dest
    value = None if action.nargs == 0 else Value(name, is_file(action), choices_of(action))
    return Option(tuple(action.option_strings), said, value)


def of_parser(name: str, said: str, parser: argparse.ArgumentParser) -> Command:
    """The words of a parser, and of the tools below it."""
    actions = [one for one in actions_of(parser) if not isinstance(one, argparse._SubParsersAction)]
    options = [option_of(one, parser) for one in actions if one.option_strings]
    takes_files = any(is_file(one) for one in actions if not one.option_strings)
    return Command(name, said, options, takes_files, [of_parser(*tool) for tool in tools_of(parser)])

"""Completion for fish, a line for each word."""

from __future__ import annotations

from collections.abc import Iterator

from .words import Command, Option, with_paths


def quoted(text: str) -> str:
    """A text in quotation marks of fish."""
    return "'" + text.replace("\\", "\\\\").replace("'", "\\'") + "'"


def condition(path: str, command: Command) -> str:
    """When the words of a command come: after those that lead to it, and before any of those below it."""
    parts = [f"__fish_seen_subcommand_from {word}" for word in path.split()[1:]]
    if command.below:
        parts.append("not __fish_seen_subcommand_from " + " ".join(one.name for one in command.below))
    return "; and ".join(parts)


def option_of(option: Option) -> str:
    """The words of a line that tell an option."""
    names = [f"-l {name[2:]}" if name.startswith("--") else f"-s {name[1:]}" for name in option.names]
    parts = [*names, f"-d {quoted(option.said)}"]
    if option.value:
        parts.append("-r -F" if option.value.is_file else "-x")
    if option.value and option.value.choices:
        parts.append(f"-a {quoted(' '.join(option.value.choices))}")
    return " ".join(parts)


def lines_of(path: str, command: Command) -> Iterator[str]:
    """The lines of a command: what is below it, its options, and files if it takes any."""
    when = condition(path, command)
    begin = f"complete -c {path.split()[0]}" + (f" -n {quoted(when)}" if when else "")
    for one in command.below:
        yield f"{begin} -a {one.name} -d {quoted(one.said)}"
    for option in command.options:
        yield f"{begin} {option_of(option)}"
    if command.takes_files:
        yield f"{begin} -F"


def text(command: Command) -> str:
    """The file of a program."""
    head = [
        f"# Completes the words of {command.name} in fish. It is made of these words when the package is made.",
        f"complete -c {command.name} -f",
    ]
    lines = [line for path, one in with_paths(command) for line in lines_of(path, one)]
    return "".join(f"{line}\n" for line in head + lines)

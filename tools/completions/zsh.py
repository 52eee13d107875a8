"""Completion for zsh, by its functions `_arguments` and `_describe`."""

from __future__ import annotations

import re
from collections.abc import Iterator
from shlex import quote

from .words import Command, Option, Value, with_paths

CHOICE = """\
    local context state state_descr line
    typeset -A opt_args
    _arguments -C OPTIONS'1: :->command' '*:: :->words'
    case $state in
        command)
            local -a commands=(
LIST            )
            _describe command commands
            ;;
        words)
            case $line[1] in
CASES            esac
            ;;
    esac
"""


# (a file of the function path is run by its first completion, and any other once, when a shell reads it)
END = """
if [[ $funcstack[1] == _NAME ]]; then
    FUNCTION "$@"
else
    compdef FUNCTION NAME
fi
"""


def function_of(path: str) -> str:
    """The name of the function that completes what comes after some words."""
    return "_" + re.sub("[^a-z]", "_", path)


def escaped(said: str) -> str:
    """A text within the brackets or behind the colon of a word's description."""
    return re.sub(r"([\[\]:\\])", r"\\\1", said)


def value_of(value: Value) -> str:
    """What follows an option: its name, and how that is completed."""
    action = f"({' '.join(value.choices)})" if value.choices else "_files" if value.is_file else " "
    return f":{escaped(value.name)}:{action}"


def options_of(options: list[Option]) -> Iterator[str]:
    """A word for each spelling of each option; with the one the others aren't offered any more."""
    for option in options:
        others = f"({' '.join(option.names)})" if len(option.names) > 1 else ""
        for name in option.names:
            yield quote(f"{others}{name}[{escaped(option.said)}]{value_of(option.value) if option.value else ''}")


def body(path: str, command: Command) -> str:
    """The body of a function: the words of one command."""
    options = [*options_of(command.options)]
    if not command.below:
        words = options + (["'*:file:_files'"] if command.takes_files else [])
        return "    _arguments " + " \\\n        ".join(words) + "\n" if words else "    _message 'no more words'\n"
    listed = "".join(f"                {quote(f'{one.name}:{one.said}')}\n" for one in command.below)
    cases = "".join(f"                {one.name}) {function_of(f'{path} {one.name}')} ;;\n" for one in command.below)
    given = "".join(f"{option} " for option in options)
    return CHOICE.replace("OPTIONS", given).replace("LIST", listed).replace("CASES", cases)


def text(command: Command) -> str:
    """The file of a program."""
    paths = [*with_paths(command)]
    says = f"# Completes the words of {command.name} in zsh. It is made of these words when the package is made."
    head = f"#compdef {command.name}\n{says}\n"
    functions = "".join(f"\n{function_of(path)}() {{\n{body(path, one)}}}\n" for path, one in paths)
    return head + functions + END.replace("FUNCTION", function_of(command.name)).replace("NAME", command.name)

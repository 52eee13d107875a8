"""Completion for bash. The file needs nothing else: neither a program nor a library of functions."""

from __future__ import annotations

import re
from collections.abc import Iterator
from shlex import quote

from .words import Command, Option, with_paths

HEAD = """\
# Completes the words of NAME in bash. It is made of these words when the package is made.
FUNCTION()
{
    local word=${COMP_WORDS[COMP_CWORD]} before=${COMP_WORDS[COMP_CWORD - 1]} path=NAME
    local options= commands= choices= kind=options at
    COMPREPLY=()
    # (bash takes --option=value for three words)
    if [[ $word == "=" ]]; then
        word=
    elif [[ $before == "=" ]]; then
        before=${COMP_WORDS[COMP_CWORD - 2]}
    fi
    for ((at = 1; at < COMP_CWORD; at++)); do
        case "$path ${COMP_WORDS[at]}" in
            PATHS) path+=" ${COMP_WORDS[at]}" ;;
        esac
    done
    case $path in
"""

TAIL = """\
    esac
    # (bash itself completes a file, and nothing at all what can't be known)
    case $kind in
        files) [[ $word != -* ]] && return ;;
        file) return ;;
        text) compopt +o default 2> /dev/null; return ;;
    esac
    [[ $kind != choices ]] || options=$choices commands=
    [[ -z $commands || $word == -* ]] || options=$commands
    compopt +o default 2> /dev/null
    mapfile -t COMPREPLY < <(compgen -W "$options" -- "$word")
}
complete -o default -F FUNCTION NAME
"""


def kind_of(option: Option) -> str:
    """What follows an option."""
    assert option.value
    if option.value.choices:
        return f"kind=choices choices={quote(' '.join(option.value.choices))}"
    return "kind=file" if option.value.is_file else "kind=text"


def case_of(path: str, command: Command) -> Iterator[str]:
    """The lines that say which words may follow a command."""
    yield f"        {quote(path)})"
    yield f"            options={quote(' '.join(command.spelled()))}"
    if command.below:
        yield f"            commands={quote(' '.join(one.name for one in command.below))}"
    if command.takes_files:
        yield "            kind=files"
    taking = [option for option in command.options if option.value]
    if taking:
        yield "            case $before in"
        for option in taking:
            yield f"                {' | '.join(option.names)}) {kind_of(option)} ;;"
        yield "            esac"
    yield "            ;;"


def text(command: Command) -> str:
    """The file of a program."""
    paths = [*with_paths(command)]
    below = " | ".join(quote(path) for path, _ in paths[1:])
    cases = "".join(f"{line}\n" for path, one in paths for line in case_of(path, one))
    made = HEAD.replace("PATHS", below) + cases + TAIL
    return made.replace("FUNCTION", "_" + re.sub("[^a-z]", "_", command.name)).replace("NAME", command.name)

"""The pages of the manual: those of docs/man with what belongs into them, and one of each tool of cpi-tools.

The page of a tool is made of its own words, as its `--help` tells them, so a new tool has its page and its line in
cpi-tools(1) without anything being written twice. The refusals in cpi(1) are made of cpi_tools/office/refusals.py, which the
guides and the pages of `web/` have too.
"""

from __future__ import annotations

import argparse
import re
from collections.abc import Iterator
from pathlib import Path
from typing import Optional

from cpi_tools.office.refusals import COLLECTOR, PLAN_FAULTS, REFUSALS, Refusal, Words


def roff(text: str) -> str:
    """A text as roff has it: no character of it is a command, and a hyphen can be copied as one."""
    escaped = text.replace("\\", "\\e").replace("-", "\\-")
    return re.sub(r"^(?=[.'])", r"\\&", escaped, flags=re.M)


# ---- the words of a parser
# (argparse tells its words by its printed help alone; their parts stand in attributes that have been the same since
# Python 2.7)


def actions_of(words: argparse.ArgumentParser) -> list[argparse.Action]:
    """The words of a parser, without those that its help doesn't tell."""
    return [action for action in words._actions if action.help != argparse.SUPPRESS]


def tools_of(words: argparse.ArgumentParser) -> Iterator[tuple[str, str, argparse.ArgumentParser]]:
    """The tools below a parser: name, what its help says in one line, and its own parser."""
    for action in words._actions:
        if isinstance(action, argparse._SubParsersAction):
            said = {each.dest: each.help or "" for each in action._choices_actions}
            for name, parser in action.choices.items():
                if name in said:
                    yield name, said[name], parser


# ---- a page


def paragraphs(text: str) -> Iterator[str]:
    """The paragraphs of a help. What is indented stays in its lines."""
    for part in re.split(r"\n[ \t]*\n", text.strip("\n")):
        if part.startswith((" ", "\t")):
            lines = "\n".join(line.strip() for line in part.splitlines())
            yield f".EX\n{roff(lines)}\n.EE\n"
        else:
            yield f"{roff(' '.join(part.split()))}\n"


def option(action: argparse.Action, parser: argparse.ArgumentParser) -> str:
    """A word and what it says, as an entry of a list."""
    value = action.metavar if isinstance(action.metavar, str) else action.dest.upper()
    if not action.option_strings:
        head = f"\\fI{roff(value)}\\fR"
    else:
        of_value = "" if action.nargs == 0 else f" \\fI{roff(value)}\\fR"
        head = ", ".join(f"\\fB{roff(each)}\\fR{of_value}" for each in action.option_strings)
    told = parser._get_formatter()._expand_help(action) if action.help else ""
    return f".TP\n{head}\n{roff(' '.join(told.split()))}\n"


def entry(name: str, said: str) -> str:
    """A tool in the list of tools."""
    page = roff(name.replace(" ", "-"))
    return f".TP\n.BR {page} (1)\n{roff(said)}\n"


HEADS = {"example": "EXAMPLES", "examples": "EXAMPLES", "exit status": "EXIT STATUS"}
"""The sections of what stands below a help, by its first words. What begins otherwise is a note."""


def ending(text: str) -> Iterator[str]:
    """The sections of what stands below a help: notes, examples, the exit status."""
    found: dict[str, list[str]] = {"NOTES": [], "EXAMPLES": [], "EXIT STATUS": []}
    for part in re.split(r"\n[ \t]*\n", text.strip("\n")):
        begun = re.match(r"(examples?|exit status)(: *|(?=,))", part)
        head = HEADS[begun[1]] if begun else "NOTES"
        said = part[begun.end() :].lstrip(", ") if begun else part
        if head == "EXAMPLES":
            lines = "\n".join(line.strip() for line in said.splitlines())
            found[head].append(f".EX\n{roff(lines)}\n.EE\n")
        elif said:
            line = " ".join(said.split())
            found[head].append(f"{roff(line[:1].upper() + line[1:])}{'' if line.endswith('.') else '.'}\n")
    yield from (f".SH {head}\n" + ".PP\n".join(parts) for head, parts in found.items() if parts)


def page(name: str, said: str, parser: argparse.ArgumentParser, head: str) -> str:
    """The page of a tool; `head` is what its .TH says behind the name."""
    usage = " ".join(parser.format_usage().partition(": ")[2].split())
    tools, actions = list(tools_of(parser)), actions_of(parser)
    parts = [f".TH {roff(name).upper()} 1 {head}\n.SH NAME\n{roff(name)} \\- {roff(said)}\n"]
    parts += [f".SH SYNOPSIS\n{roff(usage)}\n.SH DESCRIPTION\n", ".PP\n".join(paragraphs(parser.description or said))]
    if tools:
        parts += [".SH TOOLS\n", *(entry(f"{name} {below}", told) for below, told, _ in tools)]
    listed = [action for action in actions if not isinstance(action, argparse._SubParsersAction)]
    listed.sort(key=lambda action: bool(action.option_strings))
    parts += [".SH OPTIONS\n", *(option(action, parser) for action in listed), *ending(parser.epilog or "")]
    return "".join(parts) + ".SH SEE ALSO\n.BR cpi\\-tools (1),\n.BR cpi (1)\n"


# ---- refusals

OF_A = {"handover": "of a hand-over", "freeze": "of a freeze", "calendar": "of a calendar row"}
"""The records that have words of their own for a refusal."""


def sentence(text: str) -> str:
    """A text as a sentence, with the words of a record in bold."""
    whole = text[:1].upper() + text[1:] + ("" if text.endswith(".") else ".")
    return re.sub("`([^`]*)`", r"\\fB\1\\fR", roff(whole))


def told(words: Words, which: str) -> str:
    """Why something is refused and what to do, after the words for which refusal that is."""
    return f"{sentence(f'{which}: {words.because}' if which else words.because)}\n{sentence(words.do)}\n"


def which_of(row: Refusal, has_both: bool) -> str:
    """Which refusals of its number a row is about; empty if that is each of them."""
    fault: Optional[str] = None if row.fault is None else f"fault {row.fault}"
    to = "to a collector" if row.to == COLLECTOR else "to the desk"
    whose = OF_A.get(row.word or "", to if has_both else None)
    return ", ".join(part for part in (fault, whose) if part)


def refusal(numbers: tuple[int, ...]) -> str:
    """The entry of one number, or of several that have the same words."""
    rows = [row for row in REFUSALS if row.numbers == numbers]
    has_both = len({row.to for row in rows}) > 1
    parts = [told(row.words, which_of(row, has_both)) for row in rows]
    if 44 in numbers:
        parts[1:1] = [told(words, f"fault {fault}") for fault, words in PLAN_FAULTS.items()]
    label = ", ".join(map(str, numbers))
    return f".TP\n.B {label}\n" + ".IP\n".join(parts)


def refusals() -> str:
    """The list of all refusals."""
    return "".join(refusal(numbers) for numbers in sorted({row.numbers for row in REFUSALS})).rstrip("\n")


# ---- all pages


def pages_below(name: str, words: argparse.ArgumentParser, head: str) -> Iterator[tuple[str, str]]:
    """The pages of the tools below a parser, and of those below them: name of the file, and its text."""
    for tool, said, parser in tools_of(words):
        own = f"{name}-{tool}"
        yield f"{own}.1", page(own, said, parser, head)
        yield from pages_below(own, parser, head)


def manual(folder: Path, words: argparse.ArgumentParser, version: str, day: str) -> dict[str, str]:
    """All pages by their file names. `folder` has those that are written by hand, `words` is the parser of cpi-tools,
    `day` is like 2026-11-25."""
    tools = "".join(entry(f"cpi-tools {name}", said) for name, said, _ in tools_of(words)).rstrip("\n")
    given = {"@DAY@": day, "@VERSION@": version, "@TOOLS@": tools, "@REFUSALS@": refusals()}
    pages = {}
    for path in sorted(folder.glob("*.1")):
        text = path.read_text(encoding="utf-8")
        for mark, put in given.items():
            text = text.replace(mark, put)
        pages[path.name] = text
    return {**pages, **dict(pages_below("cpi-tools", words, f'"{day}" "cpi {version}" "Price index office"'))}

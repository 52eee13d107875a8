"""The words of the command line, and the tool that they name."""

from __future__ import annotations

import argparse
import contextlib
import sys
from collections.abc import Iterable, Iterator, Sequence
from importlib import import_module
from typing import Optional

from .text.text_files import formulas_told
from .text.terminal import Fault, ToolWords, ends_by_signals, is_line, shown_outputs
from .version import ShowVersion

TOOLS = {
    "backup": "guard.backup", "drill": "guard.drill", "restore": "guard.restore", "follow": "guard.follow",
    "receive": "guard.receive", "keep": "guard.keep", "promote": "guard.promote", "gaps": "guard.gaps",
    "probe": "guard.watch.probe", "doctor": "guard.doctor", "keys": "desk.keys.keys_cli",
    "calendar": "office.calendar_file", "desk": "desk.desk_cli", "explain": "explain.explanation",
    "compare": "office.compare", "quality": "publish.quality_counts",
    "average-prices": "publish.average_prices", "publish": "publish.pack",
    "release-pdf": "publish.typeset.release_pdf", "research-file": "research.research_file",
    "seasonal": "publish.seasonal",
    "take-in": "sheets.maps.take_in_words", "take-out": "sheets.take_out", "next-year": "sheets.year.next_year",
    "weights": "sheets.year.moved_weights",
}  # fmt: skip
"""The module of each tool, in the order of the help."""


def parser(named: Iterable[str] = TOOLS) -> ToolWords:
    """The parser of these tools; the module of each is read, and adds its own words."""
    words = ToolWords(
        prog="cpi-tools",
        description="Companions of cpi, the program of a consumer price index office.",
        epilog="example: cpi-tools backup office.db backup/office.db",
    )
    words.add_argument("--version", action=ShowVersion, help="print the version, and which program the tools run")
    tools = words.add_subparsers(required=True, metavar="TOOL", title="tools", parser_class=ToolWords)
    for tool in named:
        import_module(f".{TOOLS[tool]}", __package__).add_words(tools)
    return words


def _parser_for(words: Sequence[str]) -> ToolWords:
    """The parser that these words need: if they begin with a tool, no other tool's module is read."""
    return parser(words[:1] if words and words[0] in TOOLS else TOOLS)


def main(given: Optional[Sequence[str]] = None) -> int:
    """Runs a tool by its words (those of the command line); its exit status.

    What a tool is known to meet is one line on standard error and status 1; words that aren't its own are 2.
    """
    with shown_outputs() as out:
        try:
            return _run(sys.argv[1:] if given is None else given)
        except BrokenPipeError:
            # (the reader of the output has gone)
            out.goes_nowhere()
            return 1


def _run(words: Sequence[str]) -> int:
    """Runs a tool by its words; its exit status."""
    tool = "cpi-tools"
    try:
        with _flush():
            chosen, others = _parser_for(words).parse_known_args(words)
        tool = f"cpi-tools {chosen.tool}"
        with _flush():
            return _ran(chosen, others, words)
    except Fault as fault:
        print(f"{tool}: {fault}", file=sys.stderr)
        return 1


@contextlib.contextmanager
def _flush() -> Iterator[None]:
    """Text written meanwhile is written out at the end, so that its fault is one line, also after `--help`."""
    try:
        yield
    finally:
        sys.stdout.flush()


def _ran(chosen: argparse.Namespace, others: Sequence[str], words: Sequence[str]) -> int:
    """Runs the tool that was chosen; its exit status. Raises Fault."""
    if odd := [word for word in words if not is_line(word)]:
        chosen.words.error(f"a word isn't a line of UTF-8: {odd[0]!a}")
    if others:
        # (told by the tool whose words they were to be, which has its own status for it)
        chosen.words.error(f"unrecognized arguments: {' '.join(others)}")
    with ends_by_signals(), formulas_told(f"cpi-tools {chosen.tool}", getattr(chosen, "safe_csv", None)):
        status: int = chosen.run(chosen)
        return status

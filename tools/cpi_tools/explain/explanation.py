"""`cpi-tools explain`: its words, how it is run, and the explanation of a node, whole."""

from __future__ import annotations

import argparse
import contextlib
import os
import sys
from collections.abc import Iterable, Iterator
from pathlib import Path
from types import ModuleType
from typing import NamedTuple, Optional

from ..office.copying import private_copy
from ..office.folders import refuse_shared, written_folder
from ..office.stored import read_copy
from ..text.exact import at_and_above, depth_of, points, tenths
from ..text.message import Code, Figure as FigureText, Message, Money, message, moment_of, month_of, row, text_of, whole
from ..text.report_language import ENGLISH, Teller, add_language, chosen_teller
from ..text.terminal import (
    Fault,
    Progress,
    ToolWords,
    a_month,
    a_slot,
    at_least,
    because_of,
    month_text,
    needs,
    slot_text,
    write_count,
)
from . import sentence_texts
from .aggregate import Life, aggregate_parts, handed_over, life_of, sample_glance
from .explanation_lines import Explanation, Figure, level_part, node_glance, node_parts
from .release_sources import AGGREGATE, NotExplained, Sources
from .sentences import samples_part, sentences_of


# ==== the whole explanation of a node


def explain_node(sources: Sources, code: str) -> Explanation:
    """All lines of a node in the release.

    Raises NotExplained if the table has no such node, or if a row from which it comes isn't stored.
    """
    if code not in sources.own.levels:
        places: dict[str, object] = {"month": month_of(sources.month), "rows": whole(len(sources.own.levels))}
        raise NotExplained(
            message("{code} isn't a node of {month}, whose table has {rows} rows", code=Code(code), **places)
        )
    try:
        return _explain_node(sources, code)
    except (LookupError, ArithmeticError) as fault:
        raise NotExplained(
            f"{code}: a row from which it is computed is missing, or can't be used ({type(fault).__name__}: {fault})"
        ) from fault


def _explain_node(sources: Sources, code: str) -> Explanation:
    is_aggregate = depth_of(code) == AGGREGATE
    parts = [level_part(sources, code), *(aggregate_parts if is_aggregate else node_parts)(sources, code)]
    parts += [] if is_aggregate else [samples_part(sources, code)]
    # (each expression is valued here, so that one without a value is reported as such)
    are_true = all([part.is_true for part in parts])
    return Explanation(
        code,
        sources.plan.titles[code],
        month_text(sources.month),
        sources.own.release.revision,
        sentences_of(sources, code) if are_true else [message(sentence_texts.UNTRUE)],
        figures_of(sources, code),
        [*facts_of(sources, code)],
        (sample_glance if is_aggregate else node_glance)(sources, code),
        parts,
    )


def figures_of(sources: Sources, code: str) -> list[Figure]:
    """The figures of a row as a table prints them."""
    level = sources.own.levels[code]
    year = "\u2013" if level.year_change is None else FigureText(f"{tenths(level.year_change)} %")
    return [
        Figure(message("chained level"), FigureText(points(level.chained))),
        Figure(message("index"), FigureText(points(level.within))),
        Figure(message("monthly change"), FigureText(f"{tenths(level.month_change)} %")),
        Figure(message("annual change"), year),
        Figure(message("weight in use"), whole(level.weight)),
        # t: whether there are imputed prices
        Figure(message("imputed prices"), message("some") if level.imputed else message("none")),
    ]


def facts_of(sources: Sources, code: str) -> Iterator[Message]:
    """The decisions about the month: its revisions, its carry list, and hand-overs."""
    own = sources.own.release
    frozen_at, publishes = sources.office.frozen_moments()[own[:2]]
    moments = {"frozen": moment_of(frozen_at), "moment": moment_of(publishes)}
    yield message(
        "Revision {revision} was frozen on {frozen} and is published from {moment} on.",
        revision=own.revision,
        **moments,
    )
    others = [
        FigureText(release.revision) for release in sources.releases if release.month == own.month and release != own
    ]
    if others:
        text = row(others)
        yield message(
            "The month has other revisions: {revisions}. Later months are computed from the latest.", revisions=text
        )
    listed = [Code(each) for each in own.carry if code in at_and_above(each)]
    if listed:
        yield message("On the carry list: {codes}.", codes=row(listed))
    for series in sources.samples.get(code, []):
        held = [assignment for assignment in sources.assignments[series] if assignment.first_month <= sources.month]
        for former, it in zip(held, held[1:]):
            handed = handed_over(former, it, sources.copied_prices.get(it[:2]))
            # t: handed is a whole sentence: that the series was handed over
            yield message("Series {series}: {handed}", series=Code(slot_text(series)), handed=handed)


# ==== the arguments of `cpi-tools explain`, and its run

ALL = "all"
"""Means the codes of all nodes."""


def run(chosen: argparse.Namespace) -> int:
    """Runs the tool with its arguments; returns its exit status."""
    if (chosen.code is None) == (chosen.series is None):
        chosen.words.error("give CODE or --series")
    if chosen.series and chosen.revision:
        chosen.words.error("--series tells of the latest revision of each month: leave --revision away")
    teller = ENGLISH
    if chosen.html:
        needs("jinja2", "python3-jinja2")
        teller = chosen_teller(chosen)
    with Progress("cpi-tools explain") as progress:
        progress.now("copying the office")
        with private_copy(chosen.file) as copy, read_copy(copy) as office:
            progress.now("explaining")
            if chosen.series:
                return told_life(life_of(office, chosen.series, chosen.month), chosen.html, teller)
            money = Money(chosen.minor, chosen.currency)
            sources = Sources(office, chosen.month, chosen.revision, money)
            return (told_all if chosen.code == ALL else told_one)(sources, chosen, teller)


def told_life(life: Life, html: Optional[Path], teller: Teller) -> int:
    """Prints the life of a series, and writes its page if asked to."""
    if html:
        with page_at(html) as explanation_pages:
            explanation_pages.write_life(life, html, teller)
    print("\n".join([life.title, *life.facts]))
    print(text_of(life.months, len(life.months.rows)))
    return 0


def told_one(sources: Sources, chosen: argparse.Namespace, teller: Teller) -> int:
    """Prints the lines of a node, and writes its page if asked to."""
    node = explain_node(sources, chosen.code)
    if chosen.html:
        with page_at(chosen.html) as explanation_pages:
            explanation_pages.write_one(sources, chosen.code, chosen.html, teller)
    print(node.text)
    return 1 if told_faults(node) else 0


def told_all(sources: Sources, chosen: argparse.Namespace, teller: Teller) -> int:
    """Checks every line of every node, one node after the other, and writes all pages if asked to."""
    if chosen.html:
        from .explanation_pages import FIRST_PAGE, write_all

        refuse_shared(chosen.html, "its pages")
        with written_folder(chosen.html, FIRST_PAGE) as folder:
            count = counted_lines(write_all(sources, folder, teller))
    else:
        count = counted_lines(explain_node(sources, code) for code in sources.own.levels)
    print(
        f"{month_text(sources.month)}, revision {sources.own.release.revision}: {write_count(count.nodes, 'node')},"
        f" {write_count(count.expressions, 'expression')}, {count.untrue} untrue"
    )
    return 1 if count.untrue else 0


class Count(NamedTuple):
    """The numbers of the nodes that were explained, of their expressions, and of their lines that aren't true."""

    nodes: int
    expressions: int
    untrue: int


def counted_lines(explanations: Iterable[Explanation]) -> Count:
    """Counts some explanations, holding one at a time, and reports each line that isn't true."""
    nodes = expressions = untrue = 0
    for each in explanations:
        nodes += 1
        expressions += sum(bool(line.expression) for line in each.lines)
        untrue += told_faults(each)
    return Count(nodes, expressions, untrue)


def told_faults(explanation: Explanation) -> int:
    """Reports each line that isn't true, with the row of the file; returns their number."""
    for line in explanation.untrue:
        print(f"cpi-tools explain: {explanation.code}: not true: {line.fault}", file=sys.stderr)
    return len(explanation.untrue)


@contextlib.contextmanager
def page_at(to: Path) -> Iterator[ModuleType]:
    """The module that writes pages, if a page can be written at that place. Only their owner can read them, since they
    contain shops' prices."""
    from ..text import page_templates as all_pages
    from . import explanation_pages  # (their package is needed for pages alone)

    all_pages.refuse_other_files(to)
    before = os.umask(0o077)
    try:
        yield explanation_pages
    except OSError as fault:
        raise Fault(because_of(fault)) from fault
    finally:
        os.umask(before)


# ---- words

DESCRIPTION = """\
Shows where a figure comes from. First come three to six sentences: how prices changed, which
changed most and where, which are imputed and why, and how they give the level. Then each step is a
line `name = expression = value` in whole numbers, from the chained level down to the quotes, with
their senders and receipts. The tool evaluates each expression, and compares it with the row of the
file that contains its value. If a line isn't true, it begins with `!`, standard error names the
row, and no sentence explains the figure. CODE `all` checks each line of each node. --series shows
the life of a series instead: who priced it, handovers, replacements, and when it was imputed. The
tool reads a copy of the office's file and its log, so cpi may be running; the month must be
frozen. The output contains shops' prices.

In the lines, prices are in minor units of money, carried prices and bases in ticks (10,000 to a
minor unit), indices and levels in millionths of a point, and changes in tenths of a percent.
"""

EPILOG = """\
example: cpi-tools explain office.db 2026-02 01.1.1.1-01 --currency EUR
         cpi-tools explain office.db 2026-02 all --html out/explained
         cpi-tools explain office.db 2026-02 --series 7/2

exit status: 0 if every line is true; 1 if one isn't, or if nothing can be shown (one line says
why); 2 if the arguments are refused
"""


def add_words(tools: argparse._SubParsersAction[ToolWords]) -> None:
    """Adds the tool `explain`."""
    words = tools.add_parser(
        "explain", help="Explain a figure down to its receipts", description=DESCRIPTION, epilog=EPILOG
    )
    add = words.add_argument
    add("file", type=Path, metavar="FILE", help="the office's file, which is only read")
    add("month", type=a_month, metavar="MONTH", help="a frozen month, such as 2026-02")
    add("code", nargs="?", metavar="CODE", help="a node, such as 00 or 01.1.1.1-01, or all")
    add("--revision", type=at_least(1), metavar="R", help="a revision of the month (else the latest)")
    add(
        "--minor",
        type=at_least(1),
        default=100,
        metavar="N",
        help="minor units in a unit of money, for the amounts in sentences (%(default)s)",
    )
    add("--currency", default="", metavar="TEXT", help="the text after an amount in sentences, such as EUR")
    add("--series", type=a_slot, metavar="COLLECTOR/SLOT", help="a slot, to show the life of its series up to MONTH")
    add(
        "--html",
        type=Path,
        metavar="OUT",
        help="write a page to OUT, about an aggregate's subclass or the life of a series; for all nodes, write a"
        " folder OUT with a page for each subclass",
    )
    add_language(words, "the page")
    words.set_defaults(run=run, tool="explain", words=words)

"""Pages of explanations: one for each subclass, with its aggregates on it, and one for each node above; linked if all
are written."""

from __future__ import annotations

from collections.abc import Iterator, Sequence
from pathlib import Path
from typing import Optional

import jinja2

from ..text import page_templates, section_pages
from ..text.exact import at_and_above, depth_of, parent_of
from ..text.report_language import ENGLISH, Teller
from .explanation import explain_node
from .explanation_lines import Explanation
from .aggregate import Life
from .release_sources import AGGREGATE, Sources

TEMPLATES = Path(__file__).resolve().parent / "templates"

FIRST_PAGE = "00.html"

LINES_SHOWN = 12
"""A part that has more lines than this is folded."""


def page_of(code: str) -> str:
    """The node whose page contains a node: an aggregate is on the page of its subclass."""
    return parent_of(code) or code if depth_of(code) == AGGREGATE else code


def on_page(sources: Sources, node: str) -> list[str]:
    """The nodes on a page: a subclass is followed by its aggregates."""
    return [code for code in sources.own.levels if page_of(code) == node]


def write_one(sources: Sources, code: str, to: Path, teller: Teller = ENGLISH) -> list[Explanation]:
    """Writes the page of a node, which links to no other page; returns the explanations on it."""
    nodes = [explain_node(sources, each) for each in on_page(sources, page_of(code))]
    _write(section_pages.environment([TEMPLATES], teller), nodes, to, None)
    return nodes


def write_life(life: Life, to: Path, teller: Teller = ENGLISH) -> None:
    """Writes the page of a series."""
    page_templates.write_page(section_pages.environment([TEMPLATES], teller), "life.html", to, life=life)


def write_all(sources: Sources, folder: Path, teller: Teller = ENGLISH) -> Iterator[Explanation]:
    """Writes all pages into a folder; yields the explanations as they are made."""
    environment = section_pages.environment([TEMPLATES], teller)
    for node in sources.own.levels:
        if page_of(node) == node:
            nodes = [explain_node(sources, each) for each in on_page(sources, node)]
            _write(environment, nodes, folder / f"{node}.html", sources)
            yield from nodes


def _write(
    environment: jinja2.Environment, explanations: Sequence[Explanation], to: Path, linked: Optional[Sources]
) -> None:
    """Writes a page. `linked` is given if the pages of the other nodes are next to it."""
    head = explanations[0]
    above = [*at_and_above(head.code)][:0:-1] if linked else []
    titles = linked.plan.titles if linked else {}
    below = [code for code in titles if parent_of(code) == head.code and depth_of(code) < AGGREGATE]
    links = {code: f"{page_of(code)}.html#{code}" for code in titles}
    named = {"found": explanations, "above": above, "below": below, "titles": titles, "links": links}
    page_templates.write_page(environment, "explain.html", to, shown=LINES_SHOWN, **named)

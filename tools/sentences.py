"""The sentences that people read of a page: a document, a help, a module's docstrings, texts of pages, a crate's comments.

A sentence is as its reader sees it: a link without where it leads, a name of code in backquotes. Commands and headings are
none, and neither is what has fewer than five words. A document's sections are its parts, and a catalogue's are the texts
of one folder each.
"""

from __future__ import annotations

import ast
import re
import subprocess
from collections.abc import Iterable, Iterator, Sequence
from pathlib import Path
from typing import TYPE_CHECKING

from tree import TOP

if TYPE_CHECKING:
    from markdown_it.token import Token

LEAST_WORDS = 5
"""What has fewer words is a heading or a label."""

END = re.compile(r"(?<=[.!?])\s+(?=[A-Z`*\[(\"'])")
"""Between two sentences."""

OPTION = re.compile(r"^ {2,}\S.*? {2,}(?=\S)|^ {2}(?:-\S+(?: \S+)?|\S+)$")
"""What a help has before the words on an option."""

COMPANIONS = "tools/cpi_tools/"
"""The folder whose own folders, such as `desk/`, name parts of a catalogue, as those at the top do, such as `web/`."""

SIGNS = {"em_open": "\1", "em_close": "\2", "link_open": "\3", "link_close": "\4"}
UNMARKED = dict.fromkeys(map(ord, SIGNS.values()))
"""What is around italics and links until a paragraph is whole, and how it goes away."""

LINKS = re.compile("\1(?:\3[^\1-\4]*\4[\\s,.;]*)+\2")
"""Links in italics with no word between them: where to read on, and no sentence."""


def split(texts: Iterable[str]) -> list[str]:
    """The sentences of some paragraphs, each once."""
    parts = (" ".join(sentence.split()) for text in texts for sentence in END.split(" ".join(text.split())))
    return [*dict.fromkeys(sentence for sentence in parts if len(sentence.split()) >= LEAST_WORDS)]


def sentences_of(page: str, top: Path = TOP) -> list[str]:
    """The sentences of a page, by its path in the repository: `docs/decide/PROMISE.md`, `tools/cpi_tools/guard/drill.py`,
    `po/cpi.pot` or `crates/cpi_index`; or by a command that has a help, `cpi-tools drill`. A part of a page follows a
    colon: a section, `CHANGELOG.md:Unreleased`, or the texts of a folder, `po/cpi.pot:web/`. Raises ValueError if it is
    none of these."""
    name, _, part = page.partition(":")
    path = top / name
    if path.suffix == ".md":
        return split(of_document(path.read_text(encoding="utf-8"), part))
    if path.suffix == ".pot":
        return split(of_catalogue(path, part))
    if part:
        raise ValueError(f"{name} is no document (.md) or catalogue (.pot), so it has no parts")
    if path.suffix == ".py" or path.is_file() and path.read_bytes().startswith(b"#!/usr/bin/env python3"):
        return split(of_module(path.read_text(encoding="utf-8")))
    if path.is_dir() and page.startswith("crates/"):
        return split(of_crate(path))
    if page.split()[0] in ("cpi", "cpi-tools"):
        words = [str(top / page.split()[0]), *page.split()[1:], "--help"]
        return split(of_help(subprocess.run(words, stdout=subprocess.PIPE, text=True, check=True).stdout))
    raise ValueError(f"{page} is no document (.md), module (.py), catalogue (.pot), crate (crates/NAME) or command")


def of_document(text: str, title: str = "") -> Iterator[str]:
    """The paragraphs, items and cells of a document in Markdown, without the links that only say where to read on; with a
    title, those of the section whose heading begins with it. Raises ValueError if there is none."""
    from markdown_it import MarkdownIt

    is_heading, tokens = False, MarkdownIt().enable("table").parse(text)
    for token in cut_section(tokens, title) if title else tokens:
        if token.type.startswith("heading"):
            is_heading = token.type == "heading_open"
        elif token.type == "inline" and not is_heading:
            yield LINKS.sub("", "".join(map(shown, token.children or []))).translate(UNMARKED)


def cut_section(tokens: Sequence[Token], title: str) -> Sequence[Token]:
    """What is below the first heading that begins with a title, up to the next heading of its level or above. Raises
    ValueError if no heading begins so."""
    for at, token in enumerate(tokens):
        if token.type == "inline" and tokens[at - 1].type == "heading_open" and token.content.startswith(title):
            level, rest = tokens[at - 1].tag, tokens[at + 1 :]
            ends = (end for end, other in enumerate(rest) if other.type == "heading_open" and other.tag <= level)
            return rest[: next(ends, None)]
    raise ValueError(f"no heading begins with {title}")


def shown(part: Token) -> str:
    """A part of a paragraph as its reader sees it; what is in italics and the text of a link are between SIGNS."""
    if part.type == "code_inline":
        return f"`{part.content}`"
    if part.type.endswith("break"):
        return " "
    return part.content if part.type == "text" else SIGNS.get(part.type, "")


def of_module(text: str) -> Iterator[str]:
    """The paragraphs of a module's docstrings, those of its values too."""
    for node in ast.walk(ast.parse(text)):
        body = getattr(node, "body", None)
        for statement in body if isinstance(body, list) else []:
            if isinstance(statement, ast.Expr) and isinstance(statement.value, ast.Constant):
                if isinstance(statement.value.value, str):
                    yield from re.split(r"\n\s*\n|\n\s*(?=[-*] )", statement.value.value)


def of_catalogue(path: Path, folder: str = "") -> list[str]:
    """The English texts of a catalogue; with a folder, only those that its files contain. The folder's path begins at the
    top or in COMPANIONS. Raises ValueError if there are none."""
    from babel.messages.pofile import read_po

    folders = (folder, COMPANIONS + folder)
    with path.open("rb") as file:
        texts = [
            text
            for message in read_po(file)
            for text in (message.id if isinstance(message.id, tuple) else (message.id,))
            if text and (not folder or any(source.startswith(folders) for source, _ in message.locations))
        ]
    if not texts:
        raise ValueError(f"no text comes from a file in {folder or path.name}")
    return texts


def of_crate(folder: Path) -> Iterator[str]:
    """The comments of a crate's sources and definitions."""
    for path in sorted([*folder.glob("src/**/*.rt"), *folder.glob("specs/**/*.antt")]):
        paragraph = list[str]()
        for line in [*path.read_text(encoding="utf-8").splitlines(), ""]:
            match = re.match(r"\s*(?://[/!]?|--+)\s?(.*)", line)
            if match and match[1].strip():
                paragraph.append(match[1])
            elif paragraph:
                yield " ".join(paragraph)
                paragraph = []


def of_help(text: str) -> Iterator[str]:
    """The paragraphs of a help, and what it says of each option."""
    paragraph = list[str]()
    for line in [*text.splitlines(), ""]:
        option = OPTION.match(line)
        if option or not line.strip():
            if paragraph and not paragraph[0].startswith("usage:"):
                yield " ".join(paragraph)
            paragraph = [line[option.end() :]] if option else []
        elif not line.endswith("options:") and not line.endswith("arguments:"):
            paragraph.append(line.strip())

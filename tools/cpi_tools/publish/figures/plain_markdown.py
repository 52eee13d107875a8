"""A text of an office in Markdown as HTML: a part of CommonMark and tables, read by `markdown_it` and written here.

Each element of the text that has its own form below is written; any other is refused with its line, so nothing in the
file of an office becomes an element, an address or a script that isn't named here.
"""

from __future__ import annotations

import re
from collections.abc import Iterator, Mapping, Sequence
from pathlib import Path
from typing import Any

from markupsafe import Markup

from ...text.others import FORBIDDEN
from ...text.terminal import Fault, because_of, needs

DIRECTIONS = re.compile("[\u202a-\u202e\u2066-\u2069]")
"""Invisible characters that turn the direction of the text after them, however long it is. (A mark such as U+200F
reaches only its neighbours, and an Arabic text needs it between `2018:` and `309`.)"""

MODULE, PACKAGE = "markdown_it", "python3-markdown-it"

MOST_BYTES = 100_000
"""Bytes of a file."""

MOST_LISTS = 3
"""Lists within lists."""

MOST_HEADING, BELOW = 2, 2
"""The deepest heading of a text, and by how much its headings are below those of the page."""

ELEMENTS: Mapping[str, str] = {
    "paragraph": "p", "bullet_list": "ul", "ordered_list": "ol", "list_item": "li", "em": "em", "strong": "strong",
    "table": "table", "thead": "thead", "tbody": "tbody", "tr": "tr", "th": "th", "td": "td",
}  # fmt: skip
"""The elements without words of their own, by the names of the reader's tokens."""

SCROLLED = Markup('<div class="scroll" tabindex="0">'), Markup("</div>")
"""The markup around a table, which may be wider than a telephone's screen."""

LINK = re.compile(r"(https?://|mailto:)[^\s\"'<>]+", re.IGNORECASE)

OTHERS: Mapping[str, str] = {
    "html_inline": "HTML", "html_block": "HTML", "image": "a picture", "fence": "a block of code",
    "code_block": "a block of code", "blockquote": "a citation", "hr": "a line across",
}  # fmt: skip
"""The names that refusals give to the other elements of CommonMark."""

WANTED = "paragraphs, headings (# and ##), lists, tables, *emphasis*, **strong**, `code` and links"


class BadMarkdown(Fault):
    """A text that isn't accepted; the message is one line, with the number of the line in the text."""


def read_markdown(path: Path) -> Markup:
    """The HTML of a file, nothing if the file is empty. Raises BadMarkdown."""
    needs(MODULE, PACKAGE)
    try:
        data = path.read_bytes()
        text = data.decode("utf-8-sig")
    except OSError as fault:
        raise BadMarkdown(because_of(fault)) from fault
    except UnicodeDecodeError as fault:
        raise BadMarkdown(f"{path}: byte {fault.start + 1} isn't UTF-8") from fault
    if len(data) > MOST_BYTES:
        raise BadMarkdown(f"{path}: {len(data)} bytes, and a section has at most {MOST_BYTES}")
    try:
        return html_of(text)
    except BadMarkdown as fault:
        raise BadMarkdown(f"{path}: {fault}") from None


def html_of(text: str) -> Markup:
    """The HTML of a text. Raises BadMarkdown."""
    from markdown_it import MarkdownIt  # (its package is needed by offices only that have such texts)

    for number, line in enumerate(text.split("\n"), 1):
        _test_signs(line, number)
    reader = MarkdownIt("commonmark").enable("table")
    # (else it would leave a link that it doesn't take as a text, without a word; here such a link is refused)
    reader.validateLink = lambda address: True  # type: ignore[assignment]
    return Markup("").join(_parts(reader.parse(text)))


def _test_signs(text: str, line: int) -> None:
    """Raises BadMarkdown if a text contains a character that isn't allowed, or one that turns its direction."""
    for signs, says in ((FORBIDDEN, "which no text has"), (DIRECTIONS, "which turns the direction of a text unseen")):
        match = signs.search(text)
        if match:
            raise BadMarkdown(f"line {line}: the character U+{ord(match[0]):04X}, {says}")


def _parts(tokens: Sequence[Any]) -> Iterator[Markup]:
    """The HTML of each token of a text."""
    lists, line = 0, 1
    for token in tokens:
        line = token.map[0] + 1 if token.map else line
        lists += token.nesting if token.type.endswith("_list_open") or token.type.endswith("_list_close") else 0
        if lists > MOST_LISTS:
            raise BadMarkdown(f"line {line}: a list in {MOST_LISTS} others; at most {MOST_LISTS} are within each other")
        if token.type == "inline":
            yield from (_part(child, line) for child in token.children)
        elif not token.hidden:
            yield _part(token, line)


def _part(token: Any, line: int) -> Markup:
    """The HTML of a token that contains no other tokens."""
    kind, _, way = token.type.rpartition("_")
    if way in ("open", "close"):
        return _edge(token, kind, way == "open", line)
    # (a sign may be there by its number, such as &#12;)
    _test_signs(token.content, line)
    if token.type == "text":
        return Markup.escape(token.content)
    if token.type == "softbreak":
        return Markup("\n")
    if token.type == "hardbreak":
        return Markup("<br>\n")
    if token.type == "code_inline":
        return Markup("<code>{}</code>").format(token.content)
    raise _other(token.type, line)


def _edge(token: Any, kind: str, is_open: bool, line: int) -> Markup:
    """The HTML of an element's beginning or end."""
    if kind == "link":
        return _link(token, line) if is_open else Markup("</a>")
    if kind == "heading":
        level = int(token.tag[1:])
        if level > MOST_HEADING:
            raise BadMarkdown(f"line {line}: a heading with {level} signs #; at most {MOST_HEADING} are taken")
        return Markup("<{}{}>").format("" if is_open else "/", f"h{level + BELOW}") + ("" if is_open else "\n")
    if kind not in ELEMENTS:
        raise _other(kind, line)
    element = ELEMENTS[kind]
    opens, closes = SCROLLED if element == "table" else (Markup(), Markup())
    if is_open:
        return opens + Markup("<{}{}>").format(element, Markup(_words_of(token, element)))
    # (a line for each block, so that people can read the page)
    return Markup("</{}>{}{}").format(element, closes, "" if element in ("em", "strong") else "\n")


def _words_of(token: Any, element: str) -> str:
    """The attributes of an element: the number at which a list begins, and the class of cells whose column is at the
    end of the line."""
    start = token.attrGet("start")
    if element == "ol" and isinstance(start, int):
        return f' start="{start}"'
    return ' class="n"' if element in ("th", "td") and token.attrGet("style") == "text-align:right" else ""


def _link(token: Any, line: int) -> Markup:
    """The beginning of a link, to the web or to a mailbox."""
    address = str(token.attrGet("href"))
    if not LINK.fullmatch(address):
        raise BadMarkdown(f"line {line}: a link to {address[:60]!a}; links begin with https://, http:// or mailto:")
    title = token.attrGet("title")
    _test_signs(str(title or ""), line)
    said = Markup(' title="{}"').format(title) if title else ""
    return Markup('<a href="{}"{}>').format(address, said)


def _other(kind: str, line: int) -> BadMarkdown:
    """The refusal of an element that isn't accepted."""
    return BadMarkdown(f"line {line}: {OTHERS.get(kind, kind)} isn't taken; a section has {WANTED}")

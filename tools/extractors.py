"""What Babel extracts the texts of a page from, besides JavaScript: HTML, a manifest, and the words of refusals.

Each is a method of Babel, named in `po/babel.cfg`: it takes the bytes of a file, and yields the line, the function (`tc`
if the text has a context), the text, and the comments for translators.
"""

from __future__ import annotations

import ast
import json
import re
from collections.abc import Iterator, Mapping
from html.parser import HTMLParser
from typing import IO, Any, Optional, Union

from babel.messages.extract import extract_python

from cpi_tools.office.refusals import COLLECTOR, PLAN_FAULTS, REFUSALS, Refusal, sentence

Found = tuple[int, Optional[str], Union[str, tuple[str, str]], list[str]]
"""Line, function or none, text or context and text, and comments."""

MARK, CONTEXT = "data-t", "data-context"
"""The attribute that marks an element whose texts are translated, and the one that has their context. Its value names the
attributes with a text, and `text` for the content; it is empty if the content is the only one."""

COMMENT = "t:"
"""How a comment for translators begins, in HTML as in JavaScript."""


class Marked(HTMLParser):
    """The marked texts of a page."""

    def __init__(self) -> None:
        super().__init__(convert_charrefs=True)
        self.found: list[Found] = []
        self._comments: list[str] = []
        self._open: Optional[tuple[str, int, Optional[str], list[str]]] = None
        self._content = ""

    def handle_comment(self, data: str) -> None:
        """A comment for translators is of the next element that is marked."""
        if data.strip().startswith(COMMENT):
            self._comments.append(data.strip()[len(COMMENT) :].strip())

    def handle_starttag(self, tag: str, attrs: list[tuple[str, Optional[str]]]) -> None:
        """A marked element: its attributes are texts, and perhaps its content."""
        if self._open:
            raise ValueError(f"line {self.getpos()[0]}: <{tag}> is in a marked element: mark an element of its own")
        has = dict(attrs)
        if MARK not in has:
            return
        names, comments, line = (has[MARK] or "text").split(), self._comments, self.getpos()[0]
        self._comments = []
        for name in names:
            if name == "text":
                self._open, self._content = (tag, line, has.get(CONTEXT), comments), ""
            else:
                self._add(line, has.get(CONTEXT), has[name] or "", comments)

    def handle_data(self, data: str) -> None:
        """The content of a marked element."""
        self._content += data

    def handle_endtag(self, tag: str) -> None:
        """The end of a marked element."""
        if self._open and tag == self._open[0]:
            _, line, context, comments = self._open
            self._open = None
            self._add(line, context, self._content, comments)

    def _add(self, line: int, context: Optional[str], text: str, comments: list[str]) -> None:
        if context:
            self.found.append((line, "tc", (context, text), comments))
        else:
            self.found.append((line, None, text, comments))


def of_html(file: IO[bytes], *_: object, options: object) -> Iterator[Found]:
    """The marked texts of a page."""
    marked = Marked()
    marked.feed(file.read().decode())
    marked.close()
    yield from marked.found


NAMES = {"name": "the name of the page on the home screen", "short_name": "under its icon: at most 12 letters"}
"""What of a manifest is a text (W3C Web Application Manifest), with a comment."""


def of_manifest(file: IO[bytes], *_: object, options: object) -> Iterator[Found]:
    """The names in a manifest."""
    manifest: Mapping[str, Any] = json.load(file)
    for name, comment in NAMES.items():
        yield 1, None, manifest[name], [comment]


CODES = {"`confirm`": "the confirm button", "`price`": "a price"}
"""What a form of the page has for a word of a record."""


def told(row: Refusal) -> str:
    """The row of a refusal to a collector as the page says it, in sentences: why, and what to do."""
    do = re.sub(r"`[^`]*`", lambda code: CODES[code[0]], row.words.do)
    return " ".join(f"{part[0].upper()}{part[1:]}." for part in (row.words.because, do)).replace("'", "\u2019")


def refused() -> Mapping[int, str]:
    """What the page of collectors says of each refusal, by number."""
    return {number: told(row) for row in REFUSALS if row.to == COLLECTOR for number in row.numbers}


def to_desk() -> Mapping[str, str]:
    """What the desk's page says of refusals, each sentence with what it is of. Of a number that only the guide of
    collectors has, the words are those of the collectors."""
    desks: dict[str, str] = {}
    rows = [(f"refusal {', '.join(map(str, row.numbers))}", row.words) for row in REFUSALS]
    for told_of, words in [*rows, *((f"fault {fault} of a plan", words) for fault, words in PLAN_FAULTS.items())]:
        desks.setdefault(sentence(words.because), f"{told_of} on the desk's page: why")
        desks.setdefault(sentence(words.do), f"{told_of} on the desk's page: what to do")
    return desks


def of_refusals(*_: object, options: object) -> Iterator[Found]:
    """The words of the refusals to collectors and to the desk; the file is `cpi_tools/office/refusals.py`, which has them."""
    for number, text in refused().items():
        yield 1, None, text, [f"refusal {number} to a collector: why, and what to do"]
    for text, comment in to_desk().items():
        yield 1, None, text, [comment]


HEADS = ("columns", "heads")
"""The functions whose strings are the headings of a table; `#`, of a number, and `=`, of a code, aren't of the text."""


def of_headings(file: IO[bytes], *_: object, options: object) -> Iterator[Found]:
    """The headings of tables in a module of Python."""
    for node in ast.walk(ast.parse(file.read())):
        if isinstance(node, ast.Call) and isinstance(node.func, ast.Name) and node.func.id in HEADS:
            for each in ast.walk(node):
                if isinstance(each, ast.Constant) and isinstance(each.value, str) and re.search("[A-Za-z]", each.value):
                    yield each.lineno, None, each.value.lstrip("#="), ["the heading of a column"]


def of_wording(file: IO[bytes], *_: object, options: object) -> Iterator[Found]:
    """The texts of a module of sentences: the strings that it gives names, by themselves or in a table, which have two words
    or a place."""
    for node in ast.walk(ast.parse(file.read())):
        if isinstance(node, (ast.Assign, ast.AnnAssign)):
            in_table = node.value.values if isinstance(node.value, ast.Dict) else ()
            texts = [node for node in ast.walk(node) if isinstance(node, ast.Constant) and isinstance(node.value, str)]
            for each in texts:
                if each in in_table or re.search("[a-z] [a-z]|{", each.value):
                    yield each.lineno, None, each.value, []


def of_report(file: IO[bytes], keywords: Any, comments: Any, options: Any) -> Iterator[Found]:
    """The texts of a module that makes a report: those of its calls, and the headings of its tables."""
    yield from extract_python(file, keywords, comments, options)  # type: ignore[no-untyped-call]
    file.seek(0)
    yield from of_headings(file, options=options)

"""The texts of a page of a pack, as its reader sees them, and the lengths of its bars."""

from __future__ import annotations

import html
import re
from pathlib import Path

HIDDEN = {ord(it): None for it in "\u2068\u2069\u00ad"}
"""Isolates, and marks of possible hyphens."""

Rows = list[list[str]]


def plain(markup: str) -> str:
    """The text of some markup, with one blank in place of several, except narrow ones that belong to a figure."""
    text = html.unescape(re.sub("<[^>]*>", "", re.sub('<span class="narrow">.*?</span>', "", markup)))
    return " ".join(re.split("[ \n\t]+", text.translate(HIDDEN))).strip()


class Texts:
    """A page, or a part of a page."""

    def __init__(self, markup: str) -> None:
        self.markup = markup

    @classmethod
    def of_page(cls, path: Path) -> Texts:
        return cls(path.read_text(encoding="utf-8"))

    def of(self, element: str) -> list[str]:
        """The texts of all elements like `h1` or `p class="lead"`."""
        name = element.split(" ")[0]
        form = f"<{element}>" if " " in element else rf"<{name}\b[^>]*>"
        return [plain(element) for element in re.findall(rf"{form}(.*?)</{name}>", self.markup, flags=re.S)]

    def said(self, name: str) -> list[str]:
        """The contents of its `meta` elements with a name."""
        matches = re.findall(rf'<meta (?:name|property)="{name}" content="([^"]*)">', self.markup)
        return [html.unescape(match) for match in matches]

    def part(self, heading: str) -> Texts:
        """The part between a heading and the next one."""
        for word in re.split(r"<h2\b[^>]*>", self.markup)[1:]:
            head, _, rest = word.partition("</h2>")
            if plain(head) == heading:
                return Texts(rest)
        return Texts("")

    @property
    def rows(self) -> Rows:
        """The cells of its tables, row by row, without the cells of heads."""
        matches = re.findall(r"<tr\b[^>]*>(.*?)</tr>", self.markup, flags=re.S)
        cells = [
            re.findall(r"<t[hd]\b[^>]*>(.*?)</t[hd]>", row, flags=re.S) for row in matches if 'scope="col"' not in row
        ]
        return [[plain(cell) for cell in row] for row in cells]

    @property
    def bars(self) -> list[tuple[float, float]]:
        """The starts and lengths of the bars in its tables, in percent of their track; none if the bars for narrow
        screens differ."""
        form = r'<span class="track (?:narrow)?" aria-hidden="true"><i[^>]* style="left:([0-9.]+)%;width:([0-9.]+)%">'
        floats = [(float(left), float(width)) for left, width in re.findall(form, self.markup)]
        return floats[::2] if floats[::2] == floats[1::2] else []

"""A language that nobody speaks, for pages that a tool writes, and what a reader sees of a page."""

from __future__ import annotations

import re
from html.parser import HTMLParser
from pathlib import Path
from typing import Optional

import pytest
from babel.messages.catalog import Catalog
from babel.messages.pofile import read_po, write_po

from cpi_tools.text import languages
from lib.places import ROOT

GREEK = str.maketrans("abcdefghijklmnopqrstuvwxyz", "αβψδεφγηιξκλμνοπχρστθωςχυζ")

PLACE = re.compile(r"(\{[a-z0-9_]+\}|%\([a-z]+\)s|%)")
"""A place of a text, or a percent sign."""


def greek(text: str) -> str:
    """A text of a language that nobody speaks: in letters that no English word has."""
    parts = PLACE.split(text)
    return "".join(part if at % 2 else part.lower().translate(GREEK) for at, part in enumerate(parts))


def nobodys_in(tmp_path: Path, monkeypatch: pytest.MonkeyPatch) -> str:
    """A language that nobody speaks, with a catalogue of all texts; its code is that of Greek, for months in its letters."""
    with (ROOT / "po/cpi.pot").open("rb") as file:
        source = read_po(file)
    made = Catalog(locale="el", fuzzy=False)
    for message in source:
        if message.id:
            forms = [message.id] if isinstance(message.id, str) else [*message.id]
            told_so = [greek(form) for form in forms]
            string = told_so[0] if isinstance(message.id, str) else tuple(told_so)
            made.add(message.id, string, message.locations, context=message.context)
    po = tmp_path / "po"
    po.mkdir()
    with (po / "el.po").open("wb") as out:
        write_po(out, made)
    monkeypatch.setattr(languages, "PO", po)
    return "el"


ISOLATED = re.compile("\u2068[^\u2069]*\u2069")
"""A text of others in an attribute or a title."""


class Seen(HTMLParser):
    """The texts of a page that aren't of others, and those of attributes that are read; `others` are the texts of others,
    but for the own lines of programs, which are marked as English."""

    def __init__(self) -> None:
        super().__init__()
        self.texts: list[str] = []
        self.figures: list[str] = []
        self.others: list[str] = []
        self._open: list[tuple[str, str]] = []

    def handle_starttag(self, tag: str, attrs: list[tuple[str, Optional[str]]]) -> None:
        has = dict(attrs)
        texts = [has[name] or "" for name in ("aria-label", "title", "alt", "placeholder") if name in has]
        self.texts += [ISOLATED.sub("", text) for text in texts]
        if tag not in ("meta", "link", "br"):
            self._open.append((tag, "line" if has.get("lang") == "en" else has.get("class") or ""))

    def handle_endtag(self, tag: str) -> None:
        while self._open and self._open.pop()[0] != tag:
            pass

    def handle_data(self, data: str) -> None:
        if any(tag in ("bdi", "style", "script") or kind == "code" for tag, kind in self._open):
            self.others += [] if ("bdi", "line") in self._open else [data]
            return
        if self._open and self._open[-1] == ("td", "n"):
            self.figures.append(data)
        self.texts.append(ISOLATED.sub("", data))


def seen(page: Path) -> Seen:
    """What is seen of a page in a file."""
    return seen_of(page.read_text(encoding="utf-8"))


def seen_of(text: str) -> Seen:
    """What is seen of a page."""
    parser = Seen()
    parser.feed(text)
    return parser


NAMES = re.compile(r"[a-z-]+\.csv|UTC")
"""What is the same in each language: names of files, and of the zone."""


SENTENCE = re.compile(r"\b[a-z']{2,}(?: [a-z']{2,}){2,}")
"""Three English words, one after the other."""


def unmarked(sighting: Seen) -> list[str]:
    """The texts of others that read like an English sentence: a program wrote them, and the page doesn't say so."""
    return [text for text in sighting.others if SENTENCE.search(text)]


def left_in_english(sighting: Seen, names: re.Pattern[str] = NAMES) -> list[str]:
    """The texts that have a Latin word, but for such names."""
    return [text for text in sighting.texts if re.search("[A-Za-z]{2,}", names.sub("", text))]

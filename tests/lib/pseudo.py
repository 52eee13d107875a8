"""Languages that nobody speaks, made from the source's texts: each word is 40 percent longer, and in the letters of a
script that no English text contains. Greek letters go from left to right, Hebrew ones from right to left; with the
codes el and he, a browser writes its months in the same script, so that each Latin word on the page is a word that
isn't in a catalogue.
"""

from __future__ import annotations

import re
import string
from pathlib import Path

from babel.messages.catalog import Catalog
from babel.messages.pofile import read_po, write_po

ROOT = Path(__file__).resolve().parents[2]

LONGER = 0.4

LETTERS = {
    "el": dict(zip(string.ascii_lowercase, "αβψδεφγηιξκλμνοπχρστθωςχυζ")),
    "he": dict(zip(string.ascii_lowercase, "אבצדהףגחיכקלמנופקרשתועשסיז")),
}
"""For each language a letter of its script for each of ours."""

KEPT = re.compile(r"(\{[a-z_]+\}|%\([a-z_]+\)s|<[^>]*>|&[a-z]+;)")
"""The parts that stay in a text: places, tags and named signs."""


def pseudo(text: str, language: str) -> str:
    """A text in a language; its places and tags stay, and so do signs and figures."""
    letters = LETTERS[language]

    def longer(match: re.Match[str]) -> str:
        word = match[0].lower()
        more = round(LONGER * len(word) + 0.5)
        return "".join(letters[each] for each in word + (word * 2)[:more])

    return "".join(part if KEPT.fullmatch(part) else re.sub(r"[A-Za-z]+", longer, part) for part in KEPT.split(text))


def catalogue(language: str) -> Catalog:
    """The catalogue of a language, with all texts of the source."""
    with (ROOT / "po/cpi.pot").open("rb") as file:
        source = read_po(file)
    made = Catalog(locale=language, fuzzy=False)
    for message in source:
        if message.id:
            forms = [message.id] if isinstance(message.id, str) else [message.id[0], *[message.id[1]] * 9]
            told = [pseudo(form, language) for form in forms]
            whole = told[0] if isinstance(message.id, str) else tuple(told[: made.num_plurals])
            made.add(message.id, whole, message.locations, context=message.context)
    return made


def write_catalogue(language: str, folder: Path) -> None:
    """Writes the catalogue of a language among others."""
    with (folder / f"{language}.po").open("wb") as file:
        write_po(file, catalogue(language))

"""The pages in other languages: an office that speaks one, and the words that its phones show."""

from __future__ import annotations

import contextlib
import json
from collections.abc import Iterator
from pathlib import Path
from typing import NamedTuple, Optional, Union

from babel import Locale

from lib.places import ROOT

from .stage import Stage

CONFIG = """\
export const office = Object.freeze({{
  name: "Office", language: "{language}", digits: "{digits}", currency: "", minorDigits: 2, decimal: "{decimal}",
}});
"""

ZEROS = {"latn": "0", "arab": "\u0660", "deva": "\u0966"}
"""The first digit of each system."""


class Speech(NamedTuple):
    """What an office sets: the language of its pages, the system of digits, and the decimal mark."""

    language: str = "en-GB"
    digits: str = "latn"
    decimal: str = "."

    def figure(self, text: str) -> str:
        """A figure such as `3.21`, or a number, as the office writes it."""
        first = ord(ZEROS[self.digits])
        digits = (chr(first + int(each)) if each.isdigit() else each for each in text.replace(".", self.decimal))
        return "".join(digits)


ENGLISH = Speech()
ARABIC = Speech("ar", "arab", "\u066b")
FRENCH = Speech("fr", "latn", ",")
SPANISH = Speech("es", "latn", ",")


class Words:
    """The texts of a page in the language of an office."""

    def __init__(self, speech: Speech = ENGLISH, page: str = "collect"):
        self.speech = speech
        self._texts: dict[str, Union[str, list[str]]] = {}
        self._forms = {"one": 0, "other": 1}
        if not speech.language.startswith("en"):
            read = json.loads((ROOT / f"web/{page}/languages/{speech.language}.json").read_text(encoding="utf-8"))
            self._texts, self._forms = read["texts"], read["plural"]

    def said(self, text: str, context: str = "", **values: str) -> str:
        """A text, in a context if it has one; figures in the values are in the digits of the office, and a place without a
        value stays."""
        found = self._texts.get(f"{context}\u0004{text}" if context else text, text)
        assert isinstance(found, str), text
        return self._filled(found, values)

    def counted(self, one: str, many: str, count: int) -> str:
        """A text in the form that the language has for a count, by Babel's copy of CLDR."""
        category = Locale.parse(self.speech.language, sep="-").plural_form(count)
        text = self._texts.get(one, [one, many])
        return self._filled(text[self._forms[category]], {"count": str(count)})

    def _filled(self, text: str, values: dict[str, str]) -> str:
        for name, value in values.items():
            text = text.replace(f"{{{name}}}", self.speech.figure(value))
        return text


@contextlib.contextmanager
def spoken(stage: Stage, speech: Speech, web: Optional[Path] = None) -> Iterator[None]:
    """The office speaks so meanwhile, by a folder of pages."""
    stage.speaks(CONFIG.format(**speech._asdict()), web or ROOT / "web")
    try:
        yield
    finally:
        stage.front.stop()
        stage.front.start()

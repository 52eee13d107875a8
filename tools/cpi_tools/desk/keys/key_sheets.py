"""The page of sheets, each on a paper of its own."""

from __future__ import annotations

from collections.abc import Iterable, Mapping
from pathlib import Path
from typing import NamedTuple, Optional

import segno
from markupsafe import Markup

from ...text import page_templates
from ...text.languages import ENGLISH, Language
from ...text.text_files import write_whole
from .keys_cli import address_of_page, link_of, typed_key

TEMPLATES = Path(__file__).resolve().parent / "templates"

CORRECTION = "m"
"""The least error correction of a code, by ISO/IEC 18004: 15 percent of it may be dirt."""

QUIET = 4
"""The width of the light margin that ISO/IEC 18004 asks for round a code, in modules."""


class Sheet(NamedTuple):
    """One collector's sheet: the number, the name if it is known, the key as it is typed, and the code."""

    collector: int
    name: Optional[str]
    key: str
    code: Markup


def sheets_of(url: str, keys: Mapping[int, str], names: Mapping[int, str]) -> Iterable[Sheet]:
    """The sheet of each collector whose key is given, by number."""
    for number, key in sorted(keys.items()):
        name = names.get(number)
        yield Sheet(number, name, typed_key(key), code_of(link_of(url, key, name)))


def code_of(link: str) -> Markup:
    """The QR code of a link, black on white, as SVG."""
    code = segno.make_qr(link, error=CORRECTION)
    return Markup(code.svg_inline(border=QUIET, dark="#000", light="#fff", omitsize=True))


def page_of(url: str, sheets: Iterable[Sheet], language: Language = ENGLISH) -> str:
    """The page in a language."""
    template = page_templates.environment([TEMPLATES], language).get_template("keys.html")
    return template.render(sheets=[*sheets], address=address_of_page(url))


def write_sheets(to: Path, url: str, sheets: Iterable[Sheet], language: Language = ENGLISH) -> None:
    """Writes the page in a language, whole or not at all, for its owner only. Raises OSError."""
    write_whole(to, page_of(url, sheets, language).encode(), 0o600)

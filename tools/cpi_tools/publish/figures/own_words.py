"""What pages have of the office itself: what it says of its index, its logo, its colour, and its languages."""

from __future__ import annotations

import csv
import io
import math
import re
import struct
import zlib
from collections.abc import Iterator, Mapping, Sequence
from pathlib import Path
from typing import TYPE_CHECKING, NamedTuple, Optional

from ...office.table_rows import CODE
from ...text.languages import DIGITS, LATIN, list_known, mark_text
from ...text.terminal import Fault, because_of
from .specials import ID

if TYPE_CHECKING:
    from markupsafe import Markup


# ==== The logo of an office, a PNG. (An SVG can have scripts and ways to other machines in it, so it isn't accepted.)

LOGO = "logo.png"
"""The name of its file."""

SIGNATURE = b"\x89PNG\r\n\x1a\n"
FIRST, LAST = b"IHDR", b"IEND"

MOST_BYTES = 256 * 1024
MOST_PIXELS = 4096
"""The largest width and height, in pixels."""

SHOWN = 40
"""The height at which pages show it, in pixels."""

WIDEST = 240
"""The largest width at which pages show it, which fits a telephone."""


class BadLogo(Fault):
    """A file that isn't such a picture; one line."""


class Logo(NamedTuple):
    """A picture with its width and height in pixels."""

    data: bytes
    width: int
    height: int

    @property
    def shown_size(self) -> tuple[int, int]:
        """The width and height at which pages show it."""
        width = max(1, (self.width * SHOWN + self.height // 2) // self.height)
        return (width, SHOWN) if width <= WIDEST else (WIDEST, max(1, self.height * WIDEST // self.width))


def read_logo(path: Path) -> Logo:
    """The logo of a file. Raises BadLogo."""
    try:
        data = path.read_bytes()
    except OSError as fault:
        raise BadLogo(because_of(fault)) from fault
    if len(data) > MOST_BYTES:
        raise BadLogo(f"{path}: {len(data)} bytes, and a logo has at most {MOST_BYTES}")
    chunks = [*_chunks(data)]
    if not chunks or chunks[0][0] != FIRST or len(chunks[0][1]) != 13 or chunks[-1][0] != LAST:
        raise BadLogo(f"{path} isn't a whole PNG")
    width, height = struct.unpack(">II", chunks[0][1][:8])
    if not 0 < width <= MOST_PIXELS or not 0 < height <= MOST_PIXELS:
        raise BadLogo(f"{path}: {width} × {height} pixels, and a logo has 1 to {MOST_PIXELS} each way")
    return Logo(data, width, height)


def _chunks(data: bytes) -> Iterator[tuple[bytes, bytes]]:
    """The parts of a PNG, each by its name; none after one that isn't whole, and none if something comes after the
    end."""
    at = len(SIGNATURE) if data.startswith(SIGNATURE) else len(data)
    while at + 12 <= len(data):
        (length,) = struct.unpack(">I", data[at : at + 4])
        name, content, its_sum = data[at + 4 : at + 8], data[at + 8 : at + 8 + length], data[at + 8 + length :][:4]
        if its_sum != struct.pack(">I", zlib.crc32(name + content)):
            return
        at += 12 + length
        if name == LAST and at != len(data):
            return
        yield name, content


# ==== the office's own colour on its pages: of links, marks and lines, in the light and in the dark scheme
#
# A colour is taken only if all that is written in it can be read: its contrast by WCAG 2.2 to both grounds of a scheme,
# the page and a panel, is at least 4.5. Files of pictures and cards keep their colours, since they are on white paper
# elsewhere.

COLOUR = re.compile("#[0-9a-fA-F]{6}")

LEAST = 4.5
"""The contrast of a text (WCAG 2.2, 1.4.3)."""

LIGHT_GROUNDS, DARK_GROUNDS = ("#ffffff", "#f3f6f8"), ("#12191f", "#1b252d")
"""The grounds of texts: `--ground` and `--panel` of `templates/style.css`."""

SOFT = 65
"""The share of a colour in a bar of an earlier month, in percent; the rest is the ground."""


class BadColour(Fault):
    """A colour that isn't one, or that can't be read; one line."""


class Colours(NamedTuple):
    """The office's colour in both schemes."""

    light: str
    dark: str

    @property
    def style(self) -> str:
        """The rules that put it in the place of the colour of all sites."""
        light, dark = (
            f":root {{ --accent: {colour}; --accent-soft: {mix(colour, ground)}; }}"
            for colour, (ground, *_) in ((self.light, LIGHT_GROUNDS), (self.dark, DARK_GROUNDS))
        )
        return f"{light}\n@media screen and (prefers-color-scheme: dark) {{ {dark} }}\n"


def colours_of(light: str, dark: str) -> Colours:
    """The colours of two texts. Raises BadColour."""
    for word, text, grounds in (("colour", light, LIGHT_GROUNDS), ("colour_dark", dark, DARK_GROUNDS)):
        if not COLOUR.fullmatch(text):
            raise BadColour(f"{word}: {text or 'an empty text'} is no colour such as #0a5c7d; both schemes need one")
        _test(word, text, grounds)
    return Colours(light, dark)


def _test(word: str, text: str, grounds: Sequence[str]) -> None:
    """Raises BadColour if a text in a colour can't be read on one of some grounds."""
    for ground in grounds:
        has = contrast(text, ground)
        if has < LEAST:
            raise BadColour(f"{word}: {text} has a contrast of {has:.2f} to {ground}, and a text needs {LEAST}")


def _parts(colour: str) -> list[int]:
    return [int(colour[at : at + 2], 16) for at in (1, 3, 5)]


def _light(colour: str) -> float:
    """The relative luminance of a colour (WCAG 2.2)."""
    parts = (part / 255 for part in _parts(colour))
    red, green, blue = (part / 12.92 if part <= 0.04045 else math.pow((part + 0.055) / 1.055, 2.4) for part in parts)
    return 0.2126 * red + 0.7152 * green + 0.0722 * blue


def contrast(one: str, other: str) -> float:
    """The contrast of two colours, from 1 to 21."""
    dark, light = sorted((_light(one), _light(other)))
    return (light + 0.05) / (dark + 0.05)


def mix(colour: str, ground: str) -> str:
    """A colour with some of its ground in it."""
    pairs = zip(_parts(colour), _parts(ground))
    return "#" + "".join(f"{(SOFT * one + (100 - SOFT) * other + 50) // 100:02x}" for one, other in pairs)


# ==== the languages of an office's pages: which they are, the office's own texts in each, and the titles of items
#
# `languages` of `[office]` names those that have a catalogue; the pages of the first one are in the folder of the pack.
# A section such as `[fr]` has the office's texts in that language, and the file `titles-fr.csv` next to the
# configuration, if it exists, the titles of items: a row of it has a code, or the id of a special aggregate, and a
# title.

WORDS = ("office", "title", "country", "contact", "licence", "currency")
"""The words of [office] that can be another text in a language."""

TITLES_HEAD = ["code", "title"]


class BadLanguages(Fault):
    """Languages with a fault; one line."""


class Own(NamedTuple):
    """The texts of an office in a language: its values of [office], and titles by code."""

    words: Mapping[str, str] = {}
    titles: Mapping[str, str] = {}


class OfficeLanguages(NamedTuple):
    """The tags of the languages of the pages, none if they are English only; the digits; what the office says in each."""

    languages: tuple[str, ...] = ()
    digits: str = LATIN
    own: Mapping[str, Own] = {}


def read_languages(
    path: Path, languages: str, digits: str, sections: Mapping[str, Mapping[str, str]]
) -> OfficeLanguages:
    """The languages of a configuration: its words `languages` and `digits`, and its sections that aren't of others. Raises
    BadLanguages."""
    tags = tuple(languages.replace(",", " ").split())
    for tag in tags:
        if tag.replace("-", "_") not in list_known():
            raise BadLanguages(f"{path}: languages: {tag} has no catalogue; it is one of {', '.join(list_known())}")
        if tags.count(tag) > 1:
            raise BadLanguages(f"{path}: languages: {tag} is there twice")
    if digits not in DIGITS:
        raise BadLanguages(f"{path}: digits: {digits} is none of {', '.join(DIGITS)}")
    for section, words in sections.items():
        _test_section(path, tags, section, words)
    own = {tag: Own(_texts(sections.get(tag, {})), _read_titles(path.parent / f"titles-{tag}.csv")) for tag in tags}
    return OfficeLanguages(tags, digits, own)


def _test_section(path: Path, tags: Sequence[str], section: str, words: Mapping[str, str]) -> None:
    if section not in tags:
        others = f", and those of languages, which are {', '.join(tags)}" if tags else ""
        raise BadLanguages(f"{path}: there is no section [{section}], but [office] and [sdmx]{others}")
    for name in words:
        if name not in WORDS:
            raise BadLanguages(f"{path}: {name} is no word of [{section}]; its words are {', '.join(WORDS)}")


def _texts(words: Mapping[str, str]) -> dict[str, str]:
    """Words with their values in one line; one without a value counts as missing."""
    return {name: " ".join(value.split()) for name, value in words.items() if value.strip()}


def _read_titles(path: Path) -> dict[str, str]:
    """The titles of a file; none if it doesn't exist."""
    try:
        rows = [*csv.reader(io.StringIO(path.read_text(encoding="utf-8-sig"), newline=""), strict=True)]
    except FileNotFoundError:
        return {}
    except OSError as fault:
        raise BadLanguages(because_of(fault)) from fault
    except (csv.Error, UnicodeDecodeError) as fault:
        raise BadLanguages(f"{path}: {' '.join(str(fault).split())}") from fault
    if not rows or rows[0] != TITLES_HEAD:
        raise BadLanguages(f"{path}: its first row isn't {','.join(TITLES_HEAD)}")
    titles = dict[str, str]()
    for number, row in enumerate(rows[1:], 2):
        if any(row):
            code, title = _title(path, number, row)
            if code in titles:
                raise BadLanguages(f"{path}: row {number}: {code} has a row already")
            titles[code] = title
    return titles


def _title(path: Path, number: int, row: Sequence[str]) -> tuple[str, str]:
    """The code and the title of a row."""
    if len(row) != len(TITLES_HEAD):
        raise BadLanguages(f"{path}: row {number} has {len(row)} cells, and not {len(TITLES_HEAD)}")
    code, title = (cell.strip() for cell in row)
    if not CODE.fullmatch(code) and not ID.fullmatch(code):
        raise BadLanguages(
            f"{path}: row {number}: {code or 'an empty text'} is no code such as 01.1, and no id of a set"
        )
    if not title:
        raise BadLanguages(f"{path}: row {number}: {code} has no title")
    return code, title


# ==== an office's own words about its index: sections in Markdown, and its logo, from a folder
#
# The folder, which the word `about` of `[office]` names, has a folder for each language of the pages, such as
# `about/en`, with a file for each section. `logo.png` is next to these folders, or in that of a language which has
# another one. Folders of languages that the pages don't have are tested too, and kept for the day on which they have
# them.

FILE_END = ".md"


class BadOwnWords(Fault):
    """A folder that contains something that isn't accepted; one line."""


class Section(NamedTuple):
    """A section by the name of its file, which is its place on the page too: its title, what belongs into it, and whether
    it comes before what the tool says of the method."""

    name: str
    title: str
    wanted: str
    is_first: bool = True

    @property
    def file(self) -> str:
        """The name of its file."""
        return self.name + FILE_END


# t: a part of the page of the method, which the office writes
SECTIONS = (
    Section("coverage", mark_text("Coverage"), "whose spending, in which places, and what is left out"),
    Section(
        "weights", mark_text("Weights"), "their source, their year, and whether the index is of Lowe's or Young's kind"
    ),
    Section("sample", mark_text("Sample"), "how outlets and items are chosen, and how many prices a month has"),
    Section("response", mark_text("Response"), "how many of these prices are got, and what is done without the others"),
    Section("revisions", mark_text("Revision policy"), "when figures are revised, and how that is announced", False),
    # t: a part of the page of the method: who has figures before they are published
    Section("access", mark_text("Access before a release"), "who has figures before a release, when and why", False),
    Section("contact", mark_text("Contact"), "who answers questions on the method", False),
)
"""The sections in their order on the page."""


class Said(NamedTuple):
    """A section as a page has it: the tag of its language, and its HTML."""

    section: Section
    tag: str
    html: Markup


class OwnWords(NamedTuple):
    """An office's own words: its folder, the HTML of sections by their names, and logos, both by language. The tag
    of a logo for all languages is empty."""

    folder: Path = Path()
    texts: Mapping[str, Mapping[str, Markup]] = {}
    logos: Mapping[str, Logo] = {}

    def said_in(self, tag: str, is_first: bool) -> list[Said]:
        """The sections in a language, before or after the tool's own text; a section that this language lacks is in
        the first language that has it."""
        found = []
        for section in SECTIONS:
            tags = [text for text in (tag, *self.texts) if section.name in self.texts.get(text, {})]
            if tags and section.is_first == is_first:
                found.append(Said(section, tags[0], self.texts[tags[0]][section.name]))
        return found

    def unsaid(self) -> list[Section]:
        """The sections that no language has; none if there is no folder."""
        return [
            section
            for section in SECTIONS
            if self.texts and not any(section.name in text for text in self.texts.values())
        ]

    def logo(self, tag: str) -> Optional[Logo]:
        """The logo of the pages in a language."""
        return self.logos.get(tag) or self.logos.get("")

    def lacking(self) -> Iterator[str]:
        """A line for each language that lacks sections, with what belongs into them."""
        for tag, text in self.texts.items():
            files = [f"{section.file} ({section.wanted})" for section in SECTIONS if section.name not in text]
            if files:
                yield f"{self.folder / tag} lacks {'; '.join(files)}"


def read_own_words(folder: Path, tags: Sequence[str]) -> OwnWords:
    """The sections and logos of a folder, for pages in some languages. Raises BadOwnWords, BadMarkdown or BadLogo."""
    names = _names_in(folder)
    if not names:
        raise BadOwnWords(f"{folder} has neither a folder such as {tags[0]} nor {LOGO}")
    languages = [it.replace("_", "-") for it in list_known()]
    for name in names:
        if name not in (*languages, LOGO):
            raise BadOwnWords(f"{folder / name} is neither {LOGO} nor the folder of a language: {', '.join(languages)}")
    all_tags = [*tags, *(language for language in languages if language in names and language not in tags)]
    texts = {tag: _read_texts(folder / tag) for tag in all_tags}
    places = {"": folder, **{tag: folder / tag for tag in all_tags}}
    logos = {tag: read_logo(place / LOGO) for tag, place in places.items() if (place / LOGO).exists()}
    return OwnWords(folder, {tag: texts[tag] for tag in tags}, logos)


def _read_texts(folder: Path) -> dict[str, Markup]:
    """The sections of a language; none if its folder doesn't exist."""
    # (here, since its packages needn't be there for the other tools)
    from .plain_markdown import read_markdown

    files = {section.file: section.name for section in SECTIONS}
    texts: dict[str, Markup] = {}
    for name in _names_in(folder) if folder.exists() else ():
        if name not in (*files, LOGO):
            raise BadOwnWords(f"{folder / name} is no section; they are {', '.join(files)}, and {LOGO}")
        if name != LOGO and (html := read_markdown(folder / name)):
            texts[files[name]] = html
    return texts


def _names_in(folder: Path) -> list[str]:
    """The files in a folder, except those that an editor or a system hides."""
    try:
        return sorted(path.name for path in folder.iterdir() if not path.name.startswith("."))
    except OSError as fault:
        raise BadOwnWords(because_of(fault)) from fault

"""Texts of others on a page, whatever isn't our own wording: isolated, escaped, and joined to the word before them."""

from __future__ import annotations

import functools
import re
import unicodedata
from collections.abc import Mapping, Sequence
from html import escape
from string import Formatter
from typing import Any, Optional
from xml.sax.saxutils import escape as escape_xml, quoteattr


# ==== places of texts that a language joins to the word before them, as French does: "d'octobre 2025", "de mars 2025"
#
# A translation contains `{of_month}` if its language would write "de {month}"; the page fills in `month`, as for the
# source. Other places work in the same way. `publish/site/assets/spoken.js` contains the rule for the scripts of the
# site.
#
# A translation that begins with a month contains `{Month}`, since French and Spanish write months with a small letter:
# a heading is "Octobre 2026".

OF = "of_"
"""The prefix of a place that includes the word."""

VOWELS = frozenset("aeiouyhàâæéèêëîïôöœùûü")
"""The letters before which the word is elided."""

NOT_ELIDED = re.compile(
    "h(a(ch|ll|m(ac|bu|s)|n(ch|d|g)|r(en|ic|p)|ut)|ockey|omard|ors|ot(te|-)|ou(bl|ss)|uit )|y[aeiouéè]|onz|oui"
)
"""The beginnings of words before which the word isn't elided although their first letter is one of these: `de
haricots`, `de yaourt`."""


def before(text: object) -> str:
    """The word before a text: `d'` before `octobre 2025`, and `de ` before `mars 2025`."""
    name = str(text).lower()
    return "d\u2019" if name[:1] in VOWELS and not NOT_ELIDED.match(name) else "de "


def of(text: object) -> str:
    """A text after its word: `d'octobre 2025`, or `de mars 2025`."""
    return f"{before(text)}{text}"


def begin_line(text: str) -> str:
    """A text with a capital first letter, as at the beginning of a line; markup stays markup."""
    return text[:1].upper() + text[1:]


def is_begun(name: str) -> bool:
    """Whether a text begins with the value of a place of this name."""
    return name[:1].isupper()


def plain_name(name: str) -> str:
    """The name of a place in the source: `month` for `Month`."""
    return name[:1].lower() + name[1:]


class Places(dict[str, Any]):
    """The values of a text's places, by their names: also each with the word before it, and with a capital letter."""

    def __init__(self, places: Mapping[str, Any]):
        super().__init__(places)

    def __missing__(self, name: str) -> str:
        if is_begun(name):
            return begin_line(str(self[plain_name(name)]))
        plain = name.removeprefix(OF)
        if plain == name or plain not in self:
            raise KeyError(name)
        return of(self[plain])


# ==== texts and attributes of XML, whatever characters a title contains

FORBIDDEN = re.compile("[^\t\n\r\x20-\ud7ff\ue000-\ufffd\U00010000-\U0010ffff]")
"""The characters that XML 1.0 can't contain, not even escaped; titles and configurations can contain them."""


def text_of(text: str) -> str:
    """A text as it is between elements; a character that XML can't contain becomes the replacement character."""
    return escape_xml(FORBIDDEN.sub("\ufffd", text))


def attributes_of(named: Mapping[str, str]) -> str:
    """Attributes of an element, each after a space; empty ones are left out."""
    return "".join(f" {name}={quoteattr(FORBIDDEN.sub(chr(0xFFFD), value))}" for name, value in named.items() if value)


def is_address(text: str) -> bool:
    """Whether a text, such as a licence, is an address of the web."""
    return re.fullmatch(r"https?://\S+", text) is not None


# ==== texts of others on a page: titles, items, outlets, the office, files, cells, and everything else that isn't our
# own wording
#
# Such a text is an element of its own, `<bdi>`, so that neither its direction nor an override in it turns the words
# next to it (Unicode Standard Annex 9, isolates). An attribute, a title, an option, and a text that a script writes
# have no elements: there the text is put between the characters FIRST STRONG ISOLATE and POP DIRECTIONAL ISOLATE.
# Templates use both as filters, `others` and `isolated`. `web/shared/dom.js` contains the rule for the pages of `web/`.

OPENS, CLOSES = "\u2068", "\u2069"
"""FIRST STRONG ISOLATE and POP DIRECTIONAL ISOLATE."""

LEFT_TO_RIGHT = "\u2066"
"""LEFT-TO-RIGHT ISOLATE: figures and codes between it and CLOSES keep the order of their characters."""

PARAGRAPHS = re.compile("[\n\r\x1c-\x1e\x85\u2029]")
"""The characters that begin a paragraph, and so end every isolate."""

ISOLATES = re.compile("[\u2066-\u2069]")

TURNING: Mapping[str, frozenset[str]] = {
    "ltr": frozenset(("R", "AL", "AN", "LRE", "RLE", "LRO", "RLO", "PDF", "LRI", "RLI", "FSI", "PDI", "B")),
    "rtl": frozenset(("L", "LRE", "RLE", "LRO", "RLO", "PDF", "LRI", "RLI", "FSI", "PDI", "B")),
}
"""The classes of characters (Unicode's Bidi_Class) in a text that could turn the words next to it, by the direction of
the page."""

QUOTE = '"'
QUOTED = re.compile(f"{QUOTE}([^{QUOTE}]*){QUOTE}")


@functools.lru_cache(maxsize=10_000)
def close_isolates(text: str) -> str:
    """A text that can't leave its element: each of its isolates is closed, a character that would close another isolate
    is removed, and one that would begin a paragraph becomes a space."""
    kept, is_open = [], 0
    for part in re.split(f"({ISOLATES.pattern})", PARAGRAPHS.sub(" ", text)):
        if part == CLOSES and not is_open:
            continue
        is_open += -1 if part == CLOSES else bool(ISOLATES.fullmatch(part))
        kept.append(part)
    return "".join(kept) + CLOSES * is_open


class Element(str):
    """Markup of a page, which a template doesn't escape again."""

    def __html__(self) -> Element:
        return self


class Worded(str):
    """Words of ours that contain texts of others: plain in a file or on a terminal; on a page each of these texts is in
    its own element. `form` contains `{}` for each of them; a text may be Worded itself."""

    form: str
    texts: tuple[str, ...]

    def __new__(cls, form: str, *texts: str) -> Worded:
        made = super().__new__(cls, form.format(*texts))
        made.form, made.texts = form, texts
        return made

    def __html__(self) -> Element:
        return Element(escape(self.form).format(*map(others, self.texts)))


class OwnLine(Worded):
    """A line that a program wrote in English: a page shows it unchanged, so that somebody can search for it, or read it
    to the administrator of the machine."""

    def __html__(self) -> Element:
        return Element(f'<bdi lang="en" dir="ltr"><code>{escape(close_isolates(str(self)))}</code></bdi>')


def word_text(form: str, **places: object) -> Worded:
    """A sentence of ours with the values of its named places, such as `{title}` or `{month}`. A text of others is
    passed as Worded; any other value, such as a figure, is ours."""
    parts, texts, named = list[str](), list[str](), Places(places)
    for literal, name in parse_form(form):
        parts.append(_literal(literal))
        value = "" if name is None else _in_place(named, name)
        parts.append("{}" if isinstance(value, Worded) else _literal(str(value)))
        texts += [value] if isinstance(value, Worded) else []
    return Worded("".join(parts), *texts)


def _in_place(named: Places, name: str) -> object:
    """The value of a place; a text of others stays one after the word that is joined to it."""
    plain = None if name in named else named.get(name.removeprefix(OF))
    return Worded(before(plain) + "{}", plain) if isinstance(plain, Worded) else named[name]


@functools.lru_cache(maxsize=1_000)
def parse_form(form: str) -> list[tuple[str, Optional[str]]]:
    """The parts of a form: each a text, and the name of the place after it, None if there is none."""
    return [(literal, name) for literal, name, _, _ in Formatter().parse(form)]


def _literal(text: str) -> str:
    """A text of a form that isn't a place."""
    return text.replace("{", "{{").replace("}", "}}")


def of_others(text: str) -> Worded:
    """A text of others, for a place in words of ours."""
    return Worded("{}", text)


def own_line(text: object) -> Worded:
    """A line of a program, for a place in words of ours."""
    return OwnLine("{}", str(text))


def list_texts(texts: Sequence[Worded]) -> Worded:
    """Some texts one after the other, separated by semicolons, since a name may contain a comma."""
    return Worded("; ".join(["{}"] * len(texts)), *texts)


def others(text: object) -> Element:
    """A text of others as an element."""
    if isinstance(text, Worded):
        return text.__html__()
    return Element(f"<bdi>{escape(close_isolates(str(text)))}</bdi>")


def cite(text: object) -> Element:
    """A message as an element, and each text that it cites in quotation marks as an element within it."""
    if isinstance(text, Worded):
        return text.__html__()
    parts = [
        others(word) if at % 2 else escape(close_isolates(word)) for at, word in enumerate(QUOTED.split(str(text)))
    ]
    return Element(f"<bdi>{escape(QUOTE).join(parts)}</bdi>")


def isolate(text: object) -> str:
    """A text of others between isolates, for a place that can't contain elements."""
    if isinstance(text, Worded):
        return text.form.format(*map(isolate, text.texts))
    return f"{OPENS}{close_isolates(str(text))}{CLOSES}"


def apart(text: object, direction: str) -> str:
    """A text of others in words of a direction, `ltr` or `rtl`: between isolates only if it could turn other words, so
    that people who copy it copy no invisible characters."""
    if isinstance(text, Worded):
        return text.form.format(*(apart(text, direction) for text in text.texts))
    plain = str(text)
    turns = not TURNING[direction].isdisjoint(map(unicodedata.bidirectional, plain))
    return isolate(plain) if turns else plain

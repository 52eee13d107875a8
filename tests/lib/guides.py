#!/usr/bin/python3
"""The rules for a guide in another language, which follows an English one.

A translation has the same name, in the folder of its language: `docs/desk/fr/PHONE.md`. A comment at its head contains
the sum of each part of the English guide from which it was made, so that a part that has changed since is named. Its
commands are those of the English guide, and each name of a button is the name on the page.

`tests/lib/guides.py docs/desk/fr/PHONE.md` writes the new sums into a translation that has been brought up to date.
"""

from __future__ import annotations

import hashlib
import re
import sys
from collections.abc import Iterator, Sequence
from functools import lru_cache
from pathlib import Path

from babel.messages.catalog import Catalog
from babel.messages.pofile import read_po

ROOT = Path(__file__).resolve().parents[2]
DOCS = ROOT / "docs/desk"

FOLLOWS = re.compile(r"^<!-- follows ([A-Z-]+\.md): ([0-9a-f ]+) -->$", re.M)
"""The guide, and the sums of its parts."""

COMMANDS = re.compile(r"^```[^`]*^```$|(?<=\n\n)(?: {4}[^\n]*\n)+", re.M)
NAMED = re.compile(r"(?<![*\w])\*([^*\n]+)\*(?![*\w])")
"""A button or a view of a page."""

STATE = re.compile(r"^\| ([^|]+) \| [^|]+ \|$", re.M)
"""A row of a table with two columns: the text of a row on the page."""

PLACE = re.compile(r"\\\{[a-z_]+\\\}")


def translations() -> list[str]:
    """The names of the guides in other languages."""
    folders = [path.stem for path in sorted((ROOT / "po").glob("*.po"))]
    return [f"docs/desk/{code}/{path.name}" for code in folders for path in sorted((DOCS / code).glob("*.md"))]


def parts(text: str) -> list[tuple[str, str]]:
    """The parts of a guide, each with its heading; the first one is the text before them."""
    words = re.split(r"^(?=## )", text, flags=re.M)
    return [(part.partition("\n")[0].lstrip("# "), part) for part in words]


def sum_of(part: str) -> str:
    """The sum of a part, computed from its words: a line that is broken elsewhere doesn't change it."""
    return hashlib.sha256(" ".join(part.split()).encode()).hexdigest()[:8]


@lru_cache
def catalogue(code: str) -> Catalog:
    with (ROOT / f"po/{code}.po").open("rb") as file:
        catalog: Catalog = read_po(file, locale=code)
        return catalog


def told(code: str, text: str) -> list[re.Pattern[str]]:
    """The texts of the page in a language for a text of the source, in each of its contexts; its places match
    anything."""
    found = [it.string for it in catalogue(code) if it.id == text or (isinstance(it.id, str) and fits(it.id, text))]
    return [pattern(it) for it in found if isinstance(it, str) and it]


def pattern(text: str) -> re.Pattern[str]:
    return re.compile(PLACE.sub(".+", re.escape(text)))


def fits(source: str, text: str) -> bool:
    """Whether a text is a text of the source with its places filled."""
    return "{" in source and not source.startswith("{") and bool(pattern(source).fullmatch(text))


def guide_faults(name: str) -> Iterator[str]:
    """The faults of a guide in another language, one line each."""
    text = (ROOT / name).read_text(encoding="utf-8")
    head = FOLLOWS.search(text)
    if not head or head[1] != Path(name).name or not (DOCS / head[1]).exists():
        yield "its head doesn't say which guide it follows"
        return
    source = (DOCS / head[1]).read_text(encoding="utf-8")
    yield from sum_faults(head[1], head[2].split(), source)
    if len(parts(text)) != len(parts(source)):
        yield f"it has {len(parts(text))} parts, and {head[1]} has {len(parts(source))}"
    if COMMANDS.findall(text) != COMMANDS.findall(source):
        yield f"its commands aren't those of {head[1]}"
    yield from name_faults(Path(name).parent.name, text, source)


def sum_faults(guide: str, sums: Sequence[str], source: str) -> Iterator[str]:
    now = parts(source)
    if len(sums) != len(now):
        yield f"it follows {len(sums)} parts of {guide}, which has {len(now)}"
        return
    for follows, (heading, part) in zip(sums, now):
        if follows != sum_of(part):
            yield f"the part {heading!r} of {guide} has changed since: bring it up to date, then run tests/lib/guides.py"


def name_faults(code: str, text: str, source: str) -> Iterator[str]:
    """Buttons and states that the guide names in another way than the page, or that it leaves out."""
    for kind, find in (("button", NAMED), ("state", STATE)):
        wanted = {element: told(code, element) for element in find.findall(COMMANDS.sub("", source))}
        known = {it: forms for it, forms in wanted.items() if forms}
        if kind == "button":
            yield from (f"no catalogue has the button {it!r} of the English guide" for it in wanted if it not in known)
        named = set(find.findall(COMMANDS.sub("", text)))
        for english, forms in known.items():
            if not any(form.fullmatch(element) for form in forms for element in named):
                yield f"no word of the {kind} {english!r}, which the page calls {forms[0].pattern!r}"
        if kind == "button":
            every = [form for forms in known.values() for form in forms]
            yield from (
                f"{element!r} is no button of the page"
                for element in named
                if not any(e.fullmatch(element) for e in every)
            )


def bring_up_to_date(name: str) -> None:
    """Writes the sums of the current English guide into the head of a translation."""
    path = ROOT / name
    sums = " ".join(sum_of(part) for _, part in parts((DOCS / path.name).read_text(encoding="utf-8")))
    text = path.read_text(encoding="utf-8")
    made = re.sub(r"^<!-- follows .* -->$", f"<!-- follows {path.name}: {sums} -->", text, count=1, flags=re.M)
    path.write_text(made, encoding="utf-8")


if __name__ == "__main__":
    for each in sys.argv[1:]:
        bring_up_to_date(each)

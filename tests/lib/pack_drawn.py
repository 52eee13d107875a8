"""Compares the pictures and the cards of a pack with the figures that were computed here.

A picture is read as a reader reads it: the places of its lines and columns, between the marks of its axis, and its
description in words. A card is read from the SVG that was passed to `rsvg-convert`, which its PNG names by its SHA-256.
"""

from __future__ import annotations

import hashlib
import os
import re
import shutil
from collections.abc import Callable, Iterator, Mapping, Sequence
from fractions import Fraction
from pathlib import Path
from xml.etree import ElementTree

from .nation import previous
from .pack_faults import text
from .pack_figures import ALL, Figures, december_before
from .pack_releases import NAME, Wanted, imputed
from .pack_then import Then, named
from .page_texts import Texts
from .site import signed

SVG = "{http://www.w3.org/2000/svg}"
CARD_MONTHS = 24
NEAR = 0.11
"""The most pixels by which a place may differ: places are written with one decimal."""

Values = list[tuple[str, Fraction]]
"""Values by month."""


# ---- pictures


def pictures_in(page: Texts) -> dict[str, str]:
    """The pictures of a page by their kinds."""
    return {
        kind: element
        for element, kind in re.findall(r'(<svg .*?aria-labelledby="(\w+)-title.*?</svg>)', page.markup, re.S)
    }


def scale_of(picture: str) -> Callable[[float], float]:
    """The function that converts a height in a picture to a value, from the lowest and the highest mark of its axis."""
    marks = re.findall(r'<text class="end" x="34" y="([0-9.]+)">([^<]*)</text>', picture)
    (y, low), (top, high) = ((float(at) - 4, float(said.replace("\u2212", "-"))) for at, said in (marks[0], marks[-1]))
    return lambda at: low + (high - low) * (y - at) / (y - top)


def is_near(scale: Callable[[float], float], at: float, value: Fraction) -> bool:
    """Whether a place is the place of a value."""
    return abs(scale(at) - float(value)) <= abs(scale(0) - scale(NEAR))


def line_faults(picture: str, values: Values) -> Wanted:
    """The faults of the line of the index, and of its description."""
    (path,) = re.findall(r'<path class="line own" d="M([^"]*)"', picture)
    places = [tuple(map(float, word.split(" "))) for word in path.split("L")]
    scale = scale_of(picture)
    wrong = [month for (_, y), (month, value) in zip(places, values) if not is_near(scale, y, value)]
    yield "line", (len(places), wrong, [*places] == sorted(places)), (len(values), [], True)
    (first, begin), (last, end) = ((named(month), text(value, 1)) for month, value in (values[0], values[-1]))
    yield "says", Texts(picture).of("desc"), [f"From {begin} in {first} to {end} in {last}."]
    yield "last value", Texts(picture).of('text class="end value" x="[0-9.]+" y="[0-9.]+"'), [end]


def column_faults(picture: str, values: Values) -> Wanted:
    """The faults of the columns of some changes, from zero up or down."""
    found = []
    for kind, path in re.findall(r'<path class="bar([a-z ]*)" d="([^"]*)"', picture):
        for x, y, height in re.findall(r"M([0-9.]+) ([0-9.]+)h[0-9.]+v([0-9.]+)", path):
            found.append((float(x), float(y), float(height), "down" in kind, "last" in kind))
    found.sort()
    scale, wrong = scale_of(picture), []
    for (_, y, height, is_down, is_last), (month, value) in zip(found, values):
        end, zero = (y + height, y) if is_down else (y, y + height)
        is_right = is_near(scale, end, value) and is_near(scale, zero, Fraction(0)) or not value
        if not is_right or is_down != (value < 0) or is_last != (month == values[-1][0]):
            wrong.append(month)
    yield "columns", (len(found), wrong), (len(values), [])


def change_says(values: Values) -> str:
    """The description of a picture of changes."""
    told = [(value, month) for month, value in values]
    low, high = min(told, key=lambda it: it[0]), max(told, key=lambda it: it[0])
    if len(told) == 1:
        return f"{number(low[0])} percent in {named(low[1])}."
    if low[0] == high[0]:
        return f"{number(low[0])} percent from {named(told[0][1])} to {named(told[-1][1])}."
    return f"Between {number(low[0])} percent in {named(low[1])} and {number(high[0])} percent in {named(high[1])}."


def number(value: Fraction) -> str:
    """`+0.3`, `0.0` or `−0.3`."""
    return signed(value, 1) if value else "0.0"


def changes(known: Figures, month: str, is_annual: bool) -> Values:
    """The changes of all items up to a month."""
    months = ((it, known.changes(ALL, it)[is_annual]) for it in known.months if it <= month)
    return [(month, value) for month, value in months if value is not None]


def levels(known: Figures, month: str) -> Values:
    """The index of all items up to a month; a first month is drawn from December before it."""
    base = december_before(known.months[0])
    months = [(it, known.lines[ALL][it].level) for it in known.months if it <= month]
    months = [(base, Fraction(100)), *months] if len(months) == 1 else months
    return [(month, known.shown(ALL, base, level)) for month, level in months]


def of_page(pictures: Mapping[str, str], known: Figures, month: str) -> Wanted:
    """The faults of the pictures of a page: the index and the changes of all items."""
    for kind, picture in pictures.items():
        if kind == "level":
            looked_at = line_faults(picture, levels(known, month))
        elif kind in ("month", "year"):
            values = changes(known, month, kind == "year")
            looked_at = column_faults(picture, values)
            yield f"{kind}: says", Texts(picture).of("desc"), [change_says(values)]
        else:
            shares = imputed(known, month)
            looked_at = column_faults(picture, shares)
            low, high = (text(most(value for _, value in shares), 0) for most in (min, max))
            yield "imputed: says", Texts(picture).of("desc"), [f"Between {low} and {high} percent of the weight."]
        yield from ((f"{kind}: {what}", says, wanted) for what, says, wanted in looked_at)


def drawn(markup: str) -> list[str]:
    """The paths of a picture, without its colours."""
    return re.findall(r'<path [^>]*\bd="([^"]*)"', markup)


def bar_faults(picture: str, then: Then, codes: Sequence[str], is_sorted: bool) -> Wanted:
    """The faults of the bars of some items' contributions to the change of all items, with their labels and values."""
    matching_codes = [(value, code) for code in codes if (value := then.given(code)) is not None]
    matching_codes = sorted(matching_codes, key=lambda code: (-code[0], code[1])) if is_sorted else matching_codes
    titles = [then.known.titles[code] for _, code in matching_codes]
    texts = [
        Texts(element).of("text")[0] for element in re.findall(r'<text [^>]*font-size="12"[^>]*>.*?</text>', picture)
    ]
    values = [it for it in texts if re.fullmatch("[+\u2212]?[0-9.]+", it)]
    yield "values of bars", values, [signed(value, 2) for value, _ in matching_codes]
    yield "labels of bars", " ".join(it for it in texts if it not in values), " ".join(titles)
    yield "says of bars", Texts(picture).of("desc"), [
        ", ".join(f"{title} {signed(value, 2)}" for title, (value, _) in zip(titles, matching_codes)) + "."
    ]
    low, high = min([Fraction(0), *(code for code, _ in matching_codes)]), max(
        [Fraction(0), *(code for code, _ in matching_codes)]
    )
    span = high - low or Fraction(1)
    form = r'<path (fill="#[0-9a-f]{6}") d="M([0-9.]+) [0-9]+h([0-9.]+)v9h-\3z"/>'
    bars = re.findall(form, picture)
    wrong = []
    for (fill, begin, size), (value, code) in zip(bars, matching_codes):
        at, long = 400 * (min(value, Fraction(0)) - low) / span, max(float(400 * abs(value) / span), 0.6)
        is_right = abs(float(begin) - at) <= NEAR and abs(float(size) - long) <= NEAR
        if not is_right or fill != f'fill="{("#0a5c7d", "#b1521d")[value < 0]}"':
            wrong.append(code)
    yield "bars", (len(bars), wrong), (len(matching_codes), [])


def of_release(site: Path, then: Then) -> Wanted:
    """The faults of the pictures of a release: in its page, as files, and in its page for frames."""
    pictures = pictures_in(Texts.of_page(site / f"release/{then.name}.html"))
    yield "pictures", [*pictures], ["year" if then.is_annual else "month", "level"]
    yield from of_page(pictures, then.known, then.month)
    bars = (site / f"picture/{then.name}-contributions.svg").read_text(encoding="utf-8")
    yield from bar_faults(bars, then, then.known.below(ALL), True)
    framed = pictures_in(Texts.of_page(site / f"embed/{then.name}.html"))
    yield "framed bars", drawn(framed.pop("contributions", "")), drawn(bars)
    yield "framed", framed, pictures
    for kind, picture in pictures.items():
        file = (site / f"picture/{then.name}-{kind}.svg").read_text(encoding="utf-8")
        yield f"file of {kind}", drawn(file), drawn(picture)
        said = " ".join(Texts(file).of("text"))
        yield f"source of {kind}", f"{NAME}, {then.called}, published" in said, True


# ---- cards


def keeping(folder: Path) -> Mapping[str, str]:
    """The environment of a run whose cards are kept as SVG in a folder: a program of the same name is found first,
    which passes everything on to the right one."""
    real = shutil.which("rsvg-convert")
    assert real, "rsvg-convert isn't installed"
    tool = folder / "rsvg-convert"
    tool.write_text(
        f'#!/bin/sh\nif [ "$1" = --format=png ]; then tee "$(mktemp {folder}/XXXXXX.svg)" | {real} "$@"\n'
        f'else exec {real} "$@"\nfi\n',
        encoding="ascii",
    )
    tool.chmod(0o755)
    return {**os.environ, "PATH": f"{folder}:{os.environ['PATH']}"}


def of_card(site: Path, kept: Mapping[str, bytes], then: Then) -> Wanted:
    """The texts and the bars of a release's card."""
    png = (site / f"release/{then.name}.png").read_bytes()
    (wanted,) = re.findall(rb"SHA-256 of SVG ([0-9a-f]{64}), ", png) or [b""]
    svg = kept.get(wanted.decode())
    yield "card is drawn from what was kept", svg is not None, True
    if svg is None:
        return
    root = ElementTree.fromstring(svg)
    texts = [(element.get("font-size"), "".join(element.itertext())) for element in root.iter(f"{SVG}text")]
    values = changes(then.known, then.month, then.is_annual)
    first = previous_by(then.month, CARD_MONTHS - 1)
    values = [value for value in values if value[0] >= first]
    yield "card: head", texts[0][1], f"{NAME}, {then.called}"
    yield "card: headline", " ".join(said for size, said in texts if size == "46"), then.headline
    change = "Annual change" if then.is_annual else "Monthly change"
    said = f"{change} in percent, {named(values[0][0])} to {named(then.month)}"
    yield "card: figures", [it[1] for it in texts if it[0] in ("22", "26")][:2], [number(then.change), said]
    yield from bars_of_card(root, values)


def previous_by(month: str, by: int) -> str:
    """The month so many months before."""
    for _ in range(by):
        month = previous(month)
    return month


def bars_of_card(root: ElementTree.Element, values: Sequence[tuple[str, Fraction]]) -> Wanted:
    """The bars of a card: as long as their values, from one line."""
    bars = [
        [float(element.get(name, "")) for name in ("x", "y", "height")] for element in [*root.iter(f"{SVG}rect")][2:]
    ]
    (zero,) = (float(element.get("d", "").split(" ")[1].split("H")[0]) for element in root.iter(f"{SVG}path"))
    longest = max(height for _, _, height in bars)
    most = max(abs(value) for _, value in values)
    wrong = []
    for (_, y, height), (month, value) in zip(bars, values):
        is_long = abs(height - longest * float(abs(value) / most)) <= NEAR if most else height == 0
        if not is_long or abs((y if value < 0 else y + height) - zero) > NEAR:
            wrong.append(month)
    yield "card: bars", (len(bars), wrong, bars == sorted(bars)), (len(values), [], True)


# ---- all of them


def drawn_faults(site: Path, known: Figures, all_of_them: Sequence[Then], kept: Path) -> Iterator[str]:
    """All pictures of the first page and of releases, and all cards."""
    svgs = {hashlib.sha256(data).hexdigest(): data for data in map(Path.read_bytes, kept.glob("*.svg"))}
    first = pictures_in(Texts.of_page(site / "index.html"))
    looked_at = [("index.html", *it) for it in of_page(first, known, known.months[-1])]
    looked_at.append(("index.html", "pictures", sorted(first), ["imputed", "level", "month", "year"]))
    then = all_of_them[-1]._replace(known=known)
    for kind, codes in (("contributions", known.below(ALL)), ("sets", [*known.sets])):
        bars = (site / f"picture/00-{kind}.svg").read_text(encoding="utf-8")
        looked_at += [("index.html", *fault) for fault in bar_faults(bars, then, codes, kind == "contributions")]
    for then in all_of_them:
        looked_at += [(f"release {then.name}", *it) for it in of_release(site, then)]
        looked_at += [(f"release {then.name}", *it) for it in of_card(site, svgs, then)]
    for page, what, says, wanted in looked_at:
        if says != wanted:
            yield f"{page}: {what}: says {says}, wanted {wanted}"

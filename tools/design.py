"""The design that all pages share: sizes of type, spaces, and colours by their roles, with the contrast of each pair.

A part of `web/shared/base.css` has it. tools/pages copies this part to `style.css` of the website and the desk, so the three
families of pages can't differ. `measure_contrasts` computes what WCAG 2.2 asks for: 4.5 for a text, 3 for the edge of a
field, a ring or a mark of a picture.
"""

from __future__ import annotations

import re
from collections.abc import Iterator, Mapping, Sequence
from pathlib import Path
from typing import NamedTuple

from cpi_tools.publish.figures.own_words import contrast

ROOT = Path(__file__).resolve().parents[1]
SOURCE = ROOT / "web/shared/base.css"
COPY = ROOT / "tools/cpi_tools/text/templates/style.css"

FAMILIES: Mapping[str, tuple[Path, ...]] = {
    "phone": (SOURCE, *(ROOT / f"web/collect/{name}.css" for name in ("collect", "notes", "questions"))),
    "website": (COPY, ROOT / "tools/cpi_tools/publish/site/assets/choose.css"),
    "desk": (COPY, COPY.with_name("sections.css"), ROOT / "tools/cpi_tools/desk/serve/templates/desk.css"),
}
"""The styles of each family of pages, in the order in which a page loads them."""

TEXT, MARK = 4.5, 3.0
"""The least contrast of a text (WCAG 2.2, 1.4.3), and of what isn't one (1.4.11)."""

# ---- the part


PART = re.compile(r"/\* ---- the design of all pages.*?/\* ---- the end of the design ---- \*/\n", re.S)


def find_part(style: str) -> str:
    """The part of a style that all families share. Raises ValueError if it isn't there once."""
    matches = PART.findall(style)
    if len(matches) != 1:
        raise ValueError(f"the part with the design is there {len(matches)} times, and has to be there once")
    return str(matches[0])


def put_part(style: str, part: str) -> str:
    """A style with another shared part in the place of its own. Raises ValueError if it has none."""
    own = find_part(style)
    return style.replace(own, part)


# ---- its values


COMMENT = re.compile(r"/\*.*?\*/", re.S)
OF_DARK = re.compile(r"@media screen and \(prefers-color-scheme: dark\) \{\s*:root \{([^}]*)\}\s*\}")
OF_MEDIA = re.compile(r"@media[^{]*\{\s*:root \{[^}]*\}\s*\}")
OF_LIGHT = re.compile(r":root \{([^}]*)\}")
VALUE = re.compile(r"--([a-z0-9-]+):\s*([^;]+);")
COLOUR = re.compile("#(?:[0-9a-f]{3}|[0-9a-f]{6})")


def read_style(paths: Sequence[Path]) -> str:
    """The text of some styles, one after another, without their comments."""
    return COMMENT.sub("", "".join(path.read_text(encoding="utf-8") for path in paths))


def read_values(style: str) -> dict[str, str]:
    """The values of a style's names, in the light scheme: `size-1` is `.85rem`."""
    return {name: value for part in OF_LIGHT.findall(OF_MEDIA.sub("", style)) for name, value in VALUE.findall(part)}


def read_colours(style: str) -> tuple[dict[str, str], dict[str, str]]:
    """The colours of a style by name, as `#17222d`, in the light and in the dark scheme."""
    light = read_values(style)
    dark = {**light, **{name: value for part in OF_DARK.findall(style) for name, value in VALUE.findall(part)}}
    return _colours_of(light), _colours_of(dark)


def _colours_of(values: Mapping[str, str]) -> dict[str, str]:
    return {name: _long(value) for name, value in values.items() if COLOUR.fullmatch(value)}


def _long(colour: str) -> str:
    """A colour in six digits: `#ffffff` for `#fff`."""
    return colour if len(colour) == 7 else "#" + "".join(2 * digit for digit in colour[1:])


# ---- contrasts


class Pair(NamedTuple):
    """What is drawn on what, by the names of colours, and the contrast that this needs."""

    front: str
    ground: str
    least: float = TEXT


def _pair(grounds: str, *fronts: str, least: float = TEXT) -> list[Pair]:
    """Each of some colours on each of some grounds."""
    return [Pair(front, ground, least) for ground in grounds.split() for front in fronts]


SHARED: Sequence[Pair] = (
    *_pair("ground panel", "ink", "muted", "accent", "good", "warn", "bad", "down"),
    *_pair("warn-ground", "warn"),
    *_pair("good-ground", "good"),
    *_pair("bad-ground", "bad"),
    *_pair("accent", "ground"),
    *_pair("ground panel", "edge", "focus", least=MARK),
)
"""What pages of every family may have."""

OWN: Mapping[str, Sequence[Pair]] = {
    "phone": (
        *_pair("warn-ground good-ground bad-ground", "ink", "muted", "accent"),
        *_pair("hover", "ink", "muted", "accent"),
        *_pair("band", "band-ink", "ink", "muted"),
        *_pair("accent-hover", "ground"),
        *_pair("warn-fill warn-fill-hover bad-fill", "on-fill"),
        *_pair("head head-hover", "on-head"),
        *_pair("deep", "on-deep"),
        *_pair("warn-ground good-ground bad-ground hover band", "focus", least=MARK),
        *_pair("warn-ground good-ground bad-ground", "edge", least=MARK),
        *_pair("head", "head-edge", "head-focus", "line-up", "line-waiting", "line-down", least=MARK),
        *_pair("rule", "good", least=MARK),
    ),
    "website": _pair("ground", "accent-soft", "down-soft", *(f"curve-{at}" for at in range(6)), least=MARK),
    "desk": _pair("ground", "accent-soft", "down-soft", least=MARK),
}
"""What pages of one family have beside that."""


class Contrast(NamedTuple):
    """A pair of a family with its contrasts in both schemes."""

    family: str
    pair: Pair
    light: float
    dark: float

    @property
    def is_enough(self) -> bool:
        """Whether both reach what the pair needs."""
        return min(self.light, self.dark) >= self.pair.least


def measure_contrasts(family: str) -> list[Contrast]:
    """The contrast of each pair of a family. Raises KeyError for a family or a colour that isn't there."""
    light, dark = read_colours(read_style(FAMILIES[family]))
    return [
        Contrast(family, pair, *(contrast(scheme[pair.front], scheme[pair.ground]) for scheme in (light, dark)))
        for pair in (*SHARED, *OWN[family])
    ]


def write_table(contrasts: Sequence[Contrast]) -> Iterator[str]:
    """The contrasts as lines of a text, with a head."""
    yield f"{'family':9}{'what':14}{'on':18}{'least':>6}{'light':>8}{'dark':>8}"
    for family, (front, ground, least), light, dark in contrasts:
        yield f"{family:9}{front:14}{ground:18}{least:6.1f}{light:8.2f}{dark:8.2f}"


# ---- what styles use


RULE = re.compile(r"([^{}]+)\{([^{}]*)\}")
FRONT = re.compile(r"(?<![-\w])(?:color|fill): var\(--([a-z0-9-]+)\)")
GROUND = re.compile(r"(?<![-\w])background(?:-color)?: var\(--([a-z0-9-]+)\)")


def find_pairs(style: str) -> set[tuple[str, str]]:
    """The names of the colours of each rule that sets both a text's and its ground."""
    rules = (body for _, body in RULE.findall(style))
    return {(front, ground) for body in rules for front in FRONT.findall(body) for ground in GROUND.findall(body)}


def find_fronts(style: str) -> set[str]:
    """The names of the colours in which some rule writes or fills."""
    return set(FRONT.findall(style))


def find_grounds(style: str) -> set[str]:
    """The names of the colours with which some rule fills a ground."""
    return set(GROUND.findall(style))

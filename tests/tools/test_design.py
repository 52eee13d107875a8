"""The design that all pages share: one part in the styles of all families, its values used everywhere, and contrasts that
are enough for each pair of colours that a rule has. `-s` prints the table."""

from __future__ import annotations

import re

import pytest

import design
from design import FAMILIES, OWN, SHARED, Contrast, Pair

FAMILY = pytest.mark.parametrize("family", FAMILIES)

PART = """\
/* ---- the design of all pages: an example ---- */
:root { --size-1: .85rem; --ink: #17222d; --ground: #fff; }
@media screen and (prefers-color-scheme: dark) { :root { --ground: #12191f; } }
@media print { :root { --ink: #000; } }
/* ---- the end of the design ---- */
"""


def test_the_website_and_the_desk_have_the_design_of_the_phone() -> None:
    parts = [design.find_part(path.read_text(encoding="utf-8")) for path in (design.SOURCE, design.COPY)]
    assert parts[0] == parts[1] and "--space-1:" in parts[0]
    assert design.SOURCE in FAMILIES["phone"] and design.COPY in FAMILIES["website"] and design.COPY in FAMILIES["desk"]


def test_a_part_is_put_in_the_place_of_another() -> None:
    other = PART.replace("#17222d", "#123456")
    assert design.put_part(f"a {{ b: c; }}\n{PART}d {{ e: f; }}\n", other) == f"a {{ b: c; }}\n{other}d {{ e: f; }}\n"
    for style, count in (("a { b: c; }", 0), (PART + PART, 2)):
        with pytest.raises(ValueError, match=f"is there {count} times"):
            design.put_part(style, other)


def test_values_are_read_of_both_schemes() -> None:
    """A printer's value is of neither."""
    assert design.read_values(PART) == {"size-1": ".85rem", "ink": "#17222d", "ground": "#fff"}
    light, dark = design.read_colours(PART)
    assert light == {"ink": "#17222d", "ground": "#ffffff"}
    assert dark == {"ink": "#17222d", "ground": "#12191f"}


def test_the_colours_of_a_rule_are_found() -> None:
    style = "a { color: var(--ink); background: var(--panel); } b { fill: var(--bad); } c { background: var(--rule); }"
    assert design.find_pairs(style) == {("ink", "panel")}
    assert (design.find_fronts(style), design.find_grounds(style)) == ({"ink", "bad"}, {"panel", "rule"})
    assert design.find_fronts("a { border-color: var(--edge); }") == set()


# ---- contrasts


@FAMILY
def test_each_contrast_is_enough(family: str) -> None:
    contrasts = design.measure_contrasts(family)
    print("\n".join(["", *design.write_table(contrasts)]))
    assert len(contrasts) == len(SHARED) + len(OWN[family])
    assert [each for each in contrasts if not each.is_enough] == []


def test_a_contrast_that_is_too_low_in_one_scheme_is_seen() -> None:
    """#777777 on white is the example that fails by little: 4.48."""
    assert not Contrast("phone", Pair("ink", "ground"), 4.48, 12.0).is_enough
    assert not Contrast("phone", Pair("ink", "ground"), 12.0, 4.48).is_enough
    assert Contrast("phone", Pair("edge", "ground", design.MARK), 3.0, 4.48).is_enough


@FAMILY
def test_each_pair_of_a_rule_is_measured(family: str) -> None:
    """What fills a bar of a picture is measured as a mark on the page."""
    style = design.read_style(FAMILIES[family])
    pairs = {(front, ground) for front, ground, _ in (*SHARED, *OWN[family])}
    fronts, grounds = ({pair[at] for pair in pairs} for at in (0, 1))
    assert design.find_pairs(style) - pairs == set()
    assert design.find_fronts(style) - fronts == set()
    assert design.find_grounds(style) - grounds - fronts == set()


# ---- one scale


SCALED = re.compile(
    r"(?<![-\w])((?:margin|padding)(?:-[a-z-]+)?|gap|row-gap|column-gap|font-size|font|border(?:-[a-z]+)*-radius): ([^;}]+)"
)
LITERAL = re.compile(r"(?<![\w.-])-?(?:\d*\.)?\d+(?:rem|px)\b")

OWN_LENGTHS = {
    ("padding", "12rem"),  # what sticks to the end of the phone's page has room there
    ("margin-top", "-1px"),  # two buttons share an edge
    ("border-radius", "999px"),  # a chip
    ("border-radius", "1rem"),  # a chip of two lines
    ("border-radius", "2px"),  # a bar
}
"""Lengths that are no step of a scale."""

OF_PICTURES = re.compile(r"[^{}]*\bsvg\b[^{}]*\{[^{}]*\}")
"""Rules of pictures, whose texts are as large as in their files."""


@FAMILY
def test_sizes_and_spaces_are_steps_of_the_scale(family: str) -> None:
    style = OF_PICTURES.sub("", design.read_style(FAMILIES[family]))
    uses = [(name, value) for name, value in SCALED.findall(style) if not value.startswith("clamp(")]
    lengths = {(name, length) for name, value in uses for length in LITERAL.findall(value)}
    assert len(uses) > 50 and lengths - OWN_LENGTHS == set()


def test_a_step_is_larger_than_the_one_before() -> None:
    values = design.read_values(design.find_part(design.SOURCE.read_text(encoding="utf-8")))
    for name in ("size", "space"):
        steps = [float(value.removesuffix("rem")) for key, value in values.items() if key.startswith(f"{name}-")]
        assert len(steps) > 5 and steps == sorted(set(steps)), name


@FAMILY
def test_each_name_has_a_value(family: str) -> None:
    """A scheme for the dark changes colours only, and none is written outside of the root."""
    style = design.read_style(FAMILIES[family])
    values = design.read_values(style)
    set_by_pages = {"depth"}
    assert set(re.findall(r"var\(--([a-z0-9-]+)", style)) - values.keys() - set_by_pages == set()
    below = re.sub(r":root \{[^}]*\}", "", style)
    assert re.findall(r"#[0-9a-fA-F]{3,8}\b(?=[^{]*\})|(?<![-\w])(?:white|black)(?![-\w])", below) == []

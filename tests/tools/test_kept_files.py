"""What a phone keeps so that the collectors' page opens without a line: each script that the page loads at its start."""

from __future__ import annotations

import re
from pathlib import Path

from lib.places import ROOT

COLLECT = ROOT / "web/collect"

SET = COLLECT.parent / "config.js"
"""What an office sets itself, which the worker keeps beside its list."""

LOADED = re.compile(r'^(?:import|export) (?:[^"();]*? from )?"([^"]+)";', re.M)
"""A script that another one loads before it runs: what it imports when it is asked for has parentheses."""


def loaded_by(script: Path) -> set[Path]:
    """A script and all that are loaded with it."""
    loaded, left = set[Path](), [script]
    while left:
        each = left.pop()
        if each not in loaded:
            loaded.add(each)
            left += [(each.parent / name).resolve() for name in LOADED.findall(each.read_text(encoding="utf-8"))]
    return loaded


def listed_scripts() -> set[Path]:
    """The scripts in the worker's list."""
    head, _, rest = (COLLECT / "sw.js").read_text(encoding="utf-8").partition("const FILES = [")
    assert head and rest
    return {(COLLECT / name).resolve() for name in re.findall(r'"([^"]+\.js)"', rest.partition("];")[0])}


def test_a_phone_keeps_each_script_that_the_page_loads() -> None:
    loaded = loaded_by(COLLECT / "app.js")
    assert len(loaded) > 20 and SET in loaded
    assert listed_scripts() == loaded - {SET}

"""The pages of the package have no comments, and nothing else is missing of them (tools/lighter.py)."""

from __future__ import annotations

import re
from pathlib import Path
from typing import Any

import pytest
from babel.messages import jslexer

from lib.places import ROOT
from lighter import lighten, lighten_all

COMMENTS = ("linecomment", "multilinecomment")
SCRIPTS = sorted(path for path in (ROOT / "web").rglob("*.js") if path.name != "config.js")
STYLES = sorted((ROOT / "web").rglob("*.css"))
PAGES = sorted((ROOT / "web").rglob("*.html"))


def read_tokens(text: str) -> list[tuple[str, str]]:
    """What a script consists of, without its comments, as Babel reads it."""
    lexer: Any = jslexer  # (its types say that nothing comes)
    read = lexer.tokenize(text, jsx=False, dotted=False, template_string=True)
    return [(token.type, token.value) for token in read if token.type not in COMMENTS]


def drop_comments(text: str) -> str:
    """A style without its comments and spaces, character by character."""
    kept, place = "", 0
    while place < len(text):
        if text.startswith("/*", place):
            place = text.index("*/", place) + 2
        else:
            kept, place = kept + text[place], place + 1
    return "".join(kept.split())


@pytest.mark.parametrize(
    ("name", "text", "light"),
    [
        (
            "a.js",
            "// one\nconst n = 1; // why\n  /** two\n   * lines */\nf(n); // isn't\n",
            "const n = 1;\nf(n); // isn't\n",
        ),
        ("a.js", 'f("// no comment", `/* nor this */`);\n', 'f("// no comment", `/* nor this */`);\n'),
        ("a.css", "/* one\n   two */\na { b: c; /* why */ d: e; }\n", "a { b: c; d: e; }\n"),
        ("a.html", "<!-- t: for a translator --><p data-t>x</p><!-- kept -->", "<p data-t>x</p><!-- kept -->"),
        ("a.json", '{ "a": "// b" }', '{ "a": "// b" }'),
    ],
)
def test_comments_go_and_the_rest_stays(name: str, text: str, light: str) -> None:
    assert lighten(name, text) == light


@pytest.mark.parametrize("path", SCRIPTS, ids=[path.name for path in SCRIPTS])
def test_a_script_has_the_same_words(path: Path) -> None:
    text = path.read_text(encoding="utf-8")
    light = lighten(path.name, text)
    assert read_tokens(light) == read_tokens(text) != []
    assert not re.search(r"^\s*(//.*|/\*.*\*/)$", light, re.M)


@pytest.mark.parametrize("path", STYLES, ids=[path.name for path in STYLES])
def test_a_style_has_the_same_rules(path: Path) -> None:
    text = path.read_text(encoding="utf-8")
    assert "".join(lighten(path.name, text).split()) == drop_comments(text) != ""
    assert "/*" not in lighten(path.name, text)


@pytest.mark.parametrize("path", PAGES, ids=[str(path.relative_to(ROOT)) for path in PAGES])
def test_a_page_has_the_same_parts(path: Path) -> None:
    text = path.read_text(encoding="utf-8")
    light = lighten(path.name, text)
    parts = re.compile(r"<(?!!--)[^>]*>")
    assert parts.findall(light) == parts.findall(text) != [] and "<!-- t:" not in light


def test_a_folder_is_made_light(tmp_path: Path) -> None:
    """A link stays: what an office sets keeps the words that explain it."""
    (tmp_path / "deep").mkdir()
    (tmp_path / "deep/a.js").write_text("// why\nf();\n", encoding="utf-8")
    (tmp_path / "set.txt").write_text("// an office's own\n", encoding="utf-8")
    (tmp_path / "config.js").symlink_to(tmp_path / "set.txt")
    lighten_all(tmp_path)
    assert (tmp_path / "deep/a.js").read_text(encoding="utf-8") == "f();\n"
    assert (tmp_path / "config.js").read_text(encoding="utf-8") == "// an office's own\n"
